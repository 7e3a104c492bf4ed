/* The proved functions, as crates/enet_c exports them. No pointer may be NULL, also beside a length of 0: gofnjerta.c and enet/ see to that.
 * For the library's own C code alone. */
#ifndef GOFNJERTA_CORE_H
#define GOFNJERTA_CORE_H
#include "gofnjerta.h"

size_t gofnjerta_core_error_name(uint32_t number, char *name, size_t room);
size_t gofnjerta_core_stop_name(uint32_t number, char *name, size_t room);
void gofnjerta_core_standard(uint16_t peers, uint8_t channels, gofnjerta_config *config);
uint32_t gofnjerta_core_open(gofnjerta_host *host, const gofnjerta_config *config);
void gofnjerta_core_close(gofnjerta_host *host);
uint32_t gofnjerta_core_connect(gofnjerta_host *host, const gofnjerta_address *to, uint8_t channels, uint32_t info, uint32_t word,
                                gofnjerta_peer *peer);
uint32_t gofnjerta_core_submit(gofnjerta_host *host, const gofnjerta_peer *peer, uint8_t channel, uint8_t flags, const void *body, size_t length);
uint32_t gofnjerta_core_stage(gofnjerta_host *host, const void *body, size_t length);
uint32_t gofnjerta_core_submit_staged(gofnjerta_host *host, const gofnjerta_peer *peer, uint8_t channel, uint8_t flags);
uint32_t gofnjerta_core_broadcast(gofnjerta_host *host, const gofnjerta_peer *peers, size_t count, uint8_t channel, uint8_t flags,
                                  const void *body, size_t length);
uint32_t gofnjerta_core_broadcast_each(gofnjerta_host *host, const gofnjerta_peer *peers, size_t count, uint8_t channel, uint8_t flags,
                                       const void *body, size_t length, uint32_t *answers, size_t room);
gofnjerta_received gofnjerta_core_receive(gofnjerta_host *host, const gofnjerta_address *from, const void *datagram, size_t length);
uint32_t gofnjerta_core_service(gofnjerta_host *host, void *buffer, size_t room, gofnjerta_datagram *datagram);
uint32_t gofnjerta_core_tick(gofnjerta_host *host, uint32_t ms);
uint32_t gofnjerta_core_next_event(gofnjerta_host *host, gofnjerta_event *event);
uint32_t gofnjerta_core_body(gofnjerta_host *host, void *buffer, size_t room);
uint32_t gofnjerta_core_disconnect(gofnjerta_host *host, const gofnjerta_peer *peer, uint32_t info);
uint32_t gofnjerta_core_disconnect_now(gofnjerta_host *host, const gofnjerta_peer *peer, uint32_t info);
uint32_t gofnjerta_core_disconnect_later(gofnjerta_host *host, const gofnjerta_peer *peer, uint32_t info);
uint32_t gofnjerta_core_set_bandwidth(gofnjerta_host *host, uint32_t incoming, uint32_t outgoing);
uint32_t gofnjerta_core_give_way(gofnjerta_host *host);
uint32_t gofnjerta_core_set_most(gofnjerta_host *host, uint16_t peers);
uint32_t gofnjerta_core_set_send_limit(gofnjerta_host *host, uint64_t bytes, uint64_t commands);
uint32_t gofnjerta_core_set_secret(gofnjerta_host *host, const uint8_t *key);
uint32_t gofnjerta_core_throttle_configure(gofnjerta_host *host, const gofnjerta_peer *peer, uint32_t interval, uint32_t acceleration,
                                           uint32_t deceleration);
uint32_t gofnjerta_core_set_ping_interval(gofnjerta_host *host, const gofnjerta_peer *peer, uint32_t ms);
uint32_t gofnjerta_core_set_timeout(gofnjerta_host *host, const gofnjerta_peer *peer, uint32_t limit, uint32_t minimum, uint32_t maximum);
uint32_t gofnjerta_core_peer(gofnjerta_host *host, const gofnjerta_peer *peer, gofnjerta_reading *reading);
uint32_t gofnjerta_core_line(gofnjerta_host *host, const gofnjerta_peer *peer, gofnjerta_line *line);
uint32_t gofnjerta_core_traffic(gofnjerta_host *host, const gofnjerta_peer *peer, gofnjerta_traffic *traffic);
uint32_t gofnjerta_core_ending(gofnjerta_host *host, const gofnjerta_peer *peer, uint32_t *why);
uint32_t gofnjerta_core_allowance(gofnjerta_host *host, const gofnjerta_peer *peer, uint32_t *bytes);
uint32_t gofnjerta_core_totals_of(gofnjerta_host *host, gofnjerta_totals *totals);
uint32_t gofnjerta_core_held(gofnjerta_host *host, gofnjerta_held *held);
uint32_t gofnjerta_core_slots(gofnjerta_host *host, gofnjerta_slots *slots);
uint32_t gofnjerta_core_sent_again(gofnjerta_host *host, uint64_t *commands);
uint32_t gofnjerta_core_due_in(gofnjerta_host *host, uint32_t *ms);

/* A range coder's memory, of as many bytes as crates/enet_c says; only the proved code reads it. What is in it before a call doesn't matter. */
typedef struct {
    uint16_t words[41734 / 2];
} gofnjerta_coder;

size_t gofnjerta_core_compress(gofnjerta_coder *coder, const void *body, size_t length, void *out, size_t room);
size_t gofnjerta_core_decompress(gofnjerta_coder *coder, const void *code, size_t length, void *out, size_t room);

#endif
