/* What stands between C and the proved functions: pointers and lengths are tested, names are values, and calls are recorded. */
#include "core.h"
#include "record.h"
#include <stdlib.h>

/* The names of the numbers from 0 on that the proved functions know, which a test compares with theirs. */
static const char *const errors[] = {
    "OK", "E1 Memory", "E2 NoSuchPeer", "E3 NotConnected", "E4 NoSuchChannel", "E5 TooLarge", "E6 WindowEnd", "E7 NoSlot",
    "E8 BadConfig", "E9 Full", "E10 SeatSpent", "E11 Late", "E12 Earlier", "E13 NoSuchDatagram", "E14 WireFault", "E15 BadScript",
    "E16 StillHeld", "E17 NoSuchHost",
};
static const char *const border[] = {"Closed", "Open", "Short", "Unstaged", "Untold", "Null"};
static const char *const stops[] = {
    "none", "S1 Short", "S2 Compressed", "S3 UnknownPeer", "S4 WrongAddress", "S5 WrongSession", "S6 BadCommand", "S7 NotConnected",
    "S8 BadChannel", "S9 BadFragment", "S10 Waiting", "S11 Memory", "S12 NoSentTime", "S13 NoSlot",
};

#define COUNT(names) (sizeof(names) / sizeof(names)[0])

uint32_t gofnjerta_version(void) {
    return GOFNJERTA_VERSION;
}

const char *gofnjerta_error_name(uint32_t number) {
    if (number < COUNT(errors)) return errors[number];
    if (number >= GOFNJERTA_CLOSED && number - GOFNJERTA_CLOSED < COUNT(border)) return border[number - GOFNJERTA_CLOSED];
    return "?";
}

const char *gofnjerta_stop_name(uint32_t stop) {
    return stop < COUNT(stops) ? stops[stop] : "?";
}

/* The bytes at a pointer that may be NULL where there are none. */
static const void *bytes_at(const void *bytes, size_t length) {
    static const uint8_t none;
    return bytes || length ? bytes : &none;
}

/* What a recorded host's handle points to. Such a handle isn't open by itself, so that no call takes this for what the proved functions
 * left there. */
typedef struct {
    gofnjerta_host host;
    gofnjerta_writer write;
    void *context;
    uint64_t hash; /* of what was written */
    uint64_t told; /* bytes of the packet that was told last */
    bool has_ended; /* the writer has */
} Recorder;

static inline bool is_recorded(const gofnjerta_host *host) { return __builtin_expect(!host->is_open && host->at, false); }

/* The handle that the proved functions know. */
static inline gofnjerta_host *core_of(gofnjerta_host *host) { return is_recorded(host) ? &((Recorder *)host->at)->host : host; }

__attribute__((cold)) static void write_bytes(Recorder *recorder, const void *bytes, size_t length) {
    if (recorder->has_ended || length == 0) return;
    recorder->hash = record_hash(recorder->hash, bytes, length);
    recorder->has_ended = recorder->write(recorder->context, bytes, length) != 0;
}

/* An entry begins with its numbers, and ends with the hash of all before it. */
__attribute__((cold)) static void begin_entry(Recorder *recorder, uint8_t kind, const RecordNumbers *numbers) {
    RecordNumbers all = {0};
    record_put(&all, 1, kind);
    memcpy(all.bytes + 1, numbers->bytes, numbers->length);
    write_bytes(recorder, all.bytes, 1 + numbers->length);
}

__attribute__((cold)) static void end_entry(Recorder *recorder) {
    RecordNumbers hash = {0};
    record_put(&hash, 8, recorder->hash);
    write_bytes(recorder, hash.bytes, hash.length);
}

__attribute__((cold)) static void note(gofnjerta_host *host, uint8_t kind, const RecordNumbers *numbers, const void *bytes, size_t length) {
    Recorder *recorder = host->at;
    begin_entry(recorder, kind, numbers);
    write_bytes(recorder, bytes, length);
    end_entry(recorder);
}

__attribute__((cold, noinline))
static void note_words(gofnjerta_host *host, uint8_t kind, const gofnjerta_peer *peer, const uint32_t *words, size_t count) {
    RecordNumbers numbers = {0};
    if (peer) record_put_peer(&numbers, *peer);
    for (size_t i = 0; i < count; i++) record_put(&numbers, 4, words[i]);
    note(host, kind, &numbers, NULL, 0);
}

/* Whether a call with this answer has an entry. */
static inline bool is_noted(const gofnjerta_host *host, uint32_t number) { return number == GOFNJERTA_OK && is_recorded(host); }

/* The answer of a call, once that is noted: with its peer, if it has one, and numbers of 4 bytes. */
static inline uint32_t noted(gofnjerta_host *host, uint32_t number, uint8_t kind, const gofnjerta_peer *peer, const uint32_t *words,
                             size_t count) {
    if (is_noted(host, number)) note_words(host, kind, peer, words, count);
    return number;
}

#define WORDS(...) (const uint32_t[]){__VA_ARGS__}, sizeof((const uint32_t[]){__VA_ARGS__}) / sizeof(uint32_t)

gofnjerta_config gofnjerta_standard(uint16_t peers, uint8_t channels) {
    gofnjerta_config config = {0};
    gofnjerta_core_standard(peers, channels, &config);
    return config;
}

uint32_t gofnjerta_open(gofnjerta_host *host, const gofnjerta_config *config) {
    if (!host || !config) return GOFNJERTA_NULL;
    return gofnjerta_core_open(core_of(host), config);
}

/* A record begins: what it is, and the settings. */
static void begin_record(Recorder *recorder, const gofnjerta_config *config) {
    RecordNumbers head = {0}, numbers = {0};
    memcpy(head.bytes, RECORD_MAGIC, head.length = sizeof RECORD_MAGIC - 1);
    record_put(&head, 4, RECORD_FORM);
    record_put(&head, 4, GOFNJERTA_VERSION);
    write_bytes(recorder, head.bytes, head.length);
    record_put(&numbers, 2, config->peers);
    record_put(&numbers, 1, config->channels);
    const uint32_t rest[] = {config->mtu, config->incoming, config->outgoing, config->max_packet, config->max_waiting, config->generations,
                             config->clock};
    for (size_t i = 0; i < COUNT(rest); i++) record_put(&numbers, 4, rest[i]);
    begin_entry(recorder, RECORD_OPEN, &numbers);
    end_entry(recorder);
}

uint32_t gofnjerta_record(gofnjerta_host *host, const gofnjerta_config *config, gofnjerta_writer write, void *context) {
    if (!host || !config || !write) return GOFNJERTA_NULL;
    if (host->is_open || is_recorded(host)) return GOFNJERTA_OPEN;
    Recorder *recorder = malloc(sizeof *recorder);
    if (!recorder) return GOFNJERTA_MEMORY;
    *recorder = (Recorder){.write = write, .context = context, .hash = RECORD_EMPTY};
    uint32_t number = gofnjerta_core_open(&recorder->host, config);
    if (number != GOFNJERTA_OK) {
        free(recorder);
        return number;
    }
    begin_record(recorder, config);
    host->at = recorder;
    return GOFNJERTA_OK;
}

uint32_t gofnjerta_close(gofnjerta_host *host) {
    if (!host) return GOFNJERTA_NULL;
    gofnjerta_core_close(core_of(host));
    if (is_recorded(host)) {
        note_words(host, RECORD_CLOSE, NULL, NULL, 0);
        free(host->at);
        host->at = NULL;
    }
    return GOFNJERTA_OK;
}

uint32_t gofnjerta_connect(gofnjerta_host *host, gofnjerta_address to, uint8_t channels, uint32_t info, uint32_t word, gofnjerta_peer *peer) {
    if (!host || !peer) return GOFNJERTA_NULL;
    uint32_t number = gofnjerta_core_connect(core_of(host), &to, channels, info, word, peer);
    if (is_noted(host, number)) {
        RecordNumbers numbers = {0};
        record_put_address(&numbers, to);
        record_put(&numbers, 1, channels);
        record_put(&numbers, 4, info);
        record_put(&numbers, 4, word);
        record_put_peer(&numbers, *peer);
        note(host, RECORD_CONNECT, &numbers, NULL, 0);
    }
    return number;
}

uint32_t gofnjerta_submit(gofnjerta_host *host, gofnjerta_peer peer, uint8_t channel, uint8_t flags, const void *body, size_t length) {
    body = bytes_at(body, length);
    if (!host || !body) return GOFNJERTA_NULL;
    if (length > PTRDIFF_MAX) return GOFNJERTA_TOO_LARGE;
    uint32_t number = gofnjerta_core_submit(core_of(host), &peer, channel, flags, body, length);
    if (is_noted(host, number)) {
        RecordNumbers numbers = {0};
        record_put_peer(&numbers, peer);
        record_put(&numbers, 1, channel);
        record_put(&numbers, 1, flags);
        record_put(&numbers, 8, length);
        note(host, RECORD_SUBMIT, &numbers, body, length);
    }
    return number;
}

uint32_t gofnjerta_stage(gofnjerta_host *host, const void *body, size_t length) {
    body = bytes_at(body, length);
    if (!host || !body) return GOFNJERTA_NULL;
    if (length > GOFNJERTA_MAX_PACKET) return GOFNJERTA_TOO_LARGE;
    uint32_t number = gofnjerta_core_stage(core_of(host), body, length);
    if (is_noted(host, number)) {
        RecordNumbers numbers = {0};
        record_put(&numbers, 8, length);
        note(host, RECORD_STAGE, &numbers, body, length);
    }
    return number;
}

uint32_t gofnjerta_submit_staged(gofnjerta_host *host, gofnjerta_peer peer, uint8_t channel, uint8_t flags) {
    if (!host) return GOFNJERTA_NULL;
    uint32_t number = gofnjerta_core_submit_staged(core_of(host), &peer, channel, flags);
    return noted(host, number, RECORD_SUBMIT_STAGED, &peer, WORDS(channel, flags));
}

/* A packet to several peers. */
typedef struct {
    const gofnjerta_peer *peers;
    size_t count;
    uint8_t channel, flags;
    const void *body;
    size_t length;
} Broadcast;

/* What refuses a broadcast before the proved functions see it: 0 if nothing does. Its pointers aren't NULL then. */
static uint32_t checked(Broadcast *packet) {
    static const gofnjerta_peer nobody;
    if (packet->count == 0 && !packet->peers) packet->peers = &nobody;
    packet->body = bytes_at(packet->body, packet->length);
    if (!packet->peers || !packet->body) return GOFNJERTA_NULL;
    if (packet->length > GOFNJERTA_MAX_PACKET || packet->count > PTRDIFF_MAX / sizeof *packet->peers) return GOFNJERTA_TOO_LARGE;
    return GOFNJERTA_OK;
}

/* The entry of a broadcast, with what was answered as so many bytes. */
__attribute__((cold, noinline))
static void note_broadcast(Recorder *recorder, uint8_t kind, const Broadcast *packet, size_t bytes, uint64_t answer) {
    RecordNumbers numbers = {0};
    record_put(&numbers, 8, packet->count);
    record_put(&numbers, 1, packet->channel);
    record_put(&numbers, 1, packet->flags);
    record_put(&numbers, bytes, answer);
    record_put(&numbers, 8, packet->length);
    begin_entry(recorder, kind, &numbers);
    for (size_t i = 0; i < packet->count; i++) {
        numbers.length = 0;
        record_put_peer(&numbers, packet->peers[i]);
        write_bytes(recorder, numbers.bytes, numbers.length);
    }
    write_bytes(recorder, packet->body, packet->length);
    end_entry(recorder);
}

uint32_t gofnjerta_broadcast(gofnjerta_host *host, const gofnjerta_peer *peers, size_t count, uint8_t channel, uint8_t flags,
                             const void *body, size_t length) {
    Broadcast packet = {peers, count, channel, flags, body, length};
    if (!host) return GOFNJERTA_NULL;
    uint32_t number = checked(&packet);
    if (number != GOFNJERTA_OK) return number;
    number = gofnjerta_core_broadcast(core_of(host), packet.peers, count, channel, flags, packet.body, length);
    if (is_recorded(host)) note_broadcast(host->at, RECORD_BROADCAST, &packet, 4, number);
    return number;
}

uint32_t gofnjerta_broadcast_each(gofnjerta_host *host, const gofnjerta_peer *peers, size_t count, uint8_t channel, uint8_t flags,
                                  const void *body, size_t length, uint32_t *answers) {
    static uint32_t none;
    Broadcast packet = {peers, count, channel, flags, body, length};
    if (!answers && count == 0) answers = &none;
    if (!host || !answers) return GOFNJERTA_NULL;
    uint32_t number = checked(&packet);
    if (number != GOFNJERTA_OK) return number;
    number = gofnjerta_core_broadcast_each(core_of(host), packet.peers, count, channel, flags, packet.body, length, answers, count);
    if (is_noted(host, number)) note_broadcast(host->at, RECORD_BROADCAST_EACH, &packet, 8, record_hash_words(answers, count));
    return number;
}

uint32_t gofnjerta_receive(gofnjerta_host *host, gofnjerta_address from, const void *datagram, size_t length, gofnjerta_received *received) {
    datagram = bytes_at(datagram, length);
    if (!host || !datagram) return GOFNJERTA_NULL;
    if (length > PTRDIFF_MAX) return GOFNJERTA_TOO_LARGE;
    gofnjerta_received answer = gofnjerta_core_receive(core_of(host), &from, datagram, length);
    if (is_noted(host, answer.status)) {
        RecordNumbers numbers = {0};
        record_put_address(&numbers, from);
        record_put(&numbers, 4, answer.handled);
        record_put(&numbers, 4, answer.stop);
        record_put(&numbers, 8, length);
        note(host, RECORD_RECEIVE, &numbers, datagram, length);
    }
    if (received && answer.status == GOFNJERTA_OK) *received = answer;
    return answer.status;
}

uint32_t gofnjerta_service(gofnjerta_host *host, void *buffer, size_t room, gofnjerta_datagram *datagram) {
    if (datagram) memset(datagram, 0, sizeof *datagram);
    if (!host || !buffer || !datagram) return GOFNJERTA_NULL;
    uint32_t number = gofnjerta_core_service(core_of(host), buffer, room < GOFNJERTA_ROOM ? room : GOFNJERTA_ROOM, datagram);
    if (is_noted(host, number)) {
        RecordNumbers numbers = {0};
        record_put_datagram(&numbers, datagram, buffer);
        note(host, RECORD_SERVICE, &numbers, NULL, 0);
    }
    return number;
}

uint32_t gofnjerta_tick(gofnjerta_host *host, uint32_t ms) {
    if (!host) return GOFNJERTA_NULL;
    return noted(host, gofnjerta_core_tick(core_of(host), ms), RECORD_TICK, NULL, WORDS(ms));
}

uint32_t gofnjerta_next_event(gofnjerta_host *host, gofnjerta_event *event) {
    if (event) memset(event, 0, sizeof *event);
    if (!host || !event) return GOFNJERTA_NULL;
    uint32_t number = gofnjerta_core_next_event(core_of(host), event);
    if (is_noted(host, number)) {
        RecordNumbers numbers = {0};
        record_put_event(&numbers, event);
        note(host, RECORD_NEXT_EVENT, &numbers, NULL, 0);
        ((Recorder *)host->at)->told = event->length;
    }
    return number;
}

uint32_t gofnjerta_body(gofnjerta_host *host, void *buffer, size_t room) {
    static uint8_t none;
    if (!buffer && room == 0) buffer = &none;
    if (!host || !buffer) return GOFNJERTA_NULL;
    uint32_t number = gofnjerta_core_body(core_of(host), buffer, room < GOFNJERTA_MAX_PACKET ? room : GOFNJERTA_MAX_PACKET);
    if (is_noted(host, number)) {
        uint64_t told = ((Recorder *)host->at)->told;
        RecordNumbers numbers = {0};
        record_put(&numbers, 8, told);
        record_put(&numbers, 8, record_hash(RECORD_EMPTY, buffer, told));
        note(host, RECORD_BODY, &numbers, NULL, 0);
    }
    return number;
}

uint32_t gofnjerta_disconnect(gofnjerta_host *host, gofnjerta_peer peer, uint32_t info) {
    if (!host) return GOFNJERTA_NULL;
    uint32_t number = gofnjerta_core_disconnect(core_of(host), &peer, info);
    return noted(host, number, RECORD_DISCONNECT, &peer, WORDS(info));
}

uint32_t gofnjerta_disconnect_now(gofnjerta_host *host, gofnjerta_peer peer, uint32_t info) {
    if (!host) return GOFNJERTA_NULL;
    uint32_t number = gofnjerta_core_disconnect_now(core_of(host), &peer, info);
    return noted(host, number, RECORD_DISCONNECT_NOW, &peer, WORDS(info));
}

uint32_t gofnjerta_disconnect_later(gofnjerta_host *host, gofnjerta_peer peer, uint32_t info) {
    if (!host) return GOFNJERTA_NULL;
    uint32_t number = gofnjerta_core_disconnect_later(core_of(host), &peer, info);
    return noted(host, number, RECORD_DISCONNECT_LATER, &peer, WORDS(info));
}

uint32_t gofnjerta_set_bandwidth(gofnjerta_host *host, uint32_t incoming, uint32_t outgoing) {
    if (!host) return GOFNJERTA_NULL;
    uint32_t number = gofnjerta_core_set_bandwidth(core_of(host), incoming, outgoing);
    return noted(host, number, RECORD_SET_BANDWIDTH, NULL, WORDS(incoming, outgoing));
}

uint32_t gofnjerta_give_way(gofnjerta_host *host) {
    if (!host) return GOFNJERTA_NULL;
    return noted(host, gofnjerta_core_give_way(core_of(host)), RECORD_GIVE_WAY, NULL, NULL, 0);
}

uint32_t gofnjerta_set_most(gofnjerta_host *host, uint16_t peers) {
    if (!host) return GOFNJERTA_NULL;
    return noted(host, gofnjerta_core_set_most(core_of(host), peers), RECORD_SET_MOST, NULL, WORDS(peers));
}

uint32_t gofnjerta_set_send_limit(gofnjerta_host *host, uint64_t bytes, uint64_t commands) {
    if (!host) return GOFNJERTA_NULL;
    uint32_t number = gofnjerta_core_set_send_limit(core_of(host), bytes, commands);
    return noted(host, number, RECORD_SET_SEND_LIMIT, NULL,
                 WORDS((uint32_t)bytes, (uint32_t)(bytes >> 32), (uint32_t)commands, (uint32_t)(commands >> 32)));
}

uint32_t gofnjerta_set_secret(gofnjerta_host *host, const uint8_t key[32]) {
    if (!host || !key) return GOFNJERTA_NULL;
    uint32_t number = gofnjerta_core_set_secret(core_of(host), key);
    if (is_noted(host, number)) note(host, RECORD_SET_SECRET, &(RecordNumbers){0}, key, 32);
    return number;
}

uint32_t gofnjerta_throttle_configure(gofnjerta_host *host, gofnjerta_peer peer, uint32_t interval, uint32_t acceleration, uint32_t deceleration) {
    if (!host) return GOFNJERTA_NULL;
    uint32_t number = gofnjerta_core_throttle_configure(core_of(host), &peer, interval, acceleration, deceleration);
    return noted(host, number, RECORD_THROTTLE_CONFIGURE, &peer, WORDS(interval, acceleration, deceleration));
}

uint32_t gofnjerta_set_ping_interval(gofnjerta_host *host, gofnjerta_peer peer, uint32_t ms) {
    if (!host) return GOFNJERTA_NULL;
    uint32_t number = gofnjerta_core_set_ping_interval(core_of(host), &peer, ms);
    return noted(host, number, RECORD_SET_PING_INTERVAL, &peer, WORDS(ms));
}

uint32_t gofnjerta_set_timeout(gofnjerta_host *host, gofnjerta_peer peer, uint32_t limit, uint32_t minimum, uint32_t maximum) {
    if (!host) return GOFNJERTA_NULL;
    uint32_t number = gofnjerta_core_set_timeout(core_of(host), &peer, limit, minimum, maximum);
    return noted(host, number, RECORD_SET_TIMEOUT, &peer, WORDS(limit, minimum, maximum));
}

uint32_t gofnjerta_read_peer(gofnjerta_host *host, gofnjerta_peer peer, gofnjerta_reading *reading) {
    if (!host || !reading) return GOFNJERTA_NULL;
    return gofnjerta_core_peer(core_of(host), &peer, reading);
}

uint32_t gofnjerta_read_line(gofnjerta_host *host, gofnjerta_peer peer, gofnjerta_line *line) {
    if (!host || !line) return GOFNJERTA_NULL;
    return gofnjerta_core_line(core_of(host), &peer, line);
}

uint32_t gofnjerta_read_traffic(gofnjerta_host *host, gofnjerta_peer peer, gofnjerta_traffic *traffic) {
    if (!host || !traffic) return GOFNJERTA_NULL;
    return gofnjerta_core_traffic(core_of(host), &peer, traffic);
}

uint32_t gofnjerta_ending(gofnjerta_host *host, gofnjerta_peer peer, uint32_t *why) {
    if (!host || !why) return GOFNJERTA_NULL;
    return gofnjerta_core_ending(core_of(host), &peer, why);
}

uint32_t gofnjerta_read_allowance(gofnjerta_host *host, gofnjerta_peer peer, uint32_t *bytes) {
    if (!host || !bytes) return GOFNJERTA_NULL;
    return gofnjerta_core_allowance(core_of(host), &peer, bytes);
}

uint32_t gofnjerta_read_totals(gofnjerta_host *host, gofnjerta_totals *totals) {
    if (!host || !totals) return GOFNJERTA_NULL;
    return gofnjerta_core_totals_of(core_of(host), totals);
}

uint32_t gofnjerta_read_held(gofnjerta_host *host, gofnjerta_held *held) {
    if (!host || !held) return GOFNJERTA_NULL;
    return gofnjerta_core_held(core_of(host), held);
}

uint32_t gofnjerta_read_slots(gofnjerta_host *host, gofnjerta_slots *slots) {
    if (!host || !slots) return GOFNJERTA_NULL;
    return gofnjerta_core_slots(core_of(host), slots);
}

uint32_t gofnjerta_read_sent_again(gofnjerta_host *host, uint64_t *commands) {
    if (!host || !commands) return GOFNJERTA_NULL;
    return gofnjerta_core_sent_again(core_of(host), commands);
}

uint32_t gofnjerta_due_in(gofnjerta_host *host, uint32_t *ms) {
    if (!host || !ms) return GOFNJERTA_NULL;
    return gofnjerta_core_due_in(core_of(host), ms);
}
