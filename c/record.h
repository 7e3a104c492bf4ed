/* The record of a host's calls (gofnjerta_record): its form, which gofnjerta.c writes and replay.c reads. A host is a function of its
 * calls, so the same calls on a fresh host give the same datagrams and events.
 *
 * Numbers are little-endian. A record begins with the 8 bytes "gofnjrec", the number of this form (4 bytes) and the version of the library
 * (4). Then there is an entry for each call that changed the host, in their order:
 * - its kind (1 byte, below) and the numbers of that kind: those that were passed, and those that came out;
 * - of RECORD_BROADCAST and RECORD_BROADCAST_EACH the names (slot 2, generation 4);
 * - of a kind with a length, so many bytes;
 * - the hash of all bytes of the record before it (8).
 * A hash is FNV-1a of 64 bits. A call that was refused changes nothing and has no entry, except for gofnjerta_broadcast. Calls that read have none,
 * except for RECORD_BODY, which shows the bytes of a packet that came. */
#ifndef GOFNJERTA_RECORD_H
#define GOFNJERTA_RECORD_H
#include "gofnjerta.h"
#include <string.h>

#define RECORD_MAGIC "gofnjrec"
enum { RECORD_FORM = 1, RECORD_HEAD = 16, RECORD_LONGEST = 64 };

/* The kinds, each with its name and how many bytes its numbers have. A peer is slot 2, generation 4; an address ip 4, port 2. */
#define RECORD_KINDS(KIND) \
    KIND(OPEN, "open", 31)                        /* peers 2, channels 1, then 4 each: the other settings */ \
    KIND(CLOSE, "close", 0) \
    KIND(CONNECT, "connect", 21)                  /* address, channels 1, info 4, word 4; peer */ \
    KIND(SUBMIT, "submit", 16)                    /* peer, channel 1, flags 1, length 8, then the bytes */ \
    KIND(STAGE, "stage", 8)                       /* length 8, then the bytes */ \
    KIND(SUBMIT_STAGED, "submit_staged", 14)      /* peer, channel 4, flags 4 */ \
    KIND(BROADCAST, "broadcast", 22)              /* count 8, channel 1, flags 1; the answer 4; length 8, then the names and the bytes */ \
    KIND(RECEIVE, "receive", 22)                  /* address; handled 4, stop 4; length 8, then the bytes */ \
    KIND(SERVICE, "service", 24)                  /* length 4, address, peer, the hash of the datagram 8 */ \
    KIND(TICK, "tick", 4)                         /* ms 4 */ \
    KIND(NEXT_EVENT, "next_event", 24)            /* kind 4, info 4, peer, channel 1, flags 1, length 8 */ \
    KIND(BODY, "body", 16)                        /* length 8, the hash of the bytes 8 */ \
    KIND(DISCONNECT, "disconnect", 10)            /* peer, info 4 */ \
    KIND(DISCONNECT_NOW, "disconnect_now", 10) \
    KIND(DISCONNECT_LATER, "disconnect_later", 10) \
    KIND(SET_BANDWIDTH, "set_bandwidth", 8)       /* incoming 4, outgoing 4 */ \
    KIND(SET_SECRET, "set_secret", 32) \
    KIND(GIVE_WAY, "give_way", 0) \
    KIND(SET_MOST, "set_most", 4)                 /* peers 4 */ \
    KIND(SET_SEND_LIMIT, "set_send_limit", 16)    /* bytes 8, commands 8 */ \
    KIND(THROTTLE_CONFIGURE, "throttle_configure", 18) /* peer, interval 4, acceleration 4, deceleration 4 */ \
    KIND(SET_PING_INTERVAL, "set_ping_interval", 10) /* peer, ms 4 */ \
    KIND(SET_TIMEOUT, "set_timeout", 18)          /* peer, limit 4, minimum 4, maximum 4 */ \
    KIND(BROADCAST_EACH, "broadcast_each", 26)    /* as BROADCAST, with the hash of the answers 8 in place of the answer */

/* The kinds by their numbers, from 1 on. */
#define RECORD_NUMBER(kind, name, bytes) RECORD_##kind,
enum { RECORD_NOTHING, RECORD_KINDS(RECORD_NUMBER) RECORD_COUNT };

/* The hash of bytes behind others whose hash it was; of none it is RECORD_EMPTY. */
#define RECORD_EMPTY 0xCBF29CE484222325u

static inline uint64_t record_hash(uint64_t hash, const void *bytes, size_t length) {
    const uint8_t *at = bytes;
    for (size_t i = 0; i < length; i++) hash = (hash ^ at[i]) * 0x100000001B3u;
    return hash;
}

/* The hash of numbers of 4 bytes. */
static inline uint64_t record_hash_words(const uint32_t *words, size_t count) {
    uint64_t hash = RECORD_EMPTY;
    for (size_t i = 0; i < count; i++) {
        const uint8_t bytes[] = {(uint8_t)words[i], (uint8_t)(words[i] >> 8), (uint8_t)(words[i] >> 16), (uint8_t)(words[i] >> 24)};
        hash = record_hash(hash, bytes, sizeof bytes);
    }
    return hash;
}

/* The numbers of an entry, one behind another. */
typedef struct {
    size_t length;
    uint8_t bytes[RECORD_LONGEST];
} RecordNumbers;

static inline void record_put(RecordNumbers *numbers, size_t bytes, uint64_t number) {
    for (size_t i = 0; i < bytes; i++) numbers->bytes[numbers->length++] = (uint8_t)(number >> 8 * i);
}

static inline void record_put_peer(RecordNumbers *numbers, gofnjerta_peer peer) {
    record_put(numbers, 2, peer.slot);
    record_put(numbers, 4, peer.generation);
}

static inline void record_put_address(RecordNumbers *numbers, gofnjerta_address address) {
    record_put(numbers, 4, address.ip);
    record_put(numbers, 2, address.port);
}

static inline void record_put_event(RecordNumbers *numbers, const gofnjerta_event *event) {
    record_put(numbers, 4, event->kind);
    record_put(numbers, 4, event->info);
    record_put_peer(numbers, event->peer);
    record_put(numbers, 1, event->channel);
    record_put(numbers, 1, event->flags);
    record_put(numbers, 8, event->length);
}

static inline void record_put_datagram(RecordNumbers *numbers, const gofnjerta_datagram *datagram, const void *bytes) {
    record_put(numbers, 4, datagram->length);
    record_put_address(numbers, datagram->to);
    record_put_peer(numbers, datagram->peer);
    record_put(numbers, 8, record_hash(RECORD_EMPTY, bytes, datagram->length));
}

#endif
