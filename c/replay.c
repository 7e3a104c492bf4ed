/* `gofnjerta_replay FILE`: makes the calls of a record (gofnjerta_record; its form is in record.h) on a fresh host, and compares what comes
 * out. The status is 0 if all of it is the same. It is 1, and an entry is named, if another datagram, event or answer comes, or if the file
 * was changed or is cut; 2 if there is no such file, or no memory. The file may come from anybody: beside its host this program takes some
 * times the memory that the file has bytes, at most. */
#include "record.h"
#include <inttypes.h>
#include <stdio.h>
#include <stdlib.h>

typedef struct {
    FILE *from;
    const char *name;
    uint64_t entry;             /* that is read, from 1 on */
    uint64_t hash;              /* of what was read */
    uint64_t clock;             /* milliseconds from the opening on */
    uint64_t datagrams, events; /* that came out */
    uint64_t told;              /* bytes of the packet that the last event told */
    uint32_t version;           /* of the library that recorded */
    gofnjerta_host host;
    uint8_t *room; /* of the bytes that an entry has, and of packets */
    size_t size;
} Replay;

/* What an entry has: the numbers from `at` on are to be taken. */
typedef struct {
    uint8_t kind;
    RecordNumbers numbers;
    size_t at;
} Entry;

static const char *const names[] = {
#define RECORD_NAME(kind, name, bytes) [RECORD_##kind] = name,
    RECORD_KINDS(RECORD_NAME)};

static const size_t sizes[] = {
#define RECORD_SIZE(kind, name, bytes) [RECORD_##kind] = (bytes),
    RECORD_KINDS(RECORD_SIZE)};

#define SIZE_FITS(kind, name, bytes) _Static_assert((bytes) < RECORD_LONGEST, name);
RECORD_KINDS(SIZE_FITS)

static const char CHANGED[] = "the file was changed";

/* Says what is wrong with the entry. */
static bool fails(const Replay *replay, const char *what) {
    printf("%s: entry %" PRIu64 " at %" PRIu64 " ms: %s\n", replay->name, replay->entry, replay->clock, what);
    return false;
}

static bool read_bytes(Replay *replay, void *bytes, size_t length) {
    if (fread(bytes, 1, length, replay->from) != length) return fails(replay, "the file is cut");
    replay->hash = record_hash(replay->hash, bytes, length);
    return true;
}

/* Room for so many bytes. */
static void make_room(Replay *replay, size_t size) {
    if (size <= replay->size) return;
    uint8_t *room = realloc(replay->room, size);
    if (!room) {
        fprintf(stderr, "%s: no memory\n", replay->name);
        exit(2);
    }
    replay->room = room;
    replay->size = size;
}

/* Reads so many bytes into the room from `begin` on. They are read before there is room for more, so that a length that is none takes no
 * memory. */
static bool read_into_room(Replay *replay, size_t begin, uint64_t length) {
    size_t there = begin;
    if (length > PTRDIFF_MAX / 4) return fails(replay, CHANGED);
    for (size_t left = length; left > 0;) {
        size_t piece = left < there + 65536 ? left : there + 65536;
        make_room(replay, there + piece);
        if (!read_bytes(replay, replay->room + there, piece)) return false;
        there += piece;
        left -= piece;
    }
    return true;
}

static uint64_t take(Entry *entry, size_t bytes) {
    uint64_t number = 0;
    for (size_t i = 0; i < bytes; i++) number |= (uint64_t)entry->numbers.bytes[entry->at++] << 8 * i;
    return number;
}

static uint32_t take_word(Entry *entry) { return (uint32_t)take(entry, 4); }

static gofnjerta_peer take_peer(Entry *entry) {
    gofnjerta_peer peer = {.slot = (uint16_t)take(entry, 2)};
    peer.generation = take_word(entry);
    return peer;
}

static gofnjerta_address take_address(Entry *entry) {
    gofnjerta_address address = {.ip = take_word(entry)};
    address.port = (uint16_t)take(entry, 2);
    return address;
}

/* How many bytes of the entry's numbers come before its results; they are all of them but for these. */
static size_t passed_of(uint8_t kind) {
    switch (kind) {
    case RECORD_CONNECT: return 15;
    case RECORD_BROADCAST:
    case RECORD_BROADCAST_EACH: return 10;
    case RECORD_RECEIVE: return 6;
    case RECORD_SERVICE:
    case RECORD_NEXT_EVENT:
    case RECORD_BODY: return 0;
    default: return sizes[kind];
    }
}

/* Tells what came out of a call, by its entry. */
static void tell(const char *when, Entry entry) {
    entry.at = passed_of(entry.kind);
    printf("  %s: ", when);
    switch (entry.kind) {
    case RECORD_CONNECT: {
        gofnjerta_peer peer = take_peer(&entry);
        printf("peer %u.%" PRIu32 "\n", peer.slot, peer.generation);
        break;
    }
    case RECORD_BROADCAST: printf("%s\n", gofnjerta_error_name(take_word(&entry))); break;
    case RECORD_BROADCAST_EACH: printf("answers with the hash %016" PRIX64 "\n", take(&entry, 8)); break;
    case RECORD_RECEIVE: {
        uint32_t handled = take_word(&entry);
        printf("%" PRIu32 " commands taken, stop %s\n", handled, gofnjerta_stop_name(take_word(&entry)));
        break;
    }
    case RECORD_SERVICE: {
        uint32_t length = take_word(&entry);
        gofnjerta_address to = take_address(&entry);
        gofnjerta_peer peer = take_peer(&entry);
        printf("a datagram of %" PRIu32 " bytes to %08" PRIX32 ":%u, peer %u.%" PRIu32, length, to.ip, to.port, peer.slot, peer.generation);
        printf(", hash %016" PRIX64 "\n", take(&entry, 8));
        break;
    }
    case RECORD_NEXT_EVENT: {
        uint32_t kind = take_word(&entry), info = take_word(&entry);
        gofnjerta_peer peer = take_peer(&entry);
        unsigned channel = (unsigned)take(&entry, 1), flags = (unsigned)take(&entry, 1);
        printf("an event of kind %" PRIu32 ", info %" PRIu32 ", peer %u.%" PRIu32, kind, info, peer.slot, peer.generation);
        printf(", channel %u, flags %u, %" PRIu64 " bytes\n", channel, flags, take(&entry, 8));
        break;
    }
    case RECORD_BODY: {
        uint64_t length = take(&entry, 8);
        printf("%" PRIu64 " bytes, hash %016" PRIX64 "\n", length, take(&entry, 8));
        break;
    }
    default: printf("done\n");
    }
}

/* Compares what the entry has with what came out: `now` has results behind the numbers that were passed. */
static bool compare(const Replay *replay, const Entry *entry, const RecordNumbers *results) {
    size_t passed = passed_of(entry->kind);
    if (!memcmp(entry->numbers.bytes + passed, results->bytes, results->length)) return true;
    Entry now = *entry;
    memcpy(now.numbers.bytes + passed, results->bytes, results->length);
    char what[64];
    snprintf(what, sizeof what, "%s differs", names[entry->kind]);
    fails(replay, what);
    tell("recorded", *entry);
    tell("now", now);
    if (replay->version != gofnjerta_version())
        printf("  it was recorded by version %" PRIX32 ", and this is %" PRIX32 "\n", replay->version, gofnjerta_version());
    return false;
}

/* Whether a call that was done when it was recorded is done now. */
static bool done(const Replay *replay, const Entry *entry, uint32_t number) {
    char what[96];
    if (number == GOFNJERTA_OK) return true;
    snprintf(what, sizeof what, "%s was done, and is refused now: %s", names[entry->kind], gofnjerta_error_name(number));
    return fails(replay, what);
}

static bool play_open(Replay *replay, Entry *entry) {
    gofnjerta_config config = {.peers = (uint16_t)take(entry, 2)};
    config.channels = (uint8_t)take(entry, 1);
    uint32_t *const rest[] = {&config.mtu,         &config.incoming,    &config.outgoing, &config.max_packet,
                              &config.max_waiting, &config.generations, &config.clock};
    for (size_t i = 0; i < sizeof rest / sizeof rest[0]; i++) *rest[i] = take_word(entry);
    return done(replay, entry, gofnjerta_open(&replay->host, &config));
}

static bool play_connect(Replay *replay, Entry *entry) {
    gofnjerta_address to = take_address(entry);
    uint8_t channels = (uint8_t)take(entry, 1);
    uint32_t info = take_word(entry), word = take_word(entry);
    gofnjerta_peer peer = {0};
    RecordNumbers results = {0};
    if (!done(replay, entry, gofnjerta_connect(&replay->host, to, channels, info, word, &peer))) return false;
    record_put_peer(&results, peer);
    return compare(replay, entry, &results);
}

/* So many fields, all 0, of `size` bytes each, and one more. */
static void *make_list(const Replay *replay, uint64_t count, size_t size) {
    void *list = calloc(count + 1, size);
    if (!list) {
        fprintf(stderr, "%s: no memory\n", replay->name);
        exit(2);
    }
    return list;
}

static bool play_broadcast(Replay *replay, Entry *entry, uint64_t count, uint64_t length) {
    uint8_t channel = (uint8_t)(take(entry, 8), take(entry, 1)), flags = (uint8_t)take(entry, 1);
    const uint8_t *body = replay->room + 6 * count;
    gofnjerta_peer *peers = make_list(replay, count, sizeof *peers);
    uint32_t *answers = make_list(replay, count, sizeof *answers), number;
    RecordNumbers results = {0};
    for (size_t i = 0; i < count; i++) {
        Entry name = {0};
        memcpy(name.numbers.bytes, replay->room + 6 * i, 6);
        peers[i] = take_peer(&name);
    }
    if (entry->kind == RECORD_BROADCAST) {
        record_put(&results, 4, gofnjerta_broadcast(&replay->host, peers, count, channel, flags, body, length));
        number = GOFNJERTA_OK;
    } else {
        number = gofnjerta_broadcast_each(&replay->host, peers, count, channel, flags, body, length, answers);
        record_put(&results, 8, record_hash_words(answers, count));
    }
    free(peers);
    free(answers);
    return done(replay, entry, number) && compare(replay, entry, &results);
}

static bool play_receive(Replay *replay, Entry *entry, uint64_t length) {
    gofnjerta_received received = {0};
    gofnjerta_address from = take_address(entry);
    RecordNumbers results = {0};
    if (!done(replay, entry, gofnjerta_receive(&replay->host, from, replay->room, length, &received))) return false;
    record_put(&results, 4, received.handled);
    record_put(&results, 4, received.stop);
    return compare(replay, entry, &results);
}

static bool play_service(Replay *replay, Entry *entry) {
    gofnjerta_datagram datagram;
    RecordNumbers results = {0};
    make_room(replay, GOFNJERTA_ROOM);
    if (!done(replay, entry, gofnjerta_service(&replay->host, replay->room, GOFNJERTA_ROOM, &datagram))) return false;
    record_put_datagram(&results, &datagram, replay->room);
    replay->datagrams += datagram.length > 0;
    return compare(replay, entry, &results);
}

static bool play_next_event(Replay *replay, Entry *entry) {
    gofnjerta_event event;
    RecordNumbers results = {0};
    if (!done(replay, entry, gofnjerta_next_event(&replay->host, &event))) return false;
    record_put_event(&results, &event);
    replay->events += event.kind != GOFNJERTA_NONE;
    replay->told = event.length;
    return compare(replay, entry, &results);
}

/* The packet that the last event told. */
static bool play_body(Replay *replay, Entry *entry) {
    uint64_t length = take(entry, 8);
    RecordNumbers results = {0};
    if (length != replay->told) return fails(replay, CHANGED);
    make_room(replay, length);
    if (!done(replay, entry, gofnjerta_body(&replay->host, replay->room, length))) return false;
    record_put(&results, 8, length);
    record_put(&results, 8, record_hash(RECORD_EMPTY, replay->room, length));
    return compare(replay, entry, &results);
}

/* The calls with a peer that have no results. */
static uint32_t play_peer(Replay *replay, Entry *entry, uint64_t length) {
    gofnjerta_host *host = &replay->host;
    gofnjerta_peer peer = take_peer(entry);
    if (entry->kind == RECORD_SUBMIT) {
        uint8_t channel = (uint8_t)take(entry, 1), flags = (uint8_t)take(entry, 1);
        return gofnjerta_submit(host, peer, channel, flags, replay->room, length);
    }
    uint32_t words[3] = {0};
    for (size_t i = 0; i < 3 && entry->at < entry->numbers.length; i++) words[i] = take_word(entry);
    switch (entry->kind) {
    case RECORD_SUBMIT_STAGED: return gofnjerta_submit_staged(host, peer, (uint8_t)words[0], (uint8_t)words[1]);
    case RECORD_DISCONNECT: return gofnjerta_disconnect(host, peer, words[0]);
    case RECORD_DISCONNECT_NOW: return gofnjerta_disconnect_now(host, peer, words[0]);
    case RECORD_DISCONNECT_LATER: return gofnjerta_disconnect_later(host, peer, words[0]);
    case RECORD_THROTTLE_CONFIGURE: return gofnjerta_throttle_configure(host, peer, words[0], words[1], words[2]);
    case RECORD_SET_PING_INTERVAL: return gofnjerta_set_ping_interval(host, peer, words[0]);
    default: return gofnjerta_set_timeout(host, peer, words[0], words[1], words[2]);
    }
}

/* Makes the call of an entry whose bytes are in the room, and compares. */
static bool play(Replay *replay, Entry *entry, uint64_t count, uint64_t length) {
    gofnjerta_host *host = &replay->host;
    uint64_t bytes, ms;
    uint32_t incoming;
    switch (entry->kind) {
    case RECORD_OPEN: return play_open(replay, entry);
    case RECORD_CLOSE: return done(replay, entry, gofnjerta_close(host));
    case RECORD_CONNECT: return play_connect(replay, entry);
    case RECORD_STAGE: return done(replay, entry, gofnjerta_stage(host, replay->room, length));
    case RECORD_BROADCAST:
    case RECORD_BROADCAST_EACH: return play_broadcast(replay, entry, count, length);
    case RECORD_RECEIVE: return play_receive(replay, entry, length);
    case RECORD_SERVICE: return play_service(replay, entry);
    case RECORD_TICK:
        ms = take_word(entry);
        replay->clock += ms < 60000 ? ms : 60000;
        return done(replay, entry, gofnjerta_tick(host, (uint32_t)ms));
    case RECORD_NEXT_EVENT: return play_next_event(replay, entry);
    case RECORD_BODY: return play_body(replay, entry);
    case RECORD_SET_BANDWIDTH:
        incoming = take_word(entry);
        return done(replay, entry, gofnjerta_set_bandwidth(host, incoming, take_word(entry)));
    case RECORD_SET_SECRET: return done(replay, entry, gofnjerta_set_secret(host, entry->numbers.bytes));
    case RECORD_GIVE_WAY: return done(replay, entry, gofnjerta_give_way(host));
    case RECORD_SET_MOST: return done(replay, entry, gofnjerta_set_most(host, (uint16_t)take_word(entry)));
    case RECORD_SET_SEND_LIMIT:
        bytes = take(entry, 8);
        return done(replay, entry, gofnjerta_set_send_limit(host, bytes, take(entry, 8)));
    default: return done(replay, entry, play_peer(replay, entry, length));
    }
}

/* Whether an entry has names behind its numbers, of which the first is their count. */
static bool has_names(uint8_t kind) { return kind == RECORD_BROADCAST || kind == RECORD_BROADCAST_EACH; }

/* Whether an entry has bytes behind its numbers, of which the last is their length. */
static bool has_bytes(uint8_t kind) {
    return kind == RECORD_SUBMIT || kind == RECORD_STAGE || kind == RECORD_RECEIVE || has_names(kind);
}

/* A number of 8 bytes among an entry's numbers. */
static uint64_t long_at(const Entry *entry, size_t at) {
    Entry from = *entry;
    from.at = at;
    return take(&from, 8);
}

/* Reads what follows the kind of an entry, and plays it. */
static bool read_entry(Replay *replay, uint8_t kind) {
    Entry entry = {.kind = kind};
    uint64_t count = 0, length = 0, hash;
    if (kind == RECORD_NOTHING || kind >= RECORD_COUNT) return fails(replay, CHANGED);
    entry.numbers.length = sizes[kind];
    if (!read_bytes(replay, entry.numbers.bytes, sizes[kind])) return false;
    if (has_names(kind)) {
        count = long_at(&entry, 0);
        if (count > PTRDIFF_MAX / 64) return fails(replay, CHANGED);
    }
    if (has_bytes(kind)) length = long_at(&entry, sizes[kind] - 8);
    make_room(replay, 1);
    if (!read_into_room(replay, 0, 6 * count) || !read_into_room(replay, 6 * count, length)) return false;
    hash = replay->hash;
    Entry end = {0};
    if (!read_bytes(replay, end.numbers.bytes, 8)) return false;
    if (take(&end, 8) != hash) return fails(replay, CHANGED);
    if ((kind == RECORD_OPEN) != (replay->entry == 1)) return fails(replay, CHANGED);
    return play(replay, &entry, count, length);
}

static bool read_record(Replay *replay) {
    Entry head = {0};
    int kind;
    if (!read_bytes(replay, head.numbers.bytes, RECORD_HEAD)) return false;
    head.at = sizeof RECORD_MAGIC - 1;
    if (memcmp(head.numbers.bytes, RECORD_MAGIC, head.at) || take_word(&head) != RECORD_FORM)
        return fails(replay, "this is no record of this form");
    replay->version = take_word(&head);
    for (replay->entry = 1; (kind = getc(replay->from)) != EOF; replay->entry++) {
        uint8_t byte = (uint8_t)kind;
        replay->hash = record_hash(replay->hash, &byte, 1);
        if (!read_entry(replay, byte)) return false;
        if (byte == RECORD_CLOSE) {
            replay->entry++;
            return getc(replay->from) == EOF || fails(replay, CHANGED);
        }
    }
    return fails(replay, "the file is cut: the host wasn't closed");
}

int main(int argc, char **argv) {
    Replay replay = {.hash = RECORD_EMPTY};
    if (argc != 2 || argv[1][0] == '-') {
        fprintf(stderr, "usage: gofnjerta_replay FILE\n");
        return 2;
    }
    replay.name = argv[1];
    replay.from = fopen(argv[1], "rb");
    if (!replay.from) {
        perror(argv[1]);
        return 2;
    }
    bool is_same = read_record(&replay);
    if (is_same)
        printf("%s: %" PRIu64 " entries with %" PRIu64 " datagrams and %" PRIu64 " events, as they were recorded\n", replay.name,
               replay.entry - 1, replay.datagrams, replay.events);
    fclose(replay.from);
    gofnjerta_close(&replay.host);
    free(replay.room);
    return is_same ? 0 : 1;
}
