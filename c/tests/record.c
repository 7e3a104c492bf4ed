/* The record of a host (gofnjerta_record), and the program that replays it (replay.c, which is part of this one): its bytes, worked by
 * hand; some thousand calls of two hosts over a bad line, which replay to the same; that changed bytes, cuts, and other datagrams, events
 * and answers are told; and that no file does harm. `record write FILE` leaves a record there, and `record fuzz SEED COUNT` plays so many
 * changed ones with right hashes. */
#include <stdarg.h>
#include <stdio.h>
#include <stdlib.h>

/* What replay.c says goes to `said`. */
static FILE *said;
static int say(const char *format, ...);
#define printf say
#define main replay_main
#include "../replay.c"
#undef main
#undef printf
#include "check.h"

static int say(const char *format, ...) {
    va_list words;
    va_start(words, format);
    int count = vfprintf(said, format, words);
    va_end(words);
    return count;
}

/* A record in memory; so many calls of the writer succeed. */
typedef struct {
    uint8_t *bytes;
    size_t length, room;
    long calls;
} Tape;

static int on_tape(void *context, const void *bytes, size_t length) {
    Tape *tape = context;
    if (tape->calls-- == 0) return 1;
    if (tape->length + length > tape->room) {
        tape->room = 2 * (tape->length + length);
        tape->bytes = realloc(tape->bytes, tape->room);
        if (!tape->bytes) exit(2);
    }
    memcpy(tape->bytes + tape->length, bytes, length);
    tape->length += length;
    return 0;
}

/* Plays bytes as a file; what it said is in `text`. */
static char text[4096];

static bool plays(const uint8_t *bytes, size_t length) {
    Replay replay = {.name = "tape", .hash = RECORD_EMPTY};
    static const uint8_t nothing;
    replay.from = length ? fmemopen((void *)(uintptr_t)bytes, length, "rb") : fmemopen((void *)(uintptr_t)&nothing, 1, "rb");
    if (!length) getc(replay.from);
    memset(text, 0, sizeof text);
    said = fmemopen(text, sizeof text, "w");
    bool is_same = read_record(&replay);
    fclose(said);
    fclose(replay.from);
    gofnjerta_close(&replay.host);
    free(replay.room);
    return is_same;
}

/* Whether it isn't the same, and says so at this entry. */
static bool fails_at(const uint8_t *bytes, size_t length, uint64_t entry) {
    char wanted[64];
    snprintf(wanted, sizeof wanted, "tape: entry %" PRIu64 " at ", entry);
    return !plays(bytes, length) && !strncmp(text, wanted, strlen(wanted));
}

static uint64_t dice_state = 0x9E3779B97F4A7C15u;

/* A number below n, by a generator of its own (xorshift). */
static uint32_t dice(uint32_t n) {
    dice_state ^= dice_state << 13;
    dice_state ^= dice_state >> 7;
    dice_state ^= dice_state << 17;
    return (uint32_t)((dice_state >> 33) % n);
}

/* The bytes of a short record: the settings, a tick of 10 ms, no datagram, and the end. The hashes are FNV-1a's, by another program. */
static void bytes(void) {
    static const uint8_t wanted[] = {
        'g', 'o', 'f', 'n', 'j', 'r', 'e', 'c', 1, 0, 0, 0, GOFNJERTA_VERSION_PATCH, GOFNJERTA_VERSION_MINOR, GOFNJERTA_VERSION_MAJOR, 0,
        /* open: 3 peers, 2 channels, mtu 1,392, two bandwidths, two limits of 33,554,432, 1,000,000 generations, clock */
        1, 3, 0, 2, 0x70, 5, 0, 0, 1, 2, 3, 4, 5, 6, 7, 8, 0, 0, 0, 2, 0, 0, 0, 2, 0x40, 0x42, 0x0F, 0, 9, 10, 11, 12,
        0x49, 0xA0, 0xF9, 0xAB, 0xD6, 0xF3, 0xE8, 0x46,
        10, 10, 0, 0, 0,
        0x87, 0xAF, 0x95, 0x1F, 0x7C, 0x16, 0x20, 0x29,
        9, 0, 0, 0, 0, 0, 0, 0, 0, 0, 0, 0, 0, 0, 0, 0, 0, 0x25, 0x23, 0x22, 0x84, 0xE4, 0x9C, 0xF2, 0xCB,
        0x46, 0x46, 0x79, 0x60, 0xD5, 0x23, 0x2B, 0x9A,
        2,
        0x9C, 0xA0, 0x70, 0xBB, 0xB1, 0x2C, 0xCB, 0x26,
    };
    Tape tape = {.calls = -1};
    gofnjerta_host host = {0};
    gofnjerta_config config = gofnjerta_standard(3, 2);
    gofnjerta_datagram gave;
    uint8_t buffer[GOFNJERTA_ROOM];
    config.incoming = 0x04030201, config.outgoing = 0x08070605, config.clock = 0x0C0B0A09;
    ANSWERS(GOFNJERTA_OK, gofnjerta_record(&host, &config, on_tape, &tape));
    ANSWERS(GOFNJERTA_OK, gofnjerta_tick(&host, 10));
    ANSWERS(GOFNJERTA_OK, gofnjerta_service(&host, buffer, sizeof buffer, &gave));
    ANSWERS(GOFNJERTA_OK, gofnjerta_close(&host));
    CHECK(tape.length == sizeof wanted && !memcmp(tape.bytes, wanted, sizeof wanted));
    CHECK(plays(tape.bytes, tape.length));
    CHECK(!strcmp(text, ""));
    for (size_t i = 0; i < tape.length; i++) {
        uint64_t entry = i < 16 + 40 ? i >= 16 : i < 56 + 13 ? 2 : i < 69 + 33 ? 3 : 4;
        tape.bytes[i] ^= 0x10;
        bool is_told = fails_at(tape.bytes, tape.length, entry) || (i >= 12 && i < 16 && fails_at(tape.bytes, tape.length, 1));
        CHECK(is_told);
        tape.bytes[i] ^= 0x10;
        CHECK(fails_at(tape.bytes, i, entry));
    }
    free(tape.bytes);
}

/* What a call with a handle answers before, while and after it is recorded; and that nothing is recorded of calls that change nothing. */
static void handles(void) {
    Tape tape = {.calls = -1};
    gofnjerta_host host = {0}, moved;
    gofnjerta_config config = gofnjerta_standard(3, 2), bad = gofnjerta_standard(0, 2);
    gofnjerta_peer peer;
    gofnjerta_slots slots;
    gofnjerta_totals totals;
    uint32_t ms = 0, why = 9;
    ANSWERS(GOFNJERTA_NULL, gofnjerta_record(NULL, &config, on_tape, &tape));
    ANSWERS(GOFNJERTA_NULL, gofnjerta_record(&host, NULL, on_tape, &tape));
    ANSWERS(GOFNJERTA_NULL, gofnjerta_record(&host, &config, NULL, &tape));
    ANSWERS(GOFNJERTA_BAD_CONFIG, gofnjerta_record(&host, &bad, on_tape, &tape));
    CHECK(tape.length == 0 && !host.at);
    ANSWERS(GOFNJERTA_CLOSED, gofnjerta_tick(&host, 1));
    ANSWERS(GOFNJERTA_OK, gofnjerta_open(&host, &config));
    ANSWERS(GOFNJERTA_OPEN, gofnjerta_record(&host, &config, on_tape, &tape));
    ANSWERS(GOFNJERTA_OK, gofnjerta_close(&host));
    ANSWERS(GOFNJERTA_OK, gofnjerta_record(&host, &config, on_tape, &tape));
    ANSWERS(GOFNJERTA_OPEN, gofnjerta_record(&host, &config, on_tape, &tape));
    ANSWERS(GOFNJERTA_OPEN, gofnjerta_open(&host, &config));
    memcpy(&moved, &host, sizeof moved);
    memset(&host, 0, sizeof host);
    ANSWERS(GOFNJERTA_OK, gofnjerta_connect(&moved, (gofnjerta_address){1, 2}, 2, 3, 4, &peer));
    size_t length = tape.length;
    ANSWERS(GOFNJERTA_OK, gofnjerta_read_slots(&moved, &slots));
    ANSWERS(GOFNJERTA_OK, gofnjerta_read_totals(&moved, &totals));
    ANSWERS(GOFNJERTA_OK, gofnjerta_due_in(&moved, &ms));
    ANSWERS(GOFNJERTA_OK, gofnjerta_ending(&moved, peer, &why));
    ANSWERS(GOFNJERTA_NOT_CONNECTED, gofnjerta_submit(&moved, peer, 0, 1, "x", 1));
    ANSWERS(GOFNJERTA_NO_SUCH_PEER, gofnjerta_disconnect(&moved, (gofnjerta_peer){2, 0}, 0));
    ANSWERS(GOFNJERTA_UNSTAGED, gofnjerta_submit_staged(&moved, peer, 0, 1));
    ANSWERS(GOFNJERTA_BAD_CONFIG, gofnjerta_set_most(&moved, 0));
    CHECK(slots.connecting == 1 && why == GOFNJERTA_NO_ENDING && ms <= 1000 && tape.length == length);
    ANSWERS(GOFNJERTA_OK, gofnjerta_close(&moved));
    CHECK(!moved.at && !moved.is_open);
    ANSWERS(GOFNJERTA_CLOSED, gofnjerta_tick(&moved, 1));
    CHECK(plays(tape.bytes, tape.length));
    length = tape.length;
    ANSWERS(GOFNJERTA_OK, gofnjerta_open(&moved, &config)); /* it isn't recorded any more */
    ANSWERS(GOFNJERTA_OK, gofnjerta_tick(&moved, 1));
    ANSWERS(GOFNJERTA_OK, gofnjerta_close(&moved));
    CHECK(tape.length == length);
    free(tape.bytes);
    /* Once the writer fails it isn't called again, and the host goes on. */
    tape = (Tape){.calls = 4};
    ANSWERS(GOFNJERTA_OK, gofnjerta_record(&host, &config, on_tape, &tape));
    for (int i = 0; i < 100; i++) ANSWERS(GOFNJERTA_OK, gofnjerta_tick(&host, 1));
    ANSWERS(GOFNJERTA_OK, gofnjerta_close(&host));
    CHECK(tape.calls == -1 && fails_at(tape.bytes, tape.length, 2));
    free(tape.bytes);
}

enum { TRAVELLERS = 256 };

static gofnjerta_host hosts[2];
static gofnjerta_peer others[2]; /* whom each talks with */
static Tape tapes[2];
static const gofnjerta_address places[2] = {{0x7F000001, 7000}, {0x7F000001, 7001}};
static struct {
    uint64_t due;
    int to;
    uint32_t length;
    uint8_t bytes[GOFNJERTA_ROOM];
} net[TRAVELLERS];
static uint64_t now;
static long datagrams, events;

/* What a host puts out: of ten datagrams one is lost, one comes twice, and one with a byte changed. */
static void put_out(int from) {
    uint8_t buffer[GOFNJERTA_ROOM];
    gofnjerta_datagram gave;
    while (gofnjerta_service(&hosts[from], buffer, sizeof buffer, &gave) == GOFNJERTA_OK && gave.length) {
        datagrams++;
        uint32_t fate = dice(10);
        for (uint32_t copies = fate == 0 ? 0 : fate == 1 ? 2 : 1, i = 0; i < TRAVELLERS && copies > 0; i++) {
            if (net[i].length) continue;
            net[i].due = now + 5 + dice(60), net[i].to = 1 - from, net[i].length = gave.length;
            memcpy(net[i].bytes, buffer, gave.length);
            if (fate == 2) net[i].bytes[dice(gave.length)] ^= 1u << dice(8);
            copies--;
        }
    }
}

static void take_events(int side) {
    static uint8_t body[70000];
    gofnjerta_event event;
    while (gofnjerta_next_event(&hosts[side], &event) == GOFNJERTA_OK && event.kind) {
        events++;
        if (event.kind == GOFNJERTA_CONNECT) others[side] = event.peer;
        if (event.kind == GOFNJERTA_RECEIVE && dice(8)) ANSWERS(GOFNJERTA_OK, gofnjerta_body(&hosts[side], body, sizeof body));
    }
}

/* One call, drawn: most of what a program does, with numbers that are refused among them. */
static void call(int side) {
    static uint8_t body[60000];
    gofnjerta_host *host = &hosts[side];
    gofnjerta_peer peer = others[side], peers[] = {peer, {1, 0}, {9, 9}};
    uint32_t answers[3];
    uint8_t channel = (uint8_t)dice(3), flags = (uint8_t)(dice(2) ? 1 : dice(16));
    size_t length = dice(20) ? dice(400) : dice(sizeof body);
    for (size_t i = 0; i < length; i++) body[i] = (uint8_t)dice(256);
    switch (dice(61)) {
    case 0: gofnjerta_stage(host, body, length); break;
    case 1: gofnjerta_submit_staged(host, peer, channel, flags); break;
    case 2: gofnjerta_broadcast(host, peers, dice(4), channel, flags, body, length); break;
    case 3: gofnjerta_set_bandwidth(host, dice(2) * 100000, dice(2) * 100000); break;
    case 4: gofnjerta_throttle_configure(host, peer, 1000 + dice(5000), dice(4), dice(4)); break;
    case 5: gofnjerta_set_ping_interval(host, peer, dice(1000)); break;
    case 6: gofnjerta_set_timeout(host, peer, dice(40), 1000 + dice(5000), 5000 + dice(30000)); break;
    case 7: gofnjerta_set_send_limit(host, 20000 + dice(50000), 100); break;
    case 8: gofnjerta_set_most(host, (uint16_t)dice(5)); break;
    case 9: gofnjerta_give_way(host); break;
    case 10:
        if (dice(10) == 0) gofnjerta_disconnect(host, peer, dice(1000));
        break;
    case 11:
        if (dice(10) == 0) gofnjerta_disconnect_later(host, peer, dice(1000));
        break;
    case 12:
        if (dice(10) == 0) gofnjerta_disconnect_now(host, peer, dice(1000));
        break;
    case 13:
    case 14: /* a stranger's */
        gofnjerta_receive(host, (gofnjerta_address){dice(5), (uint16_t)dice(5)}, body, length < 4096 ? length : 4096, NULL);
        break;
    case 15: gofnjerta_broadcast_each(host, peers, dice(4), channel, flags, body, length, answers); break;
    default: gofnjerta_submit(host, peer, channel, flags, body, length);
    }
}

/* Some thousand calls of two hosts. */
static void converse(int rounds) {
    gofnjerta_config config = gofnjerta_standard(4, 2);
    config.max_packet = 65000, config.max_waiting = 200000, config.generations = UINT32_MAX, config.clock = 0xFFFFF000;
    for (int side = 0; side < 2; side++) {
        uint8_t key[32];
        for (int i = 0; i < 32; i++) key[i] = (uint8_t)dice(256);
        tapes[side] = (Tape){.calls = -1};
        ANSWERS(GOFNJERTA_OK, gofnjerta_record(&hosts[side], &config, on_tape, &tapes[side]));
        ANSWERS(GOFNJERTA_OK, gofnjerta_set_secret(&hosts[side], key));
    }
    memset(net, 0, sizeof net);
    for (int round = 0; round < rounds; round++) {
        gofnjerta_slots slots = {0};
        ANSWERS(GOFNJERTA_OK, gofnjerta_read_slots(&hosts[1], &slots));
        if (slots.connecting + slots.connected == 0) gofnjerta_connect(&hosts[1], places[0], 2, dice(1000), dice(1u << 30), &others[1]);
        for (int side = 0; side < 2; side++) call(side);
        now += 10;
        for (int side = 0; side < 2; side++) ANSWERS(GOFNJERTA_OK, gofnjerta_tick(&hosts[side], 10));
        for (int i = 0; i < TRAVELLERS; i++)
            if (net[i].length && net[i].due <= now) {
                ANSWERS(GOFNJERTA_OK, gofnjerta_receive(&hosts[net[i].to], places[1 - net[i].to], net[i].bytes, net[i].length, NULL));
                net[i].length = 0;
            }
        for (int side = 0; side < 2; side++) put_out(side), take_events(side);
    }
    for (int side = 0; side < 2; side++) ANSWERS(GOFNJERTA_OK, gofnjerta_close(&hosts[side]));
}

/* Where entry `entry`, from 1 on, begins and how long it is; false if there is none. By the same tables as replay.c. */
static bool find_entry(const Tape *tape, uint64_t entry, size_t *at, size_t *length) {
    size_t place = RECORD_HEAD;
    for (uint64_t i = 1; place < tape->length; i++) {
        Entry read = {.kind = tape->bytes[place]};
        if (read.kind == 0 || read.kind >= RECORD_COUNT || tape->length - place < 9 + sizes[read.kind]) return false;
        memcpy(read.numbers.bytes, tape->bytes + place + 1, sizes[read.kind]);
        uint64_t count = has_names(read.kind) ? long_at(&read, 0) : 0;
        uint64_t bytes = has_bytes(read.kind) ? long_at(&read, sizes[read.kind] - 8) : 0;
        if (count > tape->length || bytes > tape->length || 9 + sizes[read.kind] + 6 * count + bytes > tape->length - place) return false;
        *at = place;
        *length = 9 + sizes[read.kind] + 6 * count + bytes;
        if (i == entry) return true;
        place += *length;
    }
    return false;
}

/* Writes each entry's hash anew, as far as entries can be read. */
static void make_hashes(Tape *tape) {
    uint64_t hash = record_hash(RECORD_EMPTY, tape->bytes, RECORD_HEAD < tape->length ? RECORD_HEAD : tape->length);
    size_t place = RECORD_HEAD, at, length;
    Tape rest = {0};
    while (place < tape->length) {
        rest.bytes = tape->bytes + place - RECORD_HEAD, rest.length = tape->length - place + RECORD_HEAD;
        if (!find_entry(&rest, 1, &at, &length)) return;
        hash = record_hash(hash, tape->bytes + place, length - 8);
        for (int i = 0; i < 8; i++) tape->bytes[place + length - 8 + i] = (uint8_t)(hash >> 8 * i);
        hash = record_hash(hash, tape->bytes + place + length - 8, 8);
        place += length;
    }
}

/* A copy of a record, with more room. */
static Tape copy_of(const Tape *tape) {
    Tape copy = {.bytes = malloc(tape->length + 64), .length = tape->length, .room = tape->length + 64};
    if (!copy.bytes) exit(2);
    memcpy(copy.bytes, tape->bytes, tape->length);
    return copy;
}

/* What was said is that this kind differs, at this entry. */
static bool differs_at(const Tape *tape, uint64_t entry, uint8_t kind) {
    char wanted[64];
    snprintf(wanted, sizeof wanted, " ms: %s differs\n", names[kind]);
    bool is_named = fails_at(tape->bytes, tape->length, entry);
    return is_named && strstr(text, wanted) && strstr(text, "\n  recorded: ") && strstr(text, "\n  now: ");
}

/* Each record replays to the same. */
static void same(void) {
    datagrams = events = 0;
    converse(3000);
    CHECK(datagrams > 2000 && events > 200);
    for (int side = 0; side < 2; side++) CHECK(plays(tapes[side].bytes, tapes[side].length) && !strcmp(text, ""));
}

/* A changed byte and a cut are told, at the entry where they are. */
static void changed(void) {
    for (int side = 0; side < 2; side++) {
        Tape tape = copy_of(&tapes[side]);
        uint64_t entry = 1;
        for (size_t at = 0, length = 0; find_entry(&tape, entry, &at, &length) && entry < 4000; entry += 1 + dice(100)) {
            size_t place = at + dice((uint32_t)length);
            uint8_t was = tape.bytes[place];
            tape.bytes[place] ^= (uint8_t)(1 + dice(255));
            CHECK(fails_at(tape.bytes, tape.length, entry));
            tape.bytes[place] = was;
            CHECK(fails_at(tape.bytes, place, entry));
        }
        CHECK(entry >= 4000);
        free(tape.bytes);
    }
}

/* What came out is compared: with another number there, and right hashes, the entry is named. */
static void other_results(void) {
    static const uint8_t kinds[] = {RECORD_CONNECT, RECORD_BROADCAST, RECORD_BROADCAST_EACH, RECORD_RECEIVE, RECORD_SERVICE,
                                    RECORD_NEXT_EVENT, RECORD_BODY};
    for (size_t k = 0; k < sizeof kinds; k++) {
        size_t at, length, last = 0;
        uint64_t entry = 1, tried = 0;
        for (; find_entry(&tapes[1], entry, &at, &length) && tried < 3; entry++) {
            Tape tape = copy_of(&tapes[1]);
            if (tape.bytes[at] == kinds[k] && at >= last) {
                size_t passed = passed_of(kinds[k]), results = sizes[kinds[k]] - passed - (has_bytes(kinds[k]) ? 8 : 0);
                /* The length of a packet that was told is what its bytes were read by. */
                if (kinds[k] == RECORD_BODY) passed += 8, results -= 8;
                tape.bytes[at + 1 + passed + dice((uint32_t)results)] ^= 0x40;
                make_hashes(&tape);
                CHECK(differs_at(&tape, entry, kinds[k]));
                tried++;
                last = at + dice(20000);
            }
            free(tape.bytes);
        }
        CHECK(tried > 0);
    }
}

/* Another secret, and a tick that is left out, are told where they first show, though the hashes are right. */
static void other_calls(void) {
    size_t at, length;
    Tape tape = copy_of(&tapes[0]);
    CHECK(find_entry(&tape, 2, &at, &length) && tape.bytes[at] == RECORD_SET_SECRET);
    tape.bytes[at + 7] ^= 1;
    make_hashes(&tape);
    CHECK(!plays(tape.bytes, tape.length) && strstr(text, " differs\n"));
    free(tape.bytes);
    tape = copy_of(&tapes[0]);
    uint64_t entry = 500;
    while (find_entry(&tape, entry, &at, &length) && tape.bytes[at] != RECORD_TICK) entry++;
    memmove(tape.bytes + at, tape.bytes + at + length, tape.length - at - length);
    tape.length -= length;
    make_hashes(&tape);
    CHECK(!plays(tape.bytes, tape.length) && (strstr(text, " differs\n") || strstr(text, "was done, and is refused now")));
    free(tape.bytes);
}

/* Records with some bytes changed, some taken out and some put in, with right hashes as far as entries can be read: whatever they say, the
 * program ends, and the sanitizers have nothing to say. */
static void fuzz(uint64_t seed, long count) {
    dice_state = seed * 0x9E3779B97F4A7C15u | 1;
    converse(60);
    for (long i = 0; i < count; i++) {
        Tape tape = copy_of(&tapes[dice(2)]);
        for (uint32_t changes = 1 + dice(5); changes > 0; changes--) {
            size_t at, length, entries = 1 + dice(500);
            if (!find_entry(&tape, entries, &at, &length)) continue;
            size_t place = dice(4) ? at + dice((uint32_t)(length < 40 ? length : 40)) : dice((uint32_t)tape.length), end = at + length;
            if (dice(8) == 0) memmove(tape.bytes + at, tape.bytes + end, tape.length - end), tape.length -= length;
            else if (dice(8) == 0 && tape.length + 16 < tape.room) {
                memmove(tape.bytes + place + 1, tape.bytes + place, tape.length - place);
                tape.length++;
            } else if (dice(3) == 0) tape.bytes[place] = dice(2) ? 0xFF : 0;
            else tape.bytes[place] ^= (uint8_t)(1u << dice(8));
        }
        if (dice(20)) make_hashes(&tape);
        plays(tape.bytes, tape.length);
        free(tape.bytes);
    }
    passed++;
    free(tapes[0].bytes), free(tapes[1].bytes);
}

/* Leaves a record in a file. */
static bool leave(const char *name) {
    FILE *file = fopen(name, "wb");
    converse(100);
    if (!file || fwrite(tapes[0].bytes, 1, tapes[0].length, file) != tapes[0].length) return false;
    free(tapes[0].bytes), free(tapes[1].bytes);
    return fclose(file) == 0;
}

int main(int argc, char **argv) {
    if (argc == 3 && !strcmp(argv[1], "write")) return leave(argv[2]) ? 0 : 1;
    if (argc == 4 && !strcmp(argv[1], "fuzz")) {
        fuzz(strtoull(argv[2], NULL, 10), strtol(argv[3], NULL, 10));
        return ended("record");
    }
    bytes();
    handles();
    same();
    changed();
    other_results();
    other_calls();
    free(tapes[0].bytes), free(tapes[1].bytes);
    fuzz(1, 300);
    return ended("record");
}
