/* Whom a host lets in, by a model of the rules that shares nothing with it: of two hundred hosts each is told at some time that the oldest
 * gives way, and how many may be in, while clients ask, confirm, leave and fall silent by turns that are drawn. Each answer, event and word
 * of the host, and the state of each slot, must be the model's. */
#include "../gofnjerta.h"
#include "check.h"
#include <string.h>

enum { HOSTS = 200, STEPS = 600, SLOTS = 5, STAY_MS = 7500, OFFER_LENGTH = 52, ANSWER_LENGTH = 48 };

/* Stops: S4, S7 and S13. */
enum { WRONG_ADDRESS = 4, NOT_CONNECTED = 7, NO_SLOT = 13 };

/* A slot as the model has it. A peer counts as one that is in while it is IN or ENDED. */
typedef struct {
    enum { EMPTY, WAITING, REFUSED, IN, ENDED } state;
    uint32_t generation;   /* of its peer, or of the next one */
    uint64_t made;         /* when its peer's CONNECT came */
    uint16_t port;         /* where its client is */
    uint8_t session;       /* as the answer said */
    uint16_t sent_at;      /* the answer's sent time */
    bool is_told, is_left; /* its Connect is to be taken; its Disconnect is */
} Seat;

static gofnjerta_host host;
static Seat seats[SLOTS];
static uint64_t now;
static uint16_t next_port, most;
static bool gives_way;
static uint64_t drawn;
static long newcomers, gave_way, refused, let_in, stopped;

static uint32_t below(uint32_t bound) {
    drawn = drawn * 6364136223846793005u + 1442695040888963407u;
    return (uint32_t)(drawn >> 33) % bound;
}

static gofnjerta_address at(uint16_t port) { return (gofnjerta_address){0x0A000000u + port % 7, port}; }
static gofnjerta_peer name_of(int i) { return (gofnjerta_peer){(uint16_t)i, seats[i].generation}; }

/* A slot whose peer has gone: the next one has the next generation. */
static void empty(int i) { seats[i] = (Seat){.generation = seats[i].generation + 1}; }

/* A drawn slot in one of two states; -1 where none is. */
static int any(int one, int other) {
    int first = (int)below(SLOTS);
    for (int n = 0; n < SLOTS; n++) {
        int i = (first + n) % SLOTS;
        if ((int)seats[i].state == one || (int)seats[i].state == other) return i;
    }
    return -1;
}

static gofnjerta_received receive(uint16_t port, const uint8_t *bytes, size_t length) {
    gofnjerta_received got = {0};
    ANSWERS(GOFNJERTA_OK, gofnjerta_receive(&host, at(port), bytes, length, &got));
    return got;
}

/* A command of eight bytes or fewer from a slot's client, with no sent time or at 0. */
static gofnjerta_received say(int i, uint16_t port, bool is_timed, const uint8_t *command, size_t length) {
    uint8_t bytes[16] = {(uint8_t)((is_timed ? 0x80 : 0) | seats[i].session << 4), (uint8_t)i};
    size_t head = is_timed ? 4 : 2;
    memcpy(bytes + head, command, length);
    return receive(port, bytes, head + length);
}

/* A datagram of the host's to the client of slot i: a word of a full host is counted, an answer is noted, and a client that is in
 * acknowledges a reliable command. */
static void take(int i, const gofnjerta_datagram *gave, const uint8_t *bytes, int *words, int *answers) {
    const uint8_t *command = bytes + (bytes[0] & 0x80 ? 4 : 2);
    bool is_known = seats[i].state != EMPTY && gave->peer.generation == seats[i].generation;
    CHECK(!is_known || gave->to.port == seats[i].port);
    if ((command[0] & 0xF) == 3 && gave->length == ANSWER_LENGTH) {
        answers[i]++;
        CHECK(seats[i].state == WAITING && (command[4] << 8 | command[5]) == i);
        seats[i].session = command[7];
        seats[i].sent_at = (uint16_t)(bytes[2] << 8 | bytes[3]);
    } else if (command[0] == 0x44 && seats[i].state == REFUSED) {
        words[i]++;
        CHECK(gave->length == 10 && !memcmp(command + 4, "\xFF\xFF\xFF\xFF", 4));
    } else if (bytes[0] & command[0] & 0x80 && is_known && seats[i].state == IN) {
        const uint8_t acknowledgement[] = {1, command[1], 0, 0, command[2], command[3], bytes[2], bytes[3]};
        CHECK(say(i, seats[i].port, false, acknowledgement, sizeof acknowledgement).handled == 1);
    }
}

/* All that the host puts out. */
static void put_out(int *words, int *answers) {
    uint8_t bytes[GOFNJERTA_ROOM] = {0};
    gofnjerta_datagram gave;
    while (gofnjerta_service(&host, bytes, sizeof bytes, &gave) == GOFNJERTA_OK && gave.length) {
        bool is_whole = gave.peer.slot < SLOTS && gave.length >= 8 && gave.length <= sizeof bytes;
        CHECK(is_whole);
        if (is_whole) take(gave.peer.slot, &gave, bytes, words, answers);
    }
}

/* What comes of all that the host puts out now: a word from this slot alone, and an answer from that one; -1 stands for none. */
static void is_put_out(int word, int answer) {
    int words[SLOTS] = {0}, answers[SLOTS] = {0};
    put_out(words, answers);
    for (int i = 0; i < SLOTS; i++) CHECK(words[i] == (i == word) && answers[i] == (i == answer));
}

/* The slot that a CONNECT gets: the lowest free one, or that of who waits longest, where the host gives way. */
static int seat_of_newcomer(void) {
    int oldest = -1;
    for (int i = 0; i < SLOTS; i++)
        if (seats[i].state == EMPTY) return i;
    for (int i = 0; i < SLOTS && gives_way; i++)
        if ((seats[i].state == WAITING || seats[i].state == REFUSED) && (oldest < 0 || seats[i].made < seats[oldest].made)) oldest = i;
    return oldest;
}

static void newcomer(void) {
    static const uint8_t offer[OFFER_LENGTH] = {0x8F, 0xFF, 0, 0, 0x82, 0xFF, 0, 1, 0, 0, 0xFF, 0xFF, 0, 0, 5, 0x70, 0, 1, 0, 0, 0, 0, 0, 1,
                                                0, 0, 0, 0, 0, 0, 0, 0, 0, 0, 0x13, 0x88, 0, 0, 0, 2, 0, 0, 0, 2, 1, 2, 3, 4, 0, 0, 0, 7};
    int i = seat_of_newcomer();
    uint16_t port = ++next_port ? next_port : ++next_port;
    gofnjerta_received got = receive(port, offer, sizeof offer);
    newcomers++;
    CHECK(i < 0 ? got.handled == 0 && got.stop == NO_SLOT : got.handled == 1 && got.stop == 0);
    stopped += i < 0;
    if (i < 0) return;
    if (seats[i].state != EMPTY) {
        gave_way++;
        empty(i);
    }
    seats[i] = (Seat){.state = WAITING, .generation = seats[i].generation, .made = now, .port = port};
    is_put_out(-1, i);
    got = receive(port, offer, sizeof offer); /* it comes again */
    CHECK(got.handled == 1 && got.stop == 0);
    is_put_out(-1, -1);
}

/* Who waits confirms: it gets in, or is told that the host is full. */
static void confirm(void) {
    int i = any(WAITING, WAITING), in = 0;
    if (i < 0) return;
    const uint8_t command[] = {1, 0xFF, 0, 1, 0, 1, (uint8_t)(seats[i].sent_at >> 8), (uint8_t)seats[i].sent_at};
    CHECK(say(i, (uint16_t)(seats[i].port + 1), false, command, sizeof command).stop == WRONG_ADDRESS);
    for (int k = 0; k < SLOTS; k++) in += seats[k].state == IN || seats[k].state == ENDED;
    gofnjerta_received got = say(i, seats[i].port, false, command, sizeof command);
    CHECK(got.handled == 1 && got.stop == 0);
    bool is_full = in >= most;
    seats[i].state = is_full ? REFUSED : IN;
    seats[i].is_told = !is_full;
    if (is_full) refused++;
    else let_in++;
    is_put_out(is_full ? i : -1, -1);
}

/* Who was refused speaks on: it is told again, once, if one of its datagrams tells a sent time. */
static void speak(void) {
    static const uint8_t ping[] = {0x85, 0xFF, 0, 9}, word[] = {0x44, 0xFF, 0, 2, 0xFF, 0xFF, 0xFF, 0xFF};
    int i = any(REFUSED, REFUSED);
    bool is_told = false;
    if (i < 0) return;
    for (uint32_t n = 1 + below(2); n > 0; n--) {
        bool is_timed = below(2);
        gofnjerta_received got = is_timed ? say(i, seats[i].port, true, ping, sizeof ping) : say(i, seats[i].port, false, word, sizeof word);
        CHECK(got.handled == 0 && got.stop == NOT_CONNECTED);
        is_told |= is_timed;
    }
    is_put_out(is_told ? i : -1, -1);
}

/* A client leaves, or the host's user lets a peer go. */
static void leave(void) {
    static const uint8_t disconnect[] = {0x44, 0xFF, 0, 2, 0, 0, 0, 5};
    int i = any(IN, IN);
    if (i < 0) return;
    if (below(2)) {
        CHECK(say(i, seats[i].port, false, disconnect, sizeof disconnect).handled == 1);
        seats[i].state = ENDED;
        seats[i].is_left = true;
    } else {
        ANSWERS(GOFNJERTA_OK, gofnjerta_disconnect_now(&host, name_of(i), 3));
        empty(i);
    }
    is_put_out(-1, -1);
}

/* The user takes an event, and connects once, which ends at once. */
static void use(void) {
    gofnjerta_event event;
    gofnjerta_peer peer;
    int owed = 0, first = -1;
    for (int i = SLOTS - 1; i >= 0; i--) {
        owed += seats[i].is_told || seats[i].is_left;
        if (seats[i].state == EMPTY) first = i;
    }
    ANSWERS(first < 0 ? GOFNJERTA_NO_SLOT : GOFNJERTA_OK, gofnjerta_connect(&host, at(1), 1, 0, 0, &peer));
    if (first >= 0) {
        CHECK(peer.slot == first && peer.generation == seats[first].generation);
        ANSWERS(GOFNJERTA_OK, gofnjerta_disconnect_now(&host, peer, 0));
        is_put_out(-1, -1);
        empty(first);
    }
    ANSWERS(GOFNJERTA_OK, gofnjerta_next_event(&host, &event));
    CHECK(owed ? event.kind != GOFNJERTA_NONE : event.kind == GOFNJERTA_NONE);
    if (event.kind == GOFNJERTA_NONE || event.peer.slot >= SLOTS) return;
    Seat *seat = &seats[event.peer.slot];
    CHECK(event.peer.generation == seat->generation);
    CHECK(event.kind == (seat->is_told ? GOFNJERTA_CONNECT : GOFNJERTA_DISCONNECT) && event.info == (seat->is_told ? 7 : 5));
    if (seat->is_told) seat->is_told = false;
    else empty(event.peer.slot);
}

/* Time goes on: who waits or was refused goes in the end. */
static void wait(void) {
    uint32_t ms = below(8) ? 1 + below(40) : 1 + below(900);
    now += ms;
    ANSWERS(GOFNJERTA_OK, gofnjerta_tick(&host, ms));
    for (int i = 0; i < SLOTS; i++)
        if ((seats[i].state == WAITING || seats[i].state == REFUSED) && now - seats[i].made >= STAY_MS) empty(i);
    int words[SLOTS] = {0}, answers[SLOTS] = {0};
    put_out(words, answers);
    for (int i = 0; i < SLOTS; i++) CHECK(words[i] == 0 && answers[i] <= 1);
}

static void admit(void) {
    if (below(3) == 0) {
        ANSWERS(GOFNJERTA_OK, gofnjerta_give_way(&host));
        gives_way = true;
        return;
    }
    uint16_t number = (uint16_t)below(SLOTS + 2);
    bool is_good = number >= 1 && number <= SLOTS;
    ANSWERS(is_good ? GOFNJERTA_OK : GOFNJERTA_BAD_CONFIG, gofnjerta_set_most(&host, number));
    if (is_good) most = number;
}

static void is_as_modelled(void) {
    static const uint32_t states[] = {GOFNJERTA_FREE, GOFNJERTA_ANSWERING, GOFNJERTA_ANSWERING, GOFNJERTA_CONNECTED, GOFNJERTA_ENDED};
    for (int i = 0; i < SLOTS; i++) {
        gofnjerta_reading read = {.state = GOFNJERTA_FREE};
        uint32_t answer = gofnjerta_read_peer(&host, name_of(i), &read);
        CHECK((seats[i].state == EMPTY) == (answer == GOFNJERTA_NO_SUCH_PEER) && read.state == states[seats[i].state]);
        gofnjerta_peer before = {(uint16_t)i, seats[i].generation - 1};
        CHECK(gofnjerta_read_peer(&host, before, &read) == GOFNJERTA_NO_SUCH_PEER);
    }
}

static void run(uint64_t seed) {
    static void (*const deeds[])(void) = {newcomer, newcomer, newcomer, confirm, confirm, speak, leave, use, use, wait, wait};
    gofnjerta_config config = gofnjerta_standard(SLOTS, 1);
    config.generations = UINT32_MAX;
    config.clock = (uint32_t)(now = UINT32_MAX - 3000 + seed * 7); /* the clock wraps in some */
    memset(seats, 0, sizeof seats);
    drawn = seed;
    most = SLOTS;
    gives_way = false;
    next_port = 100;
    ANSWERS(GOFNJERTA_OK, gofnjerta_open(&host, &config));
    for (int n = 0; n < STEPS; n++) {
        if (below(40) == 0) admit();
        deeds[below(sizeof deeds / sizeof *deeds)]();
        is_as_modelled();
    }
    gofnjerta_close(&host);
}

int main(void) {
    for (uint64_t seed = 1; seed <= HOSTS; seed++) run(seed);
    printf("%ld newcomers: %ld took a slot that gave way, %ld found none; %ld were let in, %ld told that the host is full\n", newcomers,
           gave_way, stopped, let_in, refused);
    CHECK(gave_way > 1000 && stopped > 1000 && refused > 1000 && let_in > 1000);
    return ended("admitted");
}
