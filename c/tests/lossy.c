/* Two hosts in memory, with a net between them that loses, repeats and delays datagrams: whatever it does, each reliable packet comes
 * once and in its order, each other packet at most once and unreliable ones in their order, and no bytes are changed. */
#include "../gofnjerta.h"
#include "check.h"
#include <string.h>

enum { TRAVELLERS = 512, PACKETS = 400, CHANNELS = 3, LARGEST = 6000, STEP = 10 };

/* A datagram on its way, due at a moment. */
typedef struct {
    uint64_t due;
    uint32_t length;
    int to;
    bool here;
    uint8_t bytes[GOFNJERTA_ROOM];
} traveller;

static traveller net[TRAVELLERS];
static gofnjerta_host hosts[2];
static const gofnjerta_address places[2] = {{0x7F000001, 7000}, {0x7F000001, 7001}};
static uint64_t now, lost, repeated;
static uint64_t dice_state;

/* A number below n, by a generator of its own (xorshift). */
static uint32_t dice(uint32_t n) {
    dice_state ^= dice_state << 13;
    dice_state ^= dice_state >> 7;
    dice_state ^= dice_state << 17;
    return (uint32_t)(dice_state >> 33) % n;
}

static void travel(int to, const uint8_t *bytes, uint32_t length, uint64_t delay) {
    for (int i = 0; i < TRAVELLERS; i++)
        if (!net[i].here) {
            net[i] = (traveller){.due = now + delay, .length = length, .to = to, .here = true};
            memcpy(net[i].bytes, bytes, length);
            return;
        }
    lost++;
}

/* What host `from` puts out: 15 of 100 are lost, 10 of 100 come twice, each after 5 to 80 ms. */
static void put_out(int from) {
    uint8_t buffer[GOFNJERTA_ROOM];
    gofnjerta_datagram gave;
    for (;;) {
        ANSWERS(GOFNJERTA_OK, gofnjerta_service(&hosts[from], buffer, sizeof buffer, &gave));
        if (!gave.length) return;
        CHECK(gave.to.port == places[1 - from].port && gave.length <= 700);
        uint32_t fate = dice(100);
        if (fate < 15) lost++;
        else travel(1 - from, buffer, gave.length, 5 + dice(76));
        if (fate >= 90) {
            repeated++;
            travel(1 - from, buffer, gave.length, 5 + dice(76));
        }
    }
}

static void arrive(void) {
    for (int i = 0; i < TRAVELLERS; i++)
        if (net[i].here && net[i].due <= now) {
            gofnjerta_received got;
            net[i].here = false;
            ANSWERS(GOFNJERTA_OK, gofnjerta_receive(&hosts[net[i].to], places[1 - net[i].to], net[i].bytes, net[i].length, &got));
            CHECK(got.stop != 1 && got.stop != 11);
        }
}

static void step(void) {
    now += STEP;
    for (int i = 0; i < 2; i++) ANSWERS(GOFNJERTA_OK, gofnjerta_tick(&hosts[i], STEP));
    arrive();
    for (int i = 0; i < 2; i++) put_out(i);
}

/* Packet n has its number in front, and a body that follows from it. */
static uint32_t fill(uint8_t *body, uint32_t n) {
    uint32_t length = 4 + n * 7919 % (n % 10 ? 300 : LARGEST);
    for (uint32_t i = 0; i < length; i++) body[i] = (uint8_t)(n * 31 + i * 7);
    memcpy(body, &n, 4);
    return length;
}

/* How packet n goes: half of them reliable. */
static uint8_t flags_of(uint32_t n) {
    return n % 2 ? GOFNJERTA_RELIABLE : n % 4 ? GOFNJERTA_UNSEQUENCED : n % 8 ? GOFNJERTA_UNRELIABLE_FRAGMENT : 0;
}

static bool seen[PACKETS];
static uint32_t next_reliable[CHANNELS], next_unreliable[CHANNELS], reliable, others, ended_with;

static void take_packet(const gofnjerta_event *event) {
    static uint8_t body[LARGEST + 4], wanted[LARGEST + 4];
    uint32_t n = PACKETS;
    ANSWERS(GOFNJERTA_OK, gofnjerta_body(&hosts[1], body, sizeof body));
    memcpy(&n, body, 4);
    CHECK(n < PACKETS);
    if (n >= PACKETS) return;
    CHECK(event->length == fill(wanted, n) && !memcmp(body, wanted, event->length) && event->channel == n % CHANNELS);
    CHECK(!seen[n]);
    seen[n] = true;
    if (flags_of(n) == GOFNJERTA_RELIABLE) {
        CHECK(event->flags == GOFNJERTA_RELIABLE && n >= next_reliable[event->channel]);
        next_reliable[event->channel] = n + 1;
        reliable++;
    } else {
        if (flags_of(n) != GOFNJERTA_UNSEQUENCED) {
            CHECK(n >= next_unreliable[event->channel]);
            next_unreliable[event->channel] = n + 1;
        }
        others++;
    }
}

/* Takes the events of the host that is sent to. */
static bool take_events(gofnjerta_peer *peer, bool *connected) {
    gofnjerta_event event;
    for (;;) {
        ANSWERS(GOFNJERTA_OK, gofnjerta_next_event(&hosts[1], &event));
        switch (event.kind) {
        case GOFNJERTA_NONE: return true;
        case GOFNJERTA_CONNECT: CHECK(!*connected && event.info == 4711), *connected = true, *peer = event.peer; break;
        case GOFNJERTA_RECEIVE: take_packet(&event); break;
        default: ended_with = event.info; return false;
        }
    }
}

static void converse(uint64_t seed) {
    static uint8_t body[LARGEST + 4];
    gofnjerta_config config = gofnjerta_standard(2, CHANNELS);
    gofnjerta_peer there, back;
    gofnjerta_event event;
    bool connected = false, here = false, lasts = true;
    dice_state = seed * 0x9E3779B97F4A7C15u + 1;
    config.mtu = 700;
    config.clock = (uint32_t)(0u - 500u); /* the clock and the times of datagrams wrap on the way */
    memset(net, 0, sizeof net), memset(seen, 0, sizeof seen), memset(next_reliable, 0, sizeof next_reliable);
    memset(next_unreliable, 0, sizeof next_unreliable), reliable = others = ended_with = 0;
    for (int i = 0; i < 2; i++) ANSWERS(GOFNJERTA_OK, gofnjerta_open(&hosts[i], &config));
    ANSWERS(GOFNJERTA_OK, gofnjerta_connect(&hosts[0], places[1], CHANNELS, 4711, (uint32_t)seed, &there));
    for (int i = 0; i < 2000 && !(connected && here); i++) {
        step();
        lasts = take_events(&back, &connected) && lasts;
        ANSWERS(GOFNJERTA_OK, gofnjerta_next_event(&hosts[0], &event));
        here = here || event.kind == GOFNJERTA_CONNECT;
    }
    CHECK(connected && here && lasts);
    /* One datagram in four is lost or its acknowledgement is, so some command may be lost six times in a row: let peers wait for it. */
    ANSWERS(GOFNJERTA_OK, gofnjerta_set_timeout(&hosts[0], there, 1000, 200000, 300000));
    ANSWERS(GOFNJERTA_OK, gofnjerta_set_timeout(&hosts[1], back, 1000, 200000, 300000));
    for (uint32_t n = 0; n < PACKETS; n++) {
        ANSWERS(GOFNJERTA_OK, gofnjerta_submit(&hosts[0], there, (uint8_t)(n % CHANNELS), flags_of(n), body, fill(body, n)));
        if (n % 4 == 0) step(), lasts = take_events(&back, &connected) && lasts;
    }
    ANSWERS(GOFNJERTA_OK, gofnjerta_disconnect_later(&hosts[0], there, 815));
    for (int i = 0; i < 30000 && lasts; i++) step(), lasts = take_events(&back, &connected);
    CHECK(!lasts && ended_with == 815);
    CHECK(reliable == PACKETS / 2 && others > 0 && others <= PACKETS / 2);
    for (int i = 0; i < 2; i++) ANSWERS(GOFNJERTA_OK, gofnjerta_close(&hosts[i]));
}

int main(void) {
    for (uint64_t seed = 1; seed <= 20; seed++) converse(seed);
    CHECK(lost > 1000 && repeated > 1000);
    printf("lost %llu, repeated %llu\n", (unsigned long long)lost, (unsigned long long)repeated);
    return ended("lossy");
}
