/* What a host tells of its peers beside events: when one is full (gofnjerta_set_send_limit), what each got to a packet for several
 * (gofnjerta_broadcast_each), how the line to it is (gofnjerta_read_line), how many commands went to it (gofnjerta_read_traffic), and why
 * its connection ended (gofnjerta_ending). The numbers are worked by hand, by docs/PROTOCOL.md. */
#include "../gofnjerta.h"
#include "check.h"
#include <string.h>

static const gofnjerta_address at_a = {0x0A000001, 7000}, at_b = {0x0A000002, 7001};
static gofnjerta_host a, b;
static gofnjerta_peer from_a, from_b; /* B as A names it, and A as B does */

/* Brings what a host puts out to the other one. */
static int carry(gofnjerta_host *from, gofnjerta_address own, gofnjerta_host *to) {
    uint8_t buffer[GOFNJERTA_ROOM];
    gofnjerta_datagram gave;
    int count = 0;
    while (gofnjerta_service(from, buffer, sizeof buffer, &gave) == GOFNJERTA_OK && gave.length) {
        ANSWERS(GOFNJERTA_OK, gofnjerta_receive(to, own, buffer, gave.length, NULL));
        count++;
    }
    return count;
}

static void settle(void) {
    while (carry(&a, at_a, &b) + carry(&b, at_b, &a)) {}
}

static gofnjerta_event next(gofnjerta_host *host) {
    gofnjerta_event event;
    ANSWERS(GOFNJERTA_OK, gofnjerta_next_event(host, &event));
    return event;
}

static void pass(uint32_t ms) {
    ANSWERS(GOFNJERTA_OK, gofnjerta_tick(&a, ms));
    ANSWERS(GOFNJERTA_OK, gofnjerta_tick(&b, ms));
}

/* Connects B to A, at once. */
static void join(void) {
    ANSWERS(GOFNJERTA_OK, gofnjerta_connect(&b, at_a, 2, 0, 0x11223344, &from_b));
    settle();
    CHECK(next(&b).kind == GOFNJERTA_CONNECT);
    gofnjerta_event event = next(&a);
    CHECK(event.kind == GOFNJERTA_CONNECT);
    from_a = event.peer;
}

/* Two fresh hosts that are connected. */
static void begin(void) {
    gofnjerta_config config = gofnjerta_standard(2, 2);
    gofnjerta_close(&a), gofnjerta_close(&b);
    config.max_packet = 5000;
    ANSWERS(GOFNJERTA_OK, gofnjerta_open(&a, &config));
    ANSWERS(GOFNJERTA_OK, gofnjerta_open(&b, &config));
    join();
}

static uint32_t submit(uint8_t flags, uint8_t channel, const char *text) {
    return gofnjerta_submit(&b, from_b, channel, flags, text, strlen(text));
}

/* So much is queued or unacknowledged. */
static bool counts(uint64_t commands, uint64_t bytes) {
    gofnjerta_line line;
    memset(&line, 0xFF, sizeof line);
    return gofnjerta_read_line(&b, from_b, &line) == GOFNJERTA_OK && line.commands == commands && line.bytes == bytes;
}

/* Full by bytes: what else refuses a packet is told first, and the other end has no limit. */
static void by_bytes(void) {
    static const uint8_t large[5001];
    begin();
    ANSWERS(GOFNJERTA_OK, gofnjerta_set_send_limit(&b, 5, 100));
    CHECK(counts(0, 0));
    ANSWERS(GOFNJERTA_OK, submit(GOFNJERTA_RELIABLE, 0, "hello"));
    CHECK(counts(1, 5));
    ANSWERS(GOFNJERTA_FULL, submit(GOFNJERTA_RELIABLE, 0, ""));
    ANSWERS(GOFNJERTA_FULL, submit(0, 1, "a"));
    ANSWERS(GOFNJERTA_FULL, submit(GOFNJERTA_UNSEQUENCED, 0, "a"));
    ANSWERS(GOFNJERTA_NO_SUCH_CHANNEL, submit(GOFNJERTA_RELIABLE, 2, ""));
    ANSWERS(GOFNJERTA_TOO_LARGE, gofnjerta_submit(&b, from_b, 0, GOFNJERTA_RELIABLE, large, sizeof large));
    ANSWERS(GOFNJERTA_NO_SUCH_PEER, gofnjerta_submit(&b, (gofnjerta_peer){0, 1}, 0, GOFNJERTA_RELIABLE, "", 0));
    ANSWERS(GOFNJERTA_FULL, gofnjerta_submit(&b, from_b, 0, GOFNJERTA_RELIABLE, large, 5000)); /* a long body takes another way */
    ANSWERS(GOFNJERTA_OK, gofnjerta_stage(&b, "x", 1));
    ANSWERS(GOFNJERTA_FULL, gofnjerta_submit_staged(&b, from_b, 0, GOFNJERTA_RELIABLE));
    CHECK(counts(1, 5));
    for (int i = 0; i < 5; i++) ANSWERS(GOFNJERTA_OK, gofnjerta_submit(&a, from_a, 0, GOFNJERTA_RELIABLE, "hello", 5));
    settle();
    CHECK(counts(0, 0));
    ANSWERS(GOFNJERTA_OK, gofnjerta_submit_staged(&b, from_b, 0, GOFNJERTA_RELIABLE));
    CHECK(counts(1, 1));
}

/* Full by commands: an unreliable one counts until it goes, and each piece of a long packet is one. */
static void by_commands(void) {
    static const uint8_t long_one[1365];
    begin();
    ANSWERS(GOFNJERTA_OK, gofnjerta_set_send_limit(&b, 1000, 2));
    ANSWERS(GOFNJERTA_OK, submit(GOFNJERTA_RELIABLE, 0, ""));
    ANSWERS(GOFNJERTA_OK, submit(0, 1, ""));
    CHECK(counts(2, 0));
    ANSWERS(GOFNJERTA_FULL, submit(GOFNJERTA_RELIABLE, 0, ""));
    CHECK(carry(&b, at_b, &a) == 1);
    CHECK(counts(1, 0));
    ANSWERS(GOFNJERTA_OK, submit(GOFNJERTA_RELIABLE, 0, ""));
    ANSWERS(GOFNJERTA_FULL, submit(GOFNJERTA_RELIABLE, 0, ""));
    settle();
    /* 1,364 bytes are the most that fit into a datagram of 1,392 with its header of 4 and a command's of 24. */
    ANSWERS(GOFNJERTA_OK, gofnjerta_set_send_limit(&b, 0, 0));
    ANSWERS(GOFNJERTA_OK, gofnjerta_submit(&b, from_b, 0, GOFNJERTA_RELIABLE, long_one, sizeof long_one));
    CHECK(counts(2, 1365));
    ANSWERS(GOFNJERTA_FULL, submit(GOFNJERTA_RELIABLE, 0, ""));
    settle();
    CHECK(counts(0, 0));
}

/* Not full once it is acknowledged, and not before; a packet may pass the limit. */
static void again(void) {
    begin();
    ANSWERS(GOFNJERTA_OK, gofnjerta_set_send_limit(&b, 5, 100));
    ANSWERS(GOFNJERTA_OK, submit(GOFNJERTA_RELIABLE, 0, "hello!"));
    CHECK(carry(&b, at_b, &a) == 1);
    ANSWERS(GOFNJERTA_FULL, submit(GOFNJERTA_RELIABLE, 0, "a"));
    CHECK(carry(&a, at_a, &b) == 1);
    ANSWERS(GOFNJERTA_OK, submit(GOFNJERTA_RELIABLE, 0, "a"));
    ANSWERS(GOFNJERTA_OK, submit(GOFNJERTA_RELIABLE, 0, "bbbb"));
    ANSWERS(GOFNJERTA_FULL, submit(GOFNJERTA_RELIABLE, 0, "c"));
    CHECK(counts(2, 5));
    /* What is there stays where the limit is set anew, and what 2^64 - 1 says is never reached. */
    ANSWERS(GOFNJERTA_OK, gofnjerta_set_send_limit(&b, 1, 1));
    CHECK(counts(2, 5));
    ANSWERS(GOFNJERTA_FULL, submit(GOFNJERTA_RELIABLE, 0, "c"));
    ANSWERS(GOFNJERTA_OK, gofnjerta_set_send_limit(&b, UINT64_MAX, UINT64_MAX));
    for (int i = 0; i < 100; i++) ANSWERS(GOFNJERTA_OK, submit(GOFNJERTA_RELIABLE, 0, "c"));
    CHECK(counts(102, 105));
}

/* Brings what A puts out for a host at this port to it; the rest is lost. */
static void bring(uint16_t port, gofnjerta_host *to) {
    uint8_t buffer[GOFNJERTA_ROOM];
    gofnjerta_datagram gave;
    while (gofnjerta_service(&a, buffer, sizeof buffer, &gave) == GOFNJERTA_OK && gave.length)
        if (gave.to.port == port) ANSWERS(GOFNJERTA_OK, gofnjerta_receive(to, at_a, buffer, gave.length, NULL));
}

/* Two fresh hosts, and C that is connected to A, too, with as many channels: the names are A's. */
static void begin_three(gofnjerta_host *c, uint8_t channels, gofnjerta_peer names[2]) {
    gofnjerta_config config = gofnjerta_standard(1, channels);
    gofnjerta_peer from_c;
    begin();
    ANSWERS(GOFNJERTA_OK, gofnjerta_open(c, &config));
    ANSWERS(GOFNJERTA_OK, gofnjerta_connect(c, at_a, channels, 0, 5, &from_c));
    static const gofnjerta_address at_c = {0x0A000003, 7002};
    for (int i = 0; i < 4; i++) carry(c, at_c, &a), bring(at_c.port, c);
    gofnjerta_event event = next(&a);
    CHECK(event.kind == GOFNJERTA_CONNECT && event.peer.slot == 1);
    names[0] = from_a, names[1] = event.peer;
}

/* Of several peers those that are full don't get a packet, which is told, and the others do. The limit holds for peers that come later. */
static void several(void) {
    gofnjerta_host c = {0};
    gofnjerta_peer names[2];
    begin_three(&c, 2, names);
    ANSWERS(GOFNJERTA_OK, gofnjerta_set_send_limit(&a, 3, 100));
    ANSWERS(GOFNJERTA_OK, gofnjerta_submit(&a, from_a, 0, GOFNJERTA_RELIABLE, "abc", 3));
    ANSWERS(GOFNJERTA_FULL, gofnjerta_broadcast(&a, names, 2, 0, GOFNJERTA_RELIABLE, "wxyz", 4));
    gofnjerta_line first, second;
    ANSWERS(GOFNJERTA_OK, gofnjerta_read_line(&a, names[0], &first));
    ANSWERS(GOFNJERTA_OK, gofnjerta_read_line(&a, names[1], &second));
    CHECK(first.commands == 1 && first.bytes == 3 && second.commands == 1 && second.bytes == 4);
    ANSWERS(GOFNJERTA_FULL, gofnjerta_submit(&a, names[1], 0, GOFNJERTA_RELIABLE, "", 0));
    gofnjerta_close(&c);
}

/* Which peers a packet for several doesn't go to, and why: one that is full, one that has gone, one with fewer channels. If one stands
 * among them twice, the packet is submitted to it twice. */
static void each(void) {
    static const uint8_t large[5001];
    gofnjerta_host c = {0};
    gofnjerta_peer names[2];
    begin_three(&c, 1, names);
    gofnjerta_peer all[] = {names[0], {0, names[0].generation + 1}, names[1], {7, 0}, names[1]};
    uint32_t got[6] = {99, 99, 99, 99, 99, 99};
    ANSWERS(GOFNJERTA_OK, gofnjerta_set_send_limit(&a, 3, 100));
    ANSWERS(GOFNJERTA_OK, gofnjerta_submit(&a, names[0], 0, GOFNJERTA_RELIABLE, "abc", 3));
    ANSWERS(GOFNJERTA_OK, gofnjerta_broadcast_each(&a, all, 5, 0, GOFNJERTA_RELIABLE, "wxyz", 4, got));
    CHECK(got[0] == GOFNJERTA_FULL && got[1] == GOFNJERTA_NO_SUCH_PEER && got[2] == GOFNJERTA_OK);
    CHECK(got[3] == GOFNJERTA_NO_SUCH_PEER && got[4] == GOFNJERTA_FULL && got[5] == 99);
    gofnjerta_line first, second;
    ANSWERS(GOFNJERTA_OK, gofnjerta_read_line(&a, names[0], &first));
    ANSWERS(GOFNJERTA_OK, gofnjerta_read_line(&a, names[1], &second));
    CHECK(first.commands == 1 && first.bytes == 3 && second.commands == 1 && second.bytes == 4);
    ANSWERS(GOFNJERTA_OK, gofnjerta_set_send_limit(&a, UINT64_MAX, UINT64_MAX));
    ANSWERS(GOFNJERTA_OK, gofnjerta_broadcast_each(&a, names, 2, 1, GOFNJERTA_RELIABLE, NULL, 0, got));
    CHECK(got[0] == GOFNJERTA_OK && got[1] == GOFNJERTA_NO_SUCH_CHANNEL && got[2] == GOFNJERTA_OK);
    ANSWERS(GOFNJERTA_OK, gofnjerta_broadcast_each(&a, names, 2, 0, GOFNJERTA_RELIABLE, large, sizeof large, got));
    CHECK(got[0] == GOFNJERTA_TOO_LARGE && got[1] == GOFNJERTA_TOO_LARGE);
    ANSWERS(GOFNJERTA_OK, gofnjerta_disconnect(&a, names[1], 0));
    ANSWERS(GOFNJERTA_OK, gofnjerta_broadcast_each(&a, names + 1, 1, 0, GOFNJERTA_RELIABLE, "x", 1, got));
    CHECK(got[0] == GOFNJERTA_NOT_CONNECTED && got[1] == GOFNJERTA_TOO_LARGE);
    bring(at_b.port, &b);
    int packets = 0;
    for (gofnjerta_event event; (event = next(&b)).kind != GOFNJERTA_NONE; packets++) CHECK(event.kind == GOFNJERTA_RECEIVE);
    CHECK(packets == 2); /* what was submitted before, and the one on channel 1 */
    gofnjerta_close(&c);
}

/* So many commands went from B to A, so many of these times again, and so many were acknowledged. */
static bool went(uint64_t sent, uint64_t again, uint64_t acknowledged) {
    gofnjerta_traffic read;
    memset(&read, 0xFF, sizeof read);
    ANSWERS(GOFNJERTA_OK, gofnjerta_read_traffic(&b, from_b, &read));
    return read.sent == sent && read.again == again && read.acknowledged == acknowledged;
}

/* What B puts out is lost. */
static void lose(void) {
    uint8_t buffer[GOFNJERTA_ROOM];
    gofnjerta_datagram gave;
    while (gofnjerta_service(&b, buffer, sizeof buffer, &gave) == GOFNJERTA_OK && gave.length) {}
}

/* A packet that is lost goes again after 500 ms, the first mean of the round trip, and then after 1,000. What asks for no acknowledgement
 * doesn't count, nor what has no data: CONNECT, the ping after 500 ms of silence, DISCONNECT. Each piece of a long packet counts. */
static void traffic(void) {
    static const uint8_t long_one[1365];
    gofnjerta_traffic read = {9, 9, 9};
    begin();
    CHECK(went(0, 0, 0));
    ANSWERS(GOFNJERTA_OK, submit(GOFNJERTA_RELIABLE, 0, "hello"));
    CHECK(went(0, 0, 0));
    lose();
    CHECK(went(1, 0, 0));
    pass(499), lose();
    CHECK(went(1, 0, 0));
    pass(1), lose();
    CHECK(went(2, 1, 0));
    pass(999), lose();
    CHECK(went(2, 1, 0));
    pass(1);
    CHECK(carry(&b, at_b, &a) == 1);
    CHECK(went(3, 2, 0));
    settle();
    CHECK(went(3, 2, 1));
    ANSWERS(GOFNJERTA_OK, submit(0, 0, "once"));
    ANSWERS(GOFNJERTA_OK, submit(GOFNJERTA_UNSEQUENCED, 1, "once"));
    settle();
    CHECK(went(3, 2, 1));
    ANSWERS(GOFNJERTA_OK, gofnjerta_submit(&b, from_b, 1, GOFNJERTA_UNRELIABLE_FRAGMENT, long_one, sizeof long_one));
    settle();
    CHECK(went(3, 2, 1));
    ANSWERS(GOFNJERTA_OK, gofnjerta_submit(&b, from_b, 1, 0, long_one, sizeof long_one));
    settle();
    CHECK(went(5, 2, 3));
    pass(500);
    CHECK(carry(&b, at_b, &a) == 1);
    settle();
    CHECK(went(5, 2, 3));
    ANSWERS(GOFNJERTA_OK, gofnjerta_read_traffic(&a, from_a, &read));
    CHECK(read.sent == 0 && read.again == 0 && read.acknowledged == 0);
    read.sent = 9;
    ANSWERS(GOFNJERTA_NO_SUCH_PEER, gofnjerta_read_traffic(&b, (gofnjerta_peer){0, 1}, &read));
    ANSWERS(GOFNJERTA_NO_SUCH_PEER, gofnjerta_read_traffic(&b, (gofnjerta_peer){2, 0}, &read));
    CHECK(read.sent == 9);
    /* The next connection begins anew. */
    ANSWERS(GOFNJERTA_OK, gofnjerta_disconnect(&b, from_b, 0));
    settle();
    while (next(&a).kind != GOFNJERTA_NONE || next(&b).kind != GOFNJERTA_NONE) {}
    join();
    CHECK(went(0, 0, 0));
}

/* B sends a packet, which is acknowledged after so many milliseconds. The line as B reads it then. */
static gofnjerta_line sampled(uint32_t ms) {
    gofnjerta_line line;
    memset(&line, 0xFF, sizeof line);
    ANSWERS(GOFNJERTA_OK, submit(GOFNJERTA_RELIABLE, 0, "hello"));
    carry(&b, at_b, &a);
    pass(ms);
    carry(&a, at_a, &b);
    ANSWERS(GOFNJERTA_OK, gofnjerta_read_line(&b, from_b, &line));
    return line;
}

/* Round trips of 30, 62 and 66 ms, the second a throttle's interval of 5,000 ms after the first. */
static void line(void) {
    gofnjerta_line read;
    uint32_t allowance = 0;
    begin();
    ANSWERS(GOFNJERTA_OK, gofnjerta_set_ping_interval(&a, from_a, 1000000));
    ANSWERS(GOFNJERTA_OK, gofnjerta_set_ping_interval(&b, from_b, 1000000));
    ANSWERS(GOFNJERTA_OK, submit(GOFNJERTA_RELIABLE, 0, "hello"));
    ANSWERS(GOFNJERTA_OK, submit(GOFNJERTA_RELIABLE, 1, "to you"));
    ANSWERS(GOFNJERTA_OK, submit(GOFNJERTA_UNSEQUENCED, 1, "all"));
    memset(&read, 0xFF, sizeof read);
    ANSWERS(GOFNJERTA_OK, gofnjerta_read_line(&b, from_b, &read));
    CHECK(read.round_trip == 500 && read.variance == 0 && read.lowest == 500 && read.lowest_before == 500 && read.throttle == 32);
    CHECK(read.allowance == 65536 && read.in_transit == 0 && read.commands == 3 && read.bytes == 14);
    carry(&b, at_b, &a);
    ANSWERS(GOFNJERTA_OK, gofnjerta_read_line(&b, from_b, &read));
    CHECK(read.in_transit == 11 && read.commands == 2 && read.bytes == 11);
    begin();
    ANSWERS(GOFNJERTA_OK, gofnjerta_set_ping_interval(&a, from_a, 1000000));
    ANSWERS(GOFNJERTA_OK, gofnjerta_set_ping_interval(&b, from_b, 1000000));
    read = sampled(30); /* the first sample: the variance is 31 / 2 */
    CHECK(read.round_trip == 30 && read.variance == 15 && read.lowest == 30 && read.lowest_before == 30 && read.throttle == 32);
    CHECK(read.allowance == 65545 && read.in_transit == 0 && read.commands == 0 && read.bytes == 0);
    pass(5000);
    read = sampled(62); /* 32 ms above: 15 - 3 + 8, and 30 + 4. It is above 30 + 2 * 15, which lowers the throttle */
    CHECK(read.round_trip == 34 && read.variance == 20 && read.lowest == 34 && read.lowest_before == 30 && read.throttle == 30);
    read = sampled(66); /* 32 ms above: 20 - 5 + 8, and 34 + 4. It isn't above 30 + 2 * 20 */
    CHECK(read.round_trip == 38 && read.variance == 23 && read.lowest == 34 && read.lowest_before == 30 && read.throttle == 30);
    ANSWERS(GOFNJERTA_OK, gofnjerta_read_allowance(&b, from_b, &allowance));
    CHECK(read.allowance == allowance && allowance > 65545);
    gofnjerta_line before = read;
    ANSWERS(GOFNJERTA_NO_SUCH_PEER, gofnjerta_read_line(&b, (gofnjerta_peer){0, 1}, &read));
    ANSWERS(GOFNJERTA_NO_SUCH_PEER, gofnjerta_read_line(&b, (gofnjerta_peer){2, 0}, &read));
    CHECK(!memcmp(&before, &read, sizeof read));
}

static uint32_t ending(gofnjerta_host *host, gofnjerta_peer peer) {
    uint32_t why = 99;
    ANSWERS(GOFNJERTA_OK, gofnjerta_ending(host, peer, &why));
    return why;
}

/* B's host lives on alone until it tells that the connection is over. */
static void until_over(void) {
    uint8_t buffer[GOFNJERTA_ROOM];
    gofnjerta_datagram gave;
    for (int ms = 0; ms < 60000; ms += 10) {
        ANSWERS(GOFNJERTA_OK, gofnjerta_tick(&b, 10));
        while (gofnjerta_service(&b, buffer, sizeof buffer, &gave) == GOFNJERTA_OK && gave.length) {}
        if (next(&b).kind == GOFNJERTA_DISCONNECT) return;
    }
    CHECK(false);
}

/* Why connections end: told before and after the DISCONNECT is taken, until the next one in that slot has ended. */
static void endings(void) {
    begin();
    gofnjerta_peer first = from_b;
    CHECK(ending(&a, from_a) == GOFNJERTA_NO_ENDING && ending(&b, first) == GOFNJERTA_NO_ENDING);
    CHECK(ending(&b, (gofnjerta_peer){1, 0}) == GOFNJERTA_NO_ENDING && ending(&b, (gofnjerta_peer){9, 0}) == GOFNJERTA_NO_ENDING);
    ANSWERS(GOFNJERTA_OK, gofnjerta_disconnect(&b, first, 0));
    CHECK(ending(&b, first) == GOFNJERTA_NO_ENDING);
    settle();
    CHECK(ending(&b, first) == GOFNJERTA_ASKED_HERE && ending(&a, from_a) == GOFNJERTA_ASKED_THERE);
    CHECK(next(&b).kind == GOFNJERTA_DISCONNECT && next(&a).kind == GOFNJERTA_DISCONNECT);
    CHECK(ending(&b, first) == GOFNJERTA_ASKED_HERE && ending(&a, from_a) == GOFNJERTA_ASKED_THERE);
    join();
    CHECK(from_b.slot == first.slot && from_b.generation == first.generation + 1);
    CHECK(ending(&b, first) == GOFNJERTA_ASKED_HERE && ending(&b, from_b) == GOFNJERTA_NO_ENDING);
    gofnjerta_close(&a);
    until_over(); /* A says nothing any more, and B's pings stay unanswered */
    CHECK(ending(&b, first) == GOFNJERTA_NO_ENDING && ending(&b, from_b) == GOFNJERTA_TIMED_OUT);
    ANSWERS(GOFNJERTA_OK, gofnjerta_connect(&b, at_a, 2, 0, 0x11223344, &from_b));
    until_over();
    CHECK(ending(&b, from_b) == GOFNJERTA_NEVER_ANSWERED);
    begin();
    ANSWERS(GOFNJERTA_OK, gofnjerta_disconnect_now(&b, from_b, 0));
    settle();
    CHECK(ending(&b, from_b) == GOFNJERTA_NO_ENDING && ending(&a, from_a) == GOFNJERTA_ASKED_THERE);
}

/* An answer with another deceleration of the throttle than was asked for, which is before its connect id, the last four bytes. */
static void bad_answer(void) {
    uint8_t buffer[GOFNJERTA_ROOM];
    gofnjerta_datagram gave;
    begin();
    ANSWERS(GOFNJERTA_OK, gofnjerta_connect(&b, at_a, 2, 0, 0x01020304, &from_b));
    carry(&b, at_b, &a);
    ANSWERS(GOFNJERTA_OK, gofnjerta_service(&a, buffer, sizeof buffer, &gave));
    CHECK(gave.length > 8);
    CHECK(!memcmp(buffer + gave.length - 8, "\0\0\0\2\1\2\3\4", 8));
    buffer[gave.length - 5] = 3;
    ANSWERS(GOFNJERTA_OK, gofnjerta_receive(&b, at_a, buffer, gave.length, NULL));
    CHECK(ending(&b, from_b) == GOFNJERTA_BAD_ANSWER);
    CHECK(next(&b).kind == GOFNJERTA_DISCONNECT);
    CHECK(ending(&b, from_b) == GOFNJERTA_BAD_ANSWER);
}

int main(void) {
    by_bytes();
    by_commands();
    again();
    several();
    each();
    line();
    traffic();
    endings();
    bad_answer();
    gofnjerta_close(&a), gofnjerta_close(&b);
    return ended("told");
}
