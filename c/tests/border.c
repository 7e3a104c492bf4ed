/* The header against the library: where fields lie, and numbers; and what a call got that is used badly. */
#include "../core.h"
#include "../gofnjerta_layout.h"
#include "check.h"
#include <stdlib.h>
#include <string.h>

static const gofnjerta_address at_a = {0x0A0B0C0D, 7000}, at_b = {0x0E0F1011, 7001};
static const gofnjerta_address shortened = {1, 2};

/* Brings what a host puts out to another one, and tells how many datagrams. */
static int carry(gofnjerta_host *from, gofnjerta_address own, gofnjerta_host *to) {
    uint8_t buffer[GOFNJERTA_ROOM];
    gofnjerta_datagram gave;
    int count = 0;
    while (gofnjerta_service(from, buffer, sizeof buffer, &gave) == GOFNJERTA_OK && gave.length) {
        gofnjerta_received got;
        ANSWERS(GOFNJERTA_OK, gofnjerta_receive(to, own, buffer, gave.length, &got));
        CHECK(got.stop == 0);
        count++;
    }
    return count;
}

static void settle(gofnjerta_host *a, gofnjerta_host *b) {
    while (carry(a, at_a, b) + carry(b, at_b, a)) {}
}

/* Whether the slots of a host stand so. */
static bool stand(gofnjerta_host *host, gofnjerta_slots wanted) {
    gofnjerta_slots slots;
    memset(&slots, 0xFF, sizeof slots);
    return gofnjerta_read_slots(host, &slots) == GOFNJERTA_OK && !memcmp(&slots, &wanted, sizeof slots);
}

/* The names of the numbers: the library's own, for each number that the proved functions know. */
static void names(void) {
    char name[64];
    for (uint32_t number = 1; number < 32; number++) {
        memset(name, 0, sizeof name);
        size_t length = gofnjerta_core_error_name(number, name, sizeof name - 1);
        CHECK(length ? !strcmp(name, gofnjerta_error_name(number)) : !strcmp("?", gofnjerta_error_name(number)));
        CHECK((length > 0) == (number <= 17));
        memset(name, 0, sizeof name);
        length = gofnjerta_core_stop_name(number, name, sizeof name - 1);
        CHECK(length ? !strcmp(name, gofnjerta_stop_name(number)) : !strcmp("?", gofnjerta_stop_name(number)));
        CHECK((length > 0) == (number <= 13));
    }
    CHECK(gofnjerta_core_error_name(0, name, 64) == 0 && gofnjerta_core_error_name(UINT32_MAX, name, 64) == 0);
    CHECK(gofnjerta_core_error_name(GOFNJERTA_TOO_LARGE, name, 10) == 0 && gofnjerta_core_error_name(GOFNJERTA_TOO_LARGE, name, 11) == 11);
    CHECK(!strcmp(gofnjerta_error_name(GOFNJERTA_MEMORY), "E1 Memory") && !strcmp(gofnjerta_error_name(GOFNJERTA_NO_SUCH_PEER), "E2 NoSuchPeer"));
    CHECK(!strcmp(gofnjerta_error_name(GOFNJERTA_NOT_CONNECTED), "E3 NotConnected"));
    CHECK(!strcmp(gofnjerta_error_name(GOFNJERTA_NO_SUCH_CHANNEL), "E4 NoSuchChannel"));
    CHECK(!strcmp(gofnjerta_error_name(GOFNJERTA_TOO_LARGE), "E5 TooLarge") && !strcmp(gofnjerta_error_name(GOFNJERTA_NO_SLOT), "E7 NoSlot"));
    CHECK(!strcmp(gofnjerta_error_name(GOFNJERTA_BAD_CONFIG), "E8 BadConfig") && !strcmp(gofnjerta_error_name(GOFNJERTA_CLOSED), "Closed"));
    CHECK(!strcmp(gofnjerta_error_name(GOFNJERTA_FULL), "E9 Full"));
    CHECK(!strcmp(gofnjerta_error_name(GOFNJERTA_NULL), "Null") && !strcmp(gofnjerta_error_name(GOFNJERTA_NULL + 1), "?"));
    CHECK(!strcmp(gofnjerta_error_name(GOFNJERTA_OK), "OK") && !strcmp(gofnjerta_stop_name(0), "none"));
}

/* Where the fields of the settings lie: each that has a range is refused outside of it, and the others are in the offer of a peer. */
static void settings(void) {
    gofnjerta_config good = gofnjerta_standard(0x0123, 0x45), config;
    CHECK(good.peers == 0x0123 && good.channels == 0x45 && good.mtu == 1392 && good.incoming == 0 && good.outgoing == 0);
    CHECK(good.max_packet == GOFNJERTA_MAX_PACKET && good.max_waiting == GOFNJERTA_MAX_PACKET && good.generations == 1000000 && good.clock == 0);
    gofnjerta_host host = {0};
#define REFUSED(field, value) (config = good, config.field = (value), ANSWERS(GOFNJERTA_BAD_CONFIG, gofnjerta_open(&host, &config)))
    REFUSED(peers, 0);
    REFUSED(peers, 4096);
    REFUSED(channels, 0);
    REFUSED(mtu, 575);
    REFUSED(mtu, 4097);
    REFUSED(max_packet, 0);
    REFUSED(max_packet, GOFNJERTA_MAX_PACKET + 1);
    REFUSED(max_waiting, 0);
    REFUSED(max_waiting, GOFNJERTA_MAX_PACKET + 1);
    REFUSED(generations, 0);
    CHECK(!host.is_open && !host.at);

    config = good;
    config.mtu = 0x0576, config.incoming = 0x01020304, config.outgoing = 0x05060708, config.clock = 0xABCD1234;
    ANSWERS(GOFNJERTA_OK, gofnjerta_open(&host, &config));
    CHECK(host.is_open);
    ANSWERS(GOFNJERTA_OPEN, gofnjerta_open(&host, &config));
    gofnjerta_peer peer = {9, 9};
    ANSWERS(GOFNJERTA_OK, gofnjerta_connect(&host, at_b, 7, 0x11121314, 0x21222324, &peer));
    CHECK(peer.slot == 0 && peer.generation == 0);
    uint8_t buffer[GOFNJERTA_ROOM];
    gofnjerta_datagram gave;
    ANSWERS(GOFNJERTA_OK, gofnjerta_service(&host, buffer, sizeof buffer, &gave));
    /* A CONNECT as ENet 1.3 writes it: header 4, command head 4, slot 2, sessions 2, then eleven numbers of 4 bytes. */
    static const uint8_t offer[] = {
        0x8F, 0xFF, 0x12, 0x34, 0x82, 0xFF, 0, 1, 0, 0, 0xFF, 0xFF, 0, 0, 0x05, 0x76, 0, 1, 0, 0, 0, 0, 0, 7, 1, 2, 3, 4,
        5, 6, 7, 8, 0, 0, 0x13, 0x88, 0, 0, 0, 2, 0, 0, 0, 2, 0x21, 0x22, 0x23, 0x24, 0x11, 0x12, 0x13, 0x14};
    CHECK(gave.length == sizeof offer && gave.to.ip == at_b.ip && gave.to.port == at_b.port);
    for (size_t i = 0; i < sizeof offer; i++)
        if (i < 16 || i > 19) CHECK(buffer[i] == offer[i]); /* the window follows from the bandwidths */
    ANSWERS(GOFNJERTA_OK, gofnjerta_close(&host));
    CHECK(!host.is_open);
    ANSWERS(GOFNJERTA_OK, gofnjerta_close(&host));
}

/* Where the fields of events, readings and totals lie, in a conversation whose numbers are known. */
static void conversation(gofnjerta_host *a, gofnjerta_host *b, gofnjerta_peer *from_b, gofnjerta_peer *from_a) {
    gofnjerta_event event;
    uint8_t body[64];
    CHECK(stand(b, (gofnjerta_slots){.free = 4}));
    ANSWERS(GOFNJERTA_OK, gofnjerta_connect(b, at_a, 2, 0x01020304, 0x11223344, from_b));
    ANSWERS(GOFNJERTA_NOT_CONNECTED, gofnjerta_submit(b, *from_b, 0, GOFNJERTA_RELIABLE, "x", 1));
    carry(b, at_b, a);
    CHECK(stand(b, (gofnjerta_slots){.free = 3, .connecting = 1}) && stand(a, (gofnjerta_slots){.free = 3, .answering = 1}));
    gofnjerta_tick(a, 30), gofnjerta_tick(b, 30);
    settle(a, b);
    ANSWERS(GOFNJERTA_OK, gofnjerta_next_event(b, &event));
    CHECK(event.kind == GOFNJERTA_CONNECT && event.info == 0 && event.peer.slot == from_b->slot);
    ANSWERS(GOFNJERTA_OK, gofnjerta_next_event(a, &event));
    CHECK(event.kind == GOFNJERTA_CONNECT && event.info == 0x01020304 && event.peer.slot == 0 && event.peer.generation == 0);
    *from_a = event.peer;
    CHECK(stand(b, (gofnjerta_slots){.free = 3, .connected = 1}) && stand(a, (gofnjerta_slots){.free = 3, .connected = 1}));
    ANSWERS(GOFNJERTA_UNTOLD, gofnjerta_body(a, body, sizeof body));

    ANSWERS(GOFNJERTA_OK, gofnjerta_submit(b, *from_b, 1, GOFNJERTA_RELIABLE, "hello", 5));
    gofnjerta_reading read;
    carry(b, at_b, a);
    ANSWERS(GOFNJERTA_OK, gofnjerta_read_peer(b, *from_b, &read));
    CHECK(read.state == GOFNJERTA_CONNECTED && read.mtu == 1000 && read.connect_id == 0x11223344 && read.in_transit == 5);
    CHECK(read.address.ip == at_a.ip && read.address.port == at_a.port && read.slot == 0 && read.channels == 2);
    CHECK(read.window == 65536 && read.throttle == 32 && read.throttle_interval == 5000 && read.acceleration == 2 && read.deceleration == 2);
    CHECK(read.round_trip == 500 && read.variance == 0 && read.incoming_session == 0 && read.outgoing_session == 0);
    gofnjerta_tick(a, 30), gofnjerta_tick(b, 30);
    settle(a, b);
    ANSWERS(GOFNJERTA_OK, gofnjerta_read_peer(b, *from_b, &read));
    CHECK(read.round_trip == 30 && read.variance == 15 && read.in_transit == 0);
    ANSWERS(GOFNJERTA_OK, gofnjerta_next_event(a, &event));
    CHECK(event.kind == GOFNJERTA_RECEIVE && event.channel == 1 && event.flags == GOFNJERTA_RELIABLE && event.length == 5 && event.peer.slot == 0);
    ANSWERS(GOFNJERTA_SHORT, gofnjerta_body(a, body, 4));
    ANSWERS(GOFNJERTA_SHORT, gofnjerta_body(a, NULL, 0));
    memset(body, 0xEE, sizeof body);
    ANSWERS(GOFNJERTA_OK, gofnjerta_body(a, body, 6));
    CHECK(!memcmp(body, "hello\xEE\xEE", 7));
    ANSWERS(GOFNJERTA_OK, gofnjerta_body(a, body, 5));
    ANSWERS(GOFNJERTA_OK, gofnjerta_next_event(a, &event));
    CHECK(event.kind == GOFNJERTA_NONE && event.length == 0 && event.channel == 0);
    ANSWERS(GOFNJERTA_UNTOLD, gofnjerta_body(a, body, sizeof body));
}

/* What a host holds, in a conversation whose numbers are known: a packet of 5 bytes that came, and is acknowledged later. Of memory a host has
 * 4,096 bytes and 9,216 for a slot; 9,216 and 672 for a channel, as one comes and one goes; 192 for a packet, 2 for each byte of it and 16 for
 * an acknowledgement. At most a slot has 255 channels, 524,543 packets of 118,508,864 bytes, 262,399 of them with 2,816 bytes more since they
 * can't be taken yet, and 8,192 acknowledgements. */
static void holding(gofnjerta_host *a, gofnjerta_host *b, gofnjerta_peer from_b) {
    static const gofnjerta_held before = {2, 2, 0, 0, 0, 0, 60736, 4317233280}, with = {2, 2, 1, 0, 5, 1, 60954, 4317233280};
    gofnjerta_held held;
    gofnjerta_event event;
    uint32_t bytes = 0;
    ANSWERS(GOFNJERTA_OK, gofnjerta_read_allowance(b, from_b, &bytes));
    CHECK(bytes == 65545); /* a packet of 5 bytes was acknowledged: its price is 33, and 33 / 4 + 2048 * 33 / 65536 is 9 */
    ANSWERS(GOFNJERTA_OK, gofnjerta_read_held(a, &held));
    CHECK(!memcmp(&held, &before, sizeof held));
    ANSWERS(GOFNJERTA_OK, gofnjerta_submit(b, from_b, 0, GOFNJERTA_RELIABLE, "world", 5));
    carry(b, at_b, a);
    ANSWERS(GOFNJERTA_OK, gofnjerta_read_held(a, &held));
    CHECK(!memcmp(&held, &with, sizeof held));
    settle(a, b);
    ANSWERS(GOFNJERTA_OK, gofnjerta_next_event(a, &event));
    CHECK(event.kind == GOFNJERTA_RECEIVE && event.length == 5);
}

/* A packet whose datagram is lost is sent again, and counts until it is acknowledged. */
static void resent(gofnjerta_host *a, gofnjerta_host *b, gofnjerta_peer from_b) {
    uint8_t buffer[GOFNJERTA_ROOM];
    gofnjerta_datagram gave;
    gofnjerta_event event;
    uint64_t commands = 9;
    ANSWERS(GOFNJERTA_OK, gofnjerta_submit(b, from_b, 0, GOFNJERTA_RELIABLE, "lost", 4));
    ANSWERS(GOFNJERTA_OK, gofnjerta_service(b, buffer, sizeof buffer, &gave));
    CHECK(gave.length > 0);
    ANSWERS(GOFNJERTA_OK, gofnjerta_read_sent_again(b, &commands));
    CHECK(commands == 0);
    gofnjerta_tick(a, 200), gofnjerta_tick(b, 200);
    carry(b, at_b, a);
    ANSWERS(GOFNJERTA_OK, gofnjerta_read_sent_again(b, &commands));
    CHECK(commands == 1);
    settle(a, b);
    ANSWERS(GOFNJERTA_OK, gofnjerta_read_sent_again(b, &commands));
    CHECK(commands == 0);
    ANSWERS(GOFNJERTA_OK, gofnjerta_next_event(a, &event));
    CHECK(event.kind == GOFNJERTA_RECEIVE && event.length == 4);
}

/* A body that is staged goes to a peer again and again; an empty one is a packet too. */
static void staged(gofnjerta_host *a, gofnjerta_host *b, gofnjerta_peer from_b) {
    gofnjerta_event event;
    uint8_t body[8] = {0};
    ANSWERS(GOFNJERTA_UNSTAGED, gofnjerta_submit_staged(b, from_b, 0, GOFNJERTA_RELIABLE));
    ANSWERS(GOFNJERTA_OK, gofnjerta_stage(b, "abc", 3));
    ANSWERS(GOFNJERTA_OK, gofnjerta_submit_staged(b, from_b, 0, GOFNJERTA_RELIABLE));
    ANSWERS(GOFNJERTA_NO_SUCH_CHANNEL, gofnjerta_submit_staged(b, from_b, 2, GOFNJERTA_RELIABLE));
    ANSWERS(GOFNJERTA_OK, gofnjerta_submit_staged(b, from_b, 1, GOFNJERTA_UNSEQUENCED));
    ANSWERS(GOFNJERTA_OK, gofnjerta_submit(b, from_b, 0, GOFNJERTA_RELIABLE, NULL, 0));
    settle(a, b);
    int packets = 0, empty = 0;
    while (gofnjerta_next_event(a, &event) == GOFNJERTA_OK && event.kind == GOFNJERTA_RECEIVE) {
        ANSWERS(GOFNJERTA_OK, gofnjerta_body(a, body, sizeof body));
        if (event.length == 0) empty++;
        else CHECK(event.length == 3 && !memcmp(body, "abc", 3) && event.flags == (event.channel ? GOFNJERTA_UNSEQUENCED : GOFNJERTA_RELIABLE));
        packets++;
    }
    CHECK(packets == 3 && empty == 1);
}

/* A packet to several peers: one that has gone is passed by, and the first other refusal is told. */
static void several(gofnjerta_host *a, gofnjerta_host *b, gofnjerta_peer from_b) {
    static uint8_t large[200001];
    gofnjerta_event event;
    gofnjerta_peer names[] = {{from_b.slot, from_b.generation + 1}, from_b, {4, 0}};
    ANSWERS(GOFNJERTA_OK, gofnjerta_broadcast(b, names, 3, 0, GOFNJERTA_RELIABLE, "abc", 3));
    ANSWERS(GOFNJERTA_OK, gofnjerta_broadcast(b, names, 1, 0, GOFNJERTA_RELIABLE, "gone", 4));
    ANSWERS(GOFNJERTA_OK, gofnjerta_broadcast(b, NULL, 0, 0, GOFNJERTA_RELIABLE, "none", 4));
    ANSWERS(GOFNJERTA_NO_SUCH_CHANNEL, gofnjerta_broadcast(b, names, 3, 2, GOFNJERTA_RELIABLE, "abc", 3));
    ANSWERS(GOFNJERTA_TOO_LARGE, gofnjerta_broadcast(b, names, 3, 0, GOFNJERTA_RELIABLE, large, 200001));
    ANSWERS(GOFNJERTA_TOO_LARGE, gofnjerta_broadcast(b, names, 3, 0, GOFNJERTA_RELIABLE, large, (size_t)GOFNJERTA_MAX_PACKET + 1));
    ANSWERS(GOFNJERTA_TOO_LARGE, gofnjerta_broadcast(b, names, SIZE_MAX, 0, GOFNJERTA_RELIABLE, "abc", 3));
    ANSWERS(GOFNJERTA_OK, gofnjerta_broadcast(b, names + 1, 1, 0, GOFNJERTA_RELIABLE, NULL, 0));
    uint32_t got[] = {9, 9, 9};
    ANSWERS(GOFNJERTA_OK, gofnjerta_broadcast_each(b, names, 3, 0, GOFNJERTA_RELIABLE, "abc", 3, got));
    CHECK(got[0] == GOFNJERTA_NO_SUCH_PEER && got[1] == GOFNJERTA_OK && got[2] == GOFNJERTA_NO_SUCH_PEER);
    ANSWERS(GOFNJERTA_OK, gofnjerta_broadcast_each(b, NULL, 0, 0, GOFNJERTA_RELIABLE, "none", 4, NULL));
    ANSWERS(GOFNJERTA_OK, gofnjerta_broadcast_each(b, names, 3, 2, GOFNJERTA_RELIABLE, "abc", 3, got));
    CHECK(got[0] == GOFNJERTA_NO_SUCH_PEER && got[1] == GOFNJERTA_NO_SUCH_CHANNEL && got[2] == GOFNJERTA_NO_SUCH_PEER);
    ANSWERS(GOFNJERTA_TOO_LARGE, gofnjerta_broadcast_each(b, names, 3, 0, GOFNJERTA_RELIABLE, large, (size_t)GOFNJERTA_MAX_PACKET + 1, got));
    ANSWERS(GOFNJERTA_TOO_LARGE, gofnjerta_broadcast_each(b, names, SIZE_MAX, 0, GOFNJERTA_RELIABLE, "abc", 3, got));
    CHECK(got[1] == GOFNJERTA_NO_SUCH_CHANNEL);
    settle(a, b);
    int packets = 0, empty = 0;
    for (; gofnjerta_next_event(a, &event) == GOFNJERTA_OK && event.kind == GOFNJERTA_RECEIVE; packets++) empty += event.length == 0;
    CHECK(packets == 3 && empty == 1);
}

/* Lengths over the limits, channels and peers that aren't there. */
static void beyond(gofnjerta_host *b, gofnjerta_peer from_b) {
    static uint8_t large[200001], buffer[GOFNJERTA_ROOM];
    gofnjerta_peer gone = {from_b.slot, from_b.generation + 1}, beyond_all = {4, 0}, last = {65535, UINT32_MAX};
    gofnjerta_reading read = {.mtu = 5};
    gofnjerta_datagram gave;
    ANSWERS(GOFNJERTA_TOO_LARGE, gofnjerta_submit(b, from_b, 0, GOFNJERTA_RELIABLE, large, 200001));
    ANSWERS(GOFNJERTA_TOO_LARGE, gofnjerta_submit(b, from_b, 0, GOFNJERTA_RELIABLE, large, SIZE_MAX));
    ANSWERS(GOFNJERTA_TOO_LARGE, gofnjerta_stage(b, large, (size_t)GOFNJERTA_MAX_PACKET + 1));
    ANSWERS(GOFNJERTA_TOO_LARGE, gofnjerta_receive(b, at_a, large, SIZE_MAX, NULL));
    ANSWERS(GOFNJERTA_NO_SUCH_CHANNEL, gofnjerta_submit(b, from_b, 2, GOFNJERTA_RELIABLE, "x", 1));
    ANSWERS(GOFNJERTA_NO_SUCH_CHANNEL, gofnjerta_submit(b, from_b, 255, GOFNJERTA_RELIABLE, "x", 1));
    ANSWERS(GOFNJERTA_NO_SUCH_PEER, gofnjerta_submit(b, gone, 0, GOFNJERTA_RELIABLE, "x", 1));
    ANSWERS(GOFNJERTA_NO_SUCH_PEER, gofnjerta_submit(b, beyond_all, 0, GOFNJERTA_RELIABLE, "x", 1));
    ANSWERS(GOFNJERTA_NO_SUCH_PEER, gofnjerta_submit_staged(b, last, 0, GOFNJERTA_RELIABLE));
    ANSWERS(GOFNJERTA_NO_SUCH_PEER, gofnjerta_disconnect(b, gone, 0));
    ANSWERS(GOFNJERTA_NO_SUCH_PEER, gofnjerta_disconnect_now(b, beyond_all, 0));
    ANSWERS(GOFNJERTA_NO_SUCH_PEER, gofnjerta_disconnect_later(b, last, 0));
    ANSWERS(GOFNJERTA_NO_SUCH_PEER, gofnjerta_set_ping_interval(b, gone, 1));
    ANSWERS(GOFNJERTA_NO_SUCH_PEER, gofnjerta_set_timeout(b, gone, 1, 2, 3));
    ANSWERS(GOFNJERTA_NO_SUCH_PEER, gofnjerta_throttle_configure(b, gone, 1, 2, 3));
    ANSWERS(GOFNJERTA_NO_SUCH_PEER, gofnjerta_read_peer(b, gone, &read));
    ANSWERS(GOFNJERTA_NO_SUCH_PEER, gofnjerta_read_allowance(b, gone, &read.mtu));
    CHECK(read.mtu == 5);
    ANSWERS(GOFNJERTA_BAD_CONFIG, gofnjerta_connect(b, at_a, 0, 0, 0, &gone));
    ANSWERS(GOFNJERTA_SHORT, gofnjerta_service(b, buffer, GOFNJERTA_ROOM - 1, &gave));
    CHECK(gave.length == 0);
    ANSWERS(GOFNJERTA_OK, gofnjerta_set_ping_interval(b, from_b, 250));
    ANSWERS(GOFNJERTA_OK, gofnjerta_set_timeout(b, from_b, 0, 0, 0));
    ANSWERS(GOFNJERTA_OK, gofnjerta_set_bandwidth(b, 100000, 200000));
    ANSWERS(GOFNJERTA_OK, gofnjerta_throttle_configure(b, from_b, 4000, 3, 1));
}

/* Peers until no slot is free, and datagrams that are nothing. */
static void crowded(gofnjerta_host *b) {
    gofnjerta_peer peer;
    gofnjerta_received got = {9, 9, 9};
    for (int i = 1; i < 4; i++) {
        ANSWERS(GOFNJERTA_OK, gofnjerta_connect(b, shortened, 255, 0, (uint32_t)i, &peer));
        CHECK(peer.slot == i);
    }
    peer = (gofnjerta_peer){77, 78};
    ANSWERS(GOFNJERTA_NO_SLOT, gofnjerta_connect(b, shortened, 1, 0, 0, &peer));
    CHECK(peer.slot == 77 && peer.generation == 78);
    ANSWERS(GOFNJERTA_OK, gofnjerta_receive(b, at_a, NULL, 0, &got));
    CHECK(got.status == 0 && got.handled == 0 && got.stop == 1);
    ANSWERS(GOFNJERTA_OK, gofnjerta_receive(b, shortened, "\x00\x00\x01", 3, &got));
    CHECK(got.handled == 0 && got.stop == 4);
}

/* A peer that was there: its name means nobody, also when the slot is taken again. */
static void parted(gofnjerta_host *a, gofnjerta_host *b, gofnjerta_peer from_b, gofnjerta_peer from_a) {
    gofnjerta_event event;
    gofnjerta_reading read;
    gofnjerta_totals in, out;
    settle(a, b);
    while (gofnjerta_next_event(a, &event) == GOFNJERTA_OK && event.kind) {}
    ANSWERS(GOFNJERTA_OK, gofnjerta_disconnect(b, from_b, 0x0A0B0C0D));
    CHECK(stand(b, (gofnjerta_slots){.free = 3, .leaving = 1}));
    ANSWERS(GOFNJERTA_NOT_CONNECTED, gofnjerta_disconnect(b, from_b, 0));
    ANSWERS(GOFNJERTA_NOT_CONNECTED, gofnjerta_submit(b, from_b, 0, GOFNJERTA_RELIABLE, "x", 1));
    settle(a, b);
    ANSWERS(GOFNJERTA_OK, gofnjerta_next_event(a, &event));
    CHECK(event.kind == GOFNJERTA_DISCONNECT && event.info == 0x0A0B0C0D && event.peer.slot == from_a.slot);
    ANSWERS(GOFNJERTA_NO_SUCH_PEER, gofnjerta_submit(a, from_a, 0, GOFNJERTA_RELIABLE, "x", 1));
    ANSWERS(GOFNJERTA_OK, gofnjerta_next_event(b, &event));
    CHECK(event.kind == GOFNJERTA_DISCONNECT && event.info == 0);
    ANSWERS(GOFNJERTA_NO_SUCH_PEER, gofnjerta_read_peer(b, from_b, &read));
    gofnjerta_peer next;
    ANSWERS(GOFNJERTA_OK, gofnjerta_connect(b, at_a, 2, 0, 5, &next));
    CHECK(next.slot == from_b.slot && next.generation == from_b.generation + 1);
    ANSWERS(GOFNJERTA_NO_SUCH_PEER, gofnjerta_read_peer(b, from_b, &read));
    ANSWERS(GOFNJERTA_OK, gofnjerta_read_peer(b, next, &read));
    CHECK(read.state == GOFNJERTA_CONNECTING && read.connect_id == 5 && read.round_trip == 500);
    ANSWERS(GOFNJERTA_OK, gofnjerta_read_totals(a, &in));
    ANSWERS(GOFNJERTA_OK, gofnjerta_read_totals(b, &out));
    CHECK(in.datagrams_in > 3 && in.bytes_in > 8 * in.datagrams_in && in.datagrams_out > 3 && in.bytes_out > 4 * in.datagrams_out);
    CHECK(out.datagrams_in == in.datagrams_out && out.bytes_in == in.bytes_out);
}

/* A client from a port of its own connects, and is told the sent time, the number of VERIFY_CONNECT and the sessions that are wanted. */
static gofnjerta_peer drawn(gofnjerta_host *server, uint16_t port, uint16_t time, uint16_t number, uint8_t incoming, uint8_t outgoing) {
    gofnjerta_host client = {0};
    gofnjerta_config config = gofnjerta_standard(1, 1);
    gofnjerta_address from = {at_b.ip, port};
    uint8_t buffer[GOFNJERTA_ROOM];
    gofnjerta_peer peer;
    gofnjerta_datagram gave;
    gofnjerta_event event;
    ANSWERS(GOFNJERTA_OK, gofnjerta_open(&client, &config));
    ANSWERS(GOFNJERTA_OK, gofnjerta_connect(&client, at_a, 1, 0, port, &peer));
    carry(&client, from, server);
    ANSWERS(GOFNJERTA_OK, gofnjerta_service(server, buffer, sizeof buffer, &gave));
    CHECK(gave.length == 48 && gave.to.port == port && buffer[4] == 0x83 && buffer[5] == 0xFF);
    CHECK((buffer[2] << 8 | buffer[3]) == time && (buffer[6] << 8 | buffer[7]) == number);
    CHECK(buffer[10] == incoming && buffer[11] == outgoing);
    ANSWERS(GOFNJERTA_OK, gofnjerta_receive(&client, at_a, buffer, gave.length, NULL));
    carry(&client, from, server);
    ANSWERS(GOFNJERTA_OK, gofnjerta_next_event(server, &event));
    CHECK(event.kind == GOFNJERTA_CONNECT);
    gofnjerta_close(&client);
    return event.peer;
}

/* What a host with the secret 0, 1 to 31 draws at a clock of 100: `openssl enc -chacha20` of zeros, with this key and the iv of 8 zeros, the
 * generation and the slot (4 bytes each, low byte first), begins with fd39 and c5d9 in the low halves of its first two words, 1 and 0 in the
 * low bits of the next two, for slot 0; with 182e, d9f4, 1 and 0 for slot 1; with a42f and 8050 for slot 0 in generation 1. The answer has
 * the number after the drawn one, and tells the client the sessions after the drawn ones, the other way round; in generation 1 those after. */
static void secret(void) {
    gofnjerta_host host = {0};
    gofnjerta_config config = gofnjerta_standard(2, 1);
    uint8_t key[32];
    for (uint8_t i = 0; i < 32; i++) key[i] = i;
    config.clock = 100;
    ANSWERS(GOFNJERTA_OK, gofnjerta_open(&host, &config));
    ANSWERS(GOFNJERTA_OK, gofnjerta_set_secret(&host, key));
    gofnjerta_peer first = drawn(&host, 1, 0xFD39 + 100, 0xC5DA, 1, 2);
    gofnjerta_peer second = drawn(&host, 2, 0x182E + 100, 0xD9F5, 1, 2);
    CHECK(first.slot == 0 && second.slot == 1);
    ANSWERS(GOFNJERTA_OK, gofnjerta_disconnect_now(&host, first, 0));
    gofnjerta_datagram gave;
    uint8_t buffer[GOFNJERTA_ROOM];
    while (gofnjerta_service(&host, buffer, sizeof buffer, &gave) == GOFNJERTA_OK && gave.length) {}
    gofnjerta_peer next = drawn(&host, 3, 0xA42F + 100, 0x8051, 2, 3);
    CHECK(next.slot == 0 && next.generation == 1);
    ANSWERS(GOFNJERTA_OK, gofnjerta_close(&host));
}

/* A CONNECT of a client at a port of its own comes; the stop with which it is answered. */
static uint32_t knocks(gofnjerta_host *server, gofnjerta_host *client, uint16_t port) {
    gofnjerta_config config = gofnjerta_standard(1, 1);
    gofnjerta_address from = {at_b.ip, port};
    uint8_t buffer[GOFNJERTA_ROOM];
    gofnjerta_peer peer;
    gofnjerta_datagram gave;
    gofnjerta_received got;
    ANSWERS(GOFNJERTA_OK, gofnjerta_open(client, &config));
    ANSWERS(GOFNJERTA_OK, gofnjerta_connect(client, at_a, 1, 0, port, &peer));
    ANSWERS(GOFNJERTA_OK, gofnjerta_service(client, buffer, sizeof buffer, &gave));
    ANSWERS(GOFNJERTA_OK, gofnjerta_receive(server, from, buffer, gave.length, &got));
    return got.stop;
}

/* Of two slots the one gives way whose client waits longest, once the host is told so. Of two clients that confirm one is let in, and the
 * other is told that the host is full, and lets go without an event. */
static void admission(void) {
    gofnjerta_host server = {0}, clients[4] = {0};
    gofnjerta_config config = gofnjerta_standard(2, 1);
    gofnjerta_event event;
    ANSWERS(GOFNJERTA_OK, gofnjerta_open(&server, &config));
    ANSWERS(GOFNJERTA_BAD_CONFIG, gofnjerta_set_most(&server, 0));
    ANSWERS(GOFNJERTA_BAD_CONFIG, gofnjerta_set_most(&server, 3));
    ANSWERS(GOFNJERTA_OK, gofnjerta_set_most(&server, 1));
    CHECK(knocks(&server, &clients[0], 1) == 0);
    ANSWERS(GOFNJERTA_OK, gofnjerta_tick(&server, 10));
    CHECK(knocks(&server, &clients[1], 2) == 0 && knocks(&server, &clients[2], 3) == 13);
    ANSWERS(GOFNJERTA_OK, gofnjerta_give_way(&server));
    CHECK(knocks(&server, &clients[3], 4) == 0);
    uint8_t buffer[GOFNJERTA_ROOM];
    gofnjerta_datagram gave;
    while (gofnjerta_service(&server, buffer, sizeof buffer, &gave) == GOFNJERTA_OK && gave.length) {
        CHECK(gave.to.port == 2 || gave.to.port == 4); /* the client at port 1 gave way, with no event */
        gofnjerta_host *client = &clients[gave.to.port - 1];
        ANSWERS(GOFNJERTA_OK, gofnjerta_receive(client, at_a, buffer, gave.length, NULL));
        carry(client, gave.to, &server);
    }
    ANSWERS(GOFNJERTA_OK, gofnjerta_next_event(&server, &event));
    CHECK(event.kind == GOFNJERTA_CONNECT);
    ANSWERS(GOFNJERTA_OK, gofnjerta_next_event(&server, &event));
    CHECK(event.kind == GOFNJERTA_NONE);
    for (size_t i = 0; i < 4; i++) gofnjerta_close(&clients[i]);
    ANSWERS(GOFNJERTA_OK, gofnjerta_close(&server));
}

/* A slot whose one generation was had by a peer that never connected. */
static void spent(void) {
    gofnjerta_host host = {0};
    gofnjerta_config config = gofnjerta_standard(2, 1);
    gofnjerta_peer peer;
    config.generations = 1;
    ANSWERS(GOFNJERTA_OK, gofnjerta_open(&host, &config));
    ANSWERS(GOFNJERTA_OK, gofnjerta_connect(&host, at_a, 1, 0, 5, &peer));
    ANSWERS(GOFNJERTA_OK, gofnjerta_disconnect_now(&host, peer, 0));
    CHECK(stand(&host, (gofnjerta_slots){.free = 1, .spent = 1}));
    ANSWERS(GOFNJERTA_OK, gofnjerta_close(&host));
}

/* A handle that holds no host, and pointers to nothing. */
static void nothing(void) {
    gofnjerta_host host = {0};
    gofnjerta_peer peer = {1, 2};
    gofnjerta_config config = gofnjerta_standard(4, 2);
    gofnjerta_event event = {.kind = 9};
    gofnjerta_datagram gave = {.length = 9};
    gofnjerta_received got = {9, 9, 9};
    gofnjerta_reading read = {.mtu = 9};
    gofnjerta_line line = {.bytes = 9};
    gofnjerta_traffic traffic = {.again = 9};
    gofnjerta_totals totals = {.bytes_in = 9};
    gofnjerta_held held = {.bytes = 9};
    gofnjerta_slots slots = {.free = 9};
    uint32_t ms = 9, answer = 9;
    uint64_t commands = 9;
    uint8_t buffer[GOFNJERTA_ROOM], key[32] = {7};
#define BOTH(call, ...) (ANSWERS(GOFNJERTA_CLOSED, gofnjerta_##call(&host, ##__VA_ARGS__)), ANSWERS(GOFNJERTA_NULL, gofnjerta_##call(NULL, ##__VA_ARGS__)))
    BOTH(connect, at_a, 2, 0, 0, &peer);
    BOTH(submit, peer, 0, 0, "x", 1);
    BOTH(stage, "x", 1);
    BOTH(submit_staged, peer, 0, 0);
    BOTH(broadcast, &peer, 1, 0, 0, "x", 1);
    BOTH(broadcast_each, &peer, 1, 0, 0, "x", 1, &answer);
    BOTH(receive, at_a, "x", 1, &got);
    BOTH(service, buffer, sizeof buffer, &gave);
    BOTH(tick, 1);
    BOTH(next_event, &event);
    BOTH(body, buffer, 1);
    BOTH(disconnect, peer, 0);
    BOTH(disconnect_now, peer, 0);
    BOTH(disconnect_later, peer, 0);
    BOTH(set_bandwidth, 0, 0);
    BOTH(set_send_limit, 1, 2);
    BOTH(set_secret, key);
    BOTH(give_way);
    BOTH(set_most, 1);
    BOTH(throttle_configure, peer, 1, 2, 3);
    BOTH(set_ping_interval, peer, 1);
    BOTH(set_timeout, peer, 1, 2, 3);
    BOTH(read_peer, peer, &read);
    BOTH(read_line, peer, &line);
    BOTH(read_traffic, peer, &traffic);
    BOTH(ending, peer, &ms);
    BOTH(read_allowance, peer, &ms);
    BOTH(read_totals, &totals);
    BOTH(read_held, &held);
    BOTH(read_slots, &slots);
    BOTH(read_sent_again, &commands);
    BOTH(due_in, &ms);
    CHECK(held.bytes == 9 && slots.free == 9 && commands == 9 && line.bytes == 9 && traffic.again == 9);
    CHECK(peer.slot == 1 && peer.generation == 2 && got.stop == 9 && read.mtu == 9 && totals.bytes_in == 9 && ms == 9 && answer == 9);
    CHECK(event.kind == GOFNJERTA_NONE && gave.length == 0 && !host.is_open && !host.at);
    ANSWERS(GOFNJERTA_NULL, gofnjerta_close(NULL));
    ANSWERS(GOFNJERTA_NULL, gofnjerta_open(NULL, &config));
    ANSWERS(GOFNJERTA_NULL, gofnjerta_open(&host, NULL));
    ANSWERS(GOFNJERTA_OK, gofnjerta_open(&host, &config));
    ANSWERS(GOFNJERTA_NULL, gofnjerta_connect(&host, at_a, 2, 0, 0, NULL));
    ANSWERS(GOFNJERTA_NULL, gofnjerta_submit(&host, peer, 0, 0, NULL, 1));
    ANSWERS(GOFNJERTA_NULL, gofnjerta_stage(&host, NULL, 1));
    ANSWERS(GOFNJERTA_NULL, gofnjerta_broadcast(&host, NULL, 1, 0, 0, "x", 1));
    ANSWERS(GOFNJERTA_NULL, gofnjerta_broadcast(&host, &peer, 1, 0, 0, NULL, 1));
    ANSWERS(GOFNJERTA_NULL, gofnjerta_broadcast_each(&host, NULL, 1, 0, 0, "x", 1, &answer));
    ANSWERS(GOFNJERTA_NULL, gofnjerta_broadcast_each(&host, &peer, 1, 0, 0, NULL, 1, &answer));
    ANSWERS(GOFNJERTA_NULL, gofnjerta_broadcast_each(&host, &peer, 1, 0, 0, "x", 1, NULL));
    ANSWERS(GOFNJERTA_NULL, gofnjerta_receive(&host, at_a, NULL, 1, NULL));
    ANSWERS(GOFNJERTA_NULL, gofnjerta_service(&host, NULL, sizeof buffer, &gave));
    ANSWERS(GOFNJERTA_NULL, gofnjerta_service(&host, buffer, sizeof buffer, NULL));
    ANSWERS(GOFNJERTA_NULL, gofnjerta_next_event(&host, NULL));
    ANSWERS(GOFNJERTA_NULL, gofnjerta_body(&host, NULL, 1));
    ANSWERS(GOFNJERTA_NULL, gofnjerta_read_peer(&host, peer, NULL));
    ANSWERS(GOFNJERTA_NULL, gofnjerta_read_line(&host, peer, NULL));
    ANSWERS(GOFNJERTA_NULL, gofnjerta_read_traffic(&host, peer, NULL));
    ANSWERS(GOFNJERTA_NULL, gofnjerta_ending(&host, peer, NULL));
    ANSWERS(GOFNJERTA_NULL, gofnjerta_read_allowance(&host, peer, NULL));
    ANSWERS(GOFNJERTA_NULL, gofnjerta_read_totals(&host, NULL));
    ANSWERS(GOFNJERTA_NULL, gofnjerta_read_held(&host, NULL));
    ANSWERS(GOFNJERTA_NULL, gofnjerta_read_slots(&host, NULL));
    ANSWERS(GOFNJERTA_NULL, gofnjerta_read_sent_again(&host, NULL));
    ANSWERS(GOFNJERTA_NULL, gofnjerta_due_in(&host, NULL));
    ANSWERS(GOFNJERTA_NULL, gofnjerta_set_secret(&host, NULL));
    ANSWERS(GOFNJERTA_OK, gofnjerta_due_in(&host, &ms));
    CHECK(ms == 1000); /* nothing but the sharing of the bandwidth */
    ANSWERS(GOFNJERTA_OK, gofnjerta_tick(&host, 400));
    ANSWERS(GOFNJERTA_OK, gofnjerta_due_in(&host, &ms));
    CHECK(ms == 600);
    ANSWERS(GOFNJERTA_OK, gofnjerta_connect(&host, at_a, 2, 0, 5, &peer));
    ANSWERS(GOFNJERTA_OK, gofnjerta_service(&host, buffer, sizeof buffer, &gave));
    ANSWERS(GOFNJERTA_OK, gofnjerta_due_in(&host, &ms));
    CHECK(gave.length && ms == 500); /* the CONNECT goes again */
    ANSWERS(GOFNJERTA_OK, gofnjerta_tick(&host, 500));
    ANSWERS(GOFNJERTA_OK, gofnjerta_due_in(&host, &ms));
    CHECK(ms == 100);
    ANSWERS(GOFNJERTA_OK, gofnjerta_close(&host));
}

/* The library has the header's version, of which each part has a byte of its own (scripts/check/check-documents.py compares it with VERSION). */
static void version(void) {
    CHECK(gofnjerta_version() == GOFNJERTA_VERSION);
    CHECK(gofnjerta_version() >> 16 == GOFNJERTA_VERSION_MAJOR && (gofnjerta_version() >> 8 & 255) == GOFNJERTA_VERSION_MINOR);
    CHECK((gofnjerta_version() & 255) == GOFNJERTA_VERSION_PATCH);
}

int main(void) {
    gofnjerta_host a = {0}, b = {0};
    gofnjerta_config config = gofnjerta_standard(4, 3);
    gofnjerta_peer from_a, from_b;
    names();
    version();
    settings();
    secret();
    admission();
    spent();
    nothing();
    config.mtu = 1000, config.max_packet = 200000;
    ANSWERS(GOFNJERTA_OK, gofnjerta_open(&a, &config));
    ANSWERS(GOFNJERTA_OK, gofnjerta_open(&b, &config));
    conversation(&a, &b, &from_b, &from_a);
    holding(&a, &b, from_b);
    resent(&a, &b, from_b);
    staged(&a, &b, from_b);
    several(&a, &b, from_b);
    beyond(&b, from_b);
    parted(&a, &b, from_b, from_a);
    crowded(&b);
    gofnjerta_close(&a);
    gofnjerta_close(&b);
    return ended("border");
}
