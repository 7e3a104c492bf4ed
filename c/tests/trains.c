/* Datagrams for one peer that leave by one call of the system's, a train (UDP_SEGMENT), over a network and a clock in memory
 * (memory_net.h):
 * - packets of all kinds and lengths to several peers, some of whose datagrams are lost: each datagram goes once, and in the order in which
 *   it goes on a system that has no trains, also behind a compressor and a checksum, and if the system now and then refuses a train;
 * - a packet of 20,000 bytes leaves by two calls at most, and nothing waits for the next call;
 * - if one destination refuses trains, of any length or of some, others get theirs; a system that has none isn't asked again, unless the
 *   program puts another socket into the host. */
#include "../gofnjerta.h"
#include "memory_net.h"
#include <enet/enet.h>
#include <errno.h>
#include <string.h>
#include "check.h"

enum { CLIENTS = 3, PEERS = 4, STEPS = 300, DRAINS = 2000, LONGEST = 60000, LONG = 20000 };

/* What a run comes to: of each client a sum over the datagrams that went to it, how many there were, and how many packets it got. */
typedef struct {
    uint64_t sum[CLIENTS];
    unsigned datagrams[CLIENTS], packets[CLIENTS];
    uint64_t calls, refused; /* the server's calls that sent something, and those that were refused a train */
} Outcome;

static ENetHost *server, *clients[CLIENTS];
static ENetPeer *guests[CLIENTS];
static Outcome now;
static uint32_t given[CLIENTS], taken[CLIENTS]; /* reliable packets that have a number */
static uint64_t dice_state;

/* A number below n, by a generator of its own (xorshift). */
static unsigned dice(unsigned n) {
    dice_state ^= dice_state << 13;
    dice_state ^= dice_state >> 7;
    dice_state ^= dice_state << 17;
    return (unsigned)((dice_state >> 33) % n);
}

/* The packets of channel 0, which are reliable, come in order, each once. */
static void take(int which, enet_uint8 channel, const ENetPacket *packet) {
    uint32_t number;
    now.packets[which]++;
    if (channel || packet->dataLength < sizeof number) return;
    memcpy(&number, packet->data, sizeof number);
    CHECK(number == taken[which]);
    taken[which]++;
}

/* A host's events; `which` is the client's number. */
static void serve(ENetHost *host, int which) {
    ENetEvent event;
    int told;
    uint64_t calls = net_calls();
    while ((told = enet_host_service(host, &event, 0)) > 0) {
        if (event.type == ENET_EVENT_TYPE_CONNECT && which < 0) guests[event.data] = event.peer;
        if (event.type != ENET_EVENT_TYPE_RECEIVE) continue;
        if (which >= 0) take(which, event.channelID, event.packet);
        enet_packet_destroy(event.packet);
    }
    if (which < 0) now.calls += net_calls() - calls;
    CHECK(told == 0);
}

/* Adds a datagram that flies to the sum of its client. */
static void add(const NetDatagram *flight) {
    for (int i = 0; i < CLIENTS; i++) {
        if (!guests[i] || flight->to != guests[i]->address.port) continue;
        now.datagrams[i]++;
        now.sum[i] = (now.sum[i] ^ flight->length) * 0x100000001B3;
        for (size_t n = 0; n < flight->length; n++) now.sum[i] = (now.sum[i] ^ flight->bytes[n]) * 0x100000001B3;
    }
}

/* All that flies comes, but for each 23rd datagram where some are lost. */
static void bring_all(bool loses) {
    while (net_flying()) {
        add(net_flight(0));
        if (loses && net_flight(0)->moment % 23 == 7) net_drop(0);
        else net_bring(0);
    }
}

/* All hosts are served, so many times, 10 ms apart. */
static void pump(int rounds, bool loses) {
    for (; rounds > 0; rounds--) {
        serve(server, -1);
        bring_all(loses);
        for (int i = 0; i < CLIENTS; i++) serve(clients[i], i);
        bring_all(loses);
        net_go_on(10);
    }
}

static void begin(bool has_trains, void (*dress)(ENetHost *host)) {
    ENetAddress home = {.port = ENET_PORT_ANY};
    enet_address_set_host_ip(&home, "127.0.0.1");
    net_begin(5000, has_trains);
    memset(guests, 0, sizeof guests);
    server = enet_host_create(&home, PEERS, 2, 0, 0);
    if (dress) dress(server);
    for (int i = 0; i < CLIENTS; i++) {
        clients[i] = enet_host_create(NULL, 1, 2, 0, 0);
        if (dress) dress(clients[i]);
        enet_host_connect(clients[i], &server->address, 2, (enet_uint32)i);
    }
    pump(12, false);
    for (int i = 0; i < CLIENTS; i++) CHECK(guests[i] && guests[i]->state == ENET_PEER_STATE_CONNECTED);
    now = (Outcome){0};
    memset(given, 0, sizeof given);
    memset(taken, 0, sizeof taken);
    dice_state = 0x2545F4914F6CDD1D;
}

static void finish(void) {
    for (int i = 0; i < CLIENTS; i++) enet_host_destroy(clients[i]);
    enet_host_destroy(server);
    net_begin(0, false);
}

static void give(int which, size_t length, enet_uint32 flags) {
    static uint8_t body[LONGEST];
    for (size_t i = 0; i < sizeof given[which]; i++) body[i] = (uint8_t)(given[which] >> 8 * i);
    for (size_t i = sizeof given[which]; i < length; i++) body[i] = (uint8_t)(i * 31 >> dice(3));
    ENetPacket *packet = enet_packet_create(body, length, flags);
    CHECK(packet && enet_peer_send(guests[which], flags & ENET_PACKET_FLAG_RELIABLE ? 0 : 1, packet) == 0);
    if (length >= sizeof given[which] && flags & ENET_PACKET_FLAG_RELIABLE) given[which]++;
}

/* Some packets for a client: of one length, or of as many as there are. */
static void give_some(int which) {
    static const enet_uint32 kinds[] = {ENET_PACKET_FLAG_RELIABLE, ENET_PACKET_FLAG_RELIABLE, 0, ENET_PACKET_FLAG_UNSEQUENCED,
                                        ENET_PACKET_FLAG_UNRELIABLE_FRAGMENT};
    static const unsigned ranges[] = {40, 1000, 1400, 3000, 20000};
    unsigned length = dice(ranges[dice(5)]), few = length > 3000 ? 1 : 1 + dice(9);
    bool is_one = dice(2);
    enet_uint32 kind = kinds[dice(5)];
    for (; few > 0; few--, length = is_one ? length : dice(length + 1)) give(which, length, kind);
}

/* A run, in which now and then the system refuses the next trains by this error. */
static Outcome run(bool has_trains, int error, void (*dress)(ENetHost *host)) {
    begin(has_trains, dress);
    for (int step = 0; step < STEPS; step++) {
        for (int i = 0; i < CLIENTS; i++)
            if (dice(2)) give_some(i);
        unsigned trains = dice(4) ? 0 : 1 + dice(3);
        if (error) net_fail(NET_TRAIN, trains, error);
        pump(1, true);
    }
    net_fail(NET_TRAIN, 0, 0);
    for (int i = 0; i < DRAINS && memcmp(given, taken, sizeof given); i++) pump(1, true);
    CHECK(memcmp(given, taken, sizeof given) == 0);
    now.refused = net_refused();
    Outcome outcome = now;
    finish();
    return outcome;
}

static bool is_same(const Outcome *one, const Outcome *other) {
    return memcmp(one->sum, other->sum, sizeof one->sum) == 0 && memcmp(one->datagrams, other->datagrams, sizeof one->datagrams) == 0 &&
           memcmp(one->packets, other->packets, sizeof one->packets) == 0;
}

static void dress_coder(ENetHost *host) {
    host->checksum = enet_crc32;
    CHECK(enet_host_compress_with_range_coder(host) == 0);
}

static void same_order(void) {
    static const int errors[] = {EMSGSIZE, EINVAL, EIO, EAGAIN, EINTR, ENOBUFS, ENOMEM, EPERM, EOPNOTSUPP, ENOPROTOOPT};
    Outcome alone = run(false, 0, NULL), plain = run(true, 0, NULL);
    CHECK(is_same(&plain, &alone) && plain.refused == 0 && plain.calls * 2 < alone.calls);
    printf("%u datagrams by %llu calls, without trains by %llu\n", plain.datagrams[0] + plain.datagrams[1] + plain.datagrams[2],
           (unsigned long long)plain.calls, (unsigned long long)alone.calls);
    for (size_t i = 0; i < sizeof errors / sizeof *errors; i++) {
        Outcome refused = run(true, errors[i], NULL);
        CHECK(is_same(&refused, &alone) && refused.refused > 0);
    }
    alone = run(false, 0, dress_coder);
    plain = run(true, 0, dress_coder);
    CHECK(is_same(&plain, &alone) && plain.refused == 0 && plain.calls < alone.calls);
}

/* Datagrams and calls of a flush, behind which nothing waits. */
static void leaves(int which, enet_uint32 flags) {
    uint64_t calls = net_calls(), moment = net_moment();
    unsigned before = now.packets[which];
    give(which, LONG, flags);
    enet_host_flush(server);
    uint64_t datagrams = net_moment() - moment;
    CHECK(datagrams >= LONG / 1400 && datagrams <= LONG / 1300 && net_calls() - calls <= 2);
    enet_host_flush(server);
    CHECK(net_moment() - moment == datagrams);
    pump(4, false);
    CHECK(now.packets[which] == before + 1);
}

static void few_calls(void) {
    begin(true, NULL);
    for (int round = 0; round < 20; round++)
        for (int i = 0; i < CLIENTS; i++) leaves(i, round % 2 ? ENET_PACKET_FLAG_RELIABLE : ENET_PACKET_FLAG_UNRELIABLE_FRAGMENT);
    uint64_t calls = net_calls(), moment = net_moment();
    for (int i = 0; i < CLIENTS; i++) give(i, LONG, ENET_PACKET_FLAG_RELIABLE);
    enet_host_service(server, NULL, 0);
    CHECK(net_moment() - moment >= CLIENTS * (LONG / 1400) && net_calls() - calls <= 2 * CLIENTS);
    pump(4, false);
    moment = net_moment();
    enet_peer_disconnect_now(guests[0], 0);
    CHECK(net_moment() == moment + 1);
    finish();
}

/* So many datagrams of one length leave by as few trains as the system's limits allow, of 64 datagrams and 65,507 bytes. */
static void leave(unsigned count, size_t length, unsigned wanted) {
    uint64_t calls = net_calls(), moment = net_moment();
    for (unsigned n = 0; n < count; n++) give(0, length, 0);
    enet_host_flush(server);
    CHECK(net_moment() - moment == count && net_calls() - calls == wanted);
    unsigned before = now.packets[0];
    pump(4, false);
    CHECK(now.packets[0] == before + count);
}

static void long_trains(void) {
    begin(true, NULL);
    leave(130, 700, 3);
    leave(90, 1300, 2);
    finish();
}

/* How many trains go if the first two clients are each sent four packets of this length, one to a datagram, all of which come. */
static unsigned trains_of_both(size_t length) {
    uint64_t trains = net_trains();
    unsigned before = now.packets[0] + now.packets[1];
    for (int n = 0; n < 8; n++) give(n % 2, length, ENET_PACKET_FLAG_RELIABLE);
    serve(server, -1);
    unsigned count = (unsigned)(net_trains() - trains);
    pump(4, false);
    CHECK(now.packets[0] + now.packets[1] == before + 8);
    return count;
}

/* The first client's destination refuses trains by this error, which is of the length or not. */
static void refuses(int error, bool is_of_length) {
    begin(true, NULL);
    CHECK(trains_of_both(1300) == 2);
    net_fail_to(guests[0]->address.port, 0, error);
    CHECK(trains_of_both(1300) == 1 && net_refused() == 1);
    CHECK(trains_of_both(1300) == 1 && trains_of_both(1350) == 1 && net_refused() == 1);
    net_fail_to(0, 0, 0);
    CHECK(trains_of_both(1300) == 1);
    CHECK(trains_of_both(1200) == (is_of_length ? 2 : 1));
    enet_peer_disconnect_now(&clients[0]->peers[0], 0);
    pump(4, false);
    enet_host_connect(clients[0], &server->address, 2, 0);
    pump(6, false);
    given[0] = taken[0] = 0;
    CHECK(trains_of_both(1300) == 2);
    finish();
}

/* A system that lacks trains after all, or the moment's memory. */
static void refused_to_all(void) {
    begin(true, NULL);
    net_fail_to(guests[0]->address.port, 0, ENOBUFS);
    CHECK(trains_of_both(1300) == 1 && trains_of_both(1300) == 1 && net_refused() == 2);
    net_fail_to(guests[0]->address.port, 0, EOPNOTSUPP);
    CHECK(trains_of_both(1300) <= 1 && net_refused() == 3); /* the other one's may go before */
    net_fail_to(0, 0, 0);
    CHECK(trains_of_both(1300) == 0);
    finish();
}

/* The program serves the host by a socket of its own, on a system with trains or without. */
static void change_socket(bool has_trains) {
    net_have_trains(has_trains);
    ENetSocket other = enet_socket_create(ENET_SOCKET_TYPE_DATAGRAM);
    enet_socket_bind(other, &server->address);
    enet_socket_destroy(server->socket);
    server->socket = other;
    CHECK(trains_of_both(1300) == (has_trains ? 2 : 0));
}

static void sockets(void) {
    begin(true, NULL);
    CHECK(trains_of_both(1300) == 2);
    change_socket(false);
    change_socket(true);
    finish();
    begin(false, NULL);
    CHECK(trains_of_both(1300) == 0);
    change_socket(true);
    change_socket(false);
    finish();
}

int main(void) {
    same_order();
    few_calls();
    long_trains();
    refuses(EMSGSIZE, true);
    refuses(EINVAL, true);
    refuses(EIO, false);
    refused_to_all();
    sockets();
    return ended("trains");
}
