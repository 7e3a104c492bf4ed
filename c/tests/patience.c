/* How long a dead peer takes to be noticed, on a clock in memory (memory_net.h): for each of some settings of enet_peer_timeout and round trips
 * the other end falls silent, and the milliseconds from the first command that it leaves unanswered to the DISCONNECT event are those
 * that the rule gives (docs/PROTOCOL.md, "Clock and round trips"), worked out here by the rule's words alone. Prints the table. Until then
 * what isn't acknowledged is in transit, by the peer's fields. With -DREFERENCE, over the reference library, it tests its rule: timeouts
 * double without an end, and one try after the minimum is enough. */
#include "../gofnjerta.h"
#include "memory_net.h"
#include <enet/enet.h>
#include "check.h"

enum { TRIPS = 4, SETTLE_MS = 30000, PATIENCE_MS = 200000, CAP_MS = 1000 };

static const unsigned trips[TRIPS] = {20, 100, 300, 1100};
static const struct {
    enet_uint32 limit, minimum, maximum;
} settings[] = {{32, 5000, 30000}, {32, 2000, 30000}, {32, 1000, 30000}, {8, 1000, 30000}, {1, 1, 30000}, {32, 10000, 30000},
                {32, 20000, 60000}, {32, 5000, 5000}, {32, 5000, 3000}, {1, 1, 100}};

static ENetHost *server, *client;
static ENetPeer *guest; /* the server's peer */
static bool is_cut, is_gone;
static uint64_t last, first, gone_at; /* when the server's last reliable command went, the first after the cut, and when its peer was gone */

#ifdef REFERENCE
#define IS_OURS false
#else
#define IS_OURS true
#endif

/* When a peer ends whose command goes first at 0 with this timeout and is never answered. */
static uint64_t end_of(uint64_t timeout, uint64_t limit, uint64_t minimum, uint64_t maximum) {
    uint64_t sent = 0, sends = 1;
    for (;;) {
        uint64_t at = sent + timeout;
        if (at >= maximum) return at;
        if ((uint64_t)1 << (sends - 1) >= limit && at >= (IS_OURS ? (at - sent) + timeout + minimum : minimum)) return at;
        sends++;
        sent = at;
        if (!IS_OURS) timeout = 2 * timeout;
        else if (timeout < CAP_MS) timeout = 2 * timeout < CAP_MS ? 2 * timeout : CAP_MS;
    }
}

/* The first datagram in flight comes, or is lost once the line is cut. */
static void pass_one(void) {
    const NetDatagram *flight = net_flight(0);
    bool asks = flight->to != server->address.port && flight->length > 4 && flight->bytes[0] & 0x80;
    if (asks) last = flight->at;
    if (asks && is_cut && !first) first = flight->at;
    if (is_cut) net_drop(0);
    else net_bring(0);
}

/* One millisecond: what was sent half a trip ago comes. */
static void step(unsigned trip) {
    ENetEvent event;
    while (net_flying() && (is_cut || net_flight(0)->at + trip / 2 <= net_clock())) pass_one();
    while (enet_host_service(server, &event, 0) > 0) {
        if (event.type == ENET_EVENT_TYPE_CONNECT) guest = event.peer;
        if (event.type == ENET_EVENT_TYPE_DISCONNECT) is_gone = true, gone_at = net_clock();
    }
    while (!is_cut && enet_host_service(client, &event, 0) > 0) continue;
    net_go_on(1);
}

/* Two hosts that are connected, so long after each other's datagrams. */
static void meet(unsigned trip) {
    ENetAddress at = {.port = ENET_PORT_ANY};
    enet_address_set_host_ip(&at, "127.0.0.1");
    net_begin(5000, true);
    is_cut = is_gone = false;
    last = first = 0;
    guest = NULL;
    server = enet_host_create(&at, 1, 1, 0, 0);
    client = enet_host_create(NULL, 1, 1, 0, 0);
    at = server->address;
    CHECK(enet_host_connect(client, &at, 1, 0) != NULL);
    for (unsigned i = 0; i < SETTLE_MS; i++) step(trip);
    CHECK(guest && guest->state == ENET_PEER_STATE_CONNECTED);
}

static void part(void) {
    enet_host_destroy(client);
    enet_host_destroy(server);
}

/* How long it takes from the first command that is never answered, which gets this timeout. */
static uint64_t notice(unsigned trip, enet_uint32 limit, enet_uint32 minimum, enet_uint32 maximum, uint64_t *timeout) {
    meet(trip);
    enet_peer_timeout(guest, limit, minimum, maximum);
    while (net_clock() < last + trip + 5) step(trip); /* all that was sent is answered */
    is_cut = true;
    for (uint64_t begun = net_clock(); !is_gone && net_clock() - begun < PATIENCE_MS;) {
        if (!first) *timeout = guest->roundTripTime + 4 * guest->roundTripTimeVariance;
        step(trip);
    }
    CHECK(is_gone && first);
    part();
    return gone_at - first;
}

/* A packet that nobody acknowledges is in transit until its peer is gone: where time goes on by 100 ms at once, it is sent again in the same
 * service in which it is late, and in which the fields are renewed. */
static void in_transit(void) {
    ENetEvent event;
    meet(trips[0]);
    is_cut = true;
    CHECK(enet_peer_send(guest, 0, enet_packet_create("unheard", 7, ENET_PACKET_FLAG_RELIABLE)) == 0);
    for (unsigned i = 0; i < 30; i++) {
        int told = enet_host_service(server, &event, 0);
        CHECK(told == 0 && guest->reliableDataInTransit == 7);
        while (net_flying()) pass_one();
        net_go_on(100);
    }
    part();
}

int main(void) {
    if (enet_initialize() != 0) return 2;
    for (size_t i = 0; i < sizeof settings / sizeof *settings; i++) {
        printf("%2u, %u, %u:", settings[i].limit, settings[i].minimum, settings[i].maximum);
        for (size_t k = 0; k < TRIPS; k++) {
            uint64_t timeout = 0, took = notice(trips[k], settings[i].limit, settings[i].minimum, settings[i].maximum, &timeout);
            uint64_t wanted = end_of(timeout, settings[i].limit, settings[i].minimum, settings[i].maximum);
            printf("  %llu ms (first timeout %llu)", (unsigned long long)took, (unsigned long long)timeout);
            CHECK(took == wanted);
        }
        printf("\n");
    }
    in_transit();
    net_begin(0, true);
    return ended("patience");
}
