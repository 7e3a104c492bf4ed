/* Eight clients that talk to one another through a relay, all on the layer, over bad lines in memory (memory_net.h): a datagram of any
 * client takes 20 ms each way. No connection is lost, and each reliable packet comes to all others, by 20 seconds after the senders stop,
 * - where the line is down for 3, 4 or 5 seconds, whether all clients talk, half of them or none;
 * - where all together have 2 Mbit/s each way, less than they ask for with their unreliable packets.
 * Where each 20th reliable packet is long, the same holds by a minute after, no trip takes longer than the line's row says, and no larger
 * share of what the relay sends reliably goes again,
 * - where all together have 2 Mbit/s, or 800 kbit/s, half of what they ask for, and where what waits for longer than 50 ms is dropped then
 *   (one connection may be lost so);
 * - where datagrams overtake one another, and where of all a tenth or a fifth is lost;
 * - where one client has a line of half of what it needs.
 * What is lost where the line is down for 6 seconds is told alone.
 * `lines [RUNS]`, 1 where it isn't given: in each the clients begin at other moments. Prints what was lost in each. With -DREFERENCE, over
 * the reference library, it tests none of it. */
#include "../gofnjerta.h"
#include "../../clients/common.h"
#include "../../clients/sends.h"
#include "memory_net.h"
#include <enet/enet.h>
#include <stdlib.h>
#include <string.h>
#include "check.h"

enum { CLIENTS = 8, DOWN_AT = 4000, MOST_DOWN = 5000, HEADERS = 28, EACH_MS = 100, JOIN_MS = 500, MOST_JOIN = 10000 };
enum { LONG = 3000, LONG_EACH = 20, NO_BOUND = 1000000 };

#ifdef REFERENCE
#define IS_OURS false
#else
#define IS_OURS true
#endif

/* A line: for how long it is down, how many bytes it takes a millisecond (0: all), how the clients talk over it for how long, and for how
 * long they listen then. What a datagram takes (and up to so much more), and how long one may wait. How many of a hundred are lost. Of how
 * many clients the bytes are (0: all), the first ones. What is borne: how many lost connections, the longest trip, and how much goes again,
 * of a hundred. */
typedef struct {
    const char *name;
    uint64_t down, rate;
    int idle;
    size_t length, longer;
    uint64_t ms, after, trip, jitter, queue, loss;
    int narrow;
    unsigned long lost;
    uint64_t longest, again;
} Line;

#define DOWN(seconds, idle) {"down", seconds * 1000, 0, idle, 100, 0, 10000 + seconds * 1000, 20000, 20, 0, 100, 0, 0, 0, NO_BOUND, 100}
static const Line lines[] = {
    DOWN(3, 0), DOWN(3, 4), DOWN(3, 8), DOWN(4, 0), DOWN(4, 4), DOWN(4, 8),
    DOWN(5, 0), DOWN(5, 4), DOWN(5, 8), DOWN(6, 0), DOWN(6, 4), DOWN(6, 8),
    {"nearly full", 0, 250, 0, 350, 0, 30000, 20000, 20, 0, 100, 0, 0, 0, NO_BOUND, 100},
    {"2 Mbit/s", 0, 250, 0, 100, LONG, 30000, 60000, 20, 0, 200, 0, 0, 0, 2000, 20},
    {"800 kbit/s", 0, 100, 0, 100, LONG, 30000, 60000, 20, 0, 500, 0, 0, 0, NO_BOUND, 32},
    {"shallow queue", 0, 100, 0, 100, LONG, 30000, 60000, 100, 0, 50, 0, 0, 1, NO_BOUND, 45},
    {"reordering", 0, 0, 0, 100, LONG, 30000, 60000, 20, 60, 100, 0, 0, 0, 300, 1},
    {"10 % lost", 0, 0, 0, 100, LONG, 30000, 60000, 50, 0, 100, 10, 0, 0, 1500, 25},
    {"20 % lost", 0, 0, 0, 100, LONG, 30000, 60000, 50, 0, 100, 20, 0, 0, 2500, 40},
    {"one is thin", 0, 12, 0, 100, LONG, 30000, 60000, 20, 0, 500, 0, 1, 0, NO_BOUND, 8},
};

static ENetHost *relay;
static struct {
    ENetHost *host;
    ENetPeer *peer;
    bool is_in;
    uint64_t next;
} clients[CLIENTS];
static uint64_t begun, free_at[2], latest, seed;
static unsigned long lost, sent, came, number[CLIENTS];
static Sends sends[CLIENTS];

/* Whose datagram it is: sockets get their ports in a row. */
static int client_of(const NetDatagram *flight) {
    uint16_t port = flight->to == relay->address.port ? flight->from : flight->to;
    int client = port - relay->address.port - 1;
    if (client < 0 || client >= CLIENTS) abort();
    return client;
}

/* What the line does with a datagram that was just sent: when it comes; false where it is dropped. */
static bool take_on(const Line *line, NetDatagram *flight) {
    int client = client_of(flight);
    bool outward = flight->to == relay->address.port;
    uint64_t clock = net_clock(), *next = &free_at[outward];
    if (!outward) count_sends(&sends[client], flight->bytes, flight->length);
    flight->due = clock + line->trip + (line->jitter ? draw(&seed) % line->jitter : 0);
    if (clock >= begun + DOWN_AT && clock < begun + DOWN_AT + line->down) return false;
    if (draw(&seed) % 100 < line->loss) return false;
    if (!line->rate || (line->narrow && client >= line->narrow)) return true;
    /* In bytes that it could have sent. */
    if (*next < clock * line->rate) *next = clock * line->rate;
    if (*next > (clock + line->queue) * line->rate) return false;
    *next += flight->length + HEADERS;
    flight->due += *next / line->rate - clock;
    return true;
}

static void pass(const Line *line) {
    for (size_t i = 0; i < net_flying();) {
        NetDatagram *flight = net_flight(i);
        if (!flight->due && !take_on(line, flight)) net_drop(i);
        else if (flight->due <= net_clock()) net_bring(i);
        else i++;
    }
}

/* A packet goes to all but its sender. */
static void serve(void) {
    ENetEvent event;
    while (enet_host_service(relay, &event, 0) > 0) {
        if (event.type != ENET_EVENT_TYPE_RECEIVE) continue;
        enet_uint32 flags = event.channelID ? 0 : ENET_PACKET_FLAG_RELIABLE;
        ENetPacket *copy = enet_packet_create(event.packet->data, event.packet->dataLength, flags);
        for (size_t i = 0; i < relay->peerCount; i++)
            if (&relay->peers[i] != event.peer && relay->peers[i].state == ENET_PEER_STATE_CONNECTED)
                enet_peer_send(&relay->peers[i], event.channelID, copy);
        if (copy->referenceCount == 0) enet_packet_destroy(copy);
        enet_packet_destroy(event.packet);
    }
}

static void listen_at(int i) {
    ENetEvent event;
    while (enet_host_service(clients[i].host, &event, 0) > 0) {
        if (event.type == ENET_EVENT_TYPE_CONNECT) clients[i].is_in = true;
        if (event.type == ENET_EVENT_TYPE_DISCONNECT) clients[i].is_in = false, lost++;
        if (event.type != ENET_EVENT_TYPE_RECEIVE) continue;
        uint64_t told;
        memcpy(&told, event.packet->data, sizeof told);
        came += event.channelID == 0;
        if (event.channelID == 0 && net_clock() - told > latest) latest = net_clock() - told;
        enet_packet_destroy(event.packet);
    }
}

static void talk(int i, const Line *line) {
    static uint8_t body[LONG];
    uint64_t clock = net_clock();
    size_t first = line->longer && ++number[i] % LONG_EACH == 0 ? line->longer : line->length;
    memcpy(body, &clock, sizeof clock);
    for (enet_uint8 channel = 0; channel < 2; channel++) {
        ENetPacket *packet = enet_packet_create(body, channel ? line->length : first, channel ? 0 : ENET_PACKET_FLAG_RELIABLE);
        CHECK(enet_peer_send(clients[i].peer, channel, packet) == 0);
    }
    sent++;
    enet_host_flush(clients[i].host);
}

/* All go on for so many milliseconds, in which those talk that aren't idle. */
static void go_on(const Line *line, uint64_t ms, bool talks) {
    for (uint64_t end = net_clock() + ms; net_clock() < end; net_go_on(1)) {
        pass(line);
        serve();
        for (int i = 0; i < CLIENTS; i++) {
            listen_at(i);
            if (!talks || !clients[i].is_in || i >= CLIENTS - line->idle || net_clock() < clients[i].next) continue;
            talk(i, line);
            clients[i].next = net_clock() + EACH_MS;
        }
    }
}

static void begin(unsigned run) {
    ENetAddress at = {.port = ENET_PORT_ANY};
    enet_address_set_host_ip(&at, "127.0.0.1");
    net_begin(5000 + 7 * run, true);
    lost = sent = came = 0;
    latest = free_at[0] = free_at[1] = 0;
    seed = run;
    memset(sends, 0, sizeof sends);
    begun = net_clock();
    relay = enet_host_create(&at, CLIENTS, 2, 0, 0);
    for (int i = 0; i < CLIENTS; i++) {
        clients[i].host = enet_host_create(NULL, 1, 2, 0, 0);
        clients[i].peer = enet_host_connect(clients[i].host, &relay->address, 2, 0);
        clients[i].is_in = false;
        clients[i].next = begun + 500 + ((unsigned)i * 37 + run * 23) % EACH_MS;
        number[i] = 0;
    }
}

/* What went again, of a hundred. */
static double share_again(void) {
    unsigned long all = 0, again = 0;
    for (int i = 0; i < CLIENTS; i++) all += sends[i].sent, again += sends[i].again;
    return all ? 100 * (double)again / (double)all : 0;
}

/* Until all are in, and the relay knows it, where it may take long. */
static void join(const Line *line) {
    go_on(line, JOIN_MS, false);
    for (uint64_t end = net_clock() + (line->loss ? MOST_JOIN : 0); net_clock() < end;) go_on(line, 1, false);
    for (int i = 0; i < CLIENTS; i++) CHECK(clients[i].is_in || !IS_OURS);
}

static void try(const Line *line, unsigned run) {
    begin(run);
    join(line);
    go_on(line, line->ms, true);
    go_on(line, line->after, false);
    printf("%s, down %llu ms, %d idle: lost %lu, came %lu of %lu, latest %llu ms, %.1f %% again\n", line->name,
           (unsigned long long)line->down, line->idle, lost, came, sent * (CLIENTS - 1), (unsigned long long)latest, share_again());
    if (IS_OURS && line->down <= MOST_DOWN) {
        CHECK(lost <= line->lost && (lost > 0 || came == sent * (CLIENTS - 1)));
        CHECK(latest <= line->longest && share_again() <= (double)line->again);
    }
    for (int i = 0; i < CLIENTS; i++) enet_host_destroy(clients[i].host);
    enet_host_destroy(relay);
}

int main(int argc, char **argv) {
    unsigned runs = argc > 1 ? (unsigned)atoi(argv[1]) : 1;
    if (enet_initialize() != 0) return 2;
    for (unsigned run = 0; run < runs; run++)
        for (size_t i = 0; i < sizeof lines / sizeof *lines; i++) try(&lines[i], run);
    net_begin(0, true);
    return ended("lines");
}
