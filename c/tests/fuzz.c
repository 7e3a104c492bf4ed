/* A fuzzer of the layer: an input is a row of bytes that says what programs over three hosts do, one call after another, and what becomes
 * of their datagrams, of memory and of the system's calls (memory_net.h). The sanitizers watch; beside them it is tested that
 * - each packet that was made is let go once, by its callback;
 * - events come in order: the packets of a peer between its CONNECT and its DISCONNECT, nothing of a peer that the program let go;
 * - the host's number of connected peers is that of those that are;
 * - while no datagram was changed, forged or of an earlier connection: each packet that carries its number comes whole, once, in the order
 *   of its channel, and no reliable one is missing before it.
 * With libFuzzer it is built with -DFUZZER (scripts/by-hand/fuzz-c.sh). Alone: `fuzz play FILE` plays the inputs of a file, a line of
 * hexadecimal digits each; `fuzz draw SEED COUNT` draws so many and prints them in such lines. An input that shows a fault ends it by a
 * signal. */
#include "memory_net.h"
#include <enet/enet.h>
#include <errno.h>
#include <stdio.h>
#include <string.h>

enum { HOSTS = 3, PEERS = 6, CHANNELS = 4, HELD = 4, MARK = 20, MOST_OPS = 400, MOST_TURNS = 12, DEPTH = 2, PORT = 30000, LONG = 70000, STRANGER = 5 };

#define CHECK(condition) ((condition) ? (void)0 : (void)(fprintf(stderr, "%s:%d: not so: %s\n", __FILE__, __LINE__, #condition), __builtin_trap()))

/* What stands at the front of a packet that carries its number. */
typedef struct {
    enet_uint32 connection, number, reliable; /* among the channel's that carry one, and how many reliable ones are before it */
    enet_uint32 channel, flags;
} Mark;

/* What the program knows of a peer. */
typedef struct {
    bool asked, told;
    struct {
        enet_uint32 sent, sent_reliable, next, came_reliable;
    } channels[CHANNELS];
} Seat;

typedef struct {
    ENetHost *host;
    Seat seats[PEERS];
} End;

static const uint8_t *input;
static size_t input_left;
static End ends[HOSTS];
static uint64_t since[HOSTS][HOSTS]; /* the network's moment when the last connection between two was asked for */
static unsigned asked[HOSTS][HOSTS];
static bool is_honest, is_dressed;
static long made, freed;
static int depth;
static ENetPacket *held[HELD]; /* made, and not let go yet */
static uint8_t lent[64];

static uint8_t take(void) {
    if (!input_left) return 0;
    input_left--;
    return *input++;
}

static enet_uint32 one_of(const enet_uint32 *numbers, size_t count) { return numbers[take() % count]; }
#define ONE_OF(...) one_of((const enet_uint32[]){__VA_ARGS__}, sizeof((const enet_uint32[]){__VA_ARGS__}) / sizeof(enet_uint32))

static uint16_t port_of(int i) { return (uint16_t)(PORT + ends[i].host->socket - 1000); }

/* The end of this port; HOSTS where it is none. */
static int end_at(uint16_t port) {
    int i = 0;
    while (i < HOSTS && (!ends[i].host || port_of(i) != port)) i++;
    return i;
}

static void send_one(int i, unsigned which);

/* A packet is let go: its callback may call the layer, as programs' do. */
static void ENET_CALLBACK let_go(ENetPacket *packet) {
    unsigned way = (unsigned)(uintptr_t)packet->userData;
    int i = way >> 4 & 3;
    freed++;
    for (int k = 0; k < HELD; k++)
        if (held[k] == packet) held[k] = NULL;
    if (depth >= DEPTH || i >= HOSTS || !ends[i].host) return;
    depth++;
    if ((way & 7) == 1) enet_host_flush(ends[i].host);
    if ((way & 7) == 2) send_one(i, way >> 6);
    if ((way & 7) == 3) enet_host_flush(ends[i].host), send_one(i, way >> 6);
    if ((way & 7) == 4) enet_peer_reset(&ends[i].host->peers[0]), ends[i].seats[0] = (Seat){0};
    depth--;
}

/* A packet with a mark where it is long enough for one; NULL where there is no memory. */
static ENetPacket *make(const Mark *mark, size_t length, enet_uint32 flags, unsigned way) {
    static uint8_t body[LONG];
    Mark none = {0};
    if (!mark) mark = &none;
    for (size_t i = 0; i < length; i++) body[i] = (uint8_t)(mark->number * 7 + i);
    if (length >= MARK) memcpy(body, mark, MARK);
    bool is_lent = flags & ENET_PACKET_FLAG_NO_ALLOCATE;
    ENetPacket *packet = enet_packet_create(is_lent ? lent : body, is_lent ? length % sizeof lent : length, flags);
    if (!packet) return NULL;
    made++;
    packet->freeCallback = let_go;
    packet->userData = (void *)(uintptr_t)way;
    return packet;
}

static bool counts(enet_uint32 flags) { return !(flags & ENET_PACKET_FLAG_UNSEQUENCED) || flags & ENET_PACKET_FLAG_RELIABLE; }

/* Sends a packet that carries its number to a peer on a channel. */
static void send_one(int i, unsigned which) {
    static const size_t lengths[] = {MARK, 0, 1, 100, 1364, 1365, 3000, 20000, LONG, 40, 500, 1350, 200, 2728, 60, 7};
    ENetHost *host = ends[i].host;
    size_t number = which % PEERS, length = lengths[which / 8 % 16];
    enet_uint8 channel = which % 7 == 6 ? 200 : which % CHANNELS;
    enet_uint32 flags = (enet_uint32[]){1, 0, 2, 8, 1, 3, 5, 9}[which / 4 % 8];
    ENetPeer *peer = &host->peers[number];
    Seat *seat = &ends[i].seats[number];
    bool is_marked = length >= MARK && channel < CHANNELS && !(flags & ENET_PACKET_FLAG_NO_ALLOCATE) && counts(flags) && seat->told;
    Mark mark = {0};
    if (is_marked) mark = (Mark){peer->connectID, seat->channels[channel].sent, seat->channels[channel].sent_reliable, channel, flags & 1};
    ENetPacket *packet = make(is_marked ? &mark : NULL, length, flags, which >> 7);
    if (!packet) return;
    if (enet_peer_send(peer, channel, packet) != 0) {
        if (packet->referenceCount == 0) enet_packet_destroy(packet);
        return;
    }
    CHECK(seat->told);
    if (!is_marked) return;
    seat->channels[channel].sent++;
    seat->channels[channel].sent_reliable += flags & 1;
}

/* A packet came: of one that carries its number all is tested. */
static void test_packet(Seat *seat, const ENetPeer *peer, enet_uint8 channel, const ENetPacket *packet) {
    Mark mark;
    CHECK(seat->told && packet && (packet->data || !packet->dataLength));
    CHECK(packet->dataLength <= ENET_HOST_DEFAULT_MAXIMUM_PACKET_SIZE);
    if (!is_honest || peer->address.port == STRANGER || channel >= CHANNELS || packet->dataLength < MARK) return;
    memcpy(&mark, packet->data, MARK);
    if (!mark.connection) return;
    CHECK(mark.connection == peer->connectID && mark.channel == channel);
    for (size_t i = MARK; i < packet->dataLength; i++) CHECK(packet->data[i] == (uint8_t)(mark.number * 7 + i));
    CHECK(mark.number >= seat->channels[channel].next && mark.reliable == seat->channels[channel].came_reliable);
    seat->channels[channel].next = mark.number + 1;
    seat->channels[channel].came_reliable += mark.flags;
}

static void note(int i, const ENetEvent *event) {
    CHECK(event->peer >= ends[i].host->peers && event->peer < ends[i].host->peers + PEERS);
    Seat *seat = &ends[i].seats[event->peer - ends[i].host->peers];
    if (event->type == ENET_EVENT_TYPE_CONNECT) {
        CHECK(!seat->told && event->peer->state != ENET_PEER_STATE_DISCONNECTED); /* its end may be there already */
        *seat = (Seat){.told = true};
    } else if (event->type == ENET_EVENT_TYPE_DISCONNECT) {
        CHECK((seat->told || seat->asked) && event->peer->state == ENET_PEER_STATE_DISCONNECTED);
        *seat = (Seat){0};
    } else {
        CHECK(event->type == ENET_EVENT_TYPE_RECEIVE);
        test_packet(seat, event->peer, event->channelID, event->packet);
        enet_packet_destroy(event->packet);
    }
}

static void test_host(int i) {
    const ENetHost *host = ends[i].host;
    size_t connected = 0;
    for (size_t k = 0; k < PEERS; k++) {
        ENetPeer *peer = &host->peers[k];
        connected += peer->state == ENET_PEER_STATE_CONNECTED || peer->state == ENET_PEER_STATE_DISCONNECT_LATER;
        CHECK(peer->host == host && peer->incomingPeerID == k);
        CHECK(enet_list_size(&peer->outgoingCommands) <= 1 && enet_list_size(&peer->sentReliableCommands) <= 1 &&
              enet_list_size(&peer->dispatchedCommands) <= 1);
    }
    CHECK(connected == host->connectedPeers);
}

/* Serves a host until it has nothing to tell, so often at most. */
static void serve(int i, enet_uint32 ms, bool asks) {
    ENetEvent event;
    for (int n = 0; n < 40; n++) {
        int answer = enet_host_service(ends[i].host, asks ? &event : NULL, ms);
        CHECK(answer >= -1 && answer <= 1 && (asks || answer <= 0));
        if (answer <= 0) break;
        if (event.type <= ENET_EVENT_TYPE_RECEIVE) note(i, &event);
        ms = 0;
    }
    test_host(i);
}

/* A datagram comes, or a copy of it; one of an earlier connection may bring what this fuzzer can't tell. */
static void bring(size_t k, bool stays) {
    const NetDatagram *flight = net_flight(k);
    int from = end_at(flight->from), to = end_at(flight->to);
    if (from < HOSTS && to < HOSTS && flight->moment < since[from][to]) is_honest = false;
    if (stays) net_bring_copy(k);
    else net_bring(k);
}

static void bring_all(void) {
    while (net_flying()) bring(0, false);
}

/* All hosts are served, and what they send comes. */
static void turn(unsigned rounds, enet_uint32 ms) {
    for (unsigned n = 0; n < rounds; n++) {
        for (int i = 0; i < HOSTS; i++)
            if (ends[i].host) serve(i, 0, true);
        bring_all();
        net_go_on(ms);
    }
}

static void connect_to(int from, int to, size_t channels) {
    ENetAddress address = {.port = ends[to].host ? port_of(to) : STRANGER};
    enet_address_set_host_ip(&address, "127.0.0.1");
    ENetPeer *peer = enet_host_connect(ends[from].host, &address, channels, take());
    if (!peer) return;
    Seat *seat = &ends[from].seats[peer - ends[from].host->peers];
    CHECK(!seat->told && !seat->asked);
    *seat = (Seat){.asked = true};
    since[from][to] = since[to][from] = net_moment();
    if (++asked[from][to] + asked[to][from] > 3) is_honest = false; /* sessions are used anew */
}

static ENetPeer *peer_of(int i) { return &ends[i].host->peers[take() % PEERS]; }

static void end_one(int i) {
    ENetPeer *peer = peer_of(i);
    Seat *seat = &ends[i].seats[peer->incomingPeerID];
    unsigned way = take() % 6;
    if (way == 0) enet_peer_disconnect_now(peer, 7);
    if (way == 1) enet_peer_reset(peer);
    if (way == 2) enet_peer_disconnect_later(peer, 8);
    if (way > 2) enet_peer_disconnect(peer, 9);
    /* One that comes and isn't told may be let go by any of them. */
    if (way < 2 || peer->state == ENET_PEER_STATE_DISCONNECTED) *seat = (Seat){0};
}

static void receive(int i) {
    ENetPeer *peer = peer_of(i);
    enet_uint8 channel = 0;
    for (int n = take() % 8; n >= 0; n--) {
        ENetPacket *packet = enet_peer_receive(peer, &channel);
        if (!packet) return;
        test_packet(&ends[i].seats[peer->incomingPeerID], peer, channel, packet);
        enet_packet_destroy(packet);
    }
}

/* What the network does to one datagram. */
static void disturb(void) {
    unsigned way = take() % 8, changes = take() % 6 + 1;
    if (!net_flying()) return;
    size_t k = take() % net_flying();
    NetDatagram *flight = net_flight(k);
    if (way < 2) net_drop(k);
    else if (way < 4) bring(k, true);
    else if (way < 5) bring(k, false);
    else {
        is_honest = false;
        for (; changes && flight->length; changes--) {
            size_t at = take() % (flight->length < 80 ? flight->length : 80);
            flight->bytes[at] = take();
        }
        if (way == 6 && flight->length) flight->length = take() % flight->length;
        bring(k, take() % 2);
    }
}

/* A datagram from nobody, or in an end's name; with a sum that fits where the ends have one, of a connection that isn't there. */
static void throw_in(int to) {
    static uint8_t bytes[6000];
    size_t length = take(), i = 0;
    int from = take() % (HOSTS + 1);
    uint16_t port = from < HOSTS && ends[from].host ? port_of(from) : STRANGER;
    unsigned way = take();
    for (; i < length; i++) bytes[i] = take();
    if (way % 16 == 0) length = 4000 + way * 8;
    for (; i < length; i++) bytes[i] = (uint8_t)(i * way);
    if (port != STRANGER) is_honest = false;
    if (is_dressed && way % 2 && length >= 8) {
        size_t head = bytes[0] & 0x80 ? 4 : 2;
        enet_uint32 id = way % 4 == 1 ? 0 : ends[to].host->peers[bytes[1] % PEERS].connectID, sum;
        memcpy(bytes + head, &id, 4);
        ENetBuffer whole = {bytes, length};
        sum = enet_crc32(&whole, 1);
        memcpy(bytes + head, &sum, 4);
    }
    net_throw(port, port_of(to), bytes, length);
}

/* The program writes a field. */
static void write_field(int i) {
    ENetHost *host = ends[i].host;
    ENetPeer *peer = peer_of(i);
    switch (take() % 13) {
    case 0: host->mtu = ONE_OF(1400, 576, 575, 0, 4096, 4097, 1000, UINT32_MAX); break;
    case 1: host->peerCount = ONE_OF(PEERS, 0, 1, 2, PEERS + 1, PEERS); break;
    case 2: host->channelLimit = ONE_OF(255, 0, 1, 2, 300, 255); break;
    case 3: host->maximumPacketSize = ONE_OF(33554432, 0, 1000, 33554433, 5000, 33554432); break;
    case 4: host->maximumWaitingData = ONE_OF(33554432, 0, 1, 3000, 33554432, UINT32_MAX); break;
    case 5: host->duplicatePeers = ONE_OF(4095, 0, 1, 2); break;
    case 6: host->incomingBandwidth = ONE_OF(0, 1, 1000, 100000, UINT32_MAX); break;
    case 7: host->outgoingBandwidth = ONE_OF(0, 1, 1000, 100000, UINT32_MAX); break;
    case 8: peer->pingInterval = ONE_OF(0, 1, 500, UINT32_MAX); break;
    case 9: peer->timeoutLimit = ONE_OF(0, 1, 32, UINT32_MAX); break;
    case 10: peer->timeoutMinimum = ONE_OF(0, 1, 5000, UINT32_MAX); break;
    case 11: peer->timeoutMaximum = ONE_OF(0, 1, 30000, UINT32_MAX); break;
    default: peer->mtu = ONE_OF(0, 576, 4096, UINT32_MAX);
    }
}

static void call_host(int i) {
    ENetHost *host = ends[i].host;
    enet_uint32 first;
    switch (take() % 6) {
    case 0: enet_host_flush(host); break;
    case 1: first = ONE_OF(0, 1, 5000, UINT32_MAX), enet_host_bandwidth_limit(host, first, ONE_OF(0, 1, 5000, UINT32_MAX)); break;
    case 2: enet_host_channel_limit(host, ONE_OF(0, 1, 3, 255, 256)); break;
    case 3: enet_host_bandwidth_throttle(host); break;
    case 4: enet_time_set(ONE_OF(0, 5, UINT32_MAX)); break;
    default: {
        ENetEvent event;
        if (enet_host_check_events(host, &event) > 0) note(i, &event);
    }
    }
}

static void call_peer(int i) {
    ENetPeer *peer = peer_of(i);
    unsigned way = take() % 4;
    enet_uint32 first = ONE_OF(0, 1, 4, 5000, UINT32_MAX), second = ONE_OF(0, 1, 2, 32, 1000, UINT32_MAX), third = ONE_OF(0, 1, 2, 32, 2000, UINT32_MAX);
    if (way == 0) enet_peer_ping(peer);
    if (way == 1) enet_peer_ping_interval(peer, first);
    if (way == 2) enet_peer_timeout(peer, first, second, third);
    if (way == 3) enet_peer_throttle_configure(peer, first, second, third);
}

/* What a packet gets more has whatever was there; it carries no number. */
static void resize(ENetPacket *packet) {
    enet_packet_resize(packet, ONE_OF(0, 1, 5000));
    if (packet->data) memset(packet->data, 0, ENET_MIN(packet->dataLength, MARK));
}

/* Calls with a packet that the program holds: it may go to several peers, be resized before it is sent, or not be sent at all. */
static void hold(int i) {
    ENetPacket **at = &held[take() % HELD];
    unsigned way = take() % 8;
    if (!*at) {
        enet_uint32 length = ONE_OF(0, 10, 1000, 3000, 40000), flags = ONE_OF(0, 1, 2, 8, 5, 1);
        *at = make(NULL, length, flags, take());
        return;
    }
    if (way < 4) {
        ENetPeer *peer = peer_of(i);
        enet_peer_send(peer, take() % CHANNELS, *at);
    } else if (way < 5) enet_host_broadcast(ends[i].host, take() % CHANNELS, *at);
    else if ((*at)->referenceCount == 0 && way < 7 && !((*at)->flags & ENET_PACKET_FLAG_NO_ALLOCATE)) resize(*at);
    else if ((*at)->referenceCount == 0) enet_packet_destroy(*at);
}

static void broadcast(int i) {
    enet_uint32 length = ONE_OF(100, 0, 1400, 5000), flags = ONE_OF(1, 0, 2, 8);
    ENetPacket *packet = make(NULL, length, flags, take());
    if (packet) enet_host_broadcast(ends[i].host, take() % CHANNELS, packet);
}

/* A compressor that turns each byte over, and answers for some what no host may believe. */
static size_t ENET_CALLBACK pack(void *context, const ENetBuffer *buffers, size_t count, size_t length, enet_uint8 *out, size_t room) {
    const enet_uint8 *in = buffers->data;
    (void)context;
    CHECK(count == 1 && buffers->dataLength == length && room >= length);
    if (!length || in[length - 1] % 8 == 5) return length % 2 ? 0 : (size_t)-1;
    size_t end = length;
    while (end > 1 && in[end - 1] == in[end - 2]) end--;
    if (length - end > 255 || end + 1 >= length) return 0;
    for (size_t i = 0; i < end; i++) out[i] = (enet_uint8)~in[i];
    out[end] = (enet_uint8)(length - end);
    return end + 1;
}

static size_t ENET_CALLBACK unpack(void *context, const enet_uint8 *in, size_t length, enet_uint8 *out, size_t room) {
    (void)context;
    if (length && in[0] == 0xEE) return length % 2 ? room + 1 : (size_t)-1;
    if (length < 2 || length - 1 + in[length - 1] > room) return 0;
    for (size_t i = 0; i + 1 < length; i++) out[i] = (enet_uint8)~in[i];
    memset(out + length - 1, (enet_uint8)~in[length - 2], in[length - 1]);
    return length - 1 + in[length - 1];
}

static int ENET_CALLBACK intercept(ENetHost *host, ENetEvent *event) {
    static uint8_t own[5000];
    if (!host->receivedDataLength) return 0;
    switch (host->receivedData[host->receivedDataLength - 1] % 16) {
    case 1: return 1;
    case 2: return -1;
    case 3:
        if (event) *event = (ENetEvent){.type = (ENetEventType)42};
        return 1;
    case 4:
        is_honest = false;
        host->receivedDataLength /= 2;
        return 0;
    case 5:
        is_honest = false;
        host->receivedData = own;
        host->receivedDataLength = sizeof own - 1000 + host->receivedDataLength % 200;
        return 0;
    case 6:
        host->receivedData = NULL;
        return 0;
    default: return 0;
    }
}

static void dress(int i, unsigned way) {
    static char context;
    const ENetCompressor own = {&context, pack, unpack, NULL};
    ENetHost *host = ends[i].host;
    if (way & 1) enet_host_compress(host, &own);
    if (way & 2) enet_host_compress_with_range_coder(host);
    if (!(way & 3)) enet_host_compress(host, NULL);
    host->checksum = way & 4 ? enet_crc32 : NULL;
    host->intercept = way & 8 ? intercept : NULL;
}

static void open_end(int i, unsigned way) {
    ENetAddress address = {.port = ENET_PORT_ANY};
    enet_address_set_host_ip(&address, "127.0.0.1");
    ends[i] = (End){.host = enet_host_create(way & 1 ? &address : NULL, PEERS, ONE_OF(CHANNELS, 0, 1, 255), way & 2 ? 20000 : 0, way & 4 ? 9000 : 0)};
}

static void close_end(int i) {
    ENetHost *host = ends[i].host;
    for (int k = 0; k < HOSTS; k++) since[i][k] = since[k][i] = net_moment();
    if (host) enet_host_destroy(host);
    ends[i] = (End){0};
}

/* The system or the memory fails for a while. */
static void fail(void) {
    static const int numbers[] = {EAGAIN, ENOBUFS, ECONNREFUSED, EINVAL, EIO, EINTR, EBADF, ENOMEM};
    unsigned what = take() % 6, calls = take() % 16;
    if (what < NET_FAULTS) net_fail((NetFault)what, calls, numbers[take() % 8]);
    else net_fail_memory(take() % 32, calls);
}

/* Each call takes its bytes in an order of its own, whatever the compiler's for arguments. */
static void act(unsigned what, int i) {
    unsigned first;
    switch (what) {
    case 0: first = take() % HOSTS, connect_to(i, (int)first, ONE_OF(CHANNELS, 0, 1, 255, 300)); break;
    case 1: case 2: case 3: first = take(), send_one(i, first | (unsigned)take() << 8); break;
    case 4: broadcast(i); break;
    case 5: end_one(i); break;
    case 6: receive(i); break;
    case 7: net_go_on(ONE_OF(1, 10, 100, 1000, 5000, 31000, 600, 50)); break;
    case 8: case 9: disturb(); break;
    case 10: throw_in(i); break;
    case 11: write_field(i); break;
    case 12: call_host(i); break;
    case 13: call_peer(i); break;
    case 14: fail(); break;
    case 15: hold(i); break;
    case 16: is_honest = false, close_end(i), open_end(i, take()); break; /* its peers may still send to the one before */
    case 17: is_honest = false, dress(i, take()); break;
    case 18: first = ONE_OF(0, 1, 20, 700, 3000), serve(i, first, take() % 4); break;
    case 19: bring_all(); break;
    default: turn(what % MOST_TURNS + 1, ONE_OF(1, 10, 50, 100, 500, 1000, 0, 3));
    }
}

/* The input's first bytes: the clock, whether a train goes, what is around each datagram, and whether two connections stand already. */
static void begin(void) {
    unsigned way = take(), dressed = take();
    net_begin(way & 1 ? 0xFFFFFC00 : 5000, !(way & 2));
    is_honest = true;
    is_dressed = dressed & 4;
    made = freed = 0;
    memset(asked, 0, sizeof asked);
    memset(since, 0, sizeof since);
    enet_time_set(way & 4 ? UINT32_MAX - 100 : 0);
    for (int i = 0; i < HOSTS; i++) {
        open_end(i, i == 0 ? 1 : way >> 3);
        if (ends[i].host) dress(i, dressed);
    }
    if (way & 0x80) return;
    for (int i = 1; i < HOSTS; i++)
        if (ends[i].host && ends[0].host) connect_to(i, 0, CHANNELS);
    turn(4, 10);
}

static void finish(void) {
    net_fail_memory(0, 0);
    for (int i = 0; i < HOSTS; i++) close_end(i);
    for (int k = 0; k < HELD; k++)
        if (held[k]) enet_packet_destroy(held[k]);
    net_begin(0, false);
    CHECK(made == freed);
}

int LLVMFuzzerTestOneInput(const uint8_t *bytes, size_t length);
int LLVMFuzzerTestOneInput(const uint8_t *bytes, size_t length) {
    input = bytes;
    input_left = length;
    begin();
    for (int n = 0; n < MOST_OPS && input_left; n++) {
        unsigned what = take();
        int i = what >> 5 & 3;
        if (i >= HOSTS || !ends[i].host) i = 0;
        if (!ends[i].host) open_end(i, 1);
        if (ends[i].host) act(what & 31, i);
    }
    if (is_honest) turn(3, 100);
    finish();
    return 0;
}

#ifndef FUZZER
static uint64_t seed;

static unsigned draw(unsigned below) {
    uint64_t z = seed += 0x9e3779b97f4a7c15u;
    z = (z ^ z >> 30) * 0xbf58476d1ce4e5b9u;
    z = (z ^ z >> 27) * 0x94d049bb133111ebu;
    return (unsigned)((z ^ z >> 31) >> 33) % below;
}

static void draw_inputs(long count) {
    for (; count > 0; count--) {
        for (unsigned left = 20 + draw(200); left > 0; left--) printf("%02x", draw(256));
        putchar('\n');
    }
}

static int digit(char c) { return c >= '0' && c <= '9' ? c - '0' : c >= 'a' && c <= 'f' ? c - 'a' + 10 : -1; }

static int play(FILE *file) {
    static char line[1 << 14];
    long count = 0;
    while (fgets(line, sizeof line, file)) {
        static uint8_t bytes[sizeof line / 2];
        size_t length = 0;
        for (; digit(line[2 * length]) >= 0 && digit(line[2 * length + 1]) >= 0; length++)
            bytes[length] = (uint8_t)(digit(line[2 * length]) << 4 | digit(line[2 * length + 1]));
        /* In a block of its own, so that a sanitizer sees what reads past it. */
        uint8_t *own = malloc(length ? length : 1);
        if (!own) return 2;
        memcpy(own, bytes, length);
        LLVMFuzzerTestOneInput(own, length);
        free(own);
        count++;
    }
    printf("fuzz: %ld inputs\n", count);
    return count ? 0 : 1;
}

int main(int argc, char **argv) {
    if (argc == 4 && !strcmp(argv[1], "draw")) {
        seed = (uint64_t)atol(argv[2]);
        draw_inputs(atol(argv[3]));
        return 0;
    }
    FILE *file = argc == 3 && !strcmp(argv[1], "play") ? fopen(argv[2], "r") : NULL;
    return file ? play(file) : 2;
}
#endif
