/* What programs read and write beside their calls, and the edges of some calls: each case prints what came of it. Compiled against either
 * library's header: both print the same. */
#include <enet/enet.h>
#include <stdbool.h>
#include <stdio.h>
#include <stdlib.h>
#include <string.h>

enum { LIMIT_MS = 120000, ROUND_MS = 5 };

static long failed;

#define CHECK(condition) ((condition) ? (void)0 : (void)(failed++, printf("%s:%d: not so: %s\n", __FILE__, __LINE__, #condition)))

static ENetHost *server, *clients[3];
static ENetPeer *peers[3];
static ENetAddress to;
static enet_uint32 begun;

static bool lasts(void) { return enet_time_get() - begun < LIMIT_MS; }

static void open_hosts(size_t slots, int count) {
    to.port = ENET_PORT_ANY;
    enet_address_set_host_ip(&to, "127.0.0.1");
    server = enet_host_create(&to, slots, 4, 0, 0);
    if (!server) exit(2);
    to.port = server->address.port;
    for (int i = 0; i < count; i++)
        if (!(clients[i] = enet_host_create(NULL, 1, 4, 0, 0))) exit(2);
    begun = enet_time_get();
}

static void close_hosts(int count) {
    for (int i = 0; i < count; i++) enet_host_destroy(clients[i]);
    enet_host_destroy(server);
}

/* Serves a client and the server, which takes events or doesn't, once; whether the client was told something of this type. */
static bool serve(int i, bool takes, ENetEventType type) {
    ENetEvent event;
    bool told = enet_host_service(clients[i], &event, 1) > 0;
    if (told && event.type == ENET_EVENT_TYPE_RECEIVE) enet_packet_destroy(event.packet);
    ENetEvent there;
    if (!takes) enet_host_service(server, NULL, 1);
    else if (enet_host_service(server, &there, 1) > 0 && there.type == ENET_EVENT_TYPE_RECEIVE) enet_packet_destroy(there.packet);
    return told && event.type == type;
}

/* The same until that is told, or so many milliseconds are over. Of each round few count, so that a machine may stand still. */
static bool until(int i, bool takes, ENetEventType type, enet_uint32 ms) {
    enet_uint32 last = enet_time_get(), passed = 0;
    bool is_told = false;
    while (!is_told && passed < ms) {
        is_told = serve(i, takes, type);
        enet_uint32 took = enet_time_get() - last;
        passed += took < ROUND_MS ? took : ROUND_MS;
        last += took;
    }
    return is_told;
}

static void pass(int i, bool takes, enet_uint32 ms) { until(i, takes, ENET_EVENT_TYPE_NONE, ms); }

/* A connected client, of which the server was told. */
static void join(int i) {
    peers[i] = enet_host_connect(clients[i], &to, 4, 0);
    CHECK(peers[i] && until(i, true, ENET_EVENT_TYPE_CONNECT, LIMIT_MS));
    pass(i, true, 20);
}

static ENetPacket *packet_of(size_t length, enet_uint32 flags) {
    static char body[60000];
    return enet_packet_create(body, length, flags);
}

static int give(ENetPeer *peer, size_t length, enet_uint32 flags) {
    ENetPacket *packet = packet_of(length, flags);
    int answer = enet_peer_send(peer, 0, packet);
    if (answer != 0) enet_packet_destroy(packet);
    return answer;
}

/* -- slots -- */

static void lowered(void) {
    open_hosts(3, 2);
    server->peerCount = 1;
    join(0);
    peers[1] = enet_host_connect(clients[1], &to, 4, 0);
    bool is_in = until(1, true, ENET_EVENT_TYPE_CONNECT, 300);
    printf("peerCount 1 of 3: the second is %s\n", is_in ? "in" : "out");
    printf("a connection from there: %s\n", enet_host_connect(server, &to, 1, 0) ? "begins" : "none");
    server->peerCount = 3;
    is_in = until(1, true, ENET_EVENT_TYPE_CONNECT, LIMIT_MS);
    printf("peerCount 3 of 3: the second is %s\n", is_in ? "in" : "out");
    pass(1, true, 50);
    server->peerCount = 1;
    give(&server->peers[1], 10, ENET_PACKET_FLAG_RELIABLE);
    give(peers[1], 10, ENET_PACKET_FLAG_RELIABLE);
    int came = 0;
    ENetEvent event;
    enet_uint32 from = enet_time_get();
    for (int round = 0; round < 50 || enet_time_get() - from < 100; round++)
        for (int i = 0; i < 2; i++)
            if (enet_host_service(i ? server : clients[1], &event, 1) > 0 && event.type == ENET_EVENT_TYPE_RECEIVE) {
                came++;
                enet_packet_destroy(event.packet);
            }
    printf("beyond peerCount %d packets come\n", came);
    server->peerCount = 3;
    close_hosts(2);
}

static void none(void) {
    open_hosts(0, 1);
    ENetEvent event;
    int answer = enet_host_service(server, &event, 0);
    printf("no slots: service %d, connect %s, %zu peers\n", answer, enet_host_connect(server, &to, 1, 0) ? "begins" : "none", server->peerCount);
    peers[0] = enet_host_connect(clients[0], &to, 1, 0);
    bool is_in = until(0, true, ENET_EVENT_TYPE_CONNECT, 300);
    printf("no slots: a client is %s\n", is_in ? "in" : "out");
    enet_host_broadcast(server, 0, packet_of(1, 0));
    enet_host_flush(server);
    close_hosts(1);
    printf("4,096 slots: %s\n", enet_host_create(NULL, 4096, 1, 0, 0) ? "a host" : "none");
}

/* -- callbacks -- */

static int freed, sent_flags;

static void ENET_CALLBACK note_free(ENetPacket *packet) {
    freed++;
    sent_flags += (packet->flags & ENET_PACKET_FLAG_SENT) != 0;
}

static void ends(void) {
    static const char *const ways[] = {"reset", "disconnect_now", "disconnect"};
    open_hosts(2, 2);
    for (int way = 0; way < 3; way++) {
        join(0), join(1);
        ENetPeer *both[] = {&server->peers[0], &server->peers[1]};
        ENetPacket *own = packet_of(10, ENET_PACKET_FLAG_RELIABLE), *shared = packet_of(20, 0), *large = packet_of(5000, ENET_PACKET_FLAG_RELIABLE);
        own->freeCallback = shared->freeCallback = large->freeCallback = note_free;
        freed = sent_flags = 0;
        CHECK(enet_peer_send(both[0], 0, own) == 0 && enet_peer_send(both[0], 1, large) == 0);
        CHECK(enet_peer_send(both[0], 0, shared) == 0 && enet_peer_send(both[1], 0, shared) == 0);
        CHECK(own->referenceCount >= 1 && shared->referenceCount == 2);
        for (int i = 0; i < 2; i++) {
            if (way == 0) enet_peer_reset(both[i]);
            if (way == 1) enet_peer_disconnect_now(both[i], 0);
            if (way == 2) enet_peer_disconnect(both[i], 0);
            /* By the second way libenet sends what there is for others, and so lets go the shared one, too. */
            if (way != 1) printf("%s: %d freed, %d of them sent\n", ways[way], freed, sent_flags);
            else if (i == 1) printf("%s: %d freed\n", ways[way], freed);
        }
        for (int i = 0; i < 2; i++) enet_peer_reset(peers[i]), enet_peer_reset(both[i]);
        pass(0, true, 30), pass(1, true, 30);
    }
    close_hosts(2);
}

static int made, let_go;
static ENetPeer *next_to;

/* Flushes when a refresh of the fields is due, and sends another one. */
static void ENET_CALLBACK send_again(ENetPacket *packet) {
    (void)packet;
    let_go++;
    for (enet_uint32 from = enet_time_get(); enet_time_get() - from < 120;) enet_host_flush(next_to->host);
    if (made == 5) return;
    ENetPacket *more = packet_of(5, ENET_PACKET_FLAG_RELIABLE);
    made++;
    more->freeCallback = send_again;
    if (enet_peer_send(next_to, 0, more) != 0) enet_packet_destroy(more);
}

static void last_words(void) {
    open_hosts(1, 1);
    join(0);
    ENetPacket *first = packet_of(5, ENET_PACKET_FLAG_RELIABLE);
    made = 1, let_go = 0;
    next_to = peers[0];
    first->freeCallback = send_again;
    CHECK(enet_peer_send(peers[0], 0, first) == 0);
    close_hosts(1);
    printf("at its end: %d made, %d let go\n", made, let_go);
}

/* -- what an unserved peer shows -- */

static void unserved(void) {
    open_hosts(2, 2);
    join(0);
    enet_peer_disconnect(peers[0], 7);
    CHECK(until(0, false, ENET_EVENT_TYPE_DISCONNECT, LIMIT_MS));
    pass(0, false, 10);
    printf("unserved, its other end left: state %d, data %u\n", server->peers[0].state, server->peers[0].eventData);
    peers[1] = enet_host_connect(clients[1], &to, 4, 0);
    CHECK(until(1, false, ENET_EVENT_TYPE_CONNECT, LIMIT_MS));
    pass(1, false, 10);
    printf("unserved, it came: state %d\n", server->peers[1].state);
    enet_peer_disconnect(peers[1], 8);
    pass(1, false, 100);
    printf("unserved, it came and went: state %d\n", server->peers[1].state);
    ENetEvent event;
    while (enet_host_service(server, &event, 20) > 0) printf("told: type %d, data %u\n", event.type, event.data);
    printf("then: state %d\n", server->peers[0].state);
    close_hosts(2);
}

/* An end that isn't told counts among those of its address. */
static void crowded(void) {
    open_hosts(3, 2);
    server->duplicatePeers = 1;
    join(0);
    enet_peer_disconnect(peers[0], 7);
    CHECK(until(0, false, ENET_EVENT_TYPE_DISCONNECT, LIMIT_MS));
    pass(0, false, 10);
    peers[1] = enet_host_connect(clients[1], &to, 4, 0);
    bool is_in = until(1, false, ENET_EVENT_TYPE_CONNECT, 300);
    printf("duplicatePeers 1, an end wasn't told: the next is %s\n", is_in ? "in" : "out");
    is_in = until(1, true, ENET_EVENT_TYPE_CONNECT, LIMIT_MS);
    printf("it was told: the next is %s\n", is_in ? "in" : "out");
    close_hosts(2);
}

/* -- lists -- */

#define EMPTY(list) (enet_list_empty(list) ? "empty" : "not")

static void lists_of(const char *when, ENetPeer *peer) {
    printf("%s: acknowledgements %s, sent %s and %s, outgoing %s, dispatched %s (%zu bytes wait)\n", when, EMPTY(&peer->acknowledgements),
           EMPTY(&peer->sentReliableCommands), EMPTY(&peer->sentUnreliableCommands), EMPTY(&peer->outgoingCommands),
           EMPTY(&peer->dispatchedCommands), peer->totalWaitingData);
}

static void lists(void) {
    open_hosts(2, 1);
    lists_of("a free slot", &server->peers[1]);
    printf("queue of the host: %s\n", EMPTY(&server->dispatchQueue));
    join(0);
    peers[0]->pingInterval = server->peers[0].pingInterval = 60000; /* no PING waits for its acknowledgement */
    pass(0, true, 150);
    lists_of("quiet", peers[0]);
    give(peers[0], 100, ENET_PACKET_FLAG_RELIABLE);
    lists_of("given", peers[0]);
    enet_host_flush(clients[0]);
    lists_of("sent", peers[0]);
    printf("its length: %zu, %zu\n", enet_list_size(&peers[0]->sentReliableCommands), enet_list_size(&peers[0]->outgoingCommands));
    pass(0, false, 250);
    lists_of("acknowledged", peers[0]);
    lists_of("came", &server->peers[0]);
    enet_uint8 channel;
    ENetPacket *packet = enet_peer_receive(&server->peers[0], &channel);
    CHECK(packet && packet->dataLength == 100);
    enet_packet_destroy(packet);
    lists_of("taken", &server->peers[0]);
    give(peers[0], 100, 0);
    lists_of("given, unreliable", peers[0]);
    enet_host_flush(clients[0]);
    lists_of("sent, unreliable", peers[0]);
    close_hosts(1);
}

/* -- fields that the program writes -- */

static int pings;

/* Counts the pings that come. */
static int ENET_CALLBACK count_pings(ENetHost *host, ENetEvent *event) {
    (void)event;
    size_t at = host->receivedData[0] & 0x80 ? 4 : 2;
    for (; at + 4 <= host->receivedDataLength && (host->receivedData[at] & 0xF) == 1; at += 8) continue;
    pings += at + 4 <= host->receivedDataLength && (host->receivedData[at] & 0xF) == 5;
    return 0;
}

static void written(void) {
    open_hosts(1, 1);
    join(0);
    server->intercept = count_pings;
    peers[0]->pingInterval = 60000;
    pass(0, true, 800);
    pings = 0;
    pass(0, true, 800);
    printf("pingInterval 60000: %s\n", pings ? "pings" : "none");
    enet_peer_ping(peers[0]);
    pass(0, true, 50);
    printf("enet_peer_ping: %d\n", pings);
    pass(0, true, 800);
    printf("and no more: %d\n", pings);
    peers[0]->pingInterval = 20;
    pass(0, true, 800);
    printf("pingInterval 20: %s\n", pings > 10 ? "many" : "few");
    peers[0]->timeoutLimit = 2;
    peers[0]->timeoutMinimum = 100;
    peers[0]->timeoutMaximum = 400;
    ENetEvent event = {0};
    begun = enet_time_get();
    while (lasts() && enet_host_service(clients[0], &event, 1) == 0) continue;
    printf("timeouts: %s, %s\n", event.type == ENET_EVENT_TYPE_DISCONNECT ? "it ends" : "it stands", enet_time_get() - begun < 4500 ? "soon" : "late");
    close_hosts(1);
}

/* -- limits that the program writes -- */

static long taken_bytes(ENetPeer *peer) {
    long bytes = 0;
    enet_uint8 channel;
    for (ENetPacket *packet; (packet = enet_peer_receive(peer, &channel)); enet_packet_destroy(packet)) bytes += (long)packet->dataLength;
    return bytes;
}

static void limits(void) {
    open_hosts(2, 2);
    join(0);
    server->maximumPacketSize = clients[0]->maximumPacketSize = 2000;
    printf("maximumPacketSize: %d, %d\n", give(peers[0], 2000, ENET_PACKET_FLAG_RELIABLE), give(peers[0], 2001, ENET_PACKET_FLAG_RELIABLE));
    clients[0]->maximumPacketSize = 50000;
    server->channelLimit = 3;
    printf("raised: %d, channelLimit: service %d\n", give(peers[0], 3000, 0), enet_host_service(server, NULL, 0));
    pass(0, false, 100);
    printf("came: %ld bytes\n", taken_bytes(&server->peers[0]));
    join(1);
    printf("channels: %zu and %zu\n", peers[1]->channelCount, server->peers[1].channelCount);
    server->maximumWaitingData = 10000;
    for (int i = 0; i < 40; i++) give(peers[1], 1000, ENET_PACKET_FLAG_RELIABLE);
    pass(1, false, 200);
    size_t waits = server->peers[1].totalWaitingData;
    printf("maximumWaitingData: %s\n", waits > 5000 && waits <= 11000 ? "kept" : "passed");
    long bytes = 0;
    for (begun = enet_time_get(); bytes < 40000 && lasts(); bytes += taken_bytes(&server->peers[1])) serve(1, false, ENET_EVENT_TYPE_NONE);
    printf("at last: %ld bytes\n", bytes);
    close_hosts(2);
}

/* -- loss -- */

static bool drops;

static int ENET_CALLBACK drop(ENetHost *host, ENetEvent *event) {
    (void)host, (void)event;
    return drops;
}

static void loss(void) {
    open_hosts(1, 1);
    join(0);
    pass(0, true, 1500);
    ENetPeer *peer = peers[0];
    const enet_uint32 before = peer->packetsLost; /* on a busy machine a command may have gone twice */
    CHECK(peer->packetLoss == 0);
    server->intercept = drop;
    drops = true;
    give(peer, 10, ENET_PACKET_FLAG_RELIABLE);
    for (begun = enet_time_get(); peer->packetsLost < before + 2 && lasts();) serve(0, true, ENET_EVENT_TYPE_NONE);
    drops = false;
    pass(0, true, 1500);
    enet_uint32 lost = peer->packetsLost, sent = peer->packetsSent;
    printf("lost: %s\n", lost >= before + 2 && lost < before + 10 ? "some" : "none or many");
    enet_time_set(enet_time_get() + 10000);
    for (begun = enet_time_get(); peer->packetsLost && lasts();) {
        lost = peer->packetsLost, sent = peer->packetsSent;
        serve(0, true, ENET_EVENT_TYPE_NONE);
    }
    bool is_share = false; /* at most two commands more went with the datagram that made the count anew */
    for (enet_uint32 more = 0; more < 3; more++)
        is_share = is_share || peer->packetLoss == lost * ENET_PEER_PACKET_LOSS_SCALE / (sent + more) / 8;
    bool is_fourth = peer->packetLossVariance / 2 == peer->packetLoss;
    printf("packetLoss: %s, its variance: %s\n", is_share ? "an eighth" : "another", is_fourth ? "a fourth" : "another");
    if (!is_share) printf("%u of %u: %u, %u\n", lost, sent, peer->packetLoss, peer->packetLossVariance);
    close_hosts(1);
}

/* -- answers -- */

static void answers(void) {
    open_hosts(1, 1);
    ENetEvent event;
    ENetAddress nowhere = to;
    nowhere.port = 0;
    CHECK(enet_host_connect(clients[0], &nowhere, 1, 0) != NULL);
    /* libenet answers -1, and ours 0, since the datagram is lost (strangers). */
    printf("a datagram that the system refuses: no event %d\n", enet_host_service(clients[0], &event, 0) <= 0);
    enet_peer_reset(&clients[0]->peers[0]);
    printf("then: service %d\n", enet_host_service(clients[0], &event, 0) <= 0);
    enet_host_service(clients[0], &event, 0);
    join(0);
    ENetPacket *packet = packet_of(10, 0);
    printf("to no channel: %d, ", enet_peer_send(peers[0], 4, packet));
    enet_peer_disconnect(peers[0], 0);
    printf("to one that leaves: %d, references %zu\n", enet_peer_send(peers[0], 0, packet), packet->referenceCount);
    enet_packet_destroy(packet);
    close_hosts(1);
}

/* The CRC of drawn bytes in drawn parts. */
static void sums(void) {
    static enet_uint8 bytes[5000];
    unsigned draw = 4711;
    for (size_t i = 0; i < sizeof bytes; i++) bytes[i] = (enet_uint8)((draw = draw * 1103515245 + 12345) >> 16);
    for (size_t length = 0; length < sizeof bytes; length += 1 + length / 3) {
        ENetBuffer parts[] = {{bytes, length / 3}, {bytes + length / 3, 0}, {bytes + length / 3, length - length / 3}};
        printf("crc of %zu: %08x\n", length, enet_crc32(parts, 3));
    }
    ENetBuffer digits = {"123456789", 9};
    CHECK(ENET_NET_TO_HOST_32(enet_crc32(&digits, 1)) == 0xCBF43926);
}

/* Lists of the program's own. */
static void nodes(void) {
    struct { ENetListNode node; int number; } items[5];
    ENetList one, other;
    enet_list_clear(&one), enet_list_clear(&other);
    for (int i = 0; i < 5; i++) items[i].number = i, enet_list_insert(i & 1 ? enet_list_begin(&one) : enet_list_end(&one), &items[i]);
    enet_list_move(enet_list_end(&other), &items[1], &items[2]);
    printf("moved: %d, %zu and %zu\n", enet_list_front(&other) == &items[1], enet_list_size(&one), enet_list_size(&other));
    printf("taken: %d\n", enet_list_remove(&items[0].node) == &items[0]);
    ENetListIterator at;
    for (at = enet_list_begin(&one); at != enet_list_end(&one); at = enet_list_next(at)) printf("one has %d\n", *(int *)(at + 1));
    for (at = enet_list_begin(&other); at != enet_list_end(&other); at = enet_list_next(at)) printf("other has %d\n", *(int *)(at + 1));
}

int main(void) {
    void (*const cases[])(void) = {lowered, none, ends, last_words, unserved, crowded, lists, written, limits, loss, answers, sums, nodes};
    if (enet_initialize() != 0) return 2;
    for (size_t i = 0; i < sizeof cases / sizeof *cases; i++) cases[i]();
    enet_deinitialize();
    return failed ? 1 : 0;
}
