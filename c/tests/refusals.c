/* What the layer doesn't offer is refused loudly, an end that is not there is told, and packets that go to several peers, or from a
 * callback, come as they were sent. */
#include <enet/enet.h>
#include <stdbool.h>
#include <stdio.h>
#include <stdlib.h>
#include <string.h>

static long passed, failed;

#define CHECK(condition) ((condition) ? (void)passed++ : (void)(failed++, printf("%s:%d: not so: %s\n", __FILE__, __LINE__, #condition)))

static enet_uint32 ENET_CALLBACK no_checksum(const ENetBuffer *buffers, size_t count) {
    (void)buffers;
    return (enet_uint32)count;
}

static int ENET_CALLBACK no_intercept(ENetHost *host, ENetEvent *event) {
    (void)host, (void)event;
    return 0;
}

static bool destroyed;

static void ENET_CALLBACK destroy(void *context) {
    destroyed = context == &destroyed;
}

static const ENetAddress any = {ENET_HOST_ANY, ENET_PORT_ANY};

/* A host with one setting of the program's: it is served, or not. */
#define SERVED(wanted, setting) \
    do { \
        ENetEvent event_; \
        ENetHost *host = enet_host_create(&any, 2, 2, 0, 0); \
        CHECK(host != NULL); \
        setting; \
        CHECK(enet_host_service(host, &event_, 0) == (wanted)); \
        enet_host_destroy(host); \
    } while (0)

static void settings(void) {
    ENetCompressor compressor = {&destroyed, NULL, NULL, destroy};
    SERVED(0, (void)host);
    SERVED(0, host->checksum = no_checksum);
    SERVED(0, host->checksum = enet_crc32);
    SERVED(0, host->intercept = no_intercept);
    SERVED(0, host->duplicatePeers = 1);
    SERVED(0, host->mtu = 1000);
    SERVED(-1, host->mtu = 500);
    SERVED(-1, host->mtu = 5000);
    SERVED(-1, host->maximumPacketSize = (size_t)1 << 40);
    SERVED(0, host->maximumPacketSize = 1000);
    SERVED(0, enet_host_channel_limit(host, 1));
    SERVED(0, enet_host_channel_limit(host, 0));
    SERVED(-1, host->channelLimit = 0);
    SERVED(-1, host->maximumWaitingData = 0);
    SERVED(0, host->maximumWaitingData = SIZE_MAX);
    SERVED(0, host->peerCount = 0);
    SERVED(-1, host->peerCount = 3);
    SERVED(0, (enet_host_service(host, NULL, 0), enet_host_channel_limit(host, 1)));
    SERVED(0, (enet_host_service(host, NULL, 0), host->mtu = 1000));
    SERVED(-1, (enet_host_service(host, NULL, 0), host->mtu = 1401));
    SERVED(0, enet_host_compress(host, &compressor));
    CHECK(destroyed);
    SERVED(0, (enet_host_compress(host, &compressor), enet_host_compress(host, NULL)));
    SERVED(0, CHECK(enet_host_compress_with_range_coder(host) == 0));
    CHECK(enet_host_create(&any, 4096, 2, 0, 0) == NULL);
}

/* A host that isn't served waits as it is asked to, so that its program doesn't fill a processor; a datagram that waits changes nothing. */
static void patience(void) {
    ENetEvent event;
    ENetHost *host = enet_host_create(&any, 2, 2, 0, 0);
    ENetAddress to = host->address;
    ENetBuffer datagram = {"stranger", 8};
    CHECK(enet_address_set_host_ip(&to, "127.0.0.1") == 0);
    CHECK(enet_socket_send(host->socket, &to, &datagram, 1) == 8);
    host->mtu = 500;
    enet_uint32 begun = enet_time_get();
    for (int i = 0; i < 3; i++) CHECK(enet_host_service(host, &event, 100) == -1);
    CHECK(enet_time_get() - begun >= 290);
    CHECK(enet_host_service(host, &event, 0) == -1);
    host->mtu = 1400;
    CHECK(enet_host_service(host, &event, 0) == 0 && host->totalReceivedPackets == 1);
    enet_host_destroy(host);
}

/* duplicatePeers: 0 takes nobody, the number of slots counts nobody. */
static void crowds(void) {
    for (size_t most = 0; most <= 2; most += 2) {
        ENetEvent event;
        ENetHost *server = enet_host_create(&any, 2, 1, 0, 0), *clients[2];
        ENetAddress to = server->address;
        int told = 0;
        CHECK(enet_address_set_host_ip(&to, "127.0.0.1") == 0);
        server->duplicatePeers = most;
        for (int i = 0; i < 2; i++) {
            clients[i] = enet_host_create(NULL, 1, 1, 0, 0);
            enet_host_connect(clients[i], &to, 1, 0);
        }
        enet_uint32 begun = enet_time_get();
        while (told < (int)most && enet_time_get() - begun < 60000)
            for (int i = 0; i < 2; i++) told += (enet_host_service(server, NULL, 0), enet_host_service(clients[i], &event, 1) > 0);
        for (int i = 0; i < 20; i++) told += (enet_host_service(server, NULL, 0), enet_host_service(clients[i % 2], &event, 1) > 0);
        CHECK(told == (int)most);
        for (int i = 0; i < 2; i++) enet_host_destroy(clients[i]);
        enet_host_destroy(server);
    }
}

/* A connection that nobody answers ends by a DISCONNECT, after its timeout; a broadcast address is refused at once. */
static void nobody(void) {
    ENetEvent event;
    ENetHost *host = enet_host_create(NULL, 1, 2, 0, 0);
    ENetAddress to = {ENET_HOST_BROADCAST, 9};
    CHECK(enet_host_connect(host, &to, 2, 0) == NULL);
    CHECK(enet_address_set_host_ip(&to, "127.0.0.1") == 0);
    ENetPeer *peer = enet_host_connect(host, &to, 2, 0);
    CHECK(peer != NULL && peer->state == ENET_PEER_STATE_CONNECTING);
    CHECK(enet_host_connect(host, &to, 2, 0) == NULL);
    enet_peer_timeout(peer, 2, 100, 600);
    CHECK(peer->timeoutLimit == 2 && peer->timeoutMinimum == 100 && peer->timeoutMaximum == 600);
    ENetPacket *packet = enet_packet_create("x", 1, ENET_PACKET_FLAG_RELIABLE);
    CHECK(enet_peer_send(peer, 0, packet) == -1 && packet->referenceCount == 0);
    enet_packet_destroy(packet);
    int told = enet_host_service(host, &event, 60000);
    CHECK(told == 1 && event.type == ENET_EVENT_TYPE_DISCONNECT && event.peer == peer && event.data == 0);
    CHECK(peer->state == ENET_PEER_STATE_DISCONNECTED && host->connectedPeers == 0);
    enet_host_destroy(host);
}

/* Serves both hosts until one of them tells an event of this type, for at most a minute. */
static ENetEvent until(ENetHost *one, ENetHost *other, ENetEventType type) {
    ENetEvent event;
    enet_uint32 begun = enet_time_get();
    while (enet_time_get() - begun < 60000)
        for (int i = 0; i < 2; i++)
            while (enet_host_service(i ? other : one, &event, 1) > 0) {
                if (event.type == type) return event;
                if (event.type == ENET_EVENT_TYPE_RECEIVE) enet_packet_destroy(event.packet);
            }
    memset(&event, 0, sizeof event);
    return event;
}

static int freed;

static void ENET_CALLBACK count_free(ENetPacket *packet) {
    (void)packet;
    freed++;
}

/* Two hosts of the layer: packets come as they were sent, callbacks are called, and a reset peer's packets are gone. */
static void conversation(void) {
    ENetHost *server = enet_host_create(&any, 2, 2, 0, 0), *client = enet_host_create(NULL, 1, 2, 0, 0);
    ENetAddress to = server->address;
    CHECK(to.port != 0 && enet_address_set_host_ip(&to, "127.0.0.1") == 0);
    ENetPeer *peer = enet_host_connect(client, &to, 2, 77);
    ENetEvent event = until(client, server, ENET_EVENT_TYPE_CONNECT);
    event = until(client, server, ENET_EVENT_TYPE_CONNECT);
    CHECK(event.type == ENET_EVENT_TYPE_CONNECT && server->connectedPeers == 1 && client->connectedPeers == 1);
    ENetPacket *packet = enet_packet_create("hello", 5, ENET_PACKET_FLAG_RELIABLE);
    packet->freeCallback = count_free;
    CHECK(enet_peer_send(peer, 2, packet) == -1 && enet_peer_send(peer, 1, packet) == 0);
    event = until(client, server, ENET_EVENT_TYPE_RECEIVE);
    CHECK(event.type == ENET_EVENT_TYPE_RECEIVE && event.channelID == 1 && event.packet->dataLength == 5 && !memcmp(event.packet->data, "hello", 5));
    CHECK(event.packet->flags == ENET_PACKET_FLAG_RELIABLE && freed == 1);
    enet_packet_destroy(event.packet);
    for (int i = 0; i < 3; i++) enet_host_broadcast(client, 0, enet_packet_create("abc", 3, ENET_PACKET_FLAG_RELIABLE));
    for (int i = 0; i < 20; i++) enet_host_service(client, NULL, 5), enet_host_service(server, NULL, 5);
    enet_uint8 channel = 9;
    packet = enet_peer_receive(&server->peers[0], &channel);
    CHECK(packet != NULL && channel == 0 && packet->dataLength == 3);
    enet_packet_destroy(packet);
    enet_peer_reset(&server->peers[0]);
    CHECK(enet_host_check_events(server, &event) == 0 && server->peers[0].state == ENET_PEER_STATE_DISCONNECTED && server->connectedPeers == 0);
    event = until(client, server, ENET_EVENT_TYPE_DISCONNECT);
    CHECK(event.type == ENET_EVENT_TYPE_DISCONNECT && client->connectedPeers == 0);
    enet_host_destroy(server);
    enet_host_destroy(client);
}

/* What the program writes while it talks: an mtu that it lowered is that of the next connection, at either end, and the other end is told of
 * the bandwidths. */
static void late_settings(void) {
    ENetHost *server = enet_host_create(&any, 2, 2, 0, 0), *client = enet_host_create(NULL, 1, 2, 0, 0);
    ENetAddress to = server->address;
    CHECK(enet_address_set_host_ip(&to, "127.0.0.1") == 0);
    for (int i = 0; i < 3; i++) {
        ENetHost *lowered = i == 1 ? client : server;
        CHECK(enet_host_service(lowered, NULL, 0) == 0);
        if (i > 0) lowered->mtu -= 100;
        ENetPeer *peer = enet_host_connect(client, &to, 2, 0);
        for (int k = 0; k < 2; k++) CHECK(until(client, server, ENET_EVENT_TYPE_CONNECT).type == ENET_EVENT_TYPE_CONNECT);
        CHECK(peer->mtu == (i ? 1300 : 1400) && server->peers[0].mtu == peer->mtu);
        if (i == 1) {
            client->incomingBandwidth = 50000;
            client->outgoingBandwidth = 60000;
            for (int k = 0; k < 20; k++) enet_host_service(client, NULL, 5), enet_host_service(server, NULL, 5);
            CHECK(server->peers[0].incomingBandwidth == 50000 && server->peers[0].outgoingBandwidth == 60000);
        }
        enet_peer_disconnect(peer, 0);
        for (int k = 0; k < 2; k++) CHECK(until(client, server, ENET_EVENT_TYPE_DISCONNECT).type == ENET_EVENT_TYPE_DISCONNECT);
    }
    enet_host_destroy(server);
    enet_host_destroy(client);
}

static ENetPeer *next_to;
static int sent_on;

/* Where a packet is let go, sends one more at once. */
static void ENET_CALLBACK send_on(ENetPacket *packet) {
    (void)packet;
    ENetPacket *more = enet_packet_create("more", 4, ENET_PACKET_FLAG_RELIABLE);
    more->freeCallback = count_free;
    sent_on += enet_peer_send(next_to, 0, more) == 0;
    enet_host_flush(next_to->host);
}

static int made, let_go;

/* Where a packet is let go, sends another one of this kind, as long as that is taken. */
static void ENET_CALLBACK send_again(ENetPacket *packet) {
    (void)packet;
    let_go++;
    ENetPacket *more = enet_packet_create("again", 5, 0);
    made++;
    more->freeCallback = send_again;
    if (enet_peer_send(next_to, 0, more) == 0) return;
    more->freeCallback = NULL;
    enet_packet_destroy(more);
    let_go++;
}

/* Serves the hosts until the first has so many peers and as many bytes have come to the second and the third, for at most a minute. */
static void serve(ENetHost *const *hosts, char (*texts)[32], size_t peers, size_t bytes) {
    ENetEvent event;
    enet_uint32 begun = enet_time_get();
    while (enet_time_get() - begun < 60000 && (hosts[0]->connectedPeers < peers || strlen(texts[0]) + strlen(texts[1]) < bytes))
        for (int i = 0; i < 3; i++)
            while (enet_host_service(hosts[i], &event, 1) > 0)
                if (event.type == ENET_EVENT_TYPE_RECEIVE) {
                    if (i) strncat(texts[i - 1], (const char *)event.packet->data, event.packet->dataLength);
                    enet_packet_destroy(event.packet);
                }
}

static void give(ENetPeer *peer, ENetPacket *packet) {
    CHECK(enet_peer_send(peer, 0, packet) == 0);
}

/* Packets to two peers, to one, and from a callback: each comes with its own bytes, in order. */
static void letting_go(void) {
    ENetHost *hosts[3] = {enet_host_create(&any, 2, 1, 0, 0), enet_host_create(NULL, 1, 1, 0, 0), enet_host_create(NULL, 1, 1, 0, 0)};
    char texts[2][32] = {"", ""};
    ENetAddress to = hosts[0]->address;
    CHECK(enet_address_set_host_ip(&to, "127.0.0.1") == 0);
    enet_host_connect(hosts[1], &to, 1, 0);
    serve(hosts, texts, 1, 0);
    enet_host_connect(hosts[2], &to, 1, 0);
    serve(hosts, texts, 2, 0);
    ENetPeer *first = next_to = &hosts[0]->peers[0], *second = &hosts[0]->peers[1];
    ENetPacket *shared = enet_packet_create("both", 4, ENET_PACKET_FLAG_RELIABLE);
    ENetPacket *last = enet_packet_create("last", 4, ENET_PACKET_FLAG_RELIABLE);
    last->freeCallback = send_on;
    freed = 0;
    give(first, shared);
    give(second, shared);
    give(first, enet_packet_create("once", 4, ENET_PACKET_FLAG_RELIABLE));
    give(first, last);
    serve(hosts, texts, 2, 20);
    CHECK(enet_host_service(hosts[0], NULL, 0) == 0); /* what the callback sent is let go by the next service */
    CHECK(sent_on == 1 && freed == 1);
    CHECK(!strcmp(texts[0], "bothoncelastmore") && !strcmp(texts[1], "both"));
    ENetPacket *again = enet_packet_create("again", 5, 0);
    again->freeCallback = send_again;
    give(first, again);
    for (int i = 0; i < 5; i++) CHECK(enet_host_service(hosts[0], NULL, 0) == 0);
    CHECK(made == 5 && let_go == 5);
    for (int i = 0; i < 3; i++) enet_host_destroy(hosts[i]);
    CHECK(made == 6 && let_go == 7);
}

static int taken, given_back;

static void *ENET_CALLBACK take(size_t size) {
    taken++;
    return malloc(size);
}

static void ENET_CALLBACK give_back(void *memory) {
    given_back++;
    free(memory);
}

/* A program may give an allocator of its own, or half of one beside the C library's other half. */
static void allocators(void) {
    const ENetCallbacks both = {take, give_back, NULL}, of_taking = {take, free, NULL}, of_giving = {malloc, give_back, NULL};
    const ENetCallbacks plain = {malloc, free, NULL}, *all[] = {&both, &of_taking, &of_giving, &plain};
    const int takes[] = {2, 2, 0, 0}, gives[] = {2, 0, 2, 0}; /* a packet is two blocks */
    for (int i = 0; i < 4; i++) {
        CHECK(enet_initialize_with_callbacks(ENET_VERSION, all[i]) == 0);
        taken = given_back = 0;
        ENetPacket *packet = enet_packet_create("own", 4, 0);
        CHECK(packet && !strcmp((char *)packet->data, "own"));
        enet_packet_destroy(packet);
        CHECK(taken == takes[i] && given_back == gives[i]);
    }
}

int main(void) {
    CHECK(enet_initialize() == 0 && enet_linked_version() == ENET_VERSION);
    settings();
    patience();
    crowds();
    nobody();
    conversation();
    late_settings();
    letting_go();
    allocators();
    enet_deinitialize();
    printf("refusals: %ld checks held, %ld did not\n", passed, failed);
    return passed > 0 && failed == 0 ? 0 : 1;
}
