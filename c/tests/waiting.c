/* A server that takes packets peer by peer (enet_peer_receive): what it passes over is kept in bounds, told in order, and no slot is used
 * again before its last end was told, while others come. */
#include <enet/enet.h>
#include <stdbool.h>
#include <stdio.h>
#include <stdlib.h>
#include <string.h>

enum { LIMIT_MS = 120000 };

static long passed, failed;

#define CHECK(condition) ((condition) ? (void)passed++ : (void)(failed++, printf("%s:%d: not so: %s\n", __FILE__, __LINE__, #condition)))

static ENetHost *server;
static ENetAddress to;

static void open_server(size_t slots, size_t max_waiting) {
    to.port = ENET_PORT_ANY;
    enet_address_set_host_ip(&to, "127.0.0.1");
    server = enet_host_create(&to, slots, 3, 0, 0);
    if (!server) exit(2);
    server->maximumWaitingData = max_waiting;
    to.port = server->address.port;
}

/* A client with one connection, and the server's peer of it. */
typedef struct {
    ENetHost *host;
    ENetPeer *peer, *there;
} Client;

static Client join(void) {
    ENetEvent event;
    bool told = false;
    enet_uint32 begun = enet_time_get();
    Client client = {.host = enet_host_create(NULL, 1, 3, 0, 0)};
    if (!client.host) exit(2);
    client.peer = enet_host_connect(client.host, &to, 3, 0);
    while ((!told || !client.there) && enet_time_get() - begun < LIMIT_MS) {
        if (enet_host_service(client.host, &event, 1) > 0) told = event.type == ENET_EVENT_TYPE_CONNECT;
        if (enet_host_service(server, &event, 1) > 0 && event.type == ENET_EVENT_TYPE_CONNECT) client.there = event.peer;
    }
    CHECK(told && client.there);
    if (!client.there) exit(1);
    return client;
}

static void give(ENetPeer *peer, enet_uint8 channel, enet_uint32 number, size_t length, enet_uint32 flags) {
    static char body[2000];
    memcpy(body, &number, sizeof number);
    ENetPacket *packet = enet_packet_create(body, length, flags);
    if (enet_peer_send(peer, channel, packet) != 0) {
        CHECK(false);
        enet_packet_destroy(packet);
    }
}

/* The number of a peer's next packet; -1 where there is none. */
static long take(ENetPeer *peer, size_t *length) {
    enet_uint8 channel;
    enet_uint32 number = 0;
    ENetPacket *packet = enet_peer_receive(peer, &channel);
    if (!packet) return -1;
    *length = packet->dataLength;
    memcpy(&number, packet->data, sizeof number);
    enet_packet_destroy(packet);
    return number;
}

static void serve(const Client *one, const Client *other) {
    enet_host_service(one->host, NULL, 0);
    enet_host_service(other->host, NULL, 0);
    enet_host_service(server, NULL, 0);
}

/* One client floods, and the server takes from the other alone, which never has to wait. What is passed over stays within twice the limit:
 * what is kept, and what the host holds. Meanwhile the flooding peer's acknowledgements are heard, and once its packets are taken it goes on. */
static void flood(void) {
    enum { ROUNDS = 1500, EACH = 4, LENGTH = 1000, WAITING = 100000 };
    open_server(2, WAITING);
    Client calm = join(), wild = join();
    size_t length = 0, total = 0;
    long next = 0;
    enet_peer_throttle_configure(wild.peer, 5000, 32, 0);
    for (int i = 0; i < ROUNDS; i++) {
        for (int k = 0; k < EACH; k++) give(wild.peer, 0, 7, LENGTH, 0);
        give(calm.peer, 0, (enet_uint32)i, LENGTH, ENET_PACKET_FLAG_RELIABLE);
        serve(&wild, &calm);
        while (next == take(calm.there, &length)) next++;
    }
    enet_uint32 begun = enet_time_get();
    while (next < ROUNDS && enet_time_get() - begun < LIMIT_MS) {
        serve(&wild, &calm);
        while (next == take(calm.there, &length)) next++;
    }
    CHECK(next == ROUNDS);
    give(wild.there, 1, 5, LENGTH, ENET_PACKET_FLAG_RELIABLE);
    long came = -1;
    for (begun = enet_time_get(); (came != 5 || wild.there->reliableDataInTransit) && enet_time_get() - begun < LIMIT_MS;) {
        for (int k = 0; k < EACH; k++) give(wild.peer, 0, 7, LENGTH, 0);
        serve(&wild, &calm);
        if (came < 0) came = take(wild.peer, &length);
        CHECK(take(calm.there, &length) == -1);
    }
    CHECK(came == 5 && wild.there->reliableDataInTransit == 0);
    while (take(wild.there, &length) >= 0) total += length;
    CHECK(total >= WAITING / 2 && total <= 2 * WAITING + 2 * LENGTH);
    give(wild.peer, 0, 8, LENGTH, ENET_PACKET_FLAG_RELIABLE);
    for (begun = enet_time_get(), came = -1; came != 8 && enet_time_get() - begun < LIMIT_MS;) {
        serve(&wild, &calm);
        came = take(wild.there, &length);
    }
    CHECK(came == 8 && server->connectedPeers == 2);
    enet_host_destroy(wild.host);
    enet_host_destroy(calm.host);
    enet_host_destroy(server);
}

/* Two slots, of which the first one's end is passed over: it isn't given to a connection that the server asks for, nor to one that comes,
 * before its end was told. */
static void ending(void) {
    open_server(2, 100000);
    Client first = join(), second = join();
    ENetEvent event;
    size_t length;
    int data;
    first.there->data = &data;
    give(first.peer, 0, 1, 10, ENET_PACKET_FLAG_RELIABLE);
    for (int i = 0; i < 3; i++) serve(&first, &second);
    CHECK(take(second.there, &length) == -1);
    enet_peer_disconnect(first.peer, 77);
    for (int i = 0; i < 3; i++) serve(&first, &second);
    CHECK(take(second.there, &length) == -1);
    CHECK(enet_host_connect(server, &to, 1, 0) == NULL);
    CHECK(first.there->state == ENET_PEER_STATE_ZOMBIE && first.there->data == &data);
    ENetHost *third = enet_host_create(NULL, 1, 1, 0, 0);
    enet_host_connect(third, &to, 1, 99);
    enet_host_flush(third);
    for (int i = 0; i < 3; i++) serve(&first, &second);
    bool ended = false, begun_anew = false;
    enet_uint32 begun = enet_time_get();
    while (!begun_anew && enet_time_get() - begun < LIMIT_MS) {
        enet_host_service(third, NULL, 1);
        if (enet_host_service(server, &event, 1) <= 0) continue;
        if (event.type == ENET_EVENT_TYPE_RECEIVE) {
            CHECK(event.peer == first.there && event.peer->data == &data && !ended);
            enet_packet_destroy(event.packet);
        } else if (event.type == ENET_EVENT_TYPE_DISCONNECT) {
            CHECK(event.peer == first.there && event.data == 77 && event.peer->data == &data && !ended);
            ended = true;
            event.peer->data = NULL;
        } else {
            CHECK(event.peer == first.there && event.data == 99 && ended && event.peer->data == NULL);
            begun_anew = true;
        }
    }
    CHECK(begun_anew && server->connectedPeers == 2);
    enet_host_destroy(third);
    enet_host_destroy(first.host);
    enet_host_destroy(second.host);
    enet_host_destroy(server);
}

/* Whether a client is told of its connection within so many milliseconds, by a server that asks for no event. */
static bool is_let_in(ENetHost *client, enet_uint32 ms) {
    ENetEvent event;
    for (enet_uint32 begun = enet_time_get(); enet_time_get() - begun < ms;) {
        enet_uint8 channel;
        enet_host_service(server, NULL, 0);
        for (size_t i = 0; i < server->peerCount; i++) CHECK(enet_peer_receive(&server->peers[i], &channel) == NULL);
        if (enet_host_service(client, &event, 1) > 0 && event.type == ENET_EVENT_TYPE_CONNECT) return true;
    }
    return false;
}

/* A server of three slots that asks for no events: behind an end that wasn't told, newcomers get the other slots, and no more of them come
 * than that. Once it asks, it is told of all in turn, and the first slot is there again. */
static void newcomers(void) {
    open_server(3, 100000);
    Client first = join(), last = {0};
    ENetHost *more[3];
    ENetEvent event;
    int data, ends = 0, came = 0;
    size_t length;
    first.there->data = &data;
    enet_peer_disconnect(first.peer, 5);
    for (int i = 0; i < 10; i++) serve(&first, &first);
    for (int i = 0; i < 3; i++) {
        more[i] = enet_host_create(NULL, 1, 3, 0, 0);
        last.peer = enet_host_connect(more[i], &to, 3, (enet_uint32)i);
        CHECK(is_let_in(more[i], i < 2 ? LIMIT_MS : 300) == (i < 2));
    }
    CHECK(first.there->state == ENET_PEER_STATE_ZOMBIE && first.there->data == &data && enet_host_connect(server, &to, 1, 0) == NULL);
    for (enet_uint32 begun = enet_time_get(); came < 3 && enet_time_get() - begun < LIMIT_MS;) {
        for (int i = 0; i < 3; i++) enet_host_service(more[i], &event, 0);
        if (enet_host_service(server, &event, 1) <= 0) continue;
        if (event.type == ENET_EVENT_TYPE_DISCONNECT) ends += event.peer == first.there && event.data == 5 && event.peer->data == &data;
        else CHECK(event.type == ENET_EVENT_TYPE_CONNECT && event.data == (enet_uint32)came++ && (event.peer == first.there) == (came == 3));
        if (event.type == ENET_EVENT_TYPE_CONNECT) last.there = event.peer;
    }
    CHECK(ends == 1 && came == 3 && server->connectedPeers == 3);
    CHECK(last.peer->state == ENET_PEER_STATE_CONNECTED || enet_host_service(more[2], &event, LIMIT_MS) == 1);
    give(last.peer, 0, 44, 10, ENET_PACKET_FLAG_RELIABLE);
    long taken = -1;
    for (enet_uint32 begun = enet_time_get(); taken == -1 && enet_time_get() - begun < LIMIT_MS; taken = take(last.there, &length)) {
        enet_host_service(more[2], NULL, 1);
        enet_host_service(server, NULL, 1);
    }
    CHECK(taken == 44);
    enet_host_destroy(first.host);
    for (int i = 0; i < 3; i++) enet_host_destroy(more[i]);
    enet_host_destroy(server);
}

int main(void) {
    if (enet_initialize() != 0) return 2;
    flood();
    ending();
    newcomers();
    enet_deinitialize();
    printf("waiting: %s\n", failed ? "not so" : "all is so");
    return failed ? 1 : 0;
}
