/* Which thread calls: a handle and a host are opened on one thread and served on others, one after another, and let go on the first; each
 * thread's call begins after the last one's has ended. Two other hosts talk on threads of their own meanwhile. Run with ThreadSanitizer and
 * with AddressSanitizer. */
#include "../gofnjerta.h"
#include <enet/enet.h>
#include <pthread.h>
#include <stdatomic.h>
#include <stdbool.h>
#include <stdio.h>
#include <stdlib.h>
#include <string.h>

enum { THREADS = 4, PACKETS = 300, LIMIT_MS = 120000 };

static atomic_long failed;

#define CHECK(condition) ((condition) ? 0 : (atomic_fetch_add(&failed, 1), printf("%s:%d: not so: %s\n", __FILE__, __LINE__, #condition)))

/* Two handles, and the datagrams between them. */
typedef struct {
    gofnjerta_host hosts[2];
    gofnjerta_peer peer;
    uint32_t came;
} Pair;

static const gofnjerta_address places[2] = {{0x7F000001, 1}, {0x7F000001, 2}};

static void exchange(Pair *pair) {
    uint8_t buffer[GOFNJERTA_ROOM];
    gofnjerta_datagram gave;
    for (int n = 0; n < 4; n++)
        for (int i = 0; i < 2; i++)
            while (gofnjerta_service(&pair->hosts[i], buffer, sizeof buffer, &gave) == 0 && gave.length)
                gofnjerta_receive(&pair->hosts[1 - i], places[i], buffer, gave.length, NULL);
}

/* One thread's part: packets go from the first host to the second. */
static void *talk(void *all) {
    Pair *pair = all;
    gofnjerta_event event;
    uint8_t body[3000], got[3000];
    for (int n = 0; n < PACKETS; n++) {
        memset(body, n, sizeof body);
        size_t length = n % 7 ? (size_t)n % 120 : sizeof body;
        if (gofnjerta_submit(&pair->hosts[0], pair->peer, 0, GOFNJERTA_RELIABLE, body, length)) continue;
        exchange(pair);
        while (gofnjerta_next_event(&pair->hosts[1], &event) == 0 && event.kind) {
            if (event.kind != GOFNJERTA_RECEIVE) continue;
            if (gofnjerta_body(&pair->hosts[1], got, sizeof got) == 0 && !memcmp(got, body, event.length)) pair->came++;
        }
        for (int i = 0; i < 2; i++) gofnjerta_tick(&pair->hosts[i], 1);
    }
    return NULL;
}

/* The handles are opened here, and go from thread to thread. */
static void handles(void) {
    static Pair pair;
    gofnjerta_config config = gofnjerta_standard(1, 1);
    gofnjerta_event event;
    for (int i = 0; i < 2; i++) CHECK(gofnjerta_open(&pair.hosts[i], &config) == 0);
    CHECK(gofnjerta_connect(&pair.hosts[0], places[1], 1, 0, 7, &pair.peer) == 0);
    exchange(&pair);
    CHECK(gofnjerta_next_event(&pair.hosts[0], &event) == 0 && event.kind == GOFNJERTA_CONNECT);
    for (int i = 0; i < THREADS; i++) {
        pthread_t thread;
        if (pthread_create(&thread, NULL, talk, &pair) == 0) pthread_join(thread, NULL);
    }
    CHECK(pair.came == THREADS * PACKETS);
    for (int i = 0; i < 2; i++) CHECK(gofnjerta_close(&pair.hosts[i]) == 0);
}

/* A server that one thread made and others serve, one after another, until its client has all. */
typedef struct {
    ENetHost *host;
    pthread_mutex_t lock;
    atomic_bool is_over;
    int turns;
} Server;

/* Echoes, as one of several threads that take the server by turns. */
static void *serve(void *all) {
    Server *server = all;
    ENetEvent event;
    while (!server->is_over) {
        pthread_mutex_lock(&server->lock);
        while (enet_host_service(server->host, &event, 0) > 0)
            if (event.type == ENET_EVENT_TYPE_RECEIVE) {
                enet_peer_send(event.peer, 0, enet_packet_create(event.packet->data, event.packet->dataLength, ENET_PACKET_FLAG_RELIABLE));
                enet_packet_destroy(event.packet);
            }
        server->turns++;
        pthread_mutex_unlock(&server->lock);
    }
    return NULL;
}

/* A client on a thread of its own, which made its host. */
static void *visit(void *port) {
    ENetAddress to = {.port = *(enet_uint16 *)port};
    enet_address_set_host_ip(&to, "127.0.0.1");
    ENetHost *client = enet_host_create(NULL, 1, 1, 0, 0);
    ENetPeer *peer = client ? enet_host_connect(client, &to, 1, 0) : NULL;
    ENetEvent event;
    int came = 0;
    enet_uint32 begun = enet_time_get();
    while (peer && came < PACKETS && enet_time_get() - begun < LIMIT_MS) {
        if (enet_host_service(client, &event, 5) <= 0) continue;
        if (event.type == ENET_EVENT_TYPE_RECEIVE) {
            came++;
            enet_packet_destroy(event.packet);
        }
        if (event.type != ENET_EVENT_TYPE_DISCONNECT) enet_peer_send(peer, 0, enet_packet_create("hello", 5, ENET_PACKET_FLAG_RELIABLE));
    }
    CHECK(came == PACKETS);
    if (client) enet_host_destroy(client);
    return NULL;
}

static void hosts(void) {
    ENetAddress any = {ENET_HOST_ANY, ENET_PORT_ANY};
    Server server = {.host = enet_host_create(&any, THREADS, 1, 0, 0), .lock = PTHREAD_MUTEX_INITIALIZER};
    pthread_t servers[2], clients[THREADS];
    CHECK(server.host != NULL);
    if (!server.host) return;
    enet_uint16 port = server.host->address.port;
    for (int i = 0; i < 2; i++) pthread_create(&servers[i], NULL, serve, &server);
    for (int i = 0; i < THREADS; i++) pthread_create(&clients[i], NULL, visit, &port);
    for (int i = 0; i < THREADS; i++) pthread_join(clients[i], NULL);
    server.is_over = true;
    for (int i = 0; i < 2; i++) pthread_join(servers[i], NULL);
    CHECK(server.turns > 0);
    enet_host_destroy(server.host);
}

int main(void) {
    if (enet_initialize() != 0) return 2;
    handles();
    hosts();
    enet_deinitialize();
    printf("threads: %s\n", failed ? "not so" : "all is so");
    return failed ? 1 : 0;
}
