// tell serve PORT PEERS KIND SECONDS: a server on 127.0.0.1 that waits for so many clients and then tells them 100 bytes 60 times a second, by
// enet_host_broadcast, reliably (KIND 1) or not (0). Prints how many broadcasts went, and how many microseconds of processor time each took, with
// all that came of it. `tell_all` does what is measured. It is compiled against either library.
//
// tell listen PORT PEERS: that many clients of one process, which only listen, until the server lets them go. Prints how many packets came.
#include <enet/enet.h>
#include <poll.h>
#include <stdbool.h>

#include "common.h"

enum { MOST = 500, LENGTH = 100, EACH_SECOND = 60 };

static ENetHost *hosts[MOST];

// Takes what a host has to tell, for so long at most. The clients that came or went count for `connected`, and packets are counted.
static long service(ENetHost *host, enet_uint32 milliseconds, long *connected)
{
    ENetEvent event;
    long came = 0;
    while (enet_host_service(host, &event, milliseconds) > 0) {
        milliseconds = 0;
        if (event.type == ENET_EVENT_TYPE_CONNECT) {
            enet_peer_throttle_configure(event.peer, 5000, 32, 0); // no unreliable packet is dropped before it is sent
            ++*connected;
        }
        if (event.type == ENET_EVENT_TYPE_DISCONNECT)
            --*connected;
        if (event.type == ENET_EVENT_TYPE_RECEIVE) {
            came++;
            enet_packet_destroy(event.packet);
        }
    }
    return came;
}

static double processor_time(void)
{
    struct timespec t;
    clock_gettime(CLOCK_PROCESS_CPUTIME_ID, &t);
    return (double)t.tv_sec + 1e-9 * (double)t.tv_nsec;
}

// Tells all clients so often.
__attribute__((noinline)) static void tell_all(ENetHost *host, long count, enet_uint32 flags, long *connected)
{
    static const uint8_t body[LENGTH];
    double begun = now();
    for (long i = 0; i < count; i++) {
        ENetPacket *packet = enet_packet_create(body, LENGTH, flags);
        if (packet == NULL)
            give_up("tell: no memory");
        enet_host_broadcast(host, 0, packet);
        double left;
        do {
            left = begun + (double)(i + 1) / EACH_SECOND - now();
            service(host, left > 0 ? (enet_uint32)(left * 1e3) : 0, connected);
        } while (left > 1e-3);
    }
}

static void serve(ENetAddress address, long peers, enet_uint32 flags, long seconds)
{
    long connected = 0, count = seconds * EACH_SECOND;
    ENetHost *host = enet_host_create(&address, (size_t)peers, 1, 0, 0);
    if (host == NULL)
        give_up("tell: port %d can't be had", address.port);
    for (double end = now() + 60; connected < peers;) {
        service(host, 5, &connected);
        if (now() > end)
            give_up("tell: %ld of %ld came", connected, peers);
    }
    double used = processor_time();
    tell_all(host, count, flags, &connected);
    used = processor_time() - used;
    if (connected < peers)
        give_up("tell: %ld of %ld stayed", connected, peers);
    for (double end = now() + 1; now() < end;)
        service(host, 5, &connected);
    for (long i = 0; i < peers; i++)
        enet_peer_disconnect_now(&host->peers[i], 0);
    enet_host_flush(host);
    enet_host_destroy(host);
    printf("%ld %.1f\n", count, 1e6 * used / (double)count);
}

static void listen_all(ENetAddress address, long peers)
{
    struct pollfd sockets[MOST];
    long connected = 0, came = 0;
    for (long i = 0; i < peers; i++) {
        hosts[i] = enet_host_create(NULL, 1, 1, 0, 0);
        if (hosts[i] == NULL || enet_host_connect(hosts[i], &address, 1, 0) == NULL)
            give_up("tell: no host");
        sockets[i] = (struct pollfd){ .fd = hosts[i]->socket, .events = POLLIN };
    }
    for (bool began = false; !began || connected > 0; began = began || connected == peers) {
        poll(sockets, (nfds_t)peers, 5);
        for (long i = 0; i < peers; i++)
            came += service(hosts[i], 0, &connected);
    }
    for (long i = 0; i < peers; i++)
        enet_host_destroy(hosts[i]);
    printf("%ld\n", came);
}

int main(int count, char **words)
{
    bool serves = count > 1 && strcmp(words[1], "serve") == 0;
    ENetAddress address = { .port = (enet_uint16)number_of(count, words, 2, 1, 65535) };
    long peers = number_of(count, words, 3, 1, MOST);
    enet_address_set_host_ip(&address, "127.0.0.1");
    if (enet_initialize() != 0)
        give_up("tell: the library doesn't start");
    if (serves)
        serve(address, peers, number_of(count, words, 4, 0, 1) ? ENET_PACKET_FLAG_RELIABLE : 0, number_of(count, words, 5, 1, 3600));
    else
        listen_all(address, peers);
}
