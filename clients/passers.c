// passers PORT COUNT SECONDS: so many clients of the reference library come to the server at PORT of 127.0.0.1 and leave again at once, fifty at
// a time. Prints how many were connected and told the end. Status 2 where that took longer than so many seconds.
#include <enet/enet.h>

#include "common.h"

enum { AT_ONCE = 50 };

static ENetHost *hosts[AT_ONCE];
static long begun, passed;

static void begin(int i, const ENetAddress *server, long many)
{
    if (begun >= many)
        return;
    if (enet_host_connect(hosts[i], server, 2, 0) == NULL)
        give_up("passers: one can't connect");
    begun++;
}

static void hear(int i, const ENetAddress *server, long many)
{
    ENetEvent event;
    while (enet_host_service(hosts[i], &event, 0) > 0) {
        if (event.type == ENET_EVENT_TYPE_CONNECT) {
            enet_host_flush(hosts[i]); // the acknowledgement, which else would be dropped
            enet_peer_disconnect(event.peer, 0);
        } else if (event.type == ENET_EVENT_TYPE_DISCONNECT) {
            passed++;
            begin(i, server, many);
        } else if (event.type == ENET_EVENT_TYPE_RECEIVE) {
            enet_packet_destroy(event.packet);
        }
    }
}

int main(int count, char **words)
{
    ENetAddress server = { .port = (enet_uint16)number_of(count, words, 1, 1, 65535) };
    long many = number_of(count, words, 2, 1, 1000000);
    double seconds = (double)number_of(count, words, 3, 1, 600);
    enet_address_set_host_ip(&server, "127.0.0.1");
    if (enet_initialize() != 0)
        give_up("passers: the library can't be used");
    for (int i = 0; i < AT_ONCE; i++) {
        hosts[i] = enet_host_create(NULL, 1, 2, 0, 0);
        if (hosts[i] == NULL)
            give_up("passers: a client can't begin");
        begin(i, &server, many);
    }
    double start = now();
    while (passed < many && now() < start + seconds) {
        for (int i = 0; i < AT_ONCE; i++)
            hear(i, &server, many);
        nanosleep(&(struct timespec){ .tv_nsec = 200000 }, NULL);
    }
    printf("%ld passed\n", passed);
    return passed < many ? 2 : 0;
}
