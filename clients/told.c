// told PORT COUNT SECONDS: so many clients of the reference library, at the server at PORT of 127.0.0.1, each of which writes a line for what
// it is told, behind its number: `0 connected`, `0 got TEXT` for a packet on channel 0, and `0 ended INFO` for the end of its connection. They
// end once all were told of theirs, with status 0, or after so many seconds, with status 2.
#include <enet/enet.h>

#include "common.h"

enum { MOST = 64 };

static ENetHost *hosts[MOST];
static int ended;

static void begin(int i, const ENetAddress *server)
{
    hosts[i] = enet_host_create(NULL, 1, 2, 0, 0);
    if (hosts[i] == NULL || enet_host_connect(hosts[i], server, 2, 0) == NULL)
        give_up("told: a client can't begin");
}

static void hear(int i)
{
    ENetEvent event;
    while (enet_host_service(hosts[i], &event, 0) > 0) {
        if (event.type == ENET_EVENT_TYPE_CONNECT) {
            printf("%d connected\n", i);
        } else if (event.type == ENET_EVENT_TYPE_DISCONNECT) {
            printf("%d ended %u\n", i, event.data);
            ended++;
        } else if (event.type == ENET_EVENT_TYPE_RECEIVE) {
            if (event.channelID == 0)
                printf("%d got %.*s\n", i, (int)event.packet->dataLength, (const char *)event.packet->data);
            enet_packet_destroy(event.packet);
        }
        fflush(stdout);
    }
}

int main(int count, char **words)
{
    ENetAddress server = { .port = (enet_uint16)number_of(count, words, 1, 1, 65535) };
    int many = (int)number_of(count, words, 2, 1, MOST);
    double seconds = (double)number_of(count, words, 3, 1, 600);
    enet_address_set_host_ip(&server, "127.0.0.1");
    if (enet_initialize() != 0)
        give_up("told: the library can't be used");
    for (int i = 0; i < many; i++)
        begin(i, &server);
    for (double begun = now(); now() < begun + seconds;) {
        for (int i = 0; i < many; i++)
            hear(i);
        if (ended == many)
            return 0;
        nanosleep(&(struct timespec){ .tv_nsec = 2000000 }, NULL);
    }
    return 2;
}
