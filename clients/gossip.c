// gossip PORT CLIENTS SECONDS: strangers at the relay at PORT of 127.0.0.1. So many clients of the reference library ask for one channel, and
// another one for two. Once all are connected it writes `talking`, and for so many seconds the last one sends up to 20,000 packets a second on
// channel 1, which the relay can't pass on to the others: CLIENTS orders are refused for each. After a second and a half of silence, in which
// the log keeps up again, all leave. Prints how many packets were sent.
#include <enet/enet.h>

#include "common.h"

enum { MOST = 64, AT_ONCE = 40 };

static const double PAUSE = 0.002, LIMIT = 60, SILENCE = 1.5, AFTERWARDS = 0.5;

static ENetHost *hosts[MOST + 1];
static ENetPeer *peers[MOST + 1];
static int many, connected;

static void hear_all(double seconds)
{
    ENetEvent event;
    double begun = now();
    do {
        for (int i = 0; i <= many; i++)
            while (enet_host_service(hosts[i], &event, 0) > 0) {
                connected += event.type == ENET_EVENT_TYPE_CONNECT;
                if (event.type == ENET_EVENT_TYPE_RECEIVE)
                    enet_packet_destroy(event.packet);
            }
        nanosleep(&(struct timespec){ .tv_nsec = 500000 }, NULL);
    } while (now() < begun + seconds);
}

int main(int count, char **words)
{
    ENetAddress relay = { .port = (enet_uint16)number_of(count, words, 1, 1, 65535) };
    double seconds = (double)number_of(count, words, 3, 1, 600);
    long sent = 0;
    many = (int)number_of(count, words, 2, 1, MOST);
    enet_address_set_host_ip(&relay, "127.0.0.1");
    if (enet_initialize() != 0)
        give_up("gossip: the library can't be used");
    for (int i = 0; i <= many; i++) {
        hosts[i] = enet_host_create(NULL, 1, 2, 0, 0);
        peers[i] = hosts[i] == NULL ? NULL : enet_host_connect(hosts[i], &relay, i < many ? 1 : 2, 0);
        if (peers[i] == NULL)
            give_up("gossip: a client can't begin");
    }
    for (double begun = now(); connected <= many; hear_all(0.01))
        if (now() > begun + LIMIT)
            give_up("gossip: %d of %d are connected", connected, many + 1);
    printf("talking\n");
    fflush(stdout);
    for (double begun = now(); now() < begun + seconds; hear_all(PAUSE))
        for (int i = 0; i < AT_ONCE; i++) {
            ENetPacket *packet = enet_packet_create("", 0, 0);
            if (packet == NULL || enet_peer_send(peers[many], 1, packet) != 0)
                give_up("gossip: a packet isn't taken");
            sent++;
        }
    hear_all(SILENCE);
    for (int i = 0; i <= many; i++)
        enet_peer_disconnect(peers[i], 0);
    printf("%ld sent\n", sent);
    fflush(stdout);
    hear_all(AFTERWARDS);
    return 0;
}
