// loud PORT SECONDS RATE LENGTH KIND: two clients of the reference library at the relay at PORT of 127.0.0.1. Once both are in, one of them
// sends for so many seconds RATE packets of LENGTH bytes a second, reliable ones on channel 0 (`reliable`), unreliable ones on channel 1
// (`unreliable`), or unsequenced ones on channel 0 (`unsequenced`); the other counts those of the first that come, for a second more. Prints
// `sent N came M late L` with the milliseconds after which the latest came, and what became of the first: `stayed`, or `ended INFO after S s`
// with the number of its Disconnect event (0 if it timed out), counted from its first packet on.
#include <enet/enet.h>
#include <stdbool.h>
#include <unistd.h>

#include "common.h"

enum { TALKER, LISTENER, ALL, LONGEST = 1300, JOIN = 20 };

// What a packet begins with: when it was sent, and by which process, since others may talk, too.
typedef struct Said {
    double at;
    pid_t by;
} Said;

static ENetHost *hosts[ALL];
static ENetPeer *peers[ALL];
static bool is_in[ALL];
static unsigned long sent, came;
static unsigned ended_with;
static double begun, ended, latest;

static void begin(int i, enet_uint16 port)
{
    ENetAddress relay = { .port = port };
    enet_address_set_host_ip(&relay, "127.0.0.1");
    hosts[i] = enet_host_create(NULL, 1, 2, 0, 0);
    if (hosts[i] == NULL || (peers[i] = enet_host_connect(hosts[i], &relay, 2, 0)) == NULL)
        give_up("loud: a client can't begin");
}

static void hear(int i)
{
    ENetEvent event;
    while (enet_host_service(hosts[i], &event, 0) > 0) {
        if (event.type == ENET_EVENT_TYPE_CONNECT)
            is_in[i] = true;
        if (event.type == ENET_EVENT_TYPE_DISCONNECT && i == LISTENER)
            give_up("loud: the listener's connection ended");
        if (event.type == ENET_EVENT_TYPE_DISCONNECT) {
            ended = now();
            ended_with = event.data;
        }
        if (event.type != ENET_EVENT_TYPE_RECEIVE)
            continue;
        Said said;
        if (i == LISTENER && event.packet->dataLength >= sizeof said) {
            memcpy(&said, event.packet->data, sizeof said);
            if (said.by == getpid()) {
                latest = now() - said.at > latest ? now() - said.at : latest;
                came++;
            }
        }
        enet_packet_destroy(event.packet);
    }
}

static void say(size_t length, const char *kind)
{
    static char text[LONGEST];
    Said said = { .at = now(), .by = getpid() };
    memcpy(text, &said, sizeof said);
    enet_uint32 flags = kind[0] == 'r' ? ENET_PACKET_FLAG_RELIABLE : kind[2] == 's' ? ENET_PACKET_FLAG_UNSEQUENCED : 0;
    ENetPacket *packet = enet_packet_create(text, length, flags);
    if (packet == NULL || enet_peer_send(peers[TALKER], strcmp(kind, "unreliable") == 0, packet) != 0)
        give_up("loud: a packet isn't taken");
    sent++;
}

int main(int count, char **words)
{
    enet_uint16 port = (enet_uint16)number_of(count, words, 1, 1, 65535);
    double seconds = (double)number_of(count, words, 2, 1, 3600);
    double rate = (double)number_of(count, words, 3, 1, 1000000);
    size_t length = (size_t)number_of(count, words, 4, (long)sizeof(Said), LONGEST);
    if (count < 6 || enet_initialize() != 0)
        give_up("loud PORT SECONDS RATE LENGTH KIND");
    for (int i = 0; i < ALL; i++)
        begin(i, port);
    for (double start = now(); !is_in[TALKER] || !is_in[LISTENER];) {
        if (now() > start + JOIN)
            give_up("loud: a client isn't let in");
        hear(TALKER);
        hear(LISTENER);
        nanosleep(&(struct timespec){ .tv_nsec = 1000000 }, NULL);
    }
    for (begun = now(); now() < begun + seconds + 1;) {
        while (ended == 0 && now() < begun + seconds && (double)sent < (now() - begun) * rate)
            say(length, words[5]);
        hear(TALKER);
        hear(LISTENER);
        nanosleep(&(struct timespec){ .tv_nsec = 1000000 }, NULL);
    }
    printf("sent %lu came %lu late %.0f ", sent, came, latest * 1000);
    if (ended == 0)
        printf("stayed\n");
    else
        printf("ended %u after %.1f s\n", ended_with, ended - begun);
    return 0;
}
