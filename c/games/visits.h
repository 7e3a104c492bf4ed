/* What the clients of games' servers share: some hosts with a connection each, served by turns. */
#ifndef VISITS_H
#define VISITS_H
#include <enet/enet.h>
#include <stdbool.h>
#include <stdio.h>
#include <stdlib.h>
#include <string.h>

enum { CLIENTS = 3, LIMIT_MS = 20000 };

static ENetHost *hosts[CLIENTS];
static bool connected[CLIENTS], left[CLIENTS];
static enet_uint32 reason[CLIENTS]; /* the word of the disconnect */

/* What the game's client does with a packet that came to it. */
static void hear(int i, ENetPeer *peer, enet_uint8 channel, const ENetPacket *packet);

static void take(int i, const ENetEvent *event) {
    if (event->type == ENET_EVENT_TYPE_CONNECT) connected[i] = true;
    if (event->type == ENET_EVENT_TYPE_DISCONNECT) {
        left[i] = true;
        reason[i] = event->data;
    }
    if (event->type != ENET_EVENT_TYPE_RECEIVE) return;
    hear(i, event->peer, event->channelID, event->packet);
    enet_packet_destroy(event->packet);
}

/* Serves all until this is so, for so long at most. */
static bool until(const bool *so, enet_uint32 ms) {
    ENetEvent event;
    enet_uint32 begun = enet_time_get();
    while (!*so && enet_time_get() - begun < ms)
        for (int i = 0; i < CLIENTS; i++)
            if (hosts[i] && enet_host_service(hosts[i], &event, 2) > 0) take(i, &event);
    return *so;
}

/* A client asks 127.0.0.1 for a connection. */
static bool begin(int i, enet_uint16 port, size_t channels) {
    ENetAddress to = {.port = port};
    hosts[i] = enet_address_set_host(&to, "127.0.0.1") ? NULL : enet_host_create(NULL, 2, channels, 0, 0);
    return hosts[i] && enet_host_connect(hosts[i], &to, channels, 0);
}

static bool send_to(ENetPeer *peer, enet_uint8 channel, const void *bytes, size_t length) {
    ENetPacket *packet = enet_packet_create(bytes, length, ENET_PACKET_FLAG_RELIABLE);
    if (packet && enet_peer_send(peer, channel, packet) == 0) return true;
    enet_packet_destroy(packet);
    return false;
}

/* A client leaves, and is told so. */
static bool leave(int i) {
    enet_peer_disconnect(&hosts[i]->peers[0], 0);
    return until(&left[i], LIMIT_MS);
}

static int end(const char *why) {
    puts(why);
    for (int i = 0; i < CLIENTS; i++) enet_host_destroy(hosts[i]);
    return 1;
}

#endif
