// server PORT PEERS CHANNELS [echo]: a relay of the rule of `enet_relay serve`, over the reference library, on 127.0.0.1, until it is
// stopped. A packet of channel 0 goes to every other connected peer on channel 0, reliably; one of channel 1 on channel 1 with flags
// 0; all others nowhere. With `echo` it goes back to its sender instead, and to no other. The mtu is 1392, as there.
#include <stdbool.h>
#include <string.h>

#include <enet/enet.h>

#include "common.h"

static void relay(ENetHost *host, const ENetEvent *event, bool echoes)
{
    if (event->channelID > 1)
        return;
    enet_uint32 flags = event->channelID == 0 ? ENET_PACKET_FLAG_RELIABLE : 0;
    ENetPacket *copy = enet_packet_create(event->packet->data, event->packet->dataLength, flags);
    if (copy == NULL)
        give_up("server: no memory");
    for (size_t i = 0; i < host->peerCount; i++) {
        ENetPeer *peer = &host->peers[i];
        if ((peer == event->peer) == echoes && peer->state == ENET_PEER_STATE_CONNECTED)
            enet_peer_send(peer, event->channelID, copy);
    }
    if (copy->referenceCount == 0)
        enet_packet_destroy(copy);
}

int main(int count, char **words)
{
    ENetAddress address = { .port = (enet_uint16)number_of(count, words, 1, 1, 65535) };
    size_t peers = (size_t)number_of(count, words, 2, 1, 4095);
    size_t channels = (size_t)number_of(count, words, 3, 1, 255);
    bool echoes = count > 4 && strcmp(words[4], "echo") == 0;
    enet_address_set_host_ip(&address, "127.0.0.1");
    ENetHost *host = enet_initialize() == 0 ? enet_host_create(&address, peers, channels, 0, 0) : NULL;
    if (host == NULL)
        give_up("server: port %d can't be had", address.port);
    host->mtu = 1392;
    for (;;) {
        ENetEvent event;
        int status = enet_host_service(host, &event, 5);
        if (status < 0)
            give_up("server: the socket failed");
        if (status > 0 && event.type == ENET_EVENT_TYPE_RECEIVE) {
            relay(host, &event, echoes);
            enet_packet_destroy(event.packet);
        }
    }
}
