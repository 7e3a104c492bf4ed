/* Packets that the program sends. */
#include "layer.h"
#include <string.h>

/* Gives back one reference. */
static void give_back(Layer *layer, size_t i, enet_uint32 flag) {
    ENetPacket *packet = layer->sent[i].packet;
    if (!packet) return;
    layer->sent[i].packet = NULL;
    take_mark(&layer->host.peers[layer->sent[i].slot].outgoingCommands);
    if (--packet->referenceCount) return;
    packet->flags |= flag;
    layer->given = layer->staged = NULL; /* its callback may send, and memory may be had anew */
    enet_packet_destroy(packet);
}

/* What the callbacks send stays until the next time, also where they serve the host. */
void layer_release(Layer *layer, enet_uint32 flag) {
    if (layer->releases) return;
    layer->releases = true;
    size_t count = layer->sent_count;
    for (size_t i = 0; i < count; i++) give_back(layer, i, flag);
    layer->sent_count -= count;
    if (layer->sent_count) memmove(layer->sent, layer->sent + count, layer->sent_count * sizeof *layer->sent);
    layer->given = layer->staged = NULL;
    layer->releases = false;
}

void layer_release_of(Layer *layer, const ENetPeer *peer) {
    size_t count = layer->sent_count;
    for (size_t i = 0; i < count && i < layer->sent_count; i++)
        if (layer->sent[i].slot == peer->incomingPeerID) give_back(layer, i, 0);
}

static bool make_room_sent(Layer *layer, size_t count) {
    size_t room = layer->sent_room ? layer->sent_room : 16;
    while (room - layer->sent_count < count) room *= 2;
    if (room == layer->sent_room) return true;
    Given *sent = realloc(layer->sent, room * sizeof *sent);
    if (!sent) return false;
    layer->sent = sent;
    layer->sent_room = room;
    return true;
}

/* An order for the packet whose bytes the core holds. */
static bool share(Layer *layer, const ENetPeer *peer, enet_uint8 channel, const ENetPacket *packet) {
    if (gofnjerta_core_submit_staged(&layer->core, &layer->slots[peer->incomingPeerID].name, channel, (uint8_t)packet->flags)) return false;
    layer->orders++;
    return true;
}

/* An order for another packet. The core copies its bytes: with this first order where the packet before it went to one peer alone, else
 * apart from the orders, which share them. */
static bool give(Layer *layer, const ENetPeer *peer, enet_uint8 channel, ENetPacket *packet, bool shares) {
    const void *body = packet->dataLength ? packet->data : NULL;
    gofnjerta_peer name = layer->slots[peer->incomingPeerID].name;
    if (!shares) return !gofnjerta_submit(&layer->core, name, channel, (uint8_t)packet->flags, body, packet->dataLength);
    layer->staged = NULL;
    if (gofnjerta_stage(&layer->core, body, packet->dataLength) || !share(layer, peer, channel, packet)) return false;
    layer->staged = packet;
    return true;
}

/* A packet of which the core doesn't hold the bytes for several peers. It is held until the next service. */
static int send_anew(Layer *layer, const ENetPeer *peer, enet_uint8 channel, ENetPacket *packet) {
    bool is_again = layer->given == packet;
    if (!give(layer, peer, channel, packet, is_again || layer->orders > 1)) return -1;
    layer->given = packet;
    if (!is_again) layer->orders = 1;
    return 0;
}

/* These peers hold a reference each until the next service. There is room for them. */
static void hold(Layer *layer, const gofnjerta_peer *names, size_t count, ENetPacket *packet) {
    Given *sent = layer->sent + layer->sent_count;
    for (size_t i = 0; i < count; i++) {
        uint16_t number = names[i].slot;
        sent[i] = (Given){packet, number};
        put_mark(&layer->host.peers[number].outgoingCommands, &layer->marks[number].queued);
    }
    layer->sent_count += count;
    packet->referenceCount += count;
}

int enet_peer_send(ENetPeer *peer, enet_uint8 channel, ENetPacket *packet) {
    Layer *layer = layer_of(peer->host);
    if (peer->state != ENET_PEER_STATE_CONNECTED || layer->ends || packet->dataLength > layer->host.maximumPacketSize) return -1;
    if (!make_room_sent(layer, 1)) return -1;
    if (layer->staged != packet ? send_anew(layer, peer, channel, packet) : !share(layer, peer, channel, packet)) return -1;
    hold(layer, &slot_of(peer)->name, 1, packet);
    return 0;
}

/* One order for these peers, who share one copy of the packet's bytes; one peer alone is sent it. */
static void give_all(Layer *layer, const gofnjerta_peer *names, size_t count, enet_uint8 channel, ENetPacket *packet) {
    const void *body = packet->dataLength ? packet->data : NULL;
    if (count == 1) enet_peer_send(&layer->host.peers[names[0].slot], channel, packet);
    if (count < 2 || !make_room_sent(layer, count)) return;
    if (gofnjerta_broadcast(&layer->core, names, count, channel, (uint8_t)packet->flags, body, packet->dataLength)) return;
    hold(layer, names, count, packet);
    layer->given = packet;
    layer->orders = count;
}

/* Whether a broadcast goes to a peer: not where it asked for fewer channels. */
static bool is_reached(const ENetPeer *peer, enet_uint8 channel) {
    return peer->state == ENET_PEER_STATE_CONNECTED && channel < peer->channelCount;
}

void enet_host_broadcast(ENetHost *host, enet_uint8 channel, ENetPacket *packet) {
    Layer *layer = layer_of(host);
    gofnjerta_peer names[BATCH];
    size_t count = 0, slots = layer->ends || packet->dataLength > host->maximumPacketSize ? 0 : slots_in_use(layer);
    for (size_t i = 0; i < slots; i++) {
        if (is_reached(&host->peers[i], channel)) names[count++] = layer->slots[i].name;
        if (count < BATCH && i + 1 < slots) continue;
        give_all(layer, names, count, channel, packet);
        count = 0;
    }
    if (packet->referenceCount == 0) enet_packet_destroy(packet);
}
