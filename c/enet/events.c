/* What the program is told. Of a peer that it let go it hears nothing more. enet_peer_receive passes over what others are to be told; it is
 * kept, slot by slot, and handed out first. */
#include "layer.h"

/* Whether the program is to know of the beginning or the end of a connection. */
__attribute__((noinline)) static bool is_news(Layer *layer, const gofnjerta_event *told) {
    Slot *slot = &layer->slots[told->peer.slot];
    bool is_last = slot->name.generation == told->peer.generation;
    if (told->peer.generation == slot->parked) {
        slot->is_parked = false;
        forget_way(layer);
        return false;
    }
    ENetPeer *peer = &layer->host.peers[told->peer.slot];
    if (told->kind == GOFNJERTA_CONNECT) {
        if (!is_last) layer_meet(layer, told->peer, true);
        if (slot->known) peer->eventData = told->info;
        return slot->known;
    }
    if (is_last && slot->lingers) {
        slot->lingers = false;
        layer->lingering--;
        forget_way(layer);
    }
    if (!is_last || !slot->known) return false;
    slot->ended = true;
    layer->ended++;
    forget_way(layer);
    layer_show_peer(layer, peer);
    peer->eventData = told->info;
    if (slot->told || !slot->came) return true;
    /* It came and went, and the program heard nothing of it yet. */
    layer_drop_kept(layer, peer);
    layer_forget(layer, peer);
    return false;
}

/* What goes with each packet is part of its callers. */
#define HOT __attribute__((always_inline)) static inline

/* Whether the program is to know of an event of the core. */
HOT bool is_for_program(Layer *layer, const gofnjerta_event *told) {
    const Slot *slot = &layer->slots[told->peer.slot];
    if (told->kind != GOFNJERTA_RECEIVE) return is_news(layer, told);
    return slot->known && slot->name.generation == told->peer.generation && !slot->is_mute;
}

/* Takes the core's next event that is for the program, unless one waits. */
HOT bool hear(Layer *layer) {
    while (!layer->pending && layer->may_tell) {
        layer->may_tell = gofnjerta_core_next_event(&layer->core, &layer->told) == GOFNJERTA_OK && layer->told.kind != GOFNJERTA_NONE;
        layer->pending = layer->may_tell && is_for_program(layer, &layer->told);
    }
    return layer->pending;
}

/* Takes the packet of the event that was heard, NULL where it has none; false where there is no memory for it, which leaves the event. */
HOT bool settle_heard(Layer *layer, ENetPacket **packet) {
    *packet = NULL;
    if (layer->told.kind == GOFNJERTA_RECEIVE) {
        *packet = enet_packet_create(NULL, layer->told.length, layer->told.flags);
        if (!*packet) return false;
        if ((*packet)->data) gofnjerta_core_body(&layer->core, (*packet)->data, (*packet)->dataLength);
    }
    layer->pending = false;
    return true;
}

/* What a kept event counts for. */
static size_t weight_of(const Kept *kept) {
    return sizeof *kept + (kept->packet ? sizeof *kept->packet + kept->told.length : 0);
}

static void stand_in_line(Layer *layer, uint16_t number) {
    Slot *slot = &layer->slots[number];
    if (slot->is_in_line) return;
    slot->is_in_line = true;
    if (layer->line++) layer->slots[layer->line_last].behind = number;
    else layer->line_first = number;
    layer->line_last = number;
}

/* The slot that is first in line leaves it. */
static Slot *leave_line(Layer *layer) {
    Slot *slot = &layer->slots[layer->line_first];
    slot->is_in_line = false;
    layer->line_first = slot->behind;
    layer->line--;
    return slot;
}

/* Shows whether enet_peer_receive has a packet of the slot's at hand, of which so many bytes came or went. */
static void show_kept(Layer *layer, uint16_t number, const Kept *kept, bool came) {
    const Slot *slot = &layer->slots[number];
    ENetPeer *peer = &layer->host.peers[number];
    size_t length = kept->packet ? kept->told.length : 0;
    peer->totalWaitingData += came ? length : 0 - ENET_MIN(length, peer->totalWaitingData);
    if (slot->first && slot->first->packet) put_mark(&peer->dispatchedCommands, &layer->marks[number].kept);
    else take_mark(&peer->dispatchedCommands);
}

/* Keeps the event that was heard; false where there is no memory. */
static bool keep(Layer *layer) {
    Slot *slot = &layer->slots[layer->told.peer.slot];
    Kept *kept = malloc(sizeof *kept);
    if (!kept) return false;
    *kept = (Kept){NULL, layer->told, NULL};
    if (!settle_heard(layer, &kept->packet)) {
        free(kept);
        return false;
    }
    if (slot->first) slot->newest->next = kept;
    else slot->first = kept;
    slot->newest = kept;
    slot->kept_bytes += weight_of(kept);
    show_kept(layer, kept->told.peer.slot, kept, true);
    stand_in_line(layer, kept->told.peer.slot);
    return true;
}

/* Takes a slot's first kept event; there is one. */
static Kept take_kept(Layer *layer, Slot *slot) {
    Kept *first = slot->first, kept = *first;
    slot->first = kept.next;
    slot->kept_bytes -= weight_of(first);
    show_kept(layer, kept.told.peer.slot, &kept, false);
    free(first);
    return kept;
}

void layer_drop_kept(Layer *layer, const ENetPeer *peer) {
    Slot *slot = &layer->slots[peer->incomingPeerID];
    while (slot->first) {
        Kept kept = take_kept(layer, slot);
        enet_packet_destroy(kept.packet);
    }
    if (layer->pending && layer->told.peer.slot == peer->incomingPeerID) layer->pending = false;
}

void layer_drain(Layer *layer) {
    while (layer->lingering && hear(layer) && keep(layer)) continue;
}

void layer_keep_all(Layer *layer) {
    while (hear(layer) && keep(layer)) continue;
}

/* The same of the beginning or the end of a connection. */
__attribute__((noinline)) static void hand_out_news(Layer *layer, const gofnjerta_event *told, ENetEvent *event) {
    ENetPeer *peer = event->peer;
    event->type = told->kind == GOFNJERTA_CONNECT ? ENET_EVENT_TYPE_CONNECT : ENET_EVENT_TYPE_DISCONNECT;
    event->data = peer->eventData = told->info;
    if (told->kind == GOFNJERTA_DISCONNECT) {
        layer_forget(layer, peer);
        return;
    }
    slot_of(peer)->told = true;
    layer_show_peer(layer, peer);
}

/* Hands an event to the program, with its packet. */
HOT void hand_out(Layer *layer, const gofnjerta_event *told, ENetPacket *packet, ENetEvent *event) {
    event->peer = &layer->host.peers[told->peer.slot];
    event->packet = packet;
    event->channelID = told->channel;
    event->type = ENET_EVENT_TYPE_RECEIVE;
    if (told->kind != GOFNJERTA_RECEIVE) hand_out_news(layer, told, event);
}

/* Hands out the next kept event; false where there is none. */
__attribute__((noinline)) static bool tell_kept(Layer *layer, ENetEvent *event) {
    while (layer->line) {
        Slot *slot = leave_line(layer);
        if (!slot->first) continue;
        Kept kept = take_kept(layer, slot);
        if (slot->first) stand_in_line(layer, kept.told.peer.slot);
        hand_out(layer, &kept.told, kept.packet, event);
        return true;
    }
    return false;
}

int layer_tell(Layer *layer, ENetEvent *event) {
    if (layer->line && tell_kept(layer, event)) return 1;
    if (!hear(layer)) return 0;
    ENetPacket *packet;
    if (!settle_heard(layer, &packet)) return -1;
    hand_out(layer, &layer->told, packet, event);
    return 1;
}

int enet_host_check_events(ENetHost *host, ENetEvent *event) {
    if (!event) return -1;
    *event = (ENetEvent){0};
    return layer_tell(layer_of(host), event);
}

/* The peer's next packet, unless another event of it comes before. What comes for others meanwhile is kept, each event once. */
ENetPacket *enet_peer_receive(ENetPeer *peer, enet_uint8 *channel) {
    Layer *layer = layer_of(peer->host);
    Slot *slot = slot_of(peer);
    Kept next;
    while (!slot->first) {
        if (!hear(layer)) return NULL;
        bool is_wanted = layer->told.peer.slot == peer->incomingPeerID && layer->told.kind == GOFNJERTA_RECEIVE;
        if (!is_wanted && !keep(layer)) return NULL;
        if (!is_wanted) continue;
        next.told = layer->told;
        if (!settle_heard(layer, &next.packet)) return NULL;
        if (channel) *channel = next.told.channel;
        return next.packet;
    }
    if (slot->first->told.kind != GOFNJERTA_RECEIVE) return NULL;
    next = take_kept(layer, slot);
    if (channel) *channel = next.told.channel;
    return next.packet;
}
