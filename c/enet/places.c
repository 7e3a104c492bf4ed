/* Slots for peers that come. The core gives each one the lowest slot that is free there, or, where none is, that of the peer which waits
 * longest for its client to confirm the answer. Where the program wasn't told yet of the end of a slot's last peer, or doesn't use the slot
 * (peerCount), a peer of nobody holds the slot in the core meanwhile: its datagrams are dropped, and nobody hears of it. */
#include "layer.h"

static const gofnjerta_address nobody;

/* The state of the core's peer in a slot, also of one that the program doesn't know; GOFNJERTA_FREE where there is none. */
static uint32_t state_in(Layer *layer, uint16_t number) {
    const Slot *slot = &layer->slots[number];
    const uint32_t generations[] = {slot->name.generation, slot->seen.generation, slot->parked};
    gofnjerta_reading read;
    for (size_t i = 0; i < 3; i++)
        if (generations[i] != UINT32_MAX && !gofnjerta_read_peer(&layer->core, (gofnjerta_peer){number, generations[i]}, &read))
            return read.state;
    return GOFNJERTA_FREE;
}

static bool is_taken(Layer *layer, uint16_t number) {
    const Slot *slot = &layer->slots[number];
    return (slot->known && !slot->ended) || state_in(layer, number) != GOFNJERTA_FREE;
}

void layer_unpark(Layer *layer, uint16_t number) {
    Slot *slot = &layer->slots[number];
    if (!slot->is_parked) return;
    slot->is_parked = false;
    gofnjerta_disconnect_now(&layer->core, (gofnjerta_peer){number, slot->parked}, 0);
}

/* A peer of nobody takes the slot, the core's lowest free one; false where it can't. */
static bool park(Layer *layer, uint16_t number) {
    gofnjerta_peer name;
    if (gofnjerta_connect(&layer->core, nobody, 1, 0, 0, &name)) return false;
    layer->slots[name.slot].is_parked = true;
    layer->slots[name.slot].parked = name.generation;
    gofnjerta_set_timeout(&layer->core, name, UINT32_MAX, UINT32_MAX, UINT32_MAX);
    if (name.slot != number) layer_unpark(layer, name.slot);
    return name.slot == number;
}

/* The program changed how many slots it uses: of those that it didn't use before the peers of nobody leave. */
static void note_in_use(Layer *layer, size_t in_use) {
    for (size_t i = layer->in_use; i < in_use; i++)
        if (!layer->slots[i].ended) layer_unpark(layer, (uint16_t)i);
    layer->in_use = in_use;
    layer->has_way = false;
}

/* No slot in use is free: sees to it that nobody gets one that isn't in use. False while there is one whose peer may give way, or is about
 * to leave. */
static bool close_rest(Layer *layer) {
    for (size_t i = layer->in_use; i < layer->config.peers; i++) {
        uint32_t state = state_in(layer, (uint16_t)i);
        if (state == GOFNJERTA_ANSWERING || state == GOFNJERTA_PARTING) return false;
        if (state == GOFNJERTA_FREE && !park(layer, (uint16_t)i)) return false;
    }
    return true;
}

bool layer_make_way(Layer *layer) {
    size_t in_use = slots_in_use(layer);
    if (in_use != layer->in_use) note_in_use(layer, in_use);
    if (layer->has_way || (!layer->ended && in_use == layer->config.peers)) return true;
    for (size_t i = 0; i < in_use; i++) {
        if (is_taken(layer, (uint16_t)i)) continue;
        if (!layer->slots[i].ended) return true;
        if (!park(layer, (uint16_t)i)) return false;
    }
    return layer->has_way = close_rest(layer);
}
