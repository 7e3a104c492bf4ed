/* What the program's compressor and checksum make of datagrams around the core, as libenet has it: flag 0x4000 says that what follows the
 * header is compressed; a checksum of four bytes stands behind the header, taken of the datagram as it was before compression, with the
 * connect id in the checksum's place, as it stands on the wire, or 0 where the receiver's slot isn't known yet. */
#include "layer.h"
#include <string.h>

enum { SENT_TIME = 0x8000, COMPRESSED = 0x4000, SUM = 4 };

/* The bytes of a header but the checksum. */
static uint32_t head_of(const uint8_t *at) { return at[0] & SENT_TIME >> 8 ? 4 : 2; }

/* The checksum of a datagram that lies in two parts, of which the first has the room for it. */
static uint32_t sum_of(const ENetHost *host, uint8_t *front, size_t head, uint32_t connect_id, const uint8_t *rest, size_t length) {
    memcpy(front + head, &connect_id, SUM);
    const ENetBuffer parts[] = {{front, head + SUM}, {(void *)(uintptr_t)rest, length}};
    return host->checksum(parts, 2);
}

uint32_t layer_dress(Layer *layer, uint8_t *at, uint32_t length, const Slot *slot) {
    ENetHost *host = &layer->host;
    if (length <= 4) return length;
    uint32_t head = head_of(at), size = length - head, packed = 0, sum = 0, extra = host->checksum ? SUM : 0;
    uint8_t front[8] = {0};
    if (host->compressor.context && host->compressor.compress) {
        const ENetBuffer whole = {at + head, size};
        size_t answer = host->compressor.compress(host->compressor.context, &whole, 1, size, host->packetData[1], size);
        if (answer > 0 && answer < size) packed = (uint32_t)answer;
    }
    if (packed) at[0] |= COMPRESSED >> 8;
    memcpy(front, at, head);
    if (extra) {
        bool is_known = (front[0] & 0xF) != 0xF || front[1] != 0xFF;
        sum = sum_of(host, front, head, is_known ? slot->connect_id : 0, at + head, size);
    }
    if (packed) memcpy(at + head + extra, host->packetData[1], packed);
    else if (extra) memmove(at + head + extra, at + head, size);
    if (extra) memcpy(at + head, &sum, SUM);
    return head + extra + (packed ? packed : size);
}

/* The slot that a datagram names, if it comes from where the core's peer there is; NULL where none is named. False where it is nobody's. */
static bool find_receiver(Layer *layer, const gofnjerta_address *from, const uint8_t *data, Slot **receiver) {
    uint32_t id = (data[0] & 0xFu) << 8 | data[1];
    *receiver = NULL;
    if (id == ENET_PROTOCOL_MAXIMUM_PEER_ID) return true;
    if (id >= slots_in_use(layer)) return false;
    *receiver = &layer->slots[id];
    return (*receiver)->seen.generation != UINT32_MAX && (*receiver)->at.ip == from->ip && (*receiver)->at.port == from->port;
}

/* Whether the core takes in what comes to a slot's peer with this header: the peer is there, and the session is its own, once the other end's
 * slot is known. */
static bool is_taken_in(Layer *layer, const Slot *receiver, const uint8_t *data) {
    gofnjerta_reading read;
    if (gofnjerta_read_peer(&layer->core, receiver->seen, &read)) return false;
    if (read.state == GOFNJERTA_FREE || read.state == GOFNJERTA_ENDED || read.state == GOFNJERTA_PARTING) return false;
    return read.slot == ENET_PROTOCOL_MAXIMUM_PEER_ID || read.incoming_session == (data[0] >> 4 & 3);
}

/* Takes a place for a datagram that names no slot; false where as many were opened within the last second as may be. */
static bool take_place(Layer *layer) {
    uint64_t *place = &layer->opens_at[layer->next_place];
    if (layer->clock < *place) return false;
    *place = layer->clock + SECOND_MS;
    layer->next_place = (layer->next_place + 1) % OPENED;
    return true;
}

/* Into how many bytes a datagram's code of `size` bytes is opened, which stands behind `front` bytes; 0 where it isn't opened. What names no
 * slot is a stranger's: a CONNECT alone, whose code is shorter than what it opens to. */
static size_t room_of(Layer *layer, const Slot *receiver, const uint8_t *data, size_t front, size_t size) {
    if (receiver) return is_taken_in(layer, receiver, data) ? DATAGRAM - front : 0;
    return size < OFFER && take_place(layer) ? OFFER : 0;
}

/* Opens a datagram's code of `size` bytes, which stands behind `front` bytes, to behind as many bytes of `plain`, of DATAGRAM bytes. How many
 * bytes it opens to; 0 where it isn't opened. */
static size_t open_code(Layer *layer, const Slot *receiver, const uint8_t *data, size_t front, size_t size, uint8_t *plain) {
    const ENetCompressor *own = &layer->host.compressor;
    if (!own->context || !own->decompress) return 0;
    size_t room = room_of(layer, receiver, data, front, size);
    size_t opened = room ? own->decompress(own->context, data + front, size, plain + front, room) : 0;
    return opened <= room ? opened : 0;
}

bool layer_undress(Layer *layer, const gofnjerta_address *from, uint8_t **data, size_t *length) {
    ENetHost *host = &layer->host;
    Slot *receiver;
    uint8_t *plain = host->packetData[1];
    if (*length < 2 || !find_receiver(layer, from, *data, &receiver)) return false;
    size_t head = head_of(*data), extra = host->checksum ? SUM : 0, front = head + extra;
    if (*length < front) return false;
    size_t size = *length - front;
    if ((*data)[0] & COMPRESSED >> 8) {
        size = open_code(layer, receiver, *data, front, size, plain);
        if (size == 0) return false;
        memcpy(plain, *data, front);
        *data = plain;
    }
    if (extra) {
        uint32_t wanted;
        memcpy(&wanted, *data + head, SUM);
        memcpy(*data + head, receiver ? &receiver->connect_id : &(uint32_t){0}, SUM);
        const ENetBuffer whole = {*data, front + size};
        if (host->checksum(&whole, 1) != wanted) return false;
        /* The header goes up to what it heads. */
        memmove(*data + extra, *data, head);
        *data += extra;
    }
    (*data)[0] &= (uint8_t)~(COMPRESSED >> 8);
    *length = head + size;
    return true;
}
