/* The API of ENet 1.3 over gofnjerta.h: socket, clock, packets and the fields that programs read. The proved host does the protocol;
 * nothing here is proved. What goes with each packet or datagram calls the proved functions themselves (core.h). This is what the files
 * of the layer share; nothing of it is for others. */
#ifndef GOFNJERTA_LAYER_H
#define GOFNJERTA_LAYER_H
#ifndef _GNU_SOURCE
#define _GNU_SOURCE
#endif
#include "../core.h"
#include "enet.h"

enum { DATAGRAM = 4096, BATCH = 256, REFRESH_MS = 100 };

/* How many datagrams are gathered before they are sent, in how many bytes; and how many of them, of how many bytes in all, one call of
 * the system's takes at most. */
enum { GATHERED = 1024, GATHERED_BYTES = 1 << 20, TRAIN = 64, TRAIN_BYTES = 65000 };

#ifndef UDP_SEGMENT
#define UDP_SEGMENT 103
#endif

/* A compressed datagram that names no slot is opened into so many bytes at most: a CONNECT has 48, and the core takes nothing else from who
 * has no slot. And so many of them are opened in a second, whoever sends them. */
enum { OFFER = 64, OPENED = 1000, SECOND_MS = 1000 };

/* A datagram that the core gave and that isn't sent yet. */
typedef struct {
    gofnjerta_address to;
    uint32_t at, length; /* where it is among the gathered bytes */
    uint16_t slot, next; /* the next one of the same slot; 0 where it is the last */
    bool leads;          /* it is its slot's first */
} Parcel;

/* An event that was passed over, and the packet of a RECEIVE. */
typedef struct Kept {
    struct Kept *next;
    gofnjerta_event told;
    ENetPacket *packet;
} Kept;

/* A packet for one peer, whose bytes the core has; it holds one reference. */
typedef struct {
    ENetPacket *packet; /* NULL where the peer was reset since */
    uint16_t slot;
} Given;

/* What stands in a list of a peer that isn't empty. */
typedef union {
    ENetListNode node;
    ENetOutgoingCommand outgoing;
    ENetIncomingCommand incoming;
} Mark;

typedef struct {
    Mark queued, sent, kept;
} Marks;

/* A slot as the program sees it. What goes with each datagram comes first, in one line of the processor's cache. */
typedef struct {
    /* Its peer's, or that of the last one; of generation UINT32_MAX, which no peer has, before there was one. */
    _Alignas(64) gofnjerta_peer name;
    gofnjerta_peer seen; /* the last peer of which a datagram went, which the program may not know yet */
    uint32_t parked;     /* UINT32_MAX before there was one */
    uint16_t last, behind;
    uint16_t *highest;   /* of each channel the highest number of a reliable command that went; NULL where memory was missing */
    size_t kept_bytes;   /* what the packets of its kept events take */
    bool known;          /* the name is a peer's */
    bool told;           /* its Connect event was handed out, and no end */
    bool ended;          /* the core told its end, which isn't handed out yet */
    bool is_mute;        /* the program disconnects it: no packet of it is handed out any more */
    bool lingers;        /* the program let it go, and the core hasn't told its end */
    bool is_parked;      /* the core has a peer of nobody in it, of generation `parked` */
    bool came;           /* the other end asked for the connection */
    bool pings;          /* the program asked for a ping, and no reliable command went since */
    bool sends;          /* some of its datagrams are gathered, up to the parcel `last` */
    bool is_in_line;     /* it stands in line for its kept events, before the slot `behind` where it isn't the last */
    bool is_counted, is_limited; /* in the host's numbers of connected and of limited peers */
    uint16_t cut_below;  /* trains to its last peer are of datagrams shorter than this; the system refused a longer one */
    Kept *first, *newest; /* its events that were passed over */
    gofnjerta_address at;
    uint32_t connect_id; /* as it stands on the wire */
    uint32_t incoming, outgoing; /* the other end's bandwidths */
    uint32_t ping, timeouts[3];  /* in milliseconds, as the core has them; and the limit */
} Slot;

/* A CONNECT that came from an address: which slot's peer answers it. */
typedef struct {
    gofnjerta_address from;
    bool awaits, is_seen;
    uint16_t slot;
} Arrival;

/* A host; the program sees its first member alone. */
typedef struct {
    ENetHost host;
    gofnjerta_host core;
    gofnjerta_config config;   /* the settings that it was opened with */
    bool begun;                /* they stand */
    bool releases;             /* callbacks of packets that are let go are being called */
    bool ends;                 /* the program destroys it */
    bool puts_out;             /* what the core gives is being sent */
    bool has_failed;           /* the socket failed to send since the service began */
    Slot *slots;
    uint64_t clock, refreshed; /* milliseconds */
    bool is_stale;             /* the peers' fields are to be renewed, once what is due was sent */
    uint64_t full_at;          /* when there was no way for a peer that came; UINT64_MAX where there may be one */
    size_t in_use;             /* how many slots were in use when a way was last asked for */
    bool has_way;              /* a peer that comes gets none of the slots that the program hasn't done with or doesn't use */
    Marks *marks;              /* by slots; each one's links stand */
    Given *sent;               /* packets that the program gave away since the last service */
    size_t sent_count, sent_room;
    ENetPacket *given, *staged; /* the last of them, and the one whose bytes the core holds for several peers */
    size_t orders;             /* for how many peers the last one was */
    bool pending;              /* the event `told`, whose packet the core keeps, is neither handed out nor kept */
    bool may_tell;             /* the core may have an event: it took or gave a datagram, or time went on, since it last had none */
    gofnjerta_event told;
    size_t line;               /* how many slots stand in line for their kept events, which come first */
    uint16_t line_first, line_last;
    size_t ended, lingering;   /* how many slots' peers have ended so, and linger */
    Arrival arrival;
    ENetSocket asked;          /* the socket of which `has_trains` was found; another one may stand in its place since */
    bool has_trains;           /* the system cuts what this socket sends into datagrams (UDP_SEGMENT) */
    uint64_t opens_at[OPENED]; /* a place for each compressed datagram of a second that names no slot: when it may be used again, by `clock` */
    size_t next_place;         /* the one that was used first */
    size_t parcel_count, gathered_bytes;
    Parcel parcels[GATHERED];
    uint8_t gathered[GATHERED_BYTES + DATAGRAM + 16]; /* a datagram may get a checksum */
} Layer;


#pragma GCC visibility push(hidden)

extern uint64_t layer_clock_base; /* when the library's time was 0, in milliseconds of the machine's clock */
extern ENetCallbacks layer_callbacks;
extern bool layer_has_allocator; /* the program gave one; it may be one of the C library's functions beside one of its own */

uint64_t layer_now(void); /* the machine's clock, in milliseconds */

/* Whether the program asks for nothing that isn't offered. At the first connect, service or flush the core is opened anew with the settings
 * that it has of its own, mtu and maximumWaitingData. */
bool layer_is_ready(Layer *layer);

/* Sees to it that the core's next peer gets a slot that the program has done with and uses (peerCount), or none; false where it can't. */
bool layer_make_way(Layer *layer);
void layer_unpark(Layer *layer, uint16_t number); /* the peer of nobody leaves the slot */

void layer_forget(Layer *layer, ENetPeer *peer);         /* the program is done with this peer */
void layer_show_peer(Layer *layer, ENetPeer *peer);      /* brings its fields up to date */
void layer_meet(Layer *layer, gofnjerta_peer name, bool answers); /* a slot's new peer, which the other end may have asked for */
void layer_drop_kept(Layer *layer, const ENetPeer *peer); /* drops what the peer's events told and the program didn't take */
void layer_drain(Layer *layer);                          /* keeps what there is to tell, until no slot lingers */
void layer_keep_all(Layer *layer);                       /* keeps what there is to tell */
int layer_tell(Layer *layer, ENetEvent *event);          /* the next event: 1, 0 where there is none, -1 where memory is missing */
void layer_release(Layer *layer, enet_uint32 flag);        /* gives back the references to packets that were submitted; the last gets the flag */
void layer_release_of(Layer *layer, const ENetPeer *peer); /* the same of one peer, at its reset */
void layer_go_on(Layer *layer);                            /* the clock goes on to now */
void layer_put_out(Layer *layer);                          /* sends all that the core gives; has_failed where the socket failed */
void layer_count(Layer *layer, ENetPeer *peer);            /* whether it is among the host's connected and limited peers */

/* Takes in what came. How many datagrams it was goes to `came`; 1 where the program made an event of one, -1 for a fault. */
int layer_take_in(Layer *layer, ENetEvent *event, int *came);

/* What the core gave, at the start of `length` bytes with room for a checksum behind them, gets compressed and its checksum; its length. */
uint32_t layer_dress(Layer *layer, uint8_t *at, uint32_t length, const Slot *slot);

/* A datagram that came, of at most DATAGRAM bytes, goes back to what its core gave; false where it is to be dropped. */
bool layer_undress(Layer *layer, const gofnjerta_address *from, uint8_t **data, size_t *length);

#pragma GCC visibility pop

/* The length of the command at the front of so many bytes, at least one, its payload included; 0 where there is none that is whole. */
static inline size_t command_length(const uint8_t *at, size_t left) {
    static const struct {
        uint8_t size, length_at;
    } shapes[16] = {{0, 0}, {8, 0}, {48, 0}, {44, 0}, {8, 0}, {4, 0}, {6, 4}, {8, 6}, {24, 6}, {8, 6}, {12, 0}, {16, 0}, {24, 6}};
    size_t size = shapes[at[0] & 0xF].size, place = shapes[at[0] & 0xF].length_at;
    if (!size || size > left) return 0;
    if (place) size += (size_t)at[place] << 8 | at[place + 1];
    return size <= left ? size : 0;
}

/* How many slots the program has in use: it may have lowered peerCount. */
static inline size_t slots_in_use(const Layer *layer) { return ENET_MIN(layer->host.peerCount, layer->config.peers); }

/* A slot's peer ended, or the program was told of that: whether there is a way for newcomers is found anew. */
static inline void forget_way(Layer *layer) {
    layer->full_at = UINT64_MAX;
    layer->has_way = false;
}

/* A list gets the mark alone, or nothing. The mark's own links never change, so that neither touches it. */
static inline void link_mark(ENetList *list, Mark *mark) { mark->node = (ENetListNode){&list->sentinel, &list->sentinel}; }
static inline void put_mark(ENetList *list, Mark *mark) { list->sentinel = (ENetListNode){&mark->node, &mark->node}; }
static inline void take_mark(ENetList *list) { list->sentinel = (ENetListNode){&list->sentinel, &list->sentinel}; }

static inline Layer *layer_of(ENetHost *host) { return (Layer *)host; }
static inline Slot *slot_of(ENetPeer *peer) { return &layer_of(peer->host)->slots[peer->incomingPeerID]; }

#endif
