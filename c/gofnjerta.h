/* A host of ENet 1.3 without a socket or a clock: datagrams, calls and time go in, datagrams and events come out. It talks with
 * programs that use libenet 1.3. The host is proved (crates/enet_c of Gofnjerta says what); the C in front of it (c/gofnjerta.c), which
 * tests pointers and lengths, is tested only. The library has no state except that of its handles, starts no thread, and calls nothing of
 * the C library except malloc, realloc, free and what copies memory, and nothing of the caller's except the writer of a record.
 *
 * What the caller must keep, since nothing can test it:
 * - A handle is all zero bytes before it is opened. From then until it is closed only this library writes it. It is one object: it may be
 *   moved by memcpy if the old bytes are never used again, but two copies must never both be used.
 * - One call at a time on a handle: a call on another thread begins after the last one has ended, for instance by a lock. Any thread may
 *   call, or close it. Different handles are independent.
 * - A pointer that isn't NULL points to an object of its type, or to as many bytes as the length beside it says, readable if it is
 *   const, otherwise writable. The objects of one call's pointers don't overlap.
 * - No call comes from a signal handler, or from the forked child of a process with threads.
 * - malloc, realloc and free belong to one allocator, and align as C's do.
 * Values may be anything: a call returns a number for those that it refuses.
 *
 * Ownership: the library keeps no pointer of the caller's after a call, except for those given to gofnjerta_record. It copies what it is
 * given, and writes results to the caller's memory. Only gofnjerta_close frees what a handle holds.
 *
 * A call with a uint32_t result returns 0 if it succeeded, otherwise the number of the first reason that applies; GOFNJERTA_MEMORY is
 * the last of these. It has then changed nothing in the handle, except for gofnjerta_broadcast, and has written to the caller's memory only
 * if its comment says so. Each call with a handle may return GOFNJERTA_NULL, and each except gofnjerta_open and gofnjerta_close may
 * return GOFNJERTA_CLOSED.
 *
 * As long as the library is libgofnjerta.so.0, no structure, call or number of this header changes. What is added is a new call, with a new
 * structure if it needs one. gofnjerta_layout.h says where each field lies. */
#ifndef GOFNJERTA_H
#define GOFNJERTA_H
#include <stdbool.h>
#include <stddef.h>
#include <stdint.h>
#ifdef __cplusplus
extern "C" {
#endif

/* The version of this header. gofnjerta_version returns the library's own in the form of GOFNJERTA_VERSION: the major version times 65,536, the
 * minor one times 256 and the patch, added up. */
#define GOFNJERTA_VERSION_MAJOR 0
#define GOFNJERTA_VERSION_MINOR 1
#define GOFNJERTA_VERSION_PATCH 0
#define GOFNJERTA_VERSION (GOFNJERTA_VERSION_MAJOR << 16 | GOFNJERTA_VERSION_MINOR << 8 | GOFNJERTA_VERSION_PATCH)

uint32_t gofnjerta_version(void);

/* A host: `gofnjerta_host host = {0};`. Only this library reads or writes its members. */
typedef struct gofnjerta_host {
    void *at;
    bool is_open;
} gofnjerta_host;

/* Why a call was refused. No call of this library returns 6 or 10 to 17, which are other numbers of the proved host. */
enum {
    GOFNJERTA_OK = 0,
    GOFNJERTA_MEMORY = 1,          /* malloc or realloc refused; the call may be repeated, except gofnjerta_broadcast, which some
                                      peers may have got */
    GOFNJERTA_NO_SUCH_PEER = 2,    /* the slot is free or out of range, or has another generation: the peer is gone */
    GOFNJERTA_NOT_CONNECTED = 3,   /* the peer's state doesn't allow the call */
    GOFNJERTA_NO_SUCH_CHANNEL = 4, /* the channel isn't below the peer's channel count */
    GOFNJERTA_TOO_LARGE = 5,       /* the packet is above max_packet, or would be cut into more than 16,384 pieces; or a length or a count is
                                      larger than any object */
    GOFNJERTA_NO_SLOT = 7,         /* no slot is free that has a generation left */
    GOFNJERTA_BAD_CONFIG = 8,      /* a setting is out of its range, or no channel was asked for */
    GOFNJERTA_FULL = 9,            /* as much is queued or unacknowledged for the peer as gofnjerta_set_send_limit says */
    GOFNJERTA_CLOSED = 32,         /* the handle holds no host */
    GOFNJERTA_OPEN = 33,           /* the handle holds a host already */
    GOFNJERTA_SHORT = 34,          /* the buffer is too short */
    GOFNJERTA_UNSTAGED = 35,       /* no body was staged */
    GOFNJERTA_UNTOLD = 36,         /* the last event was no packet, or there was none yet */
    GOFNJERTA_NULL = 37            /* a pointer that must not be NULL is */
};

/* The settings of a host. */
typedef struct gofnjerta_config {
    uint16_t peers;       /* slots, each for one peer at a time: 1 to 4,095 */
    uint8_t channels;     /* granted to a connection at most: 1 to 255 */
    uint32_t mtu;         /* the longest datagram, in bytes: 576 to 4,096 */
    uint32_t incoming;    /* bytes per second that this host can take in; 0: no limit is known */
    uint32_t outgoing;    /* bytes per second that this host can send; 0: no limit is known */
    uint32_t max_packet;  /* the longest packet that is received or submitted, in bytes: 1 to 33,554,432 */
    uint32_t max_waiting; /* bytes of a peer's waiting packets at which further ones are stopped (10): 1 to 33,554,432. So are further ones
                             once max(1,024, max_waiting / 128) packets wait */
    uint32_t generations; /* how many peers a slot has one after another: 1 and more */
    uint32_t clock;       /* the clock at the opening, in milliseconds; it wraps */
} gofnjerta_config;

/* An IPv4 address and a UDP port, both as numbers of this machine: 10.0.0.1 is 0x0A000001. */
typedef struct gofnjerta_address {
    uint32_t ip;
    uint16_t port;
} gofnjerta_address;

/* The name of a peer. Each next peer of a slot has the next generation, so an old name never means a new peer. */
typedef struct gofnjerta_peer {
    uint16_t slot; /* 0 to peers - 1 */
    uint32_t generation;
} gofnjerta_peer;

/* Flags of a packet that is submitted; other bits are ignored. 0 is unreliable: it may be lost, and comes in the order of its channel or
 * not at all. With 0 or UNSEQUENCED a packet that is too long for a datagram, above the peer's mtu - 28 bytes, goes as reliable pieces;
 * with UNRELIABLE_FRAGMENT, but not RELIABLE, as unreliable ones, and is lost if one of them is. Of a packet that came: how it was
 * carried, one of these or 0. */
enum {
    GOFNJERTA_RELIABLE = 1,
    GOFNJERTA_UNSEQUENCED = 2,
    GOFNJERTA_UNRELIABLE_FRAGMENT = 8
};

/* What became of a datagram. */
typedef struct gofnjerta_received {
    uint32_t status;  /* what gofnjerta_receive returns */
    uint32_t handled; /* how many of its commands took effect */
    uint32_t stop;    /* why the rest was not read, 1 to 13 (gofnjerta_stop_name); 0 if all of it was */
} gofnjerta_received;

/* A datagram that is to be sent. */
typedef struct gofnjerta_datagram {
    uint32_t length; /* bytes of the buffer, at most the mtu; 0 if there is nothing to send */
    gofnjerta_address to;
    gofnjerta_peer peer; /* whose it is */
} gofnjerta_datagram;

enum { GOFNJERTA_NONE = 0, GOFNJERTA_CONNECT = 1, GOFNJERTA_DISCONNECT = 2, GOFNJERTA_RECEIVE = 3 };

/* An event. Each connection has one CONNECT, then its packets (in order, except unsequenced ones), then one DISCONNECT, after which the
 * peer's name is spent. If what gofnjerta_connect asked for doesn't come about, the DISCONNECT is its only event. After
 * gofnjerta_disconnect_now, or a disconnect before the connection is there, no event comes. */
typedef struct gofnjerta_event {
    uint32_t kind;
    uint32_t info; /* CONNECT: at the end that was asked, the `info` given to gofnjerta_connect; at the end that asked, 0.
                      DISCONNECT: the number that the other end gave; 0 if it gave none, as when this end asked or the peer timed out.
                      gofnjerta_ending tells these apart */
    gofnjerta_peer peer;
    uint8_t channel, flags; /* RECEIVE */
    uint64_t length;        /* RECEIVE: how many bytes the packet has */
} gofnjerta_event;

enum {
    GOFNJERTA_FREE = 0,
    GOFNJERTA_CONNECTING = 1,
    GOFNJERTA_ANSWERING = 2,
    GOFNJERTA_CONNECTED = 3,
    GOFNJERTA_DISCONNECT_LATER = 4,
    GOFNJERTA_DISCONNECTING = 5,
    GOFNJERTA_ACKNOWLEDGING = 6, /* the other end's disconnect */
    GOFNJERTA_ENDED = 7,         /* its last events are not taken yet */
    GOFNJERTA_PARTING = 8        /* its last datagram is not sent yet */
};

/* What can be read of a peer. */
typedef struct gofnjerta_reading {
    uint32_t state;
    uint32_t mtu;                     /* bytes, as agreed */
    uint32_t window;                  /* bytes of reliable packets in transit at most: 4,096 to 65,536 */
    uint32_t connect_id;              /* the word of the end that connected */
    uint32_t round_trip, variance;    /* milliseconds: the mean, 500 at first, and its mean deviation */
    uint32_t in_transit;              /* bytes of reliable packets: sent, not acknowledged and not due to be resent */
    uint32_t throttle;                /* 0 to 32: of 32 packets that aren't reliable one more than this is sent, from 31 on all */
    uint32_t throttle_interval;       /* milliseconds */
    uint32_t acceleration, deceleration; /* of the throttle, in parts of 32 an interval, as the end that connected asked */
    gofnjerta_address address;
    uint16_t slot; /* the other end's, 0xFFF before it is known */
    uint8_t channels;
    uint8_t incoming_session, outgoing_session; /* 0 to 3 */
} gofnjerta_reading;

/* How the line to a peer is. */
typedef struct gofnjerta_line {
    uint32_t round_trip, variance;  /* milliseconds: the mean, 500 at first, and its mean deviation */
    uint32_t lowest, lowest_before; /* milliseconds: the lowest mean in the throttle's running interval, and in the one before; 500 at first */
    uint32_t throttle;              /* 0 to 32: of 32 packets that aren't reliable one more than this is sent, from 31 on all */
    uint32_t allowance;             /* bytes, as gofnjerta_read_allowance tells */
    uint32_t in_transit;            /* bytes of reliable packets: sent, not acknowledged and not due to be resent */
    uint64_t commands, bytes;       /* queued, or sent and not acknowledged, as gofnjerta_set_send_limit counts them */
} gofnjerta_line;

/* How many commands went to a peer since it began: those with data that ask for an acknowledgement, which are reliable packets, or the
 * pieces of long ones. Each number wraps at 2^64. */
typedef struct gofnjerta_traffic {
    uint64_t sent;         /* each time that one went */
    uint64_t again;        /* those times that it had gone before */
    uint64_t acknowledged; /* commands, each once */
} gofnjerta_traffic;

/* Why a connection ended. */
enum {
    GOFNJERTA_NO_ENDING = 0,      /* it hasn't ended, or ended without a DISCONNECT, or that was too long ago */
    GOFNJERTA_ASKED_HERE = 1,     /* this end's DISCONNECT (gofnjerta_disconnect, _later) was acknowledged, or wasn't for longer than this
                                     end waits */
    GOFNJERTA_ASKED_THERE = 2,    /* the other end sent DISCONNECT, with which it also refuses a connection; also if this end had asked. The
                                     event's `info` is its number */
    GOFNJERTA_TIMED_OUT = 3,      /* the other end left a command unacknowledged for too long (gofnjerta_set_timeout); also while
                                     gofnjerta_disconnect_later waits to send its DISCONNECT */
    GOFNJERTA_NEVER_ANSWERED = 4, /* no answer of the server to CONNECT took effect for as long as the client waits */
    GOFNJERTA_BAD_ANSWER = 5      /* the server's answer doesn't fit what the client asked for */
};

/* How much went through a host. Each number stops at its greatest value. */
typedef struct gofnjerta_totals {
    uint64_t datagrams_in, bytes_in; /* stopped ones included */
    uint64_t datagrams_out, bytes_out;
} gofnjerta_totals;

/* How much a host holds of what others sent. Whatever datagrams come, each number is within what the host's settings allow. */
typedef struct gofnjerta_held {
    uint64_t channels, senders; /* channels of the peers: `channels` those that packets come on, `senders` those that packets are sent on */
    uint64_t packets;           /* that came, whole or in part, and weren't taken */
    uint64_t undispatched;      /* those of them that can't be taken yet */
    uint64_t bytes;             /* of the packets, each counted whole from its first piece on */
    uint64_t acknowledgements;  /* that wait to be sent */
    uint64_t memory;            /* bytes that all this takes with the host's slots, at most. Not counted are packets that were submitted, and
                                   the room of lists that once held more */
    uint64_t most_memory;       /* what `memory` is at most, by the settings */
} gofnjerta_held;

/* How many slots of a host are so. Each slot is in one of these counts. */
typedef struct gofnjerta_slots {
    uint16_t free;       /* those that have a generation left */
    uint16_t spent;      /* free ones that have none left */
    uint16_t connecting; /* the peer asked for a connection, and wasn't answered yet */
    uint16_t answering;  /* the peer answered a client that hasn't confirmed it yet */
    uint16_t connected;
    uint16_t leaving; /* the connection is to end or ends, or has ended and its last event isn't taken yet */
} gofnjerta_slots;

/* The longest packet that any host takes, and the room that gofnjerta_service needs, in bytes. */
enum { GOFNJERTA_MAX_PACKET = 33554432, GOFNJERTA_ROOM = 4096 };

/* The name of a number that a call returned, as "E5 TooLarge", or of a stop, as "S6 BadCommand"; "?" for any other number. The text is
 * the library's and stays. */
const char *gofnjerta_error_name(uint32_t number);
const char *gofnjerta_stop_name(uint32_t stop);

/* Settings for most hosts: an mtu of 1,392 bytes, no bandwidth limits, the greatest max_packet and max_waiting, 1,000,000 generations,
 * and a clock at 0. gofnjerta_open checks them. */
gofnjerta_config gofnjerta_standard(uint16_t peers, uint8_t channels);

/* Opens a host. OPEN, BAD_CONFIG, MEMORY: the handle is as it was. */
uint32_t gofnjerta_open(gofnjerta_host *host, const gofnjerta_config *config);

/* Closes a host and frees what it holds; no peer is notified. Returns 0 for a closed handle, too. The handle may be opened again. */
uint32_t gofnjerta_close(gofnjerta_host *host);

/* Takes `length` bytes of a record, which follow those before. It returns 0; with another number the record ends there. It makes no call with
 * the host. */
typedef int (*gofnjerta_writer)(void *context, const void *bytes, size_t length);

/* Opens a host as gofnjerta_open does, and records it until it is closed: each call that changes it, its settings and the datagrams that come
 * among them, and what comes out. `write` is called with `context` and the pieces of the record, within those calls. The program
 * gofnjerta_replay makes the same calls on a fresh host, and tells where anything else comes out. A record has the host's secret and each
 * packet: keep it as you keep these. */
uint32_t gofnjerta_record(gofnjerta_host *host, const gofnjerta_config *config, gofnjerta_writer write, void *context);

/* Asks the host at an address for a connection with 1 to 255 channels, from the lowest free slot. `info` is a number for its user.
 * `word` names the connection: draw it from the system (getentropy), anew for each connection. A stranger who can guess it, and forges
 * the server's address, can be taken for the server. A drawn word also keeps datagrams of an earlier connection from being taken for this
 * one's. `peer` is set to the peer's name; a CONNECT or a DISCONNECT event follows. BAD_CONFIG for no channels, NO_SLOT, MEMORY. */
uint32_t gofnjerta_connect(gofnjerta_host *host, gofnjerta_address to, uint8_t channels, uint32_t info, uint32_t word, gofnjerta_peer *peer);

/* Submits a packet: a copy of `length` bytes at `body`, which may be NULL where length is 0. NO_SUCH_PEER, NOT_CONNECTED,
 * NO_SUCH_CHANNEL, TOO_LARGE, FULL (only after gofnjerta_set_send_limit), MEMORY. */
uint32_t gofnjerta_submit(gofnjerta_host *host, gofnjerta_peer peer, uint8_t channel, uint8_t flags, const void *body, size_t length);

/* Submits a packet to each of `count` peers: a copy of `length` bytes at `body`, which they share. Peers that have gone or aren't
 * connected are skipped. If one peer refuses it for another reason, the others still get it, and the first such reason is returned:
 * NO_SUCH_CHANNEL, TOO_LARGE, FULL, MEMORY. Which peers those are, gofnjerta_broadcast_each tells. No peer gets it if there is no memory for
 * the copy (MEMORY), or if length is above GOFNJERTA_MAX_PACKET or `count` peers are larger than any object (TOO_LARGE). */
uint32_t gofnjerta_broadcast(gofnjerta_host *host, const gofnjerta_peer *peers, size_t count, uint8_t channel, uint8_t flags,
                             const void *body, size_t length);

/* The same, and writes to `answers` what each peer's submission returned, in their order: 0 if it took the packet, otherwise what
 * gofnjerta_submit returns, NO_SUCH_PEER and NOT_CONNECTED too. Returns 0 once the answers are there, whatever they are. Before any
 * submission, and with nothing written: MEMORY if there is none for the copy, TOO_LARGE as above. */
uint32_t gofnjerta_broadcast_each(gofnjerta_host *host, const gofnjerta_peer *peers, size_t count, uint8_t channel, uint8_t flags,
                                  const void *body, size_t length, uint32_t *answers);

/* A packet to many peers, one call each: gofnjerta_stage copies its body once, in place of the one before, and each
 * gofnjerta_submit_staged shares it, until the next one is staged or the host is closed. TOO_LARGE above GOFNJERTA_MAX_PACKET, MEMORY;
 * gofnjerta_submit_staged returns UNSTAGED and what gofnjerta_submit does. */
uint32_t gofnjerta_stage(gofnjerta_host *host, const void *body, size_t length);
uint32_t gofnjerta_submit_staged(gofnjerta_host *host, gofnjerta_peer peer, uint8_t channel, uint8_t flags);

/* A datagram came from an address. What became of it is written to `received`, if that isn't NULL. The caller need not care about a
 * stop, whatever the datagram is: at 11 (no memory) the other end resends what was reliable. Drop what comes from port 0: it can't be
 * answered, since no datagram can be sent there. */
uint32_t gofnjerta_receive(gofnjerta_host *host, gofnjerta_address from, const void *datagram, size_t length, gofnjerta_received *received);

/* Writes the next datagram to send to the front of a buffer of at least GOFNJERTA_ROOM bytes, and to `datagram` where it goes; length 0
 * if there is none. Call it until then: after each tick, after datagrams came, and after calls that send. What can't be sent may be
 * dropped. SHORT, with length 0. */
uint32_t gofnjerta_service(gofnjerta_host *host, void *buffer, size_t room, gofnjerta_datagram *datagram);

/* The clock goes on by `ms` milliseconds, 60,000 at most. Commands whose timeout is over are resent, quiet peers pinged, and peers dropped
 * that left a command unacknowledged too long. Tick every few milliseconds, or when gofnjerta_due_in says. */
uint32_t gofnjerta_tick(gofnjerta_host *host, uint32_t ms);

/* Milliseconds until timed work is due, at most 1,000: a shorter tick only changes the clock. A program that has sent all that
 * gofnjerta_service gives may sleep that long, unless a datagram comes. */
uint32_t gofnjerta_due_in(gofnjerta_host *host, uint32_t *ms);

/* The next event; its kind is GOFNJERTA_NONE if there is none, or if the result isn't 0. A packet's bytes are kept until the next call of
 * this function: gofnjerta_body copies them, as often as it is called, to a buffer of at least event->length bytes. UNTOLD if none are
 * kept, SHORT. */
uint32_t gofnjerta_next_event(gofnjerta_host *host, gofnjerta_event *event);
uint32_t gofnjerta_body(gofnjerta_host *host, void *buffer, size_t room);

/* Disconnect a peer, with a number for the other end's user. NO_SUCH_PEER; NOT_CONNECTED if it is disconnecting already.
 * disconnect: drops what is queued or held. Packets that wait as events still come, and then the DISCONNECT event, once the other end has
 * acknowledged. _now: the other end is sent one datagram, no event comes here, and the name is spent. _later: as disconnect, once
 * everything queued is sent and each reliable packet is acknowledged. */
uint32_t gofnjerta_disconnect(gofnjerta_host *host, gofnjerta_peer peer, uint32_t info);
uint32_t gofnjerta_disconnect_now(gofnjerta_host *host, gofnjerta_peer peer, uint32_t info);
uint32_t gofnjerta_disconnect_later(gofnjerta_host *host, gofnjerta_peer peer, uint32_t info);

/* Sets the host's bandwidths, in bytes per second; 0: no limit is known. Each connected peer is sent them. MEMORY. */
uint32_t gofnjerta_set_bandwidth(gofnjerta_host *host, uint32_t incoming, uint32_t outgoing);

/* Sets at how much that is queued, or sent and not acknowledged, a peer takes no further packet (FULL): at so many bytes of payload, or so
 * many commands, which are packets, or the pieces of long ones. It holds for all peers, also those to come. What is there already stays. A
 * peer with nothing queued or unacknowledged is never FULL: so 0 isn't "no limit", but one packet at a time. Without this call there is no
 * limit; UINT64_MAX twice is as good as none. It doesn't bound memory: the pieces of a packet that was cut share its body until the last
 * one is gone. */
uint32_t gofnjerta_set_send_limit(gofnjerta_host *host, uint64_t bytes, uint64_t commands);

/* Sets the host's secret: 32 bytes that the system drew (getentropy) and that nobody else knows. By them each peer that begins from now on
 * gets sent times and numbers of its own, so that a stranger who forges an address and doesn't see the answers can't connect in its
 * name. Without a secret a host does as libenet does. Set it once, before the first datagram and the first gofnjerta_connect; the bytes
 * are copied. */
uint32_t gofnjerta_set_secret(gofnjerta_host *host, const uint8_t key[32]);

/* From now on a CONNECT that finds no free slot takes that of the peer which has waited longest for its client to confirm the answer: that
 * peer is let go, with no event. So connections that nobody confirms keep nobody out. A connected peer keeps its slot. Open the host with
 * UINT32_MAX generations, since each CONNECT that takes a slot uses one up. */
uint32_t gofnjerta_give_way(gofnjerta_host *host);

/* Sets how many peers that began by a CONNECT may be connected or leaving at once: 1 to the number of slots. A client that confirms when that
 * many are there is told that the host is full (a DISCONNECT with 0xFFFFFFFF), with no event here. It keeps its slot, as ANSWERING, for up to
 * 7.5 seconds, in which it is told again. Open the host with more slots than that, for those that ask. BAD_CONFIG. */
uint32_t gofnjerta_set_most(gofnjerta_host *host, uint16_t peers);

/* Sets a connected peer's throttle: its interval in milliseconds, and by how much it rises and falls, in parts of 32. The other end is
 * sent these. NO_SUCH_PEER, NOT_CONNECTED, MEMORY. */
uint32_t gofnjerta_throttle_configure(gofnjerta_host *host, gofnjerta_peer peer, uint32_t interval, uint32_t acceleration, uint32_t deceleration);

/* Sets after how many milliseconds of silence a peer is pinged; 0 means 500. NO_SUCH_PEER. */
uint32_t gofnjerta_set_ping_interval(gofnjerta_host *host, gofnjerta_peer peer, uint32_t ms);

/* Sets how long a peer may leave a command unacknowledged. It is dropped when a try fails `maximum` milliseconds or more after the command
 * was first sent, or when one fails that was made `minimum` milliseconds plus its own timeout after that and after the last acknowledgement
 * of any command, if 2^(sends - 1) is at least `limit`. 0 means the standard number: 32, 5,000 and 30,000. NO_SUCH_PEER. */
uint32_t gofnjerta_set_timeout(gofnjerta_host *host, gofnjerta_peer peer, uint32_t limit, uint32_t minimum, uint32_t maximum);

/* Reads a peer. NO_SUCH_PEER. */
uint32_t gofnjerta_read_peer(gofnjerta_host *host, gofnjerta_peer peer, gofnjerta_reading *reading);

/* Reads how the line to a peer is. NO_SUCH_PEER. */
uint32_t gofnjerta_read_line(gofnjerta_host *host, gofnjerta_peer peer, gofnjerta_line *line);

/* Reads how many commands went to a peer, and how many were acknowledged. The share of `again` in `sent`, between two readings, grows if the
 * line loses more, or if its round trips vary more. NO_SUCH_PEER. */
uint32_t gofnjerta_read_traffic(gofnjerta_host *host, gofnjerta_peer peer, gofnjerta_traffic *traffic);

/* Reads why a peer's connection ended (GOFNJERTA_ASKED_HERE ..), before and after its DISCONNECT is taken, until the next peer of that
 * slot, connected or not, is gone: ask when you take the DISCONNECT. */
uint32_t gofnjerta_ending(gofnjerta_host *host, gofnjerta_peer peer, uint32_t *why);

/* Reads a peer's allowance, 2,800 to 131,072 bytes, at first 65,536: the most that may be in transit to it. Each command of a reliable packet
 * counts by its payload and 28. From 65,536 on it limits nothing. It falls if the line drops packets, and grows as they are acknowledged.
 * NO_SUCH_PEER. */
uint32_t gofnjerta_read_allowance(gofnjerta_host *host, gofnjerta_peer peer, uint32_t *bytes);

/* Reads how much went through the host. */
uint32_t gofnjerta_read_totals(gofnjerta_host *host, gofnjerta_totals *totals);

/* Read what the host holds of what others sent, and how its slots stand. Both look at each slot. */
uint32_t gofnjerta_read_held(gofnjerta_host *host, gofnjerta_held *held);
uint32_t gofnjerta_read_slots(gofnjerta_host *host, gofnjerta_slots *slots);

/* Reads how many commands of all peers aren't acknowledged and were sent more than once. It looks at all that isn't acknowledged. */
uint32_t gofnjerta_read_sent_again(gofnjerta_host *host, uint64_t *commands);

#ifdef __cplusplus
}
#endif
#endif
