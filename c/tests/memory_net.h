/* Sockets, a network, a clock and memory as a test wants them: the layer calls `net_socket` in socket's place and so on, since its objects'
 * names are changed (scripts/lib/in-memory.sh). All sockets are of 127.0.0.1. What is sent is in flight until the test brings or drops it;
 * time goes on where the test says so, and where a host waits. */
#ifndef MEMORY_NET_H
#define MEMORY_NET_H
#include <stdbool.h>
#include <stddef.h>
#include <stdint.h>

/* A datagram in flight, or one that was brought and that its socket hasn't taken. */
typedef struct {
    uint64_t moment; /* how many were sent before it */
    uint64_t at;     /* the clock when it was sent, in milliseconds */
    uint64_t due;    /* the test's own; 0 at first */
    uint16_t from, to;
    size_t length;
    uint8_t *bytes;
} NetDatagram;

/* What fails: so many of the next calls, of sending, of receiving, of waiting, of drawing; with this number of the system's. */
typedef enum { NET_SEND, NET_TRAIN, NET_RECEIVE, NET_WAIT, NET_DRAW, NET_FAULTS } NetFault;

/* Nothing is open or in flight; the clock is at so many milliseconds. A system without trains doesn't know of them, and would send one whole, as
 * one datagram. */
void net_begin(uint64_t clock, bool has_trains);
void net_have_trains(bool has_trains); /* the same, for sockets that are opened from now on */
void net_go_on(uint64_t ms);
uint64_t net_clock(void);
void net_fail(NetFault what, unsigned calls, int number);
void net_fail_to(uint16_t port, int one, int train); /* what goes to this port fails with these numbers, where they aren't 0 */
void net_fail_memory(long after, long calls); /* after so many more requests so many are refused */
uint64_t net_moment(void);                    /* how many datagrams were sent */
uint64_t net_trains(void);                    /* how many trains were sent */
uint64_t net_refused(void);                   /* how many were refused */
uint64_t net_calls(void);                     /* how many calls sent something, a datagram or a train */

size_t net_flying(void);            /* how many are in flight */
NetDatagram *net_flight(size_t i);  /* one of them */
void net_bring(size_t i);           /* it comes to its socket, or nobody is there */
void net_bring_copy(size_t i);      /* the same, and it stays in flight */
void net_drop(size_t i);
void net_throw(uint16_t from, uint16_t to, const uint8_t *bytes, size_t length); /* a stranger's */

#endif
