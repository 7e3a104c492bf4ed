/* Where the fields of gofnjerta.h's structures lie, for Linux on x86-64. Worked from the System V ABI, by hand: each field begins at the next
 * multiple of its alignment, and a structure is as long as the next multiple of its greatest one.
 *
 * A C or C++ program that includes this file isn't compiled where its compiler has a field elsewhere. A binding of another language may read it
 * line by line: GOFNJERTA_STRUCT(structure, bytes, alignment), then GOFNJERTA_FIELD(structure, field, offset, bytes) for each field, in order.
 * A program that defines these two macros before it includes the file gets the lines as it wants them. */
#include "gofnjerta.h"
#ifdef __cplusplus
#define GOFNJERTA_HOLDS(condition, name) static_assert(condition, name)
#define GOFNJERTA_ALIGNMENT(structure) alignof(structure)
#else
#define GOFNJERTA_HOLDS(condition, name) _Static_assert(condition, name)
#define GOFNJERTA_ALIGNMENT(structure) _Alignof(structure)
#endif
#ifndef GOFNJERTA_STRUCT
#define GOFNJERTA_STRUCT(structure, bytes, alignment) \
    GOFNJERTA_HOLDS(sizeof(structure) == (bytes) && GOFNJERTA_ALIGNMENT(structure) == (alignment), #structure)
#endif
#ifndef GOFNJERTA_FIELD
#define GOFNJERTA_FIELD(structure, field, offset, bytes) \
    GOFNJERTA_HOLDS(offsetof(structure, field) == (offset) && sizeof(((structure *)0)->field) == (bytes), #structure "." #field)
#endif

GOFNJERTA_STRUCT(gofnjerta_host, 16, 8);
GOFNJERTA_FIELD(gofnjerta_host, at, 0, 8);
GOFNJERTA_FIELD(gofnjerta_host, is_open, 8, 1);

GOFNJERTA_STRUCT(gofnjerta_config, 32, 4);
GOFNJERTA_FIELD(gofnjerta_config, peers, 0, 2);
GOFNJERTA_FIELD(gofnjerta_config, channels, 2, 1);
GOFNJERTA_FIELD(gofnjerta_config, mtu, 4, 4);
GOFNJERTA_FIELD(gofnjerta_config, incoming, 8, 4);
GOFNJERTA_FIELD(gofnjerta_config, outgoing, 12, 4);
GOFNJERTA_FIELD(gofnjerta_config, max_packet, 16, 4);
GOFNJERTA_FIELD(gofnjerta_config, max_waiting, 20, 4);
GOFNJERTA_FIELD(gofnjerta_config, generations, 24, 4);
GOFNJERTA_FIELD(gofnjerta_config, clock, 28, 4);

GOFNJERTA_STRUCT(gofnjerta_address, 8, 4);
GOFNJERTA_FIELD(gofnjerta_address, ip, 0, 4);
GOFNJERTA_FIELD(gofnjerta_address, port, 4, 2);

GOFNJERTA_STRUCT(gofnjerta_peer, 8, 4);
GOFNJERTA_FIELD(gofnjerta_peer, slot, 0, 2);
GOFNJERTA_FIELD(gofnjerta_peer, generation, 4, 4);

GOFNJERTA_STRUCT(gofnjerta_received, 12, 4);
GOFNJERTA_FIELD(gofnjerta_received, status, 0, 4);
GOFNJERTA_FIELD(gofnjerta_received, handled, 4, 4);
GOFNJERTA_FIELD(gofnjerta_received, stop, 8, 4);

GOFNJERTA_STRUCT(gofnjerta_datagram, 20, 4);
GOFNJERTA_FIELD(gofnjerta_datagram, length, 0, 4);
GOFNJERTA_FIELD(gofnjerta_datagram, to, 4, 8);
GOFNJERTA_FIELD(gofnjerta_datagram, peer, 12, 8);

GOFNJERTA_STRUCT(gofnjerta_event, 32, 8);
GOFNJERTA_FIELD(gofnjerta_event, kind, 0, 4);
GOFNJERTA_FIELD(gofnjerta_event, info, 4, 4);
GOFNJERTA_FIELD(gofnjerta_event, peer, 8, 8);
GOFNJERTA_FIELD(gofnjerta_event, channel, 16, 1);
GOFNJERTA_FIELD(gofnjerta_event, flags, 17, 1);
GOFNJERTA_FIELD(gofnjerta_event, length, 24, 8);

GOFNJERTA_STRUCT(gofnjerta_reading, 60, 4);
GOFNJERTA_FIELD(gofnjerta_reading, state, 0, 4);
GOFNJERTA_FIELD(gofnjerta_reading, mtu, 4, 4);
GOFNJERTA_FIELD(gofnjerta_reading, window, 8, 4);
GOFNJERTA_FIELD(gofnjerta_reading, connect_id, 12, 4);
GOFNJERTA_FIELD(gofnjerta_reading, round_trip, 16, 4);
GOFNJERTA_FIELD(gofnjerta_reading, variance, 20, 4);
GOFNJERTA_FIELD(gofnjerta_reading, in_transit, 24, 4);
GOFNJERTA_FIELD(gofnjerta_reading, throttle, 28, 4);
GOFNJERTA_FIELD(gofnjerta_reading, throttle_interval, 32, 4);
GOFNJERTA_FIELD(gofnjerta_reading, acceleration, 36, 4);
GOFNJERTA_FIELD(gofnjerta_reading, deceleration, 40, 4);
GOFNJERTA_FIELD(gofnjerta_reading, address, 44, 8);
GOFNJERTA_FIELD(gofnjerta_reading, slot, 52, 2);
GOFNJERTA_FIELD(gofnjerta_reading, channels, 54, 1);
GOFNJERTA_FIELD(gofnjerta_reading, incoming_session, 55, 1);
GOFNJERTA_FIELD(gofnjerta_reading, outgoing_session, 56, 1);

GOFNJERTA_STRUCT(gofnjerta_line, 48, 8);
GOFNJERTA_FIELD(gofnjerta_line, round_trip, 0, 4);
GOFNJERTA_FIELD(gofnjerta_line, variance, 4, 4);
GOFNJERTA_FIELD(gofnjerta_line, lowest, 8, 4);
GOFNJERTA_FIELD(gofnjerta_line, lowest_before, 12, 4);
GOFNJERTA_FIELD(gofnjerta_line, throttle, 16, 4);
GOFNJERTA_FIELD(gofnjerta_line, allowance, 20, 4);
GOFNJERTA_FIELD(gofnjerta_line, in_transit, 24, 4);
GOFNJERTA_FIELD(gofnjerta_line, commands, 32, 8);
GOFNJERTA_FIELD(gofnjerta_line, bytes, 40, 8);

GOFNJERTA_STRUCT(gofnjerta_traffic, 24, 8);
GOFNJERTA_FIELD(gofnjerta_traffic, sent, 0, 8);
GOFNJERTA_FIELD(gofnjerta_traffic, again, 8, 8);
GOFNJERTA_FIELD(gofnjerta_traffic, acknowledged, 16, 8);

GOFNJERTA_STRUCT(gofnjerta_totals, 32, 8);
GOFNJERTA_FIELD(gofnjerta_totals, datagrams_in, 0, 8);
GOFNJERTA_FIELD(gofnjerta_totals, bytes_in, 8, 8);
GOFNJERTA_FIELD(gofnjerta_totals, datagrams_out, 16, 8);
GOFNJERTA_FIELD(gofnjerta_totals, bytes_out, 24, 8);

GOFNJERTA_STRUCT(gofnjerta_held, 64, 8);
GOFNJERTA_FIELD(gofnjerta_held, channels, 0, 8);
GOFNJERTA_FIELD(gofnjerta_held, senders, 8, 8);
GOFNJERTA_FIELD(gofnjerta_held, packets, 16, 8);
GOFNJERTA_FIELD(gofnjerta_held, undispatched, 24, 8);
GOFNJERTA_FIELD(gofnjerta_held, bytes, 32, 8);
GOFNJERTA_FIELD(gofnjerta_held, acknowledgements, 40, 8);
GOFNJERTA_FIELD(gofnjerta_held, memory, 48, 8);
GOFNJERTA_FIELD(gofnjerta_held, most_memory, 56, 8);

GOFNJERTA_STRUCT(gofnjerta_slots, 12, 2);
GOFNJERTA_FIELD(gofnjerta_slots, free, 0, 2);
GOFNJERTA_FIELD(gofnjerta_slots, spent, 2, 2);
GOFNJERTA_FIELD(gofnjerta_slots, connecting, 4, 2);
GOFNJERTA_FIELD(gofnjerta_slots, answering, 6, 2);
GOFNJERTA_FIELD(gofnjerta_slots, connected, 8, 2);
GOFNJERTA_FIELD(gofnjerta_slots, leaving, 10, 2);

#undef GOFNJERTA_STRUCT
#undef GOFNJERTA_FIELD
#undef GOFNJERTA_HOLDS
#undef GOFNJERTA_ALIGNMENT
