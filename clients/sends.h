// What programs share that look into the datagrams of a line: how long a command is, and how often reliable packets, or their pieces, went
// to a client, and went again.
#ifndef SENDS_H
#define SENDS_H

#include <stddef.h>
#include <stdint.h>
#include <string.h>

enum { SESSIONS = 4, CHANNELS = 2, NUMBERS = 65536, VERIFY_CONNECT = 3, SEND_RELIABLE = 6, SEND_FRAGMENT = 8, CONNECT_ID_AT = 40 };

// What went to a client: how many commands, and how many of these went before. A bit stands for each of the last numbers of a channel.
typedef struct Sends {
    unsigned long sent, again;
    uint8_t connect_id[4];
    uint8_t seen[SESSIONS][CHANNELS][NUMBERS / 8];
} Sends;

// The length of the command at the front of `left` bytes; 0 where there is none.
static inline size_t command_length(const uint8_t *at, size_t left)
{
    static const uint8_t sizes[16] = { 0, 8, 48, 44, 8, 4, 6, 8, 24, 8, 12, 16, 24 };
    static const uint8_t payload_lengths[16] = { [6] = 4, [7] = 6, [8] = 6, [9] = 6, [12] = 6 };
    size_t size = left == 0 ? 0 : sizes[at[0] & 15];
    if (size == 0 || size > left)
        return 0;
    const uint8_t *payload = at + payload_lengths[at[0] & 15];
    return payload == at ? size : size + (size_t)(payload[0] << 8 | payload[1]);
}

// A new connection's numbers begin anew.
static inline void count_command(Sends *to, size_t session, const uint8_t *command)
{
    uint8_t kind = command[0] & 15;
    uint16_t number = (uint16_t)(command[2] << 8 | command[3]), far = number ^ 0x8000;
    if (kind == VERIFY_CONNECT && memcmp(to->connect_id, command + CONNECT_ID_AT, 4) != 0) {
        memset(to->seen[session], 0, sizeof to->seen[session]);
        memcpy(to->connect_id, command + CONNECT_ID_AT, 4);
    }
    if (kind != SEND_RELIABLE && kind != SEND_FRAGMENT)
        return;
    uint8_t *seen = to->seen[session][command[1] % CHANNELS], bit = (uint8_t)(1 << number % 8);
    to->sent++;
    to->again += (seen[number / 8] & bit) != 0;
    seen[number / 8] |= bit;
    seen[far / 8] &= (uint8_t)~(1 << far % 8);
}

// Counts what a datagram to the client has.
static inline void count_sends(Sends *to, const uint8_t *bytes, size_t length)
{
    size_t size, session = length == 0 ? 0 : bytes[0] >> 4 & 3;
    for (size_t at = length > 0 && bytes[0] >> 7 ? 4 : 2; at < length && (size = command_length(bytes + at, length - at)) > 0; at += size)
        count_command(to, session, bytes + at);
}

#endif
