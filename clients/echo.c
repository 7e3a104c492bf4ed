// echo PORT: a client of the reference library at an echo server at PORT of 127.0.0.1. It says packets of 0 to 20,000 bytes on channel 0,
// reliable ones, and short ones on channel 1, unreliable ones. Status 0 where each reliable packet came back once, in order and whole, the
// unreliable ones that came back did so in order, and the connection ended as it asked; else it says why on standard error, with status 2
// where something came too late, and status 1 where anything else is amiss.
#include "visitor.h"

enum { SAID = 12, LONGEST = 20000, LIMIT = 300 };

static const size_t lengths[SAID] = { 0, 1, 2, 100, 1363, 1364, 1365, 2728, 2729, 0, LONGEST, 7 };

static enet_uint32 said[2], came[2];

// Writes the body of a packet into `bytes`: its number first, where it has room, and then drawn bytes.
static size_t body(enet_uint8 channel, enet_uint32 number, uint8_t *bytes)
{
    size_t length = channel == 0 ? lengths[number] : 40;
    uint64_t seed = ((uint64_t)channel << 32) + number;
    draw_bytes(&seed, bytes, length);
    if (length > 0)
        bytes[0] = (uint8_t)number;
    return length;
}

static void say(ENetPeer *peer, enet_uint8 channel)
{
    static uint8_t bytes[LONGEST + 8];
    size_t length = body(channel, said[channel]++, bytes);
    ENetPacket *packet = enet_packet_create(bytes, length, channel == 0 ? ENET_PACKET_FLAG_RELIABLE : 0);
    if (packet == NULL || enet_peer_send(peer, channel, packet) != 0)
        give_up("a packet of %zu bytes isn't taken", length);
}

// A packet came: on channel 0 the next one that was said, on channel 1 one that was said and is later than all that came.
static void hear(enet_uint8 channel, const ENetPacket *packet)
{
    static uint8_t wanted[LONGEST + 8];
    enet_uint32 number = came[channel];
    if (channel == 1 && packet->dataLength > 0)
        number = packet->data[0];
    if (channel > 1 || number < came[channel] || number >= said[channel])
        give_up("a packet on channel %u that isn't awaited", channel);
    size_t length = body(channel, number, wanted);
    if (packet->dataLength != length || memcmp(packet->data, wanted, length) != 0)
        give_up("packet %u on channel %u came back otherwise than it was said", number, channel);
    came[channel] = number + 1;
}

int main(int count, char **words)
{
    ENetPeer *peer;
    ENetHost *host = visit(count, words, &peer);
    ENetEvent event;
    double begun = now();
    while (now() < begun + LIMIT) {
        if (enet_host_service(host, &event, 20) <= 0)
            continue;
        if (event.type == ENET_EVENT_TYPE_DISCONNECT && came[0] == SAID)
            return 0;
        if (event.type == ENET_EVENT_TYPE_DISCONNECT)
            give_up("the connection ended after %u packets", came[0]);
        if (event.type == ENET_EVENT_TYPE_RECEIVE) {
            hear(event.channelID, event.packet);
            enet_packet_destroy(event.packet);
        }
        // One after another, so that those that come back are in front of those that go.
        if (event.type == ENET_EVENT_TYPE_CONNECT || (event.channelID == 0 && said[0] == came[0])) {
            if (came[0] == SAID)
                enet_peer_disconnect(peer, 0);
            else
                say(peer, 0), say(peer, 0), say(peer, 1);
        }
    }
    fprintf(stderr, "%u packets came back within %d seconds\n", came[0], LIMIT);
    return 2;
}
