// many PORT PACKETS: a client of the reference library at an echo server at PORT of 127.0.0.1. It says so many packets of 1 to 3,000 bytes: of
// each four three on channel 0, reliable ones, and one of up to 1,200 bytes on channel 1, unreliable or unsequenced, 48 reliable ones at most
// on the way. Status 0 where each reliable packet came back once, in order and whole, no other packet came that wasn't said, the unreliable
// ones that came back did so in order, and the connection ended as it asked; else it says why on standard error, with status 2 where
// something came too late or the connection ended before, and status 1 where anything else is amiss. Prints how many came back of those
// that might be lost.
#include "visitor.h"

enum { LONGEST = 3000, SHORT = 1200, ON_THE_WAY = 48, LIMIT = 300 };

static enet_uint32 packets, said, reliable_said, reliable_came, loose_said, loose_came, last_loose;

static int is_reliable(enet_uint32 number)
{
    return number % 4 != 3;
}

// The body of packet `number`: the number, and drawn bytes.
static size_t body(enet_uint32 number, uint8_t *bytes)
{
    uint64_t seed = number;
    size_t length = 4 + draw(&seed) % ((is_reliable(number) ? LONGEST : SHORT) - 3);
    draw_bytes(&seed, bytes, length);
    memcpy(bytes, &number, 4);
    return length;
}

static void say(ENetPeer *peer)
{
    static uint8_t bytes[LONGEST + 8];
    enet_uint32 number = said++;
    size_t length = body(number, bytes);
    enet_uint32 flags = is_reliable(number) ? ENET_PACKET_FLAG_RELIABLE : number % 8 == 7 ? ENET_PACKET_FLAG_UNSEQUENCED : 0;
    ENetPacket *packet = enet_packet_create(bytes, length, flags);
    if (packet == NULL || enet_peer_send(peer, is_reliable(number) ? 0 : 1, packet) != 0)
        give_up("packet %u of %zu bytes isn't taken", number, length);
    if (is_reliable(number))
        reliable_said++;
    else
        loose_said++;
}

static void hear(enet_uint8 channel, const ENetPacket *packet)
{
    static uint8_t wanted[LONGEST + 8];
    enet_uint32 number;
    if (packet->dataLength < 4)
        give_up("a packet of %zu bytes, which wasn't said", packet->dataLength);
    memcpy(&number, packet->data, 4);
    if (number >= said || channel != (is_reliable(number) ? 0 : 1))
        give_up("packet %u on channel %u wasn't said", number, channel);
    if (packet->dataLength != body(number, wanted) || memcmp(packet->data, wanted, packet->dataLength) != 0)
        give_up("packet %u came back otherwise than it was said", number);
    if (is_reliable(number)) {
        if (number != reliable_came / 3 * 4 + reliable_came % 3)
            give_up("packet %u came where reliable packet %u is next", number, reliable_came);
        reliable_came++;
        return;
    }
    if (number % 8 == 3) {
        if (last_loose != 0 && number <= last_loose)
            give_up("unreliable packet %u came behind %u", number, last_loose);
        last_loose = number;
    }
    loose_came++;
}

int main(int count, char **words)
{
    ENetPeer *peer;
    ENetHost *host = visit(count, words, &peer);
    ENetEvent event;
    double begun = now();
    int is_in = 0, leaves = 0;
    packets = (enet_uint32)number_of(count, words, 2, 4, 1000000);
    while (now() < begun + LIMIT) {
        int status = enet_host_service(host, &event, 5);
        for (; status > 0; status = enet_host_check_events(host, &event)) {
            if (event.type == ENET_EVENT_TYPE_CONNECT)
                is_in = 1;
            if (event.type == ENET_EVENT_TYPE_DISCONNECT && !leaves) {
                fprintf(stderr, "the connection ended after %u reliable packets of %u\n", reliable_came, reliable_said);
                return 2;
            }
            if (event.type == ENET_EVENT_TYPE_DISCONNECT) {
                printf("%u of %u\n", loose_came, loose_said);
                return 0;
            }
            if (event.type == ENET_EVENT_TYPE_RECEIVE) {
                hear(event.channelID, event.packet);
                enet_packet_destroy(event.packet);
            }
        }
        while (is_in && said < packets && reliable_said - reliable_came < ON_THE_WAY)
            say(peer);
        if (is_in && !leaves && said == packets && reliable_came == reliable_said) {
            leaves = 1;
            enet_peer_disconnect(peer, 0);
        }
    }
    fprintf(stderr, "%u reliable packets came back of %u, within %d seconds\n", reliable_came, reliable_said, LIMIT);
    return 2;
}
