/* What waits at a receiver never keeps the next packet out for good: `progress CASE serve PORT` takes what comes, `progress CASE visit PORT`
 * sends it, in case 3 through a net of its own that loses one datagram:
 *   1  two reliable packets of 22,000,000 bytes, and 200 of 1,300 on a third channel, by the standard limits
 *   2  two of 600,000 bytes and the 200, where 1,000,000 bytes may wait
 *   3  40 of 1,000 bytes, the first of which is lost once, where 24,000 bytes may wait
 *   4  three of 100 bytes, which are lost once, and on the same channel two of 22,347,776 bytes, of 16,384 pieces each, by the standard limits
 * Status 0 where all came, each once and whole. Compiled against either library's header: the reference library or the layer sends, the layer
 * receives. */
#define _GNU_SOURCE
#include <enet/enet.h>
#include <arpa/inet.h>
#include <stdbool.h>
#include <stdio.h>
#include <stdlib.h>
#include <string.h>
#include <sys/socket.h>

enum { LIMIT_MS = 900000, PATIENCE_MS = 300000, CASES = 4, MTU = 1392 };

/* A case: how many large packets of how many bytes on a channel each, how many small ones on the next, or all on the first, small ones ahead;
 * how many bytes may wait; and whether the datagram with the first small one is lost once. */
static const struct {
    size_t large, large_length, small, small_length, waiting;
    bool loses, shares;
} cases[CASES] = {{2, 22000000, 200, 1300, 0, false, false}, {2, 600000, 200, 1300, 1000000, false, false}, {0, 0, 40, 1000, 24000, true, false},
                  {2, 1364 * 16384, 3, 100, 0, true, true}};

static enet_uint8 byte_of(size_t number, size_t i) { return (enet_uint8)(number * 31 + i * 7 + i / 1000); }

/* Whether a packet is the one of this number; large ones have those below 100. */
static bool is_whole(const ENetPacket *packet, size_t number, size_t length) {
    if (packet->dataLength != length) return false;
    for (size_t i = 0; i < length; i++)
        if (packet->data[i] != byte_of(number, i)) return false;
    return true;
}

static int serve(ENetAddress address, int which) {
    size_t large = 0, small = 0;
    ENetHost *host = enet_host_create(&address, 1, 3, 0, 0);
    ENetEvent event;
    enet_uint32 begun = enet_time_get();
    if (!host) return 2;
    host->mtu = MTU;
    if (cases[which].waiting) host->maximumWaitingData = cases[which].waiting;
    while (enet_time_get() - begun < LIMIT_MS) {
        if (enet_host_service(host, &event, 100) <= 0) continue;
        if (event.type == ENET_EVENT_TYPE_DISCONNECT) break;
        if (event.type == ENET_EVENT_TYPE_CONNECT) enet_peer_timeout(event.peer, 0, PATIENCE_MS, PATIENCE_MS);
        if (event.type != ENET_EVENT_TYPE_RECEIVE) continue;
        bool is_large = cases[which].shares ? small == cases[which].small : event.channelID < cases[which].large;
        size_t number = !is_large ? 100 + small : cases[which].shares ? large : event.channelID;
        if (!is_whole(event.packet, number, is_large ? cases[which].large_length : cases[which].small_length)) {
            printf("packet %zu on channel %d isn't whole, or not the next\n", number, event.channelID);
            return 1;
        }
        *(is_large ? &large : &small) += 1;
        enet_packet_destroy(event.packet);
        if (large + small == cases[which].large + cases[which].small) enet_peer_disconnect_later(event.peer, 0);
    }
    printf("%zu large, %zu small\n", large, small);
    enet_host_destroy(host);
    return large == cases[which].large && small == cases[which].small ? 0 : 1;
}

/* What stands between sender and receiver where something is to be lost. */
static int hole;
static struct sockaddr_in inside, outside;
static bool has_inside, has_lost;

/* Whether a datagram has SEND_RELIABLE number 1 of channel 0, ahead of any other data. */
static bool is_first(const unsigned char *at, size_t length) {
    static const size_t sizes[16] = {[1] = 8, [2] = 48, [3] = 44, [4] = 8, [5] = 4, [10] = 12, [11] = 16};
    size_t i = at[0] & 0x80 ? 4 : 2;
    while (i + 4 <= length && sizes[at[i] & 15]) i += sizes[at[i] & 15];
    return i + 4 <= length && (at[i] & 15) == 6 && at[i + 1] == 0 && at[i + 2] == 0 && at[i + 3] == 1;
}

static void pass(void) {
    unsigned char bytes[5000];
    struct sockaddr_in from;
    socklen_t size = sizeof from;
    ssize_t length;
    while ((length = recvfrom(hole, bytes, sizeof bytes, MSG_DONTWAIT, (struct sockaddr *)&from, &size)) >= 0) {
        bool is_inside = from.sin_port != outside.sin_port;
        if (is_inside) inside = from, has_inside = true;
        const struct sockaddr_in *to = is_inside ? &outside : &inside;
        bool is_lost = is_inside && !has_lost && is_first(bytes, (size_t)length);
        has_lost = has_lost || is_lost;
        if (!is_lost && has_inside) sendto(hole, bytes, (size_t)length, 0, (const struct sockaddr *)to, sizeof *to);
        size = sizeof from;
    }
}

static bool open_hole(ENetAddress *address) {
    outside = (struct sockaddr_in){.sin_family = AF_INET, .sin_port = htons(address->port), .sin_addr.s_addr = htonl(INADDR_LOOPBACK)};
    inside = (struct sockaddr_in){.sin_family = AF_INET, .sin_addr.s_addr = htonl(INADDR_LOOPBACK)};
    socklen_t size = sizeof inside;
    hole = socket(AF_INET, SOCK_DGRAM, 0);
    if (hole < 0 || bind(hole, (struct sockaddr *)&inside, size) || getsockname(hole, (struct sockaddr *)&inside, &size)) return false;
    address->port = ntohs(inside.sin_port);
    return true;
}

static void send_one(ENetPeer *peer, enet_uint8 channel, size_t number, size_t length) {
    ENetPacket *packet = enet_packet_create(NULL, length, ENET_PACKET_FLAG_RELIABLE);
    if (!packet) exit(2);
    for (size_t i = 0; i < length; i++) packet->data[i] = byte_of(number, i);
    if (enet_peer_send(peer, channel, packet) == 0) return;
    puts("a packet isn't taken");
    exit(1);
}

/* Sends all packets of a case. */
static void send_all(ENetPeer *peer, int which) {
    bool shares = cases[which].shares;
    for (size_t i = 0; i < cases[which].small && shares; i++) send_one(peer, 0, 100 + i, cases[which].small_length);
    for (size_t i = 0; i < cases[which].large; i++) send_one(peer, shares ? 0 : (enet_uint8)i, i, cases[which].large_length);
    for (size_t i = 0; i < cases[which].small && !shares; i++) send_one(peer, (enet_uint8)cases[which].large, 100 + i, cases[which].small_length);
}

static int visit(ENetAddress address, int which) {
    ENetEvent event;
    enet_uint32 begun = enet_time_get();
    bool loses = cases[which].loses;
    if (loses && !open_hole(&address)) return 2;
    ENetHost *host = enet_host_create(NULL, 1, 3, 0, 0);
    if (!host) return 2;
    host->mtu = host->peers[0].mtu = MTU;
    ENetPeer *peer = enet_host_connect(host, &address, 3, 0);
    if (!peer) return 2;
    enet_peer_timeout(peer, 0, PATIENCE_MS, PATIENCE_MS); /* the other end may be busy with a large packet for as long */
    while (enet_time_get() - begun < LIMIT_MS) {
        int came = enet_host_service(host, &event, loses ? 1 : 100);
        if (loses) pass();
        if (came <= 0) continue;
        if (event.type == ENET_EVENT_TYPE_DISCONNECT) {
            printf("told the end%s\n", loses && !has_lost ? ", but nothing was lost" : "");
            return loses && !has_lost;
        }
        if (event.type != ENET_EVENT_TYPE_CONNECT) continue;
        /* The answer to the server's greeting isn't lost. */
        for (enet_uint32 told = enet_time_get(); loses && enet_time_get() - told < 300; pass()) enet_host_service(host, NULL, 1);
        send_all(event.peer, which);
    }
    puts("too late");
    return 1;
}

int main(int argc, char **argv) {
    if (argc != 4 || enet_initialize() != 0) return 2;
    ENetAddress address = {.port = (enet_uint16)atoi(argv[3])};
    int which = atoi(argv[1]) - 1;
    if (which < 0 || which >= CASES || enet_address_set_host_ip(&address, "127.0.0.1") != 0) return 2;
    return strcmp(argv[2], "serve") == 0 ? serve(address, which) : visit(address, which);
}
