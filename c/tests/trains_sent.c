/* The system cuts trains: two hosts of the layer on the loopback. What they send goes by this program's own sendto and sendmsg, which count,
 * and now and then refuse a train. A packet of 20,000 bytes leaves by two calls at most, unless the system has no trains. Each packet comes
 * as it is, in order, in datagrams no longer than the mtu. */
#include "../gofnjerta.h"
#include <enet/enet.h>
#include <errno.h>
#include <netinet/udp.h>
#include <stdbool.h>
#include <string.h>
#include <sys/syscall.h>
#include <unistd.h>
#include "check.h"

#ifndef UDP_SEGMENT
#define UDP_SEGMENT 103
#endif

enum { LONG = 20000, ROUNDS = 20, DRAWN = 400, LIMIT_MS = 120000 };

static ENetHost *server, *client;
static ENetPeer *guest;
static unsigned calls, trains, refusals, longest, came; /* of calls that sent, and of the client's datagrams */
static int error; /* by which the next train is refused */
static uint64_t dice_state = 0x2545F4914F6CDD1Dull;

ssize_t sendto(int fd, const void *bytes, size_t length, int flags, const struct sockaddr *to, socklen_t size) {
    calls++;
    return syscall(SYS_sendto, fd, bytes, length, flags, to, size);
}

ssize_t sendmsg(int fd, const struct msghdr *message, int flags) {
    trains++;
    if (error) {
        errno = error;
        error = 0;
        refusals++;
        return -1;
    }
    calls++;
    return syscall(SYS_sendmsg, fd, message, flags);
}

static unsigned dice(unsigned n) {
    dice_state ^= dice_state << 13;
    dice_state ^= dice_state >> 7;
    dice_state ^= dice_state << 17;
    return (unsigned)((dice_state >> 33) % n);
}

static int ENET_CALLBACK look(ENetHost *host, ENetEvent *event) {
    (void)event;
    came++;
    longest = ENET_MAX(longest, (unsigned)host->receivedDataLength);
    return 0;
}

/* The byte at a place of a packet with this number. */
static enet_uint8 byte_at(unsigned number, size_t place) { return (enet_uint8)(number * 131 + place * 7 + (place >> 8)); }

static void give(unsigned number, size_t length) {
    ENetPacket *packet = enet_packet_create(NULL, length, ENET_PACKET_FLAG_RELIABLE);
    if (!packet) return;
    for (size_t i = 0; i < length; i++) packet->data[i] = byte_at(number, i);
    CHECK(enet_peer_send(guest, 0, packet) == 0);
}

static bool is_whole(const ENetPacket *packet, unsigned number, size_t length) {
    if (packet->dataLength != length) return false;
    for (size_t i = 0; i < length; i++)
        if (packet->data[i] != byte_at(number, i)) return false;
    return true;
}

/* Serves both until the client has the packet, and tells whether it is as it was given. */
static bool takes(unsigned number, size_t length) {
    ENetEvent event;
    for (enet_uint32 begun = enet_time_get(); enet_time_get() - begun < LIMIT_MS;) {
        while (enet_host_service(server, &event, 0) > 0) continue;
        if (enet_host_service(client, &event, 1) <= 0 || event.type != ENET_EVENT_TYPE_RECEIVE) continue;
        bool is_right = is_whole(event.packet, number, length);
        enet_packet_destroy(event.packet);
        return is_right;
    }
    return false;
}

static bool join(void) {
    ENetAddress home = {.port = ENET_PORT_ANY};
    ENetEvent event;
    bool told = false;
    enet_address_set_host_ip(&home, "127.0.0.1");
    server = enet_host_create(&home, 1, 1, 0, 0);
    client = enet_host_create(NULL, 1, 1, 0, 0);
    if (!server || !client || !enet_host_connect(client, &server->address, 1, 0)) return false;
    client->intercept = look;
    for (enet_uint32 begun = enet_time_get(); (!told || !guest) && enet_time_get() - begun < LIMIT_MS;) {
        if (enet_host_service(server, &event, 1) > 0 && event.type == ENET_EVENT_TYPE_CONNECT) guest = event.peer;
        if (enet_host_service(client, &event, 1) > 0) told = event.type == ENET_EVENT_TYPE_CONNECT;
    }
    return told && guest;
}

/* Whether the system has trains. */
static bool has_trains(void) {
    int length;
    socklen_t size = sizeof length;
    return getsockopt(server->socket, IPPROTO_UDP, UDP_SEGMENT, &length, &size) == 0;
}

/* Serves both until all that the server sent is acknowledged: what it sends next is that alone, and at most a ping and acknowledgements. */
static void settle(void) {
    ENetEvent event;
    for (enet_uint32 begun = enet_time_get(); !enet_list_empty(&guest->sentReliableCommands) && enet_time_get() - begun < LIMIT_MS;) {
        enet_host_service(client, &event, 1);
        enet_host_service(server, &event, 1);
    }
}

static void few_calls(void) {
    for (unsigned i = 0; i < ROUNDS; i++) {
        settle();
        unsigned before = came;
        give(i, LONG);
        calls = 0;
        enet_host_flush(server);
        CHECK(calls <= 2 || !has_trains());
        CHECK(takes(i, LONG) && came - before > LONG / 1400 && longest <= ENET_HOST_DEFAULT_MTU);
    }
}

/* Packets of drawn lengths, several at a time, while trains are refused as at a moment's want of memory, or a full buffer. */
static void drawn_lengths(void) {
    static const int errors[] = {ENOBUFS, EAGAIN, EINTR, EPERM, 0, 0};
    size_t lengths[8];
    for (unsigned i = 0; i < DRAWN; i += 8) {
        for (unsigned n = 0; n < 8; n++) give(i + n, lengths[n] = dice(2) ? 1300 : 1 + dice(n ? 3000 : LONG));
        error = errors[dice(6)];
        enet_host_flush(server);
        for (unsigned n = 0; n < 8; n++) CHECK(takes(i + n, lengths[n]));
    }
    error = 0;
    CHECK(refusals > 0 || !has_trains());
}

/* Some packets leave by one flush, and come. */
static void send_all(unsigned count, size_t length) {
    for (unsigned n = 0; n < count; n++) give(n, length);
    trains = 0;
    enet_host_flush(server);
    for (unsigned n = 0; n < count; n++) CHECK(takes(n, length));
}

/* Trains are refused for good: of so long datagrams, then of any. */
static void none_any_more(void) {
    error = EMSGSIZE;
    send_all(1, LONG);
    send_all(1, LONG);
    CHECK(trains == 0 && (error == 0 || !has_trains()));
    error = EIO;
    send_all(4, 1000);
    CHECK(error == 0 || !has_trains());
    send_all(4, 1000);
    CHECK(trains == 0);
}

int main(void) {
    if (enet_initialize() != 0 || !join()) return 2;
    few_calls();
    drawn_lengths();
    none_any_more();
    enet_host_destroy(client);
    enet_host_destroy(server);
    enet_deinitialize();
    return failed ? 1 : 0;
}
