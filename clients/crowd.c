// crowd PORT CLIENTS PACKETS: that many clients of the reference library at the relay at PORT of 127.0.0.1. Once the relay knows all,
// each sends that many reliable packets on channel 0, all at once, so that each packet gives the relay an order for each other client.
// Status 0 where every client got every packet of every other one, each sender's in order; else it is told on standard error what went
// wrong, with status 2 where a client lost its connection or packets came too late, and status 1 where anything else is amiss.
#include <enet/enet.h>
#include <poll.h>
#include <stdbool.h>

#include "common.h"

enum { MOST = 400, CHANNELS = 2, MTU = 1392, GREETING = 0xFFFF };

// What hasn't come after so many seconds is too late.
static const double LIMIT = 300;

typedef struct Message {
    uint16_t sender, number;
} Message;

typedef struct Client {
    ENetHost *host;
    ENetPeer *peer;
    bool is_known; // the relay sent it a greeting
    int got;
    uint16_t next[MOST]; // of each sender, the number that must come next
} Client;

static Client clients[MOST];
static int count, packets, joined, known, complete;

static _Noreturn void too_late(const char *what)
{
    fprintf(stderr, "crowd: %s; %d of %d clients joined, %d are known, %d have all\n", what, joined, count, known, complete);
    exit(2);
}

static void join(int id, const ENetAddress *relay)
{
    Client *client = &clients[id];
    client->host = enet_host_create(NULL, 1, CHANNELS, 0, 0);
    if (client->host == NULL)
        give_up("crowd: client %d has no socket", id);
    client->host->mtu = MTU;
    client->peer = enet_host_connect(client->host, relay, CHANNELS, 0);
    if (client->peer == NULL)
        give_up("crowd: client %d can't connect", id);
}

static void say(int id, int number)
{
    Message message = { .sender = (uint16_t)id, .number = (uint16_t)number };
    ENetPacket *packet = enet_packet_create(&message, sizeof message, ENET_PACKET_FLAG_RELIABLE);
    if (packet == NULL || enet_peer_send(clients[id].peer, 0, packet) != 0)
        give_up("crowd: a packet isn't taken");
}

static void arrived(int id, enet_uint8 channel, const ENetPacket *packet)
{
    Client *client = &clients[id];
    Message message;
    if (channel != 0 || packet->dataLength != sizeof message)
        give_up("crowd: client %d got %zu bytes on channel %d", id, packet->dataLength, channel);
    memcpy(&message, packet->data, sizeof message);
    if (message.sender >= count || message.sender == id)
        give_up("crowd: client %d got a packet of sender %d", id, message.sender);
    if (message.number == GREETING) {
        known += !client->is_known;
        client->is_known = true;
        return;
    }
    if (message.number != client->next[message.sender] || message.number >= packets)
        give_up("crowd: client %d got number %d of sender %d where %d comes next", id, message.number, message.sender,
            client->next[message.sender]);
    client->next[message.sender]++;
    if (++client->got == packets * (count - 1))
        complete++;
}

static void service(int id)
{
    ENetEvent event;
    while (enet_host_service(clients[id].host, &event, 0) > 0) {
        if (event.type == ENET_EVENT_TYPE_CONNECT)
            joined++;
        if (event.type == ENET_EVENT_TYPE_DISCONNECT)
            too_late("a client lost its connection");
        if (event.type == ENET_EVENT_TYPE_RECEIVE) {
            arrived(id, event.channelID, event.packet);
            enet_packet_destroy(event.packet);
        }
    }
}

// Serves all clients until `*those` are all of them, or the time is over.
static bool are_all(const int *those, double end)
{
    struct pollfd sockets[MOST];
    for (int id = 0; id < count; id++)
        sockets[id] = (struct pollfd){ .fd = clients[id].host->socket, .events = POLLIN };
    while (*those < count) {
        if (now() > end)
            return false;
        poll(sockets, (nfds_t)count, 5);
        for (int id = 0; id < count; id++)
            service(id);
    }
    return true;
}

// Two clients greet until each client got a greeting. The library calls a client connected before the relay has heard its last
// acknowledgement, so that one which is busy may not know it yet.
static void meet(double end)
{
    do {
        if (now() > end)
            too_late("the relay doesn't know all");
        say(0, GREETING);
        say(1, GREETING);
    } while (!are_all(&known, now() + 0.25));
}

int main(int words_count, char **words)
{
    ENetAddress relay = { .port = (enet_uint16)number_of(words_count, words, 1, 1, 65535) };
    count = (int)number_of(words_count, words, 2, 2, MOST);
    packets = (int)number_of(words_count, words, 3, 1, 1000);
    double end = now() + LIMIT;
    if (enet_initialize() != 0)
        give_up("crowd: the library can't be used");
    enet_address_set_host_ip(&relay, "127.0.0.1");
    for (int id = 0; id < count; id++)
        join(id, &relay);
    if (!are_all(&joined, end))
        too_late("time is over");
    meet(end);
    for (int id = 0; id < count; id++)
        for (int number = 0; number < packets; number++)
            say(id, number);
    if (!are_all(&complete, end))
        too_late("time is over");
    return 0;
}
