// steady PORT CLIENTS SECONDS LENGTH [IDLE [AFTER]]: clients that talk on, whatever becomes of their connections, through a relay at PORT of
// 127.0.0.1; the last IDLE of them only listen (0 where it isn't given). Once all are in, each of the others sends ten times a second a
// reliable packet on channel 0 and an unreliable one on channel 1, of LENGTH bytes, for so many seconds. Who lost its connection asks anew a
// second later. When the senders have stopped, all listen for AFTER seconds more (0). Prints how many connections were lost, of those who talk
// and of the idle ones, how many reliable packets came, of how many where none was lost, how many unreliable ones, and after how many
// milliseconds the latest reliable one came. It is compiled against either library.
#include <enet/enet.h>
#include <poll.h>
#include <stdbool.h>

#include "common.h"

enum { MOST = 64, LONGEST = 1364, JOIN = 60 };

typedef struct Client {
    ENetHost *host;
    ENetPeer *peer;
    bool is_in, is_idle;
    double next; // when it sends or asks for a connection next
} Client;

static Client clients[MOST];
static int count;
static ENetAddress relay;
static double end; // when the senders stop; 0 before all are in
static unsigned long lost[2], sent, came[2];
static double latest;

static void take(const ENetEvent *event)
{
    double told;
    came[event->channelID % 2]++;
    if (event->channelID == 0 && event->packet->dataLength >= sizeof told) {
        memcpy(&told, event->packet->data, sizeof told);
        latest = now() - told > latest ? now() - told : latest;
    }
    enet_packet_destroy(event->packet);
}

// What the client's host has to tell.
static void service(Client *client)
{
    ENetEvent event;
    while (enet_host_service(client->host, &event, 0) > 0) {
        if (event.type == ENET_EVENT_TYPE_CONNECT)
            client->is_in = true;
        if (event.type == ENET_EVENT_TYPE_DISCONNECT) {
            lost[client->is_idle] += client->is_in;
            client->is_in = false;
            client->peer = NULL;
            client->next = now() + 1;
        }
        if (event.type == ENET_EVENT_TYPE_RECEIVE)
            take(&event);
    }
}

static void send_both(Client *client, size_t length)
{
    static uint8_t body[LONGEST];
    double time = now();
    memcpy(body, &time, sizeof time < length ? sizeof time : length);
    for (enet_uint8 channel = 0; channel < 2; channel++) {
        ENetPacket *packet = enet_packet_create(body, length, channel == 0 ? ENET_PACKET_FLAG_RELIABLE : 0);
        if (packet == NULL || enet_peer_send(client->peer, channel, packet) != 0)
            give_up("a packet isn't taken");
    }
    sent++;
    enet_host_flush(client->host);
}

// Does what the client has to do at this moment.
static void act(Client *client, size_t length)
{
    service(client);
    if (now() < client->next)
        return;
    if (client->is_in && !client->is_idle && now() < end)
        send_both(client, length);
    else if (client->peer == NULL && (client->peer = enet_host_connect(client->host, &relay, 2, 0)) == NULL)
        give_up("no connection can be asked for");
    client->next += 0.1;
}

static bool all_are_in(void)
{
    for (int i = 0; i < count; i++)
        if (!clients[i].is_in)
            return false;
    return true;
}

int main(int words, char **word)
{
    relay.port = (enet_uint16)number_of(words, word, 1, 1, 65535);
    count = (int)number_of(words, word, 2, 1, MOST);
    double seconds = (double)number_of(words, word, 3, 1, 3600), begun = now();
    size_t length = (size_t)number_of(words, word, 4, 1, LONGEST);
    int idle = words > 5 ? (int)number_of(words, word, 5, 0, count) : 0;
    double after = words > 6 ? (double)number_of(words, word, 6, 0, 3600) : 0;
    enet_address_set_host_ip(&relay, "127.0.0.1");
    if (enet_initialize() != 0)
        give_up("the library doesn't start");
    for (int i = 0; i < count; i++) {
        clients[i] = (Client){ .host = enet_host_create(NULL, 1, 2, 0, 0), .is_idle = i >= count - idle, .next = now() + 0.1 * i / count };
        if (clients[i].host == NULL)
            give_up("no host");
    }
    while (end == 0 || now() < end + after) {
        poll(NULL, 0, 2);
        for (int i = 0; i < count; i++)
            act(&clients[i], length);
        if (end == 0 && all_are_in())
            end = now() + seconds;
        if (end == 0 && now() > begun + JOIN)
            give_up("not all are in");
    }
    printf("lost %lu and %lu, came %lu of %lu and %lu, latest %.0f\n", lost[0], lost[1], came[0], sent * (unsigned long)(count - 1), came[1],
        latest * 1e3);
}
