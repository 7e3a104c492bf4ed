// soak PORT CLIENTS SECONDS [WORD NUMBER]..: clients that talk through a relay at PORT of 127.0.0.1, mostly by way of a line that has too
// little, whatever becomes of their connections. Three seconds after all are in, each sends for so many seconds, `often` times a second
// (10), a reliable packet on channel 0 of `length` bytes (100), each 20th of `long` (0: as the others), and, unless `plain` is 0, an
// unreliable one on channel 1. The last `idle` of them (0) only listen, and where `direct` is given, the first is at this port, beside the
// line. All look each `look` milliseconds (2) for what came and is to be sent. Who lost its connection asks anew a second later. When the
// senders have stopped, all listen until all has come, and at most for `after` seconds (0). Prints how many connections of talkers and of
// idle ones were lost; how often one that asked anew was told that the relay is full, which isn't counted as lost; how many reliable packets
// came, of how many where none was lost, and how many unreliable ones; the median, the 99th percentile and the longest of the trips of
// reliable ones, in milliseconds; how many seconds after the senders the last of them came; how many came out of order, before any
// connection was lost; and how many bytes the first client got, and those listeners that got least and most. It is compiled against either
// library.
#include <enet/enet.h>
#include <poll.h>
#include <stdbool.h>

#include "common.h"

enum { MOST = 64, LONGEST = 20000, TRIPS = 1 << 21, JOIN = 20, SETTLE = 3, LONG_EACH = 20 };

// The front of a packet, as far as it is long enough.
typedef struct Message {
    double at;
    uint32_t sender, number;
} Message;

typedef struct Client {
    ENetHost *host;
    ENetPeer *peer;
    bool is_in, is_idle;
    double next;             // when it sends or asks for a connection next
    unsigned long got;       // bytes
    uint32_t sent;           // reliable packets
    uint32_t wanted[MOST];   // the next number of each sender
} Client;

static Client clients[MOST];
static int count;
static ENetAddress relay, beside;
static double end; // when the senders stop; 0 before all are in
static unsigned long lost[2], refused, sent, came[2], unordered;
static float trips[TRIPS + 1];
static size_t tripped;
static double last_came;
static long length = 100, longest, often = 10, idle, plain = 1, after, direct, look = 2;

static void take_reliable(Client *client, const ENetPacket *packet)
{
    Message message;
    last_came = now();
    client->got += packet->dataLength;
    if (packet->dataLength < sizeof message)
        return;
    memcpy(&message, packet->data, sizeof message);
    if (tripped < TRIPS)
        trips[tripped++] = (float)(1e3 * (last_came - message.at));
    unordered += lost[0] + lost[1] == 0 && client->wanted[message.sender % MOST] != message.number;
    client->wanted[message.sender % MOST] = message.number + 1;
}

// What the client's host has to tell.
static void service(Client *client)
{
    ENetEvent event;
    while (enet_host_service(client->host, &event, 0) > 0) {
        if (event.type == ENET_EVENT_TYPE_CONNECT) {
            client->is_in = true;
            client->next = now();
        }
        if (event.type == ENET_EVENT_TYPE_DISCONNECT) {
            bool is_full = event.data == UINT32_MAX;
            refused += is_full;
            lost[client->is_idle] += client->is_in && !is_full;
            client->is_in = false;
            client->peer = NULL;
            client->next = now() + 1;
        }
        if (event.type != ENET_EVENT_TYPE_RECEIVE)
            continue;
        came[event.channelID % 2]++;
        if (event.channelID == 0)
            take_reliable(client, event.packet);
        enet_packet_destroy(event.packet);
    }
}

static void say(Client *client, enet_uint8 channel, size_t bytes)
{
    static uint8_t body[LONGEST];
    Message message = { .at = now(), .sender = (uint32_t)(client - clients), .number = client->sent };
    memcpy(body, &message, sizeof message < bytes ? sizeof message : bytes);
    ENetPacket *packet = enet_packet_create(body, bytes, channel == 0 ? ENET_PACKET_FLAG_RELIABLE : 0);
    if (packet == NULL || enet_peer_send(client->peer, channel, packet) != 0)
        give_up("soak: a packet isn't taken");
}

static void send_both(Client *client)
{
    bool is_long = longest > 0 && client->sent % LONG_EACH == LONG_EACH - 1;
    say(client, 0, (size_t)(is_long ? longest : length));
    if (plain)
        say(client, 1, (size_t)length);
    client->sent++;
    sent++;
    enet_host_flush(client->host);
}

static void ask(Client *client)
{
    const ENetAddress *to = direct && client == clients ? &beside : &relay;
    if ((client->peer = enet_host_connect(client->host, to, 2, 0)) == NULL)
        give_up("soak: no connection can be asked for");
    client->next += 0.1;
}

// Does what the client has to do at this moment.
static void act(Client *client)
{
    service(client);
    while (client->is_in && !client->is_idle && now() < end && now() >= client->next) {
        send_both(client);
        client->next += 1.0 / (double)often;
    }
    if (client->peer == NULL && now() >= client->next)
        ask(client);
}

// Begins the talk where all are in, a while later, when the relay knows it, too. They talk by turns.
static void begin(double seconds)
{
    for (int i = 0; i < count; i++)
        if (!clients[i].is_in)
            return;
    end = now() + SETTLE + seconds;
    for (int i = 0; i < count; i++)
        clients[i].next = now() + SETTLE + (double)i / ((double)often * count);
}

static bool is_over(void)
{
    bool all_came = idle == 0 && came[0] == sent * (unsigned long)(count - 1);
    return end > 0 && now() >= end + (all_came ? 0 : (double)after);
}

static int by_size(const void *a, const void *b)
{
    float x = *(const float *)a, y = *(const float *)b;
    return (x > y) - (x < y);
}

static void print(void)
{
    unsigned long least = ~0ul, greatest = 0;
    for (int i = direct || !idle ? direct != 0 : count - (int)idle; i < count; i++) {
        least = clients[i].got < least ? clients[i].got : least;
        greatest = clients[i].got > greatest ? clients[i].got : greatest;
    }
    qsort(trips, tripped, sizeof *trips, by_size);
    trips[tripped] = tripped > 0 ? trips[tripped - 1] : 0;
    printf("lost %lu %lu refused %lu came %lu %lu %lu trips %.0f %.0f %.0f drained %.2f unordered %lu bytes %lu %lu %lu\n", lost[0], lost[1],
        refused, came[0], sent * (unsigned long)(count - 1), came[1], trips[tripped / 2], trips[tripped * 99 / 100], trips[tripped],
        last_came > end ? last_came - end : 0, unordered, clients[0].got, least, greatest);
}

// What a word and its number mean.
static void understand(int words, char **word, int i)
{
    static const struct {
        const char *name;
        long *number, least, most;
    } known[] = {
        { "length", &length, 1, LONGEST }, { "long", &longest, 0, LONGEST }, { "often", &often, 1, 1000 },   { "idle", &idle, 0, MOST },
        { "plain", &plain, 0, 1 },         { "after", &after, 0, 3600 },     { "direct", &direct, 1, 65535 },
        { "look", &look, 1, 1000 },
    };
    for (size_t k = 0; k < sizeof known / sizeof *known; k++) {
        if (strcmp(word[i], known[k].name) != 0)
            continue;
        *known[k].number = number_of(words, word, i + 1, known[k].least, known[k].most);
        return;
    }
    give_up("soak: %s is no word", word[i]);
}

int main(int words, char **word)
{
    relay.port = (enet_uint16)number_of(words, word, 1, 1, 65535);
    count = (int)number_of(words, word, 2, 1, MOST);
    double seconds = (double)number_of(words, word, 3, 1, 3600), begun = now();
    for (int i = 4; i < words; i += 2)
        understand(words, word, i);
    enet_address_set_host_ip(&relay, "127.0.0.1");
    beside = relay;
    beside.port = (enet_uint16)direct;
    if (enet_initialize() != 0)
        give_up("soak: the library doesn't start");
    for (int i = 0; i < count; i++) {
        clients[i] = (Client){ .host = enet_host_create(NULL, 1, 2, 0, 0), .is_idle = i >= count - idle, .next = now() + 0.1 * i / count };
        if (clients[i].host == NULL)
            give_up("soak: no host");
    }
    while (!is_over()) {
        poll(NULL, 0, (int)look);
        for (int i = 0; i < count; i++)
            act(&clients[i]);
        if (end == 0)
            begin(seconds);
        if (end == 0 && now() > begun + JOIN)
            give_up("soak: not all are in");
    }
    print();
}
