// fray PORT PLAYERS SECONDS: clients of the reference library in an arena (the examples of bindings/) at PORT of 127.0.0.1: that many
// players, who make ten drawn moves a second, for so many seconds; one who sends garbage; and one who, once a second has passed, reads and
// answers nothing for three. Only time in which this program goes on counts, so that a machine that stands still does no harm. Status 0 if
// the last snapshot has each player where its moves lead, each player got half the snapshots or more, no snapshot came behind a later one,
// who sent garbage was sent away with the number 1, and nobody else was; else it says why on standard error, with status 2 if something
// came too late, and status 1 if anything else is amiss. Prints the slot that the one who read nothing has at the server.
#include <enet/enet.h>
#include <stdbool.h>

#include "common.h"

enum { MOST = 16, PER_SECOND = 20, LIMIT = 120, GARBAGE = 1 };

static const double SILENT_FROM = 1, SILENT_FOR = 3, PAUSE = 0.1, ROUND = 0.05;

typedef struct Client {
    ENetHost *host;
    ENetPeer *peer;
    bool is_in, is_out;
    int16_t x, y;           // where its moves lead
    int16_t told_x, told_y; // where it is by the last snapshot
    uint32_t number, count; // of the last snapshot on channel 1, and how many came
} Client;

static Client clients[MOST + 2]; // behind the players are who sends garbage, and who reads nothing for a while
static int players;
static double awake; // the time of all rounds so far, of each as much as ROUND at most

static void read_snapshot(Client *client, const uint8_t *data, size_t length)
{
    uint16_t words[3];
    for (size_t at = 4; at + 6 <= length; at += 6) {
        memcpy(words, data + at, 6);
        if (words[0] == client->peer->outgoingPeerID)
            client->told_x = (int16_t)words[1], client->told_y = (int16_t)words[2];
    }
}

static void take(int id, const ENetEvent *event)
{
    Client *client = &clients[id];
    if (event->type == ENET_EVENT_TYPE_CONNECT)
        client->is_in = true;
    if (event->type == ENET_EVENT_TYPE_DISCONNECT) {
        if (id != players || event->data != GARBAGE)
            give_up("client %d was disconnected, with the number %u", id, event->data);
        client->is_out = true;
    }
    if (event->type != ENET_EVENT_TYPE_RECEIVE)
        return;
    uint32_t number;
    size_t length = event->packet->dataLength;
    if (length < 4 || (length - 4) % 6 != 0 || event->channelID > 1)
        give_up("client %d: a packet of %zu bytes on channel %u is no snapshot", id, length, event->channelID);
    memcpy(&number, event->packet->data, 4);
    if (event->channelID == 1) {
        if (number <= client->number)
            give_up("client %d: snapshot %u behind %u", id, number, client->number);
        client->number = number;
        client->count++;
    }
    read_snapshot(client, event->packet->data, length);
    enet_packet_destroy(event->packet);
}

static void serve(double seconds, bool is_silent)
{
    ENetEvent event;
    for (double begun = awake, last = now(); awake < begun + seconds; last = now()) {
        for (int id = 0; id < players + 2; id++)
            while (!(is_silent && id == players + 1) && enet_host_service(clients[id].host, &event, 0) > 0)
                take(id, &event);
        nanosleep(&(struct timespec){ .tv_nsec = 2000000 }, NULL);
        awake += now() - last < ROUND ? now() - last : ROUND;
    }
}

static void say(Client *client, const void *bytes, size_t length)
{
    ENetPacket *packet = enet_packet_create(bytes, length, ENET_PACKET_FLAG_RELIABLE);
    if (packet == NULL || enet_peer_send(client->peer, 0, packet) != 0)
        give_up("a packet of %zu bytes isn't taken", length);
}

static void move(Client *client, uint64_t *seed)
{
    uint8_t step = draw(seed) % 4;
    client->x = (int16_t)(client->x + (step == 0) - (step == 1));
    client->y = (int16_t)(client->y + (step == 2) - (step == 3));
    say(client, &step, 1);
}

static void join(uint16_t port)
{
    ENetAddress address = { .port = port };
    enet_address_set_host_ip(&address, "127.0.0.1");
    for (int id = 0; id < players + 2; id++) {
        clients[id].host = enet_host_create(NULL, 1, 2, 0, 0);
        clients[id].peer = clients[id].host == NULL ? NULL : enet_host_connect(clients[id].host, &address, 2, 0);
        if (clients[id].peer == NULL)
            give_up("there is no host");
    }
    double begun = now();
    for (int in = 0; in < players + 2;) {
        if (now() > begun + LIMIT) {
            fprintf(stderr, "%d of %d clients are in within %d seconds\n", in, players + 2, LIMIT);
            exit(2);
        }
        serve(0.02, false);
        in = 0;
        for (int id = 0; id < players + 2; id++)
            in += clients[id].is_in;
    }
}

static bool all_told(void)
{
    for (int id = 0; id < players; id++)
        if (clients[id].told_x != clients[id].x || clients[id].told_y != clients[id].y)
            return false;
    return clients[players].is_out;
}

int main(int count, char **words)
{
    uint64_t seed = 1;
    players = (int)number_of(count, words, 2, 1, MOST);
    double seconds = (double)number_of(count, words, 3, 5, 600);
    if (enet_initialize() != 0)
        give_up("the reference library doesn't start");
    join((uint16_t)number_of(count, words, 1, 1, 65535));
    int slot = clients[players + 1].peer->outgoingPeerID;
    say(&clients[players], "garbage", 7);
    double began = awake, begun;
    while (awake < began + seconds) {
        for (int id = 0; id < players; id++)
            move(&clients[id], &seed);
        double passed = awake - began;
        serve(PAUSE, passed > SILENT_FROM && passed < SILENT_FROM + SILENT_FOR);
    }
    for (int id = 0; id < players; id++)
        if (clients[id].count < seconds * PER_SECOND / 2)
            give_up("client %d got %u snapshots in %g seconds", id, clients[id].count, seconds);
    for (begun = now(); !all_told();) {
        if (now() > begun + LIMIT) {
            fprintf(stderr, "the last snapshot, or the end of who sent garbage, isn't there within %d seconds\n", LIMIT);
            return 2;
        }
        serve(0.05, false);
    }
    printf("%d\n", slot);
}
