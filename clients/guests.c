// guests PORT AFTER: two clients of the reference library at the relay at PORT of 127.0.0.1 talk to one another, in turns, a reliable
// packet each in 20 milliseconds. Once each got ten of the other's they write `talking`. Where AFTER is `told` they go on until both were
// told that the relay ends, which must come within 3 seconds of a packet or sooner, since ENet itself ends a connection that stands still
// only after 5: in seconds in which this program goes on, so that a machine that stands still does no harm; where it is a number, until
// each got so many packets more, and they leave with the word 5. Status 0 where that came; else it is told on standard error what went
// wrong, with status 2 where it came too late, and status 1 where anything else is amiss.
#include <enet/enet.h>
#include <poll.h>
#include <stdbool.h>
#include <string.h>

#include "common.h"

enum { AT_FIRST = 10 };

// In seconds: what hasn't come after LIMIT is too late.
static const double LIMIT = 600, PAUSE = 0.02, TOLD_WITHIN = 3, ROUND = 0.1;

typedef struct Guest {
    ENetHost *host;
    ENetPeer *peer;
    bool is_there, is_told;
    double heard_at; // when the last packet came, by `awake`
    double says_at;  // when it says something next
    int got;
} Guest;

static Guest guests[2];
static double awake; // the time of all rounds so far, of each as much as ROUND at most

static void join(Guest *guest, const ENetAddress *relay)
{
    guest->host = enet_host_create(NULL, 1, 2, 0, 0);
    guest->peer = guest->host == NULL ? NULL : enet_host_connect(guest->host, relay, 2, 7);
    if (guest->peer == NULL)
        give_up("guests: one can't connect");
}

static void hear(Guest *guest, bool may_end)
{
    ENetEvent event;
    while (enet_host_service(guest->host, &event, 0) > 0) {
        if (event.type == ENET_EVENT_TYPE_CONNECT) {
            guest->is_there = true;
        } else if (event.type == ENET_EVENT_TYPE_RECEIVE) {
            guest->heard_at = awake;
            guest->got++;
            enet_packet_destroy(event.packet);
        } else if (event.type == ENET_EVENT_TYPE_DISCONNECT) {
            double since = awake - guest->heard_at;
            if (!may_end || since > TOLD_WITHIN)
                give_up("guests: a connection ended after %d packets, %.1f seconds after the last", guest->got, since);
            guest->is_told = true;
        }
    }
}

static void say(Guest *guest)
{
    if (now() < guest->says_at)
        return;
    guest->says_at = now() + PAUSE;
    if (!guest->is_there || guest->is_told)
        return;
    ENetPacket *packet = enet_packet_create("hello", 5, ENET_PACKET_FLAG_RELIABLE);
    if (packet == NULL)
        give_up("guests: no memory");
    // The relay may have asked for the end of the connection just now.
    if (enet_peer_send(guest->peer, 0, packet) != 0)
        enet_packet_destroy(packet);
}

static bool both_got(int packets)
{
    return guests[0].got >= packets && guests[1].got >= packets;
}

int main(int count, char **words)
{
    ENetAddress relay = { .port = (enet_uint16)number_of(count, words, 1, 1, 65535) };
    bool until_told = count > 2 && strcmp(words[2], "told") == 0;
    int more = until_told ? 0 : (int)number_of(count, words, 2, 1, 1000);
    bool is_talking = false;
    enet_address_set_host_ip(&relay, "127.0.0.1");
    if (enet_initialize() != 0)
        give_up("guests: the library can't be used");
    for (int i = 0; i < 2; i++)
        join(&guests[i], &relay);
    double begun = now(), last = begun;
    guests[1].says_at = begun + PAUSE / 2;
    while (now() - begun < LIMIT) {
        awake += now() - last < ROUND ? now() - last : ROUND;
        last = now();
        for (int i = 0; i < 2; i++)
            hear(&guests[i], is_talking && until_told);
        for (int i = 0; i < 2; i++)
            say(&guests[i]);
        if (!is_talking && both_got(AT_FIRST)) {
            is_talking = true;
            puts("talking");
            fflush(stdout);
        }
        if (until_told && guests[0].is_told && guests[1].is_told)
            return 0;
        if (!until_told && both_got(AT_FIRST + more)) {
            for (int i = 0; i < 2; i++)
                enet_peer_disconnect_now(guests[i].peer, 5);
            return 0;
        }
        poll(NULL, 0, 1);
    }
    fprintf(stderr, "guests: too late, with %d and %d packets\n", guests[0].got, guests[1].got);
    return 2;
}
