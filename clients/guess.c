// guess PORT: a client of the reference library at a server of crates/example_game at PORT of 127.0.0.1. It guesses a number from 1 to
// 1,000 by halving what is left. Status 0 where each guess was answered once, no answer was against an earlier one, the last one was right
// and told how many guesses there were, all that came on channel 1 was the news that somebody else has won, and the server ended the
// connection then; else it says why on standard error, with status 2 where something came too late, and status 1 where anything else is
// amiss.
#include "visitor.h"

enum { GREATEST = 1000, LIMIT = 300 };

// The number lies between these.
static long least = 1, most = GREATEST;

static int guesses;
static int is_right;

static long guess(void)
{
    return (least + most) / 2;
}

static void say(ENetPeer *peer)
{
    char text[16];
    int length = snprintf(text, sizeof text, "%ld", guess());
    ENetPacket *packet = enet_packet_create(text, (size_t)length, ENET_PACKET_FLAG_RELIABLE);
    if (packet == NULL || enet_peer_send(peer, 0, packet) != 0)
        give_up("a guess isn't taken");
    guesses++;
}

// The answer to the last guess came.
static void hear(const ENetEvent *event)
{
    char text[32] = "", right[32];
    if (is_right || event->channelID != 0 || event->packet->dataLength >= sizeof text)
        give_up("a packet of %zu bytes on channel %u that isn't awaited", event->packet->dataLength, event->channelID);
    memcpy(text, event->packet->data, event->packet->dataLength);
    snprintf(right, sizeof right, "right after %d", guesses);
    if (strcmp(text, "lower") == 0)
        most = guess() - 1;
    else if (strcmp(text, "higher") == 0)
        least = guess() + 1;
    else if (strcmp(text, right) == 0)
        is_right = 1;
    else
        give_up("guess %d was answered '%s'", guesses, text);
    if (least > most)
        give_up("no number is left after guess %d", guesses);
}

// Another player has won.
static void hear_news(const ENetPacket *packet)
{
    static const char news[] = "somebody won";
    if (packet->dataLength != sizeof news - 1 || memcmp(packet->data, news, sizeof news - 1) != 0)
        give_up("news of %zu bytes that aren't awaited", packet->dataLength);
}

int main(int count, char **words)
{
    ENetPeer *peer;
    ENetHost *host = visit(count, words, &peer);
    ENetEvent event;
    double begun = now();
    while (now() < begun + LIMIT) {
        if (enet_host_service(host, &event, 20) <= 0)
            continue;
        if (event.type == ENET_EVENT_TYPE_DISCONNECT && is_right)
            return 0;
        if (event.type == ENET_EVENT_TYPE_DISCONNECT)
            give_up("the connection ended after %d guesses", guesses);
        if (event.type == ENET_EVENT_TYPE_RECEIVE && event.channelID == 1) {
            hear_news(event.packet);
            enet_packet_destroy(event.packet);
            continue;
        }
        if (event.type == ENET_EVENT_TYPE_RECEIVE) {
            hear(&event);
            enet_packet_destroy(event.packet);
        }
        if (!is_right)
            say(peer);
    }
    fprintf(stderr, "no end after %d guesses within %d seconds\n", guesses, LIMIT);
    return 2;
}
