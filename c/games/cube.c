/* A client of Cube 2's server: `cube PORT` connects twice and joins the game each time; a third connection from here isn't taken, since the
 * server takes two of an address (maxdupclients), until one of them has left. Status 0 where all was so. */
#include "visits.h"

enum { SERVINFO = 1, WELCOME = 2 };

static bool joined[CLIENTS];

/* "Connect", the player's name, its model, and no password. */
static const char hello[] = {0, 'm', 'e', 0, 0, 0, 0, 0};

static void hear(int i, ENetPeer *peer, enet_uint8 channel, const ENetPacket *packet) {
    if (channel != 1 || packet->dataLength == 0) return;
    if (packet->data[0] == SERVINFO) send_to(peer, 1, hello, sizeof hello);
    if (packet->data[0] == WELCOME) joined[i] = true;
}

int main(int argc, char **argv) {
    enet_uint16 port = (enet_uint16)(argc > 1 ? atoi(argv[1]) : 28785);
    if (enet_initialize() != 0) return 2;
    for (int i = 0; i < 2; i++)
        if (!begin(i, port, 3) || !until(&joined[i], LIMIT_MS)) return end("a client didn't join");
    if (!begin(2, port, 3) || until(&connected[2], 1500)) return end("a third client was taken");
    if (!leave(0) || !until(&joined[2], LIMIT_MS)) return end("the third client wasn't taken after one had left");
    puts("two joined, and a third once there was room");
    if (!leave(1) || !leave(2)) return end("they didn't leave");
    for (int i = 0; i < CLIENTS; i++) enet_host_destroy(hosts[i]);
    return 0;
}
