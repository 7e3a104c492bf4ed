/* A client of Red Eclipse's server: `eclipse PORT` connects twice and joins the game, each time with a welcome of more than 100,000 bytes, and
 * the first hears of the second; a third says what the server doesn't know, and is thrown out with the word for that. Status 0 where all was
 * so. */
#include "visits.h"

enum { CONNECT = 0, SERVERINIT = 1, WELCOME = 2, CLIENTINIT = 0x29, NONSENSE = 5, MESSAGE_ERROR = 4, WELCOME_LENGTH = 100000 };

static bool joined[CLIENTS], heard_of[CLIENTS];

/* "Connect", the player's name, its looks, no weapons chosen and no password, and the program's version: 1.6.0 of the game 230, which stands
 * for 0xE6 in two bytes behind 0x80. */
static const unsigned char hello[] = {CONNECT, 'm', 'e', 0, 0, 0, 0, 0, 0, 0, 0, 1, 6, 0, 0x80, 0xE6, 0, 0, 0, 0, 0, 0, 0, 0, 0, 0},
                           nonsense[] = {NONSENSE};

static void hear(int i, ENetPeer *peer, enet_uint8 channel, const ENetPacket *packet) {
    if (channel != 1 || packet->dataLength == 0) return;
    if (packet->data[0] == SERVERINIT && i < 2) send_to(peer, 1, hello, sizeof hello);
    if (packet->data[0] == SERVERINIT && i == 2) send_to(peer, 1, nonsense, sizeof nonsense);
    if (packet->data[0] == WELCOME && packet->dataLength > WELCOME_LENGTH) joined[i] = true;
    if (packet->data[0] == CLIENTINIT) heard_of[i] = true;
}

int main(int argc, char **argv) {
    enet_uint16 port = (enet_uint16)(argc > 1 ? atoi(argv[1]) : 28801);
    if (enet_initialize() != 0) return 2;
    for (int i = 0; i < 2; i++)
        if (!begin(i, port, 3) || !until(&joined[i], LIMIT_MS)) return end("a client didn't join");
    if (!until(&heard_of[0], LIMIT_MS)) return end("the first didn't hear of the second");
    if (!begin(2, port, 3) || !until(&left[2], LIMIT_MS) || reason[2] != MESSAGE_ERROR) return end("nonsense was taken");
    if (!leave(0) || !leave(1)) return end("they didn't leave");
    puts("two joined, and a third was thrown out");
    for (int i = 0; i < CLIENTS; i++) enet_host_destroy(hosts[i]);
    return 0;
}
