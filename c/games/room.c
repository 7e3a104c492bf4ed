/* A client of yuzu's rooms: `room PORT` has two members join, each with an address of its own; a third by the first one's name is refused. What
 * one says, and a datagram of a console's game that it broadcasts, comes to the other as it was sent. Status 0 where all was so. */
#include "visits.h"

enum { JOIN = 1, JOINED = 2, PROXY = 5, CHAT = 7, NAME_TAKEN = 8, VERSION = 1, LONGEST = 1200 };

static bool joined[CLIENTS], refused[CLIENTS], chatted, proxied;
static enet_uint8 addresses[CLIENTS][4], proxy[LONGEST];

/* A message in the making: numbers with the highest byte first, texts behind their lengths. */
typedef struct {
    enet_uint8 bytes[LONGEST];
    size_t length;
} Message;

static void put(Message *message, const void *bytes, size_t length) {
    memcpy(message->bytes + message->length, bytes, length);
    message->length += length;
}

static void put_number(Message *message, enet_uint32 number) {
    number = htonl(number);
    put(message, &number, sizeof number);
}

static void put_text(Message *message, const char *text) {
    put_number(message, (enet_uint32)strlen(text));
    put(message, text, strlen(text));
}

/* A member asks to come in by this name, with no address, password or token of its own. */
static bool join(ENetPeer *peer, const char *name) {
    Message message = {{JOIN}, 1};
    put_text(&message, name);
    put_number(&message, 0xFFFFFFFF);
    put_number(&message, VERSION);
    put_text(&message, "");
    put_text(&message, "");
    return send_to(peer, 0, message.bytes, message.length);
}

static const char said[] = "hello from the first";

static void hear(int i, ENetPeer *peer, enet_uint8 channel, const ENetPacket *packet) {
    Message chat = {{CHAT}, 1};
    (void)peer;
    if (channel != 0 || packet->dataLength == 0) return;
    put_text(&chat, "member0");
    put_text(&chat, "");
    put_text(&chat, said);
    if (packet->data[0] == JOINED && packet->dataLength == 5) {
        memcpy(addresses[i], packet->data + 1, 4);
        joined[i] = true;
    }
    if (packet->data[0] == NAME_TAKEN) refused[i] = true;
    if (i == 1 && packet->dataLength == chat.length && !memcmp(packet->data, chat.bytes, chat.length)) chatted = true;
    if (i == 1 && packet->dataLength == LONGEST && !memcmp(packet->data, proxy, LONGEST)) proxied = true;
}

/* A datagram of a game's that goes to all: its kind, where it is from and for (a family, an address and a port each), the protocol, that it is
 * broadcast, and its bytes behind their length. */
static void make_proxy(void) {
    enum { HEAD = 1 + 2 * 7 + 2 };
    proxy[0] = PROXY;
    proxy[HEAD - 1] = 1;
    enet_uint32 length = htonl(LONGEST - HEAD - 4);
    memcpy(proxy + HEAD, &length, sizeof length);
    for (int i = HEAD + 4; i < LONGEST; i++) proxy[i] = (enet_uint8)(i * 7);
}

/* The member comes in, or is refused. */
static bool come(int i, enet_uint16 port, const char *name, const bool *so) {
    return begin(i, port, 1) && until(&connected[i], LIMIT_MS) && join(&hosts[i]->peers[0], name) && until(so, LIMIT_MS);
}

int main(int argc, char **argv) {
    enet_uint16 port = (enet_uint16)(argc > 1 ? atoi(argv[1]) : 24872);
    Message chat = {{CHAT}, 1};
    put_text(&chat, said);
    make_proxy();
    if (enet_initialize() != 0) return 2;
    if (!come(0, port, "member0", &joined[0]) || !come(1, port, "member1", &joined[1])) return end("a member didn't come in");
    if (!memcmp(addresses[0], addresses[1], 4)) return end("two members have one address");
    if (!come(2, port, "member0", &refused[2])) return end("one came in by another's name");
    if (!send_to(&hosts[0]->peers[0], 0, chat.bytes, chat.length) || !until(&chatted, LIMIT_MS)) return end("what was said didn't come");
    if (!send_to(&hosts[0]->peers[0], 0, proxy, sizeof proxy) || !until(&proxied, LIMIT_MS)) return end("the game's datagram didn't come");
    for (int i = 0; i < CLIENTS; i++)
        if (!leave(i)) return end("one didn't leave");
    puts("two came in and talked, and a third was refused");
    for (int i = 0; i < CLIENTS; i++) enet_host_destroy(hosts[i]);
    return 0;
}
