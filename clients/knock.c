// knock PORT ADDRESS COUNT SECONDS [mtu] [told] [in]: so many clients of the reference library, each a host of its own at ADDRESS
// (127.0.0.1 and its like), ask the server at PORT of 127.0.0.1 for a connection, and stay. Prints after so many seconds how many are
// connected, and how many were told the end of their connection before; with `mtu` also the mtu of the first one's connection. With `told`
// also how many were told that the server is full, how many of these by the first datagram behind the answer, for how many milliseconds a
// client believed at most that it is connected, and how many believed it for more than 5 seconds. Then they leave, and wait a moment for
// the answers. With `in` the seconds begin when all are connected, or after a minute. SIGTERM ends them before.
#include <enet/enet.h>
#include <signal.h>

#include "common.h"

enum { MOST = 256 };

typedef struct Client {
    ENetHost *host;
    ENetPeer *peer;
    int is_connected, was_ended, was_told;
    int had_answer, had_more; // what came: a VERIFY_CONNECT, and a datagram behind it that has none
    int told_at_once;         // the first of these says that the server is full
    double connected;         // when the user was told of the connection
    double believed;          // how long it lasted at most, by what the client knew
} Client;

static Client clients[MOST];
static volatile sig_atomic_t is_over;

static void end_waiting(int signal)
{
    (void)signal;
    is_over = 1;
}

// Looks at a datagram before the library does, which handles it then.
static int ENET_CALLBACK look(ENetHost *host, ENetEvent *event)
{
    static const uint8_t full[] = { 0xff, 0xff, 0xff, 0xff };
    (void)event;
    for (int i = 0; i < MOST; i++) {
        Client *client = &clients[i];
        if (client->host != host)
            continue;
        const uint8_t *at = host->receivedData;
        size_t length = host->receivedDataLength, head = at[0] & 0x80 ? 4 : 2;
        int command = length > head ? at[head] & 15 : 0;
        if (client->had_answer && command != 3 && !client->had_more) {
            client->had_more = 1;
            client->told_at_once = command == 4 && length >= head + 8 && memcmp(at + head + 4, full, sizeof full) == 0;
        }
        client->had_answer |= command == 3;
    }
    return 0;
}

static void begin(Client *client, const ENetAddress *at, const ENetAddress *server)
{
    client->host = enet_host_create(at, 1, 2, 0, 0);
    client->peer = client->host == NULL ? NULL : enet_host_connect(client->host, server, 2, 0);
    if (client->peer == NULL)
        give_up("knock: a client can't begin");
    client->host->intercept = look;
}

// The client's connection has ended, or it ends here.
static void end(Client *client)
{
    double believed = now() - client->connected;
    if (client->is_connected && believed > client->believed)
        client->believed = believed;
}

static void hear(Client *client)
{
    ENetEvent event;
    while (enet_host_service(client->host, &event, 0) > 0) {
        if (event.type == ENET_EVENT_TYPE_CONNECT) {
            client->is_connected = 1;
            client->connected = now();
        } else if (event.type == ENET_EVENT_TYPE_DISCONNECT) {
            end(client);
            client->was_ended += client->is_connected;
            client->was_told += event.data == UINT32_MAX;
            client->is_connected = 0;
        } else if (event.type == ENET_EVENT_TYPE_RECEIVE) {
            enet_packet_destroy(event.packet);
        }
    }
}

static void hear_once(int count)
{
    for (int i = 0; i < count; i++)
        hear(&clients[i]);
    nanosleep(&(struct timespec){ .tv_nsec = 2000000 }, NULL);
}

static int all_in(int count)
{
    int in = 0;
    for (int i = 0; i < count; i++)
        in += clients[i].is_connected;
    return in == count;
}

// What came of the refusals.
static void tell(int many)
{
    int told = 0, at_once = 0, long_ones = 0;
    double longest = 0;
    for (int i = 0; i < many; i++) {
        Client *client = &clients[i];
        end(client);
        told += client->was_told;
        at_once += client->told_at_once;
        longest = client->believed > longest ? client->believed : longest;
        long_ones += client->believed > 5;
    }
    printf("%d told full %d at once longest %.0f ms long %d\n", told, at_once, 1e3 * longest, long_ones);
}

static int has(int count, char **words, const char *word)
{
    for (int i = 5; i < count; i++)
        if (strcmp(words[i], word) == 0)
            return 1;
    return 0;
}

int main(int count, char **words)
{
    ENetAddress server = { .port = (enet_uint16)number_of(count, words, 1, 1, 65535) }, at = { .port = 0 };
    int many = (int)number_of(count, words, 3, 1, MOST), connected = 0, ended = 0;
    double seconds = (double)number_of(count, words, 4, 0, 600);
    enet_address_set_host_ip(&server, "127.0.0.1");
    if (enet_initialize() != 0 || enet_address_set_host_ip(&at, words[2]) != 0)
        give_up("knock: the library can't be used, or there is no such address");
    for (int i = 0; i < many; i++)
        begin(&clients[i], &at, &server);
    signal(SIGTERM, end_waiting);
    if (has(count, words, "in"))
        for (double begun = now(); now() < begun + 60 && !is_over && !all_in(many);)
            hear_once(many);
    for (double begun = now(); now() < begun + seconds && !is_over;)
        hear_once(many);
    for (int i = 0; i < many; i++) {
        connected += clients[i].is_connected;
        ended += clients[i].was_ended;
        if (clients[i].is_connected)
            enet_peer_disconnect(clients[i].peer, 0);
    }
    printf("%d connected %d ended\n", connected, ended);
    for (int i = 5; i < count; i++) {
        if (strcmp(words[i], "mtu") == 0)
            printf("mtu %u\n", clients[0].peer->mtu);
        else if (strcmp(words[i], "told") == 0)
            tell(many);
    }
    fflush(stdout);
    for (double begun = now(); now() < begun + 0.3;)
        hear_once(many);
    return 0;
}
