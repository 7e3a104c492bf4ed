// join COUNT AFTER PORT..: clients that each ask once for a connection, forty a second, at these ports of 127.0.0.1 by turns. Each tells its
// number, from 1 on. Standard input is the log of the server behind the ports (`enet_relay serve --log`), which says who is connected. So many
// seconds after the last has asked it prints how many were connected within 5 seconds by that log, how many later, how many clients of the
// others take themselves for connected or did, and how many had no answer.
#include <enet/enet.h>
#include <fcntl.h>
#include <poll.h>
#include <unistd.h>

#include "common.h"

enum { MOST = 1000, EACH_SECOND = 40 };

typedef struct Client {
    ENetHost *host;
    double asked, connected; // when it asked, and when the log said that it is connected; 0 where that hasn't been
    int had_answer;
} Client;

static Client clients[MOST];
static int count;

static void ask(Client *client, enet_uint16 port, enet_uint32 number)
{
    ENetAddress server = { .port = port };
    enet_address_set_host_ip(&server, "127.0.0.1");
    client->host = enet_host_create(NULL, 1, 2, 0, 0);
    if (client->host == NULL || enet_host_connect(client->host, &server, 2, number) == NULL)
        give_up("join: no connection can be asked for");
    client->asked = now();
}

static void service(Client *client)
{
    ENetEvent event;
    while (client->host != NULL && enet_host_service(client->host, &event, 0) > 0) {
        client->had_answer |= event.type == ENET_EVENT_TYPE_CONNECT;
        if (event.type == ENET_EVENT_TYPE_RECEIVE)
            enet_packet_destroy(event.packet);
    }
}

static void read_line(const char *line)
{
    int number;
    if (sscanf(line, "connect %*s at %*s info %d", &number) == 1 && number >= 1 && number <= count && clients[number - 1].connected == 0)
        clients[number - 1].connected = now();
}

// Reads what there is of the log.
static void read_log(void)
{
    static char text[4096];
    static size_t length;
    ssize_t more = read(STDIN_FILENO, text + length, sizeof text - 1 - length);
    if (more <= 0)
        return;
    length += (size_t)more;
    text[length] = 0;
    char *line = text;
    for (char *end; (end = strchr(line, '\n')) != NULL; line = end + 1) {
        *end = 0;
        read_line(line);
    }
    length -= (size_t)(line - text);
    memmove(text, line, length);
    if (length == sizeof text - 1)
        give_up("join: a line of the log is too long");
}

static void tell(void)
{
    int soon = 0, late = 0, mistaken = 0;
    for (int i = 0; i < count; i++) {
        const Client *client = &clients[i];
        int is_in = client->connected > 0, is_soon = is_in && client->connected - client->asked <= 5;
        soon += is_soon;
        late += is_in && !is_soon;
        mistaken += client->had_answer && !is_in;
    }
    printf("%d joins: %d connected within 5 s, %d later, %d clients mistaken, %d others\n", count, soon, late, mistaken,
        count - soon - late - mistaken);
}

int main(int words, char **word)
{
    count = (int)number_of(words, word, 1, 1, MOST);
    double after = (double)number_of(words, word, 2, 1, 600), begun = now(), end = begun + (double)count / EACH_SECOND + after;
    if (words < 4 || enet_initialize() != 0)
        give_up("join COUNT AFTER PORT..");
    fcntl(STDIN_FILENO, F_SETFL, O_NONBLOCK);
    for (int asked = 0; now() < end;) {
        for (; asked < count && now() >= begun + (double)asked / EACH_SECOND; asked++)
            ask(&clients[asked], (enet_uint16)number_of(words, word, 3 + asked % (words - 3), 1, 65535), (enet_uint32)asked + 1);
        for (int i = 0; i < asked; i++)
            service(&clients[i]);
        read_log();
        poll(NULL, 0, 4);
    }
    tell();
    return 0;
}
