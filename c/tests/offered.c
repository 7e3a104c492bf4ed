/* What programs use of libenet beside peers and packets: `offered CASE serve PORT` and `offered CASE visit PORT` are the two ends of
 *   sockets     a connection by TCP, as to a master server
 *   duplicates  a server that takes two peers of an address
 *   intercept   datagrams that the program answers, makes an event of, or fails on
 *   compress, checksum, both    callbacks of the program's own around each datagram
 *   coder, all  the library's range coder, alone and with a checksum of the program's own
 * Status 0 where all came as it should. Compiled against either library's header. */
#include <enet/enet.h>
#include <stdbool.h>
#include <stdio.h>
#include <stdlib.h>
#include <string.h>

enum { LIMIT_MS = 120000, WAKE = 42 };

#define NEED(condition) do { if (!(condition)) { printf("%s:%d: not so: %s\n", __FILE__, __LINE__, #condition); return 1; } } while (0)

static enet_uint32 begun;

static bool lasts(void) { return enet_time_get() - begun < LIMIT_MS; }

/* -- sockets -- */

/* Waits until a socket can be read, or written. */
static bool can(ENetSocket fd, enet_uint32 what) {
    enet_uint32 condition = what;
    return enet_socket_wait(fd, &condition, LIMIT_MS) == 0 && condition & what;
}

static int serve_sockets(ENetAddress address) {
    char text[16] = "";
    ENetBuffer all = {text, sizeof text};
    ENetAddress from = {0, 0};
    ENetSocket listener = enet_socket_create(ENET_SOCKET_TYPE_STREAM);
    NEED(enet_socket_set_option(listener, ENET_SOCKOPT_REUSEADDR, 1) == 0 && enet_socket_set_option(listener, ENET_SOCKOPT_NODELAY, 1) == 0);
    NEED(enet_socket_bind(listener, &address) == 0 && enet_socket_listen(listener, -1) == 0);
    NEED(enet_socket_set_option(listener, ENET_SOCKOPT_NONBLOCK, 1) == 0 && enet_socket_accept(listener, &from) == ENET_SOCKET_NULL);
    ENetSocket sign = enet_socket_create(ENET_SOCKET_TYPE_DATAGRAM); /* by which the test knows that it may begin */
    NEED(enet_socket_bind(sign, &address) == 0 && can(listener, ENET_SOCKET_WAIT_RECEIVE));
    ENetSocket peer = enet_socket_accept(listener, &from);
    NEED(peer != ENET_SOCKET_NULL && from.host == address.host && from.port != 0);
    NEED(can(peer, ENET_SOCKET_WAIT_RECEIVE) && enet_socket_receive(peer, NULL, &all, 1) == 5 && !strcmp(text, "reg 1"));
    all.dataLength = 2;
    memcpy(text, "ok", 2);
    NEED(enet_socket_send(peer, NULL, &all, 1) == 2);
    NEED(can(peer, ENET_SOCKET_WAIT_RECEIVE) && enet_socket_receive(peer, NULL, &all, 1) == 0); /* its end was shut down */
    enet_socket_destroy(peer);
    enet_socket_destroy(sign);
    enet_socket_destroy(listener);
    return 0;
}

static int visit_sockets(ENetAddress address) {
    char text[16] = "reg 1";
    ENetBuffer all = {text, 5};
    int error = -1;
    ENetSocket fd = enet_socket_create(ENET_SOCKET_TYPE_STREAM);
    NEED(enet_socket_set_option(fd, ENET_SOCKOPT_NONBLOCK, 1) == 0 && enet_socket_connect(fd, &address) == 0);
    NEED(can(fd, ENET_SOCKET_WAIT_SEND) && enet_socket_get_option(fd, ENET_SOCKOPT_ERROR, &error) == 0 && error == 0);
    NEED(enet_socket_get_option(fd, ENET_SOCKOPT_NODELAY, &error) == -1 && enet_socket_send(fd, NULL, &all, 1) == 5);
    all.dataLength = sizeof text;
    NEED(can(fd, ENET_SOCKET_WAIT_RECEIVE) && enet_socket_receive(fd, NULL, &all, 1) == 2 && !memcmp(text, "ok", 2));
    NEED(enet_socket_shutdown(fd, ENET_SOCKET_SHUTDOWN_WRITE) == 0);
    enet_socket_destroy(fd);
    fd = enet_socket_create(ENET_SOCKET_TYPE_STREAM);
    address.port = 1;
    NEED(enet_socket_connect(fd, &address) == -1);
    enet_socket_destroy(fd);
    (void)enet_host_random_seed();
    return 0;
}

/* -- duplicates -- */

static int serve_duplicates(ENetAddress address) {
    ENetEvent event;
    int here = 0, ends = 0;
    enet_uint32 home = address.host;
    address.host = ENET_HOST_ANY;
    ENetHost *host = enet_host_create(&address, 4, 1, 0, 0);
    NEED(host != NULL);
    host->duplicatePeers = 2;
    while (ends < 4 && lasts()) {
        if (enet_host_service(host, &event, 50) <= 0) continue;
        if (event.type == ENET_EVENT_TYPE_CONNECT) here += event.peer->address.host == home;
        if (event.type == ENET_EVENT_TYPE_DISCONNECT) here -= event.peer->address.host == home, ends++;
        NEED(here <= 2);
    }
    NEED(ends == 4);
    enet_host_destroy(host);
    return 0;
}

static ENetHost *begin_client(const char *name, const ENetAddress *to) {
    ENetAddress from = {.port = ENET_PORT_ANY};
    enet_address_set_host_ip(&from, name);
    ENetHost *host = enet_host_create(&from, 1, 1, 0, 0);
    return host && enet_host_connect(host, to, 1, 0) ? host : NULL;
}

/* Serves clients until one is told of this, or so many milliseconds are over; which one. */
static int until(ENetHost **hosts, int count, ENetEventType type, enet_uint32 ms) {
    ENetEvent event;
    for (enet_uint32 from = enet_time_get(); enet_time_get() - from < ms;)
        for (int i = 0; i < count; i++)
            if (enet_host_service(hosts[i], &event, 1) > 0 && event.type == type) return i;
    return -1;
}

static int visit_duplicates(ENetAddress address) {
    ENetHost *hosts[4] = {begin_client("127.0.0.1", &address), begin_client("127.0.0.1", &address)};
    NEED(hosts[0] && hosts[1]);
    int first = until(hosts, 2, ENET_EVENT_TYPE_CONNECT, LIMIT_MS), second = until(hosts, 2, ENET_EVENT_TYPE_CONNECT, LIMIT_MS);
    NEED(first >= 0 && second >= 0 && first != second);
    hosts[2] = begin_client("127.0.0.1", &address);
    NEED(hosts[2] && until(hosts, 3, ENET_EVENT_TYPE_CONNECT, 400) == -1);
    hosts[3] = begin_client("127.0.0.2", &address);
    NEED(hosts[3] && until(hosts, 4, ENET_EVENT_TYPE_CONNECT, LIMIT_MS) == 3);
    enet_peer_disconnect(&hosts[0]->peers[0], 0);
    NEED(until(hosts, 4, ENET_EVENT_TYPE_DISCONNECT, LIMIT_MS) == 0 && until(hosts, 4, ENET_EVENT_TYPE_CONNECT, LIMIT_MS) == 2);
    until(hosts, 4, ENET_EVENT_TYPE_NONE, 300); /* the server is to know of the last one, too */
    for (int i = 1; i < 4; i++) enet_peer_disconnect(&hosts[i]->peers[0], 0);
    for (int i = 1; i < 4; i++) NEED(until(hosts, 4, ENET_EVENT_TYPE_DISCONNECT, LIMIT_MS) > 0);
    for (int i = 0; i < 4; i++) enet_host_destroy(hosts[i]);
    return 0;
}

/* -- intercept -- */

static int asked, seen;

/* Answers "ask", makes an event of "wake", fails on "fail", and lets the rest pass. */
static int ENET_CALLBACK intercept(ENetHost *host, ENetEvent *event) {
    ENetBuffer answer = {"told", 4};
    seen++;
    if (host->receivedDataLength != 4 || host->receivedAddress.port == 0) return 0;
    if (!memcmp(host->receivedData, "ask.", 4)) {
        asked += enet_socket_send(host->socket, &host->receivedAddress, &answer, 1) == 4;
        return 1;
    }
    if (!memcmp(host->receivedData, "wake", 4) && event) {
        event->type = (ENetEventType)WAKE;
        event->data = host->receivedAddress.port;
        return 1;
    }
    return memcmp(host->receivedData, "fail", 4) ? 0 : -1;
}

static int serve_intercept(ENetAddress address) {
    ENetEvent event;
    ENetHost *host = enet_host_create(&address, 4, 1, 0, 0);
    bool is_over = false;
    int woken = 0, failures = 0, packets = 0;
    NEED(host != NULL);
    host->intercept = intercept;
    while (!is_over && lasts()) {
        int answer = enet_host_service(host, &event, 50);
        failures += answer < 0;
        if (answer <= 0) continue;
        if (event.type == (ENetEventType)WAKE) woken += event.data != 0;
        if (event.type == ENET_EVENT_TYPE_RECEIVE) {
            packets++;
            enet_packet_destroy(event.packet);
        }
        is_over = event.type == ENET_EVENT_TYPE_DISCONNECT;
    }
    enet_host_service(host, NULL, 20);
    NEED(is_over && woken == 1 && failures == 1 && packets == 1 && asked == 1 && seen > 6);
    enet_host_destroy(host);
    return 0;
}

static int visit_intercept(ENetAddress address) {
    char text[16] = "ask.";
    ENetBuffer all = {text, 4};
    ENetSocket raw = enet_socket_create(ENET_SOCKET_TYPE_DATAGRAM);
    ENetHost *client = begin_client("127.0.0.1", &address);
    NEED(client && until(&client, 1, ENET_EVENT_TYPE_CONNECT, LIMIT_MS) == 0);
    NEED(enet_socket_send(raw, &address, &all, 1) == 4 && can(raw, ENET_SOCKET_WAIT_RECEIVE));
    NEED(enet_socket_receive(raw, NULL, &all, 1) == 4 && !memcmp(text, "told", 4));
    enet_peer_send(&client->peers[0], 0, enet_packet_create("x", 1, ENET_PACKET_FLAG_RELIABLE));
    until(&client, 1, ENET_EVENT_TYPE_DISCONNECT, 100);
    const char *words[] = {"wake", "fail", "rest"};
    for (int i = 0; i < 3; i++) {
        memcpy(text, words[i], 4);
        NEED(enet_socket_send(raw, &address, &all, 1) == 4);
    }
    enet_peer_disconnect_later(&client->peers[0], 0);
    NEED(until(&client, 1, ENET_EVENT_TYPE_DISCONNECT, LIMIT_MS) == 0);
    enet_host_destroy(client);
    enet_socket_destroy(raw);
    return 0;
}

/* -- callbacks around each datagram -- */

static int packed, unpacked, sums;

/* Runs of a byte as its number and the byte; 0 where that isn't shorter. */
static size_t ENET_CALLBACK pack(void *context, const ENetBuffer *buffers, size_t count, size_t length, enet_uint8 *out, size_t room) {
    size_t at = 0, run = 0;
    enet_uint8 last = 0;
    (void)context, (void)length;
    for (size_t i = 0; i < count; i++)
        for (size_t j = 0; j < buffers[i].dataLength; j++) {
            enet_uint8 next = ((const enet_uint8 *)buffers[i].data)[j];
            if (run && (next != last || run == 255)) {
                if (at + 2 > room) return 0;
                out[at++] = (enet_uint8)run;
                out[at++] = last;
                run = 0;
            }
            last = next;
            run++;
        }
    if (at + 2 > room) return 0;
    out[at++] = (enet_uint8)run;
    out[at++] = last;
    packed++;
    return at;
}

static size_t ENET_CALLBACK unpack(void *context, const enet_uint8 *in, size_t length, enet_uint8 *out, size_t room) {
    size_t at = 0;
    (void)context;
    for (size_t i = 0; i + 1 < length; i += 2) {
        if (at + in[i] > room) return 0;
        memset(out + at, in[i + 1], in[i]);
        at += in[i];
    }
    unpacked++;
    return at;
}

static enet_uint32 ENET_CALLBACK sum(const ENetBuffer *buffers, size_t count) {
    sums++;
    return enet_crc32(buffers, count);
}

static int coded;

/* Counts the datagrams that came compressed. */
static int ENET_CALLBACK count_coded(ENetHost *host, ENetEvent *event) {
    (void)event;
    coded += host->receivedDataLength > 0 && host->receivedData[0] & 0x40;
    return 0;
}

static bool packs(const char *which) { return !strcmp(which, "compress") || !strcmp(which, "both"); }

static bool codes(const char *which) { return !strcmp(which, "coder") || !strcmp(which, "all"); }

static bool checks(const char *which) { return strcmp(which, "compress") && strcmp(which, "coder"); }

static bool set_callbacks(ENetHost *host, const char *which) {
    ENetCompressor compressor = {&packed, pack, unpack, NULL};
    if (packs(which)) enet_host_compress(host, &compressor);
    if (checks(which)) host->checksum = sum;
    host->intercept = count_coded;
    return !codes(which) || enet_host_compress_with_range_coder(host) == 0;
}

static bool were_called(const char *which) {
    return (!packs(which) || (packed > 5 && unpacked > 5)) && (!codes(which) || coded > 5) && (!checks(which) || sums > 20);
}

/* With its range coder libenet ends at a packet of no bytes: there the first has one, too. */
static const size_t lengths[] = {0, 1, 3, 40, 1363, 1364, 1385, 1386, 1387, 1388, 1400, 2728, 20000};

enum { LENGTHS = sizeof lengths / sizeof *lengths };

/* A body of long runs, or of none. */
static ENetPacket *body(size_t number, bool is_random, const char *which) {
    if (number == 0 && codes(which)) number = 1;
    ENetPacket *packet = enet_packet_create(NULL, lengths[number], ENET_PACKET_FLAG_RELIABLE);
    for (size_t i = 0; packet && i < lengths[number]; i++)
        packet->data[i] = is_random ? (enet_uint8)(number * 31 + i * 7 + i / 251) : (enet_uint8)(i / 100);
    return packet;
}

static int serve_callbacks(ENetAddress address, const char *which) {
    ENetEvent event;
    ENetHost *host = enet_host_create(&address, 2, 2, 0, 0);
    bool is_over = false;
    NEED(host != NULL && set_callbacks(host, which));
    while (!is_over && lasts()) {
        if (enet_host_service(host, &event, 50) <= 0) continue;
        is_over = event.type == ENET_EVENT_TYPE_DISCONNECT;
        if (event.type != ENET_EVENT_TYPE_RECEIVE) continue;
        enet_peer_send(event.peer, event.channelID, enet_packet_create(event.packet->data, event.packet->dataLength, ENET_PACKET_FLAG_RELIABLE));
        enet_packet_destroy(event.packet);
    }
    enet_host_service(host, NULL, 20);
    NEED(is_over && were_called(which));
    enet_host_destroy(host);
    return 0;
}

static int visit_callbacks(ENetAddress address, const char *which) {
    ENetEvent event;
    ENetHost *client = enet_host_create(NULL, 1, 2, 0, 0);
    NEED(client != NULL && set_callbacks(client, which));
    NEED(enet_host_connect(client, &address, 2, 0) && until(&client, 1, ENET_EVENT_TYPE_CONNECT, LIMIT_MS) == 0);
    for (size_t i = 0; i < LENGTHS; i++)
        for (int channel = 0; channel < 2; channel++) NEED(enet_peer_send(&client->peers[0], (enet_uint8)channel, body(i, channel, which)) == 0);
    size_t came[2] = {0, 0};
    while (came[0] + came[1] < 2 * LENGTHS && lasts()) {
        if (enet_host_service(client, &event, 50) <= 0 || event.type != ENET_EVENT_TYPE_RECEIVE) continue;
        ENetPacket *wanted = body(came[event.channelID]++, event.channelID, which);
        NEED(event.packet->dataLength == wanted->dataLength);
        NEED(wanted->dataLength == 0 || !memcmp(event.packet->data, wanted->data, wanted->dataLength));
        enet_packet_destroy(wanted);
        enet_packet_destroy(event.packet);
    }
    NEED(came[0] == LENGTHS && came[1] == LENGTHS && were_called(which));
    enet_peer_disconnect(&client->peers[0], 0);
    NEED(until(&client, 1, ENET_EVENT_TYPE_DISCONNECT, LIMIT_MS) == 0);
    enet_host_destroy(client);
    return 0;
}

int main(int argc, char **argv) {
    if (argc != 4 || enet_initialize() != 0) return 2;
    ENetAddress address = {.port = (enet_uint16)atoi(argv[3])};
    bool serves = !strcmp(argv[2], "serve");
    begun = enet_time_get();
    if (enet_address_set_host_ip(&address, "127.0.0.1") != 0) return 2;
    if (!strcmp(argv[1], "sockets")) return serves ? serve_sockets(address) : visit_sockets(address);
    if (!strcmp(argv[1], "duplicates")) return serves ? serve_duplicates(address) : visit_duplicates(address);
    if (!strcmp(argv[1], "intercept")) return serves ? serve_intercept(address) : visit_intercept(address);
    return serves ? serve_callbacks(address, argv[1]) : visit_callbacks(address, argv[1]);
}
