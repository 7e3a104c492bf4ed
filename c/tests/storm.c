/* Datagrams of strangers, drawn from a fixed seed, at a host with a compressor, a checksum and an interceptor of the program's: random
 * bytes, datagrams of a good client with some bytes changed, cut or grown, with sums that fit and that don't, from elsewhere and, where the
 * sum doesn't fit, in the client's own name. Meanwhile the client has each of its packets answered, once and in order. `storm [COUNT]`, by
 * default 1,000,000 datagrams; `storm COUNT coder` with the library's range coder in the compressor's place. */
#include <enet/enet.h>
#include <stdbool.h>
#include <stdio.h>
#include <stdlib.h>
#include <string.h>

enum { MOST = 4096, KEPT = 64, EACH = 16, LIMIT_MS = 120000 };

static long failed;

#define CHECK(condition) ((condition) ? (void)0 : (void)(failed++, printf("%s:%d: not so: %s\n", __FILE__, __LINE__, #condition)))

static unsigned long long dice_state = 0x9E3779B97F4A7C15ull;

/* A number below n, by a generator of its own (xorshift). */
static unsigned dice(unsigned n) {
    dice_state ^= dice_state << 13;
    dice_state ^= dice_state >> 7;
    dice_state ^= dice_state << 17;
    return (unsigned)(dice_state >> 33) % n;
}

static ENetHost *server, *client;
static ENetAddress to;
static long seen;

/* The last datagrams that came from the client. */
static struct {
    size_t length;
    enet_uint8 bytes[MOST];
} kept[KEPT];
static unsigned next_kept, kept_count;
static bool keeps = true;

static int ENET_CALLBACK intercept(ENetHost *host, ENetEvent *event) {
    (void)event;
    seen++;
    if (keeps && host->receivedAddress.port == client->address.port && host->receivedDataLength <= MOST) {
        kept[next_kept].length = host->receivedDataLength;
        memcpy(kept[next_kept].bytes, host->receivedData, host->receivedDataLength);
        next_kept = (next_kept + 1) % KEPT;
        if (kept_count < KEPT) kept_count++;
    }
    return host->receivedDataLength == 77 && host->receivedAddress.port != client->address.port;
}

/* Each byte is turned over, and the last one of a run is left out: shorter for runs alone. */
static size_t ENET_CALLBACK pack(void *context, const ENetBuffer *buffers, size_t count, size_t length, enet_uint8 *out, size_t room) {
    const enet_uint8 *in = buffers[0].data;
    (void)context;
    if (count != 1 || buffers[0].dataLength != length || length < 8 || room < length) return dice(2) ? 0 : (size_t)-1;
    for (size_t i = length - 4; i < length; i++)
        if (in[i] != in[length - 1]) return 0;
    for (size_t i = 0; i < length - 3; i++) out[i] = (enet_uint8)~in[i];
    return length - 3;
}

/* The way back; for some bytes an answer that no host may believe. */
static size_t ENET_CALLBACK unpack(void *context, const enet_uint8 *in, size_t length, enet_uint8 *out, size_t room) {
    (void)context;
    if (length && in[0] == 0xEE) return length > 9 ? (size_t)-1 : room + 1;
    if (length < 5 || length + 3 > room) return 0;
    for (size_t i = 0; i < length; i++) out[i] = (enet_uint8)~in[i];
    memset(out + length, (enet_uint8)~in[length - 1], 3);
    return length + 3;
}

static void set_callbacks(ENetHost *host, bool codes) {
    static char context;
    ENetCompressor compressor = {&context, pack, unpack, NULL};
    if (codes) CHECK(enet_host_compress_with_range_coder(host) == 0);
    else enet_host_compress(host, &compressor);
    host->checksum = enet_crc32;
}

/* Draws a datagram. */
static void draw(enet_uint8 *bytes, size_t *length) {
    unsigned way = dice(4);
    if (way == 0 || !kept_count) {
        *length = dice(8) ? dice(120) : dice(MOST + 100);
        for (size_t i = 0; i < *length; i++) bytes[i] = (enet_uint8)dice(256);
        if (*length > 1 && dice(2)) bytes[0] &= 0xF0, bytes[1] &= 7; /* a slot that is there */
        return;
    }
    unsigned which = dice(kept_count);
    *length = kept[which].length;
    memcpy(bytes, kept[which].bytes, *length);
    for (unsigned n = dice(6); n-- > 0 && *length;) bytes[dice((unsigned)*length)] = (enet_uint8)dice(256);
    if (way == 1 && *length) *length = dice((unsigned)*length);
    if (way == 2) {
        size_t more = dice(40);
        for (size_t i = 0; i < more; i++) bytes[*length + i] = (enet_uint8)dice(256);
        *length += more;
    }
    if (dice(3) || *length < 8) return;
    /* A sum that fits, for a CONNECT or for any slot with connect id 0; what is compressed has none. */
    size_t head = bytes[0] & 0x80 ? 4 : 2;
    memset(bytes + head, 0, 4);
    ENetBuffer all = {bytes, *length};
    enet_uint32 sum = enet_crc32(&all, 1);
    memcpy(bytes + head, &sum, 4);
}

/* Whether a datagram is one of the client's own, with nothing changed. */
static bool is_own(const enet_uint8 *bytes, size_t length) {
    for (unsigned i = 0; i < kept_count; i++)
        if (kept[i].length == length && !memcmp(kept[i].bytes, bytes, length)) return true;
    return false;
}

static enet_uint32 sent, answered;

static void serve(void) {
    ENetEvent event;
    while (enet_host_service(server, &event, 0) > 0) {
        if (event.type == ENET_EVENT_TYPE_RECEIVE) {
            ENetPacket *answer = enet_packet_create(event.packet->data, event.packet->dataLength, ENET_PACKET_FLAG_RELIABLE);
            if (enet_peer_send(event.peer, 0, answer) != 0) enet_packet_destroy(answer);
            enet_packet_destroy(event.packet);
        }
    }
    while (enet_host_service(client, &event, 0) > 0) {
        CHECK(event.type != ENET_EVENT_TYPE_DISCONNECT);
        if (event.type != ENET_EVENT_TYPE_RECEIVE) continue;
        enet_uint32 number = 0;
        CHECK(event.packet->dataLength >= sizeof number);
        memcpy(&number, event.packet->data, sizeof number);
        CHECK(number == answered);
        answered++;
        enet_packet_destroy(event.packet);
    }
}

static void ask(void) {
    static enet_uint8 body[3000];
    memcpy(body, &sent, sizeof sent);
    ENetPacket *packet = enet_packet_create(body, 4 + sent * 37 % 2900, ENET_PACKET_FLAG_RELIABLE);
    bool is_taken = enet_peer_send(&client->peers[0], 0, packet) == 0;
    CHECK(is_taken);
    if (is_taken) sent++;
    else enet_packet_destroy(packet);
}

/* Serves until each packet has its answer, and the client is connected. */
static void settle(void) {
    enet_uint32 begun = enet_time_get();
    do serve();
    while ((answered < sent || !client->connectedPeers || !server->connectedPeers) && enet_time_get() - begun < LIMIT_MS);
    CHECK(answered == sent && client->connectedPeers == 1 && server->connectedPeers >= 1);
}

int main(int argc, char **argv) {
    static enet_uint8 bytes[2 * MOST];
    long count = argc > 1 ? atol(argv[1]) : 1000000;
    if (enet_initialize() != 0) return 2;
    ENetAddress home = {.port = ENET_PORT_ANY};
    enet_address_set_host_ip(&home, "127.0.0.1");
    server = enet_host_create(&home, 8, 2, 0, 0);
    client = enet_host_create(&home, 1, 2, 0, 0);
    ENetSocket stranger = enet_socket_create(ENET_SOCKET_TYPE_DATAGRAM);
    if (!server || !client || stranger == ENET_SOCKET_NULL) return 2;
    set_callbacks(server, argc > 2);
    set_callbacks(client, argc > 2);
    server->intercept = intercept;
    to = server->address;
    if (!enet_host_connect(client, &to, 2, 0)) return 2;
    settle();
    for (int i = 0; i < 20; i++) ask(), settle();
    keeps = false;
    for (long i = 0; i < count; i++) {
        ENetBuffer all = {bytes, 0};
        draw(bytes, &all.dataLength);
        bool is_named = !dice(3) && !is_own(bytes, all.dataLength) && all.dataLength > 4;
        if (is_named && all.dataLength >= 8) {
            /* In the client's name, with a sum that doesn't fit. */
            size_t head = bytes[0] & 0x80 ? 4 : 2;
            memset(bytes + head, 0x5A, 4);
        }
        enet_socket_send(is_named ? client->socket : stranger, &to, &all, 1);
        if (i % EACH == 0) serve();
        if (i % 500 == 0) ask();
    }
    settle();
    CHECK(sent > count / 500 && seen > count / 2);
    printf("storm: %ld datagrams, %s\n", count, failed ? "the client was disturbed" : "the client had all its answers");
    enet_host_destroy(client);
    enet_host_destroy(server);
    enet_socket_destroy(stranger);
    return failed ? 1 : 0;
}
