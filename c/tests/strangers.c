/* What strangers' datagrams and the errors of one destination do to a host of the layer, over a network and a clock in memory (memory_net.h):
 * - what comes from port 0 isn't taken in;
 * - an error of one destination loses what goes there alone; only by one of the socket's own enet_host_service answers -1;
 * - a compressed datagram that names no slot is opened into 64 bytes at most, and 1,000 of them in a second; one that names a slot only with
 *   that slot's address and session, whatever came before it;
 * - a callback that asks for the host to be flushed in the middle of a datagram disturbs none;
 * - nobody can tell a connect id from the one before. */
#include "../gofnjerta.h"
#include "memory_net.h"
#include <arpa/inet.h>
#include <enet/enet.h>
#include <errno.h>
#include <string.h>
#include "check.h"

enum { CLIENTS = 2, PEERS = 8, STRANGER = 7, OFFER_LENGTH = 48, LONGEST = 4096, LIMIT = 64, EACH_SECOND = 1000, BATCH = 250 };

static ENetHost *server, *clients[CLIENTS];
static ENetPeer *guests[CLIENTS]; /* the server's peers */
static unsigned asked, heard[CLIENTS], refused, intercepted;

/* How often the compressor of the test's own was asked to open something since it was looked at; the last time into how many bytes at most,
 * and how many it opened. */
static unsigned opened;
static size_t last_room, last_size;
static bool flushes; /* it asks for the host to be flushed while it codes */

/* A host's events; `which` is the client's number. */
static void serve(ENetHost *host, int which) {
    ENetEvent event;
    int told;
    while ((told = enet_host_service(host, &event, 0)) > 0) {
        for (int i = 0; i < CLIENTS && which < 0; i++)
            if (event.type == ENET_EVENT_TYPE_CONNECT && event.data == (enet_uint32)i) guests[i] = event.peer;
        if (event.type != ENET_EVENT_TYPE_RECEIVE) continue;
        if (which < 0) asked++;
        else heard[which]++;
        enet_packet_destroy(event.packet);
    }
    refused += told < 0;
}

/* All that flies comes, and all hosts are served, so many times, 10 ms apart. */
static void pump(int rounds) {
    for (; rounds > 0; rounds--) {
        serve(server, -1);
        for (int i = 0; i < CLIENTS; i++) serve(clients[i], i);
        while (net_flying()) net_bring(0);
        net_go_on(10);
    }
}

static void join(int i) {
    ENetAddress to = server->address;
    enet_host_connect(clients[i], &to, 2, (enet_uint32)i);
    guests[i] = NULL;
    pump(6);
    CHECK(guests[i] && guests[i]->state == ENET_PEER_STATE_CONNECTED);
}

/* A server and its clients, of which each is dressed. */
static void begin(void (*dress)(ENetHost *host)) {
    ENetAddress home = {.port = ENET_PORT_ANY};
    enet_address_set_host_ip(&home, "127.0.0.1");
    net_begin(5000, true);
    flushes = false;
    server = enet_host_create(&home, PEERS, 2, 0, 0);
    if (dress) dress(server);
    for (int i = 0; i < CLIENTS; i++) {
        clients[i] = enet_host_create(NULL, 1, 2, 0, 0);
        if (dress) dress(clients[i]);
    }
    for (int i = 0; i < CLIENTS; i++) join(i);
    pump(5);
    asked = refused = intercepted = opened = 0;
    memset(heard, 0, sizeof heard);
}

static void finish(void) {
    for (int i = 0; i < CLIENTS; i++) enet_host_destroy(clients[i]);
    enet_host_destroy(server);
    net_begin(0, false);
}

static void give(ENetPeer *peer, size_t length) {
    static const uint8_t body[LONGEST];
    ENetPacket *packet = enet_packet_create(body, length, ENET_PACKET_FLAG_RELIABLE);
    CHECK(packet && enet_peer_send(peer, 0, packet) == 0);
}

/* A CONNECT with nothing before it. */
static void put_offer(uint8_t *at) {
    const ENetProtocolConnect offer = {
        {0x82, 0xFF, htons(1)}, 0, 0xFF, 0xFF, htonl(1392), htonl(65536), htonl(2), 0, 0, htonl(5000), htonl(2), htonl(2), htonl(0x12345678), 0};
    memcpy(at, &offer, OFFER_LENGTH);
}

static int ENET_CALLBACK count_one(ENetHost *host, ENetEvent *event) {
    (void)host, (void)event;
    intercepted++;
    return 0;
}

static void port_zero(void) {
    uint8_t offer[4 + OFFER_LENGTH] = {0x8F, 0xFF};
    put_offer(offer + 4);
    begin(NULL);
    uint64_t moment = net_moment();
    enet_uint32 packets = server->totalReceivedPackets;
    server->intercept = count_one;
    for (int i = 0; i < 200; i++) net_throw(0, server->address.port, offer, sizeof offer);
    serve(server, -1);
    CHECK(net_moment() == moment && server->totalReceivedPackets == packets && intercepted == 0 && refused == 0);
    net_throw(STRANGER, server->address.port, offer, sizeof offer);
    serve(server, -1);
    CHECK(net_moment() == moment + 1 && intercepted == 1);
    finish();
}

/* A destination that fails with this number loses what goes to it, and gets it once it doesn't. */
static void fails_alone(int number) {
    unsigned first = heard[0], second = heard[1];
    net_fail_to(guests[0]->address.port, number, number);
    give(guests[0], 100);
    give(guests[1], 100);
    pump(3);
    CHECK(heard[0] == first && heard[1] == second + 1 && refused == 0);
    net_fail_to(0, 0, 0);
    pump(150);
    CHECK(heard[0] == first + 1 && heard[1] == second + 1 && refused == 0);
}

static void failures(void) {
    static const int losses[] = {EAGAIN, EINTR, ENOBUFS, ENOMEM, EMSGSIZE, EINVAL, EPERM, EACCES, EADDRNOTAVAIL, ECONNREFUSED, EHOSTUNREACH,
                                 ENETUNREACH, ENETDOWN};
    static const int passing[] = {EINTR, ENOMEM, ENOBUFS, EMSGSIZE, ENONET, EPROTO, ENOPROTOOPT, EHOSTDOWN, ETIMEDOUT, ECONNREFUSED, ECONNRESET,
                                  ECONNABORTED, EHOSTUNREACH, ENETUNREACH, ENETDOWN};
    begin(NULL);
    for (size_t i = 0; i < sizeof losses / sizeof *losses; i++) fails_alone(losses[i]);
    for (size_t i = 0; i < sizeof passing / sizeof *passing; i++) {
        unsigned before = asked;
        give(&clients[0]->peers[0], 10);
        serve(clients[0], 0);
        while (net_flying()) net_bring(0);
        net_fail(NET_RECEIVE, 3, passing[i]);
        serve(server, -1);
        CHECK(asked == before + 1 && refused == 0);
        pump(2);
    }
    net_fail(NET_RECEIVE, 1, EBADF);
    serve(server, -1);
    CHECK(refused == 1);
    give(guests[0], 10);
    net_fail(NET_SEND, 1, ENOTSOCK);
    serve(server, -1);
    CHECK(refused == 2);
    finish();
}

/* A run of zeros becomes a 0 and how many there are. */
static size_t code_of(const uint8_t *in, size_t length, uint8_t *out, size_t room) {
    size_t size = 0;
    for (size_t i = 0, run; i < length; i += run) {
        for (run = 1; in[i] == 0 && run < 255 && i + run < length && in[i + run] == 0; run++) continue;
        if (size + 2 > room) return 0;
        out[size++] = in[i];
        if (in[i] == 0) out[size++] = (uint8_t)run;
    }
    return size;
}

static size_t ENET_CALLBACK pack(void *context, const ENetBuffer *buffers, size_t count, size_t length, enet_uint8 *out, size_t room) {
    (void)context;
    if (flushes) enet_host_flush(server);
    return count == 1 ? code_of(buffers->data, length, out, room) : 0;
}

static size_t ENET_CALLBACK unpack(void *context, const enet_uint8 *in, size_t length, enet_uint8 *out, size_t room) {
    size_t size = 0;
    (void)context;
    opened++;
    last_room = room;
    last_size = 0;
    for (size_t i = 0, step, run; i < length; i += step) {
        step = in[i] ? 1 : 2;
        run = in[i] ? 1 : i + 1 < length ? in[i + 1] : 0;
        if (run == 0 || run > room - size) return 0;
        memset(out + size, in[i], run);
        size += run;
    }
    return last_size = size;
}

static void dress_own(ENetHost *host) {
    static char context;
    const ENetCompressor own = {&context, pack, unpack, NULL};
    enet_host_compress(host, &own);
}

static void dress_summed(ENetHost *host) {
    dress_own(host);
    host->checksum = enet_crc32;
}

static void dress_coder(ENetHost *host) { CHECK(enet_host_compress_with_range_coder(host) == 0); }

/* A code of so many bytes comes from a port to the server, in a datagram with this first word. */
static void throw_code(uint16_t from, unsigned word, const uint8_t *code, size_t size) {
    uint8_t bytes[LONGEST] = {(uint8_t)(word >> 8 | 0xC0), (uint8_t)word};
    memcpy(bytes + 4, code, size);
    net_throw(from, server->address.port, bytes, 4 + size);
}

/* The code of a CONNECT and so many zeros, by the test's compressor. */
static void throw_offer(size_t zeros) {
    uint8_t body[LONGEST] = {0}, code[LONGEST];
    put_offer(body);
    throw_code(STRANGER, 0xFFF, code, code_of(body, OFFER_LENGTH + zeros, code, sizeof code));
}

/* How often the server's compressor was asked to open something, since it was looked at, where it is served now; the datagrams that it sent. */
static unsigned opened_now(unsigned *sent) {
    uint64_t moment = net_moment();
    opened = 0;
    serve(server, -1);
    if (sent) *sent = (unsigned)(net_moment() - moment);
    return opened;
}

/* Strangers' codes: what opens to more than 64 bytes does nothing. */
static void offers(void) {
    static const uint8_t junk[LIMIT] = {1};
    unsigned sent;
    begin(dress_own);
    throw_offer(LIMIT - OFFER_LENGTH + 1);
    CHECK(opened_now(&sent) == 1 && last_room == LIMIT && last_size == 0 && sent == 0);
    throw_offer(LIMIT - OFFER_LENGTH);
    CHECK(opened_now(&sent) == 1 && last_room == LIMIT && last_size == LIMIT && sent == 0); /* the host takes a CONNECT alone */
    throw_code(STRANGER, 0xFFF, junk, LIMIT);
    CHECK(opened_now(&sent) == 0 && sent == 0);
    throw_code(STRANGER, 0xFFF, junk, LIMIT - 1);
    CHECK(opened_now(&sent) == 1 && last_room == LIMIT && sent == 0);
    throw_offer(0);
    CHECK(opened_now(&sent) == 1 && last_room == LIMIT && last_size == OFFER_LENGTH && sent == 1);
    finish();
}

/* So many of a stranger's codes that open to nothing come, and are opened as often as is wanted. */
static void flood(unsigned count, unsigned wanted) {
    static const uint8_t junk[] = {0};
    unsigned sum = 0;
    for (unsigned i = 0; i < count; i++) {
        throw_code(STRANGER, 0xFFF, junk, sizeof junk);
        if (i % BATCH == BATCH - 1 || i + 1 == count) sum += opened_now(NULL);
    }
    CHECK(sum == wanted);
}

/* A packet of a client's comes to the server, and is opened. */
static void is_heard(int i) {
    unsigned before = asked;
    give(&clients[i]->peers[0], 200);
    serve(clients[i], i);
    while (net_flying()) net_bring(0);
    CHECK(opened_now(NULL) == 1 && asked == before + 1 && last_room > LIMIT);
}

/* A thousand in a second, by the clock of the host; slots go on as ever. */
static void thousand(void) {
    unsigned sent;
    begin(dress_own);
    net_go_on(1000);
    flood(400, 400);
    net_go_on(600);
    flood(EACH_SECOND - 400, EACH_SECOND - 400);
    throw_offer(0);
    CHECK(opened_now(&sent) == 0 && sent == 0);
    for (int i = 0; i < CLIENTS; i++) is_heard(i);
    net_go_on(399);
    flood(3, 0);
    net_go_on(1);
    throw_offer(0);
    CHECK(opened_now(&sent) == 1 && sent >= 1);
    flood(EACH_SECOND, 399);
    net_go_on(599);
    flood(2, 0);
    net_go_on(1);
    flood(EACH_SECOND, EACH_SECOND - 400);
    is_heard(0);
    finish();
}

/* Codes that name a slot: by its address and session alone. */
static void slots(void) {
    static const uint8_t junk[4000] = {0, 0};
    begin(dress_own);
    uint16_t port = guests[0]->address.port, other = guests[1]->address.port;
    unsigned own = guests[0]->incomingPeerID, session = guests[0]->incomingSessionID;
    const unsigned words[] = {own | ((session + 1) & 3) << 12, own | ((session + 2) & 3) << 12, own | ((session + 3) & 3) << 12,
                              5 | session << 12, PEERS | session << 12, 0xFFE};
    for (size_t i = 0; i < sizeof words / sizeof *words; i++) throw_code(port, words[i], junk, sizeof junk);
    throw_code(other, own | session << 12, junk, sizeof junk);
    throw_code(STRANGER, own | session << 12, junk, sizeof junk);
    CHECK(opened_now(NULL) == 0);
    for (int n = 0; n < 5; n++) {
        for (int i = 0; i < 250; i++) throw_code(port, own | session << 12, junk, sizeof junk);
        CHECK(opened_now(NULL) == 250 && last_room == LONGEST - 4);
    }
    is_heard(0);
    is_heard(1);
    enet_peer_disconnect_now(guests[0], 0);
    throw_code(port, own | session << 12, junk, sizeof junk);
    CHECK(opened_now(NULL) == 0);
    finish();
}

/* Codes with a checksum before them have as much room. */
static void summed(void) {
    static const uint8_t junk[4 + LIMIT] = {0};
    begin(dress_summed);
    throw_code(STRANGER, 0xFFF, junk, 4 + LIMIT);
    CHECK(opened_now(NULL) == 0);
    throw_code(STRANGER, 0xFFF, junk, 4 + LIMIT - 1);
    CHECK(opened_now(NULL) == 1 && last_room == LIMIT);
    is_heard(0);
    finish();
}

/* The same by the range coder: a CONNECT begins a connection, and one of 100 bytes, whose code is as short, doesn't. */
static void coded(void) {
    uint8_t body[100] = {0}, code[100];
    void *coder = enet_range_coder_create();
    begin(dress_coder);
    put_offer(body);
    for (int way = 0; way < 2; way++) {
        const ENetBuffer whole = {body, way ? OFFER_LENGTH : sizeof body};
        uint64_t moment = net_moment();
        size_t size = enet_range_coder_compress(coder, &whole, 1, whole.dataLength, code, sizeof code);
        CHECK(size > 0 && size < LIMIT);
        throw_code(STRANGER, 0xFFF, code, size);
        serve(server, -1);
        CHECK(net_moment() == moment + way);
    }
    for (int i = 0; i < CLIENTS; i++) give(guests[i], 1000);
    pump(3);
    CHECK(heard[0] == 1 && heard[1] == 1);
    enet_range_coder_destroy(coder);
    finish();
}

/* The compressor has the host flushed, while datagrams of several peers are gathered. */
static void flushed(void) {
    begin(dress_own);
    flushes = true;
    for (int n = 0; n < 20; n++)
        for (int i = 0; i < CLIENTS; i++) give(guests[i], 700);
    uint64_t moment = net_moment();
    serve(server, -1);
    CHECK(net_moment() > moment + 10);
    for (size_t i = 0; i < net_flying(); i++)
        CHECK(net_flight(i)->length > 4 && (net_flight(i)->to == guests[0]->address.port || net_flight(i)->to == guests[1]->address.port));
    pump(20);
    CHECK(heard[0] == 20 && heard[1] == 20 && refused == 0);
    finish();
}

/* The id of a new connection to nobody. */
static uint32_t next_id(void) {
    ENetAddress to = {.port = STRANGER};
    enet_address_set_host_ip(&to, "127.0.0.1");
    ENetPeer *peer = enet_host_connect(server, &to, 1, 0);
    CHECK(peer);
    return peer ? ntohl(peer->connectID) : 0;
}

static void ids(void) {
    begin(NULL);
    uint32_t first = next_id(), second = next_id();
    CHECK(second - first > 1 && first - second > 1);
    net_fail(NET_DRAW, 2, ENOSYS);
    uint32_t third = next_id(), fourth = next_id();
    CHECK(third - second > 1 && third - first > 1 && fourth == third + 1);
    CHECK(next_id() - fourth > 1);
    finish();
}

int main(void) {
    port_zero();
    failures();
    offers();
    thousand();
    slots();
    summed();
    coded();
    flushed();
    ids();
    return ended("strangers");
}
