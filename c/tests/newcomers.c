/* Whom a host of the layer lets in while strangers' CONNECTs come, over a network and a clock in memory (memory_net.h):
 * - one that finds no free slot takes that of the connection which waits longest for its client, without an event;
 * - no connected peer gives way, and nobody does for a connection that the program asks for;
 * - so it is also where the program wasn't told yet of a peer's end, and where it uses fewer slots than there are (peerCount). */
#include "../gofnjerta.h"
#include "memory_net.h"
#include <arpa/inet.h>
#include <enet/enet.h>
#include <string.h>
#include "check.h"

/* Strangers have ports below those of sockets. A connection that nobody confirms stays for WAIT_MS, and is looked for 10 ms apart. */
enum { CLIENTS = 4, NOBODY = -1, SILENT = 9, OFFER_LENGTH = 48, ANSWER_LENGTH = 44, FLOOD = 1000, WAIT_MS = 7500, STEP_MS = 10 };

static ENetHost *server, *clients[CLIENTS];
static ENetPeer *guests[CLIENTS]; /* the server's peers, by the number that their clients told */
static int connects, disconnects, heard, refused;
static bool asks; /* the server's program asks for events */

static void note(const ENetEvent *event) {
    connects += event->type == ENET_EVENT_TYPE_CONNECT;
    disconnects += event->type == ENET_EVENT_TYPE_DISCONNECT;
    heard += event->type == ENET_EVENT_TYPE_RECEIVE;
    if (event->type == ENET_EVENT_TYPE_CONNECT && event->data < CLIENTS) guests[event->data] = event->peer;
    if (event->type == ENET_EVENT_TYPE_RECEIVE) enet_packet_destroy(event->packet);
}

static void serve(ENetHost *host) {
    ENetEvent event;
    int told;
    while ((told = enet_host_service(host, asks || host != server ? &event : NULL, 0)) > 0) {
        if (host == server) note(&event);
        else if (event.type == ENET_EVENT_TYPE_RECEIVE) enet_packet_destroy(event.packet);
    }
    refused += told < 0;
}

/* All that flies comes, and all hosts are served, so many times, STEP_MS apart. */
static void pump(int rounds) {
    for (; rounds > 0; rounds--) {
        serve(server);
        for (int i = 0; i < CLIENTS; i++) serve(clients[i]);
        while (net_flying()) net_bring(0);
        net_go_on(STEP_MS);
    }
}

static ENetAddress home(void) {
    ENetAddress at = {.port = ENET_PORT_ANY};
    enet_address_set_host_ip(&at, "127.0.0.1");
    return at;
}

static void begin(size_t slots) {
    const ENetAddress at = home();
    net_begin(5000, false);
    server = enet_host_create(&at, slots, 2, 0, 0);
    for (int i = 0; i < CLIENTS; i++) clients[i] = enet_host_create(NULL, 1, 2, 0, 0);
    memset(guests, 0, sizeof guests);
    connects = disconnects = heard = refused = 0;
    asks = true;
}

static void finish(void) {
    CHECK(refused == 0);
    for (int i = 0; i < CLIENTS; i++) enet_host_destroy(clients[i]);
    enet_host_destroy(server);
    net_begin(0, false);
}

static void ask(int i) {
    const ENetAddress at = server->address;
    CHECK(enet_host_connect(clients[i], &at, 2, (enet_uint32)i));
    pump(6);
}

/* A client asks, and gets the server's slot of this number. */
static void join(int i, int slot) {
    ask(i);
    CHECK(guests[i] == &server->peers[slot] && guests[i]->state == ENET_PEER_STATE_CONNECTED);
}

/* The slot that an answer to a CONNECT names, the first that flies to a port; NOBODY where none does. All that flies there is gone then. */
static int take_answer(uint16_t port) {
    int slot = NOBODY;
    for (size_t i = 0; i < net_flying();) {
        const NetDatagram *flight = net_flight(i);
        const uint8_t *at = flight->bytes;
        if (flight->to != port) {
            i++;
            continue;
        }
        if (slot == NOBODY && flight->length >= 4 + ANSWER_LENGTH && at[0] & 0x80 && (at[4] & 0xF) == ENET_PROTOCOL_COMMAND_VERIFY_CONNECT)
            slot = at[8] << 8 | at[9];
        net_drop(i);
    }
    return slot;
}

/* A stranger's CONNECT comes from a port, a while after the one before. In which slot it is answered. */
static int knock(uint16_t port) {
    const ENetProtocolConnect offer = {
        {0x82, 0xFF, htons(1)}, 0, 0xFF, 0xFF, htonl(1392), htonl(65536), htonl(2), 0, 0, htonl(5000), htonl(2), htonl(2), port, 0};
    uint8_t bytes[4 + OFFER_LENGTH] = {0x8F, 0xFF};
    memcpy(bytes + 4, &offer, OFFER_LENGTH);
    net_go_on(STEP_MS);
    net_throw(port, server->address.port, bytes, sizeof bytes);
    serve(server);
    return take_answer(port);
}

/* A packet of the client's comes to the server. */
static void is_heard(int i) {
    int before = heard;
    CHECK(enet_peer_send(&clients[i]->peers[0], 0, enet_packet_create("x", 1, ENET_PACKET_FLAG_RELIABLE)) == 0);
    pump(3);
    CHECK(heard == before + 1 && guests[i]->state == ENET_PEER_STATE_CONNECTED);
}

/* The slots of the connections that wait give way in turn, to strangers as to a client. */
static void oldest(void) {
    begin(4);
    join(0, 0);
    join(1, 1);
    CHECK(knock(100) == 2 && knock(101) == 3 && knock(102) == 2 && knock(103) == 3 && knock(104) == 2);
    const ENetPeer *waiting = &server->peers[3];
    CHECK(waiting->state == ENET_PEER_STATE_DISCONNECTED && waiting->connectID == 0 && waiting->outgoingDataTotal == 0);
    CHECK(connects == 2 && server->connectedPeers == 2);
    join(2, 3);
    CHECK(connects == 3 && disconnects == 0 && server->connectedPeers == 3);
    /* What those say who gave way is nobody's. */
    const uint8_t words[] = {0, 3, 0x81, 0xFF, 0, 1, 0, 1, 0, 1};
    net_throw(101, server->address.port, words, sizeof words);
    for (int i = 0; i < 3; i++) is_heard(i);
    finish();
}

/* A flood takes the slot of nobody who is connected, and a client gets in behind it. A host whose slots are all connected is silent. */
static void flood(void) {
    int answered = 0;
    begin(4);
    for (int i = 0; i < 3; i++) join(i, i);
    for (int n = 0; n < FLOOD; n++) {
        answered += knock((uint16_t)(SILENT + 1 + n % 900)) == 3;
        if (n % 10 == 0) pump(1);
    }
    CHECK(answered == FLOOD && connects == 3 && disconnects == 0);
    for (int i = 0; i < 3; i++) is_heard(i);
    join(3, 3);
    CHECK(connects == 4 && disconnects == 0 && server->connectedPeers == 4);
    for (uint16_t n = 0; n < 100; n++) CHECK(knock((uint16_t)(SILENT + 1 + n)) == NOBODY);
    for (int i = 0; i < 4; i++) is_heard(i);
    enet_peer_disconnect_now(guests[1], 0);
    pump(1);
    CHECK(knock(100) == 1 && knock(101) == 1);
    finish();
}

/* Nobody gives way for the program's own connection, which gets a slot once one is free. */
static void own(void) {
    ENetAddress to = home();
    to.port = SILENT;
    begin(2);
    CHECK(knock(100) == 0 && knock(101) == 1);
    CHECK(enet_host_connect(server, &to, 1, 0) == NULL);
    CHECK(knock(102) == 0);
    pump(WAIT_MS / STEP_MS + 2);
    CHECK(enet_host_connect(server, &to, 1, 0) == &server->peers[0] && connects == 0 && disconnects == 0);
    CHECK(knock(103) == 1 && knock(104) == 1);
    finish();
}

/* The slots of peers of whose end the program wasn't told are nobody's, also where nobody else can give way. */
static void untold(void) {
    begin(4);
    for (int i = 0; i < 3; i++) join(i, i);
    asks = false;
    enet_peer_disconnect(&clients[0]->peers[0], 5);
    pump(3);
    CHECK(guests[0]->state == ENET_PEER_STATE_ZOMBIE);
    CHECK(knock(100) == 3 && knock(101) == 3 && knock(102) == 3);
    enet_peer_disconnect(&clients[1]->peers[0], 5);
    pump(3);
    CHECK(guests[1]->state == ENET_PEER_STATE_ZOMBIE);
    CHECK(knock(103) == 3 && knock(104) == 3);
    ask(3);
    CHECK(server->peers[3].state == ENET_PEER_STATE_CONNECTION_PENDING && server->connectedPeers == 1);
    CHECK(knock(105) == NOBODY && knock(106) == NOBODY);
    CHECK(guests[0]->state == ENET_PEER_STATE_ZOMBIE && connects == 3 && disconnects == 0);
    asks = true;
    pump(2);
    CHECK(connects == 4 && disconnects == 2 && guests[3] == &server->peers[3] && server->connectedPeers == 2);
    CHECK(knock(107) == 0 && knock(108) == 1 && knock(109) == 0);
    is_heard(2);
    is_heard(3);
    finish();
}

/* Of four slots the program uses fewer: the others are nobody's, until it uses them again. */
static void lowered(void) {
    begin(4);
    join(0, 0);
    server->peerCount = 2;
    CHECK(knock(100) == 1 && knock(101) == 1 && knock(102) == 1);
    join(1, 1);
    CHECK(knock(103) == NOBODY);
    server->peerCount = 4;
    CHECK(knock(104) == 2 && knock(105) == 3 && knock(106) == 2);
    server->peerCount = 3;
    CHECK(knock(107) == NOBODY); /* while the peer in slot 3 waits, nobody gives way */
    for (uint16_t n = 0; n < WAIT_MS / 50; n++) {
        knock((uint16_t)(200 + n));
        net_go_on(30);
        pump(1);
    }
    CHECK(knock(108) == 2 && knock(109) == 2 && knock(110) == 2);
    server->peerCount = 1;
    CHECK(knock(111) == NOBODY);
    is_heard(0);
    server->peerCount = 0;
    CHECK(knock(112) == NOBODY);
    finish();
}

/* A peer beyond those that the program uses ends: its slot is nobody's. */
static void ends_beyond(void) {
    begin(4);
    for (int i = 0; i < 4; i++) join(i, i);
    enet_peer_disconnect_now(guests[0], 0);
    server->peerCount = 1;
    CHECK(knock(100) == 0 && knock(101) == 0);
    enet_peer_disconnect_now(guests[1], 0);
    CHECK(knock(102) == 0 && knock(103) == 0);
    enet_peer_disconnect(guests[2], 0);
    CHECK(knock(104) == 0 && guests[2]->state == ENET_PEER_STATE_DISCONNECTING);
    enet_peer_reset(guests[2]);
    CHECK(knock(105) == 0 && knock(106) == 0);
    pump(2 * WAIT_MS / STEP_MS);
    CHECK(disconnects == 1 && knock(107) == 0 && knock(108) == 0);
    server->peerCount = 4;
    CHECK(knock(109) == 1 && knock(110) == 2 && knock(111) == 3 && knock(112) == 0);
    CHECK(connects == 4 && disconnects == 1 && server->connectedPeers == 0);
    finish();
}

int main(void) {
    oldest();
    flood();
    own();
    untold();
    lowered();
    ends_beyond();
    return ended("newcomers");
}
