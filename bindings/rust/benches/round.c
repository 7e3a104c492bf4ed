/* A game's rounds over gofnjerta.h, as round.rs makes them over the crate: `round SHAPE CLIENTS PACKETS BYTES FLAGS ROUNDS`. A server and
   its clients are in memory. In each round each client submits so many packets, and the server submits each of them back (SHAPE `echo`), or
   to all (`relay`). FLAGS is 1 for reliable packets, 8 for others. Both programs make the same calls on the same datagrams, and print the
   same line: how many packets and bytes the clients took, the sum of each packet's first and last byte, and how many datagrams went
   through the server. scripts/by-hand/count-rust.sh counts the instructions of both. */
#include <gofnjerta.h>
#include <stdio.h>
#include <stdlib.h>
#include <string.h>

enum { MOST = 64, CHANNELS = 2, MS = 16, SERVER = 0x0A000001, PORT = 7777 };

static gofnjerta_host server, clients[MOST];
static gofnjerta_peer there[MOST], players[MOST];
static size_t count, players_in;
static uint8_t bytes[65536], room[GOFNJERTA_ROOM];
static uint64_t packets_taken, bytes_taken, sum;

static void hold(uint32_t answer) {
    if (answer == 0) return;
    fprintf(stderr, "%s\n", gofnjerta_error_name(answer));
    exit(1);
}

static gofnjerta_address address_of(size_t client) {
    gofnjerta_address at = {SERVER + 1 + (uint32_t)client, PORT};
    return at;
}

/* The clients' datagrams go to the server. */
static void carry_up(void) {
    gofnjerta_datagram out;
    for (size_t i = 0; i < count; i++) {
        for (;;) {
            hold(gofnjerta_service(&clients[i], room, sizeof room, &out));
            if (out.length == 0) break;
            hold(gofnjerta_receive(&server, address_of(i), room, out.length, NULL));
        }
    }
}

/* The server's datagrams go to the clients. */
static void carry_down(void) {
    gofnjerta_datagram out;
    gofnjerta_address from = {SERVER, PORT};
    for (;;) {
        hold(gofnjerta_service(&server, room, sizeof room, &out));
        if (out.length == 0) break;
        hold(gofnjerta_receive(&clients[out.to.ip - SERVER - 1], from, room, out.length, NULL));
    }
}

/* What came to the server goes back to its sender, or to all. */
static void serve(bool is_relay, uint8_t flags) {
    gofnjerta_event event;
    for (;;) {
        hold(gofnjerta_next_event(&server, &event));
        if (event.kind == GOFNJERTA_NONE) break;
        if (event.kind == GOFNJERTA_CONNECT) players[players_in++] = event.peer;
        if (event.kind != GOFNJERTA_RECEIVE) continue;
        hold(gofnjerta_body(&server, bytes, sizeof bytes));
        if (is_relay) hold(gofnjerta_broadcast(&server, players, players_in, event.channel, flags, bytes, event.length));
        else hold(gofnjerta_submit(&server, event.peer, event.channel, flags, bytes, event.length));
    }
}

static void take(gofnjerta_host *client) {
    gofnjerta_event event;
    for (;;) {
        hold(gofnjerta_next_event(client, &event));
        if (event.kind == GOFNJERTA_NONE) break;
        if (event.kind != GOFNJERTA_RECEIVE) continue;
        hold(gofnjerta_body(client, bytes, sizeof bytes));
        packets_taken += 1;
        bytes_taken += event.length;
        if (event.length > 0) sum += bytes[0] + bytes[event.length - 1];
    }
}

int main(int argc, char **argv) {
    if (argc != 7) return 2;
    bool is_relay = strcmp(argv[1], "relay") == 0;
    count = strtoul(argv[2], NULL, 10);
    unsigned long packets = strtoul(argv[3], NULL, 10), length = strtoul(argv[4], NULL, 10), rounds = strtoul(argv[6], NULL, 10);
    uint8_t flags = (uint8_t)strtoul(argv[5], NULL, 10);
    static uint8_t body[65536];
    if (count > MOST || length > sizeof body) return 2;
    gofnjerta_config config = gofnjerta_standard((uint16_t)count, CHANNELS), alone = gofnjerta_standard(1, CHANNELS);
    hold(gofnjerta_open(&server, &config));
    gofnjerta_address to = {SERVER, PORT};
    for (size_t i = 0; i < count; i++) {
        hold(gofnjerta_open(&clients[i], &alone));
        hold(gofnjerta_connect(&clients[i], to, CHANNELS, 0, 1000 + (uint32_t)i, &there[i]));
    }
    for (unsigned long round = 0; round < rounds + 10; round++) {
        hold(gofnjerta_tick(&server, MS));
        for (size_t i = 0; i < count; i++) {
            hold(gofnjerta_tick(&clients[i], MS));
            memset(body, (int)round, length);
            for (unsigned long n = 0; round >= 10 && n < packets; n++) {
                hold(gofnjerta_submit(&clients[i], there[i], (uint8_t)(n % CHANNELS), flags, body, length));
            }
        }
        carry_up();
        serve(is_relay, flags);
        carry_down();
        for (size_t i = 0; i < count; i++) take(&clients[i]);
    }
    gofnjerta_totals totals;
    hold(gofnjerta_read_totals(&server, &totals));
    printf("%llu packets, %llu bytes, sum %llu; %llu datagrams in, %llu out\n", (unsigned long long)packets_taken,
           (unsigned long long)bytes_taken, (unsigned long long)sum, (unsigned long long)totals.datagrams_in,
           (unsigned long long)totals.datagrams_out);
    for (size_t i = 0; i < count; i++) hold(gofnjerta_close(&clients[i]));
    hold(gofnjerta_close(&server));
    return 0;
}
