/* Each allocation failing in turn, linked with -Wl,--wrap=malloc,--wrap=realloc,--wrap=free: a refused call succeeds when it is
 * repeated, what a datagram of no memory carried comes again, nothing is lost, nobody gives way for nothing, and nothing leaks. */
#include "../gofnjerta.h"
#include "check.h"
#include <stdlib.h>
#include <string.h>

static long left = -1, live, refused;
void *__real_malloc(size_t size);
void *__real_realloc(void *old, size_t size);
void __real_free(void *block);
void *__wrap_malloc(size_t size);
void *__wrap_realloc(void *old, size_t size);
void __wrap_free(void *block);

static bool fails(void) {
    return left >= 0 && left-- == 0;
}

void *__wrap_malloc(size_t size) {
    if (fails()) return NULL;
    void *block = __real_malloc(size);
    live += block != NULL;
    return block;
}

void *__wrap_realloc(void *old, size_t size) {
    if (fails()) return NULL;
    void *block = __real_realloc(old, size);
    live += block && !old;
    return block;
}

void __wrap_free(void *block) {
    live -= block != NULL;
    __real_free(block);
}

/* A call that may be refused for want of memory once. */
#define AGAIN(call) \
    do { \
        uint32_t answer_ = (call); \
        if (answer_ == GOFNJERTA_MEMORY) refused++, answer_ = (call); \
        ANSWERS(GOFNJERTA_OK, answer_); \
    } while (0)

static const gofnjerta_address at_a = {0x0A000001, 7000}, at_b = {0x0A000002, 7001};

static void carry(gofnjerta_host *from, gofnjerta_address own, gofnjerta_host *to) {
    uint8_t buffer[GOFNJERTA_ROOM];
    gofnjerta_datagram gave;
    while (gofnjerta_service(from, buffer, sizeof buffer, &gave) == GOFNJERTA_OK && gave.length) {
        gofnjerta_received got;
        ANSWERS(GOFNJERTA_OK, gofnjerta_receive(to, own, buffer, gave.length, &got));
        CHECK(got.stop == 0 || got.stop == 11);
        refused += got.stop == 11;
    }
}

static void settle(gofnjerta_host *a, gofnjerta_host *b) {
    for (int i = 0; i < 60; i++) {
        carry(a, at_a, b);
        carry(b, at_b, a);
        gofnjerta_tick(a, 100);
        gofnjerta_tick(b, 100);
    }
}

static int write_nowhere(void *context, const void *bytes, size_t length) {
    (void)context, (void)bytes, (void)length;
    return 0;
}

/* A packet to two peers, of which the first is gone. Without memory for its copy no answer is written; a peer for which there was none gets
 * it once more. */
static void send_each(gofnjerta_host *host, gofnjerta_peer peer, const uint8_t *body) {
    gofnjerta_peer peers[] = {{peer.slot, peer.generation + 1}, peer};
    uint32_t told[] = {99, 99}, number = gofnjerta_broadcast_each(host, peers, 2, 1, GOFNJERTA_RELIABLE, body, 100, told);
    if (number == GOFNJERTA_MEMORY) {
        CHECK(told[0] == 99 && told[1] == 99);
        refused++;
        number = gofnjerta_broadcast_each(host, peers, 2, 1, GOFNJERTA_RELIABLE, body, 100, told);
    }
    ANSWERS(GOFNJERTA_OK, number);
    CHECK(told[0] == GOFNJERTA_NO_SUCH_PEER);
    if (told[1] == GOFNJERTA_MEMORY) refused++, told[1] = gofnjerta_submit(host, peer, 1, GOFNJERTA_RELIABLE, body, 100);
    ANSWERS(GOFNJERTA_OK, told[1]);
}

/* One packet in fragments and three short ones, of which two share a body, where the allocation of this number fails. One of the two hosts
 * is recorded. */
static void run(long number, const uint8_t *body) {
    static uint8_t got[5000];
    gofnjerta_host a = {0}, b = {0};
    gofnjerta_config config = gofnjerta_standard(2, 2);
    gofnjerta_peer peer;
    gofnjerta_event event;
    left = number;
    AGAIN(gofnjerta_record(&a, &config, write_nowhere, NULL));
    AGAIN(gofnjerta_open(&b, &config));
    AGAIN(gofnjerta_connect(&b, at_a, 2, 1, 2, &peer));
    settle(&a, &b);
    AGAIN(gofnjerta_submit(&b, peer, 0, GOFNJERTA_RELIABLE, body, 5000));
    AGAIN(gofnjerta_stage(&b, body, 100));
    AGAIN(gofnjerta_submit_staged(&b, peer, 0, GOFNJERTA_RELIABLE));
    AGAIN(gofnjerta_submit_staged(&b, peer, 1, GOFNJERTA_RELIABLE));
    send_each(&b, peer, body);
    settle(&a, &b);
    left = -1;
    int packets = 0;
    size_t bytes = 0;
    while (gofnjerta_next_event(&a, &event) == GOFNJERTA_OK && event.kind)
        if (event.kind == GOFNJERTA_RECEIVE) {
            ANSWERS(GOFNJERTA_OK, gofnjerta_body(&a, got, sizeof got));
            CHECK(!memcmp(got, body, event.length));
            packets++;
            bytes += event.length;
        }
    CHECK(packets == 4 && bytes == 5300);
    gofnjerta_close(&a);
    gofnjerta_close(&b);
    CHECK(live == 0);
}

static uint32_t state_of(gofnjerta_host *host, uint16_t slot, uint32_t generation) {
    gofnjerta_reading read = {.state = GOFNJERTA_FREE};
    gofnjerta_read_peer(host, (gofnjerta_peer){slot, generation}, &read);
    return read.state;
}

/* A datagram comes from a port, and once more if there was no memory for it, which must leave the peer of this name waiting. */
static void bring(gofnjerta_host *host, uint16_t port, const uint8_t *bytes, size_t length, uint16_t slot, uint32_t generation) {
    gofnjerta_received got = {0};
    for (int n = 0; n < 2; n++) {
        ANSWERS(GOFNJERTA_OK, gofnjerta_receive(host, (gofnjerta_address){0x0A000003, port}, bytes, length, &got));
        if (got.stop != 11) break;
        CHECK(got.handled == 0 && state_of(host, slot, generation) == GOFNJERTA_ANSWERING);
        refused++;
    }
    CHECK(got.handled == 1 && got.stop == 0);
}

/* Two slots are waited in, a third client gets the first one's, confirms and is let in, and the second one is told that the host is full;
 * where the allocation of this number behind the first two fails. */
static void crowd(long number) {
    static const uint8_t offer[52] = {0x8F, 0xFF, 0, 0, 0x82, 0xFF, 0, 1, 0, 0, 0xFF, 0xFF, 0, 0, 5, 0x70, 0, 1, 0, 0, 0, 0, 0, 1,
                                      0, 0, 0, 0, 0, 0, 0, 0, 0, 0, 0x13, 0x88, 0, 0, 0, 2, 0, 0, 0, 2, 1, 2, 3, 4, 0, 0, 0, 7};
    static const uint8_t third[] = {0x10, 0, 1, 0xFF, 0, 1, 0, 1, 0, 10}, second[] = {0, 1, 1, 0xFF, 0, 1, 0, 1, 0, 10};
    uint8_t buffer[GOFNJERTA_ROOM];
    gofnjerta_datagram gave = {0}, last = {0};
    gofnjerta_host host = {0};
    gofnjerta_config config = gofnjerta_standard(2, 1);
    gofnjerta_event event;
    left = -1;
    ANSWERS(GOFNJERTA_OK, gofnjerta_open(&host, &config));
    ANSWERS(GOFNJERTA_OK, gofnjerta_give_way(&host));
    ANSWERS(GOFNJERTA_OK, gofnjerta_set_most(&host, 1));
    bring(&host, 1, offer, sizeof offer, 0, 0);
    gofnjerta_tick(&host, 10);
    bring(&host, 2, offer, sizeof offer, 1, 0);
    left = number;
    bring(&host, 3, offer, sizeof offer, 0, 0);
    CHECK(state_of(&host, 0, 0) == GOFNJERTA_FREE && state_of(&host, 0, 1) == GOFNJERTA_ANSWERING);
    CHECK(state_of(&host, 1, 0) == GOFNJERTA_ANSWERING);
    while (gofnjerta_service(&host, buffer, sizeof buffer, &gave) == GOFNJERTA_OK && gave.length)
        CHECK(gave.to.port == 2 || gave.to.port == 3);
    bring(&host, 3, third, sizeof third, 0, 1);
    bring(&host, 2, second, sizeof second, 1, 0);
    CHECK(state_of(&host, 0, 1) == GOFNJERTA_CONNECTED && state_of(&host, 1, 0) == GOFNJERTA_ANSWERING);
    while (gofnjerta_service(&host, buffer, sizeof buffer, &gave) == GOFNJERTA_OK && gave.length) last = gave;
    CHECK(last.to.port == 2 && last.length == 10 && buffer[2] == 0x44);
    left = -1;
    ANSWERS(GOFNJERTA_OK, gofnjerta_next_event(&host, &event));
    CHECK(event.kind == GOFNJERTA_CONNECT && event.peer.slot == 0 && event.peer.generation == 1);
    ANSWERS(GOFNJERTA_OK, gofnjerta_next_event(&host, &event));
    CHECK(event.kind == GOFNJERTA_NONE);
    gofnjerta_close(&host);
    CHECK(live == 0);
}

int main(void) {
    static uint8_t body[5000];
    for (int i = 0; i < 5000; i++) body[i] = (uint8_t)(i * 7);
    for (long number = 0; number < 120; number++) run(number, body);
    CHECK(refused > 20);
    long before = refused;
    for (long number = 0; number < 40; number++) crowd(number);
    CHECK(refused >= before + 2);
    printf("%ld refusals, %ld of them among those who wait\n", refused, refused - before);
    return ended("memory");
}
