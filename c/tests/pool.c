/* c/pool.c, blocks of the core's and packets with their bytes: of every size, in bursts, let go by the thread that had them or by another, hold what is written to them, none is
 * handed out twice, a thread keeps no more of a size than it may, and gives all of them back when it ends; want of memory is told. malloc
 * and free are counted, and malloc is refused once (--wrap). With -DGOFNJERTA_DEBUG what is let go twice ends the program, also where
 * others were let go in between. Says what failed; the status is 1 then. */
#include "../pool.h"
#include <pthread.h>
#include <signal.h>
#include <stdatomic.h>
#include <stdbool.h>
#include <stdint.h>
#include <stdio.h>
#include <stdlib.h>
#include <string.h>
#include <sys/wait.h>
#include <unistd.h>

enum { BURST = 2000, LONGEST = 200, KEPT = 512 };

static atomic_int out;
static atomic_bool refuses;

void *__real_malloc(size_t size);
void *__real_realloc(void *at, size_t size);
void __real_free(void *at);
void *__wrap_malloc(size_t size);
void *__wrap_realloc(void *at, size_t size);
void __wrap_free(void *at);

void *__wrap_malloc(size_t size) {
    if (refuses) return NULL;
    out++;
    return __real_malloc(size);
}

void *__wrap_realloc(void *at, size_t size) { return __real_realloc(at, size); }

void __wrap_free(void *at) {
    out -= at != NULL;
    __real_free(at);
}

static void expect(int so, const char *what) {
    if (so) return;
    printf("pool: %s\n", what);
    exit(1);
}

static void *blocks[2][BURST];

static bool are_packets; /* the blocks that are tried now are packets' bytes, with these heads */
static void *heads[2][BURST];

static Tried take_one(int part, int i, size_t size) {
    if (!are_packets) return rattle_alloc(size, 8);
    void *bytes = NULL;
    void *head = heads[part][i] = pool_take_packet(size, &bytes);
    expect(head && (bytes != NULL) == (size > 0), "no memory");
    memset(head, 0xAA, POOL_HEAD);
    return (Tried){1, bytes ? bytes : head};
}

static void take(int part, size_t size) {
    for (int i = 0; i < BURST; i++) {
        Tried tried = take_one(part, i, size);
        expect(tried.is_there && tried.at, "no memory");
        memset(tried.at, (part + 1) * 16 + i % 13, size);
        blocks[part][i] = tried.at;
    }
}

static void give(int part, size_t size) {
    for (int i = 0; i < BURST; i++) {
        const uint8_t *block = blocks[part][i];
        for (size_t k = 0; k < size; k++) expect(block[k] == (part + 1) * 16 + i % 13, "a block was overwritten");
        if (are_packets) pool_give_packet(heads[part][i], size ? blocks[part][i] : NULL);
        else rattle_dealloc(blocks[part][i]);
    }
}

/* Bursts of each size, and one that is left for another thread to let go. */
static void *work(void *part) {
    for (size_t size = 0; size <= LONGEST; size++) {
        take(*(int *)part, size);
        give(*(int *)part, size);
    }
    take(*(int *)part, 96);
    return NULL;
}

/* Two threads that end, and what this one keeps. */
static void bursts(void) {
    static int parts[2] = {0, 1};
    pthread_t threads[2];
    int before = out;
    for (int i = 0; i < 2; i++) expect(pthread_create(&threads[i], NULL, work, &parts[i]) == 0, "no thread");
    for (int i = 0; i < 2; i++) pthread_join(threads[i], NULL);
    expect(out - before <= (are_packets ? 4 : 2) * BURST + 16, "a thread that ended kept blocks");
    give(0, 96);
    give(1, 96);
    take(0, 96);
    take(1, 96);
    give(1, 96);
    give(0, 96);
    take(0, 32);
    before = out;
    give(0, 32);
    /* A packet is two blocks; and malloc may give bytes that belong to the next shelf. */
    int kept = are_packets ? 2 * BURST - (before - out) : BURST - (before - out);
    expect(are_packets ? kept >= 2 * KEPT && kept <= 5 * KEPT : kept == KEPT, "a thread keeps too many blocks or too few");
    take(0, 32);
    expect(are_packets ? out - before <= 3 * KEPT : out == before, "kept blocks weren't handed out");
    give(0, 32);
}

/* Bytes that the pool gave are let go by free, and others of malloc's are taken in their place, of whatever size. */
static void strangers(void) {
    for (size_t size = 1; size <= LONGEST; size++) {
        void *bytes;
        void *head = pool_take_packet(size, &bytes);
        memset(bytes, 7, size);
        free(bytes);
        pool_give_packet(head, malloc(LONGEST - size + 1));
    }
}

#ifdef GOFNJERTA_DEBUG
/* Lets a block go twice, with another one in between. */
static void twice(void) {
    Tried first = rattle_alloc(40, 8), second = rattle_alloc(40, 8);
    rattle_dealloc(first.at);
    rattle_dealloc(second.at);
    rattle_dealloc(first.at);
}

/* The same of a packet, as enet_packet_destroy does. */
static void packet_twice(void) {
    void *bytes[2], *first = pool_take_packet(40, &bytes[0]), *second = pool_take_packet(3, &bytes[1]);
    pool_test_packet(first);
    pool_give_packet(first, bytes[0]);
    pool_test_packet(second);
    pool_give_packet(second, bytes[1]);
    pool_test_packet(first);
}

/* A process that does so ends by abort. */
static void is_noticed(void (*fault)(void)) {
    int status;
    pid_t child = fork();
    expect(child >= 0, "no process");
    if (child == 0) {
        fault();
        _exit(0);
    }
    expect(waitpid(child, &status, 0) == child && WIFSIGNALED(status) && WTERMSIG(status) == SIGABRT, "what was let go twice wasn't noticed");
}
#endif

int main(void) {
#ifdef GOFNJERTA_DEBUG
    rattle_dealloc(rattle_alloc(40, 8).at); /* blocks are kept from now on */
    is_noticed(twice);
    is_noticed(packet_twice);
#endif
    bursts();
    are_packets = true;
    bursts();
    strangers();
    refuses = true;
    expect(!rattle_alloc(64, 8).is_there && !rattle_alloc(4000, 8).is_there, "a refusal isn't told");
    void *bytes;
    expect(!pool_take_packet(4000, &bytes), "a refusal isn't told");
    refuses = false;
    Tried small = rattle_alloc(24, 8);
    memcpy(small.at, "as it was", 10);
    Tried large = rattle_realloc(small.at, 24, 4000, 8);
    expect(large.is_there && strcmp(large.at, "as it was") == 0, "a longer block lost the bytes of the shorter one");
    rattle_dealloc(large.at);
    return 0;
}
