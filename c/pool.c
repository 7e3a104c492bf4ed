/* Memory for the core and for packets where libenet's API is served. A burst of packets takes and lets go more small blocks than the C
 * library has at hand, so each thread keeps those that were let go for the next ones of their size. Each block is one of malloc's, with a
 * head of 16 bytes that tells its size. It stands in the place of the kit's part that calls malloc; nothing here is proved. */
#include "pool.h"
#include <malloc.h>
#include <stdbool.h>
#include <stdint.h>
#include <stdlib.h>
#include <threads.h>

/* Sizes go by steps of 16 bytes, up to 128 bytes. A thread keeps at most MOST blocks of each size (of the core, the layer and packets), some
 * 1.1 MB in all, until it ends. */
enum { STEP = 16, LONGEST = 128, MOST = 512 };

/* What stands before a block. */
typedef struct {
    _Alignas(STEP) size_t steps; /* its size; 0 for a longer one, which isn't kept */
} Head;

/* A block that is kept, and the bytes that a packet's head has with it. */
typedef struct Block {
    struct Block *next;
    void *bytes;
} Block;

typedef struct {
    Block *first;
    size_t count;
} Shelf;

#define OWN static _Thread_local __attribute__((tls_model("initial-exec")))
OWN Shelf shelves[LONGEST / STEP + 1]; /* by steps; the first one stays empty */
OWN Shelf packets[LONGEST / STEP + 1]; /* of packets' heads with their bytes, by the steps of those behind the first 8; first heads alone */
OWN size_t most; /* of a shelf's blocks: none until it is known that they are emptied where the thread ends */
static once_flag made = ONCE_FLAG_INIT;
static tss_t ending;
static bool has_ending;

static Head *head_of(void *at) { return (Head *)at - 1; }

/* Takes the first block of a shelf; there is one. */
static void *take_first(Shelf *shelf) {
    Block *block = shelf->first;
    shelf->first = block->next;
    shelf->count--;
    return block;
}

/* Empties the shelves of the thread that ends. */
static void empty(void *own) {
    (void)own;
    most = 0;
    for (size_t i = 0; i <= LONGEST / STEP; i++) {
        while (shelves[i].first) free(head_of(take_first(&shelves[i])));
        while (packets[i].first) {
            Block *packet = take_first(&packets[i]);
            if (i) free(packet->bytes);
            free(packet);
        }
    }
}

static void make_ending(void) { has_ending = tss_create(&ending, empty) == thrd_success; }

/* The thread that ends the program, or unloads what this is part of. Threads that end later call nothing here. */
__attribute__((destructor)) static void empty_last(void) {
    empty(shelves);
    if (!has_ending) return;
    has_ending = false;
    tss_delete(ending);
}

/* A block behind this head, which malloc gave or refused. */
static Tried begin(Head *head, size_t steps) {
    static Head nothing;
    if (!head) return (Tried){0, &nothing};
    head->steps = steps;
    return (Tried){1, head + 1};
}

__attribute__((noinline)) static Tried take_anew(size_t size, size_t steps) {
    if (size > SIZE_MAX - sizeof(Head)) return begin(NULL, 0);
    return begin(malloc(sizeof(Head) + size), steps);
}

Tried rattle_alloc(size_t size, size_t align) {
    (void)align;
    if (size > LONGEST) return take_anew(size, 0);
    size_t steps = (size + STEP - 1) / STEP;
    Shelf *shelf = &shelves[steps];
    if (!shelf->first) return take_anew(steps * STEP, steps);
    return (Tried){1, take_first(shelf)};
}

Tried rattle_realloc(void *at, size_t before, size_t size, size_t align) {
    (void)before;
    (void)align;
    if (size > SIZE_MAX - sizeof(Head)) return begin(NULL, 0);
    return begin(realloc(head_of(at), sizeof(Head) + size), 0);
}

/* Lets a block go that finds no room on its shelf. From the thread's first one on there is some. One that lies there was let go before. */
__attribute__((noinline)) static void let_go(const Shelf *shelf, void *block, void *at) {
    if (block == shelf->first) abort();
    if (!most) {
        call_once(&made, make_ending);
        if (has_ending && tss_set(ending, shelves) == thrd_success) most = MOST;
    }
    free(at);
}

#ifdef GOFNJERTA_DEBUG
/* A block is let go: it doesn't lie on the shelf. */
static void test_shelf(const Shelf *shelf, const void *at) {
    for (const Block *each = shelf->first; each; each = each->next)
        if (each == at) abort();
}

static void test_block(void *at) {
    if (head_of(at)->steps > LONGEST / STEP) abort(); /* no head of the pool's */
    test_shelf(&shelves[head_of(at)->steps], at);
}

void pool_test_packet(const void *head) {
    for (size_t i = 0; i <= LONGEST / STEP; i++) test_shelf(&packets[i], head);
}
#else
static void test_block(void *at) { (void)at; }
#endif

static void lay(Shelf *shelf, void *at) {
    Block *block = at;
    block->next = shelf->first;
    shelf->first = block;
    shelf->count++;
}

void rattle_dealloc(void *at) {
    test_block(at);
    Shelf *shelf = &shelves[head_of(at)->steps];
    if (shelf->count >= most || shelf == shelves || at == shelf->first) let_go(shelf, at, head_of(at));
    else lay(shelf, at);
}

/* A head where none is at hand with bytes of its size. */
__attribute__((noinline)) static void *take_packet_anew(size_t size, void **bytes) {
    *bytes = NULL;
    if (size && !(*bytes = malloc(size))) return NULL;
    void *head = packets[0].first ? take_first(&packets[0]) : malloc(POOL_HEAD);
    if (!head) free(*bytes);
    return head;
}

void *pool_take_packet(size_t size, void **bytes) {
    size_t steps = size <= 8 + STEP ? 1 : (size - 8 + STEP - 1) / STEP;
    if (size == 0 || steps > LONGEST / STEP) return take_packet_anew(size, bytes);
    if (!packets[steps].first) return take_packet_anew(8 + steps * STEP, bytes);
    Block *head = take_first(&packets[steps]);
    *bytes = head->bytes;
    return head;
}

/* Lets the bytes go, and keeps the head alone. */
__attribute__((noinline)) static void give_head(void *head, void *bytes) {
    free(bytes);
    if (packets[0].count >= most) let_go(&packets[0], head, head);
    else lay(&packets[0], head);
}

void pool_give_packet(void *head, void *bytes) {
    size_t size = bytes ? malloc_usable_size(bytes) : 0, steps = size < 8 + STEP ? 0 : (size - 8) / STEP;
    Shelf *shelf = &packets[steps <= LONGEST / STEP ? steps : 0];
    if (head == shelf->first) abort(); /* it lies there */
    if (shelf == packets || shelf->count >= most) {
        give_head(head, bytes);
        return;
    }
    lay(shelf, head);
    shelf->first->bytes = bytes;
}
