/* The calls by which the core gets its memory: the kit's own, which call malloc, or those of pool.c, which keep small blocks at hand. For
 * the library's own C code alone. */
#ifndef GOFNJERTA_POOL_H
#define GOFNJERTA_POOL_H
#include <stddef.h>

/* Whether there is memory, and the pointer to it. */
typedef struct {
    size_t is_there;
    void *at;
} Tried;

Tried rattle_alloc(size_t size, size_t align);
Tried rattle_realloc(void *at, size_t before, size_t size, size_t align);
void rattle_dealloc(void *at);

/* A packet's head of POOL_HEAD bytes, and a block of malloc's for so many bytes, NULL for none; NULL where there is no memory. Both are kept
 * together when they are let go, whoever made the block: malloc and free may stand in for it. Of pool.c alone. */
enum { POOL_HEAD = 64 };

void *pool_take_packet(size_t size, void **bytes);
void pool_give_packet(void *head, void *bytes);

/* Built with -DGOFNJERTA_DEBUG, it ends the program (abort) where a packet's head is let go that the thread keeps already, and the pool does
 * so where a block is. */
#ifdef GOFNJERTA_DEBUG
void pool_test_packet(const void *head);
#else
static inline void pool_test_packet(const void *head) { (void)head; }
#endif

#endif
