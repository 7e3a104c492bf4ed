/* A clock that counts bytes: `cc -O2 -fno-builtin -shared -fPIC -o counted.so counted.c`, and then `COUNTED=copied LD_PRELOAD=./counted.so
   PROGRAM`. The program's clock then tells, in the place of nanoseconds, how many bytes there were so far: copied (by memcpy and memmove, and by
   a realloc that moves its block), allocated (given by malloc, and by realloc past what the block had), or held (allocated and not freed). A
   figure of time so becomes one of bytes. Not counted are copies that the compiler writes out as loads and stores, as it does of few bytes, of
   a known number. For programs of one thread. */
#define _GNU_SOURCE
#include <dlfcn.h>
#include <malloc.h>
#include <stdint.h>
#include <stdlib.h>
#include <string.h>
#include <time.h>

static uint64_t copied, allocated, freed;

static void *(*next_malloc)(size_t);
static void *(*next_realloc)(void *, size_t);
static void (*next_free)(void *);
static void *(*next_memcpy)(void *, const void *, size_t);
static void *(*next_memmove)(void *, const void *, size_t);

static void find(void) {
    next_realloc = (void *(*)(void *, size_t))dlsym(RTLD_NEXT, "realloc");
    next_free = (void (*)(void *))dlsym(RTLD_NEXT, "free");
    next_memcpy = (void *(*)(void *, const void *, size_t))dlsym(RTLD_NEXT, "memcpy");
    next_memmove = (void *(*)(void *, const void *, size_t))dlsym(RTLD_NEXT, "memmove");
    next_malloc = (void *(*)(size_t))dlsym(RTLD_NEXT, "malloc");
}

void *malloc(size_t size) {
    if (!next_malloc) find();
    void *block = next_malloc(size);
    allocated += malloc_usable_size(block);
    return block;
}

void *realloc(void *block, size_t size) {
    if (!next_malloc) find();
    size_t before = malloc_usable_size(block);
    uintptr_t at = (uintptr_t)block;
    void *now = next_realloc(block, size);
    size_t after = malloc_usable_size(now);
    if (!now) return now;
    if ((uintptr_t)now != at) copied += before < after ? before : after;
    if (after > before) allocated += after - before;
    else freed += before - after;
    return now;
}

void free(void *block) {
    if (!next_malloc) find();
    freed += malloc_usable_size(block);
    next_free(block);
}

void *memcpy(void *to, const void *from, size_t count) {
    if (!next_malloc) find();
    copied += count;
    return next_memcpy(to, from, count);
}

void *memmove(void *to, const void *from, size_t count) {
    if (!next_malloc) find();
    copied += count;
    return next_memmove(to, from, count);
}

int clock_gettime(clockid_t clock, struct timespec *now) {
    const char *what = getenv("COUNTED");
    (void)clock;
    uint64_t count = 0;
    if (what && !strcmp(what, "copied")) count = copied;
    else if (what && !strcmp(what, "allocated")) count = allocated;
    else if (what && !strcmp(what, "held")) count = allocated - freed;
    else abort();
    now->tv_sec = (time_t)(count / 1000000000);
    now->tv_nsec = (long)(count % 1000000000);
    return 0;
}
