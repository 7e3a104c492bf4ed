/* A library that is loaded before the C library (LD_PRELOAD) and refuses one growth of memory: after refuse_at(n) so many succeed, and then one
 * doesn't. refuse_at(-1) refuses none. Both return what was left of the number before, -1 if one was refused since or none was to be. */
#define _GNU_SOURCE
#include <dlfcn.h>
#include <errno.h>
#include <stdbool.h>
#include <stddef.h>

static long left = -1;

long refuse_at(long growths) {
    long before = left;
    left = growths;
    return before;
}

static bool is_refused(void) {
    if (left < 0 || left-- > 0) return false;
    errno = ENOMEM;
    return true;
}

void *malloc(size_t size) {
    static void *(*next)(size_t);
    if (!next) next = (void *(*)(size_t))dlsym(RTLD_NEXT, "malloc");
    return is_refused() ? NULL : next(size);
}

void *calloc(size_t count, size_t size) {
    static void *(*next)(size_t, size_t);
    if (!next) next = (void *(*)(size_t, size_t))dlsym(RTLD_NEXT, "calloc");
    return is_refused() ? NULL : next(count, size);
}

void *realloc(void *block, size_t size) {
    static void *(*next)(void *, size_t);
    if (!next) next = (void *(*)(void *, size_t))dlsym(RTLD_NEXT, "realloc");
    return is_refused() ? NULL : next(block, size);
}

int posix_memalign(void **block, size_t alignment, size_t size) {
    static int (*next)(void **, size_t, size_t);
    if (!next) next = (int (*)(void **, size_t, size_t))dlsym(RTLD_NEXT, "posix_memalign");
    return is_refused() ? ENOMEM : next(block, alignment, size);
}
