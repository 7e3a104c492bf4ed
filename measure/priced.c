/* A clock that counts what calls cost: `cc -O2 -shared -fPIC -o priced.so priced.c`, with Valgrind's headers, and then `valgrind
   --tool=callgrind --instr-atstart=no --callgrind-out-file=FILE .. PROGRAM` with LD_PRELOAD=./priced.so (scripts/check/prices.py). Between each
   two readings of the clock, the first and the second, the third and the fourth, Callgrind counts instructions, and leaves what it counted
   in FILE.1, FILE.2 and so on; PRICED names a file that gets a line for each such pair: by how many bytes more memory was taken then and
   not given back. Outside of them nothing is counted, which takes a fifth of the time. For programs of one thread, without the C library's
   caches of blocks (GLIBC_TUNABLES=glibc.malloc.tcache_count=0), whose blocks would pass for taken. */
#include <malloc.h>
#include <stdio.h>
#include <stdlib.h>
#include <time.h>
#include <valgrind/callgrind.h>

static size_t before;
static int is_between;

/* How many bytes are taken now. */
static size_t taken(void) {
    struct mallinfo2 all = mallinfo2();
    return all.uordblks + all.hblkhd;
}

static void tell(long bytes) {
    const char *name = getenv("PRICED");
    FILE *file = name ? fopen(name, "a") : NULL;
    if (!file) abort();
    fprintf(file, "%ld\n", bytes);
    fclose(file);
}

int clock_gettime(clockid_t clock, struct timespec *now) {
    (void)clock;
    *now = (struct timespec){.tv_sec = 1};
    if (!is_between) {
        before = taken();
        is_between = 1;
        CALLGRIND_START_INSTRUMENTATION;
        return 0;
    }
    CALLGRIND_DUMP_STATS;
    CALLGRIND_STOP_INSTRUMENTATION;
    is_between = 0;
    tell((long)taken() - (long)before);
    return 0;
}
