// What the test of want of memory adds to the library (check-bindings.sh links both with --wrap=malloc,--wrap=realloc,--wrap=free): the growth
// of one number is refused, and blocks are counted. Only the library's own calls are seen, not the interpreter's.
#include <stddef.h>

static long growths, refused_at, blocks;

void *__real_malloc(size_t size);
void *__real_realloc(void *block, size_t size);
void __real_free(void *block);

// The growth of this number from now on is refused, from 1 on; 0: none is.
void refuse_at(long number) { growths = 0, refused_at = number; }

// How many growths there were since.
long refuse_growths(void) { return growths; }

// How many blocks the library has.
long refuse_blocks(void) { return blocks; }

static int is_refused(void) { return ++growths == refused_at; }

void *__wrap_malloc(size_t size)
{
    void *got = is_refused() ? NULL : __real_malloc(size);
    blocks += got != NULL;
    return got;
}

void *__wrap_realloc(void *block, size_t size)
{
    void *got = is_refused() ? NULL : __real_realloc(block, size);
    blocks += block == NULL && got != NULL;
    return got;
}

void __wrap_free(void *block)
{
    blocks -= block != NULL;
    __real_free(block);
}
