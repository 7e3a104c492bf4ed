// A library that is loaded before the C library (LD_PRELOAD) and has calls of it fail, one at each signal: SIGUSR1 asks that the next growth
// of memory is refused in a thread that receives no datagrams; where FAULTS_ANYWHERE is set in any thread, and not always the next one, but one
// of the next eight in turn. SIGUSR2 that the next reception of a datagram fails with EHOSTUNREACH. Without a signal, where FAULTS_AT is a
// number, the growth of that number is refused, from 1 on.
#include <errno.h>
#include <malloc.h>
#include <signal.h>
#include <stdatomic.h>
#include <stdbool.h>
#include <stddef.h>
#include <stdlib.h>
#include <sys/socket.h>
#include <sys/syscall.h>
#include <unistd.h>

void *__libc_malloc(size_t size);
void *__libc_calloc(size_t count, size_t size);
void *__libc_realloc(void *block, size_t size);
void *__libc_memalign(size_t alignment, size_t size);

static atomic_bool wants_growth_refused, wants_reception_failed;
static _Thread_local bool receives;
static bool anywhere;
static atomic_int asked, to_pass; // of growths, how many refusals were asked for, and how many more aren't refused before
static long refused_at; // the number of the growth that is refused without being asked for, or 0
static atomic_long growths; // so far, where there is such a number

static void ask(int number)
{
    if (number == SIGUSR1 && anywhere)
        atomic_store(&to_pass, atomic_fetch_add(&asked, 1) % 8);
    atomic_store(number == SIGUSR1 ? &wants_growth_refused : &wants_reception_failed, true);
}

__attribute__((constructor)) static void listen_for_signals(void)
{
    anywhere = getenv("FAULTS_ANYWHERE") != NULL;
    const char *at = getenv("FAULTS_AT");
    refused_at = at == NULL ? 0 : atol(at);
    struct sigaction action = { .sa_handler = ask, .sa_flags = SA_RESTART };
    sigaction(SIGUSR1, &action, NULL);
    sigaction(SIGUSR2, &action, NULL);
}

static bool is_refused(void)
{
    if (refused_at > 0 && atomic_fetch_add(&growths, 1) + 1 == refused_at) {
        errno = ENOMEM;
        return true;
    }
    if ((receives && !anywhere) || !atomic_load(&wants_growth_refused) || atomic_fetch_sub(&to_pass, 1) > 0)
        return false;
    if (!atomic_exchange(&wants_growth_refused, false))
        return false;
    errno = ENOMEM;
    return true;
}

void *malloc(size_t size)
{
    return is_refused() ? NULL : __libc_malloc(size);
}

void *calloc(size_t count, size_t size)
{
    return is_refused() ? NULL : __libc_calloc(count, size);
}

void *realloc(void *block, size_t size)
{
    return is_refused() ? NULL : __libc_realloc(block, size);
}

void *aligned_alloc(size_t alignment, size_t size)
{
    return is_refused() ? NULL : __libc_memalign(alignment, size);
}

void *memalign(size_t alignment, size_t size)
{
    return is_refused() ? NULL : __libc_memalign(alignment, size);
}

int posix_memalign(void **block, size_t alignment, size_t size)
{
    void *got = is_refused() ? NULL : __libc_memalign(alignment, size);
    if (got == NULL)
        return ENOMEM;
    *block = got;
    return 0;
}

ssize_t recvfrom(int socket, void *restrict buffer, size_t length, int flags, struct sockaddr *restrict from, socklen_t *restrict from_length)
{
    receives = true;
    if (atomic_exchange(&wants_reception_failed, false)) {
        errno = EHOSTUNREACH;
        return -1;
    }
    return syscall(SYS_recvfrom, socket, buffer, length, flags, from, from_length);
}
