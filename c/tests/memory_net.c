/* See memory_net.h. */
#define _GNU_SOURCE
#include "memory_net.h"
#include <arpa/inet.h>
#include <errno.h>
#include <netinet/udp.h>
#include <poll.h>
#include <stdarg.h>
#include <stdlib.h>
#include <string.h>
#include <sys/random.h>
#include <sys/socket.h>
#include <sys/time.h>
#include <time.h>

#ifndef UDP_SEGMENT
#define UDP_SEGMENT 103
#endif

enum { FIRST = 1000, SOCKETS = 16, FLYING = 1024, BROUGHT = 256, PORT = 30000, SPINS = 100 };

typedef struct {
    bool is_open, cuts; /* it cuts trains */
    uint16_t port;
    NetDatagram brought[BROUGHT];
    size_t count;
} Socket;

static Socket sockets[SOCKETS];
static NetDatagram flying[FLYING];
static size_t flying_count;
static uint64_t clock_ms, sent, drawn, calls_sent, trains_sent, trains_refused;
static bool trains;
static unsigned spins; /* how often a host was woken in a row, and neither took nor sent anything */
static struct {
    unsigned calls;
    int number;
} faults[NET_FAULTS];
static struct {
    uint16_t port;
    int one, train;
} unreachable;
static long memory_after, memory_calls;

/* The functions that stand in the system's places. */
int net_socket(int family, int type, int protocol);
int net_close(int fd);
int net_bind(int fd, const struct sockaddr *at, socklen_t length);
int net_getsockname(int fd, struct sockaddr *at, socklen_t *length);
int net_getsockopt(int fd, int level, int name, void *value, socklen_t *length);
int net_setsockopt(int fd, int level, int name, const void *value, socklen_t length);
int net_ioctl(int fd, unsigned long request, ...);
ssize_t net_recvfrom(int fd, void *bytes, size_t room, int flags, struct sockaddr *from, socklen_t *size);
ssize_t net_sendto(int fd, const void *bytes, size_t length, int flags, const struct sockaddr *to, socklen_t size);
ssize_t net_sendmsg(int fd, const struct msghdr *message, int flags);
int net_poll(struct pollfd *asked, nfds_t count, int ms);
int net_clock_gettime(clockid_t which, struct timespec *t);
ssize_t net_getrandom(void *bytes, size_t length, unsigned flags);
int net_getentropy(void *bytes, size_t length);
void *net_malloc(size_t size);
void *net_calloc(size_t count, size_t size);
void *net_realloc(void *block, size_t size);
void *net_aligned_alloc(size_t alignment, size_t size);

static void forget(NetDatagram *list, size_t *count, size_t i) {
    free(list[i].bytes);
    memmove(list + i, list + i + 1, (--*count - i) * sizeof *list);
}

static void keep(NetDatagram *list, size_t *count, size_t most, const NetDatagram *which) {
    if (*count == most) forget(list, count, 0);
    NetDatagram copy = *which;
    copy.bytes = malloc(which->length ? which->length : 1);
    if (!copy.bytes) abort();
    memcpy(copy.bytes, which->bytes, which->length);
    list[(*count)++] = copy;
}

void net_begin(uint64_t clock, bool has_trains) {
    while (flying_count) net_drop(0);
    for (size_t i = 0; i < SOCKETS; i++) {
        while (sockets[i].count) forget(sockets[i].brought, &sockets[i].count, 0);
        sockets[i].is_open = false;
    }
    clock_ms = clock;
    trains = has_trains;
    sent = drawn = calls_sent = trains_sent = trains_refused = spins = 0;
    memset(faults, 0, sizeof faults);
    net_fail_to(0, 0, 0);
    net_fail_memory(0, 0);
}

void net_go_on(uint64_t ms) { clock_ms += ms; }
uint64_t net_clock(void) { return clock_ms; }
uint64_t net_moment(void) { return sent; }
uint64_t net_trains(void) { return trains_sent; }
uint64_t net_refused(void) { return trains_refused; }
uint64_t net_calls(void) { return calls_sent; }
void net_have_trains(bool has_trains) { trains = has_trains; }
size_t net_flying(void) { return flying_count; }
NetDatagram *net_flight(size_t i) { return &flying[i]; }
void net_drop(size_t i) { forget(flying, &flying_count, i); }

void net_fail(NetFault what, unsigned calls, int number) {
    faults[what].calls = calls;
    faults[what].number = number;
}

void net_fail_to(uint16_t port, int one, int train) {
    unreachable.port = port;
    unreachable.one = one;
    unreachable.train = train;
}

void net_fail_memory(long after, long calls) {
    memory_after = after;
    memory_calls = calls;
}

static bool fails(NetFault what) {
    if (!faults[what].calls) return false;
    faults[what].calls--;
    errno = faults[what].number;
    return true;
}

/* Whether what goes there fails: with this number, where it isn't 0. */
static bool fails_to(const struct sockaddr_in *to, int number) {
    if (!number || ntohs(to->sin_port) != unreachable.port) return false;
    errno = number;
    return true;
}

static void bring_to(const NetDatagram *which) {
    for (size_t i = 0; i < SOCKETS; i++)
        if (sockets[i].is_open && sockets[i].port == which->to) keep(sockets[i].brought, &sockets[i].count, BROUGHT, which);
}

void net_bring_copy(size_t i) { bring_to(&flying[i]); }

void net_bring(size_t i) {
    bring_to(&flying[i]);
    net_drop(i);
}

void net_throw(uint16_t from, uint16_t to, const uint8_t *bytes, size_t length) {
    const NetDatagram thrown = {sent, clock_ms, 0, from, to, length, (uint8_t *)(uintptr_t)bytes};
    bring_to(&thrown);
}

static Socket *socket_of(int fd) {
    if (fd < FIRST || fd >= FIRST + SOCKETS || !sockets[fd - FIRST].is_open) abort();
    return &sockets[fd - FIRST];
}

int net_socket(int family, int type, int protocol) {
    (void)family, (void)type, (void)protocol;
    for (int i = 0; i < SOCKETS; i++) {
        if (sockets[i].is_open) continue;
        sockets[i] = (Socket){.is_open = true, .cuts = trains, .port = (uint16_t)(PORT + i)};
        return FIRST + i;
    }
    errno = EMFILE;
    return -1;
}

int net_close(int fd) {
    Socket *own = socket_of(fd);
    while (own->count) forget(own->brought, &own->count, 0);
    own->is_open = false;
    return 0;
}

int net_bind(int fd, const struct sockaddr *at, socklen_t length) {
    const struct sockaddr_in *to = (const struct sockaddr_in *)at;
    if (length < sizeof *to) abort();
    if (to->sin_port) socket_of(fd)->port = ntohs(to->sin_port);
    return 0;
}

static struct sockaddr_in at_port(uint16_t port) {
    return (struct sockaddr_in){.sin_family = AF_INET, .sin_port = htons(port), .sin_addr.s_addr = htonl(INADDR_LOOPBACK)};
}

int net_getsockname(int fd, struct sockaddr *at, socklen_t *length) {
    const struct sockaddr_in own = at_port(socket_of(fd)->port);
    if (*length < sizeof own) abort();
    memcpy(at, &own, sizeof own);
    *length = sizeof own;
    return 0;
}

int net_getsockopt(int fd, int level, int name, void *value, socklen_t *length) {
    const Socket *own = socket_of(fd);
    if (*length < sizeof(int)) abort();
    if (level == IPPROTO_UDP && name == UDP_SEGMENT && !own->cuts) {
        errno = ENOPROTOOPT;
        return -1;
    }
    *(int *)value = 0;
    *length = sizeof(int);
    return 0;
}

int net_setsockopt(int fd, int level, int name, const void *value, socklen_t length) {
    (void)level, (void)name, (void)value, (void)length;
    socket_of(fd);
    return 0;
}

int net_ioctl(int fd, unsigned long request, ...) {
    (void)request;
    socket_of(fd);
    return 0;
}

ssize_t net_recvfrom(int fd, void *bytes, size_t room, int flags, struct sockaddr *from, socklen_t *size) {
    Socket *own = socket_of(fd);
    if (!(flags & MSG_TRUNC) || *size < sizeof(struct sockaddr_in)) abort();
    if (fails(NET_RECEIVE)) return -1;
    if (!own->count) {
        errno = EAGAIN;
        return -1;
    }
    spins = 0;
    const NetDatagram *first = &own->brought[0];
    const struct sockaddr_in at = at_port(first->from);
    ssize_t length = (ssize_t)first->length;
    memcpy(bytes, first->bytes, first->length < room ? first->length : room);
    memcpy(from, &at, sizeof at);
    *size = sizeof at;
    forget(own->brought, &own->count, 0);
    return length;
}

static void fly(uint16_t from, const struct sockaddr_in *to, const uint8_t *bytes, size_t length) {
    spins = 0;
    const NetDatagram one = {sent++, clock_ms, 0, from, ntohs(to->sin_port), length, (uint8_t *)(uintptr_t)bytes};
    keep(flying, &flying_count, FLYING, &one);
}

ssize_t net_sendto(int fd, const void *bytes, size_t length, int flags, const struct sockaddr *to, socklen_t size) {
    (void)flags;
    if (size < sizeof(struct sockaddr_in)) abort();
    if (fails(NET_SEND) || fails_to((const struct sockaddr_in *)to, unreachable.one)) return -1;
    fly(socket_of(fd)->port, (const struct sockaddr_in *)to, bytes, length);
    calls_sent++;
    return (ssize_t)length;
}

/* The parts as one datagram. */
static ssize_t send_whole(int fd, const struct msghdr *message, int flags) {
    static uint8_t whole[1 << 16];
    size_t length = 0;
    for (size_t i = 0; i < message->msg_iovlen; i++) {
        const struct iovec *part = &message->msg_iov[i];
        if (part->iov_len > sizeof whole - length) abort();
        memcpy(whole + length, part->iov_base, part->iov_len);
        length += part->iov_len;
    }
    return net_sendto(fd, whole, length, flags, message->msg_name, message->msg_namelen);
}

/* A train of parts of one length but for the last, as the system takes it. */
ssize_t net_sendmsg(int fd, const struct msghdr *message, int flags) {
    ssize_t whole = 0;
    if (!socket_of(fd)->cuts) return send_whole(fd, message, flags);
    if (fails(NET_TRAIN) || fails_to(message->msg_name, unreachable.train)) {
        trains_refused++;
        return -1;
    }
    const struct cmsghdr *head = CMSG_FIRSTHDR(message);
    uint16_t length;
    if (!head || head->cmsg_type != UDP_SEGMENT || !message->msg_iovlen || message->msg_iovlen > 64) abort();
    memcpy(&length, CMSG_DATA(head), sizeof length);
    for (size_t i = 0; i < message->msg_iovlen; i++) {
        const struct iovec *part = &message->msg_iov[i];
        if (part->iov_len > length || (i + 1 < message->msg_iovlen && part->iov_len != length)) abort();
        fly(socket_of(fd)->port, message->msg_name, part->iov_base, part->iov_len);
        whole += (ssize_t)part->iov_len;
    }
    if (whole > 65507) abort();
    trains_sent++;
    calls_sent++;
    return whole;
}

/* Time goes on while nothing is there. A host that is woken again and again for nothing fills a processor. */
int net_poll(struct pollfd *asked, nfds_t count, int ms) {
    if (count && socket_of(asked->fd)->count) return 1;
    if (fails(NET_WAIT)) return -1;
    clock_ms += ms > 0 ? (unsigned)ms : 1;
    spins = ms > 0 || !count ? 0 : spins + 1;
    if (spins > SPINS) abort();
    return 0;
}

int net_clock_gettime(clockid_t which, struct timespec *t) {
    (void)which;
    *t = (struct timespec){(time_t)(clock_ms / 1000), (long)(clock_ms % 1000) * 1000000};
    return 0;
}

/* Bytes that are the same in each run. */
static void draw(uint8_t *bytes, size_t length) {
    for (size_t i = 0; i < length; i++) bytes[i] = (uint8_t)(++drawn * 0x9E3779B97F4A7C15u >> 40);
}

ssize_t net_getrandom(void *bytes, size_t length, unsigned flags) {
    (void)flags;
    if (fails(NET_DRAW)) return -1;
    draw(bytes, length);
    return (ssize_t)length;
}

int net_getentropy(void *bytes, size_t length) {
    draw(bytes, length);
    return 0;
}

static bool is_refused(void) {
    if (!memory_calls) return false;
    if (memory_after) return memory_after--, false;
    memory_calls--;
    return true;
}

void *net_malloc(size_t size) { return is_refused() ? NULL : malloc(size); }
void *net_calloc(size_t count, size_t size) { return is_refused() ? NULL : calloc(count, size); }
void *net_realloc(void *block, size_t size) { return is_refused() ? NULL : realloc(block, size); }
void *net_aligned_alloc(size_t alignment, size_t size) { return is_refused() ? NULL : aligned_alloc(alignment, size); }

#ifdef REFERENCE
/* The reference library, a shared object, calls the system by its names: the program has them (-rdynamic). */
int socket(int family, int type, int protocol) { return net_socket(family, type, protocol); }
int close(int fd) { return net_close(fd); }
int bind(int fd, const struct sockaddr *at, socklen_t length) { return net_bind(fd, at, length); }
int getsockname(int fd, struct sockaddr *restrict at, socklen_t *restrict length) { return net_getsockname(fd, at, length); }
int ioctl(int fd, unsigned long request, ...) { return net_ioctl(fd, request); }
int poll(struct pollfd *asked, nfds_t count, int ms) { return net_poll(asked, count, ms); }

int setsockopt(int fd, int level, int name, const void *value, socklen_t length) { return net_setsockopt(fd, level, name, value, length); }

int gettimeofday(struct timeval *restrict t, void *restrict zone) {
    (void)zone;
    *t = (struct timeval){(time_t)(clock_ms / 1000), (suseconds_t)(clock_ms % 1000) * 1000};
    return 0;
}

ssize_t sendmsg(int fd, const struct msghdr *message, int flags) { return send_whole(fd, message, flags); }

ssize_t recvmsg(int fd, struct msghdr *message, int flags) {
    socklen_t size = message->msg_namelen;
    ssize_t length = net_recvfrom(fd, message->msg_iov->iov_base, message->msg_iov->iov_len, flags | MSG_TRUNC, message->msg_name, &size);
    message->msg_flags = length > (ssize_t)message->msg_iov->iov_len ? MSG_TRUNC : 0;
    return length;
}
#endif
