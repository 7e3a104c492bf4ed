/* The library as such, time, addresses and sockets. */
#include "layer.h"
#include <errno.h>
#include <netdb.h>
#include <netinet/tcp.h>
#include <poll.h>
#include <string.h>
#include <sys/ioctl.h>
#include <time.h>

uint64_t layer_clock_base;
ENetCallbacks layer_callbacks = {malloc, free, NULL};
bool layer_has_allocator;

uint64_t layer_now(void) {
    struct timespec t;
    clock_gettime(CLOCK_MONOTONIC, &t);
    return (uint64_t)t.tv_sec * 1000 + (uint64_t)t.tv_nsec / 1000000;
}

int enet_initialize(void) { return 0; }

int enet_initialize_with_callbacks(ENetVersion version, const ENetCallbacks *given) {
    if (version < ENET_VERSION_CREATE(1, 3, 0)) return -1;
    if ((given->malloc == NULL) != (given->free == NULL)) return -1;
    if (given->malloc) {
        layer_callbacks.malloc = given->malloc;
        layer_callbacks.free = given->free;
    }
    layer_has_allocator = layer_callbacks.malloc != malloc || layer_callbacks.free != free;
    layer_callbacks.no_memory = given->no_memory;
    return enet_initialize();
}

void enet_deinitialize(void) {}
ENetVersion enet_linked_version(void) { return ENET_VERSION; }
void *enet_malloc(size_t size) { return layer_callbacks.malloc(size); }
void enet_free(void *memory) { layer_callbacks.free(memory); }
enet_uint32 enet_time_get(void) { return (enet_uint32)(layer_now() - layer_clock_base); }
void enet_time_set(enet_uint32 time) { layer_clock_base = layer_now() - time; }

int enet_address_set_host_ip(ENetAddress *address, const char *name) {
    return inet_pton(AF_INET, name, &address->host) == 1 ? 0 : -1;
}

int enet_address_set_host(ENetAddress *address, const char *name) {
    struct addrinfo hints = {.ai_family = AF_INET}, *found = NULL;
    if (getaddrinfo(name, NULL, &hints, &found) == 0 && found) {
        address->host = ((struct sockaddr_in *)found->ai_addr)->sin_addr.s_addr;
        freeaddrinfo(found);
        return 0;
    }
    return enet_address_set_host_ip(address, name);
}

int enet_address_get_host_ip(const ENetAddress *address, char *name, size_t length) {
    return inet_ntop(AF_INET, &address->host, name, (socklen_t)length) ? 0 : -1;
}

int enet_address_get_host(const ENetAddress *address, char *name, size_t length) {
    struct sockaddr_in at = {.sin_family = AF_INET, .sin_port = htons(address->port), .sin_addr.s_addr = address->host};
    int failed = getnameinfo((struct sockaddr *)&at, sizeof at, name, (socklen_t)length, NULL, 0, NI_NAMEREQD);
    if (failed == 0) return memchr(name, 0, length) ? 0 : -1;
    return failed == EAI_NONAME ? enet_address_get_host_ip(address, name, length) : -1;
}

static struct sockaddr_in at_address(const ENetAddress *address) {
    struct sockaddr_in at = {.sin_family = AF_INET, .sin_addr.s_addr = INADDR_ANY};
    if (address) {
        at.sin_port = htons(address->port);
        at.sin_addr.s_addr = address->host;
    }
    return at;
}

ENetSocket enet_socket_create(ENetSocketType type) {
    return socket(AF_INET, type == ENET_SOCKET_TYPE_DATAGRAM ? SOCK_DGRAM : SOCK_STREAM, 0);
}

int enet_socket_bind(ENetSocket fd, const ENetAddress *address) {
    struct sockaddr_in at = at_address(address);
    return bind(fd, (struct sockaddr *)&at, sizeof at);
}

int enet_socket_get_address(ENetSocket fd, ENetAddress *address) {
    struct sockaddr_in at;
    socklen_t length = sizeof at;
    if (getsockname(fd, (struct sockaddr *)&at, &length) < 0) return -1;
    address->host = at.sin_addr.s_addr;
    address->port = ntohs(at.sin_port);
    return 0;
}

int enet_socket_send(ENetSocket fd, const ENetAddress *address, const ENetBuffer *buffers, size_t count) {
    struct sockaddr_in at = at_address(address);
    struct msghdr message = {.msg_iov = (struct iovec *)(uintptr_t)buffers, .msg_iovlen = count};
    if (address) {
        message.msg_name = &at;
        message.msg_namelen = sizeof at;
    }
    ssize_t sent = sendmsg(fd, &message, MSG_NOSIGNAL);
    if (sent < 0) return errno == EWOULDBLOCK || errno == EAGAIN ? 0 : -1;
    return (int)sent;
}

int enet_socket_receive(ENetSocket fd, ENetAddress *address, ENetBuffer *buffers, size_t count) {
    struct sockaddr_in at;
    struct msghdr message = {.msg_iov = (struct iovec *)buffers, .msg_iovlen = count};
    if (address) {
        message.msg_name = &at;
        message.msg_namelen = sizeof at;
    }
    ssize_t came = recvmsg(fd, &message, MSG_NOSIGNAL);
    if (came < 0) return errno == EWOULDBLOCK || errno == EAGAIN ? 0 : -1;
    if (message.msg_flags & MSG_TRUNC) return -2;
    if (address) {
        address->host = at.sin_addr.s_addr;
        address->port = ntohs(at.sin_port);
    }
    return (int)came;
}

int enet_socket_wait(ENetSocket fd, enet_uint32 *condition, enet_uint32 timeout) {
    struct pollfd asked = {.fd = fd};
    if (*condition & ENET_SOCKET_WAIT_SEND) asked.events |= POLLOUT;
    if (*condition & ENET_SOCKET_WAIT_RECEIVE) asked.events |= POLLIN;
    int ready = poll(&asked, 1, (int)timeout);
    if (ready < 0) {
        if (errno != EINTR || !(*condition & ENET_SOCKET_WAIT_INTERRUPT)) return -1;
        *condition = ENET_SOCKET_WAIT_INTERRUPT;
        return 0;
    }
    *condition = ENET_SOCKET_WAIT_NONE;
    if (asked.revents & POLLOUT) *condition |= ENET_SOCKET_WAIT_SEND;
    if (asked.revents & POLLIN) *condition |= ENET_SOCKET_WAIT_RECEIVE;
    return 0;
}

int enet_socket_set_option(ENetSocket fd, ENetSocketOption option, int value) {
    struct timeval limit = {value / 1000, value % 1000 * 1000};
    switch (option) {
    case ENET_SOCKOPT_NONBLOCK: return ioctl(fd, FIONBIO, &value);
    case ENET_SOCKOPT_BROADCAST: return setsockopt(fd, SOL_SOCKET, SO_BROADCAST, &value, sizeof value);
    case ENET_SOCKOPT_RCVBUF: return setsockopt(fd, SOL_SOCKET, SO_RCVBUF, &value, sizeof value);
    case ENET_SOCKOPT_SNDBUF: return setsockopt(fd, SOL_SOCKET, SO_SNDBUF, &value, sizeof value);
    case ENET_SOCKOPT_REUSEADDR: return setsockopt(fd, SOL_SOCKET, SO_REUSEADDR, &value, sizeof value);
    case ENET_SOCKOPT_RCVTIMEO: return setsockopt(fd, SOL_SOCKET, SO_RCVTIMEO, &limit, sizeof limit);
    case ENET_SOCKOPT_SNDTIMEO: return setsockopt(fd, SOL_SOCKET, SO_SNDTIMEO, &limit, sizeof limit);
    case ENET_SOCKOPT_NODELAY: return setsockopt(fd, IPPROTO_TCP, TCP_NODELAY, &value, sizeof value);
    default: return -1;
    }
}

int enet_socket_get_option(ENetSocket fd, ENetSocketOption option, int *value) {
    socklen_t length = sizeof *value;
    if (option != ENET_SOCKOPT_ERROR) return -1;
    return getsockopt(fd, SOL_SOCKET, SO_ERROR, value, &length);
}

int enet_socket_connect(ENetSocket fd, const ENetAddress *address) {
    struct sockaddr_in at = at_address(address);
    return connect(fd, (struct sockaddr *)&at, sizeof at) < 0 && errno != EINPROGRESS ? -1 : 0;
}

int enet_socket_listen(ENetSocket fd, int backlog) { return listen(fd, backlog < 0 ? SOMAXCONN : backlog); }

ENetSocket enet_socket_accept(ENetSocket fd, ENetAddress *address) {
    struct sockaddr_in at;
    socklen_t length = sizeof at;
    int came = accept(fd, address ? (struct sockaddr *)&at : NULL, address ? &length : NULL);
    if (came < 0) return ENET_SOCKET_NULL;
    if (address) {
        address->host = at.sin_addr.s_addr;
        address->port = ntohs(at.sin_port);
    }
    return came;
}

int enet_socket_shutdown(ENetSocket fd, ENetSocketShutdown how) { return shutdown(fd, (int)how); }

void enet_socket_destroy(ENetSocket fd) {
    if (fd != ENET_SOCKET_NULL) close(fd);
}

int enet_socketset_select(ENetSocket most, ENetSocketSet *readable, ENetSocketSet *writable, enet_uint32 timeout) {
    struct timeval limit = {timeout / 1000, timeout % 1000 * 1000};
    return select(most + 1, readable, writable, NULL, &limit);
}
