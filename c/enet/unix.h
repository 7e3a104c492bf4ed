/* Sockets and byte order of a Unix system. */
#ifndef GOFNJERTA_ENET_UNIX_H
#define GOFNJERTA_ENET_UNIX_H
#include <arpa/inet.h>
#include <netinet/in.h>
#include <stdlib.h>
#include <sys/select.h>
#include <sys/socket.h>
#include <sys/time.h>
#include <sys/types.h>
#include <unistd.h>

#define ENET_API extern
#define ENET_CALLBACK

typedef int ENetSocket;
typedef struct { void *data; size_t dataLength; } ENetBuffer;
typedef fd_set ENetSocketSet;
#define ENET_SOCKET_NULL (-1)
#define ENET_SOCKETSET_EMPTY(set) FD_ZERO(&(set))
#define ENET_SOCKETSET_ADD(set, socket) FD_SET(socket, &(set))
#define ENET_SOCKETSET_REMOVE(set, socket) FD_CLR(socket, &(set))
#define ENET_SOCKETSET_CHECK(set, socket) FD_ISSET(socket, &(set))
#define ENET_HOST_TO_NET_16(value) (htons(value))
#define ENET_HOST_TO_NET_32(value) (htonl(value))
#define ENET_NET_TO_HOST_16(value) (ntohs(value))
#define ENET_NET_TO_HOST_32(value) (ntohl(value))

#endif
