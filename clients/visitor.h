// A program's host, and its way to the server.
#ifndef VISITOR_H
#define VISITOR_H

#include <enet/enet.h>

#include "common.h"

// A host that asks the server at the port which is the first argument, of 127.0.0.1, for a connection with two channels, to `peer`.
static inline ENetHost *visit(int count, char **words, ENetPeer **peer)
{
    ENetAddress address = { .port = (enet_uint16)number_of(count, words, 1, 1, 65535) };
    enet_address_set_host_ip(&address, "127.0.0.1");
    ENetHost *host = enet_initialize() == 0 ? enet_host_create(NULL, 1, 2, 0, 0) : NULL;
    *peer = host == NULL ? NULL : enet_host_connect(host, &address, 2, 0);
    if (*peer == NULL)
        give_up("there is no host");
    return host;
}

#endif
