/* The calls of libenet's tutorial, in its order: `tutorial serve PORT` waits for a client and sends back what it says, `tutorial visit PORT`
 * connects, says "packetfoo" and leaves. Status 0 where each step came as the tutorial says. Compiled against either library's header. */
#include <enet/enet.h>
#include <stdio.h>
#include <stdlib.h>
#include <string.h>

static int serve(ENetAddress address) {
    ENetEvent event;
    int steps = 0;
    ENetHost *server = enet_host_create(&address, 32, 2, 0, 0);
    if (server == NULL) return 1;
    while (steps != 3 && enet_host_service(server, &event, 10000) > 0) {
        if (event.type == ENET_EVENT_TYPE_CONNECT && steps == 0) {
            event.peer->data = "Client information";
            steps = event.data == 42 ? 1 : -1;
        } else if (event.type == ENET_EVENT_TYPE_RECEIVE && steps == 1) {
            int is_right = event.packet->dataLength == sizeof "packetfoo" && event.channelID == 0 &&
                           !strcmp((char *)event.packet->data, "packetfoo") && !strcmp(event.peer->data, "Client information");
            enet_host_broadcast(server, 1, enet_packet_create(event.packet->data, event.packet->dataLength, ENET_PACKET_FLAG_RELIABLE));
            enet_packet_destroy(event.packet);
            steps = is_right ? 2 : -1;
        } else {
            steps = event.type == ENET_EVENT_TYPE_DISCONNECT && steps == 2 && event.data == 7 ? 3 : -1;
            event.peer->data = NULL;
        }
    }
    enet_host_flush(server);
    enet_host_destroy(server);
    return steps == 3 ? 0 : 1;
}

/* Disconnects as the tutorial does: packets that still come are dropped, and a peer that doesn't answer within 30 seconds is reset. */
static int leave(ENetHost *client, ENetPeer *peer) {
    ENetEvent event;
    enet_peer_disconnect(peer, 7);
    while (enet_host_service(client, &event, 30000) > 0) {
        if (event.type == ENET_EVENT_TYPE_RECEIVE) enet_packet_destroy(event.packet);
        if (event.type == ENET_EVENT_TYPE_DISCONNECT) return 0;
    }
    enet_peer_reset(peer);
    return 1;
}

static int visit(ENetAddress address) {
    ENetEvent event;
    ENetHost *client = enet_host_create(NULL, 1, 2, 0, 0);
    if (client == NULL) return 1;
    ENetPeer *peer = enet_host_connect(client, &address, 2, 42);
    if (peer == NULL) return 1;
    if (enet_host_service(client, &event, 60000) <= 0 || event.type != ENET_EVENT_TYPE_CONNECT) {
        enet_peer_reset(peer);
        return 1;
    }
    ENetPacket *packet = enet_packet_create("packet", strlen("packet") + 1, ENET_PACKET_FLAG_RELIABLE);
    enet_packet_resize(packet, strlen("packetfoo") + 1);
    strcpy((char *)&packet->data[strlen("packet")], "foo");
    enet_peer_send(peer, 0, packet);
    enet_host_flush(client);
    int came = enet_host_service(client, &event, 60000) > 0 && event.type == ENET_EVENT_TYPE_RECEIVE && event.channelID == 1 &&
               event.packet->dataLength == sizeof "packetfoo" && !strcmp((char *)event.packet->data, "packetfoo");
    if (came) enet_packet_destroy(event.packet);
    int left = leave(client, peer);
    enet_host_destroy(client);
    return came && left == 0 ? 0 : 1;
}

int main(int argc, char **argv) {
    if (argc != 3 || enet_initialize() != 0) return 2;
    atexit(enet_deinitialize);
    ENetAddress address = {.port = (enet_uint16)atoi(argv[2])};
    if (enet_address_set_host(&address, "127.0.0.1") != 0) return 2;
    return strcmp(argv[1], "serve") == 0 ? serve(address) : visit(address);
}
