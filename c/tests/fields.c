/* Prints each field of a host and of a peer that programs may read, at four moments of one conversation: the hosts are made, connected, have
 * talked, and are apart. What the clock or chance makes is told in words. Compiled against either library's header:
 * scripts/check/check-c.sh compares what both print, and c/tests/fields.differ names each field that differs, with the reason. */
#include <enet/enet.h>
#include <stdbool.h>
#include <stdio.h>
#include <stdlib.h>
#include <string.h>

enum { LIMIT_MS = 20000, PACKETS = 20, LENGTH = 500 };

static const char *moment, *side;

static void number(const char *name, unsigned long value) { printf("%s %s %s %lu\n", moment, side, name, value); }
static void word(const char *name, const char *value) { printf("%s %s %s %s\n", moment, side, name, value); }

/* A moment of the library's clock. */
static void time_of(const char *name, enet_uint32 value) {
    word(name, value == 0 ? "none" : enet_time_get() - value < 3000 ? "lately" : "long ago");
}

/* A number that grows with what goes and comes. */
static void count_of(const char *name, unsigned long value) {
    word(name, value == 0 ? "none" : "some");
}

/* A time on the loopback, in milliseconds. */
static void span_of(const char *name, enet_uint32 value) {
    if (value < 200) word(name, value == 0 ? "none" : "short");
    else number(name, value);
}

/* After some time each end has told the other its share of bandwidth, which each library shares out in its own way. */
static bool is_early(void) { return strcmp(moment, "talked") != 0; }

#define NUMBER(it, field) number(#it "." #field, (unsigned long)(it)->field)
#define WORD(it, field, value) word(#it "." #field, value)
#define TIME(it, field) time_of(#it "." #field, (it)->field)
#define COUNT(it, field) count_of(#it "." #field, (it)->field)
#define SPAN(it, field) span_of(#it "." #field, (it)->field)

static void show_host(const ENetHost *host, enet_uint16 port) {
    WORD(host, socket, host->socket == ENET_SOCKET_NULL ? "none" : "open");
    NUMBER(host, address.host);
    WORD(host, address.port, host->address.port == port ? "its port" : "another");
    NUMBER(host, incomingBandwidth), NUMBER(host, outgoingBandwidth), TIME(host, bandwidthThrottleEpoch), NUMBER(host, mtu);
    WORD(host, randomSeed, host->randomSeed ? "drawn" : "0");
    if (!strcmp(moment, "made")) NUMBER(host, recalculateBandwidthLimits);
    NUMBER(host, peerCount), NUMBER(host, channelLimit), TIME(host, serviceTime);
    WORD(host, checksum, host->checksum ? "set" : "none");
    WORD(host, compressor.context, host->compressor.context ? "set" : "none");
    WORD(host, receivedAddress.port, host->receivedAddress.port ? "a port" : "none");
    WORD(host, receivedData, !host->receivedData ? "none" : host->receivedData == host->packetData[0] ? "in packetData" : "elsewhere");
    COUNT(host, receivedDataLength);
    COUNT(host, totalSentData), COUNT(host, totalSentPackets), COUNT(host, totalReceivedData), COUNT(host, totalReceivedPackets);
    WORD(host, intercept, host->intercept ? "set" : "none");
    NUMBER(host, connectedPeers), NUMBER(host, duplicatePeers);
    if (is_early()) NUMBER(host, bandwidthLimitedPeers);
    NUMBER(host, maximumPacketSize), NUMBER(host, maximumWaitingData);
}

/* The connect id as it stood in the CONNECT that came. */
static enet_uint32 connect_id;

static int ENET_CALLBACK intercept(ENetHost *host, ENetEvent *event) {
    (void)event;
    if (host->receivedDataLength == 52 && (host->receivedData[4] & 0xF) == 2) memcpy(&connect_id, host->receivedData + 44, sizeof connect_id);
    return 0;
}

static void show_peer(const ENetHost *host, const ENetPeer *peer, enet_uint16 port, const void *data) {
    WORD(peer, host, peer->host == host ? "its host" : "another");
    NUMBER(peer, outgoingPeerID), NUMBER(peer, incomingPeerID), NUMBER(peer, outgoingSessionID), NUMBER(peer, incomingSessionID);
    WORD(peer, connectID, peer->connectID == 0 ? "none" : peer->connectID == connect_id ? "as on the wire" : "another");
    NUMBER(peer, address.host);
    WORD(peer, address.port, peer->address.port == port ? "the other end's" : peer->address.port ? "another" : "none");
    WORD(peer, data, peer->data == data ? "as set" : "changed");
    NUMBER(peer, state);
    WORD(peer, channels, peer->channels ? "there" : "none");
    NUMBER(peer, channelCount);
    if (is_early()) NUMBER(peer, incomingBandwidth), NUMBER(peer, outgoingBandwidth), NUMBER(peer, windowSize);
    if (is_early()) NUMBER(peer, incomingBandwidthThrottleEpoch), NUMBER(peer, outgoingBandwidthThrottleEpoch);
    if (strcmp(moment, "connected")) COUNT(peer, incomingDataTotal), COUNT(peer, outgoingDataTotal); /* else it depends on the second */
    TIME(peer, lastSendTime), TIME(peer, lastReceiveTime);
    TIME(peer, nextTimeout), TIME(peer, earliestTimeout), TIME(peer, packetLossEpoch), COUNT(peer, packetsSent);
    NUMBER(peer, packetLoss), NUMBER(peer, packetLossVariance); /* packetsLost: c/tests/alike.c, since on a busy machine a command goes twice */
    COUNT(peer, packetThrottle), NUMBER(peer, packetThrottleLimit), NUMBER(peer, packetThrottleCounter), TIME(peer, packetThrottleEpoch);
    NUMBER(peer, packetThrottleAcceleration), NUMBER(peer, packetThrottleDeceleration), NUMBER(peer, packetThrottleInterval);
    NUMBER(peer, pingInterval), NUMBER(peer, timeoutLimit), NUMBER(peer, timeoutMinimum), NUMBER(peer, timeoutMaximum);
    SPAN(peer, lastRoundTripTime), SPAN(peer, lowestRoundTripTime), SPAN(peer, lastRoundTripTimeVariance);
    SPAN(peer, highestRoundTripTimeVariance), SPAN(peer, roundTripTime), SPAN(peer, roundTripTimeVariance);
    NUMBER(peer, mtu), NUMBER(peer, reliableDataInTransit), NUMBER(peer, eventData), NUMBER(peer, totalWaitingData);
}

static ENetHost *hosts[2];
static int mark[2];

static void show(const char *when) {
    moment = when;
    for (int i = 0; i < 2; i++) {
        side = i ? "server" : "client";
        show_host(hosts[i], hosts[i]->address.port);
        enet_uint16 port = hosts[1 - i]->address.port;
        show_peer(hosts[i], &hosts[i]->peers[0], port, &mark[i]);
    }
}

/* Serves both until so many events of this kind and so many packets came in all, and as many milliseconds longer. */
static void until(ENetEventType type, int events, int packets, enet_uint32 longer) {
    ENetEvent event;
    int came = 0, taken = 0;
    enet_uint32 begun = enet_time_get(), done = begun;
    for (bool is_done = false; !is_done || enet_time_get() - done < longer;) {
        for (int i = 0; i < 2; i++)
            while (enet_host_service(hosts[i], &event, 1) > 0) {
                came += event.type == type;
                if (event.type == ENET_EVENT_TYPE_CONNECT) event.peer->data = &mark[i];
                if (event.type != ENET_EVENT_TYPE_RECEIVE) continue;
                taken++;
                enet_packet_destroy(event.packet);
            }
        if (!is_done) done = enet_time_get();
        is_done = is_done || (came >= events && taken >= packets);
        if (enet_time_get() - begun > LIMIT_MS) exit(1);
    }
}

static void talk(void) {
    static char body[LENGTH];
    for (int i = 0; i < PACKETS; i++)
        for (int k = 0; k < 2; k++)
            enet_peer_send(&hosts[k]->peers[0], 0, enet_packet_create(body, LENGTH, ENET_PACKET_FLAG_RELIABLE));
    until(ENET_EVENT_TYPE_NONE, 0, 2 * PACKETS, 350);
}

/* Whether each end has counted bytes since the last second began. */
static bool counts(void) {
    for (int i = 0; i < 2; i++)
        if (hosts[i]->peers[0].incomingDataTotal < 1000 || hosts[i]->peers[0].outgoingDataTotal < 1000) return false;
    return true;
}

int main(void) {
    if (enet_initialize() != 0) return 2;
    ENetAddress home = {.port = ENET_PORT_ANY};
    enet_address_set_host_ip(&home, "127.0.0.1");
    hosts[0] = enet_host_create(&home, 1, 5, 60000, 70000);
    hosts[1] = enet_host_create(&home, 2, 3, 0, 0);
    if (!hosts[0] || !hosts[1]) return 2;
    for (int i = 0; i < 2; i++) hosts[i]->peers[0].data = &mark[i];
    hosts[1]->intercept = intercept;
    show("made");
    ENetPeer *peer = enet_host_connect(hosts[0], &hosts[1]->address, 5, 815);
    if (!peer) return 1;
    until(ENET_EVENT_TYPE_CONNECT, 2, 0, 0);
    show("connected");
    do talk();
    while (!counts());
    show("talked");
    enet_peer_disconnect(peer, 7);
    until(ENET_EVENT_TYPE_DISCONNECT, 2, 0, 0);
    show("apart");
    for (int i = 0; i < 2; i++) enet_host_destroy(hosts[i]);
    return 0;
}
