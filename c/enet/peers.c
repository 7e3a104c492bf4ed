/* Peers: what the program reads of them, how they come and go, and what may be set. */
#include "layer.h"
#include <sys/random.h>

static ENetPeerState state_shown(uint32_t state, const Slot *slot) {
    switch (state) {
    case GOFNJERTA_CONNECTING: return ENET_PEER_STATE_CONNECTING;
    case GOFNJERTA_ANSWERING: return ENET_PEER_STATE_ACKNOWLEDGING_CONNECT;
    case GOFNJERTA_CONNECTED:
        if (slot->told) return ENET_PEER_STATE_CONNECTED;
        return slot->came ? ENET_PEER_STATE_CONNECTION_PENDING : ENET_PEER_STATE_CONNECTION_SUCCEEDED;
    case GOFNJERTA_DISCONNECT_LATER: return ENET_PEER_STATE_DISCONNECT_LATER;
    case GOFNJERTA_DISCONNECTING: return ENET_PEER_STATE_DISCONNECTING;
    case GOFNJERTA_ACKNOWLEDGING: return ENET_PEER_STATE_ACKNOWLEDGING_DISCONNECT;
    case GOFNJERTA_ENDED: return ENET_PEER_STATE_ZOMBIE;
    default: return ENET_PEER_STATE_DISCONNECTED;
    }
}

void layer_count(Layer *layer, ENetPeer *peer) {
    Slot *slot = slot_of(peer);
    bool counts = peer->state == ENET_PEER_STATE_CONNECTED || peer->state == ENET_PEER_STATE_DISCONNECT_LATER;
    bool is_limited = counts && peer->incomingBandwidth != 0;
    layer->host.connectedPeers += (size_t)counts - slot->is_counted;
    layer->host.bandwidthLimitedPeers += (size_t)is_limited - slot->is_limited;
    slot->is_counted = counts;
    slot->is_limited = is_limited;
}

/* What a slot's fields are with no peer. */
static void clear(ENetPeer *peer) {
    *peer = (ENetPeer){.host = peer->host, .incomingPeerID = peer->incomingPeerID, .address = peer->address, .data = peer->data,
                       .outgoingPeerID = ENET_PROTOCOL_MAXIMUM_PEER_ID};
    take_mark(&peer->acknowledgements);
    take_mark(&peer->sentReliableCommands);
    take_mark(&peer->sentUnreliableCommands);
    take_mark(&peer->outgoingCommands);
    take_mark(&peer->dispatchedCommands);
}

void layer_forget(Layer *layer, ENetPeer *peer) {
    Slot *slot = slot_of(peer);
    if (slot->ended) layer->ended--;
    slot->known = slot->told = slot->ended = slot->is_mute = slot->pings = false;
    layer_unpark(layer, peer->incomingPeerID);
    forget_way(layer);
    clear(peer);
    layer_count(layer, peer);
}

/* Gives the core what the program wrote into the fields of the ping and of the timeouts, 1 in the place of 0, which is the core's word for the
 * standard number. */
static void take_written(ENetPeer *peer) {
    const Slot *slot = slot_of(peer);
    if (peer->pingInterval != slot->ping) enet_peer_ping_interval(peer, ENET_MAX(peer->pingInterval, 1));
    if (peer->timeoutLimit == slot->timeouts[0] && peer->timeoutMinimum == slot->timeouts[1] && peer->timeoutMaximum == slot->timeouts[2]) return;
    enet_peer_timeout(peer, ENET_MAX(peer->timeoutLimit, 1), ENET_MAX(peer->timeoutMinimum, 1), ENET_MAX(peer->timeoutMaximum, 1));
}

/* The extreme round trips of an interval of the throttle, and those of the one before; as the readings have them, which are renewed every
 * 100 ms. */
static void show_extremes(ENetPeer *peer) {
    uint32_t now = peer->host->serviceTime;
    if (!peer->lastReceiveTime) return;
    peer->lowestRoundTripTime = ENET_MIN(peer->lowestRoundTripTime, peer->roundTripTime);
    peer->highestRoundTripTimeVariance = ENET_MAX(peer->highestRoundTripTimeVariance, peer->roundTripTimeVariance);
    if (peer->packetThrottleEpoch && now - peer->packetThrottleEpoch < peer->packetThrottleInterval) return;
    peer->lastRoundTripTime = peer->lowestRoundTripTime;
    peer->lastRoundTripTimeVariance = ENET_MAX(peer->highestRoundTripTimeVariance, 1);
    peer->lowestRoundTripTime = peer->roundTripTime;
    peer->highestRoundTripTimeVariance = peer->roundTripTimeVariance;
    peer->packetThrottleEpoch = now;
}

void layer_show_peer(Layer *layer, ENetPeer *peer) {
    Slot *slot = slot_of(peer);
    gofnjerta_reading read;
    if (!slot->known) return;
    if (slot->ended || gofnjerta_read_peer(&layer->core, slot->name, &read)) {
        peer->state = ENET_PEER_STATE_ZOMBIE;
        layer_count(layer, peer);
        return;
    }
    take_written(peer);
    peer->state = state_shown(read.state, slot);
    peer->outgoingPeerID = read.slot;
    peer->connectID = htonl(read.connect_id);
    peer->outgoingSessionID = read.outgoing_session;
    peer->incomingSessionID = read.incoming_session;
    peer->address.host = htonl(read.address.ip);
    peer->address.port = read.address.port;
    peer->channelCount = read.channels;
    peer->mtu = read.mtu;
    peer->windowSize = read.window;
    peer->roundTripTime = read.round_trip;
    peer->roundTripTimeVariance = read.variance;
    peer->packetThrottle = read.throttle;
    peer->packetThrottleLimit = ENET_PEER_PACKET_THROTTLE_SCALE;
    peer->packetThrottleInterval = read.throttle_interval;
    peer->packetThrottleAcceleration = read.acceleration;
    peer->packetThrottleDeceleration = read.deceleration;
    peer->reliableDataInTransit = read.in_transit;
    if (!read.in_transit) take_mark(&peer->sentReliableCommands);
    show_extremes(peer);
    layer_count(layer, peer);
}

void layer_meet(Layer *layer, gofnjerta_peer name, bool answers) {
    ENetPeer *peer = &layer->host.peers[name.slot];
    Slot *slot = &layer->slots[name.slot];
    slot->name = name;
    slot->known = true;
    slot->came = answers;
    clear(peer);
    peer->pingInterval = slot->ping = ENET_PEER_PING_INTERVAL;
    peer->timeoutLimit = slot->timeouts[0] = ENET_PEER_TIMEOUT_LIMIT;
    peer->timeoutMinimum = slot->timeouts[1] = ENET_PEER_TIMEOUT_MINIMUM;
    peer->timeoutMaximum = slot->timeouts[2] = ENET_PEER_TIMEOUT_MAXIMUM;
    peer->lastRoundTripTime = peer->lowestRoundTripTime = ENET_PEER_DEFAULT_ROUND_TRIP_TIME;
    if (answers) {
        /* Its VERIFY_CONNECT went, and was acknowledged just now. */
        peer->incomingBandwidth = slot->incoming;
        peer->outgoingBandwidth = slot->outgoing;
        peer->packetsSent = 1;
        peer->packetLossEpoch = peer->lastSendTime = peer->lastReceiveTime = ENET_MAX(layer->host.serviceTime, 1);
    }
    layer_show_peer(layer, peer);
}

/* The id of a new connection, which nobody can guess. Where the system has none to give, the next number after the host's seed, which was
 * drawn when the host was made and no other id tells. */
static uint32_t draw_id(ENetHost *host) {
    uint32_t id;
    return getrandom(&id, sizeof id, 0) == sizeof id ? id : ++host->randomSeed;
}

/* Asks the core for a connection, from a slot that the program has done with. */
static bool ask(Layer *layer, gofnjerta_address to, uint8_t channels, uint32_t data, uint32_t id, gofnjerta_peer *name) {
    return layer_make_way(layer) && gofnjerta_connect(&layer->core, to, channels, data, id, name) == GOFNJERTA_OK;
}

ENetPeer *enet_host_connect(ENetHost *host, const ENetAddress *address, size_t channels, enet_uint32 data) {
    Layer *layer = layer_of(host);
    if (channels < 1) channels = 1;
    if (channels > ENET_PROTOCOL_MAXIMUM_CHANNEL_COUNT) channels = ENET_PROTOCOL_MAXIMUM_CHANNEL_COUNT;
    if (!layer_is_ready(layer) || address->host == ENET_HOST_BROADCAST) return NULL;
    gofnjerta_address to = {ntohl(address->host), address->port};
    gofnjerta_peer name;
    uint32_t id = draw_id(host);
    if (!ask(layer, to, (uint8_t)channels, data, id, &name)) {
        /* Slots of peers that the program let go may get free. */
        if (!layer->lingering) return NULL;
        layer_drain(layer);
        if (!ask(layer, to, (uint8_t)channels, data, id, &name)) return NULL;
    }
    layer_meet(layer, name, false);
    return &host->peers[name.slot];
}

/* Until a reliable command goes, the core's interval is as short as it can be: where none is on the way, that is a ping. */
void enet_peer_ping(ENetPeer *peer) {
    Slot *slot = slot_of(peer);
    if (peer->state != ENET_PEER_STATE_CONNECTED || slot->pings) return;
    slot->pings = !gofnjerta_set_ping_interval(&layer_of(peer->host)->core, slot->name, 1);
}

void enet_peer_ping_interval(ENetPeer *peer, enet_uint32 ms) {
    Slot *slot = slot_of(peer);
    if (!slot->known) return;
    if (gofnjerta_set_ping_interval(&layer_of(peer->host)->core, slot->name, slot->pings ? 1 : ms)) return;
    peer->pingInterval = slot->ping = ms ? ms : ENET_PEER_PING_INTERVAL;
}

void enet_peer_timeout(ENetPeer *peer, enet_uint32 limit, enet_uint32 minimum, enet_uint32 maximum) {
    Slot *slot = slot_of(peer);
    if (!slot->known) return;
    if (gofnjerta_set_timeout(&layer_of(peer->host)->core, slot->name, limit, minimum, maximum)) return;
    peer->timeoutLimit = slot->timeouts[0] = limit ? limit : ENET_PEER_TIMEOUT_LIMIT;
    peer->timeoutMinimum = slot->timeouts[1] = minimum ? minimum : ENET_PEER_TIMEOUT_MINIMUM;
    peer->timeoutMaximum = slot->timeouts[2] = maximum ? maximum : ENET_PEER_TIMEOUT_MAXIMUM;
}

void enet_peer_throttle_configure(ENetPeer *peer, enet_uint32 interval, enet_uint32 acceleration, enet_uint32 deceleration) {
    if (!slot_of(peer)->known) return;
    if (gofnjerta_throttle_configure(&layer_of(peer->host)->core, slot_of(peer)->name, interval, acceleration, deceleration)) return;
    peer->packetThrottleInterval = interval;
    peer->packetThrottleAcceleration = acceleration;
    peer->packetThrottleDeceleration = deceleration;
}

/* Has a peer end whose own DISCONNECT waits to be acknowledged, once it has gone: the core is handed the other end's, which asks for no
 * answer. */
static void end_disconnecting(Layer *layer, gofnjerta_peer name) {
    gofnjerta_reading read;
    layer_put_out(layer);
    if (gofnjerta_read_peer(&layer->core, name, &read) || read.state != GOFNJERTA_DISCONNECTING) return;
    uint16_t word = (uint16_t)(name.slot | (read.incoming_session & 3) << 12);
    const uint8_t disconnect[] = {(uint8_t)(word >> 8), (uint8_t)word, 0x44, 0xFF, 0, 0, 0, 0, 0, 0};
    gofnjerta_core_receive(&layer->core, &read.address, disconnect, sizeof disconnect);
    layer->may_tell = true;
}

/* The program lets a peer go: it hears nothing more of it. The other end is told once. A connection that ends already goes on to its end in
 * the core alone. */
static void let_go(Layer *layer, ENetPeer *peer, enet_uint32 data) {
    Slot *slot = slot_of(peer);
    layer_drop_kept(layer, peer);
    if (gofnjerta_disconnect_now(&layer->core, slot->name, data) == GOFNJERTA_NOT_CONNECTED) {
        slot->lingers = true;
        layer->lingering++;
        end_disconnecting(layer, slot->name);
    }
    layer_forget(layer, peer);
    layer_put_out(layer);
    layer_release_of(layer, peer);
}

/* The slot of a peer whose connection the program was told of, which is to end; else NULL: a connection that it wasn't told of ends at once,
 * with no event. */
static Slot *slot_to_end(Layer *layer, ENetPeer *peer, enet_uint32 data) {
    Slot *slot = slot_of(peer);
    if (slot->known && slot->told) return slot;
    if (slot->known) let_go(layer, peer, data);
    return NULL;
}

void enet_peer_disconnect(ENetPeer *peer, enet_uint32 data) {
    Layer *layer = layer_of(peer->host);
    Slot *slot = slot_to_end(layer, peer, data);
    if (slot == NULL) return;
    if (gofnjerta_disconnect(&layer->core, slot->name, data)) return;
    layer_drop_kept(layer, peer);
    slot->is_mute = true;
    layer_show_peer(layer, peer);
    layer_release_of(layer, peer);
}

void enet_peer_disconnect_later(ENetPeer *peer, enet_uint32 data) {
    Layer *layer = layer_of(peer->host);
    Slot *slot = slot_to_end(layer, peer, data);
    if (slot == NULL) return;
    gofnjerta_disconnect_later(&layer->core, slot->name, data);
    layer_show_peer(layer, peer);
}

void enet_peer_disconnect_now(ENetPeer *peer, enet_uint32 data) {
    if (slot_of(peer)->known) let_go(layer_of(peer->host), peer, data);
}

void enet_peer_reset(ENetPeer *peer) { enet_peer_disconnect_now(peer, 0); }
