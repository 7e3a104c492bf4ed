/* Hosts: how they are made, what may be set, and their end. */
#include "layer.h"
#include <fcntl.h>
#include <string.h>
#include <sys/random.h>
#include <unistd.h>

static void link_marks(ENetPeer *peer, Marks *marks) {
    link_mark(&peer->outgoingCommands, &marks->queued);
    link_mark(&peer->sentReliableCommands, &marks->sent);
    link_mark(&peer->dispatchedCommands, &marks->kept);
}

static void show_host(ENetHost *host, const ENetAddress *address, const gofnjerta_config *config) {
    if (address && enet_socket_get_address(host->socket, &host->address) < 0) host->address = *address;
    host->incomingBandwidth = config->incoming;
    host->outgoingBandwidth = config->outgoing;
    host->mtu = config->mtu;
    host->maximumPacketSize = config->max_packet;
    host->maximumWaitingData = config->max_waiting;
    host->duplicatePeers = ENET_PROTOCOL_MAXIMUM_PEER_ID;
    host->randomSeed = enet_host_random_seed();
    take_mark(&host->dispatchQueue);
    for (size_t i = 0; i < config->peers; i++) {
        Slot *slot = &layer_of(host)->slots[i];
        host->peers[i].host = host;
        host->peers[i].incomingPeerID = (enet_uint16)i;
        slot->name.generation = slot->seen.generation = slot->parked = UINT32_MAX;
        link_marks(&host->peers[i], &layer_of(host)->marks[i]);
        layer_forget(layer_of(host), &host->peers[i]);
    }
}

static bool open_socket(ENetHost *host, const ENetAddress *address) {
    host->socket = enet_socket_create(ENET_SOCKET_TYPE_DATAGRAM);
    if (host->socket == ENET_SOCKET_NULL) return false;
    if (address && enet_socket_bind(host->socket, address) < 0) return false;
    enet_socket_set_option(host->socket, ENET_SOCKOPT_NONBLOCK, 1);
    enet_socket_set_option(host->socket, ENET_SOCKOPT_BROADCAST, 1);
    enet_socket_set_option(host->socket, ENET_SOCKOPT_RCVBUF, ENET_HOST_RECEIVE_BUFFER_SIZE);
    enet_socket_set_option(host->socket, ENET_SOCKOPT_SNDBUF, ENET_HOST_SEND_BUFFER_SIZE);
    return true;
}

/* Opens the core, in which whoever waits longest for its client gives way to newcomers; with a secret, by which no stranger can guess its
 * sent times and numbers. Where the system has none to give, without. */
static bool open_core(gofnjerta_host *core, const gofnjerta_config *config) {
    uint8_t key[32];
    if (gofnjerta_open(core, config)) return false;
    gofnjerta_give_way(core);
    if (getentropy(key, sizeof key) == 0) gofnjerta_set_secret(core, key);
    return true;
}

static bool make_slots(Layer *layer, size_t count) {
    layer->host.peers = calloc(count, sizeof *layer->host.peers);
    layer->slots = aligned_alloc(_Alignof(Slot), count * sizeof *layer->slots);
    layer->marks = calloc(count, sizeof *layer->marks);
    if (layer->slots) memset(layer->slots, 0, count * sizeof *layer->slots);
    return layer->host.peers && layer->slots && layer->marks;
}

/* A host with no peers has one in the core, where none comes. */
ENetHost *enet_host_create(const ENetAddress *address, size_t peers, size_t channels, enet_uint32 incoming, enet_uint32 outgoing) {
    if (peers > ENET_PROTOCOL_MAXIMUM_PEER_ID) return NULL;
    Layer *layer = calloc(1, sizeof *layer);
    if (!layer) return NULL;
    layer->host.socket = layer->asked = ENET_SOCKET_NULL;
    gofnjerta_config config = gofnjerta_standard((uint16_t)ENET_MAX(peers, 1), ENET_PROTOCOL_MAXIMUM_CHANNEL_COUNT);
    config.mtu = ENET_HOST_DEFAULT_MTU;
    config.incoming = incoming;
    config.outgoing = outgoing;
    config.generations = UINT32_MAX;
    config.clock = (uint32_t)(layer->clock = layer_now());
    layer->full_at = UINT64_MAX;
    if (!make_slots(layer, config.peers) || !open_socket(&layer->host, address) || !open_core(&layer->core, &config)) {
        enet_host_destroy(&layer->host);
        return NULL;
    }
    layer->config = config;
    show_host(&layer->host, address, &config);
    layer->host.peerCount = peers;
    enet_host_channel_limit(&layer->host, channels);
    return &layer->host;
}

void enet_host_destroy(ENetHost *host) {
    if (!host) return;
    Layer *layer = layer_of(host);
    layer->ends = true;
    for (size_t i = 0; i < layer->config.peers; i++) host->peers[i].state = ENET_PEER_STATE_DISCONNECTED;
    layer_release(layer, 0);
    for (size_t i = 0; i < layer->config.peers; i++) {
        layer_drop_kept(layer, &host->peers[i]);
        free(layer->slots[i].highest);
    }
    enet_host_compress(host, NULL);
    gofnjerta_close(&layer->core);
    enet_socket_destroy(host->socket);
    free(layer->sent);
    free(layer->slots);
    free(layer->marks);
    free(host->peers);
    free(layer);
}

/* Whether all that the program's fields ask for is offered. */
static bool is_offered(const Layer *layer) {
    const ENetHost *host = &layer->host;
    enet_uint32 longest = layer->begun ? layer->config.mtu : ENET_PROTOCOL_MAXIMUM_MTU;
    return host->mtu >= ENET_PROTOCOL_MINIMUM_MTU && host->mtu <= longest && host->peerCount <= layer->config.peers && host->channelLimit > 0 &&
           host->maximumPacketSize <= GOFNJERTA_MAX_PACKET && host->maximumWaitingData > 0;
}

/* Opens the core anew with the settings of its own, where they changed before it began. */
static bool begin(Layer *layer) {
    gofnjerta_config wanted = layer->config;
    wanted.mtu = layer->host.mtu;
    wanted.max_waiting = (uint32_t)ENET_MIN(layer->host.maximumWaitingData, GOFNJERTA_MAX_PACKET);
    if (wanted.mtu != layer->config.mtu || wanted.max_waiting != layer->config.max_waiting) {
        gofnjerta_host core = {0};
        if (!open_core(&core, &wanted)) return false;
        gofnjerta_close(&layer->core);
        layer->core = core;
        layer->config = wanted;
    }
    return layer->begun = true;
}

bool layer_is_ready(Layer *layer) {
    return !layer->ends && is_offered(layer) && (layer->begun || begin(layer));
}

void enet_host_bandwidth_limit(ENetHost *host, enet_uint32 incoming, enet_uint32 outgoing) {
    if (gofnjerta_set_bandwidth(&layer_of(host)->core, incoming, outgoing)) return;
    host->incomingBandwidth = layer_of(host)->config.incoming = incoming;
    host->outgoingBandwidth = layer_of(host)->config.outgoing = outgoing;
}

void enet_host_channel_limit(ENetHost *host, size_t channels) {
    if (channels < 1 || channels > ENET_PROTOCOL_MAXIMUM_CHANNEL_COUNT) channels = ENET_PROTOCOL_MAXIMUM_CHANNEL_COUNT;
    host->channelLimit = channels;
}

void enet_host_compress(ENetHost *host, const ENetCompressor *compressor) {
    if (host->compressor.context && host->compressor.destroy) host->compressor.destroy(host->compressor.context);
    host->compressor = compressor ? *compressor : (ENetCompressor){0};
}

void enet_host_bandwidth_throttle(ENetHost *host) { (void)host; }

enet_uint32 enet_host_random_seed(void) {
    enet_uint32 seed;
    return getrandom(&seed, sizeof seed, 0) == sizeof seed ? seed : (enet_uint32)layer_now();
}
