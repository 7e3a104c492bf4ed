/* A host is served: the clock goes on, datagrams go and come, and the next event is told. */
#include "layer.h"
#include <errno.h>
#include <limits.h>
#include <poll.h>

/* Once a second the bytes that went and came are counted anew. */
static void count_anew(ENetHost *host) {
    if (host->serviceTime - host->bandwidthThrottleEpoch < ENET_HOST_BANDWIDTH_THROTTLE_INTERVAL) return;
    host->bandwidthThrottleEpoch = host->serviceTime;
    for (size_t i = 0; i < layer_of(host)->config.peers; i++) host->peers[i].incomingDataTotal = host->peers[i].outgoingDataTotal = 0;
}

/* The clock goes on to now, and what the program wrote into the host's fields counts. */
void layer_go_on(Layer *layer) {
    uint64_t now = layer_now();
    const ENetHost *host = &layer->host;
    if (host->incomingBandwidth != layer->config.incoming || host->outgoingBandwidth != layer->config.outgoing)
        enet_host_bandwidth_limit(&layer->host, host->incomingBandwidth, host->outgoingBandwidth);
    layer->host.serviceTime = (enet_uint32)(now - layer_clock_base);
    while (layer->clock < now) {
        uint64_t ms = now - layer->clock > 60000 ? 60000 : now - layer->clock;
        gofnjerta_tick(&layer->core, (uint32_t)ms);
        layer->may_tell = true;
        layer->clock += ms;
    }
    if (now - layer->refreshed < REFRESH_MS) return;
    layer->refreshed = now;
    count_anew(&layer->host);
    layer->is_stale = true;
}

/* For how many milliseconds of the caller's time nothing is due, once all was sent that the core gives. */
static int idle_ms(Layer *layer, uint64_t end) {
    uint32_t due = 0;
    if (gofnjerta_due_in(&layer->core, &due)) return 0;
    uint64_t wake = layer->clock + due < end ? layer->clock + due : end, now = layer_now();
    return wake > now ? (int)(wake - now) : 0;
}

/* Tells what came. A program that asks for no event finds in its peers' fields what there is. */
static int tell(Layer *layer, ENetEvent *event) {
    if (event) return layer_tell(layer, event);
    layer_keep_all(layer);
    return 0;
}

int enet_host_service(ENetHost *host, ENetEvent *event, enet_uint32 timeout) {
    Layer *layer = layer_of(host);
    layer->has_failed = false;
    layer_release(layer, ENET_PACKET_FLAG_SENT);
    if (event) {
        int told = enet_host_check_events(host, event);
        if (told) return told;
    }
    if (!layer_is_ready(layer)) {
        /* A program that asks again and again is not to fill a processor. */
        poll(NULL, 0, timeout > INT_MAX ? INT_MAX : (int)timeout);
        return -1;
    }
    layer_go_on(layer);
    uint64_t end = layer->clock + timeout;
    layer_put_out(layer);
    bool has_waited = false;
    for (int ready = 1;; has_waited = true) {
        if (layer->has_failed) return -1;
        int came = 0, answer = ready ? layer_take_in(layer, event, &came) : 0;
        if (answer) return answer;
        if (came || has_waited) layer_put_out(layer);
        if (layer->has_failed) return -1;
        int told = tell(layer, event);
        if (told) return told;
        if (layer->clock >= end) return 0;
        struct pollfd asked = {.fd = host->socket, .events = POLLIN};
        ready = poll(&asked, 1, idle_ms(layer, end));
        if (ready < 0 && errno != EINTR) return -1;
        layer_go_on(layer);
    }
}

void enet_host_flush(ENetHost *host) {
    Layer *layer = layer_of(host);
    if (!layer_is_ready(layer)) return;
    layer_release(layer, ENET_PACKET_FLAG_SENT);
    layer_go_on(layer);
    layer_put_out(layer);
}
