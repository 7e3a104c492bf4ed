/* Datagrams: those that the core gives are gathered and sent in trains that the system cuts, and those that came go to the core. */
#include "layer.h"
#include <errno.h>
#include <netinet/udp.h>
#include <string.h>

/* Channels, and 0xFF for what belongs to none. */
enum { NUMBERED = 256 };

static void put_word(uint8_t *at, uint32_t word) {
    for (int i = 0; i < 4; i++) at[i] = (uint8_t)(word >> (24 - 8 * i));
}

/* A datagram of a peer that wasn't seen before: what the layer keeps of it. If it answers a CONNECT, that may be the one that is noted. */
static void see(Layer *layer, Slot *slot, const gofnjerta_datagram *gave, const uint8_t *at) {
    Arrival *arrival = &layer->arrival;
    gofnjerta_reading read;
    bool is_answer = (at[at[0] & 0x80 ? 4 : 2] & 0xF) == 3;
    if (arrival->awaits && is_answer && arrival->from.ip == gave->to.ip && arrival->from.port == gave->to.port) {
        arrival->is_seen = true;
        arrival->slot = gave->peer.slot;
    }
    slot->seen = gave->peer;
    slot->at = gave->to;
    slot->cut_below = UINT16_MAX;
    slot->connect_id = gofnjerta_read_peer(&layer->core, gave->peer, &read) ? 0 : htonl(read.connect_id);
    slot->incoming = slot->outgoing = 0;
    if (slot->highest) memset(slot->highest, 0, NUMBERED * sizeof *slot->highest);
    else slot->highest = calloc(NUMBERED, sizeof *slot->highest);
}

/* What a datagram has of commands but acknowledgements, which of them went before, and whether it has reliable ones. */
typedef struct {
    uint32_t count, again;
    bool is_reliable;
} Commands;

/* Notes a reliable command, which goes again if its number isn't above those of its channel that went. */
static void note_reliable(Commands *commands, uint16_t *highest, const uint8_t *at) {
    uint16_t number = (uint16_t)(at[2] << 8 | at[3]);
    commands->is_reliable = true;
    if (!highest) return;
    if ((uint16_t)(number - highest[at[1]] - 1) < 0x8000) highest[at[1]] = number;
    else commands->again++;
}

/* The commands of a datagram of the core, which stand from `at` to `end`. */
static Commands commands_in(uint16_t *highest, const uint8_t *at, const uint8_t *end) {
    Commands commands = {0};
    for (size_t step; at < end && (step = command_length(at, (size_t)(end - at))); at += step) {
        commands.count += (at[0] & 0xF) != 1;
        if (at[0] & 0x80) note_reliable(&commands, highest, at);
    }
    return commands;
}

/* Every ten seconds the share of the commands that went again counts for the mean, and they are counted anew. */
static void count_loss(ENetPeer *peer, uint32_t now) {
    if (peer->packetLossEpoch == 0) peer->packetLossEpoch = now;
    if (now - peer->packetLossEpoch < ENET_PEER_PACKET_LOSS_INTERVAL || !peer->packetsSent) return;
    uint32_t loss = (uint32_t)((uint64_t)peer->packetsLost * ENET_PEER_PACKET_LOSS_SCALE / peer->packetsSent);
    peer->packetLossVariance = (peer->packetLossVariance * 3 + ENET_DIFFERENCE(loss, peer->packetLoss)) / 4;
    peer->packetLoss = (peer->packetLoss * 7 + loss) / 8;
    peer->packetLossEpoch = now;
    peer->packetsSent = peer->packetsLost = 0;
}

/* Counts what went to a slot's peer for the program's fields: commands, the bytes of all, and when. */
static void note_sent(Layer *layer, Slot *slot, const uint8_t *at, uint32_t length) {
    uint16_t number = slot->name.slot;
    ENetPeer *peer = &layer->host.peers[number];
    uint32_t head = at[0] & 0x80 ? 4 : 2;
    Commands commands = commands_in(slot->highest, at + head, at + length);
    peer->outgoingDataTotal += length - head;
    peer->lastSendTime = layer->host.serviceTime;
    peer->packetsSent += commands.count;
    peer->packetsLost += commands.again;
    count_loss(peer, layer->host.serviceTime);
    if (!commands.is_reliable) return;
    put_mark(&peer->sentReliableCommands, &layer->marks[number].sent);
    if (!slot->pings) return;
    slot->pings = false;
    gofnjerta_set_ping_interval(&layer->core, slot->name, slot->ping);
}

/* The CONNECT that a datagram of more than a header's bytes begins with; NULL where there is none. */
static uint8_t *offer_in(uint8_t *data, size_t length) {
    size_t at = data[0] & 0x80 ? 4 : 2;
    return at < length && (data[at] & 0xF) == 2 && command_length(data + at, length - at) ? data + at : NULL;
}

/* An offer of the core's asks for no longer datagrams than the program's field allows. */
static void lower_mtu(const Layer *layer, uint8_t *data, uint32_t length) {
    uint8_t *offer = layer->host.mtu < layer->config.mtu ? offer_in(data, length) : NULL;
    if (offer) put_word(offer + 8, layer->host.mtu);
}

/* Keeps a datagram that the core has put at the end of the gathered bytes, unless it is of a slot that isn't in use. */
static void gather(Layer *layer, const gofnjerta_datagram *gave) {
    Slot *slot = &layer->slots[gave->peer.slot];
    if (gave->peer.generation == slot->parked || gave->peer.slot >= layer->host.peerCount) return;
    size_t i = layer->parcel_count++;
    uint8_t *at = layer->gathered + layer->gathered_bytes;
    uint32_t length = gave->length;
    if (slot->seen.generation != gave->peer.generation) see(layer, slot, gave, at);
    if (slot->known) note_sent(layer, slot, at, length);
    lower_mtu(layer, at, length);
    if (layer->host.checksum || layer->host.compressor.context) length = layer_dress(layer, at, length, slot);
    layer->parcels[i] = (Parcel){gave->to, (uint32_t)layer->gathered_bytes, length, gave->peer.slot, 0, !slot->sends};
    if (slot->sends) layer->parcels[slot->last].next = (uint16_t)i;
    slot->sends = true;
    slot->last = (uint16_t)i;
    layer->gathered_bytes += (length + 15) / 16 * 16;
    layer->host.totalSentData += length;
    layer->host.totalSentPackets++;
}

static struct sockaddr_in system_address(gofnjerta_address to) {
    return (struct sockaddr_in){.sin_family = AF_INET, .sin_port = htons(to.port), .sin_addr.s_addr = htonl(to.ip)};
}

/* Whether a datagram that the system didn't send is lost, as by the network: the socket has no room at the moment, or the error is of the
 * destination or of the length. Any other error is the socket's own. The same list as in crates/enet_wire (why_unsent). */
static bool is_loss(int error) {
    switch (error) {
    case EAGAIN:
    case EINTR:
    case ENOBUFS:
    case ENOMEM:
    case EMSGSIZE:
    case EINVAL:
    case EPERM:
    case EACCES:
    case EADDRNOTAVAIL:
    case ECONNREFUSED:
    case EHOSTUNREACH:
    case ENETUNREACH:
    case ENETDOWN: return true;
    default: return false;
    }
}

/* Sends a parcel. */
static void send_one(Layer *layer, const Parcel *parcel) {
    struct sockaddr_in to = system_address(parcel->to);
    const uint8_t *at = layer->gathered + parcel->at;
    if (sendto(layer->host.socket, at, parcel->length, MSG_NOSIGNAL, (struct sockaddr *)&to, sizeof to) >= 0) return;
    if (!is_loss(errno)) layer->has_failed = true;
}

/* Sends some parts of one length, of which the last may be shorter, as a datagram each. */
static bool send_parts(const Layer *layer, gofnjerta_address to, struct iovec *parts, size_t count) {
    struct sockaddr_in at = system_address(to);
    union {
        struct cmsghdr head;
        char bytes[CMSG_SPACE(sizeof(uint16_t))];
    } control = {.head = {.cmsg_level = IPPROTO_UDP, .cmsg_type = UDP_SEGMENT, .cmsg_len = CMSG_LEN(sizeof(uint16_t))}};
    uint16_t length = (uint16_t)parts->iov_len;
    memcpy(CMSG_DATA(&control.head), &length, sizeof length);
    struct msghdr message = {.msg_name = &at, .msg_namelen = sizeof at, .msg_iov = parts, .msg_iovlen = count,
                             .msg_control = &control, .msg_controllen = sizeof control};
    return sendmsg(layer->host.socket, &message, MSG_NOSIGNAL) >= 0;
}

/* Whether the parcel may follow so many others of so many bytes in a train that this one leads. */
static bool may_follow(const Layer *layer, const Parcel *lead, const Parcel *next, size_t count, size_t bytes) {
    return layer->has_trains && lead->length < layer->slots[lead->slot].cut_below && count < TRAIN && bytes + next->length <= TRAIN_BYTES &&
           next->length <= lead->length && next->to.ip == lead->to.ip && next->to.port == lead->to.port;
}

/* Asks once of each socket that the program has in the host whether the system cuts trains. One that doesn't know of them (Linux before
 * 4.18) would send a train as one long datagram. */
static void ask_for_trains(Layer *layer) {
    int length;
    socklen_t size = sizeof length;
    if (layer->asked == layer->host.socket) return;
    layer->asked = layer->host.socket;
    layer->has_trains = getsockopt(layer->asked, IPPROTO_UDP, UDP_SEGMENT, &length, &size) == 0;
}

/* The system refused the train that this parcel leads. One that has none isn't asked for one again. Three errors are of the destination, and
 * others get their trains as before: the way there takes no datagram of this length whole (EMSGSIZE; EINVAL of older systems, and for port
 * 0), or no train at all (EIO). Any other error is the moment's. */
static void note_refused_train(Layer *layer, const Parcel *lead, int error) {
    Slot *slot = &layer->slots[lead->slot];
    if (error == EOPNOTSUPP || error == ENOPROTOOPT) layer->has_trains = false;
    if (error == EMSGSIZE || error == EINVAL) slot->cut_below = (uint16_t)lead->length;
    if (error == EIO) slot->cut_below = 0;
}

/* Sends a train, from this parcel on, and tells which parcel of its slot comes after it, 0 where none does. Where the system refuses a train,
 * the datagrams go one by one. */
__attribute__((noinline)) static size_t send_train(Layer *layer, size_t first) {
    struct iovec parts[TRAIN];
    const Parcel *lead = &layer->parcels[first], *next = lead;
    size_t count = 0, bytes = 0, i;
    ask_for_trains(layer);
    do {
        parts[count++] = (struct iovec){layer->gathered + next->at, next->length};
        bytes += next->length;
        i = next->next;
        if (next->length < lead->length) break;
        next = &layer->parcels[i];
    } while (i && may_follow(layer, lead, next, count, bytes));
    if (count == 1) send_one(layer, lead);
    if (count == 1 || send_parts(layer, lead->to, parts, count)) return i;
    note_refused_train(layer, lead, errno);
    size_t alone = first;
    do send_one(layer, &layer->parcels[alone]);
    while ((alone = layer->parcels[alone].next) != i);
    return i;
}

/* Sends what was gathered, slot by slot. */
static void send_gathered(Layer *layer) {
    for (size_t i = 0; i < layer->parcel_count; i++) {
        const Parcel *parcel = &layer->parcels[i];
        if (!parcel->leads) continue;
        layer->slots[parcel->slot].sends = false;
        if (!parcel->next) {
            send_one(layer, parcel);
            continue;
        }
        size_t next = i;
        do next = send_train(layer, next);
        while (next);
    }
    layer->parcel_count = layer->gathered_bytes = 0;
}

/* The peers' fields, once what was due was sent: what is due isn't in transit. */
static void show_peers(Layer *layer) {
    layer->is_stale = false;
    for (size_t i = 0; i < layer->config.peers; i++)
        if (layer->slots[i].known) layer_show_peer(layer, &layer->host.peers[i]);
}

/* Sends all that the core gives. Where a callback of the program's asks for it in the middle, the rest goes once that has returned. */
void layer_put_out(Layer *layer) {
    gofnjerta_datagram gave;
    if (layer->puts_out) return;
    layer->puts_out = true;
    while (gofnjerta_core_service(&layer->core, layer->gathered + layer->gathered_bytes, DATAGRAM, &gave) == GOFNJERTA_OK && gave.length) {
        layer->may_tell = true;
        gather(layer, &gave);
        if (layer->parcel_count == GATHERED || layer->gathered_bytes > GATHERED_BYTES) send_gathered(layer);
    }
    send_gathered(layer);
    layer->puts_out = false;
    if (layer->is_stale) show_peers(layer);
}

/* Whether another peer may come from an address: there are fewer than duplicatePeers, those that connect there from here apart, and with those
 * of which the program wasn't told that they ended. */
static bool may_come(Layer *layer, const gofnjerta_address *from) {
    size_t count = 0, most = layer->host.duplicatePeers;
    for (size_t i = 0; most < layer->host.peerCount && i < layer->config.peers; i++) {
        const Slot *slot = &layer->slots[i];
        gofnjerta_reading read;
        if (slot->seen.generation == UINT32_MAX || slot->at.ip != from->ip || slot->lingers) continue;
        count += slot->ended;
        if (gofnjerta_read_peer(&layer->core, slot->seen, &read)) continue;
        count += read.state != GOFNJERTA_FREE && read.state != GOFNJERTA_CONNECTING && read.state != GOFNJERTA_PARTING;
    }
    return most >= layer->host.peerCount || count < most;
}

/* Whether an offer may begin a connection: there is a slot, and the address hasn't enough. In a millisecond it is once found that there is none. */
static bool may_begin(Layer *layer, const gofnjerta_address *from) {
    if (layer->full_at == layer->clock || !may_come(layer, from)) return false;
    bool has_way = layer_make_way(layer);
    layer->full_at = has_way ? UINT64_MAX : layer->clock;
    return has_way;
}

static uint32_t word_at(const uint8_t *at) { return (uint32_t)at[0] << 24 | (uint32_t)at[1] << 16 | (uint32_t)at[2] << 8 | at[3]; }

/* An offer asks for no more channels and no longer datagrams than the program's fields allow. */
static void lower_offer(const ENetHost *host, uint8_t *offer) {
    uint32_t channels = word_at(offer + 16);
    if (channels > host->channelLimit && channels <= ENET_PROTOCOL_MAXIMUM_CHANNEL_COUNT) put_word(offer + 16, (uint32_t)host->channelLimit);
    if (word_at(offer + 8) > host->mtu) put_word(offer + 8, host->mtu);
}

/* Whether the program's limits stop a whole command: it is of a packet that is too long, or as many bytes wait as may. */
static bool is_stopped(const Layer *layer, const Slot *slot, const uint8_t *at) {
    uint8_t kind = at[0] & 0xF;
    if (kind != 12 && (kind < 6 || kind > 9)) return false;
    size_t length = kind == 8 || kind == 12 ? word_at(at + 16) : kind == 6 ? (size_t)at[4] << 8 | at[5] : (size_t)at[6] << 8 | at[7];
    return length > layer->host.maximumPacketSize || slot->kept_bytes >= layer->host.maximumWaitingData;
}

/* How much of a datagram the core is handed: none of an offer that may not begin a connection, or for a slot that isn't in use, and no command
 * from the first on that the program's limits stop. */
static size_t length_taken(Layer *layer, const gofnjerta_address *from, uint8_t *data, size_t length) {
    const ENetHost *host = &layer->host;
    if (length < 2) return length;
    size_t word = (size_t)data[0] << 8 | data[1], id = word & 0xFFF, at = word & 0x8000 ? 4 : 2, step;
    if (id == ENET_PROTOCOL_MAXIMUM_PEER_ID) {
        uint8_t *offer = offer_in(data, length);
        if (!offer) return length;
        if (!may_begin(layer, from)) return 0;
        lower_offer(host, offer);
        return length;
    }
    if (id >= slots_in_use(layer)) return 0;
    const Slot *slot = &layer->slots[id];
    if (slot->kept_bytes < host->maximumWaitingData && host->maximumPacketSize == GOFNJERTA_MAX_PACKET) return length;
    for (; at < length && (step = command_length(data + at, length - at)); at += step)
        if (is_stopped(layer, slot, data + at)) return at;
    return length;
}

static void note_bandwidths(Layer *layer, uint16_t number, const uint8_t *at) {
    Slot *slot = &layer->slots[number];
    slot->incoming = word_at(at);
    slot->outgoing = word_at(at + 4);
    if (!slot->known) return;
    layer->host.peers[number].incomingBandwidth = slot->incoming;
    layer->host.peers[number].outgoingBandwidth = slot->outgoing;
    layer_count(layer, &layer->host.peers[number]);
}

/* A CONNECT took effect: its peer's answer goes at once, so that the peer is seen, which has these bandwidths. */
static void note_connect(Layer *layer, const gofnjerta_address *from, const uint8_t *bandwidths) {
    uint8_t told[8];
    memcpy(told, bandwidths, sizeof told);
    layer->arrival = (Arrival){.from = *from, .awaits = true};
    layer_put_out(layer);
    if (layer->arrival.is_seen) note_bandwidths(layer, layer->arrival.slot, told);
    layer->arrival.awaits = false;
}

/* Whether a BANDWIDTH_LIMIT, of 12 bytes, may be somewhere behind the header. */
static bool has_bandwidths(const uint8_t *at, const uint8_t *end) {
    if (end - at < 12) return false;
    while ((at = memchr(at, 0x8A, (size_t)(end - at))) && ++at < end)
        if (*at == 0xFF) return true;
    return false;
}

/* Notes for the program's fields what the core handled of a known peer's datagram: acknowledgements, which come first, and bandwidths. */
static void note_handled(Layer *layer, uint16_t id, const uint8_t *data, size_t length, uint32_t handled) {
    ENetPeer *peer = &layer->host.peers[id];
    size_t at = data[0] & 0x80 ? 4 : 2, step;
    peer->incomingDataTotal += (enet_uint32)length + (layer->host.checksum ? 4 : 0);
    if (length > at && (data[at] & 0xF) == 1) peer->lastReceiveTime = ENET_MAX(layer->host.serviceTime, 1);
    if (peer->state != ENET_PEER_STATE_CONNECTING && !has_bandwidths(data + at, data + length)) return;
    for (uint32_t n = 0; n < handled && at < length && (step = command_length(data + at, length - at)); n++, at += step) {
        uint8_t kind = data[at] & 0xF;
        if (kind == 3 || kind == 10) note_bandwidths(layer, id, data + at + (kind == 3 ? 20 : 4));
    }
}

/* Hands a datagram to the core. */
static void hand_in(Layer *layer, const gofnjerta_address *from, uint8_t *data, size_t length) {
    const ENetHost *host = &layer->host;
    if (host->checksum || (length >= 2 && data[0] & 0x40 && host->compressor.context)) {
        if (!layer_undress(layer, from, &data, &length)) return;
    }
    size_t taken = length_taken(layer, from, data, length);
    if (!taken) return;
    gofnjerta_received got = gofnjerta_core_receive(&layer->core, from, data, taken);
    layer->may_tell = true;
    if (!got.handled) return;
    size_t id = (size_t)(data[0] & 0xF) << 8 | data[1];
    if (id == ENET_PROTOCOL_MAXIMUM_PEER_ID) {
        const uint8_t *offer = offer_in(data, taken);
        if (offer) note_connect(layer, from, offer + 20);
    } else if (layer->slots[id].known) note_handled(layer, (uint16_t)id, data, taken, got.handled);
}

/* Whether a reception that failed so need not fail again: it was interrupted, memory was missing, or the network said that a datagram that
 * was sent before didn't arrive. The same list as in crates/enet_wire (can_be_repeated). */
static bool can_be_repeated(int error) {
    switch (error) {
    case EINTR:
    case ENOMEM:
    case ENOBUFS:
    case EMSGSIZE:
    case ENONET:
    case EPROTO:
    case ENOPROTOOPT:
    case EHOSTDOWN:
    case ETIMEDOUT:
    case ECONNREFUSED:
    case ECONNRESET:
    case ECONNABORTED:
    case EHOSTUNREACH:
    case ENETUNREACH:
    case ENETDOWN: return true;
    default: return false;
    }
}

int layer_take_in(Layer *layer, ENetEvent *event, int *came) {
    ENetHost *host = &layer->host;
    for (*came = 0; *came < BATCH; ++*came) {
        struct sockaddr_in at;
        socklen_t size = sizeof at;
        ssize_t length = recvfrom(host->socket, host->packetData[0], DATAGRAM, MSG_TRUNC, (struct sockaddr *)&at, &size);
        if (length < 0) {
            if (errno == EWOULDBLOCK || errno == EAGAIN) break;
            if (can_be_repeated(errno)) continue;
            return -1;
        }
        if (!at.sin_port || length > DATAGRAM) continue; /* nobody can be answered at port 0 */
        host->totalReceivedData += (enet_uint32)length;
        host->totalReceivedPackets++;
        host->receivedAddress = (ENetAddress){at.sin_addr.s_addr, ntohs(at.sin_port)};
        host->receivedData = host->packetData[0];
        host->receivedDataLength = (size_t)length;
        if (host->intercept) {
            int answer = host->intercept(host, event);
            if (answer == 1 && event && event->type != ENET_EVENT_TYPE_NONE) return 1;
            if (answer == -1) return -1;
            if (answer == 1 || !host->receivedData || host->receivedDataLength > DATAGRAM) continue;
        }
        gofnjerta_address from = {ntohl(host->receivedAddress.host), host->receivedAddress.port};
        hand_in(layer, &from, host->receivedData, host->receivedDataLength);
        if (host->maximumWaitingData != layer->config.max_waiting) layer_keep_all(layer); /* the limit is the layer's to keep */
    }
    return 0;
}
