// client PORT SCENARIO CLIENTS [lossy] [reference]: clients of the reference library talk to one another through the relay at PORT of
// 127.0.0.1. Status 0 where every packet came as the relay's rule says; else it is told on standard error what went wrong, with status
// 2 where a client lost its connection or something came too late, and status 1 where anything else is amiss. `lossy`
// says that the way there drops, repeats and reorders datagrams. `reference` says that the relay is that of server.c, which takes the
// mtu that a client asks for as it is, so that the clients ask for 1392. The scenarios stand in the table above `main`.
//
// Every body is drawn from its kind, its sender and its number, so a receiver knows each byte of what it must get. Byte 0 has kind and
// sender, bytes 1 to 4 the number, save in reliable packets, which may be shorter: these come in order, so their numbers are known.
#include <enet/enet.h>
#include <poll.h>

#include "common.h"

enum { MOST = 8, CHANNELS = 3, ASKED = 5, MTU = 1392, WINDOW = 65536, PIECE = MTU - 28, LARGEST = 4096 * PIECE, NUMBERS = 1 << 16 };

// A scenario that hasn't ended after so many seconds fails.
static const double LIMIT = 300;

// What our relay ends a connection with for which it has no place.
static const enet_uint32 FULL = 0xFFFFFFFF;

typedef enum Kind { HELLO, RELIABLE, LIFTED, PLAIN, UNSEQUENCED, PIECES, LARGE, NOWHERE, KINDS } Kind;

// What holds of the packets of one sender at one receiver: all come, in order; or some, in order; or some, each once; or none.
typedef enum Order { ALL_IN_ORDER, SOME_IN_ORDER, SOME_ONCE, NONE } Order;

static const struct {
    const char *name;
    enet_uint8 channel;
    enet_uint32 flags;
    Order order;
    size_t shortest, longest;
} kinds[KINDS] = {
    [HELLO] = { "hello", 0, ENET_PACKET_FLAG_RELIABLE, SOME_IN_ORDER, 5, 64 },
    [RELIABLE] = { "reliable", 0, ENET_PACKET_FLAG_RELIABLE, ALL_IN_ORDER, 0, 20000 },
    [LIFTED] = { "unreliable on channel 0", 0, 0, SOME_IN_ORDER, 5, PIECE },
    [PLAIN] = { "unreliable", 1, 0, SOME_IN_ORDER, 5, PIECE },
    [UNSEQUENCED] = { "unsequenced", 1, ENET_PACKET_FLAG_UNSEQUENCED, SOME_ONCE, 5, PIECE },
    [PIECES] = { "unreliable in pieces", 1, ENET_PACKET_FLAG_UNRELIABLE_FRAGMENT, SOME_IN_ORDER, PIECE + 1, 4 * PIECE },
    [LARGE] = { "large", 0, ENET_PACKET_FLAG_RELIABLE, ALL_IN_ORDER, LARGEST, LARGEST },
    [NOWHERE] = { "on channel 2", 2, ENET_PACKET_FLAG_RELIABLE, NONE, 5, 64 },
};

typedef enum State { OUT, ASKING, IN, LEAVING } State;

typedef enum End { LATER, DISCONNECT, AT_ONCE } End;

// What a client got of one sender: of each kind the number that must come next (or the least that may), and how many came.
typedef struct From {
    enet_uint32 next[KINDS], came[KINDS];
    uint8_t unsequenced[NUMBERS / 8];
    int heard;
} From;

typedef struct Client {
    State state;
    ENetHost *host;
    ENetPeer *peer;
    enet_uint32 sent[KINDS];
    int kept; // packets that the library has not let go: queued, or sent and not acknowledged
    int may_find_it_full, turned_away; // whether the relay may have no place for it, and how often it said so
    From from[MOST];
    enet_uint32 empties; // packets of 0 bytes that came, and whose sender isn't known yet
    uint8_t order[NUMBERS]; // the senders of the reliable packets that came and weren't empty
    size_t ordered;
} Client;

static Client clients[MOST];
static int count;
static int lossy, reference;
static ENetAddress relay;
static double begun;
static uint8_t wanted[LARGEST];

// The length of a reliable packet: lengths at the edges first, in another turn for each sender, and then mostly short ones.
static size_t reliable_length(int sender, enet_uint32 number, uint64_t *seed)
{
    static const size_t edges[] = { 0, 1, 2, PIECE - 1, PIECE, PIECE + 1, 0, 0, 2 * PIECE, 2 * PIECE + 1, 20000, 19999 };
    const enet_uint32 turns = sizeof edges / sizeof *edges;
    if (number < 2 * turns)
        return edges[(number + (enet_uint32)sender) % turns];
    return draw(seed) % (draw(seed) % 4 == 0 ? 20001 : 400);
}

// Writes the body of a packet into `wanted`, and says its length.
static size_t body(Kind kind, int sender, enet_uint32 number)
{
    uint64_t seed = ((uint64_t)kind << 48) + ((uint64_t)sender << 40) + number;
    size_t length = kinds[kind].shortest;
    if (kind == RELIABLE)
        length = reliable_length(sender, number, &seed);
    else
        length += draw(&seed) % (kinds[kind].longest - length + 1);
    draw_bytes(&seed, wanted, length);
    if (length > 0)
        wanted[0] = (uint8_t)(kind << 4 | sender);
    if (kind != RELIABLE)
        for (int i = 0; i < 4; i++)
            wanted[1 + i] = (uint8_t)(number >> (24 - 8 * i));
    return length;
}

static size_t length_of(Kind kind, int sender, enet_uint32 number)
{
    uint64_t seed = ((uint64_t)kind << 48) + ((uint64_t)sender << 40) + number;
    return kind == RELIABLE ? reliable_length(sender, number, &seed) : kinds[kind].shortest;
}

// The library is done with a packet: it was acknowledged, or went and asked for none, or its connection ended.
static void let_go(ENetPacket *packet)
{
    Client *client = packet->userData;
    client->kept--;
}

static void submit(int id, Kind kind)
{
    Client *client = &clients[id];
    size_t length = body(kind, id, client->sent[kind]++);
    ENetPacket *packet = enet_packet_create(wanted, length, kinds[kind].flags);
    if (packet != NULL) {
        packet->userData = client;
        packet->freeCallback = let_go;
        client->kept++;
    }
    if (packet == NULL || enet_peer_send(client->peer, kinds[kind].channel, packet) != 0)
        give_up("client %d: a packet (%s) of %zu bytes isn't taken", id, kinds[kind].name, length);
}

// The number of the reliable packet of `sender` that came, which wasn't empty: empty ones before it must have come.
static enet_uint32 next_reliable(int id, int sender)
{
    Client *client = &clients[id];
    enet_uint32 number = client->from[sender].next[RELIABLE];
    for (; number < clients[sender].sent[RELIABLE] && length_of(RELIABLE, sender, number) == 0; number++)
        if (client->empties-- == 0)
            give_up("client %d: a reliable packet of client %d before its empty packet %u", id, sender, number);
    return number;
}

// Notes that a packet came, which must be one that may come now.
static void note(int id, int sender, Kind kind, enet_uint32 number)
{
    From *from = &clients[id].from[sender];
    enet_uint32 next = from->next[kind];
    int fits = number >= next;
    if (kinds[kind].order == ALL_IN_ORDER)
        fits = number == next || kind == RELIABLE;
    if (kinds[kind].order == SOME_ONCE) {
        fits = number < NUMBERS && (from->unsequenced[number / 8] >> number % 8 & 1) == 0;
        from->unsequenced[number % NUMBERS / 8] |= (uint8_t)(1 << number % 8);
    }
    if (kinds[kind].order == NONE || !fits || number >= clients[sender].sent[kind])
        give_up("client %d: packet %u (%s) of client %d came where %u was next", id, number, kinds[kind].name, sender, next);
    from->next[kind] = number + 1;
    from->came[kind]++;
    from->heard |= kind == HELLO;
    if (kind == RELIABLE && clients[id].ordered < NUMBERS)
        clients[id].order[clients[id].ordered++] = (uint8_t)sender;
}

static void arrived(int id, enet_uint8 channel, const ENetPacket *packet)
{
    const uint8_t *data = packet->data;
    size_t length = packet->dataLength;
    if (length == 0 && channel == 0 && packet->flags == ENET_PACKET_FLAG_RELIABLE) {
        clients[id].empties++;
        return;
    }
    Kind kind = length == 0 ? KINDS : (Kind)(data[0] >> 4);
    int sender = length == 0 ? id : data[0] & 15;
    if (kind >= KINDS || sender >= count || sender == id || (kind != RELIABLE && length < 5))
        give_up("client %d: a packet of %zu bytes on channel %d that nobody sent to it", id, length, channel);
    enet_uint32 number = 0;
    for (int i = 1; i <= 4 && kind != RELIABLE; i++)
        number = number << 8 | data[i];
    if (kind == RELIABLE)
        number = next_reliable(id, sender);
    note(id, sender, kind, number);
    if (length != body(kind, sender, number) || memcmp(data, wanted, length) != 0)
        give_up("client %d: packet %u (%s) of client %d has other bytes", id, number, kinds[kind].name, sender);
    enet_uint32 flags = channel == 0 || length > PIECE ? ENET_PACKET_FLAG_RELIABLE : 0;
    if (channel != kinds[kind].channel || packet->flags != flags)
        give_up("client %d: packet %u (%s) of client %d came on channel %d with flags %u", id, number, kinds[kind].name, sender,
                channel, packet->flags);
}

// Tells how far everything came, and ends with status 2.
static _Noreturn void give_up_after(const char *what)
{
    for (int id = 0; id < count; id++)
        if (clients[id].state != OUT)
            fprintf(stderr, "client %d after %.1f seconds: state %d, round trip %u, throttle %u, %u bytes in transit\n", id, now() - begun,
                    clients[id].state, clients[id].peer->roundTripTime, clients[id].peer->packetThrottle,
                    clients[id].peer->reliableDataInTransit);
    for (int id = 0; id < count; id++)
        for (int other = 0; other < count; other++)
            if (clients[id].state == IN && other != id)
                fprintf(stderr, "client %d has %u of %u reliable packets of client %d, %u unreliable, %u unsequenced, %u in pieces\n", id,
                        clients[id].from[other].next[RELIABLE], clients[other].sent[RELIABLE], other, clients[id].from[other].came[PLAIN],
                        clients[id].from[other].came[UNSEQUENCED], clients[id].from[other].came[PIECES]);
    fprintf(stderr, "%s\n", what);
    exit(2);
}

// A connection begins: what was sent before it doesn't come to this client, and it and the others have to hear one another again.
static void came_in(int id)
{
    Client *client = &clients[id];
    if (client->state != ASKING || client->peer->channelCount != CHANNELS || client->peer->mtu != MTU || client->peer->windowSize != WINDOW)
        give_up("client %d: connected with %zu channels, mtu %u, window %u", id, client->peer->channelCount, client->peer->mtu,
                client->peer->windowSize);
    client->state = IN;
    client->empties = 0;
    for (int other = 0; other < count; other++) {
        memcpy(client->from[other].next, clients[other].sent, sizeof clients[other].sent);
        client->from[other].next[HELLO] = 0; // those may still be on their way
        client->from[other].heard = 0;
        clients[other].from[id].heard = 0;
    }
}

static void service(int id)
{
    Client *client = &clients[id];
    ENetEvent event;
    int status;
    while ((status = enet_host_service(client->host, &event, 0)) > 0) {
        if (event.type == ENET_EVENT_TYPE_CONNECT)
            came_in(id);
        if (event.type == ENET_EVENT_TYPE_DISCONNECT && client->may_find_it_full && client->state == IN && event.data == FULL) {
            client->turned_away++;
            client->state = OUT;
            continue;
        }
        if (event.type == ENET_EVENT_TYPE_DISCONNECT && (client->state != LEAVING || event.data != 0)) {
            fprintf(stderr, "client %d: lost its connection, data %u\n", id, event.data);
            give_up_after("a connection ended");
        }
        if (event.type == ENET_EVENT_TYPE_DISCONNECT)
            client->state = OUT;
        if (event.type == ENET_EVENT_TYPE_RECEIVE) {
            arrived(id, event.channelID, event.packet);
            enet_packet_destroy(event.packet);
        }
    }
    if (status < 0)
        give_up("client %d: its socket failed", id);
}

// Sends and takes what there is, after a wait of at most `longest` milliseconds for something to come.
static void pass(int longest)
{
    struct pollfd sockets[MOST];
    nfds_t open = 0;
    for (int id = 0; id < count; id++)
        if (clients[id].host != NULL)
            sockets[open++] = (struct pollfd){ .fd = clients[id].host->socket, .events = POLLIN };
    poll(sockets, open, longest);
    for (int id = 0; id < count; id++)
        if (clients[id].host != NULL)
            service(id);
}

static void pass_for(double seconds)
{
    for (double end = now() + seconds; now() < end;)
        pass(20);
}

static void until(int (*holds)(void), const char *what)
{
    while (!holds()) {
        if (now() > begun + LIMIT)
            give_up_after(what);
        pass(5);
    }
}

// The relay took in all that the connected clients submitted, and every reliable and large packet of the others came to each of them.
static int settled(void)
{
    for (int id = 0; id < count; id++) {
        if (clients[id].state == IN && clients[id].kept > 0)
            return 0;
        enet_uint32 empties = 0;
        for (int other = 0; other < count && clients[id].state == IN; other++) {
            enet_uint32 number = clients[id].from[other].next[RELIABLE];
            for (; other != id && number < clients[other].sent[RELIABLE]; number++, empties++)
                if (length_of(RELIABLE, other, number) > 0)
                    return 0;
            if (other != id && clients[id].from[other].next[LARGE] != clients[other].sent[LARGE])
                return 0;
        }
        if (clients[id].state == IN && empties > clients[id].empties)
            return 0;
        if (clients[id].state == IN && empties < clients[id].empties)
            give_up("client %d: more empty packets than were sent", id);
    }
    return 1;
}

static int nobody_asks(void)
{
    for (int id = 0; id < count; id++)
        if (clients[id].state == ASKING)
            return 0;
    return 1;
}

static int all_heard(void)
{
    for (int id = 0; id < count; id++)
        for (int other = 0; other < count; other++)
            if (id != other && clients[id].state == IN && clients[other].state == IN && !clients[id].from[other].heard)
                return 0;
    return nobody_asks();
}

static int nobody_leaves(void)
{
    for (int id = 0; id < count; id++)
        if (clients[id].state == LEAVING)
            return 0;
    return 1;
}

static void each_submits(Kind kind)
{
    for (int id = 0; id < count; id++)
        if (clients[id].state == IN)
            submit(id, kind);
}

static void ask(int id)
{
    Client *client = &clients[id];
    if (client->host == NULL && (client->host = enet_host_create(NULL, 1, 0, 0, 0)) != NULL && reference)
        client->host->mtu = client->host->peers[0].mtu = MTU;
    client->peer = client->host == NULL ? NULL : enet_host_connect(client->host, &relay, ASKED, 7);
    if (client->peer == NULL)
        give_up("client %d: no connection can be asked for", id);
    enet_peer_timeout(client->peer, 0, 40000, 40000);
    client->state = ASKING;
}

// Waits until all who asked are connected, and each has heard each other one, so that the relay has noted them all.
static void join(void)
{
    while (!all_heard()) {
        if (now() > begun + LIMIT)
            give_up_after("too late: all connected, and each in the relay's table");
        each_submits(HELLO);
        pass_for(0.05);
    }
}

// Each client submits so many reliable packets, 16 at once, so that a slow relay has no more to do than that; and all come.
static void chat(int packets)
{
    for (int i = 0; i < packets; i++) {
        each_submits(RELIABLE);
        if (i % 16 == 15 || i == packets - 1)
            until(settled, "too late: reliable packets");
    }
}

// Any two clients got the packets of the others in one order.
static void compare_orders(void)
{
    for (int a = 0; a < count; a++)
        for (int b = 0; b < a; b++) {
            size_t i = 0, j = 0;
            for (;; i++, j++) {
                while (i < clients[a].ordered && clients[a].order[i] == b)
                    i++;
                while (j < clients[b].ordered && clients[b].order[j] == a)
                    j++;
                if (i == clients[a].ordered || j == clients[b].ordered)
                    break;
                if (clients[a].order[i] != clients[b].order[j])
                    give_up("clients %d and %d got the others' packets in different orders", a, b);
            }
            if (i < clients[a].ordered || j < clients[b].ordered)
                give_up("clients %d and %d got different numbers of packets", a, b);
        }
}

static int enough_loose(void)
{
    for (int id = 0; id < count; id++)
        for (int other = 0; other < count; other++)
            for (Kind kind = LIFTED; kind <= PIECES && id != other; kind++)
                if (clients[id].from[other].came[kind] < 20)
                    return 0;
    return 1;
}

// Packets that may be lost, of every kind, until each client got 20 of each kind of each other one; after each round of them a
// reliable one, for which all wait.
static void loose(void)
{
    for (int round = 0; round < 20 || !enough_loose(); round++) {
        if (now() > begun + LIMIT || round == NUMBERS)
            give_up_after("too late: 20 unreliable packets of each kind");
        for (Kind kind = LIFTED; kind <= PIECES; kind++)
            each_submits(kind);
        chat(1);
    }
}

// A connection's end. What is submitted before `LATER` comes still. Where the way loses datagrams, the relay's answer may be lost
// for good, since its slot is free at once, and the connection then ends by a timeout.
static void leave(int id, End end)
{
    Client *client = &clients[id];
    for (int i = 0; i < 5 && end == LATER; i++)
        submit(id, RELIABLE);
    if (lossy && end == DISCONNECT)
        enet_peer_timeout(client->peer, 0, 3000, 3000);
    client->state = end == AT_ONCE ? OUT : LEAVING;
    if (end == LATER)
        enet_peer_disconnect_later(client->peer, 9);
    if (end == DISCONNECT)
        enet_peer_disconnect(client->peer, 9);
    if (end == AT_ONCE)
        enet_peer_disconnect_now(client->peer, 9);
    until(settled, "too late: packets submitted before an end");
    if (lossy && end == LATER)
        enet_peer_timeout(client->peer, 0, 3000, 3000);
    until(nobody_leaves, "too late: a connection's end");
}

// All leave, one by one, and those that stay talk on. Afterwards nothing comes that may not.
static void all_leave(void)
{
    for (int id = count - 1; id >= 0; id--)
        if (clients[id].state == IN) {
            leave(id, (End)(id % 3));
            chat(2);
        }
    pass_for(0.3);
}

static void all_join(int first, int last)
{
    for (int id = first; id <= last; id++)
        ask(id);
    join();
}

static void talk(void)
{
    all_join(0, count - 1);
    for (int i = 0; i < 3; i++)
        each_submits(NOWHERE);
    chat(400 / count);
    compare_orders();
    loose();
    chat(20);
    all_leave();
}

static void large(void)
{
    all_join(0, 1);
    each_submits(LARGE);
    chat(20);
    all_leave();
}

// Client 1 connects nine times from one port. A way that loses datagrams may lose the one of `AT_ONCE`; the relay then keeps that
// slot until it times out, so that end stands where no later connection has that one's session while it lasts.
static void again(void)
{
    static const End ends[] = { DISCONNECT, LATER, DISCONNECT, LATER, DISCONNECT, LATER, AT_ONCE, LATER, DISCONNECT };
    all_join(0, 0);
    for (size_t i = 0; i < sizeof ends / sizeof *ends; i++) {
        all_join(1, 1);
        chat(8);
        leave(1, ends[i]);
        chat(1);
    }
    all_leave();
}

static void idle(void)
{
    all_join(0, 1);
    chat(5);
    pass_for(12);
    chat(5);
    all_leave();
}

// Short packets for 14 seconds, with an outage of the way among them, which begins when round trips are long known. From then on they are few
// enough for a window that slow round trips have made narrow, so that some go as soon as the way is up again.
static void outage(void)
{
    all_join(0, count - 1);
    for (; now() < begun + 14; pass_for(now() < begun + 3.5 ? 0.1 : 0.5))
        each_submits(HELLO);
    chat(5);
    compare_orders();
    all_leave();
}

// Asks until the relay lets a client in. While it is full, that of server.c doesn't answer, and ours says so at once: then it is asked again.
static void enter(int id, const char *late)
{
    clients[id].may_find_it_full = 1;
    ask(id);
    while (clients[id].state != IN || !clients[id].from[0].heard) {
        if (now() > begun + LIMIT)
            give_up_after(late);
        if (clients[id].state == OUT) {
            pass_for(0.5);
            ask(id);
        }
        each_submits(HELLO);
        pass_for(0.05);
    }
    clients[id].may_find_it_full = 0;
}

// Of two places, client 1's is given out again once the relay has waited for it in vain, which takes at least 5 seconds.
static void vanish(void)
{
    all_join(0, 1);
    chat(5);
    double vanished = now();
    enet_host_destroy(clients[1].host);
    clients[1].host = NULL;
    clients[1].state = OUT;
    chat(10);
    enter(2, "too late: the place of a client that vanished");
    if (now() < vanished + 4)
        give_up("a place was given out before its client could time out");
    if (!reference && clients[2].turned_away == 0)
        give_up("client 2 wasn't told that the relay is full");
    join();
    chat(5);
    all_leave();
}

// Four places, five clients: the last comes in when another has left.
static void full(void)
{
    all_join(0, 3);
    chat(5);
    clients[4].may_find_it_full = 1;
    ask(4);
    if (!reference)
        until(nobody_asks, "too late: a client is told that the relay is full");
    while (!reference && clients[4].state == IN && now() < begun + LIMIT)
        pass(5);
    pass_for(reference ? 3 : 1);
    if (reference ? clients[4].state != ASKING : clients[4].state != OUT || clients[4].turned_away != 1)
        give_up("client 4 where there are four places: state %d, turned away %d times", clients[4].state, clients[4].turned_away);
    enet_peer_reset(clients[4].peer);
    clients[4].state = OUT;
    clients[4].may_find_it_full = 0;
    leave(3, DISCONNECT);
    all_join(4, 4);
    chat(5);
    all_leave();
}

static const struct {
    const char *name;
    void (*run)(void);
    int least, most; // clients
} scenarios[] = {
    { "talk", talk, 1, MOST }, // all kinds of packets, and all ends
    { "large", large, 2, 2 },  // packets of 4,096 pieces, both ways at once
    { "again", again, 2, 2 },  // eight reconnections from one port
    { "idle", idle, 2, 2 },    // 12 seconds without a packet
    { "outage", outage, 2, MOST }, // on a way that is down for some seconds in its midst
    { "vanish", vanish, 3, 3 }, // the relay must have two places
    { "full", full, 5, 5 },    // the relay must have four places
};

int main(int words, char **word)
{
    relay.port = (enet_uint16)number_of(words, word, 1, 1, 65535);
    enet_address_set_host_ip(&relay, "127.0.0.1");
    for (int i = 4; i < words; i++) {
        lossy |= strcmp(word[i], "lossy") == 0;
        reference |= strcmp(word[i], "reference") == 0;
    }
    begun = now();
    if (enet_initialize() != 0)
        give_up("the reference library doesn't start");
    for (size_t i = 0; words > 2 && i < sizeof scenarios / sizeof *scenarios; i++)
        if (strcmp(word[2], scenarios[i].name) == 0) {
            count = (int)number_of(words, word, 3, scenarios[i].least, scenarios[i].most);
            scenarios[i].run();
            return 0;
        }
    give_up("client: no such scenario");
}
