// hostile PORT PID DATAGRAMS SEED: two clients of the reference library talk to one another through the relay at PORT of 127.0.0.1,
// process PID, while strangers send it that many datagrams as fast as they can: drawn bytes, and what a client would send with some
// bytes changed, cut short or made longer. First a tenth of as many come, so that each slot that a stranger can take is taken. Status
// 0 where every packet of the two came, once and in order, and the relay's memory grew by at most 1 MiB after that tenth.
#include <arpa/inet.h>
#include <enet/enet.h>
#include <poll.h>
#include <pthread.h>
#include <stdatomic.h>
#include <sys/socket.h>

#include "common.h"

enum { STRANGERS = 64, LONGEST = 1500 };

static ENetHost *hosts[2];
static ENetPeer *peers[2];
static uint32_t sent[2], came[2]; // packets of each client, and how many of them came to the other one
static int connected;
static long datagrams;
static uint64_t seed;
static struct sockaddr_in target;
static ENetAddress relay;
static atomic_int over;

// The memory of a process that is resident, in KiB.
static long resident(long process)
{
    char path[64], line[256];
    long found = -1;
    snprintf(path, sizeof path, "/proc/%ld/status", process);
    FILE *file = fopen(path, "r");
    while (file != NULL && fgets(line, sizeof line, file) != NULL)
        sscanf(line, "VmRSS: %ld", &found);
    if (file != NULL)
        fclose(file);
    if (found < 0)
        give_up("hostile: the relay isn't there");
    return found;
}

// What a client could send: a CONNECT, or a header for some slot and session and up to three commands.
static size_t plausible(uint8_t *at)
{
    static const uint8_t connect[] = { 0x8f, 0xff, 0, 0, 0x82, 0xff, 0, 1, 0, 0, 0xff, 0xff, 0, 0, 5, 0x70, 0, 1, 0, 0, 0, 0, 0, 2,
                                       0, 0, 0, 0, 0, 0, 0, 0, 0, 0, 0x13, 0x88, 0, 0, 0, 2, 0, 0, 0, 2, 0, 0, 0, 0, 0, 0, 0, 7 };
    static const uint8_t commands[] = { 0x01, 0x81, 0x82, 0x83, 0x84, 0x44, 0x85, 0x86, 0x06, 0x07, 0x87, 0x88, 0x49, 0x8a, 0x8b, 0x0c };
    static const uint8_t sizes[] = { 0, 8, 48, 44, 8, 4, 6, 8, 24, 8, 12, 16, 24 };
    if (draw(&seed) % 4 == 0) {
        memcpy(at, connect, sizeof connect);
        draw_bytes(&seed, at + 44, 4);
        return sizeof connect;
    }
    size_t length = 4;
    draw_bytes(&seed, at, 256);
    at[0] = (uint8_t)(0x80 | (draw(&seed) % 4) << 4);
    at[1] = (uint8_t)(draw(&seed) % 4);
    for (uint64_t i = draw(&seed) % 3 + 1; i > 0; i--) {
        uint8_t command = commands[draw(&seed) % sizeof commands];
        at[length] = command;
        at[length + 1] = (uint8_t)(draw(&seed) % 2 == 0 ? 0xff : draw(&seed) % 3);
        at[length + 2] = 0;
        length += sizes[command & 15];
        if ((command & 15) >= 6 && (command & 15) <= 9) {
            at[length - 2] = 0;
            length += at[length - 1];
        }
    }
    return length;
}

static size_t datagram(uint8_t *at)
{
    if (draw(&seed) % 4 == 0) {
        size_t drawn = draw(&seed) % (draw(&seed) % 16 == 0 ? LONGEST : 100);
        draw_bytes(&seed, at, drawn);
        return drawn;
    }
    size_t length = plausible(at);
    for (uint64_t changes = draw(&seed) % 4; changes > 0; changes--)
        at[draw(&seed) % length] ^= (uint8_t)(1 << draw(&seed) % 8);
    uint64_t chance = draw(&seed) % 8;
    return chance == 0 ? draw(&seed) % length : chance == 1 ? length + draw(&seed) % 8 : length;
}

static void *flood(void *number)
{
    static int sockets[STRANGERS];
    for (int i = 0; i < STRANGERS; i++)
        if (sockets[i] == 0 && (sockets[i] = socket(AF_INET, SOCK_DGRAM, 0)) < 0)
            give_up("hostile: no socket");
    for (long i = *(long *)number; i > 0; i--) {
        static uint8_t bytes[2 * LONGEST];
        size_t length = datagram(bytes);
        sendto(sockets[draw(&seed) % STRANGERS], bytes, length, 0, (const struct sockaddr *)&target, sizeof target);
    }
    over = 1;
    return NULL;
}

static void arrived(int id, const ENetPacket *packet)
{
    uint32_t number;
    if (packet->dataLength != 100)
        give_up("hostile: a packet of %zu bytes came", packet->dataLength);
    memcpy(&number, packet->data, sizeof number);
    if (number != came[1 - id] || packet->data[99] != id)
        give_up("hostile: packet %u came where %u was next", number, came[1 - id]);
    came[1 - id]++;
}

static void pass(void)
{
    struct pollfd sockets[2] = { { .fd = hosts[0]->socket, .events = POLLIN }, { .fd = hosts[1]->socket, .events = POLLIN } };
    poll(sockets, 2, 5);
    for (int id = 0; id < 2; id++) {
        ENetEvent event;
        while (enet_host_service(hosts[id], &event, 0) > 0) {
            connected += event.type == ENET_EVENT_TYPE_CONNECT;
            if (event.type == ENET_EVENT_TYPE_DISCONNECT)
                give_up("hostile: client %d lost its connection", id);
            if (event.type == ENET_EVENT_TYPE_RECEIVE) {
                arrived(id, event.packet);
                enet_packet_destroy(event.packet);
            }
        }
    }
}

// Each client that has fewer than 20 packets on their way submits one.
static void talk(void)
{
    for (int id = 0; id < 2; id++) {
        uint8_t body[100] = { [99] = (uint8_t)(1 - id) };
        memcpy(body, &sent[id], sizeof sent[id]);
        if (sent[id] < came[id] + 20 && enet_peer_send(peers[id], 0, enet_packet_create(body, sizeof body, ENET_PACKET_FLAG_RELIABLE)) == 0)
            sent[id]++;
    }
}

static void join(void)
{
    for (int id = 0; id < 2; id++) {
        hosts[id] = enet_host_create(NULL, 1, 0, 0, 0);
        peers[id] = hosts[id] == NULL ? NULL : enet_host_connect(hosts[id], &relay, 2, 0);
        if (peers[id] == NULL)
            give_up("hostile: no host");
        enet_peer_timeout(peers[id], 0, 60000, 60000);
    }
    for (double begun = now(); connected < 2 || now() < begun + 1; pass())
        if (now() > begun + 30)
            give_up("hostile: %d of 2 connected", connected);
}

// The two talk while the strangers send, and after that until all came.
static void talk_under(long number)
{
    pthread_t thread;
    double begun = now();
    uint32_t before = came[0] + came[1];
    over = 0;
    pthread_create(&thread, NULL, flood, &number);
    while (!over || came[0] < sent[0] || came[1] < sent[1]) {
        if (!over)
            talk();
        pass();
        if (now() > begun + 120)
            give_up("hostile: %u of %u and %u of %u packets came", came[0], sent[0], came[1], sent[1]);
    }
    pthread_join(thread, NULL);
    printf("%ld datagrams of strangers: %u packets of the clients came, none was lost, %.1f seconds\n", number,
           came[0] + came[1] - before, now() - begun);
}

int main(int words, char **word)
{
    relay.port = (enet_uint16)number_of(words, word, 1, 1, 65535);
    enet_address_set_host_ip(&relay, "127.0.0.1");
    target = (struct sockaddr_in){ .sin_family = AF_INET, .sin_port = htons(relay.port), .sin_addr.s_addr = relay.host };
    long process = number_of(words, word, 2, 1, INT32_MAX);
    datagrams = number_of(words, word, 3, 10, 1000000000);
    seed = (uint64_t)number_of(words, word, 4, 0, INT32_MAX);
    if (enet_initialize() != 0)
        give_up("hostile: the reference library doesn't start");
    join();
    talk_under(datagrams / 10);
    long before = resident(process);
    talk_under(datagrams);
    long after = resident(process);
    printf("the relay's memory: %ld KiB before, %ld KiB after\n", before, after);
    if (after > before + 1024)
        give_up("hostile: the relay's memory grew");
    return 0;
}
