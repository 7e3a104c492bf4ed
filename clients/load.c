// load PORT PID CLIENTS SIZE CHANNEL SECONDS [TALKERS [CALLS]]: measures the relay at PORT of 127.0.0.1, which is process PID, with that many
// clients of the reference library and packets of SIZE bytes, on channel 0 reliable ones, on channel 1 unreliable ones (in pieces where
// they are long). First the trip at light load: one client talks 200 times a second, and each time another one of the others tells how
// long it took. Then the most that goes through: every client talks, or the first TALKERS of them, and no more than have their packets
// on the way to the relay in the buffer of a socket (`on_the_way`). One client alone has nobody to talk to, so beside it is one that
// only listens. Prints packets delivered in a second, packets delivered in a second of the relay's processor time, and the trip's
// median and 99th percentile in microseconds. Where CALLS is the file in which calls.c counts what the relay calls, it prints behind that how
// often the relay called to send and to receive for each 1,000 packets delivered, and the nanoseconds that a packet took it outside the
// system and inside, as far as the system's clock ticks tell, while the most went through.
//
// Both ends' throttles are told never to go down, so that no unreliable packet is dropped before it is sent.
#include <dirent.h>
#include <enet/enet.h>
#include <poll.h>
#include <pthread.h>
#include <stdatomic.h>
#include <stdbool.h>
#include <sys/eventfd.h>
#include <sys/prctl.h>
#include <unistd.h>

#include "common.h"

enum { MOST = 513, TRIPS = 1 << 16, THREADS = 2 };

// The front of every packet.
typedef struct Message {
    uint16_t sender;
    uint32_t number;
    double sent;
} Message;

typedef struct Client {
    ENetHost *host;
    ENetPeer *peer;
    uint32_t sent;
    double moved; // when its last packet came, as far as it knows
    uint32_t known;
} Client;

typedef enum Phase { JOINING, LIGHT, FULL, OVER } Phase;

static Client clients[MOST];
static int count, talkers; // the first of the clients talk
static size_t size;
static enet_uint8 channel;
static ENetAddress relay;
static atomic_int phase, joined;
static atomic_uint last[MOST]; // of each talker's packets, the number after the last that came to the client after it
static atomic_ulong delivered;
static double trips[TRIPS];
static int tripped;
// A thread sleeps while nothing comes to its own clients. So the one whose client a talker's packet came to wakes the talker's thread: else
// that found out at its next millisecond, with four packets of 20,000 bytes on the way at most.
static int bells[THREADS];
static _Thread_local bool to_wake[THREADS];

// Seconds of processor time that the threads of a process have had.
static double processor_time(long process)
{
    char path[300];
    snprintf(path, sizeof path, "/proc/%ld/task", process);
    DIR *tasks = opendir(path);
    double sum = 0;
    for (struct dirent *task; tasks != NULL && (task = readdir(tasks)) != NULL;) {
        double nanoseconds = 0;
        snprintf(path, sizeof path, "/proc/%ld/task/%s/schedstat", process, task->d_name);
        FILE *file = task->d_name[0] == '.' ? NULL : fopen(path, "r");
        if (file != NULL && fscanf(file, "%lf", &nanoseconds) == 1)
            sum += 1e-9 * nanoseconds;
        if (file != NULL)
            fclose(file);
    }
    if (tasks != NULL)
        closedir(tasks);
    return sum;
}

// What a relay had done at a moment: its calls to send and to receive, and its ticks outside the system and inside.
typedef struct Work {
    uint64_t calls[2];
    unsigned long ticks[2];
} Work;

static Work work_of(long process, const char *calls)
{
    Work work = { 0 };
    char path[300];
    FILE *file = fopen(calls, "rb");
    if (file == NULL || fread(work.calls, sizeof work.calls[0], 2, file) != 2)
        give_up("load: nothing is counted in %s", calls);
    fclose(file);
    snprintf(path, sizeof path, "/proc/%ld/stat", process);
    file = fopen(path, "r");
    if (file == NULL || fscanf(file, "%*d (%*[^)]) %*c %*d %*d %*d %*d %*d %*u %*u %*u %*u %*u %lu %lu", &work.ticks[0], &work.ticks[1]) != 2)
        give_up("load: the relay's ticks can't be read");
    fclose(file);
    return work;
}

// How many packets may be on their way to the relay: 64 datagrams' worth.
static int on_the_way(void)
{
    return 64 / (int)((size + 1363) / 1364);
}

static void submit(int id)
{
    static _Thread_local uint8_t body[20000];
    Message message = { .sender = (uint16_t)id, .number = clients[id].sent++, .sent = now() };
    memcpy(body, &message, sizeof message);
    enet_uint32 flags = channel == 0 ? ENET_PACKET_FLAG_RELIABLE : ENET_PACKET_FLAG_UNRELIABLE_FRAGMENT;
    ENetPacket *packet = enet_packet_create(body, size, flags);
    if (packet == NULL || enet_peer_send(clients[id].peer, channel, packet) != 0)
        give_up("load: a packet isn't taken");
}

static void arrived(int id, const ENetPacket *packet)
{
    Message message;
    if (packet->dataLength != size)
        give_up("load: a packet of %zu bytes", packet->dataLength);
    memcpy(&message, packet->data, sizeof message);
    atomic_fetch_add_explicit(&delivered, 1, memory_order_relaxed);
    if ((message.sender + 1) % count == id) {
        atomic_store(&last[message.sender], message.number + 1);
        to_wake[message.sender % THREADS] = true;
    }
    if (phase == LIGHT && message.number % (uint32_t)(count - 1) + 1 == (uint32_t)id && tripped < TRIPS)
        trips[tripped++] = now() - message.sent;
}

static void service(int id)
{
    ENetEvent event;
    while (enet_host_service(clients[id].host, &event, 0) > 0) {
        if (event.type == ENET_EVENT_TYPE_CONNECT) {
            enet_peer_throttle_configure(event.peer, 5000, 32, 0);
            joined++;
        }
        if (event.type == ENET_EVENT_TYPE_DISCONNECT)
            give_up("load: client %d lost its connection", id);
        if (event.type == ENET_EVENT_TYPE_RECEIVE) {
            arrived(id, event.packet);
            enet_packet_destroy(event.packet);
        }
    }
}

// Fills the window of a talker. After 50 ms in which nothing came, what is on its way counts as lost.
static void talk(int id)
{
    Client *client = &clients[id];
    uint32_t came = atomic_load(&last[id]);
    if (came != client->known || now() > client->moved + 0.05) {
        client->moved = now();
        if (came == client->known && channel == 1)
            came = client->sent;
        client->known = came;
    }
    while ((int32_t)(client->sent - client->known) < on_the_way() / talkers)
        submit(id);
}

static void ring(int part)
{
    for (int other = 0; other < THREADS; other++) {
        if (to_wake[other] && other != part && eventfd_write(bells[other], 1) != 0)
            give_up("load: a thread can't be woken");
        to_wake[other] = false;
    }
}

// Thread `part` drives the clients part, part + THREADS, and so on; where the load is light, the first drives all.
static void pass(int part, int step, int longest)
{
    struct pollfd sockets[MOST];
    sockets[0] = (struct pollfd){ .fd = bells[part], .events = POLLIN };
    nfds_t open = 1;
    for (int id = part; id < count; id += step)
        sockets[open++] = (struct pollfd){ .fd = clients[id].host->socket, .events = POLLIN };
    poll(sockets, open, longest);
    eventfd_t rung;
    if (sockets[0].revents != 0)
        eventfd_read(bells[part], &rung);
    for (int id = part; id < count; id += step) {
        service(id);
        if (phase == FULL && id < talkers) {
            talk(id);
            enet_host_flush(clients[id].host);
        }
    }
    if (phase == FULL)
        ring(part);
}

static void *drive(void *part)
{
    while (phase != OVER)
        pass(*(int *)part, THREADS, 1);
    return NULL;
}

static void join(void)
{
    for (int id = 0; id < count; id++) {
        clients[id].host = enet_host_create(NULL, 1, 0, 0, 0);
        if (clients[id].host == NULL)
            give_up("load: no host");
        clients[id].host->mtu = clients[id].host->peers[0].mtu = 1392;
        clients[id].peer = enet_host_connect(clients[id].host, &relay, 2, 0);
    }
    for (double begun = now(); joined < count || now() < begun + 0.3;) {
        if (now() > begun + 20)
            give_up("load: %d of %d connected", (int)joined, count);
        pass(0, 1, 5);
    }
}

static void light(double seconds)
{
    double begun = now();
    phase = LIGHT;
    for (int i = 0; i < seconds * 200;) {
        double left = begun + i / 200.0 - now();
        if (left > 0) {
            pass(0, 1, left > 0.001 ? (int)(left * 1000) : 0);
            continue;
        }
        submit(0);
        enet_host_flush(clients[0].host);
        i++;
    }
    for (double end = now() + 0.3; now() < end;)
        pass(0, 1, 5);
}

// What the relay did for `came` packets between two moments.
static void print_work(const Work *before, const Work *after, double came)
{
    double tick = 1e9 / (double)sysconf(_SC_CLK_TCK);
    for (int i = 0; i < 2; i++)
        printf(" %.1f", 1000 * (double)(after->calls[i] - before->calls[i]) / came);
    for (int i = 0; i < 2; i++)
        printf(" %.0f", tick * (double)(after->ticks[i] - before->ticks[i]) / came);
}

// The most that goes through. Where `calls` is given, what the relay did stands in `works`, at the beginning and at the end; answers how many
// packets came meanwhile.
static double full(double seconds, long process, const char *calls, Work works[2], double *each_second, double *each_processor_second)
{
    static int parts[THREADS] = { 0, 1 };
    pthread_t threads[THREADS];
    phase = FULL;
    for (int i = 0; i < THREADS; i++)
        pthread_create(&threads[i], NULL, drive, &parts[i]);
    struct timespec warm = { .tv_nsec = 500000000 }, length = { .tv_sec = (time_t)seconds };
    nanosleep(&warm, NULL);
    if (calls != NULL)
        works[0] = work_of(process, calls);
    double begun = now(), used = processor_time(process);
    unsigned long before = delivered;
    nanosleep(&length, NULL);
    double came = (double)(delivered - before);
    *each_second = came / (now() - begun);
    *each_processor_second = came / (processor_time(process) - used);
    if (calls != NULL)
        works[1] = work_of(process, calls);
    phase = OVER;
    for (int i = 0; i < THREADS; i++)
        pthread_join(threads[i], NULL);
    return came;
}

static int by_size(const void *a, const void *b)
{
    double x = *(const double *)a, y = *(const double *)b;
    return (x > y) - (x < y);
}

int main(int words, char **word)
{
    relay.port = (enet_uint16)number_of(words, word, 1, 1, 65535);
    enet_address_set_host_ip(&relay, "127.0.0.1");
    long process = number_of(words, word, 2, 1, INT32_MAX);
    count = (int)number_of(words, word, 3, 1, MOST - 1);
    size = (size_t)number_of(words, word, 4, sizeof(Message), 20000);
    channel = (enet_uint8)number_of(words, word, 5, 0, 1);
    talkers = words > 7 ? (int)number_of(words, word, 7, 1, count) : count;
    talkers = talkers < on_the_way() ? talkers : on_the_way();
    count = count == 1 ? 2 : count;
    double seconds = (double)number_of(words, word, 6, 1, 600), each_second, each_processor_second;
    for (int i = 0; i < THREADS; i++)
        if ((bells[i] = eventfd(0, EFD_NONBLOCK)) < 0)
            give_up("load: no bell");
    prctl(PR_SET_TIMERSLACK, 1000);
    if (enet_initialize() != 0)
        give_up("load: the reference library doesn't start");
    join();
    light(seconds);
    Work works[2];
    const char *calls = words > 8 ? word[8] : NULL;
    double came = full(seconds, process, calls, works, &each_second, &each_processor_second);
    qsort(trips, (size_t)tripped, sizeof *trips, by_size);
    if (tripped == 0)
        give_up("load: no packet came");
    printf("%.0f %.0f %.0f %.0f", each_second, each_processor_second, 1e6 * trips[tripped / 2], 1e6 * trips[tripped * 99 / 100]);
    if (calls != NULL)
        print_work(&works[0], &works[1], came);
    printf("\n");
    return 0;
}
