// proxy PORT SERVER SEED [trip MS] [jitter MS] [down MS] [loss PERCENT] [rate KBIT] [inward KBIT] [thin KBIT] [queue MS] [tell 1]: stands
// between clients and a server, all on 127.0.0.1, until it is stopped. What comes to PORT goes to port SERVER, from a socket of its own for
// each client, and what comes back there goes to that client. Of all datagrams, both ways, 8 % are dropped, 5 % go twice, and 10 % are held
// back for 1 to 8 ms while others pass, as drawn from SEED. No command is dropped more than twice and no acknowledgement of it either,
// since a connection ends where one command goes six times in vain.
//
// Where one of the last words is given, it is a line in place of that, on which a datagram takes 20 to 37.5 ms, as its client has it, so
// that what is sent again goes at different times, or so many milliseconds for all (`trip`), and up to so many more, as drawn, so that some
// overtake others (`jitter`). From 4 seconds after the first one on all are dropped for so many milliseconds (`down`); of all so many
// percent are dropped, as drawn (`loss`); and all together have so many kilobits a second each way (`rate`), or to the clients alone
// (`inward`), with 28 bytes of headers a datagram, where what would wait for more than 100 ms, or for so many (`queue`), is dropped. With
// `thin` the first client that comes has a line of so many kilobits to itself, each way. With `tell` it prints at its end how many reliable
// commands with data the server sent, how many of these it had sent before, and how many datagrams found the queue full.
#define _GNU_SOURCE
#include <arpa/inet.h>
#include <poll.h>
#include <signal.h>
#include <stdbool.h>
#include <sys/socket.h>
#include <unistd.h>

#include "common.h"
#include "sends.h"

enum { CLIENTS = 64, WAITING = 4096, LONGEST = 4096, MARKS = 1 << 20 };

// A datagram that is held back: it goes out of `socket`, to `to` where that has a port, at the time `due`.
typedef struct Held {
    double due;
    int socket;
    struct sockaddr_in to;
    ssize_t length;
    uint8_t bytes[LONGEST];
} Held;

static struct pollfd sockets[1 + CLIENTS]; // the first is that of PORT, the others each client's to the server
static struct sockaddr_in clients[1 + CLIENTS];
static int known = 1;
static Held *held[WAITING];
static int waiting;
static uint64_t seed;
static int is_line;              // whether it is a line that drops them
static double trip;             // seconds that a datagram takes on that line; 0 where each client has its own
static double down, loss;       // of that line: seconds, and the share from 0 to 1; 0 where there is no such fault
static double jitter;           // how many seconds more a datagram takes at most
static double queue = 100e-3;   // for how many seconds a datagram may wait
static double begun;            // when the first datagram came
static bool has_thin, tells;
static Sends sends[1 + CLIENTS]; // of each client
static unsigned long overfull;   // how many datagrams found the queue full
static volatile sig_atomic_t stopped;

// Bytes a second, 0 for no limit, and when all that it took has been sent.
typedef struct Pipe {
    double rate, free_at;
} Pipe;

static Pipe shared[2], thin[2]; // to the server and to the clients: for all, and for the first client where it has its own
static uint8_t dropped[MARKS]; // how often a command was dropped; some share a mark

static struct sockaddr_in local(long port)
{
    struct sockaddr_in address = { .sin_family = AF_INET, .sin_port = htons((uint16_t)port) };
    address.sin_addr.s_addr = htonl(INADDR_LOOPBACK);
    return address;
}

static int open_socket(void)
{
    int opened = socket(AF_INET, SOCK_DGRAM | SOCK_NONBLOCK, 0);
    int size = 1 << 20;
    if (opened < 0)
        give_up("proxy: no socket");
    setsockopt(opened, SOL_SOCKET, SO_RCVBUF, &size, sizeof size);
    return opened;
}

// The socket to the server of the client at `from`, made where there is none; 0 where there are too many.
static int client_at(const struct sockaddr_in *from, const struct sockaddr_in *server)
{
    for (int i = 1; i < known; i++)
        if (clients[i].sin_port == from->sin_port && clients[i].sin_addr.s_addr == from->sin_addr.s_addr)
            return i;
    if (known > CLIENTS)
        return 0;
    sockets[known] = (struct pollfd){ .fd = open_socket(), .events = POLLIN };
    clients[known] = *from;
    if (connect(sockets[known].fd, (const struct sockaddr *)server, sizeof *server) != 0)
        give_up("proxy: no way to the server");
    return known++;
}

static void put(const Held *datagram)
{
    const struct sockaddr *to = datagram->to.sin_port == 0 ? NULL : (const struct sockaddr *)&datagram->to;
    sendto(datagram->socket, datagram->bytes, (size_t)datagram->length, 0, to, to == NULL ? 0 : sizeof datagram->to);
}

// Counts the reliable commands and acknowledgements of a datagram that were dropped at least `most` times, and adds `more` to how often
// each was dropped.
static int count_dropped(const Held *datagram, uint8_t most, uint8_t more)
{
    const uint8_t *bytes = datagram->bytes;
    size_t length = (size_t)datagram->length, size;
    int found = 0;
    for (size_t at = length > 0 && bytes[0] >> 7 ? 4 : 2; at < length && (size = command_length(bytes + at, length - at)) > 0; at += size) {
        const uint8_t *command = bytes + at;
        uint64_t way = (uint64_t)datagram->socket ^ datagram->to.sin_port, header = (uint64_t)(bytes[0] << 8 | bytes[1]) & 0x3fff;
        uint64_t key = way << 48 ^ header << 32 ^ (uint64_t)(command[0] & 15) << 24 ^ (uint64_t)command[1] << 16 ^
                       (uint64_t)(command[2] << 8 | command[3]);
        uint8_t *mark = &dropped[draw(&key) % MARKS];
        if (command[0] >> 7 == 0 && (command[0] & 15) != 1)
            continue;
        found += *mark >= most;
        *mark = (uint8_t)(*mark + more);
    }
    return found;
}

static void hold_until(const Held *datagram, double due)
{
    Held *copy = malloc(sizeof *copy);
    if (copy == NULL)
        give_up("proxy: no memory");
    *copy = *datagram;
    copy->due = due;
    held[waiting++] = copy;
}

// When the pipe has sent the datagram that comes now; 0 where it has to wait for too long.
static double through(Pipe *pipe, const Held *datagram, double time)
{
    if (pipe->rate == 0)
        return time;
    pipe->free_at = pipe->free_at > time ? pipe->free_at : time;
    if (pipe->free_at > time + queue)
        return 0;
    return pipe->free_at += (double)(datagram->length + 28) / pipe->rate;
}

// What the line does with a datagram of this client, from 1 on.
static void pass_over_line(const Held *datagram, int client)
{
    int inward = datagram->to.sin_port != 0;
    double time = now(), sent;
    if (begun == 0)
        begun = time;
    if (inward && tells)
        count_sends(&sends[client], datagram->bytes, (size_t)datagram->length);
    if ((time >= begun + 4 && time < begun + 4 + down) || waiting == WAITING)
        return;
    if (loss > 0 && (double)(draw(&seed) % 100000) < 100000 * loss)
        return;
    if ((sent = through(has_thin && client == 1 ? &thin[inward] : &shared[inward], datagram, time)) == 0) {
        overfull++;
        return;
    }
    if (jitter > 0)
        sent += jitter * (double)(draw(&seed) % 1000) / 1000;
    hold_until(datagram, sent + (trip > 0 ? trip : 20e-3 + 2.5e-3 * ((client - 1) % 8)));
}

// Drops the datagram, sends it once or twice, or holds it back.
static void pass_on(const Held *datagram)
{
    uint64_t chance = draw(&seed) % 100;
    if (chance < 8 && count_dropped(datagram, 2, 0) == 0) {
        count_dropped(datagram, 2, 1);
        return;
    }
    if (chance >= 8 && chance < 13)
        put(datagram);
    if (chance >= 90 && waiting < WAITING)
        hold_until(datagram, now() + 1e-3 * (double)(1 + draw(&seed) % 8));
    else
        put(datagram);
}

// Takes all that came to socket `index`.
static void take(int index, const struct sockaddr_in *server)
{
    static Held datagram;
    for (;;) {
        struct sockaddr_in from;
        socklen_t size = sizeof from;
        datagram.length = recvfrom(sockets[index].fd, datagram.bytes, LONGEST, 0, (struct sockaddr *)&from, &size);
        if (datagram.length < 0)
            return;
        int client = index == 0 ? client_at(&from, server) : index;
        datagram.socket = sockets[index == 0 ? client : 0].fd;
        datagram.to = index == 0 ? (struct sockaddr_in){ 0 } : clients[client];
        if (client != 0 && is_line)
            pass_over_line(&datagram, client);
        else if (client != 0)
            pass_on(&datagram);
    }
}

// Sends what was held back until now. When the next is due; 0 where none waits.
static double send_due(void)
{
    double time = now(), next = 0;
    int kept = 0;
    for (int i = 0; i < waiting; i++) {
        if (held[i]->due > time) {
            next = next == 0 || held[i]->due < next ? held[i]->due : next;
            held[kept++] = held[i];
            continue;
        }
        put(held[i]);
        free(held[i]);
    }
    waiting = kept;
    return next;
}

// Waits until something comes or is due, for as long as it takes.
static void wait_until(double next)
{
    double left = next > 0 ? next - now() : 0;
    struct timespec most = { .tv_sec = (time_t)left, .tv_nsec = (long)(1e9 * (left - (double)(time_t)left)) };
    if (next == 0 || left > 0)
        ppoll(sockets, (nfds_t)known, next > 0 ? &most : NULL, NULL);
    else
        poll(sockets, (nfds_t)known, 0);
}

static void stop(int signal)
{
    (void)signal;
    stopped = 1;
}

static void tell(void)
{
    unsigned long sent = 0, again = 0;
    for (int i = 1; i < known; i++) {
        sent += sends[i].sent;
        again += sends[i].again;
    }
    printf("sent %lu again %lu overfull %lu\n", sent, again, overfull);
}

// What a word of the line and its number mean.
static void understand(const char *word, double number)
{
    if (strcmp(word, "trip") == 0)
        trip = 1e-3 * number;
    else if (strcmp(word, "down") == 0)
        down = 1e-3 * number;
    else if (strcmp(word, "loss") == 0)
        loss = 1e-2 * number;
    else if (strcmp(word, "rate") == 0)
        shared[0].rate = shared[1].rate = 1e3 / 8 * number;
    else if (strcmp(word, "inward") == 0)
        shared[1].rate = 1e3 / 8 * number;
    else if (strcmp(word, "thin") == 0)
        thin[0].rate = thin[1].rate = 1e3 / 8 * number;
    else if (strcmp(word, "queue") == 0)
        queue = 1e-3 * number;
    else if (strcmp(word, "jitter") == 0)
        jitter = 1e-3 * number;
    else if (strcmp(word, "tell") == 0)
        tells = true;
    else
        give_up("proxy: %s is no word", word);
    has_thin = thin[0].rate > 0;
}

int main(int count, char **words)
{
    struct sockaddr_in here = local(number_of(count, words, 1, 1, 65535));
    struct sockaddr_in server = local(number_of(count, words, 2, 1, 65535));
    seed = (uint64_t)number_of(count, words, 3, 0, INT32_MAX);
    is_line = count > 4;
    for (int i = 4; i < count; i += 2)
        understand(words[i], (double)number_of(count, words, i + 1, 1, 1000000));
    sockets[0] = (struct pollfd){ .fd = open_socket(), .events = POLLIN };
    if (bind(sockets[0].fd, (const struct sockaddr *)&here, sizeof here) != 0)
        give_up("proxy: port %s can't be had", words[1]);
    double next = 0;
    if (tells)
        sigaction(SIGTERM, &(struct sigaction){ .sa_handler = stop }, NULL);
    while (!stopped) {
        wait_until(next);
        for (int i = 0; i < known; i++)
            if (sockets[i].revents != 0)
                take(i, &server);
        next = send_due();
    }
    tell();
}
