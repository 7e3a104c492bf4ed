// flood PORT SECONDS KILOBYTES KIND: a hostile peer of the server at PORT of 127.0.0.1. It connects as any client does and acknowledges what
// comes; then it sends for so many seconds as many kilobytes (of 1,000 bytes) a second of commands of one kind, in datagrams of 1,392 bytes:
//   waiting      empty unreliable packets that wait for a reliable one, which never comes
//   held         empty reliable packets behind one that never comes
//   unsequenced  empty unsequenced packets, each of a group of its own, on the last channel, from which a relay passes nothing on
//   pieces       first pieces of unreliable packets of 4 pieces of 512 bytes
//   pings        pings, each of which asks for an acknowledgement
// Prints how many commands went, and whether the server let it go before the end.
#include "stranger.h"

enum { CHANNELS = 3, SEATS = 32768 };

static uint32_t first_word;

// Writes the commands, number `n` of its kind each, at `at`. The place behind it.
static size_t waiting(size_t at, uint32_t n)
{
    uint32_t each = n / CHANNELS;
    return put_all(at, (uint32_t[]){ 1, 0x07, 1, n % CHANNELS, 2, 2 + each / SEATS, 2, each % SEATS + 1, 2, 0, 0, 0 });
}

static size_t held(size_t at, uint32_t n)
{
    return put_all(at, (uint32_t[]){ 1, 0x86, 1, n % CHANNELS, 2, 2 + n / CHANNELS % 16000, 2, 0, 0, 0 });
}

static size_t unsequenced(size_t at, uint32_t n)
{
    return put_all(at, (uint32_t[]){ 1, 0x49, 1, CHANNELS - 1, 2, 0, 2, (n + 1) & 0xffff, 2, 0, 0, 0 });
}

static size_t piece(size_t at, uint32_t n)
{
    uint32_t each = n / CHANNELS;
    return put_first_piece(at, 0x0c, n % CHANNELS, 2 + each / SEATS, each % SEATS + 1);
}

static size_t ping(size_t at, uint32_t n)
{
    return put_all(at, (uint32_t[]){ 1, 0x85, 1, 0xff, 2, (n + 2) & 0xffff, 0, 0 });
}

static const struct {
    const char *name;
    size_t (*write)(size_t at, uint32_t n);
    size_t size;
} kinds[] = { { "waiting", waiting, 8 }, { "held", held, 6 }, { "unsequenced", unsequenced, 8 }, { "pieces", piece, PIECE_COMMAND }, { "pings", ping, 4 } };

// Sends commands of a kind from number `n` on, as many as a datagram has room for. The number after them.
static uint32_t send_many(int kind, uint32_t n)
{
    static uint16_t sent_at;
    size_t at = put_all(0, (uint32_t[]){ 2, 0x8000 | first_word, 2, sent_at++, 0, 0 });
    while (at + kinds[kind].size <= FULL)
        at = kinds[kind].write(at, n++);
    send_out(at);
    return n;
}

int main(int count, char **words)
{
    uint16_t port = (uint16_t)number_of(count, words, 1, 1, 65535);
    double seconds = (double)number_of(count, words, 2, 1, 3600), each = 1e3 * (double)number_of(count, words, 3, 1, 1000000);
    int kind = 0, most = sizeof kinds / sizeof *kinds;
    while (kind < most && (count < 5 || strcmp(words[4], kinds[kind].name) != 0))
        kind++;
    if (kind == most)
        give_up("flood: that is no kind");
    open_socket(port);
    first_word = connect_with(CHANNELS);
    uint32_t n = 0;
    double bytes = 0, begun = now();
    bool is_over = false;
    while (!is_over && now() < begun + seconds) {
        poll(&(struct pollfd){ .fd = server, .events = POLLIN }, 1, bytes > (now() - begun) * each ? 1 : 0);
        is_over = acknowledge_all(first_word);
        for (int i = 0; i < 16 && bytes <= (now() - begun) * each; i++, bytes += FULL)
            n = send_many(kind, n);
    }
    printf("%u commands%s\n", n, is_over ? ", and the server let it go" : "");
}
