// hoard PORT CHANNELS LENGTH PID: a hostile peer of the server PID at PORT of 127.0.0.1, which was just started and grants so many channels. On
// each it begins a reliable packet of LENGTH bytes, the next in order, by its first piece, and sends no more: once the server's limit of what
// may wait is reached, these alone are taken in still. Prints how many bytes wait then, of how many packets by the server's
// acknowledgements, and by how many the server's resident memory has grown.
#include "stranger.h"

enum { PIECE = 1364 };

// How many acknowledgements come within so many seconds, at most `most`.
static unsigned listen_for(double seconds, unsigned most)
{
    uint8_t in[DATAGRAM];
    unsigned count = 0;
    struct pollfd socket = { .fd = server, .events = POLLIN };
    for (double end = now() + seconds; now() < end && count < most;) {
        poll(&socket, 1, 10);
        ssize_t length = recv(server, in, sizeof in, MSG_DONTWAIT);
        for (ssize_t at = 2; length > 0 && in[0] >> 7 == 0 && at + 8 <= length && (in[at] & 15) == 1; at += 8)
            count++;
    }
    return count;
}

int main(int count, char **words)
{
    uint16_t port = (uint16_t)number_of(count, words, 1, 1, 65535);
    uint32_t channels = (uint32_t)number_of(count, words, 2, 1, 255), length = (uint32_t)number_of(count, words, 3, PIECE, PIECE * 16384);
    long process = number_of(count, words, 4, 1, INT32_MAX);
    open_socket(port);
    uint32_t word = connect_with(channels);
    long before = resident_bytes(process);
    for (uint32_t channel = 0; channel < channels; channel++) {
        size_t at = put_all(0, (uint32_t[]){ 2, 0x8000 | word, 2, 0, 1, 0x88, 1, channel, 2, 1, 2, 1, 2, PIECE, 4,
            (length + PIECE - 1) / PIECE, 4, 0, 4, length, 4, 0, 0, 0 });
        send_out(at + PIECE);
    }
    unsigned taken = listen_for(20, channels);
    printf("%.0f bytes wait, of %u packets; the server has grown by %ld\n", (double)taken * length, taken, resident_bytes(process) - before);
}
