// tally PORT CLIENTS SECONDS: so many clients of the reference library talk through the relay at PORT of 127.0.0.1 and count what they send
// and take. The first asks for one channel, the others for two. Once all are connected it writes `talking`; then each sends a reliable
// packet on channel 0 every half second, and the second 20 packets in all on channel 1, which the relay can't pass on to the first. After
// so many seconds, or at SIGTERM, they leave, and each takes what still comes, until for a second and a half, in which this program goes
// on, nothing did. Then it prints the datagrams that went, their bytes, those that came, and their bytes, and how many packets came on
// channel 0.
#include <enet/enet.h>
#include <signal.h>

#include "common.h"

enum { MOST = 64, ON_ONE = 20, AT_ONCE = 5 };

static const double PAUSE = 0.5, LIMIT = 60, AFTERWARDS = 1.5, ROUND = 0.1;

static ENetHost *hosts[MOST];
static ENetPeer *peers[MOST];
static int many, connected, left, taken;
static volatile sig_atomic_t is_over;

static void end_talk(int signal)
{
    (void)signal;
    is_over = 1;
}

static void hear_all(double seconds)
{
    ENetEvent event;
    for (double begun = now(); now() < begun + seconds;) {
        for (int i = 0; i < many; i++)
            while (enet_host_service(hosts[i], &event, 0) > 0) {
                connected += event.type == ENET_EVENT_TYPE_CONNECT;
                left += event.type == ENET_EVENT_TYPE_DISCONNECT;
                if (event.type != ENET_EVENT_TYPE_RECEIVE)
                    continue;
                taken += event.channelID == 0;
                enet_packet_destroy(event.packet);
            }
        nanosleep(&(struct timespec){ .tv_nsec = 1000000 }, NULL);
    }
}

static unsigned long all_received(void)
{
    unsigned long received = 0;
    for (int i = 0; i < many; i++)
        received += hosts[i]->totalReceivedPackets;
    return received;
}

// Hears until so many have left, and nothing came for a while.
static void hear_until(int gone)
{
    double begun = now(), quiet = 0;
    while (now() < begun + LIMIT && (left < gone || quiet < AFTERWARDS)) {
        unsigned long before = all_received();
        double last = now();
        hear_all(0.01);
        quiet = all_received() > before ? 0 : quiet + (now() - last < ROUND ? now() - last : ROUND);
    }
}

static void say(int i, uint8_t channel, uint32_t flags)
{
    ENetPacket *packet = enet_packet_create("hello, all of you", 17, flags);
    if (packet == NULL || enet_peer_send(peers[i], channel, packet) != 0)
        give_up("tally: a packet isn't taken");
}

int main(int count, char **words)
{
    ENetAddress relay = { .port = (enet_uint16)number_of(count, words, 1, 1, 65535) };
    double seconds = (double)number_of(count, words, 3, 1, 600);
    uint64_t totals[4] = { 0 };
    many = (int)number_of(count, words, 2, 2, MOST);
    enet_address_set_host_ip(&relay, "127.0.0.1");
    if (enet_initialize() != 0)
        give_up("tally: the library can't be used");
    for (int i = 0; i < many; i++) {
        hosts[i] = enet_host_create(NULL, 1, 2, 0, 0);
        peers[i] = hosts[i] == NULL ? NULL : enet_host_connect(hosts[i], &relay, i == 0 ? 1 : 2, 0);
        if (peers[i] == NULL)
            give_up("tally: a client can't begin");
    }
    for (double begun = now(); connected < many; hear_all(0.01))
        if (now() > begun + LIMIT)
            give_up("tally: %d of %d are connected", connected, many);
    signal(SIGTERM, end_talk);
    printf("talking\n");
    fflush(stdout);
    double begun = now(), next = begun;
    for (int said = 0; (now() < begun + seconds && !is_over) || said < ON_ONE; hear_all(0.005)) {
        if (now() < next)
            continue;
        next += PAUSE;
        for (int i = 0; i < many; i++)
            say(i, 0, ENET_PACKET_FLAG_RELIABLE);
        for (int i = 0; i < AT_ONCE && said < ON_ONE; i++, said++)
            say(1, 1, ENET_PACKET_FLAG_RELIABLE);
    }
    hear_all(AFTERWARDS);
    for (int i = 0; i < many; i++)
        enet_peer_disconnect(peers[i], 0);
    hear_until(many);
    if (left != many)
        give_up("tally: %d of %d have left", left, many);
    for (int i = 0; i < many; i++) {
        totals[0] += hosts[i]->totalSentPackets;
        totals[1] += hosts[i]->totalSentData;
        totals[2] += hosts[i]->totalReceivedPackets;
        totals[3] += hosts[i]->totalReceivedData;
    }
    printf("%llu %llu %llu %llu %d\n", (unsigned long long)totals[0], (unsigned long long)totals[1], (unsigned long long)totals[2],
        (unsigned long long)totals[3], taken);
    return 0;
}
