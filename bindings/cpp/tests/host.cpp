// host [refuse | record FILE]: two hosts in memory, and two endpoints over 127.0.0.1, by way of gofnjerta.hpp: each call, each reading,
// what a moved host is, and what is refused. With `refuse` the same again and again, each time with one more growth of memory granted
// before one is refused, until none is: a call that is refused for it returns E1, and does what it should when it is made again. With
// `record` only an echo by two endpoints, of which the one that echoes is recorded, in FILE. Prints how many runs there were; status 1 at
// the first thing that is amiss. It is linked with --wrap=malloc,--wrap=realloc.
#include <cstdio>
#include <cstdlib>
#include <string>
#include <vector>

#include <gofnjerta.hpp>

using namespace gofnjerta;
using namespace std::chrono_literals;

static_assert(!std::is_copy_constructible<Host>::value && std::is_nothrow_move_constructible<Host>::value, "Host");
static_assert(!std::is_copy_constructible<Endpoint>::value && std::is_nothrow_move_constructible<Endpoint>::value, "Endpoint");
static_assert(!std::is_copy_constructible<Event>::value && std::is_nothrow_move_constructible<Event>::value, "Event");

static long growths;   // since the run began
static long refused_at; // the number of the growth that is refused, or 0

extern "C" {
void *__real_malloc(std::size_t size);
void *__real_realloc(void *block, std::size_t size);
void *__wrap_malloc(std::size_t size) { return ++growths == refused_at ? nullptr : __real_malloc(size); }
void *__wrap_realloc(void *block, std::size_t size) { return ++growths == refused_at ? nullptr : __real_realloc(block, size); }
}

#define HOLDS(condition) \
    do { \
        if (!(condition)) { \
            std::fprintf(stderr, "line %d, growth %ld refused: %s\n", __LINE__, refused_at, #condition); \
            std::exit(1); \
        } \
    } while (0)

// Makes a call until it isn't refused for memory, which only one growth of a run is.
template <typename F>
static auto sure(F call) -> decltype(call()) {
    auto result = call();
    if (result) return result;
    HOLDS(result.error() == Error(GOFNJERTA_MEMORY));
    HOLDS(refused_at != 0 && growths >= refused_at);
    return call();
}

static const Address LEFT{0x0A000001, 1001}, RIGHT{0x0A000002, 1002};

// What is to be sent goes to the other host.
static void carry(Host &from, Address at, Host &to) {
    for (;;) {
        auto datagram = sure([&] { return from.transmit(); });
        HOLDS(datagram);
        if (!*datagram) return;
        HOLDS(datagram->to == (at == LEFT ? RIGHT : LEFT));
        HOLDS(to.receive(at, Bytes(datagram->data, datagram->size)));
    }
}

static void pass(Host &left, Host &right, int ms = 20) {
    carry(left, LEFT, right);
    carry(right, RIGHT, left);
    HOLDS(sure([&] { return left.tick(static_cast<std::uint32_t>(ms)); }));
    HOLDS(sure([&] { return right.tick(static_cast<std::uint32_t>(ms)); }));
}

// The next event of `of`, in two simulated minutes at most.
static Event await(Host &of, Host &left, Host &right) {
    for (int i = 0; i < 6000; i++) {
        auto event = sure([&] { return of.next_event(); });
        HOLDS(event);
        if (*event) return std::move(*event);
        pass(left, right);
    }
    HOLDS(!"an event comes");
    return {};
}

static std::vector<std::uint8_t> body(std::size_t length) {
    std::vector<std::uint8_t> bytes(length);
    for (std::size_t i = 0; i < length; i++) bytes[i] = static_cast<std::uint8_t>(i * 7 + i / 251 + length);
    return bytes;
}

static bool is_body(const Event &event, const std::vector<std::uint8_t> &wanted) {
    return event.kind == Event::Kind::Receive && event.data.size() == wanted.size() && std::equal(wanted.begin(), wanted.end(), event.data.begin());
}

static void settings(Host &left, Peer peer) {
    HOLDS(sure([&] { return left.set_bandwidth(0, 1000000); }));
    HOLDS(sure([&] { return left.set_ping_interval(peer, 400); }));
    HOLDS(sure([&] { return left.set_timeout(peer, 32, 5000, 30000); }));
    HOLDS(sure([&] { return left.throttle_configure(peer, 5000, 2, 2); }));
    auto reading = left.read_peer(peer);
    HOLDS(reading && reading->state == GOFNJERTA_CONNECTED && reading->channels == 2);
    HOLDS(left.read_allowance(peer).value() == 65536);
    HOLDS(left.read_totals()->datagrams_in > 0);
    HOLDS(left.read_held()->most_memory > 0);
    auto slots = left.read_slots();
    HOLDS(slots && slots->connected == 1);
    HOLDS(left.read_sent_again());
    HOLDS(left.due_in().value() <= 1000);
    HOLDS(left.submit(peer, 2, "x").error() == Error(GOFNJERTA_NO_SUCH_CHANNEL));
    HOLDS(std::string(left.submit(peer, 2, "x").error().name()) == "E4 NoSuchChannel");
}

// Packets of many lengths, each of which comes with its address.
static void talk(Host &left, Host &right, Peer at_left, Peer at_right) {
    for (std::size_t length : {0, 1, 1363, 1364, 5000, 70000}) {
        const auto wanted = body(length);
        HOLDS(sure([&] { return left.submit(at_left, 0, wanted); }));
        HOLDS(sure([&] { return right.broadcast(&at_right, 1, 1, wanted); }));
        Event there = await(right, left, right), here = await(left, left, right);
        HOLDS(is_body(there, wanted) && there.channel == 0 && there.delivery == Delivery::Reliable && there.address == LEFT);
        HOLDS(is_body(here, wanted) && here.channel == 1 && here.address == RIGHT && here.peer == at_left);
    }
    for (Delivery delivery : {Delivery::Unreliable, Delivery::Unsequenced}) {
        const std::string text = "once";
        for (int i = 0; i < 2; i++) HOLDS(sure([&] { return left.submit(at_left, 1, text, delivery); }));
        HOLDS(sure([&] { return left.submit(at_left, 0, "behind"); }));
        // A growth that is refused at the receiver may lose some of these.
        Event event = await(right, left, right);
        for (; event.text() != "behind"; event = await(right, left, right)) HOLDS(event.text() == "once" && event.delivery == delivery);
    }
}

static void refusals(Host &left, Peer peer) {
    HOLDS(left.submit(peer, 0, "x").error() == Error(GOFNJERTA_NOT_CONNECTED));
    HOLDS(left.submit(Peer{peer.slot, peer.generation + 1}, 0, "x").error() == Error(GOFNJERTA_NO_SUCH_PEER));
    HOLDS(left.connect(RIGHT, 0, 0, 1).error() == Error(GOFNJERTA_BAD_CONFIG));
    HOLDS(left.set_most(0).error() == Error(GOFNJERTA_BAD_CONFIG));
    HOLDS(left.receive(RIGHT, "no datagram").value().stop != 0);
    HOLDS(std::string(left.receive(RIGHT, "x").value().stop_name()) == "S1 Short");
    HOLDS(Host::open(standard(0, 1)).error() == Error(GOFNJERTA_BAD_CONFIG));
    HOLDS(Address::of("10.0.0.1:1001").value() == LEFT);
    for (const char *text : {"", ":1", "10.0.0.1", "10.0.0.1:", "10.0.0:1", "10.0.0.1:65536", "10.0.0.1:1x", "1000000000000000:1"})
        HOLDS(!Address::of(text));
}

static void moved(Host &left) {
    Host other = std::move(left);
    HOLDS(left.transmit().error() == Error(GOFNJERTA_CLOSED));
    HOLDS(left.tick(1).error() == Error(GOFNJERTA_CLOSED));
    HOLDS(left.next_event().error() == Error(GOFNJERTA_CLOSED));
    HOLDS(other.read_totals());
    left = std::move(other);
    HOLDS(other.due_in().error() == Error(GOFNJERTA_CLOSED));
    HOLDS(left.read_totals());
}

// Takes a record: `context` is a string.
static int append(void *context, const void *bytes, std::size_t length) {
    static_cast<std::string *>(context)->append(static_cast<const char *>(bytes), length);
    return 0;
}

// A limit, the line, and why connections end; the left host's record is written.
static void told() {
    std::string record;
    Host left = std::move(*sure([&] { return Host::record(standard(1, 1), append, &record); }));
    Host right = std::move(*sure([&] { return Host::open(standard(1, 1)); }));
    HOLDS(refused_at || Host::record(standard(0, 1), append, &record).error() == Error(GOFNJERTA_BAD_CONFIG));
    HOLDS(left.set_send_limit(5, 100));
    auto asked = sure([&] { return left.connect(RIGHT, 1, 0, 7); });
    HOLDS(asked);
    HOLDS(await(left, left, right).kind == Event::Kind::Connect && await(right, left, right).kind == Event::Kind::Connect);
    HOLDS(sure([&] { return left.submit(*asked, 0, "hello"); }));
    HOLDS(left.submit(*asked, 0, "").error() == Error(GOFNJERTA_FULL));
    const Peer names[] = {*asked, Peer{0, 7}};
    std::uint32_t answers[] = {99, 99, 99};
    HOLDS(sure([&] { return left.broadcast_each(names, 2, 0, "", answers); }));
    HOLDS(answers[0] == GOFNJERTA_FULL && answers[1] == GOFNJERTA_NO_SUCH_PEER && answers[2] == 99);
    auto traffic = left.read_traffic(*asked);
    HOLDS(traffic && traffic->sent == 0 && traffic->again == 0 && traffic->acknowledged == 0);
    auto line = left.read_line(*asked);
    HOLDS(line && line->commands == 1 && line->bytes == 5 && line->in_transit == 0 && line->allowance >= 65536);
    HOLDS(left.read_line(Peer{1, 0}).error() == Error(GOFNJERTA_NO_SUCH_PEER));
    HOLDS(left.read_traffic(Peer{1, 0}).error() == Error(GOFNJERTA_NO_SUCH_PEER));
    HOLDS(await(right, left, right).text() == "hello");
    traffic = left.read_traffic(*asked);
    HOLDS(traffic && traffic->sent - traffic->again == 1 && traffic->acknowledged <= 1);
    HOLDS(left.ending(*asked).value() == Ending::None);
    HOLDS(sure([&] { return left.disconnect(*asked, 5); }));
    HOLDS(await(left, left, right).kind == Event::Kind::Disconnect);
    HOLDS(left.ending(*asked).value() == Ending::AskedHere);
    HOLDS(right.ending(Peer{0, 0}).value() == Ending::AskedThere);
    moved(left);
    left.close();
    HOLDS(left.transmit().error() == Error(GOFNJERTA_CLOSED));
    HOLDS(record.size() > 100 && record.compare(0, 8, "gofnjrec") == 0);
}

static void hosts() {
    told();
    Config config = standard(4, 2);
    config.generations = ENDLESS;
    Host left = std::move(*sure([&] { return Host::open(config); }));
    Host right = std::move(*sure([&] { return Host::open(config); }));
    const std::uint8_t key[32] = {1, 2, 3};
    HOLDS(sure([&] { return left.set_secret(key); }));
    HOLDS(sure([&] { return right.give_way(); }));
    HOLDS(sure([&] { return right.set_most(3); }));
    for (int way = 0; way < 3; way++) {
        auto asked = sure([&] { return left.connect(RIGHT, 2, 77, 0x12345678u + static_cast<std::uint32_t>(way)); });
        HOLDS(asked);
        Event here = await(left, left, right), there = await(right, left, right);
        HOLDS(here.kind == Event::Kind::Connect && here.peer == *asked && here.address == RIGHT && here.info == 0);
        HOLDS(there.kind == Event::Kind::Connect && there.address == LEFT && there.info == 77);
        if (way == 0) {
            settings(left, here.peer);
            moved(left);
            talk(left, right, here.peer, there.peer);
        }
        if (way == 0) HOLDS(sure([&] { return left.disconnect(here.peer, 5); }));
        if (way == 1) HOLDS(sure([&] { return left.disconnect_later(here.peer, 5); }));
        if (way == 2) HOLDS(sure([&] { return left.disconnect_now(here.peer, 5); }));
        Event end = await(right, left, right);
        HOLDS(end.kind == Event::Kind::Disconnect && end.peer == there.peer && end.address == LEFT && end.info == 5);
        if (way < 2) {
            end = await(left, left, right);
            HOLDS(end.kind == Event::Kind::Disconnect && end.peer == here.peer && end.address == RIGHT && end.info == 0);
        }
        HOLDS(left.submit(here.peer, 0, "x").error() == Error(GOFNJERTA_NO_SUCH_PEER));
    }
    auto asked = sure([&] { return left.connect(Address{0x0A000003, 9}, 2, 0, 1); });
    refusals(left, *asked);
    left.close();
    HOLDS(left.transmit().error() == Error(GOFNJERTA_CLOSED));
}

// A server for four, whose record is written.
static Endpoint recorded(std::string &record) {
    Config config = standard(1028, 2);
    config.generations = ENDLESS;
    const Address at{0x7F000001, 0};
    HOLDS(refused_at || Endpoint::record(at, standard(0, 1), append, &record).error() == Error(GOFNJERTA_BAD_CONFIG));
    auto opened = sure([&] {
        record.clear();
        return Endpoint::record(at, config, append, &record);
    });
    HOLDS(opened);
    HOLDS(sure([&] { return opened->host().give_way(); }));
    HOLDS(sure([&] { return opened->host().set_most(4); }));
    return std::move(*opened);
}

// Two endpoints, over a simulated line where `loss` or `delay` isn't 0. The server's record is written to `record`, if that isn't null.
static void endpoints(double loss, std::chrono::milliseconds delay, int packets, std::string *record = nullptr) {
    Endpoint server = record ? recorded(*record) : std::move(*sure([&] { return Endpoint::server(Address{0x7F000001, 0}, 4); }));
    Endpoint client = std::move(*sure([&] { return Endpoint::client(); }));
    server.simulate(loss, delay);
    Address at = *server.address();
    HOLDS(Endpoint::open(at, standard(1, 1)).error() != Error());
    auto asked = sure([&] { return client.connect(at, 2, 3); });
    HOLDS(asked);
    int said = 0, came = 0, back = 0;
    bool connected = false, ended = false;
    for (auto begun = std::chrono::steady_clock::now(); !ended && std::chrono::steady_clock::now() < begun + 300s;) {
        auto event = sure([&] { return server.service(0ms); });
        HOLDS(event);
        if (event->kind == Event::Kind::Receive) {
            came++;
            HOLDS(sure([&] { return server.submit(event->peer, event->channel, event->data, event->delivery); }));
        }
        event = sure([&] { return client.service(1ms); });
        HOLDS(event);
        if (event->kind == Event::Kind::Connect) connected = true;
        if (event->kind == Event::Kind::Receive) {
            HOLDS(event->text() == "packet " + std::to_string(back));
            HOLDS(event->address == at);
            if (++back == packets) HOLDS(sure([&] { return client.disconnect(*asked, 0); }));
        }
        if (event->kind == Event::Kind::Disconnect) ended = true;
        if (connected && said < packets) {
            HOLDS(sure([&] { return client.submit(*asked, 0, "packet " + std::to_string(said)); }));
            said++;
        }
    }
    HOLDS(ended && came == packets && back == packets);
    server.close();
    HOLDS(record == nullptr || record->compare(0, 8, "gofnjrec") == 0);
}

// Whether a text was written to a file.
static bool is_written(const std::string &text, const char *path) {
    std::FILE *file = std::fopen(path, "wb");
    if (file == nullptr) return false;
    const bool is_whole = std::fwrite(text.data(), 1, text.size(), file) == text.size();
    return std::fclose(file) == 0 && is_whole;
}

int main(int argc, char **argv) {
    const bool refuses = argc > 1 && std::string_view(argv[1]) == "refuse";
    std::string record;
    if (argc > 2 && std::string_view(argv[1]) == "record") {
        endpoints(0, 0ms, 50, &record);
        HOLDS(is_written(record, argv[2]));
        std::puts("1 run");
        return 0;
    }
    hosts();
    endpoints(0, 0ms, 50);
    if (!refuses) {
        endpoints(0.1, 5ms, 100);
        std::puts("1 run");
        return 0;
    }
    long runs = 0;
    for (refused_at = 1, growths = 0; growths >= refused_at - 1; refused_at++, runs++) {
        growths = 0;
        hosts();
        if (growths < refused_at) break;
    }
    std::printf("hosts: %ld runs\n", runs);
    // Those of an endpoint's making and of its first packets; how many there are depends on the time that passes.
    for (refused_at = 1; refused_at <= 60; refused_at++) {
        growths = 0;
        endpoints(0, 0ms, 3);
        growths = 0;
        endpoints(0, 0ms, 3, &record);
    }
    std::printf("endpoints: %ld runs\n", refused_at - 1);
    return 0;
}
