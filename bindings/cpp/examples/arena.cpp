// A small arena: arena [ADDRESS], at 0.0.0.0:7777 if no address is named. It runs until it is stopped.
//
// A player moves by a reliable packet of one byte on channel 0: 0 right, 1 left, 2 up, 3 down. Who sends anything else is sent away, with
// the number 1. Twenty times a second each player gets a snapshot on channel 1, which may be lost: its number, and of each player the slot
// (2 bytes), x and y (2 bytes each), all little-endian. Once a second it is also sent on channel 0, reliably. A player whose reliable
// packets are in transit for over a second is slow, by the readings: it gets each fourth snapshot until all is acknowledged.
#include <cstdio>
#include <vector>

#include <gofnjerta.hpp>

using namespace gofnjerta;
using Clock = std::chrono::steady_clock;

constexpr std::chrono::milliseconds ROUND{50};
constexpr unsigned ROUNDS_PER_SECOND = 20;
constexpr std::uint32_t GARBAGE = 1;

struct Player {
    Peer peer;
    std::uint16_t x = 0, y = 0;
    unsigned rounds_in_transit = 0; // for how many something was in transit to it

    bool is_slow() const { return rounds_in_transit > ROUNDS_PER_SECOND; }
};

class Arena {
public:
    void take(Endpoint &server, const Event &event) {
        const auto player = std::find_if(players_.begin(), players_.end(), [&](const Player &one) { return one.peer == event.peer; });
        if (event.kind == Event::Kind::Connect) {
            std::printf("%u in from %s\n", event.peer.slot, text(event.address));
            players_.push_back(Player{event.peer});
        } else if (event.kind == Event::Kind::Disconnect) {
            std::printf("%u out at %s\n", event.peer.slot, text(event.address));
            if (player != players_.end()) players_.erase(player);
        } else if (event.kind == Event::Kind::Receive && player != players_.end()) {
            const bool is_move = event.channel == 0 && event.data.size() == 1 && step(*player, event.data[0]);
            // A peer that is disconnecting already is refused.
            if (!is_move && server.disconnect(event.peer, GARBAGE)) std::printf("%u garbage\n", event.peer.slot);
        }
    }

    // Notices who is slow.
    void read(Endpoint &server) {
        for (Player &player : players_) {
            const bool was_slow = player.is_slow();
            const auto reading = server.host().read_peer(player.peer);
            player.rounds_in_transit = reading && reading->in_transit > 0 ? player.rounds_in_transit + 1 : 0;
            if (player.is_slow() != was_slow) std::printf("%u %s\n", player.peer.slot, was_slow ? "steady" : "slow");
        }
    }

    // Sends everybody where all are.
    Result<void> send(Endpoint &server) {
        std::vector<std::uint8_t> snapshot;
        std::vector<Peer> everybody, steady;
        number_++;
        append(snapshot, number_, 4);
        for (const Player &player : players_) {
            for (const std::uint16_t part : {player.peer.slot, player.x, player.y}) append(snapshot, part, 2);
            everybody.push_back(player.peer);
            if (number_ % 4 == 0 || !player.is_slow()) steady.push_back(player.peer);
        }
        if (number_ % ROUNDS_PER_SECOND == 0)
            if (auto sent = server.broadcast(everybody.data(), everybody.size(), 0, snapshot); !sent) return sent;
        return server.broadcast(steady.data(), steady.size(), 1, snapshot, Delivery::Unreliable);
    }

private:
    static const char *text(Address address) {
        static char text[32];
        const std::uint32_t ip = address.ip;
        std::snprintf(text, sizeof text, "%u.%u.%u.%u:%u", ip >> 24, ip >> 16 & 255, ip >> 8 & 255, ip & 255, address.port);
        return text;
    }

    static void append(std::vector<std::uint8_t> &bytes, std::uint32_t number, int count) {
        for (int i = 0; i < count; i++) bytes.push_back(static_cast<std::uint8_t>(number >> 8 * i));
    }

    // Moves a player. Whether that is a move.
    static bool step(Player &player, std::uint8_t step) {
        if (step == 0) player.x++;
        if (step == 1) player.x--;
        if (step == 2) player.y++;
        if (step == 3) player.y--;
        return step < 4;
    }

    std::vector<Player> players_;
    std::uint32_t number_ = 0;
};

int main(int argc, char **argv) {
    auto at = Address::of(argc > 1 ? argv[1] : "0.0.0.0:7777");
    if (!at) return std::fprintf(stderr, "usage: arena [ADDRESS], as 127.0.0.1:7777\n"), 2;
    auto server = Endpoint::server(*at);
    if (!server) return std::fprintf(stderr, "%s\n", server.error().name()), 1;
    std::setvbuf(stdout, nullptr, _IOLBF, 0);
    Arena arena;
    for (auto next = Clock::now() + ROUND;; next += ROUND) {
        for (;;) {
            const auto left = std::chrono::ceil<std::chrono::milliseconds>(next - Clock::now());
            auto event = server->service(std::max(left, std::chrono::milliseconds(0)));
            if (!event) return std::fprintf(stderr, "%s\n", event.error().name()), 1;
            if (!*event) break;
            arena.take(*server, *event);
        }
        arena.read(*server);
        auto sent = arena.send(*server);
        if (sent) sent = server->flush();
        if (!sent) return std::fprintf(stderr, "%s\n", sent.error().name()), 1;
    }
}
