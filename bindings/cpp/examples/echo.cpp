// echo [ADDRESS] sends each packet back to its sender, on its channel and as it came, until it is stopped; at 0.0.0.0:7777 if no address is
// named.
#include <cstdio>

#include <gofnjerta.hpp>

using namespace gofnjerta;

int main(int argc, char **argv) {
    auto at = Address::of(argc > 1 ? argv[1] : "0.0.0.0:7777");
    if (!at) return std::fprintf(stderr, "usage: echo [ADDRESS], as 127.0.0.1:7777\n"), 2;
    auto server = Endpoint::server(*at);
    if (!server) return std::fprintf(stderr, "%s\n", server.error().name()), 1;
    for (;;) {
        auto event = server->service(std::chrono::seconds(1));
        if (!event) return std::fprintf(stderr, "%s\n", event.error().name()), 1;
        if (event->kind != Event::Kind::Receive) continue;
        auto sent = server->submit(event->peer, event->channel, event->data, event->delivery);
        if (!sent) std::fprintf(stderr, "slot %u isn't answered: %s\n", event->peer.slot, sent.error().name()); // it may have gone since
    }
}
