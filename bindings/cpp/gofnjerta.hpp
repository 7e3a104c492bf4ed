// ENet 1.3 for servers and tests in C++17, over the proved host of Gofnjerta: one header above gofnjerta.h, for Linux on x86-64.
//
// `Host` has no socket and no clock: datagrams, calls and time go in, datagrams and events come out. `Endpoint` is a host with a UDP socket
// and the system's clock.
//
// Nothing here throws: a call that may be refused returns a `Result`, which has the value or an `Error`. A refused call has changed nothing.
// Memory comes from malloc; if there is none, the answer is the error E1, and the call may be repeated, except a broadcast, which some
// peers may have got. It compiles with -fno-exceptions and -fno-rtti.
//
// Hosts, endpoints and packets are moved, never copied. What was moved from is closed. Calls on a host may come from any thread, one after
// another.
#ifndef GOFNJERTA_HPP
#define GOFNJERTA_HPP

#include <arpa/inet.h>
#include <fcntl.h>
#include <netinet/in.h>
#include <poll.h>
#include <sys/random.h>
#include <sys/socket.h>
#include <time.h>
#include <unistd.h>

#include <algorithm>
#include <cerrno>
#include <chrono>
#include <cstddef>
#include <cstdint>
#include <cstdlib>
#include <cstring>
#include <string_view>
#include <type_traits>
#include <utility>

#include "gofnjerta.h"
#include "gofnjerta_layout.h"

namespace gofnjerta {

// Why a call was refused.
class [[nodiscard]] Error {
public:
    constexpr Error() noexcept = default;
    constexpr explicit Error(std::uint32_t number) noexcept : number_(number) {}

    // The number of the C library, as GOFNJERTA_TOO_LARGE, or SYSTEM.
    constexpr std::uint32_t number() const noexcept { return number_; }

    // Its name there, as "E5 TooLarge".
    const char *name() const noexcept { return number_ == SYSTEM ? "System" : gofnjerta_error_name(number_); }

    // The number of an `Endpoint` whose socket, clock or random bytes the system refused; errno says why.
    static constexpr std::uint32_t SYSTEM = 0x10000;

    friend constexpr bool operator==(Error a, Error b) noexcept { return a.number_ == b.number_; }
    friend constexpr bool operator!=(Error a, Error b) noexcept { return a.number_ != b.number_; }

private:
    std::uint32_t number_ = GOFNJERTA_OK;
};

// A value, or why there is none. It is true if there is a value; only then look at it.
template <typename T>
class [[nodiscard]] Result {
public:
    Result(T &&value) noexcept : value_(std::move(value)) {}
    Result(Error error) noexcept : error_(error) {}

    explicit operator bool() const noexcept { return error_.number() == GOFNJERTA_OK; }
    Error error() const noexcept { return error_; }
    T &value() noexcept { return value_; }
    const T &value() const noexcept { return value_; }
    T &operator*() noexcept { return value_; }
    const T &operator*() const noexcept { return value_; }
    T *operator->() noexcept { return &value_; }
    const T *operator->() const noexcept { return &value_; }

private:
    T value_{};
    Error error_{};
};

template <>
class [[nodiscard]] Result<void> {
public:
    Result() noexcept = default;
    Result(Error error) noexcept : error_(error) {}

    explicit operator bool() const noexcept { return error_.number() == GOFNJERTA_OK; }
    Error error() const noexcept { return error_; }

private:
    Error error_{};
};

// How a packet is carried. The numbers are the C library's flags.
enum class Delivery : std::uint8_t {
    Reliable = GOFNJERTA_RELIABLE,                // each arrives once and in order on its channel, or the connection ends
    Unreliable = GOFNJERTA_UNRELIABLE_FRAGMENT,   // it may be lost; those that arrive do so in order; a long one is cut into pieces
    Unsequenced = GOFNJERTA_UNSEQUENCED,          // it may be lost, and arrive out of order; a long one goes as reliable pieces
};

// An IPv4 address and a UDP port, as numbers of this machine: 10.0.0.1 is 0x0A000001.
struct Address {
    std::uint32_t ip = 0;
    std::uint16_t port = 0;

    // The address that a text such as "10.0.0.1:7777" means. E8 if it is none.
    static Result<Address> of(std::string_view text) noexcept {
        char ip[16] = {};
        std::uint32_t port = 0;
        const std::size_t colon = text.find(':');
        if (colon >= sizeof ip || colon + 1 == text.size()) return Error(GOFNJERTA_BAD_CONFIG);
        std::memcpy(ip, text.data(), colon);
        for (const char digit : text.substr(colon + 1)) {
            if (digit < '0' || digit > '9') return Error(GOFNJERTA_BAD_CONFIG);
            port = port * 10 + static_cast<std::uint32_t>(digit - '0');
            if (port > UINT16_MAX) return Error(GOFNJERTA_BAD_CONFIG);
        }
        in_addr read{};
        if (inet_pton(AF_INET, ip, &read) != 1) return Error(GOFNJERTA_BAD_CONFIG);
        return Address{ntohl(read.s_addr), static_cast<std::uint16_t>(port)};
    }

    friend constexpr bool operator==(Address a, Address b) noexcept { return a.ip == b.ip && a.port == b.port; }
    friend constexpr bool operator!=(Address a, Address b) noexcept { return !(a == b); }
};

// The name of a peer. Each next peer of a slot has the next generation, so an old name never means a new peer.
struct Peer {
    std::uint16_t slot = 0;
    std::uint32_t generation = 0;

    friend constexpr bool operator==(Peer a, Peer b) noexcept { return a.slot == b.slot && a.generation == b.generation; }
    friend constexpr bool operator!=(Peer a, Peer b) noexcept { return !(a == b); }
};
static_assert(sizeof(Peer) == sizeof(gofnjerta_peer) && offsetof(Peer, generation) == offsetof(gofnjerta_peer, generation), "Peer");
static_assert(std::is_standard_layout<Peer>::value && std::is_trivially_copyable<Peer>::value, "Peer");

// Bytes of the caller's: of a pointer and a length, a text, or anything with data() and size() whose elements are bytes.
class Bytes {
public:
    constexpr Bytes() noexcept = default;
    constexpr Bytes(const void *data, std::size_t size) noexcept : data_(data), size_(size) {}
    Bytes(std::string_view text) noexcept : data_(text.data()), size_(text.size()) {}
    Bytes(const char *text) noexcept : Bytes(std::string_view(text)) {}
    template <typename C, typename E = std::remove_pointer_t<decltype(std::declval<const C &>().data())>>
    Bytes(const C &container) noexcept : data_(container.data()), size_(container.size()) {
        static_assert(sizeof(E) == 1, "elements of one byte");
    }

    constexpr const void *data() const noexcept { return data_; }
    constexpr std::size_t size() const noexcept { return size_; }

private:
    const void *data_ = nullptr;
    std::size_t size_ = 0;
};

// Room for objects that is malloc's, moved and never copied.
template <typename T>
class Room {
    static_assert(std::is_trivially_copyable<T>::value, "moved by realloc");

public:
    Room() noexcept = default;
    Room(Room &&other) noexcept : data_(std::exchange(other.data_, nullptr)), size_(std::exchange(other.size_, 0)) {}
    Room &operator=(Room &&other) noexcept {
        std::swap(data_, other.data_);
        std::swap(size_, other.size_);
        return *this;
    }
    Room(const Room &) = delete;
    Room &operator=(const Room &) = delete;
    ~Room() { std::free(data_); }

    // Room for so many objects, at least what there was; the new bytes are zero. False if there is no memory.
    [[nodiscard]] bool grow(std::size_t size) noexcept {
        if (size <= size_) return true;
        if (size > static_cast<std::size_t>(PTRDIFF_MAX) / sizeof(T)) return false;
        void *grown = std::realloc(data_, size * sizeof(T));
        if (grown == nullptr) return false;
        data_ = static_cast<T *>(grown);
        std::memset(static_cast<void *>(data_ + size_), 0, (size - size_) * sizeof(T));
        size_ = size;
        return true;
    }

    T *data() noexcept { return data_; }
    const T *data() const noexcept { return data_; }
    std::size_t size() const noexcept { return size_; }
    T *begin() noexcept { return data_; }
    T *end() noexcept { return data_ + size_; }
    const T *begin() const noexcept { return data_; }
    const T *end() const noexcept { return data_ + size_; }
    T &operator[](std::size_t index) noexcept { return data_[index]; }
    const T &operator[](std::size_t index) const noexcept { return data_[index]; }

private:
    T *data_ = nullptr;
    std::size_t size_ = 0;
};

// The settings of a host: the C library's, with its comments in gofnjerta.h.
using Config = gofnjerta_config;

// The C library's settings for most hosts.
inline Config standard(std::uint16_t peers, std::uint8_t channels) noexcept { return gofnjerta_standard(peers, channels); }

// For `Config::generations`: a slot is never spent.
constexpr std::uint32_t ENDLESS = UINT32_MAX;
// The info of the DISCONNECT that a client gets from a server that is full (`Host::set_most`).
constexpr std::uint32_t FULL = UINT32_MAX;

// An event. Each connection has one Connect, then its packets in order, then one Disconnect, after which the peer's name is spent.
struct Event {
    enum class Kind : std::uint32_t {
        None = GOFNJERTA_NONE,
        Connect = GOFNJERTA_CONNECT,
        Disconnect = GOFNJERTA_DISCONNECT,
        Receive = GOFNJERTA_RECEIVE,
    };

    Kind kind = Kind::None;
    Peer peer{};
    Address address{};
    std::uint32_t info = 0;                 // Connect: the number of the end that connected, at that end 0. Disconnect: the other end's, or 0
    std::uint8_t channel = 0;               // Receive
    Delivery delivery = Delivery::Reliable; // Receive
    Room<std::uint8_t> data{};              // Receive: the packet

    // True if there is an event.
    explicit operator bool() const noexcept { return kind != Kind::None; }

    // The packet as text.
    std::string_view text() const noexcept {
        return data.size() == 0 ? std::string_view() : std::string_view(reinterpret_cast<const char *>(data.data()), data.size());
    }
};

// A datagram that is to be sent: its bytes are the host's until its next call of `transmit`. Its size is 0 if there is none.
struct Datagram {
    const std::uint8_t *data = nullptr;
    std::size_t size = 0;
    Address to{};
    Peer peer{};

    explicit operator bool() const noexcept { return size != 0; }
};

// What became of a datagram.
struct Received {
    std::uint32_t handled = 0; // how many of its commands took effect
    std::uint32_t stop = 0;    // why the rest was not read, 1 to 13; 0 if all of it was

    const char *stop_name() const noexcept { return gofnjerta_stop_name(stop); }
};

// Readings are the C library's structures, with their comments in gofnjerta.h.
using Reading = gofnjerta_reading;
using LineReading = gofnjerta_line;
using Traffic = gofnjerta_traffic;
using Totals = gofnjerta_totals;
using Held = gofnjerta_held;
using Slots = gofnjerta_slots;

// Why a connection ended.
enum class Ending : std::uint32_t {
    None = GOFNJERTA_NO_ENDING,                 // it hasn't, or ended without a Disconnect, or too long ago
    AskedHere = GOFNJERTA_ASKED_HERE,           // this end's DISCONNECT was acknowledged, or wasn't for longer than this end waits
    AskedThere = GOFNJERTA_ASKED_THERE,         // the other end sent DISCONNECT, with which it also refuses; also if this end had asked
    TimedOut = GOFNJERTA_TIMED_OUT,             // the other end left a command unacknowledged for too long (`Host::set_timeout`)
    NeverAnswered = GOFNJERTA_NEVER_ANSWERED,   // no answer of the server to CONNECT took effect for as long as the client waits
    BadAnswer = GOFNJERTA_BAD_ANSWER,           // the server's answer doesn't fit what the client asked for
};

// A host. The destructor closes it; no peer is notified.
class Host {
public:
    // A closed host: each call answers 32.
    Host() noexcept = default;

    // Opens a host. E8 if a setting is out of its range, E1.
    static Result<Host> open(const Config &config) noexcept {
        Host host;
        if (std::uint32_t number = gofnjerta_open(&host.handle_, &config)) return Error(number);
        if (!host.known_.grow(config.peers) || !host.room_.grow(GOFNJERTA_ROOM)) return Error(GOFNJERTA_MEMORY);
        return host;
    }

    // Opens a host and records it until it is closed, for the program gofnjerta_replay: `write(context, bytes, length)` is called with the
    // pieces of the record, and returns 0. A record has the host's secret and each packet. E8, E1.
    static Result<Host> record(const Config &config, gofnjerta_writer write, void *context) noexcept {
        Host host;
        if (!host.known_.grow(config.peers) || !host.room_.grow(GOFNJERTA_ROOM)) return Error(GOFNJERTA_MEMORY);
        if (std::uint32_t number = gofnjerta_record(&host.handle_, &config, write, context)) return Error(number);
        return host;
    }

    Host(Host &&other) noexcept { *this = std::move(other); }
    Host &operator=(Host &&other) noexcept {
        std::swap(handle_, other.handle_);
        std::swap(event_, other.event_);
        std::swap(known_, other.known_);
        std::swap(room_, other.room_);
        if (this != &other) other.close();
        return *this;
    }
    Host(const Host &) = delete;
    Host &operator=(const Host &) = delete;
    ~Host() { gofnjerta_close(&handle_); }

    // Closes the host and frees what it holds. A closed host stays closed.
    void close() noexcept {
        gofnjerta_close(&handle_);
        event_.kind = GOFNJERTA_NONE;
    }

    // A datagram came from this address. The caller need not care about a stop. Drop what comes from port 0.
    Result<Received> receive(Address from, Bytes datagram) noexcept {
        gofnjerta_received received{};
        const std::uint32_t number = gofnjerta_receive(&handle_, c(from), datagram.data(), datagram.size(), &received);
        if (number) return Error(number);
        return Received{received.handled, received.stop};
    }

    // The next datagram to send. Call it until there is none: after each tick, after datagrams came, and after calls that send. What can't
    // be sent may be dropped.
    Result<Datagram> transmit() noexcept {
        gofnjerta_datagram datagram{};
        const std::uint32_t number = gofnjerta_service(&handle_, room_.data(), room_.size(), &datagram);
        if (number) return error(number);
        return Datagram{room_.data(), datagram.length, cpp(datagram.to), cpp(datagram.peer)};
    }

    // The clock goes on by so many milliseconds, 60,000 at most. Tick every few milliseconds, or when `due_in` says.
    Result<void> tick(std::uint32_t ms) noexcept { return done(gofnjerta_tick(&handle_, ms)); }

    // In how many milliseconds time brings something, at most 1,000. A program that has sent all may sleep that long, unless a datagram comes.
    Result<std::uint32_t> due_in() noexcept {
        std::uint32_t ms = 0;
        if (std::uint32_t number = gofnjerta_due_in(&handle_, &ms)) return Error(number);
        return ms;
    }

    // The next event; of the kind None if there is none. E1 if there is no memory for a packet's copy: the next call returns it.
    Result<Event> next_event() noexcept {
        if (event_.kind == GOFNJERTA_NONE)
            if (std::uint32_t number = gofnjerta_next_event(&handle_, &event_)) return Error(number);
        Event event;
        event.kind = static_cast<Event::Kind>(event_.kind);
        event.peer = cpp(event_.peer);
        event.info = event_.info;
        if (event_.kind == GOFNJERTA_CONNECT) note(event.peer);
        if (event_.kind == GOFNJERTA_RECEIVE) {
            event.channel = event_.channel;
            event.delivery = event_.flags & GOFNJERTA_RELIABLE      ? Delivery::Reliable
                             : event_.flags & GOFNJERTA_UNSEQUENCED ? Delivery::Unsequenced
                                                                    : Delivery::Unreliable;
            if (!event.data.grow(static_cast<std::size_t>(event_.length))) return Error(GOFNJERTA_MEMORY);
            if (std::uint32_t number = gofnjerta_body(&handle_, event.data.data(), event.data.size())) return Error(number);
        }
        if (event_.kind != GOFNJERTA_NONE) event.address = known_address(event.peer);
        event_.kind = GOFNJERTA_NONE;
        return event;
    }

    // Submits a packet, which is copied. E2 if the peer is gone, E3, E4, E5, E9 (`set_send_limit`), E1.
    Result<void> submit(Peer peer, std::uint8_t channel, Bytes data, Delivery delivery = Delivery::Reliable) noexcept {
        return done(gofnjerta_submit(&handle_, c(peer), channel, static_cast<std::uint8_t>(delivery), data.data(), data.size()));
    }

    // Submits a packet to each of `count` peers, which share one copy. Peers that are gone or aren't connected are skipped. If one refuses it
    // for another reason, the others still get it, and the first such reason is returned: E4, E5, E9, E1. Which peers those are,
    // `broadcast_each` tells. Nobody gets it if there is no memory for the copy.
    Result<void> broadcast(const Peer *peers, std::size_t count, std::uint8_t channel, Bytes data,
                           Delivery delivery = Delivery::Reliable) noexcept {
        // A Peer lies as a gofnjerta_peer does, by the assertions above; the bytes between its fields don't matter.
        const auto *names = reinterpret_cast<const gofnjerta_peer *>(peers);
        const auto flags = static_cast<std::uint8_t>(delivery);
        return done(gofnjerta_broadcast(&handle_, names, count, channel, flags, data.data(), data.size()));
    }

    // The same, and writes what each peer's submission answered to `answers`, in their order: 0, or the number of what `submit` returns, E2
    // and E3 too. Before any submission, and with nothing written: E1 if there is no memory for the copy, E5 above MAX_PACKET bytes.
    Result<void> broadcast_each(const Peer *peers, std::size_t count, std::uint8_t channel, Bytes data, std::uint32_t *answers,
                                Delivery delivery = Delivery::Reliable) noexcept {
        const auto *names = reinterpret_cast<const gofnjerta_peer *>(peers);
        const auto flags = static_cast<std::uint8_t>(delivery);
        return done(gofnjerta_broadcast_each(&handle_, names, count, channel, flags, data.data(), data.size(), answers));
    }

    // Asks the host at this address for a connection. `info` is a number for its user. `word` names the connection: draw it from the system,
    // anew for each (`Endpoint::connect` does). A Connect or a Disconnect follows. E8 for no channels, E7, E1.
    Result<Peer> connect(Address to, std::uint8_t channels, std::uint32_t info, std::uint32_t word) noexcept {
        gofnjerta_peer name{};
        if (std::uint32_t number = gofnjerta_connect(&handle_, c(to), channels, info, word, &name)) return Error(number);
        Peer peer = cpp(name);
        note(peer);
        return peer;
    }

    // Disconnects a peer, with a number for its user. What is queued is dropped; packets that came before are still told. A Disconnect
    // follows. E2, E3.
    Result<void> disconnect(Peer peer, std::uint32_t info = 0) noexcept { return done(gofnjerta_disconnect(&handle_, c(peer), info)); }
    // At once: it is sent one datagram, and no event follows. E2, E3.
    Result<void> disconnect_now(Peer peer, std::uint32_t info = 0) noexcept {
        return done(gofnjerta_disconnect_now(&handle_, c(peer), info));
    }
    // Once everything queued is sent and each reliable packet is acknowledged. What comes from it after this call is dropped. A Disconnect
    // follows. E2, E3.
    Result<void> disconnect_later(Peer peer, std::uint32_t info = 0) noexcept {
        return done(gofnjerta_disconnect_later(&handle_, c(peer), info));
    }

    // Sets the host's secret: 32 bytes that the system drew. Set it once, before the first datagram and the first connect. `Endpoint` does.
    Result<void> set_secret(const std::uint8_t (&key)[32]) noexcept { return done(gofnjerta_set_secret(&handle_, key)); }
    // From now on a CONNECT that finds no free slot takes that of the peer which has waited longest for its client to confirm the answer.
    // Open such a host with ENDLESS generations.
    Result<void> give_way() noexcept { return done(gofnjerta_give_way(&handle_)); }
    // Sets how many peers that began by a CONNECT may be connected or leaving at once. A client above that gets a Disconnect with the info FULL.
    // Open the host with more slots than that. E8.
    Result<void> set_most(std::uint16_t peers) noexcept { return done(gofnjerta_set_most(&handle_, peers)); }
    // Sets at how many bytes or commands, queued or sent and not acknowledged, a peer takes no further packet: E9. 0 isn't "no limit", but
    // one packet at a time; UINT64_MAX twice is as good as none. It doesn't bound memory: the pieces of a packet that was cut share its
    // body.
    Result<void> set_send_limit(std::uint64_t bytes, std::uint64_t commands) noexcept {
        return done(gofnjerta_set_send_limit(&handle_, bytes, commands));
    }
    // Sets the host's bandwidths, in bytes a second; 0: no limit is known. Each connected peer is sent them. E1.
    Result<void> set_bandwidth(std::uint32_t incoming, std::uint32_t outgoing) noexcept {
        return done(gofnjerta_set_bandwidth(&handle_, incoming, outgoing));
    }
    // Sets after how many milliseconds of silence a peer is pinged; 0 means 500. E2.
    Result<void> set_ping_interval(Peer peer, std::uint32_t ms) noexcept {
        return done(gofnjerta_set_ping_interval(&handle_, c(peer), ms));
    }
    // Sets how long a peer may leave a command unacknowledged (docs/C.md has the rule). 0 means 32, 5,000 ms and 30,000 ms. E2.
    Result<void> set_timeout(Peer peer, std::uint32_t limit, std::uint32_t minimum, std::uint32_t maximum) noexcept {
        return done(gofnjerta_set_timeout(&handle_, c(peer), limit, minimum, maximum));
    }
    // Sets a connected peer's throttle: its interval in milliseconds, and by how much it rises and falls, in parts of 32. E2, E3, E1.
    Result<void> throttle_configure(Peer peer, std::uint32_t interval, std::uint32_t acceleration, std::uint32_t deceleration) noexcept {
        return done(gofnjerta_throttle_configure(&handle_, c(peer), interval, acceleration, deceleration));
    }

    // Reads a peer. E2.
    Result<Reading> read_peer(Peer peer) noexcept {
        Reading reading{};
        if (std::uint32_t number = gofnjerta_read_peer(&handle_, c(peer), &reading)) return Error(number);
        return reading;
    }
    // Reads how the line to a peer is, and what is queued or unacknowledged for it. E2.
    Result<LineReading> read_line(Peer peer) noexcept {
        LineReading line{};
        if (std::uint32_t number = gofnjerta_read_line(&handle_, c(peer), &line)) return Error(number);
        return line;
    }
    // Reads how many commands went to a peer, first and again, and how many were acknowledged. E2.
    Result<Traffic> read_traffic(Peer peer) noexcept {
        Traffic traffic{};
        if (std::uint32_t number = gofnjerta_read_traffic(&handle_, c(peer), &traffic)) return Error(number);
        return traffic;
    }
    // Reads why a peer's connection ended, before and after its Disconnect, until the next peer of that slot, connected or not, is gone:
    // ask when you take the Disconnect.
    Result<Ending> ending(Peer peer) noexcept {
        std::uint32_t why = 0;
        if (std::uint32_t number = gofnjerta_ending(&handle_, c(peer), &why)) return Error(number);
        return static_cast<Ending>(why);
    }
    // Reads how many bytes may be in transit to a peer: 2,800 to 131,072, at first 65,536. It falls if the line drops packets. E2.
    Result<std::uint32_t> read_allowance(Peer peer) noexcept {
        std::uint32_t bytes = 0;
        if (std::uint32_t number = gofnjerta_read_allowance(&handle_, c(peer), &bytes)) return Error(number);
        return bytes;
    }
    // Reads how much went through the host.
    Result<Totals> read_totals() noexcept { return filled<Totals>(gofnjerta_read_totals); }
    // Read what the host holds of what others sent, and how its slots stand. Both look at each slot.
    Result<Held> read_held() noexcept { return filled<Held>(gofnjerta_read_held); }
    Result<Slots> read_slots() noexcept { return filled<Slots>(gofnjerta_read_slots); }
    // Reads how many commands of all peers aren't acknowledged and were sent more than once. It looks at all that isn't acknowledged.
    Result<std::uint64_t> read_sent_again() noexcept { return filled<std::uint64_t>(gofnjerta_read_sent_again); }

private:
    // The peer that was last at a slot, as far as it was told, and its address: after its end the library doesn't know it.
    struct Known {
        std::uint32_t generation;
        Address address;
    };

    static gofnjerta_address c(Address address) noexcept { return gofnjerta_address{address.ip, address.port}; }
    static gofnjerta_peer c(Peer peer) noexcept { return gofnjerta_peer{peer.slot, peer.generation}; }
    static Address cpp(gofnjerta_address address) noexcept { return Address{address.ip, address.port}; }
    static Peer cpp(gofnjerta_peer peer) noexcept { return Peer{peer.slot, peer.generation}; }

    static Result<void> done(std::uint32_t number) noexcept {
        if (number) return Error(number);
        return {};
    }

    // A host that was moved from has no room, and is closed.
    Error error(std::uint32_t number) const noexcept {
        if (number == GOFNJERTA_NULL && handle_.at == nullptr) return Error(GOFNJERTA_CLOSED);
        return Error(number);
    }

    template <typename T>
    Result<T> filled(std::uint32_t (*call)(gofnjerta_host *, T *)) noexcept {
        T value{};
        if (std::uint32_t number = call(&handle_, &value)) return Error(number);
        return value;
    }

    void note(Peer peer) noexcept {
        gofnjerta_reading reading{};
        if (peer.slot < known_.size() && gofnjerta_read_peer(&handle_, c(peer), &reading) == GOFNJERTA_OK)
            known_[peer.slot] = Known{peer.generation, cpp(reading.address)};
    }

    Address known_address(Peer peer) const noexcept {
        if (peer.slot < known_.size() && known_[peer.slot].generation == peer.generation) return known_[peer.slot].address;
        return Address{};
    }

    gofnjerta_host handle_{};
    gofnjerta_event event_{}; // that the library told, and the caller hasn't got yet
    Room<Known> known_{};     // by slot
    Room<std::uint8_t> room_{};
};

// A host, its UDP socket and its clock. The host's secret is drawn from the system.
class Endpoint {
public:
    // A closed endpoint: each call answers 32.
    Endpoint() noexcept = default;

    // Opens a host and a socket at this address of the machine; ip 0: all of them, port 0: the system chooses. E8 if a setting is out of its
    // range, E1, SYSTEM if the address can't be had.
    static Result<Endpoint> open(Address at, const Config &config) noexcept { return over(Host::open(config), at); }

    // As `open`, with a host that is recorded until it is closed (`Host::record`). For a server set `config` as `server` does, and call
    // `give_way` and `set_most` of `host`.
    static Result<Endpoint> record(Address at, const Config &config, gofnjerta_writer write, void *context) noexcept {
        return over(Host::record(config, write, context), at);
    }

    // A server for this many clients, 1 to 3,071. Strangers can't keep them out by CONNECTs that nobody confirms: there are 1,024 more slots for
    // clients that ask, and of those the one that has waited longest gives way.
    static Result<Endpoint> server(Address at, std::uint16_t players = 32, std::uint8_t channels = 2) noexcept {
        Config config = standard(static_cast<std::uint16_t>(std::min(players + 1024, 65535)), channels);
        config.generations = ENDLESS;
        Result<Endpoint> endpoint = open(at, config);
        if (!endpoint) return endpoint;
        if (Result<void> set = endpoint->host_.give_way(); !set) return set.error();
        if (Result<void> set = endpoint->host_.set_most(players); !set) return set.error();
        return endpoint;
    }

    // A client with one slot, at a port that the system chooses.
    static Result<Endpoint> client(std::uint8_t channels = 2) noexcept { return open(Address{}, standard(1, channels)); }

    Endpoint(Endpoint &&other) noexcept { *this = std::move(other); }
    Endpoint &operator=(Endpoint &&other) noexcept {
        std::swap(host_, other.host_);
        std::swap(room_, other.room_);
        std::swap(line_, other.line_);
        std::swap(socket_, other.socket_);
        std::swap(clock_, other.clock_);
        std::swap(drawn_, other.drawn_);
        std::swap(loss_, other.loss_);
        std::swap(delay_, other.delay_);
        std::swap(on_line_, other.on_line_);
        std::swap(passed_, other.passed_);
        if (this != &other) other.close();
        return *this;
    }
    Endpoint(const Endpoint &) = delete;
    Endpoint &operator=(const Endpoint &) = delete;
    ~Endpoint() { close(); }

    // Closes the host and the socket; no peer is notified. `flush` before it sends what `disconnect_now` left.
    void close() noexcept {
        host_.close();
        for (std::size_t i = 0; i < on_line_; i++) std::free(line_[i].data);
        on_line_ = 0;
        if (socket_ >= 0) ::close(socket_);
        socket_ = -1;
    }

    // The host, for readings and settings. Don't call its `receive`, `transmit`, `tick` and `next_event`.
    Host &host() noexcept { return host_; }

    // The socket, for a program that waits for more than this one. Call `service` at least when `due_in` of the host says.
    int descriptor() const noexcept { return socket_; }

    // The socket's address. SYSTEM.
    Result<Address> address() const noexcept {
        sockaddr_in at{};
        socklen_t size = sizeof at;
        if (::getsockname(socket_, reinterpret_cast<sockaddr *>(&at), &size) != 0) return Error(Error::SYSTEM);
        return Address{ntohl(at.sin_addr.s_addr), ntohs(at.sin_port)};
    }

    // Asks the host at this address for a connection; its connect id is drawn from the system. A Connect or a Disconnect follows. E8 for no
    // channels, E7 if no slot is free, E1, SYSTEM.
    Result<Peer> connect(Address to, std::uint8_t channels = 2, std::uint32_t info = 0) noexcept {
        std::uint32_t word = 0;
        if (!drawn(&word, sizeof word)) return Error(Error::SYSTEM);
        return host_.connect(to, channels, info, word);
    }

    // The host's calls. The next `service` sends what they leave.
    Result<void> submit(Peer peer, std::uint8_t channel, Bytes data, Delivery delivery = Delivery::Reliable) noexcept {
        return host_.submit(peer, channel, data, delivery);
    }
    Result<void> broadcast(const Peer *peers, std::size_t count, std::uint8_t channel, Bytes data,
                           Delivery delivery = Delivery::Reliable) noexcept {
        return host_.broadcast(peers, count, channel, data, delivery);
    }
    Result<void> broadcast_each(const Peer *peers, std::size_t count, std::uint8_t channel, Bytes data, std::uint32_t *answers,
                                Delivery delivery = Delivery::Reliable) noexcept {
        return host_.broadcast_each(peers, count, channel, data, answers, delivery);
    }
    Result<void> disconnect(Peer peer, std::uint32_t info = 0) noexcept { return host_.disconnect(peer, info); }
    Result<void> disconnect_now(Peer peer, std::uint32_t info = 0) noexcept { return host_.disconnect_now(peer, info); }
    Result<void> disconnect_later(Peer peer, std::uint32_t info = 0) noexcept { return host_.disconnect_later(peer, info); }

    // From now on each datagram, sent or received, is lost with the probability `loss`, 0 to 1, or takes `delay` more. For tests. One for
    // which there is no memory is lost.
    void simulate(double loss, std::chrono::milliseconds delay) noexcept {
        loss_ = loss;
        delay_ = std::chrono::duration_cast<std::chrono::microseconds>(delay).count();
    }

    // Sends, receives and lets time pass until there is an event, for `timeout` at most. The next event; of the kind None if there is none. Call
    // it again at once after an event. E1, SYSTEM if the system refuses to wait.
    Result<Event> service(std::chrono::milliseconds timeout) noexcept {
        const std::int64_t end = now() + std::chrono::duration_cast<std::chrono::microseconds>(timeout).count();
        for (;;) {
            Result<Event> event = host_.next_event();
            if (!event || *event) return event;
            if (Result<void> passed = pass_time(); !passed) return passed.error();
            receive_all();
            event = host_.next_event();
            if (!event) return event;
            if (Result<void> sent = send_all(); !sent && !*event) return sent.error();
            if (*event || now() >= end) return event;
            if (Result<void> waited = wait(end); !waited) return waited.error();
        }
    }

    // Sends what is to be sent, without a wait. `service` does so too, but not while it has events to tell.
    Result<void> flush() noexcept {
        if (Result<void> passed = pass_time(); !passed) return passed;
        arrive();
        return send_all();
    }

private:
    // A datagram under way on the simulated line.
    struct Passing {
        std::int64_t due;
        std::uint64_t order;
        bool inward;
        Address address;
        std::uint8_t *data;
        std::size_t size;

        friend bool operator<(const Passing &a, const Passing &b) noexcept { return a.due != b.due ? a.due > b.due : a.order > b.order; }
    };

    static Result<Endpoint> over(Result<Host> host, Address at) noexcept {
        Endpoint endpoint;
        if (!host) return host.error();
        endpoint.host_ = std::move(*host);
        std::uint8_t key[32];
        if (!drawn(key, sizeof key) || !drawn(&endpoint.drawn_, sizeof endpoint.drawn_)) return Error(Error::SYSTEM);
        if (Result<void> set = endpoint.host_.set_secret(key); !set) return set.error();
        if (!endpoint.room_.grow(GOFNJERTA_ROOM + 1)) return Error(GOFNJERTA_MEMORY);
        endpoint.socket_ = ::socket(AF_INET, SOCK_DGRAM | SOCK_NONBLOCK | SOCK_CLOEXEC, 0);
        const sockaddr_in bound = system(at);
        if (endpoint.socket_ < 0) return Error(Error::SYSTEM);
        if (::bind(endpoint.socket_, reinterpret_cast<const sockaddr *>(&bound), sizeof bound) != 0) return Error(Error::SYSTEM);
        endpoint.clock_ = now();
        return endpoint;
    }

    // Microseconds on a clock that only goes forward.
    static std::int64_t now() noexcept {
        timespec at{};
        ::clock_gettime(CLOCK_MONOTONIC, &at);
        return static_cast<std::int64_t>(at.tv_sec) * 1000000 + at.tv_nsec / 1000;
    }

    static bool drawn(void *at, std::size_t size) noexcept { return ::getentropy(at, size) == 0; }

    static sockaddr_in system(Address address) noexcept {
        sockaddr_in at{};
        at.sin_family = AF_INET;
        at.sin_port = htons(address.port);
        at.sin_addr.s_addr = htonl(address.ip);
        return at;
    }

    Result<void> pass_time() noexcept {
        std::int64_t ms = (now() - clock_) / 1000;
        clock_ += ms * 1000;
        for (; ms > 0; ms -= 60000)
            if (Result<void> ticked = host_.tick(static_cast<std::uint32_t>(std::min<std::int64_t>(ms, 60000))); !ticked) return ticked;
        return {};
    }

    // Up to 64 datagrams, so that those that answer them are sent in between.
    void receive_all() noexcept {
        for (int i = 0; i < 64; i++) {
            sockaddr_in from{};
            socklen_t size = sizeof from;
            const ssize_t length = ::recvfrom(socket_, room_.data(), room_.size(), 0, reinterpret_cast<sockaddr *>(&from), &size);
            if (length < 0 && (errno == EAGAIN || errno == EWOULDBLOCK)) break;
            // An error is one that an earlier datagram met. Nothing can be sent to port 0, and no host sends longer datagrams than this.
            if (length >= 0 && length <= GOFNJERTA_ROOM && from.sin_port != 0)
                pass_on(true, Address{ntohl(from.sin_addr.s_addr), ntohs(from.sin_port)}, room_.data(), static_cast<std::size_t>(length));
        }
        arrive();
    }

    Result<void> send_all() noexcept {
        for (;;) {
            Result<Datagram> datagram = host_.transmit();
            if (!datagram) return datagram.error();
            if (!*datagram) return {};
            pass_on(false, datagram->to, datagram->data, datagram->size);
        }
    }

    void pass_on(bool inward, Address address, const std::uint8_t *data, std::size_t size) noexcept {
        if (loss_ > 0 && draw() < loss_) return;
        if (delay_ <= 0 && on_line_ == 0) return hand_over(inward, address, data, size);
        if (on_line_ == line_.size() && !line_.grow(2 * on_line_ + 16)) return;
        auto *copy = static_cast<std::uint8_t *>(std::malloc(size == 0 ? 1 : size));
        if (copy == nullptr) return;
        std::memcpy(copy, data, size);
        line_[on_line_++] = Passing{now() + delay_, passed_++, inward, address, copy, size};
        std::push_heap(line_.data(), line_.data() + on_line_);
    }

    void arrive() noexcept {
        while (on_line_ > 0 && line_[0].due <= now()) {
            std::pop_heap(line_.data(), line_.data() + on_line_);
            const Passing passing = line_[--on_line_];
            hand_over(passing.inward, passing.address, passing.data, passing.size);
            std::free(passing.data);
        }
    }

    void hand_over(bool inward, Address address, const std::uint8_t *data, std::size_t size) noexcept {
        if (inward) {
            (void)host_.receive(address, Bytes(data, size));
            return;
        }
        const sockaddr_in to = system(address);
        // The network may lose any datagram: the buffer may be full, or there may be no way to the address.
        (void)!::sendto(socket_, data, size, 0, reinterpret_cast<const sockaddr *>(&to), sizeof to);
    }

    Result<void> wait(std::int64_t end) noexcept {
        Result<std::uint32_t> due = host_.due_in();
        if (!due) return due.error();
        std::int64_t until = std::min(end, clock_ + static_cast<std::int64_t>(*due) * 1000);
        if (on_line_ > 0) until = std::min(until, line_[0].due);
        pollfd ready{socket_, POLLIN, 0};
        // Rounded up: a poll that ends too early would be made again and again.
        const int ms = static_cast<int>(std::max<std::int64_t>(0, (until - now()) / 1000 + 1));
        if (::poll(&ready, 1, ms) < 0 && errno != EINTR) return Error(Error::SYSTEM);
        return {};
    }

    // A number from 0 to 1, drawn by splitmix64.
    double draw() noexcept {
        std::uint64_t z = drawn_ += 0x9e3779b97f4a7c15u;
        z = (z ^ (z >> 30)) * 0xbf58476d1ce4e5b9u;
        z = (z ^ (z >> 27)) * 0x94d049bb133111ebu;
        return static_cast<double>((z ^ (z >> 31)) >> 11) * 0x1p-53;
    }

    Host host_{};
    Room<std::uint8_t> room_{};
    Room<Passing> line_{};
    int socket_ = -1;
    std::int64_t clock_ = 0; // the host's, in microseconds of the system's
    std::uint64_t drawn_ = 0;
    double loss_ = 0;
    std::int64_t delay_ = 0;
    std::size_t on_line_ = 0; // how many datagrams are under way: the first of `line_`, as a heap
    std::uint64_t passed_ = 0;
};

} // namespace gofnjerta

#endif
