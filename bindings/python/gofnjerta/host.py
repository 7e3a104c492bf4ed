"""A host without a socket or a clock: datagrams, calls and time go in, datagrams and events come out."""

from __future__ import annotations

import ctypes
import dataclasses
import enum
import functools
import socket
from typing import Any, BinaryIO, Dict, Iterable, Iterator, List, NamedTuple, Optional, Tuple, Type, Union

from ._library import (
    CAddress,
    CConfig,
    CDatagram,
    CEvent,
    CHeld,
    CHost,
    CLine,
    CPeer,
    CReading,
    CReceived,
    CSlots,
    CTotals,
    CTraffic,
    CWriter,
    lib,
)

#: The longest packet that any host takes, in bytes.
MAX_PACKET = 33_554_432
#: The longest datagram that a host sends, in bytes.
MAX_DATAGRAM = 4096
#: For `Config.generations`: a slot is never spent.
ENDLESS = 0xFFFF_FFFF
#: The info of the DISCONNECT that a client gets from a server that is full (`Host.set_most`).
FULL = 0xFFFF_FFFF


class Error(Exception):
    """A call was refused, and changed nothing."""

    #: The number of the C library, as 5.
    number: int
    #: Its name there, as "E5 TooLarge".
    name: str

    def __init__(self, number: int) -> None:
        self.number = number
        self.name = lib.gofnjerta_error_name(number).decode()
        super().__init__(self.name)

    def __reduce__(self) -> Tuple[Type[Error], Tuple[int]]:
        return Error, (self.number,)


class Why(enum.IntEnum):
    """The numbers that `Error.number` may have."""

    MEMORY = 1
    NO_SUCH_PEER = 2
    NOT_CONNECTED = 3
    NO_SUCH_CHANNEL = 4
    TOO_LARGE = 5
    NO_SLOT = 7
    BAD_CONFIG = 8
    FULL = 9
    CLOSED = 32
    OPEN = 33


class Delivery(enum.IntEnum):
    """How a packet is carried. Its numbers are the C library's flags."""

    #: Each arrives once and in order on its channel, or the connection ends.
    RELIABLE = 1
    #: It may be lost; those that arrive do so in order. A long one is cut into pieces, and lost if one of them is.
    UNRELIABLE = 8
    #: It may be lost, and arrive out of order. A long one goes as reliable pieces.
    UNSEQUENCED = 2


class State(enum.IntEnum):
    """The state of a peer."""

    FREE = 0
    CONNECTING = 1
    ANSWERING = 2
    CONNECTED = 3
    DISCONNECT_LATER = 4
    DISCONNECTING = 5
    ACKNOWLEDGING = 6
    ENDED = 7
    PARTING = 8


class Ending(enum.IntEnum):
    """Why a connection ended."""

    #: It hasn't, or ended without a Disconnect, or that was too long ago.
    NONE = 0
    #: This end's DISCONNECT (`disconnect`, `disconnect_later`) was acknowledged, or wasn't for longer than this end waits.
    ASKED_HERE = 1
    #: The other end sent DISCONNECT, with which it also refuses a connection; also if this end had asked.
    ASKED_THERE = 2
    #: The other end left a command unacknowledged for too long (`Host.set_timeout`); also while `disconnect_later` waits to send its
    #: DISCONNECT.
    TIMED_OUT = 3
    #: No answer of the server to CONNECT took effect for as long as the client waits.
    NEVER_ANSWERED = 4
    #: The server's answer doesn't fit what the client asked for.
    BAD_ANSWER = 5


class Address(NamedTuple):
    """An IPv4 address, as "10.0.0.1", and a UDP port. A socket takes it as it is."""

    ip: str
    port: int


class Peer(NamedTuple):
    """The name of a peer. Each next peer of a slot has the next generation, so an old name never means a new peer."""

    slot: int
    generation: int


@dataclasses.dataclass(frozen=True)
class Config:
    """The settings of a host. `Config.standard` has usual ones; `dataclasses.replace` changes some."""

    #: Slots, each for one peer at a time: 1 to 4,095.
    peers: int
    #: Granted to a connection at most: 1 to 255.
    channels: int
    #: The longest datagram, in bytes: 576 to 4,096.
    mtu: int = 1392
    #: Bytes a second that this host can take in and send; 0: no limit is known.
    incoming: int = 0
    outgoing: int = 0
    #: The longest packet that is received or submitted, in bytes.
    max_packet: int = MAX_PACKET
    #: Bytes of a peer's waiting packets at which further ones are stopped (S10).
    max_waiting: int = MAX_PACKET
    #: How many peers a slot has one after another.
    generations: int = 1_000_000
    #: The clock at the opening, in milliseconds; it wraps.
    clock: int = 0

    @staticmethod
    def standard(peers: int, channels: int) -> Config:
        """The C library's settings for most hosts. `Host` checks them."""
        c = lib.gofnjerta_standard(_within(peers, 16, Why.BAD_CONFIG), _within(channels, 8, Why.BAD_CONFIG))
        fields = (c.peers, c.channels, c.mtu, c.incoming, c.outgoing, c.max_packet, c.max_waiting, c.generations, c.clock)
        return Config(*fields)


@dataclasses.dataclass(frozen=True)
class Connect:
    """A connection begins."""

    peer: Peer
    address: Address
    #: The number of the end that connected; at that end itself 0.
    info: int


@dataclasses.dataclass(frozen=True)
class Disconnect:
    """A connection has ended, or an attempt at one has. The peer's name is spent."""

    peer: Peer
    address: Address
    #: The number that the other end gave; 0 if it gave none, as when this end asked or the peer timed out.
    info: int


@dataclasses.dataclass(frozen=True)
class Receive:
    """A packet came."""

    peer: Peer
    address: Address
    channel: int
    delivery: Delivery
    data: bytes


Event = Union[Connect, Disconnect, Receive]


class Datagram(NamedTuple):
    """A datagram that is to be sent."""

    data: bytes
    to: Address
    #: Whose it is.
    peer: Peer


class Received(NamedTuple):
    """What became of a datagram."""

    #: How many of its commands took effect.
    handled: int
    #: Why the rest was not read, 1 to 13; 0 if all of it was.
    stop: int

    @property
    def stop_name(self) -> str:
        """The stop's name, as "S6 BadCommand"; "none" if there is none."""
        name: bytes = lib.gofnjerta_stop_name(self.stop)
        return name.decode()


@dataclasses.dataclass(frozen=True)
class Reading:
    """What can be read of a peer."""

    state: State
    #: Bytes, as agreed.
    mtu: int
    #: Bytes of reliable packets in transit at most.
    window: int
    #: The word of the end that connected.
    connect_id: int
    #: Milliseconds: the mean, 500 at first, and its mean deviation.
    round_trip: int
    variance: int
    #: Bytes of reliable packets: sent, not acknowledged and not due to be resent.
    in_transit: int
    #: 0 to 32: of 32 packets that aren't reliable one more than this is sent, from 31 on all.
    throttle: int
    throttle_interval: int
    acceleration: int
    deceleration: int
    address: Address
    #: The other end's, 0xFFF before it is known.
    slot: int
    channels: int
    incoming_session: int
    outgoing_session: int


class LineReading(NamedTuple):
    """How the line to a peer is."""

    #: Milliseconds: the mean, 500 at first, and its mean deviation.
    round_trip: int
    variance: int
    #: Milliseconds: the lowest mean in the throttle's running interval, and in the one before; 500 at first.
    lowest: int
    lowest_before: int
    #: 0 to 32: of 32 packets that aren't reliable one more than this is sent, from 31 on all.
    throttle: int
    #: Bytes that may be in transit, and those of reliable packets that are.
    allowance: int
    in_transit: int
    #: Queued, or sent and not acknowledged, as `Host.set_send_limit` counts them.
    commands: int
    bytes: int


class Traffic(NamedTuple):
    """How many commands went to a peer since it began: those with data that ask for an acknowledgement, which are reliable packets, or the
    pieces of long ones. Each number wraps at 2^64."""

    #: Each time that one went, and those times that it had gone before.
    sent: int
    again: int
    #: Commands that were acknowledged, each once.
    acknowledged: int


class Totals(NamedTuple):
    """How much went through a host, stopped datagrams included."""

    datagrams_in: int
    bytes_in: int
    datagrams_out: int
    bytes_out: int


class Held(NamedTuple):
    """How much a host holds of what others sent."""

    channels: int
    senders: int
    #: Packets that came, whole or in part, and weren't taken; `undispatched` of them can't be taken yet.
    packets: int
    undispatched: int
    bytes: int
    acknowledgements: int
    #: Bytes that all this takes with the host's slots, at most, and what that is at most by the settings.
    memory: int
    most_memory: int


class Slots(NamedTuple):
    """How many slots of a host are in each state."""

    free: int
    spent: int
    connecting: int
    answering: int
    connected: int
    leaving: int


_RELIABLE = int(Delivery.RELIABLE)
# How a packet came, by its flags; with others it was unreliable.
_DELIVERIES = {1: Delivery.RELIABLE, 2: Delivery.UNSEQUENCED}
# How many bits C has for each field of `Config`, in order.
_BITS = (16, 8, 32, 32, 32, 32, 32, 32, 32)
# Packets up to this length are read into one buffer, longer ones into a buffer of their own.
_SHORT = 65536


def version() -> Tuple[int, int, int]:
    """The version of the C library that was loaded."""
    number: int = lib.gofnjerta_version()
    return number >> 16, number >> 8 & 255, number & 255


def _check(number: int) -> None:
    if number:
        raise Error(number)


def _within(number: int, bits: int, why: Optional[Why] = None) -> int:
    """The number, if C's type has room for it; ctypes would cut it off."""
    if 0 <= number < 1 << bits:
        return number
    if why is None:
        raise ValueError(f"{number} isn't from 0 to {(1 << bits) - 1}")
    raise Error(why)


def _settings(config: Config) -> CConfig:
    return CConfig(*[_within(value, bits, Why.BAD_CONFIG) for value, bits in zip(dataclasses.astuple(config), _BITS)])


@functools.lru_cache(maxsize=4096)
def _into_c(address: Tuple[str, int]) -> CAddress:
    ip, port = address
    return CAddress(int.from_bytes(socket.inet_aton(ip), "big"), _within(port, 16))


def _from_c(address: CAddress) -> Address:
    return Address(socket.inet_ntoa(address.ip.to_bytes(4, "big")), address.port)


class Host:
    """A host. Calls may come from any thread, one after another. It is closed by `close`, at the end of a `with`, or with its last use.

    Each call may raise `Error`: E1 if memory is short, and then it may be repeated, except a broadcast, which some peers may have got; 32
    if the host is closed."""

    def __init__(self, config: Config) -> None:
        """Opens a host. E8 if a setting is out of its range."""
        self._handle = CHost()
        self._ref = ctypes.byref(self._handle)
        # Of each slot the generation of the peer that was there last, and its address: after its end the library doesn't know it.
        self._addresses: Dict[int, Tuple[int, Address]] = {}
        # The event that the library told last, and whether the caller hasn't got it yet.
        self._event = CEvent()
        self._is_kept = False
        self._datagram = CDatagram()
        self._received = CReceived()
        self._word = ctypes.c_uint32()
        self._room = ctypes.create_string_buffer(_SHORT)
        self._event_ref = ctypes.byref(self._event)
        self._datagram_ref = ctypes.byref(self._datagram)
        self._received_ref = ctypes.byref(self._received)
        self._word_ref = ctypes.byref(self._word)
        # What takes the record, if there is one.
        self._writer: Any = None
        _check(lib.gofnjerta_open(self._ref, ctypes.byref(_settings(config))))

    @classmethod
    def record(cls, config: Config, file: BinaryIO) -> Host:
        """Opens a host, and writes a record of it to a file, until the host is closed or a write fails. The program gofnjerta_replay makes
        the same calls on a fresh host, and tells where anything else comes out. A record has the host's secret and each packet."""

        def write(_: object, at: int, length: int) -> int:
            try:
                file.write(ctypes.string_at(at, length))
            except Exception:
                return 1
            return 0

        host = cls(config)
        host.close()
        host._writer = CWriter(write)
        _check(lib.gofnjerta_record(host._ref, ctypes.byref(_settings(config)), host._writer, None))
        return host

    def close(self) -> None:
        """Closes the host and frees what it holds; no peer is notified. A closed host stays closed."""
        self._is_kept = False
        lib.gofnjerta_close(self._ref)

    def __enter__(self) -> Host:
        return self

    def __exit__(self, *_: object) -> None:
        self.close()

    def __del__(self) -> None:
        if hasattr(self, "_ref"):
            lib.gofnjerta_close(self._ref)

    # Datagrams, time and events.

    def receive(self, source: Tuple[str, int], datagram: bytes) -> Received:
        """A datagram came from this address. The caller need not care about a stop. Drop what comes from port 0."""
        received = self._received
        _check(lib.gofnjerta_receive(self._ref, _into_c(source), bytes(datagram), len(datagram), self._received_ref))
        return Received(received.handled, received.stop)

    def transmit(self) -> Optional[Datagram]:
        """The next datagram to send; None if there is none. Call it until then: after each tick, after datagrams came, and after calls
        that send. What can't be sent may be dropped."""
        datagram = self._datagram
        number = lib.gofnjerta_service(self._ref, self._room, MAX_DATAGRAM, self._datagram_ref)
        if number:
            raise Error(number)
        length = datagram.length
        if length == 0:
            return None
        peer = Peer(datagram.peer.slot, datagram.peer.generation)
        return Datagram(ctypes.string_at(self._room, length), self._sent_to(peer, datagram.to), peer)

    def datagrams(self) -> Iterator[Datagram]:
        """All that `transmit` gives."""
        while (datagram := self.transmit()) is not None:
            yield datagram

    def tick(self, ms: int) -> None:
        """The clock goes on by this many milliseconds, 60,000 at most. Tick every few milliseconds, or when `due_in` says."""
        _check(lib.gofnjerta_tick(self._ref, _within(ms, 32)))

    def due_in(self) -> int:
        """In how many milliseconds time brings something, at most 1,000. A program that has sent all may sleep that long, unless a
        datagram comes."""
        _check(lib.gofnjerta_due_in(self._ref, self._word_ref))
        return self._word.value

    def next_event(self) -> Optional[Event]:
        """The next event; None if there is none. Each connection has one Connect, then its packets, then one Disconnect."""
        if not self._is_kept:
            _check(lib.gofnjerta_next_event(self._ref, self._event_ref))
            if self._event.kind == 0:
                return None
            # If there is no memory to tell it, the next call does.
            self._is_kept = True
        event = self._told()
        self._is_kept = False
        return event

    def events(self) -> Iterator[Event]:
        """All that `next_event` gives."""
        while (event := self.next_event()) is not None:
            yield event

    def _told(self) -> Event:
        event = self._event
        peer = Peer(event.peer.slot, event.peer.generation)
        if event.kind == 3:
            delivery = _DELIVERIES.get(event.flags, Delivery.UNRELIABLE)
            return Receive(peer, self._address_of(peer), event.channel, delivery, self._body(event.length))
        if event.kind == 1:
            return Connect(peer, self._address_of(peer), event.info)
        return Disconnect(peer, self._address_of(peer), event.info)

    def _body(self, length: int) -> bytes:
        if length <= _SHORT:
            _check(lib.gofnjerta_body(self._ref, self._room, _SHORT))
            return ctypes.string_at(self._room, length)
        room = ctypes.create_string_buffer(length)
        _check(lib.gofnjerta_body(self._ref, room, length))
        return room.raw

    def _address_of(self, peer: Peer) -> Address:
        known = self._addresses.get(peer.slot)
        if known is not None and known[0] == peer.generation:
            return known[1]
        address = self.read_peer(peer).address
        self._addresses[peer.slot] = (peer.generation, address)
        return address

    def _sent_to(self, peer: Peer, to: CAddress) -> Address:
        # An address as text takes longer to make than to look up.
        known = self._addresses.get(peer.slot)
        return known[1] if known is not None and known[0] == peer.generation else _from_c(to)

    # Packets.

    def submit(self, peer: Peer, channel: int, data: bytes, delivery: Delivery = Delivery.RELIABLE) -> None:
        """Submits a packet, which is copied. E2 if the peer is gone, E3, E4, E5, E9 (`set_send_limit`)."""
        if not 0 <= channel <= 255:
            raise Error(Why.NO_SUCH_CHANNEL)
        _check(lib.gofnjerta_submit(self._ref, CPeer(*peer), channel, delivery, bytes(data), len(data)))

    def broadcast(self, peers: Iterable[Peer], channel: int, data: bytes, delivery: Delivery = Delivery.RELIABLE) -> None:
        """Submits a packet to each of these peers, which share one copy. Peers that are gone or aren't connected are skipped. If one
        refuses it for another reason, the others still get it, and the first such reason is raised: E4, E5, E9, E1. Which peers those
        are, `broadcast_each` tells. Nobody gets it if there is no memory for the copy."""
        if not 0 <= channel <= 255:
            raise Error(Why.NO_SUCH_CHANNEL)
        names = [CPeer(*peer) for peer in peers]
        array = (CPeer * len(names))(*names)
        _check(lib.gofnjerta_broadcast(self._ref, array, len(names), channel, delivery, bytes(data), len(data)))

    def broadcast_each(
        self, peers: Iterable[Peer], channel: int, data: bytes, delivery: Delivery = Delivery.RELIABLE
    ) -> List[int]:
        """The same, and returns what each peer's submission answered, in their order: 0, or the number of what `submit` raises (`Why`), E2
        and E3 too. It raises E1, if there is no memory for the copy, E5 above `MAX_PACKET` bytes, E4 if the channel isn't from 0 to 255, and
        Closed: then nobody gets it."""
        if not 0 <= channel <= 255:
            raise Error(Why.NO_SUCH_CHANNEL)
        names = [CPeer(*peer) for peer in peers]
        array, answers = (CPeer * len(names))(*names), (ctypes.c_uint32 * len(names))()
        _check(lib.gofnjerta_broadcast_each(self._ref, array, len(names), channel, delivery, bytes(data), len(data), answers))
        return list(answers)

    # Connections.

    def connect(self, to: Tuple[str, int], channels: int, info: int, word: int) -> Peer:
        """Asks the host at this address for a connection. `info` is a number for its user. `word` names the connection: draw it from
        the system, anew for each (`Endpoint.connect` does). A Connect or a Disconnect follows. E8 for no channels, E7, E1."""
        name = CPeer()
        address = _into_c(to)
        channels = _within(channels, 8, Why.BAD_CONFIG)
        _check(lib.gofnjerta_connect(self._ref, address, channels, _within(info, 32), _within(word, 32), ctypes.byref(name)))
        peer = Peer(name.slot, name.generation)
        self._addresses[peer.slot] = (peer.generation, _from_c(address))
        return peer

    def disconnect(self, peer: Peer, info: int = 0) -> None:
        """Disconnects a peer, with a number for its user. What is queued is dropped; packets that came before are still told. A
        Disconnect follows. E2, E3."""
        _check(lib.gofnjerta_disconnect(self._ref, CPeer(*peer), _within(info, 32)))

    def disconnect_now(self, peer: Peer, info: int = 0) -> None:
        """Disconnects a peer at once: it is sent one datagram, and no event follows. E2, E3."""
        _check(lib.gofnjerta_disconnect_now(self._ref, CPeer(*peer), _within(info, 32)))

    def disconnect_later(self, peer: Peer, info: int = 0) -> None:
        """Disconnects a peer once everything queued is sent and each reliable packet is acknowledged. What comes from it after this call
        is dropped. A Disconnect follows. E2, E3."""
        _check(lib.gofnjerta_disconnect_later(self._ref, CPeer(*peer), _within(info, 32)))

    # Settings.

    def set_secret(self, key: bytes) -> None:
        """Sets the host's secret: 32 bytes that the system drew. With it a stranger who doesn't see the answers can't connect in
        another's name. Set it once, before the first datagram and the first connect. `Endpoint` does."""
        if len(key) != 32:
            raise ValueError("a secret has 32 bytes")
        _check(lib.gofnjerta_set_secret(self._ref, bytes(key)))

    def give_way(self) -> None:
        """From now on a CONNECT that finds no free slot takes that of the peer which has waited longest for its client to confirm the
        answer. Open such a host with `ENDLESS` generations."""
        _check(lib.gofnjerta_give_way(self._ref))

    def set_most(self, peers: int) -> None:
        """Sets how many peers that began by a CONNECT may be connected or leaving at once. A client above that gets a Disconnect with
        the info `FULL`. Open the host with more slots than that. E8."""
        _check(lib.gofnjerta_set_most(self._ref, _within(peers, 16, Why.BAD_CONFIG)))

    def set_send_limit(self, bytes: int, commands: int) -> None:
        """Sets at how many bytes or commands, queued or sent and not acknowledged, a peer takes no further packet: E9. 0 isn't "no limit",
        but one packet at a time; 2**64 - 1 twice is as good as none. It doesn't bound memory: the pieces of a packet that was cut share
        its body."""
        _check(lib.gofnjerta_set_send_limit(self._ref, _within(bytes, 64), _within(commands, 64)))

    def set_bandwidth(self, incoming: int, outgoing: int) -> None:
        """Sets the host's bandwidths, in bytes a second; 0: no limit is known. Each connected peer is sent them."""
        _check(lib.gofnjerta_set_bandwidth(self._ref, _within(incoming, 32), _within(outgoing, 32)))

    def set_ping_interval(self, peer: Peer, ms: int) -> None:
        """Sets after how many milliseconds of silence a peer is pinged; 0 means 500. E2."""
        _check(lib.gofnjerta_set_ping_interval(self._ref, CPeer(*peer), _within(ms, 32)))

    def set_timeout(self, peer: Peer, limit: int = 0, minimum: int = 0, maximum: int = 0) -> None:
        """Sets how long a peer may leave a command unacknowledged (docs/C.md has the rule). 0 means 32, 5,000 ms and 30,000 ms. E2."""
        words = (_within(limit, 32), _within(minimum, 32), _within(maximum, 32))
        _check(lib.gofnjerta_set_timeout(self._ref, CPeer(*peer), *words))

    def throttle_configure(self, peer: Peer, interval: int, acceleration: int, deceleration: int) -> None:
        """Sets a connected peer's throttle: its interval in milliseconds, and by how much it rises and falls, in parts of 32. E2, E3."""
        words = (_within(interval, 32), _within(acceleration, 32), _within(deceleration, 32))
        _check(lib.gofnjerta_throttle_configure(self._ref, CPeer(*peer), *words))

    # Readings.

    def read_peer(self, peer: Peer) -> Reading:
        """Reads a peer. E2."""
        c = CReading()
        _check(lib.gofnjerta_read_peer(self._ref, CPeer(*peer), ctypes.byref(c)))
        return Reading(
            State(c.state),
            c.mtu,
            c.window,
            c.connect_id,
            c.round_trip,
            c.variance,
            c.in_transit,
            c.throttle,
            c.throttle_interval,
            c.acceleration,
            c.deceleration,
            _from_c(c.address),
            c.slot,
            c.channels,
            c.incoming_session,
            c.outgoing_session,
        )

    def read_line(self, peer: Peer) -> LineReading:
        """Reads how the line to a peer is, and what is queued or unacknowledged for it. E2."""
        c = CLine()
        _check(lib.gofnjerta_read_line(self._ref, CPeer(*peer), ctypes.byref(c)))
        trips = (c.round_trip, c.variance, c.lowest, c.lowest_before)
        return LineReading(*trips, c.throttle, c.allowance, c.in_transit, c.commands, c.bytes)

    def read_traffic(self, peer: Peer) -> Traffic:
        """Reads how many commands went to a peer, first and again, and how many were acknowledged. E2."""
        c = CTraffic()
        _check(lib.gofnjerta_read_traffic(self._ref, CPeer(*peer), ctypes.byref(c)))
        return Traffic(c.sent, c.again, c.acknowledged)

    def ending(self, peer: Peer) -> Ending:
        """Reads why a peer's connection ended, before and after its Disconnect, until the next peer of that slot, connected or not, is
        gone: ask when you take the Disconnect."""
        _check(lib.gofnjerta_ending(self._ref, CPeer(*peer), self._word_ref))
        return Ending(self._word.value)

    def read_allowance(self, peer: Peer) -> int:
        """Reads how many bytes may be in transit to a peer: 2,800 to 131,072, at first 65,536. It falls if the line drops packets. E2."""
        _check(lib.gofnjerta_read_allowance(self._ref, CPeer(*peer), self._word_ref))
        return self._word.value

    def read_totals(self) -> Totals:
        """Reads how much went through the host."""
        c = CTotals()
        _check(lib.gofnjerta_read_totals(self._ref, ctypes.byref(c)))
        return Totals(c.datagrams_in, c.bytes_in, c.datagrams_out, c.bytes_out)

    def read_held(self) -> Held:
        """Reads what the host holds of what others sent. It looks at each slot."""
        c = CHeld()
        _check(lib.gofnjerta_read_held(self._ref, ctypes.byref(c)))
        return Held(c.channels, c.senders, c.packets, c.undispatched, c.bytes, c.acknowledgements, c.memory, c.most_memory)

    def read_slots(self) -> Slots:
        """Reads how many slots are in each state. It looks at each slot."""
        c = CSlots()
        _check(lib.gofnjerta_read_slots(self._ref, ctypes.byref(c)))
        return Slots(c.free, c.spent, c.connecting, c.answering, c.connected, c.leaving)

    def read_sent_again(self) -> int:
        """Reads how many commands of all peers aren't acknowledged and were sent more than once. It looks at all that isn't."""
        count = ctypes.c_uint64()
        _check(lib.gofnjerta_read_sent_again(self._ref, ctypes.byref(count)))
        return count.value
