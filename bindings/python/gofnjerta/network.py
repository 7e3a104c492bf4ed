"""Hosts and a network in memory, whose clock goes on by hand. The same seed and the same calls give the same run, to the byte."""

from __future__ import annotations

import dataclasses
import heapq
import socket
import struct
from typing import Dict, List, Optional, Tuple

from .host import Address, Config, Host, Peer

_PORT = 7777
# Bytes of the headers of IPv4 and UDP.
_HEADERS = 28
# The most by which a datagram is held back that others overtake, or that is repeated, in microseconds.
_HELD_BACK = 20_000
_64 = 0xFFFF_FFFF_FFFF_FFFF


@dataclasses.dataclass(frozen=True)
class Line:
    """How a line treats the datagrams that go one way over it. The default is a line that loses nothing and takes no time."""

    #: The share of datagrams that are lost, 0 to 1.
    loss: float = 0.0
    #: How many milliseconds a datagram takes.
    delay: int = 0
    #: Up to how many milliseconds more it takes, as drawn for each. Their order stays.
    jitter: int = 0
    #: The share of datagrams that are held back for up to 20 milliseconds more, while later ones overtake them, 0 to 1.
    reorder: float = 0.0
    #: The share of datagrams that arrive a second time, up to 20 milliseconds later, 0 to 1.
    repeat: float = 0.0
    #: How many bytes the line carries in a second, where each datagram counts 28 more for its headers; 0: no limit.
    rate: int = 0
    #: For how many milliseconds a datagram may wait until the line is free. One that would wait longer is lost.
    queue: int = 100


class _Drawn:
    """Numbers drawn from a seed (splitmix64)."""

    def __init__(self, seed: int) -> None:
        self._state = seed & _64

    def next(self) -> int:
        self._state = z = (self._state + 0x9E37_79B9_7F4A_7C15) & _64
        z = (z ^ (z >> 30)) * 0xBF58_476D_1CE4_E5B9 & _64
        z = (z ^ (z >> 27)) * 0x94D0_49BB_1331_11EB & _64
        return z ^ (z >> 31)

    def happens(self, probability: float) -> bool:
        return (self.next() >> 11) / (1 << 53) < probability


class _Way:
    """A line one way, with what it is at. Times are in microseconds."""

    __slots__ = ("line", "free_at", "last", "down_until")

    def __init__(self, line: Line) -> None:
        self.line = line
        # When all that it took has been sent, when the last datagram arrives that keeps its place, and until when it drops all.
        self.free_at = 0
        self.last = 0
        self.down_until = 0

    def carry(self, drawn: _Drawn, now: int, length: int) -> Tuple[Optional[int], Optional[int]]:
        """When a datagram of this length arrives that is sent now, and when it arrives a second time. Each datagram takes as many draws,
        so that what becomes of the next ones doesn't depend on it."""
        line = self.line
        is_lost = drawn.happens(line.loss)
        jitter = drawn.next() % (line.jitter * 1000 + 1)
        is_held_back = drawn.happens(line.reorder)
        held_back = 1 + drawn.next() % _HELD_BACK
        is_repeated = drawn.happens(line.repeat)
        repeated = 1 + drawn.next() % _HELD_BACK
        if is_lost or now < self.down_until:
            return None, None
        sent = now
        if line.rate:
            begins = max(self.free_at, now)
            if begins - now > line.queue * 1000:
                return None, None
            sent = self.free_at = begins + (length + _HEADERS) * 1_000_000 // line.rate
        due = sent + line.delay * 1000 + jitter
        if is_held_back:
            due += held_back
        else:
            due = self.last = max(due, self.last)
        return due, due + repeated if is_repeated else None


class _Member:
    """A host, its clock in milliseconds, when time brings it something, and the lines from it to each host."""

    __slots__ = ("host", "address", "clock", "due_at", "ways")

    def __init__(self, host: Host, address: Address, clock: int, ways: List[_Way]) -> None:
        self.host = host
        self.address = address
        self.clock = clock
        self.due_at = clock
        self.ways = ways

    def tick_to(self, clock: int) -> None:
        while self.clock < clock:
            ms = min(clock - self.clock, 60_000)
            self.host.tick(ms)
            self.clock += ms


class Network:
    """Any number of hosts in memory, and the lines between them. Its clock goes on only by `pass_`."""

    def __init__(self, seed: int) -> None:
        """A network without hosts, whose lines lose nothing and take no time. The seed has 64 bits."""
        self._drawn = _Drawn(seed)
        self._line = Line()
        self._now = 0
        self._members: List[_Member] = []
        self._at: Dict[Tuple[str, int], int] = {}
        # Datagrams under way: when they arrive, in which order they were sent, the indices of sender and receiver, the bytes.
        self._flights: List[Tuple[int, int, int, int, bytes]] = []
        self._flown = 0
        self._captured_at: Optional[int] = None
        self._capture = bytearray()

    def add(self, config: Config) -> Host:
        """Adds a host, with a secret that is drawn. Its address is 10.0.0.1 for the first one, 10.0.0.2 for the second and so on, with port
        7777. Its datagrams and its clock are the network's: don't call `receive`, `transmit` and `tick`."""
        host = Host(config)
        host.set_secret(b"".join(self._drawn.next().to_bytes(8, "little") for _ in range(4)))
        count = len(self._members)
        address = Address(socket.inet_ntoa((0x0A00_0001 + count).to_bytes(4, "big")), _PORT)
        for member in self._members:
            member.ways.append(_Way(self._line))
        self._members.append(_Member(host, address, self.now, [_Way(self._line) for _ in range(count + 1)]))
        self._at[address] = count
        return host

    @property
    def now(self) -> int:
        """How many milliseconds have passed."""
        return self._now // 1000

    def address(self, host: Host) -> Address:
        """The address of a host."""
        return self._members[self._index(host)].address

    def host_at(self, address: Tuple[str, int]) -> Optional[Host]:
        """The host with this address."""
        index = self._at.get(address)
        return None if index is None else self._members[index].host

    def set_line(self, line: Line) -> None:
        """All lines are like this from now on, and those of hosts that are added."""
        self._line = line
        for member in self._members:
            for way in member.ways:
                way.line = line

    def set_line_between(self, source: Host, to: Host, line: Line) -> None:
        """The line from one host to another is like this from now on, one way."""
        self._members[self._index(source)].ways[self._index(to)].line = line

    def outage(self, host: Host, ms: int) -> None:
        """All that is sent by a host or to it is lost, for this many milliseconds from now on. What is under way arrives."""
        index, until = self._index(host), self._now + ms * 1000
        for way in self._members[index].ways:
            way.down_until = until
        for member in self._members:
            member.ways[index].down_until = until

    def connect(self, host: Host, to: Host, channels: int = 2, info: int = 0) -> Peer:
        """Has a host ask another one for a connection, by `Host.connect` with a word that is drawn."""
        return host.connect(self.address(to), channels, info, self._drawn.next() & 0xFFFF_FFFF)

    def pass_(self, ms: int) -> None:
        """Time goes on by this many milliseconds. Each host sends what it has to send, when it is due; what arrives by then is received."""
        end = self._now + ms * 1000
        for index in range(len(self._members)):
            self._send_from(index)
        while self._members:
            moment = min(member.due_at for member in self._members) * 1000
            if self._flights and self._flights[0][0] < moment:
                moment = self._flights[0][0]
            if moment > end:
                break
            self._now = max(self._now, moment)
            self._arrive()
            self._tick_due()
        self._now = end
        for member in self._members:
            member.tick_to(self.now)

    def capture(self, host: Host) -> None:
        """From now on notes each datagram that a host sends, and each that arrives at it, in place of what was noted before."""
        self._captured_at = self._index(host)
        self._capture = bytearray(struct.pack("<IHHIIII", 0xA1B2_C3D4, 2, 4, 0, 0, 65_535, 101))

    def captured(self) -> bytes:
        """What was noted: a capture in classic pcap, of raw IP; no bytes if `capture` wasn't called."""
        return bytes(self._capture)

    def write_capture(self, path: str) -> None:
        """Writes what was noted to a file. `enet_relay inspect FILE --timeline SVG --at LEFT` draws it, with this host at the left if it
        sent the first datagram, and `--at RIGHT` else."""
        with open(path, "wb") as file:
            file.write(self._capture)

    def _index(self, host: Host) -> int:
        for index, member in enumerate(self._members):
            if member.host is host:
                return index
        raise ValueError("the host isn't of this network")

    def _arrive(self) -> None:
        while self._flights and self._flights[0][0] <= self._now:
            _, _, source, to, data = heapq.heappop(self._flights)
            member = self._members[to]
            if member.clock < self.now:
                member.tick_to(self.now)
            address = self._members[source].address
            if self._captured_at == to:
                self._note(address, member.address, data)
            member.host.receive(address, data)
            self._send_from(to)

    def _tick_due(self) -> None:
        clock = self.now
        for index, member in enumerate(self._members):
            if member.due_at <= clock:
                self._send_from(index)

    def _send_from(self, source: int) -> None:
        """Takes all that a host has to send now."""
        member, clock = self._members[source], self.now
        if member.clock < clock:
            member.tick_to(clock)
        while (datagram := member.host.transmit()) is not None:
            self._send(source, member, datagram.to, datagram.data)
        member.due_at = clock + (member.host.due_in() or 1)

    def _send(self, source: int, member: _Member, address: Address, data: bytes) -> None:
        if self._captured_at == source:
            self._note(member.address, address, data)
        to = self._at.get(address)
        if to is None:
            return
        first, second = member.ways[to].carry(self._drawn, self._now, len(data))
        for due in (second, first):
            if due is not None:
                self._flown += 1
                heapq.heappush(self._flights, (due, self._flown, source, to, data))

    def _note(self, source: Address, to: Address, data: bytes) -> None:
        length = len(data) + _HEADERS
        ips = socket.inet_aton(source.ip) + socket.inet_aton(to.ip)
        head = struct.pack(">BBHHHBBH", 0x45, 0, length, 0, 0, 64, 17, 0) + ips
        total = sum(struct.unpack(">10H", head))
        total = (total & 0xFFFF) + (total >> 16)
        head = head[:10] + struct.pack(">H", 0xFFFF - ((total & 0xFFFF) + (total >> 16))) + head[12:]
        self._capture += struct.pack("<IIII", self._now // 1_000_000, self._now % 1_000_000, length, length)
        self._capture += head + struct.pack(">HHHH", source.port, to.port, length - 20, 0) + data
