"""A host with a UDP socket and the system's clock."""

from __future__ import annotations

import asyncio
import dataclasses
import heapq
import os
import random
import select
import socket
import time
from typing import AsyncIterator, BinaryIO, Iterable, List, Optional, Tuple

from .host import ENDLESS, MAX_DATAGRAM, Address, Config, Delivery, Event, Host, Peer

# Slots beside those of the players, for clients that ask.
_ASKING = 1024
# How many datagrams are read before those are sent that answer them.
_AT_ONCE = 64


class Endpoint:
    """A host, its UDP socket and its clock. The host's secret is drawn from the system. Calls may come from any thread, one after another.

    What isn't here is at `host`, as `endpoint.host.read_peer(peer)`. Don't call its `receive`, `transmit`, `tick` and `next_event`."""

    def __init__(self, at: Tuple[str, int], config: Config) -> None:
        """Opens a host and a socket at this address of the machine; port 0: the system chooses. `Error` E8 if a setting is out of its
        range, OSError if the address can't be had."""
        self._begin(at, Host(config))

    @classmethod
    def record(cls, at: Tuple[str, int], config: Config, file: BinaryIO) -> Endpoint:
        """Opens an endpoint whose host is recorded to a file (`Host.record`), until the endpoint is closed or a write fails. For a server
        set `config` as `server` does, and call `give_way` and `set_most` of `host`."""
        endpoint = cls.__new__(cls)
        endpoint._begin(at, Host.record(config, file))
        return endpoint

    def _begin(self, at: Tuple[str, int], host: Host) -> None:
        self.host = host
        self.host.set_secret(os.urandom(32))
        self._socket = socket.socket(socket.AF_INET, socket.SOCK_DGRAM)
        try:
            self._socket.bind(at)
        except BaseException:
            self.close()
            raise
        self._socket.setblocking(False)
        self._poll = select.poll()
        self._poll.register(self._socket, select.POLLIN)
        # The host's clock, in seconds of the system's.
        self._clock = time.monotonic()
        self._loss = 0.0
        self._delay = 0.0
        self._random = random.Random(os.urandom(16))
        # Datagrams under way of a simulated line: when they arrive, in which order they were sent, whether they come in, whose, the bytes.
        self._line: List[Tuple[float, int, bool, Tuple[str, int], bytes]] = []
        self._passed = 0

    @staticmethod
    def server(at: Tuple[str, int], players: int = 32, channels: int = 2) -> Endpoint:
        """A server for this many clients, 1 to 3,071. Strangers can't keep them out by CONNECTs that nobody confirms: there are 1,024 more
        slots for clients that ask, and of those the one that has waited longest gives way."""
        config = dataclasses.replace(Config.standard(players + _ASKING, channels), generations=ENDLESS)
        endpoint = Endpoint(at, config)
        endpoint.host.give_way()
        endpoint.host.set_most(players)
        return endpoint

    @staticmethod
    def client(channels: int = 2) -> Endpoint:
        """A client with one slot, at a port that the system chooses."""
        return Endpoint(("0.0.0.0", 0), Config.standard(1, channels))

    @property
    def address(self) -> Address:
        """The socket's address."""
        ip, port = self._socket.getsockname()
        return Address(ip, port)

    def fileno(self) -> int:
        """The socket, for a program that waits for more than this one. Call `service(0)` at least each `host.due_in()` milliseconds."""
        return self._socket.fileno()

    def close(self) -> None:
        """Closes the host and the socket; no peer is notified. `service` sends what `disconnect_now` leaves."""
        self.host.close()
        self._socket.close()

    def __enter__(self) -> Endpoint:
        return self

    def __exit__(self, *_: object) -> None:
        self.close()

    def connect(self, to: Tuple[str, int], channels: int = 2, info: int = 0) -> Peer:
        """Asks the host at this address for a connection; its connect id is drawn from the system. A Connect or a Disconnect follows.
        `Error` E8 for no channels, E7 if no slot is free."""
        return self.host.connect(to, channels, info, int.from_bytes(os.urandom(4), "big"))

    def submit(self, peer: Peer, channel: int, data: bytes, delivery: Delivery = Delivery.RELIABLE) -> None:
        """Submits a packet (`Host.submit`). The next `service` sends it."""
        self.host.submit(peer, channel, data, delivery)

    def broadcast(self, peers: Iterable[Peer], channel: int, data: bytes, delivery: Delivery = Delivery.RELIABLE) -> None:
        """Submits a packet to each of these peers (`Host.broadcast`)."""
        self.host.broadcast(peers, channel, data, delivery)

    def broadcast_each(
        self, peers: Iterable[Peer], channel: int, data: bytes, delivery: Delivery = Delivery.RELIABLE
    ) -> List[int]:
        """Submits a packet to each of these peers, and returns what each answered (`Host.broadcast_each`)."""
        return self.host.broadcast_each(peers, channel, data, delivery)

    def disconnect(self, peer: Peer, info: int = 0) -> None:
        """Disconnects a peer (`Host.disconnect`)."""
        self.host.disconnect(peer, info)

    def disconnect_now(self, peer: Peer, info: int = 0) -> None:
        """Disconnects a peer at once (`Host.disconnect_now`)."""
        self.host.disconnect_now(peer, info)

    def disconnect_later(self, peer: Peer, info: int = 0) -> None:
        """Disconnects a peer once all is sent and acknowledged (`Host.disconnect_later`)."""
        self.host.disconnect_later(peer, info)

    def simulate(self, loss: float, delay: int) -> None:
        """From now on each datagram, sent or received, is lost with the probability `loss`, 0 to 1, or takes `delay` milliseconds more.
        For tests. `simulate(0, 0)` ends it."""
        if not 0 <= loss <= 1 or delay < 0:
            raise ValueError("loss is from 0 to 1, and delay at least 0")
        self._loss = loss
        self._delay = delay / 1000

    def service(self, timeout: float = 0.0) -> Optional[Event]:
        """Sends, receives and lets time pass until there is an event, for `timeout` seconds at most. The next event; None if there is
        none. Call it again at once after an event."""
        end = time.monotonic() + timeout
        while True:
            event = self.host.next_event()
            if event is not None:
                return event
            self._pass_time()
            self._receive_all()
            event = self.host.next_event()
            self._send_all()
            if event is not None:
                return event
            now = time.monotonic()
            if now >= end:
                return None
            self._wait(now, end)

    def flush(self) -> None:
        """Sends what is to be sent, without a wait. `service` does so too, but not while it has events to tell."""
        self._pass_time()
        self._arrive()
        self._send_all()

    def _pass_time(self) -> None:
        ms = int((time.monotonic() - self._clock) * 1000)
        self._clock += ms / 1000
        while ms > 0:
            self.host.tick(min(ms, 60_000))
            ms -= 60_000

    def _receive_all(self) -> None:
        for _ in range(_AT_ONCE):
            try:
                data, source = self._socket.recvfrom(MAX_DATAGRAM + 1)
            except BlockingIOError:
                break
            except OSError:
                # An error that an earlier datagram met on its way; the next call waits.
                continue
            # Nothing can be sent to port 0, and no host sends a longer datagram.
            if source[1] and len(data) <= MAX_DATAGRAM:
                self._pass_on(True, source, data)
        self._arrive()

    def _send_all(self) -> None:
        while (datagram := self.host.transmit()) is not None:
            self._pass_on(False, datagram.to, datagram.data)

    def _pass_on(self, inward: bool, address: Tuple[str, int], data: bytes) -> None:
        if self._loss > 0 and self._random.random() < self._loss:
            return
        if self._delay > 0 or self._line:
            self._passed += 1
            heapq.heappush(self._line, (time.monotonic() + self._delay, self._passed, inward, address, data))
        else:
            self._hand_over(inward, address, data)

    def _arrive(self) -> None:
        now = time.monotonic()
        while self._line and self._line[0][0] <= now:
            _, _, inward, address, data = heapq.heappop(self._line)
            self._hand_over(inward, address, data)

    def _hand_over(self, inward: bool, address: Tuple[str, int], data: bytes) -> None:
        if inward:
            self.host.receive(address, data)
            return
        try:
            self._socket.sendto(data, address)
        except OSError:
            # The network may lose any datagram: a full buffer, or an address to which there is no way.
            pass

    def _due(self) -> float:
        """When time brings something, as `time.monotonic` counts."""
        until = self._clock + self.host.due_in() / 1000
        return min(until, self._line[0][0]) if self._line else until

    def _wait(self, now: float, end: float) -> None:
        # Rounded up: a poll that ends too early would be made again and again.
        self._poll.poll(max(0, int((min(end, self._due()) - now) * 1000) + 1))

    async def events(self) -> AsyncIterator[Event]:
        """The events as they come, for asyncio, until the caller leaves the loop: `async for event in endpoint.events():`. What other
        tasks submit meanwhile is sent with the next datagram that comes or when time brings something; `flush` sends it at once."""
        loop, ready = asyncio.get_running_loop(), asyncio.Event()
        loop.add_reader(self._socket, ready.set)
        try:
            while True:
                while (event := self.service(0)) is not None:
                    yield event
                ready.clear()
                try:
                    await asyncio.wait_for(ready.wait(), max(0.0, self._due() - time.monotonic()) + 0.001)
                except asyncio.TimeoutError:
                    pass
        finally:
            loop.remove_reader(self._socket)
