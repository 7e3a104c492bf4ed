"""A small arena: arena.py [ADDRESS], at 0.0.0.0:7777 if no address is named. It runs until it is stopped.

A player moves by a reliable packet of one byte on channel 0: 0 right, 1 left, 2 up, 3 down. Who sends anything else is sent away, with the
number 1. Twenty times a second each player gets a snapshot on channel 1, which may be lost: its number, and of each player the slot (2
bytes), x and y (2 bytes each), all little-endian. Once a second it is also sent on channel 0, reliably. A player whose reliable packets are
in transit for over a second is slow, by the readings: it gets each fourth snapshot until all is acknowledged."""

import dataclasses
import struct
import sys
import time
from typing import Dict

from gofnjerta import Address, Connect, Delivery, Disconnect, Endpoint, Error, Event, Peer, Receive

ROUND = 0.05
ROUNDS_PER_SECOND = 20
GARBAGE = 1
STEPS = ((1, 0), (-1, 0), (0, 1), (0, -1))


@dataclasses.dataclass
class Player:
    x: int = 0
    y: int = 0
    rounds_in_transit: int = 0  # for how many something was in transit to it

    def is_slow(self) -> bool:
        return self.rounds_in_transit > ROUNDS_PER_SECOND


class Arena:
    def __init__(self, server: Endpoint) -> None:
        self.server = server
        self.players: Dict[Peer, Player] = {}
        self.number = 0

    def take(self, event: Event) -> None:
        slot = event.peer.slot
        if isinstance(event, Connect):
            print(f"{slot} in from {event.address.ip}:{event.address.port}", flush=True)
            self.players[event.peer] = Player()
        elif isinstance(event, Disconnect):
            print(f"{slot} out at {event.address.ip}:{event.address.port}", flush=True)
            self.players.pop(event.peer, None)
        elif not self.is_move(event):
            try:
                self.server.disconnect(event.peer, GARBAGE)
                print(f"{slot} garbage", flush=True)
            except Error:
                pass  # it is disconnecting already

    def is_move(self, event: Receive) -> bool:
        """Moves a player. Whether that is a move."""
        if event.channel != 0 or len(event.data) != 1 or event.data[0] >= len(STEPS):
            return False
        x, y = STEPS[event.data[0]]
        self.players[event.peer].x += x
        self.players[event.peer].y += y
        return True

    def read(self) -> None:
        """Notices who is slow."""
        for peer, player in self.players.items():
            was_slow = player.is_slow()
            try:
                is_in_transit = self.server.host.read_peer(peer).in_transit > 0
            except Error:
                continue  # it has gone, and its Disconnect follows
            player.rounds_in_transit = player.rounds_in_transit + 1 if is_in_transit else 0
            if player.is_slow() != was_slow:
                print(peer.slot, "steady" if was_slow else "slow", flush=True)

    def send(self) -> None:
        """Sends everybody where all are."""
        self.number += 1
        snapshot = struct.pack("<I", self.number)
        for peer, player in self.players.items():
            snapshot += struct.pack("<HHH", peer.slot, player.x & 0xFFFF, player.y & 0xFFFF)
        if self.number % ROUNDS_PER_SECOND == 0:
            self.server.broadcast(self.players, 0, snapshot)
        steady = [peer for peer, player in self.players.items() if self.number % 4 == 0 or not player.is_slow()]
        self.server.broadcast(steady, 1, snapshot, Delivery.UNRELIABLE)


def main() -> None:
    ip, port = (sys.argv[1] if len(sys.argv) > 1 else "0.0.0.0:7777").split(":")
    with Endpoint.server(Address(ip, int(port))) as server:
        arena = Arena(server)
        due = time.monotonic()
        while True:
            due += ROUND
            while (event := server.service(max(0.0, due - time.monotonic()))) is not None:
                arena.take(event)
            arena.read()
            arena.send()
            server.flush()


if __name__ == "__main__":
    main()
