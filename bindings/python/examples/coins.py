"""coins.py [SEEDS [FIRST]]: a game and its test. Two players grab coins, one after another; the server gives each coin to the first who asks,
and tells both. It is played over a bad line with 1,000 seeds, from FIRST on (0). If the players don't agree with the server at the end, the
seed is printed, and its datagrams are left in coins-SEED.pcap, which `enet_relay inspect --timeline` draws; the status is 1."""

import sys
from typing import Dict, List, Optional, Union

from gofnjerta import Config, Connect, Delivery, Event, Host, Line, Network, Peer, Receive

COINS, PLAYERS = 6, 2
DELIVERY = Delivery.RELIABLE
LINE = Line(loss=0.1, delay=20, jitter=30, reorder=0.05, repeat=0.05)


class Server:
    def __init__(self, host: Host) -> None:
        self.host = host
        self.players: List[Peer] = []
        self.owners: Dict[int, int] = {}

    def take(self, event: Event) -> None:
        if isinstance(event, Connect):
            self.players.append(event.peer)
            if len(self.players) == PLAYERS:  # the first coin is nobody's: the game begins
                self.host.broadcast(self.players, 0, bytes((0, 255)))
        if isinstance(event, Receive) and event.data[0] not in self.owners:
            self.owners[event.data[0]] = event.peer.slot
            self.host.broadcast(self.players, 0, bytes((event.data[0], event.peer.slot)), DELIVERY)


class Player:
    def __init__(self, host: Host, server: Peer) -> None:
        self.host, self.server = host, server
        self.owners: Dict[int, int] = {}

    def take(self, event: Event) -> None:
        if isinstance(event, Receive):
            coin, owner = event.data
            if coin > 0:
                self.owners[coin] = owner
            if coin < COINS:
                self.host.submit(self.server, 0, bytes((coin + 1,)))


def play(net: Network) -> Optional[str]:
    """What went wrong in five seconds, or None."""
    net.set_line(LINE)
    server = Server(net.add(Config.standard(PLAYERS, 1)))
    net.capture(server.host)
    hosts = [net.add(Config.standard(1, 1)) for _ in range(PLAYERS)]
    players = [Player(host, net.connect(host, server.host, 1)) for host in hosts]
    everybody: List[Union[Server, Player]] = [server, *players]
    while net.now < 5000 and any(len(player.owners) < COINS for player in players):
        net.pass_(40)
        for who in everybody:
            for event in who.host.events():
                who.take(event)
    agree = len(server.owners) == COINS and all(player.owners == server.owners for player in players)
    return None if agree else f"server {server.owners}, players {[player.owners for player in players]}"


def main(seeds: int = 1000, first: int = 0) -> int:
    for seed in range(first, first + seeds):
        net = Network(seed)
        wrong = play(net)
        if wrong is not None:
            print(f"seed {seed}: {wrong}")
            net.write_capture(f"coins-{seed}.pcap")
            return 1
    print(f"{seeds} games went well")
    return 0


if __name__ == "__main__":
    sys.exit(main(*(int(word) for word in sys.argv[1:3])))
