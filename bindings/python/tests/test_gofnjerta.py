"""Tests of the package beside those of scripts/check/check-bindings.sh. HEADERS is the folder with gofnjerta.h and gofnjerta_layout.h,
REPLAY the program gofnjerta_replay, by default that of $GOFNJERTA_DIR."""

import asyncio
import copy
import os
import pickle
import re
import struct
import subprocess
import sys
import tempfile
import threading
import time
import unittest
import unittest.mock
from typing import Callable, Dict, List, Optional, Tuple

import gofnjerta
from gofnjerta import Address, Config, Connect, Delivery, Disconnect, Ending, Endpoint, Error, Event, Host, Line, Network, Peer, Receive, State
from gofnjerta import ENDLESS, Traffic, Why
from gofnjerta._library import _CALLS, layout
from gofnjerta.network import _Drawn, _Way

HEADERS = os.environ.get("HEADERS", os.path.join(os.path.dirname(__file__), "..", "..", "..", "c"))
REPLAY = os.environ.get("REPLAY", os.path.join(os.environ.get("GOFNJERTA_DIR", "/usr"), "bin", "gofnjerta_replay"))


def read(name: str) -> str:
    with open(os.path.join(HEADERS, name), encoding="utf-8") as file:
        return file.read()


def meet(seed: int = 1, line: Line = Line(delay=10)) -> Tuple[Network, Host, Host, Peer, Peer]:
    """A network with two hosts that are connected: a server and a client, the server's name for the client, and the client's for it."""
    net = Network(seed)
    net.set_line(line)
    server, client = net.add(Config.standard(4, 2)), net.add(Config.standard(1, 2))
    peer = net.connect(client, server, 2, 42)
    net.pass_(20_000)
    assert client.next_event() == Connect(peer, net.address(server), 0)
    event = server.next_event()
    assert isinstance(event, Connect) and event.info == 42 and event.address == net.address(client)
    return net, server, client, event.peer, peer


class Layout(unittest.TestCase):
    def test_each_field_lies_as_the_header_says(self) -> None:
        lines = re.findall(r"^GOFNJERTA_(?:STRUCT|FIELD)\((.*)\);$", read("gofnjerta_layout.h"), re.MULTILINE)
        self.assertGreater(len(lines), 60)
        self.assertEqual(layout(), [tuple(line.split(", ")) for line in lines])

    def test_each_call_of_the_header_is_bound(self) -> None:
        calls = set(re.findall(r"^[a-z].*[ *]gofnjerta_([a-z_]*)\(", read("gofnjerta.h"), re.MULTILINE))
        others = {"version", "standard", "error_name", "stop_name", "stage", "submit_staged"}
        self.assertEqual(set(_CALLS) | others, calls)

    def test_each_call_has_as_many_words_as_in_the_header(self) -> None:
        for name, words in _CALLS.items():
            declared = re.search(rf"\bgofnjerta_{name}\(([^)]*)\)", read("gofnjerta.h"))
            assert declared is not None
            self.assertEqual(len(declared[1].split(",")), 1 + len(words), name)

    def test_version(self) -> None:
        numbers = re.findall(r"#define GOFNJERTA_VERSION_(?:MAJOR|MINOR|PATCH) (\d+)", read("gofnjerta.h"))
        self.assertEqual(gofnjerta.version(), tuple(int(number) for number in numbers))


class Hosts(unittest.TestCase):
    def test_packets_and_their_ends(self) -> None:
        net, server, client, there, here = meet()
        at_server, at_client = net.address(server), net.address(client)
        for length in (0, 1, 1364, 5000, 100_000):
            client.submit(here, 1, bytes(length))
            server.broadcast([there], 0, b"x" * length, Delivery.UNRELIABLE)
        net.pass_(10_000)
        client.disconnect_later(here, 9)
        net.pass_(10_000)
        events = list(server.events())
        self.assertEqual([len(event.data) for event in events if isinstance(event, Receive)], [0, 1, 1364, 5000, 100_000])
        self.assertEqual(events[1], Receive(there, at_client, 1, Delivery.RELIABLE, b"\0"))
        self.assertEqual(events[-1], Disconnect(there, at_client, 9))
        mine = list(client.events())
        self.assertEqual(mine[0], Receive(here, at_server, 0, Delivery.UNRELIABLE, b""))
        self.assertEqual(mine[-1], Disconnect(here, at_server, 0))

    def test_refusals(self) -> None:
        net, server, client, there, here = meet()
        calls: List[Tuple[Why, str, Callable[[], object]]] = [
            (Why.NO_SUCH_CHANNEL, "E4 NoSuchChannel", lambda: client.submit(here, 2, b"x")),
            (Why.NO_SUCH_CHANNEL, "E4 NoSuchChannel", lambda: client.submit(here, 256, b"x")),
            (Why.NO_SUCH_PEER, "E2 NoSuchPeer", lambda: client.submit(Peer(0, 7), 0, b"x")),
            (Why.NO_SUCH_PEER, "E2 NoSuchPeer", lambda: client.read_peer(Peer(3, 0))),
            (Why.NO_SLOT, "E7 NoSlot", lambda: client.connect(("10.0.0.9", 1), 1, 0, 0)),
            (Why.BAD_CONFIG, "E8 BadConfig", lambda: server.connect(("10.0.0.9", 1), 0, 0, 0)),
            (Why.BAD_CONFIG, "E8 BadConfig", lambda: Host(Config(peers=0, channels=1))),
            (Why.BAD_CONFIG, "E8 BadConfig", lambda: Host(Config(peers=65537, channels=1))),
            (Why.TOO_LARGE, "E5 TooLarge", lambda: client.submit(here, 0, bytes(gofnjerta.MAX_PACKET + 1))),
        ]
        for why, name, call in calls:
            with self.assertRaises(Error) as raised:
                call()
            self.assertEqual((raised.exception.number, raised.exception.name), (why, name))
        for wrong in (lambda: client.set_secret(b"short"), lambda: client.tick(-1), lambda: client.disconnect(here, 1 << 32)):
            self.assertRaises(ValueError, wrong)
        error = pickle.loads(pickle.dumps(Error(5)))
        self.assertEqual((error.number, str(error)), (5, "E5 TooLarge"))
        self.assertEqual(client.receive(net.address(server), b"x").stop_name, "S1 Short")

    def test_a_limit_the_line_and_endings(self) -> None:
        net, server, client, there, here = meet()
        client.set_send_limit(5, 100)
        client.submit(here, 0, b"hello")
        with self.assertRaises(Error) as raised:
            client.submit(here, 0, b"")
        self.assertEqual((raised.exception.number, raised.exception.name), (Why.FULL, "E9 Full"))
        self.assertEqual(client.broadcast_each([here, Peer(0, 7)], 0, b""), [Why.FULL, Why.NO_SUCH_PEER])
        self.assertEqual(client.broadcast_each([], 0, b""), [])
        for channel, data, why in ((256, b"", Why.NO_SUCH_CHANNEL), (0, bytes(gofnjerta.MAX_PACKET + 1), Why.TOO_LARGE)):
            with self.assertRaises(Error) as raised:
                client.broadcast_each([here], channel, data)
            self.assertEqual(raised.exception.number, why)
        self.assertEqual(client.read_traffic(here), Traffic(0, 0, 0))
        line = client.read_line(here)
        self.assertEqual((line.commands, line.bytes, line.in_transit, line.throttle), (1, 5, 0, 32))
        self.assertEqual(line.allowance, client.read_allowance(here))
        self.assertEqual((line.round_trip, line.variance), (client.read_peer(here).round_trip, client.read_peer(here).variance))
        self.assertTrue(0 < line.lowest_before <= 500 and line.lowest <= line.round_trip, line)
        self.assertRaises(Error, lambda: client.read_line(Peer(0, 7)))
        self.assertRaises(Error, lambda: client.read_traffic(Peer(0, 7)))
        self.assertRaises(ValueError, lambda: client.set_send_limit(-1, 1))
        self.assertEqual((client.ending(here), server.ending(there)), (Ending.NONE, Ending.NONE))
        net.pass_(300)  # a round trip is shorter, and the mean of 500 ms hasn't passed
        self.assertEqual(client.read_traffic(here), Traffic(1, 0, 1))
        client.disconnect(here)
        net.pass_(10_000)
        self.assertEqual((client.ending(here), server.ending(there)), (Ending.ASKED_HERE, Ending.ASKED_THERE))

    def test_a_record(self) -> None:
        with tempfile.TemporaryDirectory() as folder:
            path = os.path.join(folder, "record")
            with open(path, "wb") as file, Host.record(Config.standard(1, 1), file) as host:
                self.assertRaises(Error, lambda: host.submit(Peer(0, 0), 0, b""))
                host.connect(("10.0.0.1", 7777), 1, 2, 3)
                sent = host.transmit()
                assert sent is not None
                host.tick(20_000)
                host.tick(20_000)
                self.assertEqual(host.ending(Peer(0, 0)), Ending.NONE)
            with open(path, "rb") as written:
                record = written.read()
            # The head, the settings, the connection, the datagram, two ticks and the end; each entry with its kind and its hash.
            self.assertEqual(len(record), 16 + (31 + 9) + (21 + 9) + (24 + 9) + 2 * (4 + 9) + 9)
            self.assertEqual(record[:8], b"gofnjrec")
            with open(os.path.join(folder, "no"), "wb") as file:
                file.close()
                with Host.record(Config.standard(1, 1), file) as host:
                    host.tick(1)  # the host goes on
        self.assertRaises(Error, lambda: Host.record(Config.standard(0, 1), file))

    def test_a_closed_host_refuses(self) -> None:
        host = Host(Config.standard(1, 1))
        host.close()
        host.close()
        calls: List[Callable[[], object]] = [host.transmit, host.next_event, host.due_in, host.read_held, host.give_way]
        for call in calls:
            with self.assertRaises(Error) as raised:
                call()
            self.assertEqual(raised.exception.number, Why.CLOSED)
        # A copy is the same host, so nothing is closed twice.
        other = copy.copy(host)
        del host
        self.assertRaises(Error, other.transmit)
        self.assertRaises((ValueError, TypeError), lambda: copy.deepcopy(other))

    def test_readings(self) -> None:
        net, server, client, there, here = meet()
        reading = client.read_peer(here)
        self.assertEqual((reading.state, reading.address, reading.channels), (State.CONNECTED, net.address(server), 2))
        self.assertTrue(20 <= reading.round_trip < 100, reading.round_trip)
        self.assertEqual(server.read_slots(), (3, 0, 0, 0, 1, 0))
        self.assertEqual(server.read_allowance(there), 65_536)
        self.assertGreater(server.read_totals().datagrams_in, 1)
        self.assertEqual(server.read_held().packets, 0)
        client.submit(here, 0, b"x" * 100)
        net.pass_(15)
        self.assertEqual(server.read_held()[2:5], (1, 0, 100))
        self.assertGreaterEqual(client.read_peer(here).in_transit, 100)

    def test_a_full_server_says_so(self) -> None:
        net = Network(3)
        server = net.add(Config(peers=10, channels=1, generations=gofnjerta.ENDLESS))
        server.give_way()
        server.set_most(2)
        clients = [net.add(Config.standard(1, 1)) for _ in range(3)]
        for client in clients:
            net.connect(client, server, 1)
            net.pass_(1000)
        said = [list(client.events()) for client in clients]
        self.assertEqual([[type(event) for event in events] for events in said], [[Connect], [Connect], [Connect, Disconnect]])
        self.assertEqual(said[2][1].info if isinstance(said[2][1], Disconnect) else None, gofnjerta.FULL)

    def test_an_event_without_memory_is_told_by_the_next_call(self) -> None:
        net, server, client, there, here = meet()
        client.submit(here, 0, b"x" * 100_000)
        net.pass_(5000)
        with unittest.mock.patch("ctypes.create_string_buffer", side_effect=MemoryError):
            self.assertRaises(MemoryError, server.next_event)
            self.assertRaises(MemoryError, server.next_event)
        event = server.next_event()
        assert isinstance(event, Receive)
        self.assertEqual(event.data, b"x" * 100_000)
        self.assertIsNone(server.next_event())

    def test_threads_may_call_in_turn(self) -> None:
        net, server, client, there, here = meet()
        lock, left = threading.Lock(), [200]

        def work() -> None:
            for _ in range(50):
                with lock:
                    client.submit(here, 0, b"x")
                    left[0] -= 1

        threads = [threading.Thread(target=work) for _ in range(4)]
        for thread in threads:
            thread.start()
        for thread in threads:
            thread.join()
        net.pass_(5000)
        self.assertEqual((left[0], len(list(server.events()))), (0, 200))


def conversation(seed: int, line: Line) -> Tuple[bytes, List[str], int]:
    net, server, client, there, here = meet(seed, line)
    net.capture(client)
    for i in range(30):
        client.submit(here, i % 2, bytes([i]) * (40 * i), Delivery.RELIABLE if i % 3 else Delivery.UNSEQUENCED)
        net.pass_(50)
    net.pass_(5000)
    return net.captured(), [repr(event) for event in server.events()], server.read_totals().datagrams_in


def packets_of(capture: bytes) -> List[Tuple[float, bytes]]:
    at, found = 24, []
    while at < len(capture):
        seconds, micros, length, _ = struct.unpack_from("<IIII", capture, at)
        found.append((seconds + micros / 1e6, capture[at + 16 : at + 16 + length]))
        at += 16 + length
    return found


class Networks(unittest.TestCase):
    BAD = Line(loss=0.2, delay=25, jitter=30, reorder=0.1, repeat=0.1, rate=50_000, queue=80)

    def test_the_same_seed_is_the_same_run(self) -> None:
        runs = [conversation(seed, self.BAD) for seed in (7, 7, 8)]
        self.assertEqual(runs[0], runs[1])
        self.assertNotEqual(runs[0][0], runs[2][0])

    def test_a_run_is_the_same_in_another_process(self) -> None:
        program = "import test_gofnjerta as t, hashlib; print(hashlib.sha256(t.conversation(7, t.Networks.BAD)[0]).hexdigest())"
        there = dict(os.environ, PYTHONPATH=os.pathsep.join(sys.path), PYTHONHASHSEED="5")
        said = {subprocess.run([sys.executable, "-c", program], env=there, capture_output=True, check=True).stdout for _ in range(2)}
        self.assertEqual(len(said), 1)

    def test_reliable_packets_arrive_in_order(self) -> None:
        for seed in range(20):
            net, server, client, there, here = meet(seed, self.BAD)
            for i in range(50):
                client.submit(here, 0, bytes([i]))
                net.pass_(20)
            net.pass_(20_000)
            self.assertEqual([event.data[0] for event in server.events() if isinstance(event, Receive)], list(range(50)))

    def arrivals(self, line: Line, gap: int) -> List[Tuple[Optional[int], Optional[int]]]:
        """When 1,000 datagrams of 972 bytes arrive over a line, one each `gap` microseconds, and when a second time."""
        way, drawn = _Way(line), _Drawn(7)
        return [way.carry(drawn, i * gap, 972) for i in range(1000)]

    def test_loss_and_repeats_are_shares(self) -> None:
        came = self.arrivals(Line(loss=0.2, repeat=0.1), 1000)
        self.assertTrue(160 < sum(first is None for first, _ in came) < 240)
        self.assertTrue(50 < sum(second is not None for _, second in came) < 110)

    def test_jitter_keeps_the_order_and_reordering_does_not(self) -> None:
        first = [at or 0 for at, _ in self.arrivals(Line(delay=10, jitter=50), 1000)]
        self.assertEqual(first, sorted(first))
        self.assertTrue(all(at >= i * 1000 + 10_000 for i, at in enumerate(first)))
        first = [at or 0 for at, _ in self.arrivals(Line(reorder=0.2), 1000)]
        self.assertNotEqual(first, sorted(first))

    def test_a_rate_fills_a_queue(self) -> None:
        # 1,000 bytes take 10 ms and one comes each 5 ms, so that each other one is lost once the queue is full.
        came = self.arrivals(Line(rate=100_000, queue=50), 5000)
        self.assertEqual([at for at, _ in came[:2]], [10_000, 20_000])
        self.assertTrue(480 <= sum(at is None for at, _ in came) < 500)

    def test_a_line_takes_its_time(self) -> None:
        net, server, client, there, here = meet(5, Line(delay=40))
        late = []
        for _ in range(100):
            client.submit(here, 0, b"%d" % net.now, Delivery.UNSEQUENCED)
            net.pass_(10)
            late += [net.now - int(event.data) for event in server.events() if isinstance(event, Receive)]
        self.assertEqual(late, [40] * 97)

    def test_an_outage(self) -> None:
        net, server, client, there, here = meet()
        net.outage(client, 2000)
        client.submit(here, 0, b"x")
        net.pass_(1900)
        self.assertEqual(list(server.events()), [])
        net.pass_(3000)
        self.assertEqual(len(list(server.events())), 1)
        net.outage(server, 60_000)
        client.submit(here, 0, b"x")
        net.pass_(60_000)
        self.assertEqual([type(event) for event in client.events()], [Disconnect])

    def test_a_capture_has_each_datagram(self) -> None:
        capture, _, _ = conversation(7, Line(delay=25))
        packets = packets_of(capture)
        self.assertEqual(struct.unpack_from("<IHH", capture), (0xA1B2C3D4, 2, 4))
        self.assertGreater(len(packets), 30)
        self.assertEqual([at for at, _ in packets], sorted(at for at, _ in packets))
        for _, packet in packets:
            self.assertEqual((packet[0], packet[9], int.from_bytes(packet[2:4], "big")), (0x45, 17, len(packet)))
            total = sum(struct.unpack(">10H", packet[:20]))
            self.assertEqual((total & 0xFFFF) + (total >> 16), 0xFFFF)
            self.assertEqual({packet[12:16], packet[16:20]}, {b"\x0a\0\0\1", b"\x0a\0\0\2"})

    def test_hosts_by_address(self) -> None:
        net, server, client, there, here = meet()
        self.assertIs(net.host_at(net.address(server)), server)
        self.assertIsNone(net.host_at(("10.9.9.9", 7777)))
        self.assertRaises(ValueError, lambda: net.address(Host(Config.standard(1, 1))))


class Endpoints(unittest.TestCase):
    def talk(self, server: Endpoint, loss: float, delay: int, packets: int) -> float:
        begun = time.monotonic()
        with server, Endpoint.client() as client:
            server.simulate(loss, delay)
            peer = client.connect(server.address, info=3)
            said: List[bytes] = []
            back: List[bytes] = []
            last: Dict[str, Event] = {}
            while "end" not in last and time.monotonic() < begun + 300:
                event = server.service(0)
                if isinstance(event, Receive):
                    server.submit(event.peer, event.channel, event.data, event.delivery)
                elif event is not None:
                    last["server"] = event
                event = client.service(0.001)
                if isinstance(event, Connect):
                    said = [b"packet %d" % i for i in range(packets)]
                    for data in said:
                        client.submit(peer, 1, data)
                elif isinstance(event, Receive):
                    back.append(event.data)
                    if len(back) == packets:
                        client.disconnect(peer, 7)
                elif isinstance(event, Disconnect):
                    last["end"] = event
            self.assertEqual(back, said)
            self.assertEqual(last["end"], Disconnect(peer, server.address, 0))
            self.assertEqual(last["server"].address.port, client.address.port)
        return time.monotonic() - begun

    def test_over_a_line_that_loses_nothing(self) -> None:
        self.talk(Endpoint.server(("127.0.0.1", 0), 4), 0, 0, 300)

    def test_over_a_simulated_line(self) -> None:
        self.assertGreater(self.talk(Endpoint.server(("127.0.0.1", 0), 4), 0.1, 20, 50), 0.08)

    def test_a_record_can_be_replayed(self) -> None:
        with tempfile.TemporaryDirectory() as folder:
            path = os.path.join(folder, "record")
            with open(path, "wb") as file:
                server = Endpoint.record(("127.0.0.1", 0), Config(peers=8, channels=2, generations=ENDLESS), file)
                server.host.give_way()
                server.host.set_most(4)
                self.talk(server, 0, 0, 50)
                self.assertRaises(Error, lambda: Endpoint.record(("127.0.0.1", 0), Config.standard(0, 1), file))
            replayed = subprocess.run([REPLAY, path], stdout=subprocess.PIPE, stderr=subprocess.STDOUT)
            self.assertEqual(replayed.returncode, 0, replayed.stdout)

    def test_asyncio(self) -> None:
        async def serve(server: Endpoint) -> None:
            async for event in server.events():
                if isinstance(event, Receive):
                    server.submit(event.peer, event.channel, event.data)

        async def visit(client: Endpoint, at: Address) -> List[bytes]:
            peer, back = client.connect(at), []
            async for event in client.events():
                if isinstance(event, Connect):
                    for i in range(20):
                        client.submit(peer, 0, b"packet %d" % i)
                elif isinstance(event, Receive):
                    back.append(event.data)
                    if len(back) == 20:
                        client.disconnect(peer)
                else:
                    break
            return back

        async def both() -> List[bytes]:
            with Endpoint.server(("127.0.0.1", 0), 4) as server, Endpoint.client() as client:
                client.simulate(0.05, 5)
                task = asyncio.ensure_future(serve(server))
                back = await asyncio.wait_for(visit(client, server.address), 300)
                task.cancel()
                try:
                    await task
                except asyncio.CancelledError:
                    pass
                return back

        self.assertEqual(asyncio.run(both()), [b"packet %d" % i for i in range(20)])

    def test_words_are_drawn(self) -> None:
        with Endpoint(("127.0.0.1", 0), Config.standard(8, 1)) as client:
            words = {client.host.read_peer(client.connect(("127.0.0.1", 9), 1)).connect_id for _ in range(8)}
            self.assertEqual(len(words), 8)

    def test_a_service_waits(self) -> None:
        with Endpoint.client() as client:
            begun = time.monotonic()
            self.assertIsNone(client.service(0.2))
            self.assertTrue(0.2 <= time.monotonic() - begun < 60)
            self.assertRaises(ValueError, lambda: client.simulate(2, 0))

    def test_a_port_that_is_taken(self) -> None:
        with Endpoint.server(("127.0.0.1", 0)) as server:
            self.assertRaises(OSError, lambda: Endpoint.server(server.address))
            self.assertEqual(server.address, Address("127.0.0.1", server.address.port))


if __name__ == "__main__":
    unittest.main()
