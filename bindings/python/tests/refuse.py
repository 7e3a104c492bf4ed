"""refuse.py: a library that tests/refuse.c was linked into refuses one growth of memory after another, and each call that finds none raises E1,
and does what it should when it is made again. No block is left. Prints how many runs there were."""

from typing import Callable, List, TypeVar

from gofnjerta import ENDLESS, Config, Connect, Delivery, Disconnect, Error, Event, Host, Peer, Receive, Why
from gofnjerta._library import lib

T = TypeVar("T")
LEFT, RIGHT = ("10.0.0.1", 1001), ("10.0.0.2", 1002)
refusals: List[str] = []


def sure(call: Callable[[], T]) -> T:
    """Makes a call, and once more if there was no memory for it."""
    try:
        return call()
    except Error as error:
        assert error.number == Why.MEMORY and error.name == "E1 Memory", error
        assert not refusals, "one growth is refused, and two calls"
        refusals.append(str(call))
        return call()


def carry(source: Host, at: "tuple[str, int]", to: Host) -> None:
    while True:
        datagram = sure(source.transmit)
        if datagram is None:
            return
        sure(lambda data=datagram.data: to.receive(at, data))  # type: ignore[misc]


def next_of(host: Host, left: Host, right: Host) -> Event:
    for _ in range(6000):
        event = sure(host.next_event)
        if event is not None:
            return event
        carry(left, LEFT, right)
        carry(right, RIGHT, left)
        sure(lambda: left.tick(20))
        sure(lambda: right.tick(20))
    raise AssertionError("no event")


def talk(left: Host, right: Host, here: Peer, there: Peer) -> None:
    sure(lambda: left.set_bandwidth(0, 1_000_000))
    sure(lambda: left.set_ping_interval(here, 400))
    sure(lambda: left.set_timeout(here, 32, 5000, 30000))
    sure(lambda: left.throttle_configure(here, 5000, 2, 2))
    for reading in (left.read_totals, left.read_held, left.read_slots, left.read_sent_again, left.due_in):
        sure(reading)
    sure(lambda: left.read_peer(here))
    sure(lambda: left.read_allowance(here))
    sure(lambda: left.read_traffic(here))
    for length in (0, 1, 1364, 5000, 70000):
        body = bytes(i * 7 % 256 for i in range(length))
        sure(lambda: left.submit(here, 0, body))
        answers = sure(lambda: right.broadcast_each([there, Peer(3, 9)], 1, body))
        assert answers[1] == Why.NO_SUCH_PEER
        if answers[0] == Why.MEMORY:
            sure(lambda: right.broadcast([there], 1, body))
        event = next_of(right, left, right)
        assert isinstance(event, Receive) and event.data == body and event.address == LEFT, length
        event = next_of(left, left, right)
        assert isinstance(event, Receive) and event.data == body and event.channel == 1 and event.address == RIGHT, length
    sure(lambda: left.submit(here, 1, b"loose", Delivery.UNSEQUENCED))
    sure(lambda: left.submit(here, 0, b"behind"))
    while event != Receive(there, event.address, 0, Delivery.RELIABLE, b"behind"):
        event = next_of(right, left, right)
        assert isinstance(event, Receive) and event.data in (b"loose", b"behind")


def run() -> None:
    config = Config(peers=4, channels=2, generations=ENDLESS)
    left, right = sure(lambda: Host(config)), sure(lambda: Host(config))
    with left, right:
        sure(lambda: left.set_secret(bytes(range(32))))
        sure(right.give_way)
        sure(lambda: right.set_most(3))
        for way in (left.disconnect, left.disconnect_later, left.disconnect_now):
            here = sure(lambda: left.connect(RIGHT, 2, 77, 12345))
            event = next_of(left, left, right)
            assert event == Connect(here, event.address, 0) and event.address == RIGHT
            event = next_of(right, left, right)
            there = event.peer
            assert event == Connect(there, event.address, 77) and event.address == LEFT
            if way == left.disconnect:
                talk(left, right, here, there)
            sure(lambda: way(here, 5))
            event = next_of(right, left, right)
            assert event == Disconnect(there, event.address, 5) and event.address == LEFT
            if way != left.disconnect_now:
                event = next_of(left, left, right)
                assert event == Disconnect(here, event.address, 0) and event.address == RIGHT


def main() -> None:
    blocks, runs, raised = lib.refuse_blocks(), 0, 0
    while True:
        refusals.clear()
        lib.refuse_at(runs + 1)
        run()
        assert lib.refuse_blocks() == blocks, f"{lib.refuse_blocks() - blocks} blocks are left after run {runs}"
        raised += len(refusals)
        if lib.refuse_growths() <= runs:
            break
        runs += 1
    assert runs > 100 and raised > 20, (runs, raised)
    print(f"{runs} runs, {raised} of which had an E1")


if __name__ == "__main__":
    main()
