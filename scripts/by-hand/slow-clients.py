#!/usr/bin/env python3
"""Measures what slow, silent and loud clients cost a server: `slow-clients.py [--seconds N] [--unsent N,N..] [PROGRAM] [ROW..]`.

Each row runs for N seconds (60) at 127.0.0.1, once for each `--max-unsent`: 16777216, 4194304, and 1073741824, which is as good as none.
It has its own server, PROGRAM (the built `enet_relay`), a talker, and clients of one kind that hear it. *Silent* ones acknowledge nothing.
*Trickling* ones acknowledge one packet a second, pings, and the end of their connection. *Late* ones acknowledge all, 100 ms late. Two
honest clients acknowledge at once. Ten times a second one of them asks the other, by a reliable packet of 12 bytes, and gets another back.

- `calm`: the talker is silent, and no other clients are there.
- `loud`: 200 are silent. The talker sends 3,460 empty unsequenced packets on channel 0, once: 20 datagrams, 27,760 bytes.
- `bytes`: 31 are silent. The talker sends 3,960 reliable packets of a byte each second, in 20 datagrams: 27,800 bytes.
- `slow`: one trickles. The talker sends 2 MB a second in reliable packets of 1,300 bytes.
- `slow-fast`: the same with 7.8 MB a second.
- `late`: one is late. The talker sends 2 MB a second, as in `slow`.
- `empty`: 31 trickle. The talker sends 3,460 empty unsequenced packets on channel 0 each second: 27,760 bytes.

The table shows the server's resident memory in MB (at the start, greatest, at the end); the most that waited for one client, in MB
(`enet_queued_bytes_most`); how long an answer took, in ms (median, 99th percentile, greatest), and how many of the questions were answered;
the server's processor seconds; what the talker sent, in MB; and who was ended, how, in which second, and with which number. A row ends
early if its server takes 3 GB. Trips include the delays of these processes. The clients are made by check-hostile-server.py.
"""
import argparse
import collections
import importlib.util
import itertools
import multiprocessing
import os
import re
import select
import socket
import struct
import time
import urllib.request

HERE = os.path.dirname(os.path.abspath(__file__))
MB = 1_000_000
MOST_MEMORY = 3000 * MB
ASK, ANSWER = b"ask:", b"say:"
END = re.compile(r"(too slow|disconnect) (\d+)\.\d+ at \S+ info (\d+)(?:: (.*))?")


def load_clients():
    """Returns the module that has the server and the clients."""
    path = os.path.join(HERE, "..", "check", "check-hostile-server.py")
    spec = importlib.util.spec_from_file_location("hostile", path)
    module = importlib.util.module_from_spec(spec)
    spec.loader.exec_module(module)
    return module


hostile = load_clients()


class Honest:
    """A client as games have it: it acknowledges all that arrives, and resends what isn't acknowledged within 0.3 seconds."""

    role = "honest"
    delay = 0.0

    def __init__(self, server):
        self.client = hostile.Client(server)
        self.socket = self.client.socket
        self.socket.setsockopt(socket.SOL_SOCKET, socket.SO_RCVBUF, 1 << 22)
        self.socket.setblocking(False)
        self.number = 0
        self.unacknowledged = {}  # the last send and the command, by number
        self.answers = collections.deque()  # acknowledgements, with the time when each is due
        self.word = None  # the number with which the server ended the connection

    def datagrams(self):
        """Returns the sent time and the commands of each datagram that arrived."""
        while True:
            try:
                datagram = self.socket.recv(4096)
            except (BlockingIOError, ConnectionRefusedError):
                return
            sent = struct.unpack_from(">H", datagram, 2)[0] if datagram[0] & 0x80 else 0
            yield sent, list(hostile.commands(datagram))

    def say(self, *bodies):
        """Sends these reliably on channel 0, in one datagram. Returns its length in bytes."""
        now, sent = time.monotonic(), []
        for body in bodies:
            self.number = self.number + 1 & 0xFFFF
            sent.append(hostile.reliable(0, self.number, body))
            self.unacknowledged[self.number] = (now, sent[-1])
        self.client.send(*sent)
        return 4 + sum(map(len, sent))

    def resend(self):
        """Resends what is due of the 64 oldest packets."""
        now = time.monotonic()
        for number, (sent, command) in list(itertools.islice(self.unacknowledged.items(), 64)):
            if now > sent + 0.3:
                self.client.send(command)
                self.unacknowledged[number] = (now, command)

    def heard(self):
        """Returns the bodies of the reliable packets that arrived. Their acknowledgements are due after the delay."""
        bodies = []
        for sent, commands in self.datagrams():
            for kind, command in commands:
                if command[0] & 0x80:
                    answer = hostile.acknowledge(command[1], struct.unpack_from(">H", command, 2)[0], sent)
                    self.answers.append((time.monotonic() + self.delay, answer))
                if kind == 1 and command[1] == 0:
                    self.unacknowledged.pop(struct.unpack_from(">H", command, 4)[0], None)
                elif kind == 4:
                    self.word = struct.unpack_from(">I", command, 4)[0]
                elif kind == 6:
                    bodies.append(command[6:])
        return bodies

    def acknowledge(self):
        """Sends the acknowledgements that are due."""
        now, due = time.monotonic(), []
        while self.answers and self.answers[0][0] <= now:
            due.append(self.answers.popleft()[1])
        for at in range(0, len(due), 160):
            self.client.send(*due[at : at + 160])

    def tend(self):
        """Reads what arrived and sends what is due. Returns the bodies that arrived."""
        bodies = self.heard()
        self.acknowledge()
        self.resend()
        return bodies


class Late(Honest):
    """A client that sends each acknowledgement 100 ms late."""

    role = "late"
    delay = 0.1


class Silent(Honest):
    """A client that says nothing once it is connected."""

    role = "silent"

    def tend(self):
        return []


class Trickling(Honest):
    """A client that acknowledges one packet a second, pings, and its own end."""

    role = "trickling"

    def __init__(self, server):
        super().__init__(server)
        self.due = 0.0
        self.done = set()
        self.waiting = {}

    def tend(self):
        if time.monotonic() < self.due:
            return []
        self.due = time.monotonic() + 1
        answers = []
        for sent, commands in self.datagrams():
            for kind, command in commands:
                number = struct.unpack_from(">H", command, 2)[0]
                if kind == 4:
                    self.word = struct.unpack_from(">I", command, 4)[0]
                if command[0] & 0x80 and command[1] == 0xFF:
                    answers.append((0xFF, number, sent))
                elif command[0] & 0x80 and number not in self.done:
                    self.waiting[number] = sent
        for number in list(self.waiting)[:1]:
            self.done.add(number)
            answers.append((0, number, self.waiting.pop(number)))
        if answers:
            self.client.send(*[hostile.acknowledge(*answer) for answer in answers[-160:]])
        return []


def say_empty(talker):
    """Sends a datagram of 173 empty unsequenced packets. Returns its length in bytes."""
    sent = []
    for _ in range(173):
        talker.number = talker.number + 1 & 0xFFFF
        sent.append(hostile.head(0x49, 0, 0) + struct.pack(">HH", talker.number, 0))
    talker.client.send(*sent)
    return 4 + sum(map(len, sent))


def say_bytes(talker):
    """Sends a datagram of 198 reliable packets of a byte. Returns its length in bytes."""
    return talker.say(*[b"x"] * 198)


def say_long(talker):
    """Sends a reliable packet of 1,300 bytes. Returns its datagram's length in bytes."""
    return talker.say(bytes(1300))


# How many clients hear the talker, and their kind; what sends a datagram of the talker, how many a second, and the most in all.
Row = collections.namedtuple("Row", "count kind datagram rate most")
ROWS = {
    "calm": Row(0, Silent, say_long, 0, 0),
    "loud": Row(200, Silent, say_empty, 1_000_000, 20),
    "bytes": Row(31, Silent, say_bytes, 20, 1 << 30),
    "slow": Row(1, Trickling, say_long, 2 * MB / 1300, 1 << 30),
    "slow-fast": Row(1, Trickling, say_long, 7.8 * MB / 1300, 1 << 30),
    "late": Row(1, Late, say_long, 2 * MB / 1300, 1 << 30),
    "empty": Row(31, Trickling, say_empty, 20, 1 << 30),
}


def disturb(row, talker, crowd, until, report):
    """Lets the talker speak to the crowd until then. Reports the bytes sent, and the numbers of ended connections."""
    begun, count, size = time.monotonic(), 0, 0
    while (now := time.monotonic()) < until:
        due = min((now - begun) * row.rate, row.most)
        while count < due and len(talker.unacknowledged) < 8000 and talker.word is None:
            size += row.datagram(talker)
            count += 1
            if count % 32 == 0:
                break
        for client in [talker, *crowd]:
            client.tend()
        time.sleep(0.001)
    report.send((size, [client.word for client in [talker, *crowd] if client.word is not None]))


def ask_and_answer(asker, answerer, until, report):
    """Lets one ask and the other answer until then. Reports the milliseconds of each trip, the questions, and numbers as `disturb`."""
    begun, asked, trips, known = time.monotonic(), 0, [], set()
    while (now := time.monotonic()) < until:
        if now > begun + asked / 10 and now < until - 1:
            asker.say(ASK + struct.pack(">d", now))
            asked += 1
        select.select([asker.socket, answerer.socket], [], [], 0.01)
        for body in answerer.tend():
            if body[:4] == ASK and body not in known:
                known.add(body)
                answerer.say(ANSWER + body[4:])
        for body in asker.tend():
            if body[:4] == ANSWER and body not in known:
                known.add(body)
                trips.append(1000 * (time.monotonic() - struct.unpack(">d", body[4:])[0]))
    report.send((sorted(trips), asked, [client.word for client in (asker, answerer) if client.word is not None]))


def processor(process):
    """Returns the processor seconds that a process has taken."""
    with open(f"/proc/{process.pid}/stat", encoding="ascii") as file:
        fields = file.read().rsplit(")", 1)[1].split()
    return (int(fields[11]) + int(fields[12])) / os.sysconf("SC_CLK_TCK")


def most_queued(port):
    """Returns the bytes that wait for the client that has most; 0 if the server doesn't answer."""
    try:
        with urllib.request.urlopen(f"http://127.0.0.1:{port}/metrics", timeout=2) as page:
            return int(float(re.search(r"^enet_queued_bytes_most (\S+)", page.read().decode(), re.M)[1]))
    except (OSError, TypeError):
        return 0


def watch(server, port, until):
    """Returns the server's memory by quarter seconds, the most queued, and the log's lines with their seconds, until then or 3 GB."""
    os.set_blocking(server.process.stderr.fileno(), False)
    begun, memory, queued, lines, rest = time.monotonic(), [], 0, [], ""
    while (now := time.monotonic()) < until and (not memory or memory[-1] < MOST_MEMORY):
        memory.append(server.resident())
        rest += (server.process.stderr.read(1 << 20) or b"").decode()
        *whole, rest = rest.split("\n")
        lines += [(now - begun, line) for line in whole]
        if len(memory) % 4 == 1:
            queued = max(queued, most_queued(port))
        time.sleep(0.25)
    return memory, queued, lines


def ends(lines, roles):
    """Returns who was ended, how, and when, by the log. The second line of a client that was too slow is left out."""
    slow, groups = set(), {}
    for when, line in lines:
        if found := END.match(line):
            what, slot, word, why = found.groups()
            if what == "too slow":
                slow.add(slot)
                groups.setdefault((roles[slot], f"too slow {word}"), []).append(when)
            elif slot not in slow:
                groups.setdefault((roles[slot], why), []).append(when)
    return [f"{len(when)} {role} {why} at {when[0]:.1f} to {when[-1]:.1f}" for (role, why), when in groups.items()]


def at_share(numbers, share):
    """Returns the quantile of sorted numbers at this share."""
    return numbers[min(len(numbers) - 1, int(share * len(numbers)))] if numbers else float("nan")


def free_tcp_port():
    """Returns a TCP port that nobody has."""
    with socket.socket() as probe:
        probe.bind(("127.0.0.1", 0))
        return probe.getsockname()[1]


def started(work, *words):
    """Returns a process that does this, and the end of a pipe at which it reports."""
    ours, theirs = multiprocessing.Pipe(False)
    process = multiprocessing.Process(target=work, args=(*words, theirs), daemon=True)
    process.start()
    return process, ours


def result(process, pipe):
    """Returns what the process reports, or None if it doesn't within ten seconds."""
    report = pipe.recv() if pipe.poll(10) else None
    process.terminate()
    process.join()
    return report


def line_of(name, unsent, seconds):
    """Measures a row with this limit, and returns its line of the table."""
    row, port = ROWS[name], free_tcp_port()
    options = ["--max-unsent", str(unsent), "--log", "--metrics", f"127.0.0.1:{port}"]
    with hostile.Server(row.count + 3, *options) as server:
        asker, answerer, talker = [Honest(server) for _ in range(3)]
        crowd = [row.kind(server) for _ in range(row.count)]
        roles = {str(asker.client.peer): "asker", str(answerer.client.peer): "answerer", str(talker.client.peer): "talker"}
        roles |= {str(client.client.peer): client.role for client in crowd}
        until, before = time.monotonic() + seconds, processor(server.process)
        pair = started(ask_and_answer, asker, answerer, until)
        others = started(disturb, row, talker, crowd, until)
        memory, queued, lines = watch(server, port, until)
        spent = processor(server.process) - before
        trips, asked, words = result(*pair) or ([], 0, [])
        size, more = result(*others) or (0, [])
    ended = ends(lines, roles) + [f"{count} received {word}" for word, count in collections.Counter(words + more).items()]
    ended += [] if memory[-1] < MOST_MEMORY else ["row ended at 3 GB"]
    cells = [name, str(unsent), " ".join(f"{number / MB:.1f}" for number in (memory[0], max(memory), memory[-1])), f"{queued / MB:.1f}"]
    cells += [f"{at_share(trips, 0.5):.1f} {at_share(trips, 0.99):.1f} {at_share(trips, 1):.1f}, {len(trips)} of {asked}"]
    return [*cells, f"{spent:.1f}", f"{size / MB:.2f}", "; ".join(ended) or "nobody"]


def main():
    parser = argparse.ArgumentParser()
    parser.add_argument("--seconds", type=float, default=60)
    parser.add_argument("--unsent", default="16777216,4194304,1073741824")
    parser.add_argument("program", nargs="?", default=os.path.join(HERE, "..", "..", "crates", "enet_relay", "out", "enet_relay"))
    parser.add_argument("rows", nargs="*", metavar="ROW")
    words = parser.parse_args()
    hostile.program = os.path.abspath(words.program)
    print("| Row | --max-unsent | Memory | Queued | Trips: 50 %, 99 %, most | Processor | Sent | Ended |")
    print("|---|---|---|---|---|---|---|---|")
    for name, unsent in itertools.product(words.rows or ROWS, words.unsent.split(",")):
        print(f"| {' | '.join(line_of(name, int(unsent), words.seconds))} |", flush=True)


if __name__ == "__main__":
    main()
