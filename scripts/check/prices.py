#!/usr/bin/env python3
"""What calls of a host cost at most: `prices.py [-v] [--write] [PART..]`, for scripts/check/check-prices.sh.

It has `probe prices` (trials/probe/prices.rt.in) run rows under Callgrind, which counts the instructions of each, by measure/priced.c. A
row is a run of datagrams of one kind in the dearest form that is known, with what they bring about: the host's calls of `receive`,
`next_event` and `service`. bench/prices.txt has for each row the most that a datagram may take on average, in instructions, and the most
bytes that may be kept for a command. Beside that, unless its line there says `above`:

- a row takes 2,000 instructions for each of its datagrams and 1,000 for each of their bytes at most, together with the rows before it of
  which it goes on (`after`), so that a datagram that fills a hole may spend what those that are held have left over;
- one of a stranger, or of an address that isn't proved, takes at most 25,000 by itself;
- for a command at most 4 KiB and 8 bytes for each byte of its datagram are kept.

That the check sees a cost is tested, too: by a row that counts all commands under way for one datagram of two bytes. `-v` shows each row.
The counts are of the unproved program, which stops at each overflow: those of a proved one are lower. The last line is 'N passed, M
failed'; the status is 1 where one failed.
"""
import copy
import math
import os
import re
import subprocess
import sys
import tempfile

PEERS = 4095
LONG = 1392
MOST = 33554432
PROBE = "out/probe"
PRICES = "bench/prices.txt"
HEADERS = 28


def short(number):
    return f"{number % 65536:04x}"


def word(number):
    return f"{number:08x}"


def connect(number=0, channels=1, sessions="ffff"):
    """A CONNECT, with its header and a sent time; its connect id is the number."""
    text = f"8fff000082ff00010000{sessions}00000570000100000000{channels:04x}00000000000000000000138800000002"
    return f"{text}00000002{word(number)}00000007"


def ack(channel, number, sent=0):
    return f"01{channel:02x}{short(number)}{short(number)}{short(sent)}"


def ping(number):
    return f"85ff{short(number)}"


def reliable(channel, number, payload=0):
    return f"86{channel:02x}{short(number)}{short(payload)}" + "00" * payload


def unreliable(channel, number, own, payload=0):
    return f"07{channel:02x}{short(number)}{short(own)}{short(payload)}" + "00" * payload


def unsequenced(channel, group, payload=0):
    return f"49{channel:02x}0000{short(group)}{short(payload)}" + "00" * payload


def piece(channel, first, place, count, length, total=None, offset=None):
    """A piece of a reliable packet, all of whose pieces but the last have so many bytes."""
    total = length * count if total is None else total
    offset = length * place if offset is None else offset
    own = min(length, total - offset)
    return f"88{channel:02x}{short(first + place)}{short(first)}{short(own)}{word(count)}{word(place)}{word(total)}{word(offset)}+{own}"


def unreliable_piece(channel, number, own, place, count, length, total=None):
    total = length * count if total is None else total
    size = min(length, total - length * place)
    return f"0c{channel:02x}{short(number)}{short(own)}{short(size)}{word(count)}{word(place)}{word(total)}{word(length * place)}+{size}"


def last_of_32_mib(channel, number, own):
    """The last of 16,377 pieces of an unreliable packet of 32 MiB, of eight bytes."""
    return f"0c{channel:02x}{short(number)}{short(own)}{short(8)}{word(16377)}{word(16376)}{word(MOST)}{word(MOST - 8)}" + "00" * 8


class Script:
    """The script of `probe prices`, and what its rows are."""

    def __init__(self):
        self.lines = []
        self.rows = []

    def do(self, *lines):
        self.lines.extend(lines)

    def open(self, peers, channels, waiting=MOST, secret=1):
        self.do(f"open {peers} {channels} {MOST} {waiting} {secret}")

    def send(self, *commands):
        """Each of these is a datagram of the client."""
        self.do(*(f"to {command}" for command in commands))

    def pack(self, commands, most=LONG):
        """The client sends these in as few datagrams as hold them."""
        text = ""
        for command in commands:
            if text and 4 + (len(text) + len(command)) // 2 > most:
                self.send(text)
                text = ""
            text += command
        self.send(text)

    def row(self, name, when="each", kind="peer", after=()):
        self.rows.append((name, kind, after))
        self.do(f"row {name} {when}")

    def call(self, line, name, kind="call", *rest):
        self.rows.append((name, kind, ()))
        self.do(" ".join([line, name, *map(str, rest)]))


def strangers(script):
    script.open(PEERS, 1)
    script.do(f"join {PEERS} 1", "at 5000", *["raw +0"] * 100)
    script.row("empty", kind="stranger")
    script.do(*["raw 0fff+4094"] * 20)
    script.row("longest", kind="stranger")
    script.do(*["raw 8ffe000085ff0002"] * 100)
    script.row("other-address", kind="stranger")
    script.do("from 4094", *[f"raw {head}ffe0000" for head in "89ab"] * 25)
    script.row("other-session")
    script.do(*["raw " + connect(1, 0)] * 100)
    script.row("connect-refused", kind="stranger")
    for number in range(300):
        script.do(f"at {5000 + number}", "raw " + connect(5000 + number))
    script.row("connect-full", kind="stranger")
    for number in range(300):
        script.do(f"at {number}", "raw " + connect(number))
    script.row("connect-again", kind="stranger")
    for number in range(PEERS):
        script.do(f"from {number}", "to " + ping(1))
    script.do("play never")
    for number in range(5):
        script.do(f"at {6000 + number}", "raw " + connect(6000 + number))
    script.row("connect-while-all-talk", "never", kind="stranger")


def crowded(script):
    script.open(PEERS, 1)
    script.do(f"ask {PEERS} 1 1", "at 0", *["raw " + connect(5000 + number) for number in range(5)])
    script.row("connect-of-one-place", kind="stranger")
    script.open(PEERS, 1)
    script.do(f"ask {PEERS - 1} 1 0", "at 4500", "raw " + connect(4500))
    script.row("connect-last-slot", kind="stranger")
    script.open(PEERS, 1)
    script.do("tick 1", "play last")
    for number in range(400):
        script.do(f"at {number}", "raw " + connect(number))
    script.row("connects-at-once", "never", kind="stranger")


def newcomers(script):
    script.open(1, 255)
    script.do("at 0", "raw " + connect(1, 255))
    script.row("connect-255-channels", kind="stranger")
    script.open(1, 1)
    script.do("at 0", "raw 0fff" + connect()[8:])
    script.row("connect-answered", kind="stranger")
    script.call("waits", "answers", "wait", 8000)
    script.rows[-1] = ("answers", "wait", ("connect-answered",))
    script.open(1, 255, secret=0)
    for number in range(20):
        session = number % 4
        script.do("at 0", "raw " + connect(number, 255, f"{session:02x}" * 2), f"raw {8 + (session + 1) % 4:x}000000044ff000000000000")
    script.row("connect-and-leave", kind="unproved")


def half_open(script):
    script.open(1, 255)
    script.do("ask 1 255 0", "from 0")
    script.pack([ack(0xFF, number, number) for number in range(173)])
    script.row("half-open-acks", kind="unproved")
    script.pack([ack(0xFF, number, number) for number in range(511)], 4096)
    script.row("half-open-acks-long", kind="unproved")
    script.do(*["to " + reliable(0, 1) * 200] * 10)
    script.row("half-open-data", kind="unproved")
    script.do("confirm")
    script.row("confirm-255-channels", kind="unproved")


def short_of_room(script):
    """Half-open clients of a host with a limit of how many may be connected, which isn't reached first, and is reached then."""
    for name, limit, joined in (("below", PEERS, 0), ("full", 1, 1)):
        script.open(PEERS, 1, secret=0)
        script.do(f"most {limit}", f"join {joined} 1", f"ask {PEERS - joined} 1 0")
        for number in range(100, 200):
            script.do(f"from {number}", f"raw {short(number)}")
        script.row(f"half-open-empty-{name}", kind="unproved")
        script.do("from 200")
        script.pack([ack(0xFF, number, number) for number in range(173)])
        script.row(f"half-open-acks-{name}", kind="unproved")
        script.do("confirm")
        script.row(f"confirm-{name}", kind="unproved")
    script.send(*[ping(number) for number in range(2, 22)])
    script.row("refused-again", kind="unproved")


def give_way(script):
    """CONNECTs that find no free slot, where a half-open client gives way, or where none of 4,095 that have connected does."""
    for name, channels in (("", 1), ("-255-channels", 255)):
        script.open(PEERS, channels)
        script.do("give-way", f"ask 100 {channels} 0", f"ask {PEERS - 100} 1 0", "tick 1")
        for number in range(50):
            script.do(f"at {5000 + number}", "raw " + connect(5000 + number, channels))
        script.row(f"connect-gives-way{name}", kind="stranger")
    script.open(PEERS, 1)
    script.do("give-way", f"ask {PEERS} 1 0", "tick 1")
    for number in range(400):
        script.do(f"at {5000 + number}", "raw " + connect(5000 + number))
    script.row("connects-give-way-at-once", "never", kind="stranger")
    script.open(PEERS, 1)
    script.do("give-way", f"join {PEERS} 1", "tick 1", "at 5000", "raw " + connect(5000))
    script.row("connect-none-gives-way", kind="stranger")
    script.do("at 5001", "raw " + connect(5001))
    script.row("connect-none-gives-way-again", kind="stranger")


def in_order(script):
    script.open(1, 2, secret=0)
    script.do("join 1 2", "from 0")
    script.pack([ping(number) for number in range(2, 3472)])
    script.row("pings")
    script.pack([reliable(0, number) for number in range(1, 2311)])
    script.row("reliable")
    script.send(*[reliable(0, number) for number in range(2311, 2811)])
    script.row("reliable-one-by-one")
    script.send(*[reliable(0, number) for number in range(1, 501)])
    script.row("reliable-repeated")
    script.pack([unreliable(0, 2810, number) for number in range(1, 1731)])
    script.row("unreliable")
    script.pack([unsequenced(0, number) for number in range(1, 1731)])
    script.row("unsequenced")
    script.pack([unsequenced(0, number * 1024 + 2048) for number in range(1730)])
    script.row("unsequenced-far-apart")
    script.pack([f"8aff{short(number)}{word(number)}{word(7 * number)}" for number in range(1150)])
    script.row("bandwidth-limits")
    script.pack([f"8bff{short(number)}{word(5000)}{word(number)}{word(2)}" for number in range(860)])
    script.row("throttle-configures")
    script.send(*["83ff0001" + "00" * 40] * 20)
    script.row("verify-connects")


def held(script):
    for name, numbers in (("up", range(2, 8002)), ("down", range(1001, 1, -1))):
        script.open(1, 1, secret=0)
        script.do("join 1 1", "from 0")
        script.send(*[reliable(0, number) for number in numbers])
        script.row(f"held-{name}")
        script.send(reliable(0, 1))
        script.row(f"hole-after-{name}", after=[f"held-{name}"])
    script.open(1, 1, secret=0)
    script.do("join 1 1", "from 0")
    script.pack([reliable(0, number) for number in range(2, 1002)])
    script.row("held-packed")
    script.send(f"84ff0002{word(0)}")
    script.row("disconnect-with-held", "never", after=["held-packed"])
    script.pack([f"84ff{short(number)}{word(0)}" for number in range(3, 1153)])
    script.row("disconnect-again", "last")
    script.open(1, 1, secret=0)
    script.do("join 1 1", "from 0")
    for number in range(1, 501):
        script.send(unreliable(0, number, 1))
    script.row("lines")
    script.send(*[reliable(0, number) for number in range(1, 501)])
    script.row("lines-released", after=["lines"])
    script.send(*[unreliable(0, 501, number) for number in range(1000, 0, -1)])
    script.row("line")
    script.send(reliable(0, 501))
    script.row("line-released", after=["line"])


def kept(script):
    for name, text in (
        ("reliable", reliable(0, 5000)),
        ("unreliable", unreliable(0, 5000, 1)),
        ("last-piece", piece(0, 4096, 16383, 16384, 512, 16383 * 512 + 1)),
        ("last-unreliable-piece", unreliable_piece(0, 5000, 1, 16383, 16384, 512, 16383 * 512 + 1)),
    ):
        script.open(1, 1, secret=0)
        script.do("join 1 1", "from 0")
        script.send(text)
        script.row(f"kept-{name}")
    script.open(1, 255, secret=0)
    script.do("join 1 255", "from 0")
    script.pack([reliable(channel, number) for channel in range(255) for number in range(5, 28000, 4096)])
    script.row("kept-far-apart")


def pieces(script):
    count = 1024
    for name, places in (("up", range(count)), ("down", range(count - 1, -1, -1))):
        script.open(1, 1, secret=0)
        script.do("join 1 1", "from 0")
        script.send(*[piece(0, 1, place, count, 512) for place in places])
        script.row(f"pieces-{name}")
    script.open(1, 1, secret=0)
    script.do("join 1 1", "from 0")
    script.send(*[piece(0, 1, 0, count, 512)] * 200)
    script.row("pieces-repeated")
    script.pack([piece(0, 1 + number, 0, 1, 0).split("+")[0] for number in range(580)])
    script.row("pieces-alone")
    script.pack([unreliable_piece(0, number, 1, 16383, 16384, 512, 16383 * 512 + 1).replace("+1", "00") for number in range(600, 1150)])
    script.row("last-pieces")


def full(script):
    script.open(1, 255, secret=0)
    script.do("join 1 255", "from 0")
    script.pack([last_of_32_mib(number % 255, 5, number) for number in range(86)])
    script.row("gives-way-pieces")
    script.open(1, 255, waiting=1, secret=0)
    script.do("join 1 255", "from 0")
    script.pack([unreliable(number % 255, 5, number, 1) for number in range(154)])
    script.row("gives-way")
    script.send(reliable(0, 2, 1))
    script.do("play each")
    script.send(*[reliable(254, 3)] * 50)
    script.row("full")


def full_of_channels(script):
    """The same where something was kept on each of the 255 channels before, so that all of them were made."""
    bytes_of_one = [unreliable(channel, 5, 1000, 1) for channel in range(154)]
    last_pieces = [last_of_32_mib(channel, 6, 1000) for channel in range(86)]
    for name, waiting, commands in (("gives-way-all-made", 1, bytes_of_one), ("gives-way-pieces-all-made", MOST, last_pieces)):
        script.open(1, 255, waiting=waiting, secret=0)
        script.do("join 1 255", "from 0")
        script.pack([unreliable(channel, 5, channel, 1) for channel in range(255)])
        script.do("play each")
        script.pack(commands)
        script.row(name)


def acknowledged(script):
    orders = {"oldest": range(1, 2001), "newest": range(2000, 0, -1), "mixed": [number * 997 % 2003 for number in range(1, 2003)]}
    for name, numbers in orders.items():
        script.open(1, 1, secret=0)
        script.do("join 1 1", "from 0", "submit 0 0 1 1 2000", "play last")
        script.pack([ack(0, number) for number in numbers])
        script.row(f"acks-{name}")
    script.open(1, 255, secret=0)
    script.do("join 1 255", "from 0", *[f"submit 0 {channel} 1 1 7" for channel in range(255)], "play last")
    script.pack([ack(number % 255, 999, 999) for number in range(1730)])
    script.row("acks-of-nothing")
    script.send(*[ack(channel, 1 + number) for channel in range(255) for number in range(6)])
    script.row("acks-255-channels")
    script.do("leave 0")
    script.send(*[ack(channel, 7) for channel in range(255)])
    script.row("acks-while-leaving")


def many_channels(script):
    script.open(PEERS, 255, secret=0)
    script.do("join 1 255", "from 0", *[f"submit 0 {channel} 1 1 1" for channel in range(255)], "play last", "tick 1", "play last")
    script.do(*["raw 0000"] * 200)
    script.row("header-255-channels-sent")
    script.open(1, 255, secret=0)
    script.do("join 1 255", "from 0", "submit 0 0 1 1300 60", *[f"submit 0 {channel} 1 1300 1" for channel in range(1, 255)], "play last")
    script.send(*[ping(number) for number in range(2, 52)])
    script.row("pings-255-channels-wait")
    script.do(*["raw 0000"] * 50)
    script.row("header-255-channels-wait")
    script.open(1, 255, secret=0)
    script.do("join 1 255", "from 0", "submit 0 0 1 1300 60", *[f"submit 0 {channel} 0 1300 1" for channel in range(1, 255)], "play last")
    script.send(*[ping(number) for number in range(2, 52)])
    script.row("pings-254-unreliable")


def much_waits(script):
    """What the host is asked behind anyone's datagram while clients wait for room, and a DISCONNECT of one for whom much waits."""
    for name, peers, channels in (("255-channels-wait", 1, 255), ("1000-wait", 1000, 1)):
        script.open(peers, channels, secret=0)
        script.do(f"join {peers} {channels}", *[f"submit {peer} 0 1 1300 60" for peer in range(peers)])
        script.do(*[f"submit 0 {channel} 1 1300 1" for channel in range(1, channels)], "play last", "at 5000", *["raw +0"] * 50)
        script.row(f"empty-while-{name}", kind="stranger")
    for name, flags, size in (("", 1, 1), ("-long", 0, 5000)):
        script.open(1, 255, secret=0)
        script.do("join 1 255", "from 0", *[f"submit 0 {channel} {flags} {size} 40" for channel in range(255)], "play last")
        script.send(f"84ff1000{word(0)}")
        script.row(f"disconnect-with-waiting{name}")


def crowds(script):
    script.open(PEERS, 1, secret=0)
    script.do(f"join {PEERS} 1")
    for number in range(PEERS):
        script.do(f"from {number}", "to " + ping(2))
    script.row("pings-of-all", "last")
    for number in range(PEERS):
        script.do(f"from {number}", "to " + ping(3))
    script.row("pings-of-all-each", "each")
    script.open(200, 1, secret=0)
    script.do("join 200 1")
    for again in range(5):
        for number in range(200):
            script.do(f"from {number}", "to " + ping(2 + again))
        script.do("play each")
    for number in range(200):
        script.do(f"from {number}", "to " + ping(7))
    script.row("pings-of-200-again", "each")
    script.open(PEERS, 1, secret=0)
    script.do(f"join {PEERS - 5} 1", "from 0")
    script.send(*[ping(2 + number) for number in range(4 * PEERS)])
    script.do("play each")
    for number in range(1, PEERS - 5):
        script.do(f"from {number}", "to " + ping(2))
    script.do("play last")
    for number in range(5):
        script.do(f"at {6000 + number}", "raw " + connect(6000 + number))
    script.row("connect-after-all-talked", kind="stranger")


def small_hosts(script):
    """What hosts of up to 64 slots are asked behind each datagram once their clients sent more than four in a millisecond: all slots stay awake."""
    for slots in (32, 64):
        script.open(slots, 1, secret=0)
        script.do(f"join {slots - 5} 1")
        for again in range(8):
            for number in range(slots - 5):
                script.do(f"from {number}", "to " + ping(2 + again))
            script.do("play each")
        for number in range(slots - 5):
            script.do(f"from {number}", "to " + ping(10))
        script.row(f"pings-of-{slots}-again")
        script.do("at 5000", *["raw +0"] * 50)
        script.row(f"empty-at-{slots}-again", kind="stranger")
        script.do(*[line for number in range(3) for line in (f"at {6000 + number}", "raw " + connect(6000 + number))])
        script.row(f"connect-at-{slots}-again", kind="stranger")


def of_address(script):
    """CONNECTs of an address with 1,000 of 4,095 slots, where it may have 8 (half-open clients, or connected ones), and where it may have all."""
    limited(script, 1000, "its-address")


def of_many_addresses(script):
    """The same where each address has 8 of 4,095 slots at most."""
    limited(script, 8, "its-eight")
    script.do("share 1000")


def limited(script, sharing, name):
    script.open(PEERS, 1)
    script.do(f"share {sharing}", f"ask {PEERS} 1 0", "tick 1", "of-address 8")
    for number in range(50):
        script.do(f"at {number}", "raw " + connect(5000 + number))
    script.row("connect-beyond-" + name, kind="stranger")
    script.open(PEERS, 1)
    script.do(f"join {PEERS} 1", "of-address 8", "at 0", "raw " + connect(5000))
    script.row("connect-stopped-by-" + name, kind="stranger")
    script.open(PEERS, 1)
    script.do(f"of-address {PEERS}", f"ask {PEERS - 50} 1 0")
    for number in range(50):
        script.do(f"at {number}", "raw " + connect(5000 + number))
    script.row("connect-below-" + name, kind="stranger")


def ended(script):
    script.open(1, 1, secret=0)
    script.do("join 1 1", "from 0", "to 44ff000000000000", "play never")
    script.send(*[ping(number) for number in range(2, 202)])
    script.row("ended", "never")


def bandwidths(script):
    for count in (500, 1000):
        script.open(1, 1, secret=0)
        script.do("join 1 1", "from 0")
        script.call("bandwidth", f"set-bandwidth-{count}", "call", count)
        script.do(*["raw 0000"] * 20)
        script.row(f"header-after-{count}")


def look(script):
    script.open(PEERS, 1, secret=0)
    script.do(f"join {PEERS} 1", *[f"submit {number} 0 1 1 1" for number in range(PEERS)], "play last")
    script.call("look", "look")
    script.open(400, 255, secret=0)
    script.do("join 400 255", *[f"submit {number} 254 1 1 1" for number in range(400)], "play last")
    script.call("look", "look-255-channels")


ALL = [strangers, crowded, newcomers, half_open, short_of_room, give_way, in_order, held, kept, pieces, full, full_of_channels]
ALL += [acknowledged, many_channels, much_waits, crowds, small_hosts, of_many_addresses, of_address, ended, bandwidths, look]


def written(chosen):
    """The script, and its rows."""
    script = Script()
    script.do("nothing nothing")
    for part in ALL:
        if not chosen or part.__name__ in chosen:
            part(script)
    return script


def run(script, room):
    """What the probe told of each row: its name, its numbers, the instructions, and the bytes that were kept."""
    priced = os.path.join(room, "priced.so")
    subprocess.run(["cc", "-O2", "-shared", "-fPIC", "-o", priced, "measure/priced.c"], check=True)
    with open(f"{room}/script", "w", encoding="ascii") as file:
        file.write("\n".join(script.lines) + "\n")
    environment = {"PRICED": f"{room}/kept", "LD_PRELOAD": priced, "PATH": os.environ["PATH"]}
    environment["GLIBC_TUNABLES"] = "glibc.malloc.tcache_count=0"
    words = ["valgrind", "--tool=callgrind", "--instr-atstart=no", f"--callgrind-out-file={room}/counted", PROBE, "prices"]
    with open(f"{room}/script", encoding="ascii") as file:
        done = subprocess.run(words, stdin=file, env=environment, capture_output=True, text=True, check=False)
    if done.returncode != 0:
        sys.exit(f"{done.stdout[-400:]}{done.stderr[-800:]}")
    told = [line.split() for line in done.stdout.splitlines()]
    with open(f"{room}/kept", encoding="ascii") as file:
        kept_bytes = [int(line) for line in file]
    rows = []
    for place, (name, *numbers) in enumerate(told):
        with open(f"{room}/counted.{place + 1}", encoding="utf-8", errors="replace") as file:
            count = int(re.search(r"^totals: (\d+)", file.read(), re.MULTILINE).group(1))
        rows.append((name, [int(number) for number in numbers], count, kept_bytes[place]))
    return rows


class Row:
    """A row with what it took."""

    def __init__(self, told, declared, base):
        self.name, (self.came, self.came_bytes, self.handled, self.events, self.went, self.went_bytes), count, self.kept = told
        _, self.kind, self.after = declared
        if self.kind == "call":
            self.came = self.came_bytes = 0
        self.count = count - base

    def each(self):
        """The instructions for each datagram, or for the whole row where none came."""
        return self.count / max(self.came, 1)

    def kept_each(self):
        """The bytes that were kept for each command."""
        return max(self.kept, 0) / max(self.handled, 1)


def faults_by_rules(row, before):
    """What a row takes above what any may, with the rows before it of which it goes on."""
    rows = [row, *before]
    count, came, came_bytes = (sum(getattr(each, part) for each in rows) for part in ("count", "came", "came_bytes"))
    most = 2000 * came + 1000 * came_bytes
    if row.kind not in ("call", "wait") and count > most:  # what time alone brings isn't a datagram's
        yield f"{count} instructions for {came} datagrams of {came_bytes} bytes, above {most}"
    if row.kind in ("stranger", "unproved") and row.each() > 25000:
        yield f"{row.each():.0f} instructions for a datagram of an address that isn't proved, above 25000"
    if row.came and row.kept_each() > 4096 + 8 * row.came_bytes / max(row.handled, row.came):
        yield f"{row.kept_each():.0f} bytes kept for a command"
    went, sent = (sum(getattr(each, f"{way}_bytes") + HEADERS * getattr(each, way) for each in rows) for way in ("went", "came"))
    if row.kind in ("stranger", "unproved", "wait") and went > 3 * sent:
        yield f"{went} bytes went for {sent} of an address that isn't proved"


def rounded(number):
    """The number, rounded up to two figures."""
    number = math.ceil(number)
    unit = 10 ** max(len(str(number)) - 2, 0)
    return -(-number // unit) * unit


def known_prices(path):
    """For each row's name the most for a datagram, the most that is kept for a command, and whether these are above what any may take."""
    with open(path, encoding="utf-8") as file:
        lines = [line.split() for line in file if line.strip() and not line.startswith("#")]
    return {name: (int(each), int(kept), rest == ["above"]) for name, each, kept, *rest in lines}


def judged(row, before, price):
    """What is wrong with a row, and what is better than is written of it."""
    wrong = list(faults_by_rules(row, before))
    if price is None:
        return [*wrong, f"no price is written: {row.each():.0f} instructions for each, {row.kept_each():.0f} bytes kept"], []
    each, kept, is_above = price
    better = []
    if is_above and not wrong:
        better.append("it isn't above what it may take any more")
    if is_above:
        wrong = []
    if row.each() > each:
        wrong.append(f"{row.each():.0f} instructions for each, where {each} are written")
    if row.kept_each() > kept:
        wrong.append(f"{row.kept_each():.0f} bytes kept for a command, where {kept} are written")
    if rounded(row.each()) < 0.95 * each or rounded(row.kept_each()) < 0.95 * kept:
        better.append(f"{rounded(row.each())} and {rounded(row.kept_each())}, where {each} and {kept} are written: lower them")
    return wrong, better


def is_blind(rows):
    """Whether the rules find nothing wrong where a datagram of two bytes costs a look at all that is under way."""
    look = next(row for row in rows if row.name == "look")
    seeded = copy.copy(look)
    seeded.kind, seeded.came, seeded.came_bytes = "stranger", 1, 2
    return not list(faults_by_rules(seeded, []))


def tell(row):
    a_byte = row.count / row.came_bytes if row.came_bytes else 0
    print(
        f"{row.name:26} {row.came:5} of {row.came_bytes:7} bytes: {row.count:10} instructions, {row.each():9.0f} each, {a_byte:5.0f} a byte; "
        f"{row.handled} handled, {row.events} events, {row.went} went of {row.went_bytes} bytes, {row.kept_each():.0f} kept each"
    )


def write(rows, path):
    """The prices of these rows, in the place of those in the file. Its other lines stay."""
    counted = {row.name: f"{rounded(row.each())} {rounded(row.kept_each())}" for row in rows}
    with open(path, encoding="utf-8") as file:
        lines = file.read().splitlines()
    for place, line in enumerate(lines):
        name, *rest = line.split() or [""]
        if name in counted:
            lines[place] = " ".join([name, counted[name], *rest[2:]])
    with open(path, "w", encoding="utf-8") as file:
        file.write("\n".join(lines) + "\n")


def main(words):
    chosen = [word for word in words if not word.startswith("-")]
    script = written(chosen)
    with tempfile.TemporaryDirectory() as room:
        told = run(script, room)
    rows = [Row(each, declared, told[0][2]) for each, declared in zip(told[1:], script.rows)]
    if "--write" in words:
        write(rows, PRICES)
    prices, passed, failed = known_prices(PRICES), 0, 0
    by_name = {row.name: row for row in rows}
    for row in rows:
        if "-v" in words:
            tell(row)
        wrong, better = judged(row, [by_name[name] for name in row.after], prices.pop(row.name, None))
        for what in wrong:
            print(f"FAILED {row.name}: {what}")
        for what in better:
            print(f"{row.name}: {what}")
        passed, failed = passed + (not wrong), failed + bool(wrong)
    if not chosen:
        for name in prices:
            print(f"FAILED {name}: there is no such row")
            failed += 1
        is_unseen = is_blind(rows)
        if is_unseen:
            print("FAILED seeded: a cost that is far too high isn't seen")
        passed, failed = passed + (not is_unseen), failed + is_unseen
    print(f"{passed} passed, {failed} failed")
    return failed > 0


sys.exit(main(sys.argv[1:]))
