#!/usr/bin/env python3
"""fuzz-captures.py PROGRAM [SECONDS] [SEED]: damaged captures for `enet_relay inspect`, for so many seconds (3,600 unless told).

Each capture is made of libenet's datagrams in trials/captured, as classic pcap or pcapng, of Ethernet, raw IP, the loopback or Linux's
cooked packets, in either order of bytes. Then bytes are turned, left out, repeated or taken from another one, or lengths are set to odd
values. `inspect` reads each with and without `--timeline`. It must end by itself with the status 0, 1 or 2 and no word of the language's
own, within 20 seconds, in at most 64 times the capture's length and 64 MB of memory, and what it draws must be well-formed XML. Each
hundredth is made long by repetition, once to some 10 MB and once to 20 MB: the second may take at most three times the processor time, if it
is twice as long (damage may cut it). On a busy machine short times vary by more.

Prints a line for each capture that fails, which it keeps beside the seed in out/fuzz-captures, then how many were read, and the greatest of
those quotients. The status is 1 if one failed. It is run by hand: what it draws is random, and it looks at times.
"""
import glob
import os
import random
import resource
import struct
import subprocess
import sys
import time
import xml.etree.ElementTree

TOP = os.path.dirname(os.path.dirname(os.path.dirname(os.path.abspath(__file__))))
KEPT = f"{TOP}/out/fuzz-captures"
LINKS = {1: lambda ip: bytes(12) + b"\x08\x00" + ip, 101: lambda ip: ip, 0: lambda ip: b"\x02\0\0\0" + ip,
         113: lambda ip: bytes(14) + b"\x08\x00" + ip, 276: lambda ip: b"\x08\x00" + bytes(18) + ip}
ODD = [0, 1, 2, 3, 4, 7, 8, 0x7f, 0x80, 0xff, 0xffff, 0x10000, 0x7fffffff, 0x80000000, 0xffffffff]


def datagrams():
    """Returns the captured datagrams, each with whether the client sent it, file by file."""
    files = []
    for path in sorted(glob.glob(f"{TOP}/trials/captured/*.txt")):
        with open(path, encoding="utf-8") as it:
            lines = [line.split() for line in it if line[:3] in ("c2s", "s2c")]
        files.append([(words[0] == "c2s", bytes.fromhex(words[1])) for words in lines])
    return files


def ip_packet(is_forth, data):
    ends = [struct.pack(">IH", 0x7f000001, 40000), struct.pack(">IH", 0x7f000001, 47001)]
    here, there = ends if is_forth else ends[::-1]
    udp = here[4:] + there[4:] + struct.pack(">HH", 8 + len(data), 0) + data
    return struct.pack(">BBHIBBH", 0x45, 0, 20 + len(udp), 0, 64, 17, 0) + here[:4] + there[:4] + udp


def classic(order, link, frames):
    text = struct.pack(order + "IHHIIII", 0xa1b2c3d4, 2, 4, 0, 0, 262144, link)
    for at, frame in enumerate(frames):
        text += struct.pack(order + "IIII", 1000 + at // 50, at % 50 * 20000, len(frame), len(frame)) + frame
    return text


def block(order, kind, body):
    body += bytes(-len(body) % 4)
    return struct.pack(order + "II", kind, len(body) + 12) + body + struct.pack(order + "I", len(body) + 12)


def pcapng(order, link, frames):
    text = block(order, 0x0a0d0d0a, struct.pack(order + "IHHq", 0x1a2b3c4d, 1, 0, -1))
    text += block(order, 1, struct.pack(order + "HHI", link, 0, 0))
    for at, frame in enumerate(frames):
        text += block(order, 6, struct.pack(order + "IIIII", 0, 0, at * 20000, len(frame), len(frame)) + frame)
    return text


def damaged(draw, text, other):
    text = bytearray(text)
    for _ in range(draw.choice([0, 1, 1, 2, 4, 16, 64])):
        at = draw.randrange(len(text) + 1)
        many = draw.choice([1, 1, 2, 4, 16, 64, 256])
        way = draw.randrange(6)
        if way == 0 and at < len(text):
            text[at] ^= 1 << draw.randrange(8)
        elif way == 1:
            del text[at:at + many]
        elif way == 2:
            text[at:at] = text[at:at + many]
        elif way == 3:
            begin = draw.randrange(len(other))
            text[at:at + many] = other[begin:begin + many]
        elif way == 4:
            text[at:at + 4] = struct.pack(draw.choice("<>") + "I", draw.choice(ODD))
        else:
            text[at:at + 2] = struct.pack(draw.choice("<>") + "H", draw.choice(ODD) & 0xffff)
    return bytes(text[:draw.randrange(len(text) + 1)] if draw.random() < 0.1 else text)


def inspect(program, path, most, picture):
    """Returns what is wrong with a run, if anything, and its processor seconds."""
    words = [program, "inspect", path, *(["--timeline", picture] if picture else [])]

    def limit():
        resource.setrlimit(resource.RLIMIT_AS, (most, most))

    before = resource.getrusage(resource.RUSAGE_CHILDREN)
    try:
        done = subprocess.run(words, stdout=subprocess.PIPE, stderr=subprocess.PIPE, timeout=20, preexec_fn=limit, check=False)
    except subprocess.TimeoutExpired:
        return "it doesn't end", 20.0
    after = resource.getrusage(resource.RUSAGE_CHILDREN)
    taken = after.ru_utime - before.ru_utime
    if done.returncode not in (0, 1, 2):
        return f"status {done.returncode}", taken
    if b"panic" in done.stderr or b"E1 " in done.stderr:
        return done.stderr.decode(errors="replace").strip()[:200], taken
    if picture and done.returncode == 0:
        try:
            xml.etree.ElementTree.parse(picture)
        except (xml.etree.ElementTree.ParseError, OSError) as why:
            return f"picture: {why}", taken
    return None, taken


def main():
    program = os.path.abspath(sys.argv[1])
    seconds = int(sys.argv[2]) if len(sys.argv) > 2 else 3600
    seed = int(sys.argv[3]) if len(sys.argv) > 3 else random.randrange(2 ** 32)
    print(f"seed {seed}")
    draw = random.Random(seed)
    files = datagrams()
    os.makedirs(KEPT, exist_ok=True)
    path, picture = f"{KEPT}/last", f"{KEPT}/last.svg"
    count = failed = 0

    def fail(it, way, why):
        """Keeps a capture that failed, under a name of its own, and says so."""
        nonlocal failed
        failed += 1
        name = f"{KEPT}/{seed}-{count}-{failed}"
        with open(name, "wb") as out:
            out.write(it)
        print(f"{name}{' --timeline' if way else ''}: {why}", flush=True)

    steepest, other, end = 0.0, b"\0", time.time() + seconds
    while time.time() < end:
        link = draw.choice(list(LINKS))
        chosen = draw.choice(files)
        begin = draw.randrange(len(chosen))
        frames = [LINKS[link](ip_packet(*it)) for it in chosen[begin:begin + draw.choice([1, 5, 50, 400])]]
        make, order = draw.choice([classic, pcapng]), draw.choice("<>")
        text = make(order, link, frames)
        tries = [damaged(draw, text, other)]
        other = text
        count += 1
        if count % 100 == 0:
            part = damaged(draw, text, other)
            tries = [part * (long // max(1, len(part))) if draw.random() < 0.5 else
                     damaged(draw, make(order, link, frames * (long // len(text) + 1)), other) for long in (10_000_000, 20_000_000)]
        for way in (None, picture):
            times = []
            for it in tries:
                if os.path.exists(picture):
                    os.remove(picture)
                with open(path, "wb") as out:
                    out.write(it)
                why, taken = inspect(program, path, 64_000_000 + 64 * len(it), way)
                times.append((taken, len(it)))
                if why is not None:
                    fail(it, way, why)
            # Damage may cut a capture, so what is compared is the time of a byte. One in which little is read ends soon, and tells nothing.
            if len(times) == 2 and all(taken > 0.05 and length > 5_000_000 for taken, length in times):
                quotient = 2 * (times[1][0] / times[1][1]) / (times[0][0] / times[0][1])
                steepest = max(steepest, quotient)
                if quotient > 3:
                    fail(tries[1], way, times)
    print(f"{count} captures read, {failed} failed; twice as long took at most {steepest:.2f} times as long")
    return failed > 0


if __name__ == "__main__":
    sys.exit(main())
