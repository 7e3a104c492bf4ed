#!/usr/bin/env python3
"""For scripts/check/check-inspect.sh: captures in pcapng, and what a reader of its own makes of them.

    pcapng.py same CAPTURE OUT      makes one with the packets of a classic capture, in sections of either order and with blocks between them
    pcapng.py random SEED OUT PCAP  makes a random one, mostly damaged or cut short, and the classic capture that has its packets
    pcapng.py long BLOCKS OUT       makes one of so many of the smallest blocks

A packet that can't be read is one of no bytes in the classic capture, which is cut short where the other is.
"""
import random
import struct
import sys

from timeline import packet

SECTION, INTERFACE, OLD, SIMPLE, PACKET = 0x0a0d0d0a, 1, 2, 3, 6
END, UNIT = 0, 9


def block(order, kind, body):
    body += bytes(-len(body) % 4)
    return struct.pack(order + 'II', kind, len(body) + 12) + body + struct.pack(order + 'I', len(body) + 12)


def section(order):
    return block(order, SECTION, struct.pack(order + 'IHHq', 0x1a2b3c4d, 1, 0, -1))


def interface(order, link, options):
    told = b''.join(struct.pack(order + 'HH', code, len(value)) + value + bytes(-len(value) % 4) for code, value in options)
    return block(order, INTERFACE, struct.pack(order + 'HHI', link, 0, 0) + told)


def captured(order, number, time, frame, kept=None):
    kept = len(frame) if kept is None else kept
    return block(order, PACKET, struct.pack(order + 'IIIII', number, time >> 32, time & 0xffffffff, kept, len(frame)) + frame)


def classic(link, packets, cut):
    text = struct.pack('>IIQII', 0xa1b23c4d, 0x20004, 0, 0x40000, link)
    for seconds, parts, frame in packets:
        text += struct.pack('>IIII', seconds, parts, len(frame), len(frame)) + frame
    return text + (b'\0' if cut else b'')


def units(order, options):
    """How many units of time a second has, by the options of an interface; 0 if they are finer than billionths."""
    at = 0
    while at + 4 <= len(options):
        code, length = struct.unpack_from(order + 'HH', options, at)
        value, at = options[at + 4:at + 4 + length], at + 4 + (length + 3) // 4 * 4
        if at > len(options) or code == END:
            break
        if code == UNIT:
            exponent = value[0] if value else 6
            return 10 ** exponent if exponent < 10 else 0
    return 1000000


def frame_in(order, interfaces, link, body):
    """A packet as (seconds, billionths, bytes), or None."""
    if len(body) < 20:
        return None
    number, high, low, kept = struct.unpack_from(order + 'IIII', body)
    if number >= len(interfaces) or 20 + kept > len(body):
        return None
    own, unit = interfaces[number]
    if unit == 0 or own != link:
        return None
    time = high << 32 | low
    return min(time // unit, 0xffffffff), time % unit * (1000000000 // unit), body[20:20 + kept]


def read(text):
    """The classic capture with the packets of one in pcapng."""
    order, interfaces, link, packets, at = '>', [], None, [], 0
    while at < len(text):
        if len(text) - at < 12:
            return classic(101 if link is None else link, packets, True)
        kind, = struct.unpack_from(order + 'I', text, at)
        if kind == SECTION:
            order = {b'\x1a\x2b\x3c\x4d': '>', b'\x4d\x3c\x2b\x1a': '<'}.get(text[at + 8:at + 12])
            if order is None:
                return classic(101 if link is None else link, packets, True)
        length, = struct.unpack_from(order + 'I', text, at + 4)
        if not 12 <= length <= len(text) - at:
            return classic(101 if link is None else link, packets, True)
        body, at = text[at + 8:at + length - 4], at + length
        if kind == SECTION:
            interfaces = []
        elif kind == INTERFACE:
            told = (struct.unpack_from(order + 'H', body)[0], units(order, body[8:])) if len(body) >= 8 else (0, 0)
            link = told[0] if link is None else link
            interfaces.append(told)
        elif kind in (OLD, SIMPLE, PACKET):
            packets.append(kind == PACKET and frame_in(order, interfaces, link, body) or (0, 0, b''))
    return classic(101 if link is None else link, packets, False)


def same(path):
    """The packets of a classic capture of this machine's order, in microseconds, with blocks between them that aren't read."""
    whole = open(path, 'rb').read()
    link, = struct.unpack_from('<I', whole, 20)
    at, count, text = 24, 0, b''
    while at < len(whole):
        seconds, parts, kept, _ = struct.unpack_from('<IIII', whole, at)
        frame, at = whole[at + 16:at + 16 + kept], at + 16 + kept
        order = '<' if count % 200 < 100 else '>'
        if count % 100 == 0:
            text += section(order) + interface(order, link, [(2, b'any')]) + interface(order, link, [(2, b'lo'), (UNIT, b'\x09'), (END, b'')])
        if count % 30 == 0:
            text += block(order, 4, bytes(12)) + block(order, 5, bytes(8))
        time = seconds * 1000000 + parts
        text += captured(order, count % 2, time * 1000 if count % 2 else time, frame)
        count += 1
    return text


def drawn(draw):
    order = draw.choice('<>')
    text = section(order)
    for _ in range(draw.randrange(14)):
        kind = draw.randrange(10)
        if kind < 3:
            options = [(draw.choice([2, UNIT, UNIT, END, 14]), bytes([draw.choice([0, 3, 6, 9, 9, 10, 134])]) * draw.choice([0, 1, 1, 3, 5]))
                       for _ in range(draw.randrange(3))]
            text += interface(order, draw.choice([1, 101, 101, 101, 113, 105]), options)
        elif kind < 8:
            frame = packet('10.0.0.1:7', f'10.0.0.{draw.randrange(3)}:9', draw.randbytes(draw.randrange(40)))
            time = draw.choice([draw.randrange(2 ** 64), 1795951174375246, draw.randrange(2 ** 32)])
            text += captured(order, draw.choice([0, 0, 0, 1, 2]), time, frame, draw.choice([None, None, None, draw.randrange(80), 2 ** 32 - 1]))
        elif kind == 8:
            text += block(order, draw.choice([OLD, SIMPLE, 4, 5, 10]), bytes(draw.randrange(24)))
        else:
            order = draw.choice('<>')
            text += section(order)
    text = bytearray(text)
    for _ in range(draw.choice([0, 0, 1, 3])):
        text[draw.randrange(4, len(text))] = draw.choice([0, 1, 255, draw.randrange(256)])
    return bytes(text[:draw.randrange(4, len(text) + 1)] if draw.randrange(3) == 0 else text)


def main():
    match sys.argv[1:]:
        case ['same', path, out]:
            open(out, 'wb').write(same(path))
        case ['random', seed, out, pcap]:
            text = drawn(random.Random(int(seed)))
            open(out, 'wb').write(text)
            open(pcap, 'wb').write(read(text))
        case ['long', blocks, out]:
            open(out, 'wb').write(section('<') + interface('<', 101, []) + block('<', SIMPLE, b'') * int(blocks))
        case _:
            sys.exit(__doc__)


if __name__ == '__main__':
    main()
