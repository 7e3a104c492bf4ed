#!/usr/bin/env python3
"""For scripts/check/check-inspect.sh: captures for `enet_relay inspect --timeline`, and what it must tell of them.

    timeline.py capture FILE OUT        makes a capture in pcap format of a file of trials/captured: its datagrams, at its times
    timeline.py lab SCRIPT OUT          makes one of a lab's script and of its answers on standard input: what each host puts out, and in a fleet
                                        what strangers send, at the time of the clock that has gone on furthest
    timeline.py drawn SCRIPT SVG        compares the picture of a lab's script with what it finds in that and in its answers on standard input:
                                        which datagrams there are, what they are called, what is marked of each, and which were never delivered
    timeline.py demo SVG CLIENTS        looks for each client's connection in the picture of a demonstration, of which no datagram was lost
    timeline.py crowd OUT               makes one of 30 connections, and 600 datagrams of one of them
    timeline.py random SEED OUT         makes one of random datagrams at random times, between few addresses
    timeline.py check CAPTURE WORDS SVG [--connection N] [--channel C] [--from S] [--to S]
                                        reads a capture by itself, and compares the summary and the picture with what it finds of that in it
    timeline.py marks ROWS PROGRAM ROOM runs PROGRAM on each row of a file of rows, in the folder ROOM, and compares what is marked
"""
import random
import struct
import subprocess
import sys
import xml.etree.ElementTree

NAMES = {1: 'ACKNOWLEDGE', 2: 'CONNECT', 3: 'VERIFY_CONNECT', 4: 'DISCONNECT', 5: 'PING', 6: 'SEND_RELIABLE', 7: 'SEND_UNRELIABLE',
         8: 'SEND_FRAGMENT', 9: 'SEND_UNSEQUENCED', 10: 'BANDWIDTH_LIMIT', 11: 'THROTTLE_CONFIGURE', 12: 'SEND_UNRELIABLE_FRAGMENT'}
LENGTHS = {1: 8, 2: 48, 3: 44, 4: 8, 5: 4, 6: 6, 7: 8, 8: 24, 9: 8, 10: 12, 11: 16, 12: 24}
PAYLOADS = {6: 4, 7: 6, 8: 6, 9: 6, 12: 6}
KINDS, PACKETS = [2, 3, 4, 5, 1, 10, 11], [6, 8, 7, 12, 9]
REACH = 4096
# Of a guess at which end a capture was made: how many acknowledgements it needs each way, and the times of a near and a far end.
ENOUGH, NEAR, FAR = 10, 2000, 20000
CONNECTIONS = 24
DATAGRAMS = 500
KEPT = 256
LAB_ENDS = {'A': '10.0.0.1:7001', 'B': '10.0.0.2:7002', 'S': '10.0.0.1:7001'}
SVG = '{http://www.w3.org/2000/svg}'
NEVER = 1 << 60
OTHER = {'right': 'left', 'left': 'right'}
VAIN = 'lost or late behind this point, or not yet read'
UNTOLD = "it can't be told at which end it was captured"
MARKED = {'none', 'early', 'vain', 'again', 'twice'}
CLASSES = {'none': 'cross', 'lost': 'lost', 'early': 'early', 'vain': 'vain', 'again': 'again', 'twice': 'twice'}
WORDS = {'none': 'no acknowledgement seen', 'lost': 'never delivered', 'early': 'sent again too early', 'vain': 'what it acknowledges was sent again all the same: ',
         'twice': 'the same datagram, seen before'}
ROW_KINDS = {'ack': 1, 'connect': 2, 'verify': 3, 'ping': 5, 'reliable': 6, 'say': 7}


def address(text):
    ip, port = text.split(':')
    return bytes(int(part) for part in ip.split('.')), int(port)


def packet(source, target, payload):
    (source_ip, source_port), (target_ip, target_port) = address(source), address(target)
    udp = struct.pack('>HHHH', source_port, target_port, 8 + len(payload), 0) + payload
    return struct.pack('>BBHHHBBH4s4s', 0x45, 0, 20 + len(udp), 1, 0, 64, 17, 0, source_ip, target_ip) + udp


def write(path, datagrams, rest=b''):
    """Datagrams are times in microseconds, source, target and payload."""
    with open(path, 'wb') as out:
        out.write(struct.pack('<IHHiIII', 0xa1b2c3d4, 2, 4, 0, 0, 65535, 101))
        for at, source, target, payload in datagrams:
            frame = packet(source, target, payload)
            out.write(struct.pack('<IIII', at // 1000000, at % 1000000, len(frame), len(frame)) + frame)
        out.write(rest)


def captured(path):
    client, server = '10.0.0.1:4660', '10.0.0.2:47001'
    for line in open(path):
        if line.startswith('#') or not line.strip():
            continue
        way, payload, _, time = line.split()[:4]
        ends = (client, server) if way == 'c2s' else (server, client)
        yield (1000000000 + 1000 * int(time[2:]), *ends, bytes.fromhex(payload))


def end_of(name):
    """The address of a host of the lab: that of A and B, or of a fleet's server and clients."""
    if name in LAB_ENDS:
        return LAB_ENDS[name]
    return f'10.0.0.2:{7002 + int(name[1:])}'


class PutOut:
    """What the hosts of a script put out, by its lines and their answers, and whether it was delivered."""

    def __init__(self, path, answers):
        self.datagrams, self.names, self.undelivered, self.calm = [], [], {}, False
        self.clocks, self.sent = {}, {}
        lines = [line.split() for line in open(path, encoding='latin-1') if line.strip() and not line.startswith('#')]
        for words, answer in zip(lines, answers):
            self.follow(words, answer.split())

    def note(self, source, target, payload, name, may_be_lost):
        if may_be_lost:
            self.undelivered[name] = len(self.datagrams)
        at = 1000000000 + 1000 * max(self.clocks.values(), default=0)
        self.datagrams.append((at, source, target, payload))
        self.names.append(name)

    def follow(self, words, answer):
        self.calm |= words[0] == 'calm'
        name = words[1] if len(words) > 1 else ''
        if words[0] == 'tick' and answer == ['ok']:
            self.clocks[name] = self.clocks.get(name, 0) + min(int(words[2]), 60000)
        elif words[0] == 'turn' and '#' in answer[0]:
            target = answer[2] if len(answer) == 4 else 'B' if name == 'A' else 'A'
            host = answer[0].partition('#')[0]
            self.sent[host] = self.sent.get(host, 0) + 1
            self.note(end_of(host), target if ':' in target else end_of(target), bytes.fromhex(answer[-1]), answer[0], ':' not in target)
        elif words[0] == 'stranger' and answer[0] == 'handled':
            self.note(f'{words[2]}:{words[3]}', end_of(name), bytes.fromhex(words[4].replace('-', '')), '', False)
        elif words[0] == 'deliver' and answer[0] == 'handled':
            k = 3 if len(words) > 3 and words[2][0] in 'SC' else 2
            host = words[2] if k == 3 else 'B' if name == 'A' else 'A'
            host = host if host in LAB_ENDS else f'C{int(host[1:])}'
            number = self.sent[host] - 1 if words[k] == 'last' else int(words[k])
            self.undelivered.pop(f'{host}#{number}', None)


def check_script(path, picture, answers):
    put_out = PutOut(path, answers)
    drawn, lost = marks_drawn(picture), set(put_out.undelivered.values())
    if put_out.calm:
        return
    count = 0
    for connection in connections(put_out.datagrams)[0][:CONNECTIONS]:
        for (number, *_), fate in list(zip(connection.datagrams, connection.fates()))[:DATAGRAMS]:
            wanted = (fate & MARKED) - ({'none'} if number in lost else set()) | ({'lost'} if number in lost else set())
            count += 1
            if drawn.get(number) != wanted:
                sys.exit(f'datagram {number} is drawn as {drawn.get(number)} where {wanted} is wanted')
    if len(drawn) != count:
        sys.exit(f'{len(drawn)} arrows where {count} are wanted')
    for group in xml.etree.ElementTree.parse(picture).iter(SVG + 'g'):
        title, words = group[0].text, group[-1].text or ''
        number, called = int(title.split()[1].rstrip(',')), title.split()[2]
        name = put_out.names[number]
        if name and (called != name + ',' or not words.startswith(name + ': ')):
            sys.exit(f'datagram {number} is called {called} {words} where {name} is wanted')


def check_demo(picture, clients):
    drawn = marks_drawn(picture)
    ends = [each.text for each in xml.etree.ElementTree.parse(picture).iter(SVG + 'text') if each.get('class') == 'end']
    if set(ends[::2]) != {f'client {client}' for client in range(clients)} or not all(end.startswith('the server at 127.0.0.1:') for end in ends[1::2]):
        sys.exit(f'the ends are {ends}')
    if len(drawn) < 4 * clients or any('lost' in marks for marks in drawn.values()):
        sys.exit(f'{drawn} is drawn')


def connect(identifier):
    return bytes.fromhex('8fff000082ff00010000ffff000005780001000000000002000000000000000000001388000000020000000' '2') \
        + struct.pack('>II', identifier, 0)


def crowd():
    for i in range(300):
        yield (i * 1000, f'10.1.{i // 100}.{i % 100}:4660', '10.0.0.2:47001', connect(i))
    for i in range(600):
        number = 1 + i // 2
        yield (1000000 + i * 30000, '10.1.0.7:4660', '10.0.0.2:47001', struct.pack('>HHBBHH', 0x8000, i, 0x86, 0, number, 1) + b'x')
    yield (20000000, '10.1.0.7:4660', '10.0.0.2:47001', connect(7))
    yield (20000001, '10.1.0.7:4660', '10.0.0.2:47001', connect(1007))
    yield (20000002, '10.0.0.2:47001', '10.1.0.7:4660', bytes.fromhex('000001ff000100010000'))


def drawn(seed):
    draw = random.Random(seed)
    for _ in range(400):
        payload = bytes(draw.randrange(256) for _ in range(draw.randrange(0, 70)))
        if draw.randrange(3):
            payload = bytes([draw.choice([0, 128]), 0]) + bytes(draw.choice([0, 2]) for _ in range(draw.choice([0, 2]))) + payload
            payload = payload[:2] + b''.join(
                bytes([draw.choice([1, 5, 0x85, 0x86, 0x81]), draw.randrange(3), 0, draw.randrange(4)]) + bytes([0, draw.randrange(4), 0, 0])
                for _ in range(draw.randrange(4))) + payload[2:]
        at = draw.randrange(2 ** 32) * 1000000 + draw.randrange(1000000)
        yield (at, f'10.0.0.{draw.randrange(3)}:{draw.randrange(2)}', f'10.0.1.{draw.randrange(2)}:{draw.randrange(2)}', payload)


def packets(path):
    """The datagrams of a capture of raw IP or Ethernet, how many other packets there are, and whether the last is cut short."""
    whole = open(path, 'rb').read()
    header = 14 if struct.unpack_from('<I', whole, 20)[0] == 1 else 0
    at, datagrams, others = 24, [], 0
    while at < len(whole):
        if at + 16 > len(whole):
            return datagrams, others, True
        seconds, parts, kept, _ = struct.unpack_from('<IIII', whole, at)
        frame = whole[at + 16:at + 16 + kept]
        if len(frame) < kept:
            return datagrams, others, True
        at += 16 + kept
        frame = frame[header:]
        if frame[9] != 17:
            others += 1
            continue
        source, target = ('.'.join(str(part) for part in frame[i:i + 4]) for i in (12, 16))
        source_port, target_port, length = struct.unpack_from('>HHH', frame, 20)
        datagrams.append((seconds * 1000000 + parts, f'{source}:{source_port}', f'{target}:{target_port}', frame[28:20 + length]))
    return datagrams, others, False


def commands(payload):
    """The commands as (kind, asks, channel, number, what is acknowledged, connect id), and why the rest can't be read."""
    if len(payload) < 2:
        return [], 'S1 Short'
    word = struct.unpack_from('>H', payload)[0]
    at = 4 if word & 0x8000 else 2
    if word & 0x4000:
        return [], 'S2 Compressed'
    if len(payload) < at:
        return [], 'S1 Short'
    found = []
    while at < len(payload):
        kind = payload[at] & 15
        length = LENGTHS.get(kind, 1 << 20)
        if at + length > len(payload):
            return found, 'S6 BadCommand'
        if kind in PAYLOADS:
            length += struct.unpack_from('>H', payload, at + PAYLOADS[kind])[0]
            if at + length > len(payload):
                return found, 'S6 BadCommand'
        channel, number = struct.unpack_from('>BH', payload, at + 1)
        received = struct.unpack_from('>HH', payload, at + 4) if kind == 1 else None
        identifier = struct.unpack_from('>I', payload, at + 40)[0] if kind == 2 else None
        found.append((kind, bool(payload[at] & 0x80), channel, number, received, identifier))
        at += length
    return found, None


class Connection:
    def __init__(self, left, right, identifier):
        self.left, self.right, self.identifier = left, right, identifier
        self.datagrams = []
        self.known = None
        self.delays = None

    def narrowed(self, asked, begun):
        """What of it is asked for. What became of a datagram all of the connection tells."""
        shown = Connection(self.left, self.right, self.identifier)
        shown.known = []
        for (number, at, way, found, stop, time), fate in zip(self.datagrams, self.fates()):
            within = asked.get('from', 0) <= max(at - begun, 0) <= asked.get('to', NEVER)
            here = [command for command in found if asked.get('channel', command[2]) == command[2]]
            if within and (here or 'channel' not in asked):
                shown.datagrams.append((number, at, way, here, stop, time))
                shown.known.append(fate)
        shown.delays = self.delays
        return shown

    def says(self, index):
        number_of = {'right': 0, 'left': 0}
        kinds, stops = {}, {}
        for number, at, way, found, stop, _ in self.datagrams:
            number_of[way] += 1
            stops[stop] = stops.get(stop, 0) + 1
            for kind, *_ in found:
                kinds[kind] = kinds.get(kind, 0) + 1
        times = [at for _, at, *_ in self.datagrams]
        lines = [f'connection {index}: {self.left} and {self.right}'
                 + (f', connect id {self.identifier:08x}' if self.identifier is not None else '')]
        lines.append(f'  {len(times)} datagrams, {number_of["right"]} to the right and {number_of["left"]} to the left, in '
                     f'{seconds(max(times[-1] - times[0], 0))} s')
        lines += [f'  {stops[stop]} can\'t be read to their end: {stop}' for stop in ('S1 Short', 'S2 Compressed', 'S6 BadCommand') if stop in stops]
        for head, order in ((f'{sum(kinds.values())} commands', KINDS), ('packets', PACKETS)):
            lines.append(f'  {head}:' + ''.join(f' {NAMES[kind]} {kinds[kind]}' for kind in order if kind in kinds))
        fates = self.fates()
        for way in 'right', 'left':
            of = [fate for (_, _, other, *_), fate in zip(self.datagrams, fates) if other == way]
            lines.append(f'  to the {way}: acknowledged {sum("acknowledged" in fate for fate in of)}; no acknowledgement seen '
                         f'{sum("none" in fate for fate in of)}; not acknowledged and not sent again {sum("open" in fate for fate in of)}; '
                         f'sent again {sum("again" in fate for fate in of)}, too early {sum("early" in fate for fate in of)}')
        for way in 'right', 'left':
            vain = sum('vain' in fate for (_, _, other, *_), fate in zip(self.datagrams, fates) if other == way)
            lines += [f'  {vain} to the {way} acknowledge what is sent again all the same: {VAIN}'] if vain else []
        lines.append('  ' + self.guess())
        gaps = [max(b - a, 0) for a, b in zip(times, times[1:])]
        if gaps:
            lines.append(f'  longest gap: {seconds(max(gaps))} s, before datagram {self.datagrams[gaps.index(max(gaps)) + 1][0]}')
        if len(times) > DATAGRAMS:
            lines.append(f'  drawn are the first {DATAGRAMS} datagrams')
        return lines

    def guess(self):
        """At which end it was captured, by the times from each send to its first acknowledgement: the near end's may be short."""
        self.fates()
        for end, other in ('left', 'right'), ('right', 'left'):
            near, far = self.delays[end], self.delays[other]
            if min(len(near), len(far)) >= ENOUGH and min(near) <= NEAR and min(far) >= FAR:
                return (f'captured at the {end} end, as it seems: the soonest acknowledgement took {seconds(min(near))} s from there, '
                        f'{seconds(min(far))} s from the {other} end')
        return UNTOLD

    def fates(self):
        """What is marked of each datagram, by the rule: a send is a command that asks, by channel, number and sent time."""
        if self.known is not None:
            return self.known
        seen, last, sends, turns, asked = {}, {}, {}, {'right': 0, 'left': 0}, []
        verified = {way for _, _, way, found, *_ in self.datagrams for kind, *_ in found if kind == 3}
        for place, (_, _, way, found, _, time) in enumerate(self.datagrams):
            for kind, asks, channel, number, received, _ in found:
                if received is not None:
                    back = sends.get((OTHER[way], channel, *received))
                    if back is not None:
                        back['acknowledged'] = min(back['acknowledged'], len(asked))
                    asked.append({'place': place, 'back': back})
                else:
                    asked.append({'place': place, 'back': None})
                if not asks:
                    continue
                command, send = (way, channel, number), (way, channel, number, time)
                turn, now = turns[way], len(asked) - 1
                turns[way] += 1
                one = {'place': place, 'index': now, 'acknowledged': NEVER, 'again': NEVER, 'before': None, 'twice': False, 'turn': turn,
                       'waits': not (kind == 2 and OTHER[way] in verified)}
                asked[now]['send'] = one
                before = seen.get(send) if time is not None else None
                seen[send] = turn
                if before is not None and turn - before <= REACH:
                    one.update(twice=True, waits=False)
                    continue
                before = last.get(command)
                if before is not None and turn - before['turn'] <= REACH:
                    one['before'] = before
                    before['again'] = min(before['again'], now)
                last[command] = one
                if time is not None:
                    sends[send] = one
        times = [at for _, at, *_ in self.datagrams]
        self.delays = {way: [max(times[asked[one['acknowledged']]['place']] - times[one['place']], 0) for one in sends_of(asked)
                             if one['acknowledged'] < NEVER and self.datagrams[one['place']][2] == way] for way in OTHER}
        fates = [set() for _ in self.datagrams]
        for now, command in enumerate(asked):
            fate, send, back = fates[command['place']], command.get('send'), command['back']
            if back is not None and now < back['again'] < NEVER:
                fate.add('vain')
            if send is not None:
                fate |= {name for name, holds in (
                    ('waits', send['waits']), ('acknowledged', send['acknowledged'] < NEVER), ('goes', send['waits'] and send['again'] < NEVER),
                    ('again', send['before'] is not None), ('twice', send['twice']),
                    ('early', send['before'] is not None and now < send['before']['acknowledged'] < NEVER)) if holds}
        for fate in fates:
            if 'waits' in fate and 'acknowledged' not in fate:
                fate.add('none' if 'goes' in fate else 'open')
        self.known = fates
        return fates


def sends_of(commands_there):
    return [command['send'] for command in commands_there if 'send' in command]


def seconds(microseconds):
    return f'{microseconds // 1000000}.{microseconds % 1000000:06d}'


def sent_time(payload):
    return struct.unpack_from('>H', payload, 2)[0] if len(payload) >= 4 and payload[0] & 0x80 else None


def connections(datagrams):
    found, unkept = [], 0
    for number, (at, source, target, payload) in enumerate(datagrams):
        told, stop = commands(payload)
        identifier = next((command[5] for command in told if command[0] == 2), None)
        last = next((c for c in reversed(found) if {(c.left, c.right), (c.right, c.left)} & {(source, target)}), None)
        if last is None or identifier is not None and last.identifier != identifier:
            if len(found) >= KEPT:
                unkept += 1
                continue
            last = Connection(source, target, identifier)
            found.append(last)
        last.datagrams.append((number, at, 'right' if source == last.left else 'left', told, stop, sent_time(payload)))
    return found, unkept


def asked_of(options):
    """What is asked for, times in microseconds, and the line that says so."""
    asked, says = {}, ''
    for name, value in zip(options[::2], options[1::2]):
        asked[name[2:]] = round(float(value) * 1000000) if name in ('--from', '--to') else int(value)
    for name in 'connection', 'channel', 'from', 'to':
        if name in asked:
            says += f' {name} {seconds(asked[name]) if name in ("from", "to") else asked[name]}'
    return asked, [f'shown of it:{says}'] if asked else []


def begun_of(path):
    """When the first packet of a capture was captured."""
    whole = open(path, 'rb').read()
    if len(whole) < 40 or len(whole) < 40 + struct.unpack_from('<I', whole, 32)[0]:
        return 0
    time, parts = struct.unpack_from('<II', whole, 24)
    return time * 1000000 + parts


def check(capture, words, picture, *options):
    datagrams, others, is_cut = packets(capture)
    all_found, unkept = connections(datagrams)
    asked, says = asked_of(options)
    narrowed = [(index, connection.narrowed(asked, begun_of(capture))) for index, connection in enumerate(all_found)]
    shown = [(index, connection) for index, connection in narrowed if connection.datagrams and asked.get('connection', index) == index]
    found = [connection for _, connection in shown]
    wanted = [f'datagrams {len(datagrams)}, connections {len(all_found)}, other packets {others}']
    wanted += [f"{unkept} datagrams of further connections aren't told"] if unkept else []
    wanted += ['the capture is cut short'] if is_cut else []
    wanted += says
    wanted += [f'drawn are the first {CONNECTIONS} connections'] if len(found) > CONNECTIONS else []
    for index, connection in shown:
        wanted += connection.says(index)
    told = open(words).read().splitlines()
    for line, (one, other) in enumerate(zip(wanted, told)):
        if one != other:
            sys.exit(f'line {line + 1} is {other!r} where {one!r} is wanted')
    if len(wanted) != len(told):
        sys.exit(f'{len(told)} lines where {len(wanted)} are wanted')
    drawn = marks_drawn(picture)
    for connection in found[:CONNECTIONS]:
        for (number, *_), fate in list(zip(connection.datagrams, connection.fates()))[:DATAGRAMS]:
            if drawn.get(number) != fate & MARKED:
                sys.exit(f'datagram {number} is drawn as {drawn.get(number)} where {fate & MARKED} is wanted')
    count = sum(min(len(connection.datagrams), DATAGRAMS) for connection in found[:CONNECTIONS])
    if len(drawn) != count:
        sys.exit(f'{len(drawn)} arrows where {count} are wanted')


def marks_drawn(picture):
    """What is marked of each datagram in a picture, by its number: by the arrow's elements, with which the words on it must agree."""
    found = {}
    for group in xml.etree.ElementTree.parse(picture).iter(SVG + 'g'):
        title = group.find(SVG + 'title').text.splitlines()
        classes = [each.get('class', '').split() for each in group]
        heads = [names for names in classes if 'head' in names]
        marks = {mark for mark, name in CLASSES.items() if any(name in names for names in classes)}
        told = {mark for mark, words in WORDS.items() if any(line.startswith(words) for line in title)}
        if len(heads) != ('lost' not in marks) or marks - {'again', 'twice'} != told - {'twice'} or 'twice' in marks - told:
            sys.exit(f'{title} has {classes}')
        found[int(title[0].split()[1].rstrip(','))] = marks | told
    return found


def command_of(word):
    """Commands of a row: name, channel and number, of several the first number and how many, and of an acknowledgement the sent time."""
    name, _, rest = word.partition('=')
    channel, _, rest = rest.partition(':')
    number, _, time = rest.partition('@')
    number, _, count = number.partition('+')
    if count:
        return b''.join(command_of(f'{name}={channel}:{int(number) + k}@{time}') for k in range(int(count)))
    channel, number = 255 if channel == 'c' else int(channel), int(number)
    kind = ROW_KINDS[name]
    head = struct.pack('>BBH', kind | (0 if name in ('ack', 'say') else 0x80), channel, number)
    if name == 'ack':
        return head + struct.pack('>HH', number, int(time))
    return head + {'connect': bytes(36) + struct.pack('>II', 7, 0), 'verify': bytes(40), 'ping': b'', 'reliable': b'\0\1x', 'say': b'\0\1\0\1x'}[name]


def row_of(lines):
    """The datagrams of a row with what is marked of each, and what its summary says, at the left end, at the right end, or at neither."""
    ends = {'>': ('10.0.0.1:4660', '10.0.0.2:47001'), '<': ('10.0.0.2:47001', '10.0.0.1:4660')}
    datagrams, wanted, says = [], [], []
    for line in lines:
        words, _, marks = line.partition('#')
        words, marks = words.split(), set(marks.split())
        if words[0] == 'says':
            says.append(line.partition(' ')[2])
            continue
        way, at, time = words[0], 1000000000 + round(1000 * float(words[1])), words[2]
        header = struct.pack('>H', 0) if time == '-' else struct.pack('>HH', 0x8000, int(time))
        if words[3] == 'pings':
            first, count = (int(part) for part in words[4].split('+'))
            for start in range(first, first + count, 100):
                each = [struct.pack('>BBH', 0x85, 255, number % 65536) for number in range(start, min(start + 100, first + count))]
                datagrams.append((at, *ends[way], header + b''.join(each)))
                wanted.append(marks)
        else:
            datagrams.append((at, *ends[way], header + b''.join(command_of(word) for word in words[3:])))
            wanted.append(marks)
    return datagrams, wanted, says


def rows_of(path):
    rows = {}
    for line in open(path):
        if line.startswith('row '):
            name = line[4:].strip()
            rows[name] = []
        elif line.strip() and not line.startswith('#'):
            rows[name].append(line.strip())
    return rows


def marks(path, program, room):
    wrong = False
    for name, lines in rows_of(path).items():
        datagrams, wanted, says = row_of(lines)
        write(f'{room}/row', datagrams)
        for end in ([], ['--at', 'LEFT'], ['--at', 'RIGHT']):
            told = subprocess.run([program, 'inspect', f'{room}/row', '--timeline', f'{room}/row.svg', *end], capture_output=True, text=True, timeout=60)
            lines = told.stdout.splitlines()
            for line in says:
                at, _, line = line.partition(' ')
                if at in ('ever', ''.join(end[1:]) or 'unknown') and '  ' + line not in lines:
                    wrong = True
                    print(f'{name} {end}: the summary has no line {line!r}: {told.stdout}')
            if any(' captured' in line for line in lines) == bool(end):
                wrong = True
                print(f'{name} {end}: the end at which it was captured is guessed where it is named, or not where it isn\'t: {told.stdout}')
            drawn = marks_drawn(f'{room}/row.svg')
            for number, marks in list(enumerate(wanted))[:DATAGRAMS]:
                if drawn.get(number) != marks:
                    wrong = True
                    print(f'{name} {end}: datagram {number} is drawn as {drawn.get(number)} where {marks} is wanted')
    sys.exit(wrong)


def main():
    match sys.argv[1:]:
        case ['capture', path, out]:
            write(out, captured(path))
        case ['lab', script, out]:
            write(out, PutOut(script, sys.stdin).datagrams)
        case ['drawn', script, picture]:
            check_script(script, picture, sys.stdin)
        case ['demo', picture, clients]:
            check_demo(picture, int(clients))
        case ['crowd', out]:
            write(out, crowd())
        case ['random', seed, out]:
            write(out, drawn(int(seed)))
        case ['marks', rows, program, room]:
            marks(rows, program, room)
        case ['check', capture, words, picture, *options]:
            check(capture, words, picture, *options)
        case _:
            sys.exit(__doc__)


if __name__ == '__main__':
    main()
