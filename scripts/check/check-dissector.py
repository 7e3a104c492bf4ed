#!/usr/bin/env python3
"""Whether Wireshark reads datagrams by tools/enet.lua as `enet_relay inspect` does, and finds what belongs together.

    check-dissector.py [--dissector FILE] [PROGRAM [CAPTURE ..]]

PROGRAM is the one that `rt ci`, or `rt run` in crates/enet_relay, leaves, if none is named. tshark reads, by FILE in the place of
tools/enet.lua where it is named:

- the datagrams of trials/captured;
- a lossy capture of 10,000 datagrams: hosts of `enet_relay lab` talk over a line, drawn from a seed, that drops, repeats and delays;
- datagrams drawn from the wire format, with numbers of any size;
- datagrams that are cut short at each length, compressed, or have an unknown command;
- or CAPTURE alone, whose UDP datagrams are all ENet's.

Of each datagram all that `inspect` tells is compared. What it doesn't tell is reckoned here, from its words: which send an acknowledgement
belongs to, what was sent again, and to which connection a datagram belongs. It also tries what makes a datagram ENet's, what of a datagram
isn't counted, and the commands that docs/CAPTURES.md shows. tshark is installed from Debian's packages if it is missing and this runs as
root; else all is passed over. The last line is 'N passed, M failed', where each datagram counts as one; the status is 1 where one fails.
"""
import collections
import concurrent.futures
import dataclasses
import glob
import itertools
import os
import random
import re
import shutil
import struct
import subprocess
import sys
import tempfile

sys.dont_write_bytecode = True
sys.path.insert(0, os.path.join(os.path.dirname(os.path.abspath(__file__)), '..', 'lib'))
import timeline  # noqa: E402

PROGRAM = 'crates/enet_relay/out/enet_relay'
DISSECTOR = 'tools/enet.lua'
KINDS = {name: number for number, name in timeline.NAMES.items()}
REACH = 4096
# The fields that are compared, and what `inspect` calls those of a command.
HEADER = ['enet.has_sent_time', 'enet.compressed', 'enet.session', 'enet.peer', 'enet.sent_time']
WORDS = {
    'received_number': 'ack.number', 'received_time': 'ack.time', 'start': 'fragment.start', 'fragment': 'fragment.number',
    'count': 'fragment.count', 'offset': 'fragment.offset', 'total': 'fragment.total',
} | {word: word for word in (
    'channel', 'number', 'acknowledge', 'unsequenced', 'outgoing_peer', 'incoming_session', 'outgoing_session', 'mtu', 'window', 'channels',
    'incoming_bandwidth', 'outgoing_bandwidth', 'throttle_interval', 'acceleration', 'deceleration', 'connect_id', 'info', 'unreliable',
    'group', 'length', 'payload',
)}
LINKS = ['enet.connection', 'enet.acks', 'enet.ack.delay', 'enet.acked_by', 'enet.resend_of', 'enet.resent_in', 'enet.repeat_of']
STOPS = ['enet.stop', 'enet.stop.place', 'enet.unread', '_ws.expert.severity', '_ws.expert.message']
FIELDS = [*HEADER, 'enet.command', *(f'enet.{name}' for name in WORDS.values()), *LINKS, *STOPS]
FLAGS = ('acknowledge', 'unsequenced')
ERROR, NOTE = '8388608', '4194304'
SHOWN = 20


class Counts:
    def __init__(self):
        self.passed = self.failed = 0

    def check(self, holds, what):
        if holds:
            self.passed += 1
            return
        self.failed += 1
        if self.failed <= SHOWN:
            print(f'FAILED {what}')


@dataclasses.dataclass
class Command:
    """A command in inspect's words: its kind's number, and what stands behind each word."""
    kind: int
    words: dict

    def key(self):
        return self.words['channel'], self.words['number']


@dataclasses.dataclass
class Datagram:
    """A datagram in inspect's words."""
    source: str
    target: str
    at: int  # in microseconds
    header: dict = dataclasses.field(default_factory=dict)
    commands: list = dataclasses.field(default_factory=list)
    stop: tuple = None  # its words, the place, and the bytes from there on in hex
    links: dict = dataclasses.field(default_factory=lambda: collections.defaultdict(list))
    sends: list = dataclasses.field(default_factory=list)
    notes: list = dataclasses.field(default_factory=list)


# Reading by both -------------------------------------------------------------------------------------------------------------------------


def in_hex(payload):
    """A payload in hex, also one that is told in quotes."""
    if not payload.startswith('"'):
        return payload
    letters = {'t': '\t', 'n': '\n', 'r': '\r', '0': '\0'}
    return re.sub(r'\\(.)', lambda found: letters.get(found[1], found[1]), payload[1:-1]).encode().hex()


def told_command(line):
    line, has_payload, payload = line.partition(' payload ')
    words = line.split()
    found = {}
    rest = iter(words[1:])
    for word in rest:
        found[word] = '1' if word in FLAGS else next(rest)
    return Command(KINDS[words[0]], found | ({'payload': in_hex(payload)} if has_payload else {}))


def told_header(words):
    peer = words[1].replace('none', '4095')
    sent = words[words.index('sent') + 1] if 'sent' in words else None
    found = {'enet.peer': peer, 'enet.session': words[3], 'enet.compressed': '1' if 'compressed' in words else '0',
             'enet.has_sent_time': '0' if sent is None else '1'}
    return found if sent is None else found | {'enet.sent_time': sent}


def told(program, capture):
    """The datagrams of a capture, as inspect tells them."""
    text = subprocess.run([program, 'inspect', '--full', capture], capture_output=True, text=True, check=True).stdout
    datagrams = []
    for line in text.splitlines():
        words = line.split()
        if words[0] == 'datagram':
            seconds, parts = words[9].split('.')
            datagrams.append(Datagram(words[5], words[7], int(seconds) * 1000000 + int(parts[:6])))
        elif words[0] == 'peer':
            datagrams[-1].header = told_header(words)
        elif words[0] in KINDS:
            datagrams[-1].commands.append(told_command(line))
        elif words[1:2] == ['other']:
            begun = [int(part) for part in words[-1].split('.')] if words[-2] == 'at' else [0, 0]
            for datagram in datagrams:
                datagram.at += begun[0] * 1000000 + begun[1]
        else:
            stop, place, rest = re.fullmatch(r' *(S\d+ \w+) at byte (\d+): (.*)', line).groups()
            datagrams[-1].stop = (stop, int(place), rest)
    return datagrams


def tshark(dissector, capture, *options):
    """What tshark writes when it reads a capture, and then what it complains of."""
    done = subprocess.run(['tshark', '-X', f'lua_script:{dissector}', '-r', capture, *options], capture_output=True, text=True, check=False)
    faults = [line for line in done.stderr.splitlines() if not line.startswith('Running as user')]
    return done.stdout + ''.join(f'{fault}\n' for fault in faults)


def shown_value(field, value):
    if field == 'enet.connect_id':
        return f'{int(value, 16):08x}'
    if field == 'enet.ack.delay':
        return str(round(float(value) * 1000000))
    return {'True': '1', 'False': '0'}.get(value, value)


def shown(dissector, capture, *options):
    """The datagrams of a capture, as tshark shows them: of each the values of its fields."""
    asked = [word for field in ['frame.number', *FIELDS] for word in ('-e', field)]
    text = tshark(dissector, capture, '-2', '-Y', 'enet', '-T', 'fields', '-E', 'occurrence=a', '-E', 'aggregator=|', *asked, *options)
    for line in text.splitlines():
        number, *values = line.split('\t')
        if len(values) != len(FIELDS):
            raise ValueError(f'tshark: {line}')
        yield int(number), {field: [shown_value(field, value) for value in each.split('|')] for field, each in zip(FIELDS, values) if each}


# What belongs together -------------------------------------------------------------------------------------------------------------------


class Way:
    """What went one way of a connection."""

    def __init__(self):
        self.asked = 0  # how many commands that ask for an acknowledgement
        self.last = {}  # by channel and number, and by these and the sent time: the number of the last such command
        self.fresh = {}  # by channel and number: the last send that was not seen before
        self.sent = {}  # by channel, number and sent time: the last send
        self.offered = {}  # by connect id: the last CONNECT


@dataclasses.dataclass
class Send:
    """The last frame that has it, when that was captured, and the frames that answer it and that send it again."""
    frame: int
    at: int
    acked_by: int = None
    resent_in: int = None


class Reckoning:
    """What belongs together in a capture, whose datagrams are taken one after another with the numbers of their frames."""

    def __init__(self):
        self.connections = []  # of each the address that began it, the other one, the connect id, and its two ways

    def take(self, frame, datagram):
        place = self.connection_of(datagram)
        first, _, _, there, back = self.connections[place]
        datagram.links['enet.connection'].append(place)
        way, other = (there, back) if datagram.source == first else (back, there)
        for command in datagram.commands:
            words = command.words
            send = self.sent(way, frame, datagram, words) if 'acknowledge' in words else None
            if command.kind == KINDS['CONNECT']:
                way.offered[words['connect_id']] = send
            elif command.kind == KINDS['VERIFY_CONNECT']:
                self.answered(other.offered.get(words['connect_id']), frame, datagram)
            elif command.kind == KINDS['ACKNOWLEDGE']:
                answered = other.sent.get((words['channel'], words['received_number'], words['received_time']))
                self.answered(answered, frame, datagram)
                datagram.links['enet.ack.delay'] += [datagram.at - answered.at] if answered else []

    def connection_of(self, datagram):
        identifier = next((command.words['connect_id'] for command in datagram.commands if command.kind == KINDS['CONNECT']), None)
        for place in reversed(range(len(self.connections))):
            first, second, begun, *_ = self.connections[place]
            if {first, second} == {datagram.source, datagram.target}:
                if identifier in (None, begun):
                    return place
                break
        self.connections.append((datagram.source, datagram.target, identifier, Way(), Way()))
        return len(self.connections) - 1

    def sent(self, way, frame, datagram, words):
        key, time = (words['channel'], words['number']), datagram.header.get('enet.sent_time')
        way.asked += 1
        was_seen = time is not None and way.asked - way.last.get((*key, time), -REACH) <= REACH
        was_sent = way.asked - way.last.get(key, -REACH) <= REACH
        way.last[key] = way.last[(*key, time)] = way.asked
        if was_seen:
            send = way.sent[(*key, time)]
            datagram.links['enet.repeat_of'].append(send.frame)
            datagram.notes.append('Seen before, with the same sent time')
            send.frame, send.at = frame, datagram.at
        else:
            send = Send(frame, datagram.at)
            if was_sent:
                datagram.links['enet.resend_of'].append(way.fresh[key].frame)
                datagram.notes.append('Sent again')
                way.fresh[key].resent_in = frame
            way.fresh[key] = send
            if time is not None:
                way.sent[(*key, time)] = send
        datagram.sends.append(send)
        return send

    def answered(self, send, frame, datagram):
        if send:
            datagram.links['enet.acks'].append(send.frame)
            send.acked_by = send.acked_by or frame


def reckon(frames, datagrams):
    """Puts what belongs together at the datagrams of a capture, which stand in these frames."""
    reckoning = Reckoning()
    for frame, datagram in zip(frames, datagrams):
        reckoning.take(frame, datagram)
    for datagram in datagrams:
        datagram.links['enet.acked_by'] = [send.acked_by for send in datagram.sends if send.acked_by]
        datagram.links['enet.resent_in'] = [send.resent_in for send in datagram.sends if send.resent_in]


# Comparing -------------------------------------------------------------------------------------------------------------------------------


def wanted(datagram):
    """The values that tshark must show of a datagram, by field."""
    found = collections.defaultdict(list)
    for field, value in datagram.header.items():
        found[field].append(value)
    for command in datagram.commands:
        found['enet.command'].append(str(command.kind))
        for word, name in WORDS.items():
            value = command.words.get(word, '0' if word in FLAGS else None)
            if value not in (None, '-'):
                found[f'enet.{name}'].append(value)
    for field, values in datagram.links.items():
        found[field] += map(str, values)
    found['_ws.expert.message'] += datagram.notes
    found['_ws.expert.severity'] += [NOTE] * len(datagram.notes)
    if datagram.stop:
        stop, place, rest = datagram.stop
        found['enet.stop'].append(stop.split()[0][1:])
        found['enet.stop.place'].append(str(place))
        found['enet.unread'] += [] if rest == '-' else [rest]
        found['_ws.expert.message'].append(f'{stop} at byte {place}')
        found['_ws.expert.severity'].append(ERROR)
    return {field: values for field, values in found.items() if values}


def difference(datagram, values):
    """Where the values that tshark shows of a datagram aren't the wanted ones; None where they all are."""
    if 'enet.stop' in values:
        values['_ws.expert.message'][-1] = values['_ws.expert.message'][-1].split(':')[0]
    right = wanted(datagram)
    for field in FIELDS:
        if values.get(field) != right.get(field):
            is_shown, is_right = (','.join(each.get(field, ['nothing']))[:200] for each in (values, right))
            return f'{field} is {is_shown} where {is_right} is wanted'
    return None


def compare(name, datagrams, frames):
    """Of each datagram of a capture whether tshark shows it right, and its name with what differs."""
    found = dict(frames)
    yield len(found) == len(datagrams), f'{name}: tshark shows {len(found)} datagrams where inspect tells {len(datagrams)}'
    reckon(found, datagrams)
    for (frame, values), datagram in zip(found.items(), datagrams):
        differs = difference(datagram, values)
        yield differs is None, f'{name}, frame {frame}: {differs}'


# Captures --------------------------------------------------------------------------------------------------------------------------------


def captured():
    """The datagrams of trials/captured, each file between addresses of its own."""
    for number, path in enumerate(sorted(glob.glob('trials/captured/*.txt'))):
        for at, source, target, payload in timeline.captured(path):
            yield at, source.replace('10.0.0.1', f'10.0.{number}.1'), target, payload


class Lab:
    """A run of `enet_relay lab`, which answers each line at once."""

    def __init__(self, program):
        self.run = subprocess.Popen([program, 'lab'], stdin=subprocess.PIPE, stdout=subprocess.PIPE, text=True)

    def ask(self, *lines):
        self.run.stdin.write(''.join(f'{line}\n' for line in lines))
        self.run.stdin.flush()
        answers = [self.run.stdout.readline() for _ in lines]
        if '' in answers:
            raise ValueError(f'the lab ended at {lines[answers.index("")]}')
        return [answer.rstrip('\n') for answer in answers]

    def end(self):
        self.run.stdin.close()
        self.run.stdout.close()
        self.run.wait()


class Talk:
    """Two hosts that talk over a bad line, all of it drawn from a seed, as a capture at the end of A, the client, has it."""

    STEP = 20  # milliseconds
    SERVER = '10.0.0.2:47001'

    def __init__(self, program, seed):
        self.draw = random.Random(seed)
        self.lab = Lab(program)
        self.client = f'10.2.{seed}.1:4660'
        self.peers = {'A': None, 'B': None}
        self.on_the_way = []  # by the step in which it arrives, the host that it comes to, and its number
        self.sent = {}  # the bytes of each datagram of B
        self.capture = []
        self.now = 0
        self.is_down = False

    def talk(self, datagrams):
        """So many datagrams."""
        self.lab.ask('open 1 2 1 2', f'tick A {self.draw.randrange(60000)}', f'tick B {self.draw.randrange(60000)}')
        while len(self.capture) < datagrams:
            self.step()
        self.lab.end()
        return self.capture[:datagrams]

    def step(self):
        self.now += 1
        self.is_down = self.now % 500 in range(400, 430)
        self.arrive()
        orders = self.orders('A') + self.orders('B') + [f'tick A {self.STEP}', f'tick B {self.STEP}']
        answers = self.lab.ask(*orders, *['turn A', 'turn B'] * 2)[len(orders):]
        while True:
            for answer in answers:
                self.put(answer)
            if answers[-2:] == ['none', 'none']:
                break
            answers = self.lab.ask('turn A', 'turn B')

    def arrive(self):
        """What comes now, and each third time what the users take of it."""
        here = sorted(each for each in self.on_the_way if each[0] <= self.now)
        self.on_the_way = [each for each in self.on_the_way if each[0] > self.now]
        for _, host, number in here:
            if host == 'A':
                self.see(self.SERVER, self.client, self.sent[number])
        self.lab.ask(*(f'deliver {host} {number}' for _, host, number in here))
        if self.now % 3 == 0:
            self.take('A')
            self.take('B')

    def take(self, host):
        """Takes all that a host has for its user."""
        answers = []
        while 'none' not in answers:
            answers += self.lab.ask(*[f'take {host}'] * 4)
        for words in map(str.split, answers):
            if words[0] in ('connect', 'disconnect'):
                self.peers[host] = words[1] if words[0] == 'connect' else None

    def orders(self, host):
        """A user's orders."""
        peer = self.peers[host]
        if peer is None:
            return [f'connect A 2 7 {self.draw.randrange(1 << 32):08x}'] if host == 'A' and self.now % 40 == 1 else []
        if self.draw.random() < 0.002:
            word = self.draw.choice(['ask', 'later', 'now'])
            self.peers[host] = None if word == 'now' else peer
            return [f'{word} {host} {peer} 5']
        return [self.submission(host, peer) for _ in range(self.draw.randrange(3))]

    def submission(self, host, peer):
        size = self.draw.choice([0, 8, 8, 8, 40, 40, 40, 300, 300, 3000])
        body = bytes([self.draw.randrange(256)]) * size
        return f'submit {host} {peer} {self.draw.randrange(2)} {self.draw.choice([0, 1, 1, 1, 2, 8])} {body.hex() or "-"}'

    def put(self, answer):
        """Puts a datagram that a host gave on the line."""
        found = re.fullmatch(r'([AB])#(\d+) ([0-9a-f]+)', answer)
        if not found:
            return
        host, number, payload = found[1], int(found[2]), bytes.fromhex(found[3])
        if host == 'A':
            self.see(self.client, self.SERVER, payload)
        else:
            self.sent[number] = payload
        for _ in range(1 + (self.draw.random() < 0.03)):
            delay = 1 + self.draw.randrange(3) + 10 * (self.draw.random() < 0.03)
            if self.draw.random() >= 0.1 and not self.is_down:
                self.on_the_way.append((self.now + delay, 'AB'[host == 'A'], number))

    def see(self, source, target, payload):
        self.capture.append((1000000000 + self.now * self.STEP * 1000 + len(self.capture) % 1000, source, target, payload))


def lossy(program, seeds, datagrams):
    """Talks of so many datagrams each, drawn from seeds, at once, and a compressed datagram of a stranger."""
    with concurrent.futures.ThreadPoolExecutor() as pool:
        talks = list(pool.map(lambda seed: Talk(program, seed).talk(datagrams), seeds))
    stranger = (1900000000, '10.2.0.1:5000', Talk.SERVER, bytes.fromhex('4fff00010203'))
    return sorted(itertools.chain(*talks)) + [stranger]


ENDS = ('10.3.0.1:4660', '10.3.0.2:47001')


def drawn_command(draw):
    """A command of any kind, with numbers of any size; few numbers, where many would hide what belongs together."""
    kind = draw.choice(list(timeline.LENGTHS))
    flags = draw.choice([0x00, 0x40, 0x80, 0x80, 0x80, 0xb0])
    head = struct.pack('>BBH', kind | flags, draw.choice([0, 0, 1, 7, 255]), draw.choice([1, 2, 3, 0xffff, draw.randrange(65536)]))
    fields = bytearray(draw.randbytes(timeline.LENGTHS[kind] - 4))
    if kind == 1:
        fields[:] = struct.pack('>HH', draw.choice([1, 2, 3, 0xffff]), draw.choice([100, 200, 65535]))
    if kind in (2, 3):
        fields[36:40] = struct.pack('>I', draw.choice([0x01020304, 0x01020304, 0x01020304, 0xfffefdfc]))
    payload = b''
    if kind in timeline.PAYLOADS:
        payload = draw.randbytes(draw.choice([0, 0, 1, 2, 19, 300]))
        place = timeline.PAYLOADS[kind] - 4
        fields[place:place + 2] = struct.pack('>H', len(payload))
    return head + fields + payload


def drawn(seed, datagrams):
    """Datagrams from the wire format, of commands that have more often to do with one another than chance would have it."""
    draw = random.Random(seed)
    for number in range(datagrams):
        word = draw.randrange(4096) | draw.randrange(4) << 12 | draw.choice([0, 0x8000, 0x8000])
        header = struct.pack('>HH', word, draw.choice([100, 200, 65535])) if word & 0x8000 else struct.pack('>H', word)
        payload = header + b''.join(drawn_command(draw) for _ in range(draw.choice([0, 1, 1, 2, 3, 20])))
        yield 2000000000 + 777 * number, *draw.sample(ENDS, 2), payload


def far_apart():
    """Sends with one number, so far behind one another that the second is sent again, or no longer."""
    reliable = struct.pack('>BBHH', 0x86, 0, 9, 0)
    at = 3000000000
    for between in (REACH - 1, REACH):
        for i, time in enumerate((1, 2)):
            yield at + i, *ENDS, struct.pack('>HH', 0x8000 | between & 7, time) + reliable
            count = 0
            while i == 0 and count < between:
                many = min(100, between - count)
                pings = b''.join(struct.pack('>BBH', 0x85, 255, 20000 + count + each) for each in range(many))
                yield at, *ENDS, struct.pack('>HH', 0x8000, 5) + pings
                count += many
        yield at + 2, *ENDS, struct.pack('>HH', 0x8000, 6) + b''.join(struct.pack('>BBH', 0x85, 254, each) for each in range(REACH))
        at += 10


def cut_short(captured):
    """Of each kind of command the shortest captured datagram that has it, cut at each length."""
    shortest = {}
    for _, source, target, payload in captured:
        for kind, *_ in timeline.commands(payload)[0]:
            shortest[kind] = min(shortest.get(kind, payload), payload, key=len)
    for payload in shortest.values():
        yield from (payload[:length] for length in range(len(payload) + 1))


def hostile(captured):
    """Datagrams that can't be read, or only as far as something in them."""
    yield from cut_short(captured)
    ping, more = bytes.fromhex('85ff0003'), bytes.fromhex('00' * 20)
    for kind in range(16):
        for flags in range(0, 256, 16):
            yield struct.pack('>H', 0) + bytes([kind | flags]) + more
            yield struct.pack('>HH', 0x8001, 9) + ping + bytes([kind | flags]) + more[:kind]
    for word in (0x4000, 0x7fff, 0xc000, 0xffff):
        for length in range(7):
            yield (struct.pack('>H', word) + ping)[:length]
    draw = random.Random(5)
    for _ in range(400):
        yield draw.randbytes(draw.randrange(60))
        whole = struct.pack('>HH', 0x8001, 9) + b''.join(drawn_command(draw) for _ in range(3))
        yield whole[:draw.randrange(len(whole))]


def malformed(captured):
    """These. Wireshark hands an empty datagram to no dissector."""
    for number, payload in enumerate(filter(None, hostile(captured))):
        yield 4000000000 + number, *ENDS, payload


# The cases -------------------------------------------------------------------------------------------------------------------------------
# Each is what is to be counted: of each thing that is tried whether it holds, and what is to be said if it doesn't.


def read_by_both(program, dissector, path, *options):
    """A capture."""
    datagrams = told(program, path)
    yield from compare(os.path.basename(path), datagrams, shown(dissector, path, *options))


def read_made(tools, name, made, *options):
    """A capture that is made of datagrams."""
    program, dissector, room = tools
    timeline.write(f'{room}/{name}.pcap', made)
    yield from read_by_both(program, dissector, f'{room}/{name}.pcap', *options)


def read_lossy(tools, *options):
    yield from read_made(tools, 'lossy', lossy(tools[0], range(1, 5), 2500), *options)


def rows_shown(name, dissector, path, wanted_rows, fields, *options):
    """Whether tshark shows these rows of fields of a capture."""
    asked = [word for field in fields.split() for word in ('-e', field)]
    rows = tshark(dissector, path, '-2', '-T', 'fields', '-E', 'separator= ', *asked, *options).splitlines()
    return rows == wanted_rows, f'{name}: {rows[:SHOWN]} where {wanted_rows[:SHOWN]} is wanted'


def which_ports(tools):
    """Nothing is ENet's until it is said so, and what was said to be is."""
    _, dissector, room = tools
    path = f'{room}/ports.pcap'
    ping = bytes.fromhex('000005ff0001')
    timeline.write(path, [(at, '10.0.0.1:4660', f'10.0.0.2:{port}', ping) for at, port in enumerate((47001, 47002, 50000))])
    shows = ('frame.number', '-Y', 'enet')
    yield rows_shown('no port', dissector, path, [], *shows)
    yield rows_shown('ports', dissector, path, ['1', '3'], *shows, '-o', 'enet.ports:47001,49999-50001')
    yield rows_shown('Decode As', dissector, path, ['2'], *shows, '-d', 'udp.port==47002,enet')


def record(whole, kept=None):
    """A packet in a capture, of which so many bytes were kept."""
    part = whole[:kept]
    return struct.pack('<IIII', 0, 0, len(part), len(whole)) + part


def quoted_by_icmp(tools):
    """A datagram that an error message quotes wasn't sent again."""
    _, dissector, room = tools
    path, (client, server) = f'{room}/icmp.pcap', ENDS
    ping = timeline.packet(client, server, bytes.fromhex('8000 0064 85000001'))
    answer = timeline.packet(server, client, bytes.fromhex('0000 01000001 0001 0064'))
    error = struct.pack('>BBHHHBBH4s4s', 0x45, 0, 28 + len(ping), 1, 0, 64, 1, 0, ping[16:20], ping[12:16])
    error += struct.pack('>BBHI', 3, 3, 0, 0)
    timeline.write(path, [], record(ping) + record(error + ping) + record(answer))
    yield rows_shown('quoted by ICMP', dissector, path, ['1 5 3 ', '2 5  ', '3 1  1'],
                     'frame.number enet.command enet.acked_by enet.acks', '-o', 'enet.ports:47001')


def short_capture(tools):
    """What a capture lacks isn't missing in the datagram."""
    _, dissector, room = tools
    path, all_kept = f'{room}/short.pcap', (1, 2, 3, 9, 12, 13)
    whole = timeline.packet(*ENDS, bytes.fromhex('0000 05ff0001 860000020004') + b'body')
    timeline.write(path, [], b''.join(record(whole, 28 + kept) for kept in all_kept))
    yield rows_shown('cut by the capture', dissector, path, [f"The capture has {kept} of the datagram's 16 bytes " for kept in all_kept],
                     '_ws.expert.message enet.stop', '-o', 'enet.ports:47001')


def has_resent(datagram):
    return bool(datagram.links['enet.resend_of'])


def has_reliable(datagram):
    return any(command.kind == KINDS['SEND_RELIABLE'] for command in datagram.commands)


# The filters that docs/CAPTURES.md shows, and which datagrams each lets through.
FILTERS = {
    'enet.command == 6 && enet.resent': lambda each: has_reliable(each) and has_resent(each),
    'enet.resent_in && !enet.acked_by': lambda each: each.links['enet.resent_in'] and not each.links['enet.acked_by'],
    'enet.ack.delay > 0.1': lambda each: any(delay > 100000 for delay in each.links['enet.ack.delay']),
    'enet.connection == 1': lambda each: each.links['enet.connection'] == [1],
    'enet.stop': lambda each: each.stop,
}


def documents(tools):
    """The command that docs/CAPTURES.md shows, and its filters."""
    program, dissector, room = tools
    with open('docs/CAPTURES.md', encoding='utf-8') as file:
        text = file.read()
    path = f'{room}/game.pcap'
    timeline.write(path, lossy(program, [9], 1000))
    datagrams = told(program, path)
    reckon(range(1, len(datagrams) + 1), datagrams)
    lines = re.findall(r'^    (tshark .*)$', text, re.M)
    yield len(lines) == 1, f'docs/CAPTURES.md has {len(lines)} commands of tshark where 1 is wanted'
    for line in lines:
        done = subprocess.run(['bash', '-c', line.replace(DISSECTOR, dissector)], cwd=room, capture_output=True, text=True, check=False)
        rows, right = len(done.stdout.splitlines()), len(list(filter(FILTERS['enet.command == 6 && enet.resent'], datagrams)))
        yield done.returncode == 0 and rows == right, f'{line} shows {rows} rows where {right} are wanted: {done.stderr}'
    filters = re.findall(r'^\| `(enet\.[^`]*)` \|', text, re.M)
    yield filters == list(FILTERS), f'docs/CAPTURES.md shows the filters {filters} where {list(FILTERS)} are wanted'
    for words, lets_through in FILTERS.items():
        right = [str(frame) for frame, datagram in enumerate(datagrams, 1) if lets_through(datagram)]
        yield right, f'{words} lets nothing through'
        yield rows_shown(words, dissector, path, right, 'frame.number', '-Y', words, '-o', 'enet.ports:47001')


def cases(tools):
    ports, decode_as = ('-o', 'enet.ports:1-4659,4660,47000-47010'), ('-d', 'udp.port==47001,enet')
    kept = list(captured())
    yield [(len(kept) == 446, f'trials/captured has {len(kept)} datagrams where 446 are wanted')]
    yield read_lossy(tools, *decode_as)
    yield documents(tools)
    yield read_made(tools, 'captured', kept, *ports)
    yield read_made(tools, 'drawn', drawn(1, 1000), *ports)
    yield read_made(tools, 'far-apart', far_apart(), *ports)
    yield read_made(tools, 'malformed', malformed(kept), *decode_as)
    yield which_ports(tools)
    yield quoted_by_icmp(tools)
    yield short_capture(tools)


def has_tshark():
    """Whether tshark is there, or could be installed."""
    if shutil.which('tshark') is None and os.geteuid() == 0:
        subprocess.run(['bash', '-c', '. scripts/lib/packages.sh && install_packages --no-install-recommends tshark'], check=False,
                       env=os.environ | {'DEBIAN_FRONTEND': 'noninteractive'}, stdout=subprocess.DEVNULL, stderr=subprocess.DEVNULL)
    return shutil.which('tshark') is not None


def results_of(case):
    """What is to be counted of a case, which may end early."""
    try:
        yield from case
    except (OSError, ValueError, subprocess.SubprocessError) as error:
        yield False, f'a case ended early: {error}'


def check_all(counts, program, dissector, captures):
    """Runs the cases side by side."""
    with tempfile.TemporaryDirectory() as room, concurrent.futures.ThreadPoolExecutor() as pool:
        named = [read_by_both(program, dissector, capture, '-o', 'enet.ports:1-65535') for capture in captures]
        for results in pool.map(lambda case: list(results_of(case)), named or cases((program, dissector, room))):
            for holds, what in results:
                counts.check(holds, what)


def main():
    words, dissector = sys.argv[1:], os.path.join(os.path.dirname(__file__), '..', '..', DISSECTOR)
    if words[:1] == ['--dissector']:
        dissector, words = words[1], words[2:]
    dissector, words = os.path.realpath(dissector), [os.path.realpath(word) for word in words]
    os.chdir(os.path.join(os.path.dirname(os.path.abspath(__file__)), '..', '..'))
    program, *captures = words or [os.path.realpath(PROGRAM)]
    counts = Counts()
    if not has_tshark():
        print('SKIPPED: tshark is missing')
    elif not os.access(program, os.X_OK):
        counts.check(False, f"{program}: it isn't there: run 'rt ci', or 'rt run' in crates/enet_relay")
    else:
        check_all(counts, program, dissector, captures)
    print(f'{counts.passed} passed, {counts.failed} failed')
    return 1 if counts.failed else 0


if __name__ == '__main__':
    sys.exit(main())
