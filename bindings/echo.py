# echo.py LIBRARY [HOST]: LIBRARY is lib/libgofnjerta.so
import ctypes as c, secrets, socket, sys

class Config(c.Structure): _fields_ = [("peers", c.c_uint16), ("channels", c.c_uint8)] + [(n, c.c_uint32) for n in
    "mtu incoming outgoing max_packet max_waiting generations clock".split()]
class Address(c.Structure): _fields_ = [("ip", c.c_uint32), ("port", c.c_uint16)]
class Peer(c.Structure): _fields_ = [("slot", c.c_uint16), ("generation", c.c_uint32)]
class Datagram(c.Structure): _fields_ = [("length", c.c_uint32), ("to", Address), ("peer", Peer)]
class Event(c.Structure): _fields_ = [("kind", c.c_uint32), ("info", c.c_uint32), ("peer", Peer), ("channel", c.c_uint8),
    ("flags", c.c_uint8), ("length", c.c_uint64)]
class Host(c.Structure): _fields_ = [("at", c.c_void_p), ("is_open", c.c_bool)]

lib = c.CDLL(sys.argv[1])
lib.gofnjerta_standard.restype = Config
number = lambda ip: int.from_bytes(socket.inet_aton(ip), "big")
client = len(sys.argv) > 2
host, peer, out, event = Host(), Peer(), Datagram(), Event()
room = c.create_string_buffer(65536)
net = socket.socket(socket.AF_INET, socket.SOCK_DGRAM)
net.bind(("", 0 if client else 7777))
net.settimeout(0.01)
settings = lib.gofnjerta_standard(1 if client else 1056, 2) # slots for 32 players, and for 1,024 that ask
settings.generations = 0xFFFFFFFF
settings.max_packet, settings.max_waiting = 65536, 262144 # what `room` has room for, and some packets of that length
assert lib.gofnjerta_open(c.byref(host), c.byref(settings)) == 0
word = secrets.randbits(32) # names the connection; whoever can guess it can be taken for the server
assert lib.gofnjerta_set_secret(c.byref(host), secrets.token_bytes(32)) == 0
if not client: assert lib.gofnjerta_give_way(c.byref(host)) == 0 and lib.gofnjerta_set_most(c.byref(host), 32) == 0
if client: assert lib.gofnjerta_connect(c.byref(host), Address(number(sys.argv[2]), 7777), 2, 0, word, c.byref(peer)) == 0
while True:
    while lib.gofnjerta_service(c.byref(host), room, c.c_size_t(4096), c.byref(out)) == 0 and out.length:
        net.sendto(room.raw[:out.length], (socket.inet_ntoa(out.to.ip.to_bytes(4, "big")), out.to.port))
    try:
        data, (ip, port) = net.recvfrom(65536)
        if port: lib.gofnjerta_receive(c.byref(host), Address(number(ip), port), data, c.c_size_t(len(data)), None)
    except socket.timeout: pass
    lib.gofnjerta_tick(c.byref(host), 10)
    while lib.gofnjerta_next_event(c.byref(host), c.byref(event)) == 0 and event.kind:
        if event.kind == 1 and client: lib.gofnjerta_submit(c.byref(host), event.peer, 0, 1, b"hello", c.c_size_t(5))
        if event.kind == 2 and client: sys.exit()
        if event.kind != 3 or lib.gofnjerta_body(c.byref(host), room, c.c_size_t(65536)): continue
        if client: print("got", room.raw[:event.length].decode()), lib.gofnjerta_disconnect_later(c.byref(host), event.peer, 0)
        else: lib.gofnjerta_submit(c.byref(host), event.peer, event.channel, event.flags, room, c.c_size_t(event.length))
