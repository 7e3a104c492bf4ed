"""Python's binding of libenet (Debian's python3-enet), on whichever libenet.so.7 the loader finds: `binding.py serve PORT` sends back what
comes until its client leaves, `binding.py visit PORT` has packets of 0 to 20,000 bytes sent back, reliable and unreliable ones, and
leaves. Status 0 where all came as it should."""
import sys

import enet

LENGTHS = (0, 1, 1363, 1364, 1365, 2728, 20000)


def body(number, length):
    return bytes((number * 31 + i * 7) % 256 for i in range(length))


def serve(address):
    host = enet.Host(address, 4, 2, 0, 0)
    for _ in range(6000):
        event = host.service(50)
        if event.type == enet.EVENT_TYPE_RECEIVE:
            flags = enet.PACKET_FLAG_RELIABLE if event.channelID == 0 else 0
            event.peer.send(event.channelID, enet.Packet(event.packet.data, flags))
        elif event.type == enet.EVENT_TYPE_DISCONNECT:
            return event.data == 7
    return False


def visit(address):
    host = enet.Host(None, 1, 2, 0, 0)
    peer = host.connect(address, 2, 42)
    if host.service(60000).type != enet.EVENT_TYPE_CONNECT or peer.state != enet.PEER_STATE_CONNECTED:
        return False
    for number, length in enumerate(LENGTHS):
        peer.send(0, enet.Packet(body(number, length), enet.PACKET_FLAG_RELIABLE))
    peer.send(1, enet.Packet(body(99, 100), 0))
    wanted, came = {0: [body(number, length) for number, length in enumerate(LENGTHS)], 1: [body(99, 100)]}, {0: [], 1: []}
    for _ in range(1200):
        event = host.service(50)
        if event.type == enet.EVENT_TYPE_RECEIVE:
            came[event.channelID].append(event.packet.data)
        if came == wanted:
            break
    peer.disconnect(7)
    for _ in range(1200):
        if host.service(50).type == enet.EVENT_TYPE_DISCONNECT:
            return came == wanted
    return False


role, port = sys.argv[1], int(sys.argv[2])
sys.exit(0 if {"serve": serve, "visit": visit}[role](enet.Address(b"127.0.0.1", port)) else 1)
