"""Debian's python3-enet: `visit.py serve|visit PORT plain|checksum|intercept|coder|all`. The client has packets sent back, and leaves; with
`intercept` the server also answers a datagram of its own kind that is no ENet; with `coder` both have the range coder, and `all` is all three.
With the coder no packet is empty, of which libenet's dies. Status 0 where all came as it should."""
import socket
import sys
import time

import enet

role, port, way = sys.argv[1], int(sys.argv[2]), sys.argv[3]
sums, intercepts, codes = (way in (each, "all") for each in ("checksum", "intercept", "coder"))
LENGTHS = (2 if codes else 0, 1, 1363, 1364, 1365, 2728, 20000)
asked = []


def answer(address, data):
    if data != b"ask":
        return False
    asked.append(data)
    return True


def body(number, length):
    return bytes((number * 31 + i * 7) % 256 for i in range(length))


def host_at(address, peers):
    host = enet.Host(address, peers, 2, 0, 0)
    if sums:
        host.checksum = enet.ENET_CRC32
    if codes:
        host.compress_with_range_coder()
    return host


def serve(address):
    host = host_at(address, 4)
    if intercepts:
        host.intercept = answer
    end = time.time() + 20
    while time.time() < end:
        event = host.service(50)
        if event.type == enet.EVENT_TYPE_RECEIVE:
            event.peer.send(event.channelID, enet.Packet(event.packet.data, enet.PACKET_FLAG_RELIABLE))
        elif event.type == enet.EVENT_TYPE_DISCONNECT:
            host.service(100)
            return event.data == 7 and len(asked) == intercepts
    return False


def visit(address):
    host = host_at(None, 1)
    peer = host.connect(address, 2, 42)
    if host.service(5000).type != enet.EVENT_TYPE_CONNECT or peer.state != enet.PEER_STATE_CONNECTED:
        return False
    peer.packetThrottleInterval = 1000
    if (peer.packetThrottleInterval, peer.packetThrottleAcceleration, peer.packetThrottleDeceleration) != (1000, 2, 2):
        return False
    socket.socket(socket.AF_INET, socket.SOCK_DGRAM).sendto(b"ask", ("127.0.0.1", port))
    wanted = [body(number, length) for number, length in enumerate(LENGTHS)]
    for data in wanted:
        peer.send(0, enet.Packet(data, enet.PACKET_FLAG_RELIABLE))
    came, end = [], time.time() + 15
    while came != wanted and time.time() < end:
        event = host.service(50)
        if event.type == enet.EVENT_TYPE_RECEIVE:
            came.append(event.packet.data)
    peer.disconnect(7)
    while time.time() < end:
        if host.service(50).type == enet.EVENT_TYPE_DISCONNECT:
            return came == wanted
    return False


sys.exit(0 if {"serve": serve, "visit": visit}[role](enet.Address(b"127.0.0.1", port)) else 1)
