"""A master server of Cube 2: takes one registration by TCP at port 28787 and says that it succeeded. Status 0 where one came within 20 seconds."""
import socket
import sys
import time

listener = socket.socket()
listener.setsockopt(socket.SOL_SOCKET, socket.SO_REUSEADDR, 1)
listener.bind(("127.0.0.1", 28787))
listener.listen(1)
listener.settimeout(20)
try:
    peer, _ = listener.accept()
    peer.settimeout(10)
    said = b""
    while b"\n" not in said:
        more = peer.recv(100)
        if not more:
            break
        said += more
    peer.sendall(b"succreg\n")
    time.sleep(1)
except OSError as error:
    sys.exit(str(error))
sys.exit(0 if said.startswith(b"regserv 28785") else "another word: %r" % said)
