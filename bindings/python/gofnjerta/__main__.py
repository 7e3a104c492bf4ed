"""`python3 -m gofnjerta echo PORT` sends each packet back to its sender, on its channel and as it came, until it is stopped."""

from __future__ import annotations

import sys

from . import Address, Connect, Disconnect, Endpoint, Error, Receive, Why


def echo(at: Address) -> None:
    """Serves at this address of the machine."""
    with Endpoint.server(at) as server:
        print(f"listening at {server.address.ip}:{server.address.port}", flush=True)
        while True:
            event = server.service(1.0)
            if isinstance(event, Connect):
                print(f"{event.peer} from {event.address.ip}:{event.address.port}", flush=True)
            elif isinstance(event, Disconnect):
                print(f"{event.peer} at {event.address.ip}:{event.address.port} has gone", flush=True)
            elif isinstance(event, Receive):
                try:
                    server.submit(event.peer, event.channel, event.data, event.delivery)
                except Error as error:
                    # The peer may have gone since.
                    if error.number not in (Why.NO_SUCH_PEER, Why.NOT_CONNECTED):
                        raise


def main() -> int:
    """The status of the command line: `echo PORT`, at all addresses of the machine, or `echo IP:PORT`."""
    words = sys.argv[1:]
    ip, _, port = words[1].rpartition(":") if len(words) == 2 else ("", "", "")
    if words[:1] != ["echo"] or not port.isdecimal() or not 0 < int(port) < 65536:
        print("usage: python3 -m gofnjerta echo PORT", file=sys.stderr)
        return 2
    try:
        echo(Address(ip or "0.0.0.0", int(port)))
    except KeyboardInterrupt:
        pass
    return 0


if __name__ == "__main__":
    sys.exit(main())
