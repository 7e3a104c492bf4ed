#!/usr/bin/env python3
"""A stand-in for the sidecar of Agones' SDK, for tests without Kubernetes: the calls that deploy/agones/agones_run.sh makes, on 127.0.0.1.
sidecar_stub.py PORT. Each call that tells it something, and each state that it is told, goes to standard output, a line each. Who is a matchmaker
calls /allocate."""
import http.server
import json
import sys

STATES = {"/ready": "Ready", "/allocate": "Allocated", "/shutdown": "Shutdown"}


class Handler(http.server.BaseHTTPRequestHandler):
    protocol_version = "HTTP/1.1"
    state = "Scheduled"

    def do_POST(self):
        length = int(self.headers.get("Content-Length", 0) or 0)
        self.rfile.read(length)
        known = self.path in STATES or self.path == "/health"
        if known:
            Handler.state = STATES.get(self.path, Handler.state)
            print(STATES.get(self.path, "health"), flush=True)
        self.answer(known, {})

    def do_GET(self):
        self.answer(self.path == "/gameserver", {"object_meta": {"name": "here"}, "status": {"state": Handler.state, "address": "127.0.0.1"}})

    def answer(self, known, told):
        text = json.dumps(told, separators=(",", ":")).encode()
        self.send_response(200 if known else 404)
        self.send_header("Content-Type", "application/json")
        self.send_header("Content-Length", str(len(text)))
        self.end_headers()
        self.wfile.write(text)

    def log_message(self, *words):
        pass


http.server.ThreadingHTTPServer(("127.0.0.1", int(sys.argv[1])), Handler).serve_forever()
