#!/usr/bin/env python3
"""Runs the real peers over loopback: the site's jobs against vim_sim and against infrastructures that end connections or answer late, and
the orchestrator and the courier against servers of Python's standard library.

The programs are built and run by `rt run`, so a first run takes minutes. Prints what it saw, and ends with 1 where that differs from what
is wanted.
"""
import http.server
import os
import socket
import subprocess
import sys
import threading
import time

CRATES = os.path.join(os.path.dirname(os.path.abspath(__file__)), "..", "crates")
differs = False


def expect(what, seen, wanted):
    """Prints what was seen, and notes where it isn't what is wanted."""
    global differs
    print(f"{what}: {seen!r}", flush=True)
    if seen != wanted:
        print(f"  wanted: {wanted!r}", flush=True)
        differs = True


def start(crate, *words):
    """The program of this crate with these words."""
    return subprocess.Popen(["rt", "run", "--", *words], cwd=os.path.join(CRATES, crate), stdout=subprocess.PIPE,
                            stderr=subprocess.DEVNULL, text=True)


def calls(*words):
    """The lines that the calls print."""
    said = start("loopback_calls", *words).communicate()[0]
    return [line for line in said.splitlines() if ": " in line and " faults" in line]


def free_port():
    """A port that nobody listens at."""
    with socket.socket() as found:
        found.bind(("127.0.0.1", 0))
        return found.getsockname()[1]


def until_listening(port):
    """Waits until somebody listens there."""
    for _ in range(900):
        try:
            socket.create_connection(("127.0.0.1", port), timeout=10).close()
            return
        except OSError:
            time.sleep(1)
    sys.exit("nobody listened in 15 minutes")


class Infrastructure:
    """One that tells each job as running, in a thread for each connection. It ends a connection behind `lines` lines, and answers the line
    of number `late` only after `delay` seconds."""

    def __init__(self, lines=1000, late=0, delay=0.0):
        self.lines, self.late, self.delay = lines, late, delay
        self.listener = socket.create_server(("127.0.0.1", 0))
        self.port = self.listener.getsockname()[1]
        self.open = self.most = self.had = self.heard = 0
        self.lock = threading.Lock()
        threading.Thread(target=self.accept, daemon=True).start()

    def accept(self):
        while True:
            connection, _ = self.listener.accept()
            with self.lock:
                self.had += 1
                self.open += 1
                self.most = max(self.most, self.open)
            threading.Thread(target=self.serve, args=(connection,), daemon=True).start()

    def serve(self, connection):
        with connection:
            connection.settimeout(60)
            text = connection.makefile("rb")
            for _ in range(self.lines):
                line = text.readline()
                if not line:
                    break
                with self.lock:
                    self.heard += 1
                    number = self.heard
                if number == self.late:
                    time.sleep(self.delay)
                word = line.split(b" ")[0]
                try:
                    connection.sendall({b"BEGIN": b"BEGUN\n", b"LOOK": b"RUNNING\n", b"ABORT": b"ASKED\n"}[word])
                except OSError:
                    break
            text.close()
            with self.lock:
                self.open -= 1


class Grants(http.server.BaseHTTPRequestHandler):
    """An orchestrator that answers without a length, as http.server does by default: the answer ends with its connection."""

    def do_POST(self):
        self.rfile.read(int(self.headers["Content-Length"]))
        self.send_response(201)
        self.end_headers()
        self.wfile.write(b'{"id":"g1"}')

    def do_GET(self):
        self.send_response(202)
        self.end_headers()

    def log_message(self, *_):
        pass


def slow_server(answer, pause):
    """The port of a server that answers each request by these bytes, one at a time."""
    listener = socket.create_server(("127.0.0.1", 0))

    def serve():
        while True:
            connection, _ = listener.accept()
            with connection:
                connection.recv(65536)
                try:
                    for byte in answer:
                        connection.sendall(bytes([byte]))
                        time.sleep(pause)
                except OSError:
                    pass

    threading.Thread(target=serve, daemon=True).start()
    return listener.getsockname()[1]


def spent_by(call, *words):
    """The lines that the calls print, and the seconds that they take."""
    before = time.monotonic()
    lines = calls(call, *words)
    return lines, time.monotonic() - before


def full_listener():
    """A listener that takes no connection more: on loopback a connect to it gets no answer. And what fills it."""
    listener = socket.socket()
    listener.bind(("127.0.0.1", 0))
    listener.listen(0)
    held = []
    while True:
        one = socket.socket()
        one.settimeout(0.5)
        held.append(one)
        try:
            one.connect(listener.getsockname())
        except OSError:
            return listener, held


port = free_port()
server = start("vim_sim", "--listen", f"127.0.0.1:{port}", "--looks", "2")
until_listening(port)
expect("vim_sim", calls("vim", f"127.0.0.1:{port}"),
       ["look: absent, 0 faults", "begin: begun, 0 faults"] + ["look: running, 0 faults"] * 2 + ["look: done, 0 faults"] * 6
       + ["abort: asked, 0 faults"])
server.kill()
server.wait()

all_well = ["look: running, 0 faults", "begin: begun, 0 faults"] + ["look: running, 0 faults"] * 8 + ["abort: asked, 0 faults"]
kept = Infrastructure()
expect("a kept connection", calls("vim", f"127.0.0.1:{kept.port}"), all_well)
expect("connections", (kept.had, kept.most), (1, 1))
ending = Infrastructure(lines=3)
expect("an end behind every third line", calls("vim", f"127.0.0.1:{ending.port}"), all_well)
expect("connections", (ending.had, ending.most), (4, 1))

late = Infrastructure(late=2, delay=2.5)
expect("a begin that is answered after 2.5 s", calls("vim", f"127.0.0.1:{late.port}"),
       ["look: running, 0 faults", "begin: failed, 1 faults"] + ["look: running, 1 faults"] * 8 + ["abort: asked, 1 faults"])
expect("connections", (late.had, late.most), (2, 1))
silent = Infrastructure(late=2, delay=5.5)
expect("a begin that is answered after 5.5 s", calls("vim", f"127.0.0.1:{silent.port}"),
       ["look: running, 0 faults", "begin: failed, 1 faults", "look: failed, 2 faults", "look: failed, 3 faults", "look: failed, 4 faults"]
       + ["look: running, 4 faults"] * 5 + ["abort: asked, 4 faults"])
expect("connections", (silent.had, silent.most), (2, 1))

grants = http.server.HTTPServer(("127.0.0.1", 0), Grants)
threading.Thread(target=grants.serve_forever, daemon=True).start()
expect("an orchestrator whose answers end with their connections", calls("ask", f"127.0.0.1:{grants.server_port}"),
       ['ask: 201 {"id":"g1"}, 0 faults'] * 2 + ["poll: 202 , 0 faults"])
chunked = b"HTTP/1.1 100 Continue\r\n\r\nHTTP/1.1 201 Created\r\nTransfer-Encoding: chunked\r\n\r\n2\r\n{}\r\n0\r\n\r\n"
expect("chunks, a byte at a time, behind a 100", calls("ask", f"http://127.0.0.1:{slow_server(chunked, 0.001)}/grants"),
       ["ask: 201 {}, 0 faults"] * 2 + ["poll: 201 {}, 0 faults"])
posted, spent = spent_by("post", f"http://127.0.0.1:{slow_server(b'HTTP/1.1 204 No Content' + b' ' * 1000, 0.1)}/n")
expect("a byte each 100 ms", posted, ["post: failed, 1 faults", "post: failed, 2 faults"])
expect("each post ends by its limit of 5 s, and not before", 10 <= spent < 12, True)
asked, spent = spent_by("ask", f"http://127.0.0.1:{slow_server(b'HTTP/1.1 201 Created' + b' ' * 1000, 0.1)}/grants")
expect("a byte of an orchestrator each 100 ms", asked, ["ask: failed, 1 faults", "ask: failed, 2 faults", "poll: failed, 3 faults"])
expect("each ask and poll ends by its limit of 5 s, and not before", 15 <= spent < 18, True)
looked, spent = spent_by("vim", f"127.0.0.1:{slow_server(b'RUNNING' * 3, 0.9)}")
expect("a byte of an infrastructure each 900 ms, calls that failed", sum(": failed, " in line for line in looked), 11)
expect("the first ends by its limit of 5 s, and none behind it waits, beside the 8 s between them", 13 <= spent < 19, True)
listener, held = full_listener()
asked, spent = spent_by("ask", f"127.0.0.1:{listener.getsockname()[1]}")
expect("an orchestrator that takes no connection", asked, ["ask: failed, 1 faults", "ask: failed, 2 faults", "poll: failed, 3 faults"])
expect("each connect ends by its limit of 1 s, and not before", 3 <= spent < 5, True)
expect("a callback", calls("post", f"http://127.0.0.1:{slow_server(b'HTTP/1.1 204 No Content' + bytes([13, 10, 13, 10]), 0)}/n"),
       ["post: 204, 0 faults"] * 2)
sys.exit(differs)
