#!/usr/bin/env python3
"""Measures what others notice of many, slow, silent, wrong and closing clients, and of peers that fail, over `vnfm serve` on loopback: how long an
operation of thirteen changes takes, and what a GET takes beside them on a connection that is kept.

usage: bench/door/shapes.py [VNFM [SHAPE ..]]     SHAPE: a word that stands in a shape's name; without one all are made

It takes some five minutes; nothing else may run on the machine.
"""
import http.server
import json
import pathlib
import socket
import sys
import tempfile
import threading
import time

sys.dont_write_bytecode = True
from serving import BASE, SHAPES, Door, clients, example, looked_at, served

OPERATIONS = 3
BUSY = "16 back to back, kept, closing and HTTP/1.0, at both addresses"
wanted = sys.argv[2:]


def shape_of_clients(shape):
    with served() as door, clients(door, shape):
        with looked_at(door) as looker:
            time.sleep(1)
            took = [door.operation() for _ in range(OPERATIONS)]
            time.sleep(1)
    times = ", ".join(f"{seconds:.2f} s {state}" for seconds, state in took)
    print(f"{shape}: operations {times}; {looker.told()}", flush=True)


class Receiver(http.server.BaseHTTPRequestHandler):
    """A receiver of notices that answers so until a moment, and 204 from then on."""
    status, until, taken, tries = 500, 0.0, [], []
    protocol_version = "HTTP/1.1"

    def do_POST(self):
        body = self.rfile.read(int(self.headers["Content-Length"]))
        Receiver.tries.append(time.monotonic())
        status = Receiver.status if time.monotonic() < Receiver.until else 204
        if status == 204:
            Receiver.taken.append(json.loads(body)["notificationType"])
        self.send_response(status)
        self.send_header("Content-Length", "0")
        self.end_headers()

    def log_message(self, *_):
        pass


def shape_of_receiver():
    """A receiver answers 500 for 25 s while clients ask, and no operation goes on: whether its notice comes."""
    server = http.server.ThreadingHTTPServer(("127.0.0.1", 0), Receiver)
    threading.Thread(target=server.serve_forever, daemon=True).start()
    with tempfile.TemporaryDirectory() as folder, example("orchestrator.py") as orchestrator, example("adapter.py") as vim:
        with Door(pathlib.Path(folder), orchestrator, vim) as door:
            door.ask("POST", "/vnflcm/v1/subscriptions", {"callbackUri": f"http://127.0.0.1:{server.server_port}/n"})
            with clients(door, BUSY):
                Receiver.until = time.monotonic() + 25
                begun = time.monotonic()
                door.ask("POST", BASE, {"vnfdId": "vnfd-1"})
                while time.monotonic() - begun < 45 and not Receiver.taken:
                    time.sleep(0.1)
    server.shutdown()
    print(f"a receiver that answers 500 for 25 s: tries at {[round(it - begun, 1) for it in Receiver.tries]}, taken {Receiver.taken}", flush=True)


def shape_of_orchestrator():
    """An orchestrator answers 503 for 25 s while clients ask: what becomes of an operation."""
    asks, begun = [], time.monotonic()

    class Refusing(http.server.BaseHTTPRequestHandler):
        protocol_version = "HTTP/1.1"

        def do_POST(self):
            self.rfile.read(int(self.headers["Content-Length"]))
            asks.append(round(time.monotonic() - begun, 1))
            self.send_response(503 if time.monotonic() - begun < 25 else 403)
            self.send_header("Content-Length", "0")
            self.end_headers()

        def log_message(self, *_):
            pass

    server = http.server.ThreadingHTTPServer(("127.0.0.1", 0), Refusing)
    threading.Thread(target=server.serve_forever, daemon=True).start()
    with tempfile.TemporaryDirectory() as folder, example("adapter.py") as vim:
        with Door(pathlib.Path(folder), f"127.0.0.1:{server.server_port}", vim) as door:
            with clients(door, BUSY):
                begun = time.monotonic()
                took = door.operation()
    server.shutdown()
    print(f"an orchestrator that answers 503 for 25 s, then 403: asks at {asks}, {took[1]} after {took[0]:.1f} s", flush=True)


def shape_of_dead_receivers(count):
    """So many receivers that take no connection: what an operation and a GET take beside them."""
    with tempfile.TemporaryDirectory() as folder, example("orchestrator.py") as orchestrator, example("adapter.py") as vim:
        full = []
        for _ in range(count):
            listener = socket.create_server(("127.0.0.1", 0), backlog=0)
            full.append(listener)
            # Two connections that nobody takes fill the queue, so that a further one gets no answer.
            for _ in range(2):
                waiting = socket.socket()
                waiting.setblocking(False)
                waiting.connect_ex(listener.getsockname())
                full.append(waiting)
        with Door(pathlib.Path(folder), orchestrator, vim) as door:
            for listener in full[::3]:
                door.ask("POST", "/vnflcm/v1/subscriptions", {"callbackUri": f"http://127.0.0.1:{listener.getsockname()[1]}/n"})
            door.ask("POST", BASE, {"vnfdId": "vnfd-1"})
            time.sleep(10)
            with looked_at(door) as looker:
                took = [door.operation() for _ in range(2)]
                time.sleep(5)
        for it in full:
            it.close()
    times = ", ".join(f"{seconds:.2f} s {state}" for seconds, state in took)
    print(f"{count} receivers that take no connection, 10 s on: operations {times}; {looker.told()}", flush=True)


for shape in SHAPES:
    if not wanted or any(word in shape for word in wanted):
        shape_of_clients(shape)
for name, made in (("receiver 500", shape_of_receiver), ("orchestrator 503", shape_of_orchestrator), ("dead 10", lambda: shape_of_dead_receivers(10)),
                   ("dead 100", lambda: shape_of_dead_receivers(100))):
    if not wanted or any(word in name for word in wanted):
        made()
