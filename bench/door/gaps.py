#!/usr/bin/env python3
"""Has many clients keep their connections to `vnfm serve` on loopback, and ask at gaps of 0 to 70 s, by `requests.Session`, by a client of sockets, and
by such through nginx with examples/nginx.conf: each makes an instance, asks for it, and deletes it, in turn. None is lost, and none is done twice.

usage: bench/door/gaps.py [VNFM [REQUESTS [CLIENTS [GAP]]]]     requests of each of the three kinds, 10,000 where nothing is said; clients of each, 320;
the longest gap in seconds, 70

The gaps are long and the clients many: with these it takes some twenty minutes. Ends with 1 where an answer is lost or another, or where more or other
instances were made than those that were answered. Where nginx, openssl or `requests` isn't there it says so, and does without.
"""
import collections
import json
import pathlib
import random
import re
import socket
import ssl
import subprocess
import sys
import tempfile
import threading
import time

sys.dont_write_bytecode = True
from serving import BASE, HERE, answers_of, free_port, served, vnfm

REQUESTS = int(sys.argv[2]) if len(sys.argv) > 2 else 10_000
CLIENTS = int(sys.argv[3]) if len(sys.argv) > 3 else 320
GAP = float(sys.argv[4]) if len(sys.argv) > 4 else 70.0
FRONT = HERE.parent.parent / "tests" / "front.sh"
counts, faults, lock = collections.Counter(), [], threading.Lock()
asked, numbers = collections.Counter(), set()


class Sockets:
    """A client that keeps one connection, and makes none anew where it ends."""

    def __init__(self, port, context=None):
        self.connection = socket.create_connection(("127.0.0.1", port), timeout=60)
        if context:
            self.connection = context.wrap_socket(self.connection, server_hostname="localhost")
        self.answers = answers_of(self.connection)

    def ask(self, method, path, body=b""):
        head = f"{method} {path} HTTP/1.1\r\nHost: localhost\r\nContent-Type: application/json\r\nContent-Length: {len(body)}\r\n\r\n"
        self.connection.sendall(head.encode() + body)
        answer = next(self.answers, None)
        if not answer:
            raise ConnectionResetError("it ended without an answer")
        head, _, body = answer.partition(b"\r\n\r\n")
        location = re.search(rb"\r\nLocation: ([^\r]*)", head)
        return int(head.split(b" ", 2)[1]), location and location.group(1).decode()


class Session:
    """One of `requests`, which tries nothing again by itself."""

    def __init__(self, root, **words):
        import requests
        self.root, self.session = root, requests.Session()
        # (an authority that the environment names would take the place of the one that is given)
        self.session.trust_env = False
        for name, value in words.items():
            setattr(self.session, name, value)

    def ask(self, method, path, body=b""):
        answer = self.session.request(method, self.root + path, data=body, headers={"Content-Type": "application/json"}, timeout=60)
        return answer.status_code, answer.headers.get("Location")


def one(kind, made, side, requests):
    """One client of this kind: so many requests."""
    chosen = random.Random(f"{kind}{side}{threading.get_ident()}")
    time.sleep(chosen.uniform(0, min(GAP, 10)))
    try:
        client, instance, step = made(side), None, 0
        for _ in range(requests):
            with lock:
                asked[kind] += 1
            if step == 0:
                wanted = 201
                status, instance = client.ask("POST", BASE, b'{"vnfdId":"vnfd-1"}')
            elif step == 1:
                wanted = 200
                status, _ = client.ask("GET", instance)
            else:
                wanted = 204
                status, _ = client.ask("DELETE", instance)
            with lock:
                counts[kind, status] += 1
                if status != wanted:
                    faults.append((kind, step, status))
                if status == 201:
                    if instance in numbers:
                        faults.append((kind, "made twice", instance))
                    numbers.add(instance)
            step = (step + 1) % 3
            time.sleep(chosen.uniform(0, GAP))
    except Exception as fault:
        with lock:
            faults.append((kind, type(fault).__name__, str(fault)[:200]))


def kinds(door, folder):
    """The kinds of clients, each by what makes one for a side; and nginx, where one of them needs it."""
    yield "sockets", lambda side: Sockets(door.ports[side]), None
    try:
        import requests  # noqa: F401
        yield "requests.Session", lambda side: Session(f"http://127.0.0.1:{door.ports[side]}"), None
        has_requests = True
    except ImportError:
        print("`requests` isn't there (pip install requests): done without", flush=True)
        has_requests = False
    fronts = free_port(), free_port()
    nginx = subprocess.Popen([FRONT, folder, *map(str, door.ports), *map(str, fronts)])
    for _ in range(100):
        time.sleep(0.1)
        try:
            socket.create_connection(("127.0.0.1", fronts[1])).close()
            break
        except OSError:
            if nginx.poll() is not None:
                print("nginx, or openssl, isn't there: done without", flush=True)
                return
    tls = pathlib.Path(folder) / "tls"
    names = "orchestrator", "element_manager"

    def context(side):
        made = ssl.create_default_context(cafile=str(tls / "authority.pem"))
        made.load_cert_chain(tls / f"{names[side]}.pem", tls / f"{names[side]}.key")
        return made

    yield "sockets through nginx", lambda side: Sockets(fronts[side], context(side)), nginx
    if has_requests:
        def session(side):
            return Session(f"https://localhost:{fronts[side]}", verify=str(tls / "authority.pem"),
                           cert=(str(tls / f"{names[side]}.pem"), str(tls / f"{names[side]}.key")))
        yield "requests.Session through nginx", session, nginx


with served() as door, tempfile.TemporaryDirectory() as folder:
    pathlib.Path(folder).chmod(0o755)
    threads, begun, nginx, kind_names = [], time.monotonic(), None, []
    threading.stack_size(256 * 1024)
    for kind, made, front in kinds(door, folder):
        # (through nginx the two kinds of clients share the number)
        count, clients = (REQUESTS // 2, CLIENTS // 2) if front else (REQUESTS, CLIENTS)
        nginx = front or nginx
        kind_names.append(kind)
        for number in range(clients):
            requests = count // clients + (number < count % clients)
            threads.append(threading.Thread(target=one, args=(kind, made, number % 2, requests), daemon=True))
            threads[-1].start()
    for thread in threads:
        thread.join()
    took = time.monotonic() - begun
    if nginx:
        nginx.terminate()
        nginx.wait()
    live = json.loads(door.ask("GET", BASE)[2])
    next_made = door.ask("POST", BASE, {"vnfdId": "vnfd-1"})[1]
    # The number in the identifier is that of the instance among all that were ever made.
    ever = int(next_made.rsplit("-", 1)[1], 16) - 1
    stand = sum(counts[kind, 201] - counts[kind, 204] for kind in kind_names)
    if ever != len(numbers):
        faults.append(("made", ever, "answered", len(numbers)))
    if len(live) != stand:
        faults.append(("stand", len(live), "are to", stand))
    memory = door.most_memory()
for kind in kind_names:
    print(f"{kind}: {asked[kind]:,} asked, answered {dict((status, count) for (it, status), count in counts.items() if it == kind)}")
print(f"in {took:.0f} s; made {ever:,}, answered 201 {len(numbers):,}; stand {len(live)}, are to {stand}; the most memory {memory:.0f} MB; faults {len(faults)} {faults[:10]}")
sys.exit(bool(faults))
