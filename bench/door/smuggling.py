#!/usr/bin/env python3
"""Has clients send the shapes of bench/hostile, and requests that two readers might take to end at two places, to `vnfm serve` on loopback, whole and in
pieces, beside others that ask back to back and compare the bytes of each answer with those that it had alone: no difference.

usage: bench/door/smuggling.py [VNFM [ANSWERS [COMPARERS]]]     answers in all, 100,000 where nothing is said; clients that compare, 8

Ends with 1 where an answer differs or is lost.
"""
import collections
import json
import pathlib
import random
import sys
import threading
import time

HERE = pathlib.Path(__file__).resolve().parent
sys.path.append(str(HERE.parent / "hostile"))
sys.dont_write_bytecode = True
from serving import BASE, answers_of, served
import measure

ANSWERS = int(sys.argv[2]) if len(sys.argv) > 2 else 100_000
COMPARERS = int(sys.argv[3]) if len(sys.argv) > 3 else 8
INSTANCES = 64
# A client is closed behind its 65,536th request.
EACH = 50_000

HIDDEN = b"GET /vnflcm/v1/vnf_instances/hidden HTTP/1.1\r\nHost: x\r\n\r\n"
POST = b"POST /vnflcm/v1/vnf_instances HTTP/1.1\r\nHost: x\r\n"
LENGTH = b"Content-Length: %d\r\n" % len(HIDDEN)
CHUNKED = b"Transfer-Encoding: chunked\r\n"
CHUNKS = b"%x\r\n%s\r\n0\r\n\r\n" % (len(HIDDEN), HIDDEN)
SMUGGLED = [
    POST + LENGTH + b"\r\n" + HIDDEN,
    POST + LENGTH + LENGTH + b"\r\n" + HIDDEN,
    POST + LENGTH + b"Content-Length: 0\r\n\r\n" + HIDDEN,
    POST + b"Content-Length: 0\r\n" + LENGTH + b"\r\n" + HIDDEN,
    POST + b"Content-Length: 0, %d\r\n\r\n" % len(HIDDEN) + HIDDEN,
    POST + b"Content-Length: +%d\r\n\r\n" % len(HIDDEN) + HIDDEN,
    POST + b"Content-Length: 0x%x\r\n\r\n" % len(HIDDEN) + HIDDEN,
    POST + b"Content-Length : %d\r\n\r\n" % len(HIDDEN) + HIDDEN,
    POST + b"Content-Length: %d\r\n\r\n" % (1 << 64) + HIDDEN,
    POST + CHUNKED + b"\r\n" + CHUNKS,
    POST + CHUNKED + LENGTH + b"\r\n0\r\n\r\n" + HIDDEN,
    POST + LENGTH + CHUNKED + b"\r\n" + CHUNKS,
    POST + CHUNKED + CHUNKED + b"\r\n" + CHUNKS,
    POST + b"Transfer-Encoding: identity, chunked\r\n\r\n" + CHUNKS,
    POST + b"Transfer-Encoding: chunked, identity\r\n\r\n" + CHUNKS,
    POST + b"Transfer-Encoding: xchunked\r\n" + LENGTH + b"\r\n" + HIDDEN,
    POST + b"Transfer-Encoding:\tchunked\r\n\r\n" + CHUNKS,
    POST + b"Transfer-Encoding : chunked\r\n\r\n" + CHUNKS,
    POST + b"Transfer-Encoding:\r\n chunked\r\n\r\n" + CHUNKS,
    POST + b"X: y\rTransfer-Encoding: chunked\r\n\r\n" + CHUNKS,
    POST + CHUNKED + b"\r\n5;x=\"\r\n" + HIDDEN + b"0\r\n\r\n",
    POST + CHUNKED + b"\r\n0\r\nContent-Length: %d\r\n\r\n" % len(HIDDEN) + HIDDEN,
    POST + CHUNKED + b"\r\n0\n\n" + HIDDEN,
    POST + CHUNKED + b"\r\n-1\r\n" + HIDDEN,
    POST + CHUNKED + b"\r\n%x\r\n" % (1 << 64) + HIDDEN,
    POST + CHUNKED + b"\r\n%x0000000000000000\r\n" % len(HIDDEN) + HIDDEN,
    POST + b"Connection: close, Content-Length\r\n" + LENGTH + b"\r\n" + HIDDEN + HIDDEN,
    POST + b"Connection: close\r\n" + CHUNKED + b"\r\n" + CHUNKS + HIDDEN,
    POST.replace(b"1.1", b"1.0") + CHUNKED + b"\r\n" + CHUNKS,
    POST.replace(b"\r\n", b"\n") + LENGTH.replace(b"\r\n", b"\n") + b"\n" + HIDDEN,
    b"GET /vnflcm/v1/vnf_instances HTTP/1.1\r\nHost: x\r\n" + LENGTH + b"\r\n" + HIDDEN,
    b"GET /vnflcm/v1/vnf_instances HTTP/1.1\r\nHost: x\r\nExpect: 100-continue\r\n" + LENGTH + b"\r\n" + HIDDEN,
    b"GET /vnflcm/v1/vnf_instances/a b HTTP/1.1\r\n\r\n" + HIDDEN,
    b"GET http://x/vnflcm/v1/vnf_instances HTTP/1.1\r\nHost: x\r\n\r\n" + HIDDEN,
    b"PRI * HTTP/2.0\r\n\r\nSM\r\n\r\n" + HIDDEN,
    b"\r\n\r\n\r\n" + HIDDEN + b"\r\n" + HIDDEN[:-7],
    HIDDEN[:-2] + b"\x00\r\n\r\n" + HIDDEN,
    HIDDEN * 50 + HIDDEN[:20],
]
HOSTILE = [given() for what, given in measure.CONNECTIONS.items() if what != "creations"]


def attack(door, number, stop, sent):
    """Sends one shape after another, in pieces of some length, and reads what comes back meanwhile or not at all."""
    chosen = random.Random(number)
    while not stop.is_set():
        shape = chosen.choice(SMUGGLED) if number % 4 else chosen.choice(HOSTILE)
        piece = chosen.choice((1, 7, 100, 1_000, len(shape))) if len(shape) < 10_000 else chosen.choice((1_000, 65_536, len(shape)))
        try:
            with door.connect(chosen.randrange(2)) as connection:
                if chosen.random() < 0.7:
                    threading.Thread(target=drained, args=(connection,), daemon=True).start()
                for at in range(0, len(shape), piece):
                    connection.sendall(shape[at:at + piece])
                    if stop.is_set():
                        return
                time.sleep(chosen.choice((0, 0, 0.05)))
        except OSError:
            pass
        sent[number] += 1


def drained(connection):
    try:
        while connection.recv(1 << 20):
            pass
    except OSError:
        pass


def requests_of(instances):
    """Requests whose answers are told apart, and don't change."""
    for it in instances:
        yield f"GET {BASE}/{it} HTTP/1.1\r\nHost: x\r\n\r\n".encode()
    for method, path, body in (("GET", "/vnf_instances/none", b""), ("PUT", "/vnf_instances", b"{}"), ("GET", "/vnf_lcm_op_occs/none", b""), ("GET", "/x", b""),
                               ("POST", "/vnf_instances", b"{"), ("POST", "/vnf_instances", b'{"vnfdId":"n"}'), ("POST", "/subscriptions", HIDDEN)):
        yield f"{method} /vnflcm/v1{path} HTTP/1.1\r\nContent-Type: application/json\r\nContent-Length: {len(body)}\r\n\r\n".encode() + body
    yield POST + b"Content-Type: application/json\r\n" + CHUNKED + b"\r\n" + CHUNKS


class Comparer(threading.Thread):
    """Asks so often on kept connections, some at once, and compares each answer."""

    def __init__(self, door, number, count, wanted):
        super().__init__(daemon=True)
        self.door, self.side, self.count, self.wanted = door, number % 2, count, wanted
        self.chosen, self.differ, self.same = random.Random(f"c{number}"), [], 0

    def run(self):
        while self.count > 0 and len(self.differ) < 5:
            try:
                with self.door.connect(self.side) as connection:
                    self.compare(connection, min(self.count, EACH))
            except OSError as fault:
                self.differ.append(("lost", str(fault)))
            time.sleep(0.1)

    def compare(self, connection, most):
        answers = answers_of(connection)
        while most > 0:
            asked = [self.chosen.choice(self.wanted) for _ in range(min(most, self.chosen.choice((1, 1, 2, 8, 16))))]
            connection.sendall(b"".join(request for request, _ in asked))
            for request, wanted in asked:
                got = next(answers, None)
                self.count, most = self.count - 1, most - 1
                if got != wanted:
                    self.differ.append((request, wanted, got))
                    return
                self.same += 1


with served() as door:
    instances = [json.loads(door.ask("POST", BASE, {"vnfdId": "vnfd-1", "vnfInstanceName": f"n{number}"})[2])["id"] for number in range(INSTANCES)]
    wanted = []
    for request in requests_of(instances):
        with door.connect() as connection:
            connection.sendall(request)
            wanted.append((request, next(answers_of(connection))))
    stop, sent = threading.Event(), collections.Counter()
    attackers = [threading.Thread(target=attack, args=(door, number, stop, sent), daemon=True) for number in range(16)]
    comparers = [Comparer(door, number, ANSWERS // COMPARERS, wanted) for number in range(COMPARERS)]
    begun = time.monotonic()
    for it in attackers + comparers:
        it.start()
    for it in comparers:
        it.join()
    took = time.monotonic() - begun
    stop.set()
    for it in attackers:
        it.join(10)
    shown = len(json.loads(door.ask("GET", BASE)[2]))
    memory = door.most_memory()
differ = [it for comparer in comparers for it in comparer.differ]
same = sum(comparer.same for comparer in comparers)
print(f"{same:,} answers of {len(wanted)} requests the same in {took:.0f} s, {len(differ)} differ or are lost, beside {sum(sent.values()):,} connections of "
      f"{len(SMUGGLED)} and {len(HOSTILE)} shapes; {shown} instances stand, {INSTANCES} are to; the most memory {memory:.0f} MB")
for it in differ[:5]:
    print(it)
sys.exit(bool(differ) or same < ANSWERS // COMPARERS * COMPARERS or shown != INSTANCES)
