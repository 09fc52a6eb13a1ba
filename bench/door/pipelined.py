#!/usr/bin/env python3
"""Measures `vnfm serve` on loopback with one client that sends 65,536 requests at once, as many as a client has, and idle beside 1,000 kept clients.

usage: bench/door/pipelined.py [VNFM [SECONDS]]     SECONDS: for how long it is looked at idle, 30 where nothing is said

Ends with 1 where an answer is missing or wrong.
"""
import sys
import threading
import time

sys.dont_write_bytecode = True
from serving import BASE, answers_of, clients, served

SECONDS = float(sys.argv[2]) if len(sys.argv) > 2 else 30.0
REQUESTS = 65_536


def pipelined(door):
    """How many answers came, each what it has to be, and how long all took."""
    paths = [f"{BASE}/{number}" for number in range(16)]
    wanted = []
    for path in paths:
        with door.connect() as connection:
            connection.sendall(f"GET {path} HTTP/1.1\r\nHost: x\r\n\r\n".encode())
            wanted.append(next(answers_of(connection)))
    requests = b"".join(f"GET {path} HTTP/1.1\r\nHost: x\r\n\r\n".encode() for path in paths) * (REQUESTS // len(paths))
    with door.connect() as connection:
        begun = time.monotonic()
        sender = threading.Thread(target=connection.sendall, args=(requests,), daemon=True)
        sender.start()
        right = 0
        for number, answer in enumerate(answers_of(connection)):
            last = number == REQUESTS - 1
            right += answer == (wanted[number % 16].replace(b"\r\n\r\n", b"\r\nConnection: close\r\n\r\n", 1) if last else wanted[number % 16])
        took = time.monotonic() - begun
    return right, took


with served() as door:
    right, took = pipelined(door)
    print(f"{right:,} of {REQUESTS:,} pipelined requests answered, the last with `Connection: close`, in {took:.2f} s", flush=True)
    for shape in ("alone", "1,000 kept and silent"):
        with clients(door, shape):
            time.sleep(2)
            before = door.processor()
            time.sleep(SECONDS)
            share = (door.processor() - before) / SECONDS
        print(f"idle, {shape}: {100 * share:.2f}% of a core over {SECONDS:.0f} s", flush=True)
    print(f"the most memory {door.most_memory():.0f} MB")
sys.exit(right != REQUESTS)
