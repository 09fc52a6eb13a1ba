#!/usr/bin/env python3
"""Measures what others notice of a list of some 100 MB, over `vnfm serve` on loopback: it is taken whole by one client at once, and by one at 1 MB a
second, while another asks for an instance that isn't there each 20 ms.

usage: bench/door/lists.py [VNFM [DEFINITIONS [RATE]]]     definitions of each of 1,000 instances, 820 where nothing is said; bytes a second, 1,000,000

It takes some three minutes. Ends with 1 where a list isn't whole.
"""
import json
import pathlib
import sys
import time

HERE = pathlib.Path(__file__).resolve().parent
sys.path.append(str(HERE.parent / "operations"))
sys.dont_write_bytecode = True
from serving import BASE, GET, looked_at, measuring, served
import asked

DEFINITIONS = int(sys.argv[2]) if len(sys.argv) > 2 else 820
RATE = int(sys.argv[3]) if len(sys.argv) > 3 else 1_000_000
INSTANCES = 1_000
PIECE = 65_536


def taken(door, rate):
    """A list, how long its first bytes and all of it took."""
    begun, pieces, count, length = time.monotonic(), [], 0, None
    with door.connect() as connection:
        connection.sendall(GET)
        first = None
        while length is None or count < length:
            more = connection.recv(PIECE if rate else 1 << 20)
            if not more:
                break
            first = first or time.monotonic() - begun
            pieces.append(more)
            count += len(more)
            if length is None:
                head, _, _ = pieces[0].partition(b"\r\n\r\n")
                length = len(head) + 4 + int(head.partition(b"Content-Length: ")[2].partition(b"\r\n")[0])
            if rate:
                time.sleep(max(0.0, begun + first + count / rate - time.monotonic()))
    return b"".join(pieces).partition(b"\r\n\r\n")[2], first, time.monotonic() - begun


with measuring.room() as room:
    (room / "journal").write_bytes(asked.written(asked.Instance(DEFINITIONS), INSTANCES))
    with served(room / "journal") as door:
        none = BASE + "/none"
        with looked_at(door, none) as looker:
            time.sleep(5)
        print(f"alone: {looker.told()}", flush=True)
        whole, lists = True, []
        for what, rate in (("at once", None), (f"at {RATE:,} bytes a second", RATE)):
            with looked_at(door, none) as looker:
                body, first, took = taken(door, rate)
            shown = len(json.loads(body)) if body.endswith(b"]") else 0
            lists.append(body)
            whole &= shown >= INSTANCES
            print(f"{len(body):,} bytes, {shown:,} instances, {what}: its first byte after {first:.2f} s, all after {took:.2f} s; beside it {looker.told()}", flush=True)
        print(f"both lists the same: {lists[0] == lists[1]}; the most memory {door.most_memory():.0f} MB")
sys.exit(not (whole and lists[0] == lists[1]))
