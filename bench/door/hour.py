#!/usr/bin/env python3
"""Measures `vnfm serve` on loopback beside all shapes of clients at once for a given time: the most memory that it ever took, told each minute, what a
GET takes, and how the lives of instances end that go on meanwhile.

usage: bench/door/hour.py [VNFM [SECONDS [PAUSE]]]     3,600 where nothing is said; between two lives of an instance, 10

Ends with 1 where an operation isn't COMPLETED or a GET is lost.
"""
import collections
import sys
import time

sys.dont_write_bytecode = True
from serving import SHAPES, clients, looked_at, served

SECONDS = float(sys.argv[2]) if len(sys.argv) > 2 else 3_600.0
PAUSE = float(sys.argv[3]) if len(sys.argv) > 3 else 10.0

states, told = collections.Counter(), []
with served() as door, clients(door, *SHAPES):
    with looked_at(door) as looker:
        begun = last = time.monotonic()
        while time.monotonic() - begun < SECONDS:
            states.update(door.life())
            if time.monotonic() - last >= 60 or not told:
                last = time.monotonic()
                told.append(door.most_memory())
                print(f"after {last - begun:.0f} s: the most memory {told[-1]:.1f} MB, {sum(states.values())} operations", flush=True)
            time.sleep(PAUSE)
    print(f"{SECONDS:.0f} s of all shapes: the most memory {door.most_memory():.1f} MB, {door.most_memory() - told[0]:.1f} more than after the first life; "
          f"operations {dict(states)}; {looker.told()}", flush=True)
sys.exit(set(states) != {"COMPLETED"} or looker.lost > 0)
