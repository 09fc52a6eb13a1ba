#!/usr/bin/env python3
"""Measures how long `vnfm` takes to open journals of one history: of format 2, each event in a batch of its own, as the program writes them; packed, as
`vnfm migrate` leaves them; and of format 1. The last is what `vnfm migrate` takes to a file that is taken, which reads, judges and packs all, and writes
nothing; and, where a program of the time of format 1 is named, what that takes to open it. Journals lie in memory; times are processor time, but of the
whole migration those that pass, on the file system of this tree too.

usage: bench/migration/measure.py [VNFM [EARLIER]]
"""
import pathlib
import sys
import time

sys.path.append(str(pathlib.Path(__file__).resolve().parent.parent))
sys.path.append(str(pathlib.Path(__file__).resolve().parent.parent / "load"))
import journal
import measuring

LENGTHS = [1_000, 10_000, 100_000, 1_000_000]
ROUNDS = {1_000: 15, 10_000: 15, 100_000: 9, 1_000_000: 5}
vnfm = measuring.built("vnfm")
earlier = measuring.built("vnfm", 2) if len(sys.argv) > 2 else None


def opening(program, path):
    return [program, "once", "--journal", path, "--rounds", "0"]


def moving(path, to):
    return [vnfm, "migrate", "--journal", path, "--to", to]


def passed(command, to):
    """The seconds that a migration takes to a file that isn't there."""
    to.unlink(missing_ok=True)
    before = time.perf_counter()
    measuring.run(command)
    return time.perf_counter() - before


def row(room, events):
    old, alone, packed, taken = (room / it for it in ("old", "alone", "packed", "taken"))
    for path, form in ((old, 1), (alone, 2)):
        with open(path, "wb") as file:
            journal.write(file, "cycle", events, 1, form)
    packed.unlink(missing_ok=True)
    measuring.run(moving(old, packed))
    taken.write_bytes(b"no journal" * 8)
    costs = [
        lambda: measuring.seconds(opening(vnfm, alone)),
        lambda: measuring.seconds(opening(vnfm, packed)),
        lambda: measuring.seconds(moving(old, taken), status=11),
        *([lambda: measuring.seconds(opening(earlier, old))] if earlier else []),
    ]
    found = list(zip(*measuring.in_turn(costs, ROUNDS[events])))
    sizes = [path.stat().st_size for path in (old, alone, packed)]
    measuring.row(events, *sizes, *[measuring.cell(it, 1e-3) for it in found])


def whole(room, events):
    """A migration with all that it writes."""
    old, packed = room / "old", room / "packed"
    with open(old, "wb") as file:
        journal.write(file, "cycle", events, 1, 1)
    took = [passed(moving(old, packed), packed) for _ in range(ROUNDS[events])]
    peak = measuring.peak(moving(old, room / "other"))
    return took, old.stat().st_size, packed.stat().st_size, peak


def main():
    print("Opening, ms:")
    measuring.head("Events", "Bytes, format 1", "format 2", "packed", "format 2", "packed", "format 1, to a taken file", *(["format 1, earlier program"] if earlier else []))
    for events in LENGTHS:
        with measuring.room() as room:
            row(room, events)
    print("\nA migration, s:")
    measuring.head("Events", "Bytes of the old file", "of the new one", "Peak of memory, bytes", "in memory", "on the file system of this tree")
    for events in LENGTHS:
        with measuring.room() as room:
            fast, old, new, peak = whole(room, events)
        with measuring.room(measuring.TOP) as room:
            slow = whole(room, events)[0]
        measuring.row(events, old, new, peak, measuring.cell(fast, 1, 3), measuring.cell(slow, 1, 3))


main()
