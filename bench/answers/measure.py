#!/usr/bin/env python3
"""Measures what memory `vnfm once` takes to make an answer, and how long, by the answer's bytes: the list of as many
occurrences as it shows, of as many live instances as there may be, up to their largest, and of as many subscriptions of
a role as there may be. Journals lie in memory; times are processor time.

What is told is what a run that answers takes beyond one that opens the journal alone.

usage: bench/answers/measure.py [VNFM]
"""
import pathlib
import subprocess
import sys

HERE = pathlib.Path(__file__).resolve().parent
sys.path += [str(HERE.parent), str(HERE.parent / "operations")]
sys.dont_write_bytecode = True
import asked
import measuring
import stream

# How many occurrences a list shows, instances live, and subscriptions of a role are live, at most; the texts of each
# list of a filter, at most.
LISTED, LIVE, SUBSCRIBED = 10_000, 1_000, 100
# Changes of an operation, and definitions that stand of an instance.
CHANGES = 1, 10, 100
DEFINITIONS = 10, 100, 1_000, 2_500
TIMES = 3
vnfm = measuring.built("vnfm")


def shaped(path, shape, events, number):
    """Writes a journal of a shape of bench/load/journal.py."""
    writer = HERE.parent / "load" / "journal.py"
    with open(path, "wb") as file:
        subprocess.run([sys.executable, writer, shape, str(events), str(number)], stdout=file, check=True)


def lives(path, changes):
    """As many instances, one after the other, as make all occurrences that a list shows, two each: an instantiation and
    a termination, of so many changes. An operation has four events and two for each change, a life two more."""
    shaped(path, "large", 1 + LISTED // 2 * (2 + 2 * (4 + 2 * changes)), changes)


def instances(path, definitions):
    path.write_bytes(asked.written(asked.Instance(definitions), LIVE))


def subscriptions(path, _):
    """Those of both roles; each has its filter at its largest. One descriptor is onboarded before them."""
    shaped(path, "filtered", 1 + 2 * SUBSCRIBED, 2 * SUBSCRIBED)


# A list, how many entries it has, its path, what writes its journal, and of which sizes.
LISTS = [
    ("occurrences, of so many changes", LISTED, b"vnf_lcm_op_occs", lives, CHANGES),
    ("instances, of so many definitions", LIVE, b"vnf_instances", instances, DEFINITIONS),
    ("subscriptions, with so many texts in a list", SUBSCRIBED, b"subscriptions", subscriptions, [64]),
]


def body_of(answer, entries):
    """The bytes of the body of an answer, which is a list of so many entries."""
    head, _, body = answer.partition(b"\r\n\r\n")
    if not head.startswith(b"HTTP/1.1 200 ") or body.count(b'"_links":') != entries:
        sys.exit(f"not a list of {entries}: {answer[:400]}")
    return len(body)


def measured(room, title, entries, path, size):
    journal, connection = room / "journal", room / "connection"
    connection.write_bytes(b"GET /vnflcm/v1/" + path + stream.HOST + b"\r\n")
    opens, answers = ([vnfm, "once", "--journal", journal, "--rounds", rounds] for rounds in "01")
    length = body_of(measuring.answers(answers, connection), entries)
    opened, peak = measuring.peak(opens), measuring.peak(answers, connection)
    (_, _, found), = measuring.slopes(
        lambda rounds: measuring.seconds(answers if rounds else opens, connection), [0, 1], TIMES)
    more = peak - opened
    time = measuring.cell(found, unit=1)
    measuring.row(title, entries, size, length, time, opened, peak, more, f"{more / length:.2f}")


def main():
    measuring.head("List of", "Entries", "Size", "Bytes", "s", "Peak, opened", "Peak, answered", "More", "Bytes a byte")
    for title, entries, path, write, sizes in LISTS:
        for size in sizes:
            with measuring.room() as room:
                write(room / "journal", size)
                measured(room, title, entries, path, size)


main()
