#!/usr/bin/env python3
"""Measures how long `vnfm once` takes to open a journal, by the journal's length and by what is live in it: each record is read, decoded, judged
after those before it, and followed. Journals lie in memory; times are processor time.

usage: bench/load/measure.py [VNFM [full]]     with `full`, from half a file to a full one alone, in three rounds
"""
import pathlib
import sys

sys.path.append(str(pathlib.Path(__file__).resolve().parent.parent))
import journal
import measuring

# Of each shape of journal.py its number, and the least and the greatest number of events; the third size is amid them. What the number asks for is
# all there before the least.
SHAPES = [
    ("onboarded", 256, 10_000, 40_000), ("posted", 200, 10_000, 40_000), ("waiting", 200, 5_000, 20_000), ("filtered", 200, 1_000, 4_000),
    *[(shape, 200, 1_000, 4_000) for shape in journal.NEAR],
    ("newest", 1, 10_000, 40_000), ("newest", 999, 10_000, 40_000), ("oldest", 999, 5_000, 20_000),
    ("busy", 1, 10_000, 40_000), ("busy", 999, 10_000, 40_000),
    ("large", 1, 10_000, 40_000), ("large", 100, 10_000, 40_000), ("large", 2500, 10_000, 30_000),
    ("asked", 1, 10_000, 40_000), ("asked", 100, 3_000, 12_000), ("asked", 2500, 600, 2_400),
    ("healed", 1, 10_000, 20_000), ("healed", 2499, 5_400, 8_400),
]
LENGTHS = [31_250, 62_500, 125_000, 250_000]
FULL = [3_725_000, 7_450_000]
vnfm = measuring.built("vnfm")


def opening(path):
    return [vnfm, "once", "--journal", path, "--rounds", "0"]


def counting(path):
    return [vnfm, "check", "--journal", path]


def rows(room, shape, number, lengths, *named, times=measuring.TIMES, opening=opening):
    """The rows of journals of this shape and these lengths, opened by this command."""
    for events in lengths:
        with open(room / str(events), "wb") as file:
            journal.write(file, shape, events, number)
    peaks = {events: measuring.peak(opening(room / str(events))) for events in lengths}
    for less, more, found in measuring.slopes(lambda events: measuring.seconds(opening(room / str(events))), lengths, times):
        size = (room / str(more)).stat().st_size
        held = (peaks[more] - peaks[less]) / (more - less)
        measuring.row(*named, less, more, size, measuring.cell(found), f"{held:.0f}")


def main():
    print("From one length to the next, all kinds of events, one instance live at a time:")
    measuring.head("Events, from", "to", "Bytes", "us an event", "Memory, bytes an event")
    full = sys.argv[2:] == ["full"]
    with measuring.room() as room:
        rows(room, "cycle", 1, FULL if full else LENGTHS, times=3 if full else measuring.TIMES)
        print("\nThe same journals, by `check`:")
        measuring.head("Events, from", "to", "Bytes", "us an event", "Memory, bytes an event")
        rows(room, "cycle", 1, FULL if full else LENGTHS, times=3 if full else measuring.TIMES, opening=counting)
    if full:
        return
    print("\nBy what is live:")
    measuring.head("Shape", "Events, from", "to", "Bytes", "us an event", "Memory, bytes an event")
    for shape, number, least, most in SHAPES:
        with measuring.room() as room:
            rows(room, shape, number, [least, (least + most) // 2, most], f"{shape} {number}")


main()
