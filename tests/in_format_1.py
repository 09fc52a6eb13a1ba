#!/usr/bin/env python3
"""Writes a journal of format 1 that has the manager and the records of a journal of the present format, for the scripts that migrate one.

usage: tests/in_format_1.py JOURNAL OLD
"""
import struct
import sys


def records_of(data):
    """The records of a journal of the present format, up to its closed gate."""
    place = 32
    while data[place] == 1:
        (size,) = struct.unpack_from(">I", data, place + 1)
        place, end = place + 5, place + 5 + size
        while place < end:
            (length,) = struct.unpack_from(">I", data, place)
            yield data[place + 4 : place + 4 + length]
            place += 4 + length


def in_format_1(data):
    """The header with another byte for the format, each record behind a gate of its own, and a closed gate."""
    records = (b"\1" + struct.pack(">I", len(it)) + it for it in records_of(data))
    return data[:8] + b"\1" + data[9:32] + b"".join(records) + b"\0"


if __name__ == "__main__":
    with open(sys.argv[1], "rb") as journal, open(sys.argv[2], "wb") as old:
        old.write(in_format_1(journal.read()))
