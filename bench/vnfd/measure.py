#!/usr/bin/env python3
"""Measures how long `vnfm onboard` takes over a descriptor, which is read, judged and recorded, by its shape and its bytes, and its peak of memory.
Journals lie in memory; times are processor time.

usage: bench/vnfd/measure.py [VNFM]
"""
import pathlib
import shutil
import subprocess
import sys

sys.path.append(str(pathlib.Path(__file__).resolve().parent.parent))
import document
import measuring

GROWING = ["full", "policies", "others"]
SIZES = [131_072, 262_144, 524_288, 1_048_576]
vnfm = measuring.built("vnfm")


class Onboarding:
    """A document that is onboarded to a new journal each time, always with the same answer."""

    def __init__(self, room, text):
        self.made, self.journal, self.document = room / "made", room / "journal", room / str(len(list(room.iterdir())))
        self.document.write_text(text)
        self.made.write_bytes(measuring.HEADER + b"\0")
        self.command = [vnfm, "onboard", "--journal", self.journal]
        shutil.copyfile(self.made, self.journal)
        with open(self.document, "rb") as heard:
            ran = subprocess.run(self.command, stdin=heard, capture_output=True)
        self.status, self.answer = ran.returncode, ran.stdout.decode().strip()

    def seconds(self):
        shutil.copyfile(self.made, self.journal)
        return measuring.seconds(self.command, self.document, self.status)

    def peak(self):
        shutil.copyfile(self.made, self.journal)
        return measuring.peak(self.command, self.document, self.status)


def main():
    with measuring.room() as room:
        measuring.head("Shape", "Bytes, from", "to", "ns a byte", "Answer")
        for shape in GROWING:
            sized = {size: Onboarding(room, document.spelled(shape, size)) for size in SIZES}
            for less, more, found in measuring.slopes(lambda size: sized[size].seconds(), SIZES):
                measuring.row(shape, less, more, measuring.cell(found, 1e-9, 1), sized[more].answer)

        none, size = Onboarding(room, "{}"), SIZES[-1]
        print(f"\nOf {size:,} bytes, less a document of two:")
        measuring.head("Shape", "ms", "Peak of memory, MB", "Answer")
        for shape in document.SHAPES:
            one = Onboarding(room, document.spelled(shape, size))
            (_, _, found), = measuring.slopes(lambda more: (one if more else none).seconds(), [0, 1], 3)
            measuring.row(shape, measuring.cell(found, 1e-3, 0), f"{one.peak() / 2**20:.1f}", one.answer)


main()
