#!/usr/bin/env python3
"""Measures how long an append to a journal takes, over a real file: on one connection of `vnfm once` a creation, which appends a record, and a request
for an instance, which doesn't, in turn, each of which is asked once the answer before it is there; and between them the same writes and syncs as
those of the creation, made by this script to another file. So all three find the disk and the machine as busy. Times are those that pass.

usage: bench/journal/measure.py [VNFM [FOLDER]]     the files stand in a new folder within FOLDER (default: where temporary files do), which decides
                                                    what disk is measured
"""
import os
import pathlib
import re
import subprocess
import sys
import tempfile
import time

sys.path.append(str(pathlib.Path(__file__).resolve().parent.parent))
sys.path.append(str(pathlib.Path(__file__).resolve().parent.parent / "session"))
import measuring
import stream

NUMBER = 1_000
vnfm = measuring.built("vnfm")


def timed(call, *words):
    begun = time.monotonic()
    call(*words)
    return time.monotonic() - begun


class Connection:
    """A connection of `vnfm once`, of which each answer is waited for."""

    def __init__(self, journal):
        self.program = subprocess.Popen([vnfm, "once", "--journal", journal], stdin=subprocess.PIPE, stdout=subprocess.PIPE, stderr=subprocess.DEVNULL)
        self.into, self.out = self.program.stdin.fileno(), self.program.stdout.fileno()

    def ask(self, kind, status):
        os.write(self.into, stream.SERVED[kind](0))
        heard = b""
        while b"\r\n\r\n" not in heard:
            heard += os.read(self.out, 65_536) or sys.exit(f"{kind}: {heard!r}")
        length = int(re.search(rb"\r\nContent-Length: (\d+)\r\n", heard)[1])
        while len(heard.split(b"\r\n\r\n", 1)[1]) < length:
            heard += os.read(self.out, 65_536)
        if not heard.startswith(b"HTTP/1.1 " + status):
            sys.exit(f"{kind}: {heard!r}")

    def end(self):
        self.program.stdin.close()
        if self.program.wait():
            sys.exit(f"status {self.program.returncode}")


class Bare:
    """A file to which records of this size are written: each behind the closed gate, a sync, the gate's byte, a sync."""

    def __init__(self, path, start, size):
        path.write_bytes(start)
        self.file = os.open(path, os.O_RDWR)
        os.fdatasync(self.file)
        self.end, self.record = len(start) - 1, b"\1" * (size - 1) + b"\0"

    def append(self):
        os.pwrite(self.file, self.record, self.end + 1)
        os.fdatasync(self.file)
        os.pwrite(self.file, b"\1", self.end)
        os.fdatasync(self.file)
        self.end += len(self.record)


def main():
    within = sys.argv[2] if len(sys.argv) > 2 else tempfile.gettempdir()
    with measuring.room(within) as room:
        journal = room / "journal"
        measuring.run([vnfm, "init", "--journal", journal, "--manager", "7"])
        measuring.run([vnfm, "onboard", "--journal", journal], measuring.TOP / "examples" / "vnfd.json")
        start = journal.read_bytes()
        connection = Connection(journal)
        connection.ask("create", b"201")
        bare = Bare(room / "bare", start, journal.stat().st_size - len(start))
        creations, shows, alone = zip(*(
            (timed(connection.ask, "create", b"201"), timed(connection.ask, "show", b"200"), timed(bare.append)) for _ in range(NUMBER - 1)
        ))
        connection.end()
        by = [creation - show for creation, show in zip(creations, shows)]
        measuring.head("What", "us")
        measuring.row("a creation, asked and answered", measuring.cell(creations, digits=1))
        measuring.row("a request for an instance, asked and answered", measuring.cell(shows, digits=1))
        measuring.row("what the creation takes more", measuring.cell(by, digits=1))
        measuring.row("two writes and two syncs alone", measuring.cell(alone, digits=1))
        print(f"\nWhat the creation takes more, by the writes and syncs alone: {measuring.cell([one / other for one, other in zip(by, alone)], 1)}")


main()
