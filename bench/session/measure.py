#!/usr/bin/env python3
"""Measures how long a request of a connection takes: by `vnfm once`, for requests of several kinds, and for refused ones by the bytes of their
bodies, with the peak of memory; and by `lcm_cases`, for bodies that come in pieces of several sizes. Journals lie in memory; times are processor
time.

usage: bench/session/measure.py [VNFM [LCM_CASES]]
"""
import pathlib
import shutil
import sys

sys.path.append(str(pathlib.Path(__file__).resolve().parent.parent))
import measuring
import stream

# The kind, how many instances there are before, and the numbers of requests.
SERVED = [
    ("create", 0, [250, 500, 1_000]), ("lived", 0, [1_000, 2_000, 4_000, 8_000]), ("unknown", 0, [2_000, 4_000, 8_000, 16_000]),
    ("show", 1, [2_000, 4_000, 8_000, 16_000]), ("show", 1_000, [4_000, 8_000, 16_000]), ("missed", 1_000, [4_000, 8_000, 16_000]),
    ("nowhere", 0, [4_000, 8_000, 16_000]),
    ("list", 1, [2_000, 4_000, 8_000]), ("list", 10, [500, 1_000, 2_000]), ("list", 100, [100, 200, 400]), ("list", 1_000, [10, 20, 40]),
]
STATUS = {"create": {"201"}, "lived": {"201", "204"}, "unknown": {"422"}, "show": {"200"}, "missed": {"404"}, "nowhere": {"404"}, "list": {"200"}}
BODIES = [131_072, 262_144, 524_288, 1_048_576]
REQUESTS = 4
CONNECTIONS = 4
vnfm = measuring.built("vnfm")
lcm_cases = measuring.built("lcm_cases", 2)


class Connections:
    """Connections over a journal with the descriptor of the examples and some instances, which is copied each time."""

    def __init__(self, room, instances):
        self.room, self.made, self.journal = room, room / f"made {instances}", room / "journal"
        self.made.unlink(missing_ok=True)
        measuring.run([vnfm, "init", "--journal", self.made, "--manager", "7"])
        measuring.run([vnfm, "onboard", "--journal", self.made], measuring.TOP / "examples" / "vnfd.json")
        if instances:
            measuring.run([vnfm, "once", "--journal", self.made], self.written(stream.served("create", instances)))

    def written(self, connection):
        path = self.room / "connection"
        path.write_bytes(connection)
        return path

    def command(self):
        shutil.copyfile(self.made, self.journal)
        return [vnfm, "once", "--journal", self.journal]

    def answers(self, connection):
        return measuring.answers(self.command(), self.written(connection))

    def seconds(self, connection):
        return measuring.seconds(self.command(), self.written(connection))

    def peak(self, connection):
        return measuring.peak(self.command(), self.written(connection))


def serving(room):
    measuring.head("Request", "Instances", "Requests, from", "to", "us a request", "Bytes of an answer")
    for kind, instances, numbers in SERVED:
        at = Connections(room, instances)
        answers = at.answers(stream.served(kind, numbers[0]))
        statuses = [it[:3].decode() for it in answers.split(b"HTTP/1.1 ")[1:]]
        if len(statuses) != numbers[0] or not set(statuses) <= STATUS[kind]:
            sys.exit(f"{kind}: {len(statuses)} answers, {set(statuses)}")
        for less, more, found in measuring.slopes(lambda number: at.seconds(stream.served(kind, number)), numbers):
            measuring.row(kind, instances, less, more, measuring.cell(found), len(answers) // numbers[0])


def bodies(room):
    at = Connections(room, 0)
    print(f"\n{REQUESTS} refused requests on one connection:")
    measuring.head("Refused", "Bytes of a body, from", "to", "ns a byte")
    for kind in list(stream.REFUSED)[2:]:
        for less, more, found in measuring.slopes(lambda size: at.seconds(stream.refused(kind, REQUESTS, size)) / REQUESTS, BODIES):
            measuring.row(kind, less, more, measuring.cell(found, 1e-9, 1))
    print(f"\nThe peak of memory, with bodies of {stream.LONGEST:,} bytes:")
    measuring.head("Refused", "Of one, KiB", "Of 50 on one connection, KiB")
    for kind in stream.REFUSED:
        measuring.row(kind, *(at.peak(stream.refused(kind, number, stream.LONGEST)) // 1024 for number in (1, 50)))


def in_pieces(room, piece, framed, body, rounds):
    """The processor time of lcm_cases for a connection in pieces of this size, which is served in its one round, or made and not served in none."""
    made = ["site", measuring.HEADER.decode("latin-1") + "\0"]
    acts = [["let", "REQUEST", framed(body)], ["pieces", piece], made, ["times", CONNECTIONS, ["rounds", rounds, "$REQUEST"]], ["status", 0]]
    path = room / "runs"
    measuring.write_run(path, ["pieces", *acts])
    return measuring.cases_seconds(lcm_cases, path) / CONNECTIONS


def pieces(room):
    framings = {
        "by length": lambda size: ["POST / HTTP/1.1\r\nContent-Length: %d\r\n\r\n" % size, {"times": size // 1024, "of": " " * 1024}],
        "in chunks": lambda size: [
            "POST / HTTP/1.1\r\nTransfer-Encoding: chunked\r\n\r\n", {"times": size // 1024, "of": "400\r\n" + " " * 1024 + "\r\n"}, "0\r\n\r\n",
        ],
    }
    print("\nIn pieces, over the objects in memory:")
    measuring.head("Body", "Pieces", "Bytes of a body, from", "to", "ns a byte")
    for title, framed in framings.items():
        for piece in 16, 256, 4_096:
            cost = lambda size: in_pieces(room, piece, framed, size, 1) - in_pieces(room, piece, framed, size, 0)
            for less, more, found in measuring.slopes(cost, BODIES[1:]):
                measuring.row(title, piece, less, more, measuring.cell(found, 1e-9, 1))


def main():
    with measuring.room() as room:
        serving(room)
        bodies(room)
        pieces(room)


main()
