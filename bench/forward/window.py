#!/usr/bin/env python3
"""Tells in how many rounds an operation ends, with one attempt open at a time and with four, where its jobs take so many rounds; and measures what an act
takes with four attempts open, by the size of the plan.

The rounds are those of the model of the manager's work, tests/working.py. With a program they are also made, over a journal in memory and an infrastructure
on loopback that this script is, and the program has to end in just as many; and acts are measured over it: the processor time of the program, of what more
rounds cost.

usage: bench/forward/window.py [VNFM]
"""
import pathlib
import socketserver
import sys
import threading

HERE = pathlib.Path(__file__).resolve().parent
sys.path += [str(HERE.parent), str(HERE.parent.parent / "tests")]
sys.dont_write_bytecode = True
import journal
import measuring
import working

# The workers of each plan, and how many rounds a job takes: as many looks find it running where it alone is looked at.
WORKERS, TAKES = (1, 10, 600), (0, 1, 4, 16)
# Of acts: what they are told, the machines, whether these are terminated, the changes that are made, and the most rounds.
PLANS = [("13", 13, False, 0), ("2,500", 2_500, False, 2_490), ("5,000, none made", 2_500, True, 0), ("5,000, 4,990 made", 2_500, True, 4_990)]
ROUNDS = 4_000


# ---- By the model

class Parallel(working.Site):
    """An infrastructure that works on all its jobs at once: each has ended so many rounds behind the one that began it. A round makes one call."""

    def __init__(self, takes):
        super().__init__(room=1 << 30)
        self.takes, self.rounds, self.begun = takes, 0, {}

    def call(self, *what):
        pass

    def begin(self, tag):
        self.rounds += 1
        self.begun[tag] = self.rounds
        return "taken"

    def look(self, tag):
        self.rounds += 1
        return ("running",) if self.rounds - self.begun[tag] <= self.takes else ("done", 0)


def rounds_by_model(site, phases, window):
    """The rounds from the ask to COMPLETED."""
    working.WINDOW = window
    manager = working.Manager(site, phases)
    manager.record(1, "asked")
    rounds = 0
    while manager.occurrences[0].state != "COMPLETED":
        manager.turn()
        rounds += 1
    return rounds


# ---- By the program

class Infrastructure(socketserver.StreamRequestHandler):
    """An infrastructure whose jobs each end so many lines behind the one that began them, where a round sends one line; or never end."""

    takes, begun, lines = None, {}, 0

    def handle(self):
        its = type(self)
        for line in self.rfile:
            word, tag = line.split()[:2]
            its.lines += 1
            if word == b"BEGIN":
                its.begun[tag] = its.lines
                self.wfile.write(b"BEGUN\n")
            elif word == b"LOOK":
                runs = its.takes is None or its.lines - its.begun[tag] <= its.takes
                self.wfile.write(b"RUNNING\n" if runs else b"DONE x72%s\n" % str(its.begun[tag]).encode().hex().encode())
            else:
                self.wfile.write(b"ASKED\n")


def listening(takes):
    """An infrastructure, and where it listens."""
    its = type("Its", (Infrastructure,), {"takes": takes, "begun": {}, "lines": 0})
    server = socketserver.TCPServer(("127.0.0.1", 0), its)
    threading.Thread(target=server.serve_forever, daemon=True).start()
    return server, "%s:%d" % server.server_address


class Run:
    """The program over a journal and an infrastructure."""

    def __init__(self, program, room, records, takes):
        self.program, self.records, self.path = program, records, room / "journal"
        self.server, self.at = listening(takes)
        self.restart()

    def __enter__(self):
        return self

    def __exit__(self, *_):
        self.server.shutdown()
        self.server.server_close()

    def restart(self):
        self.path.write_bytes(measuring.HEADER + self.records)

    def words(self, rounds):
        return [self.program, "once", "--journal", str(self.path), "--rounds", str(rounds), "--vim", self.at]

    def rounds(self, count):
        measuring.run(self.words(count))

    def seconds(self, count):
        """The processor time of so many rounds; each is to leave the journal as it is."""
        size = self.path.stat().st_size
        took = measuring.seconds(self.words(count))
        if self.path.stat().st_size != size:
            sys.exit("a round recorded something")
        return took

    def is_completed(self):
        return self.path.read_bytes().rstrip(b"\0").endswith(journal.u64(1) + journal.u8(journal.COMPLETED))


def made(program, room, workers, takes, rounds):
    """Makes the rounds behind the move to PROCESSING, which is the second one: the last of them, and it alone, ends the operation."""
    with Run(program, room, journal.journal(False, 1, workers), takes) as run:
        run.rounds(rounds - 3)
        early = run.is_completed()
        run.rounds(1)
        if early or not run.is_completed():
            sys.exit(f"{4 * workers + 9} changes of jobs that take {takes}: not {rounds} rounds")


def by_program():
    """The program that is named, or none."""
    return measuring.built("vnfm") if len(sys.argv) > 1 else None


def main():
    program = by_program()
    print("Rounds to COMPLETED, by the model" + (", and by the program as many with four open" if program else ""))
    measuring.head("Changes", "A job takes", "one open", "four open", "one by four")
    with measuring.room() as room:
        for workers in WORKERS:
            for takes in TAKES:
                one, four = (rounds_by_model(Parallel(takes), working.router(workers + 1), window) for window in (1, 4))
                if program:
                    made(program, room, workers, takes, four)
                measuring.row(4 * workers + 9, takes, one, four, f"{one / four:.2f}")
        if program:
            print("\nAn act with four attempts open, whose jobs run")
            measuring.head("Changes", "us an act")
            for told, machines, terminated, done in PLANS:
                with Run(program, room, journal.machines(machines, terminated, done), None) as run:
                    for _, _, found in measuring.slopes(run.seconds, [0, ROUNDS]):
                        measuring.row(told, measuring.cell(found))


main()
