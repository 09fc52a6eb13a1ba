#!/usr/bin/env python3
"""Measures how long an act of an operation takes: `lcm_cases` makes rounds over journals of operations that were asked for, with an orchestrator that
grants all and jobs that are done at the first look, all of them objects in memory. Times are processor time.

usage: bench/forward/measure.py [LCM_CASES]
"""
import pathlib
import sys

HERE = pathlib.Path(__file__).resolve().parent
sys.path += [str(HERE.parent), str(HERE.parent.parent / "tests")]
sys.dont_write_bytecode = True
import journal
import measuring
import working

# The operations, the workers of each, and the most rounds, each of which makes an act for each operation; a file in memory has room for 200,000 bytes.
OPERATIONS = [(1, 10, 96), (10, 10, 96), (50, 10, 24), (100, 10, 24)]
PLANS = [(100, 1, 24), (40, 10, 60), (8, 100, 300), (4, 200, 600), (2, 400, 1_200), (1, 600, 2_400)]
# How many acts are made at most, and for how many changes grants are asked, over new sites one behind the other.
ACTS = 9_600
ASKED = 24_000
lcm_cases = measuring.built("lcm_cases")


def acts(rounds, sites=1):
    """So many rounds over the journal, on each of so many sites, one behind the other. Each has room for the same number of jobs."""
    return [["room", 1_500]] + [["site", "$START"], ["rounds", rounds], ["status", 0]] * sites


def begins_and_looks(workers, rounds):
    """The jobs that so many rounds begin, and that they look at, by the model of the manager's work."""
    site = working.Site([(1, it) for it in ("asked", "granted", "PROCESSING")], room=1 << 30)
    for manager in [working.Manager(site, working.router(workers + 1))] * rounds:
        manager.turn()
    return site.calls()[1:3]


class Operations:
    """So many operations of one journal, in rounds of one act for each."""

    def __init__(self, room, starting, operations, workers, sites):
        self.room, self.operations, self.sites = room, operations, sites
        text = measuring.HEADER + journal.journal(starting, operations, workers)
        self.named = ["let", "START", text.decode("latin-1")]

    def play(self, acts):
        path = self.room / "runs"
        measuring.write_run(path, ["forward", self.named, *acts])
        return measuring.cases_seconds(lcm_cases, path)

    def check(self, rounds, begins, looks):
        """Makes so many rounds, in which so many jobs of each operation are begun, and so many looked at, and no call fails."""
        self.play([*acts(rounds), ["calls", begins * self.operations, looks * self.operations, 0], ["faults", 0, 0, 0, 0]])

    def seconds(self, rounds):
        return self.play(acts(rounds, self.sites)) / self.sites / self.operations


def rows(room, title, sizes):
    print(title)
    measuring.head("Operations", "Changes of each", "Rounds, from", "to", "us an act")
    for operations, workers, rounds in sizes:
        going = Operations(room, False, operations, workers, ACTS // rounds // operations)
        going.check(rounds, *begins_and_looks(workers, rounds))
        for less, more, found in measuring.slopes(going.seconds, [0, rounds // 3, 2 * rounds // 3, rounds]):
            measuring.row(operations, 4 * workers + 9, less, more, measuring.cell(found))


def main():
    with measuring.room() as room:
        rows(room, "By the number of operations that go on:", OPERATIONS)
        rows(room, "\nBy the size of the plan:", PLANS)
        print("\nThe round that asks for the grants and records them:")
        measuring.head("Operations", "Changes of each", "us an operation", "us a change")
        for operations, workers, _ in PLANS:
            changes = 4 * workers + 9
            asking = Operations(room, True, operations, workers, ASKED // changes // operations)
            for _, _, found in measuring.slopes(asking.seconds, [0, 1]):
                measuring.row(operations, changes, measuring.cell(found, digits=0), measuring.cell([it / changes for it in found], digits=1))


main()
