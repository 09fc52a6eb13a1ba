#!/usr/bin/env python3
"""Plays whole lives of an instance that are stopped at each moment, with each choice of what isn't synced, and go on to their end. What is stored of
crates/lcm_cases goes on behind some of the stops only, to be done in time.

usage, from anywhere: tests/whole_lives.py [PROGRAM]     PROGRAM is a built lcm_cases; `rt run` in its folder where none is named

Prints what it saw, and ends with 1 where that differs from what is wanted.
"""
import itertools
import subprocess
import sys

sys.dont_write_bytecode = True
import run_parts
import runs


def lots():
    """The runs, in lots that each take some seconds: the stops at each moment, and those right before and right behind the begin of each job."""
    import run_texts
    import runs_lives

    for who, choice, first in itertools.product(runs_lives.LIVES, run_texts.CHOICES, range(runs_lives.STRIDE)):
        title = "stops of a life by %s: %s, from record %d on" % (who, choice, first)
        yield title, [[title, *runs_lives.stopped(who, choice, first)]]
    for (who, life), first in itertools.product(runs_lives.LIVES.items(), range(runs_lives.BEGIN_STRIDE)):
        each = []
        for number in range(first, life.jobs, runs_lives.BEGIN_STRIDE):
            each.append(["before job %d" % number, *runs_lives.stopped_before(who, number)])
            each.append(["behind job %d" % number, *runs_lives.stopped_behind(who, number)])
        yield "stops of a life by %s around the begins of its jobs, from job %d on" % (who, first + 1), each


def main(words):
    runs.modules()
    differs = False
    for title, each in lots():
        # (the texts that the runs name are complete once these were made)
        texts = [text for module in run_parts.MODULES for text in module.texts]
        lines = runs.written(runs.lines_of("whole_lives", texts, each, False))
        played = subprocess.run(words or ["rt", "run"], input=lines.encode(), cwd=runs.TOP / "crates" / "lcm_cases", capture_output=True)
        seen, wanted = played.stdout.decode(errors="replace").splitlines(), "%d runs, 0 wrong" % len(each)
        print("%s: %s" % (title, seen[-1] if seen else "nothing"), flush=True)
        if seen[-1:] != [wanted] or played.returncode != 0:
            print("  wanted: %s\n%s%s" % (wanted, "".join("  " + it + "\n" for it in seen), played.stderr.decode(errors="replace")))
            differs = True
    sys.exit(1 if differs else 0)


if __name__ == "__main__":
    main(sys.argv[1:])
