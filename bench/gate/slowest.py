#!/usr/bin/env python3
"""Lists the functions and lemma files of crates whose proofs took longest, in seconds, by the times of the files that a check leaves.

    bench/gate/slowest.py [--most N] CRATE..        folders of crates, each just proved from nothing by `rt check --jobs 1`

A check writes a file for each part that it has proved. What passed between one file and the one before it is counted for the
function or the file of lemmas that it belongs to; so with two jobs, or beside other commands, the seconds are too many. A gap of
two minutes or more is no work of the check."""
import argparse
import collections
import os
import re

LONGEST_GAP = 120.0
# A part of the proof of a function, or a file of lemmas: the crate, and the path below proofs/.
PART = re.compile(r"Rattle-(\w+)[-.]proofs\.([\w.]+)")


def files_below(folder):
    """The files of proved parts with their times, the earliest first."""
    found = []
    for at, _, names in os.walk(f"{folder}/out/incremental"):
        found += [(os.stat(f"{at}/{name}").st_mtime, name) for name in names if name.endswith(".oantt") and ".decls." not in name]
    return sorted(found)


def owner_of(name):
    """The function or the file of lemmas that a part belongs to; None for what every crate has."""
    part = PART.match(name.removesuffix(".oantt"))
    if not part:
        return None
    path = [it for it in part[2].split(".") if it not in ("Lts", "Proof", "Kinds", "Goals", "Answers", "Reads", "Tie", "Mir", "Code")]
    return f"{part[1]} {'.'.join(path[:3])}"


def main():
    words = argparse.ArgumentParser()
    words.add_argument("--most", type=int, default=20)
    words.add_argument("crates", nargs="+")
    given = words.parse_args()
    seconds = collections.Counter()
    for folder in given.crates:
        before = None
        for time, name in files_below(folder):
            owner = owner_of(name)
            if before is not None and owner and time - before < LONGEST_GAP:
                seconds[owner] += time - before
            before = time
    for owner, took in seconds.most_common(given.most):
        print(f"{took:6.1f} {owner}")


if __name__ == "__main__":
    main()
