#!/usr/bin/env python3
"""Runs `rt ci`, and prints the processor seconds that each crate took: of its proof, of its tests' proofs, and of its wrong
bodies (with the second proof of the crate that they begin from).

    bench/gate/measure.py [WORD..]        the words are handed to `rt ci` as they are

What `rt ci` takes is the toolchain's to say (`rt help`). Where it takes no word, it always proves everything from nothing,
and that is the whole measurement. Where it takes from an earlier run what that has proved, this took no time here: a whole
measurement is then a run that is told to take nothing, or one on a machine that has kept nothing.

The seconds are read from /proc four times a second, so what a short command took in its last quarter of a second is
missing. Standard output is the table; what `rt ci` prints goes to standard error. Ends with the status of `rt ci`. A run that
is interrupted has the table of what was done until then, and a status other than 0."""
import collections
import os
import signal
import subprocess
import sys
import time

TICKS = os.sysconf("SC_CLK_TCK")
TOP = os.path.dirname(os.path.dirname(os.path.dirname(os.path.abspath(__file__))))
KINDS = ("proof", "tests", "wrong bodies")


def stat_of(pid):
    """The parent, the start and the processor time of a process, or None where it has ended."""
    try:
        with open(f"/proc/{pid}/stat") as it:
            fields = it.read().rsplit(")", 1)[1].split()
    except (OSError, IndexError):
        return None
    return int(fields[1]), int(fields[19]), int(fields[11]) + int(fields[12])


def words_of(pid):
    """The command and the folder of a process."""
    try:
        with open(f"/proc/{pid}/cmdline", "rb") as it:
            words = it.read().decode(errors="replace").split("\0")
        return words, os.readlink(f"/proc/{pid}/cwd")
    except OSError:
        return [], ""


def kind_of(words, folder):
    """The crate that a command of the prover is about, and what it does there."""
    if os.path.basename(words[0]) != "rattle" or "--crate-name" not in words:
        return None
    crate = words[words.index("--crate-name") + 1]
    kind = "wrong bodies" if "/rt-edit-" in folder else "tests" if "--test" in words else "proof"
    return crate, kind


def descends(pid, parents, root):
    """Whether a process was started by another, or by one that it started."""
    for _ in range(64):
        if pid == root:
            return True
        pid = parents.get(pid, 0)
        if pid <= 1:
            return False
    return False


def look(root, kinds, seconds):
    """Notes the processor time so far of each command of the prover below the root."""
    stats = {int(pid): stat_of(pid) for pid in os.listdir("/proc") if pid.isdigit()}
    stats = {pid: stat for pid, stat in stats.items() if stat}
    parents = {pid: stat[0] for pid, stat in stats.items()}
    for pid, (_, start, ticks) in stats.items():
        key = pid, start
        if kinds.get(key, "") == "":
            words, folder = words_of(pid)
            found = kind_of(words, folder) if words and words[0] else None
            # (a process that is about to become the prover is looked at again)
            if found and descends(pid, parents, root):
                kinds[key] = found
        if kinds.get(key):
            seconds[key] = ticks / TICKS


def main():
    begun = time.time()
    ran = subprocess.Popen(["rt", "ci", *sys.argv[1:]], cwd=TOP, stdout=sys.stderr, stdin=subprocess.DEVNULL)
    kinds, seconds = {}, {}
    signal.signal(signal.SIGTERM, signal.default_int_handler)
    try:
        while ran.poll() is None:
            look(ran.pid, kinds, seconds)
            time.sleep(0.25)
    except KeyboardInterrupt:
        ran.terminate()
        ran.wait()
    rows = collections.defaultdict(lambda: dict.fromkeys(KINDS, 0.0))
    for key, (crate, kind) in kinds.items():
        rows[crate][kind] += seconds.get(key, 0.0)
    print("| Crate | proof | tests | wrong bodies | all |\n|---|---|---|---|---|")
    for crate, row in sorted(rows.items(), key=lambda it: -sum(it[1].values())):
        print(f"| {crate} | " + " | ".join(f"{row[it]:.0f}" for it in KINDS) + f" | {sum(row.values()):.0f} |")
    sums = [sum(row[it] for row in rows.values()) for it in KINDS]
    print("| together | " + " | ".join(f"{it:.0f}" for it in sums) + f" | {sum(sums):.0f} |")
    print(f"\n{time.time() - begun:.0f} seconds on {os.cpu_count()} processors, {sum(sums) / 60:.1f} processor minutes.")
    return ran.returncode


if __name__ == "__main__":
    sys.exit(main())
