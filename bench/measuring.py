"""What the scripts that measure share: built programs that are run, what that took, and what more of something costs.

What is told is a difference between two sizes, so that what doesn't depend on the size, the start of the program among it, falls out. All sizes are
measured in turn, and that several times, so that what else the machine does is spread over all of them: where that is much, one time may be twice another
of the same work.
"""
import contextlib
import itertools
import json
import os
import pathlib
import resource
import shutil
import statistics
import subprocess
import sys
import tempfile

TOP = pathlib.Path(__file__).resolve().parent.parent
TIMES = 7
HEADER = b"VNFM-LCM\2" + (7).to_bytes(4, "big") + bytes(19)


def built(name, place=1):
    """The built program of this name: the word at this place, or else what the crate's own build left."""
    path = pathlib.Path(sys.argv[place]) if len(sys.argv) > place else TOP / "crates" / name / "out" / name
    if not os.access(path, os.X_OK):
        sys.exit(f"{path}: there is no program; name a built one")
    return str(path.resolve())


@contextlib.contextmanager
def room(within="/dev/shm"):
    """A new folder, by itself in memory, which is removed in the end."""
    folder = pathlib.Path(tempfile.mkdtemp(prefix="bench.", dir=within))
    try:
        yield folder
    finally:
        shutil.rmtree(folder)


def run(command, heard=os.devnull, status=0, told=subprocess.DEVNULL):
    """Runs a command with this file as its standard input; it must end with this status."""
    with open(heard, "rb") as file:
        ran = subprocess.run(command, stdin=file, stdout=told, stderr=subprocess.DEVNULL)
    if ran.returncode != status:
        sys.exit(f"{' '.join(map(str, command))}: status {ran.returncode}")
    return ran.stdout


def answers(command, heard=os.devnull):
    """What a command tells."""
    return run(command, heard, told=subprocess.PIPE)


def used():
    by = resource.getrusage(resource.RUSAGE_CHILDREN)
    return by.ru_utime + by.ru_stime


def seconds(command, heard=os.devnull, status=0):
    """The processor time of a command."""
    before = used()
    run(command, heard, status)
    return used() - before


def write_run(path, run):
    """Writes a run of lcm_cases, behind the heading of a module that has it alone."""
    line = json.dumps(run) + "\n"
    path.write_text(json.dumps({"module": "bench", "runs": 1, "bytes": len(line)}) + "\n" + line)


def cases_seconds(program, runs):
    """The processor time of lcm_cases over the run of this file, which must go well."""
    before = used()
    said = answers([program], runs)
    took = used() - before
    if said != b"bench: 1 runs, 0 wrong\n1 runs, 0 wrong\n":
        sys.exit(f"{runs}: {said.decode()}")
    return took


def peak(command, heard=os.devnull, status=0):
    """The peak of memory of a command, in bytes."""
    with tempfile.NamedTemporaryFile() as said:
        run(["/usr/bin/time", "-q", "-o", said.name, "-f", "%M", *command], heard, status)
        return int(said.read()) * 1024


def in_turn(costs, times=TIMES):
    """What each of these calls gives, in rounds, in each of which all are made."""
    return [[cost() for cost in costs] for _ in range(times)]


def slopes(cost, sizes, times=TIMES):
    """From each size to the next one: both, and what each unit between them costs, of each round."""
    rounds = in_turn([lambda size=size: cost(size) for size in sizes], times)
    for at, (less, more) in enumerate(itertools.pairwise(sizes)):
        yield less, more, [(found[at + 1] - found[at]) / (more - less) for found in rounds]


def cell(found, unit=1e-6, digits=2):
    """The median and the quartiles in this unit."""
    low, middle, high = (it / unit for it in statistics.quantiles(found, n=4, method="inclusive"))
    return f"{middle:.{digits}f} ({low:.{digits}f} to {high:.{digits}f})"


def row(*cells):
    """Prints a row of a table."""
    print("|", " | ".join(f"{it:,}" if isinstance(it, int) else str(it) for it in cells), "|", flush=True)


def head(*cells):
    """Prints the first rows of a table, behind an empty line."""
    print()
    row(*cells)
    print("|" + "---|" * len(cells), flush=True)
