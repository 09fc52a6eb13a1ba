#!/usr/bin/env python3
"""Runs the program with examples/orchestrator.py and examples/adapter.py: an instantiation whose grant is told at once, one whose grant is
told later, one whose runs are killed after some milliseconds each, and one where nobody listens. Each of the first three ends COMPLETED, with
every resource of the descriptor standing once.

Prints what it saw, and ends with 1 where that differs from what is wanted.
"""
import json
import os
import pathlib
import random
import re
import signal
import subprocess
import sys
import tempfile

HERE = pathlib.Path(__file__).resolve().parent.parent
PROGRAM = HERE / "vnfm"
BUILT = HERE / ".build" / "vnfm"  # what PROGRAM looks after and starts, which takes longer than a run that is killed
EXAMPLES = HERE / "examples"
NOWHERE = "127.0.0.1:1"
MOST_RUNS = 400
differs = False


def expect(what, seen, wanted):
    """Prints what was seen, and notes where it isn't what is wanted."""
    global differs
    print(f"{what}: {seen}", flush=True)
    if seen != wanted:
        print(f"  wanted: {wanted}", flush=True)
        differs = True


class Peer:
    """One of the examples, until the block ends."""

    def __init__(self, *words):
        self.words = [sys.executable, "-B", EXAMPLES / words[0], "--listen", "127.0.0.1:0", *words[1:]]

    def __enter__(self):
        self.process = subprocess.Popen(self.words, stdout=subprocess.PIPE, stderr=subprocess.DEVNULL, text=True)
        line = self.process.stdout.readline()
        self.at = re.search(r"\d+\.\d+\.\d+\.\d+:\d+", line).group()
        return self

    def __exit__(self, *_):
        self.process.kill()
        self.process.wait()
        self.process.stdout.close()


class Manager:
    """The program over one journal, with the descriptor of the examples and one instance of it."""

    def __init__(self, room, orchestrator, vim):
        self.journal = room / "journal"
        self.peers = ["--orchestrator", orchestrator, "--vim", vim]
        self.run("init", "--manager", "7")
        self.run("onboard", request="vnfd.json")
        self.once("create.http")

    def words(self, command, *words):
        return [BUILT, command, "--journal", self.journal, *words]

    def run(self, command, *words, request=None):
        stdin = open(EXAMPLES / request, "rb") if request else subprocess.DEVNULL
        done = subprocess.run(self.words(command, *words), stdin=stdin, stdout=subprocess.PIPE, stderr=subprocess.PIPE, check=False)
        return done.returncode, done.stdout.decode(errors="replace")

    def once(self, request):
        """One round, which answers this request and then takes a turn."""
        return self.run("once", *self.peers, request=request)

    def state(self):
        """The state of the occurrence before a turn, which is then taken."""
        found = re.findall(r'"operationState":"([A-Z_]+)"', self.once("occurrence.http")[1])
        return found[-1] if found else None

    def ended(self):
        return self.state() in ("COMPLETED", "ROLLED_BACK", "FAILED", "FAILED_TEMP")

    def go_on(self):
        """Runs until the occurrence has ended, and gives how often."""
        return next((times for times in range(MOST_RUNS) if self.ended()), MOST_RUNS)

    def go_on_killed(self, draw):
        """Runs until the occurrence has ended, eight runs of nine killed after up to 20 ms, and gives how many were killed before they
        ended."""
        killed = 0
        for _ in range(MOST_RUNS):
            killed += sum(self.is_killed(draw) for _ in range(8))
            if self.ended():
                break
        return killed

    def is_killed(self, draw):
        """Makes a run of four rounds that is killed after up to 20 ms, and gives whether it was before it ended."""
        process = subprocess.Popen(self.words("once", "--rounds", "4", *self.peers), stdin=subprocess.DEVNULL,
                                   stdout=subprocess.DEVNULL, stderr=subprocess.DEVNULL)
        try:
            process.wait(draw.uniform(0.0005, 0.02))
            return False
        except subprocess.TimeoutExpired:
            process.send_signal(signal.SIGKILL)
            process.wait()
            return True


def standing(folder):
    """What stands in the adapter's folder: the kind, the descriptor's names and the number of each resource, in order."""
    found = []
    for path in folder.glob("r*"):
        resource = json.loads(path.read_text())
        found.append(tuple(str(resource.get(it, "")).upper() for it in ("kind", "template", "vdu", "serial")))
    return sorted(found)


def instantiate(room, later=False, kills=False):
    """Instantiates, and gives the state at the end and what stands then."""
    folder = room / "folder"
    folder.mkdir()
    with Peer("orchestrator.py", *(["--later"] if later else [])) as orchestrator, Peer("adapter.py", "--folder", folder, "--looks", "1") as adapter:
        manager = Manager(room, orchestrator.at, adapter.at)
        expect("instantiate", manager.once("instantiate.http")[1].split("\r\n")[0], "HTTP/1.1 202 Accepted")
        if kills:
            print(f"killed {manager.go_on_killed(random.Random(7))} runs", flush=True)
        else:
            print(f"ended behind {manager.go_on()} runs of one round", flush=True)
        return manager.state(), standing(folder)


def main():
    subprocess.run([PROGRAM, "--version"], check=True)
    with tempfile.TemporaryDirectory() as at:
        rooms = [pathlib.Path(at) / name for name in ("now", "later", "killed", "nobody")]
        for room in rooms:
            room.mkdir()
        state, wanted = instantiate(rooms[0])
        expect("granted at once", state, "COMPLETED")
        print(*wanted, sep="\n", flush=True)
        expect("resources", len(wanted), 13)
        expect("of them, different ones", len(set(wanted)), 13)
        for what, room, words in ("granted later", rooms[1], {"later": True}), ("killed", rooms[2], {"kills": True}):
            state, stands = instantiate(room, **words)
            expect(what, state, "COMPLETED")
            expect(f"{what}, what stands is the same", stands == wanted, True)
        manager = Manager(rooms[3], NOWHERE, NOWHERE)
        manager.once("instantiate.http")
        manager.go_on()
        expect("nobody listens", manager.state(), "ROLLED_BACK")
    sys.exit(differs)


if __name__ == "__main__":
    main()
