#!/usr/bin/env python3
"""Runs the manager with real objects at each edge: `serve`
with examples/orchestrator.py and examples/adapter.py as its peers, and curl as its client. An instance is created at
the orchestrator's address and shown at the element manager's; both find it again behind a SIGKILL; it is instantiated
over the same door, with two SIGKILLs on the way, and ends COMPLETED with each resource standing once; and a run ends by
itself behind its rounds.

The program is built by `vnfm`, so a first run takes minutes; the trial itself takes seconds. Prints what
it saw, and ends with 1 where that differs from what is wanted.
"""
import json
import pathlib
import re
import subprocess
import sys
import tempfile
import time

import reaches
from begun_once import CHANGES, free_port
from reaches import EXAMPLES, NOWHERE, Peer, PROGRAM, expect, standing

INSTANCES = "/vnflcm/v1/vnf_instances"


class Manager:
    """`serve` over this journal, for so many rounds, at two addresses that stay the same."""

    def __init__(self, journal, orchestrator=NOWHERE, vim=NOWHERE):
        self.journal, self.peers = journal, ["--orchestrator", orchestrator, "--vim", vim]
        self.addresses = [f"127.0.0.1:{free_port()}" for _ in range(2)]
        self.process = None

    def start(self, rounds=1_000_000):
        words = ["serve", "--journal", self.journal, "--listen", self.addresses[0], "--em-listen", self.addresses[1], "--rounds", str(rounds), *self.peers]
        self.process = subprocess.Popen([PROGRAM, *words], stdout=subprocess.PIPE, stderr=subprocess.DEVNULL, text=True)

    def kill(self):
        self.process.kill()
        self.process.wait()
        self.process.stdout.close()

    def curl(self, side, path, body=None):
        """The status, the Location and the body of what is asked for at this address: 0 is the orchestrator's, 1 the element manager's."""
        words = ["curl", "-sS", "-i", "--max-time", "20", "--retry", "5", "--retry-connrefused", "--retry-delay", "1"]
        if body is not None:
            words += ["-H", "Content-Type: application/json", "-d", json.dumps(body)]
        told = subprocess.run([*words, f"http://{self.addresses[side]}{path}"], stdout=subprocess.PIPE, text=True, check=False).stdout
        head, _, content = told.replace("\r\n", "\n").partition("\n\n")
        status = re.match(r"HTTP/1.1 (\d+)", head)
        location = re.search(r"(?im)^Location: (?:http://[^/]*)?(\S+)$", head)
        return int(status.group(1)) if status else None, location.group(1) if location else None, content


def new_journal(room):
    """A journal of manager 7 with the descriptor of the examples."""
    journal = room / "journal"
    subprocess.run([PROGRAM, "init", "--journal", journal, "--manager", "7"], stdout=subprocess.DEVNULL, check=True)
    with open(EXAMPLES / "vnfd.json", "rb") as vnfd:
        subprocess.run([PROGRAM, "onboard", "--journal", journal], stdin=vnfd, stdout=subprocess.DEVNULL, check=True)
    return journal


def found_again(manager):
    """Creates an instance at the one address, shows it at the other, and finds it again; gives its path."""
    manager.start()
    status, location, created = manager.curl(0, INSTANCES, {"vnfdId": "vnfd-1", "vnfInstanceName": "edge-1"})
    expect("an instance is created at the orchestrator's address", status, 201)
    shown = (200, None, created)
    expect("  it is shown at the element manager's", manager.curl(1, location) == shown, True)
    expect("  and among all", manager.curl(1, INSTANCES)[2] == f"[{created}]", True)
    manager.kill()
    manager.start()
    for side, whose in enumerate(("orchestrator's", "element manager's")):
        expect(f"behind a SIGKILL it is shown at the {whose}", manager.curl(side, location) == shown, True)
    return location


def instantiated(manager, instance, folder):
    """Instantiates over the door, with two SIGKILLs while some resources stand."""
    status, location, _ = manager.curl(0, instance + "/instantiate", {"flavourId": "simple"})
    expect("instantiate", status, 202)
    begun, state, killed, asked = time.monotonic(), None, 0, 0
    while state not in ("COMPLETED", "ROLLED_BACK", "FAILED_TEMP") and time.monotonic() - begun < 60:
        state = json.loads(manager.curl(asked % 2, location)[2])["operationState"]
        asked += 1
        if killed < 2 and len(standing(folder)) > 4 * killed + 3:
            manager.kill()
            manager.start()
            killed += 1
    expect(f"looked at {asked} times at the two addresses in turn, in {time.monotonic() - begun:.0f} s, with SIGKILLs on the way", killed, 2)
    expect("  it ends", state, "COMPLETED")
    stands = standing(folder)
    expect("  resources", len(stands), CHANGES)
    expect("  of them, different ones", len(set(stands)), CHANGES)
    manager.kill()


def ended(manager):
    """A run to which nobody comes."""
    begun = time.monotonic()
    manager.start(rounds=3)
    told = manager.process.communicate()[0]
    expect("a run of three rounds to which nobody comes", (manager.process.returncode, told), (0, "done after 3 rounds\n"))
    print(f"  it ended after {time.monotonic() - begun:.1f} s", flush=True)


def main():
    subprocess.run([PROGRAM, "--version"], check=True)
    with tempfile.TemporaryDirectory() as at:
        room = pathlib.Path(at)
        folder = room / "folder"
        folder.mkdir()
        with Peer("orchestrator.py") as orchestrator, Peer("adapter.py", "--folder", folder, "--looks", "1") as adapter:
            manager = Manager(new_journal(room), orchestrator.at, adapter.at)
            instantiated(manager, found_again(manager), folder)
            ended(manager)
    sys.exit(reaches.differs)


if __name__ == "__main__":
    main()
