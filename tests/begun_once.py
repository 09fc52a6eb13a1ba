#!/usr/bin/env python3
"""Runs the program with examples/orchestrator.py and the infrastructure for trials, crates/vim_sim, behind a relay that
counts its lines: one instantiation that nothing disturbs, and one whose runs are killed after some milliseconds each.
Each ends COMPLETED; each BEGIN went once for its tag; and each job stands once: the infrastructure has made as many
resources as there are tags, each under a name of its own.

vim_sim is built by `rt run`, so a first run takes minutes; the trial itself takes seconds. Prints what it saw, and ends
with 1 where that differs from what is wanted.
"""
import collections
import pathlib
import random
import select
import socket
import subprocess
import sys
import tempfile
import threading
import time

import reaches
from reaches import HERE, Manager, Peer, expect

CRATE = HERE / "crates" / "vim_sim"
CHANGES = 13  # of the instantiation that the examples ask for


def free_port():
    """A port at which nobody listens."""
    with socket.socket() as free:
        free.bind(("127.0.0.1", 0))
        return free.getsockname()[1]


class Simulated:
    """vim_sim, until the block ends. Each job is told as running to one look."""

    def __enter__(self):
        self.port = free_port()
        words = ["--listen", f"127.0.0.1:{self.port}", "--looks", "1"]
        self.process = subprocess.Popen([CRATE / "out" / "vim_sim", *words])
        for _ in range(500):
            try:
                self.connect().close()
                return self
            except OSError:
                time.sleep(0.01)
        sys.exit("vim_sim doesn't listen")

    def __exit__(self, *_):
        self.process.kill()
        self.process.wait()

    def connect(self):
        return socket.create_connection(("127.0.0.1", self.port), timeout=10)

    def ask(self, *lines):
        """The replies to these lines on one connection."""
        with self.connect() as connection, connection.makefile("rw", newline="\n") as stream:
            replies = []
            for line in lines:
                stream.write(line + "\n")
                stream.flush()
                replies.append(stream.readline().rstrip("\n"))
            return replies


class Relay:
    """Hands on one connection after another, each to its end, and keeps each line that came from the manager. It takes
    some time for each, so that a manager that is killed often has no reply yet: those connections are cut."""

    def __init__(self, vim):
        self.vim, self.lines, self.connections, self.replies, self.cut = vim, [], 0, 0, 0
        self.listener = socket.create_server(("127.0.0.1", 0))
        self.at = "%s:%d" % self.listener.getsockname()
        threading.Thread(target=self.serve, daemon=True).start()

    def serve(self):
        while True:
            manager, _ = self.listener.accept()
            self.connections += 1
            with manager, self.vim.connect() as peer:
                self.hand_on(manager, peer)

    def hand_on(self, manager, peer):
        """Hands on what comes from either side, until the infrastructure has ended its own."""
        part, sides = b"", [manager, peer]
        while True:
            for side in select.select(sides, [], [])[0]:
                try:
                    came = side.recv(1 << 16)
                except ConnectionResetError:
                    came = b""
                if side is peer:
                    if not came:
                        return
                    self.replies += came.count(b"\n")
                    try:
                        manager.sendall(came)
                    except OSError:
                        pass  # it was killed
                elif came:
                    *whole, part = (part + came).split(b"\n")
                    self.lines += [line.decode() for line in whole]
                    time.sleep(0.003)
                    peer.sendall(came)
                else:
                    self.cut += len(self.lines) > self.replies
                    sides.remove(manager)
                    peer.shutdown(socket.SHUT_WR)

    def words(self):
        """How many lines came of each word."""
        return dict(sorted(collections.Counter(line.split(" ")[0] for line in self.lines).items()))

    def tags(self):
        """The tag of each BEGIN that came, in order."""
        return [line.split(" ")[1] for line in self.lines if line.startswith("BEGIN ")]


def instantiate(what, room, kills):
    """Instantiates, and compares what the relay and the infrastructure saw."""
    with Simulated() as vim, Peer("orchestrator.py") as orchestrator:
        relay = Relay(vim)
        manager = Manager(room, orchestrator.at, relay.at)
        manager.once("instantiate.http")
        if kills:
            print(f"{what}: {manager.go_on_killed(random.Random(63))} runs", flush=True)
            expect(f"  {relay.cut} of them between a line and its reply, which is enough", relay.cut >= 5, True)
        else:
            print(f"{what}: ended behind {manager.go_on()} runs of one round", flush=True)
        expect("  the occurrence is", manager.state(), "COMPLETED")
        print(f"  on {relay.connections} connections: {relay.words()}", flush=True)
        tags = relay.tags()
        expect("  begins", len(tags), CHANGES)
        expect("  of them, of different attempts", len(set(tags)), CHANGES)
        expect("  of them, of different changes", len({tag.split(".")[2] for tag in tags}), CHANGES)
        done = [f"DONE x{f'r{number}'.encode().hex()}" for number in range(1, CHANGES + 2)]
        expect("  each job stands once", vim.ask(*[f"LOOK {tag}" for tag in tags]) == done[:-1], True)
        probe = "BEGIN 8.1.0.1.F CREATE LINK x6e6574 x 0 x76696d31 x 0 0"
        expect("  and none beside them", vim.ask(probe, "LOOK 8.1.0.1.F", "LOOK 8.1.0.1.F")[2], done[-1])


def main():
    subprocess.run(["rt", "run", "--", "--version"], cwd=CRATE, stdout=subprocess.DEVNULL, stderr=subprocess.DEVNULL, check=True)
    subprocess.run([reaches.PROGRAM, "--version"], check=True)
    with tempfile.TemporaryDirectory() as at:
        for what, name, kills in ("undisturbed", "whole", False), ("killed", "killed", True):
            room = pathlib.Path(at) / name
            room.mkdir()
            instantiate(what, room, kills)
    sys.exit(reaches.differs)


if __name__ == "__main__":
    main()
