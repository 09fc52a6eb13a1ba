#!/usr/bin/env python3
"""Runs the program with examples/orchestrator.py, examples/adapter.py and a receiver of notices: whole lives of an instance, from its creation to its
deletion, of which the receiver takes each notice at once, is refused each at first, or whose runs are killed after some milliseconds each. The notices
of the life come in the order of its events, none is left out, and one that was taken comes again only behind a run that was killed. One that is refused
five times isn't posted a sixth time.

Prints what it saw, and ends with 1 where that differs from what is wanted.
"""
import http.server
import json
import pathlib
import random
import signal
import subprocess
import sys
import tempfile
import threading

import reaches
from reaches import Peer, expect

LIFE = ["created", "STARTING", "PROCESSING", "COMPLETED", "STARTING", "PROCESSING", "COMPLETED", "deleted"]
TYPES = {"VnfIdentifierCreationNotification": "created", "VnfIdentifierDeletionNotification": "deleted"}
TRIES, MOST_RUNS = 5, 400
BASE = "/vnflcm/v1"
INSTANCE = f"{BASE}/vnf_instances/00000007-766d-8001-8000-000000000001"


class Receiver(http.server.BaseHTTPRequestHandler):
    """Notes each notice: its identifier, what it tells, and whether it was taken."""

    protocol_version = "HTTP/1.1"

    def do_POST(self):
        notice = json.loads(self.rfile.read(int(self.headers["Content-Length"])))
        told = TYPES.get(notice["notificationType"]) or notice["operationState"]
        tries = sum(it[0] == notice["id"] for it in self.server.posts)
        is_taken = tries >= self.server.refused
        self.server.posts.append((notice["id"], told, is_taken))
        self.send_response(204 if is_taken else 500)
        self.send_header("Content-Length", "0")
        self.end_headers()

    def log_message(self, *_):
        pass


class Listening:
    """A receiver that refuses each notice so many times, until the block ends."""

    def __init__(self, refused):
        self.refused = refused

    def __enter__(self):
        self.server = http.server.ThreadingHTTPServer(("127.0.0.1", 0), Receiver)
        self.server.posts, self.server.refused = [], self.refused
        threading.Thread(target=self.server.serve_forever, daemon=True).start()
        return self.server

    def __exit__(self, *_):
        self.server.shutdown()
        self.server.server_close()


def request(method, path, body=None):
    content = json.dumps(body).encode() if body is not None else b""
    fields = f"Content-Type: application/json\r\nContent-Length: {len(content)}\r\n" if body is not None else ""
    return f"{method} {path} HTTP/1.1\r\nHost: vnfm.example\r\n{fields}\r\n".encode() + content


class Manager:
    """The program over one journal, with the descriptor of the examples."""

    def __init__(self, room, orchestrator, adapter):
        self.room, self.journal = room, room / "journal"
        self.peers = ["--orchestrator", orchestrator, "--vim", adapter]
        subprocess.run([*self.words("init"), "--manager", "7"], check=True, stderr=subprocess.DEVNULL, stdout=subprocess.DEVNULL)
        with open(reaches.EXAMPLES / "vnfd.json", "rb") as descriptor:
            subprocess.run(self.words("onboard"), stdin=descriptor, check=True, stderr=subprocess.DEVNULL, stdout=subprocess.DEVNULL)

    def words(self, command):
        return [reaches.BUILT, command, "--journal", self.journal]

    def ask(self, *asked):
        """The head of the answer to a request, in a round of its own."""
        done = subprocess.run([*self.words("once"), *self.peers], input=request(*asked), stdout=subprocess.PIPE, stderr=subprocess.DEVNULL, check=False)
        return done.stdout.split(b"\r\n")[0].decode()

    def go_on(self, draw, is_over):
        """Runs of four rounds until that is so, killed after up to 20 ms where there is a draw; gives how many were."""
        killed = 0
        for _ in range(MOST_RUNS):
            if is_over():
                return killed
            process = subprocess.Popen([*self.words("once"), *self.peers, "--rounds", "4"], stdin=subprocess.DEVNULL, stdout=subprocess.DEVNULL,
                                       stderr=subprocess.DEVNULL)
            try:
                process.wait(draw.uniform(0.0005, 0.02) if draw else None)
            except subprocess.TimeoutExpired:
                process.send_signal(signal.SIGKILL)
                process.wait()
                killed += 1
        return killed


def live(room, refused=0, draw=None):
    """A whole life of an instance: what was posted, and how many runs were killed."""
    (room / "folder").mkdir(parents=True)
    with Listening(refused) as receiver, Peer("orchestrator.py") as orchestrator, \
            Peer("adapter.py", "--folder", room / "folder", "--looks", "1") as adapter:
        manager = Manager(room, orchestrator.at, adapter.at)
        posts, killed = receiver.posts, 0
        callback = f"http://127.0.0.1:{receiver.server_address[1]}/notices"
        expect("subscribed", manager.ask("POST", f"{BASE}/subscriptions", {"callbackUri": callback}), "HTTP/1.1 201 Created")
        told = lambda: [it for it, _ in dict.fromkeys((told, identifier) for identifier, told, _ in posts)]
        over = lambda number: (lambda: len(told()) >= number and (posts[-1][2] or refused >= TRIES))
        expect("created", manager.ask("POST", f"{BASE}/vnf_instances", {"vnfdId": "vnfd-1"}), "HTTP/1.1 201 Created")
        killed += manager.go_on(draw, over(1))
        for ask, number in (("instantiate", {"flavourId": "simple"}), 4), (("terminate", {"terminationType": "FORCEFUL"}), 7):
            expect(ask[0], manager.ask("POST", f"{INSTANCE}/{ask[0]}", ask[1]), "HTTP/1.1 202 Accepted")
            killed += manager.go_on(draw, over(number))
        expect("deleted", manager.ask("DELETE", INSTANCE), "HTTP/1.1 204 No Content")
        killed += manager.go_on(draw, over(8))
        # nothing comes behind the last notice
        before = len(posts)
        if refused < TRIES:
            manager.go_on(None, iter([False, False, True]).__next__)
            expect("posts behind the last one that was taken", len(posts) - before, 0)
        return list(posts), killed


def in_order(posts):
    """What was told, each notice once, and whether each was posted until the next one came first."""
    told, seen = [], []
    for identifier, what, _ in posts:
        if identifier not in seen:
            seen.append(identifier)
            told.append(what)
        elif identifier != seen[-1]:
            return told, False
    return told, True


def main():
    subprocess.run([reaches.PROGRAM, "--version"], check=True)
    with tempfile.TemporaryDirectory() as at:
        room = pathlib.Path(at)
        posts, _ = live(room / "taken")
        expect("told", in_order(posts), (LIFE, True))
        expect("posts", len(posts), len(LIFE))
        posts, _ = live(room / "refused", refused=3)
        expect("told behind three refusals each", in_order(posts), (LIFE, True))
        expect("posts", len(posts), 4 * len(LIFE))
        posts, killed = live(room / "killed", draw=random.Random(11))
        expect("told where runs are killed", in_order(posts), (LIFE, True))
        print(f"{killed} runs were killed, and {len(posts) - len(LIFE)} notices were posted again", flush=True)
        posts, _ = live(room / "given up", refused=TRIES)
        counts = [sum(it[0] == identifier for it in posts) for identifier in dict.fromkeys(it[0] for it in posts)]
        expect("told where none is taken", in_order(posts), (LIFE, True))
        expect("posts of each but the last", counts[:-1], [TRIES] * (len(LIFE) - 1))
    sys.exit(reaches.differs)


main()
