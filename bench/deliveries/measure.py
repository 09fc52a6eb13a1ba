#!/usr/bin/env python3
"""Measures what deliveries cost a round of `vnfm once`: with 200 subscriptions for which nothing waits, with 10,000 and with 200 notices that each wait
for all of them, and where no receiver is reached. Journals lie in memory, and the receiver is this script, on loopback; processor times are of the
program alone.

usage: bench/deliveries/measure.py [VNFM]
"""
import pathlib
import socket
import sys
import threading
import time

HERE = pathlib.Path(__file__).resolve().parent
sys.path += [str(HERE.parent), str(HERE.parent / "load")]
sys.dont_write_bytecode = True
import journal
import measuring

SUBSCRIPTIONS, NOTICES = 200, 10_000
# Rounds in which nobody waits, and in which each subscription is posted one notice.
IDLE, ROUNDS = 20_000, 100
TAKEN = b"HTTP/1.1 204 No Content\r\nContent-Length: 0\r\nConnection: close\r\n\r\n"
vnfm = measuring.built("vnfm")


def must(holds, what):
    if not holds:
        sys.exit(what)


class Receiver:
    """Takes every notice, and counts them."""

    def __init__(self):
        self.listener = socket.create_server(("127.0.0.1", 0), backlog=512)
        self.port, self.taken = self.listener.getsockname()[1], 0
        threading.Thread(target=self.take_all, daemon=True).start()

    def take_all(self):
        while True:
            connection, _ = self.listener.accept()
            with connection:
                heard = b""
                while b"}" not in heard[-1:]:
                    more = connection.recv(65_536)
                    if not more:
                        break
                    heard += more
                connection.sendall(TAKEN)
                self.taken += 1


def unreached():
    """A port at which nobody listens."""
    with socket.create_server(("127.0.0.1", 0)) as listener:
        return listener.getsockname()[1]


def written(path, waiting, port):
    """A journal with as many subscriptions of both roles as may be live, for each of which so many notices wait, to this port."""
    with open(path, "wb") as file:
        events = journal.Journal(file, 1 + SUBSCRIPTIONS + waiting)
        for number in range(SUBSCRIPTIONS):
            events.subscribe(number % 2, callback=f"http://127.0.0.1:{port}/")
        for _ in range(waiting // 2):
            events.create()
            events.delete(events.instance)
        file.write(journal.u8(0))
    return path.read_bytes()


class Rounds:
    """The program over a journal, which is written anew each time."""

    def __init__(self, path, content):
        self.path, self.content = path, content

    def words(self, rounds):
        self.path.write_bytes(self.content)
        return [vnfm, "once", "--journal", self.path, "--rounds", str(rounds)]

    def seconds(self, rounds):
        return measuring.seconds(self.words(rounds))

    def clock(self, rounds):
        """The time by the clock, with the receiver's in it."""
        words = self.words(rounds)
        before = time.perf_counter()
        measuring.run(words)
        return time.perf_counter() - before

    def grown(self):
        return self.path.stat().st_size - len(self.content)


def rows(title, at, rounds, posts):
    (_, _, found), = measuring.slopes(at.seconds, [0, rounds])
    (_, _, clocked), = measuring.slopes(at.clock, [0, rounds])
    each = [measuring.cell([it / posts for it in found]), measuring.cell([it / posts for it in clocked])] if posts else ["", ""]
    measuring.row(title, rounds, posts * rounds, measuring.cell(found, digits=1), measuring.cell(clocked, digits=1), *each)


def main():
    with measuring.room() as room:
        path, receiver = room / "journal", Receiver()
        measuring.head("Round", "Rounds", "Posts", "us a round", "us by the clock", "us a post", "us by the clock")
        rows("nobody waits", Rounds(path, written(path, 0, receiver.port)), IDLE, 0)
        waits = Rounds(path, written(path, NOTICES, receiver.port))
        measuring.run(waits.words(ROUNDS))
        must(receiver.taken == SUBSCRIPTIONS * ROUNDS, f"{receiver.taken} notices were taken")
        must(waits.grown() == SUBSCRIPTIONS * ROUNDS * 35, f"{waits.grown()} bytes were recorded")
        rows("each is posted one of 10,000, and takes it", waits, ROUNDS, SUBSCRIPTIONS)
        rows("each is posted one of 200, and takes it", Rounds(path, written(path, 2 * ROUNDS, receiver.port)), ROUNDS, SUBSCRIPTIONS)
        rows("no receiver is reached", Rounds(path, written(path, NOTICES, unreached())), ROUNDS, SUBSCRIPTIONS)


main()
