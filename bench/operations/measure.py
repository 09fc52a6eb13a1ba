#!/usr/bin/env python3
"""Measures operations at their largest, and at a half and a quarter of it: how long `vnfm once` takes to answer who
asks for one, to get its grant, and to show its instance and its occurrence. Journals lie in memory, and the
orchestrator is this script, on loopback; times are the processor time of the program alone.

usage: bench/operations/measure.py [VNFM]
"""
import http.server
import pathlib
import sys
import threading

HERE = pathlib.Path(__file__).resolve().parent
sys.path += [str(HERE.parent), str(HERE.parent.parent / "examples")]
sys.dont_write_bytecode = True
import asked
import measuring
import orchestrator
import stream
from asked import Instance

# The definitions of an instance and the machines that a HEAL names, at most; and the parts of these that are measured.
DEFINITIONS, NAMED = 2_500, 512
PARTS = 4, 2, 1
# The definitions or changes of all instances of a journal; how often what is refused is asked, and what is shown.
TOGETHER, REFUSED, SHOWN = 20_000, 400, 40
OCCURRENCE = b"/vnflcm/v1/vnf_lcm_op_occs/00000007-766d-8002-8000-%012x"
vnfm = measuring.built("vnfm")

# From one machine to as many as an instance may have, three with each step; of machines of two definitions each, which
# leave room for the new ones; and of computes alone.
OPERATIONS = {
    "SCALE_OUT": lambda part: asked.scale_out(Instance(1, delta=3), DEFINITIONS // 3 // part),
    "HEAL": lambda part: asked.heal(Instance(DEFINITIONS // 4 // part, disks=1), NAMED // part),
    "TERMINATE": lambda part: asked.terminate(Instance(DEFINITIONS // part)),
}
INSTANCES = {
    "an instance of computes": lambda part: Instance(DEFINITIONS // part),
    "an instance of computes with a disk": lambda part: Instance(DEFINITIONS // 4 // part, disks=1),
}


class Journal:
    """A journal, which is written anew each time before the program runs over it."""

    def __init__(self, room, content):
        self.content, self.path, self.connection = content, room / "journal", room / "connection"

    def words(self, rounds, *more):
        self.path.write_bytes(self.content)
        return [vnfm, "once", "--journal", self.path, "--rounds", str(rounds), *more]

    def heard(self, requests):
        self.connection.write_bytes(b"".join(requests))
        return self.connection

    def answers(self, requests, *statuses):
        """What is answered, with these statuses for each part of the connection."""
        answers = measuring.answers(self.words(1), self.heard(requests)).split(b"HTTP/1.1 ")[1:]
        must([int(it[:3]) for it in answers] == [*statuses] * len(requests), f"not {statuses}: {answers[:1]}")
        return answers

    def seconds(self, requests):
        return measuring.seconds(self.words(1), self.heard(requests))

    def grown(self):
        """What the program recorded in its last run."""
        return self.path.read_bytes()[len(self.content) - 1 :]


def must(holds, what):
    if not holds:
        sys.exit(what)


def costs(found, size, *cells):
    """A row with what one costs, and what that is for each definition or change."""
    measuring.row(*cells, measuring.cell(found, digits=0), measuring.cell([it / size for it in found]))


def asked_and_canceled(operation, occurrence, instance):
    """The request for it, and one that cancels it at once, so that the turn behind them asks for no grant."""
    cancel = b"POST " + OCCURRENCE % occurrence + b"/cancel" + stream.HOST + stream.JSON
    return operation.request(instance) + stream.sized(cancel, b'{"cancelMode":"FORCEFUL"}')


def requests_cost(at, requests):
    """What each of these parts of a connection costs."""
    (_, _, found), = measuring.slopes(lambda number: at.seconds(requests[:number]), [0, len(requests)])
    return found


def asking(room):
    print("To ask for an operation, and to cancel it:")
    measuring.head("Ask", "Definitions", "Changes", "us an ask", "us a definition or change")
    for part in PARTS:
        operation = asked.too_large(DEFINITIONS // part)
        at, request = Journal(room, asked.written(operation.on, 1)), operation.request(1)
        must(b"too many resources" in at.answers([request], 507)[0], "refused for something else")
        found = requests_cost(at, [request] * REFUSED)
        costs(found, operation.size(), "SCALE_OUT, refused", operation.on.definitions(), 0)
    for title, operation_of in OPERATIONS.items():
        for part in PARTS:
            operation = operation_of(part)
            instances = TOGETHER // operation.size()
            at = Journal(room, asked.written(operation.on, instances))
            requests = [asked_and_canceled(operation, instances + it, it) for it in range(1, instances + 1)]
            at.answers(requests, 202, 202)
            recorded, last = at.grown(), operation.asked(2 * instances, instances)
            must(recorded.count(last[17:]) == instances and last in recorded, f"{title}: not the changes that it has")
            found = requests_cost(at, requests)
            costs(found, operation.size(), title, operation.on.definitions(), len(operation.changes))


class Granting(orchestrator.Handler):
    """The orchestrator of the examples, which grants all; it says nothing of it here."""

    def log_message(self, *_):
        pass


def listening():
    server = http.server.ThreadingHTTPServer(("127.0.0.1", 0), Granting)
    server.grants, server.later = {}, False
    threading.Thread(target=server.serve_forever, daemon=True).start()
    return "%s:%d" % server.server_address


def granting(room):
    print("\nTo ask for the grant of an operation, read the answer and record it:")
    measuring.head("Operation", "Changes", "us an operation", "us a change")
    address = listening()
    for title, operation_of in OPERATIONS.items():
        for part in PARTS:
            operation = operation_of(part)
            size = len(operation.changes)
            instances = TOGETHER // size
            at = Journal(room, asked.written(operation.on, instances, operation))
            turns = lambda rounds: at.words(rounds, "--orchestrator", address)
            measuring.run(turns(1))
            must(asked.granted(at.grown()) == [size] * instances, f"{title}: not granted")
            cost = lambda rounds: measuring.seconds(turns(rounds)) / instances
            (_, _, found), = measuring.slopes(cost, [0, 1])
            costs(found, size, title, size)


def shown(room, title, journal, path, size):
    at, request = Journal(room, journal), b"GET " + path + stream.HOST + b"\r\n"
    answer, = at.answers([request], 200)
    costs(requests_cost(at, [request] * SHOWN), size, title, size, len(answer))


def showing(room):
    print("\nTo show what stands of an instance, and what an occurrence that is COMPLETED changed:")
    measuring.head("Shown", "Definitions or changes", "Bytes", "us a view", "us a definition or change")
    for title, instance_of in INSTANCES.items():
        for part in PARTS:
            on = instance_of(part)
            shown(room, title, asked.written(on, 1), stream.instance(1), on.definitions())
    for title, operation_of in OPERATIONS.items():
        for part in PARTS:
            operation = operation_of(part)
            journal = asked.written(operation.on, 1, operation, is_completed=True)
            shown(room, f"the occurrence of a {title}", journal, OCCURRENCE % 2, len(operation.changes))
            if title != "TERMINATE":
                stands = operation.on.definitions() + (len(operation.changes) if title == "SCALE_OUT" else 0)
                shown(room, f"the instance behind a {title}", journal, stream.instance(1), stands)


def main():
    with measuring.room() as room:
        asking(room)
        granting(room)
        showing(room)


main()
