#!/usr/bin/env python3
"""Measures, in one run, what an operator sees of `vnfm serve` over a real file system, each beside what it is compared with: creations on a kept connection
beside two writes and two syncs a record, and beside subscriptions whose notices wait; an instantiation of 49 changes beside the syncs of its records alone;
GETs of an instance; the processor time where nothing goes on; the start over a million events; and the memory of a thousand instances. First it measures
what a sync takes there. Times are those that pass, unless it is said otherwise.

usage: bench/operating/measure.py [VNFM [VIM_SIM [FOLDER [quick]]]]     the files stand in a new folder within FOLDER (default: where temporary files do),
                                                                        which decides what disk is measured; `quick` is for a try, with small numbers

It takes some eight minutes, of which two are waits for 100 receivers that take no connection; nothing else may run on the machine. With `quick` it takes
four, for these waits.
"""
import contextlib
import importlib.util
import json
import os
import pathlib
import re
import socket
import statistics
import subprocess
import sys
import tempfile
import time

HERE = pathlib.Path(__file__).resolve().parent
sys.path += [str(HERE.parent), str(HERE.parent.parent / "tests")]
sys.dont_write_bytecode = True
import measuring
from in_format_1 import records_of


def journals(folder):
    """The module journal.py of this folder of bench/."""
    spec = importlib.util.spec_from_file_location(folder, HERE.parent / folder / "journal.py")
    module = importlib.util.module_from_spec(spec)
    spec.loader.exec_module(module)
    return module


load, forward = journals("load"), journals("forward")

QUICK = "quick" in sys.argv[4:]
TIMES = 2 if QUICK else 7
SYNCS = 100 if QUICK else 1_000
# On one journal fewer than the 1,000 instances that may be live.
CREATIONS = 100 if QUICK else 900
WAITING, PERIOD = [1, 10, 100], 7 if QUICK else 30
OPERATIONS = [(1, "normal"), (10, "large")]
SHOWN = 1 if QUICK else 5
IDLE = 2 if QUICK else 10
EVENTS = 20_000 if QUICK else 1_000_000
STARTS = 2 if QUICK else 3
INSTANCES = 50 if QUICK else 1_000
FAST_SYNC = 0.5e-3
BASE = "/vnflcm/v1/vnf_instances"
MOVED, COMPLETED = 11, 2
vnfm, vim_sim = measuring.built("vnfm"), measuring.built("vim_sim", 2)


def must(holds, what):
    if not holds:
        sys.exit(what)


def timed(call, *words):
    begun = time.monotonic()
    call(*words)
    return time.monotonic() - begun


# ---- What runs

def free_port():
    with socket.create_server(("127.0.0.1", 0)) as listener:
        return listener.getsockname()[1]


@contextlib.contextmanager
def running(words, heard=subprocess.DEVNULL):
    """A program that runs until the block ends."""
    process = subprocess.Popen([str(it) for it in words], stdin=subprocess.DEVNULL, stdout=subprocess.DEVNULL, stderr=heard)
    try:
        yield process
    finally:
        process.kill()
        process.wait()


class Manager:
    """`serve` over a journal, from its first answer until the block ends: it listens before it reads the journal."""

    def __init__(self, path, *peers):
        self.path, self.port = path, free_port()
        self.words = [vnfm, "serve", "--journal", path, "--listen", f"127.0.0.1:{self.port}", "--em-listen", f"127.0.0.1:{free_port()}", *peers]

    def __enter__(self):
        self.block = running(self.words, subprocess.PIPE)
        begun = time.monotonic()
        self.process = self.block.__enter__()
        said = self.process.stderr.readline()
        self.listens = time.monotonic() - begun
        must(said.startswith(b"vnfm: listening at "), f"serve says {said}")
        Connection(self.port).ask("GET", "/", 404, last=True)
        self.answers = time.monotonic() - begun
        return self

    def __exit__(self, *fault):
        self.block.__exit__(*fault)
        self.process.stderr.close()

    def status(self, field):
        """This field of its status in /proc, in bytes."""
        for line in pathlib.Path(f"/proc/{self.process.pid}/status").read_text().splitlines():
            if line.startswith(field + ":"):
                return int(line.split()[1]) * 1024
        return sys.exit(f"/proc has no {field}")

    def used(self):
        """Its processor time, in seconds."""
        return int(pathlib.Path(f"/proc/{self.process.pid}/schedstat").read_text().split()[0]) / 1e9


class Ended(Exception):
    """The manager has ended a connection."""


class Connection:
    """A kept connection, which is opened again where the manager has ended it, as it does behind five seconds. It does as little as it can, since its time is
    in what is measured."""

    def __init__(self, port):
        self.port, self.opened, self.socket = port, 0, None

    def ask(self, method, path, status, body=None, last=False):
        """What a request is answered, with this status: the Location, or else the content."""
        content = json.dumps(body).encode() if body else b""
        fields = ("Content-Type: application/json\r\n" if body else "") + ("Connection: close\r\n" if last else "")
        head = f"{method} {path} HTTP/1.1\r\nHost: vnfm.example\r\n{fields}Content-Length: {len(content)}\r\n\r\n"
        return self.exchange(head.encode() + content, status, last)

    def exchange(self, request, status, last=False):
        while True:
            try:
                self.open().sendall(request)
                head, content = self.hear()
            except (Ended, BrokenPipeError, ConnectionResetError):
                self.close()  # it was ended before this request, which was not read
                continue
            must(head.startswith(b"HTTP/1.1 %d " % status), f"{request} is answered {head} {content}")
            if last:
                self.close()
            location = re.search(rb"\r\nLocation: ([^\r]*)", head)
            return location[1].decode() if location else content

    def open(self):
        if self.socket is None:
            self.socket = socket.create_connection(("127.0.0.1", self.port), timeout=600)
            self.socket.setsockopt(socket.IPPROTO_TCP, socket.TCP_NODELAY, 1)
            self.opened += 1
        return self.socket

    def hear(self):
        """The head and the content of an answer."""
        heard = self.more()
        while b"\r\n\r\n" not in heard:
            heard += self.more()
        head, _, content = heard.partition(b"\r\n\r\n")
        length = re.search(rb"\r\nContent-Length: (\d+)", head)
        while length and len(content) < int(length[1]):
            content += self.more()
        return head, content

    def more(self):
        piece = self.socket.recv(1 << 20)
        if not piece:
            raise Ended
        return piece

    def close(self):
        if self.socket:
            self.socket.close()
        self.socket = None


class Bare:
    """A file to which batches of these sizes are appended as the manager does: each behind the closed gate, a sync, the gate's byte, a sync."""

    def __init__(self, path):
        path.write_bytes(b"\0")
        self.file, self.end = os.open(path, os.O_RDWR), 0
        os.fdatasync(self.file)

    def append(self, sizes):
        for size in sizes:
            os.pwrite(self.file, b"\1" * (size - 1) + b"\0", self.end + 1)
            os.fdatasync(self.file)
            os.pwrite(self.file, b"\1", self.end)
            os.fdatasync(self.file)
            self.end += size

    def close(self):
        os.close(self.file)


def alone(room, sizes):
    """How long these appends take by themselves."""
    bare = Bare(room / "bare")
    took = timed(bare.append, sizes)
    bare.close()
    return took


def batch_sizes(old, new):
    """The sizes of the batches that a journal has more than it had."""
    return [9 + len(it) for it in list(records_of(new))[len(list(records_of(old))):]]


# ---- What is measured

def sync(room):
    """What a sync behind a small append takes."""
    file = os.open(room / "synced", os.O_RDWR | os.O_CREAT)
    found = []
    for _ in range(SYNCS):
        os.write(file, b"\1" * 42)
        found.append(timed(os.fdatasync, file))
    os.close(file)
    print(f"A sync behind an append of 42 bytes: {measuring.cell(found, 1e-3, 3)} ms.")
    if statistics.median(found) < FAST_SYNC:
        print(f"**That is below {1e3 * FAST_SYNC} ms: this disk, or the machine below it, answers before a disk of its own would. The ratios below are those of such a one.**")


def creating(room, start):
    """Creations on a kept connection, beside the same appends alone."""
    rows = []
    for _ in range(TIMES):
        journal = room / "journal"
        journal.write_bytes(start)
        with Manager(journal) as manager:
            connection = Connection(manager.port)
            create = lambda: connection.ask("POST", BASE, 201, {"vnfdId": "vnfd-1", "vnfInstanceName": "edge-1"})
            create()
            before = journal.read_bytes()
            took = timed(lambda: [create() for _ in range(CREATIONS)])
            connection.close()
        by = alone(room, batch_sizes(before, journal.read_bytes()))
        rows.append((CREATIONS / took, CREATIONS / by, by / took))
    measuring.head("What", "A second")
    for title, found in zip(("creations on a kept connection", "two writes and two syncs a record, alone"), zip(*rows)):
        measuring.row(title, measuring.cell(found, 1, 0))
    print(f"\nCreations by these: {measuring.cell([it[2] for it in rows], 1)}; the aim is at least 0.9.", flush=True)


@contextlib.contextmanager
def receiver(is_silent):
    """The port of one that refuses each connection, or takes none: its queue is full."""
    if not is_silent:
        yield free_port()
        return
    with contextlib.ExitStack() as open_ones:
        listener = open_ones.enter_context(socket.socket())
        listener.bind(("127.0.0.1", 0))
        listener.listen(0)
        for _ in range(8):
            one = open_ones.enter_context(socket.socket())
            one.setblocking(False)
            one.connect_ex(listener.getsockname())
        time.sleep(0.2)
        yield listener.getsockname()[1]


def beside_waiting(room, start):
    """Creations and deletions in turn, for so many seconds and until the request then under way is answered, where notices wait for subscriptions."""
    measuring.head("Receivers", "Subscriptions", "Seconds", "Records a second", "The longest request, ms", "Connections")
    journal = room / "journal"
    for title, is_silent in (("refuse", False), ("take no connection", True)):
        for number in ([0] if not is_silent else []) + WAITING:
            journal.write_bytes(start)
            with receiver(is_silent) as port, Manager(journal) as manager:
                connection = Connection(manager.port)
                for _ in range(number):
                    connection.ask("POST", "/vnflcm/v1/subscriptions", 201, {"callbackUri": f"http://127.0.0.1:{port}/notices"})
                connection.opened, took = 1, []
                begun = time.monotonic()
                while time.monotonic() < begun + PERIOD:
                    asked = time.monotonic()
                    made = connection.ask("POST", BASE, 201, {"vnfdId": "vnfd-1", "vnfInstanceName": "edge-1"})
                    between = time.monotonic()
                    connection.ask("DELETE", made, 204)
                    took += [between - asked, time.monotonic() - between]
                passed = time.monotonic() - begun
                connection.close()
            measuring.row(title, number, f"{passed:.1f}", f"{len(took) / passed:.0f}", f"{1e3 * max(took):.1f}", connection.opened)


def with_level(room, start):
    """A journal with the descriptor of the examples, which has one more level, of the most workers: 49 changes."""
    descriptor = json.loads((measuring.TOP / "examples" / "vnfd.json").read_text())
    policies = {name: it for entry in descriptor["topology_template"]["policies"] for name, it in entry.items()}
    policies["levels"]["properties"]["levels"]["large"] = {"scale_info": {"workers": {"scale_level": 10}}}
    policies["a_levels"]["properties"]["levels"]["large"] = {"number_of_instances": 11}
    document, journal = room / "vnfd.json", room / "journal"
    document.write_text(json.dumps(descriptor))
    journal.write_bytes(start[:32] + b"\0")
    measuring.run([vnfm, "onboard", "--journal", journal], document)
    return journal.read_bytes()


@contextlib.contextmanager
def peers():
    """The words that name an orchestrator and an infrastructure which answer at once."""
    grants, vim = free_port(), free_port()
    orchestrator = [sys.executable, measuring.TOP / "examples" / "orchestrator.py", "--listen", f"127.0.0.1:{grants}"]
    with running(orchestrator), running([vim_sim, "--listen", f"127.0.0.1:{vim}"]):
        for port in (grants, vim):
            while True:
                with contextlib.suppress(OSError), socket.create_connection(("127.0.0.1", port)):
                    break
                time.sleep(0.02)
        yield "--orchestrator", f"127.0.0.1:{grants}", "--vim", f"127.0.0.1:{vim}"


class Tail:
    """The records that come behind the end that a journal has now."""

    def __init__(self, path):
        self.file, self.place = open(path, "rb", buffering=0), len(path.read_bytes()) - 1

    def records(self):
        while os.pread(self.file.fileno(), 1, self.place) == b"\1":
            size = int.from_bytes(os.pread(self.file.fileno(), 4, self.place + 1), "big")
            content = os.pread(self.file.fileno(), size, self.place + 5)
            self.place += 5 + size
            yield content[4:]

    def await_completed(self):
        """Waits until an operation is COMPLETED, without a request, and gives the sizes of the batches on the way."""
        sizes = []
        while True:
            for record in self.records():
                sizes.append(9 + len(record))
                if record[0] == MOVED and record[17] == COMPLETED:
                    return sizes
                must(record[0] != MOVED or record[17] == 1, f"an operation is in state {record[17:]}")
            time.sleep(2e-4)


def instantiating(room, start):
    """From the request to the record that says COMPLETED, beside the appends of its records alone. Gives the journal."""
    journal = room / "journal"
    journal.write_bytes(with_level(room, start))
    measuring.head("Level", "Changes", "Records", "ms", "its appends alone, ms", "by these")
    with peers() as words, Manager(journal, *words) as manager:
        for workers, level in OPERATIONS:
            rows = []
            for _ in range(TIMES):
                connection = Connection(manager.port)
                made = connection.ask("POST", BASE, 201, {"vnfdId": "vnfd-1"}, last=True)
                time.sleep(1.5)  # (no round is under way that the one before has made wait)
                tail = Tail(journal)
                begun = time.monotonic()
                connection.ask("POST", made + "/instantiate", 202, {"flavourId": "simple", "instantiationLevelId": level}, last=True)
                sizes = tail.await_completed()
                took = time.monotonic() - begun
                tail.file.close()
                by = alone(room, sizes)
                rows.append((took, by, took / by))
            whole, by, ratio = zip(*rows)
            measuring.row(level, 4 * workers + 9, len(sizes), measuring.cell(whole, 1e-3, 1), measuring.cell(by, 1e-3, 1), measuring.cell(ratio, 1))
    print("\nThe aim is at most 1.2.", flush=True)
    return journal.read_bytes()


def showing(room, journal):
    """GETs of an instance of 13 changes."""
    path = room / "journal"
    path.write_bytes(journal)
    one = f"{BASE}/00000007-766d-8001-8000-000000000001"
    measuring.head("Connections", "GETs a second", "ms", "Bytes")
    with Manager(path) as manager:
        for title, last in (("kept", False), ("a new one each", True)):
            connection, took = Connection(manager.port), []
            until = time.monotonic() + SHOWN
            while time.monotonic() < until or len(took) < 2:
                begun = time.monotonic()
                content = connection.ask("GET", one, 200, last=last)
                took.append(time.monotonic() - begun)
            connection.close()
            must(b'"INSTANTIATED"' in content, "it isn't instantiated")
            measuring.row(title, f"{len(took) / sum(took):.0f}", measuring.cell(took, 1e-3, 3), len(content))


def idling(room, start):
    path = room / "journal"
    path.write_bytes(start)
    with Manager(path) as manager:
        time.sleep(2.5)
        before = manager.used()
        took = timed(time.sleep, IDLE)
        print(f"\nWhere nothing goes on: {1e3 * (manager.used() - before):.2f} ms of a processor in {took:.1f} s.", flush=True)


def starting(room):
    """`check`, and `serve` until it listens and until it answers, over journals of many events: a batch each, and packed."""
    old, single, packed = room / "old", room / "alone", room / "packed"
    for path, form in ((old, 1), (single, 2)):
        with open(path, "wb") as file:
            load.write(file, "cycle", EVENTS, 1, form)
    measuring.run([vnfm, "migrate", "--journal", old, "--to", packed])
    os.sync()
    measuring.head("Events", "Bytes", "`check`, s", "its processor time, s", "`serve` listens, s", "answers, s", "reading the file, s")
    for path in (single, packed):
        check, rows = [vnfm, "check", "--journal", path], []
        for _ in range(STARTS):
            before = measuring.used()
            took = timed(measuring.run, check)
            used = measuring.used() - before
            with Manager(path) as manager:
                pass
            rows.append((took, used, manager.listens, manager.answers, timed(path.read_bytes)))
        measuring.row(EVENTS, path.stat().st_size, *[measuring.cell(it, 1, 3) for it in zip(*rows)])


def instantiated(start, number):
    """The start with so many instances more that were instantiated with 13 changes each."""
    changes, told = forward.changes(1), []
    for it in range(1, number + 1):
        told.append((forward.CREATED, forward.u64(it) + forward.name("vnfd-1") + forward.none + forward.none))
        told += forward.begun(it, forward.u8(1) + forward.name("simple") + forward.none, changes, len(changes), 0, it)
        told.append((forward.MOVED, forward.u64(it) + forward.u8(forward.COMPLETED)))
    spelled = [forward.batch(forward.u8(kind) + forward.u64(forward.FIRST_MOMENT + at) + fields) for at, (kind, fields) in enumerate(told)]
    return start[:-1] + b"".join(spelled) + b"\0"


def remembering(room, start):
    path = room / "journal"
    measuring.head("Instances of 13 changes", "Bytes of the journal", "VmRSS, once it answers", "VmHWM", "VmHWM behind a list of all", "Bytes of the list")
    for number in (0, INSTANCES):
        path.write_bytes(instantiated(start, number))
        with Manager(path) as manager:
            found = [manager.status(it) for it in ("VmRSS", "VmHWM")]
            listed = Connection(manager.port).ask("GET", BASE, 200, last=True)
            must(listed.count(b'"INSTANTIATED"') == number, "not all are instantiated")
            measuring.row(number, path.stat().st_size, *found, manager.status("VmHWM"), len(listed))


def main():
    within = sys.argv[3] if len(sys.argv) > 3 else tempfile.gettempdir()
    with measuring.room(within) as room:
        sync(room)
        journal = room / "journal"
        measuring.run([vnfm, "init", "--journal", journal, "--manager", "7"])
        measuring.run([vnfm, "onboard", "--journal", journal], measuring.TOP / "examples" / "vnfd.json")
        start = journal.read_bytes()
        creating(room, start)
        instances = instantiating(room, start)
        showing(room, instances)
        idling(room, start)
        starting(room)
        remembering(room, start)
        beside_waiting(room, start)


main()
