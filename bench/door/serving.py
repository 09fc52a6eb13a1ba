"""What the scripts of this folder share: `vnfm serve` on loopback with peers of examples/, a client that looks each 20 ms, and many clients of one shape
beside it.

A script that stands on it takes the built program as its first word, and raises its own limit of descriptors to 8,192 first.
"""
import contextlib
import http.client
import json
import math
import os
import pathlib
import re
import resource
import shutil
import socket
import statistics
import subprocess
import sys
import tempfile
import threading
import time

HERE = pathlib.Path(__file__).resolve().parent
sys.path.insert(0, str(HERE.parent))
sys.dont_write_bytecode = True
import measuring

EXAMPLES = HERE.parent.parent / "examples"
BASE = "/vnflcm/v1/vnf_instances"
OVER = ("COMPLETED", "ROLLED_BACK", "FAILED_TEMP", "FAILED")
GET = b"GET " + BASE.encode() + b" HTTP/1.1\r\nHost: x\r\n\r\n"
vnfm = measuring.built("vnfm")
resource.setrlimit(resource.RLIMIT_NOFILE, (8192, max(8192, resource.getrlimit(resource.RLIMIT_NOFILE)[1])))


def free_port():
    with socket.create_server(("127.0.0.1", 0)) as listener:
        return listener.getsockname()[1]


@contextlib.contextmanager
def running(words):
    """A program that runs, and has said one line; what it says later is read and dropped."""
    process = subprocess.Popen([str(it) for it in words], stdin=subprocess.DEVNULL, stdout=subprocess.DEVNULL, stderr=subprocess.PIPE, text=True)
    if not process.stderr.readline():
        sys.exit(f"{words[0]}: status {process.wait()}")
    reader = threading.Thread(target=process.stderr.read, daemon=True)
    reader.start()
    try:
        yield process
    finally:
        process.kill()
        process.wait()
        reader.join()
        process.stderr.close()


@contextlib.contextmanager
def example(*words):
    """One of the examples, and its address; the adapter over a folder of its own."""
    with tempfile.TemporaryDirectory() as folder:
        words += ("--folder", folder) if words[0] == "adapter.py" else ()
        process = subprocess.Popen(
            [sys.executable, "-B", EXAMPLES / words[0], "--listen", "127.0.0.1:0", *words[1:]], stdout=subprocess.PIPE, stderr=subprocess.DEVNULL, text=True)
        try:
            yield re.search(r"\d+\.\d+\.\d+\.\d+:\d+", process.stdout.readline()).group()
        finally:
            process.kill()
            process.wait()
            process.stdout.close()


class Door:
    """`serve` over a journal, with these peers; over a new one with the descriptor of the examples, where none is there."""

    def __init__(self, folder, orchestrator="127.0.0.1:1", vim="127.0.0.1:1"):
        self.journal, self.ports = folder / "journal", (free_port(), free_port())
        self.words = [vnfm, "serve", "--journal", self.journal, "--listen", f"127.0.0.1:{self.ports[0]}", "--em-listen", f"127.0.0.1:{self.ports[1]}",
                      "--orchestrator", orchestrator, "--vim", vim]
        if not self.journal.exists():
            measuring.run([vnfm, "init", "--journal", self.journal, "--manager", "7"])
            measuring.run([vnfm, "onboard", "--journal", self.journal], EXAMPLES / "vnfd.json")

    def __enter__(self):
        self.block = running(self.words)
        self.process = self.block.__enter__()
        return self

    def __exit__(self, *fault):
        self.block.__exit__(*fault)

    def ask(self, method, path, body=None, side=0):
        connection = http.client.HTTPConnection("127.0.0.1", self.ports[side], timeout=60)
        try:
            connection.request(method, path, None if body is None else json.dumps(body), {"Content-Type": "application/json"})
            answer = connection.getresponse()
            return answer.status, answer.getheader("Location"), answer.read()
        finally:
            connection.close()

    def connect(self, side=0):
        return socket.create_connection(("127.0.0.1", self.ports[side]), timeout=60)

    def come_to(self, occurrence):
        """The state in which an operation is over, or in which it is after two minutes."""
        begun, state = time.monotonic(), ""
        while time.monotonic() - begun < 120 and state not in OVER:
            time.sleep(0.02)
            state = json.loads(self.ask("GET", occurrence)[2])["operationState"]
        return state

    def operation(self):
        """A new instance is instantiated: how long until it is COMPLETED, and its state then."""
        _, instance, _ = self.ask("POST", BASE, {"vnfdId": "vnfd-1"})
        begun = time.monotonic()
        _, occurrence, _ = self.ask("POST", instance + "/instantiate", {"flavourId": "simple"})
        state = self.come_to(occurrence)
        return time.monotonic() - begun, state

    def life(self):
        """An instance is made, instantiated, terminated and deleted: how its operations end."""
        _, instance, _ = self.ask("POST", BASE, {"vnfdId": "vnfd-1"})
        _, begins, _ = self.ask("POST", instance + "/instantiate", {"flavourId": "simple"})
        states = [self.come_to(begins)]
        _, ends, _ = self.ask("POST", instance + "/terminate", {"terminationType": "FORCEFUL"})
        states.append(self.come_to(ends))
        self.ask("DELETE", instance)
        return states

    def most_memory(self):
        """The most that it ever took, in megabytes."""
        for line in open(f"/proc/{self.process.pid}/status"):
            if line.startswith("VmHWM:"):
                return int(line.split()[1]) / 1024
        return math.nan

    def processor(self):
        """Seconds of the processor so far."""
        fields = open(f"/proc/{self.process.pid}/stat").read().rsplit(")", 1)[1].split()
        return (int(fields[11]) + int(fields[12])) / os.sysconf("SC_CLK_TCK")


@contextlib.contextmanager
def served(journal=None):
    """A door over a new journal, or a copy of this one, with the orchestrator and the adapter of the examples."""
    with tempfile.TemporaryDirectory() as folder, example("orchestrator.py") as orchestrator, example("adapter.py") as vim:
        if journal:
            shutil.copyfile(journal, pathlib.Path(folder) / "journal")
        with Door(pathlib.Path(folder), orchestrator, vim) as door:
            yield door


class Looker(threading.Thread):
    """One client that GETs a path each 20 ms on a kept connection, and how long each took; lost ones are counted."""

    def __init__(self, door, path=BASE):
        super().__init__(daemon=True)
        self.door, self.path, self.times, self.lost, self.goes_on = door, path, [], 0, True

    def run(self):
        connection = None
        while self.goes_on:
            begun = time.monotonic()
            try:
                connection = connection or http.client.HTTPConnection("127.0.0.1", self.door.ports[0], timeout=60)
                connection.request("GET", self.path)
                connection.getresponse().read()
                self.times.append(time.monotonic() - begun)
            except (OSError, http.client.HTTPException):
                self.lost, connection = self.lost + 1, None
            time.sleep(0.02)

    def end(self):
        self.goes_on = False
        self.join()

    def told(self):
        ordered = sorted(self.times) or [math.nan]
        return (f"{len(self.times):,} GETs, lost {self.lost}, p50 {1000 * statistics.median(ordered):.1f} ms, "
                f"p99 {1000 * ordered[int(0.99 * (len(ordered) - 1))]:.1f} ms, most {1000 * ordered[-1]:.1f} ms")


@contextlib.contextmanager
def looked_at(door, path=BASE):
    """A client that looks, while the block runs."""
    looker = Looker(door, path)
    looker.start()
    try:
        yield looker
    finally:
        looker.end()


def answers_of(connection, held=b""):
    """The answers that come on a connection, head and body, one after another, up to its end or a fault. Each has its length in its head,
    or is 204."""
    while True:
        while (end := held.find(b"\r\n\r\n")) < 0:
            more = connection.recv(1 << 20)
            if not more:
                return
            held += more
        head = held[:end + 4]
        length = re.search(rb"\r\nContent-Length: (\d+)\r\n", head)
        whole = len(head) + (int(length.group(1)) if length else 0)
        pieces, count = [held], len(held)
        while count < whole:
            more = connection.recv(1 << 20)
            if not more:
                return
            pieces.append(more)
            count += len(more)
        held = b"".join(pieces)
        yield held[:whole]
        held = held[whole:]


def forever(work, count, stop):
    """So many threads that do this until it stops, whatever becomes of their connections."""
    def loop(number):
        while not stop.is_set():
            try:
                work(number)
            except OSError:
                time.sleep(0.01)
    for number in range(count):
        threading.Thread(target=loop, args=(number,), daemon=True).start()


class Kept:
    """So many connections at both addresses, each of which is made anew where the door has ended it."""

    def __init__(self, door, count, sides=2):
        self.door, self.sides = door, sides
        self.connections = [door.connect(number % sides) for number in range(count)]

    def each(self, work):
        """Does this with each connection."""
        for number, connection in enumerate(self.connections):
            try:
                work(connection)
            except OSError:
                connection.close()
                try:
                    self.connections[number] = self.door.connect(number % self.sides)
                except OSError:
                    pass

    def close(self):
        for connection in self.connections:
            connection.close()


def still_open(connection):
    """Fails where the door has ended the connection, and reads nothing else."""
    connection.setblocking(False)
    try:
        if not connection.recv(1, socket.MSG_PEEK):
            raise ConnectionResetError
    except BlockingIOError:
        pass
    finally:
        connection.settimeout(60)


def silent(door, stop):
    kept = Kept(door, 1000)
    forever(lambda _: (kept.each(still_open), time.sleep(1)), 1, stop)
    return kept


def slow(door, stop):
    kept = Kept(door, 50, 1)
    line = b"GET / HTTP/1.1\r\nX: " + b"y" * 1000

    def each(_):
        for at in range(len(line)):
            if stop.is_set():
                return
            kept.each(lambda connection: (still_open(connection), connection.sendall(line[at:at + 1])))
            time.sleep(1)
    forever(each, 1, stop)
    return kept


def deaf(door, stop):
    kept = Kept(door, 50, 1)
    for connection in kept.connections:
        connection.sendall(GET * 400)

    def each(_):
        time.sleep(12)
        kept.each(lambda connection: connection.sendall(GET * 400))
    forever(each, 1, stop)
    return kept


def back_to_back(door, stop):
    def each(number):
        closing = (b"", b"Connection: close\r\n", b"")[number % 3]
        request = b"GET " + BASE.encode() + (b" HTTP/1.0\r\n" if number % 3 == 2 else b" HTTP/1.1\r\n") + closing + b"\r\n"
        with door.connect(number % 2) as connection:
            answers = answers_of(connection)
            for _ in range(200 if number % 3 == 0 else 1):
                connection.sendall(request)
                if stop.is_set() or not next(answers, None):
                    return
    forever(each, 16, stop)


def nonsense(door, stop):
    def each(number):
        with door.connect(number % 2) as connection:
            connection.sendall(b"NONSENSE\r\n\r\n")
            connection.recv(4096)
        time.sleep(0.05)
    forever(each, 10, stop)


def each_second(door, stop):
    kept = Kept(door, 1000)

    def each(_):
        kept.each(lambda connection: connection.sendall(GET))
        time.sleep(0.5)
        kept.each(lambda connection: next(answers_of(connection), None) or still_open(connection))
        time.sleep(0.5)
    forever(each, 1, stop)
    return kept


# The shapes of clients, by what they are.
SHAPES = {
    "alone": lambda door, stop: None,
    "1,000 kept and silent": silent,
    "50 at a byte a second": slow,
    "50 that read none of 400 answers": deaf,
    "16 back to back, kept, closing and HTTP/1.0, at both addresses": back_to_back,
    "1,000 that ask each second, at both addresses": each_second,
    "200 a second of nonsense": nonsense,
}


@contextlib.contextmanager
def clients(door, *shapes):
    """Clients of these shapes, beside the block."""
    stop = threading.Event()
    kept = [SHAPES[shape](door, stop) for shape in shapes]
    try:
        yield
    finally:
        stop.set()
        time.sleep(0.1)
        for it in kept:
            if it:
                it.close()
