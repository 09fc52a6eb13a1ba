#!/usr/bin/env python3
"""Runs the door of crates/net_door on loopback: pieces, kept and silent clients, slow ones, clients that close or read nothing, refused
uploads, and want of descriptors. Each client's answers are its own, and nobody waits for another.

The program is built by `rt run`, so a first run takes minutes; the trial itself takes about a minute. Prints what it saw, and ends with 1
where that differs from what is wanted.
"""
import os
import socket
import struct
import subprocess
import sys
import threading
import time

CRATE = os.path.join(os.path.dirname(os.path.abspath(__file__)), "..", "crates", "door_trial")
GET = b"GET /fine HTTP/1.1\r\nHost: x\r\n\r\n"
FINE = b"HTTP/1.1 200 OK\r\nContent-Length: 5\r\n\r\nfine\n"
LAST = b"HTTP/1.1 200 OK\r\nContent-Length: 5\r\nConnection: close\r\n\r\nfine\n"
differs = False


def expect(what, seen, wanted):
    """Prints what was seen, and notes where it isn't what is wanted."""
    global differs
    print(f"{what}: {seen!r}", flush=True)
    if seen != wanted:
        print(f"  wanted: {wanted!r}")
        differs = True


def within(what, seconds, least, most):
    """Prints a time, and notes where it isn't between these."""
    global differs
    print(f"{what}: {seconds:.2f} s", flush=True)
    if not least <= seconds <= most:
        print(f"  wanted: {least} to {most} s")
        differs = True


def free_port():
    """A port at which nobody listens."""
    with socket.socket() as free:
        free.bind(("127.0.0.1", 0))
        return free.getsockname()[1]


class Program:
    """The program at two addresses."""

    def __init__(self, rounds=1_000_000, prefix=()):
        self.ports = (free_port(), free_port())
        words = [f"127.0.0.1:{port}" for port in self.ports] + [str(rounds)]
        self.process = subprocess.Popen([*prefix, os.path.join(CRATE, "out", "door_trial"), *words], stdout=subprocess.PIPE, text=True)
        if self.process.stdout.readline() != "up\n":
            sys.exit("door_trial isn't up")
        threading.Thread(target=self.process.stdout.read, daemon=True).start()

    def connect(self, side=0):
        connection = socket.create_connection(("127.0.0.1", self.ports[side]))
        connection.settimeout(60)
        return connection

    def processor(self):
        """Seconds of the processor so far."""
        fields = open(f"/proc/{self.process.pid}/stat").read().rsplit(")", 1)[1].split()
        return (int(fields[11]) + int(fields[12])) / os.sysconf("SC_CLK_TCK")

    def end(self):
        self.process.terminate()
        self.process.wait()


def until_end(connection):
    """What comes to the end, and how long that takes."""
    begun, got = time.time(), b""
    try:
        while more := connection.recv(1 << 20):
            got += more
    except ConnectionResetError:
        got += b" reset"
    return got, time.time() - begun


def upto(connection, count):
    """So many bytes that come, or fewer where the connection ends."""
    got = b""
    while len(got) < count and (more := connection.recv(count - len(got))):
        got += more
    return got


def ask(connection):
    """The answer to one request, and how long it takes."""
    begun = time.time()
    connection.sendall(GET)
    got = upto(connection, len(FINE))
    return got, time.time() - begun


def pieces(door):
    connection = door.connect()
    for byte in GET:
        connection.sendall(bytes([byte]))
        time.sleep(0.01)
    expect("a request in pieces of a byte", upto(connection, len(FINE)), FINE)
    connection.close()
    connection = door.connect(1)
    connection.sendall(GET * 3)
    connection.shutdown(socket.SHUT_WR)
    expect("three requests in one piece, at the other address, and then its end", until_end(connection)[0], FINE * 3)
    connection = door.connect()
    connection.sendall(b"POST /fine HTTP/1.1\r\nTransfer-Encoding: chunked\r\n\r\n" + b"1\r\nx\r\n" * 50_000 + b"0\r\n\r\n" + GET)
    expect("a long one in chunks, and another behind it", upto(connection, 2 * len(FINE)), FINE * 2)


def closing(door):
    for what, request in (("HTTP/1.0", b"GET /fine HTTP/1.0\r\n\r\n"), ("that asks for its end", b"GET /fine HTTP/1.1\r\nCONNECTION: a, close\r\n\r\n")):
        connection = door.connect()
        connection.sendall(request + GET)
        got, seconds = until_end(connection)
        expect(f"one of {what}", got, LAST)
        within("  its end comes after", seconds, 0.0, 0.5)


def beside(door, what):
    """A request beside others: how long it takes on a connection that is kept, and on new ones."""
    connection, longest = door.connect(), 0.0
    for _ in range(20):
        got, seconds = ask(connection)
        other = door.connect(1)
        again, more = ask(other)
        other.close()
        longest = max(longest, seconds, more)
        if (got, again) != (FINE, FINE):
            expect(f"beside {what}", (got, again), (FINE, FINE))
    within(f"beside {what} the longest request of 40 takes", longest, 0.0, 0.3)


def others(door):
    kept = [door.connect(side % 2) for side in range(500)]
    beside(door, "500 that say nothing")
    slow = [door.connect() for _ in range(50)]

    def feed():
        try:
            for byte in b"GET /fine HTTP/1.1\r\nHost: " + b"x" * 8:
                for connection in slow:
                    connection.sendall(bytes([byte]))
                time.sleep(0.3)
        except OSError:
            pass

    threading.Thread(target=feed, daemon=True).start()
    beside(door, "50 that send a byte at a time")
    deaf = [door.connect() for _ in range(20)]
    for connection in deaf:
        connection.sendall(GET * 400)
    beside(door, "20 that read none of 400 answers")
    expect("all that said nothing are still heard", sum(ask(connection)[0] == FINE for connection in kept), 500)
    spent = door.processor()
    time.sleep(2)
    within("beside them, in two seconds of the processor", door.processor() - spent, 0.0, 0.3)
    for connection in kept + slow + deaf:
        connection.close()


def kept_long(door):
    connection = door.connect()
    expect("kept for 12 s, asked each 3 s, it is answered", sum((ask(connection)[0] == FINE, time.sleep(3))[0] for _ in range(4)), 4)
    connection.sendall(GET * 2000)
    begun = time.time()
    expect("  and 2,000 times at once", upto(connection, 2000 * len(FINE)) == FINE * 2000, True)
    within("  in", time.time() - begun, 0.0, 2.0)


def stuck(door):
    connection, begun = door.connect(), time.time()
    connection.sendall(b"GET /20000000 HTTP/1.1\r\n\r\n")
    seconds = 0.0
    while seconds < 20:
        time.sleep(0.2)
        seconds = time.time() - begun
        if subprocess.run(["ss", "-Htn", "state", "established", f"( sport = :{door.ports[0]} )"], capture_output=True, text=True).stdout.count("\n") == 0:
            break
    within("no byte of an answer is taken, it ends after", seconds, 9.0, 14.0)
    connection.close()


def uploads(door):
    told = 0
    for _ in range(100):
        connection = door.connect()
        try:
            connection.sendall(b"POST /x HTTP/1.1\r\nContent-Length: 3000000\r\n\r\n" + b" " * 3_000_000)
            connection.shutdown(socket.SHUT_WR)
        except OSError:
            pass
        told += until_end(connection)[0].startswith(b"HTTP/1.1 413 ")
    expect("of 100 uploads that are refused, those that see their 413", told, 100)
    connection = door.connect()
    connection.sendall(b"NONSENSE\r\n\r\n" + GET)
    expect("nonsense, and a request behind it", until_end(connection)[0][:12], b"HTTP/1.1 400")


def gone(door):
    for _ in range(20):
        connection = door.connect()
        connection.setsockopt(socket.SOL_SOCKET, socket.SO_LINGER, struct.pack("ii", 1, 0))
        connection.close()
    expect("behind 20 that were reset at once", ask(door.connect())[0], FINE)


def descriptors():
    door = Program(prefix=["sh", "-c", 'ulimit -n 84; exec "$0" "$@"'])
    peers = [door.connect() for _ in range(40)]
    time.sleep(0.5)
    spent = door.processor()
    time.sleep(2)
    within("with more clients than descriptors, in two seconds of the processor", door.processor() - spent, 0.0, 0.1)
    peers[-1].sendall(GET)
    expect("  the last that came is heard, and closed behind its answer", until_end(peers[-1])[0], LAST)
    expect("  and the first has gone", until_end(peers[0])[0], b"")
    for peer in peers:
        peer.close()
    time.sleep(1)
    expect("  and behind them another one", ask(door.connect())[0], FINE)
    expect("  it runs still", door.process.poll(), None)
    door.end()


def addresses():
    with socket.socket() as taken:
        taken.bind(("127.0.0.1", 0))
        taken.listen()
        words = [f"127.0.0.1:{free_port()}", f"127.0.0.1:{taken.getsockname()[1]}", "5"]
        ran = subprocess.run([os.path.join(CRATE, "out", "door_trial"), *words], capture_output=True, text=True)
        expect("at an address that is taken", (ran.returncode, ran.stdout), (4, "door fault\n"))
    closed = subprocess.run(
        ["sh", "-c", 'exec 0<&- 2>&-; exec "$0" "$@"', os.path.join(CRATE, "out", "door_trial"), *[f"127.0.0.1:{free_port()}" for _ in "ab"], "2"],
        stdout=subprocess.PIPE, text=True)
    expect("with closed streams", (closed.returncode, closed.stdout), (0, "up\n"))


subprocess.run(["rt", "run"], cwd=CRATE, stdout=subprocess.DEVNULL, stderr=subprocess.DEVNULL)
door = Program()
spent = door.processor()
time.sleep(2)
within("nobody comes: in two seconds of the processor", door.processor() - spent, 0.0, 0.05)
for trial in (pieces, closing, others, kept_long, uploads, gone):
    trial(door)
door.end()
door = Program()
stuck(door)
door.end()
descriptors()
addresses()
sys.exit(1 if differs else 0)
