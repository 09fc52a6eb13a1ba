#!/usr/bin/env python3
"""Runs vim_sim on loopback: its words and statuses, its lines, and that a second connection waits for the end of the first.

The program is built and run by `rt run`, so a first run takes minutes. Prints what it saw, and ends with 1 where that differs from what
is wanted.
"""
import os
import socket
import subprocess
import sys
import time

CRATE = os.path.join(os.path.dirname(os.path.abspath(__file__)), "..", "crates", "vim_sim")
BEGIN = "BEGIN 7.1.0.1.F CREATE LINK x6e65745f64617461 x 0 x76696d31 x 0 0"
differs = False


def expect(what, seen, wanted):
    """Prints what was seen, and notes where it isn't what is wanted."""
    global differs
    print(f"{what}: {seen!r}")
    if seen != wanted:
        print(f"  wanted: {wanted!r}")
        differs = True


def start(*words):
    """The program with these words."""
    return subprocess.Popen(["rt", "run", "--", *words], cwd=CRATE, stdout=subprocess.PIPE, stderr=subprocess.DEVNULL, text=True)


def connected(port):
    """A connection to the program, once it listens."""
    for _ in range(900):
        try:
            return socket.create_connection(("127.0.0.1", port), timeout=10)
        except OSError:
            time.sleep(1)
    sys.exit("vim_sim didn't listen in 15 minutes")


def ask(connection, line):
    """The reply to this line, without its line feed."""
    connection.sendall(line.encode() + b"\n")
    reply = b""
    while not reply.endswith(b"\n"):
        more = connection.recv(100)
        if not more:
            break
        reply += more
    return reply.decode().rstrip("\n")


with socket.socket() as free:
    free.bind(("127.0.0.1", 0))
    port = free.getsockname()[1]
server = start("--listen", f"127.0.0.1:{port}", "--looks", "1")
first = connected(port)
for line, wanted in [
    ("LOOK 7.1.0.1.F", "ABSENT"),
    (BEGIN, "BEGUN"),
    (BEGIN, "BEGUN"),
    ("LOOK 7.1.0.1.F", "RUNNING"),
    ("LOOK 7.1.0.1.F", "DONE x7231"),
    ("ABORT 7.1.0.1.F", "ASKED"),
]:
    expect(line, ask(first, line), wanted)

second = connected(port)
second.settimeout(0.5)
second.sendall(b"LOOK 7.1.0.1.F\n")
try:
    seen = second.recv(100)
except TimeoutError:
    seen = "waits"
expect("a second connection", seen, "waits")
first.close()
second.settimeout(10)
expect("the same, once the first has ended", second.recv(100), b"DONE x7231\n")
expect("a line that is no call", ask(second, "LOOK 7.1.0.1.F 1"), "")

taken = start("--listen", f"127.0.0.1:{port}")
said = taken.communicate()[0]
expect("an address that is taken", (taken.returncode, said), (4, "door fault\n"))
server.kill()
server.wait()
misused = start("--listen")
said = misused.communicate()[0]
expect("an option without its value", (misused.returncode, said), (2, "usage: vim_sim\n"))
sys.exit(differs)
