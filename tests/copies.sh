#!/bin/sh
# Copies of a journal that is written meanwhile, by each copier that docs/OPERATING.md calls whole: `serve` records what two
# clients ask for, one at each address, while the journal is copied in a loop. Each copy is a journal by `check`, its bytes
# up to its last gate are a front of the final file's, and it has each event that was acknowledged before the copy began.
# Beside them some by tar, which asks for the length first; and in the end copies of a length that was asked for first, behind
# which something is appended, which are no journals. Half a minute; needs python3.
#
#     tests/copies.sh [COPIES]      270 where nothing is said
. "$(dirname "$0")/common.sh"

cp "$start" "$room/journal"
cat >"$room/copies.py" <<'END'
import collections
import http.client
import itertools
import json
import os
import pathlib
import random
import signal
import socket
import subprocess
import sys
import threading
import time

sys.dont_write_bytecode = True
program, room, tests, copies = sys.argv[1], pathlib.Path(sys.argv[2]), sys.argv[3], int(sys.argv[4])
sys.path.insert(0, tests)
from in_format_1 import records_of  # noqa: E402

JOURNAL, COPY = room / "journal", room / "copy"
INSTANCES = "/vnflcm/v1/vnf_instances"
COPIERS = {
    "cat": lambda: shell(f"cat {JOURNAL} >{COPY}"),
    "cp": lambda: shell(f"cp {JOURNAL} {COPY}"),
    "cp --reflink=never": lambda: shell(f"cp --reflink=never {JOURNAL} {COPY}"),
    "cp --sparse=always": lambda: shell(f"cp --sparse=always {JOURNAL} {COPY}"),
    "dd": lambda: shell(f"dd if={JOURNAL} of={COPY} 2>/dev/null"),
    "dd bs=13": lambda: shell(f"dd if={JOURNAL} of={COPY} bs=13 2>/dev/null"),
    "dd bs=1M": lambda: shell(f"dd if={JOURNAL} of={COPY} bs=1M 2>/dev/null"),
    "reads of any length": lambda: by_reads(),
}
# One that asks for the length first, whose copies aren't always journals: these are counted.
BY_LENGTH = {"tar": lambda: shell(f"tar -C {room} -cf - journal 2>/dev/null | tar -xOf - >{COPY}")}
# How long a client waits between two requests, and a copy behind an answer, at most, so that copies end in every state of an
# append; and for how long nothing may be acknowledged; seconds.
LONGEST_WAIT, PATIENCE = 0.002, 30
differs = []


def differ(text):
    differs.append(text)
    print("  " + text, flush=True)


def shell(words):
    subprocess.run(["sh", "-c", words], check=True)


def by_reads():
    """Reads of lengths that are drawn, each where the one before ended, until one gives nothing."""
    with open(JOURNAL, "rb", buffering=0) as old, open(COPY, "wb") as new:
        while piece := old.read(random.choice([1, 2, 5, 41, 42, 43, 4_096, 65_536])):
            new.write(piece)


class Client(threading.Thread):
    """Creates an instance and deletes it, again and again, and counts the events that were acknowledged."""

    def __init__(self, port):
        super().__init__(daemon=True)
        self.port, self.acknowledged, self.lost, self.is_over = port, 0, 0, False
        self.draw = random.Random(port)

    def run(self):
        while not self.is_over:
            try:
                self.converse()
            except (OSError, http.client.HTTPException):
                self.lost += 1  # the connection was silent for too long, and ended between two requests

    def converse(self):
        """So many requests on one connection that it mostly isn't ended before, which is so behind a second."""
        connection = http.client.HTTPConnection("127.0.0.1", self.port, timeout=30)
        connection.connect()
        connection.sock.setsockopt(socket.IPPROTO_TCP, socket.TCP_NODELAY, 1)
        for is_last in [False] * 40 + [True]:
            body = json.dumps({"vnfdId": "vnfd-1", "vnfInstanceDescription": "d" * self.draw.choice([1, 9, 600, 2_000])})
            made = self.ask(connection, "POST", INSTANCES, 201, body)
            self.ask(connection, "DELETE", made, 204, close=is_last)
        connection.close()

    def ask(self, connection, method, path, status, body=None, close=False):
        fields = {"Connection": "close"} if close else {}
        connection.request(method, path, body, {**fields, **({"Content-Type": "application/json"} if body else {})})
        answer = connection.getresponse()
        answer.read()
        if answer.status != status:
            differ(f"{method} {path} is answered {answer.status}")
        self.acknowledged += 1
        time.sleep(self.draw.uniform(0, LONGEST_WAIT))
        return answer.getheader("Location")


def end_of(data):
    """The place of the closed gate, and whether the journal has one."""
    place = 32
    while place < len(data) and data[place] == 1:
        place += 5 + int.from_bytes(data[place + 1 : place + 5], "big")
    return place, place < len(data)


def checked(path):
    """The status of `check` and the records that it counts."""
    done = subprocess.run([program, "check", "--journal", path], stdout=subprocess.PIPE, stderr=subprocess.DEVNULL)
    said = done.stdout.decode()
    return done.returncode, int(said.split()[1].rstrip(",")) if done.returncode == 0 else said.strip()


def free_ports():
    sockets = [socket.create_server(("127.0.0.1", 0)) for _ in range(2)]
    ports = [it.getsockname()[1] for it in sockets]
    for it in sockets:
        it.close()
    return ports


def serve(ports):
    words = [program, "serve", "--journal", JOURNAL, "--listen", f"127.0.0.1:{ports[0]}", "--em-listen", f"127.0.0.1:{ports[1]}"]
    manager = subprocess.Popen(words, stdin=subprocess.DEVNULL, stdout=subprocess.DEVNULL, stderr=subprocess.PIPE)
    if not manager.stderr.readline().startswith(b"vnfm: listening at"):
        sys.exit("serve doesn't listen")
    threading.Thread(target=manager.stderr.read, daemon=True).start()
    return manager


Copied = collections.namedtuple("Copied", "copier acknowledged path")


def acknowledged_by(clients):
    return sum(it.acknowledged for it in clients)


def await_more(clients, than):
    """Waits until more events are acknowledged, and a moment of an append more."""
    until = time.monotonic() + PATIENCE
    while acknowledged_by(clients) <= than:
        if time.monotonic() > until:
            sys.exit(f"nothing is acknowledged any more behind {than}")
        time.sleep(0.0001)
    time.sleep(random.uniform(0, LONGEST_WAIT))


def copy_all(clients):
    """The copies, each with how many events were acknowledged before it began."""
    acknowledged = 0
    for number, (copier, copy) in zip(range(copies), itertools.cycle({**COPIERS, **BY_LENGTH}.items())):
        await_more(clients, acknowledged)
        acknowledged = acknowledged_by(clients)
        COPY.unlink(missing_ok=True)
        copy()
        path = room / f"copy.{number}"
        COPY.rename(path)
        yield Copied(copier, acknowledged, path)


def compare(copied, final, before):
    """A copy is a journal, whole and young enough; gives whether something stood behind its closed gate."""
    data = copied.path.read_bytes()
    end, is_whole = end_of(data)
    status, records = checked(copied.path)
    if not is_whole or status != 0:
        differ(f"{copied.copier}: {copied.path.name}: check ends with {status}, {records}")
    elif data[:end] != final[:end]:
        differ(f"{copied.copier}: {copied.path.name} is no front of the final file")
    elif records != len(list(records_of(data))) or records < before + copied.acknowledged:
        differ(f"{copied.copier}: {records} records, of {before + copied.acknowledged} that were acknowledged before")
    elif copied.path.read_bytes() != data:
        differ(f"{copied.copier}: check changed {copied.path.name}")
    return len(data) > end + 1


def by_length(ports):
    """Copies of a length that was asked for first: behind an append of one record, and of two."""
    for appends in (1, 2):
        manager, length = serve(ports), JOURNAL.stat().st_size
        connection = http.client.HTTPConnection("127.0.0.1", ports[0])
        body = json.dumps({"vnfdId": "vnfd-1"})
        for _ in range(appends):
            connection.request("POST", INSTANCES, body, {"Content-Type": "application/json"})
            connection.getresponse().read()
        connection.close()
        shell(f"head -c {length} {JOURNAL} >{COPY}")
        manager.terminate()
        manager.wait()
        status, said = checked(COPY)
        print(f"the first {length} bytes, {appends} appended meanwhile: check ends with {status}, {said}")
        if (status, said) != (8, f"bad record {len(list(records_of(JOURNAL.read_bytes()))) - appends + 1}"):
            differ("wanted: 8, bad record, of the first record that isn't there")


def main():
    ports = free_ports()
    before = len(list(records_of(JOURNAL.read_bytes())))
    manager = serve(ports)
    clients = [Client(it) for it in ports]
    for it in clients:
        it.start()
    all_copied = list(copy_all(clients))
    for it in clients:
        it.is_over = True
    for it in clients:
        it.join()
    manager.terminate()
    status = manager.wait()
    if status != -signal.SIGTERM:
        differ(f"serve ended with {status}")
    final = JOURNAL.read_bytes()
    found, lost = {copier: [0, 0, set()] for copier in COPIERS}, []
    for copied in all_copied:
        if copied.copier in BY_LENGTH:
            lost.append(checked(copied.path)[0])
            continue
        row = found[copied.copier]
        row[0] += 1
        row[1] += compare(copied, final, before)
        row[2].add(copied.path.stat().st_size)
    for copier, (number, behind, lengths) in found.items():
        print(f"{copier}: {number} copies of {len(lengths)} lengths, {behind} with bytes behind the closed gate")
    print(f"{', '.join(BY_LENGTH)}: {len(lost)} copies, {len(lost) - lost.count(0)} of them no journals, as may be")
    acknowledged, lost = acknowledged_by(clients), sum(it.lost for it in clients)
    records = len(list(records_of(final)))
    print(f"acknowledged meanwhile: {acknowledged}, lost: {lost}; final records: {records}, {len(final)} bytes")
    if not 0 <= records - before - acknowledged <= lost:
        differ(f"wanted: {before + acknowledged} records, and at most {lost} more")
    by_length(ports)
    print("all copies are fronts" if not differs else "not all copies are as they have to be")
    sys.exit(bool(differs))


main()
END
python3 "$room/copies.py" "$here/.build/vnfm" "$room" "$here/tests" "${1:-270}" || exit 1
