#!/usr/bin/env python3
"""Ends `vnfm serve` by SIGKILL again and again under load, and starts it again over its journal: what was answered stands. Clients at both addresses
make instances and delete them on kept connections, beside clients that ask back to back and 200 a second of nonsense.

usage: bench/door/kills.py [VNFM [KILLS [SEED]]]     100 where nothing is said

Behind each kill each instance is shown whose 201 came, and none whose 204 came; where no answer came either may be. At the end `check` ends with 0, and
all that was shown and only that stands. Ends with 1 where that isn't so.
"""
import collections
import json
import random
import subprocess
import sys
import tempfile
import threading
import time

sys.dont_write_bytecode = True
from serving import BASE, Door, answers_of, clients, pathlib, vnfm

KILLS = int(sys.argv[2]) if len(sys.argv) > 2 else 100
SEED = int(sys.argv[3]) if len(sys.argv) > 3 else random.randrange(1 << 32)
MAKERS = 16
MOST = 40
random.seed(SEED)
# Of each name the identifier where 201 came, else None; and what was asked last of it and not answered.
known, unsure, wrong = {}, {}, []
counts = collections.Counter()
lock = threading.Lock()


def request(method, path, body=b""):
    return f"{method} {path} HTTP/1.1\r\nHost: x\r\nContent-Type: application/json\r\nContent-Length: {len(body)}\r\n\r\n".encode() + body


def maker(door, number, stop):
    """Makes instances with names of its own, and deletes them, up to the end of the connection."""
    mine = []
    with door.connect(number % 2) as connection:
        answers = answers_of(connection)

        def asked(method, path, body=b""):
            connection.sendall(request(method, path, body))
            return next(answers, None)

        with lock:
            mine = [name for name in known if name.startswith(f"{number}-") and name not in unsure]
        while not stop.is_set():
            with lock:
                counts["asked"] += 1
            if mine and (len(mine) > MOST or random.random() < 0.4):
                name = mine.pop(random.randrange(len(mine)))
                with lock:
                    unsure[name] = "deleted"
                answer = asked("DELETE", f"{BASE}/{known[name]}")
                if not answer:
                    return
                with lock:
                    if not answer.startswith(b"HTTP/1.1 204 "):
                        wrong.append((name, answer))
                    del unsure[name], known[name]
                    counts["204"] += 1
            else:
                with lock:
                    counts["names"] += 1
                    name = f"{number}-{counts['names']}"
                    unsure[name] = "made"
                answer = asked("POST", BASE, json.dumps({"vnfdId": "vnfd-1", "vnfInstanceName": name}).encode())
                if not answer:
                    return
                with lock:
                    if not answer.startswith(b"HTTP/1.1 201 "):
                        wrong.append((name, answer))
                        continue
                    known[name] = json.loads(answer.partition(b"\r\n\r\n")[2])["id"]
                    del unsure[name]
                    counts["201"] += 1
                mine.append(name)


def forever(door, number, stop):
    while not stop.is_set():
        try:
            maker(door, number, stop)
        except OSError:
            pass
        time.sleep(0.005)


def looked(door):
    """Compares what is shown with what was answered, and settles what wasn't."""
    shown = {it["vnfInstanceName"]: it["id"] for it in json.loads(door.ask("GET", BASE)[2])}
    for name, identifier in known.items():
        if name not in unsure and shown.get(name) != identifier:
            wrong.append((name, "was made and isn't shown"))
    for name in shown:
        if name not in known and name not in unsure:
            wrong.append((name, "is shown, and was deleted or never made"))
    for name in list(unsure):
        counts["unanswered and done" if (name in shown) == (unsure[name] == "made") else "unanswered and not done"] += 1
        known.pop(name, None)
        if name in shown:
            known[name] = shown[name]
        del unsure[name]


with tempfile.TemporaryDirectory() as folder:
    door = Door(pathlib.Path(folder))
    for kill in range(KILLS):
        with door:
            looked(door)
            stop = threading.Event()
            makers = [threading.Thread(target=forever, args=(door, number, stop), daemon=True) for number in range(MAKERS)]
            with clients(door, "16 back to back, kept, closing and HTTP/1.0, at both addresses", "200 a second of nonsense"):
                for it in makers:
                    it.start()
                time.sleep(random.uniform(0.05, 0.8))
                door.process.kill()
                door.process.wait()
                stop.set()
                for it in makers:
                    it.join()
    with door:
        looked(door)
    checked = subprocess.run([vnfm, "check", "--journal", door.journal], capture_output=True, text=True)
    if checked.returncode:
        wrong.append(("check", checked))
for it in wrong[:20]:
    print(it)
print(f"{KILLS} kills, seed {SEED}: {dict(counts)}, {len(known)} stand; {len(wrong)} wrong; {checked.stdout.strip()}")
sys.exit(bool(wrong))
