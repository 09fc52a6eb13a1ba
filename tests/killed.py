#!/usr/bin/env python3
"""Has two clients drive whole lives of instances at both addresses of `serve`, half of what they ask for by curl, while
it is ended by SIGKILL again and again and started again at once: after random waits, and at writes to the journal,
lines, grants, notices and requests that were counted. Its peers are an orchestrator and a receiver of notices in this
script, and vim_sim behind a relay, which hands on one connection after another, each to its end.

    tests/killed.py [--kills N] [--seed N]      200 kills where nothing is said

Behind each kill all that was acknowledged is there, and no occurrence that had ended goes on. At the end each job was
begun once, no change was made twice, what each instance showed is what stood, and nothing stands; the notices of each
subscription are those of the journal's events, in their order, none skipped; and `check` ends with 0. What isn't so is
printed, and makes the status 1; the last line has the figures.

The programs are built by `vnfm` and `rt run`, so a first run takes minutes; 200 kills take one or two.
"""
import argparse
import collections
import ctypes
import http.client
import http.server
import itertools
import json
import os
import pathlib
import random
import re
import signal
import socket
import subprocess
import sys
import tempfile
import threading
import time

import begun_once
import reaches
from begun_once import Simulated, free_port
from in_format_1 import records_of

sys.path.insert(0, str(reaches.EXAMPLES))
import orchestrator  # noqa: E402  (examples/orchestrator.py)

BASE = "/vnflcm/v1"
INSTANCES, OCCURRENCES, SUBSCRIPTIONS = (f"{BASE}/{it}" for it in ("vnf_instances", "vnf_lcm_op_occs", "subscriptions"))
SIDES = ORCHESTRATOR, ELEMENT = range(2)
STATES = ("STARTING", "PROCESSING", "COMPLETED", "FAILED_TEMP", "FAILED", "ROLLING_BACK", "ROLLED_BACK")
NEXT = {
    "STARTING": ("PROCESSING", "ROLLED_BACK"), "PROCESSING": ("COMPLETED", "FAILED_TEMP"),
    "FAILED_TEMP": ("PROCESSING", "ROLLING_BACK", "FAILED"), "ROLLING_BACK": ("ROLLED_BACK", "FAILED_TEMP"),
}
# The numbers of the kinds of events in a journal that are looked at here (docs/EVENTS.md).
CREATED, DELETED, ASKED, MOVED, CANCEL_ASKED, SUBSCRIBED, UNSUBSCRIBED = 2, 3, 4, 11, 12, 13, 14
TELLING = CREATED, DELETED, ASKED, MOVED
# At what a kill may be placed: a write to the journal; a line of the manager and its reply, before and behind it is
# handed on; a grant and a notice, before and behind its answer; and a request, up to 30 ms behind its begin, or at once
# at the answer that something changed.
PLACES = (
    "write", "write", "write", "line", "line handed on", "reply", "reply handed on", "grant", "granted", "notice",
    "noticed", "request", "request", "answered", "answered",
)
IN_MODIFY, LONGEST_EVENT = 2, 1 << 12  # of inotify(7)
PATIENCE = 60  # seconds for an operation, or for the last notices

faults = []


def fault(text):
    """Says that something isn't as it has to be."""
    faults.append(text)
    print(text, flush=True)


def agree(what, seen, wanted):
    if seen != wanted:
        fault(f"{what}: {seen}, wanted: {wanted}")


def may_become(old, new):
    """Whether an occurrence in this state may be seen in that one later."""
    found, ways = {old}, [old]
    while ways:
        further = [it for it in NEXT.get(ways.pop(), ()) if it not in found]
        found.update(further)
        ways += further
    return new in found


def refused(what, status):
    """A request was refused, which none here is to be, or was lost."""
    if status is not None:
        raise ValueError(f"{what} is answered {status}")


class Manager:
    """`serve` over one journal at two addresses. It is killed at moments that are drawn, and started again."""

    def __init__(self, room, peers, kills, seed):
        self.journal, self.errors = room / "journal", open(room / "errors", "w+", encoding="utf-8")
        self.addresses = [f"127.0.0.1:{free_port()}" for _ in SIDES]
        self.words = [reaches.BUILT, "serve", "--journal", self.journal, "--listen", self.addresses[ORCHESTRATOR],
                      "--em-listen", self.addresses[ELEMENT], *peers]
        self.wanted, self.draw = kills, random.Random(seed)
        self.lock = threading.RLock()
        self.runs = self.kills = 0
        self.is_over = False
        self.process = None
        self.tending = threading.Thread(target=self.tend, daemon=True)

    def __enter__(self):
        self.tending.start()
        return self

    def __exit__(self, *_):
        with self.lock:
            self.is_over = True
            self.process.kill()
        self.tending.join()
        self.errors.close()

    def tend(self):
        """Starts the manager each time that it was killed."""
        while True:
            with self.lock:
                if self.is_over:
                    return
                streams = {"stdin": subprocess.DEVNULL, "stdout": self.errors, "stderr": self.errors}
                self.process = subprocess.Popen(self.words, **streams)
                self.runs += 1
                self.place, self.count, wait = self.moment()
                self.end_later(self.runs, wait)
            status = self.process.wait()
            if status != -signal.SIGKILL and not self.is_over:
                fault(f"the manager ended with {status}")
                self.is_over = True

    def moment(self):
        """Where this run is killed: at which counted thing, and after how long at the latest."""
        if self.draw.random() < 0.4:
            return None, 0, self.draw.uniform(0, 0.5)
        return self.draw.choice(PLACES), self.draw.randint(1, 12), 1

    def end_later(self, run, wait):
        if self.kills < self.wanted:
            timer = threading.Timer(wait, self.kill, [run])
            timer.daemon = True
            timer.start()

    def kill(self, run):
        """Kills that run, where it goes on and more kills are wanted."""
        with self.lock:
            if run == self.runs and self.kills < self.wanted and not self.is_over and self.process.poll() is None:
                self.process.kill()
                self.process.wait()
                self.kills += 1

    def passes(self, place):
        """Something that is counted happens now, or a request is made within some milliseconds."""
        with self.lock:
            if place != self.place:
                return
            self.count -= 1
            if self.count == 0 and place == "request":
                self.end_later(self.runs, self.draw.uniform(0, 0.03))
            elif self.count == 0:
                self.kill(self.runs)

    def end(self):
        """Ends it by SIGTERM, and gives its status."""
        with self.lock:
            self.is_over = True
            self.process.terminate()
        return self.process.wait()


def watch_writes(journal, passes):
    """Counts the writes to the journal, each soon after it is made and mostly before it is synced."""
    system = ctypes.CDLL(None, use_errno=True)
    events = system.inotify_init()
    if events < 0 or system.inotify_add_watch(events, os.fsencode(journal), IN_MODIFY) < 0:
        raise OSError(ctypes.get_errno(), "inotify")

    def count():
        while os.read(events, LONGEST_EVENT):
            passes("write")

    threading.Thread(target=count, daemon=True).start()


class Relay:
    """Hands on one connection after another to the infrastructure, each to its end, and keeps lines and replies."""

    def __init__(self, vim, passes):
        self.vim, self.passes, self.pairs = vim, passes, []
        self.listener = socket.create_server(("127.0.0.1", 0))
        self.at = "%s:%d" % self.listener.getsockname()
        threading.Thread(target=self.serve, daemon=True).start()

    def serve(self):
        while True:
            manager, _ = self.listener.accept()
            with manager, self.vim.connect() as peer:
                try:
                    self.hand_on(manager, peer)
                except ConnectionError:
                    pass  # the manager was killed

    def hand_on(self, manager, peer):
        with manager.makefile("rb") as lines, peer.makefile("rb") as replies:
            for line in lines:
                self.passes("line")
                peer.sendall(line)
                self.passes("line handed on")
                if not line.endswith(b"\n"):
                    return  # it was killed within a line
                reply = replies.readline()
                self.pairs.append((line.decode().split(), reply.decode().split()))
                self.passes("reply")
                manager.sendall(reply)
                self.passes("reply handed on")


class Handler(orchestrator.Handler):
    """Grants all, and takes each notice."""

    def do_POST(self):
        if self.path == orchestrator.GRANTS:
            super().do_POST()
            return
        self.server.notices.append(json.loads(self.rfile.read(int(self.headers["Content-Length"]))))
        self.server.passes("notice")
        self.answer(204)
        self.wfile.flush()
        self.server.passes("noticed")

    def grant(self, body):
        self.server.passes("grant")
        super().grant(body)
        self.wfile.flush()
        self.server.passes("granted")

    def log_message(self, *_):
        pass


class Peers(http.server.ThreadingHTTPServer):
    """The orchestrator and the receiver of notices, at one address, until the block ends."""

    daemon_threads = True

    def __init__(self):
        super().__init__(("127.0.0.1", 0), Handler)
        self.grants, self.later, self.notices, self.passes = {}, False, [], lambda _: None
        self.at = "%s:%d" % self.server_address
        threading.Thread(target=self.serve_forever, daemon=True).start()

    def handle_error(self, *_):
        pass  # the manager was killed


class Acknowledged:
    """What replies told of, which has to stand from then on."""

    def __init__(self, manager):
        self.manager, self.lock = manager, threading.Lock()
        self.instances = {}  # "there", "leaving" once its deletion is asked for, "gone" once that was told
        self.states = {}  # of occurrences: the last one that was told
        self.subscriptions = {}  # the side and, as for instances, a word
        self.told = collections.Counter()  # how many replies acknowledged an event of this kind
        self.compared = 0

    def requests(self):
        return sum(self.told.values())

    def saw(self, path, state):
        """An occurrence was shown in this state."""
        with self.lock:
            old = self.states.setdefault(path, state)
            if not may_become(old, state):
                fault(f"{path} was {old}, and is {state}")
            self.states[path] = state

    def compare(self, client):
        """Compares all, once in each run of the manager."""
        with self.lock:
            if self.compared == self.manager.runs:
                return
            self.compared = self.manager.runs
            instances, states, subscriptions = dict(self.instances), dict(self.states), dict(self.subscriptions)
        shown = {path_of(it): it["operationState"] for it in client.shown(OCCURRENCES)}
        for path, old in states.items():
            if path not in shown or not may_become(old, shown[path]):
                fault(f"{path} was {old}, and is {shown.get(path)} behind a kill")
        self.compare_list("orchestrator's list", INSTANCES, client, instances, self.instances.get)
        for side in SIDES:
            own = {path: it for path, (its, it) in subscriptions.items() if its == side}
            self.compare_list(f"list {side}", SUBSCRIPTIONS, client, own, lambda it: self.subscriptions[it][1], side)

    def compare_list(self, what, path, client, before, after, side=ORCHESTRATOR):
        """Compares a list with what was there before it was asked for; some may have been deleted since."""
        shown = {path_of(it) for it in client.shown(path, side)}
        with self.lock:
            for it, word in before.items():
                if word == "there" and after(it) == "there" and it not in shown:
                    fault(f"{it} isn't in the {what} behind a kill")
                if word == "gone" and it in shown:
                    fault(f"{it} is in the {what} again")


def path_of(view):
    return view["_links"]["self"]["href"]


class Client:
    """Asks at both addresses: for what changes something by curl, or by Python, which a kill may follow at once."""

    def __init__(self, manager, acknowledged, draw):
        self.manager, self.acknowledged, self.draw = manager, acknowledged, draw

    def get(self, path, side=ORCHESTRATOR):
        """The status and the content of what is shown, which is asked for until it is answered."""
        until = time.monotonic() + PATIENCE
        while time.monotonic() < until:
            answer = self.exchange("GET", path, None, side)
            if answer:
                return answer[0], json.loads(answer[2])
        raise TimeoutError(f"GET {path} isn't answered")

    def shown(self, path, side=ORCHESTRATOR):
        status, content = self.get(path, side)
        agree(f"GET {path}", status, 200)
        return content

    def ask(self, kind, method, path, body=None, side=ORCHESTRATOR):
        """The status and the Location that is answered, None where no answer comes; kind is that of the event."""
        way = self.draw.choice([self.curl, self.exchange])
        status, location, _ = way(method, path, body, side) or (None, None, None)
        if status in (200, 201, 202, 204):
            with self.acknowledged.lock:
                self.acknowledged.told[kind] += 1
        return status, location

    def exchange(self, method, path, body, side):
        """The status, the Location and the content that Python is answered with, or None."""
        self.begin()
        connection = http.client.HTTPConnection(self.manager.addresses[side], timeout=20)
        fields = {"Connection": "close", **({"Content-Type": "application/json"} if body else {})}
        try:
            connection.request(method, path, json.dumps(body) if body else None, fields)
            answer = connection.getresponse()
            if method != "GET":
                self.manager.passes("answered")
            return answer.status, answer.getheader("Location"), answer.read() if method == "GET" else b""
        except (OSError, http.client.HTTPException):
            time.sleep(0.003)  # it was killed
            return None
        finally:
            connection.close()

    def curl(self, method, path, body, side):
        """The same of curl."""
        words = ["curl", "-s", "-i", "--max-time", "20", "-X", method, f"http://{self.manager.addresses[side]}{path}"]
        if body:
            words += ["-H", "Content-Type: application/json", "-d", json.dumps(body)]
        self.begin()
        told = subprocess.run(words, stdout=subprocess.PIPE, check=False).stdout.decode()
        head, is_whole, _ = told.partition("\r\n\r\n")
        status = re.match(r"HTTP/1.1 (\d+) ", head)
        location = re.search(r"(?m)^Location: (\S+)\r?$", head)
        if not status or not is_whole:
            time.sleep(0.003)
            return None
        return int(status.group(1)), location and location.group(1), b""

    def begin(self):
        """A request is made."""
        if self.manager.is_over:
            raise TimeoutError("the manager has ended")
        self.manager.passes("request")


class Life:
    """A life of an instance after another, each asked for at both addresses, as long as kills are wanted."""

    def __init__(self, number, manager, acknowledged, relay, peers, seed):
        self.number, self.manager, self.acknowledged = number, manager, acknowledged
        self.relay, self.peers = relay, peers
        self.draw, self.lives = random.Random(seed), 0
        self.client = Client(manager, acknowledged, self.draw)
        self.mine = {}  # the occurrences of each instance, by their numbers

    def go(self):
        try:
            while self.manager.kills < self.manager.wanted and not self.manager.is_over:
                self.live()
                self.lives += 1
        except Exception as broken:  # (a thread tells nobody)
            fault(f"client {self.number}: {broken!r}")
            self.manager.is_over = True

    def side(self):
        return self.draw.choice(SIDES)

    def live(self):
        instance = self.create(f"life {self.number}.{self.lives}")
        extra = self.subscribe() if self.draw.random() < 0.3 else None
        level = self.draw.choice(["small", "normal"])
        self.operate(instance, "instantiate", {"flavourId": "simple", "instantiationLevelId": level})
        self.operate(instance, "scale", {"type": "SCALE_OUT", "aspectId": "workers"})
        if self.draw.random() < 0.5:
            stands = self.client.shown(instance, self.side())["instantiatedVnfInfo"]["vnfcResourceInfo"]
            self.operate(instance, "heal", {"cause": "slow", "vnfcInstanceId": [stands[0]["id"]]})
        if self.draw.random() < 0.3:
            self.operate(instance, "operate", {"changeStateTo": "STOPPED"})
            self.operate(instance, "operate", {"changeStateTo": "STARTED"})
        self.operate(instance, "terminate", {"terminationType": self.draw.choice(["GRACEFUL", "FORCEFUL"])})
        self.delete(INSTANCES, instance, self.side(), DELETED)
        if extra:
            self.delete(SUBSCRIPTIONS, *extra, UNSUBSCRIBED)

    def create(self, called):
        """The path of an instance that was created once, though each reply may be lost."""
        while True:
            body = {"vnfdId": "vnfd-1", "vnfInstanceName": called}
            status, location = self.client.ask(CREATED, "POST", INSTANCES, body, self.side())
            shown = self.client.shown(INSTANCES, self.side())
            found = [path_of(it) for it in shown if it.get("vnfInstanceName") == called]
            if status == 201 or found:
                made = location or found[0]
                agree(f"instances of {called}", found, [made])
                with self.acknowledged.lock:
                    self.acknowledged.instances[made] = "there"
                self.mine[made] = []
                return made
            refused("a creation", status)

    def subscribe(self):
        """A subscription of either role, where it is known that it was made, and its side."""
        side = self.side()
        body = {"callbackUri": f"http://{self.peers.at}/notices"}
        status, location = self.client.ask(SUBSCRIBED, "POST", SUBSCRIPTIONS, body, side)
        if status != 201:
            return None
        with self.acknowledged.lock:
            self.acknowledged.subscriptions[location] = side, "there"
        agree(f"GET {location}", self.client.get(location, side)[0], 200)
        agree(f"GET {location} by the other", self.client.get(location, 1 - side)[0], 404)
        return location, side

    def delete(self, path, one, side, kind):
        """Deletes an instance or a subscription."""
        held = self.acknowledged.instances if path == INSTANCES else self.acknowledged.subscriptions
        word = (lambda it: it) if path == INSTANCES else (lambda it: (side, it))
        with self.acknowledged.lock:
            held[one] = word("leaving")
        while True:
            status, _ = self.client.ask(kind, "DELETE", one, side=side)
            if status == 204 or self.client.get(one, side)[0] == 404:
                break
            refused(f"the deletion of {one}", status)
        with self.acknowledged.lock:
            held[one] = word("gone")
        agree(f"GET {one}", self.client.get(one, side)[0], 404)

    def operate(self, instance, task, body):
        """Has a task of the instance done until it is COMPLETED, and some of them cancelled first."""
        while True:
            occurrence = self.begin(instance, task, body)
            is_cancelled = task in ("instantiate", "scale") and self.draw.random() < 0.25
            if is_cancelled:
                mode = {"cancelMode": self.draw.choice(["GRACEFUL", "FORCEFUL"])}
                status, _ = self.client.ask(CANCEL_ASKED, "POST", occurrence + "/cancel", mode, self.side())
                agree(f"a cancel is answered {status}, which it may be", status in (202, 409, None), True)
            state = self.watch(occurrence, self.draw.choice(["retry", "rollback"]) if is_cancelled else "retry")
            self.look(instance, f"{task} ended {state}")
            if state == "COMPLETED":
                return

    def begin(self, instance, task, body):
        """The path of the occurrence that was asked for once, though each reply may be lost."""
        while True:
            status, location = self.client.ask(ASKED, "POST", f"{instance}/{task}", body, self.side())
            if status == 202:
                self.acknowledged.saw(location, "STARTING")
            else:
                refused(f"{task} of {instance}", status)
            found = [path_of(it) for it in self.client.shown(OCCURRENCES, self.side())
                     if it["_links"]["vnfInstance"]["href"] == instance and path_of(it) not in self.mine[instance]]
            if status == 202 or found:
                made = location or found[0]
                agree(f"occurrences behind one {task}", found, [made])
                self.mine[instance].append(made)
                return made

    def watch(self, occurrence, way_on):
        """Looks at an occurrence until it has ended, and gives how. Where it failed it is told to go on in this way."""
        until = time.monotonic() + PATIENCE
        while time.monotonic() < until:
            self.acknowledged.compare(self.client)
            shown = self.client.shown(occurrence, self.side())
            state = shown["operationState"]
            self.acknowledged.saw(occurrence, state)
            if state not in NEXT:
                return state
            if state == "FAILED_TEMP":
                self.client.ask(MOVED, "POST", f"{occurrence}/{way_on}", side=self.side())
            time.sleep(0.005)
        raise TimeoutError(f"{occurrence} is {state}")

    def look(self, instance, behind):
        """What the instance shows is what the lines say that stands."""
        shown = self.client.shown(instance, self.side()).get("instantiatedVnfInfo", {})
        own = {number_of(it) for it in self.mine[instance]}
        stands = [(it.kind, it.name) for it in Jobs(list(self.relay.pairs)).standing if it.occurrence in own]
        views = [("LINK", it["networkResource"]) for it in shown.get("vnfVirtualLinkResourceInfo", [])]
        views += [("STORAGE", it["storageResource"]) for it in shown.get("virtualStorageResourceInfo", [])]
        views += [("COMPUTE", it["computeResource"]) for it in shown.get("vnfcResourceInfo", [])]
        views = sorted((kind, it["resourceId"]) for kind, it in views)
        agree(f"behind {behind} there stands", sorted(it for it in stands if it[0] != "PORT"), views)
        ports = sum({"VDU_A": 2, "VDU_B": 1}[it["vduId"]] for it in shown.get("vnfcResourceInfo", []))
        agree(f"behind {behind} there stand ports", sum(it[0] == "PORT" for it in stands), ports)


def number_of(path):
    """The number in an identifier, the last part of a path."""
    return int(path.rpartition("/")[2].replace("-", "")[16:], 16) - 2**63


Resource = collections.namedtuple("Resource", "occurrence kind template vdu serial name")
Begun = collections.namedtuple("Begun", "change way verb resource names")


class Jobs:
    """What the lines and their replies come to: each job that was begun, how it ended, and what stands."""

    def __init__(self, pairs):
        self.begun, self.ended, self.nets, self.standing, self.wrong = {}, {}, collections.Counter(), [], []
        for line, reply in pairs:
            if line[0] == "BEGIN" and reply == ["BEGUN"]:
                self.begin(line)
            elif line[0] == "BEGIN":
                self.wrong.append(f"{line}: {reply}")
            elif line[0] == "LOOK" and reply[0] in ("DONE", "ABORTED", "BROKEN"):
                self.end(line[1], reply)

    def begin(self, line):
        _, tag, verb, kind, template, vdu, serial, _, _, _, _, *names = line
        _, occurrence, change, _, way = tag.split(".")
        change = occurrence, change
        if tag in self.begun:
            self.wrong.append(f"{tag} was begun twice")
        if any(it.change == change and other not in self.ended for other, it in self.begun.items()):
            self.wrong.append(f"{tag} was begun beside another attempt at its change")
        if self.nets[change] != (way == "U"):
            self.wrong.append(f"{tag} was begun where its change stands {self.nets[change]} times")
        resource = Resource(int(occurrence), kind, template, vdu, serial, None)
        self.begun[tag] = Begun(change, way, verb, resource, [text_of(it) for it in names])

    def end(self, tag, reply):
        """A job is told as ended, the first time."""
        if self.ended.setdefault(tag, reply) is not reply:
            if self.ended[tag] != reply:
                self.wrong.append(f"{tag} ended {self.ended[tag]}, and then {reply}")
            return
        job = self.begun[tag]
        if reply[0] != "DONE":
            return
        self.nets[job.change] += 1 if job.way == "F" else -1
        there = [it for it in self.standing if it.name in job.names]
        if job.verb == "CREATE":
            self.standing.append(job.resource._replace(name=text_of(reply[1])))
        elif len(there) != 1 or len(job.names) != 1:
            self.wrong.append(f"{tag} is a {job.verb} of {job.names}, of which stand {there}")
        elif job.verb == "REMOVE":
            self.standing.remove(there[0])


def text_of(name):
    return bytes.fromhex(name[1:]).decode()


def twice(jobs, instance_of):
    """What was made of one instance while it stood there already."""
    there, found = {}, []
    for tag in jobs.ended:
        job = jobs.begun[tag]
        if jobs.ended[tag][0] != "DONE" or job.verb not in ("CREATE", "REMOVE"):
            continue
        place = instance_of[job.resource.occurrence], *job.resource[1:5]
        if job.verb == "CREATE" and place in there:
            found.append((tag, there[place]))
        there[place] = tag
        if job.verb == "REMOVE":
            del there[place]
    return found


def compare_jobs(relay, vim, views):
    """No job was begun twice, no change was made twice, and nothing is left."""
    jobs = Jobs(relay.pairs)
    for it in jobs.wrong:
        fault(it)
    agree("jobs that never ended", [it for it in jobs.begun if it not in jobs.ended], [])
    instance_of = {number_of(path_of(it)): it["vnfInstanceId"] for it in views}
    agree("made twice", twice(jobs, instance_of), [])
    agree("left standing", jobs.standing, [])
    told = vim.ask(*[f"LOOK {tag}" for tag in jobs.ended])
    agree("how the infrastructure tells of each job", told == [" ".join(it) for it in jobs.ended.values()], True)
    probe = "8.1.0.1.F"
    beside = vim.ask(f"BEGIN {probe} CREATE LINK x6e6574 x 0 x76696d31 x 0 0", f"LOOK {probe}", f"LOOK {probe}")[-1]
    agree("jobs beside those of the lines", text_of(beside.split(" ")[1]), f"r{len(jobs.begun) + 1}")
    return len(jobs.begun)


def compare_notices(records, notices):
    """The notices of each subscription are those of the events behind it, in their order; gives how many came again."""
    again = 0
    by_subscription = collections.defaultdict(list)
    for it in notices:
        by_subscription[number_of(it["subscriptionId"])].append(it)
    for place, record in enumerate(records, 1):
        if record[0] != SUBSCRIBED:
            continue
        number = subject_of(record)
        ends = [at for at, it in enumerate(records, 1) if it[0] == UNSUBSCRIBED and subject_of(it) == number]
        end = ends[0] if ends else len(records) + 1
        wanted = [at for at, it in enumerate(records, 1) if place < at < end and it[0] in TELLING]
        came = [(number_of(it["id"]), it) for it in by_subscription.pop(number, [])]
        once = [it for k, (it, _) in enumerate(came) if k == 0 or it != came[k - 1][0]]
        again += len(came) - len(once)
        # (one that was ended was told a front of them)
        pairs = itertools.zip_longest(once, wanted[: len(once)] if ends else wanted)
        differs = next((at for at, (told, due) in enumerate(pairs, 1) if told != due), None)
        agree(f"the first notice of subscription {number} that isn't the next", differs, None)
        for at, it in came:
            compare_notice(records[at - 1], it)
    agree("notices of no subscription", dict(by_subscription), {})
    return again


def compare_notice(record, notice):
    """A notice tells of this record."""
    subject, kind = subject_of(record), notice["notificationType"]
    if record[0] in (CREATED, DELETED):
        wanted = "VnfIdentifierCreationNotification" if record[0] == CREATED else "VnfIdentifierDeletionNotification"
        agree(notice["id"], (kind, number_of(notice["vnfInstanceId"])), (wanted, subject))
    else:
        state = STATES[record[17]] if record[0] == MOVED else "STARTING"
        seen = kind, number_of(notice["vnfLcmOpOccId"]), notice["operationState"]
        agree(notice["id"], seen, ("VnfLcmOperationOccurrenceNotification", subject, state))


def compare_records(records, acknowledged):
    """The journal has at least the events that were acknowledged."""
    has = collections.Counter(it[0] for it in records)
    for kind, told in acknowledged.told.items():
        if has[kind] < told:
            fault(f"{told} replies told of an event of kind {kind}, of which the journal has {has[kind]}")


def subject_of(record):
    """The number of what the event is about."""
    return int.from_bytes(record[9:17], "big")


def live_subscriptions(records):
    """The numbers of those that were made and not ended."""
    made, ended = ({subject_of(it) for it in records if it[0] == kind} for kind in (SUBSCRIBED, UNSUBSCRIBED))
    return made - ended


def all_told(manager, peers):
    """Waits until each live subscription was told of the last event."""
    until = time.monotonic() + PATIENCE
    while time.monotonic() < until:
        records = list(records_of(manager.journal.read_bytes()))
        last = max((at for at, it in enumerate(records, 1) if it[0] in TELLING), default=0)
        told = {number_of(it["subscriptionId"]) for it in peers.notices if number_of(it["id"]) == last}
        if told >= live_subscriptions(records):
            time.sleep(0.5)  # nothing comes behind it
            return
        time.sleep(0.02)
    fault("the last notices don't come")


def look_at_all(client, acknowledged):
    """Each thing that was acknowledged, by itself."""
    for path, word in acknowledged.instances.items():
        agree(f"GET {path}", (word, client.get(path)[0]), ("gone", 404))
    for path, state in acknowledged.states.items():
        agree(f"GET {path}", client.shown(path)["operationState"], state)
        agree(f"{path} ended", state in NEXT, False)
    for path, (side, word) in acknowledged.subscriptions.items():
        agree(f"GET {path}", client.get(path, side)[0], 200 if word == "there" else 404)


def new_journal(room):
    """A journal of manager 7 with the descriptor of the examples."""
    words = lambda command: [reaches.BUILT, command, "--journal", room / "journal"]
    subprocess.run([*words("init"), "--manager", "7"], stdout=subprocess.DEVNULL, check=True)
    with open(reaches.EXAMPLES / "vnfd.json", "rb") as descriptor:
        subprocess.run(words("onboard"), stdin=descriptor, stdout=subprocess.DEVNULL, check=True)


def compare_check(manager, records, acknowledged):
    """`check` ends with 0, and counts what there is."""
    done = subprocess.run([reaches.BUILT, "check", "--journal", manager.journal], stdout=subprocess.PIPE, check=False)
    subscribed = len(live_subscriptions(records))
    wanted = f"records {len(records)}, instances 0, ongoing 0, subscriptions {subscribed}\n"
    agree("check", (done.returncode, done.stdout.decode()), (0, wanted))
    there = sum(it == "there" for _, it in acknowledged.subscriptions.values())
    agree(f"subscriptions are at least those {there}", subscribed >= there, True)


def drive(room, vim, peers, kills, seed):
    """Drives the lives, compares what is left, and gives the figures."""
    new_journal(room)
    passes = lambda place: manager.passes(place)
    relay = Relay(vim, passes)
    watch_writes(room / "journal", passes)
    peers.passes = passes
    manager = Manager(room, ["--orchestrator", peers.at, "--vim", relay.at], kills, seed)
    acknowledged = Acknowledged(manager)
    begun = time.monotonic()
    lives = [Life(number, manager, acknowledged, relay, peers, seed + number) for number in SIDES]
    client = lives[0].client
    with manager:
        for side in SIDES:
            subscribe_for_good(lives[side], side)
        threads = [threading.Thread(target=it.go, daemon=True) for it in lives]
        for it in threads:
            it.start()
        for it in threads:
            it.join()
        if manager.is_over:
            return None
        all_told(manager, peers)
        look_at_all(client, acknowledged)
        views = client.shown(OCCURRENCES)
        agree("status behind SIGTERM", manager.end(), -signal.SIGTERM)
        manager.errors.seek(0)
        for line in sorted({it for it in manager.errors if not it.startswith("vnfm: listening at ")}):
            print(f"the manager said: {line.rstrip()}")
    records = list(records_of(manager.journal.read_bytes()))
    jobs = compare_jobs(relay, vim, views)
    again = compare_notices(records, peers.notices)
    compare_records(records, acknowledged)
    compare_check(manager, records, acknowledged)
    agree("kills", manager.kills, kills)
    return (f"kills: {manager.kills}, requests acknowledged: {acknowledged.requests()}, jobs begun: {jobs}, notices: "
            f"{len(peers.notices)}, of them again: {again}, lives: {sum(it.lives for it in lives)}, seconds: "
            f"{time.monotonic() - begun:.0f}")


def subscribe_for_good(life, side):
    """Subscribes this side, where a reply that is lost has another try only once none is listed."""
    life.side = lambda: side
    while life.subscribe() is None:
        shown = life.client.shown(SUBSCRIPTIONS, side)
        if shown:
            life.acknowledged.subscriptions[path_of(shown[0])] = side, "there"
            break
    del life.side


def main():
    words = argparse.ArgumentParser(description="Kills a manager that serves, and looks at what stands.")
    words.add_argument("--kills", type=int, default=200, metavar="N")
    words.add_argument("--seed", type=int, default=1, metavar="N")
    given = words.parse_args()
    quiet = {"stdout": subprocess.DEVNULL, "stderr": subprocess.DEVNULL}
    subprocess.run(["rt", "run", "--", "--version"], cwd=begun_once.CRATE, **quiet, check=False)
    subprocess.run([reaches.PROGRAM, "--version"], stdout=subprocess.DEVNULL, check=True)
    with tempfile.TemporaryDirectory() as at, Simulated() as vim, Peers() as peers:
        figures = drive(pathlib.Path(at), vim, peers, given.kills, given.seed)
    print(figures or "no figures", flush=True)
    sys.exit(bool(faults))


if __name__ == "__main__":
    main()
