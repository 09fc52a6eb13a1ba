#!/usr/bin/env python3
"""Runs examples/adapter.py and examples/orchestrator.py on loopback: the lines of docs/VIM.md, what an adapter must keep, a SIGKILL at
each of its disk calls, and the grants that answer what the manager asks for.

Prints what it saw, and ends with 1 where that differs from what is wanted. It takes about ten seconds.
"""
import http.client
import json
import pathlib
import shutil
import socket
import subprocess
import sys
import tempfile
import time

sys.dont_write_bytecode = True
from runs_grants import INSTANTIATION, MIXED

EXAMPLES = pathlib.Path(__file__).resolve().parent.parent / "examples"
LINK = "CREATE LINK x6e65745f64617461 x 0 x76696d31 x 0 0"
MACHINE = "CREATE COMPUTE x5644555f41 x5644555f41 1 x76696d31 x7a31 2147483648 2"
ON_MACHINE = "COMPUTE x5644555f41 x5644555f41 1 x76696d31 x7a31 2147483648 2"
# The adapter, which is killed at a disk call, behind so many of them: before a sync, a renaming or a removal, and behind an opening to write.
KILLED = """
import builtins, os, runpy, signal, sys
left = int(sys.argv.pop(1))
def maybe_killed():
    global left
    left -= 1
    if left < 0:
        os.kill(os.getpid(), signal.SIGKILL)
def killed_before(call):
    def made(*words, **named):
        maybe_killed()
        return call(*words, **named)
    return made
for name in "fsync", "replace", "unlink":
    setattr(os, name, killed_before(getattr(os, name)))
real_open = open
def killed_behind_open(path, mode="r", **named):
    file = real_open(path, mode, **named)
    if "w" in mode:
        maybe_killed()
    return file
builtins.open = killed_behind_open
sys.argv.pop(0)
runpy.run_path(sys.argv[0], run_name="__main__")
"""
AT_START, BY_WRITE, BY_REMOVAL = 3, 4, 2  # disk calls of the adapter
differs = False


def expect(what, seen, wanted):
    """Prints what was seen, and notes where it isn't what is wanted."""
    global differs
    print(f"{what}: {seen!r}", flush=True)
    if seen != wanted:
        print(f"  wanted: {wanted!r}", flush=True)
        differs = True


class Program:
    """An example at a port of its own."""

    def __init__(self, name, *words, front=()):
        command = [sys.executable, "-B", *front, str(EXAMPLES / name), "--listen", "127.0.0.1:0", *map(str, words)]
        self.process = subprocess.Popen(command, stdout=subprocess.PIPE, stderr=subprocess.DEVNULL, text=True)
        self.said = self.process.stdout.readline()
        self.port = int(self.said.rpartition(":")[2] or 0)

    def __enter__(self):
        return self

    def __exit__(self, *_):
        self.kill()

    def kill(self):
        """Kills it by SIGKILL."""
        self.process.kill()
        self.process.wait()
        self.process.stdout.close()

    def connected(self):
        """A connection to it."""
        return socket.create_connection(("127.0.0.1", self.port), timeout=10)


def reply_to(connection, line):
    """The reply to these bytes, without its line feed; nothing where the connection ended, and `waits` where nothing came."""
    reply = b""
    try:
        connection.sendall(line)
        while not reply.endswith(b"\n"):
            more = connection.recv(100)
            if not more:
                break
            reply += more
    except TimeoutError:
        return "waits"
    except ConnectionError:
        pass
    return reply.decode().rstrip("\n")


def ask(connection, line):
    """The reply to this line."""
    return reply_to(connection, line.encode() + b"\n")


def asks(connection, *pairs):
    """Compares the reply to each line."""
    for line, wanted in pairs:
        expect(line, ask(connection, line), wanted)


def resources(folder):
    """What stands, by its name."""
    return {path.name: json.loads(path.read_text()) for path in sorted(folder.glob("r*"))}


def states(folder):
    """The state, or else the kind, of what stands."""
    return {name: it.get("state", it["kind"]) for name, it in resources(folder).items()}


def jobs(folder):
    """The TAGs of the jobs."""
    return sorted(path.name for path in folder.glob("jobs/*") if path.name != "new")


def conversation(folder):
    """The lines of docs/VIM.md, and each verb."""
    with Program("adapter.py", "--folder", folder, "--looks", 1) as adapter, adapter.connected() as manager:
        expect("it says where it listens", adapter.said, f"listening at 127.0.0.1:{adapter.port}\n")
        asks(
            manager,
            ("LOOK 7.1.0.1.F", "ABSENT"),
            (f"BEGIN 7.1.0.1.F {LINK}", "BEGUN"),
            ("LOOK 7.1.0.1.F", "RUNNING"),
            ("LOOK 7.1.0.1.F", "DONE x7231"),
            ("ABORT 7.1.0.1.F", "ASKED"),
            ("LOOK 7.1.0.1.F", "DONE x7231"),
            (f"BEGIN 7.1.1.1.F {MACHINE}", "BEGUN"),
            ("ABORT 7.1.1.1.F", "ASKED"),
            ("LOOK 7.1.1.1.F", "ABORTED"),
            (f"BEGIN 7.1.1.1.F {MACHINE}", "BEGUN"),
            ("LOOK 7.1.1.1.F", "ABORTED"),
            ("ABORT 7.9.9.9.U", "ASKED"),
            ("LOOK 7.9.9.9.U", "ABSENT"),
        )
    expect("what stands", states(folder), {"r1": "LINK"})
    with Program("adapter.py", "--folder", folder) as adapter, adapter.connected() as manager:
        asks(
            manager,
            ("LOOK 7.1.0.1.F", "DONE x7231"),
            ("LOOK 7.1.1.1.F", "ABORTED"),
            (f"BEGIN 7.1.1.2.F {MACHINE} x7231", "BEGUN"),
            ("LOOK 7.1.1.2.F", "DONE x7233"),
        )
        machine = dict(kind="COMPUTE", template="VDU_A", vdu="VDU_A", serial=1, vim="vim1", zone="z1", size=2147483648, cpus=2)
        expect("the machine", resources(folder)["r3"], dict(**machine, on=["r1"], state="STARTED", job="7.1.1.2.F"))
        for number, (verb, state) in enumerate([("STOP", "STOPPED"), ("STOP", "STOPPED"), ("START", "STARTED")]):
            asks(manager, (f"BEGIN 7.2.{number}.1.F {verb} {ON_MACHINE} x7233", "BEGUN"), (f"LOOK 7.2.{number}.1.F", "DONE x7233"))
            expect("what stands", states(folder), {"r1": "LINK", "r3": state})
        before = jobs(folder)
        asks(
            manager,
            (f"BEGIN 7.3.0.1.F {MACHINE} x7239", "REFUSED 1"),
            (f"BEGIN 7.3.0.1.F STOP {ON_MACHINE} x7232", "REFUSED 1"),
            (f"BEGIN 7.3.0.1.F REMOVE {ON_MACHINE} x2e2e2f6e6577", "REFUSED 1"),
            (f"BEGIN 7.3.0.1.F REMOVE {ON_MACHINE} x6a6f6273", "REFUSED 1"),
            (f"BEGIN 7.3.0.1.F REMOVE {ON_MACHINE} x7231", "REFUSED 2"),
            (f"BEGIN 7.3.0.1.F REMOVE {ON_MACHINE}", "REFUSED 2"),
            (f"BEGIN 7.3.0.1.F REMOVE {ON_MACHINE} x7233 x7233", "REFUSED 2"),
            ("BEGIN 7.3.0.1.F STOP LINK x6e65745f64617461 x 0 x76696d31 x 0 0 x7231", "REFUSED 2"),
            ("LOOK 7.3.0.1.F", "ABSENT"),
        )
        expect("jobs that were made by what is refused", sorted(set(jobs(folder)) - set(before)), [])
        asks(
            manager,
            (f"BEGIN 7.3.0.1.F REMOVE {ON_MACHINE} x7233", "BEGUN"),
            ("LOOK 7.3.0.1.F", "DONE x7233"),
            (f"BEGIN 7.3.0.1.U {MACHINE} x7231", "BEGUN"),
            ("LOOK 7.3.0.1.U", "DONE x7234"),
            ("LOOK 7.1.1.2.F", "DONE x7233"),
        )
    expect("what stands", states(folder), {"r1": "LINK", "r4": "STARTED"})


def repeated(folder):
    """A BEGIN that comes again, also behind a SIGKILL, and one behind which the adapter is killed."""
    line = f"BEGIN 7.1.0.1.F {LINK}"
    with Program("adapter.py", "--folder", folder) as adapter:
        with adapter.connected() as manager:
            asks(manager, (line, "BEGUN"), (line, "BEGUN"))
        with adapter.connected() as manager:
            asks(manager, (line, "BEGUN"))
        adapter.kill()
        print("  killed", flush=True)
    with Program("adapter.py", "--folder", folder) as adapter, adapter.connected() as manager:
        asks(manager, (line, "BEGUN"), ("LOOK 7.1.0.1.F", "DONE x7231"), (line, "BEGUN"))
        asks(manager, (f"BEGIN 7.1.1.1.F {MACHINE}", "BEGUN"))
        adapter.kill()
        print("  killed", flush=True)
    with Program("adapter.py", "--folder", folder) as adapter, adapter.connected() as manager:
        asks(manager, ("LOOK 7.1.1.1.F", "DONE x7232"), (f"BEGIN 7.1.1.1.F {MACHINE}", "BEGUN"), ("LOOK 7.1.2.1.F", "ABSENT"))
        expect("what stands", states(folder), {"r1": "LINK", "r2": "STARTED"})
        with Program("adapter.py", "--folder", folder) as other:
            expect("another adapter of the same folder says", other.said, "")


def one_after_another(folder):
    """A second connection."""
    with Program("adapter.py", "--folder", folder) as adapter, adapter.connected() as first, adapter.connected() as second:
        asks(first, ("LOOK 7.1.0.1.F", "ABSENT"))
        second.settimeout(0.5)
        expect("a second connection", ask(second, "LOOK 7.1.0.1.F"), "waits")
        asks(first, (f"BEGIN 7.1.0.1.F {LINK}", "BEGUN"))
        first.sendall(f"BEGIN 7.1.1.1.F {MACHINE}\n".encode())
        first.close()
        second.settimeout(10)
        expect("the same, once the first has ended", reply_to(second, b""), "DONE x7231")
        expect("what the first one sent last", ask(second, "LOOK 7.1.1.1.F"), "DONE x7232")


LOOK = b"LOOK 7.1.0.1.F"
BEGIN = f"BEGIN 7.1.0.1.F {LINK}".encode()
MALFORMED = {
    "upper-case digits": BEGIN.replace(b"6e", b"6E"),
    "an odd digit": BEGIN.replace(b"x6e", b"x6"),
    "no x": BEGIN.replace(b"x6e", b"6e"),
    "a name that is no UTF-8": BEGIN.replace(b"x6e", b"xff"),
    "a control character in a name": BEGIN.replace(b"x6e", b"x0a"),
    "code point 127 in a name": BEGIN.replace(b"x6e", b"x7f"),
    "a name of 256 bytes": BEGIN.replace(b"x6e65745f64617461", b"x" + 256 * b"61"),
    "two spaces": BEGIN.replace(b"CREATE ", b"CREATE  "),
    "a space in front": b" " + BEGIN,
    "a space behind": BEGIN + b" ",
    "a tab": BEGIN.replace(b"CREATE ", b"CREATE\t"),
    "a carriage return": BEGIN + b"\r",
    "a carriage return behind a look": LOOK + b"\r",
    "an empty line": b"",
    "a field too many": LOOK + b" 1",
    "a last field that is no name": BEGIN + b" 1",
    "129 names": BEGIN + 129 * b" x7231",
    "a field too few": BEGIN[:-2],
    "a leading 0": BEGIN[:-1] + b"00",
    "a leading 0 in a TAG": BEGIN.replace(b"7.1.0", b"7.01.0"),
    "a sign": BEGIN[:-1] + b"+0",
    "no digits": BEGIN.replace(b" 0 0", b" 0 x"),
    "digits of another script": BEGIN[:-1] + "٣".encode(),
    "a size of 2^64": BEGIN[:-3] + b"18446744073709551616 0",
    "a size of 5,000 digits": BEGIN[:-3] + 5000 * b"1" + b" 0",
    "processors of 2^32": BEGIN[:-1] + b"4294967296",
    "a change of 65,536": BEGIN.replace(b"7.1.0", b"7.1.65536"),
    "a TAG of four parts": BEGIN.replace(b"7.1.0.1", b"7.1.0"),
    "a TAG of six parts": BEGIN.replace(b"7.1.0.1", b"7.1.0.1.1"),
    "a way in lower case": BEGIN.replace(b".F", b".f"),
    "a word in lower case": BEGIN.replace(b"BEGIN", b"begin"),
    "another verb": BEGIN.replace(b"CREATE", b"MAKE"),
    "another kind": BEGIN.replace(b"LINK", b"ROUTER"),
    "a reply": b"BEGUN",
    "131,073 bytes": BEGIN + b" x" + (131_073 - len(BEGIN) - 3) * b"6",
}


def malformed(folder):
    """Lines that are no calls, and the longest one that is."""
    with Program("adapter.py", "--folder", folder) as adapter:
        for what, line in MALFORMED.items():
            with adapter.connected() as manager:
                expect(what, reply_to(manager, line + b"\n"), "")
        with adapter.connected() as manager:
            expect("131,072 bytes without a line feed", reply_to(manager, 131_072 * b"B"), "")
        with adapter.connected() as manager:
            manager.sendall(BEGIN)
            manager.shutdown(socket.SHUT_WR)
            expect("no line feed", reply_to(manager, b""), "")
        with adapter.connected() as manager:
            manager.sendall(LOOK + b" 1\n" + BEGIN + b"\n")
            expect("a line behind one that is no call", reply_to(manager, b""), "")
        expect("jobs", jobs(folder), [])
        with adapter.connected() as manager:
            longest = b"BEGIN 4294967295.18446744073709551615.65535.4294967295.U " + LINK.encode() + 128 * (b" x" + 255 * b"61")
            expect("128 names of 255 bytes", reply_to(manager, longest + b"\n"), "REFUSED 1")
            sizes = BEGIN[:-3] + b"18446744073709551615 4294967295"
            manager.sendall(sizes[:40])
            time.sleep(0.2)
            expect("the greatest numbers, in two pieces", reply_to(manager, sizes[40:] + b"\n"), "BEGUN")
            asks(manager, ("LOOK 7.1.0.1.F", "DONE x7231"))
    expect("the size", resources(folder)["r1"]["size"], 18446744073709551615)


class Manager:
    """A manager that begins a job where a look says that there is none, over an adapter that may be killed, and is then started again."""

    def __init__(self, folder, calls):
        self.folder, self.kills = folder, 0
        self.start("-c", KILLED, str(calls))

    def start(self, *front):
        self.adapter = Program("adapter.py", "--folder", self.folder, front=front)
        self.connection = self.adapter.connected() if self.adapter.port else None

    def call(self, line):
        """The reply; none where the adapter was killed. There is another one then."""
        reply = ask(self.connection, line) if self.connection else ""
        if reply:
            return reply
        self.end()
        self.kills += 1
        self.start()
        return None

    def make(self, tag, act, abort=False):
        """How the job of this TAG ended, of which the abort is asked for behind a kill, where it is to be."""
        told = self.call(f"BEGIN {tag} {act}")
        for _ in range(10):
            if abort and self.kills:
                self.call(f"ABORT {tag}")
            told = self.call(f"LOOK {tag}")
            if told == "ABSENT":
                self.call(f"BEGIN {tag} {act}")
            elif told:
                break
        return told

    def end(self):
        self.adapter.kill()
        if self.connection:
            self.connection.close()


WORK = [
    ("7.1.0.1.F", LINK, "DONE x7231", {"r1": "LINK"}),
    ("7.1.1.1.F", f"{MACHINE} x7231", "DONE x7232", {"r1": "LINK", "r2": "STARTED"}),
    ("7.2.0.1.F", f"STOP {ON_MACHINE} x7232", "DONE x7232", {"r1": "LINK", "r2": "STOPPED"}),
    ("7.2.0.1.U", f"START {ON_MACHINE} x7232", "DONE x7232", {"r1": "LINK", "r2": "STARTED"}),
    ("7.3.0.1.F", f"REMOVE {ON_MACHINE} x7232", "DONE x7232", {"r1": "LINK"}),
    ("7.3.0.1.U", f"{MACHINE} x7231", "DONE x7233", {"r1": "LINK", "r3": "STARTED"}),
]


def killed_at_each_call(folder):
    """The same work, with the adapter killed at each of its disk calls in turn."""
    wanted, ends, calls = [it[2:] for it in WORK], [it[2] for it in WORK], 0
    while True:
        manager = Manager(folder / str(calls), calls)
        seen = [(manager.make(tag, act), states(manager.folder)) for tag, act, *_ in WORK]
        again = [manager.make(tag, act) for tag, act, *_ in WORK]
        manager.end()
        if (seen, again) != (wanted, ends):
            expect(f"killed at disk call {calls}", (seen, again), (wanted, ends))
        if not manager.kills:
            break
        calls += 1
    expect("disk calls, at each of which it was killed", calls, AT_START + 6 * 2 * BY_WRITE + 5 * BY_WRITE + BY_REMOVAL)


def aborted_behind_each_kill(folder):
    """A job of which the abort is asked for behind a kill: it is done and its resource stands, or it is aborted and nothing does."""
    ends = []
    for calls in range(AT_START + 3 * BY_WRITE):
        manager = Manager(folder / str(calls), calls)
        ends.append((manager.make("7.1.0.1.F", LINK, abort=True), list(states(manager.folder))))
        manager.end()
    expect("the ends", sorted({end for end, _ in ends}), ["ABORTED", "DONE x7231"])
    expect("other ends", [it for it in ends if it not in (("ABORTED", []), ("DONE x7231", ["r1"]))], [])


def is_name(text):
    """Whether the manager takes this for a name."""
    return isinstance(text, str) and len(text.encode()) <= 255 and all(it >= " " and it != "\x7f" for it in text)


def covers(asked, grant):
    """Whether the manager takes this for a grant that covers what it asked for (docs/FORMATS.md, "The grant exchange")."""
    places = set()
    for part in "addResources", "removeResources", "updateResources":
        rows = grant[part]
        if sorted(it["resourceDefinitionId"] for it in rows) != sorted(it["id"] for it in asked[part]):
            return False
        for it in rows:
            place = it.get("vimConnectionId", ""), it.get("zoneId", "")
            if not all(map(is_name, (it["resourceDefinitionId"], *place))):
                return False
            places.add(place)
    return is_name(grant["id"]) and grant["id"] != "" and len(places) <= 32


def exchange(program, method, path, body=None):
    """The answer to a request that has a connection of its own, as the manager's have: status, Location, body."""
    connection = http.client.HTTPConnection("127.0.0.1", program.port, timeout=10)
    connection.request(method, path, body, {"Connection": "close", **({"Content-Type": "application/json"} if body else {})})
    answer = connection.getresponse()
    seen = answer.status, answer.getheader("Location"), answer.read()
    connection.close()
    return seen


def orchestrator(_):
    """Grants, at once and later, and notifications."""
    path = "/grant/v1/grants"
    with Program("orchestrator.py") as program:
        for what, text in ("an instantiation", INSTANTIATION), ("a heal", MIXED):
            asked = json.loads(text)
            status, location, body = exchange(program, "POST", path, text)
            grant = json.loads(body)
            expect(f"the grant of {what}", (status, location), (201, f"{path}/{grant['id']}"))
            expect("it covers what was asked for", covers(asked, grant), True)
            echoed = "vnfInstanceId", "vnfLcmOpOccId"
            expect("its operation", [grant[it] for it in echoed], [asked[it] for it in echoed])
            expect("its links", grant["_links"], {"self": {"href": location}, **asked["_links"]})
            expect("the same by its Location", exchange(program, "GET", location), (200, None, body))
        expect("what is removed", grant["removeResources"][0], {"resourceDefinitionId": "d6", "vimConnectionId": "vim1"})
        expect("another grant", exchange(program, "GET", f"{path}/none")[0], 404)
        for text in "", "{", "[]", "{}", INSTANTIATION.replace('"addResources":[', '"addResources":[1,'):
            expect(f"no grant request {text[:20]!r}", exchange(program, "POST", path, text)[0], 400)
        expect("a notification", exchange(program, "POST", "/notices", '{"id":\n7}'), (204, None, b""))
        expect("it is printed", program.process.stdout.readline(), '/notices {"id": 7}\n')
        expect("one that is no JSON", exchange(program, "POST", "/notices/2", b"\xff\n"), (204, None, b""))
        expect("it is printed", program.process.stdout.readline(), "/notices/2 b'\\xff\\n'\n")
    with Program("orchestrator.py", "--later") as program:
        status, location, body = exchange(program, "POST", path, INSTANTIATION)
        expect("later", (status, location.rpartition("/")[0], body), (202, path, b""))
        status, _, body = exchange(program, "GET", location)
        expect("the grant that is polled", (status, covers(json.loads(INSTANTIATION), json.loads(body))), (200, True))


def main():
    room = pathlib.Path(tempfile.mkdtemp(prefix="adapter."))
    try:
        for trial in conversation, repeated, one_after_another, malformed, killed_at_each_call, aborted_behind_each_kill, orchestrator:
            print(f"-- {trial.__doc__}", flush=True)
            trial(room / trial.__name__)
    finally:
        shutil.rmtree(room)
    sys.exit(differs)


if __name__ == "__main__":
    main()
