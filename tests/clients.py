#!/usr/bin/env python3
"""Has clients of the field drive `serve`: the command `openstack` with the plug-in of python-tackerclient, each of its
commands on `vnflcm`, curl, and Python's requests on a kept connection. Each outcome is compared with the one that
docs/PROFILE.md, "Clients", tells.

    tests/clients.py JOURNAL     by the interpreter of `openstack`, over a journal with the descriptor of the examples

tests/clients.sh finds that interpreter and makes the journal. A command of `openstack` is its main function in a
process of its own, which is forked from this one, so that the client is loaded once. Its peers are
examples/orchestrator.py and examples/adapter.py. An operation fails where the adapter's file of a link is gone, and
goes on for as long as a cancel needs where the adapter tells each job as running to many looks.
"""
import contextlib
import importlib.metadata
import itertools
import json
import os
import pathlib
import re
import shutil
import signal
import subprocess
import sys
import tempfile
import time
import urllib.request

import reaches
from begun_once import free_port
from reaches import EXAMPLES, Peer, expect

for name in [it for it in os.environ if it.startswith("OS_") or it.lower().endswith("_proxy")]:
    del os.environ[name]

import openstackclient.shell  # noqa: E402
import requests  # noqa: E402

PATIENCE = 60  # seconds for a command, and for an operation
LONGEST = 120  # seconds for all
NO_SUCH = "00000007-766d-8001-8000-0000000000ff"


class Manager:
    """`serve` over a journal, with both examples as its peers, until the block ends."""

    def __init__(self, room, journal):
        self.room, self.journal, self.folder = room, journal, room / "folder"
        self.orchestrator, self.adapter = Peer("orchestrator.py"), None
        self.door, self.vim = (f"127.0.0.1:{free_port()}" for _ in range(2))
        self.url = f"http://{self.door}/vnflcm/v1"

    def __enter__(self):
        self.folder.mkdir()
        self.orchestrator.__enter__()
        self.infrastructure(looks=0)
        words = ["--listen", self.door, "--em-listen", f"127.0.0.1:{free_port()}", "--orchestrator", self.orchestrator.at]
        said = self.room / "said"
        with open(said, "w", encoding="utf-8") as told:
            self.process = subprocess.Popen([reaches.BUILT, "serve", "--journal", self.journal, *words, "--vim", self.vim], stderr=told)
        begun = time.monotonic()
        while not (line := said.read_text()).endswith("\n") and time.monotonic() - begun < PATIENCE:
            time.sleep(0.02)
        expect("serve says", line.startswith("vnfm: listening at "), True)
        return self

    def __exit__(self, *_):
        for it in self.process, self.adapter:
            it.kill()
            it.wait()
        self.orchestrator.__exit__()

    def infrastructure(self, looks):
        """Has each job told as running to so many looks, by an adapter that takes the place of the one before."""
        if self.adapter:
            self.adapter.kill()
            self.adapter.wait()
        words = ["--listen", self.vim, "--folder", self.folder, "--looks", str(looks)]
        self.adapter = subprocess.Popen(
            [sys.executable, "-B", EXAMPLES / "adapter.py", *words], stdout=subprocess.PIPE, stderr=subprocess.DEVNULL, text=True
        )
        self.adapter.stdout.readline()
        self.adapter.stdout.close()

    @contextlib.contextmanager
    def link_lost(self):
        """What stands as the link net_data is lost while the block runs."""
        path = next(it for it in self.folder.glob("r*") if json.loads(it.read_text())["template"] == "net_data")
        os.rename(path, self.room / "lost")
        yield
        os.rename(self.room / "lost", path)

    def shows(self, what):
        with urllib.request.urlopen(f"{self.url}/{what}", timeout=PATIENCE) as answer:
            return json.load(answer)

    def last(self):
        """The identifier of the last operation."""
        return self.shows("vnf_lcm_op_occs")[-1]["id"]

    def awaits(self, state):
        """Waits until the last operation is in this state; gives its identifier."""
        last, begun = self.last(), time.monotonic()
        while (its := self.shows(f"vnf_lcm_op_occs/{last}"))["operationState"] != state and time.monotonic() - begun < PATIENCE:
            time.sleep(0.1)
        expect(f"  the {its['operation']} is", its["operationState"], state)
        return last


def load():
    """Loads what each command of `openstack` loads."""
    points = importlib.metadata.entry_points()
    for group in (it for it in points.groups if it.startswith("openstack.")):
        for point in points.select(group=group):
            with contextlib.suppress(ImportError):
                point.load()


class Openstack:
    """The command `openstack`, asking the manager at this address."""

    def __init__(self, room, door):
        self.room, self.begun = room, 0
        self.auth = {"OS_AUTH_TYPE": "none", "OS_ENDPOINT": f"http://{door}"}
        os.environ["HOME"] = str(room)

    def begin(self, words, auth):
        """Begins it with these words; gives its process, what it is to write, and where commands may be typed."""
        self.begun += 1
        out, err = (self.room / f"{it}{self.begun}" for it in ("out", "err"))
        out.touch()
        stdin, typing = os.pipe()
        child = os.fork()
        if child == 0:
            os.close(typing)
            os.dup2(stdin, 0)
            for path, number in (out, 1), (err, 2):
                os.dup2(os.open(path, os.O_WRONLY | os.O_CREAT), number)
            os.environ.update(auth)
            self.main(words)
        os.close(stdin)
        return child, out, err, typing

    @staticmethod
    def main(words):
        """Is the command, and ends with it. Whatever happens, this process may do nothing else."""
        status = 1
        try:
            signal.signal(signal.SIGALRM, signal.SIG_DFL)
            signal.alarm(PATIENCE)
            sys.argv = ["openstack", *words]
            sys.stdout.reconfigure(line_buffering=True)
            status = openstackclient.shell.main(words)
            sys.stdout.flush()
        except BaseException as fault:
            print(repr(fault), file=sys.stderr, flush=True)
        finally:
            os._exit(status or 0)

    @staticmethod
    def end(child, out, err):
        """Its status, and what it wrote."""
        status = os.waitstatus_to_exitcode(os.waitpid(child, 0)[1])
        return status, out.read_text(), err.read_text()

    def typed(self, first, second):
        """The same of commands that are typed into it: first these, and half a second behind their answers the others."""
        child, out, err, typing = self.begin([], self.auth)
        with os.fdopen(typing, "w", buffering=1) as typing:
            typing.write("\n".join([*first, ""]))
            begun = time.monotonic()
            while '"VNFD Version"' not in out.read_text() and time.monotonic() - begun < PATIENCE:
                time.sleep(0.1)
            time.sleep(0.5)
            typing.write("\n".join([*second, ""]))
        return self.end(child, out, err)

    def together(self, commands):
        """What each of these commands comes to, which go on beside each other: whether it worked, was refused or failed, with the statuses of its
        answers and what it says of each fault; and its output. A command is its words, and what it says of who asks, where that isn't `none`."""
        begun = []
        for words, auth in commands:
            *one, typing = self.begin(["--debug", *words.split(" ")], self.auth | (auth or {}))
            os.close(typing)
            begun.append(one)
        return [self.outcome(*self.end(*one)) for one in begun]

    @staticmethod
    def outcome(status, out, err):
        answers = re.findall(r'^http://\S+ "[A-Z]+ \S+ HTTP/1\.1" (\d+)', err, re.M)
        told = re.findall(r"^Failed to delete .* with ID .*: (.*)$", err, re.M) or re.findall(r"^clean_up \w+: (.+)$", err, re.M)
        if status == 0:
            return " ".join(["works", *answers, *told]), out
        if answers and answers[-1] < "400":
            return " ".join(["fails", *answers, *told]), out
        return "refused " + ", ".join(map(" ".join, itertools.zip_longest(answers, told, fillvalue="?"))), out


class Trial:
    """Asks by `openstack`, and compares what comes of it."""

    def __init__(self, manager, openstack):
        self.manager, self.openstack = manager, openstack

    def together(self, *rows):
        """What each of these commands comes to is compared; gives the output of each. A row is a command, what it is to come to, and what it says of
        who asks, where that isn't `none`."""
        came = self.openstack.together([(words, *auth, None)[:2] for words, _, *auth in rows])
        for (words, wanted, *_), (seen, _) in zip(rows, came):
            expect(words.replace(f"{self.openstack.room}/", "").replace(f"{EXAMPLES}/", ""), seen, wanted)
        return [out for _, out in came]

    def comes_to(self, words, wanted):
        """The same of one command; gives its output."""
        return self.together((words, wanted))[0]

    def operates(self, words, state="COMPLETED"):
        """A command begins an operation, or a task of one, which then comes into this state; gives the operation's identifier."""
        self.comes_to(words, "works 202")
        return self.manager.awaits(state)


def shown(output):
    """What a command with `-f json` shows."""
    return json.loads(output or "{}")


def unserved(trial, room):
    """What isn't served, or is passed over; and what isn't there."""
    callback = {"callbackUri": "https://127.0.0.1/notices"}, {
        "callbackUri": "http://127.0.0.1/notices", "filter": {"vnfInstanceSubscriptionFilter": {"vnfProductsFromProviders": [{"vnfProvider": "Example"}]}}
    }
    for name, body in zip(("https", "products", "change"), (*callback, {"vnfInstanceName": "edge-9"})):
        (room / f"{name}.json").write_text(json.dumps(body))
    trial.together(
        ("vnflcm list", "works 200", {"OS_AUTH_TYPE": "admin_token", "OS_TOKEN": "t"}),
        ("vnflcm list", "works 200", {"OS_AUTH_TYPE": "http_basic", "OS_USERNAME": "u", "OS_PASSWORD": "p"}),
        ("vnflcm op list --fields operationParams", "works 200"),
        ("vnflcm op list --exclude-fields error", "works 200"),
        ("vnflcm op list --filter (eq,operationState,COMPLETED)", "refused 400 filter is not served"),
        ("vnflcm subsc list --filter (eq,id,1)", "refused 400 filter is not served"),
        ("--os-tacker-api-version 2 vnflcm list", "refused 404 no such resource"),
        ("vnflcm versions", "refused 404 no such resource"),
        (f"vnflcm change-ext-conn {NO_SUCH} {room}/change.json", "refused 404 no such resource"),
        (f"vnflcm update {NO_SUCH} --I {room}/change.json", "refused 405 method not allowed"),
        (f"vnflcm show {NO_SUCH}", "refused 404 no such instance"),
        (f"vnflcm op show {NO_SUCH}", "refused 404 no such occurrence"),
        (f"vnflcm subsc show {NO_SUCH}", "refused 404 no such subscription"),
        ("vnflcm create vnfd-9", "refused 422 vnfdId is not onboarded"),
        (f"vnflcm subsc create {room}/https.json", "refused 422 callbackUri is not an http URI"),
        (f"vnflcm subsc create {room}/products.json", "refused 422 vnfProductsFromProviders is not served"),
    )


def lives(trial):
    """An instance is created, shown, instantiated, scaled and healed; gives it."""
    out = trial.comes_to("vnflcm create vnfd-1 --name edge-1 --description first -f json", "works 201")
    one = shown(out)["ID"]
    listed, its, _ = trial.together(
        ("vnflcm list -f json", "works 200"),
        (f"vnflcm show {one} -f json", "works 200"),
        (f"vnflcm terminate {one}", "refused 409 instance is not INSTANTIATED"),
    )
    expect("  listed", [it["ID"] for it in shown(listed)], [one])
    its = [shown(its)[it] for it in ("Instantiation State", "VNF Instance Name", "VNF Instance Description", "VNFD ID")]
    expect("  shown", its, ["NOT_INSTANTIATED", "edge-1", "first", "vnfd-1"])
    trial.operates(f"vnflcm instantiate {one} {EXAMPLES}/instantiate.json")
    its, *_ = trial.together(
        (f"vnflcm show {one} -f json", "works 200"),
        (f"vnflcm instantiate {one} {EXAMPLES}/instantiate.json", "refused 409 instance is INSTANTIATED"),
        (f"vnflcm scale {one} --type SCALE_OUT --aspect-id others", "refused 422 aspectId is not in the descriptor"),
        (f"vnflcm delete {one} {NO_SUCH}", "refused 409 instance is INSTANTIATED, 404 no such instance"),
    )
    its = shown(its)
    expect("  shown", [its["Instantiation State"], len(its["Instantiated Vnf Info"]["vnfcResourceInfo"])], ["INSTANTIATED", 2])
    trial.operates(f"vnflcm scale {one} --type SCALE_OUT --aspect-id workers --number-of-steps 1")
    trial.operates(f"vnflcm scale {one} --type SCALE_IN --aspect-id workers")
    trial.operates(f"vnflcm heal {one} --cause slow --vnfc-instance VDU_A-1")
    trial.operates(f"vnflcm heal {one}")  # (their names are new ones then)
    return one


def operations(trial, one):
    """The tasks of an operation that has ended, of one that failed, and of one that goes on."""
    manager, scale = trial.manager, f"vnflcm scale {one} --type SCALE_OUT --aspect-id workers"
    done = manager.last()
    tasks = "retry", "rollback", "fail", "cancel"
    listed, its, *_ = trial.together(
        ("vnflcm op list -f json", "works 200"),
        (f"vnflcm op show {done} -f json", "works 200"),
        *((f"vnflcm op {it} {done}", "refused 409 operation is COMPLETED") for it in tasks),
    )
    expect("  listed", [it["Operation State"] for it in shown(listed)], ["COMPLETED"] * 5)
    expect("  shown", [shown(its)[it] for it in ("Operation", "Operation State", "VNF Instance ID")], ["HEAL", "COMPLETED", one])
    with manager.link_lost():
        failed = trial.operates(scale, "FAILED_TEMP")
        its = shown(trial.comes_to(f"vnflcm op show {failed} -f json", "works 200"))
        expect("  shown", [its["Operation State"], re.sub(r"\d+", "N", its["Error"]["detail"])], ["FAILED_TEMP", "change N: broken N"])
    trial.operates(f"vnflcm op retry {failed}")
    with manager.link_lost():
        trial.operates(f"vnflcm op rollback {trial.operates(scale, 'FAILED_TEMP')}", "ROLLED_BACK")
        its = trial.comes_to(f"vnflcm op fail {trial.operates(scale, 'FAILED_TEMP')} -f json", "works 200")
        expect("  shown", shown(its)["Operation State"], "FAILED")
    trial.comes_to(scale, "refused 409 instance is out of step")
    trial.operates(f"vnflcm heal {one} --vnfc-instance VDU_B-2")
    manager.infrastructure(looks=1_000_000)
    going = trial.operates(scale, "PROCESSING")
    for words in "", " --cancel-mode FORCEFUL":
        trial.comes_to(f"vnflcm op cancel {going}{words}", "fails 202 cannot unpack non-iterable NoneType object")
    manager.awaits("FAILED_TEMP")
    manager.infrastructure(looks=0)
    trial.operates(f"vnflcm op rollback {going}", "ROLLED_BACK")


def subscriptions(trial, room):
    """A subscription, by a file that the client reads."""
    asked = json.loads((EXAMPLES / "subscribe.json").read_text())
    asked["callbackUri"] = f"http://{trial.manager.orchestrator.at}/notices"
    (room / "subscribe.json").write_text(json.dumps(asked))
    made = shown(trial.comes_to(f"vnflcm subsc create {room}/subscribe.json -f json", "works 201"))
    expect("  shown", [made["Callback URI"], made["Filter"]], [asked["callbackUri"], asked["filter"]])
    listed, its = trial.together(("vnflcm subsc list -f json", "works 200"), (f"vnflcm subsc show {made['ID']} -f json", "works 200"))
    expect("  listed", [it["ID"] for it in shown(listed)], [made["ID"]])
    expect("  shown", shown(its) == made, True)
    trial.comes_to(f"vnflcm subsc delete {made['ID']}", "works 204")
    trial.comes_to(f"vnflcm subsc delete {made['ID']}", "refused 404 no such subscription")


def ends(trial, one):
    """Instances are terminated and deleted, one of them by the command that asks each second whether it is terminated."""
    terminated = trial.operates(f"vnflcm terminate {one} --graceful-termination-timeout 5")
    trial.together(
        (f"vnflcm op rollback {terminated}", "refused 404 task is not supported"),
        (f"vnflcm delete {one}", "works 204"),
    )
    created = trial.comes_to(f"vnflcm create vnfd-1 --I {EXAMPLES}/instantiate.json -f value -c ID", "works 201 202")
    trial.manager.awaits("COMPLETED")
    trial.manager.infrastructure(looks=3)
    words = f"vnflcm terminate {created.split()[-1]} --termination-type FORCEFUL --D"
    ((came, _),) = trial.openstack.together([(words, None)])
    polls = came.count(" 200")
    expect(words, came.replace(" 200", ""), "works 202 204")
    expect(f"  it asked {polls} times whether it is terminated, which is more than once", polls > 1, True)
    trial.manager.infrastructure(looks=0)
    several = trial.together(*[("vnflcm create vnfd-1 -f value -c ID", "works 201")] * 2)
    trial.comes_to(f"vnflcm delete {' '.join(it.strip() for it in several)}", "works 204 204")
    expect("  listed", shown(trial.comes_to("vnflcm list -f json", "works 200")), [])


def interactive(openstack):
    """One client into which commands are typed, one of them behind a pause."""
    first, second = ["vnflcm list -f json", "vnflcm create vnfd-1 -f json"], ["vnflcm list -f json", "vnflcm op list -f json", "exit"]
    status, out, err = openstack.typed(first, second)
    made = re.findall(r'"ID": "([0-9a-f-]*-8001-[0-9a-f-]*)"', out)
    expect("four commands typed into one client", [status, err.strip(), len(made), len(set(made))], [0, "", 2, 1])


def by_requests(manager):
    """Python's requests: on one connection where nothing is waited for, on one each where it waits for a second."""
    session = requests.Session()
    session.trust_env = False
    url = f"{manager.url}/vnf_instances"

    def port():
        with session.get(url, timeout=PATIENCE, stream=True) as answer:
            its = answer.raw.connection.sock.getsockname()[1]
            answer.raise_for_status()
            return its, len(answer.content)

    # (a process that gets no processor for 200 ms may have one connection more, or one less)
    many = len({port()[0] for _ in range(20)})
    expect(f"requests, 20 one behind the other, on {many} connections, which is fewer than 4", many < 4, True)
    begun, seen = len(manager.shows("vnf_instances")), []
    for _ in range(3):
        time.sleep(1)
        seen.append(port()[0])
    several = len(set(seen))
    expect(f"requests, 3 a second apart, on {several} connections, which is more than one", several > 1, True)
    typed = {"Content-Type": "application/json"}
    made = session.post(url, data=iter([b'{"vnfdId":', b'"vnfd-1"}']), headers=typed, timeout=PATIENCE)
    expect("requests, a body in chunks", (made.status_code, len(manager.shows("vnf_instances"))), (201, begun + 1))
    refusal = session.post(url, json={"vnfdId": "vnfd-9"}, timeout=PATIENCE)
    expect("requests, a refusal", (refusal.status_code, refusal.json()), (422, {"detail": "vnfdId is not onboarded", "status": 422}))
    large = session.post(url, data=b" " * 2_000_000, headers=typed, timeout=PATIENCE)
    expect("requests, a body of 2 MB", (large.status_code, large.json()["detail"]), (413, "request too large"))


def by_curl(manager):
    """curl: two requests on one connection, an offer of HTTP/2, a wait for 100 Continue, and HEAD."""
    url, typed = f"{manager.url}/vnf_instances", ["-H", "Content-Type: application/json"]
    for what, words, wanted in [
        ("two requests on one connection", [url, "-o", "/dev/null", url], "200 1 200 0"),
        ("--http2, which it offers to go on by", ["--http2", url], "200 1"),
        ("a wait for 100 Continue", ["-H", "Expect: 100-continue", *typed, "-d", '{"vnfdId":"vnfd-1"}', url], "201 1"),
        ("-I, which is HEAD", ["-I", url], "405 1"),
    ]:
        said = subprocess.run(["curl", "-q", "-sS", "--noproxy", "*", "-o", "/dev/null", "-w", "%{http_code} %{num_connects} ", *words],
                              stdout=subprocess.PIPE, stderr=subprocess.STDOUT, text=True, check=False)
        expect(f"curl, {what}", said.stdout.strip(), wanted)


def stopped(number, _):
    """Ends this process, and so its peers."""
    sys.exit(f"it took longer than {LONGEST} s" if number == signal.SIGALRM else 128 + number)


def main():
    begun = time.monotonic()
    for number in signal.SIGALRM, signal.SIGTERM, signal.SIGHUP:
        signal.signal(number, stopped)
    # (again and again, since what it raises where an object is being ended is passed over)
    signal.setitimer(signal.ITIMER_REAL, LONGEST, 1)
    clients = [f"{it} {importlib.metadata.version(it)}" for it in ("python-openstackclient", "python-tackerclient", "requests")]
    print(", ".join(clients), flush=True)
    load()
    with tempfile.TemporaryDirectory() as at:
        room = pathlib.Path(at)
        shutil.copy(sys.argv[1], room / "journal")
        with Manager(room, room / "journal") as manager:
            openstack = Openstack(room, manager.door)
            trial = Trial(manager, openstack)
            unserved(trial, room)
            one = lives(trial)
            operations(trial, one)
            subscriptions(trial, room)
            ends(trial, one)
            interactive(openstack)
            by_requests(manager)
            by_curl(manager)
    print(f"it took {time.monotonic() - begun:.0f} s", flush=True)
    sys.exit(reaches.differs)


if __name__ == "__main__":
    main()
