"""What a manager does by itself, by the rules of docs/FORMATS.md, docs/JOBS.md and docs/JOURNAL.md in another language: its acts for operations, the
calls that they make on a site, the work of the jobs that these begin, the deliveries of a round, the records that all these leave, and what a stop among
the calls leaves.

A record is an event of tests/history.py, whose history says what is so of instances and of operations of all kinds. tests/played.py plays runs over this.
"""
import collections
import itertools

import history
import views
from history import COMPLETED, COMPUTE, CREATE, FAILED_TEMP, FORCEFUL, FORWARD, LINK, NO_VDU, PORT, PROCESSING, ROLLED_BACK, ROLLING_BACK
from history import STARTING, STORAGE, Tag, u8, u64

NOW = history.FIRST_MOMENT
# The edge router, and an instance of it that was created.
ONBOARDED, CREATED = ("onboarded", history.DESCRIPTOR), ("created", 1, "vnfd-1", "edge-1", None)
WAYS = "forward", "undo"
VERBS = "create", "remove", "start", "stop"
KINDS = "link", "storage", "compute", "port"
DONE, BROKEN, ABORTED, NOT_BEGUN = range(4)
END = {PROCESSING: COMPLETED, ROLLING_BACK: ROLLED_BACK}
ACTED, WAITS, UNREACHED = range(3)


# Of a journal's file: where its first gate stands, the bytes that a record takes beside its own, those of the head of a batch, how many are read at once
# by a loading and for a record that is read back, and how far the places of gates that are kept stand apart.
FIRST_GATE, FRAME, HEAD, BLOCK, BACK, APART = 32, 9, 5, 65_536, 8_192, 4_096


class DiskFailed(Exception):
    """A call on the disk failed."""


def spelled(event, moment=NOW):
    """The bytes of an event."""
    kind, *fields = event
    number, fields_of = history.SPELLED[kind]
    return u8(number) + u64(moment) + fields_of(*fields)


SIZES = {}


def size_of(event):
    """How many bytes an event has."""
    key = repr(event)
    if key not in SIZES:
        SIZES[key] = len(spelled(event))
    return SIZES[key]


def gates_of(records):
    """The places of the gates of a file with these records, each in a batch of its own; the last is closed."""
    return list(itertools.accumulate((size_of(it) + FRAME for it in records), initial=FIRST_GATE))


def kept_of(gates):
    """Before how many records the gates stand that are kept, of which the last is closed: each that stands far enough behind the one before."""
    kept, least = [], FIRST_GATE
    for before, place in enumerate(gates[:-1]):
        if place >= least:
            kept.append(before)
            least = place + APART
    return kept


# ---- The next action

def free(o):
    """The changes of an operation that may be attempted: each waits and isn't busy, and all that go before its phase are through."""
    way = FORWARD if o.state == PROCESSING else history.UNDO
    waiting = [it for it, net in enumerate(o.nets) if net == way]
    if not waiting:
        return []
    # (plans have their changes in the order of their phases)
    phase = o.changes[waiting[0 if way == FORWARD else -1]].phase
    return [it for it in waiting if not o.is_busy(it) and o.changes[it].phase == phase]


def next_action(number, o):
    """The next action of an active occurrence."""
    first = next(iter(o.open), None)
    if o.state == STARTING:
        if o.gives_up():
            return "move", ROLLED_BACK
        return ("move", PROCESSING) if o.grant is not None else ("ask",)
    if o.cancel == FORCEFUL and first:
        return "abort and look", first
    stopped = o.trouble or o.cancel is not None
    ready = free(o)
    if not stopped and len(o.open) < history.WINDOW and ready:
        way = FORWARD if o.state == PROCESSING else history.UNDO
        change = ready[0 if way == FORWARD else -1]
        return "begin", Tag(number, change, o.attempts[change] + 1, way)
    if first:
        return "look", first
    return "move", FAILED_TEMP if stopped else END[o.state]


def made_on(held, part):
    """The names of the resources that a part is made on: a machine on its disks, and a port on its machine and on its network."""
    kind, item, vdu, serial = part
    if kind == COMPUTE:
        return [held.names[it] for it in history.parts(STORAGE, vdu, serial)]
    return [held.names[COMPUTE, 0, vdu, serial], held.names[LINK, history.PORTS[item][2], NO_VDU, 0]] if kind == PORT else []


def work(h, tag):
    """The work of an attempt: its verb, its kind, its template, the VDU, the serial number, the place, the size, the processors, and on what it is done. An
    undo does the opposite: it makes what was removed at the place where that stood last."""
    o = h.occurrence(tag.occ)
    held, change = h.instance(o.instance), o.changes[tag.change]
    part = kind, item, vdu, serial = change[2:]
    verb = change.verb if tag.way == FORWARD else history.UNDONE[change.verb]
    if verb == CREATE and tag.way == FORWARD:
        _, places, spots = o.grant
        vim, zone = places[spots[tag.change]]
    else:
        vim, zone = held.places[part]
    machine = "" if vdu == NO_VDU else history.VDUS[vdu][0]
    template, size, cpus = {
        LINK: lambda: (history.LINKS[item], 0, 0),
        STORAGE: lambda: (*history.STORAGES[item], 0),
        COMPUTE: lambda: history.VDUS[vdu][:3],
        PORT: lambda: (history.PORTS[item][0], 0, 0),
    }[kind]()
    on = made_on(held, part) if verb == CREATE else [held.names[part]]
    return " ".join([VERBS[verb], KINDS[kind], template, machine, str(serial), vim, zone, str(size), str(cpus), *on])


# ---- The site: a file of records, and jobs

class Plan:
    """What comes of a begin, and how its job goes on, in the words of crates/lcm_cases/src/preparing.rt."""

    def __init__(self, words=("taken",)):
        self.came, self.looks, self.end, self.abortable = "taken", 0, ("done",), "firm" not in words
        for place, word in enumerate(words):
            if word in ("lost", "arrived"):
                self.came = word
            elif word == "refused":
                self.came = "refused %d" % words[place + 1]
            elif word == "looks":
                self.looks = words[place + 1]
            elif word == "broken":
                self.end = "broken", words[place + 1]


class Job:
    """A job: its attempt, its work, its place from 1, and how it goes on."""

    def __init__(self, tag, does, place, plan, at):
        self.tag, self.does, self.place, self.at = tag, does, place, at
        self.looks, self.end, self.abortable, self.ended, self.aborted = plan.looks, plan.end, plan.abortable, None, False

    def ending(self):
        return ("aborted",) if self.aborted else ("done", self.place) if self.end == ("done",) else self.end

    def phase(self):
        return self.ending() if self.ended is not None else ("running",)

    def is_done(self):
        return self.phase()[0] == "done"

    def stood(self, moment):
        """The job as it stood at this moment, with the looks that are left of it now."""
        plan = Plan()
        plan.looks, plan.end, plan.abortable = self.looks, self.end, self.abortable
        job = Job(self.tag, self.does, self.place, plan, 0)
        if self.ended is not None and self.ended <= moment:
            job.ended, job.aborted = 0, self.aborted
        return job


class Site:
    """A site in memory: the records of its file, which come one by one, its jobs, and the calls on record."""

    def __init__(self, records=(), jobs=(), plans=(), room=40, failing=(), blind=None):
        self.first, self.records, self.jobs = list(records), list(records), list(jobs)
        self.plans, self.room, self.failing, self.blind = list(plans), room, set(failing), blind
        self.log = []
        self.disk = self.asked = self.begins = self.faults = self.vim_faults = self.look_faults = self.refusals = 0

    def call(self, *what):
        """A call on the disk."""
        self.disk += 1
        if self.disk in self.failing:
            self.faults += 1
            raise DiskFailed
        self.log.append(what)

    def load(self):
        """The calls that open the journal: a sync, the length, the header, and all behind it in blocks. Nothing of it is held then."""
        self.call("sync")
        *_, end = gates_of(self.records)
        for _ in range(2 + -(-(end + 1 - FIRST_GATE) // BLOCK)):
            self.call("read")
        self.stand_at(0, FIRST_GATE)

    def stand_at(self, before, place):
        """What is read back next is read from this gate on, before which so many records stand."""
        self.before, self.place, self.held_to = before, place, place

    def append(self, record):
        """A record stands once its gate was written, and stays once that is synced. What was read back isn't held any more."""
        self.stand_at(0, FIRST_GATE)
        self.call("write")
        self.call("sync")
        self.call("gate", record)
        self.records.append(record)
        self.call("sync")

    def read_back(self, number):
        """The record of this number, from 1, is read back: on from where was read last, or from the nearest place that is kept, if that is nearer."""
        gates = gates_of(self.records)
        before = max([it for it in kept_of(gates) if it < number], default=0)
        if not before <= self.before < number:
            self.stand_at(before, gates[before])
        for behind in gates[self.before + 1 : number + 1]:
            # (the head of its batch, and then the rest, where these aren't held)
            for wanted in self.place + HEAD, behind:
                if self.held_to < wanted:
                    self.call("read")
                    self.held_to = min(self.held_to + max(BACK, wanted - self.held_to), gates[-1])
            self.place = behind
        self.before = number

    def job_of(self, tag):
        return next((it for it in reversed(self.jobs) if it.tag == tag), None)

    def begin(self, tag, does):
        plan = Plan(self.plans[self.begins]) if self.begins < len(self.plans) else Plan()
        self.begins += 1
        came = plan.came if len(self.jobs) < self.room else "refused 1"
        self.log.append(("begin", tag, came))
        if came in ("taken", "arrived"):
            self.jobs.append(Job(tag, does, len(self.jobs) + 1, plan, len(self.log)))
        self.refusals += came.startswith("refused")
        self.vim_faults += came in ("lost", "arrived")
        return came

    def is_unreachable(self):
        """A look or an abort is asked for: whether it fails."""
        self.asked += 1
        self.vim_faults += self.asked == self.blind
        return self.asked == self.blind

    def look(self, tag):
        if self.is_unreachable():
            self.look_faults += 1
            return None
        job = self.job_of(tag)
        found = ("absent",) if job is None else job.ending() if job.ended is not None or job.looks == 0 else ("running",)
        self.log.append(("look", tag, found))
        if job is not None and job.ended is None:
            if job.looks == 0:
                job.ended = len(self.log)
            else:
                job.looks -= 1
        return found

    def abort(self, tag):
        if self.is_unreachable():
            return
        job = self.job_of(tag)
        self.log.append(("abort", tag))
        if job is not None and job.ended is None and job.abortable:
            job.ended, job.aborted = len(self.log), True

    def standing(self, moment, choice):
        """How many records were put that a stop at this moment leaves, where what isn't synced is left so."""
        count = pending = 0
        for what, *_ in self.log[:moment]:
            if what == "gate":
                pending += 1
            elif what == "sync":
                count, pending = count + pending, 0
        return count + (pending if choice == "new" else 0)

    def stopped(self, moment, choice):
        put = [it[1] for it in self.log if it[0] == "gate"]
        left = self.first + put[: self.standing(moment, choice)]
        return Site(left, [it.stood(moment) for it in self.jobs if it.at <= moment], room=self.room)

    def writing(self, moment=None):
        """The writes and syncs up to this moment behind the calls that open the journal."""
        return sum(it[0] in ("write", "gate", "sync") for it in self.log[self.opening() : moment])

    def place_of_call(self, call):
        """The place on record of this call on the disk."""
        disk = [place for place, it in enumerate(self.log) if it[0] not in ("begin", "look", "abort")]
        return disk[call] if call < len(disk) else len(self.log)

    def posts(self):
        """The posts on record, each as the place of the call that begins its record, the number of that record, and the event that was told of. A
        record is a write, a sync, its gate and a sync."""
        gates = [(place, it[1]) for place, it in enumerate(self.log) if it[0] == "gate"]
        return [(place - 2, number, record[2]) for number, (place, record) in enumerate(gates) if record[0] == "posted"]

    def calls(self, moment=None):
        """The calls on the disk, the begins, the looks and the aborts on record."""
        of = collections.Counter(it[0] for it in self.log[:moment])
        return of["sync"] + of["read"] + of["write"] + of["gate"], of["begin"], of["look"], of["abort"]

    def opening(self):
        """The calls that open the journal in the site's first life."""
        return next((at for at, it in enumerate(self.log) if it[0] not in ("sync", "read")), len(self.log))

    def standing_by_jobs(self):
        """How often each change of each occurrence stands by the done jobs."""
        stands = collections.Counter()
        for job in self.jobs:
            if job.is_done():
                stands[job.tag[:2]] += 1 if job.tag.way == FORWARD else -1
        return stands

    def changes_standing(self):
        """How many numbers of changes were made more often than undone, over all operations."""
        stands = collections.Counter()
        for (_, change), times in self.standing_by_jobs().items():
            stands[change] += times
        return sum(times > 0 for times in stands.values())


# ---- The manager

class Grants:
    """An orchestrator that grants all at one place: how many it granted."""

    def __init__(self, asked=0):
        self.asked = asked

    def grant(self, number, h):
        o = h.occurrence(number)
        self.asked += 1
        return "granted", number, "g%d" % self.asked, [("vim1", "")] if o.changes else [], [0] * len(o.changes)


class Courier:
    """A courier whose posts are answered so in turn, with a status or not at all, and behind these with 204: what it posted, each post a line."""

    def __init__(self, receipts=()):
        self.receipts, self.lines = list(receipts), []

    def post(self, callback, body):
        answer = self.receipts.pop(0) if self.receipts else 204
        self.lines.append("%s %s %s\n" % (answer, callback, body))
        return answer


class Manager:
    """A manager of a site, whose records make its history."""

    def __init__(self, site, orchestrator=None, courier=None):
        self.site, self.orchestrator, self.courier, self.history = site, orchestrator or Grants(), courier or Courier(), history.History(None)
        site.load()
        self.follow_all(site.records)

    @classmethod
    def of(cls, records):
        """A manager that knows these records, of no site."""
        manager = cls(Site())
        manager.follow_all(records)
        return manager

    def follow_all(self, records):
        for record in records:
            self.history.follow(*record)

    def record(self, *event):
        """An event is recorded, which the rules allow behind the others."""
        assert self.history.is_allowed(*event), event
        self.site.append(event)
        self.history.follow(*event)

    def act(self, number, o):
        """The next action of an active occurrence: whether something was recorded, its job goes on, or nobody was reached."""
        what, *of = next_action(number, o)
        if what == "ask":
            self.record(*self.orchestrator.grant(number, self.history))
        elif what == "move":
            self.record("moved", number, of[0])
        elif what == "begin":
            self.begin(of[0])
        else:
            if what == "abort and look":
                for tag in list(o.open):
                    self.site.abort(tag)
            return self.settle(of[0], self.site.look(of[0]))
        return ACTED

    def begin(self, tag):
        does = work(self.history, tag)
        self.record("intent", tag)
        came = self.site.begin(tag, does)
        if came.startswith("refused"):
            self.record("settled", tag, (BROKEN, int(came.split()[1])))
        elif came != "taken":
            self.record("call failed", tag)

    def settle(self, tag, found):
        if found is None:
            return UNREACHED
        if found == ("running",):
            return WAITS
        what, *of = found
        outcome = {"done": lambda: (DONE, "r%d" % of[0]), "broken": lambda: (BROKEN, *of), "aborted": lambda: (ABORTED,), "absent": lambda: (NOT_BEGUN,)}
        self.record("settled", tag, outcome[what]())
        return ACTED

    def turn(self):
        """One act for each occurrence that is active now: how many were recorded, wait and reached nobody."""
        counts = [0, 0, 0]
        for number, o in [it for it in enumerate(self.history.occurrences, 1) if it[1].is_active()]:
            counts[self.act(number, o)] += 1
        return tuple(counts)

    def deliver(self, number):
        """Posts the first notice that waits for a live subscription, where one does, and records whether it was taken: how often it was and wasn't."""
        subscription = self.history.subscription(number)
        place = subscription.first()
        if place is None:
            return 0, 0
        self.site.read_back(place)
        body = views.written(views.notice(number, place, self.site.records[place - 1], self.history))
        is_taken = self.courier.post(subscription.callback, body) == 204
        self.record("posted", number, place, history.DELIVERED if is_taken else history.NOT_TAKEN)
        return int(is_taken), int(not is_taken)

    def deliver_all(self):
        """One delivery for each live subscription, in the order of their numbers: how many notices were taken, and how many weren't."""
        counts = [self.deliver(number) for number, it in enumerate(self.history.subscriptions, 1) if it.live]
        return sum(it[0] for it in counts), sum(it[1] for it in counts)
