"""Plays the runs of operations over the model of the manager's work in working.py: what a run is to come to, as its module says it by hand, has to be what
the model comes to as well. `tests/runs.py --check` plays those of the modules in PLAYED.

It has the acts that these modules use, each as the files of crates/lcm_cases/src tell it. Files, answers and views are compared to the byte; acts that say
nothing of the manager's work are passed over.
"""
import json

import answering
import history
import run_parts
import run_texts
import views
import working
from working import CREATED, DONE, ONBOARDED, WAYS, Courier, DiskFailed, Grants, Manager, Site

PLAYED = (
    *["runs_forward", "runs_rollbacks", "runs_cancels", "runs_stops", "runs_windows", "runs_asks", "runs_scaling", "runs_healing", "runs_powers"],
    *["runs_terminations", "runs_troubles", "runs_lives", "runs_subscriptions", "runs_deliveries"],
)
# What lcm_cases has of its short lives (src/lives.rt): rounds of each, how many there are at most, and where each is stopped.
SHORT_LIFE, LIVES = 7, 60
# A life of more calls than that is long, and each of so many of its moments is played where not all are.
LONG, STRIDE = 300, 23
# Of these modules, which have many runs of one form, one of so many is played where not all are asked for.
SAMPLED = {"runs_troubles": 5, "runs_lives": 5}
length_of = lambda life: life * 7 % 23 + 5
PASSED_OVER = "clock", "let", "once", "printed"


class Differs(Exception):
    """An act doesn't come to what it is to."""


def same(what, wanted, came):
    if wanted != came:
        raise Differs("%s: wanted %r, the model comes to %r" % (what, wanted, came))


def explicit(steps):
    return [tuple(it) if isinstance(it, list) else it for it in run_texts.each_step(steps)]


def step_of(event):
    """What a record says of its operation, as steps are spelled; of an attempt its way, its change, its number and what became of it."""
    kind, of, *more = event
    if kind in ("asked", "granted"):
        return kind
    if kind == "moved":
        return views.STATES[more[0]]
    if kind == "cancel":
        return views.MODES[more[0]].lower()
    attempt = WAYS[of.way], of.change, of.attempt
    if kind != "settled":
        return (*attempt, kind)
    (outcome, *what) = more[0]
    ends = {DONE: lambda: ("done", int(what[0][1:])), working.BROKEN: lambda: ("broken", *what), working.ABORTED: lambda: ("aborted",)}
    return (*attempt, *ends.get(outcome, lambda: ("not begun",))())


def number_of(event):
    """The number of the occurrence that a record is about; none where it is about something else."""
    if event[0] in ("asked", "granted", "moved", "cancel"):
        return event[1]
    return event[1].occ if event[0] in ("intent", "call failed", "settled") else None


def in_file(records):
    """The bytes of these records behind the header, each behind its open gate."""
    return "".join(run_parts.in_record(working.spelled(it)) for it in records)


class Life:
    """A whole life: its site, the steps before it and its own, where an attempt had no job all steps instead, what the lives before it did, and what it
    posted, behind how many records of lives before it."""

    def __init__(self, site, before, steps, lost, earlier, lines, old_records):
        self.site, self.before, self.steps, self.lost, self.earlier = site, before, steps, lost, earlier
        self.lines, self.posts, self.old_records = lines, site.posts(), old_records

    def standing(self, writing):
        return writing // 4 + (writing % 4 == 3)

    def posts_until(self, call):
        """How many posts were made until this call on record; the one before it was."""
        return sum(it[0] <= call for it in self.posts)

    def posts_recorded(self, records):
        return sum(it[1] < records for it in self.posts)


def same_file(wanted, came):
    """These bytes are the same, or the place of the first that differs is told."""
    if wanted != came:
        place = next((at for at, (a, b) in enumerate(zip(wanted, came)) if a != b), min(len(wanted), len(came)))
        raise Differs("at byte %d: wanted %r, the model comes to %r" % (place, wanted[place - 20 : place + 60], came[place - 20 : place + 60]))


class Answers:
    """An orchestrator that answers as is planned, each time with a grant of what is asked for: what it was asked with."""

    def __init__(self, says):
        self.says, self.bodies = list(says), []

    def grant(self, number, h):
        o = h.occurrence(number)
        self.bodies.append(views.written(views.grant_request(number, h)) + "\n")
        _, text = self.says.pop(0)
        grant = json.loads(text)
        at = {it["resourceDefinitionId"]: it for title in ("addResources", "removeResources", "updateResources") for it in grant.get(title, [])}
        each = [(at["d%d" % it].get("vimConnectionId", ""), at["d%d" % it].get("zoneId", "")) for it in range(len(o.changes))]
        places = list(dict.fromkeys(each))
        return "granted", number, grant["id"], places, [places.index(it) for it in each]


class Stage:
    """What the acts of a run have before them."""

    def __init__(self, kept=None, is_patient=True):
        self.is_patient = is_patient
        self.plans, self.room, self.failing, self.blind_call = [], 40, [], None
        self.site, self.base, self.kept, self.granting, self.lost_count = Site(), 0, {} if kept is None else kept, Grants(), 0
        self.doors, self.says, self.receipts = [], [], []
        self.lines, self.posted = [], []
        self.status, self.told, self.bodies, self.expected, self.before = 0, "", "", [], []
        self.earlier, self.whole = (0, 0, 0), None
        self.place = self.records = self.begins = self.posts = 0
        self.calls_behind = self.lost = None

    # -- texts

    def text(self, value):
        if isinstance(value, list):
            return "".join(map(self.text, value))
        if isinstance(value, str) and value.startswith("$"):
            return self.text(TEXTS[value[1:]]) if value[1:] in TEXTS else ""
        return value if isinstance(value, str) else ""

    # -- commands

    def answer(self, manager, text, role=0):
        """Answers the requests of a connection."""
        for request in answering.requests_of(self.text(text)):
            told, event = answering.answer(manager.history, role, *request)
            if event is not None:
                try:
                    manager.record(*event)
                except DiskFailed:
                    self.told += self.text("$FAULT")
                    raise
            self.told += told

    def command(self, rounds, orchestrator, role=0):
        """So many rounds, each with the connection that is planned for it, where one is."""
        self.told, self.status, self.before = "", 0, list(self.site.records)
        doors, self.doors = self.doors, []
        courier = self.take_courier()
        try:
            manager = Manager(self.site, orchestrator, courier)
            for number in range(rounds):
                if number < len(doors) and doors[number] is not None:
                    self.told = ""
                    self.answer(manager, doors[number], role)
                manager.turn()
                manager.deliver_all()
        except DiskFailed:
            self.status = 3

    def take_courier(self):
        """The courier of the next command, whose posts are answered as is planned; what it posts is kept."""
        courier, self.receipts = Courier(self.receipts), []
        self.lines = courier.lines
        return courier

    def deliveries(self, text):
        self.before = list(self.site.records)
        try:
            came = "%d %d" % Manager(self.site, None, self.take_courier()).deliver_all()
        except DiskFailed:
            came = "site fault"
        same("deliveries", text, came)

    def waits(self, number, place):
        subscription = Manager(self.site).history.subscription(number)
        same("what waits", place, (subscription and subscription.first()) or 0)

    def starved_posts(self, files):
        Manager(self.site).deliver_all()
        self.has_file(files[-1])

    def rounds(self, count, text=None, told=None):
        self.doors += [] if text is None else [text]
        self.command(count, self.granting)
        if told is not None:
            self.is_answered(told)

    def is_answered(self, told):
        same("status", 0, self.status)
        same("answers", self.text(told), self.told)

    def go(self, *words):
        """A command; of those that don't work on operations the file is that which is there without them."""
        named = dict(zip(words[1::2], words[2::2]))
        if words[0] == "once":
            says, self.says = self.says, []
            orchestrator = Answers(says)
            self.command(int(named.get("--rounds", 1)), orchestrator, 1 if named.get("--role") == "em" else 0)
            self.bodies = "".join(orchestrator.bodies)
        else:
            self.doors = []

    def turn(self, *counts):
        self.before = list(self.site.records)
        same("turn", counts, Manager(self.site, self.granting).turn())

    def answers(self, now, text, told):
        self.told, self.before = "", list(self.site.records)
        self.answer(Manager(self.site, self.granting), text)
        same("answers", self.text(told), self.told)

    # -- sites

    def make_site(self, text):
        # (a file that wasn't kept comes to be one with a descriptor and an instance of it by acts that are passed over)
        name = text[1:] if isinstance(text, str) else ""
        records = self.kept.get(name) or run_parts.SITES.get(name, [ONBOARDED, CREATED])
        self.site = Site(records, (), self.plans, self.room, self.failing, self.blind_call)
        self.take_base()

    def take_base(self):
        self.base = len(self.site.records)

    def has_file(self, text):
        if isinstance(text, str) and text[1:] in self.kept:
            return same("the records", self.kept[text[1:]], self.site.records)
        same_file(self.text(text), self.file())

    def is_opened(self, text):
        h = Manager(self.site).history
        live = sum(it.live for it in h.instances)
        same("what is opened", text, run_parts.says(len(self.site.records), 1, len(h.instances), live))

    def file(self):
        return self.text(run_parts.HEADER) + in_file(self.site.records) + "\0"

    def steps_left(self):
        return [step_of(it) for it in self.site.records[self.base :] if number_of(it) == 1]

    def has_steps(self, wanted):
        same("steps", wanted, self.steps_left())
        others = [it for it in self.site.records[self.base :] if number_of(it) != 1]
        same("other records", [], others)
        self.expected = wanted
        self.agrees()

    def agrees(self):
        """The jobs are sound with the records."""
        h, jobs = Manager.of(self.site.records).history, {it.tag: it for it in self.site.jobs}
        places = {}
        for place, (kind, tag, *more) in enumerate(self.site.records):
            if kind == "intent":
                places[tag] = place
            elif kind == "settled":
                _, _, _, at, *what = step_of((kind, tag, *more))
                if at in ("done", "aborted"):
                    same("how %s stands" % (tag,), (at, *what), jobs[tag].phase())
                elif at == "not begun":
                    same("whether there is a job of %s" % (tag,), False, tag in jobs)
        order = [places[it.tag] for it in self.site.jobs]
        same("the order of the jobs", sorted(order), order)
        stands = self.site.standing_by_jobs()
        for number, o in enumerate(h.occurrences, 1):
            nets = list(o.nets)
            for tag in o.open:
                if tag in jobs and jobs[tag].is_done():
                    nets[tag.change] = 1 if tag.way == history.FORWARD else 0
            same("how often each change stands", nets, [stands[number, it] for it in range(len(nets))])

    def face(self, text):
        """The view shows occurrence 1 behind the steps that were compared last, which the records are."""
        h = Manager.of(self.site.records).history
        same("the occurrence", self.text(text), answering.answer(h, 0, "GET", views.path(1, 2), {}, "")[0])

    def instance(self, text):
        h = Manager.of(self.site.records).history
        same("the instance", self.text(text), answering.answer(h, 0, "GET", views.path(1, 1), {}, "")[0])

    def renew(self):
        disk, begins, _, _ = self.site.calls()
        self.earlier = len(self.site.jobs), begins, disk
        self.site = self.site.stopped(len(self.site.log), "old")

    def keep(self, name):
        self.kept[name] = list(self.site.records)

    def stop_behind(self, calls):
        self.site = self.site.stopped(min(self.site.opening() + calls, len(self.site.log)), "old")

    def stop_behind_the_begin(self):
        at = next(at for at, it in enumerate(self.site.log) if it[0] == "begin")
        self.site = self.site.stopped(at + 1, "old")

    # -- whole lives

    def life(self, before, steps, lost=None):
        lost = [explicit(it) for it in lost] if lost is not None else None
        self.whole = Life(self.site, explicit(before), explicit(steps), lost, self.earlier, self.lines, len(self.before))

    def at_stop(self, place, behind, records, begins, posts):
        self.place, self.calls_behind, self.records, self.begins, self.posts = place, behind, records, begins, posts
        some = self.whole.steps[:records] if records <= len(self.whole.steps) else []
        begun = sum(isinstance(it, tuple) and it[3] == "intent" for it in some)
        is_lost = some and isinstance(some[-1], tuple) and some[-1][3] == "intent" and begun > begins
        self.lost = begun - 1 if is_lost else None

    def stop_at(self, moment, choice):
        self.granting = Grants()
        self.site = self.whole.site.stopped(moment, choice)
        disk, begins, _, _ = self.whole.site.calls(moment)
        behind, writing = disk - self.whole.site.opening(), self.whole.site.writing(moment)
        records = self.whole.standing(writing) if choice == "new" else writing // 4
        self.at_stop(moment, behind if behind >= 0 else None, records, begins, self.whole.posts_until(moment - 1))
        self.lost_count += self.lost is not None

    def fail_at(self, call):
        self.failing = [self.whole.earlier[2] + call + 1]
        self.granting = Grants()
        self.at_fault(call, 0)

    def at_fault(self, call, begins):
        behind, place = call - self.whole.site.opening(), self.whole.site.place_of_call(call)
        records = self.whole.standing(self.whole.site.writing(place))
        self.at_stop(call, behind if behind >= 0 else None, records, begins, self.whole.posts_until(place))

    def fallen(self):
        self.at_fault(self.place, self.site.calls()[1] - self.whole.earlier[1])
        self.granting = Grants()
        same("status", 3, self.status)

    def left(self):
        same("what is left", self.whole.before + self.whole.steps[: self.records], self.steps_left())
        same("jobs", self.whole.earlier[0] + self.begins, len(self.site.jobs))
        self.agrees()

    def is_kept(self):
        records = self.whole.site.records[: self.whole.old_records + self.records]
        same("what is kept", records, self.site.records)
        same("events of posts that don't stand", [], [it for it in self.whole.posts[: self.posts] if it[2] > len(records)])

    def again(self):
        if self.lost is None:
            wanted = self.whole.before + self.whole.steps
        elif self.whole.lost is not None:
            wanted = self.whole.before + self.whole.lost[self.lost]
        else:
            raise Differs("nothing says what comes of a lost attempt")
        self.has_steps(wanted)
        same("the records before", self.before, self.site.records[: len(self.before)])

    def some(self, count):
        """The moments or calls of a life that are played: of a long one each of so many alone, where not all are asked for."""
        return range(0, count, 1 if self.is_patient or count < LONG else STRIDE)

    def each_stop(self, choice, *acts):
        self.lost_count = 0
        moments = self.some(len(self.whole.site.log) + 1)
        for moment in moments:
            self.stop_at(moment, choice)
            self.play_within(acts, "stop %d, %s" % (moment, choice))
        self.lost_count = self.lost_count if moments.step == 1 else None

    def each_fault(self, *acts):
        for call in self.some(self.whole.site.calls()[0]):
            self.fail_at(call)
            self.play_within(acts, "fault %d" % call)

    def play_within(self, acts, where):
        for act in acts:
            try:
                self.play(act)
            except Differs as fault:
                raise Differs("%s, %s: %s" % (where, act[0], fault)) from None

    def lives(self, first, choice, text):
        for life in range(LIVES):
            if in_file(self.site.records[-1:]) == self.text(text):
                return
            self.granting = Grants()
            self.command(SHORT_LIFE, self.granting)
            before = self.before
            last = min(self.site.opening() + length_of(first + life), len(self.site.log))
            made = sum(it[0] <= last - 1 for it in self.site.posts())
            self.posted += [it for it in self.lines[:made] if it not in self.posted]
            self.site = self.site.stopped(last, choice)
            same("the records before", before, self.site.records[: len(before)])
        raise Differs("others behind %d lives" % LIVES)

    # -- acts

    def play(self, act):
        word, *of = act
        if word in ("at records", "at calls"):
            first, last, inner = of
            at = self.records if word == "at records" else self.calls_behind
            return self.play(inner) if first <= (-1 if at is None else at) <= last else None
        site = self.site
        played = {
            "work": lambda before, *plans: setattr(self, "plans", [("taken",)] * before + [tuple(it) for it in plans]),
            "room": lambda count: setattr(self, "room", count),
            "fault": lambda *calls: setattr(self, "failing", calls),
            "no fault": lambda: setattr(self, "failing", []),
            "blind": lambda call: setattr(self, "blind_call", call),
            "site": self.make_site, "keep": self.keep, "base": self.take_base, "file": self.has_file, "renew": self.renew,
            "rounds": self.rounds, "turn": self.turn, "answers": self.answers, "face": self.face, "lives": self.lives, "life": self.life,
            "stop behind": self.stop_behind, "stop behind the begin": self.stop_behind_the_begin,
            "each stop": self.each_stop, "each fault": self.each_fault, "fallen": self.fallen, "left": self.left, "again": self.again,
            "times": lambda count, inner: [self.play(inner) for _ in range(count)],
            "unopened": lambda inner: self.play(inner) if self.calls_behind is None else None,
            "at first": lambda inner: self.play(inner) if self.place == 0 else None,
            "at last": lambda inner: self.play(inner) if self.place == len(self.whole.site.log) else None,
            "steps": lambda *steps: self.has_steps(explicit(steps)),
            "status": lambda *wanted: same("status", True, self.status in wanted),
            "told": lambda text: same("told", self.text(text), self.told),
            "told front": lambda text: same("told", self.text(text), self.told[: len(self.text(text))]),
            "answered": self.is_answered,
            "only answered": lambda text: (self.is_answered(text), same("the records", self.before, site.records)),
            "stays": lambda: same("the records", self.before, site.records),
            "file front": lambda text: same_file(self.text(text), self.file()[: len(self.text(text))]),
            "file end": lambda text: same_file(self.text(text), self.file()[-len(self.text(text)) :]),
            "door": lambda text: self.doors.append(text),
            "nobody": lambda: self.doors.append(None),
            "says": lambda status, location, text: self.says.append((status, self.text(text))),
            "bodies": lambda text: same_file(self.text(text), self.bodies),
            "receipts": lambda *answers: setattr(self, "receipts", list(answers)),
            "posted": lambda text: same_file(self.text(text), "".join(self.lines)),
            "posted once": lambda text: same_file(self.text(text), "".join(self.posted)),
            "posted so far": lambda: same("posts", self.whole.lines[: self.posts], self.lines),
            "posted again": lambda: same("posts", self.whole.lines[self.whole.posts_recorded(self.records) :], self.lines),
            "kept": self.is_kept, "deliveries": self.deliveries, "waits": self.waits, "starved posts": self.starved_posts,
            "go": self.go, "instance": self.instance, "opened": self.is_opened,
            "moment": lambda wanted: same("moment", wanted, len(site.log)),
            "does": lambda place, text: same("work", text, site.jobs[place].does),
            "jobs": lambda *wanted: same("jobs", wanted, (len(site.jobs), site.changes_standing())),
            "job count": lambda wanted: same("jobs", wanted, len(site.jobs)),
            "calls": lambda *wanted: same("calls", wanted, site.calls()[1:]),
            "faults": lambda *wanted: same("faults", wanted, (site.faults, site.vim_faults, site.look_faults, site.refusals)),
            "grants": lambda wanted: same("grants", wanted, self.granting.asked),
            "lost": lambda wanted: same("lost", wanted, wanted if self.lost_count is None else self.lost_count),
            "done jobs": lambda *wanted: same("jobs", list(wanted), [it.tag.change if it.is_done() else None for it in site.jobs]),
            "job": lambda place, *wanted: same("job", " ".join(map(str, wanted)), told_tag(site.jobs[place].tag)),
            "stands": lambda place, text: same("job", text, told_job(site.jobs[place])),
            "calls on jobs": lambda text: same("calls", self.text(text), "".join(map(told_call, site.log))),
        }
        if word in played:
            played[word](*of)
        elif word not in PASSED_OVER:
            raise Differs("an act that the model doesn't know: %s" % word)


def told_tag(tag):
    return "%d %d %d %s" % (tag.occ, tag.change, tag.attempt, WAYS[tag.way])


def told_job(job):
    phase = job.phase()
    return "%s, %s" % (told_tag(job.tag), "done r%d" % phase[1] if phase[0] == "done" else " ".join(map(str, phase)))


def told_call(call):
    what, *of = call
    if what == "begin":
        return "begin %s: %s\n" % (told_tag(of[0]), of[1])
    if what == "look":
        return "look %s: %s\n" % (told_tag(of[0]), " ".join(map(str, of[1])))
    return "abort %s\n" % told_tag(of[0]) if what == "abort" else ""


TEXTS = {}


def behind(*acts):
    """The stage behind these acts, by the model alone."""
    TEXTS.update({name: text for module in run_parts.MODULES for name, text in module.texts})
    stage = Stage()
    for act in acts:
        stage.play(act)
    return stage


def changes_done(*acts):
    """The changes that the jobs behind these acts are for, in their order."""
    return [it.tag.change for it in behind(*acts).site.jobs]


def faults(is_patient):
    """The runs that the model doesn't come to, each with why; of long lives at each moment, or at some."""
    TEXTS.update({name: text for module in run_parts.MODULES for name, text in module.texts})
    kept = {}
    for module in run_parts.MODULES:
        for title, *acts in module.runs[:: 1 if is_patient else SAMPLED.get(module.title, 1)] if module.title in PLAYED else ():
            stage = Stage(kept, is_patient)
            for number, act in enumerate(acts, 1):
                try:
                    stage.play(act)
                except Differs as fault:
                    yield "%s: act %d, %s: %s" % (title, number, act[0], fault)
                    break
