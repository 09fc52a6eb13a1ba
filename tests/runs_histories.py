"""The runs that let the program judge histories: a journal is opened, whose last record may follow those before it or mayn't.

Opening judges each record by the tables of those before it. So an event that is allowed is one behind which the journal opens, with as many records,
descriptors, instances and live ones as the history then has; and one that isn't is a bad record, at its own place. What is allowed comes from the
model in tests/history.py, the rules of docs/MODEL.md in another language, and in all but the long history is written out by hand as well.
"""
import random

import cases
import history
import views
from history import COMPLETED, FAILED, FAILED_TEMP, FORCEFUL, FORWARD, GRACEFUL, PROCESSING, ROLLED_BACK, ROLLING_BACK, UNDO
from history import COMPUTE, CREATE, CREATION, DELETION, DELIVERED, LINK, NOT_TAKEN, PORT, STORAGE, Change, Filter, Tag
from run_parts import HEADER, NOW, begin, in_record, opens, run, says, shared, showing

LATER, TROUBLE, MISSES = range(3)
DONE, BROKEN, ABORTED, NOT_BEGUN = range(4)


# ---- Histories

class Counts:
    """What a manager says of its history, which follows the kinds of events."""

    def __init__(self):
        self.records = self.descriptors = self.instances = self.live = 0

    def behind(self, event):
        """What it says with this event behind the others."""
        kind = event[0]
        made, gone = int(kind == 2), int(kind == 3)
        return self.records + 1, self.descriptors + int(kind == 1), self.instances + made, self.live + made - gone

    def follow(self, event):
        self.records, self.descriptors, self.instances, self.live = self.behind(event)

    def now(self):
        return self.records, self.descriptors, self.instances, self.live


class Shown(history.History):
    """A history of the model that keeps what is shown behind each 200th event."""

    def __init__(self, draw):
        super().__init__(draw)
        self.shown = {}

    def happen(self, *event):
        super().happen(*event)
        if self.events % 200 == 0:
            self.show()

    def show(self):
        self.shown[self.events] = views.instances(self), views.occurrences(self)


class Story(Shown):
    """A history that is told by hand, and what is judged in it."""

    def __init__(self):
        super().__init__(random.Random(1))
        self.allowed = set()

    def judge(self, allowed, kind, *fields):
        """An event that doesn't happen now, and which is allowed or isn't: as it is said here, and as the model says."""
        assert self.is_allowed(kind, *fields) == allowed, (kind, fields)
        if allowed:
            self.allowed.add(len(self.entries))
        self.put(0, kind, fields)

    def judge_each(self, allowed, *events):
        for event in events:
            self.judge(allowed, *event)

    def happen_each(self, *events):
        for event in events:
            self.happen(*event)


def lists(instances, occurrences):
    """The acts that ask for the instances and occurrences, and are told these."""
    acts = []
    for at, told in (views.INSTANCES, instances), (views.OCCURRENCES, occurrences):
        acts += [["answers", NOW, "GET %s HTTP/1.1\r\n\r\n" % at, shared("LISTED", showing(told))], ["stays"]]
    return acts


def judged(h, allowed=(), step=25):
    """The acts that let the journal of a history grow, and open it with each event that doesn't happen behind it.

    It is opened by itself every so many records and at the end; where it was kept what is shown then, and at the end, that is compared.
    """
    acts, behind, counts = [["let", "HISTORY", HEADER]], [], Counts()
    h.show()

    def put():
        if behind:
            acts.append(["let", "HISTORY", ["$HISTORY", "".join(behind)]])
            behind.clear()

    def opened(text, *more):
        acts.extend([["site", ["$HISTORY", *more, "\0"]], ["opened", text]])

    for place, (happens, event) in enumerate(h.entries):
        if happens:
            behind.append(in_record(event))
            counts.follow(event)
            if counts.records % step == 0 or counts.records in h.shown:
                put()
                opened(says(*counts.now()))
                acts.extend(lists(*h.shown[counts.records]) if counts.records in h.shown else [])
        else:
            put()
            opened(says(*counts.behind(event)) if place in allowed else "bad record %d" % (counts.records + 1), in_record(event))
    return acts


def stories(title, *told):
    run(title, ["no fault"], *[act for story in told for act in judged(story, story.allowed)])


# ---- Asks

# The changes that instantiate the edge router at its default level, in order: phase, verb, kind, item, VDU, serial number.
THIRTEEN = [Change(phase, CREATE, *what) for phase, *what in [
    (0, LINK, 0, 65_535, 0),
    (0, LINK, 1, 65_535, 0),
    (1, STORAGE, 0, 0, 1),
    (1, STORAGE, 0, 0, 2),
    (1, STORAGE, 1, 1, 1),
    (2, COMPUTE, 0, 0, 1),
    (2, COMPUTE, 0, 0, 2),
    (2, COMPUTE, 0, 1, 1),
    (3, PORT, 0, 0, 1),
    (3, PORT, 1, 0, 1),
    (3, PORT, 0, 0, 2),
    (3, PORT, 1, 0, 2),
    (3, PORT, 2, 1, 1),
]]
BEGIN, SMALL = ("instantiate", "simple", None), ("instantiate", "simple", "small")
STOP, START = ("operate", False, 0), ("operate", True, 0)
HEAL, TERMINATE = ("heal", None, []), ("terminate", FORCEFUL, None)


def scale(way, steps):
    return "scale", ("out", "in").index(way), "workers", steps


def level(named):
    return "level", named


def aspects(number):
    return "aspects", [("workers", number)]


def mend(vdu, serial):
    return "heal", None, [(vdu, serial)]


def ask(occurrence, what, changes, instance=1):
    return "asked", occurrence, instance, 0, what, changes


def create(number, vnfd="vnfd-1"):
    return "created", number, vnfd, None, None


def onboard():
    return "onboarded", history.DESCRIPTOR


def routers(*events):
    """A story behind the onboarding of the edge router and the creation of an instance."""
    story = Story()
    story.happen_each(onboard(), create(1), *events)
    return story


def grant(occurrence, changes, places=(("vim-1", "zone-1"),), spots=None, called=None):
    return "granted", occurrence, called or "grant-%d" % occurrence, list(places), [0] * changes if spots is None else spots


def tag(change, attempt, way=FORWARD, occurrence=1):
    return Tag(occurrence, change, attempt, way)


def with_nothing():
    story = Story()
    story.judge(True, *onboard())
    story.judge_each(
        False, create(1), ("deleted", 1), ask(1, BEGIN, THIRTEEN), ("tried", 1, TROUBLE, None), grant(1, 13), ("denied", 1), ("intent", tag(0, 1)),
        ("call failed", tag(0, 1)), ("settled", tag(0, 1), (DONE, "r1")), ("moved", 1, PROCESSING), ("cancel", 1, GRACEFUL), ("unsubscribed", 1),
        ("posted", 1, 1, DELIVERED),
    )
    story.judge(True, "subscribed", 1, 0, "http://consumer/1", Filter())
    return story


def asks_with_changes():
    story = routers()
    story.judge(True, *ask(1, BEGIN, THIRTEEN))
    story.judge_each(
        False, ask(1, BEGIN, THIRTEEN[:12]), ask(1, BEGIN, []), ask(1, STOP, []), ask(1, BEGIN, [THIRTEEN[1], THIRTEEN[0], *THIRTEEN[2:]]),
        ask(2, BEGIN, THIRTEEN), ask(0, BEGIN, THIRTEEN), ask(1, BEGIN, THIRTEEN, 2), ask(1, SMALL, THIRTEEN),
        ask(1, BEGIN, [*THIRTEEN, THIRTEEN[12]]),
    )
    story.happen(*ask(1, BEGIN, THIRTEEN))
    story.judge_each(False, ask(2, BEGIN, THIRTEEN), ask(2, BEGIN, history.plan(story.instances[0], BEGIN)), ("deleted", 1))
    return story


# ---- The exchange of a grant

# Events about the first occurrence, by a word.
EXCHANGE = {
    "location": ("tried", 1, LATER, "/grant/v1/grants/1"),
    "trouble": ("tried", 1, TROUBLE, None),
    "misses": ("tried", 1, MISSES, None),
    "grant": grant(1, 13),
    "denied": ("denied", 1),
    "graceful": ("cancel", 1, GRACEFUL),
    "forceful": ("cancel", 1, FORCEFUL),
    "PROCESSING": ("moved", 1, PROCESSING),
    "COMPLETED": ("moved", 1, COMPLETED),
    "FAILED_TEMP": ("moved", 1, FAILED_TEMP),
    "FAILED": ("moved", 1, FAILED),
    "ROLLING_BACK": ("moved", 1, ROLLING_BACK),
    "ROLLED_BACK": ("moved", 1, ROLLED_BACK),
    "intent": ("intent", tag(0, 1)),
}
CANCELS = "graceful forceful"
ANSWERS = "trouble misses grant denied " + CANCELS
ANY_ANSWER = "location " + ANSWERS
# What has happened to an occurrence in STARTING, and what may happen next.
STARTING = [
    ("", ANY_ANSWER),
    ("trouble", ANY_ANSWER),
    ("trouble trouble trouble trouble", ANY_ANSWER),
    ("trouble trouble trouble trouble trouble", "ROLLED_BACK " + CANCELS),
    ("location", ANSWERS),
    ("location trouble trouble trouble trouble trouble", "ROLLED_BACK " + CANCELS),
    ("misses", "ROLLED_BACK " + CANCELS),
    ("denied", "ROLLED_BACK " + CANCELS),
    ("grant", "PROCESSING " + CANCELS),
    ("location trouble grant", "PROCESSING " + CANCELS),
    ("graceful", ANY_ANSWER),
    ("location graceful", ANSWERS),
    ("forceful", "ROLLED_BACK " + CANCELS),
    ("graceful forceful", "ROLLED_BACK " + CANCELS),
    ("forceful graceful", "ROLLED_BACK " + CANCELS),
    ("grant graceful", "ROLLED_BACK " + CANCELS),
    ("grant forceful", "ROLLED_BACK " + CANCELS),
    ("graceful denied", "ROLLED_BACK " + CANCELS),
    ("denied ROLLED_BACK", ""),
]


def in_starting(happened, may):
    story = routers(ask(1, BEGIN, THIRTEEN), *[EXCHANGE[word] for word in happened.split()])
    for word, event in EXCHANGE.items():
        story.judge(word in may.split(), *event)
    return story


def grants_with_places():
    east, west = ("vim-1", "east"), ("vim-1", "west")
    story = routers(ask(1, BEGIN, THIRTEEN))
    both = [0, 1] + [0] * 11
    story.judge_each(True, grant(1, 13), grant(1, 13, [east, west], both), grant(1, 13, [("vim-1", ""), ("vim-2", "")], both))
    story.judge_each(
        False, ("granted", 1, "", [east], [0] * 13), grant(1, 12), grant(1, 14), grant(1, 13, [], []), grant(1, 13, []), grant(1, 13, [east], both),
        grant(1, 13, [east, west]), grant(1, 13, [east, west], [1, 0] + [0] * 11), grant(1, 13, [east, east], both), grant(2, 13),
    )
    story.happen(*grant(1, 13))
    story.judge(False, *grant(1, 13))
    return story


# ---- Attempts, moves and cancels

ENDS = [(DONE, "r1"), (BROKEN, 9), (ABORTED,), (NOT_BEGUN,)]


def settled(where, *outcome):
    return "settled", where, outcome


def moves(story, *states):
    """Of all moves of the first occurrence these alone are allowed."""
    for state in history.STATES[1:]:
        story.judge(state in states, "moved", 1, state)


def attempts_moves_and_cancels():
    story = routers(ask(1, BEGIN, THIRTEEN))
    story.judge(False, "intent", tag(0, 1))
    story.happen_each(grant(1, 13), ("moved", 1, PROCESSING))
    moves(story)
    story.judge_each(True, ("intent", tag(0, 1)), ("intent", tag(1, 1)), ("cancel", 1, GRACEFUL))
    # (another attempt, way, phase, change or occurrence; an end of what wasn't begun)
    story.judge_each(
        False, ("intent", tag(0, 0)), ("intent", tag(0, 2)), ("intent", tag(0, 1, UNDO)), ("intent", tag(2, 1)), ("intent", tag(13, 1)),
        ("intent", tag(0, 1, FORWARD, 2)), ("call failed", tag(0, 1)), settled(tag(0, 1), DONE, "r1"), ("denied", 1), grant(1, 13),
    )
    story.happen("intent", tag(0, 1))
    moves(story)
    # (the other change of the phase may be attempted meanwhile, none of a higher one)
    story.judge_each(True, ("call failed", tag(0, 1)), *[settled(tag(0, 1), *end) for end in ENDS], ("intent", tag(1, 1)))
    story.judge_each(
        False, ("intent", tag(0, 1)), ("intent", tag(0, 2)), ("intent", tag(2, 1)), ("call failed", tag(0, 2)), settled(tag(0, 2), DONE, "r1"),
        settled(tag(1, 1), DONE, "r1"), settled(tag(0, 1, UNDO), DONE, "r1"), settled(tag(0, 1, FORWARD, 2), DONE, "r1"),
    )
    story.happen("call failed", tag(0, 1))
    moves(story)
    story.judge(False, "call failed", tag(0, 1))
    story.judge_each(True, *[settled(tag(0, 1), *end) for end in ENDS])
    # (its call failed and it wasn't begun: the work stops)
    story.happen(*settled(tag(0, 1), NOT_BEGUN))
    moves(story, FAILED_TEMP)
    story.judge_each(False, ("intent", tag(0, 2)), ("intent", tag(1, 1)), settled(tag(0, 1), NOT_BEGUN), ("call failed", tag(0, 1)))
    story.happen("moved", 1, FAILED_TEMP)
    moves(story, PROCESSING, FAILED, ROLLING_BACK)
    story.judge_each(False, ("cancel", 1, GRACEFUL), ("cancel", 1, FORCEFUL), ("intent", tag(0, 2)), ask(2, TERMINATE, []), ("deleted", 1))
    story.happen("moved", 1, PROCESSING)
    moves(story)
    story.judge(False, "intent", tag(0, 1))
    # (an attempt that wasn't begun, behind no call that failed, stops nothing)
    story.happen_each(("intent", tag(0, 2)), settled(tag(0, 2), NOT_BEGUN))
    moves(story)
    story.judge_each(True, ("intent", tag(0, 3)), ("intent", tag(1, 1)))
    story.happen_each(("intent", tag(0, 3)), settled(tag(0, 3), DONE, "r1"))
    story.judge(True, "intent", tag(1, 1))
    story.judge_each(False, ("intent", tag(0, 4)), ("intent", tag(0, 4, UNDO)), ("intent", tag(2, 1)))
    story.happen("intent", tag(1, 1))
    story.happen("cancel", 1, GRACEFUL)
    moves(story)
    story.judge_each(True, settled(tag(1, 1), DONE, "r2"), ("cancel", 1, GRACEFUL), ("cancel", 1, FORCEFUL))
    story.happen_each(settled(tag(1, 1), DONE, "r2"), ("cancel", 1, FORCEFUL))
    story.judge_each(False, ("intent", tag(2, 1)), ("intent", tag(0, 4)))
    moves(story, FAILED_TEMP)
    # (a move leaves the cancel behind)
    story.happen_each(("moved", 1, FAILED_TEMP), ("moved", 1, ROLLING_BACK))
    moves(story)
    story.judge_each(True, ("intent", tag(0, 4, UNDO)), ("intent", tag(1, 2, UNDO)))
    story.judge_each(False, ("intent", tag(0, 4)), ("intent", tag(0, 3, UNDO)), ("intent", tag(2, 1, UNDO)), ("intent", tag(2, 1)))
    story.happen_each(("intent", tag(1, 2, UNDO)), settled(tag(1, 2, UNDO), BROKEN, 9))
    moves(story, FAILED_TEMP)
    story.happen_each(("moved", 1, FAILED_TEMP), ("moved", 1, ROLLING_BACK))
    story.judge_each(False, ("intent", tag(1, 2, UNDO)), ("intent", tag(1, 4, UNDO)))
    story.happen_each(("intent", tag(1, 3, UNDO)), settled(tag(1, 3, UNDO), ABORTED))
    moves(story, FAILED_TEMP)
    story.happen_each(("moved", 1, FAILED_TEMP), ("moved", 1, PROCESSING))
    story.judge_each(False, ("intent", tag(0, 4)), ("intent", tag(1, 4)), ("intent", tag(1, 4, UNDO)))
    story.judge_each(True, ("intent", tag(2, 1)), ("intent", tag(3, 1)), ("intent", tag(4, 1)))
    story.happen_each(("cancel", 1, FORCEFUL), ("moved", 1, FAILED_TEMP), ("moved", 1, ROLLING_BACK))
    for change, attempt in (0, 4), (1, 4):
        story.happen_each(("intent", tag(change, attempt, UNDO)), settled(tag(change, attempt, UNDO), DONE, ""))
    moves(story, ROLLED_BACK)
    story.judge_each(False, ("intent", tag(0, 5, UNDO)), ("intent", tag(1, 5, UNDO)), ("intent", tag(0, 5)))
    story.happen("moved", 1, ROLLED_BACK)
    moves(story)
    story.judge_each(False, ("cancel", 1, GRACEFUL), ("intent", tag(0, 5)), ("intent", tag(0, 5, UNDO)))
    story.judge(True, "deleted", 1)
    return story


def four_attempts():
    """Four attempts of an occurrence are open, in each order of their ends: a fifth may not begin, nor a move be made, whatever the others come to."""
    story = Operations()
    story.begin(BEGIN)
    for first, last in (0, 2), (2, 5), (5, 8):
        # (all changes of a phase at once, and none of the next)
        story.happen_each(*[("intent", tag(it, 1)) for it in range(first, last)])
        story.judge(False, "intent", tag(last, 1))
        for it in reversed(range(first, last)):
            story.judge(False, "intent", tag(last, 1))
            story.happen(*settled(tag(it, 1), DONE, "r%d" % it))
    for it in 10, 8, 11:
        story.happen("intent", tag(it, 1))
    story.judge_each(True, ("intent", tag(9, 1)), ("intent", tag(12, 1)))
    story.happen("intent", tag(12, 1))
    story.judge_each(False, ("intent", tag(9, 1)), ("intent", tag(8, 1)), ("intent", tag(8, 2)), ("intent", tag(10, 2)))
    moves(story)
    story.happen_each(("call failed", tag(8, 1)))
    story.judge(False, "intent", tag(9, 1))
    story.happen(*settled(tag(11, 1), DONE, "r11"))
    story.judge(True, "intent", tag(9, 1))
    story.happen("intent", tag(9, 1))
    story.judge_each(False, ("intent", tag(11, 2)), ("call failed", tag(11, 1)), settled(tag(11, 1), DONE, "r11"))
    story.judge_each(True, *[settled(tag(it, 1), *end) for it in (8, 9, 10, 12) for end in ENDS])
    # (the third in order is broken: none may begin, each other may end, and only then the work stops)
    story.happen(*settled(tag(10, 1), BROKEN, 9))
    for it, end in (12, (DONE, "r12")), (8, (NOT_BEGUN,)), (9, (ABORTED,)):
        moves(story)
        story.judge_each(False, ("intent", tag(10, 2)), ("intent", tag(11, 2)))
        story.happen(*settled(tag(it, 1), *end))
    moves(story, FAILED_TEMP)
    story.happen_each(("moved", 1, FAILED_TEMP), ("moved", 1, PROCESSING))
    for it in 8, 9, 10:
        story.happen("intent", tag(it, 2))
    story.judge_each(False, ("intent", tag(11, 2)), ("intent", tag(12, 2)), ("intent", tag(8, 3)))
    # (behind a cancel too they may end, and none begins)
    story.happen("cancel", 1, FORCEFUL)
    story.happen_each(*[settled(tag(it, 2), *end) for it, end in ((9, (DONE, "r9")), (8, (ABORTED,)))])
    story.judge_each(False, ("intent", tag(8, 3)), ("intent", tag(11, 2)))
    moves(story)
    story.happen(*settled(tag(10, 2), DONE, "r10"))
    moves(story, FAILED_TEMP)
    story.happen_each(("moved", 1, FAILED_TEMP), ("moved", 1, ROLLING_BACK))
    # (8 isn't made, and four others are: they are undone at once, and no machine before all of them)
    for it in 9, 12, 11, 10:
        attempt = 3 if it in (9, 10) else 2
        story.judge_each(True, ("intent", tag(it, attempt, UNDO)))
        story.judge_each(False, ("intent", tag(8, 3, UNDO)), ("intent", tag(7, 2, UNDO)))
        story.happen("intent", tag(it, attempt, UNDO))
    for it in 12, 9, 10, 11:
        story.judge(False, "intent", tag(7, 2, UNDO))
        story.happen(*settled(tag(it, 3 if it in (9, 10) else 2, UNDO), DONE, ""))
    story.judge_each(True, *[("intent", tag(it, 2, UNDO)) for it in (5, 6, 7)])
    story.judge_each(False, ("intent", tag(4, 2, UNDO)), ("intent", tag(12, 3, UNDO)))
    return story


def fifth_on_the_way_back():
    """Five ports stand: four of them are undone at once, and the fifth once one is removed."""
    story = Operations()
    story.begin(BEGIN)
    story.make()
    story.happen_each(("cancel", 1, GRACEFUL), ("moved", 1, FAILED_TEMP), ("moved", 1, ROLLING_BACK))
    story.happen_each(*[("intent", tag(it, 2, UNDO)) for it in (12, 11, 10, 9)])
    story.judge_each(False, ("intent", tag(8, 2, UNDO)), ("intent", tag(7, 2, UNDO)))
    moves(story)
    story.happen(*settled(tag(10, 2, UNDO), DONE, ""))
    story.judge(True, "intent", tag(8, 2, UNDO))
    story.judge(False, "intent", tag(7, 2, UNDO))
    return story


# ---- Operations, one behind the other

class Operations(Story):
    """A story of whole operations of the first instance."""

    def __init__(self):
        super().__init__()
        self.happen_each(onboard(), create(1))

    def next_ask(self, what, changes=None):
        """An ask for the next operation; with the changes that the model plans, where none are given."""
        return ask(len(self.occurrences) + 1, what, history.plan(self.instances[0], what) if changes is None else changes)

    def may_ask(self, allowed, *asks):
        for what in asks:
            self.judge(allowed, *self.next_ask(what))

    def begin(self, what):
        """An operation is asked for, granted at two places in turn, and worked on."""
        self.happen(*self.next_ask(what))
        number = len(self.occurrences)
        count = len(self.occurrences[-1].changes)
        places = [("vim-1", "east"), ("vim-1", "west")][:count]
        self.happen_each(grant(number, count, places, [it % 2 for it in range(count)]), ("moved", number, PROCESSING))

    def attempt(self, change, way=FORWARD, *outcome):
        """An attempt at a change of the last operation, which ends so; it is done where nothing else is said."""
        number, row = len(self.occurrences), self.occurrences[-1]
        where = Tag(number, change, row.attempts[change] + 1, way)
        self.happen("intent", where)
        self.happen("settled", where, outcome or (DONE, "r-%d" % self.events))

    def make(self, first=0, last=None):
        """The changes from this one to before that one are made."""
        for change in range(first, len(self.occurrences[-1].changes) if last is None else last):
            self.attempt(change)

    def move(self, *states):
        for state in states:
            self.happen("moved", len(self.occurrences), state)

    def complete(self, what):
        self.begin(what)
        self.make()
        self.move(COMPLETED)

    def give_up(self, what, made):
        """An operation that ends FAILED, once it has made so many changes."""
        self.begin(what)
        self.make(0, made)
        self.attempt(made, FORWARD, BROKEN, 9)
        self.move(FAILED_TEMP, FAILED)


def ends_of_operations():
    story = Operations()
    story.judge(True, "deleted", 1)
    story.may_ask(True, BEGIN, SMALL)
    story.may_ask(False, TERMINATE, START, STOP, HEAL, scale("out", 1), level("small"), aspects(1))
    story.begin(BEGIN)
    story.judge(False, "deleted", 1)
    story.make(0, 6)
    story.attempt(6, FORWARD, BROKEN, 9)
    story.move(FAILED_TEMP)
    story.may_ask(False, BEGIN, TERMINATE, HEAL)
    story.judge(False, "deleted", 1)
    # (given up, it is INSTANTIATED, with what was made: two links, three storages and a machine of its two)
    story.move(FAILED)
    story.may_ask(False, BEGIN, START, STOP, scale("out", 1), scale("in", 1), level("small"), aspects(2))
    story.may_ask(True, TERMINATE, HEAL)
    story.judge(False, "deleted", 1)
    story.complete(HEAL)
    story.may_ask(False, BEGIN, START, level("normal"))
    story.may_ask(True, TERMINATE, STOP, HEAL, scale("out", 1), scale("in", 1), level("small"), aspects(2))
    story.complete(STOP)
    story.may_ask(False, BEGIN, STOP, scale("out", 1), level("small"), aspects(2))
    story.may_ask(True, TERMINATE, START, HEAL)
    story.complete(HEAL)
    story.may_ask(False, START)
    story.complete(STOP)
    story.complete(START)
    story.may_ask(True, STOP, scale("out", 1))
    story.complete(TERMINATE)
    story.may_ask(True, BEGIN, SMALL)
    story.may_ask(False, TERMINATE, START, STOP, HEAL, scale("out", 1))
    story.judge(True, "deleted", 1)
    story.happen("deleted", 1)
    story.judge_each(False, ("deleted", 1), ask(len(story.occurrences) + 1, BEGIN, history.plan(story.instances[0], BEGIN)))
    return story


def levels_of_operations():
    """The level of the workers, from 0 to 10, as the asks show it that would change it."""

    def is_at(number, greater=True):
        assert story.instances[0].level == number
        down, up = number, 10 - number
        story.may_ask(False, scale("in", down + 1), scale("out", up + 1), aspects(number), scale("in", 0), aspects(11))
        story.may_ask(True, *[scale("in", down)][: down], *[scale("out", up)][: up], aspects((number + 1) % 11))
        # (the changes of another level)
        held = story.instances[0]
        story.judge(False, *story.next_ask(scale("out", 2), history.plan(held, scale("out", 1))))

    story = Operations()
    story.happen_each(story.next_ask(BEGIN), ("denied", 1), ("moved", 1, ROLLED_BACK))
    story.may_ask(True, BEGIN)
    story.complete(SMALL)
    is_at(0)
    story.complete(scale("out", 2))
    is_at(2)
    story.complete(scale("in", 1))
    is_at(1)
    # (a scaling that is given up leaves the level, and a machine too many; a heal removes none that is named whole)
    story.give_up(scale("out", 1), 3)
    story.may_ask(False, scale("out", 1), level("small"), aspects(3))
    story.complete(HEAL)
    is_at(1)
    story.complete(aspects(3))
    is_at(3)
    story.give_up(level("normal"), 0)
    story.may_ask(True, level("normal"))
    story.complete(level("normal"))
    is_at(1)
    story.complete(STOP)
    story.complete(TERMINATE)
    story.complete(SMALL)
    is_at(0)
    return story


def greatest_serials():
    """What was asked for once isn't made again with the same serial number, whether it was made or not."""

    def plans(first_of_a, first_of_b):
        """A machine's serials are these and those behind them, and no others are allowed."""
        serials = {0: first_of_a - 1, 1: first_of_b - 1}
        changes = [it if it.kind == LINK else it._replace(serial=it.serial + serials[it.vdu]) for it in THIRTEEN]
        story.judge(True, *story.next_ask(BEGIN, changes))
        for vdu in 0, 1:
            for more in -1, 1:
                others = [it._replace(serial=it.serial + more) if it.vdu == vdu else it for it in changes]
                story.judge(False, *story.next_ask(BEGIN, others))

    story = Operations()
    plans(1, 1)
    story.happen_each(story.next_ask(BEGIN), ("denied", 1), ("moved", 1, ROLLED_BACK))
    plans(3, 2)
    story.happen_each(story.next_ask(SMALL), ("cancel", 2, FORCEFUL), ("moved", 2, ROLLED_BACK))
    plans(4, 3)
    # (another instance counts by itself)
    story.happen(*create(2))
    story.judge(True, *ask(3, BEGIN, THIRTEEN, 2))
    return story


def removals(*what):
    """The removals of a FORCEFUL termination."""
    return [Change(8 - kind, history.REMOVE, kind, *rest) for kind, *rest in what]


def what_stands():
    """Two links and two storages are made and one of these is undone, and so on: what then stands is what a termination removes."""
    links = [(LINK, 0, 65_535, 0), (LINK, 1, 65_535, 0)]
    disks = [(STORAGE, 0, 0, 1), (STORAGE, 0, 0, 2)]

    def stands(*what):
        """A termination removes these, and no fewer, nor others."""
        whole = removals(*what)
        story.judge(True, *story.next_ask(TERMINATE, whole))
        story.judge_each(False, story.next_ask(TERMINATE, whole[1:]), story.next_ask(TERMINATE, [*whole, whole[-1]]))

    story = Operations()
    story.begin(BEGIN)
    story.make(0, 4)
    story.happen("cancel", 1, GRACEFUL)
    story.move(FAILED_TEMP, ROLLING_BACK)
    story.attempt(3, UNDO)
    story.attempt(2, UNDO, BROKEN, 9)
    story.move(FAILED_TEMP, FAILED)
    stands(disks[0], *links)
    # (a termination that removes the disk and isn't let go on; the rest is removed by the next)
    story.begin(TERMINATE)
    story.judge_each(False, ("moved", 2, ROLLING_BACK), ("intent", Tag(2, 1, 1, FORWARD)))
    story.attempt(0)
    story.attempt(1, FORWARD, BROKEN, 9)
    story.move(FAILED_TEMP)
    story.judge(False, "moved", 2, ROLLING_BACK)
    story.move(FAILED)
    stands(*links)
    story.complete(TERMINATE)
    story.judge(True, "deleted", 1)
    # (all is made, a heal removes a machine and makes another, and its undo brings the machine back)
    story.complete(SMALL)
    before = history.plan(story.instances[0], TERMINATE)
    story.judge(True, *story.next_ask(mend(0, 3)))
    story.judge_each(False, *[story.next_ask(mend(0, serial), []) for serial in (1, 2, 4)])
    story.begin(mend(0, 3))
    count = len(story.occurrences[-1].changes)
    story.make()
    story.happen("cancel", len(story.occurrences), GRACEFUL)
    story.move(FAILED_TEMP, ROLLING_BACK)
    for change in reversed(range(count)):
        story.attempt(change, UNDO)
    story.move(ROLLED_BACK)
    assert history.plan(story.instances[0], TERMINATE) == before
    story.judge(True, *story.next_ask(TERMINATE, before))
    story.judge(False, *story.next_ask(mend(0, 4), []))
    story.complete(mend(0, 3))
    story.may_ask(True, TERMINATE, STOP, mend(0, 5))
    story.judge_each(False, story.next_ask(TERMINATE, before), story.next_ask(mend(0, 3), []))
    return story


# ---- What is live

def two_of_each():
    story = Story()
    story.judge(False, *create(1))
    story.happen(*onboard())
    story.judge_each(False, onboard(), create(0), create(2), create(1, "vnfd-2"), ("deleted", 1))
    story.happen_each(create(1), create(2))
    for number in 1, 2:
        story.judge_each(False, ("subscribed", number + 1, 0, "http://consumer", Filter()), ("unsubscribed", number))
        story.happen("subscribed", number, 0, "http://consumer", Filter())
    story.judge(False, "subscribed", 3, 0, "http://consumer", Filter(names=["edge"] * 65))
    story.judge(True, "subscribed", 3, 0, "http://consumer", Filter(names=["edge"] * 64))
    story.happen_each(("deleted", 1), ("unsubscribed", 2))
    story.judge_each(
        False, ("deleted", 1), ("deleted", 3), ask(1, BEGIN, THIRTEEN), ("unsubscribed", 2), ("unsubscribed", 3), create(1), create(2), create(4),
        ("subscribed", 2, 0, "http://consumer", Filter()),
    )
    story.judge_each(
        True, ("deleted", 2), ask(1, BEGIN, THIRTEEN, 2), ("unsubscribed", 1), create(3), ("subscribed", 3, 1, "http://consumer", Filter()),
    )
    return story


def two_descriptors():
    """Two descriptors, and an instance of each."""
    named = [cases.onboarded(cases.descriptor("vnfd-%d" % n, levels=[cases.level("only")])) for n in (1, 2, 3)]
    made = [cases.created(1, "vnfd-1"), cases.created(2, "vnfd-2")]
    front = [named[0], named[1], *made]
    return [
        *opens(front, says(4, 2, 2, 2)),
        *[["descriptor", "vnfd-1", True], ["descriptor", "vnfd-2", True], ["descriptor", "vnfd-3", False], ["descriptor", "vnfd-", False]],
        *opens([*front, named[1]], "bad record 5"),
        *opens([*front, cases.created(3, "vnfd-3")], "bad record 5"),
        *opens([*front, named[2], cases.created(3, "vnfd-3"), cases.deleted(1)], says(7, 3, 3, 2)),
    ]


# ---- Notices

def posts(title, *events, last, subscriptions):
    """A run over these events; after each of them the one place of each subscription at which a post may be recorded, of all places to the last."""
    story, acts, counts = Story(), [["no fault"], ["let", "HISTORY", HEADER]], Counts()
    for number in subscriptions:
        for place in range(last + 1):
            for how in (DELIVERED, NOT_TAKEN)[: 1 + (place % 2)]:
                acts.append(["let", "POST_%d_%d" % (number, place), in_record(spelled("posted", number, place, how))])
    for event, *firsts in events:
        if event:
            story.happen(*event)
            _, last_event = story.entries[-1]
            counts.follow(last_event)
            acts.append(["let", "HISTORY", ["$HISTORY", in_record(last_event)]])
        for number, first in zip(subscriptions, firsts):
            held = story.subscription(number)
            assert (held and held.first()) == first, (event, number)
            for place in range(last + 1):
                acts.append(["site", ["$HISTORY", "$POST_%d_%d" % (number, place), "\0"]])
                records, *others = counts.now()
                acts.append(["opened", says(records + 1, *others) if place == first else "bad record %d" % (records + 1)])
    run(title, *acts)


def spelled(kind, *fields):
    """The bytes of an event of the model."""
    number, spell = history.SPELLED[kind]
    return history.u8(number) + history.u64(history.FIRST_MOMENT) + spell(*fields)


def posted(number, place, how=DELIVERED):
    return "posted", number, place, how


def hundreds_of_notices():
    """Subscription 1 hears of all, 2 of deletions and 3 of creations; the creations stand at each second place, the deletions right behind them."""
    story, acts = Story(), [["no fault"], ["let", "HISTORY", HEADER]]

    def happens(*events):
        before = len(story.entries)
        story.happen_each(*events)
        acts.append(["let", "HISTORY", ["$HISTORY", "".join(in_record(it) for _, it in story.entries[before:])]])

    def come_and_go(count, first):
        happens(*[it for n in range(first, first + count) for it in (create(n), ("deleted", n))])

    def post(count, number, first, step):
        happens(*[posted(number, first + n * step) for n in range(count)])

    def wait(*places):
        """These places wait first for the three: a post of each is allowed, and one at the place behind it, or at another's, isn't."""
        live = sum(it.live for it in story.instances)
        counts = 1, len(story.instances), live
        for number, place in enumerate(places, 1):
            held = story.subscription(number)
            assert (held and held.first()) == place, (number, place)
            others = [it for it in places if it] or [story.events]
            for it in sorted({*others, (place or story.events) + 1}):
                acts.append(["site", ["$HISTORY", in_record(spelled("posted", number, it, DELIVERED)), "\0"]])
                acts.append(["opened", says(story.events + 1, *counts) if it == place else "bad record %d" % (story.events + 1)])

    happens(onboard())
    for number, asked in enumerate([Filter(), Filter(notices=[DELETION]), Filter(notices=[CREATION])], 1):
        happens(("subscribed", number, number % 2, "http://consumer/%d" % number, asked))
    wait(None, None, None)
    come_and_go(130, 1)
    wait(5, 6, 5)
    post(100, 3, 5, 2)
    wait(5, 6, 205)
    post(200, 1, 5, 1)
    wait(205, 6, 205)
    post(130, 2, 6, 2)
    wait(205, None, 205)
    post(30, 3, 205, 2)
    come_and_go(100, 131)
    wait(205, 726, 725)
    post(60, 1, 205, 1)
    wait(725, 726, 725)
    happens(("unsubscribed", 3))
    wait(725, 726, None)
    post(100, 2, 726, 2)
    post(200, 1, 725, 1)
    wait(None, None, None)
    come_and_go(40, 231)
    wait(1_286, 1_287, None)
    run("hundreds of notices are posted in their order", *acts)


def write():
    stories("events are judged after nothing", with_nothing())
    stories("an ask is judged by its changes", asks_with_changes())
    for happened, may in STARTING:
        stories("in STARTING, behind %s, these may follow: %s" % (happened or "nothing", may or "none"), in_starting(happened, may))
    stories("a grant is judged by its places", grants_with_places())
    stories("attempts, moves and cancels are judged by what came before them", attempts_moves_and_cancels())
    stories("four attempts of an occurrence may be open, and a fifth may not", four_attempts(), fifth_on_the_way_back())
    stories("an instance follows the ends of its operations", ends_of_operations())
    stories("an instance has the levels that its operations aimed at", levels_of_operations())
    stories("an instance keeps its greatest serials", greatest_serials())
    stories("what stands follows the attempts that are done", what_stands())
    stories("what is live is found", two_of_each())
    run("two descriptors are told apart", ["no fault"], *two_descriptors())
    posts(
        "the first notice that waits may be posted",
        (None, None, None),
        (onboard(), None, None),
        (("subscribed", 1, 0, "http://consumer/1", Filter()), None, None),
        (("subscribed", 2, 1, "http://consumer/2", Filter(notices=[DELETION])), None, None),
        (create(1), 4, None),
        (create(2), 4, None),
        (posted(1, 4), 5, None),
        (("deleted", 1), 5, 7),
        *[(posted(1, 5, NOT_TAKEN), 5, 7)] * 4,
        (posted(1, 5, NOT_TAKEN), 7, 7),
        (posted(2, 7), 7, None),
        (("unsubscribed", 1), None, None),
        (("deleted", 2), None, 15),
        *[(posted(2, 15, NOT_TAKEN), None, 15)] * 3,
        (posted(2, 15), None, None),
        last=16,
        subscriptions=(1, 2),
    )
    hundreds_of_notices()
    run("six hundred events that a script drew, and between them others that are not allowed", ["no fault"], *judged(history.stored(Shown)))


begin(__name__)
write()
