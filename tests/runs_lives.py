"""The runs of whole lives of an instance, from its creation to its deletion by way of each operation, asked by either role, and stopped at each moment."""
from run_operations import *

begin(__name__)

NOBODY = ["nobody"]
# The operations of a life: what is asked, the ask and the changes.
OPERATIONS = [
    (INSTANTIATE, INSTANTIATION.ask, INSTANTIATION.changes),
    (scaling("OUT"), ("scale", OUT, "workers", 1), making("A3")),
    (scaling("IN"), ("scale", IN, "workers", 1), removing("A3")),
    (levelling("small"), ("level", "small"), removing("A2")),
    (levelling("normal"), ("level", "normal"), making("A4")),
    (aspects(3), ("aspects", [("workers", 3)]), making("A5", "A6")),
    (aspects(1), ("aspects", [("workers", 1)]), removing("A5", "A6")),
    (healing("A4", cause="slow"), ("heal", "slow", [(0, 4)]), [*making("A7"), *removing("A4")]),
    (healing(), ("heal", None, []), [*making("A8", "A9", "B2"), *removing("A1", "A7", "B1")]),
    (healing("B2", "A9", "A8"), ("heal", None, [(1, 2), (0, 9), (0, 8)]), [*making("A10", "A11", "B3"), *removing("A8", "A9", "B2")]),
    (operating("STOPPED"), ("operate", False, 0), powering(TURN_OFF, "A10", "A11", "B3")),
    (operating("STARTED"), ("operate", True, 0), powering(TURN_ON, "A10", "A11", "B3")),
    (terminating("GRACEFUL"), ("terminate", 0, None), [*powering(TURN_OFF, "A10", "A11", "B3"), *removing("A10", "A11", "B3"), *UNLINKING]),
    (INSTANTIATE, INSTANTIATION.ask, [*LINKING, *making("A12", "A13", "B4")]),
    (terminating("FORCEFUL"), ("terminate", 1, None), [*removing("A12", "A13", "B4"), *UNLINKING]),
]
# The grants are at two places in turn.
PLACES = ("vim1", ""), ("vim-2", "zone-b")


class Life:
    """A whole life, asked for by this role: its operations, their steps, and what is recorded."""

    def __init__(self, role):
        self.chunks = {}
        self.words = ["once", "--journal", "j", *(["--role", "em"] if role else [])]
        self.operations = [
            Operation(number, ask, changes, role, [PLACES[(number + it) % 2] for it in range(len(changes))])
            for number, (_, ask, changes) in enumerate(OPERATIONS, 1)
        ]
        self.texts = [asking(text) for text, _, _ in OPERATIONS]
        self.jobs = sum(len(it.changes) for it in self.operations)
        first, self.told = 1, []
        for operation in self.operations:
            self.told.append((operation, operation.through(first)))
            first += len(operation.changes)
        # The records of it behind which each operation is asked for, from the creation on, and where it ends.
        self.before, count = [], 1
        for _, all_steps in self.told:
            self.before.append(count)
            count += len(all_steps)
        self.records = count + 1
        self.rounds = 2 + sum(it.asks() for it in self.operations)
        # Where the life's intents stand among its records, from 1: the operation, by its place, and the change.
        self.intents = [
            (self.before[place] + at, place, step[1])
            for place, (_, all_steps) in enumerate(self.told) for at, step in enumerate(all_steps, 1) if step[3:4] == ["intent"]
        ]

    def journal(self, told):
        """The whole journal in which this is told."""
        return [HEADER, ROUTER_RECORDS, *[self.chunk(*it) for it in told], record_of(("deleted", 1)), "\0"]

    def chunk(self, operation, all_steps):
        """The records of an operation, in one text."""
        lost = next((step[1] for step in all_steps if step[3:4] == ["not begun"]), None)
        key = operation.number, lost
        if key not in self.chunks:
            self.chunks[key] = chunk_of([record_of(operation.event(step)) for step in all_steps])
        return self.chunks[key]

    def journal_of(self, told):
        return shared_list("LIFE", self.journal(told))

    def whole(self):
        return self.journal_of(self.told)

    def lost(self, place, change):
        """What is told where the first attempt at this change of an operation had no job."""
        operation, all_steps = self.told[place]
        return [*self.told[:place], (operation, operation.through(min(self.jobs_of(all_steps)), change)), *self.told[place + 1 :]]

    def jobs_of(self, all_steps):
        return [it[4] for it in all_steps if it[3:4] == ["done"]]

    def plays(self):
        """The acts of a life in one command: each operation is asked for once the one before it has ended."""
        acts = [["says", 201, "", shared("GRANT", it.grant_text())] for it in self.operations]
        acts.append(["door", CREATE])
        for operation, text in zip(self.operations, self.texts):
            acts += [["door", text], ["times", operation.asks() - 1, NOBODY]]
        return [*acts, ["door", DELETE], self.goes()]

    def goes(self, more=0):
        return go(*self.words, "--rounds", str(self.rounds + more))

    def goes_on(self, record):
        """The acts that go on with it to its end behind a stop that left so many of its records: an operation that was asked for is let end, and those
        that weren't are asked for."""
        acts = [["says", 201, "", shared("GRANT", it.grant_text())] for place, it in enumerate(self.operations) if record <= self.before[place] + 1]
        acts += [["door", CREATE]] if record == 0 else []
        for place, (operation, text) in enumerate(zip(self.operations, self.texts)):
            if record <= self.before[place]:
                acts += [["door", text], ["times", operation.asks() - 1, NOBODY]]
            elif record < self.before[place] + len(self.told[place][1]):
                # (an attempt that has no job takes two rounds more)
                acts.append(["times", operation.asks() + 2, NOBODY])
        return [*acts, *([["door", DELETE]] if record < self.records else []), self.goes(3), ["status", 0]]

    def at_begin(self, number):
        """The calls on the site behind its opening, before the job of this intent, by its number from 0, is begun: four for each record, those that
        begin jobs and those that look at them."""
        record, place, _ = self.intents[number]
        told = [step for _, all_steps in self.told for step in all_steps][: record - 1]
        return 4 * record + number + sum(it[3:4] == ["done"] for it in told)

    def opened(self, record):
        """How much is there of it behind a stop that left so many of its records."""
        return ["opened", says(1 + record, 1, min(record, 1), int(0 < record < self.records))]

    def ends(self, record, choice):
        """Behind a stop that left so many of its records, and what goes on then, the journal is the whole one, or, where the last record is an intent
        that had no job, that in which a look tells that. Right before and behind the begin of a job, between which no call on the disk is made, either
        may be: of both it is told how they end."""
        intent = next((it for it in self.intents if it[0] == record), None)
        if intent is None:
            return [["file", self.whole()]]
        _, place, change = intent
        is_new, synced = choice == "new", 4 * record
        return [
            # (with the gate written and not synced, which leaves the record where it is new, no job can be begun yet)
            *([["at calls", synced - 1, synced - 1, ["file", self.journal_of(self.lost(place, change))]]] if is_new else []),
            ["at calls", synced, synced, ["file end", self.behind(place)]],
            ["at calls", synced + 1, synced + (2 if is_new else 3), ["file", self.whole()]],
        ]

    def stops(self, choice, first, stride):
        """The acts behind each stop: how much is there of it. Of each so many records, from this number on, they go on to its end, where no job is
        left undone."""
        acts = [["at records", it, it, self.opened(it)] for it in range(self.records + 1)]
        for record in range(first, self.records + 1, stride):
            acts += [within(record, it) for it in [*self.goes_on(record), *self.ends(record, choice), ["job count", self.jobs]]]
        return acts

    def behind(self, place):
        """The end of the journal, from the end of this operation on."""
        operation, _ = self.told[place]
        return shared_list("LIFE_END", [record_of(operation.event("COMPLETED")), *self.journal(self.told[place + 1 :])[2:]])


def within(record, act):
    """The act where a stop left so many records; one that is told apart by calls on the disk is so by itself."""
    return act if act[0] == "at calls" else ["at records", record, record, act]


LISTS = {}


def shared_list(title, texts):
    key = json.dumps(texts)
    if key not in LISTS:
        LISTS[key] = let("%s_%d" % (title, len(LISTS)), texts)
    return LISTS[key]


BEGUN = [["room", 200], ["site", ONBOARDED_SITE]]
ORCHESTRATORS, MANAGERS = Life(0), Life(1)
LIVES = {"the orchestrator": ORCHESTRATORS, "the element manager": MANAGERS}
# Of how many records, and of how many begins of jobs, each first is one behind which a life goes on. tests/whole_lives.py has all.
STRIDE, BEGIN_STRIDE = 7, 7
assert (ORCHESTRATORS.jobs, ORCHESTRATORS.records, ORCHESTRATORS.rounds) == (145, 352, 337)


def works_of(life):
    """The work of each job, by the history behind its intent."""
    h, works = working.Manager.of(events(life.told)[:2]).history, []
    for operation, all_steps in life.told:
        for step in all_steps:
            event = operation.event(step)
            if event[0] == "intent":
                works.append(working.work(h, event[1]))
            h.follow(*event)
    return works


def bodies_of(life):
    """What the orchestrator is asked with, by the history then."""
    h, bodies = working.Manager.of(events(life.told)[:2]).history, []
    for operation, all_steps in life.told:
        for step in all_steps:
            event = operation.event(step)
            if event[0] == "granted":
                bodies.append(views.written(views.grant_request(operation.number, h)) + "\n")
            h.follow(*event)
    return bodies


GETS_ALL = request("GET", OCCURRENCES)
for title, life in LIVES.items():
    history_then = working.Manager.of([*events(life.told), ("deleted", 1)]).history
    assert not any(map(history_then.instances[0].stands, history_then.instances[0].last))
    run(
        "an instance lives from its creation to its deletion by each operation, asked for by %s" % title,
        *[*BEGUN, *life.plays(), ["status", 0], ["told", GONE], ["file", life.whole()], ["bodies", bodies_of(life)]],
        *[["moment", 4 + 4 * life.records + 2 * life.jobs], ["calls", life.jobs, life.jobs, 0], ["faults", 0, 0, 0, 0]],
        *[["done jobs", *[it for operation in life.operations for it in range(len(operation.changes))]]],
        *[["does", place, it] for place, it in enumerate(works_of(life))],
        *[answers(GETS_ALL, in_pieces(showing(views.occurrences(history_then)))), ["stays"], answers(request("GET", INSTANCE % 1), NO_INSTANCE), ["stays"]],
        *[answers(request("GET", INSTANCES), EMPTY_LIST), ["stays"]],
    )


def stopped(who, choice, first):
    """A whole life that is stopped at each moment, and goes on to its end behind the stops that leave so many records, or so many and a multiple of the stride."""
    life = LIVES[who]
    return [*BEGUN, *life.plays(), ["life", [], []], ["each stop", choice, *life.stops(choice, first, STRIDE)]]


# (each choice has others of the records)
for number, (who, choice) in enumerate([("the orchestrator", "old"), ("the element manager", "new"), ("the orchestrator", "torn")]):
    run("a whole life by %s goes on to its end behind stops, and all that was made is gone: %s" % (who, choice), *stopped(who, choice, number))


def jobs_in(told):
    """The changes that the jobs are for, in their order."""
    return [change for _, change in sorted((step[4], step[1]) for _, all_steps in told for step in all_steps if step[3:4] == ["done"])]


def stopped_before(who, number):
    """A life that is stopped right before its job of this number, from 0, is begun, and goes on to its end: a look tells that there is no job."""
    life = LIVES[who]
    record, place, change = life.intents[number]
    lost = life.lost(place, change)
    stop = [*BEGUN, *life.plays(), ["stop behind", life.at_begin(number)], ["job count", number]]
    return [*stop, *life.goes_on(record), ["file", life.journal_of(lost)], ["done jobs", *jobs_in(lost)]]


def stopped_behind(who, number):
    """The same right behind the begin of the job, which goes on."""
    life = LIVES[who]
    stop = [*BEGUN, *life.plays(), ["stop behind", life.at_begin(number) + 1], ["job count", number + 1]]
    return [*stop, *life.goes_on(life.intents[number][0]), ["file", life.whole()], ["done jobs", *jobs_in(life.told)]]


for who, life in LIVES.items():
    for number in range(0, life.jobs, BEGIN_STRIDE):
        run("a life by %s is stopped right before its job %d is begun, and goes on to its end" % (who, number + 1), *stopped_before(who, number))
        run("a life by %s is stopped right behind the begin of its job %d, and goes on to its end" % (who, number + 1), *stopped_behind(who, number))
