"""The runs of plans.

A history allows that an operation is asked for where nothing refuses it and its changes are its plan. So a plan is a journal that ends with its
Asked, and is opened; one whose changes are others, or that is refused, has a bad record. What stands comes about by the history before it. The plans
are written out by hand, by the rules of docs/MODEL.md.
"""
import json

import cases
from cases import aspect, heal, instantiate, latin, level, operate, port, scale, scale_aspects, scale_to, storage, terminate, u8, u16, u32, vdu
from run_parts import HEADER, batch_front, begin, does, in_record, let, run
from run_texts import worked

begin(__name__)

NO_VDU = cases.NO_VDU
UNBOUNDED = 4_294_967_295
CHANGE_BYTES = 11
NAMED = {}


def called(letter, text):
    """The name of this text, which begins with this letter; it is given one where it has none yet."""
    key = json.dumps(text)
    if key not in NAMED:
        NAMED[key] = let("%s%d" % (letter, len(NAMED) + 1), text)
    return NAMED[key]


# ---- Histories

class Story:
    """A history: the text of its journal up to the closed gate, and how many records, operations and resources it has."""

    def __init__(self, parts, records=0, operations=0, resources=0):
        self.parts, self.records, self.operations, self.resources = parts, records, operations, resources

    def behind(self, *events, resources=0):
        """The history behind which these events stand, by which so many resources were made."""
        parts = [*self.parts, *[called("R", in_record(it)) for it in events]]
        return Story(parts, self.records + len(events), self.operations, self.resources + resources)

    def asked(self, ask, changes, **more):
        """The event of an operation."""
        return cases.asked(self.operations + 1, ask, [cases.change(*it) for it in changes], **more)

    def asks(self, ask, changes, **more):
        """Behind this history an operation is asked for."""
        parts = [*self.parts, *asked_record(self.asked(ask, changes, **more), changes)]
        return Story(parts, self.records + 1, self.operations + 1, self.resources)

    def works(self, changes, made=None, end="COMPLETED", spelled="n%d"):
        """Behind this history the operation that was asked for last was granted, so many of its changes were made, or all, and it ended so."""
        number, count = self.operations, len(changes) if made is None else made
        events = [granted(number, len(changes)), cases.moved(number, "PROCESSING")]
        for place in range(count):
            tag = cases.tag(number, place, 1)
            events += [cases.intent(tag), cases.done(tag, spelled % (self.resources + place + 1))]
        return self.behind(*events, *ended(number, count, len(changes), end), resources=count)

    def through(self, ask, changes, **more):
        """Behind this history an operation was asked for and worked on."""
        return self.asks(ask, changes).works(changes, **more)

    def journal(self, *parts):
        return [called("H", self.parts), *parts, "\0"]


def granted(number, changes, vim="vim1"):
    """A grant of so many changes, all of them at one connection."""
    return cases.granted(number, "g%d" % number, [(vim, "")] if changes else [], [0] * changes)


def ended(number, made, changes, end):
    """How an operation ended of which so many changes were made: one that is given up broke at the next change, or was cancelled behind the last."""
    if end == "COMPLETED":
        return [cases.moved(number, "COMPLETED")]
    tag = cases.tag(number, made, 1)
    stopped = [cases.intent(tag), cases.broken(tag, 9)] if made < changes else [cases.cancel_asked(number, "GRACEFUL")]
    return [*stopped, cases.moved(number, "FAILED_TEMP"), *[cases.moved(number, it) for it in [end] if it != "FAILED_TEMP"]]


def asked_record(event, changes):
    """The record of an operation with these changes."""
    whole = in_record(event)
    return [whole[: len(whole) - CHANGE_BYTES * len(changes)], *[called("C", latin(cases.change(*it))) for it in changes]]


def allows(story, ask, changes, **more):
    """This operation may be asked for behind this history."""
    opened = "%d records, 1 descriptors, 1 instances, 1 live" % (story.records + 1)
    return [["site", story.journal(*asked_record(story.asked(ask, changes, **more), changes))], ["opened", opened]]


def refuses(story, ask, changes, **more):
    """It may not."""
    record = asked_record(story.asked(ask, changes, **more), changes)
    return [["site", story.journal(*record)], ["opened", "bad record %d" % (story.records + 1)]]


def changes_of(phases):
    """The changes of a plan, phase by phase: each phase has its number, its verb and the definitions."""
    return [(phase, verb, *part) for phase, verb, *parts in phases for part in parts]


def others(changes):
    """Changes that are nearly these: without the first or the last, with the last twice or of another serial, with the first in another phase, and
    with the first two in another order."""
    (phase, *first), last = changes[0], changes[-1]
    return [
        *[changes[1:], changes[:-1], [*changes, last], [*changes[:-1], (*last[:-1], last[-1] + 1)], [(phase + 1, *first), *changes[1:]]],
        *([[changes[1], changes[0], *changes[2:]]] if len(changes) > 1 else []),
    ]


def plans(story, ask, *phases):
    """This is the plan of the operation behind this history, and changes that are nearly these aren't."""
    changes = changes_of(phases)
    return [*allows(story, ask, changes), *[act for it in others(changes) for act in refuses(story, ask, it)]]


def counts(story, ask, count, *phases):
    """The same, of a plan of so many changes."""
    assert len(changes_of(phases)) == count
    return plans(story, ask, *phases)


# ---- An edge router: VDU_A with two connection points, which scales one by one, and VDU_B with one

LEVELS = [level("normal", 1), level("small", 0)]
WORKERS = [aspect("workers", 10, 1, (0, [1]))]


def router(maximum=11, aspects=WORKERS, levels=LEVELS, links=("net_data", "net_mgmt"), default=0):
    """The event of the router, of which there may be so many of VDU_A."""
    machines = [vdu("VDU_A", [0], 2_147_483_648, 2, maximum), vdu("VDU_B", [1], 512_000_000, 1, UNBOUNDED)]
    disks = [storage("STO_A", 10_000_000_000), storage("STO_B", 1_000_000_000)]
    ports = [port("CP_A_data", 0, 0), port("CP_A_mgmt", 0, len(links) - 1), port("CP_B_mgmt", 1, len(links) - 1)]
    names = ("Example", "Edge Router", "1.0", "1.0")
    return cases.onboarded(cases.descriptor("vnfd-1", machines, disks, links, ports, aspects, levels, default, names))


def of(descriptor):
    """The history in which an instance of this descriptor was created."""
    return Story([HEADER]).behind(descriptor, cases.created(1, "vnfd-1"))


def storage_of(serial, vdu=0):
    return "STORAGE", vdu, vdu, serial


def compute_of(serial, vdu=0):
    return "COMPUTE", 0, vdu, serial


def ports_of(serial, vdu=0):
    return [("PORT", it, vdu, serial) for it in ((0, 1), (2,))[vdu]]


def storages(*serials):
    return [storage_of(it) for it in serials]


def computes(*serials):
    return [compute_of(it) for it in serials]


def ports(*serials):
    return [part for it in serials for part in ports_of(it)]


LINKS = [("LINK", 0, NO_VDU, 0), ("LINK", 1, NO_VDU, 0)]
DISK_B, MACHINE_B, PORT_B = storage_of(1, 1), compute_of(1, 1), ports_of(1, 1)[0]


def making(*serials, b=()):
    """The phases that make these machines of VDU_A, and those of VDU_B."""
    return (
        (1, "create", *storages(*serials), *[storage_of(it, 1) for it in b]),
        (2, "create", *computes(*serials), *[compute_of(it, 1) for it in b]),
        (3, "create", *ports(*serials), *[part for it in b for part in ports_of(it, 1)]),
    )


def removing(*serials, b=()):
    """The phases that remove them."""
    return (
        (5, "remove", *ports(*serials), *[part for it in b for part in ports_of(it, 1)]),
        (6, "remove", *computes(*serials), *[compute_of(it, 1) for it in b]),
        (7, "remove", *storages(*serials), *[storage_of(it, 1) for it in b]),
    )


INSTANTIATED = (
    (0, "create", ("LINK", 0, NO_VDU, 0), ("LINK", 1, NO_VDU, 0)),
    (1, "create", ("STORAGE", 0, 0, 1), ("STORAGE", 0, 0, 2), ("STORAGE", 1, 1, 1)),
    (2, "create", ("COMPUTE", 0, 0, 1), ("COMPUTE", 0, 0, 2), ("COMPUTE", 0, 1, 1)),
    (3, "create", ("PORT", 0, 0, 1), ("PORT", 1, 0, 1), ("PORT", 0, 0, 2), ("PORT", 1, 0, 2), ("PORT", 2, 1, 1)),
)
TERMINATED = (
    (5, "remove", ("PORT", 0, 0, 1), ("PORT", 1, 0, 1), ("PORT", 0, 0, 2), ("PORT", 1, 0, 2), ("PORT", 2, 1, 1)),
    (6, "remove", ("COMPUTE", 0, 0, 1), ("COMPUTE", 0, 0, 2), ("COMPUTE", 0, 1, 1)),
    (7, "remove", ("STORAGE", 0, 0, 1), ("STORAGE", 0, 0, 2), ("STORAGE", 1, 1, 1)),
    (8, "remove", ("LINK", 0, NO_VDU, 0), ("LINK", 1, NO_VDU, 0)),
)
STOPPING = (4, "stop", ("COMPUTE", 0, 0, 1), ("COMPUTE", 0, 0, 2), ("COMPUTE", 0, 1, 1))
STARTING = (4, "start", ("COMPUTE", 0, 0, 1), ("COMPUTE", 0, 0, 2), ("COMPUTE", 0, 1, 1))
THIRTEEN, THREE_STOPS, THREE_STARTS = changes_of(INSTANTIATED), changes_of([STOPPING]), changes_of([STARTING])

OUT = lambda steps: scale("out", "workers", steps)
IN = lambda steps: scale("in", "workers", steps)
ONE_MORE, ONE_LESS = changes_of(making(3)), changes_of(removing(2))

FRESH = of(router())
# Two of VDU_A and one of VDU_B stand.
TWO = FRESH.through(instantiate(), THIRTEEN)
# A third of VDU_A stood once.
THIRD_GONE = TWO.through(OUT(1), ONE_MORE).through(IN(1), changes_of(removing(3)))
# The third of VDU_A has nothing but its disk.
PARTIAL = TWO.through(OUT(1), ONE_MORE, made=1, end="FAILED")
STOPPED = TWO.through(operate(False), THREE_STOPS)
TERMINATED_TWO = TWO.through(terminate("FORCEFUL"), changes_of(TERMINATED))

run(
    "instantiating makes links disks machines and ports in this order",
    *plans(FRESH, instantiate(), *INSTANTIATED),
    *[act for it in range(1, 12) for act in refuses(FRESH, instantiate(), THIRTEEN[:it] + THIRTEEN[it + 1 :])],
    *[act for it in range(1, 12) for act in refuses(FRESH, instantiate(), [*THIRTEEN[:it], THIRTEEN[it + 1], THIRTEEN[it], *THIRTEEN[it + 2 :]])],
    *refuses(FRESH, instantiate(), []),
    *counts(FRESH, instantiate("small"), 9, (0, "create", *LINKS), *making(1, b=[1])),
    *refuses(FRESH, instantiate("small"), THIRTEEN),
)
run(
    "scaling makes the next serial and removes the greatest",
    *plans(TWO, OUT(1), *making(3)),
    *plans(THIRD_GONE, OUT(1), *making(4)),
    *counts(THIRD_GONE, OUT(9), 36, *making(*range(4, 13))),
    *plans(THIRD_GONE, IN(1), *removing(2)),
    *plans(THIRD_GONE, scale_to("small"), *removing(2)),
    *plans(THIRD_GONE, scale_aspects(("workers", 0)), *removing(2)),
    *plans(THIRD_GONE, scale_aspects(("workers", 3)), *making(4, 5)),
    *plans(TWO.through(OUT(1), ONE_MORE), IN(2), *removing(2, 3)),
)
run(
    "healing makes anew what is named and all where none is",
    *plans(TWO, heal((0, 1)), *making(3), *removing(1)),
    *plans(TWO, heal((0, 1), (1, 1)), *making(3, b=[2]), *removing(1, b=[1])),
    *plans(TWO, heal((1, 1), cause="a machine is lost"), *making(b=[2]), *removing(b=[1])),
    *counts(TWO, heal(), 22, *making(3, 4, b=[2]), *removing(1, 2, b=[1])),
)
run(
    "a partial machine is removed also where another is named",
    *plans(PARTIAL, heal((0, 3)), (7, "remove", ("STORAGE", 0, 0, 3))),
    *counts(
        *[PARTIAL, heal((1, 1)), 7, *making(b=[2]), (5, "remove", PORT_B), (6, "remove", MACHINE_B)],
        (7, "remove", ("STORAGE", 0, 0, 3), DISK_B),
    ),
)
run(
    "terminating stops first where it is graceful",
    *counts(TWO, terminate("GRACEFUL", 30), 16, STOPPING, *TERMINATED),
    *counts(TWO, terminate("FORCEFUL"), 13, *TERMINATED),
    *counts(STOPPED, terminate("GRACEFUL"), 13, *TERMINATED),
    *counts(PARTIAL, terminate("FORCEFUL"), 14, *TERMINATED[:2], (7, "remove", *storages(1, 2, 3), DISK_B), (8, "remove", *LINKS)),
)
run(
    "stopping stops what runs and starting starts it, and a heal starts what stays",
    *plans(TWO, operate(False, "FORCEFUL"), STOPPING),
    *plans(STOPPED, operate(True), STARTING),
    *plans(STOPPED, heal((0, 1)), *making(3), (4, "start", ("COMPUTE", 0, 0, 2), MACHINE_B), *removing(1)),
)
run(
    "serials go on behind a termination",
    *counts(TERMINATED_TWO, instantiate(), 13, (0, "create", *LINKS), *making(3, 4, b=[2])),
    *refuses(TERMINATED_TWO, instantiate(), THIRTEEN),
)

# An instantiation that was given up with so many of its changes made: what stands isn't whole, and a heal makes the rest.
GIVEN_UP = [FRESH.through(instantiate(), THIRTEEN, made=it, end="FAILED") for it in range(13)]
OUT_OF_STEP = "an instance is out of step where something is missing or too much, or doesn't run as it is meant to: "
run(OUT_OF_STEP + "it lacks a resource", *[act for it in GIVEN_UP for act in [*refuses(it, OUT(1), ONE_MORE), *refuses(it, OUT(1), [])]])
ALL_THREE = TWO.through(OUT(1), ONE_MORE, end="FAILED")
ALL_BUT_TWO = TWO.through(IN(1), ONE_LESS, end="FAILED")
SOME_STOPPED = [TWO.through(operate(False), THREE_STOPS, made=it, end="FAILED") for it in range(4)]
SOME_STARTED = [STOPPED.through(operate(True), THREE_STARTS, made=it, end="FAILED") for it in range(4)]
run(
    OUT_OF_STEP + "its levels are others",
    *refuses(ALL_THREE, OUT(1), changes_of(making(4))),
    *refuses(ALL_THREE, IN(1), changes_of(removing(3))),
    *refuses(ALL_THREE, scale_to("small"), changes_of(removing(2, 3))),
    *refuses(ALL_BUT_TWO, OUT(1), ONE_MORE),
    *refuses(PARTIAL, OUT(1), changes_of(making(4))),
    *refuses(PARTIAL, operate(False), THREE_STOPS),
)
run(
    OUT_OF_STEP + "some of its machines are stopped, or all, or some are started",
    *[act for it in (1, 2, 3) for act in refuses(SOME_STOPPED[it], OUT(1), ONE_MORE)],
    *[act for it in (1, 2, 3) for act in refuses(SOME_STOPPED[it], operate(False), THREE_STOPS[it:])],
    *[act for it in (1, 2, 3) for act in refuses(SOME_STARTED[it], operate(True), THREE_STARTS[it:])],
    *plans(SOME_STOPPED[0], OUT(1), *making(3)),
    *plans(SOME_STARTED[0], operate(True), STARTING),
)
run(
    "healing goes on where an instance is out of step",
    *plans(GIVEN_UP[0], heal(), *INSTANTIATED[:1], *making(3, 4, b=[2])),
    *plans(GIVEN_UP[1], heal(), (0, "create", ("LINK", 1, NO_VDU, 0)), *making(3, 4, b=[2])),
    *plans(GIVEN_UP[4], heal(), *making(3, 4, b=[2]), (7, "remove", *storages(1, 2))),
    *plans(
        *[GIVEN_UP[12], heal((1, 1)), *making(b=[2]), (6, "remove", MACHINE_B), (7, "remove", DISK_B)],
    ),
    *plans(ALL_THREE, heal((0, 1)), *removing(1)),
    *plans(ALL_BUT_TWO, heal((0, 1)), *making(3, 4), *removing(1)),
    *plans(SOME_STOPPED[2], heal((1, 1)), *making(b=[2]), (4, "start", *computes(1, 2)), *removing(b=[1])),
)


# ---- Refusals

def either(story, ask, *phases):
    """The operation is refused behind this history, with changes that it could have and with none."""
    return [act for it in ([changes_of(phases), []] if phases else [[]]) for act in refuses(story, ask, it)]


run(
    "a heal names the first machine that is unknown",
    *[*either(TWO, heal((0, 1), (0, 9)), *making(3), *removing(1)), *either(TWO, heal((NO_VDU, 0))), *either(TWO, heal((0, 3)))],
    *either(THIRD_GONE, heal((0, 3)), *making(4)),
)
run(
    "what is so already is nothing to do",
    *[*either(TWO, scale_to("normal")), *either(TWO, scale_aspects(("workers", 1))), *either(TWO, operate(True), STARTING)],
    *either(STOPPED, operate(False), STOPPING),
)
NARROW = of(router(1))
ONE = NARROW.through(instantiate("small"), changes_of([(0, "create", *LINKS), *making(1, b=[1])]))
run(
    "a VDU above its maximum is refused",
    *[*either(NARROW, instantiate(), *INSTANTIATED), *plans(NARROW, instantiate("small"), (0, "create", *LINKS), *making(1, b=[1]))],
    *[*either(ONE, OUT(1), *making(2)), *either(ONE, scale_to("normal"), *making(2)), *plans(ONE, heal((0, 1)), *making(2), *removing(1))],
)
run(
    "steps lead to a level or are refused",
    *[*either(TWO, IN(2), *removing(1, 2)), *plans(TWO, IN(1), *removing(2)), *either(TWO, OUT(10), *making(*range(3, 13)))],
    *counts(TWO, OUT(9), 36, *making(*range(3, 12))),
    *[*either(TWO, OUT(0)), *either(TWO, scale("out", "drivers", 1), *making(3)), *either(TWO, scale_to("far"), *removing(2))],
    *[*either(TWO, scale_aspects(("drivers", 0)), *removing(2)), *either(TWO, scale_aspects(("workers", 0), ("workers", 0)), *removing(2))],
    *either(TWO, scale_aspects(("workers", 11)), *making(*range(3, 13))),
    *[*either(FRESH, instantiate("far"), *INSTANTIATED), *either(FRESH, instantiate(flavour="other"), *INSTANTIATED)],
)
BUSY = TWO.asks(OUT(1), ONE_MORE)
run(
    "an operation is refused by the state of its instance",
    *[*either(FRESH, OUT(1), *making(1)), *either(FRESH, heal(), *INSTANTIATED), *either(FRESH, operate(False)), *either(FRESH, terminate())],
    *[*either(TWO, instantiate(), *making(3, 4, b=[2])), *either(TERMINATED_TWO, terminate()), *either(STOPPED, OUT(1), *making(3))],
    *[*either(STOPPED, scale_to("small"), *removing(2)), *either(BUSY, OUT(1), *making(4)), *either(BUSY, heal((0, 1)), *making(4), *removing(1))],
    *[*either(BUSY, terminate(), *TERMINATED), *either(BUSY, operate(False), STOPPING)],
    *[*refuses(TWO, OUT(1), ONE_MORE, instance=2), *refuses(BUSY.works(ONE_MORE, made=0, end="FAILED_TEMP"), terminate(), changes_of(TERMINATED))],
)

# ---- Many resources

WIDE_WORKERS = [aspect("workers", 1_000, 1, (0, [1]))]
# With two links thirteen resources stand, with one link twelve.
WIDE = of(router(UNBOUNDED, WIDE_WORKERS)).through(instantiate(), THIRTEEN)
WIDE_TWELVE = of(router(UNBOUNDED, WIDE_WORKERS, links=["net"]))
WIDE_TWELVE = WIDE_TWELVE.through(instantiate(), [it for it in THIRTEEN if it[1:4] != ("create", "LINK", 1)])


def many(story, ask, first, count):
    """The record of an operation that makes so many machines of VDU_A, with serials from this one on."""
    serials = lambda *fronts: {"from": first, "to": first + count, "of": [part for it in fronts for part in (latin(it), {"bytes": 4})]}
    spelled = lambda phase, *part: cases.change(phase, "create", *part, 0, 0)[:-4]
    parts = [serials(spelled(1, "STORAGE", 0)), serials(spelled(2, "COMPUTE", 0)), serials(spelled(3, "PORT", 0), spelled(3, "PORT", 1))]
    event = story.asked(ask, [])
    return [latin(batch_front(len(event) + 4 * count * CHANGE_BYTES) + event[:-2] + u16(4 * count)), *parts]


def scaled(story, steps, opened):
    return [["site", story.journal(*many(story, OUT(steps), 3, steps))], ["opened", opened]]


run(
    "exactly 2,500 resources are not too many",
    *scaled(WIDE_TWELVE, 622, "%d records, 1 descriptors, 1 instances, 1 live" % (WIDE_TWELVE.records + 1)),
    *scaled(WIDE_TWELVE, 623, "bad record %d" % (WIDE_TWELVE.records + 1)),
    *scaled(WIDE, 621, "%d records, 1 descriptors, 1 instances, 1 live" % (WIDE.records + 1)),
    *scaled(WIDE, 622, "bad record %d" % (WIDE.records + 1)),
)
LARGER = of(router(levels=[level("large", 10), level("normal", 1)], default=1))
UNSCALED = of(router(aspects=[], levels=[level("only")]))
ONE_OF_EACH = (0, "create", *LINKS), *making(1, b=[1])
run(
    "a larger level makes 49 resources, and without scaling there is one machine of each",
    *counts(LARGER, instantiate("large"), 49, (0, "create", *LINKS), *making(*range(1, 12), b=[1])),
    *plans(LARGER, instantiate(), *INSTANTIATED),
    *counts(UNSCALED, instantiate(), 9, *ONE_OF_EACH),
    *either(UNSCALED.through(instantiate(), changes_of(ONE_OF_EACH)), OUT(1), *making(2)),
)

# ---- Levels of a descriptor: one VDU of at first one machine, and one aspect whose three steps add 1, 2 and 4

GROWING_EVENT = cases.onboarded(
    cases.descriptor("vnfd-1", [vdu("VDU", memory=1, maximum=65_535)], aspects=[aspect("size", 3, 3, (0, [1, 2, 4]))], levels=[level("large", 3)])
)
GROWING, GROWING_MADE = let("GROWING", latin(GROWING_EVENT)), of(GROWING_EVENT)
EIGHT = changes_of([(2, "create", *computes(*range(1, 9)))])
GROWN = GROWING_MADE.through(instantiate("large"), EIGHT)
SHRUNK = GROWN.through(scale("in", "size", 3), changes_of([(6, "remove", *computes(*range(2, 9)))]))
run(
    "each step adds its own delta",
    *plans(GROWING_MADE, instantiate("large"), (2, "create", *computes(*range(1, 9)))),
    *plans(GROWN, scale("in", "size", 1), (6, "remove", *computes(*range(5, 9)))),
    *plans(GROWN, scale("in", "size", 2), (6, "remove", *computes(*range(3, 9)))),
    *plans(GROWN, scale("in", "size", 3), (6, "remove", *computes(*range(2, 9)))),
    *plans(SHRUNK, scale("out", "size", 1), (2, "create", *computes(9))),
    *plans(SHRUNK, scale("out", "size", 2), (2, "create", *computes(9, 10, 11))),
    *plans(SHRUNK, scale("out", "size", 3), (2, "create", *computes(*range(9, 16)))),
)
run("levels have names", ["named", GROWING, "large", "[3]"], ["named", GROWING, "huge", "no such instantiation level"])


def aims(level, ask, text):
    return ["aims", GROWING, [level], latin(cases.asked(1, ask)), text]


run(
    "operations aim at levels, and steps have bounds",
    *[aims(1, instantiate("large"), "[3]"), aims(1, scale("out", "size", 2), "[3]"), aims(1, scale("in", "size", 1), "[0]")],
    *[aims(1, scale_to("large"), "[3]"), aims(1, terminate(), "[1]"), aims(1, scale("out", "size", 3), "scale level above 3")],
    *[aims(1, scale("in", "size", 2), "scale level below zero"), aims(2, scale("out", "size", 1), "[3]"), aims(2, scale("in", "size", 2), "[0]")],
    *[aims(2, scale("out", "size", 2), "scale level above 3"), aims(2, scale("in", "size", 3), "scale level below zero")],
    *[aims(2, scale("in", "other", 0), "no such aspect"), aims(2, heal(), "[2]"), aims(2, operate(False), "[2]")],
    aims(0, scale_aspects(("size", 2)), "[2]"),
)

# ---- Work: what the jobs of an operation do, of which each turn records an event

def attempted(number, changes, way, attempt, count):
    """The events of attempts at the first so many changes, in the order in which the manager makes them, where each job is done at the first look."""
    events = []
    for _, place, _, at, *job in worked(way, {it: attempt for it in range(count)}, 1, phases=[it[0] for it in changes]):
        tag = cases.tag(number, place, attempt, way)
        events.append(cases.done(tag, "r%d" % job[0]) if job else cases.intent(tag))
    return events


def plays(story, ask, changes, *acts):
    """Turns over an operation that is asked for behind this history lead to its end, and its jobs do this."""
    number, begun = story.operations + 1, story.asks(ask, changes)
    events = [cases.moved(number, "PROCESSING"), *attempted(number, changes, "forward", 1, len(changes)), cases.moved(number, "COMPLETED")]
    events = [granted_first(number, len(changes)), *map(in_record, events)]
    turns = [["times", 2 * len(changes) + 3, ["turn", 1, 0, 0]], ["turn", 0, 0, 0]]
    return [["site", begun.journal()], *turns, *acts, ["file", begun.journal(*events)]]


def granted_first(number, changes):
    """The record of the first grant of an orchestrator that grants all."""
    return in_record(cases.granted(number, "g1", [("vim1", "")] if changes else [], [0] * changes))


run(
    "the jobs of a scaling out make a machine on its disk and the networks that stand",
    *plays(
        *[TWO, OUT(1), ONE_MORE, does(0, "create", "storage", "STO_A", "VDU_A", 3), does(1, "create", "compute", "VDU_A", "VDU_A", 3, "r1")],
        does(2, "create", "port", "CP_A_data", "VDU_A", 3, "r2", "n1"),
        does(3, "create", "port", "CP_A_mgmt", "VDU_A", 3, "r2", "n2"),
    ),
)
run(
    "the jobs of a scaling in remove the greatest machine",
    *plays(
        *[TWO, IN(1), ONE_LESS, does(0, "remove", "port", "CP_A_data", "VDU_A", 2, "n11")],
        *[does(1, "remove", "port", "CP_A_mgmt", "VDU_A", 2, "n12"), does(2, "remove", "compute", "VDU_A", "VDU_A", 2, "n7")],
        does(3, "remove", "storage", "STO_A", "VDU_A", 2, "n4"),
    ),
)
run(
    "the jobs of a termination stop and remove what stands",
    *plays(
        *[TWO, terminate("GRACEFUL"), changes_of([STOPPING, *TERMINATED])],
        *[does(0, "stop", "compute", "VDU_A", "VDU_A", 1, "n6"), does(2, "stop", "compute", "VDU_B", "VDU_B", 1, "n8")],
        *[does(7, "remove", "port", "CP_B_mgmt", "VDU_B", 1, "n13"), does(10, "remove", "compute", "VDU_B", "VDU_B", 1, "n8")],
        *[does(13, "remove", "storage", "STO_B", "VDU_B", 1, "n5"), does(14, "remove", "link", "net_data", "", 0, "n1")],
        does(15, "remove", "link", "net_mgmt", "", 0, "n2"),
    ),
)
run(
    "the jobs of a start start what is stopped",
    *plays(
        *[STOPPED, operate(True), THREE_STARTS, does(0, "start", "compute", "VDU_A", "VDU_A", 1, "n6")],
        *[does(1, "start", "compute", "VDU_A", "VDU_A", 2, "n7"), does(2, "start", "compute", "VDU_B", "VDU_B", 1, "n8")],
    ),
)


def undone(story, ask, changes, made, *acts):
    """An operation is asked for, so many of its changes are made, the begin for the next is refused, and it is rolled back: its jobs do this."""
    number, begun = story.operations + 1, story.asks(ask, changes)
    stopped = [granted(number, len(changes)), cases.moved(number, "PROCESSING")]
    for place in range(made):
        tag = cases.tag(number, place, 1)
        stopped += [cases.intent(tag), cases.done(tag, "m%d" % place)]
    stopped = begun.behind(*stopped, *ended(number, made, len(changes), "ROLLING_BACK"))
    events = map(in_record, [*attempted(number, changes, "undo", 2, made), cases.moved(number, "ROLLED_BACK")])
    turns = [["times", 2 * made + 1, ["turn", 1, 0, 0]], ["turn", 0, 0, 0]]
    return [["site", stopped.journal()], *turns, *acts, ["file", stopped.journal(*events)]]


run(
    "what was removed is made again by an undo, on what stands, and what was made is removed",
    *undone(
        *[TWO, heal((0, 1)), changes_of([*making(3), *removing(1)]), 7, does(0, "create", "compute", "VDU_A", "VDU_A", 1, "n3")],
        *[does(1, "create", "port", "CP_A_mgmt", "VDU_A", 1, "r1", "n2"), does(2, "create", "port", "CP_A_data", "VDU_A", 1, "r1", "n1")],
        *[does(3, "remove", "port", "CP_A_mgmt", "VDU_A", 3, "m3"), does(4, "remove", "port", "CP_A_data", "VDU_A", 3, "m2")],
        *[does(5, "remove", "compute", "VDU_A", "VDU_A", 3, "m1"), does(6, "remove", "storage", "STO_A", "VDU_A", 3, "m0")],
    ),
)
run(
    "what was stopped is started by an undo, and what was started is stopped",
    *undone(
        *[TWO, operate(False), THREE_STOPS, 2, does(0, "start", "compute", "VDU_A", "VDU_A", 2, "n7")],
        does(1, "start", "compute", "VDU_A", "VDU_A", 1, "n6"),
    ),
    *undone(STOPPED, operate(True), THREE_STARTS, 1, does(0, "stop", "compute", "VDU_A", "VDU_A", 1, "n6")),
)
