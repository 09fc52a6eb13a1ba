"""The runs in which four attempts of an operation are open at once: the order in which changes are begun and looked at, an operation of 49 changes, its
rollback, cancels and trouble meanwhile; each stopped at each moment, and each begin, look and abort failing in turn."""
import itertools

from run_texts import *
from runs_cancels import CANCELLED_FACE
from runs_commands import INIT, ONBOARD
from runs_forward import SECOND, SITE, TROUBLES, acts_of, attempted, blind_site, rounds_to_trouble, troubled_in
from runs_instantiations import LARGE, router, router_site

begin(__name__)

# ---- The order of what is begun and looked at

FIRST_FOUR = [forward(0, 1, "intent"), forward(1, 1, "intent"), forward(0, 1, "done", 1), forward(1, 1, "done", 2)]
run(
    "both links are begun before the first is looked at, and each is looked at in its order",
    *[SITE, asks(6), steps("asked", "granted", "PROCESSING", *FIRST_FOUR), ["job count", 2]],
    *[["calls on jobs", "begin 1 0 1 forward: taken\nbegin 1 1 1 forward: taken\nlook 1 0 1 forward: done 1\nlook 1 1 1 forward: done 2\n"]],
    *[rounds(1), steps("asked", "granted", "PROCESSING", *FIRST_FOUR, forward(2, 1, "intent"))],
)
PORTS = [forward(it, 1, "intent") for it in (8, 9, 10, 11)] + [forward(8, 1, "done", 9), forward(12, 1, "intent")]
run(
    "four of the five ports are begun before the first is looked at, and the fifth right behind that",
    *[SITE, asks(24), steps(*made(8), *PORTS), ["job count", 13], ["calls", 13, 9, 0]],
    *[["stands", it, "1 %d 1 forward, running" % it] for it in range(9, 13)],
)


def calls_of(all_steps):
    """The calls on jobs of these steps, each of which is taken or found done."""
    told = {"intent": "begin 1 %d %d %s: taken\n", "done": "look 1 %d %d %s: done %d\n"}
    return "".join(told[it[3]] % (it[1], it[2], it[0], *it[4:]) for it in all_steps if isinstance(it, list))


run(
    "the calls on jobs of a whole instantiation and of its rollback are those of its changes, in the order of their records",
    *[SITE, asks(28), task(1, CANCEL), task(27, ROLLBACK), steps(*made(13), "graceful", "FAILED_TEMP", *WHOLE_BACK)],
    ["calls on jobs", shared("ALL_CALLS", calls_of([*made(13), *WHOLE_BACK]))],
)
run(
    "each of two operations has four attempts open",
    *[SITE, asks(1), rounds(1, SECOND), *turns([(2, 0, 0)] * 19), ["job count", 21], *turns([(2, 0, 0)]), ["job count", 23]],
    *[*turns([(2, 0, 0)] * 7 + [(1, 0, 0), NOTHING]), ["job count", 26]],
)

# ---- An operation of 49 changes

# Its phases, where there are eleven of VDU_A: links; of each a storage, the machine and two ports, and of VDU_B a storage, the machine and a port.
LARGE_PHASES = [0] * 2 + [1] * 12 + [2] * 12 + [3] * 23
COUNT = len(LARGE_PHASES)
LARGE_ROUTER = let("LARGE_ROUTER", router(large=(10, 11)))
LARGE_ASK = let("LARGE_ASK", request("POST", INSTANCE % 1 + "/instantiate", LARGE))
LARGE_SITE = [*router_site(LARGE_ROUTER), rounds(2, LARGE_ASK, ACCEPTED)]
run("the edge router is to be instantiated with eleven machines of a kind", *LARGE_SITE, ["keep", "LARGE"], ["job count", 0])
LARGE_BEGUN = [["room", 2 * COUNT], ["site", "$LARGE"]]


def through(first, last, way="forward", attempt=1, job=None):
    """A phase of more than four changes: four are begun, and behind the end of each the one that is four ahead."""
    job = first + 1 if job is None else job
    begun, done = intents(first, last, attempt, way), ends(first, last, job, attempt, way)
    return [*begun[:4], *[it for pair in zip(done, begun[4:]) for it in pair], *done[len(begun) - 4 :]]


LARGE_WHOLE = [*FIRST_FOUR, *through(2, 14), *through(14, 26), *through(26, 49), "COMPLETED"]
LARGE_BACK = [
    *["ROLLING_BACK", *through(26, 49, "undo", 2, 50), *through(14, 26, "undo", 2, 73), *through(2, 14, "undo", 2, 85)],
    *[*intents_back(0, 2), *ends_back(0, 2, 97), "ROLLED_BACK"],
]
LARGE_ONCE, LARGE_TWICE = (dict.fromkeys(range(COUNT), it) for it in (1, 2))


def large_worked(way, attempts, job, lost=None):
    return worked(way, attempts, job, lost, LARGE_PHASES)


assert LARGE_WHOLE == [*large_worked("forward", LARGE_ONCE, 1), "COMPLETED"]
assert LARGE_BACK == ["ROLLING_BACK", *large_worked("undo", LARGE_TWICE, 50), "ROLLED_BACK"]
LARGE_STOPPED = [*LARGE_WHOLE[:-1], "graceful", "FAILED_TEMP"]
AHEAD = 2 * COUNT + 1
run(
    "49 changes are made with four attempts open at most, one act a turn",
    *[*LARGE_BEGUN, *turns([ACTED] * AHEAD + [NOTHING] * 2), steps(*LARGE_WHOLE), ["jobs", COUNT, COUNT], ["calls", COUNT, COUNT, 0]],
    *[["faults", 0, 0, 0, 0], ["keep", "LARGE_DONE"]],
)
for count in 8, 9, 10, 30, 31, 60, AHEAD - 1:
    some = LARGE_WHOLE[:count]
    begun = attempted(some, "intent")
    run(
        "49 changes: what is recorded and begun behind %d rounds" % count,
        *[*LARGE_BEGUN, rounds(count), steps(*some), ["job count", len(begun)]],
    )
LARGE_CANCELLED = [*LARGE_BEGUN, rounds(AHEAD - 1), task(1, CANCEL), steps(*LARGE_STOPPED)]
run(
    "49 changes are undone with four attempts open at most",
    *[*LARGE_CANCELLED, task(AHEAD, ROLLBACK), steps(*LARGE_STOPPED, *LARGE_BACK), ["jobs", 2 * COUNT, 0], ["calls", 2 * COUNT, 2 * COUNT, 0]],
    *[idle, rounds(1, DELETE, GONE)],
)
ONE_LOST = [[*large_worked("forward", LARGE_ONCE, 1, it), "COMPLETED"] for it in range(COUNT)]
GOES_ON = [["left"], rounds(AHEAD + 2), ["status", 0], ["again"], ["jobs", COUNT, COUNT]]
run(
    "an operation of 49 changes goes on behind a stop at each moment",
    *[*LARGE_BEGUN, rounds(AHEAD), life([], LARGE_WHOLE, *ONE_LOST)],
    *[act for choice, lost in (("old", COUNT), ("new", 2 * COUNT), ("torn", COUNT)) for act in (["each stop", choice, *GOES_ON], ["lost", lost])],
)
ONE_LOST_BACK = [["ROLLING_BACK", *large_worked("undo", LARGE_TWICE, 50, it), "ROLLED_BACK"] for it in reversed(range(COUNT))]
GOES_BACK = [["left"], rounds(AHEAD + 2, ROLLBACK), ["status", 0], ["again"], ["jobs", 2 * COUNT, 0]]
run(
    "a rollback of 49 changes goes on behind a stop at each moment",
    *[*LARGE_CANCELLED, ["renew"], task(AHEAD, ROLLBACK), life(LARGE_STOPPED, LARGE_BACK, *ONE_LOST_BACK)],
    *[act for choice, lost in (("old", COUNT), ("new", 2 * COUNT), ("torn", COUNT)) for act in (["each stop", choice, *GOES_BACK], ["lost", lost])],
)
run(
    "each disk call of an operation of 49 changes that fails is made up for by the next life",
    *[*LARGE_BEGUN, rounds(AHEAD), life([], LARGE_WHOLE, *ONE_LOST)],
    ["each fault", *LARGE_BEGUN, rounds(AHEAD), ["fallen"], *GOES_ON, ["faults", 1, 0, 0, 0]],
)


def blind_large(call):
    """The site of the operation from its onboarding on, of which this look fails."""
    return [["blind", call], ["site", ""], INIT, ["door", LARGE_ROUTER], ONBOARD, once(CREATE, CREATED[1]), rounds(2, LARGE_ASK, ACCEPTED)]


for look in range(1, COUNT + 1):
    run(
        "look %d at an operation of 49 changes, which fails, is made again" % look,
        *[["room", 2 * COUNT], *blind_large(look), rounds(AHEAD + 1), ["file", "$LARGE_DONE"], ["faults", 0, 1, 1, 0]],
    )
for (title, job, ends_, is_begun, _, jobs, (failed, refusals)), n in itertools.product(TROUBLES, (0, 5, 30, 48)):
    came = troubled_in(LARGE_WHOLE, ["forward", n, 1], ends_, is_begun, jobs)
    done, tried = ([it[1] for it in attempted(came, at)] for at in ("done", "intent"))
    left = {it: 2 if it in tried else 1 for it in range(COUNT) if it not in done}
    again = [*came, "PROCESSING", *large_worked("forward", left, len(done) + jobs + 1), "COMPLETED"]
    run(
        "of 49 changes the work stops at change %d, where %s, and a retry attempts only what is not made" % (n, title),
        *[["room", 2 * COUNT], work(n, job), ["site", "$LARGE"], rounds(len(came) - len(ends_) + is_begun), steps(*came)],
        *[["faults", 0, failed, 0, refusals], ["jobs", len(done) + jobs, len(done)], task(2 * len(left) + 1, RETRY), steps(*again)],
        ["jobs", COUNT + jobs, COUNT],
    )

# ---- Cancels with four attempts open: those of four of the five ports

FOUR_OPEN = [*made(8), *intents(8, 12)]
FOUR = acts_of(FOUR_OPEN)


def four_ports(ended, mode):
    """The cancel is in force, and each of the four open attempts ends so in turn: then the work stops, and the fifth isn't begun."""
    return [mode, *[forward(it, 1, *end) for it, end in zip(range(8, 12), ended)], "FAILED_TEMP"]


ALL_DONE, ALL_ABORTED = [["done", it] for it in range(9, 13)], [["aborted"]] * 4
# What comes of the begins of the four, the cancel, its rounds up to FAILED_TEMP, how the four end, the begins, looks and aborts, and the cause. Where each
# look finds its attempt ended, there are 4, 3, 2 and 1 aborts before the looks.
FOUR_CANCELS = [
    ([], CANCEL, 5, ALL_DONE, (12, 12, 0), CANCELLED_FACE),
    ([SLOW] * 4, CANCEL, 9, ALL_DONE, (12, 16, 0), CANCELLED_FACE),
    ([TAKEN, BREAKING, SLOW, TAKEN], CANCEL, 6, [["done", 9], ["broken", 7], ["done", 11], ["done", 12]], (12, 13, 0), "change 9: broken 7"),
    ([], ABORT, 5, ALL_ABORTED, (12, 12, 10), "change 11: aborted"),
    ([SLOWER] * 4, ABORT, 5, ALL_ABORTED, (12, 12, 10), "change 11: aborted"),
    # (the first can't be aborted: at each of its looks all are asked again)
    ([SLOW_AND_FIRM, SLOW, TAKEN, SLOW], ABORT, 7, [["done", 9], *[["aborted"]] * 3], (12, 14, 18), "change 11: aborted"),
    ([TAKEN, FIRM, SLOW, FIRM], ABORT, 5, [["aborted"], ["done", 10], ["aborted"], ["done", 12]], (12, 12, 10), "change 10: aborted"),
    ([FIRM] * 4, ABORT, 5, ALL_DONE, (12, 12, 10), CANCELLED_FACE),
    ([SLOW, BREAKING_AND_FIRM, FIRM, SLOW], ABORT, 5, [["aborted"], ["broken", 7], ["done", 11], ["aborted"]], (12, 12, 10), "change 11: aborted"),
]
for number, (plans, text, count, ended, calls, cause) in enumerate(FOUR_CANCELS, 1):
    mode = "graceful" if text == CANCEL else "forceful"
    before, came = [*FOUR_OPEN], four_ports(ended, mode)
    stopped = [*before, *came]
    done = 8 + sum(it[0] == "done" for it in ended)
    left = {it: 2 for it, end in zip(range(8, 12), ended) if end[0] != "done"} | {12: 1}
    again = [*stopped, "PROCESSING", *worked("forward", left, 13), "COMPLETED"]
    run(
        "a cancel while four changes are made, %d" % number,
        *[work(8, *plans), SITE, asks(FOUR), steps(*before), task(count - 1, text), steps(*stopped[:-1]), rounds(1), steps(*stopped)],
        *[["calls", *calls], ["jobs", 12, done], face("FAILED_TEMP", stopped, cause), idle, rounds(3), steps(*stopped)],
        *[task(2 * len(left) + 1, RETRY), steps(*again), ["jobs", 12 + len(left), 13], face("COMPLETED", again), ["grants", 1]],
    )
    # Behind a stop before the cancel is on the disk each of the four ends by itself, and the fifth is begun behind the first.
    alone = [["broken", 7] if "broken" in it else ["done", 9 + n] for n, it in enumerate([*plans, *[TAKEN] * (4 - len(plans))])]
    goes_on = [rounds(31), steps(*WHOLE), ["jobs", 13, 13]]
    if ["broken", 7] in alone:
        stuck = [forward(8, 1, *alone[0]), forward(12, 1, "intent"), *[forward(it, 1, *alone[it - 8]) for it in (9, 10, 11)]]
        goes_on = [rounds(31), steps(*before, *stuck, forward(12, 1, "done", 13), "FAILED_TEMP")]
    run(
        "a cancel while four changes are made goes on behind a stop at each moment, %d" % number,
        *[work(8, *plans), SITE, asks(FOUR), ["renew"], task(count, text), life(before, came)],
        *[
            ["each stop", choice, ["left"], *at_records(0, 0, *goes_on), *at_records(1, 6, rounds(12), ["again"], ["job count", 12])]
            for choice in CHOICES
        ],
    )
FORCED = four_ports(ALL_ABORTED, "forceful")
# The aborts and looks of the four in their order, the numbers of which begin behind the eight looks before.
ASKED = [(what, first, of) for first in range(4) for what, of in [*[("abort", it) for it in range(first, 4)], ("look", first)]]
for number, (what, first, of) in enumerate(ASKED, 9):
    # A look that fails costs a round, with an abort more of each that is open. So does the first abort of the attempt that is looked at behind it; each
    # other was asked for before, or is by the next round.
    costs = what == "look" or first == of == 0
    aborts, looks = 10 + (4 - first) * costs - (what == "abort"), 12 + (what == "abort" and costs)
    run(
        "an abort or a look of four that fails is made up for: %s of change %d before change %d has ended" % (what, 8 + of, 8 + first),
        *[work(8, *[SLOWER] * 4), *blind_site(number), asks(FOUR), task(5 + costs, ABORT), steps(*FOUR_OPEN, *FORCED)],
        *[["calls", 12, looks, aborts], ["faults", 0, 1, int(what == "look"), 0], ["jobs", 12, 8]],
    )
LAST_ABSENT = [forward(8, 1, "aborted"), forward(9, 1, "aborted"), forward(10, 1, "aborted"), forward(11, 1, "not begun")]
run(
    "behind a stop before the fourth job is begun, all four are aborted, and the fourth is found not to be there",
    # (what was called behind the opening: four calls on the disk for each record, eleven begins and eight looks)
    *[SITE, asks(FOUR), ["stop behind", 4 * len(FOUR_OPEN) + 11 + 8], steps(*FOUR_OPEN), ["job count", 11]],
    *[task(9, ABORT), steps(*FOUR_OPEN, "forceful", *LAST_ABSENT, "FAILED_TEMP"), ["calls", 0, 4, 10], ["jobs", 11, 8]],
)
run(
    "all open attempts are aborted in the order of their intents before the first is looked at",
    *[work(8, *[SLOWER] * 4), SITE, asks(FOUR), ["renew"], task(2, ABORT)],
    [
        "calls on jobs",
        "abort 1 8 1 forward\nabort 1 9 1 forward\nabort 1 10 1 forward\nabort 1 11 1 forward\nlook 1 8 1 forward: aborted\n"
        "abort 1 9 1 forward\nabort 1 10 1 forward\nabort 1 11 1 forward\nlook 1 9 1 forward: aborted\n",
    ],
)

# ---- The same on the way back: four of the five ports are removed

ALL_MADE = [*made(13), "graceful", "FAILED_TEMP"]
TO_ALL_MADE = [asks(28), task(1, CANCEL)]
FOUR_BACK = ["ROLLING_BACK", *intents_back(9, 13)]
BACK_DONE, BACK_ABORTED = [["done", it] for it in range(14, 18)], [["aborted"]] * 4
for number, (plans, text, count, ended, calls, cause) in enumerate(
    [
        ([], CANCEL, 5, BACK_DONE, (17, 17, 0), CANCELLED_FACE),
        ([SLOW] * 4, ABORT, 5, BACK_ABORTED, (17, 17, 10), "change 9: aborted"),
        ([FIRM, SLOW, FIRM, SLOW], ABORT, 5, [["done", 14], ["aborted"], ["done", 16], ["aborted"]], (17, 17, 10), "change 9: aborted"),
    ],
    1,
):
    mode = "graceful" if text == CANCEL else "forceful"
    before = [*ALL_MADE, *FOUR_BACK]
    came = [mode, *[undo(it, 2, *end) for it, end in zip((12, 11, 10, 9), ended)], "FAILED_TEMP"]
    stopped = [*before, *came]
    undone = [it for it, end in zip((12, 11, 10, 9), ended) if end[0] == "done"]
    left = {it: 3 if 8 < it else 2 for it in range(13) if it not in undone}
    again = [*stopped, "ROLLING_BACK", *worked("undo", left, 18), "ROLLED_BACK"]
    run(
        "a cancel while four changes are undone, %d" % number,
        *[work(13, *plans), SITE, *TO_ALL_MADE, task(4, ROLLBACK), steps(*before), task(count, text), steps(*stopped), ["calls", *calls]],
        *[["jobs", 17, 13 - len(undone)], face("FAILED_TEMP", stopped, cause)],
        *[task(2 * len(left) + 1, ROLLBACK), steps(*again), ["jobs", 17 + len(left), 0], face("ROLLED_BACK", again, cause), idle],
    )
    run(
        "a cancel while four changes are undone goes on behind a stop at each moment, %d" % number,
        *[work(13, *plans), SITE, *TO_ALL_MADE, task(4, ROLLBACK), ["renew"], task(count, text), life(before, came)],
        *[
            [
                *["each stop", choice, ["left"], *at_records(0, 0, rounds(31), steps(*ALL_MADE, *WHOLE_BACK), ["jobs", 26, 0])],
                *at_records(1, 6, rounds(12), ["again"], ["job count", 17]),
            ]
            for choice in CHOICES
        ],
    )

# ---- Trouble in the second of four while the three others run

SECOND_BREAKS = [SLOW, BREAKING, SLOW, SLOW, SLOW]
# The first ends and the fifth is begun before the second is looked at; then the others are let end, and none is begun.
TROUBLE_IN_SECOND = [
    *[forward(8, 1, "done", 9), forward(12, 1, "intent"), forward(9, 1, "broken", 7), forward(10, 1, "done", 11), forward(11, 1, "done", 12)],
    *[forward(12, 1, "done", 13), "FAILED_TEMP"],
]
TROUBLED = [*FOUR_OPEN, *TROUBLE_IN_SECOND]
REPAIRED = [*TROUBLED, "PROCESSING", *make(9, 10, 2, 14), "COMPLETED"]
run(
    "the second of four changes breaks while three run, which are let end",
    *[work(8, *SECOND_BREAKS), SITE, asks(FOUR + 4), steps(*TROUBLED[:-4])],
    *[["stands", it, "1 %d 1 forward, running" % it] for it in (10, 11, 12)],
    *[*turns([WAITED, ACTED] * 3 + [ACTED, NOTHING]), steps(*TROUBLED), ["calls", 13, 17, 0], ["jobs", 13, 12]],
    *[face("FAILED_TEMP", TROUBLED, "change 9: broken 7"), task(3, RETRY), steps(*REPAIRED), ["jobs", 14, 13], face("COMPLETED", REPAIRED)],
)
FIFTH_LOST = [*TROUBLE_IN_SECOND[:-2], forward(12, 1, "not begun"), "FAILED_TEMP"]
run(
    "trouble in the second of four goes on behind a stop at each moment",
    *[work(8, *SECOND_BREAKS), SITE, asks(FOUR), ["renew"], rounds(11), life(FOUR_OPEN, TROUBLE_IN_SECOND, FIFTH_LOST)],
    *[
        ["each stop", choice, ["left"], rounds(12), ["again"], rounds(12, RETRY), ["told", TAKEN_UP], ["jobs", 14, 13]] for choice in CHOICES
    ],
)
SECOND_BACK_BREAKS = [
    *[undo(12, 2, "done", 14), undo(8, 2, "intent"), undo(11, 2, "broken", 7), undo(10, 2, "done", 16), undo(9, 2, "done", 17), undo(8, 2, "done", 18)],
    "FAILED_TEMP",
]
TROUBLED_BACK = [*ALL_MADE, *FOUR_BACK, *SECOND_BACK_BREAKS]
GONE_AT_LAST = [*TROUBLED_BACK, "ROLLING_BACK", *worked("undo", {**dict.fromkeys(range(8), 2), 11: 3}, 19), "ROLLED_BACK"]
run(
    "the second of four undos breaks while three run, which are let end",
    *[work(13, *SECOND_BREAKS), SITE, *TO_ALL_MADE, task(4, ROLLBACK), *turns([WAITED, ACTED, ACTED, ACTED] + [WAITED, ACTED] * 3 + [ACTED, NOTHING])],
    *[steps(*TROUBLED_BACK), ["jobs", 18, 9], face("FAILED_TEMP", TROUBLED_BACK, "change 11: broken 7")],
    *[task(19, ROLLBACK), steps(*GONE_AT_LAST), ["jobs", 27, 0], idle],
)
run(
    "trouble in the second of four undos goes on behind a stop at each moment",
    *[work(13, *SECOND_BREAKS), SITE, *TO_ALL_MADE, task(4, ROLLBACK), ["renew"], rounds(11)],
    life([*ALL_MADE, *FOUR_BACK], SECOND_BACK_BREAKS, [*SECOND_BACK_BREAKS[:-2], undo(8, 2, "not begun"), "FAILED_TEMP"]),
    *[
        ["each stop", choice, ["left"], rounds(12), ["again"], rounds(31, ROLLBACK), ["told", TAKEN_UP], ["jobs", 27, 0]] for choice in CHOICES
    ],
)
