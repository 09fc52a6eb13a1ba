"""The runs that are stopped at each moment, or of which each disk call fails: of instantiations, rollbacks and cancels."""
import itertools

from run_texts import *
from played import changes_done
from runs_forward import ASKED_FOR, SITE, TROUBLES, acts_of, attempted, blind_site, refused_steps, troubled_in
from runs_rollbacks import BACK, refused_at
from runs_cancels import CANCELLED_FACE

begin(__name__)

# ---- Stops and faults of an instantiation

ONCE = dict.fromkeys(range(CHANGES), 1)
LIFE = life([], WHOLE, *[[*made(0), *worked("forward", ONCE, 1, lost=n), "COMPLETED"] for n in range(CHANGES)])
# Where the first job is lost, the second is begun before that is seen: then the first change waits and is attempted again, behind the second.
assert worked("forward", ONCE, 1, lost=0)[:6] == [
    *[forward(0, 1, "intent"), forward(1, 1, "intent"), forward(0, 1, "not begun"), forward(0, 2, "intent")],
    *[forward(1, 1, "done", 1), forward(0, 2, "done", 2)],
]
ASKED_AGAIN = [
    *[rounds(31, INSTANTIATE), ["status", 0], *at_records(0, 0, ["told", ACCEPTED])],
    *[*at_records(1, 30, ["told front", "HTTP/1.1 409 Conflict\r\n"]), ["again"], ["jobs", 13, 13]],
]
for choice, lost in ("old", 13), ("new", 26), ("torn", 13):
    run(
        "an instantiation goes on behind a stop at each moment: %s" % choice,
        *[SITE, asks(29), ["calls", 13, 13, 0], LIFE, ["each stop", choice, ["left"], *ASKED_AGAIN], ["lost", lost]],
    )
FOUND, ABSENT = make(0, 2, 1, 1), worked("forward", {0: 1, 1: 1}, 1, lost=0)
for job, jobs, looks, recorded in [
    *[(TAKEN, 1, 1, FOUND), (plan("looks", 2), 1, 3, FOUND), (plan("arrived"), 1, 1, FOUND), (ARRIVED, 1, 2, FOUND)],
    *[(LOST, 0, 1, ABSENT), (REFUSED, 0, 1, ABSENT)],
]:
    waits = [rounds(looks - 1), ["stays"]] if looks > 1 else []
    run(
        "behind a stop the next change is begun, and then the job is looked for: its begin was %s" % " ".join(map(str, job)),
        *[work(0, job), SITE, asks(3), ["stop behind the begin"], steps(*made(0), recorded[0]), ["job count", jobs]],
        *[rounds(1), steps(*made(0), *recorded[:2]), ["job count", jobs + 1], *waits, rounds(1), steps(*made(0), *recorded[:3])],
        *[rounds(31), steps(*made(0), *recorded, *make(2, 13, 1, 3), "COMPLETED"), ["jobs", 13, 13]],
    )


def in_their_order(jobs, changes):
    """The changes that these jobs are for, of which each change has one, in the phases of the plan: a lost attempt is made up for behind others."""
    assert sorted(jobs) == sorted(changes) and [PLAN[it][0] for it in jobs] == [PLAN[it][0] for it in changes]
    return jobs


for first, choice in itertools.product((0, 4, 9, 13, 18), CHOICES):
    stopped = [*ASKED_FOR, ["keep", "ASKED_FOR"], ["site", "$ASKED_FOR"], ["lives", first, choice, MOVED["COMPLETED"]]]
    run(
        "an instantiation whose lives are stopped again and again, from life %d on, comes to its end: %s" % (first, choice),
        *[*stopped, ["done jobs", *in_their_order(changes_done(*stopped), range(CHANGES))]],
    )
FALLEN = [["fallen"], ["unopened", ["told", ""]], ["at calls", 0, 3, ["told", FAULT]]]
run(
    "each disk call of an instantiation that fails is made up for by the next life",
    *[SITE, asks(29), LIFE],
    [
        *["each fault", SITE, rounds(29, INSTANTIATE), *FALLEN, ["at calls", 4, 119, ["told", ACCEPTED]], ["faults", 1, 0, 0, 0]],
        *[["left"], *ASKED_AGAIN, ["faults", 1, 0, 0, 0]],
    ],
)


# ---- Stops and faults of rollbacks and cancels

TWICE = dict.fromkeys(range(5), 2)
LOST_BACK = [["ROLLING_BACK", *worked("undo", TWICE, 6, lost=n), "ROLLED_BACK"] for n in reversed(range(5))]
ROLLBACK_LIFE = [*refused_at(5), ["renew"], task(11, ROLLBACK), life(refused_steps(5), BACK, *LOST_BACK)]
ROLLED_AGAIN = [
    *[rounds(13, ROLLBACK), ["status", 0], *at_records(0, 0, ["told", TAKEN_UP]), *at_records(1, 11, ["told", IS["ROLLING_BACK"]])],
    *[*at_records(12, 12, ["told", IS["ROLLED_BACK"]]), ["again"], ["jobs", 10, 0]],
]
for choice, lost in ("old", 5), ("new", 10), ("torn", 5):
    run(
        "a rollback goes on behind a stop at each moment: %s" % choice,
        *[*ROLLBACK_LIFE, ["each stop", choice, ["left"], *ROLLED_AGAIN], ["lost", lost]],
    )
for (text, mode, job, count, end, detail), choice in itertools.product(
    [
        (ABORT, "forceful", SLOW, 2, ["aborted"], "change 2: aborted"),
        (ABORT, "forceful", FIRM, 2, ["done", 3], CANCELLED_FACE),
        (CANCEL, "graceful", SLOW, 3, ["done", 3], CANCELLED_FACE),
        (CANCEL, "graceful", FIRM, 2, ["done", 3], CANCELLED_FACE),
    ],
    CHOICES,
):
    before, recorded = [*made(2), forward(2, 1, "intent")], [mode, forward(2, 1, *end), "FAILED_TEMP"]
    run(
        "a cancel goes on behind a stop at each moment: a %s one of a job that is %s, %s" % (mode, " ".join(map(str, job)), choice),
        *[work(2, job), SITE, asks(7), ["renew"], task(count, text), life(before, recorded)],
        [
            *["each stop", choice, ["left"], *at_records(0, 0, rounds(24), steps(*WHOLE), ["jobs", 13, 13])],
            *at_records(1, 3, rounds(6), steps(*before, *recorded), ["job count", 3], face("FAILED_TEMP", before + recorded, detail)),
        ],
    )
for first, choice in itertools.product((0, 4, 9, 13, 18), CHOICES):
    begun = [*refused_at(5), ["renew"], rounds(11, ROLLBACK), ["stop behind", 4], steps(*refused_steps(5), "ROLLING_BACK")]
    ended = [*begun, ["lives", first, choice, MOVED["ROLLED_BACK"]]]
    run(
        "a rollback whose lives are stopped again and again, from life %d on, comes to its end: %s" % (first, choice),
        *[*ended, ["done jobs", *in_their_order(changes_done(*ended), [*range(5), *reversed(range(5))])]],
    )
run(
    "each disk call of a rollback that fails is made up for by the next life",
    *ROLLBACK_LIFE,
    [
        *["each fault", SITE, rounds(14, INSTANTIATE), rounds(11, ROLLBACK), *FALLEN, ["at calls", 4, 47, ["told", TAKEN_UP]]],
        *[["left"], *ROLLED_AGAIN, ["faults", 1, 0, 0, 1]],
    ],
)
for n, change in enumerate(reversed(range(5))):
    look = BACK.index(undo(change, 2, "done", 10 - change)) - 2
    expected = [ACTED] * look + [UNREACHED] + [ACTED] * (len(BACK) - 2 - look) + [NOTHING] * 2
    run(
        "a look of a rollback that fails is made again: undo %d" % n,
        *[work(5, REFUSED), *blind_site(n + 6), asks(14), task(1, ROLLBACK), *turns(expected), ["grants", 1]],
        *[steps(*refused_steps(5), *BACK), ["faults", 0, 1, 1, 1], ["jobs", 10, 0]],
    )
for n in range(5):
    undos = [TAKEN] * (4 - n)
    for title, job, ends_, is_begun, cause, jobs, _ in TROUBLES:
        came = troubled_in(BACK, ["undo", n, 2], ends_, is_begun, jobs)
        stuck = [*refused_steps(5), *came]
        undone = attempted(came, "done")
        left = {it: 3 if it == n else 2 for it in range(5) if ["undo", it, 2] not in undone}
        freed = [*stuck, "ROLLING_BACK", *worked("undo", left, 6 + len(undone) + jobs), "ROLLED_BACK"]
        run(
            "an undo of change %d is attempted again by the next rollback where %s" % (n, title),
            *[work(5, REFUSED, *undos, job), SITE, asks(14), task(acts_of(came, len(ends_) - is_begun), ROLLBACK), steps(*stuck)],
            *[face("FAILED_TEMP", stuck, "change %d: %s" % (n, cause)), task(2 * len(left) + 1, ROLLBACK), steps(*freed), ["jobs", 10 + jobs, 0]],
        )
    begun = BACK.index(undo(n, 2, "intent")) + 1
    found = [*refused_steps(5), *BACK[:begun], undo(n, 2, "call failed"), *BACK[begun:]]
    run(
        "an undo of change %d whose begin failed is found by a look" % n,
        *[work(5, REFUSED, *undos, ARRIVED), SITE, asks(14), task(12, ROLLBACK), steps(*found), ["jobs", 10, 0]],
    )

# ---- More than one call that fails

# The four calls that open the journal, and the first write of a record.
run(
    "two lives whose first write fails are made up for by the next one",
    *[["fault", 5, 10], SITE, *[act for _ in range(2) for act in (rounds(29, INSTANTIATE), ["status", 3], ["told", FAULT])]],
    *[["faults", 2, 0, 0, 0], asks(29), steps(*WHOLE), ["faults", 2, 0, 0, 0], ["jobs", 13, 13]],
)
