"""The runs that retry and roll back the edge router's instantiation, from each change."""
from run_texts import *
from runs_forward import SECOND_COMPLETED, SITE, refused_steps, rounds_refused

begin(__name__)

# ---- Rollbacks


def refused_at(n):
    """A site on which the operation is in FAILED_TEMP, since the begin for this change was refused."""
    return [work(n, REFUSED), SITE, asks(rounds_refused(n))]


def rolled_back(n):
    return [*refused_steps(n), "ROLLING_BACK", *unmake(0, n, 2, n + 1), "ROLLED_BACK"]


for n in range(CHANGES):
    run(
        "a rollback of %d changes undoes what was made and leaves nothing" % n,
        *[*refused_at(n), task(2 * n + 1, ROLLBACK), steps(*rolled_back(n)), ["jobs", 2 * n, 0]],
        *[face("ROLLED_BACK", rolled_back(n), "change %d: broken 9" % n), idle, rounds(1, DELETE, GONE)],
    )
    given_up = [*refused_steps(n), "FAILED"]
    failed_face = face("FAILED", given_up, "change %d: broken 9" % n)
    refusals = [(FAIL, IS["FAILED"]), (RETRY, IS["FAILED"]), (ROLLBACK, IS["FAILED"]), (CANCEL, IS["FAILED"])]
    run(
        "an operation that is given up at change %d keeps what stands" % n,
        *[*refused_at(n), rounds(3, FAIL), ["answered", failed_face[1]]],
        *[talk(3, *refusals, (INSTANTIATE, INSTANTIATED), (DELETE, INSTANTIATED)), steps(*given_up), ["jobs", n, n]],
        *[failed_face, instantiated(n)],
    )
# The storages first, and only then the links.
BACK = ["ROLLING_BACK", *intents_back(2, 5), *ends_back(2, 5, 6), *intents_back(0, 2), *ends_back(0, 2, 9), "ROLLED_BACK"]
for count in range(1, 14):
    some = [*refused_steps(5), *BACK[: count + 1]]
    state = "ROLLING_BACK" if count < 11 else "ROLLED_BACK"
    run(
        "round %d of a rollback records %s" % (count, "the next event" if count < 12 else "nothing"),
        *[*refused_at(5), task(count, ROLLBACK), steps(*some), face(state, some, "change 5: broken 9")],
    )
run(
    "each undo removes the resource of its change",
    *[SITE, asks(28), task(1, CANCEL), task(27, ROLLBACK), ["grants", 1], ["jobs", 26, 0]],
    *[removes(25 - n, n, "r%d" % (n + 1)) for n in range(CHANGES)],
)


def comes_to(title, before, acts, recorded, jobs, shown):
    """A script over begins that come out like this, with the steps that it leaves, the jobs and the changes that stand, and how it is shown."""
    run(title, before, SITE, *acts, ["grants", 1], steps(*recorded), ["jobs", *jobs], face(shown[0], recorded, shown[1]))


def undone_until(end, mode):
    """The steps of a rollback whose first undo, of the fifth change, ended so behind a cancel."""
    return [*refused_steps(5), "ROLLING_BACK", undo(4, 2, "intent"), mode, undo(4, 2, *end), "FAILED_TEMP"]


WORK = work(5, REFUSED, SLOW)
# The changes that weren't attempted before the one that was refused.
FIRST_TIME = dict.fromkeys(range(6, 13), 1)
LET_END, STOPPED_UNDO = undone_until(["done", 6], "graceful"), undone_until(["aborted"], "forceful")
TO_CANCEL, TO_ABORT = [asks(14), task(1, ROLLBACK), task(3, CANCEL)], [asks(14), task(1, ROLLBACK), task(2, ABORT)]
comes_to(
    "a rollback whose first undo was let end by a cancel is taken up again",
    *[WORK, [*TO_CANCEL, task(9, ROLLBACK)], [*LET_END, "ROLLING_BACK", *unmake(0, 4, 2, 7), "ROLLED_BACK"]],
    *[(10, 0), ("ROLLED_BACK", "cancelled")],
)
comes_to(
    "a rollback whose first undo was aborted by a cancel is taken up again",
    *[WORK, [*TO_ABORT, task(11, ROLLBACK)]],
    [*STOPPED_UNDO, "ROLLING_BACK", *worked("undo", {0: 2, 1: 2, 2: 2, 3: 2, 4: 3}, 7), "ROLLED_BACK"],
    *[(11, 0), ("ROLLED_BACK", "change 4: aborted")],
)
comes_to(
    "a rollback whose first undo was let end by a cancel is turned back by a retry",
    *[WORK, [*TO_CANCEL, task(19, RETRY)]],
    [*LET_END, "PROCESSING", *worked("forward", {4: 3, 5: 2, **FIRST_TIME}, 7), "COMPLETED"],
    *[(15, 13), ("COMPLETED", "")],
)
comes_to(
    "a rollback whose first undo was aborted by a cancel is turned back by a retry",
    *[WORK, [*TO_ABORT, task(17, RETRY)], [*STOPPED_UNDO, "PROCESSING", *worked("forward", {5: 2, **FIRST_TIME}, 7), "COMPLETED"]],
    *[(14, 13), ("COMPLETED", "")],
)
run(
    "a change that was made again is undone on its new resource",
    *[WORK, SITE, *TO_CANCEL, task(2, RETRY), task(1, CANCEL), task(11, ROLLBACK), ["grants", 1], ["jobs", 12, 0]],
    *[removes(5, 4, "r5"), removes(7, 4, "r7"), removes(8, 3, "r4")],
)
SERIALS = [0, 0, 3, 4, 2, 3, 4, 2, 3, 3, 4, 4, 2]
run(
    "an instance that was rolled back is instantiated anew",
    *[*refused_at(5), task(11, ROLLBACK), rounds(29, INSTANTIATE, accepted(2)), ["file end", SECOND_COMPLETED], ["job count", 23]],
    *[["job", 10 + n, 2, n, 1, "forward"] for n in range(CHANGES)],
    *[makes(10 + n, n, serial, 10) for n, serial in enumerate(SERIALS)],
)
for state, acts in [
    ("STARTING", [talk(1, (INSTANTIATE, ACCEPTED), *[(it, IS["STARTING"]) for it in (RETRY, ROLLBACK, FAIL)], (DELETE, ONGOING))]),
    ("PROCESSING", [asks(2), talk(1, *[(it, IS["PROCESSING"]) for it in (RETRY, ROLLBACK, FAIL)], (INSTANTIATE, ONGOING))]),
    ("FAILED_TEMP", [asks(14), talk(1, *[(it, IS["FAILED_TEMP"]) for it in (CANCEL, ABORT)], (DELETE, ONGOING), (INSTANTIATE, ONGOING))]),
    (
        "ROLLING_BACK",
        [asks(14), talk(1, (ROLLBACK, TAKEN_UP), *[(it, IS["ROLLING_BACK"]) for it in (RETRY, ROLLBACK, FAIL)], (DELETE, ONGOING))],
    ),
    (
        "COMPLETED",
        [
            *[asks(14), task(18, RETRY)],
            talk(1, *[(it, IS["COMPLETED"]) for it in (RETRY, ROLLBACK, FAIL, CANCEL, ABORT)], (DELETE, INSTANTIATED)),
        ],
    ),
]:
    run("a task is refused where the state does not allow it: %s" % state, WORK, SITE, *acts)
