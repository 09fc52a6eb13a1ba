"""The runs that cancel an instantiation in each state and mode, at each moment."""
from run_texts import *
from runs_forward import SITE, blind_site, refused_steps
from runs_rollbacks import FIRST_TIME, comes_to

begin(__name__)

# ---- Cancels

CANCELLED_LIFE, FORCED_LIFE = [(INSTANTIATE, ACCEPTED), (CANCEL, TAKEN_UP)], [(INSTANTIATE, ACCEPTED), (ABORT, TAKEN_UP)]
OVER = talk(1, *[(it, IS["ROLLED_BACK"]) for it in (CANCEL, ABORT, RETRY, ROLLBACK, FAIL)])
for number, (grants, acts, recorded, shown) in enumerate(
    [
        (1, [talk(1, *CANCELLED_LIFE)], ["asked", "graceful", "granted"], ("STARTING", "", "GRACEFUL")),
        (1, [talk(2, *CANCELLED_LIFE)], ["asked", "graceful", "granted", "ROLLED_BACK"], ("ROLLED_BACK", "cancelled", None)),
        (0, [talk(1, *FORCED_LIFE)], ["asked", "forceful", "ROLLED_BACK"], ("ROLLED_BACK", "cancelled", None)),
        (
            *[0, [talk(1, *CANCELLED_LIFE, (ABORT, TAKEN_UP))], ["asked", "graceful", "forceful", "ROLLED_BACK"]],
            ("ROLLED_BACK", "cancelled", None),
        ),
        (
            *[1, [talk(1, *CANCELLED_LIFE), task(1, ABORT)], ["asked", "graceful", "granted", "forceful", "ROLLED_BACK"]],
            ("ROLLED_BACK", "cancelled", None),
        ),
        (1, [asks(1), task(1, CANCEL)], ["asked", "granted", "graceful", "ROLLED_BACK"], ("ROLLED_BACK", "cancelled", None)),
        (1, [asks(1), task(1, ABORT)], ["asked", "granted", "forceful", "ROLLED_BACK"], ("ROLLED_BACK", "cancelled", None)),
        (1, [talk(5, *CANCELLED_LIFE), OVER], ["asked", "graceful", "granted", "ROLLED_BACK"], ("ROLLED_BACK", "cancelled", None)),
        (0, [talk(5, *FORCED_LIFE), OVER], ["asked", "forceful", "ROLLED_BACK"], ("ROLLED_BACK", "cancelled", None)),
        (
            *[1, [asks(1), rounds(1), task(1, CANCEL)], ["asked", "granted", "PROCESSING", "graceful", "FAILED_TEMP"]],
            ("FAILED_TEMP", "cancelled", None),
        ),
    ],
    1,
):
    run(
        "a cancel while the grant is asked for, %d" % number,
        *[SITE, *acts, ["grants", grants], steps(*recorded), ["calls", 0, 0, 0], face(shown[0], recorded, *shown[1:])],
    )

INTENT, DONE, ABORTED, BROKEN_7 = forward(0, 1, "intent"), forward(0, 1, "done", 1), forward(0, 1, "aborted"), forward(0, 1, "broken", 7)
CALL_FAILED, NOT_BEGUN = forward(0, 1, "call failed"), forward(0, 1, "not begun")
ABORTED_FACE, CANCELLED_FACE, FAILED_FACE = "change 0: aborted", "cancelled", "change 0: call failed"
LINKS_MADE = [*intents(0, 2), *ends(0, 2, 1)]
# What comes of the begins, the lives, the steps behind the move to PROCESSING, the begins, looks and aborts, and the state, detail and mode that are
# shown.
IN_PROCESSING_CANCELS = [
    # The job is aborted, whether a look would have found it running or done.
    ([SLOW], [asks(3), task(1, ABORT)], [INTENT, "forceful", ABORTED], (1, 1, 1), ("PROCESSING", ABORTED_FACE, "FORCEFUL")),
    ([SLOW], [asks(3), task(2, ABORT)], [INTENT, "forceful", ABORTED, "FAILED_TEMP"], (1, 1, 1), ("FAILED_TEMP", ABORTED_FACE)),
    ([], [asks(3), task(9, ABORT)], [INTENT, "forceful", ABORTED, "FAILED_TEMP"], (1, 1, 1), ("FAILED_TEMP", ABORTED_FACE)),
    # The abort comes too late.
    ([FIRM], [asks(3), task(1, ABORT)], [INTENT, "forceful", DONE], (1, 1, 1), ("PROCESSING", CANCELLED_FACE, "FORCEFUL")),
    ([FIRM], [asks(3), task(2, ABORT)], [INTENT, "forceful", DONE, "FAILED_TEMP"], (1, 1, 1), ("FAILED_TEMP", CANCELLED_FACE)),
    ([SLOW_AND_FIRM], [asks(3), task(2, ABORT)], [INTENT, "forceful"], (1, 2, 2), ("PROCESSING", CANCELLED_FACE, "FORCEFUL")),
    ([SLOW_AND_FIRM], [asks(3), task(4, ABORT)], [INTENT, "forceful", DONE, "FAILED_TEMP"], (1, 3, 3), ("FAILED_TEMP", CANCELLED_FACE)),
    (
        *[[BREAKING_AND_FIRM], [asks(3), task(2, ABORT)], [INTENT, "forceful", BROKEN_7, "FAILED_TEMP"], (1, 1, 1)],
        ("FAILED_TEMP", "change 0: broken 7"),
    ),
    # The job is left to end, and no other is begun.
    ([SLOW], [asks(3), task(1, CANCEL)], [INTENT, "graceful"], (1, 1, 0), ("PROCESSING", CANCELLED_FACE, "GRACEFUL")),
    ([SLOW], [asks(3), task(9, CANCEL)], [INTENT, "graceful", DONE, "FAILED_TEMP"], (1, 2, 0), ("FAILED_TEMP", CANCELLED_FACE)),
    ([BREAKING], [asks(3), task(9, CANCEL)], [INTENT, "graceful", BROKEN_7, "FAILED_TEMP"], (1, 1, 0), ("FAILED_TEMP", "change 0: broken 7")),
    # No attempt is open: both changes of the first phase are made.
    ([], [asks(6), task(9, CANCEL)], [*LINKS_MADE, "graceful", "FAILED_TEMP"], (2, 2, 0), ("FAILED_TEMP", CANCELLED_FACE)),
    ([], [asks(6), task(9, ABORT)], [*LINKS_MADE, "forceful", "FAILED_TEMP"], (2, 2, 0), ("FAILED_TEMP", CANCELLED_FACE)),
    # Two are: both are left to end, or aborted, the second once more before it is looked at.
    ([], [asks(4), task(9, CANCEL)], [*intents(0, 2), "graceful", *ends(0, 2, 1), "FAILED_TEMP"], (2, 2, 0), ("FAILED_TEMP", CANCELLED_FACE)),
    (
        *[[], [asks(4), task(9, ABORT)], [*intents(0, 2), "forceful", ABORTED, forward(1, 1, "aborted"), "FAILED_TEMP"], (2, 2, 3)],
        ("FAILED_TEMP", "change 1: aborted"),
    ),
    ([], [asks(2), task(9, ABORT)], ["forceful", "FAILED_TEMP"], (0, 0, 0), ("FAILED_TEMP", CANCELLED_FACE)),
    # The begin failed, so that only a look tells whether there is a job.
    (
        *[[LOST], [asks(3), task(9, CANCEL)], [INTENT, CALL_FAILED, "graceful", NOT_BEGUN, "FAILED_TEMP"], (1, 1, 0)],
        ("FAILED_TEMP", FAILED_FACE),
    ),
    (
        *[[LOST], [asks(3), task(9, ABORT)], [INTENT, CALL_FAILED, "forceful", NOT_BEGUN, "FAILED_TEMP"], (1, 1, 1)],
        ("FAILED_TEMP", FAILED_FACE),
    ),
    (
        *[[ARRIVED], [asks(3), task(9, ABORT)], [INTENT, CALL_FAILED, "forceful", ABORTED, "FAILED_TEMP"], (1, 1, 1)],
        ("FAILED_TEMP", ABORTED_FACE),
    ),
    (
        *[[ARRIVED], [asks(3), task(9, CANCEL)], [INTENT, CALL_FAILED, "graceful", DONE, "FAILED_TEMP"], (1, 2, 0)],
        ("FAILED_TEMP", CANCELLED_FACE),
    ),
    # Of several the FORCEFUL one is in force.
    (
        *[[SLOW], [asks(3), talk(2, (CANCEL, TAKEN_UP), (ABORT, TAKEN_UP))], [INTENT, "graceful", "forceful", ABORTED, "FAILED_TEMP"]],
        *[(1, 1, 1), ("FAILED_TEMP", ABORTED_FACE)],
    ),
    (
        *[[SLOWER], [asks(3), task(2, CANCEL), task(1, ABORT)], [INTENT, "graceful", "forceful", ABORTED], (1, 3, 1)],
        ("PROCESSING", ABORTED_FACE, "FORCEFUL"),
    ),
    (
        *[[SLOW_AND_FIRM], [asks(3), task(1, ABORT), task(1, CANCEL)], [INTENT, "forceful", "graceful"], (1, 2, 2)],
        ("PROCESSING", CANCELLED_FACE, "FORCEFUL"),
    ),
    (
        *[[SLOW], [asks(3), talk(3, *[(CANCEL, TAKEN_UP)] * 3)], [INTENT, "graceful", "graceful", "graceful", DONE, "FAILED_TEMP"]],
        *[(1, 2, 0), ("FAILED_TEMP", CANCELLED_FACE)],
    ),
    # An occurrence whose work has stopped has nothing to cancel.
    (
        *[[], [asks(6), task(1, CANCEL), talk(1, (CANCEL, IS["FAILED_TEMP"]), (ABORT, IS["FAILED_TEMP"]))]],
        *[[*LINKS_MADE, "graceful", "FAILED_TEMP"], (2, 2, 0), ("FAILED_TEMP", CANCELLED_FACE)],
    ),
    # A retry leaves the cancel behind.
    (
        *[[FIRM, SLOW], [asks(3), task(2, ABORT), task(1, RETRY)]],
        [INTENT, "forceful", DONE, "FAILED_TEMP", "PROCESSING", forward(1, 1, "intent")],
        *[(2, 1, 1), ("PROCESSING", CANCELLED_FACE)],
    ),
]
for number, (plans, acts, recorded, calls, shown) in enumerate(IN_PROCESSING_CANCELS, 1):
    whole = [*made(0), *recorded]
    run(
        "a cancel while the first change is made, %d" % number,
        *[work(0, *plans), SITE, *acts, ["grants", 1], steps(*whole), ["calls", *calls], face(shown[0], whole, *shown[1:])],
    )

UNDO, UNDONE, UNDO_ABORTED = undo(4, 2, "intent"), undo(4, 2, "done", 6), undo(4, 2, "aborted")
UNDO_ABORTED_FACE = "change 4: aborted"
# The same behind five changes that were made, of the undo of the last: the steps are those behind the move to ROLLING_BACK.
IN_ROLLING_BACK_CANCELS = [
    ([], [task(1, ROLLBACK), task(1, CANCEL)], [UNDO, "graceful", UNDONE], (7, 6, 0), ("ROLLING_BACK", CANCELLED_FACE, "GRACEFUL")),
    ([], [task(1, ROLLBACK), task(9, CANCEL)], [UNDO, "graceful", UNDONE, "FAILED_TEMP"], (7, 6, 0), ("FAILED_TEMP", CANCELLED_FACE)),
    ([SLOW], [task(1, ROLLBACK), task(1, CANCEL)], [UNDO, "graceful"], (7, 6, 0), ("ROLLING_BACK", CANCELLED_FACE, "GRACEFUL")),
    (
        *[[SLOW], [task(1, ROLLBACK), task(1, ABORT)], [UNDO, "forceful", UNDO_ABORTED], (7, 6, 1)],
        ("ROLLING_BACK", UNDO_ABORTED_FACE, "FORCEFUL"),
    ),
    (
        *[[SLOW], [task(1, ROLLBACK), task(9, ABORT)], [UNDO, "forceful", UNDO_ABORTED, "FAILED_TEMP"], (7, 6, 1)],
        ("FAILED_TEMP", UNDO_ABORTED_FACE),
    ),
    ([FIRM], [task(1, ROLLBACK), task(9, ABORT)], [UNDO, "forceful", UNDONE, "FAILED_TEMP"], (7, 6, 1), ("FAILED_TEMP", CANCELLED_FACE)),
    (
        *[[BREAKING], [task(1, ROLLBACK), task(9, CANCEL)], [UNDO, "graceful", undo(4, 2, "broken", 7), "FAILED_TEMP"], (7, 6, 0)],
        ("FAILED_TEMP", "change 4: broken 7"),
    ),
    # (no attempt is open: the storages are removed)
    (
        *[[], [task(6, ROLLBACK), task(9, CANCEL)], [*intents_back(2, 5), *ends_back(2, 5, 6), "graceful", "FAILED_TEMP"], (9, 8, 0)],
        ("FAILED_TEMP", CANCELLED_FACE),
    ),
    (
        *[[SLOW], [task(1, ROLLBACK), talk(9, (CANCEL, TAKEN_UP), (ABORT, TAKEN_UP))]],
        *[[UNDO, "graceful", "forceful", UNDO_ABORTED, "FAILED_TEMP"], (7, 6, 1), ("FAILED_TEMP", UNDO_ABORTED_FACE)],
    ),
    (
        *[[], [talk(9, (ROLLBACK, TAKEN_UP), (CANCEL, TAKEN_UP))], ["graceful", "FAILED_TEMP"], (6, 5, 0)],
        ("FAILED_TEMP", CANCELLED_FACE),
    ),
]
for number, (plans, acts, recorded, calls, shown) in enumerate(IN_ROLLING_BACK_CANCELS, 1):
    whole = [*refused_steps(5), "ROLLING_BACK", *recorded]
    run(
        "a cancel while changes are undone, %d" % number,
        *[work(5, REFUSED, *plans), SITE, asks(14), *acts, ["grants", 1], steps(*whole), ["calls", *calls]],
        face(shown[0], whole, *shown[1:]),
    )
ON_TIME, EARLY = [asks(3), task(2, ABORT)], [asks(2), task(1, CANCEL)]
AGAIN = ["FAILED_TEMP", "PROCESSING"]
for title, job, acts, recorded, jobs in [
    (
        *["its job did its work in spite of the cancel", FIRM, [*ON_TIME, task(25, RETRY)]],
        *[[*made(0), INTENT, "forceful", DONE, *AGAIN, *make(1, 13, 1, 2)], 13],
    ),
    (
        *["its job was aborted", SLOW, [*ON_TIME, task(27, RETRY)]],
        *[[*made(0), INTENT, "forceful", ABORTED, *AGAIN, *worked("forward", {0: 2, **dict.fromkeys(range(1, 13), 1)}, 2)], 14],
    ),
    ("the cancel came before its first change", TAKEN, [*EARLY, task(27, RETRY)], [*made(0), "graceful", *AGAIN, *make(0, 13, 1, 1)], 13),
    ("the cancel came behind its last change", TAKEN, [asks(28), task(1, CANCEL), task(1, RETRY)], [*made(13), "graceful", *AGAIN], 13),
]:
    whole = [*recorded, "COMPLETED"]
    comes_to("a cancelled operation is completed by a retry: %s" % title, work(0, job), acts, whole, (jobs, 13), ("COMPLETED", ""))
for title, plans, acts, recorded, jobs, detail in [
    ("its job did its work", [FIRM], [*ON_TIME, task(3, ROLLBACK)], [INTENT, "forceful", DONE], 2, CANCELLED_FACE),
    ("its job was aborted", [SLOW], [*ON_TIME, task(1, ROLLBACK)], [INTENT, "forceful", ABORTED], 1, ABORTED_FACE),
    ("the cancel came before its first change", [], [*EARLY, task(1, ROLLBACK)], ["graceful"], 0, CANCELLED_FACE),
]:
    undone = unmake(0, 1, 2, 2) if jobs == 2 else []
    whole = [*made(0), *recorded, "FAILED_TEMP", "ROLLING_BACK", *undone, "ROLLED_BACK"]
    comes_to("a cancelled operation is rolled back: %s" % title, work(0, *plans), acts, whole, (jobs, 0), ("ROLLED_BACK", detail))
ALL_UNDONE = [*refused_steps(5), "ROLLING_BACK", *unmake(0, 5, 2, 6), "graceful", "FAILED_TEMP"]
LATE = [asks(14), task(10, ROLLBACK), task(1, CANCEL)]
comes_to(
    "a cancel behind the last undo leaves the way back open",
    *[work(5, REFUSED), [*LATE, task(1, ROLLBACK)], [*ALL_UNDONE, "ROLLING_BACK", "ROLLED_BACK"], (10, 0), ("ROLLED_BACK", CANCELLED_FACE)],
)
comes_to(
    "a cancel behind the last undo leaves the way forward open",
    *[work(5, REFUSED), [*LATE, task(27, RETRY)]],
    [*ALL_UNDONE, "PROCESSING", *make(0, 5, 3, 11), *worked("forward", {5: 2, **FIRST_TIME}, 16), "COMPLETED"],
    *[(23, 13), ("COMPLETED", "")],
)
# A call that fails, from 1 over aborts and looks, what comes of the begin, the rounds of the cancel, the calls that came through, and the end.
for call, job, count, calls, end in [
    *[(1, TAKEN, 2, (1, 1, 0), DONE), (1, SLOW, 3, (1, 2, 1), ABORTED), (2, SLOW, 3, (1, 1, 2), ABORTED), (2, FIRM, 3, (1, 1, 2), DONE)],
]:
    run(
        "an abort or a look that fails is made up for by the next look: call %d of a job that is %s" % (call, " ".join(map(str, job))),
        *[work(0, job), *blind_site(call), asks(3), task(count, ABORT), ["grants", 1]],
        *[steps(*made(0), INTENT, "forceful", end, "FAILED_TEMP"), ["calls", *calls], ["faults", 0, 1, call - 1, 0]],
    )

# ---- The calls on jobs, by their tags and what came of them

run(
    "the job of the attempt that is open is aborted, and then looked at",
    *[work(0, SLOWER), SITE, asks(3), ["stands", 0, "1 0 1 forward, running"], rounds(1, ABORT), ["stands", 0, "1 0 1 forward, aborted"]],
    ["calls on jobs", "begin 1 0 1 forward: taken\nabort 1 0 1 forward\nlook 1 0 1 forward: aborted\n"],
)
