"""The runs of operations behind an instantiation whose work stops at each of their changes, forward and on the way back, and that are then retried,
rolled back, or given up and made up for by a heal."""
import itertools

from run_operations import *
from runs_forward import TROUBLES, attempted, rounds_to_trouble
from runs_powers import START_IT, STOP_IT, STOPPED, STOPPING, STARTING_IT
from runs_terminations import BY_FORCE, FORCED, GENTLE, GENTLY

begin(__name__)

OF_ALL = [*LINK_PARTS, *[it for machine in ("A1", "A2", "B1") for it in (disk(machine), box(machine), *ports(machine))]]
STOPPED_SITE = [*INSTANTIATED_SITE, asked_for(STOP_IT, STOPPING)]
ROOMY = ["room", 90]
# Each operation: what it is called, what is asked, and the site and what is told before it.
KINDS = [
    *[("a scaling out", scaling(), Operation(2, ("scale", OUT, "workers", 1), making("A3")), INSTANTIATED_SITE, FIRST)],
    *[("a scaling in", scaling("IN"), Operation(2, ("scale", IN, "workers", 1), removing("A2")), INSTANTIATED_SITE, FIRST)],
    *[("a scaling to a level", levelling("small"), Operation(2, ("level", "small"), removing("A2")), INSTANTIATED_SITE, FIRST)],
    *[("a heal of one", healing("A1"), Operation(2, ("heal", None, [(0, 1)]), [*making("A3"), *removing("A1")]), INSTANTIATED_SITE, FIRST)],
    *[("a heal of all", healing(), Operation(2, ("heal", None, []), [*making("A3", "A4", "B2"), *removing("A1", "A2", "B1")]), INSTANTIATED_SITE, FIRST)],
    *[("a stop", STOP_IT, STOPPING, INSTANTIATED_SITE, FIRST), ("a start", START_IT, STARTING_IT, STOPPED_SITE, STOPPED)],
    *[("a graceful termination", GENTLY, GENTLE, INSTANTIATED_SITE, FIRST), ("a forceful termination", BY_FORCE, FORCED, INSTANTIATED_SITE, FIRST)],
]


def jobs_of(told):
    """How many jobs there are of what is told, where each attempt has one that isn't broken at its begin or lost."""
    return sum(isinstance(it, list) and it[3] == "done" for _, all_steps in told for it in all_steps)


def left_of(operation, done):
    """What stands behind the changes of these numbers, in which an instance of the edge router had all its resources."""
    parts = list(OF_ALL)
    for change in [operation.changes[it] for it in done]:
        if change.verb == MAKE:
            parts.append(change[2:])
        elif change.verb == REMOVE:
            parts.remove(change[2:])
    return parts


def heal_of_all(operation, parts):
    """The heal behind an operation, which names no machine: it makes the links that are missing and three machines, and removes all others of these parts."""
    tops = [max([first, *[it.serial for it in operation.changes if it.vdu == vdu]]) for vdu, first in ((0, 2), (1, 1))]
    missing = [it for it in LINK_PARTS if it not in parts]
    made = making("A%d" % (tops[0] + 1), "A%d" % (tops[0] + 2), "B%d" % (tops[1] + 1))
    gone = removing_parts([it for it in parts if it not in LINK_PARTS])
    return Operation(operation.number + 1, ("heal", None, []), [*phase(0, MAKE, missing), *made, *gone])


for (title, text, operation, site, before), (trouble, job, ends_, is_begun, cause, jobs, (failed, refusals)) in itertools.product(KINDS, TROUBLES[:3]):
    first = jobs_of(before) + 1
    retry, fail, rollback = [to_occurrence(operation.number, it) for it in ("retry", "fail", "rollback")]
    for n in range(len(operation.changes)):
        stopped = troubled_in(operation.through(first), ["forward", n, 1], ends_, is_begun, jobs)
        done, tried = ([it[1] for it in attempted(stopped, at)] for at in ("done", "intent"))
        left = {it: 2 if it in tried else 1 for it in range(len(operation.changes)) if it not in done}
        next_job = first + len(done) + jobs
        told = [*before, (operation, stopped)]
        begun = [ROOMY, work(first - 1 + n, job), *site, asked_for(text, operation, rounds_to_trouble(ends_, is_begun, stopped))]
        again = [*before, (operation, [*stopped, "PROCESSING", *operation.worked("forward", left, next_job), "COMPLETED"])]
        undone = [*before, (operation, [*stopped, "ROLLING_BACK", *operation.worked("undo", dict.fromkeys(sorted(done), 2), next_job), "ROLLED_BACK"])]
        given_up = [*before, (operation, [*stopped, "FAILED"])]
        heal = heal_of_all(operation, left_of(operation, done))
        healed = [*given_up, (heal, heal.through(next_job))]
        stops = "%s stops at change %d, where %s" % (title, n, trouble)
        run(
            stops + ", and is retried",
            *[*begun, has(told), ["faults", 0, failed, 0, refusals], ["job count", next_job - 1], *shows_operation(told), shows_instance(told)],
            *(refuses(rollback, NOT_FOUND, "task is not supported") if operation.ask[0] == "terminate" else []),
            *[worked_on(retry, operation, 2 * len(left) + 1), has(again), *shows_operation(again), shows_instance(again)],
            *[["job count", next_job - 1 + len(left)]],
        )
        if operation.ask[0] != "terminate":
            run(
                stops + ", and is rolled back",
                *[*begun, worked_on(rollback, operation, 2 * len(done) + 1), has(undone), *shows_operation(undone), shows_instance(undone)],
                *[["job count", next_job - 1 + len(done)]],
            )
        run(
            stops + ", is given up, and a heal makes all anew",
            *[*begun, rounds(1, fail, in_pieces(view_of(given_up, OCCURRENCE % operation.number))), has(given_up), shows_instance(given_up)],
            *[asked_for(healing(), heal), has(healed), shows_instance(healed), ["job count", next_job - 1 + len(heal.changes)]],
            answers(scaling(), accepted(heal.number + 1)),
        )

# ---- The way back

for title, text, operation, site, before in KINDS[:7]:
    first, count = jobs_of(before) + 1, len(operation.changes)
    rollback, cancel = to_occurrence(operation.number, "rollback"), to_occurrence(operation.number, "cancel", GRACEFUL)
    made_all = [*operation.through(first)[:-1], "graceful", "FAILED_TEMP"]
    whole_back = ["ROLLING_BACK", *operation.worked("undo", dict.fromkeys(range(count), 2), first + count), "ROLLED_BACK"]
    made_site = [*site, asked_for(text, operation, operation.asks() - 1), worked_on(cancel, operation, 1)]
    for n in range(count):
        trouble, job, ends_, is_begun, cause, jobs, (failed, refusals) = TROUBLES[n % 3]
        came = troubled_in(whole_back, ["undo", n, 2], ends_, is_begun, jobs)
        undone = [it[1] for it in attempted(came, "done")]
        tried = [it[1] for it in attempted(came, "intent")]
        left = {it: 3 if it in tried else 2 for it in range(count) if it not in undone}
        stuck = [*before, (operation, [*made_all, *came])]
        freed = [*before, (operation, [*made_all, *came, "ROLLING_BACK", *operation.worked("undo", left, first + count + len(undone) + jobs), "ROLLED_BACK"])]
        begins = first - 1 + count + [it[1] for it in attempted(whole_back, "intent")].index(n)
        run(
            "%s is rolled back, stops at the undo of change %d, where %s, and is rolled back again" % (title, n, trouble),
            *[ROOMY, work(begins, job), *made_site, has([*before, (operation, made_all)])],
            *[worked_on(rollback, operation, rounds_to_trouble(ends_, is_begun, came)), has(stuck), *shows_operation(stuck), shows_instance(stuck)],
            *[["faults", 0, failed, 0, refusals], worked_on(rollback, operation, 2 * len(left) + 1), has(freed), *shows_operation(freed)],
            *[shows_instance(freed)],
            answers(scaling(), shared("REFUSED", refusal(CONFLICT, "instance is STOPPED")) if operation is STARTING_IT else accepted(operation.number + 1)),
        )
