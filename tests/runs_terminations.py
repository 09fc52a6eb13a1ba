"""The runs of terminating an instance, gracefully and by force."""
from run_operations import *
from runs_healing import OUT_OF_STEP_SITE
from runs_powers import STOP_IT, STOPPED, STOPPING
from runs_scaling import OUT_OF_STEP

begin(__name__)

REMOVALS = [*removing("A1", "A2", "B1"), *UNLINKING]
GENTLE = Operation(2, ("terminate", 0, None), [*powering(TURN_OFF, "A1", "A2", "B1"), *REMOVALS])
FORCED = Operation(2, ("terminate", 1, None), REMOVALS)
assert len(GENTLE.changes) == 16 and len(FORCED.changes) == 13
GENTLY, BY_FORCE = terminating("GRACEFUL"), terminating("FORCEFUL")
NO_INSTANCE_LEFT = record_of(("deleted", 1))
AGAIN = [*LINKING, *making("A3", "A4", "B2")]
for title, text, operation in [("GRACEFUL", GENTLY, GENTLE), ("FORCEFUL", BY_FORCE, FORCED)]:
    gone = [*FIRST, (operation, operation.through(14))]
    again = Operation(3, ("instantiate", "simple", None), AGAIN)
    jobs = 13 + len(operation.changes)
    run(
        "a termination removes all that stands, and the instance can be deleted: %s" % title,
        *[*INSTANTIATED_SITE, asked_for(text, operation), has(gone), ["job count", jobs], *shows_operation(gone), shows_instance(gone)],
        *[act for it in (GENTLY, BY_FORCE, scaling(), healing(), STOP_IT) for act in refuses(it, CONFLICT, "instance is not INSTANTIATED")],
        *[answers(DELETE, GONE), has(gone, NO_INSTANCE_LEFT), *refuses(DELETE, NOT_FOUND, "no such instance"), *refuses(text, NOT_FOUND, "no such instance")],
        *[act for it in (scaling(), healing(), STOP_IT, INSTANTIATE) for act in refuses(it, NOT_FOUND, "no such instance")],
        # (its operations are still shown)
        *[answers(request("GET", OCCURRENCE % 2), in_pieces(view_of(gone, OCCURRENCE % 2))), ["stays"]],
    )
    run(
        "an instance that was terminated is instantiated again, by machines of the next serial numbers: %s" % title,
        *[["room", 60], *INSTANTIATED_SITE, asked_for(text, operation), asked_for(INSTANTIATE, again), has([*gone, (again, again.through(jobs + 1))])],
        *[*shows_operation([*gone, (again, again.through(jobs + 1))]), shows_instance([*gone, (again, again.through(jobs + 1))])],
    )
run(
    "the jobs of a graceful termination stop the machines, and remove ports, machines, storages and networks by their resources",
    *[*INSTANTIATED_SITE, asked_for(GENTLY, GENTLE)],
    *[does(13, "stop", "compute", "VDU_A", "VDU_A", 1, "r6"), does(14, "stop", "compute", "VDU_A", "VDU_A", 2, "r7")],
    *[does(15, "stop", "compute", "VDU_B", "VDU_B", 1, "r8")],
    *[does(16, "remove", "port", "CP_A_data", "VDU_A", 1, "r9"), does(17, "remove", "port", "CP_A_mgmt", "VDU_A", 1, "r10")],
    *[does(18, "remove", "port", "CP_A_data", "VDU_A", 2, "r11"), does(19, "remove", "port", "CP_A_mgmt", "VDU_A", 2, "r12")],
    *[does(20, "remove", "port", "CP_B_mgmt", "VDU_B", 1, "r13"), does(21, "remove", "compute", "VDU_A", "VDU_A", 1, "r6")],
    *[does(22, "remove", "compute", "VDU_A", "VDU_A", 2, "r7"), does(23, "remove", "compute", "VDU_B", "VDU_B", 1, "r8")],
    *[does(24, "remove", "storage", "STO_A", "VDU_A", 1, "r3"), does(25, "remove", "storage", "STO_A", "VDU_A", 2, "r4")],
    *[does(26, "remove", "storage", "STO_B", "VDU_B", 1, "r5"), does(27, "remove", "link", "net_data", "", 0, "r1")],
    *[does(28, "remove", "link", "net_mgmt", "", 0, "r2")],
)
for timeout in 0, 30, 4_294_967_295:
    operation = Operation(2, ("terminate", 0, timeout), GENTLE.changes)
    gone = [*FIRST, (operation, operation.through(14))]
    run(
        "the time that a graceful termination may take is recorded and shown, and isn't measured: %d" % timeout,
        *[*INSTANTIATED_SITE, asked_for(to_instance("terminate", {"terminationType": "GRACEFUL", "gracefulTerminationTimeout": timeout}), operation)],
        *[has(gone), *shows_operation(gone)],
    )
WITHOUT_STOPS = Operation(3, ("terminate", 0, None), REMOVALS)
run(
    "a graceful termination of a stopped instance stops nothing more",
    *[*INSTANTIATED_SITE, asked_for(STOP_IT, STOPPING), asked_for(GENTLY, WITHOUT_STOPS), has([*STOPPED, (WITHOUT_STOPS, WITHOUT_STOPS.through(17))])],
    *[*shows_operation([*STOPPED, (WITHOUT_STOPS, WITHOUT_STOPS.through(17))]), shows_instance([*STOPPED, (WITHOUT_STOPS, WITHOUT_STOPS.through(17))])],
)
WHOLE_ONES = [it for machine in ("A1", "A2", "B1") for it in (disk(machine), box(machine), *ports(machine))]
LEFT_OVER = Operation(3, ("terminate", 1, None), removing_parts([*WHOLE_ONES, disk("A3"), *LINK_PARTS]))
run(
    "an instance that is out of step is terminated with all that stands of it",
    *[*OUT_OF_STEP_SITE, asked_for(BY_FORCE, LEFT_OVER), has([*OUT_OF_STEP, (LEFT_OVER, LEFT_OVER.through(15))])],
    *[*shows_operation([*OUT_OF_STEP, (LEFT_OVER, LEFT_OVER.through(15))])],
    *[shows_instance([*OUT_OF_STEP, (LEFT_OVER, LEFT_OVER.through(15))]), answers(DELETE, GONE)],
)

# ---- A termination has no way back

NO_WAY_BACK = to_occurrence(2, "rollback")
# The machines are stopped, their ports removed; the second machine breaks while it is removed, and a machine with two changes is shown twice.
STUCK = [
    *["asked", "granted", "PROCESSING", *GENTLE.worked("forward", dict.fromkeys(range(8), 1), 14), *[forward(it, 1, "intent") for it in (8, 9, 10)]],
    *[forward(8, 1, "done", 22), forward(9, 1, "broken", 7), forward(10, 1, "done", 24), "FAILED_TEMP"],
]
STUCK_TOLD = [*FIRST, (GENTLE, STUCK)]
ON_AGAIN = [*STUCK, "PROCESSING", *GENTLE.worked("forward", {9: 2, **dict.fromkeys(range(11, 16), 1)}, 25), "COMPLETED"]
run(
    "a termination that failed is not rolled back, but retried to its end",
    *[work(22, BREAKING), *INSTANTIATED_SITE, asked_for(GENTLY, GENTLE, 2 * 11 + 3), has(STUCK_TOLD), *shows_operation(STUCK_TOLD)],
    *[shows_instance(STUCK_TOLD)],
    *[*refuses(NO_WAY_BACK, NOT_FOUND, "task is not supported"), *refuses(DELETE, CONFLICT, "instance is INSTANTIATED")],
    *[worked_on(to_occurrence(2, "retry"), GENTLE, 13), has([*FIRST, (GENTLE, ON_AGAIN)]), *shows_operation([*FIRST, (GENTLE, ON_AGAIN)])],
    *[shows_instance([*FIRST, (GENTLE, ON_AGAIN)]), *refuses(NO_WAY_BACK, NOT_FOUND, "task is not supported"), answers(DELETE, GONE)],
)
for state, count, told in [("STARTING", 1, ["asked", "granted"]), ("PROCESSING", 2, ["asked", "granted", "PROCESSING"])]:
    run(
        "a termination in %s is not rolled back, and its instance is not deleted" % state,
        *[*INSTANTIATED_SITE, asked_for(BY_FORCE, FORCED, count), has([*FIRST, (FORCED, told)]), *refuses(NO_WAY_BACK, NOT_FOUND, "task is not supported")],
        *[*shows_operation([*FIRST, (FORCED, told)]), *refuses(DELETE, CONFLICT, "instance is INSTANTIATED")],
        *[*refuses(BY_FORCE, CONFLICT, "an operation is ongoing")],
        *[act for task in ("retry", "fail") for act in refuses(to_occurrence(2, task), CONFLICT, "operation is " + state)],
    )
CANCELLED = [*FIRST, (FORCED, ["asked", "graceful", "granted", "ROLLED_BACK"])]
run(
    "a termination is cancelled before its first change, and the instance stays as it is",
    *[*INSTANTIATED_SITE, talk(2, (BY_FORCE, accepted(2)), (to_occurrence(2, "cancel", GRACEFUL), TAKEN_UP)), has(CANCELLED), *shows_operation(CANCELLED)],
    *[shows_instance(CANCELLED)],
    *[*[act for it in (Operation(3, ("terminate", 1, None), REMOVALS),) for act in (asked_for(BY_FORCE, it), has([*CANCELLED, (it, it.through(14))]))]],
)
