"""The runs of scaling, by steps and to a level: what is made and removed, and cancels, troubles and refusals on the way."""
from run_operations import *

begin(__name__)

SCALE_OUT, SCALE_IN = shared("SCALE_OUT", scaling("OUT", 1)), shared("SCALE_IN", scaling("IN", 1))
GROWING = Operation(2, ("scale", OUT, "workers", 1), making("A3"))
# A storage, the machine and two ports, of which the ports are made side by side.
GROWN = GROWING.through(14)
assert GROWN == [
    *["asked", "granted", "PROCESSING", forward(0, 1, "intent"), forward(0, 1, "done", 14), forward(1, 1, "intent"), forward(1, 1, "done", 15)],
    *[forward(2, 1, "intent"), forward(3, 1, "intent"), forward(2, 1, "done", 16), forward(3, 1, "done", 17), "COMPLETED"],
]

# ---- By steps

for count in range(1, 12):
    run(
        "round %d of a scaling out records the next event" % count,
        *[*INSTANTIATED_SITE, asked_for(SCALE_OUT, GROWING, count), has([*FIRST, (GROWING, GROWN[: count + 1])])],
        *shows_operation([*FIRST, (GROWING, GROWN[: count + 1])]),
    )
run(
    "a scaling out makes a machine on its disk and its ports on the machine and the networks, and the instance is a level up",
    *[*INSTANTIATED_SITE, asked_for(SCALE_OUT, GROWING), has([*FIRST, (GROWING, GROWN)]), ["grants", 2], ["job count", 17]],
    *[does(13, "create", "storage", "STO_A", "VDU_A", 3), does(14, "create", "compute", "VDU_A", "VDU_A", 3, "r14")],
    *[does(15, "create", "port", "CP_A_data", "VDU_A", 3, "r15", "r1"), does(16, "create", "port", "CP_A_mgmt", "VDU_A", 3, "r15", "r2")],
    *[["done jobs", *range(13), 0, 1, 2, 3], *shows_operation([*FIRST, (GROWING, GROWN)]), shows_instance([*FIRST, (GROWING, GROWN)])],
)


def resource(kind, identifier, template, name, **more):
    return {"id": identifier, kind + "Resource": {"resourceId": name, "vimConnectionId": "vim1"}, TEMPLATE[kind]: template, **more}


GROWN_VIEW = {
    "_links": {"self": {"href": OCCURRENCE % 2}, "vnfInstance": {"href": INSTANCE % 1}}, "grantId": "g2", "id": (OCCURRENCE % 2).rsplit("/", 1)[1],
    "isAutomaticInvocation": False, "isCancelPending": False, "operation": "SCALE", "operationState": "COMPLETED", "startTime": START,
    "operationParams": {"aspectId": "workers", "numberOfSteps": 1, "type": "SCALE_OUT"}, "stateEnteredTime": START,
    "resourceChanges": {
        "affectedVirtualLinks": [], "affectedVirtualStorages": [resource("storage", "VDU_A-3/STO_A", "STO_A", "r14", changeType="ADDED")],
        "affectedVnfcs": [resource("compute", "VDU_A-3", "VDU_A", "r15", changeType="ADDED")],
    },
    "vnfInstanceId": (INSTANCE % 1).rsplit("/", 1)[1],
}
GROWN_INSTANCE = instance_view({
    "scaleStatus": [{"aspectId": "workers", "scaleLevel": 2}],
    "virtualStorageResourceInfo": [
        *[resource("storage", "VDU_A-%d/STO_A" % serial, "STO_A", name) for serial, name in ((1, "r3"), (2, "r4"), (3, "r14"))],
        resource("storage", "VDU_B-1/STO_B", "STO_B", "r5"),
    ],
    "vnfVirtualLinkResourceInfo": [resource("network", it, it, name) for it, name in (("net_data", "r1"), ("net_mgmt", "r2"))],
    "vnfcResourceInfo": [
        *[
            resource("compute", "VDU_A-%d" % serial, "VDU_A", name, storageResourceIds=["VDU_A-%d/STO_A" % serial])
            for serial, name in ((1, "r6"), (2, "r7"), (3, "r15"))
        ],
        resource("compute", "VDU_B-1", "VDU_B", "r8", storageResourceIds=["VDU_B-1/STO_B"]),
    ],
})
run(
    "a scaling out and the instance behind it are shown with the resources that were made",
    *[*INSTANTIATED_SITE, asked_for(SCALE_OUT, GROWING), answers(request("GET", OCCURRENCE % 2), showing(compact(GROWN_VIEW)))],
    *[["instance", showing(compact(GROWN_INSTANCE))]],
)
SHRINKING = Operation(3, ("scale", IN, "workers", 1), removing("A3"))
SHRUNK = SHRINKING.through(18)
GROWN_ONCE = [*FIRST, (GROWING, GROWN)]
GROWING_ON = Operation(4, ("scale", OUT, "workers", 1), making("A4"))
run(
    "a scaling in removes the greatest machine, ports first, and the next serial number stays used",
    *[*INSTANTIATED_SITE, asked_for(SCALE_OUT, GROWING), asked_for(SCALE_IN, SHRINKING), has([*GROWN_ONCE, (SHRINKING, SHRUNK)])],
    *[does(17, "remove", "port", "CP_A_data", "VDU_A", 3, "r16"), does(18, "remove", "port", "CP_A_mgmt", "VDU_A", 3, "r17")],
    *[does(19, "remove", "compute", "VDU_A", "VDU_A", 3, "r15"), does(20, "remove", "storage", "STO_A", "VDU_A", 3, "r14")],
    *[*shows_operation([*GROWN_ONCE, (SHRINKING, SHRUNK)]), shows_instance([*GROWN_ONCE, (SHRINKING, SHRUNK)])],
    *[asked_for(SCALE_OUT, GROWING_ON), has([*GROWN_ONCE, (SHRINKING, SHRUNK), (GROWING_ON, GROWING_ON.through(22))])],
)
BY_NINE = Operation(2, ("scale", OUT, "workers", 9), making(*["A%d" % it for it in range(3, 12)]))
assert len(BY_NINE.changes) == 36
NINE_OUT, TWO_IN = scaling("OUT", 9), scaling("IN", 2)
run(
    "a scaling out by nine has 36 changes, and another operation has to wait for it",
    *[["room", 60], *INSTANTIATED_SITE, answers(NINE_OUT, accepted(2)), has([*FIRST, (BY_NINE, ["asked"])])],
    *[*refuses(SCALE_IN, CONFLICT, "an operation is ongoing"), *refuses(DELETE, CONFLICT, "instance is INSTANTIATED")],
    *refused_all([SCALE_OUT, levelling("small"), healing(), operating("STOPPED"), terminating("FORCEFUL")], CONFLICT, "an operation is ongoing"),
    *[rounds(BY_NINE.asks()), has([*FIRST, (BY_NINE, BY_NINE.through(14))]), ["job count", 49]],
    *[*refuses(SCALE_OUT, UNPROCESSABLE, "scale level above the maximum"), shows_instance([*FIRST, (BY_NINE, BY_NINE.through(14))])],
)
run(
    "a scaling is refused by its content, and by the levels that there are",
    *INSTANTIATED_SITE,
    *[
        act
        for text, line, detail in [
            *[(scaling("OUT", 0), UNPROCESSABLE, "numberOfSteps is 0"), (scaling("IN", 0), UNPROCESSABLE, "numberOfSteps is 0")],
            *[(scaling("OUT", 10), UNPROCESSABLE, "scale level above the maximum"), (TWO_IN, UNPROCESSABLE, "scale level below zero")],
            *[(scaling("OUT", 4294967295), UNPROCESSABLE, "scale level above the maximum")],
            *[(scaling("IN", 4294967295), UNPROCESSABLE, "scale level below zero")],
            *[(scaling("OUT", 1, "drivers"), UNPROCESSABLE, "aspectId is not in the descriptor")],
            *[(scaling("OUT", 0, "drivers"), UNPROCESSABLE, "aspectId is not in the descriptor")],
            *[(levelling("huge"), UNPROCESSABLE, "instantiationLevelId is not in the descriptor")],
            *[(levelling("normal"), UNPROCESSABLE, "nothing to do"), (aspects(1), UNPROCESSABLE, "nothing to do")],
            *[(aspects(), UNPROCESSABLE, "nothing to do"), (aspects(11), UNPROCESSABLE, "scaleLevel is above the maximum")],
            *[(aspects(4294967295), UNPROCESSABLE, "scaleLevel is above the maximum")],
            *[(aspects(0, 0), UNPROCESSABLE, "scaleInfo names an aspect twice"), (aspects(11, 0), UNPROCESSABLE, "scaleInfo names an aspect twice")],
        ]
        for act in refuses(text, line, detail)
    ],
    *[has(FIRST)],
)
run(
    "the content of a scaling is judged before the state of the instance is",
    SITE,
    *[
        act
        for text, line, detail in [
            *[(scaling("OUT", 1, "drivers"), UNPROCESSABLE, "aspectId is not in the descriptor")],
            *[(scaling("OUT", 0), UNPROCESSABLE, "numberOfSteps is 0"), (SCALE_OUT, CONFLICT, "instance is not INSTANTIATED")],
            *[(scaling("OUT", 10), CONFLICT, "instance is not INSTANTIATED"), (aspects(11), UNPROCESSABLE, "scaleLevel is above the maximum")],
            *[(levelling("huge"), UNPROCESSABLE, "instantiationLevelId is not in the descriptor")],
            *[(levelling("normal"), CONFLICT, "instance is not INSTANTIATED"), (aspects(), CONFLICT, "instance is not INSTANTIATED")],
        ]
        for act in refuses(text, line, detail)
    ],
    # (while it is instantiated, the state is that of its instantiation before the operation is ongoing)
    *[rounds(1, INSTANTIATE, ACCEPTED), *refuses(SCALE_OUT, CONFLICT, "instance is not INSTANTIATED"), *refuses(DELETE, CONFLICT, "an operation is ongoing")],
)

# ---- To a level

SMALL = Operation(2, ("level", "small"), removing("A2"))
NORMAL_AGAIN = Operation(3, ("level", "normal"), making("A3"))
SMALLER = [*FIRST, (SMALL, SMALL.through(14))]
run(
    "scaling to a level removes a machine, and to another makes one",
    *[*INSTANTIATED_SITE, asked_for(levelling("small"), SMALL), has(SMALLER), *shows_operation(SMALLER), shows_instance(SMALLER)],
    *[does(13, "remove", "port", "CP_A_data", "VDU_A", 2, "r11"), does(14, "remove", "port", "CP_A_mgmt", "VDU_A", 2, "r12")],
    *[does(15, "remove", "compute", "VDU_A", "VDU_A", 2, "r7"), does(16, "remove", "storage", "STO_A", "VDU_A", 2, "r4")],
    *[*refuses(levelling("small"), UNPROCESSABLE, "nothing to do"), *refuses(SCALE_IN, UNPROCESSABLE, "scale level below zero")],
    *[asked_for(levelling("normal"), NORMAL_AGAIN), has([*SMALLER, (NORMAL_AGAIN, NORMAL_AGAIN.through(18))])],
    *[*shows_operation([*SMALLER, (NORMAL_AGAIN, NORMAL_AGAIN.through(18))]), shows_instance([*SMALLER, (NORMAL_AGAIN, NORMAL_AGAIN.through(18))])],
)
TO_THREE = Operation(2, ("aspects", [("workers", 3)]), making("A3", "A4"))
TO_NONE = Operation(3, ("aspects", [("workers", 0)]), removing("A2", "A3", "A4"))
THREE = [*FIRST, (TO_THREE, TO_THREE.through(14))]
NONE_LEFT = [*THREE, (TO_NONE, TO_NONE.through(22))]
run(
    "scaling to levels of aspects makes two machines, and removes three",
    *[["room", 60], *INSTANTIATED_SITE, asked_for(aspects(3), TO_THREE), has(THREE), *shows_operation(THREE), shows_instance(THREE)],
    *[asked_for(aspects(0), TO_NONE), has(NONE_LEFT), *shows_operation(NONE_LEFT), shows_instance(NONE_LEFT)],
    *[*refuses(levelling("small"), UNPROCESSABLE, "nothing to do")],
)

# ---- Cancels, troubles, and the ways behind them

BACK_2, AGAIN_2 = to_occurrence(2, "rollback"), to_occurrence(2, "retry")
FAIL_2, CANCEL_2, ABORT_2 = to_occurrence(2, "fail"), to_occurrence(2, "cancel", GRACEFUL), to_occurrence(2, "cancel", FORCEFUL)
# The storage and the machine are made, and the begin of the first port is lost; the second port is begun beside it.
ONE_PORT_LOST = [
    *[*GROWN[:7], forward(2, 1, "intent"), forward(2, 1, "call failed"), forward(3, 1, "intent"), forward(2, 1, "not begun")],
    *[forward(3, 1, "done", 16), "FAILED_TEMP"],
]
# The port that was made is removed, then the machine; a cancel comes while it is being removed.
CANCELLED_BACK = [
    *["ROLLING_BACK", undo(3, 2, "intent"), undo(3, 2, "done", 17), undo(1, 2, "intent"), "graceful", undo(1, 2, "done", 18), "FAILED_TEMP"],
]
MADE_AGAIN = [
    *["PROCESSING", forward(1, 3, "intent"), forward(1, 3, "done", 19), forward(2, 2, "intent"), forward(3, 3, "intent")],
    *[forward(2, 2, "done", 20), forward(3, 3, "done", 21), "COMPLETED"],
]
LOST_PORT, GONE_BACK = [*FIRST, (GROWING, ONE_PORT_LOST)], [*FIRST, (GROWING, [*ONE_PORT_LOST, *CANCELLED_BACK])]
ALL_AGAIN = [*FIRST, (GROWING, [*ONE_PORT_LOST, *CANCELLED_BACK, *MADE_AGAIN])]
run(
    "a scaling out that failed is rolled back, cancelled on the way and retried: what was undone is made by a third attempt",
    *[work(15, LOST, TAKEN, TAKEN, SLOW), *INSTANTIATED_SITE, asked_for(SCALE_OUT, GROWING, 11), has(LOST_PORT), *shows_operation(LOST_PORT)],
    # (what stands is shown, at the level that was)
    *[shows_instance(LOST_PORT), ["faults", 0, 1, 0, 0], worked_on(BACK_2, GROWING, 3), worked_on(CANCEL_2, GROWING, 3), has(GONE_BACK)],
    *[*shows_operation(GONE_BACK), shows_instance(GONE_BACK), worked_on(AGAIN_2, GROWING, 7), has(ALL_AGAIN), *shows_operation(ALL_AGAIN)],
    *[shows_instance(ALL_AGAIN), ["grants", 2], ["done jobs", *range(13), 0, 1, 3, 3, 1, 1, 2, 3]],
    *[["job", 14, 2, 1, 1, "forward"], ["job", 17, 2, 1, 2, "undo"], ["job", 18, 2, 1, 3, "forward"]],
    *[["job", 15, 2, 3, 1, "forward"], ["job", 16, 2, 3, 2, "undo"], ["job", 20, 2, 3, 3, "forward"]],
    # Each undo removes what its change made; the machine is made anew on the same disk, and the ports on it.
    *[does(16, "remove", "port", "CP_A_mgmt", "VDU_A", 3, "r16"), does(17, "remove", "compute", "VDU_A", "VDU_A", 3, "r15")],
    *[does(18, "create", "compute", "VDU_A", "VDU_A", 3, "r14"), does(19, "create", "port", "CP_A_data", "VDU_A", 3, "r19", "r1")],
    *[does(20, "create", "port", "CP_A_mgmt", "VDU_A", 3, "r19", "r2")],
)
AT_DISK = [*GROWN[:3], forward(0, 1, "intent"), "forceful"]
for title, job, end, count, jobs in [
    ("the abort comes too late", FIRM, ["done", 14], 2, 17),
    ("the job is aborted", SLOW, ["aborted"], 2, 18),
]:
    stopped = [*AT_DISK, forward(0, 1, *end), "FAILED_TEMP"]
    left = {1: 1, 2: 1, 3: 1} if end[0] == "done" else {0: 2, 1: 1, 2: 1, 3: 1}
    again = [*stopped, "PROCESSING", *GROWING.worked("forward", left, 15), "COMPLETED"]
    before, behind = [*FIRST, (GROWING, stopped)], [*FIRST, (GROWING, again)]
    run(
        "a job of a scaling out runs and is to be aborted: %s" % title,
        *[work(13, job), *INSTANTIATED_SITE, asked_for(SCALE_OUT, GROWING, 3), worked_on(ABORT_2, GROWING, count), has(before), ["calls", 14, 14, 1]],
        *[*shows_operation(before), shows_instance(before), *refuses(SCALE_OUT, CONFLICT, "an operation is ongoing")],
        *[worked_on(AGAIN_2, GROWING, 2 * len(left) + 1), has(behind), ["job count", jobs], *shows_operation(behind), shows_instance(behind)],
        *refuses(ABORT_2, CONFLICT, "operation is COMPLETED"),
    )
# The machine is lost, the work stops, and the operation is given up: a disk stands too much.
GIVEN_UP = [*GROWN[:6], forward(1, 1, "call failed"), forward(1, 1, "not begun"), "FAILED_TEMP", "FAILED"]
OUT_OF_STEP = [*FIRST, (GROWING, GIVEN_UP)]
run(
    "behind a scaling out that was given up the instance is out of step, and what stands is shown",
    *[work(14, LOST), *INSTANTIATED_SITE, asked_for(SCALE_OUT, GROWING, 7), rounds(1, FAIL_2), ["told", in_pieces(view_of(OUT_OF_STEP, OCCURRENCE % 2))]],
    *[has(OUT_OF_STEP), shows_instance(OUT_OF_STEP)],
    *refused_all([SCALE_OUT, SCALE_IN, levelling("small"), levelling("normal")], CONFLICT, "instance is out of step"),
    *refused_all([operating("STOPPED"), operating("STARTED")], CONFLICT, "instance is out of step"),
    *[act for it in (AGAIN_2, BACK_2, FAIL_2, CANCEL_2) for act in refuses(it, CONFLICT, "operation is FAILED")],
)
