"""The runs of stopping and starting an instance."""
from run_operations import *

begin(__name__)

STOP_IT, START_IT = operating("STOPPED"), operating("STARTED")
STOPPING = Operation(2, ("operate", False, 0), powering(TURN_OFF, "A1", "A2", "B1"))
STARTING_IT = Operation(3, ("operate", True, 0), powering(TURN_ON, "A1", "A2", "B1"))
STOPPED = [*FIRST, (STOPPING, STOPPING.through(14))]
STARTED = [*STOPPED, (STARTING_IT, STARTING_IT.through(17))]
assert len(STOPPING.changes) == 3


def modified(serial, vdu, name):
    at = {"resourceId": name, "vimConnectionId": "vim1"}
    return {"changeType": "MODIFIED", "computeResource": at, "id": "VDU_%s-%d" % (vdu, serial), "vduId": "VDU_" + vdu}


STOPPED_VIEW = {
    "_links": {"self": {"href": OCCURRENCE % 2}, "vnfInstance": {"href": INSTANCE % 1}}, "grantId": "g2", "id": (OCCURRENCE % 2).rsplit("/", 1)[1],
    "isAutomaticInvocation": False, "isCancelPending": False, "operation": "OPERATE", "operationState": "COMPLETED", "startTime": START,
    "operationParams": {"changeStateTo": "STOPPED"}, "stateEnteredTime": START, "vnfInstanceId": (INSTANCE % 1).rsplit("/", 1)[1],
    "resourceChanges": {
        "affectedVirtualLinks": [], "affectedVirtualStorages": [], "affectedVnfcs": [modified(1, "A", "r6"), modified(2, "A", "r7"), modified(1, "B", "r8")],
    },
}
OTHERS = [
    (scaling(), CONFLICT, "instance is STOPPED"), (scaling("IN"), CONFLICT, "instance is STOPPED"), (levelling("small"), CONFLICT, "instance is STOPPED"),
    (levelling("normal"), CONFLICT, "instance is STOPPED"), (aspects(1), CONFLICT, "instance is STOPPED"),
    (scaling("OUT", 10), CONFLICT, "instance is STOPPED"),
    (STOP_IT, UNPROCESSABLE, "nothing to do"), (to_instance("instantiate", SIMPLE), CONFLICT, "instance is INSTANTIATED"),
]
run(
    "an instance is stopped, shown so, and not scaled then",
    *[*INSTANTIATED_SITE, *refuses(START_IT, UNPROCESSABLE, "nothing to do"), asked_for(STOP_IT, STOPPING), has(STOPPED), shows_instance(STOPPED)],
    *[answers(request("GET", OCCURRENCE % 2), showing(compact(STOPPED_VIEW))), *[act for it in OTHERS for act in refuses(*it)]],
    *[act for task in ("rollback", "retry", "fail") for act in refuses(to_occurrence(2, task), CONFLICT, "operation is COMPLETED")],
    *[does(13, "stop", "compute", "VDU_A", "VDU_A", 1, "r6"), does(14, "stop", "compute", "VDU_A", "VDU_A", 2, "r7")],
    *[does(15, "stop", "compute", "VDU_B", "VDU_B", 1, "r8"), ["job count", 16]],
)
run(
    "a stopped instance is started again",
    *[*INSTANTIATED_SITE, asked_for(STOP_IT, STOPPING), asked_for(START_IT, STARTING_IT), has(STARTED), *shows_operation(STARTED), shows_instance(STARTED)],
    *[does(16, "start", "compute", "VDU_A", "VDU_A", 1, "r6"), does(17, "start", "compute", "VDU_A", "VDU_A", 2, "r7")],
    *[does(18, "start", "compute", "VDU_B", "VDU_B", 1, "r8"), *refuses(START_IT, UNPROCESSABLE, "nothing to do")],
)
for stop, word in (1, "FORCEFUL"), (2, "GRACEFUL"):
    operation = Operation(2, ("operate", False, stop), STOPPING.changes)
    stopped = [*FIRST, (operation, operation.through(14))]
    run(
        "how an instance is to be stopped is recorded and shown, and changes nothing else: %s" % word,
        *[*INSTANTIATED_SITE, asked_for(to_instance("operate", {"changeStateTo": "STOPPED", "stopType": word}), operation), has(stopped)],
        *[*shows_operation(stopped), shows_instance(stopped)],
    )
GRANT = '{"id":"g2","updateResources":[%s]}' % ",".join('{"resourceDefinitionId":"d%d","vimConnectionId":"vim1"}' % it for it in range(3))
STOP_BODY = (
    '{"_links":{"vnfInstance":{"href":"%s"},"vnfLcmOpOcc":{"href":"%s"}},"addResources":[],"flavourId":"simple","isAutomaticInvocation":false,"operat'
    'ion":"OPERATE","removeResources":[],"updateResources":[{"id":"d0","resource":{"resourceId":"r6","vimConnectionId":"vim1"},"resourceTemplateId":"'
    'VDU_A","type":"COMPUTE","vduId":"VDU_A"},{"id":"d1","resource":{"resourceId":"r7","vimConnectionId":"vim1"},"resourceTemplateId":"VDU_A","type":"'
    'COMPUTE","vduId":"VDU_A"},{"id":"d2","resource":{"resourceId":"r8","vimConnectionId":"vim1"},"resourceTemplateId":"VDU_B","type":"COMPUTE","vduId'
    '":"VDU_B"}],"vnfInstanceId":"%s","vnfLcmOpOccId":"%s","vnfdId":"vnfd-1"}\n'
) % (INSTANCE % 1, OCCURRENCE % 2, (INSTANCE % 1).rsplit("/", 1)[1], (OCCURRENCE % 2).rsplit("/", 1)[1])
run(
    "what is to be stopped is asked of the orchestrator in the list of updates",
    *[*INSTANTIATED_SITE, ["door", STOP_IT], ["says", 201, "", GRANT], go("once", "--journal", "j", "--rounds", "9"), ["status", 0], ["bodies", STOP_BODY]],
    *[has(STOPPED)],
)

# ---- A heal starts what stays, and starts the instance

STARTS = Operation(3, ("heal", None, [(0, 2)]), [*making("A3"), *powering(TURN_ON, "A1", "B1"), *removing("A2")])
STARTED_BY_HEAL = [*STOPPED, (STARTS, STARTS.through(17))]
run(
    "a heal of a stopped instance starts what stays, and the instance is STARTED",
    *[*INSTANTIATED_SITE, asked_for(STOP_IT, STOPPING), asked_for(healing("A2"), STARTS), has(STARTED_BY_HEAL), *shows_operation(STARTED_BY_HEAL)],
    *[shows_instance(STARTED_BY_HEAL), does(20, "start", "compute", "VDU_A", "VDU_A", 1, "r6"), does(21, "start", "compute", "VDU_B", "VDU_B", 1, "r8")],
)

# ---- What is stopped by halves is out of step

TWO_STOPPED = [*STOPPING.through(14)[:6], forward(0, 1, "done", 14), forward(1, 1, "done", 15), forward(2, 1, "broken", 7), "FAILED_TEMP", "FAILED"]
BY_HALVES = [*FIRST, (STOPPING, TWO_STOPPED)]
ALL_STARTED = Operation(3, ("heal", None, [(1, 1)]), [*making("B2"), *powering(TURN_ON, "A1", "A2"), *removing("B1")])
HEALED = [*BY_HALVES, (ALL_STARTED, ALL_STARTED.through(17))]
run(
    "an instance that was stopped by halves stays STARTED and out of step, and a heal starts what was stopped",
    *[work(15, BREAKING), *INSTANTIATED_SITE, asked_for(STOP_IT, STOPPING, 9), rounds(1, to_occurrence(2, "fail")), has(BY_HALVES)],
    *[*shows_operation(BY_HALVES)],
    *[shows_instance(BY_HALVES)],
    *[*[act for it in (STOP_IT, START_IT, scaling(), levelling("normal")) for act in refuses(it, CONFLICT, "instance is out of step")]],
    *[asked_for(healing("B1"), ALL_STARTED), has(HEALED), *shows_operation(HEALED), shows_instance(HEALED)],
)
# Its three changes are of one phase: the last is undone first.
UNDONE = [*TWO_STOPPED[:-1], "ROLLING_BACK", undo(1, 2, "intent"), undo(0, 2, "intent"), undo(1, 2, "done", 17), undo(0, 2, "done", 18), "ROLLED_BACK"]
ROLLED = [*FIRST, (STOPPING, UNDONE)]
run(
    "what was stopped is started by a rollback",
    *[work(15, BREAKING), *INSTANTIATED_SITE, asked_for(STOP_IT, STOPPING, 9), worked_on(to_occurrence(2, "rollback"), STOPPING, 5), has(ROLLED)],
    *[*shows_operation(ROLLED), shows_instance(ROLLED), does(16, "start", "compute", "VDU_A", "VDU_A", 2, "r7")],
    *[does(17, "start", "compute", "VDU_A", "VDU_A", 1, "r6")],
    *refuses(START_IT, UNPROCESSABLE, "nothing to do"),
)
