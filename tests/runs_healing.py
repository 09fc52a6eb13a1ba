"""The runs of healing: machines that are named, partial ones, all of them, and what a heal is asked with, refused for and shown as."""
from run_operations import *
from runs_scaling import GROWING, OUT_OF_STEP, SCALE_OUT

begin(__name__)

FAIL_2 = to_occurrence(2, "fail")
# A scaling out whose machine was lost and that was given up: its disk stands, alone.
OUT_OF_STEP_SITE = [work(14, LOST), *INSTANTIATED_SITE, asked_for(SCALE_OUT, GROWING, 7), rounds(1, FAIL_2), has(OUT_OF_STEP)]

# ---- What a heal asks the orchestrator for, word for word

DISK_GONE = Operation(3, ("heal", None, [(0, 3)]), removing_parts([disk("A3")]))
BODY_OF_ONE = (
    '{"_links":{"vnfInstance":{"href":"/vnflcm/v1/vnf_instances/00000007-766d-8001-8000-000000000001"},"vnfLcmOpOcc":{"href":"/vnflcm/v1/vnf_lcm_op_'
    'occs/00000007-766d-8002-8000-000000000003"}},"addResources":[],"flavourId":"simple","isAutomaticInvocation":false,"operation":"HEAL","removeRes'
    'ources":[{"id":"d0","resource":{"resourceId":"r14","vimConnectionId":"vim1"},"resourceTemplateId":"STO_A","type":"STORAGE","vduId":"VDU_A"}],"u'
    'pdateResources":[],"vnfInstanceId":"00000007-766d-8001-8000-000000000001","vnfLcmOpOccId":"00000007-766d-8002-8000-000000000003","vnfdId":"vnfd-1"}'
)
GRANT_OF_ONE = '{"addResources":[],"id":"g3","removeResources":[{"resourceDefinitionId":"d0","vimConnectionId":"vim1"}],"updateResources":[]}'
HEALED = [*OUT_OF_STEP, (DISK_GONE, DISK_GONE.through(15))]
FOURTH = Operation(4, ("scale", OUT, "workers", 1), making("A4"))
HEAL_THIRD = healing("A3")
run(
    "a heal of the machine of which a disk is left removes that, and the next machine has the next serial number",
    *[*OUT_OF_STEP_SITE, asked_for(HEAL_THIRD, DISK_GONE), has(HEALED), *shows_operation(HEALED), shows_instance(HEALED)],
    *[does(14, "remove", "storage", "STO_A", "VDU_A", 3, "r14"), ["job count", 15], ["grants", 3]],
    *[asked_for(SCALE_OUT, FOURTH), has([*HEALED, (FOURTH, FOURTH.through(16))]), shows_instance([*HEALED, (FOURTH, FOURTH.through(16))])],
)
run(
    "a heal of one disk asks for a grant of its one removal, byte for byte, and takes five rounds",
    *[*OUT_OF_STEP_SITE, ["door", HEAL_THIRD], ["says", 201, "", GRANT_OF_ONE], go("once", "--journal", "j", "--rounds", "4")],
    *[["status", 0], ["told", accepted(3)], ["bodies", BODY_OF_ONE + "\n"], has([*OUT_OF_STEP, (DISK_GONE, DISK_GONE.through(15)[:-1])])],
    *[rounds(1), has(HEALED)],
)

# ---- Machines that are named, and all

LAST_A = Operation(2, ("heal", None, [(0, 2)]), [*making("A3"), *removing("A2")])
LAST_B = Operation(2, ("heal", None, [(1, 1)]), [*making("B2"), *removing("B1")])
BOTH = Operation(2, ("heal", "lost", [(1, 1), (0, 1)]), [*making("A3", "B2"), *removing("A1", "B1")])
for title, text, operation in [
    ("one that is named", healing("A2"), LAST_A),
    ("the only one of its kind", healing("B1"), LAST_B),
    ("two that are named, with a cause, in the order of the request", healing("B1", "A1", cause="lost"), BOTH),
]:
    healed = [*FIRST, (operation, operation.through(14))]
    run(
        "a heal makes machines anew and removes the old ones: %s" % title,
        *[*INSTANTIATED_SITE, asked_for(text, operation), has(healed), *shows_operation(healed), shows_instance(healed)],
        *[["job count", 13 + len(operation.changes)]],
    )
EIGHT = [*FIRST, (LAST_A, LAST_A.through(14))]
run(
    "the jobs of a heal make a machine on what they made, and remove another by its resources",
    *[*INSTANTIATED_SITE, asked_for(healing("A2"), LAST_A), has(EIGHT)],
    *[does(13, "create", "storage", "STO_A", "VDU_A", 3), does(14, "create", "compute", "VDU_A", "VDU_A", 3, "r14")],
    *[does(15, "create", "port", "CP_A_data", "VDU_A", 3, "r15", "r1"), does(16, "create", "port", "CP_A_mgmt", "VDU_A", 3, "r15", "r2")],
    *[does(17, "remove", "port", "CP_A_data", "VDU_A", 2, "r11"), does(18, "remove", "port", "CP_A_mgmt", "VDU_A", 2, "r12")],
    *[does(19, "remove", "compute", "VDU_A", "VDU_A", 2, "r7"), does(20, "remove", "storage", "STO_A", "VDU_A", 2, "r4")],
)
ALL_ANEW = [*making("A3", "A4", "B2"), *removing("A1", "A2", "B1")]
assert len(ALL_ANEW) == 22
EMPTY_NAMED = to_instance("heal", {"cause": None, "vnfcInstanceId": []})
for title, text, named in [
    ("none is named", healing(), []), ("the list is empty", EMPTY_NAMED, []), ("all are named", healing("A1", "A2", "B1"), [(0, 1), (0, 2), (1, 1)]),
    ("all are named, some twice", healing("B1", "A2", "B1", "A1", "A2"), [(1, 1), (0, 2), (0, 1)]),
]:
    operation = Operation(2, ("heal", None, named), ALL_ANEW)
    healed = [*FIRST, (operation, operation.through(14))]
    run(
        "a heal of all makes three machines anew by 22 changes: %s" % title,
        *[["room", 60], *INSTANTIATED_SITE, asked_for(text, operation), has(healed), *shows_operation(healed), shows_instance(healed), ["job count", 35]],
    )
# A machine that is named and a partial one are made anew together: the level asks for two machines.
PARTIAL_TOO = Operation(3, ("heal", None, [(0, 1)]), [*making("A4"), *removing_parts([disk("A1"), box("A1"), *ports("A1"), disk("A3")])])
run(
    "a heal removes a partial machine beside the one that is named",
    *[*OUT_OF_STEP_SITE, asked_for(healing("A1"), PARTIAL_TOO), has([*OUT_OF_STEP, (PARTIAL_TOO, PARTIAL_TOO.through(15))])],
    *[*shows_operation([*OUT_OF_STEP, (PARTIAL_TOO, PARTIAL_TOO.through(15))]), shows_instance([*OUT_OF_STEP, (PARTIAL_TOO, PARTIAL_TOO.through(15))])],
)

# ---- What a heal is shown as

MACHINE_2 = {"computeResource": {"resourceId": "r15", "vimConnectionId": "vim1"}, "id": "VDU_A-3", "vduId": "VDU_A", "changeType": "ADDED"}
OLD_2 = {"computeResource": {"resourceId": "r7", "vimConnectionId": "vim1"}, "id": "VDU_A-2", "vduId": "VDU_A", "changeType": "REMOVED"}
DISK_2 = {"id": "VDU_A-3/STO_A", "storageResource": {"resourceId": "r14", "vimConnectionId": "vim1"}, "virtualStorageDescId": "STO_A", "changeType": "ADDED"}
OLD_DISK_2 = {**DISK_2, "id": "VDU_A-2/STO_A", "storageResource": {"resourceId": "r4", "vimConnectionId": "vim1"}, "changeType": "REMOVED"}


def heal_view(params, state="COMPLETED"):
    return {
        "_links": {"self": {"href": OCCURRENCE % 2}, "vnfInstance": {"href": INSTANCE % 1}}, "grantId": "g2", "id": (OCCURRENCE % 2).rsplit("/", 1)[1],
        "isAutomaticInvocation": False, "isCancelPending": False, "operation": "HEAL", "operationState": state, "startTime": START, "operationParams": params,
        "resourceChanges": {"affectedVirtualLinks": [], "affectedVirtualStorages": [DISK_2, OLD_DISK_2], "affectedVnfcs": [MACHINE_2, OLD_2]},
        "stateEnteredTime": START, "vnfInstanceId": (INSTANCE % 1).rsplit("/", 1)[1],
    }


WITH_CAUSE = Operation(2, ("heal", "a \"lost\" one", [(0, 2)]), LAST_A.changes)
run(
    "a heal is shown with what it added and removed, and with the machines that it names",
    *[*INSTANTIATED_SITE, asked_for(healing("A2"), LAST_A)],
    *[answers(request("GET", OCCURRENCE % 2), showing(compact(heal_view({"vnfcInstanceId": ["VDU_A-2"]}))))],
)
run(
    "a heal with a cause is shown with that",
    *[*INSTANTIATED_SITE, asked_for(healing("A2", "A2", cause="a \"lost\" one"), WITH_CAUSE), has([*FIRST, (WITH_CAUSE, WITH_CAUSE.through(14))])],
    answers(request("GET", OCCURRENCE % 2), showing(compact(heal_view({"cause": "a \"lost\" one", "vnfcInstanceId": ["VDU_A-2"]})))),
)
# The new machine is made, and of the old one the port is removed and the rest isn't; on the way back the port is made again first.
HALF = [
    *["asked", "granted", "PROCESSING", *LAST_B.worked("forward", {0: 1, 1: 1, 2: 1, 3: 1}, 14), forward(4, 1, "intent"), forward(4, 1, "broken", 9)],
    "FAILED_TEMP",
]
HALF_TOLD = [*FIRST, (LAST_B, HALF)]
BACK = [*HALF, "ROLLING_BACK", *LAST_B.worked("undo", {0: 2, 1: 2, 2: 2, 3: 2}, 18), "ROLLED_BACK"]
run(
    "the undo of a removal makes the port again at its place, on the machine that stands and its network",
    *[work(17, REFUSED), *INSTANTIATED_SITE, asked_for(healing("B1"), LAST_B, 12), has(HALF_TOLD), *shows_operation(HALF_TOLD), shows_instance(HALF_TOLD)],
    *[worked_on(to_occurrence(2, "rollback"), LAST_B, 9), has([*FIRST, (LAST_B, BACK)]), *shows_operation([*FIRST, (LAST_B, BACK)])],
    *[does(16, "remove", "port", "CP_B_mgmt", "VDU_B", 1, "r13"), shows_instance([*FIRST, (LAST_B, BACK)])],
    *[does(17, "create", "port", "CP_B_mgmt", "VDU_B", 1, "r8", "r2"), does(18, "remove", "port", "CP_B_mgmt", "VDU_B", 2, "r16")],
    *[does(19, "remove", "compute", "VDU_B", "VDU_B", 2, "r15"), does(20, "remove", "storage", "STO_B", "VDU_B", 2, "r14")],
)

# ---- Refusals

UNKNOWN = "vnfcInstanceId names no VNFC"
run(
    "a heal is refused where it names a machine of which nothing stands",
    *INSTANTIATED_SITE,
    *[
        act
        for names in [
            *[["VDU_A-9"], ["VDU_A-1", "VDU_A-9"], ["VDU_A-0"], ["VDU_A-01"], ["VDU_A-"], ["VDU_A"], ["-1"], ["VDU_A-4294967296"], ["VDU_A-4294967295"]],
            *[["VDU_A-18446744073709551617"], ["VDU_C-1"], ["vdu_a-1"], ["VDU_A-1 "], [" VDU_A-1"], ["VDU_A-+1"], ["VDU_A--1"], ["VDU_A-1/STO_A"]],
            *[["net_data"], [""], ["-"], ["VDU_A_1"], ["VDU_B-2"], ["VDU_A-1", ""], ["VDU_A-1-1"]],
        ]
        for act in refuses(to_instance("heal", {"vnfcInstanceId": names}), UNPROCESSABLE, UNKNOWN)
    ],
    has(FIRST),
)
run(
    "a heal of an instance that is not INSTANTIATED is refused, whatever it names",
    SITE,
    *refused_all(
        [healing(), healing("A1"), healing("A9"), to_instance("heal", {"vnfcInstanceId": ["x"]})], CONFLICT, "instance is not INSTANTIATED"
    ),
)
run(
    "behind a heal the machines that were removed are named no more",
    *[*INSTANTIATED_SITE, asked_for(healing("A2"), LAST_A), *refuses(healing("A2"), UNPROCESSABLE, UNKNOWN)],
    *[*refuses(healing("A3", "A2"), UNPROCESSABLE, UNKNOWN)],
    *refuses(to_instance("heal", {"vnfcInstanceId": ["VDU_A-3", "VDU_A-4"]}), UNPROCESSABLE, UNKNOWN),
)
