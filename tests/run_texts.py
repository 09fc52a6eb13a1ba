"""What the runs share that are written beside this: texts that have a name, views, the steps of occurrence 1, and acts."""
import itertools
import json

import cases
from cases import latin, name, u8, u16, u32, u64
from run_parts import *

CHANGES = 13
CHOICES = "old", "new", "torn"


# ---- Texts

MADE = let("MADE", [HEADER, "\0"])
# A descriptor without a machine.
SIMPLE_VNFD = name("vnfd-1") + name("Example") + name("Edge Router") + name("1.0") + name("1.0") + name("simple")
ONBOARDED = let("ONBOARDED", record(1, SIMPLE_VNFD, bytes(10), u16(1), name("default"), u16(0)))
JOURNAL = let("JOURNAL", [HEADER, ONBOARDED, "\0"])
DESCRIPTOR_TEXT = (
    '{"topology_template":{"node_templates":{"VNF":{"type":"example.Vnf","properties":{"descriptor_id":"vnfd-1","provider":"Example",'
    '"product_name":"Edge Router","software_version":"1.0","descriptor_version":"1.0","flavour_id":"simple"}}}}}'
)
DESCRIPTOR = let("DESCRIPTOR", DESCRIPTOR_TEXT)

INSTANCES = "/vnflcm/v1/vnf_instances"
OCCURRENCES = "/vnflcm/v1/vnf_lcm_op_occs"
INSTANCE = INSTANCES + "/00000007-766d-8001-8000-00000000000%d"
OCCURRENCE = OCCURRENCES + "/00000007-766d-8002-8000-00000000000%d"
JSON = "application/json"
CLOSE = "Connection: close\r\n"
BODY = '{"vnfdId":"vnfd-1","vnfInstanceName":"edge-1"}'


def request(method, path, body=None, head=""):
    """A request, with the length of its body where it has one."""
    length = "" if body is None else "Content-Length: %d\r\n" % len(body)
    return "%s %s HTTP/1.1\r\n%s%s\r\n%s" % (method, path, head, length, body or "")


CREATE_TEXT = request("POST", INSTANCES, BODY, "Host: vnfm.example\r\nContent-Type: application/json\r\n")
CREATE = let("CREATE", CREATE_TEXT)


def created_answer(number, line=""):
    """The answer that creates the instance of this number."""
    path = INSTANCE % number
    view = (
        '{"_links":{"instantiate":{"href":"%s/instantiate"},"self":{"href":"%s"}},"id":"%s","instantiationState":"NOT_INSTANTIATED",'
        '"vnfInstanceName":"edge-1","vnfProductName":"Edge Router","vnfProvider":"Example","vnfSoftwareVersion":"1.0","vnfdId":"vnfd-1",'
        '"vnfdVersion":"1.0"}'
    ) % (path, path, path.rsplit("/", 1)[1])
    head = "HTTP/1.1 201 Created\r\nLocation: %s\r\nContent-Type: application/json\r\nContent-Length: 422\r\n%s\r\n"
    return head % (path, line) + view


CREATED = [None] + [let("CREATED_%d" % n, created_answer(n)) for n in range(1, 5)]
LAST_CREATED = let("LAST_CREATED", created_answer(1, CLOSE))
CREATION = [None] + [let("CREATION_%d" % n, record(2, u64(n), name("vnfd-1"), u8(1), name("edge-1"), u8(0))) for n in range(1, 5)]
JOURNALS = [JOURNAL] + [let("JOURNAL_%d" % n, [HEADER, ONBOARDED] + CREATION[1 : n + 1] + ["\0"]) for n in range(1, 5)]
# The onboarding of the descriptor without a machine, and the creation of an instance of it; a journal of format 1 that has them, and what it is migrated to.
EVENTS = [
    cases.event(1, SIMPLE_VNFD, bytes(10), u16(1), name("default"), u16(0), moment=NOW),
    cases.event(2, u64(1), name("vnfd-1"), u8(1), name("edge-1"), u8(0), moment=NOW),
]
OLD_JOURNAL = let("OLD_JOURNAL", [OLD_HEADER, *map(in_old_record, EVENTS), "\0"])
NEW_JOURNAL = let("NEW_JOURNAL", [HEADER, packed(*EVENTS), "\0"])


def told(count):
    """The answers that create the first so many instances."""
    return CREATED[1 : count + 1]


# The records of occurrence 1, an INSTANTIATE of instance 1 without a machine, and of its states.
STATES = dict(PROCESSING=1, COMPLETED=2, FAILED_TEMP=3, FAILED=4, ROLLING_BACK=5, ROLLED_BACK=6)


def moved(state, occurrence=1, **more):
    return record(11, u64(occurrence), u8(STATES[state]), **more)


ASKED = let("ASKED", record(4, u64(1), u64(1), u8(0), u8(1), name("simple"), u8(0), u16(0)))
GRANT_LATER = let("GRANT_LATER", record(5, u64(1), u8(0), u16(4), b"/g/1"))
TROUBLE_RECORD = record(5, u64(1), u8(1))
TROUBLE = let("TROUBLE", TROUBLE_RECORD)
NOT_COVERING = let("NOT_COVERING", record(5, u64(1), u8(2)))
GRANTED = let("GRANTED", record(6, u64(1), name("g1"), u8(0), u16(0)))
DENIED = let("DENIED", record(7, u64(1)))
CANCELLED = let("CANCELLED", record(12, u64(1), u8(0)))
FORCED = let("FORCED", record(12, u64(1), u8(1)))
DELETED = let("DELETED", record(3, u64(1)))
MOVED = {state: let("TO_" + state, moved(state)) for state in STATES}
FAILED_LATER = let("FAILED_LATER", moved("FAILED", moment=NOW + 1000))
# Occurrence 2, a TERMINATE of instance 1.
TERMINATING = let("TERMINATING", record(4, u64(2), u64(1), u8(0), u8(6), u8(1), u8(0), u16(0)))
GRANTED_2 = let("GRANTED_2", record(6, u64(2), name("g2"), u8(0), u16(0)))
CANCELLED_2 = let("CANCELLED_2", record(12, u64(2), u8(0)))
MOVED_2 = {state: let("TO_%s_2" % state, moved(state, 2)) for state in ("PROCESSING", "COMPLETED", "FAILED_TEMP")}
# The edge router's instantiation at its default level: 2 links, 3 storages, 3 machines and 5 ports are made. A change has the number of its kind, of
# its template and of its VDU, and its serial number.
NO_VDU = 65_535
PLAN = [(0, 0, NO_VDU, 0), (0, 1, NO_VDU, 0), (1, 0, 0, 1), (1, 0, 0, 2), (1, 1, 1, 1), (2, 0, 0, 1), (2, 0, 0, 2), (2, 0, 1, 1)]
PLAN += [(3, 0, 0, 1), (3, 1, 0, 1), (3, 0, 0, 2), (3, 1, 0, 2), (3, 2, 1, 1)]
PHASES = [it[0] for it in PLAN]


def change(kind, template, vdu, serial):
    return u8(kind) + u8(0) + u8(kind) + u16(template) + u16(vdu) + u32(serial)


TEMPLATES = dict(link=("net_data", "net_mgmt"), storage=("STO_A", "STO_B"), port=("CP_A_data", "CP_A_mgmt", "CP_B_mgmt"))
MACHINES = "VDU_A", "VDU_B"
# Of what each change of it is made: the number of the change that makes the disk of a machine, and the machine and the network of a port.
MADE_OF = [(), (), (), (), (), (2,), (3,), (4,), (5, 0), (5, 1), (6, 0), (6, 1), (7, 1)]


def does_change(place, verb, number, serial, *on):
    """The job at this place does this to what a change of that plan makes."""
    kind, template, vdu, _ = PLAN[number]
    word = ("link", "storage", "compute", "port")[kind]
    machine = "" if vdu == NO_VDU else MACHINES[vdu]
    # (what a machine is made of is the VDU itself)
    return does(place, verb, word, TEMPLATES[word][template] if word in TEMPLATES else machine, machine, serial, *on)


def makes(place, number, serial=None, jobs=0):
    """The job at this place makes the change of this number, of that serial number, where each change before it was made by one job, behind so many."""
    return does_change(place, "create", number, PLAN[number][3] if serial is None else serial, *["r%d" % (jobs + it + 1) for it in MADE_OF[number]])


def removes(place, number, resource):
    """The job at this place removes this resource, which the change of that number made."""
    return does_change(place, "remove", number, PLAN[number][3], resource)


PLANNED = b"".join(change(*it) for it in PLAN)
ROUTER_ASKED = let("ROUTER_ASKED", record(4, u64(1), u64(1), u8(0), u8(1), name("simple"), u8(0), u16(CHANGES), PLANNED))
ROUTER_GRANTED = let("ROUTER_GRANTED", record(6, u64(1), name("g1"), u8(1), name("vim1"), u8(0), u16(CHANGES), bytes(CHANGES)))

MALFORMED = problem("MALFORMED", "400 Bad Request", "malformed request", CLOSE)
TOO_LARGE = problem("TOO_LARGE", "413 Content Too Large", "request too large", CLOSE)
FAULT = problem("FAULT", "500 Internal Server Error", "journal fault", CLOSE)
LAST_NO_RESOURCE = problem("LAST_NO_RESOURCE", "404 Not Found", "no such resource", CLOSE)
BAD, NOT_FOUND, CONFLICT, UNPROCESSABLE = "400 Bad Request", "404 Not Found", "409 Conflict", "422 Unprocessable Content"
NOT_ALLOWED, UNSUPPORTED = "405 Method Not Allowed\r\nAllow: ", "415 Unsupported Media Type"
NO_RESOURCE = problem("NO_RESOURCE", NOT_FOUND, "no such resource")
NO_INSTANCE = problem("NO_INSTANCE", NOT_FOUND, "no such instance")
NO_OCCURRENCE = problem("NO_OCCURRENCE", NOT_FOUND, "no such occurrence")
NO_TASK = problem("NO_TASK", NOT_FOUND, "task is not supported")
ONLY_POST = problem("ONLY_POST", NOT_ALLOWED + "POST", "method not allowed")
ONLY_DELETE_GET = problem("ONLY_DELETE_GET", NOT_ALLOWED + "DELETE, GET", "method not allowed")
ONGOING = problem("ONGOING", CONFLICT, "an operation is ongoing")
INSTANTIATED = problem("INSTANTIATED", CONFLICT, "instance is INSTANTIATED")
IS = {state: problem("IS_" + state, CONFLICT, "operation is " + state) for state in ["STARTING", *STATES]}
NO_JSON = problem("NO_JSON", BAD, "malformed JSON")
BAD_VNFD = problem("BAD_VNFD", BAD, "bad vnfdId")
NO_VNFD = problem("NO_VNFD", BAD, "missing vnfdId")
UNKNOWN_VNFD = problem("UNKNOWN_VNFD", UNPROCESSABLE, "vnfdId is not onboarded")
NOT_JSON = problem("NOT_JSON", UNSUPPORTED, "body must be application/json")
NO_MODE = problem("NO_MODE", BAD, "missing cancelMode")
BAD_MODE = problem("BAD_MODE", BAD, "bad cancelMode")
NO_FILTER = problem("NO_FILTER", BAD, "filter is not served")
EMPTY_LIST = shows("EMPTY_LIST", "[]")

SIMPLE = '{"flavourId":"simple"}'
GRACEFUL, FORCEFUL = '{"cancelMode":"GRACEFUL"}', '{"cancelMode":"FORCEFUL"}'
INSTANTIATE = let("INSTANTIATE", request("POST", INSTANCE % 1 + "/instantiate", SIMPLE))


def accepted(number):
    return "HTTP/1.1 202 Accepted\r\nLocation: %s\r\nContent-Length: 0\r\n\r\n" % (OCCURRENCE % number)


ACCEPTED = let("ACCEPTED", accepted(1))
RETRY = let("RETRY", request("POST", OCCURRENCE % 1 + "/retry"))
ROLLBACK = let("ROLLBACK", request("POST", OCCURRENCE % 1 + "/rollback"))
FAIL = let("FAIL", request("POST", OCCURRENCE % 1 + "/fail"))
CANCEL = let("CANCEL", request("POST", OCCURRENCE % 1 + "/cancel", GRACEFUL))
ABORT = let("ABORT", request("POST", OCCURRENCE % 1 + "/cancel", FORCEFUL))
TAKEN_UP = let("TAKEN_UP", "HTTP/1.1 202 Accepted\r\nContent-Length: 0\r\n\r\n")
SHOW = let("SHOW", request("GET", OCCURRENCE % 1))
DELETE = let("DELETE", request("DELETE", INSTANCE % 1))
GONE = let("GONE", "HTTP/1.1 204 No Content\r\n\r\n")


# ---- Views

def compact(value):
    """JSON with members in the order of their names, without spaces."""
    return json.dumps(value, sort_keys=True, separators=(",", ":"))


def links(path, tasks, **more):
    """The links of a resource to itself and to its tasks, whose paths are their names in small letters."""
    spelled = {task: "".join("_" + c.lower() if c.isupper() else c for c in task) for task in tasks}
    return {"self": {"href": path}, **{task: {"href": path + "/" + spelled[task]} for task in tasks}, **more}


TASKS = {state: [] for state in STATES}
TASKS.update({state: ["cancel"] for state in ("STARTING", "PROCESSING", "ROLLING_BACK")}, FAILED_TEMP=["fail", "retry", "rollback"])
START = "2023-11-14T22:13:20.000Z"


def occurrence_view(state, error=None, mode=None, granted=True, changes=None, entered=START):
    """Occurrence 1, with its error, as its detail and its status, the mode of the cancel in force and what it changed."""
    path = OCCURRENCE % 1
    view = {
        "_links": links(path, TASKS[state], vnfInstance={"href": INSTANCE % 1}),
        "id": path.rsplit("/", 1)[1],
        "isAutomaticInvocation": False,
        "isCancelPending": mode is not None,
        "operation": "INSTANTIATE",
        "operationParams": {"flavourId": "simple"},
        "operationState": state,
        "resourceChanges": changes or {"affectedVirtualLinks": [], "affectedVirtualStorages": [], "affectedVnfcs": []},
        "startTime": START,
        "stateEnteredTime": entered,
        "vnfInstanceId": (INSTANCE % 1).rsplit("/", 1)[1],
    }
    if error:
        view["error"] = {"detail": error[0], "status": error[1]}
    if mode:
        view["cancelMode"] = mode
    if granted:
        view["grantId"] = "g1"
    return view


def instance_view(info=None):
    """Instance 1, with what it has where it is INSTANTIATED."""
    path = INSTANCE % 1
    tasks = ["instantiate"] if info is None else ["heal", "operate", "scale", "scaleToLevel", "terminate"]
    view = {
        "_links": links(path, tasks),
        "id": path.rsplit("/", 1)[1],
        "instantiationState": "NOT_INSTANTIATED" if info is None else "INSTANTIATED",
        "vnfInstanceName": "edge-1",
        "vnfProductName": "Edge Router",
        "vnfProvider": "Example",
        "vnfSoftwareVersion": "1.0",
        "vnfdId": "vnfd-1",
        "vnfdVersion": "1.0",
    }
    if info is not None:
        view["instantiatedVnfInfo"] = {"extCpInfo": [], "flavourId": "simple", "vnfState": "STARTED", **info}
    return view


# The resources of the edge router in the order of its plan, but for its ports, which aren't shown: kinds, identifiers and templates.
RESOURCES = [("network", it, it) for it in ("net_data", "net_mgmt")]
RESOURCES += [("storage", "VDU_A-1/STO_A", "STO_A"), ("storage", "VDU_A-2/STO_A", "STO_A"), ("storage", "VDU_B-1/STO_B", "STO_B")]
RESOURCES += [("compute", "VDU_A-1", "VDU_A"), ("compute", "VDU_A-2", "VDU_A"), ("compute", "VDU_B-1", "VDU_B")]
TEMPLATE = {"network": "vnfVirtualLinkDescId", "storage": "virtualStorageDescId", "compute": "vduId"}
AFFECTED = {"network": "affectedVirtualLinks", "storage": "affectedVirtualStorages", "compute": "affectedVnfcs"}
HELD = {"network": "vnfVirtualLinkResourceInfo", "storage": "virtualStorageResourceInfo", "compute": "vnfcResourceInfo"}


def entry(resource, job, **more):
    """A resource, which this job made."""
    kind, identifier, template = resource
    at = {"resourceId": "r%d" % job, "vimConnectionId": "vim1"}
    return {"id": identifier, kind + "Resource": at, TEMPLATE[kind]: template, **more}


def changed(jobs):
    """What an instantiation changed, by the jobs that made the changes that stand."""
    lists = {it: [] for it in AFFECTED.values()}
    for resource, job in zip(RESOURCES, jobs):
        if job:
            lists[AFFECTED[resource[0]]].append(entry(resource, job, changeType="ADDED"))
    return lists


def held(count):
    """What an instance has of which the first so many changes stand, each made by the job of its number."""
    lists = {it: [] for it in HELD.values()}
    for place, resource in enumerate(RESOURCES[:count]):
        disks = {"storageResourceIds": [RESOURCES[place - 3][1]]} if resource[0] == "compute" else {}
        lists[HELD[resource[0]]].append(entry(resource, place + 1, **disks))
    return {"scaleStatus": [{"aspectId": "workers", "scaleLevel": 1}], **lists}


# ---- Steps of occurrence 1, as crates/case_lives/src/steps.rt reads them

def forward(change, attempt, *at):
    return ["forward", change, attempt, *at]


def undo(change, attempt, *at):
    return ["undo", change, attempt, *at]


def in_order(way, first, last):
    """The changes from this one to before that one, in the order in which they are attempted: the last is undone first."""
    return range(first, last) if way == "forward" else reversed(range(first, last))


def intents(first, last, attempt=1, way="forward"):
    """The changes from this one to before that one are each attempted."""
    return [[way, it, attempt, "intent"] for it in in_order(way, first, last)]


def ends(first, last, job, attempt=1, way="forward"):
    """They are each done, by this job and those behind it."""
    return [[way, it, attempt, "done", job + n] for n, it in enumerate(in_order(way, first, last))]


# The instantiation of the edge router to its end, step by step: changes of one phase are attempted as long as fewer than four attempts are open, and
# else the attempt that began first is looked at. A phase begins once all before it is done.
WHOLE = ["asked", "granted", "PROCESSING"]
WHOLE += [*intents(0, 2), *ends(0, 2, 1), *intents(2, 5), *ends(2, 5, 3), *intents(5, 8), *ends(5, 8, 6)]
WHOLE += [*intents(8, 12), *ends(8, 9, 9), *intents(12, 13), *ends(9, 13, 10), "COMPLETED"]


def intents_back(first, last):
    return intents(first, last, 2, "undo")


def ends_back(first, last, job):
    return ends(first, last, job, 2, "undo")


# All of it undone: the fifth of the ports is begun once the first is removed.
WHOLE_BACK = ["ROLLING_BACK", *intents_back(9, 13), *ends_back(12, 13, 14), *intents_back(8, 9), *ends_back(8, 12, 15)]
WHOLE_BACK += [*intents_back(5, 8), *ends_back(5, 8, 19), *intents_back(2, 5), *ends_back(2, 5, 22), *intents_back(0, 2), *ends_back(0, 2, 25)]
WHOLE_BACK += ["ROLLED_BACK"]


def made(count):
    """The operation with so many changes made, each phase of them to its end, and none begun of the next."""
    assert count in (0, 2, 5, 8, 13)
    return WHOLE[: 3 + 2 * count]


def worked(way, attempts, job, lost=None, phases=PHASES):
    """These changes, each with the number of its attempt, are made or undone, by this job and those behind it; nothing is open before and behind. The
    first attempt at the change that is lost has no job, which a look tells, and the change is attempted once more."""
    attempts, steps, open_, left = dict(attempts), [], [], list(attempts if way == "forward" else reversed(attempts))
    while left or open_:
        if left and len(open_) < 4 and all(phases[it] == phases[left[0]] for it, _ in open_):
            change = left.pop(0)
            open_.append((change, job if change != lost else None))
            steps.append([way, change, attempts[change], "intent"])
            job += change != lost
        else:
            change, by = open_.pop(0)
            steps.append([way, change, attempts[change], *(["done", by] if by else ["not begun"])])
            if by is None:
                lost = None
                attempts[change] += 1
                left.insert(0, change)
    return steps


def make(first, last, attempt, job):
    """The changes from this one to before that one are made, each at that attempt, by this job and those behind it."""
    return worked("forward", dict.fromkeys(range(first, last), attempt), job)


def unmake(first, last, attempt, job):
    """The same changes are undone, the last of them first."""
    return worked("undo", dict.fromkeys(range(first, last), attempt), job)


assert make(0, 13, 1, 1) == WHOLE[3:-1] and unmake(0, 13, 2, 14) == WHOLE_BACK[1:-1]


def step_behind(step):
    """The step that goes on with this one within several that are spelled in one: of the next change in its way, the next job's where it is done."""
    way, change, attempt, at, *job = step
    return [way, change + (1 if way == "forward" else -1), attempt, at, *[it + 1 for it in job]]


def row_of(all_steps, width):
    """How many of these steps, in groups of so many, go on with those of the first group."""
    count = width
    while all_steps[count : count + width] == [step_behind(it) for it in all_steps[count - width : count]]:
        count += width
    return count


def spelled(all_steps):
    """The steps as they are stored: of several that go on with each other, intents, ends that are done, or ends and intents in turn, each row in one."""
    spelled_, rest = [], list(all_steps)
    while rest:
        front = [it[3] if isinstance(it, list) else it for it in rest[:2]]
        of, width = rest[0], 2 if front == ["done", "intent"] and rest[0][0] == rest[1][0] and rest[0][2] == rest[1][2] else 1
        count = 1 if front[0] not in ("done", "intent") else row_of(rest, width)
        if count == width == 2:
            count = width = 1
        if count == 1:
            spelled_.append(of)
        else:
            changes = [it[1] for it in rest[:count:width]]
            ahead = [abs(rest[1][1] - rest[0][1])] if width == 2 else []
            word = {1: "intents" if front[0] == "intent" else "done", 2: "in turn"}[width]
            spelled_.append([word, of[0], min(changes), max(changes) + 1, of[2], *of[4:], *ahead])
        rest = rest[count:]
    return spelled_


def each_step(all_steps):
    """The steps, each by itself."""
    for step in all_steps:
        if step[0] == "intents":
            yield from intents(*step[2:5], step[1])
        elif step[0] == "done":
            _, way, first, last, attempt, job = step
            yield from ends(first, last, job, attempt, way)
        elif step[0] == "in turn":
            _, way, first, last, attempt, job, ahead = step
            for end in ends(first, last, job, attempt, way):
                yield from (end, [way, end[1] + (ahead if way == "forward" else -ahead), attempt, "intent"])
        else:
            yield step


def jobs_by(all_steps):
    """For each change the job on whose resource it stands, or 0."""
    jobs = [0] * CHANGES
    for step in all_steps:
        if isinstance(step, list) and step[3] == "done":
            jobs[step[1]] = step[4] if step[0] == "forward" else 0
    return jobs


PIECES, FACES = {}, {}


def piece(text):
    """A part that several views have, by its name."""
    if text not in PIECES:
        PIECES[text] = let("PIECE_%d" % (len(PIECES) + 1), text)
    return PIECES[text]


def in_pieces_of(view):
    """A view, of which the parts that others have too are named."""
    text, parts = compact(view), []
    for member in ("_links", "resourceChanges"):
        spelled = compact(view[member])
        front, text = text.split(spelled, 1)
        parts += [front, piece(spelled)]
    return [*parts, piece(text)]


def face(state, steps, detail="", mode=None):
    """That occurrence 1, of which these are the steps, is shown so; each view has a name."""
    error = (detail, 500) if detail else None
    granted = "granted" in steps
    view = occurrence_view(state, error, mode, granted, changed(jobs_by(steps)))
    if compact(view) not in FACES:
        front = showing_front(len(compact(view)))
        FACES[compact(view)] = let("VIEW_%d" % (len(FACES) + 1), [front, *in_pieces_of(view)])
    return ["face", FACES[compact(view)]]


HOLDINGS = [shows("HOLDING_%d" % n, compact(instance_view(held(n)))) for n in range(CHANGES + 1)]
IDLE_VIEW = compact(instance_view())
IDLE = shows("IDLE", IDLE_VIEW)
idle = ["instance", IDLE]


def instantiated(count):
    return ["instance", HOLDINGS[count]]


# ---- Acts

def plan(*job):
    """What comes of a begin, in the words of crates/lcm_cases/src/preparing.rt."""
    return list(job)


TAKEN, LOST, SLOW, SLOWER, FIRM = plan("taken"), plan("lost"), plan("looks", 1), plan("looks", 3), plan("firm")
SLOW_AND_FIRM, BREAKING, BREAKING_AND_FIRM = plan("looks", 2, "firm"), plan("broken", 7), plan("broken", 7, "firm")
REFUSED, ARRIVED, ARRIVED_BREAKING = plan("refused", 9), plan("arrived", "looks", 1), plan("arrived", "broken", 7)


def work(before, *plans):
    """So many begins are taken, and those behind them come out like this."""
    return ["work", before, *plans]


def rounds(count, *texts):
    return ["rounds", count, *texts]


def asks(count):
    """The operation is asked for, and accepted, in a life of so many rounds."""
    return rounds(count, INSTANTIATE, ACCEPTED)


def task(count, text):
    """This task is asked for, and taken up."""
    return rounds(count, text, TAKEN_UP)


def talk(count, *pairs):
    """These requests come on one connection, and are told this."""
    return rounds(count, [it[0] for it in pairs], [it[1] for it in pairs])


def steps(*all_steps):
    return ["steps", *spelled(all_steps)]


def life(before, all_steps, *lost):
    """What was done since the site was made or renewed is a whole life of these steps, behind those before; and where an attempt of it had no job when it
    was stopped, all steps of it are these instead, attempt by attempt."""
    return ["life", *map(spelled, [before, all_steps]), *([list(map(spelled, lost))] if lost else [])]


def turns(expected):
    """Turns with these counts."""
    acts = []
    for counts, same in itertools.groupby(expected):
        acts.append(["times", len(list(same)), ["turn", *counts]])
    return acts


ACTED, WAITED, UNREACHED, NOTHING = (1, 0, 0), (0, 1, 0), (0, 0, 1), (0, 0, 0)


def at_records(first, last, *acts):
    return [["at records", first, last, act] for act in acts]


def once(text, *more):
    return ["once", text, *more]


def refused(line, detail):
    """The last command ended with 0, and its connection was told this refusal and hung up; the file stays."""
    return ["only answered", refusal(line, detail)]


def answers(text, answer, now=NOW):
    return ["answers", now, text, answer]


def go(*words):
    return ["go", *words]


def journal(*records):
    return [HEADER, ONBOARDED, *records, "\0"]
