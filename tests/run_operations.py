"""What the runs of scaling, healing, operating and terminating share: requests, plans that are written by hand, the records of an operation by its steps,
and the views behind them.

A machine is a letter of its VDU and its serial number, as `A3`. An operation has its number, what is asked for and its changes; its steps are spelled
as in run_texts.py, and its records are the events of tests/history.py. What is told is pairs of an operation and its steps, one behind the other.
"""
import json
import re

import answering
import history
import run_parts
import views
import working
from history import COMPUTE, LINK, NO_VDU, PORT, STORAGE, Change, Tag
from run_parts import in_record, shared
from run_texts import *
from runs_forward import SITE, troubled_in

begin(__name__)

DONE, BROKEN, ABORTED, NOT_BEGUN = range(4)
OUT, IN = range(2)
MAKE, REMOVE, TURN_ON, TURN_OFF = history.CREATE, history.REMOVE, history.START, history.STOP

# ---- Requests


def to_instance(task, body, number=1, head=""):
    """A request for this task of an instance."""
    return request("POST", INSTANCE % number + "/" + task, body if isinstance(body, str) else json.dumps(body, separators=(",", ":")), head)


def to_occurrence(number, task, body=None):
    return request("POST", OCCURRENCE % number + "/" + task, body)


def scaling(way="OUT", steps=None, aspect="workers"):
    return to_instance("scale", {"type": "SCALE_" + way, "aspectId": aspect, **({} if steps is None else {"numberOfSteps": steps})})


def levelling(level):
    return to_instance("scale_to_level", {"instantiationLevelId": level})


def aspects(*levels):
    return to_instance("scale_to_level", {"scaleInfo": [{"aspectId": "workers", "scaleLevel": it} for it in levels]})


def text_of(machine):
    return "VDU_%s-%s" % (machine[0], machine[1:])


def healing(*machines, **more):
    return to_instance("heal", {**more, **({"vnfcInstanceId": [text_of(it) for it in machines]} if machines else {})})


def operating(state):
    return to_instance("operate", {"changeStateTo": state})


def terminating(mode):
    return to_instance("terminate", {"terminationType": mode})


def refuses(text, line, detail):
    """The request is refused for this, and nothing is recorded."""
    return [answers(text, shared("REFUSED", refusal(line, detail))), ["stays"]]


def refused_all(texts, line, detail):
    """Each of these is."""
    return [act for it in texts for act in refuses(it, line, detail)]


# ---- Plans

LINK_PARTS = [(LINK, it, NO_VDU, 0) for it in range(2)]


def numbered(machine):
    return "AB".index(machine[0]), int(machine[1:])


def disk(machine):
    vdu, serial = numbered(machine)
    return STORAGE, vdu, vdu, serial


def box(machine):
    return (COMPUTE, 0, *numbered(machine))


def ports(machine):
    return [(PORT, it, *numbered(machine)) for it in ((0, 1) if machine[0] == "A" else (2,))]


def phase(number, verb, parts):
    return [Change(number, verb, *it) for it in parts]


def making(*machines):
    """The changes that make these machines: the storages, the machines, the ports."""
    return [
        *phase(1, MAKE, map(disk, machines)), *phase(2, MAKE, map(box, machines)),
        *phase(3, MAKE, [it for machine in machines for it in ports(machine)]),
    ]


def removing(*machines):
    """The changes that remove them, the other way round."""
    return [
        *phase(5, REMOVE, [it for machine in machines for it in ports(machine)]), *phase(6, REMOVE, map(box, machines)),
        *phase(7, REMOVE, map(disk, machines)),
    ]


def powering(verb, *machines):
    return phase(4, verb, map(box, machines))


LINKING, UNLINKING = phase(0, MAKE, LINK_PARTS), phase(8, REMOVE, LINK_PARTS)


def removing_parts(parts):
    """The changes that remove these parts, and no others of their machines."""
    at = {PORT: 5, COMPUTE: 6, STORAGE: 7, LINK: 8}
    return sorted([Change(at[it[0]], REMOVE, *it) for it in parts], key=lambda it: (it.phase, it.vdu, it.serial, it.item))


# ---- Operations

class Operation:
    """An operation of an instance: its number, what is asked for, its changes, who asks, and the place that is granted to each change."""

    def __init__(self, number, ask, changes, role=0, places=None):
        self.number, self.ask, self.changes, self.role = number, ask, changes, role
        self.places = places or [("vim1", "")] * len(changes)
        self.phases = [it.phase for it in changes]

    def event(self, step):
        """The event of a step."""
        if step == "asked":
            return "asked", self.number, 1, self.role, self.ask, self.changes
        if step == "granted":
            distinct = list(dict.fromkeys(self.places))
            return "granted", self.number, "g%d" % self.number, distinct, [distinct.index(it) for it in self.places]
        if step in ("graceful", "forceful"):
            return "cancel", self.number, ("graceful", "forceful").index(step)
        if isinstance(step, str):
            return "moved", self.number, views.STATES.index(step)
        way, change, attempt, at, *of = step
        tag = Tag(self.number, change, attempt, working.WAYS.index(way))
        if at in ("intent", "call failed"):
            return at, tag
        ends = {"done": lambda: (DONE, "r%d" % of[0]), "broken": lambda: (BROKEN, *of), "aborted": lambda: (ABORTED,), "not begun": lambda: (NOT_BEGUN,)}
        return "settled", tag, ends[at]()

    def worked(self, way, attempts, job, lost=None):
        """These changes, each with the number of its attempt, are made or undone by this job and those behind it."""
        return worked(way, attempts, job, lost, self.phases)

    def through(self, job, lost=None):
        """The operation from its ask to its end, whose first job is this."""
        return ["asked", "granted", "PROCESSING", *self.worked("forward", dict.fromkeys(range(len(self.changes)), 1), job, lost), "COMPLETED"]

    def asks(self):
        """The rounds from its ask to its end."""
        return 2 * len(self.changes) + 3

    def grant_text(self):
        """The grant of its changes, each in the list that it is asked for in."""
        lists = {title: [] for title in ("addResources", "removeResources", "updateResources")}
        for number, (change, (vim, zone)) in enumerate(zip(self.changes, self.places)):
            title = {MAKE: "addResources", REMOVE: "removeResources"}.get(change.verb, "updateResources")
            lists[title].append({"resourceDefinitionId": "d%d" % number, "vimConnectionId": vim, "zoneId": zone})
        return compact({"id": "g%d" % self.number, **lists})


INSTANTIATION = Operation(1, ("instantiate", "simple", None), [*LINKING, *making("A1", "A2", "B1")])
assert INSTANTIATION.through(1) == WHOLE
FIRST = [(INSTANTIATION, WHOLE)]


def record_of(event):
    return shared("E", in_record(working.spelled(event)))


ROUTER_ONBOARDED = let("ROUTER_ONBOARDED", in_record(working.spelled(working.ONBOARDED)))
ROUTER_RECORDS = let("ROUTER_MADE", [ROUTER_ONBOARDED, in_record(working.spelled(working.CREATED))])
# The journal of a manager that onboarded the edge router, and what it has.
ONBOARDED_SITE = let("ONBOARDED_SITE", [HEADER, ROUTER_ONBOARDED, "\0"])
run_parts.SITES[ONBOARDED_SITE[1:]] = [working.ONBOARDED]
WHOLE_RECORDS = let("WHOLE_MADE", [in_record(working.spelled(INSTANTIATION.event(it))) for it in WHOLE])


def events(told):
    """The events of a journal in which this is told behind the creation of an instance."""
    return [working.ONBOARDED, working.CREATED, *[operation.event(step) for operation, all_steps in told for step in all_steps]]


CHUNKS = {}


def chunk_of(names):
    """Several texts in one that has a name."""
    key = " ".join(names)
    if key not in CHUNKS:
        CHUNKS[key] = let("S_%d" % len(CHUNKS), names)
    return CHUNKS[key]


def records_of(operation, all_steps):
    """The texts of the records of an operation; those up to where its work stops first, which go before several ways on, are in one."""
    if all_steps is WHOLE:
        return [WHOLE_RECORDS]
    names = [record_of(operation.event(step)) for step in all_steps]
    front = all_steps.index("FAILED_TEMP") + 1 if "FAILED_TEMP" in all_steps else 0
    return [*([chunk_of(names[:front])] if front else []), *names[front:]]


def records(told):
    """The texts of the records of what is told."""
    return [it for operation, all_steps in told for it in records_of(operation, all_steps)]


def in_pieces(answer):
    """The text of an answer, of which the parts that others have too are named: its head, and each resource that it shows."""
    return [shared("P", it) for it in re.split(r'(?<=\r\n\r\n)|(?=\{"(?:changeType|computeResource|id|networkResource)")', answer)]


def journal_of(told, *more):
    return [HEADER, ROUTER_RECORDS, *records(told), *more, "\0"]


def has(told, *more):
    """The file has what is told, and nothing else."""
    return ["file", journal_of(told, *more)]


def history_of(told):
    return working.Manager.of(events(told)).history


def view_of(told, path):
    return answering.answer(history_of(told), 0, "GET", path, {}, "")[0]


def shows_operation(told):
    """The last operation is shown as it is behind all this."""
    path = OCCURRENCE % told[-1][0].number
    return [answers(shared("SHOW", request("GET", path)), in_pieces(view_of(told, path))), ["stays"]]


def shows_instance(told):
    return ["instance", in_pieces(view_of(told, INSTANCE % 1))]


# ---- Acts

INSTANTIATED_SITE = [SITE, rounds(29, INSTANTIATE, ACCEPTED)]


def asking(text):
    """The name of a request."""
    return text if text.startswith("$") else shared("ASK", text)


def asked_for(text, operation, count=None):
    """The operation is asked for and taken up, in a life of so many rounds, or to its end."""
    return rounds(operation.asks() if count is None else count, asking(text), shared("ACCEPTED", accepted(operation.number)))


def worked_on(text, operation, count):
    """A task of it is taken up, in a life of so many rounds."""
    return rounds(count, asking(text), TAKEN_UP)
