"""What the interface shows of a history of the model in history.py: its instances, occurrences and subscriptions as JSON, and what is posted of its
events, by docs/FORMATS.md."""
import datetime
import json

import history
from history import COMPLETED, COMPUTE, FAILED_TEMP, LINK, STARTING, STORAGE

INSTANCES, OCCURRENCES, SUBSCRIPTIONS = "/vnflcm/v1/vnf_instances", "/vnflcm/v1/vnf_lcm_op_occs", "/vnflcm/v1/subscriptions"
STATES = ["STARTING", "PROCESSING", "COMPLETED", "FAILED_TEMP", "FAILED", "ROLLING_BACK", "ROLLED_BACK"]
OPERATIONS = {
    "instantiate": "INSTANTIATE", "scale": "SCALE", "level": "SCALE_TO_LEVEL", "aspects": "SCALE_TO_LEVEL", "heal": "HEAL", "operate": "OPERATE",
    "terminate": "TERMINATE",
}
MODES = ["GRACEFUL", "FORCEFUL"]
STOPS = [None, "FORCEFUL", "GRACEFUL"]
DONE = ["ADDED", "REMOVED", "MODIFIED", "MODIFIED"]
# What a resource is called by its kind: the member with its handle, and that with its template.
MEMBERS = {
    LINK: ("networkResource", "vnfVirtualLinkDescId"), STORAGE: ("storageResource", "virtualStorageDescId"), COMPUTE: ("computeResource", "vduId"),
}


def moment(milliseconds):
    at = datetime.datetime.fromtimestamp(milliseconds // 1000, datetime.timezone.utc)
    return at.strftime("%Y-%m-%dT%H:%M:%S") + ".%03dZ" % (milliseconds % 1000)


def path(number, kind):
    return (INSTANCES, OCCURRENCES, SUBSCRIPTIONS)[kind - 1] + "/" + history.identifier(number, kind)


def hrefs(at, tasks, **more):
    """The links of a resource to itself and to its tasks."""
    paths = {"self": at, **{task: at + "/" + tasks[task] for task in tasks}, **more}
    return {title: {"href": to} for title, to in paths.items()}


def machine(vdu, serial):
    return "%s-%d" % (history.VDUS[vdu][0], serial)


def identified(part):
    """The identifier of a part, and the name of its template."""
    kind, item, vdu, serial = part
    if kind == LINK:
        return history.LINKS[item], history.LINKS[item]
    if kind == STORAGE:
        template = history.STORAGES[item][0]
        return machine(vdu, serial) + "/" + template, template
    return machine(vdu, serial), history.VDUS[vdu][0]


def resource(part, used, **more):
    called, (vim, _) = used
    identifier, template = identified(part)
    handle, of = MEMBERS[part[0]]
    return {"id": identifier, handle: {"resourceId": called, "vimConnectionId": vim}, of: template, **more}


def information(held):
    """What stands of an instance, by VDU, serial, kind and item."""
    stands = sorted(filter(held.stands, held.last), key=lambda part: (part[2], part[3], part[0], part[1]))

    def disks(part):
        return [identified(it)[0] for it in stands if it[0] == STORAGE and it[2:] == part[2:]]

    def of(kind):
        return [resource(it, held.known(it), **({"storageResourceIds": disks(it)} if kind == COMPUTE else {})) for it in stands if it[0] == kind]

    return {
        "extCpInfo": [], "flavourId": "simple", "vnfState": "STARTED" if held.started else "STOPPED",
        "scaleStatus": [{"aspectId": "workers", "scaleLevel": held.level}],
        "virtualStorageResourceInfo": of(STORAGE), "vnfVirtualLinkResourceInfo": of(LINK), "vnfcResourceInfo": of(COMPUTE),
    }


def instance(number, held):
    at = path(number, 1)
    tasks = {"heal": "heal", "operate": "operate", "scale": "scale", "scaleToLevel": "scale_to_level", "terminate": "terminate"}
    view = {
        "_links": hrefs(at, tasks if held.instantiated else {"instantiate": "instantiate"}), "id": history.identifier(number, 1),
        "instantiationState": "INSTANTIATED" if held.instantiated else "NOT_INSTANTIATED", "vnfProductName": "Edge Router", "vnfProvider": "Example",
        "vnfSoftwareVersion": "1.0", "vnfdVersion": "1.0", "vnfdId": "vnfd-1",
    }
    if held.instantiated:
        view["instantiatedVnfInfo"] = information(held)
    for title, text in ("vnfInstanceName", held.name), ("vnfInstanceDescription", held.text):
        if text is not None:
            view[title] = text
    return view


def parameters(ask):
    kind, *what = ask
    if kind == "instantiate":
        return {"flavourId": what[0], "instantiationLevelId": what[1]}
    if kind == "scale":
        return {"aspectId": what[1], "numberOfSteps": what[2], "type": ["SCALE_OUT", "SCALE_IN"][what[0]]}
    if kind == "level":
        return {"instantiationLevelId": what[0]}
    if kind == "aspects":
        return {"scaleInfo": [{"aspectId": aspect, "scaleLevel": level} for aspect, level in what[0]]}
    if kind == "heal":
        return {"cause": what[0], "vnfcInstanceId": [machine(*it) for it in what[1]] or None}
    if kind == "operate":
        return {"changeStateTo": "STARTED" if what[0] else "STOPPED", "stopType": STOPS[what[1]]}
    return {"gracefulTerminationTimeout": what[1], "terminationType": MODES[what[0]]}


def tasks_of(o):
    if o.is_active():
        return ["cancel"]
    if o.state != FAILED_TEMP:
        return []
    return ["fail", "retry"] + ["rollback"] * (o.ask[0] != "terminate")


def occurrence(number, o):
    at = path(number, 2)

    def of(kind):
        made = [(x, used) for x, used, net in zip(o.changes, o.used, o.nets) if x.kind == kind and net and used]
        return [resource(x[2:], used, changeType=DONE[x.verb]) for x, used in made]

    view = {
        "_links": hrefs(at, {task: task for task in tasks_of(o)}, vnfInstance=path(o.instance, 1)), "id": history.identifier(number, 2),
        "isAutomaticInvocation": False, "isCancelPending": o.cancel is not None, "operation": OPERATIONS[o.ask[0]],
        "operationParams": {title: value for title, value in parameters(o.ask).items() if value is not None}, "operationState": STATES[o.state],
        "resourceChanges": {"affectedVirtualLinks": of(LINK), "affectedVirtualStorages": of(STORAGE), "affectedVnfcs": of(COMPUTE)},
        "startTime": moment(o.asked), "stateEnteredTime": moment(o.entered), "vnfInstanceId": history.identifier(o.instance, 1),
    }
    if o.cancel is not None:
        view["cancelMode"] = MODES[o.cancel]
    if o.cause is not None and o.state not in (STARTING, COMPLETED):
        view["error"] = {"detail": o.cause, "status": 403 if o.cause == "grant denied" else 500}
    if o.grant is not None:
        view["grantId"] = o.grant[0]
    return view


TYPES = ["VL", "STORAGE", "COMPUTE", "LINKPORT"]


def grant_request(number, h):
    """What the orchestrator is asked for an occurrence: what is made, removed, and started or stopped."""
    o = h.occurrence(number)
    held = h.instance(o.instance)

    def entry(place, change):
        kind, item, vdu, _ = part = change[2:]
        template = [history.LINKS, history.STORAGES, history.VDUS, history.PORTS][kind][vdu if kind == COMPUTE else item]
        view = {"id": "d%d" % place, "resourceTemplateId": template if kind == LINK else template[0], "type": TYPES[kind]}
        if vdu != history.NO_VDU:
            view["vduId"] = history.VDUS[vdu][0]
        if change.verb != history.CREATE:
            called, (vim, _) = held.known(part)
            view["resource"] = {"resourceId": called, "vimConnectionId": vim}
        return view

    def of(*verbs):
        return [entry(place, it) for place, it in enumerate(o.changes) if it.verb in verbs]

    return {
        "_links": {"vnfInstance": {"href": path(o.instance, 1)}, "vnfLcmOpOcc": {"href": path(number, 2)}}, "addResources": of(history.CREATE),
        "flavourId": "simple", "isAutomaticInvocation": False, "operation": OPERATIONS[o.ask[0]], "removeResources": of(history.REMOVE),
        "updateResources": of(history.START, history.STOP), "vnfInstanceId": history.identifier(o.instance, 1),
        "vnfLcmOpOccId": history.identifier(number, 2), "vnfdId": "vnfd-1",
    }


def written(views):
    return json.dumps(views, sort_keys=True, separators=(",", ":"))


def instances(h):
    return written([instance(n, held) for n, held in enumerate(h.instances, 1) if held.live])


def occurrences(h):
    return written([occurrence(n, o) for n, o in enumerate(h.occurrences, 1)])


# ---- Subscriptions and notices

NOTICES = ["VnfLcmOperationOccurrenceNotification", "VnfIdentifierCreationNotification", "VnfIdentifierDeletionNotification"]
# The operations that a filter may name, by their numbers from 1; 7 to 9 are of no ask.
TYPES_ASKED = [
    *["INSTANTIATE", "SCALE", "SCALE_TO_LEVEL", "HEAL", "OPERATE", "TERMINATE", "CHANGE_FLAVOUR", "CHANGE_EXT_CONN", "MODIFY_INFO"],
]


def those_there(members):
    """These members, but those without a value."""
    return {title: value for title, value in members.items() if value}


def subscription(number, s):
    """A subscription; of its filter the lists that have values, where there are some."""
    asked = s.filter
    about = those_there({"vnfdIds": asked.vnfds, "vnfInstanceIds": asked.instances, "vnfInstanceNames": asked.names})
    lists = {
        "notificationTypes": [NOTICES[it] for it in asked.notices], "operationStates": [STATES[it] for it in asked.states],
        "operationTypes": [TYPES_ASKED[it - 1] for it in asked.operations], "vnfInstanceSubscriptionFilter": about,
    }
    view = {"_links": hrefs(path(number, 3), {}), "callbackUri": s.callback, "id": history.identifier(number, 3)}
    return {**view, **those_there({"filter": those_there(lists)})}


def subscriptions(h, role):
    """Those of a role, which sees its own alone."""
    return written([subscription(*it) for it in h.subscriptions_of(role)])


def notice(number, place, event, h, at=history.FIRST_MOMENT):
    """What a subscription is told of the event at this place, which happened at that moment."""
    kind, of, *more = event
    about, links = of, {}
    if kind in ("asked", "moved"):
        occurrence_of = h.occurrence(of)
        state = STARTING if kind == "asked" else more[0]
        about, links = occurrence_of.instance, {"vnfLcmOpOcc": {"href": path(of, 2)}}
        told = {
            "isAutomaticInvocation": False, "notificationStatus": "START" if state in history.ACTIVE else "RESULT", "notificationType": NOTICES[0],
            "operation": OPERATIONS[occurrence_of.ask[0]], "operationState": STATES[state], "vnfLcmOpOccId": history.identifier(of, 2),
        }
    else:
        told = {"notificationType": NOTICES[{"created": history.CREATION, "deleted": history.DELETION}[kind]]}
    return {
        "_links": {"subscription": {"href": path(number, 3)}, "vnfInstance": {"href": path(about, 1)}, **links}, "id": history.identifier(place, 4),
        "subscriptionId": history.identifier(number, 3), "timeStamp": moment(at), "vnfInstanceId": history.identifier(about, 1), **told,
    }
