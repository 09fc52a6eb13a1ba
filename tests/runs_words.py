"""Runs of words, spellings, views and paths: identifiers, moments and texts at their bounds, one event of each kind, what an instance and an
occurrence are shown as over journals that are written out here, and what paths and queries name.

run_texts.py has the forms. A journal of these runs is legal up to its last record, and a plan in it, its
places and a view are written out by hand.
"""
import json

from cases import *
from run_parts import HEADER, NOW, batch_front, begin, header, in_record, let, opens, problem, run, showing, told_back
from run_texts import ACCEPTED, BAD, EMPTY_LIST, INSTANCE, INSTANCES, INSTANTIATE, JOURNAL, JOURNALS, MADE, NOT_ALLOWED, NO_FILTER, NO_INSTANCE
from run_texts import NO_JSON, NO_OCCURRENCE, NO_RESOURCE, NO_TASK, OCCURRENCE, OCCURRENCES, ONLY_DELETE_GET, ONLY_POST, answers, idle, occurrence_view
from run_texts import once, refused, request
from runs_commands import ONBOARD, not_onboarded
from runs_sessions import creation

begin(__name__)

ONLY_GET = problem("ONLY_GET", NOT_ALLOWED + "GET", "method not allowed")
ONLY_GET_POST = problem("ONLY_GET_POST", NOT_ALLOWED + "GET, POST", "method not allowed")
LATER = NOW + 1_234
START, THEN = "2023-11-14T22:13:20.000Z", "2023-11-14T22:13:21.234Z"


def written(value):
    """A value as JSON is written: compact, with members in byte order of their names; its characters are bytes."""
    return utf8(json.dumps(value, sort_keys=True, separators=(",", ":"), ensure_ascii=False))


def records(events):
    """The records of these events; a text stands for itself."""
    return [it if isinstance(it, (str, dict)) else in_record(it) for it in events]


def known(title, *events):
    """The records of these events, by a name."""
    return let(title, records(events))


def site(*events, manager=7):
    return ["site", [latin(header(manager)), *records(events), "\0"]]


def view_at(path, view):
    """The resource is shown so, without a turn behind it."""
    return [answers(request("GET", path), showing(view if isinstance(view, str) else written(view))), ["stays"]]


# ---- Identifiers, moments and texts

BIG_MANAGER, FAR = 4_294_967_295, 171
FAR_ID, SOON_ID = "ffffffff-766d-8001-8000-0000000000ab", "ffffffff-766d-8001-8000-0000000000aa"


def counted(event, *numbers_at):
    """The parts of the record of an event, with the bytes of the number in place of those at these places, each with how many there are."""
    parts, at = [batch_front(len(event))], 0
    for place, size in numbers_at:
        parts[-1] += event[at:place]
        parts += [{"bytes": size}, b""]
        at = place + size
    parts[-1] += event[at:]
    return parts


def for_each(first, last, *parts):
    """These parts for each number from the first one to before the last."""
    return {"from": first, "to": last, "of": [latin(it) if isinstance(it, bytes) else it for it in parts if it]}


# Where the number of what an event is about stands: behind the kind and the moment.
ABOUT = (9, 8)
# Instances that were created and deleted, one behind the other.
PASSING = for_each(1, FAR, *counted(created(1, "vnfd-1"), ABOUT), *counted(deleted(1), ABOUT))


def small_view(identifier, **more):
    """The view of an instance of the descriptor without a machine."""
    path = INSTANCES + "/" + identifier
    return {
        "_links": {"instantiate": {"href": path + "/instantiate"}, "self": {"href": path}}, "id": identifier,
        "instantiationState": "NOT_INSTANTIATED", "vnfProductName": "Edge Router", "vnfProvider": "Example", "vnfSoftwareVersion": "1.0",
        "vnfdId": "vnfd-1", "vnfdVersion": "1.0", **more,
    }


SIMPLE = onboarded(descriptor("vnfd-1", levels=[level("default")], names=("Example", "Edge Router", "1.0", "1.0")))
run(
    "an identifier has the manager's number and the instance's",
    site(SIMPLE, PASSING, created(FAR, "vnfd-1"), manager=BIG_MANAGER),
    *[["opened", "342 records, 1 descriptors, 171 instances, 1 live"], *view_at(INSTANCES, [small_view(FAR_ID)])],
    *[*view_at(INSTANCES + "/" + FAR_ID, small_view(FAR_ID)), once(request("GET", INSTANCES + "/" + SOON_ID), NO_INSTANCE)],
    *[once(request("GET", INSTANCES + "/" + FAR_ID.upper()), NO_INSTANCE), once(request("GET", INSTANCE % 1), NO_INSTANCE)],
)
run(
    "no other spelling is an identifier",
    ["site", JOURNALS[1]],
    once(
        [
            request("GET", INSTANCES + "/" + it)
            for it in (
                *["{00000007-766d-8001-8000-000000000001}", "00000007-766d-8001-8000-000000000000", "00000007-766d-8001-c000-000000000000"],
                *["00000007-766d-8001-bfff-ffffffffffff", "00000007-766D-8001-8000-000000000001", "00000007766d80018000000000000001"],
                *["00000007-766d-8002-8000-000000000001", "00000007-766d-8003-8000-000000000001", "00000008-766d-8001-8000-000000000001"],
                *["00000007-766d-8001-8000-0000000000010", "0000007-766d-8001-8000-000000000001", "00000007-766d-7001-8000-000000000001"],
            )
        ],
        [{"times": 12, "of": NO_INSTANCE}],
    ),
)
for moment, text in [
    *[(0, "1970-01-01T00:00:00.000Z"), (1_709_210_096_789, "2024-02-29T12:34:56.789Z"), (253_402_300_799_999, "9999-12-31T23:59:59.999Z")],
    *[(253_402_300_800_000, "9999-12-31T23:59:59.999Z"), (2 ** 64 - 1, "9999-12-31T23:59:59.999Z")],
]:
    view = {**occurrence_view("STARTING", granted=False, entered=text), "startTime": text}
    run(
        "a moment is shown as its time: %d" % moment,
        *[["site", JOURNALS[1]], answers(INSTANTIATE, ACCEPTED, moment), *view_at(OCCURRENCE % 1, view)],
    )

GREETING = 'Zürich, \\ "west"'
GREETED = small_view((INSTANCE % 1)[-36:], vnfInstanceName="Zürich", vnfInstanceDescription=GREETING)


def made_answer(*parts):
    """The answer that creates instance 1 with this view."""
    length = sum(len(it) if isinstance(it, str) else 3 * (it["to"] - it["from"]) for it in parts)
    head = "HTTP/1.1 201 Created\r\nLocation: %s\r\nContent-Type: application/json\r\nContent-Length: %d\r\n\r\n"
    return [head % (INSTANCE % 1, length), *parts]


run(
    "an instance is shown as it was created",
    ["site", JOURNAL],
    once(creation(written({"vnfdId": "vnfd-1", "vnfInstanceDescription": GREETING, "vnfInstanceName": "Zürich"})), made_answer(written(GREETED))),
    *[*view_at(INSTANCE % 1, GREETED), ["site", JOURNAL]],
    once(creation('{"vnfdId":"vnfd-1"}'), made_answer(written(small_view((INSTANCE % 1)[-36:])))),
)


def numbers(count):
    """A part of a text: so many numbers of three digits."""
    return {"from": 100, "to": 100 + count, "of": [{"digits": 3}]}


def body_of(*parts):
    """A request to create an instance with this body."""
    length = sum(len(it) if isinstance(it, str) else 3 * (it["to"] - it["from"]) for it in parts)
    return [request("POST", INSTANCES, None, "Content-Length: %d\r\n" % length), *parts]


NAME, LINE = numbers(85), numbers(682)
MEMBERS = written(small_view((INSTANCE % 1)[-36:], vnfInstanceName="NAME", vnfInstanceDescription="LINE"))
BETWEEN = [MEMBERS.split("LINE")[0], *MEMBERS.split("LINE")[1].split("NAME")]
run(
    "a name has 255 bytes and a line 2,048, and no more",
    ["site", JOURNAL],
    once(
        body_of('{"vnfdId":"vnfd-1","vnfInstanceName":"', NAME, '","vnfInstanceDescription":"', LINE, 'aa"}'),
        made_answer(BETWEEN[0], LINE, "aa" + BETWEEN[1], NAME, BETWEEN[2]),
    ),
    *[once(body_of('{"vnfdId":"vnfd-1","vnfInstanceName":"', NAME, 'a"}')), refused(BAD, "bad vnfInstanceName")],
    *[once(body_of('{"vnfdId":"vnfd-1","vnfInstanceDescription":"', LINE, 'aaa"}')), refused(BAD, "bad vnfInstanceDescription")],
)


def said(text, description=None):
    """The record of a creation with this name and this description, which may be none: their bytes are as they are given."""
    spelled = u8(1) + u8(len(text)) + text, u8(0) if description is None else u8(1) + u16(len(description)) + description
    return event(2, u64(1), name("vnfd-1"), *spelled)


def with_links(*links):
    """The record of a descriptor with links of these names, whose bytes are as they are given."""
    spelled = u16(len(links)) + b"".join(u8(len(it)) + it for it in links)
    return event(1, name("d") + name("") * 4 + name("f"), u16(0) * 2, spelled, u16(0) * 2, each([level("l")]), u16(0))


CREATED_IT, ONBOARDED_IT = "2 records, 1 descriptors, 1 instances, 1 live", "1 records, 1 descriptors, 0 instances, 0 live"
run(
    "a text in a record is a name or a line, or the record is bad",
    *[act for it in (b"", "Zürich".encode(), b"x" * 255) for act in opens([SIMPLE, said(it)], CREATED_IT)],
    *[act for it in (b"a\x1fb", b"a\x7fb", b"\xc3", b"a\n") for act in opens([SIMPLE, said(it)], "bad record 2")],
    *opens([SIMPLE, said(b"n", b"http://h/x")], CREATED_IT),
    *[act for it in (b"a\nb", b"\xff") for act in opens([SIMPLE, said(b"n", it)], "bad record 2")],
)
LONG_FRONT = said(b"n", b"")[:-2]
for length, text in (2_048, CREATED_IT), (2_049, "bad record 2"):
    line_record = [latin(batch_front(len(LONG_FRONT) + 2 + length) + LONG_FRONT + u16(length)), {"times": length, "of": "x"}]
    run("a line of %d bytes in a record" % length, ["site", [HEADER, in_record(SIMPLE), *line_record, "\0"]], ["opened", text])
run(
    "names stand in the order of their bytes, each once",
    *[act for it in ([b"ab", b"b"], [b"B", b"a", "ä".encode()]) for act in opens([with_links(*it)], ONBOARDED_IT)],
    *[act for it in ([b"b", b"ab"], [b"ab", b"ab"], ["ä".encode(), b"z"]) for act in opens([with_links(*it)], "bad record 1")],
)


# ---- Events: one of each kind, in a journal that may have each where it stands, and what is read back of it

def planned(changes):
    return [change(*it) for it in changes]


MACHINE_VNFD = onboarded(descriptor(
    "d", [vdu("V", [0], 1_024, 2, 4_294_967_295)], [storage("s", 5)], ["l"], [port("c", 0, 0), port("m", 0)], [aspect("a", 3, 1, (0, [2]))],
    [level("x", 0)], names=("p", "n", "1", "2"), flavour="f",
))

def of_machine(serial, *link):
    """The changes that make the machine of this serial number, behind its link where that doesn't stand yet."""
    parts = ("STORAGE", 0), ("COMPUTE", 0), ("PORT", 0), ("PORT", 1)
    kinds = ("LINK", "STORAGE", "COMPUTE", "PORT")
    return [*link, *((kinds.index(kind), "create", kind, item, 0, serial) for kind, item in parts)]


FIRST, SECOND, THIRD = (of_machine(serial, (0, "create", "LINK", 0, NO_VDU, 0)) for serial in (1, 2, 3))
ASKED_FILTER = let_through(["d"], (), ["edge-1", "edge-2"], [0, 2], [1, 7, 9], [0, 6])
EVENTS = [
    MACHINE_VNFD,
    created(1, "d", "edge-1"),
    subscribed(1, "http://h/x", "element", ASKED_FILTER),
    asked(1, instantiate("x", "f"), planned(FIRST)),
    posted(1, 4, False),
    grant_later(1, "/g1"),
    granted(1, "g1", [("v", ""), ("w", "z")], [0, 1, 1, 0, 0]),
    moved(1, "PROCESSING"),
    intent(tag(1, 0, 1)),
    done(tag(1, 0, 1), "r1"),
    intent(tag(1, 1, 1)),
    call_failed(tag(1, 1, 1)),
    not_begun(tag(1, 1, 1)),
    moved(1, "FAILED_TEMP"),
    moved(1, "PROCESSING"),
    intent(tag(1, 1, 2)),
    broken(tag(1, 1, 2), 4_294_967_295),
    cancel_asked(1, "GRACEFUL"),
    moved(1, "FAILED_TEMP"),
    moved(1, "PROCESSING"),
    intent(tag(1, 1, 3)),
    cancel_asked(1, "FORCEFUL"),
    aborted(tag(1, 1, 3)),
    moved(1, "FAILED_TEMP"),
    moved(1, "ROLLING_BACK"),
    intent(tag(1, 0, 2, "undo")),
    done(tag(1, 0, 2, "undo"), ""),
    moved(1, "ROLLED_BACK"),
    asked(2, instantiate(flavour="f"), planned(SECOND), role="element"),
    grant_trouble(2),
    grant_misses(2),
    moved(2, "ROLLED_BACK"),
    posted(1, 4, True),
    asked(3, instantiate(flavour="f"), planned(THIRD)),
    denied(3),
    moved(3, "ROLLED_BACK"),
    unsubscribed(1),
    deleted(1, moment=LATER),
]
RECORDS = [let("EVENT_%d" % number, in_record(it)) for number, it in enumerate(EVENTS, 1)]
KINDS = [next(number for number, it in enumerate(EVENTS) if it[0] == kind) for kind in range(1, 16)]
ALL_EVENTS = ["site", [HEADER, *RECORDS, "\0"]]
run(
    "one event of each kind is read back as it was recorded",
    *[ALL_EVENTS, ["opened", "%d records, 1 descriptors, 1 instances, 0 live" % len(EVENTS)]],
    *[["read back", number, told_back(it)] for number, it in enumerate(EVENTS, 1)],
    *[["read back", 0, "no such record"], ["read back", len(EVENTS) + 1, "no such record"]],
)


def is_bad(number, *others):
    """In place of the record of this number, from 0, each of these is a bad one."""
    front = [["let", "FRONT", [HEADER, *RECORDS[:number]]]]
    return front + [act for it in others for act in (["site", ["$FRONT", in_record(it), "\0"]], ["opened", "bad record %d" % (number + 1)])]


run(
    "an event has no byte more or less than its own",
    *[act for number in KINDS for act in is_bad(number, EVENTS[number] + b"\0", EVENTS[number][:-1])],
)


def put(number, place, value):
    """The event of this number with another byte at this place, which is counted from the end where it is below 0."""
    data = bytearray(EVENTS[number])
    data[place] = value
    return bytes(data)


CREATED_AT, SUBSCRIBED_AT, ASKED_AT, POSTED_AT, TRIED_AT, GRANTED_AT, MOVED_AT, INTENT_AT, SETTLED_AT, CANCEL_AT = 1, 2, 3, 4, 5, 6, 7, 8, 9, 17
run(
    "a number outside its values is no event",
    *is_bad(CREATED_AT, put(CREATED_AT, 0, 0), put(CREATED_AT, 0, 16), put(CREATED_AT, -1, 2), created(1, "d", moment=253_402_300_800_000)),
    *is_bad(SUBSCRIBED_AT, put(SUBSCRIBED_AT, 17, 2), *(subscribed(1, "", filter=let_through(**it)) for it in (
        dict(notices=[3]), dict(operations=[0]), dict(operations=[10]), dict(states=[7]),
    ))),
    *is_bad(ASKED_AT, *(asked(1, it, planned(FIRST)) for it in (u8(0) + name("f") + u8(0), u8(7) + name("f") + u8(0), u8(1) + name("f") + u8(2)))),
    *is_bad(ASKED_AT, *(asked(1, instantiate("x", "f"), [it, *planned(FIRST[1:])]) for it in (
        *[u8(9) + planned(FIRST)[0][1:], planned(FIRST)[0][:1] + u8(4) + planned(FIRST)[0][2:], planned(FIRST)[0][:2] + u8(4) + planned(FIRST)[0][3:]],
    ))),
    *is_bad(POSTED_AT, put(POSTED_AT, -1, 2)),
    *is_bad(TRIED_AT, event(5, u64(1), u8(3))),
    *is_bad(GRANTED_AT, granted(1, "g1", [("v", "")], [0, 1, 0, 0, 0]), granted(1, "g1", [("v%d" % it, "") for it in range(33)], [0] * 5)),
    *is_bad(MOVED_AT, put(MOVED_AT, -1, 0), put(MOVED_AT, -1, 7)),
    *is_bad(INTENT_AT, put(INTENT_AT, -1, 2), put(INTENT_AT, -2, 0)),
    *is_bad(SETTLED_AT, put(SETTLED_AT, 24, 4)),
    *is_bad(CANCEL_AT, put(CANCEL_AT, -1, 2)),
)


def of_parts(**parts):
    """A descriptor with these parts in place of its own."""
    own = dict(vdus=[vdu("V", [0])], storages=[storage("s")], links=["l"], ports=[port("c", 0, 0)], levels=[level("x")])
    return onboarded(descriptor("d", **{**own, **parts}))


TWO_DISKS = [storage("s"), storage("t")]
run(
    "a descriptor in a record keeps the rules of its bytes",
    *opens([of_parts()], ONBOARDED_IT),
    *opens([of_parts(vdus=[vdu("V", [0, 1])], storages=TWO_DISKS)], ONBOARDED_IT),
    *[
        act
        for parts in [
            *[dict(vdus=[vdu("W"), vdu("V")]), dict(vdus=[vdu("V"), vdu("V")]), dict(storages=TWO_DISKS[::-1]), dict(links=["l", "l"])],
            *[dict(ports=[port("d", 0), port("c", 0)]), dict(aspects=[aspect("b", 0, 0), aspect("a", 0, 0)], levels=[level("x", 0, 0)])],
            *[dict(levels=[level("y"), level("x")]), dict(vdus=[vdu("V", [1])]), dict(vdus=[vdu("V", [1, 0])], storages=TWO_DISKS)],
            *[dict(vdus=[vdu("V", [0, 0])]), dict(ports=[port("c", 1)]), dict(ports=[port("c", 0, 1)]), dict(default=1)],
            *[dict(aspects=[aspect("a", 2, it)], levels=[level("x", 0)]) for it in (0, 3)],
            *[dict(aspects=[aspect("a", 0, 1)], levels=[level("x", 0)])],
            *[dict(aspects=[aspect("a", 2, 1, (it, [1]), (0, [1]))], levels=[level("x", 0)]) for it in (0, 1)],
        ]
        for act in opens([of_parts(**parts)], "bad record 1")
    ],
)

# 64 values of 255 bytes in each list of names.
VALUES = ["\0@", {"from": 100, "to": 164, "of": ["\xff", {"digits": 3}, "a" * 252]}]
LONGEST = u64(1) + u8(0) + line("")
LONGEST_SIZE = 9 + len(LONGEST) + 3 * (2 + 64 * 256) + 6


def longest(size, *end):
    return ["site", [HEADER, latin(batch_front(size) + event(13, LONGEST)), *VALUES * 3, "\0" * 6, *end, "\0"]]


run(
    "the longest filter of a subscription is recorded",
    *[longest(LONGEST_SIZE), ["opened", "1 records, 0 descriptors, 0 instances, 0 live"]],
    *[longest(LONGEST_SIZE + 1, "\0"), ["opened", "bad record 1"]],
)


def many_ports(last):
    """A descriptor of a VDU with 251 ports with names of 255 bytes, and one with a name of so many."""
    names = ",".join('"%s":"%s"' % it for it in {
        **dict.fromkeys(["provider", "product_name", "software_version", "descriptor_version"], ""), "descriptor_id": "w", "flavour_id": "f",
    }.items())
    size = '"capabilities":{"virtual_compute":{"properties":{"virtual_memory":{"virtual_mem_size":"1 B"},"virtual_cpu":{"num_virtual_cpu":1}}}}'
    kind = '":{"type":"tosca.nodes.nfv.VduCp","requirements":[{"virtual_binding":"V"}]}'
    front = '{"topology_template":{"node_templates":{"VNF":{"properties":{%s}},"V":{"type":"tosca.nodes.nfv.Vdu.Compute",%s}' % (names, size)
    return [front, {"from": 0, "to": 251, "of": [',"', {"digits": 255}, kind]}, ',"' + "z" * last + kind, "}}}"]


# What a port costs beside its name, and the rest of the event: its kind and moment, names, the lists, a VDU of one byte, the level and its number.
REST = 9 + 2 + 4 + 2 + 2 * 6 + (2 + 8 + 4 + 4 + 4 + 2) + (1 + len("default")) + 2
LAST = 65_536 - REST - 251 * 260 - 5
run(
    "an event of a descriptor has 65,536 bytes and no more",
    *[["site", MADE], ["door", many_ports(LAST)], ONBOARD, ["status", 0], ["printed", "onboarded w: 1 vdus, 0 aspects, 1 levels\n"]],
    *[["grown", 65_545], ["opened", "1 records, 1 descriptors, 0 instances, 0 live"], ["site", MADE], *not_onboarded(many_ports(LAST + 1), "encodes to 65537 bytes")],
)


# ---- What an instance is shown as: an edge router of two VDUs, the first with two disks, on two networks, with two aspects

ROUTER = known("EDGE_ROUTER", onboarded(descriptor(
    "vnfd-1", [vdu("VDU_A", [0, 1], 2_147_483_648, 2), vdu("VDU_B", [1], 2_147_483_648, 2)],
    [storage("STO_A", 10_000_000_000), storage("STO_B", 10_000_000_000)], ["net_data", "net_mgmt"], [port("CP_A", 0, 0)],
    [aspect("readers", 10, 1), aspect("workers", 10, 1)], [level("normal", 0, 1)], names=("Example", 'Edge "Router"', "1.0", "2.1"),
)))
FIRST_ID, STOPPED_ID = (INSTANCE % 1)[-36:], FAR_ID


def disks_of(a=None, b=None):
    """The disks of a machine of the first VDU and of one of the second, with these serial numbers."""
    return [("STORAGE", 0, 0, a), ("STORAGE", 1, 0, a)] * bool(a) + [("STORAGE", 1, 1, b)] * bool(b)


def computes_of(a=None, b=None):
    return [("COMPUTE", 0, 0, a)] * bool(a) + [("COMPUTE", 0, 1, b)] * bool(b)


def ports_of(a=None):
    return [("PORT", 0, 0, a)] * bool(a)


NETWORKS = [("LINK", 0, NO_VDU, 0), ("LINK", 1, NO_VDU, 0)]


def changes_of(verb, *phases):
    """Changes with this verb: those of a phase behind its number."""
    return [(phase, verb, *part) for phase, parts in phases for part in parts]


def making(a=None, b=None, links=()):
    return changes_of("create", (0, links), (1, disks_of(a, b)), (2, computes_of(a, b)), (3, ports_of(a)))


def removing(a=None, b=None, links=()):
    return changes_of("remove", (5, ports_of(a)), (6, computes_of(a, b)), (7, disks_of(a, b)), (8, links))


def tried(occurrence, number, attempt, end, *what, **more):
    """The events of an attempt at a change, which ends so."""
    return [intent(tag(occurrence, number, attempt), **more), end(tag(occurrence, number, attempt), *what, **more)]


def worked(occurrence, ask, changes=(), places=(), spots=(), resources=(), ends="COMPLETED", instance=1):
    """The events of an operation whose first changes are made, with these resources, and that ends so, where it ends."""
    events = [asked(occurrence, ask, planned(changes), instance), granted(occurrence, "g-%d" % occurrence, places, spots)]
    events += [moved(occurrence, "PROCESSING")]
    for number, resource in enumerate(resources):
        events += tried(occurrence, number, 1, done, resource)
    return events + ([moved(occurrence, ends)] if ends else [])


PLACES = [("west", "zone"), ("east", "zone"), ("", "zone")]
WEST = PLACES[:1]


FIRST_PLAN = making(1, 1, NETWORKS)


def instantiated(instance=1):
    """The events that instantiate the router: in the west, its second network in the east, the second VDU nowhere that is named."""
    resources = "l-1 l-2 s-1 s-2 s-4 c-1 c-3 p-1".split()
    return worked(1, instantiate("normal"), FIRST_PLAN, PLACES, [0, 1, 0, 0, 2, 0, 2, 0], resources, instance=instance)


def resource(text, vim):
    return {"resourceId": text, "vimConnectionId": vim}


def information(state, workers, storages, machines):
    """What stands of the router: storages and machines with their resources and connections; a machine's disks are those of its name."""
    networks = ("net_data", "l-1", "west"), ("net_mgmt", "l-2", "east")
    return {
        "extCpInfo": [], "flavourId": "simple", "vnfState": state,
        "scaleStatus": [{"aspectId": "readers", "scaleLevel": 0}, {"aspectId": "workers", "scaleLevel": workers}],
        "virtualStorageResourceInfo": [
            {"id": "%s/%s" % (machine, disk), "storageResource": resource(*where), "virtualStorageDescId": disk} for machine, disk, *where in storages
        ],
        "vnfVirtualLinkResourceInfo": [
            {"id": link, "networkResource": resource(*where), "vnfVirtualLinkDescId": link} for link, *where in networks
        ],
        "vnfcResourceInfo": [
            {"computeResource": resource(*where), "id": machine, "storageResourceIds": disks.split(), "vduId": machine[:5]}
            for machine, disks, *where in machines
        ],
    }


def task_links(path, tasks):
    """The links to a resource and to its tasks."""
    last = {"scaleToLevel": "scale_to_level"}
    return {"self": {"href": path}, **{task: {"href": "%s/%s" % (path, last.get(task, task))} for task in tasks.split()}}


def router_view(identifier=FIRST_ID, info=None, **more):
    """The router with this information, where it is instantiated."""
    tasks = "instantiate" if info is None else "heal operate scale scaleToLevel terminate"
    return {
        "_links": task_links(INSTANCES + "/" + identifier, tasks), "id": identifier,
        "instantiationState": "NOT_INSTANTIATED" if info is None else "INSTANTIATED", "vnfProductName": 'Edge "Router"', "vnfProvider": "Example",
        "vnfSoftwareVersion": "1.0", "vnfdId": "vnfd-1", "vnfdVersion": "2.1", **({} if info is None else {"instantiatedVnfInfo": info}), **more,
    }


ASKED_WORKERS = scale_aspects(("workers", 10))
HEAL_A = heal((0, 1))
# 28 operations that would make the first machine anew, each with the next serial number, from occurrence 2 and serial 2 on; each is given up.
HEAL_EVENTS = asked(2, HEAL_A, planned(making(2) + removing(1))), cancel_asked(2, "FORCEFUL"), moved(2, "ROLLED_BACK")
# In the ask the number stands as that of the occurrence, and as the last bytes of each of its first four changes, of 11 bytes each.
FRONT_LENGTH = 9 + 16 + 1 + len(HEAL_A) + 2
IN_ASK = [ABOUT, *((FRONT_LENGTH + 11 * number + 7, 4) for number in range(4))]
HEALS = for_each(2, 30, *counted(HEAL_EVENTS[0], *IN_ASK), *counted(HEAL_EVENTS[1], ABOUT), *counted(HEAL_EVENTS[2], ABOUT))
WHOLE_DISKS = [("VDU_A-1", "STO_A", "s-1", "west"), ("VDU_A-1", "STO_B", "s-2", "west")]
NEW_DISKS = [("VDU_A-30", "STO_A", "s-3", "east"), ("VDU_A-30", "STO_B", "s-5", "")]
OTHER_DISK = [("VDU_B-1", "STO_B", "s-4", "")]
A_1, B_1 = ("VDU_A-1", "VDU_A-1/STO_A VDU_A-1/STO_B", "c-1", "west"), ("VDU_B-1", "VDU_B-1/STO_B", "c-3", "")
A_30 = ("VDU_A-30", "VDU_A-30/STO_A VDU_A-30/STO_B", "c-2", "east")
STARTED = router_view(info=information("STARTED", 1, WHOLE_DISKS + OTHER_DISK, [A_1, B_1]))
PARTED = router_view(info=information("STARTED", 10, WHOLE_DISKS + NEW_DISKS + OTHER_DISK, [A_1, B_1]))
WITH_THREE = router_view(info=information("STARTED", 10, WHOLE_DISKS + NEW_DISKS + OTHER_DISK, [A_1, A_30, B_1]))
NEW_HEAL = worked(31, HEAL_A, making(30) + removing(1), PLACES[1:], [0, 1, 0, 0, 0, 0, 0, 0], ["s-3", "s-5"], None)
GIVES_UP = [*tried(31, 2, 1, done, "c-2"), *tried(31, 3, 1, broken, 9), moved(31, "FAILED_TEMP"), moved(31, "FAILED")]
FRESH = known("FRESH", ROUTER, created(1, "vnfd-1"))
LIVED = known("LIVED", FRESH, *instantiated())
run(
    "a started instance is shown with what stands of it",
    *[site(LIVED), *view_at(INSTANCE % 1, STARTED), ["let", "HEALED", records([LIVED, HEALS, *worked(30, ASKED_WORKERS), *NEW_HEAL])]],
    *[site("$HEALED"), *view_at(INSTANCE % 1, PARTED)],
    *[site("$HEALED", *GIVES_UP), *view_at(INSTANCE % 1, WITH_THREE), *view_at(INSTANCES, [WITH_THREE])],
)
STOPS = changes_of("stop", (4, computes_of(1, 1)))
STOPPED = information("STOPPED", 1, WHOLE_DISKS + OTHER_DISK, [A_1, B_1])
STOPPING = worked(2, operate(False), STOPS, WEST, [0, 0], ["", ""], instance=FAR)
GOING = worked(3, terminate(), removing(1, 1, NETWORKS), WEST, [0] * 8, [""] * 8, instance=FAR)
STOPPED_FAR = known("STOPPED_FAR", ROUTER, PASSING, created(FAR, "vnfd-1", "edge-1"), *instantiated(FAR), *STOPPING)
run(
    "a stopped instance is shown, and one that was terminated",
    site(STOPPED_FAR, manager=BIG_MANAGER),
    *view_at(INSTANCES + "/" + STOPPED_ID, router_view(STOPPED_ID, STOPPED, vnfInstanceName="edge-1")),
    site(STOPPED_FAR, *GOING, manager=BIG_MANAGER),
    *view_at(INSTANCES + "/" + STOPPED_ID, router_view(STOPPED_ID, vnfInstanceName="edge-1")),
)
NEW_ROUTER = onboarded(descriptor("vnfd-2", levels=[level("only")], names=("Example", "Edge Router", "1.0", "3.0")))
SECOND_ID, THIRD_ID = (INSTANCE % 2)[-36:], (INSTANCE % 3)[-36:]
run(
    "live instances are listed in the order of their numbers",
    *[site(), *view_at(INSTANCES, []), site(ROUTER, NEW_ROUTER), *view_at(INSTANCES, [])],
    *[site(ROUTER, NEW_ROUTER, created(1, "vnfd-1", "edge-1")), *view_at(INSTANCES, [router_view(vnfInstanceName="edge-1")])],
    site(ROUTER, NEW_ROUTER, created(1, "vnfd-1", "edge-1"), created(2, "vnfd-2"), created(3, "vnfd-1", "edge-3"), deleted(1)),
    *view_at(
        INSTANCES,
        [small_view(SECOND_ID, vnfdId="vnfd-2", vnfdVersion="3.0"), router_view(THIRD_ID, vnfInstanceName="edge-3")],
    ),
)


# ---- What an occurrence is shown as

def occurrence(number, tasks, state, operation, parameters, changes=({}, {}, {}), entered=THEN, **more):
    """The view of an occurrence of this number to which this may be done; its changes are those of links, storages and machines."""
    path = OCCURRENCE % number
    lists = "affectedVirtualLinks", "affectedVirtualStorages", "affectedVnfcs"
    return {
        "_links": {**task_links(path, tasks), "vnfInstance": {"href": INSTANCE % 1}}, "id": path[-36:],
        "isAutomaticInvocation": False, "isCancelPending": "cancelMode" in more, "operation": operation, "operationParams": parameters,
        "operationState": state, "resourceChanges": {title: [it] if it else [] for title, it in zip(lists, changes)},
        "startTime": START, "stateEnteredTime": entered, "vnfInstanceId": FIRST_ID, **more,
    }


def fault(detail, status=500):
    return {"detail": detail, "status": status}


def later(make, *fields):
    return make(*fields, moment=LATER)


# A machine with a disk on a network: what its instantiation adds.
SERVER = onboarded(descriptor(
    "vnfd-1", [vdu("VDU_B", [0])], [storage("STO_B")], ["net_mgmt"], levels=[level("normal")], names=("Example", "Server", "1.0", "1.0"),
))
SERVER_PLAN = [(0, "create", "LINK", 0, NO_VDU, 0), (1, "create", "STORAGE", 0, 0, 1), (2, "create", "COMPUTE", 0, 0, 1)]
ADDED = (
    {"changeType": "ADDED", "id": "net_mgmt", "networkResource": resource("l-1", "west"), "vnfVirtualLinkDescId": "net_mgmt"},
    {"changeType": "ADDED", "id": "VDU_B-1/STO_B", "storageResource": resource("s-1", "west"), "virtualStorageDescId": "STO_B"},
    {"changeType": "ADDED", "id": "VDU_B-1", "computeResource": resource("c-1", "west"), "vduId": "VDU_B"},
)
NORMAL = "INSTANTIATE", {"flavourId": "simple", "instantiationLevelId": "normal"}
BEGUN = [SERVER, created(1, "vnfd-1"), asked(1, instantiate("normal"), planned(SERVER_PLAN))]
BEGUN += [later(granted, 1, "g-1", WEST, [0, 0, 0]), later(moved, 1, "PROCESSING"), *tried(1, 0, 1, done, "l-1", moment=LATER)]
FORCED = known("FORCED_SERVER", *BEGUN, later(intent, tag(1, 1, 1)), later(cancel_asked, 1, "FORCEFUL"))
FAILED = known("FAILED_SERVER", FORCED, later(aborted, tag(1, 1, 1)), later(moved, 1, "FAILED_TEMP"))
AGAIN = [FAILED, later(moved, 1, "PROCESSING"), *tried(1, 1, 2, done, "s-1"), *tried(1, 2, 1, done, "c-1"), later(moved, 1, "COMPLETED")]
ONE_ADDED = (ADDED[0], {}, {})
run(
    "an occurrence is shown while it is worked on",
    *[site(FORCED)],
    *view_at(
        OCCURRENCE % 1,
        occurrence(1, "cancel", "PROCESSING", *NORMAL, ONE_ADDED, cancelMode="FORCEFUL", error=fault("cancelled"), grantId="g-1"),
    ),
    *[site(FAILED)],
    *view_at(OCCURRENCE % 1, occurrence(1, "fail retry rollback", "FAILED_TEMP", *NORMAL, ONE_ADDED, error=fault("change 1: aborted"), grantId="g-1")),
    *[site(*AGAIN), *view_at(OCCURRENCE % 1, occurrence(1, "", "COMPLETED", *NORMAL, ADDED, grantId="g-1"))],
    *view_at(OCCURRENCES, [occurrence(1, "", "COMPLETED", *NORMAL, ADDED, grantId="g-1")]),
)

# Occurrence 3 over the router at its greatest level of workers, to which occurrence 2 has led it.
SCALED = known("SCALED", LIVED, *worked(2, ASKED_WORKERS))
STOPPED_ROUTER = known("STOPPED_ROUTER", LIVED, *worked(2, operate(False), STOPS, WEST, [0, 0], ["", ""]))
# How many records stand before each of them.
BEFORE = {FRESH: 2, LIVED: 22, SCALED: 26, STOPPED_ROUTER: 30}
RENEWED = making(2, 2) + removing(1, 1)
FORCEFUL = "TERMINATE", {"gracefulTerminationTimeout": 30, "terminationType": "FORCEFUL"}
GONE_PLAN = removing(1, 1, NETWORKS)
LEVELS = [{"aspectId": "workers", "scaleLevel": 3}, {"aspectId": "readers", "scaleLevel": 0}]


ASKS = [
    (scale("in", "workers", 10), [], "SCALE", {"aspectId": "workers", "numberOfSteps": 10, "type": "SCALE_IN"}),
    (scale("out", "readers", 1), [], "SCALE", {"aspectId": "readers", "numberOfSteps": 1, "type": "SCALE_OUT"}),
    (scale_to("normal"), [], "SCALE_TO_LEVEL", {"instantiationLevelId": "normal"}),
    (scale_aspects(("workers", 3), ("readers", 0)), [], "SCALE_TO_LEVEL", {"scaleInfo": LEVELS}),
    (heal((0, 1), (1, 1), cause='disk "full"'), RENEWED, "HEAL", {"cause": 'disk "full"', "vnfcInstanceId": ["VDU_A-1", "VDU_B-1"]}),
    (heal(), RENEWED, "HEAL", {}),
    (operate(False, "GRACEFUL"), STOPS, "OPERATE", {"changeStateTo": "STOPPED", "stopType": "GRACEFUL"}),
    (terminate(timeout=30), GONE_PLAN, *FORCEFUL),
    (terminate("GRACEFUL"), STOPS + GONE_PLAN, "TERMINATE", {"terminationType": "GRACEFUL"}),
]


def asked_for(before, number, ask, changes, *shown_as):
    """An operation is asked for behind these records, and is shown and read back so."""
    event = asked(number, ask, planned(changes))
    view = occurrence(number, "cancel", "STARTING", *shown_as, entered=START)
    return [site(before, event), *view_at(OCCURRENCE % number, view), ["read back", BEFORE[before] + 1, told_back(event)]]


run(
    "what an operation was asked for with is shown, and read back",
    *[act for it in ASKS for act in asked_for(SCALED, 3, *it)],
    *asked_for(STOPPED_ROUTER, 3, operate(True), changes_of("start", (4, computes_of(1, 1))), "OPERATE", {"changeStateTo": "STARTED"}),
    *asked_for(FRESH, 1, instantiate("normal"), FIRST_PLAN, *NORMAL),
    *asked_for(FRESH, 1, instantiate(), FIRST_PLAN, "INSTANTIATE", {"flavourId": "simple"}),
)
ASKED_TO_GO = asked(3, terminate(timeout=30), planned(GONE_PLAN))
ENDED = later(moved, 3, "ROLLED_BACK")
run(
    "an operation that was not granted is shown with the cause",
    site(SCALED, ASKED_TO_GO, later(denied, 3), ENDED),
    *view_at(OCCURRENCE % 3, occurrence(3, "", "ROLLED_BACK", *FORCEFUL, error=fault("grant denied", 403))),
    site(SCALED, ASKED_TO_GO, *[later(grant_trouble, 3)] * 5, ENDED),
    *view_at(OCCURRENCE % 3, occurrence(3, "", "ROLLED_BACK", *FORCEFUL, error=fault("no grant after five tries"))),
    site(SCALED, ASKED_TO_GO, later(grant_misses, 3), ENDED),
    *view_at(OCCURRENCE % 3, occurrence(3, "", "ROLLED_BACK", *FORCEFUL, error=fault("grant does not cover the request"))),
)
STOPPED_WORK = [ASKED_TO_GO, granted(3, "g-3", WEST, [0] * 8), later(moved, 3, "PROCESSING"), *tried(3, 0, 1, done, "x"), *tried(3, 1, 1, done, "y")]
BROKE = [*STOPPED_WORK, *tried(3, 2, 1, broken, 4_294_967_295), later(moved, 3, "FAILED_TEMP")]
UNCALLED = [*BROKE, later(moved, 3, "PROCESSING"), *tried(3, 2, 2, call_failed), not_begun(tag(3, 2, 2)), later(moved, 3, "FAILED_TEMP")]
REMOVED = ({}, {}, {"changeType": "REMOVED", "id": "VDU_A-1", "computeResource": resource("c-1", "west"), "vduId": "VDU_A"})
run(
    "a termination that has stopped is shown without the task of a rollback",
    *[
        act
        for events, detail in ((BROKE, "change 2: broken 4294967295"), (UNCALLED, "change 2: call failed"))
        for act in (
            site(SCALED, *events),
            *view_at(OCCURRENCE % 3, occurrence(3, "fail retry", "FAILED_TEMP", *FORCEFUL, REMOVED, error=fault(detail), grantId="g-3")),
        )
    ],
)


# ---- What paths and queries name

def each_told(method, paths, answer):
    """A request with this method for each of these paths is told this."""
    return once([request(method, utf8(it)) for it in paths], [{"times": len(paths), "of": answer}])


SUBSCRIPTIONS = "/vnflcm/v1/subscriptions"
TASKS = "instantiate", "scale", "scale_to_level", "change_flavour", "terminate", "heal", "operate"
OCCURRENCE_TASKS = "retry", "rollback", "fail", "cancel"
NAMED = [INSTANCES + "/" + it for it in ("i", (INSTANCE % 1)[-36:], "scale", "%2F", "{id}", "vnf_instances", "ä", "*", "00000000")]
run(
    "each path names its resource",
    ["site", JOURNALS[1]],
    *[each_told("PUT", [INSTANCES], ONLY_GET_POST), each_told("PUT", NAMED, ONLY_DELETE_GET)],
    *[each_told("PUT", [*(INSTANCES + "/i/" + it for it in TASKS), INSTANCES + "/scale/scale", INSTANCE % 1 + "/heal"], ONLY_POST)],
    *[each_told("PUT", [OCCURRENCES, OCCURRENCES + "/o", OCCURRENCES + "/retry"], ONLY_GET)],
    *[each_told("PUT", [*(OCCURRENCES + "/o/" + it for it in OCCURRENCE_TASKS), OCCURRENCES + "/retry/retry"], ONLY_POST)],
    *[each_told("PUT", [SUBSCRIPTIONS], ONLY_GET_POST), each_told("PUT", [SUBSCRIPTIONS + "/s", SUBSCRIPTIONS + "/retry"], ONLY_DELETE_GET)],
    # (the body of a change of flavour isn't read; those of the others are, and none is there)
    *[each_told("POST", [INSTANCE % 1 + "/" + it for it in TASKS if it != "change_flavour"], NO_JSON)],
    *[each_told("POST", [INSTANCE % 1 + "/change_flavour"], NO_TASK), each_told("GET", NAMED[:1] + NAMED[2:], NO_INSTANCE)],
    *[each_told("GET", [OCCURRENCES + "/o", OCCURRENCES + "/retry"], NO_OCCURRENCE), idle],
)
OTHERS = (
    "/", "*", "//", "/vnflcm", "/vnflcm/", "/vnflcm/v1", "/vnflcm/v1/", "vnflcm/v1/vnf_instances", "//vnflcm/v1/vnf_instances",
    "/vnflcm//v1/vnf_instances", "/vnflcm/v1//vnf_instances", "/vnflcm/v2/vnf_instances", "/VNFLCM/v1/vnf_instances",
    "/vnflcm/V1/vnf_instances", "/vnflcm/v1/Vnf_instances", "/vnflcm/v1/vnf_instance", "/vnflcm/v1/vnf_instancess",
    "/vnflcm/v1/vnf%5Finstances", "/vnflcm/v1/vnf_instances/", "/vnflcm/v1/vnf_instances//", "/vnflcm/v1/vnf_instances//scale",
    "/vnflcm/v1/vnf_instances/i/", "/vnflcm/v1/vnf_instances/i//scale", "/vnflcm/v1/vnf_instances/i/scale/",
    "/vnflcm/v1/vnf_instances/i/scale/x", "/vnflcm/v1/vnf_instances/i/scal", "/vnflcm/v1/vnf_instances/i/scale_",
    "/vnflcm/v1/vnf_instances/i/Scale", "/vnflcm/v1/vnf_instances/i/sc%61le", "/vnflcm/v1/vnf_instances/i/retry",
    "/vnflcm/v1/vnf_instances/i/change_ext_conn", "/vnflcm/v1/vnf_instances/i/j/scale", "/vnflcm/v1/vnf_lcm_op_occs/",
    "/vnflcm/v1/vnf_lcm_op_occs/o/", "/vnflcm/v1/vnf_lcm_op_occs/o/scale", "/vnflcm/v1/vnf_lcm_op_occs/o/fail/o",
    "/vnflcm/v1/subscriptions/", "/vnflcm/v1/subscriptions/s/", "/vnflcm/v1/subscriptions/s/cancel", "/vnflcm/v1/subscriptions/s/t/u",
    "/vnflcm/v1/vnf_snapshots", "http://h/vnflcm/v1/vnf_instances", "////", "////a", "////a/b", "/vnflcm/v1/vnf_instances/i/j/k",
    "/a", "/a?", "/a?filter=x", "/filter=?a", "/ä?ö&filter=ü", "?", INSTANCES + "&filter=y",
)
run("no other path names a resource", *[["site", JOURNALS[1]], each_told("PUT", OTHERS, NO_RESOURCE), each_told("GET", OTHERS, NO_RESOURCE), ["stays"]])
FILTERS = "filter=", "filter=(eq,x,1)", "x=1&filter=y", "&filter=", "b&c&filter=", "filter=%00", "ö&filter=ü", "?&filter="
NO_FILTERS = "", "filter", "x", "afilter=y", "x=filter=y", "Filter=y", "filte%72=y", "x;filter=y", "b?filter=y", "b&?filter=y", "&", "filte=r", "ä"
run(
    "a list is not filtered, by whatever stands in its query",
    ["site", JOURNAL],
    *[each_told("GET", [path + "?" + it for it in FILTERS], NO_FILTER) for path in (INSTANCES, OCCURRENCES, SUBSCRIPTIONS)],
    *[each_told("GET", [path + "?" + it for it in NO_FILTERS], EMPTY_LIST) for path in (INSTANCES, OCCURRENCES, SUBSCRIPTIONS)],
    *[once(request("GET", INSTANCE % 1 + "?filter=x"), NO_INSTANCE), once(request("GET", OCCURRENCE % 1 + "?filter=x"), NO_OCCURRENCE)],
)
