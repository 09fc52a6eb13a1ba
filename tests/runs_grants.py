"""The runs of grants: what a turn asks an orchestrator for, and what comes of what that answers.

A turn behind a history in which an operation was asked for asks for its grant, or polls where that comes later, and records the answer. Bodies are
SOL 003's JSON, written out by hand.
"""
import json

import cases
from cases import heal, instantiate, latin, level, operate, scale_to, terminate, u8, u16, u32, utf8, vdu
from run_parts import batch_front, begin, in_record, run
from runs_plans import FRESH, IN, NO_VDU, ONE_LESS, ONE_MORE, OUT, PARTIAL, STOPPED, STOPPING, TERMINATED, THIRTEEN, THREE_STARTS, THREE_STOPS, TWO
from runs_plans import WIDE, called, changes_of, granted_first, making, many, of, removing

begin(__name__)

ONE, WAITS = "1 0 0", "0 1 0"


# ---- What an answer is read as

LINKLESS = of(cases.onboarded(cases.descriptor("vnfd-1", levels=[level("only")]))).asks(instantiate(), [])
ONE_LINK = of(cases.onboarded(cases.descriptor("vnfd-1", links=["net"], levels=[level("only")])))
ONE_LINK = ONE_LINK.asks(instantiate(), [(0, "create", "LINK", 0, NO_VDU, 0)])
THERE = "/grant/v1/grants/g1"
AT = cases.grant_later(1, THERE)
POLLED = LINKLESS.behind(AT)
NO_GRANT, MISSES, DENIED = [cases.grant_trouble(1)], [cases.grant_misses(1)], [cases.denied(1)]
GRANT = '{"id":"g1"}'


def grants(identifier="g1", places=(), spots=(), number=1):
    """A grant is recorded."""
    return [cases.granted(number, identifier, places, spots)]


def hears(story, status, location, events, body=GRANT, end=ONE):
    """The turn behind this history is answered so, and these events stand behind it then."""
    records = [called("R", in_record(it)) for it in events]
    return [
        *[["site", story.journal()], ["says", status, location, body], ["peer"], ["peer turn", end]],
        ["file", story.journal(*records)],
    ]


def asked(status, location, events, **more):
    return hears(LINKLESS, status, location, events, **more)


def polled(status, location, events, **more):
    return hears(POLLED, status, location, events, **more)


run(
    "the status says what an answer is",
    *[*asked(200, "", grants()), *asked(201, THERE, grants()), *polled(200, "", grants()), *asked(202, THERE, [AT]), *asked(202, "", NO_GRANT)],
    *[*polled(202, "", [], end=WAITS), *polled(202, THERE, [], end=WAITS), *polled(202, "/elsewhere", [], end=WAITS), *asked(403, THERE, DENIED)],
    *[*polled(403, "", DENIED), *asked(204, THERE, NO_GRANT), *asked(203, THERE, NO_GRANT), *asked(400, "", NO_GRANT), *asked(404, "", NO_GRANT)],
    *[*polled(500, "", NO_GRANT), *asked(0, "", NO_GRANT), *asked(65_535, THERE, NO_GRANT), *asked(202, THERE, [AT], body="")],
)


def body(text, events=NO_GRANT, story=LINKLESS):
    return hears(story, 201, "", events, text)


AT_NONE, AT_NONE_OF_ONE = grants(), grants("g1", [("", "")], [0])
run(
    "what has another form than a grant is trouble",
    *body(GRANT, AT_NONE),
    *body(' {"id" : "g1", "addResources" : [ ] }\n', AT_NONE),
    *body('{"id":"g1","addResources":[],"removeResources":[],"updateResources":[]}', AT_NONE),
    *body('{"id":"g1","addResources":[{"resourceDefinitionId":""}]}', MISSES),
    *body('{"id":"g1","addResources":[{"resourceDefinitionId":"d0","vimConnectionId":"","zoneId":""}]}', AT_NONE_OF_ONE, ONE_LINK),
    *body('{"id":"g1","addResources":[{"resourceDefinitionId":"d0"}]}', AT_NONE_OF_ONE, ONE_LINK),
    *body('{"id":"g1","_links":null,"vimConnections":[1,{}],"n":123456789012345678901234567890}', AT_NONE),
    *body('{"id":"","id":"g1"}', AT_NONE),
    *body(utf8('{"id":"Zürich"}'), grants("Zürich")),
    *[
        act
        for text in [
            *["", " ", "null", "[]", '"g1"', "7", "{", "{}", '{"id":"g1"', '{"id":"g1"}}', '{"id":"g1",}', "{'id':'g1'}", '{"id":"\xff"}'],
            *['{"id":""}', '{"id":null}', '{"id":1}', '{"id":["g1"]}', '{"id":"a\\u0001b"}', '{"id":"a\\u007fb"}', '{"Id":"g1"}'],
            *['{"id":"g1","addResources":null}', '{"id":"g1","removeResources":null}', '{"id":"g1","updateResources":null}'],
            *['{"id":"g1","updateResources":{}}', '{"id":"g1","addResources":"d0"}', '{"id":"g1","addResources":[null]}'],
            *['{"id":"g1","addResources":[[]]}', '{"id":"g1","addResources":[{}]}'],
            '{"id":"g1","addResources":[{"resourceDefinitionId":null}]}',
            '{"id":"g1","addResources":[{"resourceDefinitionId":"d0"},{"resourceDefinitionId":1}]}',
            '{"id":"g1","removeResources":[{"resourceDefinitionId":"d0","vimConnectionId":null}]}',
            '{"id":"g1","updateResources":[{"resourceDefinitionId":"d0","zoneId":{}}]}',
        ]
        for act in body(text)
    ],
)
run(
    "a deep or long answer is read or is trouble",
    *body(['{"id":"g1","addResources":', {"times": 1_000_000, "of": "["}]),
    *body(['{"id":"', {"times": 255, "of": "g"}, '"}'], grants("g" * 255)),
    *body(['{"id":"', {"times": 256, "of": "g"}, '"}']),
    *body(['{"id":"g1","x":', {"times": 200, "of": "["}, {"times": 200, "of": "]"}, "}"]),
    # (4,001 rows, none of which was asked for)
    *body(
        ['{"addResources":[', {"times": 4_000, "of": '{"resourceDefinitionId":""},'}, '{"resourceDefinitionId":"d1"}],"id":"g1"}'], MISSES
    ),
)


# ---- Which grants cover what was asked, and what is recorded of them

def row(identifier, connection=None, zone=None):
    members = dict(resourceDefinitionId=identifier, vimConnectionId=connection, zoneId=zone)
    return {key: value for key, value in members.items() if value is not None}


def rows(add=(), remove=(), update=()):
    """The body of a grant with these rows."""
    return json.dumps(dict(id="g1", addResources=list(add), removeResources=list(remove), updateResources=list(update)))


def covers(story, text, places, spots):
    """A grant with this body covers what was asked for last, and these places are recorded."""
    return body(text, grants("g1", places, spots, story.operations), story)


def misses(story, text):
    """It doesn't."""
    return body(text, [cases.grant_misses(story.operations)], story)


ROUTER = FRESH.asks(instantiate(), THIRTEEN)


def naming(*numbers):
    """A grant that adds the changes of these numbers."""
    return rows(row("d%d" % number, "vim1") for number in numbers)


run(
    "a grant covers an instantiation where it names each change once",
    *covers(ROUTER, naming(*range(13)), [("vim1", "")], [0] * 13),
    *covers(ROUTER, naming(*reversed(range(13))), [("vim1", "")], [0] * 13),
    *misses(ROUTER, naming(0, 1, 2, 3, 3, 5, 6, 7, 8, 9, 10, 11, 12)),
    *misses(ROUTER, naming(0, 1, 2, 3, 4, 5, 6, 7, 8, 9, 10, 11, 13)),
    *misses(ROUTER, naming(0, 1, 2, 3, 4, 5, 6, 7, 8, 9, 10, 11, 12, 12)),
    *[*misses(ROUTER, naming(*reversed(range(12)))), *misses(ROUTER, naming()), *body("{", NO_GRANT, ROUTER)],
)
# One machine with nothing else, which is made, stopped, started and removed.
MACHINE = ("COMPUTE", 0, 0, 1)
MADE = of(cases.onboarded(cases.descriptor("vnfd-1", [vdu("VDU", memory=1)], levels=[level("only")])))
CREATES = MADE.asks(instantiate(), [(2, "create", *MACHINE)])
RUNNING = CREATES.works([(2, "create", *MACHINE)])
STOPS = RUNNING.asks(operate(False), [(4, "stop", *MACHINE)])
STARTS = STOPS.works([(4, "stop", *MACHINE)]).asks(operate(True), [(4, "start", *MACHINE)])
REMOVES = RUNNING.asks(terminate(), [(6, "remove", *MACHINE)])


def one(story, identifier, lists, covered):
    """A grant with a row of this identifier in each of these lists covers the one change that was asked for, or doesn't."""
    text = rows(**{it: [row(identifier, "", "")] for it in lists.split()})
    return covers(story, text, [("", "")], [0]) if covered else misses(story, text)


run(
    "a change is granted in the list of its verb by its identifier alone",
    *[*one(CREATES, "d0", "add", True), *one(CREATES, "d0", "remove", False), *one(CREATES, "d0", "add remove", False)],
    *[*one(REMOVES, "d0", "remove", True), *one(REMOVES, "d0", "update", False), *one(REMOVES, "d0", "add", False)],
    *[*one(STARTS, "d0", "update", True), *one(STOPS, "d0", "update", True), *one(STOPS, "d0", "add", False), *one(STOPS, "d0", "remove", False)],
    *[
        act
        for it in ("d00", "d+0", "D0", "0", "d", "", "d1", "d18446744073709551616", "d18446744073709551615")
        for act in one(CREATES, it, "add", False)
    ],
)
FORTY = [(0, "create", "LINK", it, NO_VDU, 0) for it in range(40)]
FORTY_LINKS = of(cases.onboarded(cases.descriptor("vnfd-1", links=["n%02d" % it for it in range(40)], levels=[level("only")])))
FORTY_LINKS = FORTY_LINKS.asks(instantiate(), FORTY)
run(
    "a grant has at most thirty two places",
    *covers(
        *[FORTY_LINKS, rows(row("d%d" % it, "vim%d" % (it % 32)) for it in reversed(range(40)))],
        *[[("vim%d" % it, "") for it in range(32)], [it % 32 for it in range(40)]],
    ),
    *misses(FORTY_LINKS, rows(row("d%d" % it, "vim%d" % (it % 33)) for it in reversed(range(40)))),
    *covers(
        *[FORTY_LINKS, rows(row("d%d" % it, "vim0", "zone%d" % (it % 32)) for it in range(40))],
        *[[("vim0", "zone%d" % it) for it in range(32)], [it % 32 for it in range(40)]],
    ),
    *misses(FORTY_LINKS, rows(row("d%d" % it, "vim0", "zone%d" % it) for it in range(40))),
)
# A heal makes a machine, starts two and removes one: four changes are added, two updated and four removed.
MENDING = changes_of([*making(3), (4, "start", ("COMPUTE", 0, 0, 2), ("COMPUTE", 0, 1, 1)), *removing(1)])
HEALED = STOPPED.asks(heal((0, 1)), MENDING)
run(
    "a grant records each place once in the order of the plan",
    *covers(
        HEALED,
        rows(
            [row("d3", "east"), row("d1", "west"), row("d0", "east"), row("d2", "west", "")],
            [row("d9"), row("d6", "east", "north"), row("d8", "west"), row("d7", "east")],
            [row("d5", "east", "north"), row("d4", "", "north")],
        ),
        *[[("east", ""), ("west", ""), ("", "north"), ("east", "north"), ("", "")], [0, 1, 1, 0, 2, 3, 3, 0, 1, 4]],
    ),
    *covers(LINKLESS, rows(), [], []),
    *misses(HEALED, rows([row("d%d" % it) for it in range(10)])),
)



def records(story, places, spots, allowed):
    """A grant that gives the changes these places by their numbers may be recorded behind this history, or may not."""
    event = cases.granted(story.operations, "g1", [(it, "") for it in places], spots)
    opened = "%d records, 1 descriptors, 1 instances, 1 live" % (story.records + 1) if allowed else "bad record %d" % (story.records + 1)
    return [["site", story.journal(in_record(event))], ["opened", opened]]


FOUR, VIMS = TWO.asks(OUT(1), ONE_MORE), ("vim1", "vim2")
run(
    "a grant's places stand in the order of the changes",
    *[*records(FOUR, VIMS, [0, 0, 1, 0], True), *records(FOUR, VIMS, [1, 0, 1, 0], False), *records(FOUR, VIMS, [0, 0, 0, 0], False)],
    *[*records(FOUR, VIMS, [0, 1, 0], False), *records(FOUR, VIMS, [0, 1, 0, 1, 0], False), *records(FOUR, VIMS, [0, 2, 1, 0], False)],
    *[*records(FOUR, ("vim1", "vim1"), [0, 1, 0, 1], False), *records(FOUR, (), [], False), *records(LINKLESS, (), [], True)],
    *records(LINKLESS, ("vim1",), [], False),
)

# A scaling by 621 machines, of 2,484 changes: the grant has the last half of them first, at a connection, and then the others, at none.
SCALED = OUT(621)
LAST = 2_483


def rows_from(first, last, front):
    """The rows of the changes from this one to before that one, each behind a front and with a comma."""
    bounds = [(max(first, low), min(last, 10 * low or 10), width) for low, width in ((0, 1), (10, 2), (100, 3), (1_000, 4))]
    return [{"from": low, "to": high, "of": [front, {"digits": width}, '"},']} for low, high, width in bounds if low < high]


def halves(last):
    placed, named = '{"vimConnectionId":"v","resourceDefinitionId":"d', '{"resourceDefinitionId":"d'
    parts = [*rows_from(1_242, last, placed), *rows_from(1, 1_242, named)]
    return ['{"id":"g1","addResources":[', *parts, named + '0"}]}']


def long_answer(last, record):
    asked_for = [*many(WIDE, SCALED, 3, 621), "\0"]
    told = [*asked_for[:-1], *record, "\0"]
    story = called("H", WIDE.parts)
    return [
        *[["site", [story, *asked_for]], ["says", 201, "", halves(last)], ["peer"], ["peer turn", ONE], ["file", [story, *told]]],
    ]


HALVES = cases.granted(2, "g1", [("", ""), ("v", "")], [])[:-2] + u16(LAST + 1)
HALVES = [latin(batch_front(len(HALVES) + LAST + 1) + HALVES), {"times": 1_242, "of": "\0"}, {"times": 1_242, "of": "\1"}]
run(
    "a grant of 2,484 changes is covered or lacks one",
    *[*long_answer(LAST + 1, HALVES), *long_answer(LAST, [in_record(cases.grant_misses(2))])],
)

# ---- What a grant is asked for with

LINKS = (
    '{"_links":{"vnfInstance":{"href":"/vnflcm/v1/vnf_instances/00000007-766d-8001-8000-000000000001"},'
    '"vnfLcmOpOcc":{"href":"/vnflcm/v1/vnf_lcm_op_occs/00000007-766d-8002-8000-00000000000%d"}},'
)
INSTANTIATION = LINKS % 1 + (
    '"addResources":['
    '{"id":"d0","resourceTemplateId":"net_data","type":"VL"},'
    '{"id":"d1","resourceTemplateId":"net_mgmt","type":"VL"},'
    '{"id":"d2","resourceTemplateId":"STO_A","type":"STORAGE","vduId":"VDU_A"},'
    '{"id":"d3","resourceTemplateId":"STO_A","type":"STORAGE","vduId":"VDU_A"},'
    '{"id":"d4","resourceTemplateId":"STO_B","type":"STORAGE","vduId":"VDU_B"},'
    '{"id":"d5","resourceTemplateId":"VDU_A","type":"COMPUTE","vduId":"VDU_A"},'
    '{"id":"d6","resourceTemplateId":"VDU_A","type":"COMPUTE","vduId":"VDU_A"},'
    '{"id":"d7","resourceTemplateId":"VDU_B","type":"COMPUTE","vduId":"VDU_B"},'
    '{"id":"d8","resourceTemplateId":"CP_A_data","type":"LINKPORT","vduId":"VDU_A"},'
    '{"id":"d9","resourceTemplateId":"CP_A_mgmt","type":"LINKPORT","vduId":"VDU_A"},'
    '{"id":"d10","resourceTemplateId":"CP_A_data","type":"LINKPORT","vduId":"VDU_A"},'
    '{"id":"d11","resourceTemplateId":"CP_A_mgmt","type":"LINKPORT","vduId":"VDU_A"},'
    '{"id":"d12","resourceTemplateId":"CP_B_mgmt","type":"LINKPORT","vduId":"VDU_B"}],'
    '"flavourId":"simple","isAutomaticInvocation":false,"operation":"INSTANTIATE",'
    '"removeResources":[],"updateResources":[],'
    '"vnfInstanceId":"00000007-766d-8001-8000-000000000001",'
    '"vnfLcmOpOccId":"00000007-766d-8002-8000-000000000001","vnfdId":"vnfd-1"}'
)
HEAL = LINKS % 3 + (
    '"addResources":[],"flavourId":"simple","isAutomaticInvocation":false,"operation":"HEAL",'
    '"removeResources":[{"id":"d0","resource":{"resourceId":"n14","vimConnectionId":"vim1"},'
    '"resourceTemplateId":"STO_A","type":"STORAGE","vduId":"VDU_A"}],'
    '"updateResources":[],"vnfInstanceId":"00000007-766d-8001-8000-000000000001",'
    '"vnfLcmOpOccId":"00000007-766d-8002-8000-000000000003","vnfdId":"vnfd-1"}'
)
MIXED = LINKS % 3 + (
    '"addResources":['
    '{"id":"d0","resourceTemplateId":"STO_A","type":"STORAGE","vduId":"VDU_A"},'
    '{"id":"d1","resourceTemplateId":"VDU_A","type":"COMPUTE","vduId":"VDU_A"},'
    '{"id":"d2","resourceTemplateId":"CP_A_data","type":"LINKPORT","vduId":"VDU_A"},'
    '{"id":"d3","resourceTemplateId":"CP_A_mgmt","type":"LINKPORT","vduId":"VDU_A"}],'
    '"flavourId":"simple","isAutomaticInvocation":false,"operation":"HEAL",'
    '"removeResources":['
    '{"id":"d6","resource":{"resourceId":"net \\"9\\"","vimConnectionId":"vim1"},'
    '"resourceTemplateId":"CP_A_data","type":"LINKPORT","vduId":"VDU_A"},'
    '{"id":"d7","resource":{"resourceId":"net \\"10\\"","vimConnectionId":"vim1"},'
    '"resourceTemplateId":"CP_A_mgmt","type":"LINKPORT","vduId":"VDU_A"},'
    '{"id":"d8","resource":{"resourceId":"net \\"6\\"","vimConnectionId":"vim1"},'
    '"resourceTemplateId":"VDU_A","type":"COMPUTE","vduId":"VDU_A"},'
    '{"id":"d9","resource":{"resourceId":"net \\"3\\"","vimConnectionId":"vim1"},'
    '"resourceTemplateId":"STO_A","type":"STORAGE","vduId":"VDU_A"}],'
    '"updateResources":['
    '{"id":"d4","resource":{"resourceId":"net \\"7\\"","vimConnectionId":"vim1"},'
    '"resourceTemplateId":"VDU_A","type":"COMPUTE","vduId":"VDU_A"},'
    '{"id":"d5","resource":{"resourceId":"net \\"8\\"","vimConnectionId":"vim1"},'
    '"resourceTemplateId":"VDU_B","type":"COMPUTE","vduId":"VDU_B"}],'
    '"vnfInstanceId":"00000007-766d-8001-8000-000000000001",'
    '"vnfLcmOpOccId":"00000007-766d-8002-8000-000000000003","vnfdId":"vnfd-1"}'
)
TYPES = dict(LINK="VL", STORAGE="STORAGE", COMPUTE="COMPUTE", PORT="LINKPORT")


def entry(number, change, resource):
    """The entry of a change in a request, with the name of its resource."""
    _, _, kind, item, machine, _ = change
    vdu_name = {0: "VDU_A", 1: "VDU_B"}.get(machine)
    names = dict(LINK=("net_data", "net_mgmt"), STORAGE=("STO_A", "STO_B"), COMPUTE=(vdu_name,), PORT=("CP_A_data", "CP_A_mgmt", "CP_B_mgmt"))
    told = dict(id="d%d" % number, resourceTemplateId=names[kind][item], type=TYPES[kind])
    return {
        **told,
        **({"vduId": vdu_name} if vdu_name else {}),
        **({"resource": dict(resourceId=resource, vimConnectionId="vim1")} if resource else {}),
    }


LISTS = dict(create="addResources", remove="removeResources", start="updateResources", stop="updateResources")


def request(number, operation, changes, resources=()):
    """The request for an operation's grant, whose changes that make nothing are at these resources."""
    found = iter(resources)
    lists = {it: [] for it in LISTS.values()}
    for place, change in enumerate(changes):
        lists[LISTS[change[1]]].append(entry(place, change, None if change[1] == "create" else next(found)))
    instance, occurrence = "00000007-766d-8001-8000-000000000001", "00000007-766d-8002-8000-00000000000%d" % number
    paths = dict(
        vnfInstance=dict(href="/vnflcm/v1/vnf_instances/" + instance), vnfLcmOpOcc=dict(href="/vnflcm/v1/vnf_lcm_op_occs/" + occurrence)
    )
    told = dict(flavourId="simple", isAutomaticInvocation=False, operation=operation, vnfInstanceId=instance, vnfLcmOpOccId=occurrence)
    return json.dumps(dict(_links=paths, vnfdId="vnfd-1", **told, **lists), sort_keys=True, separators=(",", ":"))


def asks_with(story, text):
    """The turn behind this history asks for a grant with this body."""
    return [["site", story.journal()], ["asks", text]]


assert request(1, "INSTANTIATE", THIRTEEN) == INSTANTIATION
run("an instantiation asks for all that it makes", *asks_with(ROUTER, INSTANTIATION))
run(
    "a heal asks for the disk that it removes",
    *asks_with(PARTIAL.asks(heal((0, 3)), [(7, "remove", "STORAGE", 0, 0, 3)]), HEAL),
)
QUOTED = FRESH.through(instantiate(), THIRTEEN, spelled='net "%d"').through(operate(False), THREE_STOPS)
run("each verb is asked for in its list in the order of the plan", *asks_with(QUOTED.asks(heal((0, 1)), MENDING), MIXED))
ENDING = changes_of(TERMINATED)
AT_ENDING = ["n%d" % it for it in (9, 10, 11, 12, 13, 6, 7, 8, 3, 4, 5, 1, 2)]
run(
    "each operation asks for what it changes",
    *asks_with(TWO.asks(OUT(1), ONE_MORE), request(2, "SCALE", ONE_MORE)),
    *asks_with(TWO.asks(IN(1), ONE_LESS), request(2, "SCALE", ONE_LESS, ["n11", "n12", "n7", "n4"])),
    *asks_with(TWO.asks(scale_to("small"), ONE_LESS), request(2, "SCALE_TO_LEVEL", ONE_LESS, ["n11", "n12", "n7", "n4"])),
    *asks_with(TWO.asks(operate(False), THREE_STOPS), request(2, "OPERATE", THREE_STOPS, ["n6", "n7", "n8"])),
    *asks_with(STOPPED.asks(operate(True), THREE_STARTS), request(3, "OPERATE", THREE_STARTS, ["n6", "n7", "n8"])),
    *asks_with(TWO.asks(terminate(), ENDING), request(2, "TERMINATE", ENDING, AT_ENDING)),
    *asks_with(
        *[TWO.asks(terminate("GRACEFUL"), changes_of([STOPPING, *TERMINATED]))],
        request(2, "TERMINATE", changes_of([STOPPING, *TERMINATED]), ["n6", "n7", "n8", *AT_ENDING]),
    ),
)

# ---- The orchestrator that grants all

BOTH = FRESH.asks(instantiate(), THIRTEEN).behind(cases.created(2, "vnfd-1")).asks(instantiate(), THIRTEEN, instance=2)
run(
    "an orchestrator that grants all grants each operation as it was asked",
    *[["site", HEALED.journal()], ["turn", 1, 0, 0], ["file", HEALED.journal(granted_first(3, 10))], ["grants", 1]],
)
run(
    "an orchestrator that grants all numbers its grants",
    *[["site", BOTH.journal()], ["turn", 2, 0, 0], ["grants", 2]],
    ["file", BOTH.journal(granted_first(1, 13), in_record(cases.granted(2, "g2", [("vim1", "")], [0] * 13)))],
)
