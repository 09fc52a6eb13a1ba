"""The runs of turns: the grant exchange with planned answers, disk calls that fail in it, and being out of memory."""
import cases
from run_texts import *
from runs_instantiations import router_site

begin(__name__)

# ---- Grants

GRANT = (201, "", '{"id":"g1"}')
SURPLUS = (201, "", '{"addResources":[{"resourceDefinitionId":"d0"}],"id":"g1"}')


def with_answers(count, *said):
    """So many rounds over an operation that was asked for, with an orchestrator that answers so in turn."""
    acts = [["says", *it] for it in said]
    return [["site", journal(CREATION[1], ASKED)], *acts, go("once", "--journal", "j", "--rounds", str(count))]


for title, said, count, records in [
    *[("a grant", [GRANT], 1, [GRANTED]), ("a grant, and a round more", [GRANT], 2, [GRANTED, MOVED["PROCESSING"]])],
    ("a grant, and the end", [GRANT], 5, [GRANTED, MOVED["PROCESSING"], MOVED["COMPLETED"]]),
    ("a change that was not asked for", [SURPLUS], 2, [NOT_COVERING, MOVED["ROLLED_BACK"]]),
    ("no grant", [(403, "", "")], 3, [DENIED, MOVED["ROLLED_BACK"]]),
    (
        *["a grant that comes later", [(202, "/g/1", ""), (202, "", ""), (200, "", '{"id":"g1"}')], 4],
        [GRANT_LATER, GRANTED, MOVED["PROCESSING"]],
    ),
    ("five that are trouble", [(202, "", ""), (500, "", ""), (201, "", "{")], 6, [TROUBLE] * 5 + [MOVED["ROLLED_BACK"]]),
    ("a location at which there is none", [(202, "/g/1", ""), (404, "", ""), GRANT], 4, [GRANT_LATER, TROUBLE, GRANTED, MOVED["PROCESSING"]]),
]:
    run(
        "turns record what the orchestrator answers: %s" % title,
        *[*with_answers(count, *said), ["status", 0], ["file", journal(CREATION[1], ASKED, *records)]],
    )
for count, said, detail, status in [
    *[(2, [(403, "", "")], "grant denied", 403), (2, [SURPLUS], "grant does not cover the request", 500)],
    *[(6, [(500, "", "")] * 5, "no grant after five tries", 500), (6, [], "no grant after five tries", 500)],
]:
    view = compact(occurrence_view("ROLLED_BACK", (detail, status), granted=False))
    run("an occurrence without a grant says why: %s, %d answers" % (detail, len(said)), *with_answers(count, *said), once(SHOW), ["only answered", showing(view)])
TWO_TURNS = [GRANTED, MOVED["PROCESSING"]]
run(
    "a disk call that fails in a turn ends the run",
    *[*with_answers(2, GRANT), ["life", [], []]],
    [
        *["each fault", *with_answers(2, GRANT), ["fallen"]],
        *[act for n in range(3) for act in at_records(n, n, ["file front", journal(CREATION[1], ASKED, *TWO_TURNS[:n])])],
    ],
)
run(
    "a granted instantiation of the edge router is processed",
    *[*router_site(), rounds(2, INSTANTIATE, ACCEPTED), ["file end", [ROUTER_ASKED, ROUTER_GRANTED, MOVED["PROCESSING"], "\0"]]],
    *[once(SHOW), ["answered", showing(compact(occurrence_view("PROCESSING")))]],
)


# ---- Turns with planned answers, over the journal of a descriptor of links whose instances were asked to be instantiated

LINKS_VNFD = "vnfd-2"
GRANT_AT = "/grant/v1/grants/g1"
LATER_AT = cases.grant_later(1, GRANT_AT), cases.grant_later(2, GRANT_AT)
TROUBLED = cases.grant_trouble(1), cases.grant_trouble(2)
LINKS_GRANTED = [cases.granted(n, "g1", [("v0", "")], [0, 0]) for n in (1, 2)]
WORKING = cases.moved(1, "PROCESSING"), cases.moved(2, "PROCESSING")
BACK_THEN, REFUSED_THEN, MISSED = cases.moved(1, "ROLLED_BACK"), cases.denied(1), cases.grant_misses(1)
CANCELLED_THEN, FORCED_THEN = cases.cancel_asked(1, "GRACEFUL"), cases.cancel_asked(1, "FORCEFUL")


def links_asked(links, instances, *events, closed=True):
    """The journal of so many instances of that many links, each asked to be instantiated, with these events behind, and up to its closed gate."""
    names = ["n%02d" % it for it in range(links)]
    all_events = [cases.onboarded(cases.descriptor(LINKS_VNFD, links=names, levels=[cases.level("only")]))]
    changes = [cases.change(0, "create", "LINK", it, cases.NO_VDU, 0) for it in range(links)]
    for number in range(1, instances + 1):
        all_events += [cases.created(number, LINKS_VNFD), cases.asked(number, cases.instantiate(), changes, instance=number)]
    return [HEADER, *map(in_record, [*all_events, *events]), *["\0"][: closed]]


def says_grant(changes, places):
    """A grant of so many changes, from the first on, at so many places in turn."""
    rows = ['{"resourceDefinitionId":"d%d","vimConnectionId":"v%d"}' % (it, it % places) for it in range(changes)]
    return ["says", 201, "", shared("GRANT_OF_SOME", '{"id":"g1","addResources":[%s]}' % ",".join(rows))]


def says_status(status):
    return ["says", status, "", ""]


SAYS_GRANT, SAYS_NOTHING, SAYS_DENIED, SAYS_LATER = says_grant(2, 1), ["says nothing"], says_status(403), says_status(202)
SAYS_WHERE = ["says", 202, GRANT_AT, ""]
SAYS_TROUBLE = [SAYS_NOTHING, says_status(500), SAYS_LATER, says_status(200), says_status(204)]


def peer_turns(*ends):
    return [["peer turn", end] for end in ends]


def exchange(links, events, answers, ends, then, calls, instances=1):
    """Turns that end so, behind these events and with these answers: the events that stand behind them then, and how many asks and polls were answered."""
    silent = sum(it == SAYS_NOTHING for it in answers[: len(ends) * instances])
    return [
        *[["no fault"], ["room", 0], ["site", links_asked(links, instances, *events)], *answers, ["peer"], *peer_turns(*ends)],
        *[["file front", links_asked(links, instances, *events, *then, closed=False)], ["peer calls", *calls, silent]],
    ]


ONE, TWO, WAITS, RESTS = "1 0 0", "2 0 0", "0 1 0", "0 0 0"
SIX_TROUBLES = [TROUBLED[0]] * 5
run(
    "turns lead to PROCESSING or to ROLLED_BACK",
    *exchange(2, [], [SAYS_GRANT], [ONE], [LINKS_GRANTED[0]], (1, 0)),
    *exchange(2, [], [SAYS_GRANT], [ONE] * 2, [LINKS_GRANTED[0], WORKING[0]], (1, 0)),
    *exchange(2, [], [SAYS_GRANT], [ONE] * 3, [LINKS_GRANTED[0], WORKING[0]], (1, 0)),
    *exchange(2, [], [says_grant(1, 1)], [ONE], [MISSED], (1, 0)),
    *exchange(2, [], [says_grant(1, 1)], [ONE] * 2, [MISSED, BACK_THEN], (1, 0)),
    *exchange(2, [], [says_grant(3, 1)], [ONE] * 2, [MISSED, BACK_THEN], (1, 0)),
    *exchange(2, [], [SAYS_DENIED], [ONE], [REFUSED_THEN], (1, 0)),
    *exchange(2, [], [SAYS_DENIED], [ONE] * 2, [REFUSED_THEN, BACK_THEN], (1, 0)),
    *exchange(2, [], [SAYS_DENIED], [ONE, ONE, RESTS], [REFUSED_THEN, BACK_THEN], (1, 0)),
    *exchange(2, [], [SAYS_WHERE, SAYS_LATER, SAYS_GRANT], [ONE], [LATER_AT[0]], (1, 0)),
    *exchange(2, [], [SAYS_WHERE, SAYS_LATER, SAYS_GRANT], [ONE, WAITS], [LATER_AT[0]], (1, 1)),
    *exchange(2, [], [SAYS_WHERE, SAYS_LATER, SAYS_GRANT], [ONE, WAITS, ONE], [LATER_AT[0], LINKS_GRANTED[0]], (1, 2)),
    *exchange(2, [], [SAYS_WHERE, SAYS_LATER, SAYS_GRANT], [ONE, WAITS, ONE, ONE], [LATER_AT[0], LINKS_GRANTED[0], WORKING[0]], (1, 2)),
    *exchange(2, [], SAYS_TROUBLE, [ONE] * 4, SIX_TROUBLES[:4], (3, 0)),
    *exchange(2, [], SAYS_TROUBLE, [ONE] * 5, SIX_TROUBLES, (4, 0)),
    *exchange(2, [], SAYS_TROUBLE, [ONE] * 6, [*SIX_TROUBLES, BACK_THEN], (4, 0)),
    *exchange(
        *[33, [], [says_grant(33, 32)], [ONE] * 2],
        [cases.granted(1, "g1", [("v%d" % it, "") for it in range(32)], [*range(32), 0]), WORKING[0]],
        (1, 0),
    ),
    *exchange(33, [], [says_grant(33, 33)], [ONE] * 2, [MISSED, BACK_THEN], (1, 0)),
    *exchange(0, [], [says_grant(0, 1)], [ONE] * 2, [cases.granted(1, "g1"), WORKING[0]], (1, 0)),
)
run(
    "a cancel lets the grant exchange end, or ends it",
    *exchange(2, [LATER_AT[0], CANCELLED_THEN], [SAYS_LATER], [WAITS], [], (0, 1)),
    *exchange(2, [LATER_AT[0], CANCELLED_THEN], [SAYS_LATER, SAYS_GRANT], [WAITS, ONE, ONE], [LINKS_GRANTED[0], BACK_THEN], (0, 2)),
    *exchange(2, [LATER_AT[0], FORCED_THEN], [SAYS_GRANT], [ONE], [BACK_THEN], (0, 0)),
    *exchange(2, [CANCELLED_THEN], [SAYS_DENIED], [ONE] * 2, [REFUSED_THEN, BACK_THEN], (1, 0)),
    *exchange(2, [CANCELLED_THEN], [says_grant(1, 1)], [ONE] * 2, [MISSED, BACK_THEN], (1, 0)),
    *exchange(2, [CANCELLED_THEN], SAYS_TROUBLE, [ONE] * 5, SIX_TROUBLES, (4, 0)),
    *exchange(2, [CANCELLED_THEN], SAYS_TROUBLE, [ONE] * 6, [*SIX_TROUBLES, BACK_THEN], (4, 0)),
    *exchange(2, [TROUBLED[0], FORCED_THEN], [SAYS_GRANT], [ONE], [BACK_THEN], (0, 0)),
    *exchange(2, [LINKS_GRANTED[0], CANCELLED_THEN], [], [ONE], [BACK_THEN], (0, 0)),
)
run(
    "a call of the orchestrator that fails is trouble for its occurrence alone",
    *exchange(2, [], [SAYS_NOTHING, SAYS_GRANT], [TWO], [TROUBLED[0], LINKS_GRANTED[1]], (1, 0), 2),
    *exchange(2, [], [SAYS_GRANT, SAYS_NOTHING], [TWO], [LINKS_GRANTED[0], TROUBLED[1]], (1, 0), 2),
    *exchange(2, [], [SAYS_NOTHING, SAYS_NOTHING], [TWO], [*TROUBLED], (0, 0), 2),
    *exchange(2, [], [SAYS_WHERE, SAYS_WHERE, SAYS_NOTHING, SAYS_GRANT], [TWO] * 2, [*LATER_AT, TROUBLED[0], LINKS_GRANTED[1]], (2, 1), 2),
    *exchange(2, [], [SAYS_WHERE, SAYS_WHERE, SAYS_GRANT, SAYS_NOTHING], [TWO] * 2, [*LATER_AT, LINKS_GRANTED[0], TROUBLED[1]], (2, 1), 2),
)


def with_fault(instances, call, granted, *turns):
    """Turns where this disk call of the site fails; each ends so, and behind it the journal has these events, up to its closed gate."""
    acts = [["fault", call], ["site", links_asked(2, instances)], *[SAYS_GRANT] * granted, ["peer"]]
    for end, events in turns:
        acts += [*peer_turns(end), ["file front", links_asked(2, instances, *events)]]
    return acts


for number in range(1, 17):
    first, second = CALLS_TO_OPEN, CALLS_TO_OPEN + 4 + CALLS_TO_OPEN
    grant, work_too = [LINKS_GRANTED[0]], [LINKS_GRANTED[0], WORKING[0]]
    if number <= first:
        expected = (UNOPENED, []), (ONE, grant)
    elif number < first + 4:
        expected = ("site fault", []), (ONE, grant)
    elif number == first + 4:
        expected = ("site fault", grant), (ONE, work_too)
    elif number <= second:
        expected = (ONE, grant), (UNOPENED, grant), (ONE, work_too)
    elif number < second + 4:
        expected = (ONE, grant), ("site fault", grant), (ONE, work_too)
    else:
        expected = (ONE, grant), ("site fault", work_too)
    run("a turn whose disk fails is made up for: call %d" % number, *with_fault(1, number, 2, *expected))
for number in range(8):
    begun, granted_then = number // 4, (number + 1) // 4
    follow = [LINKS_GRANTED[0], WORKING[0], LINKS_GRANTED[1], WORKING[1]] if granted_then == 1 else [*LINKS_GRANTED, *WORKING]
    run(
        "the acts before a disk call that fails stand: call %d" % number,
        *with_fault(2, CALLS_TO_OPEN + 1 + number, 4, ("site fault", follow[:granted_then])),
        *[["peer calls", begun + 1, 0, 0], *peer_turns(TWO), ["file front", links_asked(2, 2, *follow[: granted_then + 2])]],
        ["peer calls", begun + 3 - granted_then, 0, 0],
    )
STARVED = "the acts before one that is out of memory stand"
run(
    STARVED,
    *[["no fault"], ["site", links_asked(2, 2)], *[SAYS_GRANT] * 4, ["peer"]],
    [
        "starved",
        [links_asked(2, 2, *LINKS_GRANTED[:granted]) for granted in range(3)],
        [
            links_asked(2, 2, *LINKS_GRANTED),
            links_asked(2, 2, LINKS_GRANTED[0], WORKING[0], LINKS_GRANTED[1]),
            links_asked(2, 2, *LINKS_GRANTED, *WORKING),
        ],
    ],
)

# ---- What an orchestrator is asked with in a whole command

GRANT_REQUEST = (
    '{"_links":{"vnfInstance":{"href":"%s"},"vnfLcmOpOcc":{"href":"%s"}},"addResources":[],"flavourId":"simple","isAutomaticInvocation":false,'
    '"operation":"INSTANTIATE","removeResources":[],"updateResources":[],"vnfInstanceId":"%s","vnfLcmOpOccId":"%s","vnfdId":"vnfd-1"}'
) % (INSTANCE % 1, OCCURRENCE % 1, (INSTANCE % 1).rsplit("/", 1)[1], (OCCURRENCE % 1).rsplit("/", 1)[1])
run(
    "a command asks with the body of its operation, and polls the location that it was told",
    *[*with_answers(4, (202, "/g/1", ""), (202, "", ""), (200, "", '{"id":"g1"}')), ["bodies", GRANT_REQUEST + "\n"], ["polled", "/g/1\n/g/1\n"]],
    # Without a location it asks again, and behind a grant no more.
    *[*with_answers(3, (500, "", ""), GRANT), ["bodies", (GRANT_REQUEST + "\n") * 2], ["polled", ""]],
)
