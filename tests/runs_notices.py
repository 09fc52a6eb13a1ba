"""The runs of notices: which events make one, whom they are told by a filter, what stands in each, and from the words of commands to what is posted.

What is posted is a line of the status that came of it, or `fail`, the callback and the body. All texts are written by hand, none by the model."""
from run_operations import *
from runs_commands import EVENTS
from runs_subscriptions import *

begin(__name__)

NO_CONTENT, ALL_TAKEN = 204, "%d 0"


def identified(kind, number):
    return "00000007-766d-800%d-8000-%012x" % (kind, number)


def notice_text(subscription, place, notice, instance=1, at=START):
    """What a subscription is told of the event at this place: a creation, a deletion, or an occurrence with its number, operation and state."""
    links_ = {"subscription": {"href": SUBSCRIPTION % subscription}, "vnfInstance": {"href": INSTANCES + "/" + identified(1, instance)}}
    body = {"id": identified(4, place), "subscriptionId": identified(3, subscription), "timeStamp": at, "vnfInstanceId": identified(1, instance)}
    if isinstance(notice, str):
        return compact({**body, "_links": links_, "notificationType": notice})
    occurrence, operation, state = notice
    links_["vnfLcmOpOcc"] = {"href": OCCURRENCES + "/" + identified(2, occurrence)}
    return compact({
        **body, "_links": links_, "isAutomaticInvocation": False, "notificationType": OCCURRED, "operation": operation, "operationState": state,
        "notificationStatus": "START" if state in ("STARTING", "PROCESSING", "ROLLING_BACK") else "RESULT", "vnfLcmOpOccId": identified(2, occurrence),
    })


def post_of(subscription, place, notice, status=NO_CONTENT, callback=CALLBACK, **more):
    """The line of a post, which has a name."""
    return shared("POST", "%s %s %s\n" % (status, callback, notice_text(subscription, place, notice, **more)))


def journal_with(*records_):
    """A journal of these records behind the descriptor without a machine."""
    return ["site", [HEADER, ONBOARDED, *records_, "\0"]]


def of_record(event):
    return in_record(working.spelled(event))


# ---- The body of a notice

CREATION_TEXT = (
    '{"_links":{"subscription":{"href":"/vnflcm/v1/subscriptions/00000007-766d-8003-8000-000000000001"},"vnfInstance":{"href":'
    '"/vnflcm/v1/vnf_instances/00000007-766d-8001-8000-000000000001"}},"id":"00000007-766d-8004-8000-000000000003","notificationType":'
    '"VnfIdentifierCreationNotification","subscriptionId":"00000007-766d-8003-8000-000000000001","timeStamp":"2023-11-14T22:13:20.000Z",'
    '"vnfInstanceId":"00000007-766d-8001-8000-000000000001"}'
)
ASKED_TEXT = (
    '{"_links":{"subscription":{"href":"/vnflcm/v1/subscriptions/00000007-766d-8003-8000-000000000001"},"vnfInstance":{"href":'
    '"/vnflcm/v1/vnf_instances/00000007-766d-8001-8000-000000000001"},"vnfLcmOpOcc":{"href":'
    '"/vnflcm/v1/vnf_lcm_op_occs/00000007-766d-8002-8000-000000000001"}},"id":"00000007-766d-8004-8000-000000000004","isAutomaticInvocation":false,'
    '"notificationStatus":"START","notificationType":"VnfLcmOperationOccurrenceNotification","operation":"INSTANTIATE","operationState":"STARTING",'
    '"subscriptionId":"00000007-766d-8003-8000-000000000001","timeStamp":"2023-11-14T22:13:20.000Z",'
    '"vnfInstanceId":"00000007-766d-8001-8000-000000000001","vnfLcmOpOccId":"00000007-766d-8002-8000-000000000001"}'
)
assert notice_text(1, 3, WAS_CREATED) == CREATION_TEXT and notice_text(1, 4, (1, "INSTANTIATE", "STARTING")) == ASKED_TEXT
FIRST_SUBSCRIBED = let("FIRST_SUBSCRIBED", of_record(subscribed(1)))
CREATED_RECORDS = [ONBOARDED, FIRST_SUBSCRIBED, CREATION[1]]
POSTED = let("POSTED_3", of_record(("posted", 1, 3, 0)))
run(
    "a creation is posted, and that it was is recorded",
    *[journal_with(FIRST_SUBSCRIBED, CREATION[1]), ["waits", 1, 3], ["deliveries", "1 0"], ["posted", "204 http://127.0.0.1:9900/n %s\n" % CREATION_TEXT]],
    *[["file", [HEADER, *CREATED_RECORDS, POSTED, "\0"]], ["waits", 1, 0], ["deliveries", "0 0"], ["posted", ""], ["stays"]],
)
# Four calls open the journal, a read holds all of it, and four append that it was posted.
IN_ONE = let("IN_ONE", [HEADER, in_batch(EVENTS[0], working.spelled(subscribed(1)), EVENTS[1], cases.deleted(1))])
run(
    "the notices of a batch are posted one after the other, and each is recorded in a batch of its own",
    *[["site", [IN_ONE, "\0"]], ["deliveries", "1 0"], ["moment", 9], ["posted", "204 http://127.0.0.1:9900/n %s\n" % CREATION_TEXT]],
    *[["file", [IN_ONE, POSTED, "\0"]], ["waits", 1, 4], ["deliveries", "1 0"], ["posted", post_of(1, 4, WAS_DELETED)]],
    *[["file", [IN_ONE, POSTED, of_record(("posted", 1, 4, 0)), "\0"]], ["waits", 1, 0], ["deliveries", "0 0"], ["posted", ""], ["stays"]],
)
run(
    "that an operation is asked for is posted",
    *[journal_with(FIRST_SUBSCRIBED, CREATION[1], ASKED, POSTED), ["waits", 1, 4], ["deliveries", "1 0"]],
    ["posted", "204 http://127.0.0.1:9900/n %s\n" % ASKED_TEXT],
)


def told_of(*events):
    """A subscription is told of each of these that makes a notice, in their order; what it says of each stands beside it, or nothing where it makes none."""
    records_ = [FIRST_SUBSCRIBED, *[it[0] for it in events]]
    told = [(place, it[1]) for place, it in enumerate(events, 3) if it[1]]
    acts = [journal_with(*records_)]
    for (place, notice), following in zip(told, [*[it[0] for it in told[1:]], 0]):
        acts += [["waits", 1, place], ["deliveries", "1 0"], ["posted", post_of(1, place, notice)], ["waits", 1, following]]
    return [*acts, ["deliveries", "0 0"], ["posted", ""]]


CREATES, INSTANTIATES = (CREATION[1], WAS_CREATED), (ASKED, (1, "INSTANTIATE", "STARTING"))


def moves(*states):
    return [(MOVED[it], (1, "INSTANTIATE", it)) for it in states]


for title, events in [
    ("an instantiation that is completed", [(GRANTED, None), *moves("PROCESSING", "COMPLETED")]),
    ("one that is denied", [(DENIED, None), *moves("ROLLED_BACK")]),
    ("one that fails", [(GRANTED, None), *moves("PROCESSING"), (CANCELLED, None), *moves("FAILED_TEMP", "FAILED")]),
    (
        "one that is retried and rolled back",
        [
            *[(GRANTED, None), *moves("PROCESSING"), (CANCELLED, None), *moves("FAILED_TEMP", "PROCESSING"), (CANCELLED, None)],
            *moves("FAILED_TEMP", "ROLLING_BACK", "ROLLED_BACK"),
        ],
    ),
    ("one that is tried", [(GRANT_LATER, None), (TROUBLE, None), (FORCED, None), *moves("ROLLED_BACK"), (DELETED, WAS_DELETED)]),
    (
        "an instantiation and a termination",
        [
            *[(GRANTED, None), *moves("PROCESSING", "COMPLETED"), (TERMINATING, (2, "TERMINATE", "STARTING")), (GRANTED_2, None)],
            *[(MOVED_2[it], (2, "TERMINATE", it)) for it in ("PROCESSING", "COMPLETED")], (DELETED, WAS_DELETED),
        ],
    ),
]:
    run("each event that makes a notice is told of in its order: %s" % title, *told_of(CREATES, INSTANTIATES, *events))
OPERATIONS = [
    ("SCALE", ("scale", OUT, "workers", 1), making("A3")), ("SCALE_TO_LEVEL", ("level", "small"), removing("A2")),
    ("SCALE_TO_LEVEL", ("aspects", [("workers", 2)]), making("A3")), ("HEAL", ("heal", None, [(1, 1)]), [*making("B2"), *removing("B1")]),
    ("OPERATE", ("operate", False, 0), powering(TURN_OFF, "A1", "A2", "B1")), ("TERMINATE", ("terminate", 1, None), [*removing("A1", "A2", "B1"), *UNLINKING]),
]
for word, ask, changes in OPERATIONS:
    asked_2 = Operation(2, ask, changes).event("asked")
    behind = [working.CREATED, *map(INSTANTIATION.event, WHOLE), asked_2]
    starting = dict(notificationTypes=[OCCURRED], operationStates=["STARTING"])
    run(
        "an operation is told of by its word: %s" % ask[0],
        *[["site", [HEADER, *map(record_of, [working.ONBOARDED, subscribed(1, **starting), *behind]), "\0"]], ["deliveries", "1 0"], ["deliveries", "1 0"]],
        ["posted", post_of(1, len(behind) + 2, (2, word, "STARTING"))],
        *[["deliveries", "0 0"], ["posted", ""]],
        # (one that asks for another operation is told of none)
        *[["site", [HEADER, *map(record_of, [
            working.ONBOARDED, subscribed(1, **starting, operationTypes=[it for it in TYPES if it not in (word, "INSTANTIATE")]), *behind,
        ]), "\0"]], ["waits", 1, 0]],
        ["site", [HEADER, *map(record_of, [working.ONBOARDED, subscribed(1, **starting, operationTypes=[word]), *behind]), "\0"]],
        ["waits", 1, len(behind) + 2],
    )
run(
    "a notice has the moment of its event, and not that of its post",
    *[journal_with(FIRST_SUBSCRIBED, record(2, u64(1), name("vnfd-1"), u8(0), u8(0), moment=NOW + 86_399_999), record(3, u64(1), moment=0))],
    *[["deliveries", "1 0"], ["posted", post_of(1, 3, WAS_CREATED, at="2023-11-15T22:13:19.999Z")]],
    *[["deliveries", "1 0"], ["posted", post_of(1, 4, WAS_DELETED, at="1970-01-01T00:00:00.000Z")]],
    ["file end", [*[of_record(("posted", 1, it, 0)) for it in (3, 4)], "\0"]],
)

# ---- Whom a notice is told

# Of instance 1, which has a name, and of instance 2, which has none.
C1, C2, STARTS, GOES_ON, ENDS, D2 = range(6)
EVERY, OF_1, OF_2 = [C1, C2, STARTS, GOES_ON, ENDS, D2], [C1, STARTS, GOES_ON, ENDS], [C2, D2]
OF_NO_OPERATION = [C1, C2, D2]
HISTORY = [
    (CREATION[1], (WAS_CREATED, 1)), (record(2, u64(2), name("vnfd-1"), u8(0), u8(0)), (WAS_CREATED, 2)), (ASKED, ((1, "INSTANTIATE", "STARTING"), 1)),
    (GRANTED, None), (MOVED["PROCESSING"], ((1, "INSTANTIATE", "PROCESSING"), 1)), (MOVED["COMPLETED"], ((1, "INSTANTIATE", "COMPLETED"), 1)),
    (record(3, u64(2)), (WAS_DELETED, 2)),
]
FILTERS = [
    (EVERY, {}), (EVERY, dict(vnfdIds=[], operationStates=[])),
    (EVERY, dict(vnfdIds=["vnfd-1"])), (EVERY, dict(vnfdIds=["vnfd-2", "vnfd-1"])), ([], dict(vnfdIds=["vnfd-2"])),
    ([], dict(vnfdIds=["VNFD-1", "vnfd-11", "vnfd-", ""])),
    (EVERY, dict(vnfdIds=["x%d" % it for it in range(63)] + ["vnfd-1"])),
    (OF_1, dict(vnfInstanceIds=[I1])), (OF_2, dict(vnfInstanceIds=[I2])), (EVERY, dict(vnfInstanceIds=[I2, I1])),
    ([], dict(vnfInstanceIds=["1", I1.upper(), I1[:-1], I1 + "0", I1.replace("8001", "8002"), I1.replace("00000007", "00000008")])),
    (OF_1, dict(vnfInstanceIds=["x%d" % it for it in range(63)] + [I1])),
    (OF_1, dict(vnfInstanceNames=["edge-1"])), (OF_1, dict(vnfInstanceNames=["x", "edge-1"])), ([], dict(vnfInstanceNames=["edge-2", "", "EDGE-1"])),
    ([STARTS, GOES_ON, ENDS], dict(notificationTypes=[OCCURRED])), ([C1, C2], dict(notificationTypes=[WAS_CREATED])),
    ([D2], dict(notificationTypes=[WAS_DELETED])),
    (OF_NO_OPERATION, dict(notificationTypes=[WAS_DELETED, WAS_CREATED])), (EVERY, dict(notificationTypes=[WAS_DELETED, WAS_CREATED, OCCURRED])),
    # (operations and their states ask nothing of a creation or a deletion)
    (EVERY, dict(operationTypes=["INSTANTIATE"])), (OF_NO_OPERATION, dict(operationTypes=["SCALE", "SCALE_TO_LEVEL", "HEAL", "OPERATE", "TERMINATE"])),
    (OF_NO_OPERATION, dict(operationTypes=["CHANGE_FLAVOUR"])), (OF_NO_OPERATION, dict(operationTypes=["CHANGE_EXT_CONN"])),
    (OF_NO_OPERATION, dict(operationTypes=["MODIFY_INFO"])), (EVERY, dict(operationTypes=["MODIFY_INFO", "CHANGE_EXT_CONN", "INSTANTIATE"])),
    ([C1, C2, ENDS, D2], dict(operationStates=["COMPLETED"])), ([C1, C2, STARTS, D2], dict(operationStates=["STARTING"])),
    ([C1, C2, GOES_ON, D2], dict(operationStates=["PROCESSING"])), ([C1, C2, STARTS, ENDS, D2], dict(operationStates=["COMPLETED", "STARTING"])),
    (OF_NO_OPERATION, dict(operationStates=["FAILED_TEMP", "FAILED", "ROLLING_BACK", "ROLLED_BACK"])),
    # (lists are joined by "and")
    ([ENDS], dict(notificationTypes=[OCCURRED], operationStates=["COMPLETED"])), ([], dict(notificationTypes=[OCCURRED], operationTypes=["SCALE"])),
    ([], dict(vnfInstanceIds=[I2], vnfInstanceNames=["edge-1"])),
    ([C1], dict(vnfInstanceIds=[I1, I2], vnfInstanceNames=["edge-1"], notificationTypes=[WAS_CREATED, WAS_DELETED])),
    ([D2], dict(vnfdIds=["vnfd-1"], vnfInstanceIds=[I2], notificationTypes=[WAS_DELETED])), ([], dict(vnfdIds=["vnfd-2"], vnfInstanceIds=[I1])),
    ([C1, ENDS], dict(vnfInstanceNames=["edge-1"], operationTypes=["INSTANTIATE"], operationStates=["COMPLETED", "FAILED"])),
    (
        [STARTS],
        dict(
            vnfdIds=["vnfd-1"], vnfInstanceIds=[I1], vnfInstanceNames=["edge-1"], notificationTypes=[OCCURRED], operationTypes=["INSTANTIATE"],
            operationStates=["STARTING"],
        ),
    ),
    ([C2], dict(vnfInstanceIds=[I2], notificationTypes=[WAS_CREATED, OCCURRED], operationTypes=["SCALE"], operationStates=["FAILED"])),
]
FIRST_PLACE = len(FILTERS) + 2
NOTICES_TOLD = [(place, it[1]) for place, it in enumerate(HISTORY, FIRST_PLACE) if it[1]]


def filtered_round(number):
    """What is posted in the round of this number, from 0: the notice of that number of each subscription, where it has so many."""
    for subscription, (told, _) in enumerate(FILTERS, 1):
        if number < len(told):
            place, (notice, instance) = NOTICES_TOLD[told[number]]
            yield post_of(subscription, place, notice, instance=instance)


ROUNDS = [list(filtered_round(number)) for number in range(7)]
assert [len(it) for it in ROUNDS][-1] == 0 and ROUNDS[5]
run(
    "a filter lets those notices through that it asks for",
    journal_with(*[of_record(subscribed(number, number % 2, **lists)) for number, (_, lists) in enumerate(FILTERS, 1)], *[it[0] for it in HISTORY]),
    *[["waits", number, NOTICES_TOLD[told[0]][0] if told else 0] for number, (told, _) in enumerate(FILTERS, 1)],
    *[act for it in ROUNDS for act in (["deliveries", ALL_TAKEN % len(it)], ["posted", it])],
)
run(
    "a subscription is told of what comes behind it, and no more once it is ended",
    journal_with(CREATION[1], FIRST_SUBSCRIBED, CREATION[2], of_record(subscribed(2, callback="http://h/2")), CREATION[3]),
    *[["waits", 1, 4], ["waits", 2, 6], ["waits", 3, 0], ["deliveries", "2 0"]],
    ["posted", [post_of(1, 4, WAS_CREATED, instance=2), post_of(2, 6, WAS_CREATED, instance=3, callback="http://h/2")]],
    journal_with(CREATION[1], FIRST_SUBSCRIBED, CREATION[2], of_record(subscribed(2, callback="http://h/2")), of_record(unsubscribed(1)), CREATION[3]),
    *[["waits", 1, 0], ["waits", 2, 7], ["deliveries", "1 0"], ["posted", post_of(2, 7, WAS_CREATED, instance=3, callback="http://h/2")]],
    *[["deliveries", "0 0"], ["posted", ""]],
)

# ---- From the words of commands to what is posted

TO_THE_ELEMENT = [["door", subscribing()], go("once", "--journal", "j", "--role", "em"), ["answered", made_answer(1)], ["posted", ""]]
run(
    "a descriptor is onboarded, the element manager subscribes, and an instance is created: one notice is posted",
    *[["site", MADE], ["door", DESCRIPTOR], go("onboard", "--journal", "j"), ["status", 0], ["posted", ""], *TO_THE_ELEMENT],
    *[once(request("POST", INSTANCES, '{"vnfdId":"vnfd-1"}')), ["told front", "HTTP/1.1 201 Created\r\n"], ["status", 0]],
    ["posted", "204 http://127.0.0.1:9900/n %s\n" % CREATION_TEXT],
    *[["once"], ["status", 0], ["posted", ""], ["stays"]],
)
COMPLETED_ONES = dict(operationStates=["COMPLETED"])
LAST_RECORD = 2 + len(WHOLE) + 2
run(
    "of an instantiation those states are told that are asked for",
    *[EMPTY, ["door", subscribing(**COMPLETED_ONES)], go("once", "--journal", "j", "--role", "em"), ["answered", made_answer(1, **COMPLETED_ONES)]],
    *[rounds(1, CREATE, CREATED[1]), ["posted", post_of(1, 3, WAS_CREATED)], rounds(29, INSTANTIATE, ACCEPTED)],
    *[["posted", post_of(1, LAST_RECORD, (1, "INSTANTIATE", "COMPLETED"))], rounds(3), ["posted", ""], ["jobs", 13, 13]],
)
run(
    "of an instantiation each state is told behind the other",
    *[EMPTY, ["door", subscribing()], go("once", "--journal", "j", "--role", "em"), ["answered", made_answer(1)]],
    *[rounds(1, CREATE, CREATED[1]), ["posted", post_of(1, 3, WAS_CREATED)]],
    *[rounds(1, INSTANTIATE, ACCEPTED), ["posted", post_of(1, 5, (1, "INSTANTIATE", "STARTING"))]],
    *[rounds(1), ["posted", post_of(1, 8, (1, "INSTANTIATE", "PROCESSING"))], rounds(26), ["posted", ""]],
    *[rounds(1), ["posted", post_of(1, LAST_RECORD + 2, (1, "INSTANTIATE", "COMPLETED"))], rounds(1), ["posted", ""], ["stays"]],
)
run(
    "nothing is posted but in a round",
    *[journal_with(FIRST_SUBSCRIBED, CREATION[1]), go("once", "--journal", "j", "--rounds", "0"), ["status", 0], ["posted", ""], ["stays"]],
    *[["door", DESCRIPTOR], go("onboard", "--journal", "j"), ["status", 10], ["posted", ""], ["stays"]],
    *[go("init", "--journal", "j", "--manager", "7"), ["status", 11], ["posted", ""], ["stays"]],
    *[once(CREATE), ["status", 0], ["posted", post_of(1, 3, WAS_CREATED)]],
)
run(
    "that a notice was posted has the clock's moment, and the notice its event's",
    *[journal_with(FIRST_SUBSCRIBED, CREATION[1]), ["now", NOW + 1000], ["once"], ["status", 0], ["posted", post_of(1, 3, WAS_CREATED)], ["clock", 1]],
    ["file", [HEADER, *CREATED_RECORDS, in_record(working.spelled(("posted", 1, 3, 0), NOW + 1000)), "\0"]],
)
run(
    "a door that fails ends the run before anything is posted",
    *[journal_with(FIRST_SUBSCRIBED, CREATION[1]), ["no door"], ["once"], ["status", 4], ["posted", ""], ["stays"]],
)
