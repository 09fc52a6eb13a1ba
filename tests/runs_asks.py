"""The runs of the bodies that ask an instance for an operation: each member missing, null or of a wrong form, in its order; what is recorded and shown
of those that are taken; and what comes before and behind the body among the refusals."""
from cases import utf8
from run_operations import *

begin(__name__)

TOO_LONG, LONGEST = "x" * 256, "x" * 255
TOO_LONG_LINE, LONGEST_LINE = "y" * 2_049, "y" * 2_048
NUMBERS = "0.5 1.5 1.0 1e0 -1 4294967296 18446744073709551616 \"1\" \"\" true false [] [1] {}".split(" ")
OTHER_FORMS = "7 true [] {} 1.5".split(" ")


def members(*pairs):
    """A body of these members, whose values are spelled."""
    return "{%s}" % ",".join('"%s":%s' % it for it in pairs)


def told_only(text, answer):
    """The request is told this, and nothing is recorded."""
    return [answers(text, answer), ["stays"]]


def each(title, task, *rows):
    """Each of these bodies is refused by 400 for this, whatever its instance is: there is none of number 2."""
    run(
        "a body is refused for its first member that is wrong: %s" % title,
        SITE,
        *[act for body, detail in rows for number in (1, 2) for act in told_only(to_instance(task, body, number), shared("REFUSED", refusal(BAD, detail)))],
    )


WAY, ASPECT = ("type", '"SCALE_OUT"'), ("aspectId", '"workers"')
each(
    *["scale", "scale", ("", "malformed JSON"), ("{", "malformed JSON"), ("[]", "malformed JSON"), ('"SCALE_OUT"', "malformed JSON")],
    *[("null", "malformed JSON")],
    *[(members(WAY, ASPECT) + "}", "malformed JSON"), ("{'type':'SCALE_OUT'}", "malformed JSON"), ("{}", "missing type")],
    *[(members(("type", "null"), ASPECT), "missing type"), (members(ASPECT), "missing type"), (members(("Type", '"SCALE_OUT"'), ASPECT), "missing type")],
    *[(members(("type", it), ASPECT), "bad type") for it in [*OTHER_FORMS, '""', '"scale_out"', '"SCALE_OUT "', '"OUT"', '"SCALE_UP"', '["SCALE_OUT"]']],
    *[(members(WAY), "missing aspectId"), (members(WAY, ("aspectId", "null")), "missing aspectId")],
    *[(members(WAY, ("aspectId", it)), "bad aspectId") for it in [*OTHER_FORMS, '""', '"%s"' % TOO_LONG, '"a\\u0001"', '"a\\u007f"', '["workers"]']],
    *[(members(WAY, ASPECT, ("numberOfSteps", it)), "bad numberOfSteps") for it in NUMBERS],
    # (in the order of the members, wherever they stand)
    *[(members(("numberOfSteps", "-1"), ("aspectId", "7"), ("type", "7")), "bad type")],
    *[(members(("numberOfSteps", "-1"), ("aspectId", "7"), WAY), "bad aspectId")],
    *[(members(("numberOfSteps", "-1"), ("aspectId", "7")), "missing type"), (members(("numberOfSteps", "-1"), WAY), "missing aspectId")],
    # (of a member that stands twice the last counts)
    *[(members(WAY, ASPECT, ("type", "7")), "bad type"), (members(("numberOfSteps", "1"), WAY, ASPECT, ("numberOfSteps", "1.5")), "bad numberOfSteps")],
)
LEVEL, INFO = ("instantiationLevelId", '"small"'), ("scaleInfo", '[{"aspectId":"workers","scaleLevel":0}]')
ENTRY = '{"aspectId":"workers","scaleLevel":0}'
each(
    *["scale to level", "scale_to_level", ("[]", "malformed JSON"), ("{}", "missing instantiationLevelId")],
    *[(members(("x", "1")), "missing instantiationLevelId")],
    *[(members(("instantiationLevelId", "null")), "missing instantiationLevelId"), (members(("scaleInfo", "null")), "missing instantiationLevelId")],
    *[(members(("instantiationLevelId", "null"), ("scaleInfo", "null")), "missing instantiationLevelId")],
    *[(members(("instantiationLevelId", it)), "bad instantiationLevelId") for it in [*OTHER_FORMS, '"%s"' % TOO_LONG, '"a\\n"']],
    *[(members(("scaleInfo", it)), "bad scaleInfo") for it in ["7", "true", "{}", '"workers"', ENTRY, "[7]", "[null]", "[[]]", '["workers"]']],
    *[(members(("scaleInfo", it)), "bad scaleInfo") for it in ["[%s,7]" % ENTRY, "[{},7]"]],
    *[(members(("scaleInfo", "[{}]")), "missing aspectId"), (members(("scaleInfo", '[{"scaleLevel":0}]')), "missing aspectId")],
    *[(members(("scaleInfo", '[{"aspectId":null,"scaleLevel":0}]')), "missing aspectId")],
    *[(members(("scaleInfo", '[{"aspectId":"","scaleLevel":0}]')), "bad aspectId")],
    *[(members(("scaleInfo", '[{"aspectId":%s,"scaleLevel":0}]' % it)), "bad aspectId") for it in [*OTHER_FORMS, '"%s"' % TOO_LONG]],
    *[(members(("scaleInfo", '[{"aspectId":"workers"}]')), "missing scaleLevel")],
    *[(members(("scaleInfo", '[{"aspectId":"workers","scaleLevel":null}]')), "missing scaleLevel")],
    *[(members(("scaleInfo", '[{"aspectId":"workers","scaleLevel":%s}]' % it)), "bad scaleLevel") for it in NUMBERS],
    # (object by object, and in each the aspect first)
    *[(members(("scaleInfo", '[%s,{"aspectId":"workers"},{"aspectId":7}]' % ENTRY)), "missing scaleLevel")],
    *[(members(("scaleInfo", '[{"aspectId":7,"scaleLevel":-1}]')), "bad aspectId"), (members(("scaleInfo", '[%s,{}]' % ENTRY)), "missing aspectId")],
    # (both is wrong behind what is wrong with either)
    *[(members(LEVEL, INFO), "bad scaleInfo"), (members(INFO, LEVEL), "bad scaleInfo"), (members(LEVEL, ("scaleInfo", "[]")), "bad scaleInfo")],
    *[(members(("scaleInfo", "7"), ("instantiationLevelId", "7")), "bad instantiationLevelId"), (members(LEVEL, ("scaleInfo", "[{}]")), "missing aspectId")],
    *[(members(LEVEL, ("scaleInfo", "7")), "bad scaleInfo"), (members(("instantiationLevelId", '""'), ("scaleInfo", "[]")), "bad scaleInfo")],
)


def names(*texts):
    return "vnfcInstanceId", json.dumps(list(texts), separators=(",", ":"))


MANY = ["VDU_A-1"] * 512
each(
    *["heal", "heal", ("", "malformed JSON"), ("[]", "malformed JSON"), ('{"cause":}', "malformed JSON")],
    *[(members(("cause", it)), "bad cause") for it in [*OTHER_FORMS, '"%s"' % TOO_LONG_LINE, '"a\\u0000"', '["lost"]']],
    *[(members(("vnfcInstanceId", it)), "bad vnfcInstanceId") for it in ["7", "true", "{}", '""', '"VDU_A-1"', "[7]", "[null]", "[[]]"]],
    *[(members(("vnfcInstanceId", it)), "bad vnfcInstanceId") for it in ['["VDU_A-1",7]', '["VDU_A-1",null]']],
    *[(members(names(TOO_LONG)), "bad vnfcInstanceId"), (members(names("VDU_A-1", "a\n")), "bad vnfcInstanceId")],
    *[(members(names(*MANY, "VDU_A-1")), "bad vnfcInstanceId"), (members(("vnfcInstanceId", "7"), ("cause", "7")), "bad cause")],
    (members(names(*MANY, "x"), ("cause", '"%s"' % TOO_LONG_LINE)), "bad cause"),
)
STATE = ("changeStateTo", '"STOPPED"')
each(
    *["operate", "operate", ("{", "malformed JSON"), ("{}", "missing changeStateTo"), (members(("changeStateTo", "null")), "missing changeStateTo")],
    *[(members(("changeStateTo", it)), "bad changeStateTo") for it in [*OTHER_FORMS, '""', '"stopped"', '"STOP"', '"RUNNING"', '["STOPPED"]']],
    *[(members(STATE, ("stopType", it)), "bad stopType") for it in [*OTHER_FORMS, '""', '"forceful"', '"GRACEFULLY"', '["FORCEFUL"]']],
    *[(members(("stopType", "7")), "missing changeStateTo"), (members(("stopType", "7"), ("changeStateTo", "7")), "bad changeStateTo")],
)
MODE = ("terminationType", '"GRACEFUL"')
each(
    *["terminate", "terminate", ("{", "malformed JSON"), ("{}", "missing terminationType")],
    *[(members(("terminationType", "null")), "missing terminationType")],
    *[(members(("terminationType", it)), "bad terminationType") for it in [*OTHER_FORMS, '""', '"graceful"', '"FORCE"', '["GRACEFUL"]']],
    *[(members(MODE, ("gracefulTerminationTimeout", it)), "bad gracefulTerminationTimeout") for it in NUMBERS],
    *[(members(("gracefulTerminationTimeout", "-1")), "missing terminationType")],
    (members(("gracefulTerminationTimeout", "-1"), ("terminationType", "7")), "bad terminationType"),
)

# ---- What is taken, recorded and shown

A_THIRD, ONE_LESS, OLD = making("A3"), removing("A2"), ("A1", "A2", "B1")
ALL_ANEW = [*making("A3", "A4", "B2"), *removing(*OLD)]
ALL_OFF, ALL_GONE = powering(TURN_OFF, *OLD), [*removing(*OLD), *UNLINKING]
B_ANEW = [*making("B2"), *removing("B1")]
BY_ONE = "scale", OUT, "workers", 1
LONG_CAUSE = ("cause", '"%s"' % LONGEST_LINE)
OTHER_MEMBERS = ("additionalParams", '{"numberOfSteps":-1}'), ("x", "[]")
ENTRY_WITH_MORE = ("scaleInfo", '[{"x":7,"scaleLevel":2,"aspectId":"workers"}]')
TIME = "gracefulTerminationTimeout"
for title, task, body, ask, changes in [
    ("a scaling out without a number of steps", "scale", members(WAY, ASPECT), BY_ONE, A_THIRD),
    ("a scaling out by null steps", "scale", members(("numberOfSteps", "null"), ASPECT, WAY), BY_ONE, A_THIRD),
    ("a scaling out by two", "scale", members(WAY, ASPECT, ("numberOfSteps", "2")), ("scale", OUT, "workers", 2), making("A3", "A4")),
    ("a scaling in, of two ways the last", "scale", members(WAY, ASPECT, ("type", '"SCALE_IN"')), ("scale", IN, "workers", 1), ONE_LESS),
    ("a scaling out with other members", "scale", members(WAY, ASPECT, *OTHER_MEMBERS), BY_ONE, A_THIRD),
    ("a level", "scale_to_level", members(LEVEL), ("level", "small"), ONE_LESS),
    ("a level, and null levels of aspects", "scale_to_level", members(("scaleInfo", "null"), LEVEL), ("level", "small"), ONE_LESS),
    ("levels of aspects", "scale_to_level", members(INFO), ("aspects", [("workers", 0)]), ONE_LESS),
    ("levels of aspects, and a null level", "scale_to_level", members(("instantiationLevelId", "null"), INFO), ("aspects", [("workers", 0)]), ONE_LESS),
    ("a level of an aspect with other members", "scale_to_level", members(ENTRY_WITH_MORE), ("aspects", [("workers", 2)]), A_THIRD),
    ("a heal of one named 512 times", "heal", members(names(*MANY)), ("heal", None, [(0, 1)]), [*making("A3"), *removing("A1")]),
    ("a heal with null members", "heal", members(("cause", "null"), ("vnfcInstanceId", "null")), ("heal", None, []), ALL_ANEW),
    ("a heal with the longest cause", "heal", members(LONG_CAUSE, names("VDU_B-1")), ("heal", LONGEST_LINE, [(1, 1)]), B_ANEW),
    ("a heal with an empty cause", "heal", members(("cause", '""'), names("VDU_B-1")), ("heal", "", [(1, 1)]), B_ANEW),
    (
        *["a heal that names two in its own order", "heal", members(names("VDU_B-1", "VDU_A-2", "VDU_B-1")), ("heal", None, [(1, 1), (0, 2)])],
        [*making("A3", "B2"), *removing("A2", "B1")],
    ),
    ("a stop", "operate", members(STATE), ("operate", False, 0), ALL_OFF),
    ("a stop with a null way", "operate", members(("stopType", "null"), STATE), ("operate", False, 0), ALL_OFF),
    ("a graceful stop", "operate", members(STATE, ("stopType", '"GRACEFUL"'), ("gracefulStopTimeout", "7")), ("operate", False, 2), ALL_OFF),
    ("a forceful termination", "terminate", members(("terminationType", '"FORCEFUL"')), ("terminate", 1, None), ALL_GONE),
    ("a forceful termination with a time", "terminate", members((TIME, "0"), ("terminationType", '"FORCEFUL"')), ("terminate", 1, 0), ALL_GONE),
    (
        *["a graceful termination with the longest time", "terminate", members(MODE, (TIME, "4294967295"))],
        *[("terminate", 0, 4_294_967_295), [*ALL_OFF, *ALL_GONE]],
    ),
]:
    operation = Operation(2, ask, changes)
    begun, worked_ = [*FIRST, (operation, ["asked"])], [*FIRST, (operation, operation.through(14)[:4])]
    run(
        "a body is taken, and its ask is recorded and shown: %s" % title,
        *[*INSTANTIATED_SITE, answers(to_instance(task, body), accepted(2)), has(begun), *shows_operation(begun), rounds(3), has(worked_)],
    )
PARAMS = [
    ("scale", members(WAY, ASPECT), {"aspectId": "workers", "numberOfSteps": 1, "type": "SCALE_OUT"}),
    ("scale_to_level", members(LEVEL), {"instantiationLevelId": "small"}),
    ("scale_to_level", members(INFO), {"scaleInfo": [{"aspectId": "workers", "scaleLevel": 0}]}),
    ("heal", members(("cause", '"lost"'), names("VDU_B-1", "VDU_A-1", "VDU_B-1")), {"cause": "lost", "vnfcInstanceId": ["VDU_B-1", "VDU_A-1"]}),
    ("heal", "{}", {}),
    ("heal", members(names()), {}), ("operate", members(STATE), {"changeStateTo": "STOPPED"}),
    ("operate", members(STATE, ("stopType", '"FORCEFUL"')), {"changeStateTo": "STOPPED", "stopType": "FORCEFUL"}),
    ("terminate", members(MODE), {"terminationType": "GRACEFUL"}),
    ("terminate", members(MODE, ("gracefulTerminationTimeout", "30")), {"gracefulTerminationTimeout": 30, "terminationType": "GRACEFUL"}),
]
OPERATIONS = {"scale": "SCALE", "scale_to_level": "SCALE_TO_LEVEL", "heal": "HEAL", "operate": "OPERATE", "terminate": "TERMINATE"}


SHOW_2 = request("GET", OCCURRENCE % 2)


def asked_view(task, params):
    return {
        "_links": {"cancel": {"href": OCCURRENCE % 2 + "/cancel"}, "self": {"href": OCCURRENCE % 2}, "vnfInstance": {"href": INSTANCE % 1}},
        "id": (OCCURRENCE % 2).rsplit("/", 1)[1], "isAutomaticInvocation": False, "isCancelPending": False, "operation": OPERATIONS[task],
        "operationState": "STARTING", "startTime": START, "operationParams": params, "stateEnteredTime": START,
        "vnfInstanceId": (INSTANCE % 1).rsplit("/", 1)[1],
        "resourceChanges": {"affectedVirtualLinks": [], "affectedVirtualStorages": [], "affectedVnfcs": []},
    }


run(
    "an operation that was asked for is shown with what its body said, members that are absent left out",
    *[
        act
        for task, body, params in PARAMS
        for act in [*INSTANTIATED_SITE, answers(to_instance(task, body), accepted(2)), answers(SHOW_2, showing(compact(asked_view(task, params))))]
    ],
)

# ---- Before the body, and behind it

GOOD = {"scale": members(WAY, ASPECT), "scale_to_level": members(LEVEL), "heal": "{}", "operate": members(STATE), "terminate": members(MODE)}
# Bodies of which the content fits no descriptor here, or no instance.
UNFIT = [("scale", members(WAY, ("aspectId", '"drivers"'))), ("scale", members(WAY, ASPECT, ("numberOfSteps", "0"))), ("heal", members(names("x")))]
NO_PATHS = "/Scale", "/scale/", "/scaleToLevel", "/scale-to-level", "/healing", "/stop", "/scale/x"
TEXT = "Content-Type: text/plain\r\n"
run(
    "a body of another media type is refused before it is read, and one of any spelling of the right one is read",
    SITE,
    *[
        act
        for task in GOOD
        for number, body in ((1, "{"), (2, GOOD[task]), (1, GOOD[task]))
        for act in told_only(to_instance(task, body, number, TEXT), NOT_JSON)
    ],
    *[
        act
        for task in GOOD
        for media in ("application/json", "APPLICATION/JSON; charset=utf-8", "application/json;x=y")
        for act in refuses(to_instance(task, GOOD[task], 1, "Content-Type: %s\r\n" % media), CONFLICT, "instance is not INSTANTIATED")
    ],
)
run(
    "an instance that there isn't is told behind its body, and before the content of that",
    SITE,
    *[act for task, body in [*GOOD.items(), *UNFIT] for act in told_only(to_instance(task, body, 2), NO_INSTANCE)],
    *[act for task in GOOD for end in ("0", "x") for act in told_only(request("POST", (INSTANCE % 1)[:-1] + end + "/" + task, GOOD[task]), NO_INSTANCE)],
)
run(
    "a task has no other method, and its path no other spelling",
    SITE,
    *[act for task in GOOD for method in ("GET", "DELETE", "PUT", "PATCH") for act in told_only(request(method, INSTANCE % 1 + "/" + task), ONLY_POST)],
    *[act for end in NO_PATHS for act in told_only(request("POST", INSTANCE % 1 + end, "{}"), NO_RESOURCE)],
    # (a query is passed over)
    *refused_all([request("POST", INSTANCE % 1 + "/" + task + "?filter=x", GOOD[task]) for task in GOOD], CONFLICT, "instance is not INSTANTIATED"),
    # (a change of flavour isn't served, and its body isn't read)
    *[act for body, head in (("{", TEXT), ("{}", "")) for act in told_only(to_instance("change_flavour", body, 1, head), NO_TASK)],
    *told_only(to_instance("change_flavour", "{", 2), NO_INSTANCE),
)
UNKNOWN_ASPECTS = [utf8(members(WAY, ("aspectId", '"Größe"'))), members(WAY, ("aspectId", '"%s"' % LONGEST))]
# (an aspect that isn't known is told before one that is named twice, and before a level that is too high)
UNKNOWN_LEVELS = [
    members(("scaleInfo", "[%s]" % ",".join('{"aspectId":"%s","scaleLevel":%d}' % it for it in levels)))
    for levels in ([("workers", 11), ("drivers", 0)], [("drivers", 0), ("drivers", 0)])
]
UNKNOWN_MACHINES = [utf8(members(("cause", '"fällt"'), ("vnfcInstanceId", '["Maschine-1"]'))), members(names(LONGEST))]
run(
    "texts of a body may have any letters",
    *INSTANTIATED_SITE,
    *refuses(to_instance("scale", '{"type":"SCALE_OUT","aspectId":"\xff"}'), BAD, "malformed JSON"),
    *refused_all([to_instance("scale", it) for it in UNKNOWN_ASPECTS], UNPROCESSABLE, "aspectId is not in the descriptor"),
    *refused_all([to_instance("scale_to_level", it) for it in UNKNOWN_LEVELS], UNPROCESSABLE, "aspectId is not in the descriptor"),
    *refuses(to_instance("scale", members(WAY, ("aspectId", '"w\\u006frkers"'), ("numberOfSteps", "0"))), UNPROCESSABLE, "numberOfSteps is 0"),
    *refused_all([to_instance("heal", it) for it in UNKNOWN_MACHINES], UNPROCESSABLE, "vnfcInstanceId names no VNFC"),
    *refuses(to_instance("scale_to_level", members(("instantiationLevelId", '""'))), UNPROCESSABLE, "instantiationLevelId is not in the descriptor"),
)
