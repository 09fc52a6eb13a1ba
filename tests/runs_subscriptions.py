"""The runs of subscriptions: who asks for one and how, each member that can be wrong, what a callback is, what is recorded and shown of those that are
taken, whose they are, and how many there may be."""
import itertools

import history
from history import Filter
from run_operations import *
from runs_asks import told_only

begin(__name__)

SUBSCRIPTIONS = "/vnflcm/v1/subscriptions"
SUBSCRIPTION = SUBSCRIPTIONS + "/00000007-766d-8003-8000-%012x"
CALLBACK = "http://127.0.0.1:9900/n"
ORCHESTRATOR, ELEMENT = range(2)
ROLES = "orchestrator", "em"
OCCURRED, WAS_CREATED, WAS_DELETED = NOTICES = (
    *["VnfLcmOperationOccurrenceNotification", "VnfIdentifierCreationNotification", "VnfIdentifierDeletionNotification"],
)
TYPES = (
    *["INSTANTIATE", "SCALE", "SCALE_TO_LEVEL", "CHANGE_FLAVOUR", "TERMINATE", "HEAL", "OPERATE", "CHANGE_EXT_CONN", "MODIFY_INFO"],
)
# The numbers of the operations that a filter may name, in a record.
TYPE_NUMBERS = dict(zip(TYPES, (1, 2, 3, 7, 6, 4, 5, 8, 9)))
IN_STATES = "STARTING", "PROCESSING", "COMPLETED", "FAILED_TEMP", "FAILED", "ROLLING_BACK", "ROLLED_BACK"
ABOUT = "vnfdIds", "vnfInstanceIds", "vnfInstanceNames"


# ---- Requests and answers

def asked_filter(**lists):
    """The filter with these lists, of which those of the instances are in an object of their own."""
    about = {title: lists[title] for title in ABOUT if title in lists}
    others = {title: lists[title] for title in lists if title not in ABOUT}
    return {**others, **({"vnfInstanceSubscriptionFilter": about} if about else {})}


def recorded_filter(**lists):
    """The same in a record."""
    of = lambda title: lists.get(title, [])
    return Filter(
        *[of(title) for title in ABOUT], [NOTICES.index(it) for it in of("notificationTypes")],
        [TYPE_NUMBERS[it] for it in of("operationTypes")], [IN_STATES.index(it) for it in of("operationStates")],
    )


def subscribing(callback=CALLBACK, **lists):
    """A request to subscribe."""
    asked = asked_filter(**lists)
    return request("POST", SUBSCRIPTIONS, compact({"callbackUri": callback, **({"filter": asked} if asked else {})}))


def subscribing_by(body, head=""):
    return request("POST", SUBSCRIPTIONS, body, head)


def of_subscription(number, method="GET"):
    return request(method, SUBSCRIPTION % number)


LISTING = let("LIST_SUBSCRIPTIONS", request("GET", SUBSCRIPTIONS))
NO_SUBSCRIPTION = problem("NO_SUBSCRIPTION", NOT_FOUND, "no such subscription")
NO_URI = problem("NO_URI", UNPROCESSABLE, "callbackUri is not an http URI")
NO_PRODUCTS = problem("NO_PRODUCTS", UNPROCESSABLE, "vnfProductsFromProviders is not served")
TOO_MANY = problem("TOO_MANY_SUBSCRIPTIONS", "507 Insufficient Storage", "too many subscriptions")


def subscription_view(number, callback=CALLBACK, **lists):
    """A subscription as it is shown: of its filter the lists that have values."""
    path, shown = SUBSCRIPTION % number, asked_filter(**{title: values for title, values in lists.items() if values})
    view = {"_links": {"self": {"href": path}}, "callbackUri": callback, "id": path.rsplit("/", 1)[1]}
    return {**view, **({"filter": shown} if shown else {})}


def shown(view):
    """The answer that shows a subscription, whose view has a name."""
    text = compact(view)
    return [showing_front(len(text)), shared("SUBSCRIPTION", text)]


def made_answer(number, callback=CALLBACK, **lists):
    """The answer that a subscription was made."""
    text = compact(subscription_view(number, callback, **lists))
    head = "HTTP/1.1 201 Created\r\nLocation: %s\r\nContent-Type: application/json\r\nContent-Length: %d\r\n\r\n"
    return [head % (SUBSCRIPTION % number, len(text)), shared("SUBSCRIPTION", text)]


def refused_as(line, detail):
    return shared("REFUSED", refusal(line, detail))


def listed(*views_):
    """The answer that shows these."""
    texts = [compact(it) for it in views_]
    parts = [part for it in texts for part in (",", shared("SUBSCRIPTION", it))][1:]
    return [showing_front(sum(map(len, texts)) + len(texts) + 1), "[", *parts, "]"]


def joined(texts):
    """These texts, some of which are in parts, in one list."""
    return [part for it in texts for part in (it if isinstance(it, list) else [it])]


def comes_from(role, *texts):
    """A command for a connection of this role with these requests."""
    return [["door", list(texts)], go("once", "--journal", "j", "--role", ROLES[role])]


def told_to(role, *pairs):
    """A connection of this role with these requests is told these answers."""
    return [*comes_from(role, *[it[0] for it in pairs]), ["answered", joined(it[1] for it in pairs)]]


def site_of(title, *events):
    """A journal with these events, which the model knows too."""
    name = let(title, [HEADER, *map(record_of, events), "\0"])
    run_parts.SITES[name[1:]] = list(events)
    return ["site", name]


def subscribed(number, role=ELEMENT, callback=CALLBACK, **lists):
    """The event that a subscription is made."""
    return "subscribed", number, role, callback, recorded_filter(**lists)


def unsubscribed(number):
    return "unsubscribed", number


def file_of(*events):
    """The file has these events, and nothing else."""
    return ["file", [HEADER, *map(record_of, events), "\0"]]


EMPTY = ["site", ONBOARDED_SITE]
WITH_BOTH = site_of(
    "BOTH_ROLES", working.ONBOARDED, subscribed(1), subscribed(2, ORCHESTRATOR, "http://h/2"), subscribed(3, ELEMENT, "http://h/3"), unsubscribed(3)
)

# ---- Whose a subscription is

FIRST_VIEW = (
    '{"_links":{"self":{"href":"/vnflcm/v1/subscriptions/00000007-766d-8003-8000-000000000001"}},"callbackUri":"http://127.0.0.1:9900/n",'
    '"id":"00000007-766d-8003-8000-000000000001"}'
)
assert compact(subscription_view(1)) == FIRST_VIEW
run(
    "the element manager subscribes, and the orchestrator doesn't see it",
    *[EMPTY, *comes_from(ELEMENT, request("POST", SUBSCRIPTIONS, '{"callbackUri":"http://127.0.0.1:9900/n"}'))],
    [
        "answered",
        "HTTP/1.1 201 Created\r\nLocation: /vnflcm/v1/subscriptions/00000007-766d-8003-8000-000000000001\r\nContent-Type: application/json\r\n"
        "Content-Length: %d\r\n\r\n%s" % (len(FIRST_VIEW), FIRST_VIEW),
    ],
    *[["posted", ""], file_of(working.ONBOARDED, subscribed(1)), *comes_from(ORCHESTRATOR, LISTING), ["only answered", showing("[]")]],
    *[*comes_from(ELEMENT, LISTING), ["only answered", showing("[%s]" % FIRST_VIEW)]],
    *[*comes_from(ORCHESTRATOR, of_subscription(1)), ["only answered", NO_SUBSCRIPTION]],
    *[*comes_from(ORCHESTRATOR, of_subscription(1, "DELETE")), ["only answered", NO_SUBSCRIPTION]],
    *[*comes_from(ELEMENT, of_subscription(1)), ["only answered", showing(FIRST_VIEW)]],
    *[*comes_from(ELEMENT, of_subscription(1, "DELETE")), ["answered", GONE], file_of(working.ONBOARDED, subscribed(1), unsubscribed(1))],
    *[*comes_from(ELEMENT, LISTING), ["only answered", showing("[]")]],
    *[*comes_from(ELEMENT, of_subscription(1)), ["only answered", NO_SUBSCRIPTION]],
    *[*comes_from(ELEMENT, of_subscription(1, "DELETE")), ["only answered", NO_SUBSCRIPTION]],
)
for role, others, own in (ORCHESTRATOR, (1, 3, 4, 0), (2, "http://h/2")), (ELEMENT, (2, 3, 4, 0), (1, CALLBACK)):
    view = subscription_view(*own)
    run(
        "each role sees its own subscriptions alone: %s" % ROLES[role],
        *[WITH_BOTH, *told_to(role, (LISTING, listed(view)), (of_subscription(own[0]), shown(view))), ["stays"]],
        *[
            act for number, method in itertools.product(others, ("GET", "DELETE"))
            for act in (*comes_from(role, of_subscription(number, method)), ["only answered", NO_SUBSCRIPTION])
        ],
        *[*told_to(role, (of_subscription(own[0], "DELETE"), GONE), (LISTING, showing("[]")))],
        *[*told_to(1 - role, (LISTING, listed(subscription_view(*((1, CALLBACK) if role == ORCHESTRATOR else (2, "http://h/2"))))))],
    )
FORMS = (
    SUBSCRIPTION[: -len("%012x")] + "00000000001", SUBSCRIPTION % 1 + "0", (SUBSCRIPTION % 1).upper().replace("/VNFLCM/V1/SUBSCRIPTIONS", SUBSCRIPTIONS),
    (SUBSCRIPTION % 1).replace("00000007", "00000008"), (SUBSCRIPTION % 1).replace("-", ""), SUBSCRIPTIONS + "/x", SUBSCRIPTIONS + "/%7B",
    SUBSCRIPTIONS + (INSTANCE % 1)[len(INSTANCES) :], SUBSCRIPTIONS + (OCCURRENCE % 1)[len(OCCURRENCES) :],
    SUBSCRIPTIONS + "/00000007-766d-8004-8000-000000000001", SUBSCRIPTIONS + "/00000007-766d-8003-c000-000000000001",
)
run(
    "what is no subscription's identifier names none",
    WITH_BOTH,
    *[
        act for path, method in itertools.product(FORMS, ("GET", "DELETE"))
        for act in (*comes_from(ELEMENT, request(method, path)), ["only answered", NO_SUBSCRIPTION])
    ],
)
run(
    "a subscription is numbered behind those that are no more",
    *[WITH_BOTH, *told_to(ELEMENT, (subscribing("http://h/4"), made_answer(4, "http://h/4")), (of_subscription(1, "DELETE"), GONE))],
    *[*told_to(ELEMENT, (subscribing("http://h/5"), made_answer(5, "http://h/5")))],
    *[*told_to(ELEMENT, (LISTING, listed(subscription_view(4, "http://h/4"), subscription_view(5, "http://h/5")))), ["stays"]],
    *[*told_to(ORCHESTRATOR, (LISTING, listed(subscription_view(2, "http://h/2")))), ["stays"]],
)
run(
    "requests of one connection are answered behind each other",
    *[EMPTY, *told_to(
        ORCHESTRATOR, (subscribing(), made_answer(1)), (subscribing(), made_answer(2)), (LISTING, listed(subscription_view(1), subscription_view(2))),
        (of_subscription(1, "DELETE"), GONE), (LISTING, listed(subscription_view(2))), (of_subscription(1), NO_SUBSCRIPTION),
        (of_subscription(2, "DELETE"), GONE), (LISTING, EMPTY_LIST),
    )],
    file_of(working.ONBOARDED, subscribed(1, ORCHESTRATOR), subscribed(2, ORCHESTRATOR), unsubscribed(1), unsubscribed(2)),
)

# ---- Methods, queries and media types

ALLOWED = [(SUBSCRIPTIONS, "GET, POST"), (SUBSCRIPTION % 1, "DELETE, GET"), (SUBSCRIPTIONS + "/x", "DELETE, GET")]
run(
    "a method of subscriptions that isn't served names those that are",
    WITH_BOTH,
    *[
        act for (path, methods), method in itertools.product(ALLOWED, ("PUT", "PATCH", "HEAD", "OPTIONS", "get", "DELETE", "POST"))
        if method not in methods
        for act in (*comes_from(ELEMENT, request(method, path)), ["only answered", refused_as(NOT_ALLOWED + methods, "method not allowed")])
    ],
)
FILTERED = "filter=", "filter=(eq,id,x)", "x=1&filter=y", "&filter="
run(
    "the list of subscriptions is not filtered",
    WITH_BOTH,
    *[act for it in FILTERED for act in told_only(request("GET", SUBSCRIPTIONS + "?" + it), NO_FILTER)],
    *[
        act for it in ("", "filter", "x=filter=y", "Filter=y")
        for act in told_only(request("GET", SUBSCRIPTIONS + "?" + it), listed(subscription_view(2, "http://h/2")))
    ],
    *told_only(request("GET", SUBSCRIPTION % 2 + "?filter=x"), shown(subscription_view(2, "http://h/2"))),
    *told_only(request("GET", SUBSCRIPTION % 1 + "?filter=x"), NO_SUBSCRIPTION),
    *told_only(request("POST", SUBSCRIPTIONS + "?filter=x", "{}"), refused_as(BAD, "missing callbackUri")),
)
WHOLE_BODY = compact({"callbackUri": CALLBACK})
run(
    "a request to subscribe is judged by its media type first",
    EMPTY,
    *[
        act for media, body in itertools.product(("", "text/plain", "application/jsonx", "application/json, x"), ("{", WHOLE_BODY))
        for act in told_only(subscribing_by(body, "Content-Type: %s\r\n" % media), NOT_JSON)
    ],
    *[
        act for media in (JSON, " APPLICATION/JSON ; charset=utf-8")
        for act in told_only(subscribing_by("{", "Content-Type: %s\r\n" % media), NO_JSON)
    ],
    *[
        act for number, media in enumerate((JSON, "APPLICATION/Json;charset=utf-8"), 1)
        for act in (
            *comes_from(ORCHESTRATOR, subscribing_by(WHOLE_BODY, "Content-Type: %s\r\n" % media)), ["answered", made_answer(number)],
        )
    ],
)

# ---- Bodies

TOO_LONG, LONGEST = "x" * 256, "x" * 255
FORMS_OF_NO_TEXT = "7 true [] {} 1.5".split(" ")
FORMS_OF_NO_OBJECT = '7 true [] "x" 1.5 [{}]'.split(" ")
URI = ("callbackUri", '"http://h/"')


def members(*pairs):
    """An object of these members, whose values are spelled."""
    return "{%s}" % ",".join('"%s":%s' % it for it in pairs)


def with_filter(*pairs):
    return members(URI, ("filter", members(*pairs)))


def with_about(*pairs):
    return with_filter(("vnfInstanceSubscriptionFilter", members(*pairs)))


def refused_bodies(title, *rows):
    """Each of these bodies is refused by 400 for this."""
    run(
        "a request to subscribe is refused for its first member that is wrong: %s" % title,
        EMPTY,
        *[act for body, detail in rows for act in told_only(subscribing_by(body), refused_as(BAD, detail))],
    )


def spelled_list(*values):
    return json.dumps(list(values), separators=(",", ":"))


refused_bodies(
    "no object, or no callback",
    *[(it, "malformed JSON") for it in ("", "{", "[]", "null", '"http://h/"', "7", members(URI) + "}", "{'callbackUri':'http://h/'}", '{"callbackUri":}')],
    *[(members(*it), "missing callbackUri") for it in ((), [("callbackUri", "null")], [("CallbackUri", '"http://h/"')], [("filter", "7")])],
    *[(members(("callbackUri", it)), "bad callbackUri") for it in [*FORMS_OF_NO_TEXT, '"http://h/\\u0001"', '"http://h/\\n"', '"http://h/\\u007f"']],
    *[(members(("callbackUri", '"http://h/%s"' % ("x" * 2_040))), "bad callbackUri"), (members(("callbackUri", '["http://h/"]')), "bad callbackUri")],
    # (of a member that stands twice the last counts)
    *[(members(URI, ("callbackUri", "7")), "bad callbackUri"), (members(("filter", "7"), ("callbackUri", "7")), "bad callbackUri")],
)
LISTS = "notificationTypes", "operationTypes", "operationStates"
NO_LISTS = '7 true {} "x" 1.5'.split(" ")
for of, spell, lists in (
    ("the filter", with_filter, LISTS), ("its instances", with_about, ABOUT),
):
    words = dict(notificationTypes=WAS_CREATED, operationTypes="SCALE", operationStates="COMPLETED")
    wrong_words = ['""', '"completed"', '"VnfIdentifierCreation"', '"Scale"', '"COMPLETED "', '"STARTED"', '"CHANGE_VNFPKG"', '["SCALE"]', "null", "7", "{}"]
    wrong_names = ['"%s"' % TOO_LONG, '"a\\u0001"', '"a\\n"', '["x"]', "null", "7", "true", "{}"]
    run(
        "a list of %s is refused where it is wrong" % of,
        EMPTY,
        *[
            act
            for title in lists
            for value in (
                *NO_LISTS, *("[%s]" % it for it in (wrong_names if title in ABOUT else wrong_words)),
                *('["%s",%s]' % (words.get(title, "x"), it) for it in ("7", "null")), spelled_list(*[words.get(title, "x")] * 65),
            )
            for act in told_only(subscribing_by(spell((title, value))), refused_as(BAD, "bad " + title))
        ],
    )
refused_bodies(
    "the filter",
    *[(members(URI, ("filter", it)), "bad filter") for it in FORMS_OF_NO_OBJECT],
    *[(with_filter(("vnfInstanceSubscriptionFilter", it)), "bad vnfInstanceSubscriptionFilter") for it in FORMS_OF_NO_OBJECT],
    # (in the order of the members, wherever they stand)
    (with_filter(*[(it, "7") for it in (*reversed(LISTS), "vnfInstanceSubscriptionFilter")]), "bad vnfInstanceSubscriptionFilter"),
    (
        with_filter(*[(it, "7") for it in reversed(LISTS)], ("vnfInstanceSubscriptionFilter", members(("vnfdIds", "7")))),
        "bad vnfdIds",
    ),
    *[(with_about(*[(it, "7") for it in reversed(ABOUT[first:])]), "bad " + ABOUT[first]) for first in range(3)],
    *[
        (with_filter(*[(it, "7") for it in reversed(lists)]), "bad " + lists[0])
        for lists in (LISTS, LISTS[1:])
    ],
    (members(("filter", members(("operationStates", "7")))), "missing callbackUri"),
    (members(("callbackUri", '"https://h/"'), ("filter", members(("operationStates", "7")))), "bad operationStates"),
    (with_about(("vnfProductsFromProviders", "[]"), ("vnfdIds", "7")), "bad vnfdIds"),
)
run(
    "what stands in a filter for products isn't served",
    EMPTY,
    *[
        act for it in ("[]", "{}", "7", "false", '""', '[{"vnfProvider":"Example"}]')
        for act in told_only(subscribing_by(with_about(("vnfProductsFromProviders", it))), NO_PRODUCTS)
    ],
    *told_only(subscribing_by(with_about(("vnfProductsFromProviders", "[]"), ("vnfdIds", '["vnfd-1"]'))), NO_PRODUCTS),
    *told_only(subscribing_by(with_about(("vnfProductsFromProviders", "[]")).replace("http", "https")), NO_URI),
    # (null is as if it were absent, and outside its place it is a member that is passed over)
    *told_to(
        ORCHESTRATOR, (subscribing_by(with_about(("vnfProductsFromProviders", "null"))), made_answer(1, "http://h/")),
        (subscribing_by(with_filter(("vnfProductsFromProviders", "[]"))), made_answer(2, "http://h/")),
        (subscribing_by(members(URI, ("vnfProductsFromProviders", "[]"))), made_answer(3, "http://h/")),
    ),
)

# ---- Callbacks

# What the URL Standard reads as a URL of the scheme http with a host, and what it doesn't.
HTTP_URIS = (
    "http://h/", "http://h", "HTTP://h/", "hTTp://H/", "http://h:80/", "http://h:0/", "http://h:65535/", "http://h:/", "http://127.0.0.1:9900/n",
    "http://[::1]/", "http://[::1]:9900/n", "http://u:p@h/", "http://u@h/", "http://h?x", "http://h#y", "http://h/a?b=c&d=e#f", "http://h/%zz",
    "http://a.b.example./", "http://256/", "http://0x7f.1/", "http:h", "http:/h", "http:///x", "http:\\\\h\\x", " http://h/ ", "http://h/a b",
    "http://1.2.3/", "http://a_b/",
)
NO_HTTP_URIS = (
    "https://h/", "ftp://h/", "ws://h/", "file:///h", "file://h/x", "mailto:a@h", "data:,x", "urn:x:y", "javascript:http://h/", "xhttp://h/",
    "http+x://h/", "", " ", "h", "h/", "//h/", "/h", "http", "http//h/", "://h/", ":", "http:", "http:/", "http://", "http:///", "http://?x",
    "http://#x", "http://:80/", "http://@/", "http://u:p@/", "http://h:65536/", "http://h:x/", "http://h:-1/", "http://h h/", "http://[::1/",
    "http://[::g]/", "http://[1]/", "http://1.2.3.256/", "http://1.2.3.4.5/", "http://a^b/", "http://a<b/", "http://a|b/", "http://%00/",
    "http://a%2fb/", "?", "#",
)
answering.URIS.update({**dict.fromkeys(HTTP_URIS, True), **dict.fromkeys(NO_HTTP_URIS, False)})
run(
    "a callback is a URI of the scheme http with a host, and is kept as it stands",
    *[EMPTY, *told_to(ORCHESTRATOR, *[(subscribing(it), made_answer(number, it)) for number, it in enumerate(HTTP_URIS, 1)])],
    file_of(working.ONBOARDED, *[subscribed(number, ORCHESTRATOR, it) for number, it in enumerate(HTTP_URIS, 1)]),
)
run("another callback is refused", EMPTY, *comes_from(ORCHESTRATOR, *map(subscribing, NO_HTTP_URIS)), ["only answered", [NO_URI] * len(NO_HTTP_URIS)])
LONG_URI = "http://h/" + "x" * 2_039
run(
    "a callback has 2,048 bytes and no more",
    *[EMPTY, *told_to(ORCHESTRATOR, (subscribing(LONG_URI), made_answer(1, LONG_URI)))],
    *[file_of(working.ONBOARDED, subscribed(1, ORCHESTRATOR, LONG_URI)), *told_only(subscribing(LONG_URI + "x"), refused_as(BAD, "bad callbackUri"))],
)

# ---- What is taken, recorded and shown

I1, I2 = ((INSTANCE % it).rsplit("/", 1)[1] for it in (1, 2))
SINGLE = [
    dict(vnfdIds=["vnfd-1"]), dict(vnfdIds=["b", "a", "b", "", LONGEST]), dict(vnfInstanceIds=[I2, I1]), dict(vnfInstanceNames=["edge-1", "x y", '"', "\\"]),
    *[dict(notificationTypes=[it]) for it in NOTICES], dict(notificationTypes=list(reversed(NOTICES))), *[dict(operationTypes=[it]) for it in TYPES],
    dict(operationTypes=[*reversed(TYPES), *TYPES]), *[dict(operationStates=[it]) for it in IN_STATES], dict(operationStates=list(reversed(IN_STATES))),
]
JOINED = [
    dict(vnfdIds=["vnfd-1"], vnfInstanceIds=[I1], vnfInstanceNames=["edge-1"]), dict(vnfInstanceIds=[I1], operationStates=["COMPLETED"]),
    dict(notificationTypes=[OCCURRED], operationTypes=["HEAL", "CHANGE_FLAVOUR"], operationStates=["COMPLETED", "FAILED_TEMP"]),
    dict(
        vnfdIds=["vnfd-1"], vnfInstanceIds=[I1], vnfInstanceNames=["edge-1"], notificationTypes=[OCCURRED, WAS_DELETED], operationTypes=["MODIFY_INFO"],
        operationStates=["ROLLED_BACK"],
    ),
    dict(vnfdIds=[], vnfInstanceNames=["edge-1"]), dict(notificationTypes=[], operationTypes=["SCALE"], operationStates=[]),
    dict(vnfdIds=[], vnfInstanceIds=[], vnfInstanceNames=[], operationStates=["FAILED"]), dict(vnfdIds=["vnfd-1"], operationStates=[]),
]
NOTHING_ASKED = [
    {}, dict(vnfdIds=[]), dict(operationStates=[]), {title: [] for title in (*ABOUT, *LISTS)},
]
FULL = [
    *[{title: ["%s-%d" % (title, it) for it in range(64)]} for title in ABOUT], dict(notificationTypes=[WAS_CREATED] * 64), dict(operationTypes=["SCALE"] * 64),
    dict(operationStates=["COMPLETED"] * 63 + ["FAILED"]),
]
for title, filters in ("each list alone", SINGLE), ("several lists", JOINED), ("lists without a value", NOTHING_ASKED), ("64 values", FULL):
    run(
        "a filter is kept and shown as it was asked for: %s" % title,
        *[EMPTY, *told_to(ELEMENT, *[(subscribing(**it), made_answer(number, **it)) for number, it in enumerate(filters, 1)])],
        file_of(working.ONBOARDED, *[subscribed(number, **it) for number, it in enumerate(filters, 1)]),
        *[*told_to(ELEMENT, (LISTING, listed(*[subscription_view(number, **it) for number, it in enumerate(filters, 1)]))), ["stays"]],
        *told_to(ELEMENT, *[(of_subscription(number), shown(subscription_view(number, **it))) for number, it in enumerate(filters, 1)]),
    )
EMPTY_FILTERS = ["{}", "null", members(("x", "7")), members(("vnfInstanceSubscriptionFilter", "{}")), members(("vnfInstanceSubscriptionFilter", "null"))]
EMPTY_FILTERS += [members(("operationStates", "null")), members(("vnfInstanceSubscriptionFilter", members(("vnfdIds", "null"))))]
run(
    "a filter that asks nothing is as if there were none",
    EMPTY,
    *told_to(ELEMENT, *[(subscribing_by(members(URI, ("filter", it))), made_answer(number, "http://h/")) for number, it in enumerate(EMPTY_FILTERS, 1)]),
    file_of(working.ONBOARDED, *[subscribed(number, callback="http://h/") for number, _ in enumerate(EMPTY_FILTERS, 1)]),
)
TWICE = members(
    ("authentication", '{"authType":["BASIC"]}'), ("callbackUri", "7"), ("filter", "7"), ("x", "7"), ("callbackUri", '"http:\\/\\/h\\u002f"'),
    ("filter", members(("operationStates", "7"), ("x", "[]"), ("operationStates", '["FAILED"]'))),
)
run(
    "other members are passed over, and of one that stands twice the last counts",
    *[EMPTY, *told_to(ELEMENT, (subscribing_by(TWICE), made_answer(1, "http://h/", operationStates=["FAILED"])))],
    file_of(working.ONBOARDED, subscribed(1, callback="http://h/", operationStates=["FAILED"])),
)

# ---- How many there may be

HUNDRED = [subscribed(number, ELEMENT, "http://h/") for number in range(1, 101)]
AT_MOST = site_of("HUNDRED_SUBSCRIPTIONS", working.ONBOARDED, *HUNDRED)
run(
    "a hundred subscriptions of a role are live, and no more",
    *[AT_MOST, *comes_from(ELEMENT, subscribing()), ["only answered", TOO_MANY]],
    *[*comes_from(ELEMENT, of_subscription(101)), ["only answered", NO_SUBSCRIPTION]],
    # (what else is wrong is told before)
    *[*comes_from(ELEMENT, subscribing("https://h/")), ["only answered", NO_URI]],
    *[*comes_from(ELEMENT, subscribing_by(with_about(("vnfProductsFromProviders", "[]")))), ["only answered", NO_PRODUCTS]],
    *[*comes_from(ELEMENT, subscribing_by("{}")), ["only answered", refused_as(BAD, "missing callbackUri")]],
    *told_to(ORCHESTRATOR, (subscribing(), made_answer(101)), (LISTING, listed(subscription_view(101)))),
    *told_to(ELEMENT, (subscribing(), TOO_MANY), (of_subscription(50, "DELETE"), GONE), (subscribing(), made_answer(102)), (subscribing(), TOO_MANY)),
    file_of(working.ONBOARDED, *HUNDRED, subscribed(101, ORCHESTRATOR), unsubscribed(50), subscribed(102)),
    *told_to(ELEMENT, (LISTING, listed(*[subscription_view(it, "http://h/") for it in range(1, 101) if it != 50], subscription_view(102)))),
)
run(
    "the hundredth subscription of a role is taken",
    site_of("NINETY_NINE", working.ONBOARDED, *HUNDRED[:99]),
    *told_to(ELEMENT, (subscribing("http://h/"), made_answer(100, "http://h/")), (subscribing(), TOO_MANY)),
    file_of(working.ONBOARDED, *HUNDRED),
)

# ---- Stops and faults

SUBSCRIBED = [working.ONBOARDED, subscribed(1)]
run(
    "each disk call of a subscription that fails ends the run, and the request is made again",
    *[EMPTY, *comes_from(ELEMENT, subscribing()), ["life", [], []]],
    [
        *["each fault", EMPTY, *comes_from(ELEMENT, subscribing()), ["fallen"], ["kept"], ["posted", ""], *at_records(1, 1, ["told", FAULT])],
        *[*at_records(0, 0, *comes_from(ELEMENT, subscribing()), file_of(*SUBSCRIBED))],
    ],
)
for choice in CHOICES:
    run(
        "a stop in a subscription leaves it or not: %s" % choice,
        *[EMPTY, *comes_from(ELEMENT, subscribing()), ["answered", made_answer(1)], ["life", [], []]],
        [
            *["each stop", choice, ["kept"], *at_records(0, 0, *comes_from(ELEMENT, LISTING), ["only answered", EMPTY_LIST])],
            *[*at_records(1, 1, *comes_from(ELEMENT, LISTING), ["only answered", listed(subscription_view(1))])],
        ],
    )
