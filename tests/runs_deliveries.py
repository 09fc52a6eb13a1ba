"""The runs of deliveries: what a post is answered and what is recorded of it, the notices of several subscriptions in a round, and stops and failing calls
among posts."""
from run_operations import *
from runs_notices import post_of
from runs_subscriptions import *

begin(__name__)

DELIVERED, NOT_TAKEN = range(2)


def posted(number, place, how=DELIVERED):
    """The event that a notice was posted."""
    return "posted", number, place, how


def instance(number, called="edge-1"):
    return "created", number, "vnfd-1", called, None


def in_rounds(count):
    """A command of so many rounds to which nobody comes."""
    return go("once", "--journal", "j", "--rounds", str(count))


def quiet(count, *receipts):
    """The same, whose posts are answered so."""
    return [["receipts", *receipts], in_rounds(count), ["status", 0], ["printed", "done after %d rounds\n" % count]]


# ---- What a post is answered

ONE = [working.ONBOARDED, subscribed(1), instance(1), instance(2)]
ONE_WAITS = site_of("ONE_SUBSCRIPTION", *ONE)
FIRST_NOTICE, SECOND_NOTICE = (1, 3, WAS_CREATED), (1, 4, WAS_CREATED)


def first(status=204):
    return post_of(*FIRST_NOTICE, status=status)


def second(status=204):
    return post_of(*SECOND_NOTICE, status=status, instance=2)


REFUSED_FIVE = [*ONE, *[posted(1, 3, NOT_TAKEN)] * 5]
run(
    "a notice that is refused five times is given up, and the next one is posted",
    *[ONE_WAITS, *quiet(6, 500, 500, 500, 500, 500), ["posted", [first(500)] * 5 + [second()]], file_of(*REFUSED_FIVE, posted(1, 4))],
    *[*quiet(2), ["posted", ""], ["stays"]],
)
for count in range(1, 5):
    run(
        "a notice that is refused is posted again, by the next command too, until it is taken: %d times" % count,
        *[ONE_WAITS, *quiet(count, *[500] * count), ["posted", [first(500)] * count], file_of(*ONE, *[posted(1, 3, NOT_TAKEN)] * count)],
        *[*quiet(1), ["posted", first()], *quiet(1), ["posted", second()]],
        file_of(*ONE, *[posted(1, 3, NOT_TAKEN)] * count, posted(1, 3), posted(1, 4)),
    )
run(
    "the refusals of a notice are counted anew for the next one",
    *[ONE_WAITS, *quiet(8, *[500] * 4, 204, *[500] * 3), ["posted", [first(500)] * 4 + [first()] + [second(500)] * 3]],
    *[*quiet(3, 500, 500), ["posted", [second(500)] * 2], ["waits", 1, 0]],
    file_of(*ONE, *[posted(1, 3, NOT_TAKEN)] * 4, posted(1, 3), *[posted(1, 4, NOT_TAKEN)] * 5),
)
STATUSES = 100, 199, 200, 201, 202, 203, 205, 206, 301, 304, 400, 404, 405, 429, 503, 999
for group in (STATUSES[:4], STATUSES[4:8], STATUSES[8:12], STATUSES[12:]):
    run(
        "by status 204 alone a notice is taken: not by %s" % ", ".join(map(str, group)),
        *[ONE_WAITS, *quiet(5, *group), ["posted", [*map(first, group), first()]], file_of(*ONE, *[posted(1, 3, NOT_TAKEN)] * 4, posted(1, 3))],
    )
for failing in range(5):
    answers_ = [204] * 5
    answers_[failing] = "fail"
    many = [working.ONBOARDED, subscribed(1), *[instance(it) for it in range(1, 5)]]
    places = [3, 4, 5, 6]
    repeated = sorted([*places, *places[failing : failing + 1]])
    how = [NOT_TAKEN if it == failing and failing < 4 else DELIVERED for it in range(len(repeated))]
    run(
        "a post that fails is made again: post %d" % failing,
        *[site_of("FOUR_WAIT_%d" % failing, *many), *quiet(6, *answers_)],
        ["posted", [post_of(1, place, WAS_CREATED, instance=place - 2, status="fail" if it else 204) for place, it in zip(repeated, how)]],
        *[file_of(*many, *[posted(1, place, it) for place, it in zip(repeated, how)]), ["faults", 0, 0, 0, 0]],
    )
run(
    "a courier that never comes through: each notice is tried five times",
    *[ONE_WAITS, *quiet(12, *["fail"] * 12), ["posted", [first("fail")] * 5 + [second("fail")] * 5]],
    file_of(*ONE, *[posted(1, 3, NOT_TAKEN)] * 5, *[posted(1, 4, NOT_TAKEN)] * 5),
)

# ---- Subscriptions that come and go

run(
    "a subscription that is ended while a notice waits is told of none",
    *[ONE_WAITS, *quiet(2, 500, 500), ["posted", [first(500)] * 2]],
    *[*comes_from(ELEMENT, of_subscription(1, "DELETE")), ["answered", GONE], ["posted", ""], *quiet(2), ["posted", ""], ["stays"]],
    file_of(*ONE, *[posted(1, 3, NOT_TAKEN)] * 2, unsubscribed(1)),
)
run(
    "a subscription that is ended in the connection of a round is told of nothing in that round",
    *[ONE_WAITS, *comes_from(ELEMENT, of_subscription(1, "DELETE"), subscribing("http://h/2")), ["answered", joined([GONE, made_answer(2, "http://h/2")])]],
    *[["posted", ""], *comes_from(ORCHESTRATOR, request("POST", INSTANCES, '{"vnfdId":"vnfd-1"}')), ["status", 0]],
    *[["posted", post_of(2, 7, WAS_CREATED, instance=3, callback="http://h/2")], file_of(*ONE, unsubscribed(1), subscribed(2, callback="http://h/2"), (
        "created", 3, "vnfd-1", None, None
    ), posted(2, 7))],
)
run(
    "what a connection does is told of in its own round, one notice of it",
    *[EMPTY, *told_to(ELEMENT, (subscribing(), made_answer(1)))],
    *[["door", [CREATE_TEXT] * 3], in_rounds(4), ["status", 0], ["posted", [post_of(1, it + 2, WAS_CREATED, instance=it) for it in (1, 2, 3)]]],
    file_of(working.ONBOARDED, subscribed(1), *[instance(it) for it in (1, 2, 3)], *[posted(1, it) for it in (3, 4, 5)]),
    *[*comes_from(ORCHESTRATOR, request("DELETE", INSTANCE % 2)), ["answered", GONE], ["posted", post_of(1, 9, WAS_DELETED, instance=2)]],
)

# ---- Several subscriptions

URIS = [CALLBACK, "http://h/2", "http://h/3"]
THREE = [
    *[working.ONBOARDED, subscribed(1), subscribed(2, ORCHESTRATOR, URIS[1], notificationTypes=[WAS_DELETED]), subscribed(3, ELEMENT, URIS[2])],
    *[instance(1), ("deleted", 1), instance(2), ("deleted", 2)],
]
THREE_WAIT = site_of("THREE_SUBSCRIPTIONS", *THREE)
TOLD = {5: (WAS_CREATED, 1), 6: (WAS_DELETED, 1), 7: (WAS_CREATED, 2), 8: (WAS_DELETED, 2)}


def post(number, place, status=204):
    notice, about = TOLD[place]
    return post_of(number, place, notice, status=status, instance=about, callback=URIS[number - 1])


IN_ORDER = [(1, 5), (2, 6), (3, 5), (1, 6), (2, 8), (3, 6), (1, 7), (3, 7), (1, 8), (3, 8)]
ALL_POSTED = [posted(*it) for it in IN_ORDER]
run(
    "each live subscription has one delivery a round, in the order of their numbers",
    *[THREE_WAIT, *quiet(1), ["posted", [post(*it) for it in IN_ORDER[:3]]], file_of(*THREE, *ALL_POSTED[:3])],
    *[*quiet(1), ["posted", [post(*it) for it in IN_ORDER[3:6]]], *quiet(1), ["posted", [post(*it) for it in IN_ORDER[6:8]]]],
    *[*quiet(3), ["posted", [post(*it) for it in IN_ORDER[8:]]], file_of(*THREE, *ALL_POSTED), ["waits", 1, 0], ["waits", 2, 0], ["waits", 3, 0]],
)
run(
    "a receiver that refuses holds up its own notices alone",
    *[THREE_WAIT, *quiet(4, 204, "fail", 204, 204, 500, 204, 204, 404, 204, 204, 204, 204)],
    [
        "posted",
        [
            *[post(1, 5), post(2, 6, "fail"), post(3, 5), post(1, 6), post(2, 6, 500), post(3, 6), post(1, 7), post(2, 6, 404), post(3, 7), post(1, 8)],
            *[post(2, 6), post(3, 8)],
        ],
    ],
    *[["waits", 1, 0], ["waits", 2, 8], ["waits", 3, 0], *quiet(1), ["posted", post(2, 8)]],
)
run(
    "a notice that is posted to several is recorded for each: deliveries of a round are counted",
    *[THREE_WAIT, ["receipts", 204, 500], ["deliveries", "2 1"], ["posted", [post(1, 5), post(2, 6, 500), post(3, 5)]]],
    *[["receipts", "fail", "fail", "fail"], ["deliveries", "0 3"], ["posted", [post(1, 6, "fail"), post(2, 6, "fail"), post(3, 6, "fail")]]],
    *[["deliveries", "3 0"], ["deliveries", "3 0"], ["deliveries", "2 0"], ["deliveries", "0 0"], ["posted", ""], ["stays"]],
)
HUNDREDS = [working.ONBOARDED, *[subscribed(it, it % 2, "http://h/%d" % it) for it in range(1, 201)], instance(1)]
run(
    "two hundred subscriptions are told in one round",
    *[site_of("TWO_HUNDRED", *HUNDREDS), *quiet(1), ["posted", [post_of(it, 202, WAS_CREATED, callback="http://h/%d" % it) for it in range(1, 201)]]],
    file_of(*HUNDREDS, *[posted(it, 202) for it in range(1, 201)]),
)

# ---- Stops and faults

LIFE = ["life", [], []]


def rest_behind(count):
    """What the rounds of the next life post where so many of these posts are recorded: each begins anew with the first subscription."""
    waiting = {number: [place for of, place in IN_ORDER[count:] if of == number] for number in (1, 2, 3)}
    return [(number, waiting[number][turn]) for turn in range(4) for number in (1, 2, 3) if turn < len(waiting[number])]


AGAIN = [in_rounds(5), ["status", 0]]
for recorded in range(len(IN_ORDER) + 1):
    left_over = rest_behind(recorded)
    put = [*ALL_POSTED[:recorded], *[posted(*it) for it in left_over]]
    AGAIN += at_records(recorded, recorded, ["posted", [post(*it) for it in left_over]], file_of(*THREE, *put))
for choice in CHOICES:
    run(
        "deliveries go on behind a stop at each moment: %s" % choice,
        *[THREE_WAIT, *quiet(4), ["posted", [post(*it) for it in IN_ORDER]], file_of(*THREE, *ALL_POSTED), LIFE, ["each stop", choice, ["kept"], *AGAIN]],
    )
run(
    "each disk call of deliveries that fails is made up for by the next life",
    *[THREE_WAIT, *quiet(4), LIFE],
    ["each fault", THREE_WAIT, in_rounds(4), ["fallen"], ["kept"], ["posted so far"], *AGAIN, ["faults", 1, 0, 0, 0]],
)
# A record is a write, a sync, its gate and a sync; the post goes before the first of them.
for calls in range(1, 5):
    again = [] if calls == 4 else [first()]
    run(
        "a notice that was posted before a stop is posted again, by the same bytes, unless that is recorded: behind %d calls" % calls,
        *[ONE_WAITS, *quiet(1), ["posted", first()], file_of(*ONE, posted(1, 3)), ["stop behind", calls], ["waits", 1, 3 if again else 4]],
        *[*quiet(2), ["posted", [*again, second()]], ["waits", 1, 0], file_of(*ONE, posted(1, 3), posted(1, 4))],
    )
# The receiver refuses the first notice twice: what the next life posts is answered as the whole one was.
UNEVEN = [posted(1, 3, NOT_TAKEN), posted(1, 3, NOT_TAKEN), posted(1, 3), posted(1, 4, NOT_TAKEN), posted(1, 4)]
RECEIPTS = [500, "fail", 204, 404]
for choice in CHOICES:
    run(
        "refused deliveries are counted behind a stop at each moment: %s" % choice,
        *[ONE_WAITS, *quiet(5, *RECEIPTS), ["posted", [first(500), first("fail"), first(), second(404), second()]], file_of(*ONE, *UNEVEN), LIFE],
        [
            *["each stop", choice, ["kept"]],
            *[act for count in range(6) for act in at_records(count, count, ["receipts", *RECEIPTS[count:]])],
            *[in_rounds(6), ["status", 0], ["posted again"], file_of(*ONE, *UNEVEN)],
        ],
    )
run(
    "refused deliveries are counted behind each disk call that fails",
    *[ONE_WAITS, *quiet(5, *RECEIPTS), LIFE],
    [
        *["each fault", ONE_WAITS, ["receipts", *RECEIPTS], in_rounds(5), ["fallen"], ["kept"], ["posted so far"]],
        *[act for count in range(6) for act in at_records(count, count, ["receipts", *RECEIPTS[count:]])],
        *[in_rounds(6), ["status", 0], ["posted again"], file_of(*ONE, *UNEVEN)],
    ],
)
TWENTY = [working.ONBOARDED, subscribed(1), *[instance(it) for it in range(1, 21)]]
TWENTY_WAIT = site_of("TWENTY_WAIT", *TWENTY)
for begun, choice in itertools.product((0, 9, 18), CHOICES):
    run(
        "deliveries whose lives are stopped again and again, from life %d on, tell of each notice: %s" % (begun, choice),
        *[TWENTY_WAIT, ["lives", begun, choice, record_of(posted(1, 22))], file_of(*TWENTY, *[posted(1, it) for it in range(3, 23)])],
        ["posted once", [post_of(1, it, WAS_CREATED, instance=it - 2) for it in range(3, 23)]],
    )

# ---- Beside an operation

WORKED_ON = site_of("SUBSCRIBED_ROUTER", working.ONBOARDED, subscribed(1), subscribed(2, ORCHESTRATOR, URIS[1], operationStates=["COMPLETED"]), instance(1))
run(
    "an instantiation is told of while it goes on, behind a stop at each moment",
    *[WORKED_ON, rounds(31, INSTANTIATE, ACCEPTED), ["status", 0], ["jobs", 13, 13], LIFE],
    [*["each stop", "old", ["kept"], *at_records(6, 60, rounds(40), ["status", 0], ["jobs", 13, 13], ["waits", 1, 0], ["waits", 2, 0])]],
)
run(
    "an instantiation is told of while it goes on, and each disk call fails in turn",
    *[WORKED_ON, rounds(31, INSTANTIATE, ACCEPTED), LIFE],
    ["each fault", WORKED_ON, rounds(31, INSTANTIATE), ["fallen"], ["kept"], ["posted so far"]],
)

# ---- Memory

TWO = [working.ONBOARDED, subscribed(1), subscribed(2, ORCHESTRATOR, URIS[1]), instance(1)]
TWO_WAIT = site_of("TWO_SUBSCRIPTIONS", *TWO)
run(
    "no notice is posted where there is no memory to record it",
    *[TWO_WAIT, ["starved posts", [[HEADER, *map(record_of, [*TWO, *[posted(1, 4), posted(2, 4)][:it]]), "\0"] for it in range(3)]]],
)
