"""The runs of the tasks of an occurrence, without a turn behind them: retry, rollback, fail, cancel."""
from run_texts import *
from runs_routes import IN_COMPLETED, IN_FAILED_TEMP, IN_PROCESSING, IN_ROLLING_BACK, gets
from runs_instantiations import router_site

begin(__name__)

# ---- Tasks, without a turn behind them


def task_of(number, which, body="", media=JSON):
    return request("POST", OCCURRENCE % number + "/" + which, body, "Content-Type: %s\r\n" % media)


RESUMING, ALL = ["retry", "rollback", "fail"], ["retry", "rollback", "fail", "cancel"]
for state, records, tasks in [
    *[("STARTING", [CREATION[1], ASKED], RESUMING), ("PROCESSING", IN_PROCESSING, RESUMING), ("COMPLETED", IN_COMPLETED, ALL)],
    *[("FAILED_TEMP", IN_FAILED_TEMP, ["cancel"]), ("FAILED", [*IN_FAILED_TEMP, MOVED["FAILED"]], ALL)],
    *[("ROLLING_BACK", IN_ROLLING_BACK, RESUMING), ("ROLLED_BACK", [*IN_ROLLING_BACK, MOVED["ROLLED_BACK"]], ALL)],
]:
    acts = [act for it in tasks for act in (answers(task_of(1, it, GRACEFUL), IS[state]), ["stays"])]
    run("a task is refused in a state that it is not for: %s" % state, ["site", journal(*records)], *acts)


def takes(records, text, behind):
    """The request is taken up, and this record stands behind the others."""
    return [["site", journal(*records)], answers(text, TAKEN_UP), ["file", journal(*records, behind)]]


for title, text, records, behind in [
    ("a retry in FAILED_TEMP", task_of(1, "retry"), IN_FAILED_TEMP, MOVED["PROCESSING"]),
    ("a rollback in FAILED_TEMP", task_of(1, "rollback"), IN_FAILED_TEMP, MOVED["ROLLING_BACK"]),
    ("a retry whose body is not read", task_of(1, "retry", "{", "text/plain"), IN_FAILED_TEMP, MOVED["PROCESSING"]),
    ("a rollback whose body is not read", task_of(1, "rollback", "{", "text/plain"), IN_FAILED_TEMP, MOVED["ROLLING_BACK"]),
    ("a graceful cancel in STARTING", task_of(1, "cancel", GRACEFUL), [CREATION[1], ASKED], CANCELLED),
    ("a forceful cancel in STARTING", task_of(1, "cancel", FORCEFUL), [CREATION[1], ASKED], FORCED),
    ("a graceful cancel in PROCESSING", task_of(1, "cancel", GRACEFUL), IN_PROCESSING, CANCELLED),
    ("a forceful cancel in ROLLING_BACK", task_of(1, "cancel", FORCEFUL), IN_ROLLING_BACK, FORCED),
    ("a forceful cancel behind a graceful one", task_of(1, "cancel", FORCEFUL), [*IN_PROCESSING, CANCELLED], FORCED),
    (
        *["a forceful cancel, of two modes the last", task_of(1, "cancel", '{"cancelMode":"GRACEFUL","cancelMode":"FORCEFUL"}')],
        *[IN_PROCESSING, FORCED],
    ),
    (
        *["a graceful cancel behind a forceful one, with a member more", task_of(1, "cancel", '{"x":[],"cancelMode":"GRACEFUL"}')],
        *[[*IN_PROCESSING, FORCED], CANCELLED],
    ),
]:
    run("a task is recorded before it is answered: %s" % title, *takes(records, text, behind))


def fails(records, media, view):
    """The occurrence is given up a second later, and shown so then and later."""
    return [
        *[["let", "FAILED_THEN", showing(view)], ["site", [*records, "\0"]]],
        answers(task_of(1, "fail", "{", media), "$FAILED_THEN", NOW + 1000),
        *[["file", [*records, FAILED_LATER, "\0"]], gets(OCCURRENCE % 1), ["only answered", "$FAILED_THEN"]],
    ]


def failed_view(detail, changes=None):
    return compact(occurrence_view("FAILED", (detail, 500), changes=changes, entered="2023-11-14T22:13:21.000Z"))


run(
    "fail shows the occurrence as it is then",
    *fails([HEADER, ONBOARDED, *IN_FAILED_TEMP], "text/plain", failed_view("cancelled")),
)
# Change 0 was begun and done by `r1`, and change 1 was begun and broken with 9.
BROKEN = [record(8, u64(1), u16(n), u32(1), u8(0)) for n in range(2)]
BROKEN.insert(1, record(10, u64(1), u16(0), u32(1), u8(0), u8(0), name("r1")))
BROKEN.append(record(10, u64(1), u16(1), u32(1), u8(0), u8(1), u32(9)))
ONE_LINK = changed([1])
run(
    "fail shows what was made",
    *[*router_site(), ["keep records", "ROUTER_RECORDS"]],
    *fails(
        ["$ROUTER_RECORDS", ROUTER_ASKED, ROUTER_GRANTED, MOVED["PROCESSING"], *BROKEN, MOVED["FAILED_TEMP"]],
        *[JSON, failed_view("change 1: broken 9", ONE_LINK)],
    ),
)
for title, records, mode in [
    ("GRACEFUL", [*IN_PROCESSING, CANCELLED], "GRACEFUL"),
    ("FORCEFUL behind a FORCEFUL and a GRACEFUL one", [*IN_PROCESSING, FORCED, CANCELLED], "FORCEFUL"),
    ("none behind a retry", [*IN_FAILED_TEMP, MOVED["PROCESSING"]], None),
]:
    view = compact(occurrence_view("PROCESSING", ("cancelled", 500), mode))
    run(
        "a cancel is shown while it is in force: %s" % title,
        *[["let", "WORKING", showing(view)], ["site", journal(*records)], answers(SHOW, "$WORKING"), ["stays"]],
    )
TERMINATION = [*IN_COMPLETED, TERMINATING, GRANTED_2, MOVED_2["PROCESSING"]]
STOPPED_TERMINATION = [*TERMINATION, CANCELLED_2, MOVED_2["FAILED_TEMP"]]
NOT_ROLLED_BACK = [answers(task_of(2, "rollback", GRACEFUL), NO_TASK), ["stays"]]
run(
    "a termination is not rolled back",
    *[["site", journal(*STOPPED_TERMINATION)], *NOT_ROLLED_BACK],
    *[["site", journal(*TERMINATION, MOVED_2["COMPLETED"])], *NOT_ROLLED_BACK],
    *takes(STOPPED_TERMINATION, task_of(2, "retry"), MOVED_2["PROCESSING"]),
)
NOWHERE = [("GET", "1/retry", ONLY_POST), ("DELETE", "1/rollback", ONLY_POST), ("PUT", "2/fail", ONLY_POST), ("PATCH", "1/cancel", ONLY_POST)]
NOWHERE += [("POST", "1/restart", NO_RESOURCE), ("POST", "1/retry/x", NO_RESOURCE), ("POST", "2/retry", NO_OCCURRENCE)]
NOWHERE += [("POST", "2/rollback", NO_OCCURRENCE), ("POST", "2/fail?x", NO_OCCURRENCE), ("POST", "0/fail", NO_OCCURRENCE)]
run(
    "a task of no occurrence is not found",
    ["site", journal(*IN_FAILED_TEMP)],
    *[act for method, end, told_it in NOWHERE for act in (answers(request(method, (OCCURRENCE % 0)[:-1] + end), told_it), ["stays"])],
    *[answers(task_of(2, "cancel", GRACEFUL), NO_OCCURRENCE), ["stays"]],
)
CANCEL_BODIES = [(1, "", NO_JSON), (2, "{", NO_JSON), (1, '["GRACEFUL"]', NO_JSON), (2, "{}", NO_MODE), (1, '{"cancelMode":null}', NO_MODE)]
CANCEL_BODIES += [(1, '{"CancelMode":"GRACEFUL"}', NO_MODE), (1, '{"cancelMode":1}', BAD_MODE), (1, '{"cancelMode":""}', BAD_MODE)]
CANCEL_BODIES += [(1, '{"cancelMode":"graceful"}', BAD_MODE), (2, '{"cancelMode":"FORCEFULL"}', BAD_MODE), (1, '"GRACEFUL"', NO_JSON)]
CANCEL_BODIES += [(1, '{"mode":"GRACEFUL"}', NO_MODE), (1, '{"cancelMode":"Graceful"}', BAD_MODE), (1, '{"cancelMode":["GRACEFUL"]}', BAD_MODE)]
run(
    "a cancel is refused for the first cause",
    *[["site", journal(*IN_COMPLETED)], answers(task_of(1, "cancel", GRACEFUL, "text/plain"), NOT_JSON), ["stays"]],
    *[answers(task_of(2, "cancel", "{", "text/plain"), NOT_JSON), ["stays"]],
    *[act for number, body, answer in CANCEL_BODIES for act in (answers(task_of(number, "cancel", body), answer), ["stays"])],
)
