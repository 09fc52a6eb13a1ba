"""The runs of serve, whose connections are each served in the role that the door tells, and of trial."""
import trials
from runs_subscriptions import *

begin(__name__)

# ---- The role that the door tells

AT = "--listen", "127.0.0.1:8880", "--em-listen", "127.0.0.1:8881"
DOORS = "door", "em door"


def serve(rounds, *words):
    return go("serve", "--journal", "j", *AT, "--rounds", str(rounds), *words)


def come_to(role, *texts):
    """A round of serve with a connection at the address of this role, with these requests."""
    return [[DOORS[role], list(texts)], serve(1)]


def told_at(role, *pairs):
    """A connection at the address of this role with these requests is told these answers."""
    return [*come_to(role, *[it[0] for it in pairs]), ["answered", joined(it[1] for it in pairs)]]


run(
    "serve answers each connection in the role of its address",
    *[EMPTY, *told_at(ELEMENT, (subscribing(), made_answer(1))), file_of(working.ONBOARDED, subscribed(1))],
    *[*told_at(ORCHESTRATOR, (LISTING, EMPTY_LIST), (of_subscription(1), NO_SUBSCRIPTION)), ["stays"]],
    *[*told_at(ELEMENT, (LISTING, listed(subscription_view(1)))), ["stays"]],
    *[*told_at(ORCHESTRATOR, (subscribing("http://h/2"), made_answer(2, "http://h/2")))],
    *[file_of(working.ONBOARDED, subscribed(1), subscribed(2, ORCHESTRATOR, "http://h/2"))],
    *[*told_at(ELEMENT, (LISTING, listed(subscription_view(1))), (of_subscription(2, "DELETE"), NO_SUBSCRIPTION)), ["stays"]],
)
run(
    "one run of serve answers connections of both roles",
    *[EMPTY, ["em door", subscribing()], ["door", subscribing("http://h/2")], ["em door", LISTING], serve(3)],
    *[["answered", listed(subscription_view(1))], ["printed", "done after 3 rounds\n"]],
    file_of(working.ONBOARDED, subscribed(1), subscribed(2, ORCHESTRATOR, "http://h/2")),
)
run(
    "serve makes rounds to which nobody comes",
    *[EMPTY, ["nobody"], ["em door", LISTING], ["nobody"], serve(3), ["status", 0], ["printed", "done after 3 rounds\n"], ["told", EMPTY_LIST], ["stays"]],
    *[EMPTY, serve(0), ["status", 0], ["printed", "done after 0 rounds\n"], ["clock", 0], ["stays"]],
)
run("serve ends where its door fails", EMPTY, ["em door", LISTING], ["no door"], serve(3), ["status", 4], ["printed", "door fault\n"], ["stays"])
run(
    "serve opens a journal as once does",
    *[["site", ""], serve(1), ["status", 5], ["printed", "no journal\n"], ["stays"]],
    *[["fault", 1], EMPTY, serve(1), ["status", 3], ["printed", "site fault\n"]],
)

# ---- The trial

NOTHING = "requests 0, accepted 0, refused 0\ncompleted 0, failed 0, rolled back 0, ongoing 0\njobs 0, standing 0\n"


def trial(start, count, *lines):
    """A trial prints these lines, and calls nothing that it was handed but the sink."""
    return [
        *[go("trial", "--start", str(start), "--count", str(count)), ["status", 0], ["printed", "".join(line + "\n" for line in lines) or NOTHING]],
        *[["clock", 0], ["told", ""], ["moment", 0]],
    ]


run(
    "a trial tells what came of its requests",
    ["site", JOURNAL],
    *trial(2, 1, "requests 1, accepted 1, refused 0", "completed 0, failed 0, rolled back 0, ongoing 0", "jobs 0, standing 0"),
    # The first number that is drawn is 7, a retry, for which there is nothing to name.
    *trial(0, 1),
    *[act for start in (0, 1, 2**64 - 1) for act in trial(start, 0)],
    ["stays"],
)
run(
    "a trial whose lines can't be put ends with 7",
    *[["site", ""], ["sink", 1], go("trial", "--start", "2", "--count", "1"), ["status", 7], ["printed", ""], ["stays"]],
)
for start, count in (1, 100), (7, 300):
    run("a trial comes to what a model of the rules comes to: %d steps" % count, ["site", ""], *trial(start, count, *trials.lines_of(start, count)))
