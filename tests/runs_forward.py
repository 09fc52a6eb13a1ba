"""The runs of the edge router's instantiation, forward: each job, its work, and what goes otherwise at each of them."""
import itertools

from run_texts import *
from runs_commands import INIT, ONBOARD
from runs_instantiations import ROUTER, router_site

begin(__name__)

# ---- The edge router's instantiation, forward

PREPARED = "$PREPARED"
run("the edge router is onboarded, and an instance of it is created", *router_site(), ["keep", "PREPARED"])
SITE = ["site", PREPARED]
# The first round asks for the operation and for its grant, and each other records an event, to the last; one that records an intent begins a job.
LAST = len(WHOLE) - 1

for count in range(1, LAST + 4):
    recorded = WHOLE[: count + 1]
    begun = sum(it[3] == "intent" for it in recorded if isinstance(it, list))
    run(
        "round %d of an instantiation records %s" % (count, "the next event" if count <= LAST else "nothing"),
        *[SITE, asks(count), ["printed", "done after %d rounds\n" % count], ["clock", count + 1], steps(*recorded), ["job count", begun]],
    )
run(
    "a completed instantiation is shown with its resources",
    *[SITE, asks(28), steps(*WHOLE[:-1]), idle, face("PROCESSING", WHOLE[:-1])],
    *[rounds(1), steps(*WHOLE), ["jobs", 13, 13], face("COMPLETED", WHOLE), instantiated(13)],
)
run("each job does the work of its change", SITE, asks(29), *[makes(n, n) for n in range(CHANGES)], ["jobs", 13, 13])


# ---- What stops the work

def attempted(all_steps, at):
    """The attempts of these steps at which this stands, in order, each as its way, its change and its number."""
    return [it[:3] for it in all_steps if isinstance(it, list) and it[3] == at]


def open_at(all_steps):
    """The attempts that these steps leave open, in the order of their intents."""
    ended = [it[:3] for it in all_steps if isinstance(it, list) and it[3] not in ("intent", "call failed")]
    return [it for it in attempted(all_steps, "intent") if it not in ended]


def troubled_in(all_steps, attempt, ends_, is_begun, jobs):
    """These steps up to FAILED_TEMP, where this attempt comes to that in place of its end, the last of which is the trouble, and has so many jobs. All of it
    but the trouble is recorded behind the intent, and the trouble too where the attempt isn't begun. Behind it each open attempt ends."""
    by = {tuple(it[:3]): it[4] for it in all_steps if it[3:4] == ["done"]}
    own = by[tuple(attempt)]
    intent = all_steps.index([*attempt, "intent"])
    end = all_steps.index([*attempt, "done", own]) if is_begun else intent + 1
    front = [*all_steps[: intent + 1], *[[*attempt, *it] for it in ends_[:-1]], *all_steps[intent + 1 : end], [*attempt, *ends_[-1]]]
    front += [[*it, "done", by[tuple(it)]] for it in open_at(front)]
    return [[*it[:4], it[4] - (it[4] > own) * (1 - jobs)] if it[3:4] == ["done"] else it for it in front] + ["FAILED_TEMP"]


def troubled(n, ends_, is_begun, jobs):
    """The operation up to FAILED_TEMP, whose attempt at change n comes to this."""
    return troubled_in(WHOLE, ["forward", n, 1], ends_, is_begun, jobs)


def acts_of(all_steps, between=0):
    """The rounds that record these steps from the first on, where so many of them come with the one before: the grant is recorded by the first."""
    return len(all_steps) - 1 - between


# What stops the work at a change: what comes of its begin, what is recorded of the attempt behind its intent, whether a look finds that, the cause, the
# jobs that it leaves, and the calls on jobs that failed and the begins that were refused.
TROUBLES = [
    ("its begin is lost", LOST, [["call failed"], ["not begun"]], True, "call failed", 0, (1, 0)),
    ("its begin is refused", REFUSED, [["broken", 9]], False, "broken 9", 0, (0, 1)),
    ("its job breaks", BREAKING, [["broken", 7]], True, "broken 7", 1, (0, 0)),
    ("its begin fails and its job breaks", ARRIVED_BREAKING, [["call failed"], ["broken", 7]], True, "broken 7", 1, (1, 0)),
]


def rounds_to_trouble(ends_, is_begun, stopped):
    """The rounds up to FAILED_TEMP: what is recorded behind a begin comes in the round of its intent."""
    return acts_of(stopped, len(ends_) - is_begun)


def left_behind(all_steps):
    """The changes that aren't made behind these steps, each with the number of its next attempt, where one was attempted once at most."""
    done = {it[1] for it in attempted(all_steps, "done")}
    tried = {it[1] for it in attempted(all_steps, "intent")}
    return {it: 2 if it in tried else 1 for it in range(CHANGES) if it not in done}


for (title, job, ends_, is_begun, cause, jobs, (failed, refusals)), n in itertools.product(TROUBLES, range(CHANGES)):
    stopped = troubled(n, ends_, is_begun, jobs)
    made_jobs = len(attempted(stopped, "done"))
    again = [*stopped, "PROCESSING", forward(n, 2, "intent")]
    left = left_behind(stopped)
    whole = [*stopped, "PROCESSING", *worked("forward", left, made_jobs + jobs + 1), "COMPLETED"]
    detail = "change %d: %s" % (n, cause)
    run(
        "the work stops in its round at change %d, where %s, and a retry attempts only what is not made" % (n, title),
        *[work(n, job), SITE, asks(rounds_to_trouble(ends_, is_begun, stopped) - 1), steps(*stopped[:-1]), ["faults", 0, failed, 0, refusals]],
        *[["jobs", made_jobs + jobs, made_jobs], rounds(1), steps(*stopped), rounds(5), steps(*stopped), ["jobs", made_jobs + jobs, made_jobs]],
        *[face("FAILED_TEMP", stopped, detail), idle, task(1, RETRY), steps(*again), face("PROCESSING", again, detail)],
        *[rounds(2 * len(left)), steps(*whole), ["jobs", CHANGES + jobs, CHANGES], face("COMPLETED", whole), ["grants", 1]],
    )
for n in range(CHANGES):
    stopped = troubled(n, [["broken", 1]], False, 0)
    run(
        "the work stops in its round at change %d, where there is no room for its job" % n,
        *[["room", n], SITE, asks(acts_of(stopped, 1) - 1), steps(*stopped[:-1]), ["faults", 0, 0, 0, 1], ["jobs", n, n], rounds(1)],
        *[steps(*stopped), rounds(5), steps(*stopped), ["jobs", n, n]],
        *[face("FAILED_TEMP", stopped, "change %d: broken 1" % n), idle],
    )
    begun = WHOLE.index(forward(n, 1, "intent")) + 1
    found = [*WHOLE[:begun], forward(n, 1, "call failed"), *WHOLE[begun:]]
    run(
        "a job at change %d whose begin failed is found by a look" % n,
        *[work(n, plan("arrived")), SITE, asks(29), steps(*found), ["faults", 0, 1, 0, 0], ["jobs", 13, 13], face("COMPLETED", found)],
    )
# Change 1 is begun before a look tells that change 0 has no job, and ends before the work stops.
LOST_ONCE = ["asked", "granted", "PROCESSING", forward(0, 1, "intent"), forward(0, 1, "call failed"), forward(1, 1, "intent")]
LOST_ONCE += [forward(0, 1, "not begun"), forward(1, 1, "done", 1), "FAILED_TEMP"]
run(
    "a lost begin is made up for by a retry behind seven rounds",
    *[work(0, LOST), SITE, asks(6), steps(*LOST_ONCE[:-1]), rounds(1), steps(*LOST_ONCE), face("FAILED_TEMP", LOST_ONCE, "change 0: call failed")],
    *[task(25, RETRY), ["grants", 1], steps(*LOST_ONCE, "PROCESSING", *make(0, 1, 2, 2), *make(2, 13, 1, 3), "COMPLETED"), ["jobs", 13, 13]],
    face("COMPLETED", [*LOST_ONCE, "PROCESSING", *make(0, 1, 2, 2), *make(2, 13, 1, 3), "COMPLETED"]),
)
# The retries begin change 0 alone, since the other of its phase is made.
LOST_AND_REFUSED = [*LOST_ONCE, "PROCESSING", forward(0, 2, "intent"), forward(0, 2, "broken", 9), "FAILED_TEMP"]
LOST_AGAIN = [*LOST_AND_REFUSED, "PROCESSING", *[forward(0, 3, it) for it in ("intent", "call failed", "not begun")], "FAILED_TEMP"]
run(
    "a change is attempted until it is made",
    *[work(0, LOST, TAKEN, REFUSED, LOST), SITE, asks(7), task(2, RETRY), task(3, RETRY), task(25, RETRY), ["grants", 1]],
    *[steps(*LOST_AGAIN, "PROCESSING", *make(0, 1, 4, 2), *make(2, 13, 1, 3), "COMPLETED"), ["jobs", 13, 13]],
)

# ---- Turns


def turns_to_the_end(held_up=(), meanwhile=NOTHING):
    """The turns behind the first round, up to the second beyond COMPLETED: each records an event, but for so many before the one that records the end of a
    change."""
    expected = []
    for step in WHOLE[2:]:
        if held_up and step == forward(held_up[0], 1, "done", held_up[0] + 1):
            expected += [meanwhile] * held_up[1]
        expected.append(ACTED)
    return turns([*expected, NOTHING, NOTHING])


AT_THE_END = [steps(*WHOLE), ["jobs", 13, 13], ["grants", 1]]
run("with ample memory each turn records an act to the end", SITE, asks(1), *turns_to_the_end(), *AT_THE_END)
for n, looks in (0, 2), (0, 1), (5, 3), (12, 2), (9, 2):
    run(
        "a job at change %d that %d looks find running is waited for" % (n, looks),
        *[work(n, plan("looks", looks)), SITE, asks(1), *turns_to_the_end((n, looks), WAITED), *AT_THE_END],
    )


def blind_site(call):
    """The same site, of which this look or abort fails."""
    return [["blind", call], ["site", ""], INIT, ["door", ROUTER], ONBOARD, once(CREATE, CREATED[1]), ["base"]]


for look in range(1, 14):
    run(
        "look %d, which fails, is made again by the next turn" % look,
        *[*blind_site(look), asks(1), *turns_to_the_end((look - 1, 1), UNREACHED), *AT_THE_END, ["faults", 0, 1, 1, 0]],
    )
run(
    "a look that fails costs a round",
    *[*blind_site(3), asks(29), steps(*WHOLE[:-1]), rounds(1), ["status", 0], *AT_THE_END],
)
SECOND = [request("POST", INSTANCES, '{"vnfdId":"vnfd-1"}'), request("POST", INSTANCE % 2 + "/instantiate", SIMPLE)]
SECOND_COMPLETED = moved("COMPLETED", 2) + "\0"


def refused_steps(n):
    """The operation up to FAILED_TEMP, where the begin for this change was refused with code 9."""
    return troubled(n, [["broken", 9]], False, 0)


def rounds_refused(n):
    """The rounds up to there."""
    return acts_of(refused_steps(n), 1)


for state, acts in [
    ("FAILED_TEMP", []),
    ("ROLLED_BACK", [task(1, ROLLBACK), steps(*refused_steps(0), "ROLLING_BACK", "ROLLED_BACK")]),
    ("FAILED", [rounds(1, FAIL), steps(*refused_steps(0), "FAILED")]),
]:
    run(
        "an occurrence in %s is passed over, and the next one goes on" % state,
        *[work(0, REFUSED), SITE, asks(4), steps(*refused_steps(0)), *acts, ["keep", "PASSED"], work(0), ["site", "$PASSED"]],
        *[["turn", *NOTHING], ["calls", 0, 0, 0], ["faults", 0, 0, 0, 0], rounds(29, SECOND), ["status", 0]],
        *[["file end", SECOND_COMPLETED], ["jobs", 13, 13], *[["job", n, 2, n, 1, "forward"] for n in range(CHANGES)]],
    )
ASKED_FOR = [SITE, answers(INSTANTIATE, ACCEPTED)]
for title, acts, front, state in [
    ("with a graceful cancel, the grant is asked for", [answers(CANCEL, TAKEN_UP)], ["asked", "graceful"], "granted"),
    ("with a forceful cancel, it is ROLLED_BACK", [answers(ABORT, TAKEN_UP)], ["asked", "forceful"], "ROLLED_BACK"),
    (
        *["with a graceful cancel behind its grant, it is ROLLED_BACK", [["turn", *ACTED], answers(CANCEL, TAKEN_UP)]],
        *[["asked", "granted", "graceful"], "ROLLED_BACK"],
    ),
]:
    run("an occurrence in STARTING goes on: %s" % title, *ASKED_FOR, *acts, steps(*front), ["turn", *ACTED], steps(*front, state))
run(
    "a turn acts for each occurrence that is worked on",
    # (the first begins its second job before it looks at the first one)
    *[work(0, plan("looks", 2)), SITE, asks(2), rounds(1, SECOND), *turns([(2, 0, 0)] + [(1, 1, 0)] * 2 + [(2, 0, 0)] * 3)],
)

# ---- The calls on jobs, by their tags and what came of them

run(
    "the calls on jobs are those of the changes, in order: one is refused",
    *[work(1, REFUSED), SITE, asks(5), ["stands", 0, "1 0 1 forward, done r1"]],
    ["calls on jobs", "begin 1 0 1 forward: taken\nbegin 1 1 1 forward: refused 9\nlook 1 0 1 forward: done 1\n"],
)
run(
    "the calls on jobs are those of the changes, in order: a begin is lost",
    *[work(0, LOST), SITE, asks(6)],
    [
        "calls on jobs",
        "begin 1 0 1 forward: lost\nbegin 1 1 1 forward: taken\nlook 1 0 1 forward: absent\nlook 1 1 1 forward: done 1\n",
    ],
)
