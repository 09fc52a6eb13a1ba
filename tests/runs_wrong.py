"""The runs that are to go wrong, one for each kind of difference: what is told of each stands in crates/lcm_cases/stdout, written by hand."""
from run_texts import *
from runs_forward import SITE
from runs_notices import FIRST_SUBSCRIBED, WAS_CREATED, journal_with, post_of

begin(__name__, wrong=True)

# A reply, by its first line that differs; a command's end, by its status and what it printed.
run("to go wrong: a reply", ["site", JOURNAL], once(CREATE, CREATED[2]))
run("to go wrong: a status", ["site", ""], go("init", "--manager", "7", "--journal", "j"), ["status", 3, 5])
run("to go wrong: a text that is nowhere", ["site", ""], ["once"], ["told part", "HTTP"])

# A journal, by the first record that differs: its event's fields, or that there is none.
run("to go wrong: a record", ["site", JOURNAL], once(CREATE, CREATED[1]), ["file", [HEADER, ONBOARDED, CREATION[2], "\0"]])
run("to go wrong: a record too few", ["site", JOURNAL], once(CREATE, CREATED[1]), ["file", JOURNALS[2]])

# Jobs, by their tags and how they stand; numbers, all of an act. Five rounds begin two jobs and look at the first; no look has found the second done.
FIVE = [SITE, asks(5)]
run("to go wrong: a job", *FIVE, ["job", 1, 1, 2, 1, "forward"])
run("to go wrong: how a job stands", *FIVE, ["stands", 0, "1 0 1 forward, done r1"], ["stands", 1, "1 1 1 forward, broken 7"])
run("to go wrong: a job that isn't done", *FIVE, ["done jobs", 0, 1])
run("to go wrong: a job that isn't there", *FIVE, ["job", 2, 1, 2, 1, "forward"])
run("to go wrong: numbers", *FIVE, ["jobs", 2, 2])
run("to go wrong: calls on jobs", *FIVE, ["calls on jobs", "begin 1 0 1 forward: taken\nbegin 1 1 1 forward: taken\nlook 1 0 1 forward: running\n"])

# What is posted, by its first line that differs; the place of a notice that waits.
TOLD = journal_with(FIRST_SUBSCRIBED, CREATION[1])
run("to go wrong: a post", TOLD, ["deliveries", "1 0"], ["posted", post_of(1, 3, WAS_CREATED, status=500)])
run("to go wrong: a notice that waits", TOLD, ["waits", 1, 4])

# Acts within acts, by the first stop or front, with the number of the others. Behind the four calls that open the journal, four records are four
# calls each, and then a job is begun: of the moments 0 to 21 only the last has it.
run(
    "to go wrong: the job at each stop but the last",
    *[SITE, asks(3), life([], [*made(0), forward(0, 1, "intent")]), ["each stop", "old", ["left"], ["job count", 1]]],
)
run("to go wrong: one front of two", ["each front", "FRONT", "ab", ["site", "$FRONT"], ["file", "a"]])

# An act that isn't spelled as one.
run("to go wrong: no act", ["site", JOURNAL], ["onc", CREATE])
