"""What the modules that write runs have in common: the modules, their runs and the texts that they name, records, and journals that are opened.

A run is an array of its title and its acts, which the files of crates/lcm_cases/src say; tests/runs.py writes all of them, and tests/README.md says how.
"""
import cases
from cases import latin, u8, u32

NOW = 1_700_000_000_000


class Module:
    """A module: the texts that it names, its runs, and whether these are to go wrong."""

    def __init__(self, title, wrong=False):
        self.title, self.wrong, self.texts, self.runs = title, wrong, [], []


# The modules in their order. What is said here and in run_texts.py stands in the first, which has no run.
MODULES = [Module("run_texts")]


def begin(title, wrong=False):
    """Begins the module of this name, into which all runs and texts go that follow."""
    MODULES.append(Module(title, wrong))


def run(title, *acts):
    MODULES[-1].runs.append([title, *acts])


def let(title, text):
    """Names a text: the act that asks with it or compares with it may say `$` and the name in its place."""
    MODULES[-1].texts.append([title, text])
    return "$" + title


NAMED = {}
# The records of journals that runs begin with, by the names of their texts, for the model.
SITES = {}


def shared(title, text):
    """The name of this text, which stands in several runs: its first use names it, by this title and a number."""
    if text not in NAMED:
        NAMED[text] = let("%s_%d" % (title, len(NAMED) + 1), text)
    return NAMED[text]


def batch_front(size):
    """What stands before the bytes of a record of so many bytes that is the only one of its batch: the open gate, the length of the content, and its own."""
    return u8(1) + u32(size + 4) + u32(size)


def in_batch(*events):
    """A batch behind its open gate: the length of its content, and a record of each of these events, with its length."""
    content = b"".join(u32(len(it)) + it for it in events)
    return latin(u8(1) + u32(len(content)) + content)


def in_record(event):
    """A batch of one record."""
    return in_batch(event)


def record(kind, *fields, moment=NOW):
    """The record of an event of this kind, with its moment and its fields."""
    return in_record(cases.event(kind, *fields, moment=moment))


def refusal(line, detail, between=""):
    """The answer that refuses a request with this status line and this detail; between the length and the body stands what a connection ends with."""
    body = '{"detail":"%s","status":%s}' % (detail, line.split(" ", 1)[0])
    head = "HTTP/1.1 %s\r\nContent-Type: application/problem+json\r\nContent-Length: %d\r\n%s\r\n"
    return head % (line, len(body), between) + body


def showing_front(length):
    """The front of the answer that shows so many bytes."""
    return "HTTP/1.1 200 OK\r\nContent-Type: application/json\r\nContent-Length: %d\r\n\r\n" % length


def showing(body):
    """The answer that shows this."""
    return showing_front(len(body)) + body


def problem(title, line, detail, between=""):
    return let(title, refusal(line, detail, between))


def shows(title, body):
    return let(title, showing(body))


# What is said of an event that is read back, by the number of its kind.
HAPPENED = (
    *["", "onboarded", "created", "deleted", "asked", "grant tried", "granted", "denied", "intent", "call failed", "settled", "moved"],
    *["cancel asked", "subscribed", "unsubscribed", "posted"],
)


def told_back(event):
    """What is said of this event: what happened, to the one of which number, and when."""
    moment, number = (int.from_bytes(event[at : at + 8], "big") for at in (1, 9))
    return "%s %d at %d" % (HAPPENED[event[0]], number if event[0] != 1 else 0, moment)


SIZES = dict(STO_A=(10_000_000_000, 0), STO_B=(1_000_000_000, 0), VDU_A=(2_147_483_648, 2), VDU_B=(512_000_000, 1))


def does(place, verb, kind, template, vdu, serial, *on):
    """The job at this place, from 0, does this work at `vim1` on these resources."""
    size, cpus = SIZES.get(template, (0, 0))
    return ["does", place, " ".join([verb, kind, template, vdu, str(serial), "vim1", "", str(size), str(cpus), *on])]




def header(manager):
    """The first 32 bytes of a journal of this manager."""
    return b"VNFM-LCM" + u8(2) + u32(manager) + bytes(19)


HEADER = let("HEADER", latin(header(7)))


# ---- Journals of format 1, as it stood before batches: docs/JOURNAL.md, "Format 1"

def old_header(manager):
    """The first 32 bytes of a journal of format 1 of this manager."""
    return b"VNFM-LCM" + u8(1) + u32(manager) + bytes(19)


def in_old_record(event):
    """A record of format 1 behind its open gate: its length, and the bytes of the event."""
    return latin(u8(1) + u32(len(event)) + event)


OLD_HEADER = let("OLD_HEADER", latin(old_header(7)))
# The most bytes of a batch's content.
MOST = 131_072


def packed(*events):
    """Batches of these events: each goes into the one at hand where its content then has the most bytes or fewer, and else into a new one."""
    batches, size = [], MOST
    for event in events:
        if size + 4 + len(event) > MOST:
            batches.append([])
            size = 0
        batches[-1].append(event)
        size += 4 + len(event)
    return "".join(in_batch(*it) for it in batches)


# ---- Journals that are opened

UNOPENED = "unopened: site fault"
# The disk calls that open a journal of at most 65,536 bytes behind its header: a sync, the length, the header, and all behind it at once.
CALLS_TO_OPEN = 4


def with_records(*events):
    return ["site", [HEADER, *map(in_record, events), "\0"]]


def opens(events, text):
    return [with_records(*events), ["opened", text]]


def says(records, descriptors, instances, live):
    """What is said of a journal that was opened."""
    return "%d records, %d descriptors, %d instances, %d live" % (records, descriptors, instances, live)
