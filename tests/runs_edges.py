"""The runs that start the program over a file and streams in memory, of whose calls some go wrong."""
import cases
from cases import latin, name, u8, u32, u64
from run_parts import NOW, batch_front, begin, header, packed, run
from run_texts import EVENTS

begin(__name__)

USAGE = "usage: vnfm init|onboard|once|serve|check|trial|migrate\n"
INIT = ["init", "--journal", "j", "--manager", "7"]
ONBOARD = ["onboard", "--journal", "j"]
ONCE = ["once", "--journal", "j"]
CHECK = ["check", "--journal", "j"]
IS_MADE = "journal made for manager 7\n"
IS_ONBOARDED = "onboarded vnfd-1: 0 vdus, 0 aspects, 1 levels\n"
DONE = "done after 1 rounds\n"
NO_MEMORY = "no memory\nvnfm: there was no memory\n"
TAKEN = "vnfm: \"j\": it is a journal already, or no file of this program's; give another path, or move it away\n"
NO_LINE = "vnfm: the last line couldn't be written\n"
NO_JOURNAL = (
    'vnfm: "j": it is not a journal that init has finished; one of format 1, whose header differs first at byte 8, is carried over by vnfm migrate '
    "--journal PATH --to NEWPATH\n"
)
UNDELIVERED = "vnfm: the answer couldn't be delivered; what it says is recorded\n"
NO_REQUEST = "vnfm: standard input had no request\n"
MADE, JOURNAL, JOURNAL_1, DESCRIPTOR = "$MADE", "$JOURNAL", "$JOURNAL_1", "$DESCRIPTOR"
CREATE, CREATED, FAULT = "$CREATE", "$CREATED_1", "$FAULT"
CREATION = cases.event(2, u64(1), name("vnfd-1"), u8(1), name("edge-1"), u8(0), moment=NOW)
# The journal behind an append whose first sync failed: the record stands behind a gate that is closed.
UNSAFE = ["$HEADER", "$ONBOARDED", latin(u8(0) + batch_front(len(CREATION))[1:] + CREATION + u8(0))]
# The file of a migration that has all but its first byte.
UNFINISHED = ["v", latin(header(7)[1:]), packed(*EVENTS), "\0"]
WHOLE = 1_000_000


def starts(words, status, printed, errors, made=0, word="start", **plan):
    return [word, words, status, printed, errors, made, *([{name.replace("_", " "): it for name, it in plan.items()}] if plan else [])]


def wrong(call, kind="Other", first=1, last=None, piece=WHOLE):
    """The calls of this name from the first to the last go wrong so."""
    return [piece, call, first, last or first, kind]


UNREAD = "standard input couldn't be read any further"


def unanswered(count, why):
    return "vnfm: requests answered: %d; %s\n" % (count, why)


def site_fault(words, why, made=0, **plan):
    """A disk call fails. `once` tells its line on standard error, the others on standard output."""
    reason = 'vnfm: "j": %s\n' % why
    printed, errors = ("", "site fault\n" + reason) if words == ONCE else ("site fault\n", reason)
    return starts(words, 3, printed, errors, made, **plan)


# ---- What is opened and made

run("a page opens nothing", starts(["--version"], 0, "vnfm 0.1.0\n", ""))
run("init makes its file and says so", starts(INIT, 0, IS_MADE, "", 1, left=MADE))
run(
    "a surplus word opens nothing",
    starts([*INIT, "8"], 2, USAGE, "vnfm: \"8\" isn't understood; vnfm --help says more\n"),
)
run(
    "once is told on standard error",
    starts(ONCE, 5, "", "no journal\n" + NO_JOURNAL, 1, left=""),
)
run("no room for a mouth is told as out of memory", starts(ONCE, 6, "", NO_MEMORY, word="start without a mouth"))
run(
    "what is written is read back by the next command",
    starts(INIT, 0, IS_MADE, "", 1, left=MADE),
    starts(ONBOARD, 0, IS_ONBOARDED, "", file=MADE, input=DESCRIPTOR, left=JOURNAL),
    starts(ONCE, 0, "", DONE, file=JOURNAL, input=CREATE, told=CREATED, left=JOURNAL_1),
    starts(ONCE, 0, "", DONE + NO_REQUEST, file=JOURNAL_1, left=JOURNAL_1),
    starts(INIT, 11, "taken\n", TAKEN, file=JOURNAL_1, left=JOURNAL_1),
)

# ---- A file that can't be had

DISK, NO_FOLDER = "a call on it failed; if its disk did, the kernel's log says how", "there is no such folder"
NOT_PERMITTED, NOT_A_FILE = "there is no permission to read and write it", "it is not a regular file"
LOCKED = "another manager holds its lock"
NO_SPACE = "its file system has no space left, or no inode"
CAUSES = [("PermissionDenied", NOT_PERMITTED), ("ReadOnlyFilesystem", "its file system is read-only"), ("NotADirectory", NO_FOLDER)]
CAUSES += [("IsADirectory", NOT_A_FILE), ("WouldBlock", LOCKED), ("Other", DISK), ("StorageFull", NO_SPACE)]
CAUSES += [("AlreadyExists", "it is a symbolic link to nothing, or was made just now by another")]
CAUSES += [("FilesystemLoop", "its symbolic links form a loop, or are too many"), ("QuotaExceeded", "the quota on its file system is used up")]
CAUSES += [("InvalidFilename", "a name in the path, or all of it, is too long"), ("FileTooLarge", "it would be larger than a file may be")]
for kind, why in CAUSES:
    run(
        "why a file can't be had is told by the fault: %s" % kind,
        *[site_fault(ONCE, why, file=JOURNAL, wrong=wrong(call, kind)) for call in ("open", "kind", "lock", "pages")],
        *[site_fault(INIT, why, file="", wrong=wrong(call, kind)) for call in ("open", "folder", "kind", "lock", "pages")],
        *[site_fault(ONCE, why, wrong=wrong("create", kind)), site_fault(ONCE, why, 1, wrong=wrong("folder", kind))],
    )
run(
    "a file can't be made where there is no folder",
    *[site_fault(words, NO_FOLDER, wrong=wrong("create", "NotFound")) for words in (INIT, ONBOARD, ONCE, CHECK)],
)
run(
    "check is told on standard output, and leaves the file",
    starts(CHECK, 0, "records 1, instances 0, ongoing 0, subscriptions 0\n", "", file=JOURNAL, input=CREATE, left=JOURNAL),
    starts(CHECK, 5, "no journal\n", NO_JOURNAL, 1, left=""),
    starts(CHECK, 0, "records 0, instances 0, ongoing 0, subscriptions 0\n", "", file=MADE, left=MADE),
    site_fault(CHECK, LOCKED, file=JOURNAL, wrong=wrong("lock", "WouldBlock")),
    *[site_fault(CHECK, DISK, file=JOURNAL, left=JOURNAL, wrong=wrong(call)) for call in ("length", "read", "sync")],
)
run("what is no regular file can't be had", site_fault(ONCE, NOT_A_FILE, file=JOURNAL, wrong=wrong("regular")))
run(
    "the folder is synced each time by init alone",
    starts(INIT, 0, IS_MADE, "", file="", left=MADE),
    starts(ONCE, 0, "", DONE + NO_REQUEST, file=JOURNAL, left=JOURNAL, wrong=wrong("folder")),
    starts(ONBOARD, 0, IS_ONBOARDED, "", file=MADE, input=DESCRIPTOR, left=JOURNAL, wrong=wrong("folder")),
)
run(
    "out of memory as a file is opened is told as that",
    *[starts(ONCE, 6, "", NO_MEMORY, file=JOURNAL, wrong=wrong(call, "OutOfMemory")) for call in ("open", "kind", "lock", "pages")],
    *[starts(ONCE, 6, "", NO_MEMORY, wrong=wrong("create", "OutOfMemory")), starts(ONCE, 6, "", NO_MEMORY, 1, wrong=wrong("folder", "OutOfMemory"))],
    starts(INIT, 6, "", NO_MEMORY, file="", wrong=wrong("folder", "OutOfMemory")),
)

# ---- Calls that go wrong behind that

run(
    "each disk call that fails is told: on a journal",
    *[site_fault(ONCE, DISK, file=JOURNAL, input=CREATE, left=JOURNAL, wrong=wrong(call)) for call in ("length", "read", "sync")],
    site_fault(ONCE, DISK, file=JOURNAL, input=CREATE, told=FAULT, left=JOURNAL, wrong=wrong("write")),
    site_fault(ONBOARD, DISK, file=MADE, input=DESCRIPTOR, left=MADE, wrong=wrong("write")),
    # The first sync is the loading's, the second the record's.
    site_fault(ONCE, DISK, file=JOURNAL, input=CREATE, told=FAULT, left=UNSAFE, wrong=wrong("sync", first=2)),
)
for kind, why in CAUSES:
    run(
        "why a disk call failed is told by the fault: %s" % kind,
        *[site_fault(ONCE, why, file=JOURNAL, input=CREATE, left=JOURNAL, wrong=wrong(call, kind)) for call in ("length", "read", "sync")],
        site_fault(ONCE, why, file=JOURNAL, input=CREATE, told=FAULT, left=JOURNAL, wrong=wrong("write", kind)),
        site_fault(INIT, why, file="", left="", wrong=wrong("write", kind)),
    )
run(
    "an empty path is told as that",
    *[
        starts([*words, "--journal", "", *more], 3, printed, errors + 'vnfm: "": the path is empty\n', wrong=wrong("create", "NotFound"))
        for words, more, printed, errors in [(["init"], ["--manager", "7"], "site fault\n", ""), (["once"], [], "", "site fault\n")]
    ],
)
run(
    "each disk call that fails is told: as a file is made",
    *[site_fault(INIT, DISK, file="", left="", wrong=wrong(call)) for call in ("length", "sync", "write")],
    site_fault(INIT, DISK, file=MADE, left=MADE, wrong=wrong("read")),
)
for piece in 1, 7, WHOLE:
    run(
        "streams go on behind short and interrupted calls, in pieces of %d" % piece,
        *[
            starts(ONCE, 0, "", DONE, file=JOURNAL, input=CREATE, told=CREATED, left=JOURNAL_1, wrong=wrong(call, "Interrupted", *calls, piece))
            for call, calls in [("regular", (0, 0)), ("receive", (1, 2)), ("receive", (2, 4)), ("send", (1, 3)), ("send", (2, 2))]
        ],
        starts(ONBOARD, 0, IS_ONBOARDED, "", file=MADE, input=DESCRIPTOR, left=JOURNAL, wrong=wrong("receive", "Interrupted", 1, 3, piece)),
    )
run(
    "a read that fails ends the connection",
    *[starts(ONCE, 0, "", DONE + unanswered(0, UNREAD), file=JOURNAL, input=CREATE, left=JOURNAL, wrong=wrong("receive", "Other", n, n, 20)) for n in (1, 3)],
    # Two reads of 100 bytes give the first request and a part of the second.
    starts(
        *[ONCE, 0, "", DONE + unanswered(1, UNREAD)],
        **dict(file=JOURNAL, input=[CREATE, CREATE], told=CREATED, left=JOURNAL_1, wrong=wrong("receive", "Other", 3, 3, 100)),
    ),
    *[
        starts(ONBOARD, 4, "door fault\n", "vnfm: standard input couldn't be read\n", file=MADE, input=DESCRIPTOR, left=MADE, wrong=it)
        for it in (wrong("receive"), wrong("receive", "Other", 2, 2, 20))
    ],
)

# ---- Two files, of which the second is that at the path `new`

MIGRATE = ["migrate", "--journal", "j", "--to", "new"]
OLD, NEW, IS_MIGRATED = "$OLD_JOURNAL", "$NEW_JOURNAL", "migrated 2 records\n"
NOT_OLD = 'vnfm: "j": no journal of format 1 stands there\n'


def loses(path, why, made=0, **plan):
    """A call on the file at this path fails, which is told on standard error."""
    return starts(MIGRATE, 3, "site fault\n", 'vnfm: "%s": %s\n' % (path, why), made, **plan)


run(
    "migrate makes its file and says so, and what it made is a journal",
    starts(MIGRATE, 0, IS_MIGRATED, "", 1, file=OLD, left=OLD, new_left=NEW),
    starts(MIGRATE, 0, IS_MIGRATED, "", file=OLD, new="v and more", input=CREATE, left=OLD, new_left=NEW),
    starts(["check", "--journal", "new"], 0, "records 2, instances 1, ongoing 0, subscriptions 0\n", "", new=NEW, left=NEW),
    starts(
        *[MIGRATE, 11, "taken\n", 'vnfm: "new": it is not an unfinished journal of the same manager; give another path, or move it away\n'],
        **dict(file=OLD, new=NEW, left=OLD, new_left=NEW),
    ),
    starts(MIGRATE, 7, "migrated ", NO_LINE, 1, file=OLD, left=OLD, new_left=NEW, wrong=wrong("print", piece=9)),
)
run(
    "migrate makes the file at the new path before it reads the old one",
    starts(MIGRATE, 5, "not a journal: byte 8\n", NOT_OLD, 1, file=NEW, left=NEW, new_left=""),
    starts(MIGRATE, 5, "no journal\n", NOT_OLD, 2, left="", new_left=""),
    starts(
        *[MIGRATE, 8, "bad record 1\n", 'vnfm: "j": it has a record that is broken or isn\'t allowed there\n', 1],
        **dict(file="$OLD_HEADER", left="$OLD_HEADER", new_left=""),
    ),
    # It is made by no other command, and by no words that are no command.
    starts(CHECK, 5, "not a journal: byte 8\n", NO_JOURNAL, file=OLD, left=OLD),
    starts(MIGRATE[:3], 2, USAGE, "vnfm: --to PATH is missing; vnfm --help says more\n"),
)
for kind, why in CAUSES:
    run(
        "of two files that can't be had the old one is told: %s" % kind,
        # The first of these calls is on the old file, and the second on the new one.
        *[loses("j", why, file=OLD, new="", new_left="", wrong=wrong(call, kind)) for call in ("open", "kind", "lock", "pages")],
        *[loses("new", why, file=OLD, new="", left=OLD, wrong=wrong(call, kind, 2)) for call in ("open", "kind", "lock", "pages")],
        *[loses("j", why, file=OLD, new="", wrong=wrong(call, kind, 1, 2)) for call in ("open", "kind", "lock", "pages")],
        # Of an old file that is there the folder isn't synced, and of the new one it is each time.
        *[loses("new", why, file=OLD, new="", left=OLD, wrong=wrong("folder", kind)), loses("new", why, 1, file=OLD, left=OLD, wrong=wrong("folder", kind))],
        loses("new", why, file=OLD, left=OLD, wrong=wrong("create", kind)),
        # An old file that is no journal is told before the new one that is lost.
        starts(MIGRATE, 5, "not a journal: byte 8\n", NOT_OLD, file=MADE, new="", left=MADE, wrong=wrong("lock", kind, 2)),
    )
    run(
        "why a disk call of a migration failed is told of the file that it was on: %s" % kind,
        # (the first length and the first read of the new file, which no run asked for, would fail as what is left is looked at)
        *[loses("j", why, file=OLD, new="v", left=OLD, wrong=wrong(call, kind)) for call in ("length", "read")],
        loses("j", why, file=OLD, new="v", left=OLD, new_left="v", wrong=wrong("sync", kind)),
        # The old file is synced once, and never written.
        *[loses("new", why, file=OLD, new="", left=OLD, new_left=left, wrong=wrong("write", kind, n)) for n, left in ((1, ""), (2, "v"), (3, UNFINISHED))],
        *[loses("new", why, file=OLD, new="", left=OLD, new_left=left, wrong=wrong("sync", kind, n)) for n, left in ((2, "v"), (3, UNFINISHED), (4, NEW))],
    )
run(
    "out of memory as the new file is opened is told as that",
    *[starts(MIGRATE, 6, "", NO_MEMORY, file=OLD, new="", left=OLD, wrong=wrong(call, "OutOfMemory", 2)) for call in ("open", "kind", "lock", "pages")],
    starts(MIGRATE, 6, "", NO_MEMORY, 1, file=OLD, left=OLD, wrong=wrong("folder", "OutOfMemory")),
)

# ---- Bytes that get no answer, or a refusal that isn't to a request

for count, front, told, left in (0, [], "", JOURNAL), (1, [CREATE], CREATED, JOURNAL_1):
    run(
        "bytes that are no request are told of behind %d" % count,
        *[
            starts(ONCE, 0, "", DONE + unanswered(count, why), file=JOURNAL, input=[*front, bad], told=[told, answer], left=left)
            for bad, why, answer in [
                ("POST / HTTP/1.1\r\nContent-Length: +5\r\n\r\nhello", "the bytes that are left are no request", "$MALFORMED"),
                ("GET / HTTP/1.1\r\n" + "a: b\r\n" * 65 + "\r\n", "the bytes that are left are a request beyond a limit", "$TOO_LARGE"),
                ("GET / HTTP/1.1\r\nHost: a\r\n", "the bytes that are left end inside a request", ""),
                ("POST / HTTP/1.1\r\nContent-Length: 2\r\n\r\n{", "the bytes that are left end inside a request", ""),
            ]
        ],
    )
run(
    "where nothing is listened for, nothing is told of",
    starts([*ONCE, "--rounds", "0"], 0, "", "done after 0 rounds\n", file=JOURNAL, input="GET", left=JOURNAL),
    starts([*ONCE, "--rounds", "3"], 0, "", "done after 3 rounds\n" + NO_REQUEST, file=JOURNAL, left=JOURNAL),
    starts([*ONCE, "--rounds", "3"], 0, "", "done after 3 rounds\n", file=JOURNAL, input=CREATE, told=CREATED, left=JOURNAL_1),
)

run(
    "an answer that is not delivered is told",
    *[
        starts(ONCE, 0, "", DONE + UNDELIVERED, file=JOURNAL, input=CREATE, told=told, left=JOURNAL_1, wrong=it)
        for told, it in [
            *[("", wrong("send")), ("HTTP/1.1 201", wrong("send", "Other", 2, 2, 12))],
            # A write that takes nothing is one that fails.
            ("", wrong("regular", first=0, piece=0)),
        ]
    ],
)
run(
    "a line that is cut short is not put",
    starts(INIT, 7, "journal m", NO_LINE, 1, left=MADE, wrong=wrong("print", piece=9)),
    starts(CHECK, 7, "records 1", NO_LINE, file=JOURNAL, left=JOURNAL, wrong=wrong("print", piece=9)),
    starts(ONCE, 7, "", "done" + NO_LINE, file=JOURNAL, left=JOURNAL, wrong=wrong("tell", piece=4)),
    starts(ONCE, 5, "", 'no journal\nvnfm: "j', 1, left="", wrong=wrong("tell", first=2, piece=8)),
    starts(["--version"], 7, "vnfm", "", wrong=wrong("print", piece=4)),
    starts(["never"], 2, USAGE, "vnfm", wrong=wrong("tell", piece=4)),
)
