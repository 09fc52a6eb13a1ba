"""The runs of `migrate`: what it makes of a journal of format 1, which files it takes for the new one, what it refuses, and what a stop or a disk call
that fails leaves of both files.

The site is that of the old file, and the spare one that of the new one; `swap` lets them change places. What the old bytes mean and how records are
packed is docs/JOURNAL.md's to say ("Format 1", "Migration"); `packed` of run_parts.py packs them.
"""
import cases
import working
from run_operations import FIRST, events, shows_instance
from run_parts import MOST, in_old_record, old_header, packed
from run_texts import *
from runs_commands import CHECK, INIT, NOT_UNFINISHED, ONBOARD_IT, UNFINISHED, counted

begin(__name__)

MIGRATE = go("migrate", "--journal", "j", "--to", "k")
SWAP = ["swap"]


def migrates(count):
    """It migrates so many records, asks nobody, and leaves the old file."""
    return [MIGRATE, ["status", 0], ["printed", "migrated %d records\n" % count], ["told", ""], ["clock", 0], ["stays"]]


def comes_to(*texts):
    """The new file is this."""
    return [SWAP, ["file", list(texts)], SWAP]


def fails(status, line):
    """It ends so, and leaves the old file."""
    return [MIGRATE, ["status", status], ["printed", line], ["stays"]]


TAKEN = fails(11, "taken\n")

# ---- Whole journals

ROUTER_EVENTS = [working.spelled(it) for it in events(FIRST)]
OLD_ROUTER = let("OLD_ROUTER", [OLD_HEADER, *map(in_old_record, ROUTER_EVENTS), "\0"])
NEW_ROUTER = let("NEW_ROUTER", [HEADER, packed(*ROUTER_EVENTS), "\0"])
# A gate and a length less for each record, and five bytes for the one batch.
OLD_LENGTH = 32 + sum(5 + len(it) for it in ROUTER_EVENTS) + 1
NEW_LENGTH = 32 + 5 + sum(4 + len(it) for it in ROUTER_EVENTS) + 1
assert len(ROUTER_EVENTS) == 32 and OLD_LENGTH - NEW_LENGTH == 27 and packed(*ROUTER_EVENTS) == in_batch(*ROUTER_EVENTS)
run(
    "the journal of an instantiation is migrated to one that is shorter, with one batch, and only once",
    *[["site", OLD_ROUTER], ["file length", OLD_LENGTH], *migrates(32), ["file", OLD_ROUTER], ["calls", 0, 0, 0]],
    *[SWAP, ["file", NEW_ROUTER], ["file length", NEW_LENGTH], *counted(32, 1, 0, 0), SWAP],
    *[*TAKEN, *comes_to(NEW_ROUTER), SWAP, *counted(32, 1, 0, 0), shows_instance(FIRST)],
)
run(
    "a journal that was migrated is gone on with, record by record",
    *[["site", OLD_JOURNAL], *migrates(2), *comes_to(NEW_JOURNAL), SWAP, *counted(2, 1, 0, 0)],
    *[once(CREATE, CREATED[2]), ["grown", 42], ["file", [HEADER, packed(*EVENTS), CREATION[2], "\0"]], *counted(3, 2, 0, 0)],
    *[["door", DESCRIPTOR], go("onboard", "--journal", "j"), ["status", 10], ["printed", "descriptor refused: vnfdId is onboarded\n"], ["stays"]],
    # As the old file it is of the present format.
    *fails(5, "not a journal: byte 8\n"),
)
run(
    "a journal without a record is migrated to a made file",
    *[["site", [OLD_HEADER, "\0"]], *migrates(0), *comes_to(MADE), SWAP, *counted(0, 0, 0, 0)],
    *[act for gate in "\0\2\x7f\xff" for act in (["site", [OLD_HEADER, gate]], ["spare", ""], *migrates(0), *comes_to(MADE))],
)
run(
    "what stands behind the closed gate isn't migrated",
    *[
        act for behind in ("\0", "\2", "\0\1\0\0", ["\0", in_old_record(EVENTS[1])], ["\xff", in_old_record(EVENTS[0])])
        for act in (["site", [OLD_HEADER, *map(in_old_record, EVENTS), *behind]], ["spare", ""], *migrates(2), *comes_to(NEW_JOURNAL))
    ],
)
for manager in 0, 11, 4_294_967_295:
    old = latin(old_header(manager)) + "".join(map(in_old_record, EVENTS)) + "\0"
    run(
        "the new journal has the manager of the old one: %d" % manager,
        *[["site", old], *migrates(2), *comes_to(latin(header(manager)), packed(*EVENTS), "\0")],
        # What is unfinished for it is taken as such, and what is unfinished for another manager isn't.
        *[["spare", latin(b"\xa5" + header(manager)[1:])], *migrates(2), *comes_to(latin(header(manager)), packed(*EVENTS), "\0")],
        *[["spare", latin(b"\xa5" + header(7)[1:])], *TAKEN, *comes_to(latin(b"\xa5" + header(7)[1:]))],
    )
run(
    "a line of migrate that is not put changes nothing",
    *[["site", OLD_JOURNAL], ["sink", 1], MIGRATE, ["status", 7], ["printed", ""], ["stays"], *comes_to(NEW_JOURNAL)],
)
# A sync, the length and a read of the old header; of each record a read of its head and one of its bytes; and one of the closed gate.
run(
    "each byte of the old file is read once, and the new one is made with three writes",
    *[["site", OLD_ROUTER], *migrates(32), ["moment", 3 + 2 * 32 + 1], SWAP, ["moment", 3 + 6]],
    *[["site", OLD_JOURNAL], ["spare", "v and more"], *migrates(2), ["moment", 3 + 2 * 2 + 1], SWAP, ["moment", 3 + 2 + 6]],
)

# ---- How records are packed


def wide(identifier, size):
    """The onboarding of a descriptor, of so many bytes: of a machine with 251 ports, of which each has a name of 255 bytes, and a provider's name that
    takes what is left. It is a text of what stands before its ports, they, and what stands behind."""
    ports = 251

    def of(provider):
        return cases.onboarded(cases.descriptor(identifier, [cases.vdu("V")], levels=[cases.level("l")], names=("n" * provider, "", "", "")))

    each = cases.port("0" * 255, 0)
    event = of(size - len(of(0)) - ports * len(each))
    # Behind the number of ports stand the numbers of aspects and of levels, the level and the number of the default one.
    behind = 2 + 2 + len(cases.level("l")) + 2
    front = event[: -behind - 2] + u16(ports)
    assert len(front) + ports * len(each) + behind == size
    return [latin(front), {"from": 0, "to": ports, "of": [latin(each[:1]), {"digits": 255}, latin(each[256:])]}, latin(event[-behind:])]


def record_of(size, text):
    """A record of format 1 of so many bytes, which are this text."""
    return [latin(u8(1) + u32(size)), *text]


def batch_of(*records):
    """A batch of these records, each by its bytes and how many they are."""
    content = [it for size, text in records for it in (latin(u32(size)), *text)]
    return [latin(u8(1) + u32(sum(4 + size for size, _ in records))), *content]


LONGEST = 65_536
WIDEST = [LONGEST, wide("a", LONGEST)]


def of_two(last):
    """A journal of two onboardings, of which the first has the most bytes and the second so many."""
    return ["site", [OLD_HEADER, *record_of(*WIDEST), *record_of(last, wide("b", last)), "\0"]]


run(
    "records whose content has the most bytes are one batch, and with a byte more they are two",
    *[of_two(MOST - 8 - LONGEST), *migrates(2), *comes_to(HEADER, *batch_of(WIDEST, [MOST - 8 - LONGEST, wide("b", MOST - 8 - LONGEST)]), "\0")],
    *[SWAP, *counted(2, 0, 0, 0), of_two(MOST - 7 - LONGEST), ["spare", ""], *migrates(2)],
    *comes_to(HEADER, *batch_of(WIDEST), *batch_of([MOST - 7 - LONGEST, wide("b", MOST - 7 - LONGEST)]), "\0"),
    *[SWAP, *counted(2, 0, 0, 0)],
)
SMALL, SMALLER = ([len(it), [latin(it)]] for it in (cases.created(1, "a"), cases.deleted(1)))
OTHER = [LONGEST, wide("b", LONGEST)]
run(
    "a record goes into the batch at hand, and never into one before it",
    ["site", [OLD_HEADER, *[part for it in (WIDEST, SMALL, OTHER, SMALLER) for part in record_of(*it)], "\0"]],
    *[*migrates(4), *comes_to(HEADER, *batch_of(WIDEST, SMALL), *batch_of(OTHER, SMALLER), "\0"), SWAP, *counted(4, 0, 0, 0)],
)
# Thousands of records: cancels, which may be asked for as often as one likes. The old file is unfinished and long, so that there is room for the new one.
CANCEL, CANCELS = cases.cancel_asked(1, "FORCEFUL"), 13_000
SOME = [*EVENTS, cases.asked(1, cases.instantiate())]
FULL = MOST // (4 + len(CANCEL))
OF_FIRST = (MOST - sum(4 + len(it) for it in SOME)) // (4 + len(CANCEL))
LEFT = CANCELS - OF_FIRST - FULL


def cancels(count, front=()):
    """A batch of these events, and of so many cancels."""
    size = sum(4 + len(it) for it in front) + count * (4 + len(CANCEL))
    each = {"times": count, "of": latin(u32(len(CANCEL)) + CANCEL)}
    return [latin(u8(1) + u32(size) + b"".join(u32(len(it)) + it for it in front)), each]


assert 0 < LEFT < FULL
run(
    "a journal of thousands of records is migrated to three batches",
    ["site", [OLD_HEADER, *map(in_old_record, SOME), {"times": CANCELS, "of": in_old_record(CANCEL)}, "\0"]],
    *[["spare", ["v", {"times": 400_000, "of": "x"}]], *migrates(3 + CANCELS)],
    *comes_to(HEADER, *cancels(OF_FIRST, SOME), *cancels(FULL), *cancels(LEFT), "\0"),
    *[SWAP, *counted(3 + CANCELS, 1, 1, 0)],
)

# ---- Which file is taken for the new one

for title, file, is_cut in UNFINISHED:
    run(
        "what is unfinished is overwritten by a migration: %s" % title,
        *[["site", OLD_JOURNAL], ["spare", file], *migrates(2), SWAP, ["file", NEW_JOURNAL], ["moment", 3 + 2 * is_cut + 6], SWAP, *TAKEN],
        *comes_to(NEW_JOURNAL),
    )
for title, file in [*NOT_UNFINISHED, ("what was migrated before", NEW_JOURNAL), ("a journal of format 1", OLD_JOURNAL)]:
    # A sync, the length and a read of the new file.
    run(
        "what isn't unfinished is taken, and stays: %s" % title,
        *[["site", OLD_JOURNAL], ["spare", file], *TAKEN, SWAP, ["file", file], ["moment", 3], SWAP, ["sink", 1], MIGRATE, ["status", 11]],
        *[["stays"], *comes_to(file)],
    )

# ---- Which old file is refused


def refuses(status, line, *texts):
    """The old file is refused with this, and neither it nor the new one is changed; of the new one nothing is even asked, whatever it is."""
    each = [[["spare", file], *fails(status, line), SWAP, ["file", file], ["moment", 0], SWAP] for file in ("", "v", MADE, JOURNAL)]
    return [["site", list(texts)], *[act for acts in each for act in acts]]


# All that a made file of format 1 has behind its first byte.
REST = old_header(7)[1:] + b"\0"
run(
    "an old file that is unfinished is no journal",
    *[*refuses(5, "no journal\n", ""), *refuses(5, "no journal\n", "V"), *refuses(5, "no journal\n", "x"), *refuses(5, "no journal\n", "v and more")],
    *[*refuses(5, "no journal\n", latin(b"\xa5" + REST)), *refuses(5, "no journal\n", latin(b"\xa5" + REST + b"\1 and more"))],
    # Of a file whose first byte is another one, all of a made file without a record stands behind it, its closed gate too.
    *[*refuses(5, "not a journal: byte 0\n", latin(b"\xa5" + REST[:-1])), *refuses(5, "not a journal: byte 0\n", latin(b"\xa5" + REST[:-1] + b"\1"))],
)
run(
    "an old file of another format is none of format 1",
    *[*refuses(5, "not a journal: byte 8\n", MADE), *refuses(5, "not a journal: byte 8\n", JOURNAL), *refuses(5, "not a journal: byte 8\n", NEW_JOURNAL)],
    *[*refuses(5, "not a journal: byte 8\n", "VNFM-LCM\3"), *refuses(5, "not a journal: byte 0\n", latin(b"\xa5" + header(7)[1:] + b"\0"))],
    *[*refuses(5, "not a journal: byte 8\n", "VNFM-LCM"), *refuses(5, "not a journal: byte 31\n", latin(old_header(7)[:-1]))],
    *refuses(5, "not a journal: byte 0\n", "#!/bin/sh\n"),
)
for place in range(32):
    changed_file = latin(old_header(7)[:place] + u8(99) + old_header(7)[place + 1 :] + b"\0")
    if 9 <= place <= 12:
        number = bytearray(header(7))
        number[place] = 99
        run("byte %d of an old journal is its manager's" % place, ["site", changed_file], *migrates(0), *comes_to(latin(bytes(number)), "\0"))
    else:
        line = "no journal\n" if place == 0 else "not a journal: byte %d\n" % place
        run("an old journal with another byte %d is none" % place, *refuses(5, line, changed_file))
ONE, TWO = map(in_old_record, EVENTS)
run(
    "an old journal that is broken is refused at its first record that is none",
    *[*refuses(8, "bad record 1\n", OLD_HEADER), *refuses(8, "bad record 1\n", OLD_HEADER, "\1"), *refuses(8, "bad record 1\n", OLD_HEADER, "\1\0\0\0")],
    # A record of no byte, one of 65,537, one that the file ends in, and no gate behind it.
    *[*refuses(8, "bad record 1\n", OLD_HEADER, "\1\0\0\0\0\0"), *refuses(8, "bad record 1\n", OLD_HEADER, "\1\0\1\0\1", {"times": 65_537, "of": "x"}, "\0")],
    *[*refuses(8, "bad record 1\n", OLD_HEADER, "\1\0\0\0\x09\2"), *refuses(8, "bad record 1\n", OLD_HEADER, ONE[:-1])],
    *[*refuses(8, "bad record 2\n", OLD_HEADER, ONE), *refuses(8, "bad record 2\n", OLD_HEADER, ONE, TWO[:-1]), *refuses(8, "bad record 3\n", OLD_HEADER, ONE, TWO)],
    # One that isn't allowed is told only of a file that is whole.
    *[*refuses(8, "bad record 2\n", OLD_HEADER, ONE, ONE, "\0"), *refuses(8, "bad record 3\n", OLD_HEADER, ONE, ONE)],
)
run(
    "an old journal with a record that is no event, or isn't allowed, is refused",
    *refuses(8, "bad record 1\n", OLD_HEADER, in_old_record(b"\x09"), "\0"),
    *refuses(8, "bad record 1\n", OLD_HEADER, TWO, "\0"),
    *refuses(8, "bad record 2\n", OLD_HEADER, ONE, in_old_record(EVENTS[1] + b"\0"), "\0"),
    *refuses(8, "bad record 3\n", OLD_HEADER, ONE, TWO, TWO, "\0"),
    # The first of them is told.
    *refuses(8, "bad record 2\n", OLD_HEADER, ONE, ONE, TWO, TWO, "\0"),
)
LONG = [latin(u8(1) + u32(LONGEST)), {"times": LONGEST, "of": "\2"}]
run("a record of format 1 has 65,536 bytes, and one of as many that is no event is told", *refuses(8, "bad record 1\n", OLD_HEADER, *LONG, "\0"))
run(
    "each command that opens a journal refuses one of format 1, and leaves it as it is",
    *[
        act for commands in ([once(CREATE)], ONBOARD_IT, [CHECK])
        for act in (["site", OLD_ROUTER], *commands, ["status", 5], ["printed", "not a journal: byte 8\n"], ["stays"], ["file", OLD_ROUTER])
    ],
    *[["site", OLD_ROUTER], INIT, ["status", 11], ["printed", "taken\n"], ["stays"]],
)

# ---- Stops, and disk calls that fail

WHERE = [("an empty file", "", 0), ("a file of another byte", "x", 0), ("a file that begins with v", "v and more", 2)]
WHERE += [("a header with another first byte", latin(b"\xa5" + header(7)[1:]), 2)]
JOURNALS_OF_TWO = [("of two records", OLD_JOURNAL, NEW_JOURNAL, 2), ("of an instantiation", OLD_ROUTER, NEW_ROUTER, 32)]


def again(old, new, *ends):
    """The old file is migrated once more, which ends so, and what it was is there."""
    return [["site", old], MIGRATE, *ends, ["stays"], SWAP, ["file", new]]


for title, old, new, count in JOURNALS_OF_TWO:
    for what, file, cuts in WHERE:
        # The calls on the new file behind its length and its header: those of the cut, and then three writes, each with its sync. The last is that of
        # its first byte, which stands once it was synced, or, where what isn't synced is left, once it was written.
        last = cuts + 6
        migrated = [["site", old], ["spare", file], *migrates(count)]
        run(
            "a stop in a migration leaves a file that is migrated to by the next one: a journal %s, to %s" % (title, what),
            *[*migrated, SWAP, ["life", [], []]],
            *[
                [
                    *["each stop", choice, ["at first", ["file", file]], ["at calls", made, last, ["file", new]], SWAP],
                    *again(old, new, ["unopened", ["status", 0]], ["at calls", 0, made - 1, ["status", 0]], ["at calls", made, last, ["status", 11]]),
                    *counted(count, 1, 0, 0),
                ]
                for choice, made in (("old", last), ("new", last - 1), ("torn", last))
            ],
        )
        run(
            "each disk call on the new file that fails ends a migration, and the next one leaves it made: a journal %s, to %s" % (title, what),
            *[*migrated, SWAP, ["life", [], []]],
            [
                *["each fault", ["spare", file], ["no fault"], ["site", old], MIGRATE, ["fallen"], ["stays"], ["faults", 0, 0, 0, 0]],
                *[SWAP, ["faults", 1, 0, 0, 0], ["unopened", ["file", file]], ["keep", "LEFT"], ["spare", "$LEFT"]],
                # Where the last sync alone failed, the file is read as made.
                *again(old, new, ["unopened", ["status", 0]], ["at calls", 0, last - 2, ["status", 0]], ["at calls", last - 1, last - 1, ["status", 11]]),
                *counted(count, 1, 0, 0),
            ],
        )
    run(
        "a stop while the old file is read leaves both as they were: a journal %s" % title,
        *[["site", old], *migrates(count), ["life", [], []]],
        *[["each stop", choice, ["file", old], ["spare", "v"], *migrates(count), SWAP, ["file", new]] for choice in CHOICES],
    )
    run(
        "each disk call on the old file that fails leaves both as they were: a journal %s" % title,
        *[["site", old], *migrates(count), ["life", [], []]],
        [
            *["each fault", ["site", old], ["no fault"], ["spare", "v"], MIGRATE, ["fallen"], ["stays"], ["faults", 1, 0, 0, 0]],
            *[SWAP, ["file", "v"], ["moment", 0], SWAP, *migrates(count), SWAP, ["file", new]],
        ],
    )
run(
    "a stop or a disk call that fails in a migration to a file that is taken leaves that",
    *[["site", OLD_JOURNAL], ["spare", JOURNAL], *TAKEN, SWAP, ["life", [], []]],
    *[["each stop", choice, ["file", JOURNAL], SWAP, *again(OLD_JOURNAL, JOURNAL, ["status", 11])] for choice in CHOICES],
    ["each fault", ["spare", JOURNAL], ["no fault"], ["site", OLD_JOURNAL], MIGRATE, ["fallen"], ["stays"], SWAP, ["file", JOURNAL]],
)
# The write of all behind the first byte would go past the room.
run(
    "a migration to a file without room for the new journal fails, and is made again",
    *[["site", [OLD_HEADER, *map(in_old_record, SOME), {"times": CANCELS, "of": in_old_record(CANCEL)}, "\0"]], ["spare", "v"], MIGRATE],
    *[["status", 3], ["printed", "site fault\n"], ["stays"], SWAP, ["faults", 1, 0, 0, 0], ["file", "v"], SWAP],
    *[["spare", ["v", {"times": 400_000, "of": "x"}]], *migrates(3 + CANCELS)],
)
