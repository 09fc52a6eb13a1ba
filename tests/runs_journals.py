"""The runs over journals that are opened as they stand: whole, broken, or no journals; and over records that are read back.

What a file's bytes mean is docs/JOURNAL.md's to say.
"""
import itertools

import cases
from cases import latin, u32
from run_parts import CALLS_TO_OPEN, HEADER, MOST, NOW, UNOPENED, begin, in_batch, in_record, let, opens, run, says, told_back, with_records

D, OTHER = "d", "e"
D_ONBOARDED, D_CREATED = cases.onboarded(cases.descriptor(D, levels=[cases.level("l")])), cases.created(1, D)
D_GONE, NEVER_ASKED, NO_EVENT = cases.deleted(1), cases.denied(1), b"\0"
# A record, and all of it but its gate.
FIRST = in_record(D_ONBOARDED)
REST = FIRST[1:]
GATES = "\0\2\x7f\xff"


def behind_header(told, *text):
    return [["site", [HEADER, *text]], ["opened", told]]


def refused(data, line):
    """Each command but `init` ends with status 5, and says this of a file of these bytes."""
    site = ["site", latin(data)]
    commands = [["once"]], [["door", "$DESCRIPTOR"], ["go", "onboard", "--journal", "j"]], [["go", "check", "--journal", "j"]]
    return [act for command in commands for act in [site, *command, ["status", 5], ["printed", line], ["stays"]]]


def write():
    run(
        "each record is allowed after those before it",
        ["no fault"],
        *opens([], "0 records, 0 descriptors, 0 instances, 0 live"),
        *opens([D_ONBOARDED, D_CREATED], "2 records, 1 descriptors, 1 instances, 1 live"),
        *opens([D_ONBOARDED, D_CREATED, D_GONE], "3 records, 1 descriptors, 1 instances, 0 live"),
        *opens([D_CREATED], "bad record 1"),
        *opens([D_ONBOARDED, D_ONBOARDED], "bad record 2"),
        *opens([D_ONBOARDED, D_CREATED, D_CREATED], "bad record 3"),
        *opens([D_ONBOARDED, NEVER_ASKED, D_CREATED], "bad record 2"),
        *opens([D_ONBOARDED, NO_EVENT], "bad record 2"),
    )
    run(
        "a manager answers from its history",
        *[["no fault"], with_records(D_ONBOARDED, D_CREATED, D_GONE), ["descriptor", D, True], ["descriptor", OTHER, False]],
    )
    # A gate is open where its byte is 1, and the first that is closed ends the journal.
    run(
        "files are whole or refused at the first fault",
        ["no fault"],
        *behind_header("bad record 1", ""),
        *[act for gate in GATES for act in behind_header(says(0, 0, 0, 0), gate)],
        *behind_header(says(0, 0, 0, 0), "\2" + REST + "\1"),
        *[act for gate in GATES for act in behind_header(says(1, 1, 0, 0), FIRST + gate + "\1")],
        *behind_header(says(1, 1, 0, 0), FIRST + "\0" + FIRST),
        *behind_header("bad record 1", "\1\0\0\0\0\0"),
        *behind_header("bad record 1", "\1\0\0\0"),
        *behind_header("bad record 1", "\1\0\0\0\x05"),
        *behind_header("bad record 1", FIRST[:-1]),
        *behind_header("bad record 2", FIRST),
        *behind_header("bad record 2", FIRST + "\1"),
        *behind_header("bad record 2", FIRST + "\1\0\0\0"),
        *behind_header("bad record 2", FIRST + "\1\0\0\0\x06\0\0\0\2\1"),
        *behind_header("bad record 2", FIRST + "\1\0\0\0\0\0"),
        # (a record that isn't allowed is told only of a file that is whole)
        *behind_header("bad record 2", FIRST + FIRST + "\0"),
        *behind_header("bad record 3", FIRST + FIRST),
    )
    run(
        "files without a header are unmade or foreign",
        *refused(b"", "no journal\n"),
        *refused(b"V", "no journal\n"),
        *refused(b"v and more", "no journal\n"),
        # All of a header but its first byte, of whichever manager: what stands behind it has no meaning.
        *[act for more in (b"", b"\0", b"\1", b"\xff and more") for act in refused(b"\xa5NFM-LCM\x02\0\0\0\x09" + bytes(19) + more, "no journal\n")],
        *refused(b"\xa5NFM-LCM\x02\0\0\0\x09" + bytes(18), "not a journal: byte 0\n"),
        *refused(b"\xa5NFM-LCM\x02\0\0\0\x09" + bytes(18) + b"\1", "not a journal: byte 0\n"),
        *refused(b"\xa5NFM-LCM\x01\0\0\0\x09" + bytes(20), "not a journal: byte 0\n"),
        *refused(b"\xa5NFM-LCM\x03\0\0\0\x09" + bytes(20), "not a journal: byte 0\n"),
        *refused(b"VNFM-LCM\x03", "not a journal: byte 8\n"),
        *refused(b"VNFM-LCM\x02\0\0", "not a journal: byte 11\n"),
    )
    # Format 1 had byte 8 so, and each record behind its own gate and its length.
    first_format = b"VNFM-LCM\x01\0\0\0\x07" + bytes(19)
    run(
        "a file of format 1 is refused",
        *refused(first_format + b"\0", "not a journal: byte 8\n"),
        *refused(first_format + b"\1" + u32(len(D_ONBOARDED)) + D_ONBOARDED + b"\0", "not a journal: byte 8\n"),
        *refused(first_format, "not a journal: byte 8\n"),
    )
    # A record is read back in one read, since all behind the header is held then.
    for number in range(1, 8):
        made = told_back(D_CREATED)
        run(
            "an event is read back from the file: call %d fails" % number,
            *[["fault", number], with_records(D_ONBOARDED, D_CREATED)],
            ["read back", 2, UNOPENED if number <= CALLS_TO_OPEN else "site fault" if number == CALLS_TO_OPEN + 1 else made],
        )
    run(
        "each event is read back as it was recorded",
        *[["no fault"], with_records(D_ONBOARDED, D_CREATED, cases.created(2, D), D_GONE)],
        *[["read back", 4, told_back(D_GONE)], ["read back", 2, made], ["read back", 5, "no such record"]],
        *[["read back", 3, told_back(cases.created(2, D))], ["read back", 0, "no such record"]],
    )
    many_records()
    batches_of_some()
    broken_batches()
    full_batches()
    reads_of_a_loading()


# Records of a cancel, which is allowed as often as it is asked for; places are kept every 4,104 bytes, of 152 such records.
MANY = 70_000
ASKED = cases.asked(1, cases.instantiate("l"))


def cancel(later=0):
    return cases.cancel_asked(1, "FORCEFUL", moment=NOW + later)


def many_records():
    front = [in_record(it) for it in (D_ONBOARDED, D_CREATED, ASKED)]
    now, later = in_record(cancel()), in_record(cancel(1))
    file = [HEADER, *front, {"times": MANY - 5, "of": now}, later, now, "\0"]
    read = ["read back", MANY - 1, told_back(cancel(1))]
    run("a record of many is read back from a place near it", ["no fault"], ["site", file], read)


# ---- Batches of several records

def reads_back(*events):
    """Each event is read back at its place, in order and in the other order; and there is none behind."""
    each = [["read back", place, told_back(it)] for place, it in enumerate(events, 1)]
    return [*each, *each[::-1], each[0], ["read back", len(events) + 1, "no such record"]]


def batches_of_some():
    events = [D_ONBOARDED, D_CREATED, cases.created(2, D), D_GONE, cases.created(3, D), cases.deleted(3, moment=NOW + 1)]
    for sizes in [2], [3], [6], [2, 3], [1, 2], [2, 1, 3], [1, 4, 1], [3, 3]:
        told, batches = iter(events), []
        for size in sizes:
            batches.append(list(itertools.islice(told, size)))
        some = events[: sum(sizes)]
        made, gone = (sum(it[0] == kind for it in some) for kind in (2, 3))
        file = [HEADER, *[in_batch(*it) for it in batches]]
        run(
            "a journal is opened and read back whose batches have so many records: %s" % ", ".join(map(str, sizes)),
            *[act for gate in GATES for act in (["site", [*file, gate]], ["opened", says(len(some), 1, made, made - gone)])],
            *[["site", [*file, "\0", in_batch(D_CREATED, D_CREATED), "\1\0\0"]], ["opened", says(len(some), 1, made, made - gone)]],
            *[["site", [*file, "\0"]], *reads_back(*some), ["file", [*file, "\0"]]],
        )
    front = [HEADER, in_batch(D_ONBOARDED, D_CREATED)]
    run(
        "a record of a batch that isn't allowed is named by its place in the history",
        *behind_header("bad record 2", in_batch(D_ONBOARDED, D_ONBOARDED), "\0"),
        *behind_header("bad record 2", in_batch(D_ONBOARDED, NO_EVENT), "\0"),
        *behind_header("bad record 1", in_batch(D_CREATED, D_ONBOARDED), "\0"),
        *behind_header("bad record 3", in_batch(D_ONBOARDED, D_CREATED, D_CREATED, D_GONE), "\0"),
        *behind_header("bad record 4", in_batch(D_ONBOARDED, D_CREATED), in_batch(D_GONE, D_GONE), "\0"),
        # (and only of a file that is whole)
        *behind_header("bad record 4", in_batch(D_ONBOARDED, D_ONBOARDED, D_ONBOARDED)),
        *behind_header("bad record 4", in_batch(D_ONBOARDED, D_ONBOARDED, D_ONBOARDED), "\1\0\0\0\0"),
    )
    # Opening takes its calls, and all behind the header is held then in one read.
    for number in range(1, 7):
        run(
            "an event amid a batch is read back: call %d fails" % number,
            *[["fault", number], ["site", [*front, "\0"]]],
            ["read back", 2, UNOPENED if number <= CALLS_TO_OPEN else "site fault" if number == CALLS_TO_OPEN + 1 else told_back(D_CREATED)],
        )


def broken_batches():
    """A batch is judged whole before its first record is: what is told is the place of its first record."""
    two = in_batch(D_ONBOARDED, D_CREATED)
    # Where the length of the second record stands.
    second = 5 + 4 + len(D_ONBOARDED)

    def with_second(size):
        return two[:second] + latin(u32(size)) + two[second + 4 :]

    before = in_batch(D_ONBOARDED, D_CREATED)
    after = in_batch(cases.created(2, D), cases.created(3, D))
    at = 5 + 4 + len(cases.created(2, D))
    size = len(cases.created(3, D))
    run(
        "a batch whose content isn't records is named by its first record",
        *[act for wrong in (0, 1, len(D_CREATED) - 1, len(D_CREATED) + 1, 65_537, 2**32 - 1) for act in behind_header("bad record 1", with_second(wrong), "\0")],
        *behind_header(says(2, 1, 1, 1), with_second(len(D_CREATED)), "\0"),
        # Behind another batch, whose records stand before it.
        *[act for wrong in (0, size - 1, size + 1) for act in behind_header("bad record 3", before, after[:at] + latin(u32(wrong)) + after[at + 4 :], "\0")],
        *behind_header(says(4, 1, 3, 3), before, after, "\0"),
        # A content without a whole length, one whose record has no byte, and one of which bytes are left over.
        *[act for content in (b"\0", b"\0\0\0", u32(0), u32(1), u32(1) + b"\2\0", u32(1) + b"\2\0\0\0\0", u32(2) + b"\2") for act in behind_header(
            "bad record 1", latin(b"\1" + u32(len(content)) + content), "\0"
        )],
        # (a record that isn't an event is told by its own place)
        *behind_header("bad record 2", in_batch(D_ONBOARDED, b"\2"), "\0"),
    )
    run(
        "a batch that the file ends in is named by its first record",
        *[act for lacking in (1, 2, len(D_CREATED), len(D_CREATED) + 4, len(D_CREATED) + 5) for act in behind_header("bad record 1", two[:-lacking])],
        *[act for lacking in (1, 4, len(after) - 5, len(after) - 4, len(after) - 1) for act in behind_header("bad record 3", before, after[:-lacking])],
        # (of one that ends where the file does the gate behind it is lacking)
        *behind_header("bad record 3", two),
        *behind_header("bad record 5", before, after),
    )
    # The second record of a batch is no event: where it is too long its batch is broken, and else the record is told.
    run(
        "a record has 65,536 bytes and no more",
        *behind_header("bad record 2", *long_second(65_536), "\0"),
        *behind_header("bad record 1", *long_second(65_537), "\0"),
    )
    run(
        "a content has 131,072 bytes and no more",
        *behind_header("bad record 2", *filled(131_072), "\0"),
        *behind_header("bad record 1", *filled(131_073), "\0"),
        *behind_header("bad record 3", before, *filled(131_073), "\0"),
    )


def long_second(size):
    """A batch of an onboarding and of so many bytes that are no event."""
    content = latin(u32(len(D_ONBOARDED)) + D_ONBOARDED + u32(size))
    return [latin(b"\1" + u32(len(content) + size)) + content, {"times": size, "of": "\2"}]


def filled(size):
    """A batch whose content has so many bytes: an onboarding, and two records that are no events."""
    content = latin(u32(len(D_ONBOARDED)) + D_ONBOARDED)
    last = size - len(content) - 4 - 65_536 - 4
    assert 1 <= last <= 65_536
    return [
        *[latin(b"\1" + u32(size)) + content, latin(u32(65_536)), {"times": 65_536, "of": "\2"}],
        *[latin(u32(last)), {"times": last, "of": "\2"}],
    ]


# ---- Batches of the most bytes

BLOCK, BACK = 65_536, 8_192
# Instances are created with a text and deleted: 62 with one of the most bytes, and one with a text by which the content has all its bytes.
LINE, PAIRS = 2_048, 63
PAIR = 4 + len(cases.created(1, D, None, "")) + LINE + 4 + len(D_GONE)
LAST_LINE = MOST - (PAIRS - 1) * PAIR - (PAIR - LINE)
TEXT = [{"times": LINE, "of": "n"}]


def pair_around(length):
    """What stands around the two numbers of an instance that is created with a text of so many bytes and deleted, and around the text: the records in a batch."""
    created, gone = cases.created(0, D, None, "n" * length), cases.deleted(0)
    behind = len(cases.event(2, bytes(8)))
    front, back = created[: behind - 8], created[behind : len(created) - length]
    return latin(u32(len(created)) + front), latin(back), latin(u32(len(gone)) + gone[:-8])


def pairs(first, count, length, text):
    """So many instances from this one on."""
    front, back, gone = pair_around(length)
    return {"from": first, "to": first + count, "of": [front, {"bytes": 8}, back + text, gone, {"bytes": 8}]}


def full(first, line, more=0):
    """A batch of 126 records of the instances from this one on, of which the last has a text of so many bytes more."""
    front, back, gone = pair_around(LINE)
    many = {"from": first, "to": first + PAIRS - 1, "of": [front, {"bytes": 8}, back, line, gone, {"bytes": 8}]}
    return [latin(b"\1" + u32(MOST + more)), many, pairs(first + PAIRS - 1, 1, LAST_LINE + more, "n" * (LAST_LINE + more))]


def reads_in_order(batches, end, block, place=32, until=None):
    """How many reads the batches of these contents take, from this place on, up to the end, each of a block or of what a batch lacks where that is more."""
    count, held_to = 0, place
    for size in [*batches, None][:until]:
        for wanted in (place + 5, place + 5 + (size or 0)):
            if held_to < min(wanted, end):
                count += 1
                held_to = min(held_to + max(block, wanted - held_to), end)
        place += 5 + (size or 0)
    return count


def full_batches():
    line = let("LINE", TEXT)
    front = D_ONBOARDED, D_CREATED, ASKED
    size, records = sum(4 + len(it) for it in front), 2 * PAIRS
    file = [HEADER, in_batch(*front)]
    run(
        "a content of legal records has 131,072 bytes and no more",
        *[["site", [*file, *full(2, line), "\0"]], ["opened", says(3 + records, 1, 1 + PAIRS, 1)]],
        *[["site", [*file, *full(2, line, 1), "\0"]], ["opened", "bad record 4"]],
        *[["site", [*file, *full(2, line), *full(2 + PAIRS, line, 1), "\0"]], ["opened", "bad record %d" % (4 + records)]],
    )
    whole = let("FULL_BATCHES", [*file, *full(2, line), *full(2 + PAIRS, line), *full(2 + 2 * PAIRS, line), "\0"])
    sizes = [size, MOST, MOST, MOST]
    length = 32 + sum(5 + it for it in sizes) + 1
    # A sync, the length, the header, and the blocks.
    opening, count = 3 + reads_in_order(sizes, length, BLOCK), 3 + 3 * records

    def event_at(place):
        return front[place - 1] if place <= 3 else (cases.created, cases.deleted)[place % 2](2 + (place - 4) // 2, *([D] if place % 2 == 0 else []))

    # The first and the last record of each batch, and some amid them.
    places = [1, 2, 3, 4, 5, 64, 2 + records, 3 + records, 4 + records, 5 + records, 200, 3 + 2 * records, 4 + 2 * records, 300, count - 1, count]
    run(
        "full batches are opened, and their records read back",
        *[["site", whole], ["file length", length], ["opened", says(count, 1, 1 + 3 * PAIRS, 1)], ["moment", opening]],
        *[["read back", place, told_back(event_at(place))] for place in places],
        *[["read back", count + 1, "no such record"], ["file", whole]],
    )
    # A place is kept 4,096 bytes behind the one before, so that of each batch but the second; a head is read with a block, and then what its batch lacks.
    end = length - 1
    for title, place, calls in [
        *[("the first batch", 1, 1), ("the second batch, which is read from the first on", 4, 2), ("the end of the second batch", 3 + records, 2)],
        *[("the third batch", 4 + records, 2), ("the end of the last batch", count, 2)],
    ]:
        assert calls == (reads_in_order(sizes, end, BACK, until=1 if place <= 3 else 2) if place <= 3 + records else reads_in_order([MOST], end, BACK, until=1))
        run(
            "a record of full batches takes few reads: %s" % title,
            *[["site", whole], ["read back", place, told_back(event_at(place))], ["moment", opening + calls]],
            *[["fault", opening + calls], ["site", whole], ["read back", place, "site fault"]],
        )
    # Thousands of records in one batch: cancels, of which one amid them and the last have moments of their own, and an instance whose name fills it.
    each, amid, last = (latin(u32(len(cancel(it))) + cancel(it)) for it in range(3))
    cancels = (MOST - 50) // (4 + len(cancel()))
    filling = cases.created(2, D, "n" * (MOST - cancels * (4 + len(cancel())) - 4 - len(cases.created(2, D, ""))))
    batch = [latin(b"\1" + u32(MOST) + u32(len(filling)) + filling), {"times": 2_000, "of": each}, amid, {"times": cancels - 2_002, "of": each}, last]
    run(
        "a batch has thousands of records",
        *[["site", [*file, *batch, "\0"]], ["opened", says(4 + cancels, 1, 2, 2)]],
        *[["read back", place, told_back(it)] for place, it in [(3, ASKED), (4, filling), (2_005, cancel(1)), (4 + cancels, cancel(2))]],
    )


def reads_of_a_loading():
    """A mebibyte is opened with a read of the header and sixteen of blocks, each byte once; of full batches one takes a read of what it lacks."""
    mebibyte = 2**20
    # Each record in a batch of its own: instances that are created with a text and deleted, and one that is created with a text of what is left.
    onboarding = in_record(D_ONBOARDED)
    front, back, gone = (batch + it for batch, it in zip(own_batches(), pair_around(LINE)))
    count, rest = divmod(mebibyte - 33 - len(onboarding), PAIR + 10)
    last = in_record(cases.created(count + 1, D, None, "n" * (rest - len(in_record(cases.created(1, D, None, ""))))))
    many = {"from": 1, "to": count + 1, "of": [front, {"bytes": 8}, back, "$LINE", gone, {"bytes": 8}]}
    file, told = [HEADER, onboarding, many, last, "\0"], says(2 + 2 * count, 1, count + 1, 1)
    run(
        "a journal of a mebibyte is opened with seventeen reads",
        *[["site", file], ["file length", mebibyte], ["opened", told], ["moment", 2 + 17]],
        *[["fault", 19], ["site", file], ["opened", "site fault"], ["fault", 20], ["site", file], ["opened", told]],
    )
    # Seven full batches, and one of what is left of the same length.
    left = mebibyte - 33 - len(onboarding) - 7 * (5 + MOST) - 5
    first = 1 + 7 * PAIRS
    count, rest = divmod(left - (PAIR - LINE), PAIR)
    assert 0 <= rest <= LINE
    front, back, gone = pair_around(LINE)
    many = {"from": first, "to": first + count, "of": [front, {"bytes": 8}, back, "$LINE", gone, {"bytes": 8}]}
    end = [latin(b"\1" + u32(left)), many, pairs(first + count, 1, rest, "n" * rest)]
    file = [HEADER, onboarding, *[part for batch in range(7) for part in full(1 + batch * PAIRS, "$LINE")], *end, "\0"]
    calls = 3 + reads_in_order([len(onboarding) - 5, *[MOST] * 7, left], mebibyte, BLOCK)
    assert calls <= 2 + 18
    run(
        "a journal of a mebibyte in full batches is opened with few reads",
        *[["site", file], ["file length", mebibyte], ["opened", says(1 + 2 * (7 * PAIRS + count + 1), 1, 7 * PAIRS + count + 1, 0)], ["moment", calls]],
    )


def own_batches():
    """What stands before the length of a record that is created with a text, before the text, and before the length of a deletion, in batches of their own."""
    created, gone = len(cases.created(1, D, None, "")) + LINE, len(D_GONE)
    return latin(b"\1" + u32(created + 4)), "", latin(b"\1" + u32(gone + 4))


begin(__name__)
write()
