"""The runs that make a journal, onboard a descriptor and count what there is, and how a run ends: its status, its line, and what is left."""
from run_texts import *

begin(__name__)

# ---- Making a journal, and onboarding

INIT, ONBOARD = go("init", "--journal", "j", "--manager", "7"), go("onboard", "--journal", "j")
ONBOARD_IT = [["door", DESCRIPTOR], ONBOARD]


IS_MADE = "journal made for manager 7\n"


def not_onboarded(text, line):
    return [["door", text], ONBOARD, ["status", 10], ["printed", "descriptor refused: %s\n" % line], ["stays"]]


run(
    "a journal is made once",
    *[["site", ""], INIT, ["status", 0], ["printed", IS_MADE], ["clock", 0], ["file", MADE]],
    *[INIT, ["status", 11], ["printed", "taken\n"], ["file", MADE]],
)
for number, manager in ("0", 0), ("007", 7), ("4294967295", 4_294_967_295):
    run(
        "a journal is made for manager %s" % number,
        *[["site", ""], go("init", "--journal", "j", "--manager", number), ["status", 0]],
        ["printed", "journal made for manager %d\n" % manager],
        ["file", latin(header(manager) + b"\0")],
    )
run("a journal stays made where the line is not put", ["site", ""], ["sink", 1], INIT, ["status", 7], ["file", MADE])
run("options stand in any order", ["site", ""], go("init", "--manager", "7", "--journal", "j"), ["status", 0], ["file", MADE])
run(
    "a descriptor is onboarded once",
    *[["site", MADE], *ONBOARD_IT, ["status", 0], ["printed", "onboarded vnfd-1: 0 vdus, 0 aspects, 1 levels\n"]],
    *[["told", ""], ["ended"], ["clock", 1], ["file", JOURNAL], *not_onboarded(DESCRIPTOR, "vnfdId is onboarded")],
)
run(
    "a descriptor is refused for its first fault",
    *[["site", MADE], *not_onboarded("", "not JSON"), *not_onboarded("[]", "not JSON"), *not_onboarded("{}", "missing node_templates")],
    *not_onboarded('{"topology_template":{"node_templates":{}}}', "missing descriptor_id"),
    *[ONBOARD, ["status", 10], ["printed", "descriptor refused: not JSON\n"], ["stays"]],
)


def padded(text, length):
    """The text, with spaces behind it up to this length."""
    return ["$" + text[0], {"times": length - len(text[1]), "of": " "}]


LIMIT = 1_048_576
run(
    "a descriptor has 1,048,576 bytes and no more",
    *[["site", MADE], ["door", padded(("DESCRIPTOR", DESCRIPTOR_TEXT), LIMIT)], ONBOARD, ["status", 0], ["file", JOURNAL]],
    *[["site", MADE], *not_onboarded(padded(("DESCRIPTOR", DESCRIPTOR_TEXT), LIMIT + 1), "too many bytes")],
)


def wide(ports):
    """A descriptor of one VDU with so many ports, each with a name of 255 bytes."""
    front = '{"topology_template":{"node_templates":{"VNF":{"properties":{%s}},"V":{"type":"tosca.nodes.nfv.Vdu.Compute",%s}'
    names = '"descriptor_id":"w","provider":"","product_name":"","software_version":"","descriptor_version":"","flavour_id":"f"'
    size = '"capabilities":{"virtual_compute":{"properties":{"virtual_memory":{"virtual_mem_size":"1 B"},"virtual_cpu":{"num_virtual_cpu":1}}}}'
    port = ':{"type":"tosca.nodes.nfv.VduCp","requirements":[{"virtual_binding":"V"}]}'
    return [front % (names, size), {"from": 0, "to": ports, "of": [',"', {"digits": 255}, '"' + port]}, "}}}"]


run(
    "an event of a descriptor fits a record or is refused",
    *[["site", MADE], ["door", wide(251)], ONBOARD, ["status", 0]],
    *[["site", MADE], *not_onboarded(wide(252), "encodes to 65583 bytes")],
)


def numbered(number):
    """The document of a descriptor with this number for its identifier."""
    names = '"descriptor_id":"%d","provider":"","product_name":"","software_version":"","descriptor_version":"","flavour_id":"f"' % number
    return '{"topology_template":{"node_templates":{"VNF":{"properties":{%s}}}}}' % names


MANY = record(1, name("000"), bytes(4), name("f"), bytes(10), u16(1), name("default"), u16(0), moment=0)
run(
    "a journal has 256 descriptors and no more",
    *[["site", [HEADER, {"from": 0, "to": 255, "of": [MANY[:19], {"digits": 3}, MANY[22:]]}, "\0"]], ["door", numbered(255)], ONBOARD],
    *[["status", 0], *not_onboarded(numbered(256), "256 descriptors"), *not_onboarded(numbered(255), "vnfdId is onboarded")],
)
run(
    "an onboarding that fails changes nothing",
    *[["site", MADE], ["no door"], ONBOARD, ["status", 4], ["clock", 0]],
    *[["bad door", 2, 0, DESCRIPTOR], ONBOARD, ["status", 4], ["printed", "door fault\n"], ["clock", 0], ["file", MADE]],
)
run(
    "a descriptor stays onboarded where the line is not put",
    *[["site", MADE], ["sink", 1], *ONBOARD_IT, ["status", 7], ["file", JOURNAL]],
)
run("a descriptor needs a journal", ["site", ""], *ONBOARD_IT, ["status", 5])
NEW_LIFE = [["fallen"], ["keep", "LEFT"], ["no fault"], ["site", "$LEFT"]]
# Files that are unfinished for manager 7, and whether they are cut to a byte first: all that is at most a byte long, what begins with `v`, and all of its
# header but the first byte, whatever stands behind it.
REST_OF_HEADER = header(7)[1:]
UNFINISHED = [
    *[("an empty file", "", False), ("a file of a first byte", "V", False), ("a file of another byte", "x", False), ("a file of a v", "v", False)],
    *[("a file that begins with v", "v and more", True), ("a journal that begins with v", ["v", latin(REST_OF_HEADER), ONBOARDED, "\0"], True)],
    *[("a header with another first byte", latin(b"\xa5" + REST_OF_HEADER), True)],
    *[("a made file with another first byte", latin(b"\xa5" + REST_OF_HEADER + b"\0"), True)],
    *[("a header with another first byte, and more", ["x", latin(REST_OF_HEADER + b"\1"), ONBOARDED], True)],
]
run(
    "an unfinished file is made anew",
    *[
        act for _, file, is_cut in UNFINISHED
        # A sync, the length and a read; the cut and its sync; three writes with their syncs.
        for act in (["site", file], INIT, ["status", 0], ["printed", IS_MADE], ["file", MADE], ["moment", 3 + 2 * is_cut + 6])
    ],
)
for title, file, _ in UNFINISHED:
    run(
        "each disk call that fails ends a making, and the next one leaves a made file: %s" % title,
        *[["site", file], INIT, ["status", 0], ["life", [], []]],
        ["each fault", ["site", file], INIT, *NEW_LIFE, INIT, ["status", 0, 11], ["file", MADE]],
    )
# Files that are no unfinished ones of manager 7.
NOT_UNFINISHED = [
    *[("a made file of it", MADE), ("a made file of another manager", latin(header(11) + b"\0")), ("a journal with records", JOURNAL)],
    *[("a header alone", HEADER), ("the front of a header", latin(header(7)[:31])), ("a file that begins with V", "V and more")],
    *[("another manager's header with another first byte", latin(b"\xa5" + header(11)[1:] + b"\0"))],
    *[("the same with another byte behind it", latin(b"\xa5" + header(11)[1:] + b"\1 and more"))],
    *[("the front of a header with another first byte", latin(b"\xa5" + REST_OF_HEADER[:-1]))],
    *[("a header with another first byte and another last one", latin(b"\xa5" + REST_OF_HEADER[:-1] + b"\1\0"))],
    *[("a made file of format 1", latin(b"VNFM-LCM\x01" + header(7)[9:] + b"\0"))],
    *[("a made file of format 1 with another first byte", latin(b"\xa5NFM-LCM\x01" + header(7)[9:] + b"\0")), ("another file", "#!/bin/sh\n")],
]
for title, file in NOT_UNFINISHED:
    taken = [["status", 11], ["printed", "taken\n"], ["file", file]]
    run(
        "what is no unfinished file is taken, and stays, also behind a stop or a disk call that fails: %s" % title,
        *[["site", file], INIT, *taken, ["moment", 3], ["life", [], []]],
        ["each fault", ["site", file], INIT, *NEW_LIFE, ["file", file], INIT, *taken],
        *[["each stop", choice, INIT, *taken] for choice in CHOICES],
    )
run(
    "each disk call that fails ends an onboarding, and the next one leaves the descriptor onboarded",
    *[["site", MADE], *ONBOARD_IT, ["life", [], []]],
    ["each fault", ["site", MADE], *ONBOARD_IT, *NEW_LIFE, *ONBOARD_IT, ["status", 0, 10], ["file", JOURNAL]],
)
for title, file, _ in UNFINISHED:
    run(
        "a stop in a making leaves a file that is made by the next: %s" % title,
        *[["site", file], INIT, ["status", 0], ["life", [], []]],
        *[
            ["each stop", choice, INIT, ["status", 0, 11], ["at first", ["status", 0]], ["at last", ["status", 11]], ["file", MADE]]
            for choice in CHOICES
        ],
    )
run(
    "a stop in an onboarding leaves the descriptor or not",
    *[["site", MADE], *ONBOARD_IT, ["status", 0], ["life", [], []]],
    *[
        ["each stop", choice, *ONBOARD_IT, ["status", 0, 10], ["at last", ["status", 10]], ["at first", ["status", 0]], ["file", JOURNAL]]
        for choice in CHOICES
    ],
)

# ---- How a run ends

LIVE = record(2, u64(0), name("vnfd-1"), u8(0), u8(0), moment=0)
run(
    "a thousand instances are live, and no more",
    ["site", [HEADER, ONBOARDED, {"from": 1, "to": 1000, "of": [LIVE[:18], {"bytes": 8}, LIVE[26:]]}, "\0"]],
    *[once(CREATE), ["status", 0], ["told front", "HTTP/1.1 201 Created\r\n"]],
    *[once(CREATE), refused("507 Insufficient Storage", "too many instances")],
)


def ends(file, status, line):
    return [["site", file], once(CREATE), ["status", status], ["printed", line], ["told", ""], ["clock", 0], ["stays"]]


run(
    "a file that is no journal is named at its place",
    *[*ends("", 5, "no journal\n"), *ends("V", 5, "no journal\n")],
    *[*ends(latin(header(7)[:-1]), 5, "not a journal: byte 31\n"), *ends(HEADER, 8, "bad record 1\n")],
)
MADE_FILE = header(7) + b"\0"
for place in range(32):
    changed_file = latin(MADE_FILE[:place] + u8(99) + MADE_FILE[place + 1 :])
    if 9 <= place <= 12:
        run("byte %d of a journal is its manager's" % place, ["site", changed_file], once(CREATE), ["status", 0])
    else:
        line = "no journal\n" if place == 0 else "not a journal: byte %d\n" % place
        run("a journal with another byte %d is none" % place, *ends(changed_file, 5, line))
OTHER = in_batch(cases.created(1, "v", moment=0))
run(
    "a bad record is named",
    # A content of no byte, one of 131,073, one that the file ends in, and a record that is no event.
    *[act for bad in ("\1\0\0\0\0\0", "\1\0\2\0\1\0", "\1\0\0\0\x09\2\0", in_batch(b"\2") + "\0") for act in ends([HEADER, bad], 8, "bad record 1\n")],
    *ends([HEADER, in_batch(cases.created(2, "v", moment=0)), "\0"], 8, "bad record 1\n"),
    *[*ends([HEADER, OTHER, in_batch(b"\x09"), "\0"], 8, "bad record 1\n"), *ends([HEADER, OTHER, "\1"], 8, "bad record 2\n")],
    *ends([HEADER, ONBOARDED, in_batch(b"\x09"), "\0"], 8, "bad record 2\n"),
    # A batch is broken as a whole, and of one of records each is judged.
    *[*ends([HEADER, in_batch(EVENTS[0], b""), "\0"], 8, "bad record 1\n"), *ends([HEADER, in_batch(*EVENTS, EVENTS[0]), "\0"], 8, "bad record 3\n")],
)
NO_COMMANDS = [
    *["", "once", "once --journal", "once --journal -j", "once --journal j x", "--journal j once", "serve --journal j", "--help"],
    *["onboard --journal -j", "onboard --journal j --manager 7", "init --journal j", "once --journal j --journal j"],
    *["migrate --journal j", "migrate --to k", "migrate --journal j --to -k", "once --journal j --to k"],
    *["once --journal j --rounds", "once --journal j --role none", "init --journal -j --manager 7", "init --journal j --role 7"],
    *["init --journal j --manager " + number for number in ("+7", "-1", "7x", "4294967296", "000000000000000000007")],
]
for words in [*(it.split() for it in NO_COMMANDS), ["init", "--journal", "j", "--manager", ""]]:
    run(
        "these words are no command and touch nothing: " + " ".join(words),
        *[["site", MADE], ["door", CREATE], go(*words), ["status", 2], ["told", ""], ["moment", 0]],
        ["printed", "usage: vnfm init|onboard|once|serve|check|trial|migrate\n"],
    )
for words, doors, count, more, clock in [
    *[("--rounds 0", 1, 0, 0, 0), ("--rounds 1", 2, 1, 42, 2), ("--rounds 3", 3, 3, 126, 6), ("--rounds 3", 1, 3, 42, 4)],
    *[("--role em", 1, 1, 42, 2), ("--vim h:1 --orchestrator h:2 --rounds 2", 2, 2, 84, 4)],
]:
    run(
        "as many rounds are made as the words say: %s, %d connections" % (words, doors),
        *[["site", JOURNAL], *[["door", CREATE]] * doors, go("once", "--journal", "j", *words.split()), ["status", 0]],
        *[["printed", "done after %d rounds\n" % count], ["grown", more], ["clock", clock]],
        ["told front", "HTTP/1.1 201 Created\r\n"] if more else ["told", ""],
    )
run(
    "a door that fails is told from one where nobody comes",
    *[["site", JOURNAL], ["no door"], ["once"], ["status", 4], ["printed", "door fault\n"]],
    *[["nobody"], ["once"], ["status", 0], ["clock", 1]],
)
run(
    "a line that is not put changes status 0 alone",
    *[["site", JOURNAL], ["sink", 1], once(CREATE), ["status", 7], ["printed", ""], ["told front", "HTTP/1.1 201 Created\r\n"]],
    *[["file", JOURNALS[1]], ["site", ""], ["once"], ["status", 5]],
)

# ---- What `check` tells

CHECK = go("check", "--journal", "j")


def counted(records, instances, going, subscriptions):
    """`check` tells that the journal has so much, and changes nothing."""
    line = "records %d, instances %d, ongoing %d, subscriptions %d\n" % (records, instances, going, subscriptions)
    return [CHECK, ["status", 0], ["printed", line], ["told", ""], ["stays"]]


def turned(count, *texts):
    """These requests come on one connection, in a command of so many rounds that ends with 0."""
    return [["door", list(texts)], go("once", "--journal", "j", "--rounds", str(count)), ["status", 0]]


def instantiate(number):
    return request("POST", INSTANCE % number + "/instantiate", SIMPLE)


SUBSCRIPTIONS = "/vnflcm/v1/subscriptions"
SUBSCRIBE = request("POST", SUBSCRIPTIONS, '{"callbackUri":"http://127.0.0.1:9900/n"}')
UNSUBSCRIBE = request("DELETE", SUBSCRIPTIONS + "/00000007-766d-8003-8000-000000000002")
run(
    "check counts a journal that was just made",
    *[["site", ""], INIT, *counted(0, 0, 0, 0), ["clock", 0], ["file", MADE]],
)
# Each number is another than the others, and than that of all that was made of its kind. Of the five operations one is COMPLETED and one ROLLED_BACK,
# and one is FAILED_TEMP, in which no round works on it. Nobody is asked but the orchestrator, which answers three asks and then none.
run(
    "check counts what isn't deleted and what goes on",
    *[["site", ""], INIT, *ONBOARD_IT, ["status", 0], *counted(1, 0, 0, 0)],
    # Six instances are made, and one of them is deleted.
    *[*turned(1, *[CREATE_TEXT] * 6), *counted(7, 6, 0, 0), *turned(1, request("DELETE", INSTANCE % 6)), *counted(8, 5, 0, 0)],
    # Asked, granted, PROCESSING, COMPLETED.
    *[["says", 201, "", '{"id":"g1"}'], *turned(3, instantiate(1)), *counted(12, 5, 0, 0)],
    # Asked, denied, ROLLED_BACK.
    *[["says", 403, "", ""], *turned(2, instantiate(2)), *counted(15, 5, 0, 0)],
    # Asked, granted, PROCESSING; cancelled, FAILED_TEMP.
    *[["says", 201, "", '{"id":"g3"}'], *turned(2, instantiate(3)), *counted(18, 5, 1, 0)],
    *[*turned(1, request("POST", OCCURRENCE % 3 + "/cancel", GRACEFUL)), *counted(20, 5, 1, 0)],
    # Asked, and a try that is trouble.
    *[*turned(1, instantiate(4)), *counted(22, 5, 2, 0)],
    # Four subscribe, of whom one ends it; and one more try of the operation of before.
    *[*turned(1, *[SUBSCRIBE] * 4, UNSUBSCRIBE), *counted(28, 5, 2, 3)],
)
run(
    "check asks nobody, and tells the same of each role's subscriptions",
    *[["site", JOURNAL], ["door", SUBSCRIBE], go("once", "--journal", "j", "--role", "em"), ["status", 0], ["no door"], *counted(2, 0, 0, 1)],
    ["clock", 0],
)

# ---- A journal whose records share batches

SHARED = let("SHARED", [HEADER, in_batch(*EVENTS)])
run(
    "a journal whose records share a batch is gone on with, record by record",
    *[["site", [SHARED, "\0"]], *counted(2, 1, 0, 0), ["clock", 0]],
    *[once(CREATE, CREATED[2]), ["status", 0], ["grown", 42], ["file", [SHARED, CREATION[2], "\0"]], *counted(3, 2, 0, 0)],
    *[once(DELETE, GONE), ["status", 0], ["file", [SHARED, CREATION[2], DELETED, "\0"]], *counted(4, 1, 0, 0)],
    *[["door", DESCRIPTOR], ONBOARD, ["status", 10], ["printed", "descriptor refused: vnfdId is onboarded\n"], ["stays"]],
    *[["keep", "LEFT"], ["site", "$LEFT"], once(CREATE, CREATED[3]), ["file", [SHARED, CREATION[2], DELETED, CREATION[3], "\0"]]],
    *counted(5, 2, 0, 0),
)
# Four calls open the journal, and four append the record.
run(
    "each disk call that fails ends a creation behind a batch, and what is left is gone on with",
    *[["site", [SHARED, "\0"]], once(CREATE, CREATED[2]), ["moment", 8], ["life", [], []]],
    [
        *["each fault", ["site", [SHARED, "\0"]], once(CREATE), *NEW_LIFE, ["file front", SHARED], once(CREATE), ["status", 0]],
        ["file front", [SHARED, CREATION[2]]],
    ],
)
run(
    "a stop in a creation behind a batch leaves it or not",
    *[["site", [SHARED, "\0"]], once(CREATE, CREATED[2]), ["life", [], []]],
    *[
        [
            *["each stop", choice, once(CREATE), ["status", 0], ["file front", [SHARED, CREATION[2]]]],
            *[["at first", ["file", [SHARED, CREATION[2], "\0"]]], ["at last", ["file", [SHARED, CREATION[2], CREATION[3], "\0"]]]],
        ]
        for choice in CHOICES
    ],
)
# A content of 131,072 bytes: an instance with a long name, and cancels, which may be asked for as often as one likes.
CANCEL_EVENT, CANCELS = cases.cancel_asked(1, "FORCEFUL"), 5_955
ASKED_EVENT = cases.event(4, u64(1), u64(1), u8(0), u8(1), name("simple"), u8(0), u16(0), moment=NOW)
LETTERS = 131_072 - CANCELS * (4 + len(CANCEL_EVENT)) - 4 - len(cases.created(2, "vnfd-1", ""))
LONG_NAMED = cases.created(2, "vnfd-1", "n" * LETTERS)
FULL = [latin(u8(1) + u32(131_072) + u32(len(LONG_NAMED)) + LONG_NAMED), {"times": CANCELS, "of": latin(u32(len(CANCEL_EVENT)) + CANCEL_EVENT)}]
FULL_LENGTH = 32 + sum(9 + len(it) for it in [*EVENTS, ASKED_EVENT]) + 5 + 131_072 + 1
run(
    "a creation stands behind a batch of the most bytes",
    *[["site", [HEADER, *map(in_record, [*EVENTS, ASKED_EVENT]), *FULL, "\0"]], ["file length", FULL_LENGTH], *counted(4 + CANCELS, 2, 1, 0)],
    *[answers(CREATE, CREATED[3]), ["file length", FULL_LENGTH + 42], ["file end", [CREATION[3], "\0"]], *counted(5 + CANCELS, 3, 1, 0)],
)

# ---- A check that fails, or is told of no journal

COUNTED_1 = [["status", 0], ["printed", "records 1, instances 0, ongoing 0, subscriptions 0\n"], ["file", JOURNAL]]
run("a line of check that is not put changes nothing", ["site", JOURNAL], ["sink", 1], CHECK, ["status", 7], ["printed", ""], ["stays"])
run(
    "each disk call that fails ends a check, and the next one counts the same",
    *[["site", JOURNAL], CHECK, ["life", [], []]],
    ["each fault", ["site", JOURNAL], CHECK, *NEW_LIFE, CHECK, *COUNTED_1],
)
run(
    "a stop in a check leaves the journal as it was",
    *[["site", JOURNAL], CHECK, *COUNTED_1, ["life", [], []]],
    *[["each stop", choice, CHECK, *COUNTED_1] for choice in CHOICES],
)


def is_no_journal(file, status, line):
    return [["site", file], CHECK, ["status", status], ["printed", line], ["stays"]]


run(
    "check tells of a file that is no journal, and of a bad record",
    *[*is_no_journal("", 5, "no journal\n"), *is_no_journal("V", 5, "no journal\n"), *is_no_journal("xy", 5, "not a journal: byte 0\n")],
    *[*is_no_journal(HEADER, 8, "bad record 1\n"), *is_no_journal([HEADER, ONBOARDED, ONBOARDED, "\0"], 8, "bad record 2\n")],
)
for words in [["check"], ["check", "--journal", "j", "--rounds", "1"], ["check", "--journal", "j", "--role", "em"], ["check", "--journal", "-j"]]:
    run(
        "these words are no check: " + " ".join(words),
        *[["site", MADE], go(*words), ["status", 2], ["printed", "usage: vnfm init|onboard|once|serve|check|trial|migrate\n"], ["moment", 0]],
    )
