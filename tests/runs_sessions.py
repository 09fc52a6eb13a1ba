"""The runs of one connection: its requests, each cut at every place, hostile ones, limits, and what ends it."""
from run_texts import *
from runs_commands import LIMIT

begin(__name__)

# ---- Sessions

run(
    "a creation is told once it is on the disk, in one write",
    *[["site", JOURNAL], answers(CREATE, CREATED[1]), ["file length", 157], ["file", JOURNALS[1]]],
)


run(
    "refusals are told byte by byte, in one write",
    *[["site", JOURNAL], answers(request("POST", INSTANCES, '{"vnfInstanceName":"edge-1"}'), refusal(BAD, "missing vnfdId")), ["stays"]],
    *[answers(request("POST", INSTANCES, '{"vnfdId":7}'), refusal(BAD, "bad vnfdId")), ["stays"]],
    *[answers(request("POST", INSTANCES), refusal(BAD, "malformed JSON")), ["stays"]],
    *[answers(request("POST", INSTANCES, '{"vnfdId":"vnfd-2"}'), refusal(UNPROCESSABLE, "vnfdId is not onboarded")), ["stays"]],
    *[answers(request("GET", "/vnflcm/v1/vnf_packages", ""), refusal(NOT_FOUND, "no such resource")), ["stays"]],
    *[answers(request("GET", "/", None, CLOSE), refusal(NOT_FOUND, "no such resource", CLOSE)), ["stays"]],
    *[answers("GET  / HTTP/1.1\r\n\r\n", refusal(BAD, "malformed request", CLOSE)), ["stays"]],
)
THREE = [CREATE] * 3
THREE_CREATIONS = [["site", JOURNAL], ["pieces", len(CREATE_TEXT)], once(THREE, told(3)), ["life", [], []], ["pieces", 65_536]]
GOES_ON = [act for n in range(4) for act in at_records(n, n, once(CREATE, CREATED[n + 1]), ["file", JOURNALS[n + 1]])]
run(
    "a stop at each moment of a session leaves what was acknowledged",
    *[*THREE_CREATIONS, *[["each stop", choice, *GOES_ON] for choice in CHOICES]],
)
run(
    "each disk call that fails ends the session",
    *THREE_CREATIONS,
    [
        *["each fault", ["site", JOURNAL], once(THREE), ["fallen"], ["unopened", ["told", ""]]],
        *[["at calls", 4 * n, 4 * n + 3, ["told", [*told(n), FAULT]]] for n in range(3)],
        *GOES_ON,
    ],
)


def ends_early(read, write, heard, made):
    return [
        *[["site", JOURNAL], ["pieces", len(CREATE_TEXT)], ["bad door", read, write, THREE], ["once"], ["status", 0], ["ended"]],
        *[["clock", made + 1], ["told", told(heard)], ["file", JOURNALS[made]]],
    ]


for number in range(1, 5):
    run("read %d that fails ends the session" % number, *ends_early(number, 0, number - 1, number - 1))
    run("write %d that fails ends the session" % number, *ends_early(0, number, number - 1, min(number, 3)))


def in_pieces(text, size, answer, made):
    return [["site", JOURNAL], ["pieces", size], once(text, answer), ["clock", made + 1], ["file", JOURNALS[made]]]


CHUNKS = '14\r\n{"vnfdId":"vnfd-1","\r\n1a;x\r\nvnfInstanceName":"edge-1"}\r\n0\r\n\r\n'
CHUNKED = request("POST", INSTANCES, None, "Transfer-Encoding: chunked\r\n") + CHUNKS
CLOSING = request("POST", INSTANCES, BODY, CLOSE)
OLD = request("POST", INSTANCES, BODY).replace("HTTP/1.1", "HTTP/1.0")
for size in 1, 7, 200, 65_536:
    run("two requests are answered in pieces of %d" % size, *in_pieces([CREATE, CHUNKED], size, told(2), 2))
for size in 1, 65_536:
    run(
        "no request is answered behind the last one, in pieces of %d" % size,
        *[*in_pieces([CLOSING, CREATE], size, LAST_CREATED, 1), *in_pieces([OLD, CREATE], size, LAST_CREATED, 1)],
    )
run(
    "a request that does not end is told nothing",
    [
        *["each front", "FRONT", CREATE, ["site", JOURNAL], once([CREATE, "$FRONT"], CREATED[1]), ["clock", 2], ["file", JOURNALS[1]]],
        *[["site", JOURNAL], once("$FRONT", ""), ["clock", 1], ["file", JOURNAL]],
    ],
)


def behind_a_request(text, answer):
    whole = [CREATE, *(text if isinstance(text, list) else [text]), CREATE]
    return [act for size in (1, 65_536) for act in in_pieces(whole, size, [CREATED[1], answer], 1)]


for text in [
    *["\0\0\0\0", "GET  / HTTP/1.1\r\n\r\n", "POST / HTTP/1.1\r\nContent-Length: 5\r\nContent-Length: 5\r\n\r\nhello"],
    *["POST / HTTP/1.1\r\nContent-Length: 5\r\nTransfer-Encoding: chunked\r\n\r\nhello", "POST / HTTP/1.1\r\nContent-Length: +5\r\n\r\nhello"],
    "POST / HTTP/1.1\r\nTransfer-Encoding: gzip\r\n\r\nhello",
    "POST / HTTP/1.1\r\nTransfer-Encoding: chunked\r\n\r\n5\r\nhello!\r\n0\r\n\r\n",
]:
    run("bytes that are no request end the connection: %r" % text[:40], *behind_a_request(text, MALFORMED))
run(
    "a head past a limit ends the connection",
    *behind_a_request(["GET / HTTP/1.1\r\na:", {"times": 16_385 - 22, "of": "x"}, "\r\n\r\n"], TOO_LARGE),
    *behind_a_request(["GET / HTTP/1.1", {"times": 65, "of": "\r\na:b"}, "\r\n\r\n"], TOO_LARGE),
    *behind_a_request("POST / HTTP/1.1\r\nContent-Length: 1048577\r\n\r\n", TOO_LARGE),
)


def long_creation(length):
    """A request to create an instance whose body has this length, with spaces behind it."""
    return [request("POST", INSTANCES, None, "Content-Length: %d\r\n" % length) + BODY, {"times": length - len(BODY), "of": " "}]


run(
    "a body has 1,048,576 bytes and no more",
    *[*in_pieces([*long_creation(LIMIT), CREATE], 65_536, told(2), 2), *in_pieces(long_creation(LIMIT + 1), 65_536, TOO_LARGE, 0)],
)
run(
    "a creation is answered, and a repeat is one more",
    *[["site", JOURNAL], once(CREATE, CREATED[1]), ["printed", "done after 1 rounds\n"], ["clock", 2], ["file length", 157]],
    *[["file", JOURNALS[1]], once(CREATE, CREATED[2]), ["file length", 199], ["file", JOURNALS[2]]],
)


def creation(*parts):
    """A request to create an instance with this body."""
    length = sum(len(it) if isinstance(it, str) else it["times"] for it in parts)
    return [request("POST", INSTANCES, None, "Content-Length: %d\r\n" % length), *parts]


run(
    "a body is refused for its first fault",
    ["site", JOURNAL],
    *[
        act
        for body, detail in [
            *[("{", "malformed JSON"), ("", "malformed JSON"), ("[]", "malformed JSON"), ('{"vnfdId":"\xff"}', "malformed JSON")],
            *[('{"vnfdId":"v"} x', "malformed JSON"), ("{}", "missing vnfdId"), ('{"vnfdId":null}', "missing vnfdId")],
            *[('{"vnfdId":7}', "bad vnfdId"), ('{"vnfdId":""}', "bad vnfdId"), ('{"vnfdId":"a\\nb"}', "bad vnfdId")],
            *[('{"vnfInstanceName":7}', "missing vnfdId"), ('{"vnfdId":"v","vnfInstanceName":"\\u0001"}', "bad vnfInstanceName")],
            ('{"vnfdId":"v","vnfInstanceName":"\\u007f"}', "bad vnfInstanceName"),
            ('{"vnfdId":"v","vnfInstanceDescription":[]}', "bad vnfInstanceDescription"),
            *[('{"vnfdId":"v"', "malformed JSON"), ('{"vnfInstanceName":7,"vnfInstanceDescription":7}', "missing vnfdId")],
            *[('{"vnfdId":"v","vnfdId":null}', "missing vnfdId"), ('{"vnfdId":"","vnfInstanceName":7}', "bad vnfdId")],
            ('{"vnfInstanceDescription":7,"vnfInstanceName":[],"vnfdId":"v"}', "bad vnfInstanceName"),
            ('{"vnfInstanceDescription":"\\n","vnfInstanceName":"n","vnfdId":"v"}', "bad vnfInstanceDescription"),
            ('{"vnfInstanceDescription":"d","vnfInstanceName":"\\u007f","vnfdId":"v"}', "bad vnfInstanceName"),
        ]
        for act in (once(creation(body)), refused(BAD, detail))
    ],
    *[
        act
        for body in [
            *['{"vnfdId":"v"}', '{"vnfInstanceDescription":null,"vnfInstanceName":null,"vnfdId":"v"}', '{"vnfdId":7,"vnfdId":"v"}'],
            '{"vnfInstanceDescription":"","vnfInstanceName":"","vnfdId":"v","x":1.5}',
        ]
        for act in (once(creation(body)), refused(UNPROCESSABLE, "vnfdId is not onboarded"))
    ],
)


def named(letters):
    return creation('{"vnfdId":"', {"times": letters, "of": "v"}, '"}')


def nested(arrays):
    return creation('{"vnfdId":"vnfd-1","x":', {"times": arrays, "of": "["}, {"times": arrays, "of": "]"}, "}")


def is_taken(text):
    return [["site", JOURNAL], once(text), ["status", 0], ["told front", "HTTP/1.1 201 Created\r\n"], ["grown", 35]]


run(
    "bodies at the limits are judged",
    *[["site", JOURNAL], once(named(255)), refused(UNPROCESSABLE, "vnfdId is not onboarded"), once(named(256)), refused(BAD, "bad vnfdId")],
    *[once(nested(127)), refused(BAD, "malformed JSON"), once(creation('{"vnfdId":"v","vnfdId":7}')), refused(BAD, "bad vnfdId")],
    *[*is_taken(nested(126)), *is_taken(creation('{"vnfdId":7,"vnfdId":"vnfd-1"}'))],
)
run(
    "a name is written by the rule of JSON",
    *[["site", JOURNAL], once(creation('{"vnfdId":"vnfd-1","vnfInstanceName":"a\\"b\\\\c\xc2\x80\xc3\xa9\xc2\x9fd"}'))],
    ["told front", "HTTP/1.1 201 Created\r\n"],
    ["told part", '"vnfInstanceName":"a\\"b\\\\c\xc2\x80\xc3\xa9\xc2\x9fd","vnfProductName"'],
)


# ---- Hostile connections, cut at every place


def cuts(text, answer):
    return [
        *[["cuts", text], go("once", "--journal", "j", "--rounds", str(len(text) + 1)), ["status", 0]],
        *[["alike", len(text) + 1], ["told", answer], ["stays"]],
    ]


def hostile(title, file, rows):
    for number, (text, answer) in enumerate(rows, 1):
        run("%s, %d" % (title, number), ["site", file], *cuts(text, answer))


POST = "POST / HTTP/1.1\r\n"
CHUNKS_OF = POST + "Transfer-Encoding: chunked\r\n\r\n"
NO_REQUESTS = [
    *["\0\0", "\x16\x03\x01\x00\xa5", "GET  / HTTP/1.1\r\n\r\n", "GET /\r\n\r\n", "GET / HTTP/2.0\r\n\r\n", "G@T / HTTP/1.1\r\n\r\n"],
    *["GET / HTTP/1.1\r\na b: c\r\n\r\n", "GET / HTTP/1.1\r\na: b\r\n c: d\r\n\r\n", "GET / HTTP/1.1\r\na: \x01\r\n\r\n"],
    *[POST + "Content-Length: %s\r\n\r\nhello" % it for it in ("5\r\nContent-Length: 5", "5\r\nTransfer-Encoding: chunked", "+5", "-5", "5, 5")],
    *[POST + "Content-Length: \r\n\r\n", POST + "Transfer-Encoding: gzip\r\n\r\nhello", POST + "Transfer-Encoding: gzip, chunked\r\n\r\n0\r\n\r\n"],
    *[CHUNKS_OF + it for it in ("+5\r\nhello\r\n0\r\n\r\n", "10000000000000000\r\n", "5\r\nhello!\r\n0\r\n\r\n")],
]
hostile("what is no request is malformed at every cut", JOURNAL, [(it, MALFORMED) for it in NO_REQUESTS])
TOO_MUCH = [POST + "Content-Length: %s\r\n\r\n" % it for it in ("1048577", "18446744073709551616")]
TOO_MUCH += [CHUNKS_OF + it for it in ("100001\r\n", "1;x\r\n{\r\n100000\r\n", "ffffffffffffffff\r\n")]
hostile("what announces too much is too large at every cut", JOURNAL, [(it, TOO_LARGE) for it in TOO_MUCH])
hostile(
    *["a hostile path or identifier is refused at every cut", JOURNALS[1]],
    [
        (request("GET", "/vnflcm/v1/../v1/vnf_instances"), NO_RESOURCE),
        (request("POST", INSTANCES + "/", "{"), NO_RESOURCE),
        (request("PATCH", INSTANCE % 1), ONLY_DELETE_GET),
        (request("GET", (INSTANCE % 1).replace("766d", "766D")), NO_INSTANCE),
        (request("GET", (INSTANCE % 1).replace("8001-", "8002-")), NO_INSTANCE),
        (request("GET", (INSTANCE % 1).replace("00000007", "00000008")), NO_INSTANCE),
        (request("DELETE", INSTANCE % 0), NO_INSTANCE),
        (request("DELETE", INSTANCE % 1 + "0"), NO_INSTANCE),
        (request("GET", INSTANCES + "?filter=%00"), NO_FILTER),
    ],
)
hostile(
    *["a hostile body is refused at every cut", JOURNAL],
    [
        (request("POST", INSTANCES, "{}", "Content-Type: text/plain\r\n"), NOT_JSON),
        *[(request("POST", INSTANCES, it), NO_JSON) for it in ('{"vnfdId":"\xff"}', '{"vnfdId":"a\nb"}')],
        (request("POST", INSTANCES, None, "Transfer-Encoding: chunked\r\n") + "2\r\n[]\r\n0\r\n\r\n", NO_JSON),
        *[(request("POST", INSTANCES, it), BAD_VNFD) for it in ('{"vnfdId":"a\\nb"}', '{"vnfdId":true}')],
        (request("POST", INSTANCES, "{}"), NO_VNFD),
        (request("POST", INSTANCES, '{"vnfdId":"vnfd-2"}', "Content-Type: APPLICATION/JSON; charset=utf-8\r\n"), UNKNOWN_VNFD),
        (request("POST", INSTANCES, '{"vnfdId":"vnfd-2"}'), UNKNOWN_VNFD),
    ],
)


# What is told to connections, cut at every place: nothing where the bytes end within a request, and nothing behind a request that is the last.
SHORT = POST + "Content-Length: 5\r\n\r\n"
IN_CHUNKS = POST + "Transfer-Encoding: Chunked\r\n\r\n5;e=1\r\nhello\r\n0\r\nT: 1\n\n"
FIELDS = {n: "GET / HTTP/1.1\r\n" + "a:b\r\n" * n + "\r\n" for n in (64, 65)}
hostile(
    *["requests are taken alike at every cut", JOURNAL],
    [
        *[("", ""), (request("GET", "/"), NO_RESOURCE), ("\r\nGET / HTTP/1.1\n\n", NO_RESOURCE), ("GET / HTTP/1.1\r\n", "")],
        *[(SHORT + "hello", NO_RESOURCE), (SHORT + "hell", ""), (IN_CHUNKS, NO_RESOURCE), (CHUNKS_OF + "5\r\nhello\r\n0\r\nT: 1\n", "")],
        *[(CHUNKS_OF + "5 \r\nhello\r\n\r\n", MALFORMED), (CHUNKS_OF + "100001", ""), (CHUNKS_OF + "100001x", MALFORMED)],
        (request("GET", "/a", None, CLOSE) + request("GET", "/b"), LAST_NO_RESOURCE),
        (request("GET", "/a") + "GET /b HTTP/1.0\r\n\r\n" + request("GET", "/c"), [NO_RESOURCE, LAST_NO_RESOURCE]),
        *[(FIELDS[64], NO_RESOURCE), (FIELDS[65], TOO_LARGE)],
    ],
)
for size in 1, 2, 7, 64, 100, 65_536:
    run(
        "heads at their limit, and requests behind each other, are taken alike in pieces of %d" % size,
        *[["site", JOURNAL], ["pieces", size]],
        once(["GET / HTTP/1.1\r\na:", {"times": 16_384 - 22, "of": "x"}, "\r\n\r\n"], NO_RESOURCE),
        once(["GET / HTTP/1.1\r\na:", {"times": 16_385 - 22, "of": "x"}, "\r\n\r\n"], TOO_LARGE),
        once([CREATE, CHUNKED, request("GET", "/", None, "Connection: a, Close\r\n"), CREATE], [*told(2), LAST_NO_RESOURCE]),
        ["file", JOURNALS[2]],
    )
CHUNK = ["10000\r\n", {"times": 65_536, "of": "x"}, "\r\n"]
ONE_CHUNK = ["\r\n", {"times": LIMIT, "of": "x"}, "\r\n0\r\n\r\n"]
for size in 1_000, 65_536, 2_000_000:
    run(
        "bodies of the greatest length are taken, and longer ones are too large, in pieces of %d" % size,
        *[["site", JOURNAL], ["pieces", size]],
        once([POST + "Content-Length: 1048576\r\n\r\n", {"times": LIMIT, "of": "x"}], NO_RESOURCE),
        once([CHUNKS_OF, *CHUNK * 16, "0\r\n\r\n"], NO_RESOURCE),
        once([CHUNKS_OF, "100000", *ONE_CHUNK], NO_RESOURCE),
        once([POST + "Content-Length: 1048576\r\n\r\n", {"times": LIMIT - 1, "of": "x"}], ""),
        once([POST + "Content-Length: 1048577\r\n\r\n", {"times": LIMIT + 1, "of": "x"}], TOO_LARGE),
        once([CHUNKS_OF, *CHUNK * 16, "1\r\nx\r\n0\r\n\r\n"], TOO_LARGE),
        once([CHUNKS_OF, "100001\r\nx", *ONE_CHUNK[1:]], TOO_LARGE),
    )
run(
    "a read that fails within a request ends the connection",
    *[["site", JOURNAL], ["pieces", 16], ["bad door", 3, 0, SHORT + "hello"], ["once"], ["status", 0], ["ended"], ["told", ""], ["stays"]],
)

def long_body(front, text, times, back=""):
    length = len(front) + len(text) * times + len(back or "")
    return [request("POST", INSTANCES, None, "Content-Length: %d\r\n" % length) + front, {"times": times, "of": text}, back]


DEEP = long_body('{"vnfdId":"vnfd-1","x":', "[", 128, "]" * 128 + "}")
run(
    "what is too long is refused byte by byte",
    *[["site", JOURNAL], ["pieces", 1]],
    *[once(["GET / HTTP/1.1\r\na:", {"times": 16_385 - 22, "of": "x"}, "\r\n\r\n"], TOO_LARGE), ["stays"]],
    *[once(["GET / HTTP/1.1\r\n", {"times": 65, "of": "a:b\r\n"}, "\r\n"], TOO_LARGE), ["stays"]],
    *[once(DEEP, NO_JSON), ["stays"], once(long_body('{"vnfdId":"', "v", 256, '"}'), BAD_VNFD), ["stays"]],
)
CAPITALS = request("POST", INSTANCES, BODY, "Content-Type: APPLICATION/JSON; charset=utf-8\r\n")
run(
    "a media type in capitals with a parameter is taken byte by byte",
    *[["site", JOURNAL], ["pieces", 1], once(CAPITALS, CREATED[1]), ["file", JOURNALS[1]]],
)
run(
    "the 65,536th request of a connection is its last",
    *[["site", JOURNAL], ["pieces", 65_536]],
    once({"times": 65_537, "of": request("GET", "/")}, [{"times": 65_535, "of": NO_RESOURCE}, LAST_NO_RESOURCE]),
    ["stays"],
)
