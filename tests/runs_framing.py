"""The runs of hostile framing: lines of a chunked body that break off at every place, heads and targets at their limit, and chunked bodies as long as
they may be.
"""
RUNS = []
JOURNAL, NO_RESOURCE, MALFORMED, TOO_LARGE = "$JOURNAL", "$NO_RESOURCE", "$MALFORMED", "$TOO_LARGE"
CHUNKS_OF = "POST / HTTP/1.1\r\nTransfer-Encoding: chunked\r\n\r\n"
HEAD_BYTES = 16_384
CHUNKED_BYTES = 8_388_608


def run(title, *acts):
    RUNS.append([title, *acts])


def cuts(text, answer):
    """The text comes byte by byte, and in two pieces, cut at each place, and is answered the same."""
    return [
        *[["cuts", text], ["go", "once", "--journal", "j", "--rounds", str(len(text) + 1)], ["status", 0]],
        *[["alike", len(text) + 1], ["told", answer], ["stays"]],
    ]


def pieces(sizes, rows):
    """Each text comes in pieces of each of these sizes, and is answered so."""
    return [act for size in sizes for text, answer in rows for act in ([["pieces", size], ["once", text, answer], ["stays"]])]


# A size line has 1 to 16 digits, then blanks, then an extension without CR and LF, and CR LF. A line of a trailer ends in LF, and is empty where
# nothing or one CR stands before it.
TAKEN = [
    *["005 \t;e=1;f\"x\r\nhello\r\n0 ;z\r\nT: 1\r\nU\r\r\n\r\n", "0000000000000005\r\nhello\r\n000\r\n\n", "5;\r\nhello\r\n1\t\t\r\n\n\r\n0\r\n\r\r\n\r\n"],
    *["a;\0\x80\xff\r\n5\r\nhello\r\n\r\n0\r\n: \0\n\r\n", "5\r\nhello\r\n0\r\n" + "a\n" * 20 + "\n"],
]
REFUSED = ["\r\n", ";x\r\n", " 5\r\n", "x", "5x", "5 x", "5 5\r\n", "5\n", "5 \n", "5;a\n", "5;a\rb", "5\r\r\n", "5 \r;\n", "00000000000000005\r\n", "0\n\r\n"]
OPEN = ["5", "0000000000000005", "5 ", "5 \t", "5;", "5;aaaa", "5;a\r", "5\r", "0\r\n", "0\r\nT", "0\r\nT\r\n", "0\r\n\r", "0\r\nT\n\r"]
for answer, lines, title in (NO_RESOURCE, TAKEN, "taken"), (MALFORMED, REFUSED, "malformed"), ("", OPEN, "told nothing"):
    for number, text in enumerate(lines, 1):
        run("the lines of a chunked body are %s at every cut, %d" % (title, number), ["site", JOURNAL], *cuts(CHUNKS_OF + text, answer))

# More bytes than a head may have are too large at once, wherever they are cut, also where they stop in a request target; no more are a part of one.
TARGET = "GET /"
LETTERS = HEAD_BYTES - len(TARGET)
run(
    "a target is too large where more bytes come than a head may have",
    ["site", JOURNAL],
    *pieces(
        [1, 4_096, HEAD_BYTES - 1, HEAD_BYTES, HEAD_BYTES + 1, 65_536],
        [
            *[([TARGET, {"times": LETTERS, "of": "a"}], ""), ([TARGET, {"times": LETTERS + 1, "of": "a"}], TOO_LARGE)],
            *[([TARGET, {"times": 20_000, "of": "a"}], TOO_LARGE), ([TARGET, {"times": 20_000, "of": "a"}, " HTTP/1.1\r\n\r\n"], TOO_LARGE)],
            *[([TARGET, {"times": LETTERS - 13, "of": "a"}, " HTTP/1.1\r\n\r\n"], NO_RESOURCE), ([TARGET, "\xff HTTP/1.1\r\n\r\n"], MALFORMED)],
            ([TARGET, {"times": LETTERS - 12, "of": "a"}, " HTTP/1.1\r\n\r\n"], TOO_LARGE),
        ],
    ),
)
run(
    "a head is too large where more bytes come than it may have",
    ["site", JOURNAL],
    *pieces(
        [64, 4_096, HEAD_BYTES - 1, HEAD_BYTES, HEAD_BYTES + 1, 65_536],
        [
            *[({"times": HEAD_BYTES, "of": "\n"}, ""), ({"times": HEAD_BYTES + 1, "of": "\n"}, TOO_LARGE)],
            *[(["GET / HTTP/1.1\r\n", {"times": 64, "of": "a:\n"}, "\n"], NO_RESOURCE), (["GET / HTTP/1.1\r\n", {"times": 65, "of": "a:\n"}, "\n"], TOO_LARGE)],
            *[(["GET / HTTP/1.1\r\n", {"times": 5_456, "of": "a:\n"}], ""), (["GET / HTTP/1.1\r\n", {"times": 5_457, "of": "a:\n"}], TOO_LARGE)],
            (["GET / HTTP/1.1\r\n", {"times": 5_000, "of": "a:\n"}, "a b:\n"], MALFORMED),
        ],
    ),
)

# All bytes of a chunked body count: those of its size lines with their blanks and extensions, and those of its trailer.
ENDED = "\r\n0\r\n\r\n"
LIMITS = {
    "blanks": lambda over: ["5", {"times": CHUNKED_BYTES + over - len("5\r\nhello" + ENDED), "of": " "}, "\r\nhello" + ENDED],
    "an extension": lambda over: ["5;", {"times": CHUNKED_BYTES + over - len("5;\r\nhello" + ENDED), "of": "a"}, "\r\nhello" + ENDED],
    "a line of the trailer": lambda over: ["0\r\n", {"times": CHUNKED_BYTES + over - len("0\r\n\n\n"), "of": "a"}, "\n\n"],
    "lines of the trailer": lambda over: ["0\r\n", {"times": (CHUNKED_BYTES + over - len("0\r\n\n")) // 2, "of": "a\n"}, *["\r"] * (over % 2), "\n"],
}
for title, body in LIMITS.items():
    run(
        "a chunked body has 8,388,608 bytes and no more, with %s" % title,
        ["site", JOURNAL],
        *pieces([8_192], [([CHUNKS_OF, *body(0)], NO_RESOURCE), ([CHUNKS_OF, *body(1)], TOO_LARGE)]),
    )
