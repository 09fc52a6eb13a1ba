#!/usr/bin/env python3
"""Measures what serving a connection takes by the pieces that it comes in: by `vnfm once` over a pipe of packets, where a read gives one piece, so that a
line that breaks off is gone on with at each of them. Processor time, with what the reads take of the system; the first rows are of `wc -c`, which does nothing
but read.

usage: bench/session/pieces.py [VNFM]
"""
import fcntl
import os
import pathlib
import shutil
import subprocess
import sys

sys.path.append(str(pathlib.Path(__file__).resolve().parent.parent))
import measuring
import stream

MIB = 1_048_576
SIZES = MIB, 4 * MIB, 8 * MIB - 64
PIECES = 1, 100, 1_024, 8_192
CHUNKED = stream.NOWHERE + b"Transfer-Encoding: chunked\r\n\r\n"
F_SETPIPE_SZ = 1031
vnfm = measuring.built("vnfm")


def chunk(line, size):
    return line + b"\r\n" + b" " * size + b"\r\n"


# Connections of one request each, of the bytes of a chunked body, and what is told of each.
SHAPES = {
    # Blanks behind the one digit of a size line.
    "size line": lambda size: CHUNKED + chunk(b"1" + b" " * size, 1) + b"0\r\n\r\n",
    "extension": lambda size: CHUNKED + chunk(b"1;" + b"a" * size, 1) + b"0\r\n\r\n",
    # Blanks up to the limit less the longest content, and then that content: the line isn't to be looked at again while the content comes.
    "long line, then content": lambda size: CHUNKED + chunk(b"%x" % min(MIB, size // 2) + b" " * (size - min(MIB, size // 2)), min(MIB, size // 2)) + b"0\r\n\r\n",
    "trailer": lambda size: CHUNKED + b"0\r\n" + b"a" * size + b"\r\n\r\n",
    "lines of a trailer": lambda size: CHUNKED + b"0\r\n" + b"a\n" * (size // 2) + b"\r\n",
    "one chunk": lambda size: CHUNKED + chunk(b"%x" % min(size, MIB), min(size, MIB)) + b"0\r\n\r\n",
    "small chunks": lambda size: CHUNKED + chunk(b"1", 1) * (min(size, 6 * MIB) // 6) + b"0\r\n\r\n",
    "by length": lambda size: stream.NOWHERE + b"Content-Length: %d\r\n\r\n" % min(size, MIB) + b" " * min(size, MIB),
}
# Only these have sizes past that of a body.
LONG = "size line", "extension", "long line, then content", "trailer", "lines of a trailer"


# The front of a head, of which the rest is one value.
HEADS = {
    "a target": b"GET /" + b"a" * 16_300 + b" HTTP/1.1\r\n",
    "a value": b"GET / HTTP/1.1\r\n",
    "a name": b"GET / HTTP/1.1\r\n" + b"n" * 16_300 + b": v\r\n",
    "a method": b"M" * 16_300 + b" / HTTP/1.1\r\n",
    "empty lines": b"\r\n" * 8_150 + b"GET / HTTP/1.1\r\n",
    "62 names of 252 bytes": b"GET / HTTP/1.1\r\n" + b"".join(b"a%02d" % n + b"n" * 249 + b": v\r\n" for n in range(62)),
    # More than 64 fields, which is told where the head is whole.
    "5,440 fields of 3 bytes": b"GET / HTTP/1.1\r\n" + b"a:\n" * 5_440,
}


def written(connection, piece, end):
    """Writes a connection to a pipe of packets, one a piece."""
    view = memoryview(connection)
    for at in range(0, len(connection), piece):
        try:
            os.write(end, view[at : at + piece])
        except BrokenPipeError:
            break
    os.close(end)


def seconds(command, connection, piece, answer):
    """The processor time of a command over a connection in such pieces; it must tell this answer."""
    heard, told = os.pipe2(os.O_DIRECT)
    fcntl.fcntl(told, F_SETPIPE_SZ, MIB)
    before = measuring.used()
    with subprocess.Popen(command, stdin=heard, stdout=subprocess.PIPE, stderr=subprocess.DEVNULL) as program:
        os.close(heard)
        written(connection, piece, told)
        said = program.stdout.read()
    took = measuring.used() - before
    if not said.startswith(answer):
        sys.exit(f"{said[:60]!r} in pieces of {piece}")
    return took


def main():
    with measuring.room() as room:
        made, journal = room / "made", room / "journal"
        measuring.run([vnfm, "init", "--journal", made, "--manager", "7"])

        def cost(connection, piece, answer):
            shutil.copyfile(made, journal)
            return seconds([vnfm, "once", "--journal", journal], connection, piece, answer)

        def read_alone(connection, piece, answer):
            return seconds(["wc", "-c"], connection, piece, answer)

        def costs(shape, bytes, cost, answer):
            whole = min(cost(bytes, 65_536, answer) for _ in range(3))
            cells = []
            for piece in reversed(PIECES):
                took = min(cost(bytes, piece, answer) for _ in range(1 if piece == 1 else 3))
                more = (took - whole) / (len(bytes) / piece - len(bytes) / 65_536)
                cells.append(f"{took * 1e3:.0f} ({more * 1e6:.2f})")
            measuring.row(shape, len(bytes), f"{whole * 1e3:.0f}", *cells)

        measuring.head("Shape", "Bytes", "In pieces of 65,536, ms", *(f"of {piece:,}, ms (us a read more)" for piece in reversed(PIECES)))
        for size in SIZES:
            costs("reads alone", b" " * size, read_alone, b"%d" % size)
        for shape, connection in SHAPES.items():
            for size in SIZES if shape in LONG else SIZES[:1]:
                costs(shape, connection(size), cost, b"HTTP/1.1 404")
        measuring.head("Head of 16,384 bytes, most of it", "In pieces of 65,536, ms", "of 1, ms")
        for kind, lines in HEADS.items():
            front = lines + b"b: "
            bytes = front + b"v" * (16_384 - len(front) - 4) + b"\r\n\r\n"
            measuring.row(kind, *(f"{min(cost(bytes, piece, b'HTTP/1.1 4') for _ in range(3)) * 1e3:.1f}" for piece in (65_536, 1)))


main()
