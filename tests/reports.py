#!/usr/bin/env python3
"""vnfm_history over journals of its own: its lines beside those of tests/told.py, of all that happened and of what is chosen; its page, which is
looked through by the parser of Python's library; what it says where it can't report; that it makes and writes nothing; and how long a million events
take.

    python3 tests/reports.py [--program PATH] [--events N]

Without --program it runs ./vnfm_history, which is built first where it isn't. It prints what it saw, and ends with 1 where that differs from what is
wanted.
"""
import argparse
import fcntl
import hashlib
import html.parser
import os
import pathlib
import re
import stat
import struct
import subprocess
import sys
import tempfile
import time

import history
import told

HERE = pathlib.Path(__file__).resolve().parent.parent
USAGE = "usage: vnfm_history --journal PATH [--instance ID] [--occurrence ID] [--html]\n"
# Elements that have no end, of those that a page may have.
EMPTY = {"meta"}


class Page(html.parser.HTMLParser):
    """Whether the elements of a page nest, which they are, and what stands between them."""

    def __init__(self, text):
        super().__init__(convert_charrefs=True)
        self.open, self.names, self.texts, self.outside, self.wrong = [], {}, [], [], []
        self.feed(text)
        self.close()
        if self.open:
            self.wrong.append("left open: %s" % self.open)

    def handle_starttag(self, tag, attributes):
        self.names[tag] = self.names.get(tag, 0) + 1
        self.outside += [value for name, value in attributes if name in ("src", "href", "action") or name.startswith("on")]
        if tag not in EMPTY:
            self.open.append(tag)

    def handle_endtag(self, tag):
        if not self.open or self.open.pop() != tag:
            self.wrong.append("ends: %s" % tag)

    def handle_data(self, data):
        self.texts.append(data)


class Trial:
    def __init__(self, program, room):
        self.program, self.room, self.differs = program, room, False

    def expect(self, what, seen, wanted):
        print("%s: %s" % (what, str(seen)[:300]))
        if seen != wanted:
            print("  wanted: %s" % str(wanted)[:300])
            self.differs = True

    def run(self, *words, **how):
        return subprocess.run([self.program, *words], stdin=subprocess.DEVNULL, capture_output=True, text=True, **how)

    def journal(self, name, data):
        path = self.room / name
        path.write_bytes(data)
        return path

    def says(self, what, status, line, *words, **how):
        ended = self.run(*words, **how)
        self.expect(what, (ended.returncode, ended.stderr, ended.stdout), (status, line, ""))

    def lines(self, what, path, *words, instance=None, occurrence=None):
        ended = self.run("--journal", str(path), *words)
        wanted = told.Lines(path.read_bytes()).chosen(instance, occurrence)
        same = ended.stdout == "".join(line + "\n" for line in wanted)
        self.expect(what, (ended.returncode, ended.stderr, len(ended.stdout.split("\n")) - 1, same), (0, "", len(wanted), True))

    def page(self, what, path, *words, has=()):
        ended = self.run("--journal", str(path), "--html", *words)
        page = Page(ended.stdout)
        self.expect(what + ", status", (ended.returncode, ended.stderr), (0, ""))
        self.expect(what + ", nests", page.wrong, [])
        self.expect(what + ", scripts and links", (page.names.get("script", 0), page.names.get("link", 0), page.names.get("img", 0), page.outside), (0, 0, 0, []))
        self.expect(what + ", addresses in its style", re.findall(r"url\(|@import|https?://(?!www\.w3\.org)", ended.stdout), [])
        whole = "".join(page.texts)
        self.expect(what + ", has", [text for text in has if text not in whole], [])
        return ended.stdout


def long_journal(events):
    """A journal of so many events, in full batches: an instance that is created and deleted again and again."""
    spelled = [bytes(entry[-1]) for entry in history.stored().entries if entry[0]][:1]
    for k in range(events - 1):
        moment = struct.pack(">Q", history.FIRST_MOMENT + k)
        number = struct.pack(">Q", k // 2 + 1)
        spelled.append(b"\2" + moment + number + b"\6vnfd-1\0\0" if k % 2 == 0 else b"\3" + moment + number)
    out, batch = [b"VNFM-LCM\2" + struct.pack(">I", history.MANAGER) + bytes(19)], []
    size = 0
    for s in spelled:
        if size + 4 + len(s) > 131_072:
            out.append(b"\1" + struct.pack(">I", size) + b"".join(batch))
            batch, size = [], 0
        batch.append(struct.pack(">I", len(s)) + s)
        size += 4 + len(s)
    out.append(b"\1" + struct.pack(">I", size) + b"".join(batch) + b"\0")
    return b"".join(out)


def reports(t):
    whole = t.journal("whole", told.stored())
    before = (hashlib.sha256(whole.read_bytes()).hexdigest(), os.stat(whole).st_mtime_ns)
    t.lines("all events", whole)
    lines = told.Lines(whole.read_bytes())
    first = lines.identifier(1, 1)
    for n in (1, 2, len(lines.instances)):
        ID = lines.identifier(1, n)
        t.lines("instance %d" % n, whole, "--instance", ID, instance=ID)
    for n in (1, 2, len(lines.occurrences)):
        ID = lines.identifier(2, n)
        t.lines("occurrence %d" % n, whole, "--occurrence", ID, occurrence=ID)
    t.lines("an instance and its occurrence", whole, "--occurrence", lines.identifier(2, 2), "--instance", first,
        instance=first, occurrence=lines.identifier(2, 2))
    empty = t.journal("empty", told.packed([]))
    t.lines("no event", empty)
    page = t.page("the page", whole, has=[first, lines.identifier(2, 1), "FAILED_TEMP", "ROLLED_BACK", "COMPLETED", "broken"])
    t.expect("the page again", t.run("--journal", str(whole), "--html").stdout == page, True)
    t.page("the page of an instance", whole, "--instance", first, has=[first])
    t.page("the page of no event", empty)
    t.expect("the file", (hashlib.sha256(whole.read_bytes()).hexdigest(), os.stat(whole).st_mtime_ns), before)
    # Texts that mean something in HTML.
    name = "<b onclick='x'>\"&amp;</b>"
    created = b"\2" + struct.pack(">QQ", history.FIRST_MOMENT, 1) + b"\6vnfd-1" + b"\1" + bytes([len(name)]) + name.encode() + b"\0"
    named = t.journal("named", told.packed([[bytes(e[-1]) for e in history.stored().entries if e[0]][0], created]))
    t.lines("a name with marks", named)
    text = t.page("the page of a name with marks", named, has=[name])
    t.expect("the mark itself", "<b onclick" in text, False)


def refusals(t):
    whole = t.journal("whole", told.stored())
    quoted = lambda path: '"%s"' % path
    t.says("no word", 2, USAGE)
    for words in (["--journal"], ["--html"], ["--journal", "a", "--journal", "b"], ["--journal", "a", "--html", "--html"], ["--journal=a"],
            ["--journal", "-a"], ["check", "--journal", "a"], ["--journal", "a", "--instance"], ["--journal", "a", "b"]):
        t.says("words: %s" % " ".join(words), 2, USAGE, *words)
    none = t.room / "none"
    t.says("no file", 3, "vnfm_history: %s: there is no such file\n" % quoted(none), "--journal", str(none))
    t.expect("no file is made", none.exists(), False)
    t.says("a folder", 3, "vnfm_history: %s: it is not a regular file\n" % quoted(t.room), "--journal", str(t.room))
    # A reader may read the file beside another, and a manager's lock keeps both away.
    with open(whole, "rb") as held:
        fcntl.flock(held, fcntl.LOCK_SH)
        t.expect("beside a reader", t.run("--journal", str(whole)).returncode, 0)
        fcntl.flock(held, fcntl.LOCK_EX)
        t.says("beside a manager", 3, "vnfm_history: %s: a manager holds its lock; copy the file, and give the copy\n" % quoted(whole), "--journal", str(whole))
    one = "00000007-766d-800%d-8000-%012x"
    lines = told.Lines(whole.read_bytes())
    for what, option, kind, line in (("instance", "--instance", 1, "no such instance"), ("occurrence", "--occurrence", 2, "no such occurrence")):
        made = len(lines.instances if kind == 1 else lines.occurrences)
        for ID in (one % (kind, made + 1), one % (3 - kind, 1), one % (kind, 0), (one % (kind, 10)).upper(), "1", ""):
            t.says("%s %r" % (what, ID), 4, "vnfm_history: %s\n" % line, "--journal", str(whole), option, ID)
    data = told.stored()
    t.says("an empty file", 5, "vnfm_history: %s: it is not a journal that vnfm init has finished\n" % quoted(t.room / "nothing"),
        "--journal", str(t.journal("nothing", b"")))
    t.says("format 1", 5, "vnfm_history: %s: it is not a journal of this format: byte 8\n" % quoted(t.room / "old"),
        "--journal", str(t.journal("old", data[:8] + b"\1" + data[9:])))
    torn = t.journal("torn", data[:-1])
    t.says("a torn end", 8, "vnfm_history: %s: bad record 601: it is broken, or isn't allowed there\n" % quoted(torn), "--journal", str(torn))
    nobody = {"user": 65534, "group": 65534, "extra_groups": []}
    shut = t.journal("shut", data)
    shut.chmod(stat.S_IRUSR)
    if os.getuid() == 0:
        shut.chmod(0o644)
        for path in (t.room, shut):
            path.chmod(path.stat().st_mode | stat.S_IROTH | (stat.S_IXOTH if path.is_dir() else 0))
        ended = t.run("--journal", str(shut), **nobody)
        t.expect("a file that may be read and not written", (ended.returncode, ended.stderr, len(ended.stdout.split("\n")) - 1), (0, "", 600))
        shut.chmod(0o600)
        t.says("a file that may not be read", 3, "vnfm_history: %s: there is no permission to read it\n" % quoted(shut), "--journal", str(shut), **nobody)
    else:
        t.expect("a file that may be read and not written", t.run("--journal", str(shut)).returncode, 0)
    with open("/dev/full", "w") as full:
        ended = subprocess.run([t.program, "--journal", str(whole)], stdout=full, stderr=subprocess.PIPE, text=True)
    t.expect("a full disk", (ended.returncode, ended.stderr), (7, "vnfm_history: the output couldn't be written\n"))
    t.expect("--version", (t.run("--version").returncode, t.run("--version").stdout), (0, "vnfm_history 0.1.0\n"))
    t.expect("--help", (t.run("--help").returncode, t.run("--help").stdout.split("\n")[0]), (0, "vnfm_history: what happened in a journal of vnfm"))


def large(t, events):
    path = t.journal("large", long_journal(events))
    begun = time.monotonic()
    ended = subprocess.run(["/usr/bin/env", "time", "-f", "%M", t.program, "--journal", str(path)], stdout=open(t.room / "out", "w"), stderr=subprocess.PIPE, text=True)
    took = time.monotonic() - begun
    with open(t.room / "out") as out:
        lines = sum(1 for _ in out)
    t.expect("%d events" % events, (ended.returncode, lines), (0, events))
    print("  %d bytes, %.1f s, %s KiB at most" % (path.stat().st_size, took, ended.stderr.strip().split("\n")[-1]))
    begun = time.monotonic()
    ended = t.run("--journal", str(path), "--instance", told.Lines(told.packed([])).identifier(1, 1))
    t.expect("one instance of them", (ended.returncode, len(ended.stdout.split("\n")) - 1), (0, 2))
    print("  %.1f s" % (time.monotonic() - begun))


def main():
    words = argparse.ArgumentParser()
    words.add_argument("--program")
    words.add_argument("--events", type=int, default=1_000_000)
    given = words.parse_args()
    program = given.program
    if program is None:
        program = str(HERE / "vnfm_history")
        if subprocess.run([program, "--version"]).returncode:
            sys.exit(1)
        program = str(HERE / ".build" / "vnfm_history")
    with tempfile.TemporaryDirectory() as room:
        t = Trial(program, pathlib.Path(room))
        reports(t)
        refusals(t)
        if given.events:
            large(t, given.events)
    sys.exit(1 if t.differs else 0)


if __name__ == "__main__":
    main()
