"""The lines that vnfm_history prints of a journal, by docs/FORMATS.md, "The history of a journal", in another language.

It reads a journal by docs/JOURNAL.md and docs/EVENTS.md, and keeps of the history only what a line needs: of each occurrence its instance and its
changes, of each instance its descriptor. It judges nothing.

    python3 tests/told.py --journal PATH [--instance ID] [--occurrence ID]      prints the lines, as the program is to
    python3 tests/told.py --store                                               writes the journal and the lines of crates/vnfm_history
"""
import argparse
import datetime
import pathlib
import struct
import sys
import uuid

import history

HEADER = 32
STATES = ["STARTING", "PROCESSING", "COMPLETED", "FAILED_TEMP", "FAILED", "ROLLING_BACK", "ROLLED_BACK"]
OPERATIONS = ["INSTANTIATE", "SCALE", "SCALE_TO_LEVEL", "HEAL", "OPERATE", "TERMINATE"]
TYPES = ["VL", "STORAGE", "COMPUTE", "LINKPORT"]
VERBS = ["create", "remove", "start", "stop"]
UNDONE = {"create": "remove", "remove": "create", "start": "stop", "stop": "start"}
WAYS = ["forward", "undo"]
ROLES = ["orchestrator", "em"]
MODES = ["GRACEFUL", "FORCEFUL"]
CREATE, REMOVE, START, STOP = range(4)
LINK, STORAGE, COMPUTE, PORT = range(4)


class Reader:
    """The values of a spelling, one after the other."""

    def __init__(self, data):
        self.data, self.at = data, 0

    def number(self, form):
        (n,) = struct.unpack_from(">" + form, self.data, self.at)
        self.at += struct.calcsize(form)
        return n

    def u8(self):
        return self.number("B")

    def u16(self):
        return self.number("H")

    def u32(self):
        return self.number("I")

    def u64(self):
        return self.number("Q")

    def text(self, length):
        self.at += length
        return self.data[self.at - length : self.at].decode()

    def name(self):
        return self.text(self.u8())

    def line(self):
        return self.text(self.u16())

    def option(self, read):
        return read() if self.u8() else None

    def many(self, read):
        return [read() for _ in range(self.u16())]

    def tag(self):
        return self.u64(), self.u16(), self.u32(), self.u8()

    def change(self):
        _phase, verb, kind, item, vdu, serial = self.u8(), self.u8(), self.u8(), self.u16(), self.u16(), self.u32()
        return verb, kind, item, vdu, serial

    def ask(self):
        kind = self.u8()
        if kind == 1:
            self.name(), self.option(self.name)
        elif kind == 2:
            self.u8(), self.name(), self.u32()
        elif kind == 3:
            self.name() if self.u8() == 0 else self.many(lambda: (self.name(), self.u32()))
        elif kind == 4:
            self.option(self.line), self.many(lambda: (self.u16(), self.u32()))
        elif kind == 5:
            self.u8(), self.u8()
        else:
            self.u8(), self.option(self.u32)
        return kind

    def descriptor(self):
        identifier = self.name()
        for _ in range(5):
            self.name()
        vdus = self.many(lambda: (self.name(), self.u64(), self.u32(), self.u32(), self.u32(), self.many(self.u16))[0])
        storages = self.many(lambda: (self.name(), self.u64())[0])
        links = self.many(self.name)
        ports = self.many(lambda: (self.name(), self.u16(), self.u16())[0])
        return identifier, {"vdus": vdus, "storages": storages, "links": links, "ports": ports}


def records(data):
    """The records of a journal."""
    place = HEADER
    while data[place] == 1:
        (size,) = struct.unpack_from(">I", data, place + 1)
        place += 5
        end = place + size
        while place < end:
            (length,) = struct.unpack_from(">I", data, place)
            yield data[place + 4 : place + 4 + length]
            place += 4 + length


def packed(spellings, manager=history.MANAGER):
    """The journal of these records, each in a batch of its own."""
    batches = b"".join(b"\1" + struct.pack(">II", len(s) + 4, len(s)) + s for s in spellings)
    return b"VNFM-LCM\2" + struct.pack(">I", manager) + bytes(19) + batches + b"\0"


def moment(ms):
    whole = datetime.datetime(1970, 1, 1) + datetime.timedelta(milliseconds=ms)
    return whole.strftime("%Y-%m-%dT%H:%M:%S.") + "%03dZ" % (ms % 1000)


class Lines:
    """The lines of a journal's events."""

    def __init__(self, data):
        (self.manager,) = struct.unpack_from(">I", data, 9)
        self.descriptors, self.instances, self.occurrences = {}, {}, {}
        self.lines = [self.event(n, Reader(r)) for n, r in enumerate(records(data), 1)]

    def identifier(self, kind, n):
        return str(uuid.UUID(bytes=struct.pack(">I4BQ", self.manager, 0x76, 0x6D, 0x80, kind, 2**63 + n)))

    def instance(self, n):
        return " vnfInstanceId " + self.identifier(1, n)

    def occurrence(self, n):
        return " vnfLcmOpOccId " + self.identifier(2, n)

    def subscription(self, n):
        return " subscriptionId " + self.identifier(3, n)

    def attempt(self, tag):
        occ, number, attempt, way = tag
        of, changes = self.occurrences[occ]
        verb, kind, item, vdu, serial = changes[number]
        names = self.descriptors[self.instances[of]]
        if kind == LINK:
            resource = names["links"][item]
        else:
            resource = "%s-%d" % (names["vdus"][vdu], serial)
            resource += {STORAGE: lambda: "/" + names["storages"][item], PORT: lambda: "/" + names["ports"][item]}.get(kind, str)()
        done = VERBS[verb] if way == 0 else UNDONE[VERBS[verb]]
        return "%s change %d attempt %d %s %s %s %s" % (self.occurrence(occ), number, attempt, WAYS[way], done, TYPES[kind], resource)

    def event(self, n, r):
        """The line of an event, with the instance and the occurrence that it is about."""
        kind, when = r.u8(), moment(r.u64())
        about, occ = None, None
        if kind == 1:
            identifier, names = r.descriptor()
            self.descriptors[identifier] = names
            words = "ONBOARDED vnfdId " + identifier
        elif kind == 2:
            about, vnfd, name = r.u64(), r.name(), r.option(r.name)
            self.instances[about] = vnfd
            words = "CREATED" + self.instance(about) + " vnfdId " + vnfd + ("" if name is None else " vnfInstanceName " + name)
        elif kind == 3:
            about = r.u64()
            words = "DELETED" + self.instance(about)
        elif kind == 4:
            occ, about, role, ask = r.u64(), r.u64(), r.u8(), r.ask()
            changes = r.many(r.change)
            self.occurrences[occ] = about, changes
            words = "STARTING%s%s operation %s changes %d by %s" % (
                self.occurrence(occ), self.instance(about), OPERATIONS[ask - 1], len(changes), ROLES[role])
        elif kind in (13, 14, 15):
            subscription = r.u64()
            if kind == 13:
                words = "SUBSCRIBED%s by %s callbackUri %s" % (self.subscription(subscription), ROLES[r.u8()], r.line())
            elif kind == 14:
                words = "UNSUBSCRIBED" + self.subscription(subscription)
            else:
                place, how = r.u64(), r.u8()
                words = "%s%s event %d" % (["NOTICE_TAKEN", "NOTICE_NOT_TAKEN"][how], self.subscription(subscription), place)
        elif kind in (8, 9, 10):
            tag = r.tag()
            occ = tag[0]
            words = {8: "BEGIN", 9: "CALL_FAILED"}.get(kind)
            behind = ""
            if kind == 10:
                how = r.u8()
                words = ["DONE", "BROKEN", "ABORTED", "NOT_BEGUN"][how]
                behind = " resourceId " + r.name() if how == 0 else " code %d" % r.u32() if how == 1 else ""
            words += self.attempt(tag) + behind
        else:
            occ = r.u64()
            if kind == 5:
                how = r.u8()
                words = ["GRANT_LATER", "GRANT_TROUBLE", "GRANT_NOT_COVERING"][how] + self.occurrence(occ)
                words += " at " + r.line() if how == 0 else ""
            elif kind == 6:
                words = "GRANTED" + self.occurrence(occ) + " grantId " + r.name()
            elif kind == 7:
                words = "GRANT_DENIED" + self.occurrence(occ)
            elif kind == 11:
                words = STATES[r.u8()] + self.occurrence(occ)
            else:
                words = "CANCEL" + self.occurrence(occ) + " cancelMode " + MODES[r.u8()]
        if occ is not None and about is None:
            about = self.occurrences[occ][0]
        return "%d %s %s" % (n, when, words), about, occ

    def chosen(self, instance=None, occurrence=None):
        """The lines of the events about the instance and the occurrence with these identifiers."""
        return [
            line for line, about, occ in self.lines
            if (instance is None or about is not None and self.identifier(1, about) == instance)
            and (occurrence is None or occ is not None and self.identifier(2, occ) == occurrence)]


def stored():
    """A journal with each kind of event."""
    return packed(bytes(entry[-1]) for entry in history.stored().entries if entry[0])


def store():
    """Writes the journal of the program's stored run, and what it is to print."""
    crate = pathlib.Path(__file__).resolve().parent.parent / "crates" / "vnfm_history"
    (crate / "data").mkdir(exist_ok=True)
    (crate / "data" / "journal").write_bytes(stored())
    (crate / "args").write_text("--journal\njournal\n")
    (crate / "stdout").write_text("".join(line + "\n" for line in Lines(stored()).chosen()))


def main():
    words = argparse.ArgumentParser()
    words.add_argument("--store", action="store_true")
    words.add_argument("--journal")
    words.add_argument("--instance")
    words.add_argument("--occurrence")
    given = words.parse_args()
    if given.store:
        store()
        return
    lines = Lines(pathlib.Path(given.journal).read_bytes()).chosen(given.instance, given.occurrence)
    sys.stdout.write("".join(line + "\n" for line in lines))


if __name__ == "__main__":
    main()
