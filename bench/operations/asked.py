"""Operations at their largest: the requests that ask for them, and journals in which they are asked for or are
COMPLETED, after docs/JOURNAL.md and docs/EVENTS.md.

An instance has machines of one kind, each with one disk or none, and nothing else. Its one aspect, `more`, makes so
many more of them with each step.
"""
import pathlib
import sys

TOP = pathlib.Path(__file__).resolve().parent.parent
sys.path += [str(TOP), str(TOP / "forward"), str(TOP / "session")]
import journal
import measuring
import stream
from journal import COMPUTE, CREATE, REMOVE, STOP, STORAGE, many, name, none, u8, u16, u32, u64

# What a VDU without a maximum says of it; the most steps of an aspect, and the most machines of a step.
NO_MAXIMUM, STEPS, DELTA = 0xFFFFFFFF, 1_000, 65_535
INSTANTIATE = u8(1) + name("simple") + none


# ---- What stands

def changes(verb, kind, serials):
    """The changes of this verb at the disks or the computes of these machines."""
    phase = {CREATE: kind, STOP: 4, REMOVE: 8 - kind}[verb]
    return [u8(phase) + u8(verb) + u8(kind) + u16(0) + u16(0) + u32(it) for it in serials]


class Instance:
    """So many machines, each with one disk or none, and so many more of them with a step of the aspect."""

    def __init__(self, machines, disks=0, delta=1):
        self.machines, self.disks, self.delta = machines, disks, delta
        self.serials = range(1, machines + 1)

    def definitions(self):
        return self.machines * (1 + self.disks)

    def descriptor(self):
        disks = [u16(0)] * self.disks
        vdu = name("VDU") + u64(1) + u32(1) + u32(NO_MAXIMUM) + u32(self.machines) + many(disks)
        storages = [name("DISK") + u64(1)] * self.disks
        aspect = name("more") + u32(STEPS) + u16(1) + many([u16(0) + u32(self.delta)])
        texts = b"".join(map(name, ["vnfd-1", "Example", "Machines", "1.0", "1.0", "simple"]))
        lists = [[vdu], storages, [], [], [aspect], [name("only") + u32(0)]]
        return texts + b"".join(map(many, lists)) + u16(0)

    def made(self, serials):
        return changes(CREATE, STORAGE, serials) * self.disks + changes(CREATE, COMPUTE, serials)

    def removed(self, serials):
        return changes(REMOVE, COMPUTE, serials) + changes(REMOVE, STORAGE, serials) * self.disks


# ---- What is asked

class Operation:
    """An operation on such an instance: its task, the body that asks for it, and how an event spells the ask and its
    changes; neither of one that is refused."""

    def __init__(self, on, task, body, ask=None, changes=()):
        self.on, self.task, self.body, self.ask, self.changes = on, task, body, ask, changes

    def size(self):
        """How many definitions stand, or changes are planned, whichever is more."""
        return max(self.on.definitions(), len(self.changes))

    def request(self, instance):
        path = stream.instance(instance) + b"/" + self.task
        return stream.sized(b"POST " + path + stream.HOST + stream.JSON, self.body)

    def asked(self, occurrence, instance):
        """The fields of the event that asks for it."""
        return u64(occurrence) + u64(instance) + u8(0) + self.ask + many(self.changes)


def scaling(steps):
    return b'{"type":"SCALE_OUT","aspectId":"more","numberOfSteps":%d}' % steps


def scale_out(on, steps):
    made = on.made(range(on.machines + 1, on.machines + steps * on.delta + 1))
    return Operation(on, b"scale", scaling(steps), u8(2) + u8(0) + name("more") + u32(steps), made)


def too_large(machines):
    """The SCALE_OUT that would make the most machines, which is refused."""
    return Operation(Instance(machines, delta=DELTA), b"scale", scaling(STEPS))


def heal(on, named):
    """The HEAL that names so many machines: the last ones, the last one first."""
    serials = on.serials[-named:]
    last_first = serials[::-1]
    body = b'{"vnfcInstanceId":[%s]}' % b",".join(b'"VDU-%d"' % it for it in last_first)
    ask = u8(4) + none + many([u16(0) + u32(it) for it in last_first])
    made = on.made(range(on.machines + 1, on.machines + named + 1))
    return Operation(on, b"heal", body, ask, made + on.removed(serials))


def terminate(on):
    """The GRACEFUL termination, which stops each machine before it removes them."""
    gone = changes(STOP, COMPUTE, on.serials) + on.removed(on.serials)
    return Operation(on, b"terminate", b'{"terminationType":"GRACEFUL"}', u8(6) + u8(0) + none, gone)


# ---- Journals

def completed(occurrence, instance, ask, asked):
    """The events of an operation that is COMPLETED."""
    yield from journal.begun(occurrence, ask, asked, len(asked), 0, instance)
    yield journal.MOVED, u64(occurrence) + u8(journal.COMPLETED)


def events(on, instances, operation, is_completed):
    numbers = range(1, instances + 1)
    yield journal.ONBOARDED, on.descriptor()
    for number in numbers:
        yield journal.CREATED, u64(number) + name("vnfd-1") + none + none
    for number in numbers:
        yield from completed(number, number, INSTANTIATE, on.made(on.serials))
    for number in numbers if operation else ():
        if is_completed:
            yield from completed(instances + number, number, operation.ask, operation.changes)
        else:
            yield journal.ASKED, operation.asked(instances + number, number)


def written(on, instances, operation=None, is_completed=False):
    """The journal of so many instances, each instantiated by the occurrence of its own number; and where there is an
    operation, it was asked of each, by the occurrences behind those, or is COMPLETED."""
    return measuring.HEADER + b"".join(
        journal.batch(u8(kind) + u64(journal.FIRST_MOMENT + at) + fields)
        for at, (kind, fields) in enumerate(events(on, instances, operation, is_completed))
    ) + none


def granted(records):
    """Of these bytes of a journal, which begin with a batch of one record, as all are, how many changes each grant has."""
    at, found = 0, []
    while records[at] == 1:
        size = int.from_bytes(records[at + 1 : at + 5], "big")
        if records[at + 9] == journal.GRANTED:
            found.append(granted_changes(records[at + 18 : at + 5 + size]))
        at += 5 + size
    return found


def granted_changes(fields):
    """How many changes a grant has, by the fields of its event."""
    behind_name = lambda at: at + 1 + fields[at]
    at = behind_name(8)
    places, at = fields[at], at + 1
    for _ in range(2 * places):
        at = behind_name(at)
    return int.from_bytes(fields[at : at + 2], "big")
