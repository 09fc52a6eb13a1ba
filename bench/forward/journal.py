"""Journals of operations, after docs/JOURNAL.md and docs/EVENTS.md.

Their descriptor is that of examples/vnfd.json with one more level, `large`, at which the aspect `workers` is at its greatest level. So many instances
of it are created, and each is asked to be instantiated at that level, which takes four changes for each worker and nine more. Where the operations
are `starting`, nothing is done for them; else each was granted at one place and moved on.
"""
import struct

u8 = struct.Struct(">B").pack
u16 = struct.Struct(">H").pack
u32 = struct.Struct(">I").pack
u64 = struct.Struct(">Q").pack
name = lambda text: u8(len(text)) + text.encode()
many = lambda entries: u16(len(entries)) + b"".join(entries)
none = b"\0"
some = lambda spelled: u8(1) + spelled

FIRST_MOMENT = 1_700_000_000_000
ONBOARDED, CREATED, ASKED, GRANTED, MOVED = 1, 2, 4, 6, 11
PROCESSING = 1
CREATE = 0
LINK, STORAGE, COMPUTE, PORT = range(4)
NO_VDU = 65_535

STORAGES = [("STO_A", 10_000_000_000), ("STO_B", 1_000_000_000)]
LINKS = ["net_data", "net_mgmt"]
PORTS = [("CP_A_data", 0, 0), ("CP_A_mgmt", 0, 1), ("CP_B_mgmt", 1, 1)]


def batch(event):
    """An event in a batch of its own, behind its open gate."""
    return u8(1) + u32(4 + len(event)) + u32(len(event)) + event


def descriptor(workers):
    vdus = [("VDU_A", 2_147_483_648, 2, workers + 1, [0]), ("VDU_B", 512_000_000, 1, 0xFFFFFFFF, [1])]
    levels = [("large", workers), ("normal", 1), ("small", 0)]
    return (
        name("vnfd-1") + name("Example") + name("Edge Router") + name("1.0") + name("1.0") + name("simple")
        + many([name(vdu) + u64(memory) + u32(cpus) + u32(most) + u32(1) + many([u16(disk) for disk in disks]) for vdu, memory, cpus, most, disks in vdus])
        + many([name(storage) + u64(size) for storage, size in STORAGES])
        + many([name(link) for link in LINKS])
        + many([name(port) + u16(vdu) + u16(link) for port, vdu, link in PORTS])
        + many([name("workers") + u32(workers) + u16(1) + many([u16(0) + u32(1)])])
        + many([name(level) + u32(at) for level, at in levels])
        + u16(1)
    )


def created(phase, kind, item, vdu, serial):
    """The change that creates this resource."""
    return u8(phase) + u8(CREATE) + u8(kind) + u16(item) + u16(vdu) + u32(serial)


def changes(workers):
    """The changes of an instantiation with so many workers."""
    machines = [(0, serial) for serial in range(1, workers + 2)] + [(1, 1)]
    return (
        [created(0, LINK, link, NO_VDU, 0) for link in range(len(LINKS))]
        + [created(1, STORAGE, vdu, vdu, serial) for vdu, serial in machines]
        + [created(2, COMPUTE, 0, vdu, serial) for vdu, serial in machines]
        + [created(3, PORT, port, vdu, serial) for vdu, serial in machines for port in range(len(PORTS)) if PORTS[port][1] == vdu]
    )


def events(starting, operations, workers):
    """The kinds and the fields of the events."""
    numbers, asked = range(1, operations + 1), changes(workers)
    yield ONBOARDED, descriptor(workers)
    for number in numbers:
        yield CREATED, u64(number) + name("vnfd-1") + none + none
    for number in numbers:
        yield ASKED, u64(number) + u64(number) + u8(0) + u8(1) + name("simple") + some(name("large")) + many(asked)
    for number in () if starting else numbers:
        yield GRANTED, u64(number) + name("g1") + u8(1) + name("vim1") + name("") + many([u8(0)] * len(asked))
        yield MOVED, u64(number) + u8(PROCESSING)


def journal(starting, operations, workers):
    """The bytes of the journal behind its header."""
    records = b""
    for at, (kind, fields) in enumerate(events(starting, operations, workers)):
        records += batch(u8(kind) + u64(FIRST_MOMENT + at) + fields)
    return records + none


# ---- Many machines of one kind, with nothing else: of all operations the termination of such has the most changes, a stop and a removal of each

INTENT, SETTLED, COMPLETED = 8, 10, 2
STOP, REMOVE = 3, 1


def tag(occurrence, change):
    return u64(occurrence) + u16(change) + u32(1) + u8(0)


def machine(phase, verb, serial):
    return u8(phase) + u8(verb) + u8(COMPUTE) + u16(0) + u16(0) + u32(serial)


def begun(occurrence, ask, asked, made, opened, instance=1):
    """An operation that was granted, of which so many changes were made and so many attempts behind them are open."""
    yield ASKED, u64(occurrence) + u64(instance) + u8(0) + ask + many(asked)
    yield GRANTED, u64(occurrence) + name("g1") + u8(1) + name("vim1") + name("") + many([u8(0)] * len(asked))
    yield MOVED, u64(occurrence) + u8(PROCESSING)
    for change in range(made):
        yield INTENT, tag(occurrence, change)
        yield SETTLED, tag(occurrence, change) + u8(0) + name("r%d" % change)
    for change in range(made, made + opened):
        yield INTENT, tag(occurrence, change)


def machines(count, terminated, made, opened=4):
    """The bytes behind the header of a journal with so many machines, which are made, or were and are terminated gracefully: so many changes of that are
    made, and the attempts at the next ones are open."""
    vdu = name("VDU") + u64(1) + u32(1) + u32(count) + u32(count) + many([])
    texts = b"".join(map(name, ["vnfd-1", "Example", "Machines", "1.0", "1.0", "simple"]))
    instantiate, serials = u8(1) + name("simple") + none, range(1, count + 1)
    creates = [machine(2, CREATE, it) for it in serials]
    told = [(ONBOARDED, texts + many([vdu]) + many([]) * 4 + many([name("only")]) + u16(0)), (CREATED, u64(1) + name("vnfd-1") + none + none)]
    if terminated:
        told += [*begun(1, instantiate, creates, count, 0), (MOVED, u64(1) + u8(COMPLETED))]
        removes = [machine(4, STOP, it) for it in serials] + [machine(6, REMOVE, it) for it in serials]
        told += begun(2, u8(6) + u8(0) + none, removes, made, opened)
    else:
        told += begun(1, instantiate, creates, made, opened)
    records = [batch(u8(kind) + u64(FIRST_MOMENT + at) + fields) for at, (kind, fields) in enumerate(told)]
    return b"".join(records) + none
