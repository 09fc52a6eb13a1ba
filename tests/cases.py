"""The bytes of events, by docs/EVENTS.md, as the modules of runs spell them: none of it comes from the program."""
import struct


def latin(data):
    """Bytes as the string of an act, whose characters are the bytes."""
    return data.decode("latin-1")


def utf8(text):
    """A text as the string of an act, whose characters are its bytes."""
    return latin(text.encode())


# ---- Events

u8 = lambda n: struct.pack(">B", n)
u16 = lambda n: struct.pack(">H", n)
u32 = lambda n: struct.pack(">I", n)
u64 = lambda n: struct.pack(">Q", n)
ROLES = ("orchestrator", "element")
STATES = ("STARTING", "PROCESSING", "COMPLETED", "FAILED_TEMP", "FAILED", "ROLLING_BACK", "ROLLED_BACK")
VERBS = ("create", "remove", "start", "stop")
KINDS = ("LINK", "STORAGE", "COMPUTE", "PORT")
MODES = ("GRACEFUL", "FORCEFUL")
WAYS = ("forward", "undo")
NO_LINK = NO_VDU = 65_535


def name(text):
    data = text.encode()
    return u8(len(data)) + data


def line(text):
    data = text.encode()
    return u16(len(data)) + data


def option(value, spell):
    return u8(0) if value is None else u8(1) + spell(value)


def each(values, spell=bytes):
    """A list: its length and its entries."""
    return u16(len(values)) + b"".join(map(spell, values))


def event(kind, *fields, moment=1_700_000_000_000):
    return u8(kind) + u64(moment) + b"".join(fields)


def vdu(text, storages=(), memory=512_000_000, cpus=1, maximum=11, initial=1):
    return name(text) + u64(memory) + u32(cpus) + u32(maximum) + u32(initial) + each(storages, u16)


def storage(text, size=1_000_000_000):
    return name(text) + u64(size)


def port(text, vdu, link=NO_LINK):
    return name(text) + u16(vdu) + u16(link)


def aspect(text, maximum, steps, *rows):
    """An aspect; each of its rows is a VDU and its numbers, as many as there are steps."""
    return name(text) + u32(maximum) + u16(steps) + each(rows, lambda row: u16(row[0]) + b"".join(map(u32, row[1])))


def level(text, *numbers):
    return name(text) + b"".join(map(u32, numbers))


def descriptor(
    identifier, vdus=(), storages=(), links=(), ports=(), aspects=(), levels=(), default=0, names=("", "", "", ""), flavour="simple"
):
    """A descriptor; its parts are spelled, its links are names, and `names` are its provider, product, software version and version."""
    texts = b"".join(map(name, (identifier, *names, flavour)))
    return texts + each(vdus) + each(storages) + each(links, name) + each(ports) + each(aspects) + each(levels) + u16(default)


def change(phase, verb, kind, item, vdu, serial):
    return u8(phase) + u8(VERBS.index(verb)) + u8(KINDS.index(kind)) + u16(item) + u16(vdu) + u32(serial)


def instantiate(level=None, flavour="simple"):
    return u8(1) + name(flavour) + option(level, name)


def scale(way, aspect, steps):
    return u8(2) + u8(("out", "in").index(way)) + name(aspect) + u32(steps)


def scale_to(level):
    return u8(3) + u8(0) + name(level)


def scale_aspects(*levels):
    return u8(3) + u8(1) + each(levels, lambda it: name(it[0]) + u32(it[1]))


def heal(*machines, cause=None):
    return u8(4) + option(cause, line) + each(machines, lambda it: u16(it[0]) + u32(it[1]))


def operate(started, stop=None):
    return u8(5) + u8(0 if started else 1) + u8((None, "FORCEFUL", "GRACEFUL").index(stop))


def terminate(mode="FORCEFUL", timeout=None):
    return u8(6) + u8(MODES.index(mode)) + option(timeout, u32)


def onboarded(descriptor, **more):
    return event(1, descriptor, **more)


def created(instance, vnfd, text=None, description=None, **more):
    return event(2, u64(instance), name(vnfd), option(text, name), option(description, line), **more)


def deleted(instance, **more):
    return event(3, u64(instance), **more)


def asked(occurrence, ask, changes=(), instance=1, role="orchestrator", **more):
    return event(4, u64(occurrence), u64(instance), u8(ROLES.index(role)), ask, each(changes), **more)


def grant_later(occurrence, location, **more):
    return event(5, u64(occurrence), u8(0), line(location), **more)


def grant_trouble(occurrence, **more):
    return event(5, u64(occurrence), u8(1), **more)


def grant_misses(occurrence, **more):
    return event(5, u64(occurrence), u8(2), **more)


def granted(occurrence, grant, places=(), spots=(), **more):
    """A grant; each of its places is a connection and a zone, and the spots are the places of the changes."""
    listed = u8(len(places)) + b"".join(name(vim) + name(zone) for vim, zone in places)
    return event(6, u64(occurrence), name(grant), listed, each(spots, u8), **more)


def denied(occurrence, **more):
    return event(7, u64(occurrence), **more)


def tag(occurrence, change, attempt, way="forward"):
    return u64(occurrence) + u16(change) + u32(attempt) + u8(WAYS.index(way))


def intent(tag, **more):
    return event(8, tag, **more)


def call_failed(tag, **more):
    return event(9, tag, **more)


def done(tag, resource, **more):
    return event(10, tag, u8(0), name(resource), **more)


def broken(tag, code, **more):
    return event(10, tag, u8(1), u32(code), **more)


def aborted(tag, **more):
    return event(10, tag, u8(2), **more)


def not_begun(tag, **more):
    return event(10, tag, u8(3), **more)


def moved(occurrence, state, **more):
    return event(11, u64(occurrence), u8(STATES.index(state)), **more)


def cancel_asked(occurrence, mode, **more):
    return event(12, u64(occurrence), u8(MODES.index(mode)), **more)


def let_through(vnfds=(), instances=(), names=(), notices=(), operations=(), states=()):
    """A filter: descriptors, instances, instances' names, kinds of notices, operations and states; the last three are numbers."""
    texts = each(vnfds, name) + each(instances, name) + each(names, name)
    return texts + each(notices, u8) + each(operations, u8) + each(states, u8)


def subscribed(subscription, callback, role="orchestrator", filter=let_through(), **more):
    return event(13, u64(subscription), u8(ROLES.index(role)), line(callback), filter, **more)


def unsubscribed(subscription, **more):
    return event(14, u64(subscription), **more)


def posted(subscription, place, delivered, **more):
    return event(15, u64(subscription), u64(place), u8(0 if delivered else 1), **more)
