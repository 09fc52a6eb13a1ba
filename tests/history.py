"""The events of a manager's history by the rules of docs/MODEL.md, in another language: which is allowed next, and what each changes.

`stored` draws a legal history of 600 events by lot, with events that aren't allowed between them; tests/runs_histories.py lets the program judge it,
and others that are written out by hand.

Instances of one descriptor live side by side: each is created, asked for operations of all six kinds, and maybe deleted. Subscriptions of both
roles come and go, and their notices are posted; four attempts of an occurrence may be open at once. An entry is a byte, 1 where the event happens, 0
where it doesn't; the length of its spelling in four bytes, the high one first; and the spelling. The history is the same each time: its numbers are
drawn from one seed.
"""
import collections
import random
import struct
import uuid

EVENTS = 600
SEED = 752
FIRST_MOMENT = 1_700_000_000_000

u8 = lambda n: struct.pack(">B", n)
u16 = lambda n: struct.pack(">H", n)
u32 = lambda n: struct.pack(">I", n)
u64 = lambda n: struct.pack(">Q", n)
name = lambda text: u8(len(text)) + text.encode()
line = lambda text: u16(len(text)) + text.encode()
option = lambda spelled, value: u8(0) if value is None else u8(1) + spelled(value)
many = lambda spelled, entries: u16(len(entries)) + b"".join(map(spelled, entries))

STATES = STARTING, PROCESSING, COMPLETED, FAILED_TEMP, FAILED, ROLLING_BACK, ROLLED_BACK = range(7)
ACTIVE = {STARTING, PROCESSING, ROLLING_BACK}
FINAL = {COMPLETED, FAILED, ROLLED_BACK}
GRACEFUL, FORCEFUL = range(2)
FORWARD, UNDO = range(2)
CREATE, REMOVE, START, STOP = range(4)
UNDONE = {CREATE: REMOVE, REMOVE: CREATE, START: STOP, STOP: START}
LINK, STORAGE, COMPUTE, PORT = range(4)
NO_VDU = 65_535
OCCURRENCE, CREATION, DELETION = range(3)
DELIVERED, NOT_TAKEN = range(2)
MANAGER = 7
VALUES = 64
SUBSCRIPTIONS = 100
POSTS = 5
WINDOW = 4
OPERATIONS = {"instantiate": 1, "scale": 2, "level": 3, "aspects": 3, "heal": 4, "operate": 5, "terminate": 6}

# The descriptor: an edge router of two machines, one aspect and two levels.
VDUS = [("VDU_A", 2_147_483_648, 2, 11, 1, [0]), ("VDU_B", 512_000_000, 1, 4_294_967_295, 1, [1])]
STORAGES = [("STO_A", 10_000_000_000), ("STO_B", 1_000_000_000)]
LINKS = ["net_data", "net_mgmt"]
PORTS = [("CP_A_data", 0, 0), ("CP_A_mgmt", 0, 1), ("CP_B_mgmt", 1, 1)]
MAXIMUM = 10
LEVELS = {"normal": 1, "small": 0}
# Those that an ask may name: some runs have a descriptor with one more.
NAMED_LEVELS = {**LEVELS, "large": 10}
DESCRIPTOR = (
    name("vnfd-1") + name("Example") + name("Edge Router") + name("1.0") + name("1.0") + name("simple")
    + many(lambda v: name(v[0]) + u64(v[1]) + u32(v[2]) + u32(v[3]) + u32(v[4]) + many(u16, v[5]), VDUS)
    + many(lambda s: name(s[0]) + u64(s[1]), STORAGES)
    + many(name, LINKS)
    + many(lambda p: name(p[0]) + u16(p[1]) + u16(p[2]), PORTS)
    + many(lambda rows: name("workers") + u32(MAXIMUM) + u16(1) + many(lambda r: u16(r[0]) + u32(r[1]), rows), [[(0, 1)]])
    + many(lambda l: name(l) + u32(LEVELS[l]), sorted(LEVELS))
    + u16(0)
)

Tag = collections.namedtuple("Tag", "occ change attempt way")
Change = collections.namedtuple("Change", "phase verb kind item vdu serial")
Filter = collections.namedtuple("Filter", "vnfds instances names notices operations states", defaults=[[]] * 6)
Notice = collections.namedtuple("Notice", "which vnfd instance name op state")


def spelled_ask(ask):
    kind, *what = ask
    if kind == "instantiate":
        return u8(1) + name(what[0]) + option(name, what[1])
    if kind == "scale":
        return u8(2) + u8(what[0]) + name(what[1]) + u32(what[2])
    if kind == "level":
        return u8(3) + u8(0) + name(what[0])
    if kind == "aspects":
        return u8(3) + u8(1) + many(lambda a: name(a[0]) + u32(a[1]), what[0])
    if kind == "heal":
        return u8(4) + option(line, what[0]) + many(lambda m: u16(m[0]) + u32(m[1]), what[1])
    if kind == "operate":
        return u8(5) + u8(0 if what[0] else 1) + u8(what[1])
    return u8(6) + u8(what[0]) + option(u32, what[1])


def spelled_tag(t):
    return u64(t.occ) + u16(t.change) + u32(t.attempt) + u8(t.way)


def spelled_change(c):
    return u8(c.phase) + u8(c.verb) + u8(c.kind) + u16(c.item) + u16(c.vdu) + u32(c.serial)


def spelled_outcome(outcome):
    kind, *what = outcome
    return u8(kind) + {0: name, 1: u32}.get(kind, lambda: b"")(*what)


def spelled_filter(f):
    return b"".join([many(name, f.vnfds), many(name, f.instances), many(name, f.names)]
        + [many(u8, numbers) for numbers in (f.notices, f.operations, f.states)])


SPELLED = {
    "onboarded": (1, lambda d: d),
    "created": (2, lambda i, vnfd, called, text: u64(i) + name(vnfd) + option(name, called) + option(line, text)),
    "deleted": (3, u64),
    "asked": (4, lambda o, i, role, ask, xs: u64(o) + u64(i) + u8(role) + spelled_ask(ask) + many(spelled_change, xs)),
    "tried": (5, lambda o, answer, at: u64(o) + u8(answer) + (line(at) if answer == 0 else b"")),
    "granted": (6, lambda o, grant, places, spots:
        u64(o) + name(grant) + u8(len(places)) + b"".join(name(v) + name(z) for v, z in places) + many(u8, spots)),
    "denied": (7, u64),
    "intent": (8, spelled_tag),
    "call failed": (9, spelled_tag),
    "settled": (10, lambda t, outcome: spelled_tag(t) + spelled_outcome(outcome)),
    "moved": (11, lambda o, to: u64(o) + u8(to)),
    "cancel": (12, lambda o, mode: u64(o) + u8(mode)),
    "subscribed": (13, lambda s, role, callback, asked: u64(s) + u8(role) + line(callback) + spelled_filter(asked)),
    "unsubscribed": (14, u64),
    "posted": (15, lambda s, place, how: u64(s) + u64(place) + u8(how)),
}


def identifier(number, kind=1):
    """The identifier of an instance, whose kind is 1, or of an occurrence, 2: the manager's number, "vm", version 8, the kind, and the number."""
    return str(uuid.UUID(bytes=u32(MANAGER) + b"vm\x80" + u8(kind) + u64(2**63 + number)))


class Instance:
    """What is so of an instance: whether it was deleted, is instantiated and started, its level, and what stands of it.

    Of each part it knows what was done to it last, the name that the last creation gave, and the place of the last that wasn't an undo.
    """

    def __init__(self, called, text):
        self.name = called
        self.text = text
        self.live = True
        self.instantiated = False
        self.started = False
        self.level = 0
        self.last = {}
        self.names = {}
        self.places = {}
        self.top = [0] * len(VDUS)

    def stands(self, part):
        return self.last.get(part, REMOVE) != REMOVE

    def known(self, part):
        return self.names[part], self.places[part]

    def runs(self, part):
        return part[0] == COMPUTE and self.last.get(part) in (CREATE, START)


def count(vdu, level):
    return VDUS[vdu][4] + (level if vdu == 0 else 0)


def parts(kind, vdu, serial):
    """The parts of one kind of a machine, by item, as (kind, item, VDU, serial)."""
    items = {STORAGE: VDUS[vdu][5], COMPUTE: [0], PORT: [n for n, port in enumerate(PORTS) if port[1] == vdu]}[kind]
    return [(kind, item, vdu, serial) for item in items]


def machine(vdu, serial):
    return parts(STORAGE, vdu, serial) + parts(COMPUTE, vdu, serial) + parts(PORT, vdu, serial)


def links():
    return [(LINK, n, NO_VDU, 0) for n in range(len(LINKS))]


def there(held, vdu):
    return [s for s in range(1, held.top[vdu] + 1) if any(map(held.stands, machine(vdu, s)))]


def is_whole(held, vdu, serial):
    return all(map(held.stands, machine(vdu, serial)))


def is_in_step(held):
    return all(map(held.stands, links())) and all(
        len(there(held, v)) == count(v, held.level)
        and all(is_whole(held, v, s) and held.runs((COMPUTE, 0, v, s)) == held.started for s in there(held, v))
        for v in range(len(VDUS)))


def target(level, ask):
    """The level of the workers that an ask aims at."""
    kind, *what = ask
    if kind == "instantiate":
        return NAMED_LEVELS[what[1] or "normal"]
    if kind == "scale":
        return max(0, level - what[2]) if what[0] else min(MAXIMUM, level + what[2])
    if kind == "level":
        return NAMED_LEVELS[what[0]]
    if kind == "aspects":
        return dict(what[0]).get("workers", level)
    return level


def staying(held, ask, vdu):
    kind, *what = ask
    if kind in ("instantiate", "terminate") or (kind == "heal" and not what[1]):
        return []
    if kind == "operate":
        return there(held, vdu)
    stay = there(held, vdu)
    if kind == "heal":
        stay = [s for s in stay if is_whole(held, vdu, s) and (vdu, s) not in what[1]]
    return stay[:count(vdu, target(held.level, ask))]


def plan(held, ask):
    """The changes of an ask, phase by phase, and in a phase by VDU, serial and item."""
    kind, *what = ask
    vdus = range(len(VDUS))
    stay = [staying(held, ask, v) for v in vdus]
    leaving = [[s for s in there(held, v) if s not in stay[v]] for v in vdus]
    new = [[] if kind in ("operate", "terminate") else
        [held.top[v] + 1 + n for n in range(max(0, count(v, target(held.level, ask)) - len(stay[v])))] for v in vdus]
    of = lambda which, serials: [x for v in vdus for s in serials[v] for x in parts(which, v, s)]
    changes = []
    put = lambda phase, verb, xs: changes.extend(Change(phase, verb, *x) for x in xs)
    if kind in ("instantiate", "heal"):
        put(0, CREATE, [x for x in links() if not held.stands(x)])
    for which in (STORAGE, COMPUTE, PORT):
        put(which, CREATE, of(which, new))
    if kind == "heal" or (kind == "operate" and what[0]):
        put(4, START, [x for x in of(COMPUTE, stay) if held.stands(x) and not held.runs(x)])
    if (kind == "operate" and not what[0]) or (kind == "terminate" and what[0] == GRACEFUL):
        put(4, STOP, filter(held.runs, of(COMPUTE, [there(held, v) for v in vdus])))
    for which in (PORT, COMPUTE, STORAGE):
        put(8 - which, REMOVE, filter(held.stands, of(which, leaving)))
    if kind == "terminate":
        put(8, REMOVE, filter(held.stands, links()))
    return changes


def content_refusal(ask):
    """Why an ask is refused against the descriptor or by itself, where it is."""
    kind, *what = ask
    if kind == "instantiate" and what[0] != "simple":
        return "flavourId is not in the descriptor"
    level = {"instantiate": what[-1], "level": what[0]}.get(kind)
    if level is not None and level not in NAMED_LEVELS:
        return "instantiationLevelId is not in the descriptor"
    named = {"scale": what[1:2], "aspects": [it[0] for it in what[0]] if kind == "aspects" else []}.get(kind, [])
    if any(it != "workers" for it in named):
        return "aspectId is not in the descriptor"
    if kind == "scale" and what[2] == 0:
        return "numberOfSteps is 0"
    if len(named) > 1:
        return "scaleInfo names an aspect twice"
    if kind == "aspects" and any(n > MAXIMUM for _, n in what[0]):
        return "scaleLevel is above the maximum"
    return None


def state_refusal(held, busy, ask):
    """Why it is refused by the state of its instance."""
    kind = ask[0]
    scales = kind in ("scale", "level", "aspects")
    if kind == "instantiate" and held.instantiated:
        return "instance is INSTANTIATED"
    if kind != "instantiate" and not held.instantiated:
        return "instance is not INSTANTIATED"
    if busy:
        return "an operation is ongoing"
    if (scales or kind == "operate") and not is_in_step(held):
        return "instance is out of step"
    return "instance is STOPPED" if scales and not held.started else None


def step_refusal(held, ask):
    """Why it is refused by what stands."""
    kind, *what = ask
    if kind == "scale" and what[2] > (held.level if what[0] else MAXIMUM - held.level):
        return "scale level below zero" if what[0] else "scale level above the maximum"
    if kind == "heal" and any(v >= len(VDUS) or s not in there(held, v) for v, s in what[1]):
        return "vnfcInstanceId names no VNFC"
    if (kind in ("level", "aspects") and target(held.level, ask) == held.level) or (kind == "operate" and what[0] == held.started):
        return "nothing to do"
    return None


def refusal(held, busy, ask):
    """The first cause for which an ask is refused, where there is one."""
    return content_refusal(ask) or state_refusal(held, busy, ask) or step_refusal(held, ask)


class Occurrence:
    """What is so of an occurrence."""

    def __init__(self, instance, ask, changes, moment):
        self.instance = instance
        self.ask = ask
        self.changes = changes
        self.asked = self.entered = moment
        self.state = STARTING
        self.ended = self.trouble = False
        self.tries = 0
        self.location = self.grant = self.cancel = self.cause = None
        self.used = [None] * len(changes)
        self.nets = [0] * len(changes)
        self.attempts = [0] * len(changes)
        self.open = {}

    def is_active(self):
        return self.state in ACTIVE

    def is_over(self):
        return self.state in FINAL

    def is_asking(self):
        return self.state == STARTING and not self.ended and self.cancel != FORCEFUL

    def gives_up(self):
        return self.cancel == FORCEFUL or (self.ended and self.grant is None) or (self.grant is not None and self.cancel is not None)

    def is_turn(self, number, way):
        phase = self.changes[number].phase
        before = [n for n, x in enumerate(self.changes) if (x.phase < phase if way == FORWARD else x.phase > phase)]
        through = 1 if way == FORWARD else 0
        return self.nets[number] == 1 - through and all(self.nets[n] == through for n in before)

    def is_busy(self, number):
        """Whether an attempt at this change is open."""
        return any(t.change == number for t in self.open)

    def may_begin(self, t, width=WINDOW):
        return (
            self.state == (PROCESSING if t.way == FORWARD else ROLLING_BACK) and not self.trouble and self.cancel is None
            and len(self.open) < width and t.change < len(self.changes) and not self.is_busy(t.change)
            and t.attempt == self.attempts[t.change] + 1 and self.is_turn(t.change, t.way))

    def may_move(self, to):
        rests = not self.open and not self.trouble and self.cancel is None
        stopped = not self.open and (self.trouble or self.cancel is not None)
        return {
            (STARTING, PROCESSING): self.grant is not None and self.cancel is None,
            (STARTING, ROLLED_BACK): self.gives_up(),
            (PROCESSING, COMPLETED): rests and all(n == 1 for n in self.nets),
            (PROCESSING, FAILED_TEMP): stopped,
            (ROLLING_BACK, ROLLED_BACK): rests and all(n == 0 for n in self.nets),
            (ROLLING_BACK, FAILED_TEMP): stopped,
            (FAILED_TEMP, PROCESSING): True,
            (FAILED_TEMP, FAILED): True,
            (FAILED_TEMP, ROLLING_BACK): self.ask[0] != "terminate",
        }.get((self.state, to), False)


def is_let_through(f, notice):
    """Whether a filter lets a notice through: each of its lists does, and one without values does."""
    return (
        (not f.vnfds or notice.vnfd in f.vnfds) and (not f.instances or identifier(notice.instance) in f.instances)
        and (not f.names or notice.name in f.names) and (not f.notices or notice.which in f.notices)
        and (not f.operations or notice.op is None or notice.op in f.operations)
        and (not f.states or notice.state is None or notice.state in f.states))


class Subscription:
    """What is so of a subscription: whose it is, where its notices go and which these are, the place of the event that made it, those of its notices
    behind that, in their order, and how each was posted."""

    def __init__(self, role, callback, asked, made):
        self.role = role
        self.callback = callback
        self.filter = asked
        self.made = made
        self.live = True
        self.notices = []
        self.posts = []

    def failures(self, place):
        return self.posts.count((place, NOT_TAKEN))

    def cursor(self):
        """The greatest place of a notice that was taken, or else not taken five times."""
        return max([self.made] + [p for p, _ in self.posts if (p, DELIVERED) in self.posts or self.failures(p) >= POSTS])

    def first(self):
        """The place of the first notice past the cursor."""
        cursor = self.cursor()
        return min((p for p in self.notices if p > cursor), default=None)

    def tries(self):
        """How often the notice past the cursor was posted and not taken."""
        return self.failures(self.first())


def is_placing(places, spots, changes):
    seen = []
    for spot in spots:
        if spot >= len(places):
            return False
        if places[spot] not in seen:
            seen.append(places[spot])
    return len(spots) == changes and seen == places and len(places) <= 32


class History:
    """The history so far: its instances, its occurrences, what is to be written, and what is counted."""

    def __init__(self, draw):
        self.draw = draw
        self.onboarded = False
        self.instances = []
        self.occurrences = []
        self.subscriptions = []
        self.moment = FIRST_MOMENT
        self.entries = []
        self.seen = collections.Counter()
        self.events = self.wrong = 0

    def occurrence(self, number):
        return self.occurrences[number - 1] if 1 <= number <= len(self.occurrences) else None

    def instance(self, number):
        return self.instances[number - 1] if 1 <= number <= len(self.instances) and self.instances[number - 1].live else None

    def subscription(self, number):
        return self.subscriptions[number - 1] if 1 <= number <= len(self.subscriptions) and self.subscriptions[number - 1].live else None

    def subscriptions_of(self, role):
        """The live subscriptions of a role, each with its number."""
        return [(n, s) for n, s in enumerate(self.subscriptions, 1) if s.live and s.role == role]

    def ongoing(self, number):
        return next((n for n, o in enumerate(self.occurrences, 1) if o.instance == number and not o.is_over()), None)

    def is_busy(self, number):
        return self.ongoing(number) is not None

    def notice(self, kind, *fields):
        """What the notice of an event tells, where it makes one."""
        if kind == "created":
            return Notice(CREATION, fields[1], fields[0], fields[2], None, None)
        if kind == "deleted":
            return Notice(DELETION, "vnfd-1", fields[0], self.instances[fields[0] - 1].name, None, None)
        if kind not in ("asked", "moved"):
            return None
        o = self.occurrences[fields[0] - 1]
        return Notice(OCCURRENCE, "vnfd-1", o.instance, self.instances[o.instance - 1].name, OPERATIONS[o.ask[0]], o.state)

    def is_allowed(self, kind, *fields):
        """Whether an event is allowed now."""
        if kind == "onboarded":
            return not self.onboarded
        if kind == "created":
            return self.onboarded and fields[0] == len(self.instances) + 1 and fields[1] == "vnfd-1"
        if kind == "deleted":
            held = self.instance(fields[0])
            return held is not None and not held.instantiated and not self.is_busy(fields[0])
        if kind == "asked":
            number, instance, _, ask, changes = fields
            held = self.instance(instance)
            return (
                number == len(self.occurrences) + 1 and held is not None and refusal(held, self.is_busy(instance), ask) is None
                and changes == plan(held, ask))
        if kind == "subscribed":
            return (
                fields[0] == len(self.subscriptions) + 1 and len(self.subscriptions_of(fields[1])) < SUBSCRIPTIONS
                and all(len(values) <= VALUES for values in fields[3]))
        if kind == "unsubscribed":
            return self.subscription(fields[0]) is not None
        if kind == "posted":
            subscription = self.subscription(fields[0])
            return subscription is not None and fields[1] == subscription.first()
        t = fields[0]
        occurrence = self.occurrence(t.occ if isinstance(t, Tag) else t)
        if occurrence is None:
            return False
        if kind == "tried":
            return occurrence.is_asking() and not (fields[1] == 0 and occurrence.location is not None)
        if kind == "granted":
            return occurrence.is_asking() and fields[1] != "" and is_placing(fields[2], fields[3], len(occurrence.changes))
        if kind == "denied":
            return occurrence.is_asking()
        if kind == "intent":
            return occurrence.may_begin(t)
        if kind == "call failed":
            return occurrence.open.get(t) is False
        if kind == "settled":
            return t in occurrence.open
        if kind == "moved":
            return occurrence.may_move(fields[1])
        return occurrence.is_active()

    def feature(self, kind, *fields):
        """What is told of an event that may happen now, so that each is seen once."""
        if kind == "asked":
            ask = fields[3]
            return "ask", ask[0], ask[1] if ask[0] in ("scale", "operate", "terminate") else bool(ask[-1])
        if kind == "posted":
            return kind, fields[2], self.subscription(fields[0]).tries() == POSTS - 1
        if kind == "subscribed":
            return kind, fields[1]
        if kind in ("onboarded", "created", "deleted", "unsubscribed"):
            return kind
        t = fields[0]
        occurrence = self.occurrence(t.occ if isinstance(t, Tag) else t)
        return {
            "tried": lambda: (kind, fields[1], occurrence.tries == 4),
            "intent": lambda: (kind, t.way, len(occurrence.open)),
            "settled": lambda: (kind, fields[1][0], occurrence.open[t]),
            "moved": lambda: (kind, occurrence.state, fields[1]),
            "cancel": lambda: (kind, fields[1], occurrence.state),
        }.get(kind, lambda: kind)()

    def put(self, happens, kind, fields):
        number, spelled = SPELLED[kind]
        self.moment += self.draw.choice([0, 1, 7, 250, 4_000])
        event = u8(number) + u64(self.moment) + spelled(*fields)
        self.entries.append((happens, event))

    def refuse(self, kind, *fields):
        """An event that isn't allowed, where this one isn't."""
        if not self.is_allowed(kind, *fields):
            self.put(0, kind, fields)
            self.wrong += 1
            self.seen["wrong " + kind] += 1
            self.seen["fifth", kind == "intent" and self.is_a_fifth(fields[0])] += 1

    def is_a_fifth(self, t):
        """Whether it is the window alone that lets this attempt not begin."""
        occurrence = self.occurrence(t.occ)
        return occurrence is not None and not occurrence.may_begin(t) and occurrence.may_begin(t, WINDOW + 1)

    def happen(self, kind, *fields):
        """An event happens, which is allowed."""
        assert self.is_allowed(kind, *fields), (kind, fields)
        self.put(1, kind, fields)
        self.seen.update({kind, self.feature(kind, *fields)})
        self.follow(kind, *fields)

    def follow(self, kind, *fields):
        """This event stands behind the others."""
        self.events += 1
        self.change(kind, *fields)
        notice = self.notice(kind, *fields)
        if notice is not None:
            self.hear(notice)

    def hear(self, notice):
        """The last event's notice waits for each subscription whose filter lets it through."""
        for subscription in self.subscriptions:
            heard = is_let_through(subscription.filter, notice)
            if heard:
                subscription.notices.append(self.events)
            self.seen.update([("notice", notice.which, heard)])

    def change(self, kind, *fields):
        if kind == "onboarded":
            self.onboarded = True
        elif kind == "created":
            self.instances.append(Instance(*fields[2:]))
        elif kind == "deleted":
            self.instance(fields[0]).live = False
        elif kind == "asked":
            _, instance, _, ask, changes = fields
            self.occurrences.append(Occurrence(instance, ask, changes, self.moment))
            held = self.instance(instance)
            for change in changes:
                if change.vdu != NO_VDU:
                    held.top[change.vdu] = max(held.top[change.vdu], change.serial)
        elif kind == "subscribed":
            self.subscriptions.append(Subscription(*fields[1:], self.events))
        elif kind == "unsubscribed":
            self.subscription(fields[0]).live = False
        elif kind == "posted":
            self.subscription(fields[0]).posts.append(fields[1:])
        else:
            t = fields[0]
            occurrence = self.occurrence(t.occ if isinstance(t, Tag) else t)
            self.follow_about(occurrence, kind, *fields)

    def follow_about(self, occurrence, kind, t, what=None, *rest):
        if kind == "tried":
            self.follow_try(occurrence, what, *rest)
        elif kind == "granted":
            occurrence.ended = True
            occurrence.grant = (what, *rest)
        elif kind == "denied":
            occurrence.ended = True
            occurrence.cause = "grant denied"
        elif kind == "intent":
            occurrence.attempts[t.change] += 1
            occurrence.open[t] = False
        elif kind == "call failed":
            occurrence.open[t] = True
        elif kind == "settled":
            self.follow_settled(occurrence, t, *what)
        elif kind == "moved":
            occurrence.state, occurrence.cancel, occurrence.trouble = what, None, False
            occurrence.entered = self.moment
            self.follow_end(self.instance(occurrence.instance), occurrence.ask, what)
        else:
            occurrence.cancel = FORCEFUL if FORCEFUL in (what, occurrence.cancel) else GRACEFUL
            occurrence.cause = "cancelled"

    def follow_try(self, occurrence, answer, at):
        if answer == 0:
            occurrence.location = at
        occurrence.tries += answer == 1
        occurrence.ended |= answer == 2 or occurrence.tries >= 5
        if answer == 2:
            occurrence.cause = "grant does not cover the request"
        elif answer == 1 and occurrence.tries == 5:
            occurrence.cause = "no grant after five tries"

    def follow_settled(self, occurrence, t, outcome, what=None):
        failed = occurrence.open.pop(t)
        cause = {
            1: f"change {t.change}: broken {what}",
            2: f"change {t.change}: aborted",
            3: f"change {t.change}: call failed" if failed else None,
        }.get(outcome)
        if cause is not None:
            occurrence.trouble = True
            occurrence.cause = cause
        if outcome == 0:
            self.follow_done(occurrence, t, what)

    def follow_done(self, occurrence, t, called):
        """A change was made or undone, and what was made has this name."""
        change = occurrence.changes[t.change]
        part = change[2:]
        held = self.instance(occurrence.instance)
        verb = change.verb if t.way == FORWARD else UNDONE[change.verb]
        occurrence.nets[t.change] = 1 if t.way == FORWARD else 0
        held.last[part] = verb
        if verb == CREATE:
            held.names[part] = called
        if t.way == FORWARD:
            if verb == CREATE:
                _, places, spots = occurrence.grant
                held.places[part] = places[spots[t.change]]
            occurrence.used[t.change] = held.known(part)

    def follow_end(self, held, ask, state):
        """What an instance is once an operation ended in this state."""
        instantiated = ask[0] == "instantiate" and state in (COMPLETED, FAILED)
        if instantiated or (state == COMPLETED and ask[0] in ("scale", "level", "aspects")):
            held.level = target(held.level, ask)
        if instantiated:
            held.instantiated = held.started = True
        elif state == COMPLETED and ask[0] == "heal":
            held.started = True
        elif state == COMPLETED and ask[0] == "operate":
            held.started = ask[1]
        elif state == COMPLETED and ask[0] == "terminate":
            held.instantiated = False

    # What comes next, drawn by lot.

    def drawn_ask(self, held):
        """An ask, which may be refused."""
        draw = self.draw
        if not held.instantiated:
            return "instantiate", "simple", draw.choice([None, "small", "small", "normal"])
        machines = [(v, s) for v in range(len(VDUS)) for s in there(held, v)]
        kind = draw.choice(["scale", "scale", "scale", "level", "aspects", "heal", "heal", "operate", "operate", "terminate"])
        if kind == "scale":
            return kind, draw.randrange(2), "workers", draw.choice([1, 1, 2])
        if kind == "level":
            return kind, draw.choice(sorted(LEVELS))
        if kind == "aspects":
            return kind, [("workers", draw.randrange(3))]
        if kind == "heal":
            named = draw.sample(machines, min(len(machines), draw.choice([0, 1, 1, 1])))
            return kind, draw.choice([None, "a machine is lost"]), named
        if kind == "operate":
            return kind, draw.choice([True, False]), draw.randrange(3)
        return kind, draw.randrange(2), draw.choice([None, 30])

    def ask(self):
        """An operation is asked for, where the one that was drawn isn't refused."""
        instance = self.draw.randrange(len(self.instances)) + 1
        held = self.instance(instance)
        if held is None:
            return
        number = len(self.occurrences) + 1
        for _ in range(8):
            ask = self.drawn_ask(held)
            changes = plan(held, ask)
            fields = [instance, self.draw.randrange(2), ask, changes]
            if self.is_allowed("asked", number, *fields) and not self.seen[self.feature("asked", number, *fields)]:
                break
        if self.is_allowed("asked", number, *fields):
            self.refuse("asked", number + 1, *fields)
            self.refuse("asked", number, *fields[:3], changes[:-1])
            self.happen("asked", number, *fields)
        else:
            self.refuse("asked", number, *fields)

    def drawn_places(self, changes):
        kinds = self.draw.choice([1, 1, 2, 3])
        places, spots = [], []
        for _ in changes:
            place = self.draw.choice([("vim1", ""), ("vim1", "zone-2"), ("vim-east", "zone-1")][:kinds])
            if place not in places:
                places.append(place)
            spots.append(places.index(place))
        return places, spots

    def drawn_outcome(self):
        return self.draw.choices(
            [(0, f"server-{self.events}"), (1, self.draw.choice([9, 4_000_000_000])), (2,), (3,)], [85, 4, 4, 7])[0]

    def events_about(self, number):
        """Events about an occurrence with their weights, of which some aren't allowed."""
        draw, o = self.draw, self.occurrence(number)
        places, spots = self.drawn_places(o.changes)
        yield 30, "granted", number, f"grant-{number}", places, spots
        yield 4, "tried", number, 0, f"/grant/v1/grants/{number}"
        yield 7 if number % 3 else 40, "tried", number, 1, None
        yield 2, "tried", number, 2, None
        yield 2, "denied", number
        for to in STATES[1:]:
            yield {FAILED: 15, ROLLING_BACK: 60}.get(to, 80), "moved", number, to
        for mode in (GRACEFUL, FORCEFUL):
            yield 0.5, "cancel", number, mode
        for t in self.next_attempts(number):
            yield 25, "intent", t
        for t in o.open:
            yield 5, "call failed", t
            yield 30, "settled", t, self.drawn_outcome()

    def wrong_about(self, number):
        """Events about an occurrence that are often not allowed."""
        draw, o = self.draw, self.occurrence(number)
        change = draw.randrange(len(o.changes) + 1) if o.changes else 0
        attempts = o.attempts[change] if change < len(o.changes) else 0
        places, spots = self.drawn_places(o.changes)
        t = Tag(number, change, max(1, attempts + draw.randrange(3)), draw.randrange(2))
        return [
            ("granted", number, draw.choice(["", "grant-9"]), places, spots),
            ("granted", number, "grant-9", places, spots[1:]),
            ("granted", number, "grant-9", places[::-1], spots),
            ("granted", number, "grant-9", places + [("vim9", "")], spots),
            ("tried", number, draw.randrange(3), "/elsewhere"),
            ("denied", number),
            ("moved", number, draw.choice(STATES[1:])),
            ("cancel", number, draw.randrange(2)),
            ("intent", t),
            ("intent", Tag(number, change, attempts + 1, draw.randrange(2))),
            ("call failed", draw.choice([t, *o.open])),
            ("settled", t, self.drawn_outcome()),
        ]

    def next_attempts(self, number):
        """The next attempt at each change of an occurrence, in either way."""
        return [Tag(number, change, made + 1, way) for change, made in enumerate(self.occurrence(number).attempts) for way in (FORWARD, UNDO)]

    def drawn_filter(self):
        """What a subscription asks to be told."""
        draw = self.draw
        return draw.choice([
            Filter(),
            Filter(vnfds=["vnfd-0", "vnfd-1"]),
            Filter(vnfds=["vnfd-2"]),
            Filter(instances=[identifier(draw.randrange(1, len(self.instances) + 2)) for _ in range(2)]),
            Filter(names=["edge-1"]),
            Filter(notices=[CREATION, DELETION]),
            Filter(notices=[OCCURRENCE], states=[COMPLETED, FAILED_TEMP, ROLLED_BACK]),
            Filter(operations=[OPERATIONS["heal"], 8], names=["edge-1", "edge-2"]),
            Filter(operations=[OPERATIONS["scale"], OPERATIONS["instantiate"], 9], states=[STARTING, PROCESSING]),
        ])

    def subscribe(self):
        """A subscription is made; before it one whose number isn't the next, or whose filter is too large."""
        number, asked = len(self.subscriptions) + 1, self.drawn_filter()
        fields = [self.draw.randrange(2), f"http://consumer/{number}", asked]
        self.refuse(*self.draw.choice([
            ("subscribed", number - 1, *fields),
            ("subscribed", number + 1, *fields),
            ("subscribed", number, *fields[:2], asked._replace(states=[COMPLETED] * (VALUES + 1))),
            ("subscribed", number, *fields[:2], asked._replace(names=["edge-1"] * (VALUES + 1))),
        ]))
        self.happen("subscribed", number, *fields)

    def post(self):
        """A notice is posted to a subscription, where one waits; before it maybe one that isn't the first that waits."""
        draw = self.draw
        number = draw.randrange(1, len(self.subscriptions) + 1)
        subscription = self.subscriptions[number - 1]
        first, cursor = subscription.first(), subscription.cursor()
        if draw.random() < 0.3:
            self.refuse("posted", number, draw.choice([cursor, subscription.made, self.events + 1, *subscription.notices[-2:]]), draw.randrange(2))
        if not subscription.live or first is None:
            return self.refuse("posted", number, first or cursor, draw.randrange(2))
        taken = [0.8, 0.3, 0.0 if subscription.tries() else 0.5][number % 3]
        self.happen("posted", number, first, DELIVERED if draw.random() < taken else NOT_TAKEN)

    def unsubscribe(self):
        """A subscription is ended, where more than two are live."""
        live = [n for n, s in enumerate(self.subscriptions, 1) if s.live]
        if len(live) > 2:
            self.happen("unsubscribed", self.draw.choice(live))

    def step(self):
        """The next event, or none; before it maybe one that isn't allowed."""
        draw = self.draw
        number = draw.randrange(len(self.occurrences) + 2) if draw.random() < 0.25 else None
        if number is not None:
            about = self.wrong_about(number) if self.occurrence(number) else [
                ("denied", number), ("moved", number, PROCESSING), ("cancel", number, GRACEFUL), ("intent", Tag(number, 0, 1, FORWARD))]
            self.refuse(*draw.choice(about))
        if draw.random() < 0.02:
            return self.refuse(*draw.choice([("onboarded", DESCRIPTOR), ("created", len(self.instances) + 2, "vnfd-1", None, None),
                ("created", len(self.instances) + 1, "vnfd-2", None, None), ("deleted", draw.randrange(len(self.instances) + 2)),
                ("unsubscribed", draw.randrange(len(self.subscriptions) + 2))]))
        if draw.random() < 0.01 or len(self.instances) < 2:
            return self.happen("created", len(self.instances) + 1, "vnfd-1", draw.choice([None, "edge-1"]), draw.choice([None, "a router"]))
        if draw.random() < 0.015 or len(self.subscriptions) < 3:
            return self.subscribe()
        if draw.random() < 0.008:
            return self.unsubscribe()
        if draw.random() < 0.2:
            return self.post()
        deletable = [i for i in range(1, len(self.instances) + 1) if self.is_allowed("deleted", i) and self.instance(i).top[0]]
        if deletable and draw.random() < 0.05:
            return self.happen("deleted", draw.choice(deletable))
        going = [n for n, o in enumerate(self.occurrences, 1) if o.state not in FINAL]
        if len(going) < 2 or draw.random() < 0.05:
            return self.ask()
        fifths = [t for n in going for t in self.next_attempts(n) if self.is_a_fifth(t)]
        if fifths:
            self.refuse("intent", draw.choice(fifths))
        events = [e for e in self.events_about(draw.choice(going)) if self.is_allowed(*e[1:])]
        weights = [e[0] if self.seen[self.feature(*e[1:])] else 10 * e[0] for e in events]
        self.happen(*draw.choices(events, weights)[0][1:])


# What the history is to have, each at least once.
WANTED = (
    [("moved", *m) for m in [
        (STARTING, PROCESSING), (STARTING, ROLLED_BACK), (PROCESSING, COMPLETED), (PROCESSING, FAILED_TEMP), (FAILED_TEMP, PROCESSING),
        (FAILED_TEMP, ROLLING_BACK), (FAILED_TEMP, FAILED), (ROLLING_BACK, ROLLED_BACK), (ROLLING_BACK, FAILED_TEMP)]]
    + [("settled", outcome, failed) for outcome in range(4) for failed in (False, True)]
    + [("cancel", mode, state) for mode in (GRACEFUL, FORCEFUL) for state in (STARTING, PROCESSING, ROLLING_BACK)]
    + [("posted", how, last) for how in (DELIVERED, NOT_TAKEN) for last in (False, True)]
    + [("subscribed", role) for role in range(2)]
    + [("notice", which, heard) for which in (OCCURRENCE, CREATION, DELETION) for heard in (False, True)]
    + [("tried", 0, False), ("tried", 1, False), ("tried", 1, True), ("tried", 2, False), ("fifth", True)]
    + [("intent", way, count) for way in (FORWARD, UNDO) for count in range(WINDOW)]
    + [("ask", "instantiate", False), ("ask", "instantiate", True), ("ask", "scale", 0), ("ask", "scale", 1), ("ask", "level", True),
        ("ask", "aspects", True), ("ask", "heal", False), ("ask", "heal", True), ("ask", "operate", True), ("ask", "operate", False),
        ("ask", "terminate", GRACEFUL), ("ask", "terminate", FORCEFUL)]
    + [*SPELLED, *("wrong " + kind for kind in SPELLED)]
)


def history(seed, kind=History):
    h = kind(random.Random(seed))
    h.happen("onboarded", DESCRIPTOR)
    while h.events < EVENTS:
        h.step()
    return h


def stored(kind=History):
    """The history that is stored."""
    h = history(SEED, kind)
    missing = [what for what in WANTED if not h.seen[what]]
    assert not missing, missing
    return h
