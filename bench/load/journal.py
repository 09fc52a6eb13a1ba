#!/usr/bin/env python3
"""Writes a journal of so many events, after docs/JOURNAL.md and docs/EVENTS.md.

usage: journal.py SHAPE EVENTS [NUMBER [FORMAT]]     to standard output

Each event is a batch of its own, of format 2, or a record of format 1.

Its history is legal: one descriptor with one kind of machine is onboarded, and then

  cycle               instances live one after the other: each is created, subscribed for, instantiated, stopped with a failed attempt,
                      a retry and a cancel, terminated once in vain and once, and deleted. All fifteen kinds of event are there
  onboarded NUMBER    the same over the last of so many descriptors, which are onboarded first
  posted NUMBER       so many subscriptions of both roles are made, which ask for every notice; then instances live so, but without
                      subscriptions of their own, and each notice is posted to each subscription at once
  waiting NUMBER      the same, but nothing is posted
  filtered NUMBER     nothing is posted, since each filter has as many texts as it may, and lets nothing through
  ends NUMBER         so many subscriptions are made, of which each list of names has as many as it may; then an attempt of one instance fails
                      and is tried again, without end. Descriptor and instance have names of 255 bytes, and each name of a list is that of
                      the notice but for its last byte
  middles NUMBER      the same, but for the byte amid it
  begins NUMBER       the same, but for its first byte
  fronts NUMBER       the same, but for its length: each is a front of it
  last NUMBER         as `ends`, but the last name of each list is that of the notice, which each filter so lets through
  alone NUMBER        as `last`, but no other name is in a list
  newest NUMBER       so many instances are created; then one more is created and deleted, in turn
  oldest NUMBER       the same, but the oldest instance is deleted
  busy NUMBER         so many instances are created, and instantiated up to the work; then the work on the first one fails and is tried
                      again, without end
  large NUMBER        an instance of so many machines is created, instantiated, terminated and deleted, then the next one
  asked NUMBER        an instance is created, asked to be instantiated with so many machines, which is denied, and deleted, then the next one
  healed NUMBER       an instance of so many machines is created and instantiated; then its first machine is asked to be healed, which is
                      denied, without end
"""
import struct
import sys
from collections import deque

u8 = struct.Struct(">B").pack
u16 = struct.Struct(">H").pack
u32 = struct.Struct(">I").pack
u64 = struct.Struct(">Q").pack
name = lambda text: u8(len(text)) + text.encode()
line = lambda text: u16(len(text)) + text.encode()
many = lambda entries: u16(len(entries)) + b"".join(entries)
none = b"\0"

MANAGER = 7
FIRST_MOMENT = 1_700_000_000_000
ONBOARDED, CREATED, DELETED, ASKED, GRANT_TRIED, GRANTED, DENIED, INTENT, CALL_FAILED, SETTLED, MOVED, CANCEL_ASKED, SUBSCRIBED, UNSUBSCRIBED, POSTED = range(1, 16)
PROCESSING, COMPLETED, FAILED_TEMP, FAILED, ROLLING_BACK, ROLLED_BACK = range(1, 7)
CREATE, REMOVE, START, STOP = range(4)
DONE = u8(0) + name("server")
BROKEN = u8(1) + u32(5)
NOTICED = {CREATED, DELETED, ASKED, MOVED}
HEADER = {form: b"VNFM-LCM" + u8(form) + u32(MANAGER) + bytes(19) for form in (1, 2)}


class Ends(Exception):
    """The journal has all events that were wanted."""


def descriptor(machines):
    """A descriptor of instances that begin with so many machines of one kind, but for its identifier."""
    return (
        name("Example Networks") + name("machine") + name("1.0") + name("1.0") + name("simple")
        + many([name("machine") + u64(1024) + u32(1) + u32(0xFFFFFFFF) + u32(machines) + many([])])
        + many([]) + many([]) + many([]) + many([])
        + many([name("only")]) + u16(0)
    )


def change(phase, verb, serial):
    """A change of a machine's compute."""
    return u8(phase) + u8(verb) + u8(2) + u16(0) + u16(0) + u32(serial)


def changes(phase, verb, machines):
    """A change of each machine's compute, of which the serials are 1 and on."""
    return many([change(phase, verb, serial + 1) for serial in range(machines)])


def filter_of(values):
    """A filter with so many values in each list of texts, of which none is that of a notice here."""
    return many([name(f"no-such-text-{value}") for value in range(values)]) * 3 + many([]) * 3


# The name of a descriptor and of an instance, as long as it may be, and the text of the identifier of instance 1 of the manager.
LONG = "n" * 255
FIRST = f"{MANAGER:08x}-766d-8001-8000-000000000001"
LETTERS = "ABCDEFGHIJKLMNOPQRSTUVWXYZ0123456789abcdefghijklm_oqrstuvwxyz+-/="


def put_at(text, place, letter):
    return text[:place] + letter + text[place + 1:]


# The names of a list, by that of the notice.
NEAR = {
    "ends": lambda text: [put_at(text, len(text) - 1, letter) for letter in LETTERS],
    "middles": lambda text: [put_at(text, len(text) // 2, letter) for letter in LETTERS],
    "begins": lambda text: [put_at(text, 0, letter) for letter in LETTERS],
    "fronts": lambda text: [text[:len(text) - 1 - value % (len(text) - 1)] for value in range(64)],
    "last": lambda text: [put_at(text, len(text) - 1, letter) for letter in LETTERS][:63] + [text],
    "alone": lambda text: [text],
}


def near(shape):
    """A filter of which the names are such for the notices of instance 1."""
    return b"".join(many([name(text) for text in NEAR[shape](value)[:64]]) for value in (LONG, FIRST, LONG)) + many([]) * 3


class Journal:
    """How many events were written, and how many were made of each kind that is numbered."""

    def __init__(self, out, wanted, machines=1, form=2):
        self.out = out
        self.form = form
        self.wanted = wanted
        self.events = 0
        self.instance = 0
        self.occurrence = 0
        self.subscription = 0
        self.told = []
        self.instantiate = u8(1) + name("simple") + none + changes(2, CREATE, machines)
        self.stop = u8(5) + u8(1) + u8(2) + changes(4, STOP, machines)
        self.terminate = u8(6) + u8(1) + none + changes(6, REMOVE, machines)
        self.machines = machines
        out.write(HEADER[form])
        self.onboard(1)

    def put(self, kind, fields):
        """Writes an event, and the posts of its notice to all who are told."""
        if self.events == self.wanted:
            raise Ends
        length = 9 + len(fields)
        around = u32(4 + length) if self.form == 2 else b""
        self.out.write(u8(1) + around + u32(length) + u8(kind) + u64(FIRST_MOMENT + self.events) + fields)
        self.events += 1
        if self.told and kind in NOTICED:
            place = self.events
            for subscription in self.told:
                self.post(subscription, place)

    def post(self, subscription, place):
        self.put(POSTED, u64(subscription) + u64(place) + u8(0))

    def onboard(self, number, named=None):
        """Onboards a descriptor, of which the instances are from now on."""
        self.vnfd = name(named or f"machine-{number}")
        self.put(ONBOARDED, self.vnfd + descriptor(self.machines))

    def create(self, named=None):
        self.instance += 1
        self.put(CREATED, u64(self.instance) + self.vnfd + (u8(1) + name(named) if named else none) + none)

    def delete(self, instance):
        self.put(DELETED, u64(instance))

    def ask(self, asked):
        self.occurrence += 1
        self.put(ASKED, u64(self.occurrence) + u64(self.instance) + u8(0) + asked)

    def move(self, to):
        self.put(MOVED, u64(self.occurrence) + u8(to))

    def grant(self):
        self.put(GRANTED, u64(self.occurrence) + name("grant") + u8(1) + name("vim-1") + name("zone-1") + u16(self.machines) + bytes(self.machines))
        self.move(PROCESSING)

    def deny(self):
        self.put(DENIED, u64(self.occurrence))
        self.move(ROLLED_BACK)

    def tag(self, attempt, change=0):
        return u64(self.occurrence) + u16(change) + u32(attempt) + u8(0)

    def begin(self, attempt, change=0):
        self.put(INTENT, self.tag(attempt, change))

    def settle(self, attempt, outcome, change=0):
        self.put(SETTLED, self.tag(attempt, change) + outcome)

    def subscribe(self, role=0, values=0, callback="http://receiver.example/", narrow=None):
        self.subscription += 1
        self.put(SUBSCRIBED, u64(self.subscription) + u8(role) + line(callback) + (filter_of(values) if narrow is None else narrow))

    def live(self, subscribes):
        """The whole life of an instance, which maybe has a subscription of its own."""
        self.create()
        if subscribes:
            self.subscribe()
        self.ask(self.instantiate)
        if subscribes:
            self.post(self.subscription, self.events)
        self.put(GRANT_TRIED, u64(self.occurrence) + u8(1))
        self.put(GRANT_TRIED, u64(self.occurrence) + u8(0) + line("/grant/v1/grants/1"))
        self.grant()
        self.begin(1)
        self.put(CALL_FAILED, self.tag(1))
        self.settle(1, DONE)
        self.move(COMPLETED)
        self.ask(self.stop)
        self.grant()
        self.begin(1)
        self.settle(1, BROKEN)
        self.move(FAILED_TEMP)
        self.move(PROCESSING)
        self.begin(2)
        self.put(CANCEL_ASKED, u64(self.occurrence) + u8(0))
        self.settle(2, DONE)
        self.move(FAILED_TEMP)
        self.move(PROCESSING)
        self.move(COMPLETED)
        self.ask(self.terminate)
        self.deny()
        self.ask(self.terminate)
        self.grant()
        self.begin(1)
        self.settle(1, DONE)
        self.move(COMPLETED)
        if subscribes:
            self.put(UNSUBSCRIBED, u64(self.subscription))
        self.delete(self.instance)

    def work(self, asked):
        """An operation that changes each machine, without a fault."""
        self.ask(asked)
        self.grant()
        for change in range(self.machines):
            self.begin(1, change)
            self.settle(1, DONE, change)
        self.move(COMPLETED)


def cycle(journal, _):
    while True:
        journal.live(True)


def onboarded(journal, number):
    for more in range(1, number):
        journal.onboard(more + 1)
    cycle(journal, number)


def told(journal, number, values=0, posts=False):
    for subscription in range(number):
        journal.subscribe(subscription % 2, values)
    if posts:
        journal.told = range(1, number + 1)
    while True:
        journal.live(False)


def narrow(journal, number, shape):
    journal.onboard(2, LONG)
    for subscription in range(number):
        journal.subscribe(subscription % 2, narrow=near(shape))
    journal.create(LONG)
    journal.ask(journal.instantiate)
    journal.grant()
    fail(journal)


def in_turn(journal, number, newest):
    live = deque()
    while True:
        journal.create()
        live.append(journal.instance)
        if len(live) > number:
            journal.delete(live.pop() if newest else live.popleft())


def busy(journal, number):
    for _ in range(number):
        journal.create()
        journal.ask(journal.instantiate)
        journal.grant()
    journal.occurrence = 1
    fail(journal)


def fail(journal):
    """Attempts of the occurrence fail and are made again."""
    attempt = 0
    while True:
        attempt += 1
        journal.begin(attempt)
        journal.settle(attempt, BROKEN)
        journal.move(FAILED_TEMP)
        journal.move(PROCESSING)


def large(journal, _):
    while True:
        journal.create()
        journal.work(journal.instantiate)
        journal.work(journal.terminate)
        journal.delete(journal.instance)


def asked(journal, _):
    while True:
        journal.create()
        journal.ask(journal.instantiate)
        journal.deny()
        journal.delete(journal.instance)


def healed(journal, number):
    journal.create()
    journal.work(journal.instantiate)
    top = number
    while True:
        top += 1
        journal.ask(u8(4) + none + many([u16(0) + u32(1)]) + many([change(2, CREATE, top), change(6, REMOVE, 1)]))
        journal.deny()


SHAPES = {
    "cycle": cycle,
    "onboarded": onboarded,
    "posted": lambda journal, number: told(journal, number, posts=True),
    "waiting": told,
    "filtered": lambda journal, number: told(journal, number, values=64),
    **{shape: lambda journal, number, shape=shape: narrow(journal, number, shape) for shape in NEAR},
    "newest": lambda journal, number: in_turn(journal, number, True),
    "oldest": lambda journal, number: in_turn(journal, number, False),
    "busy": busy,
    "large": large,
    "asked": asked,
    "healed": healed,
}


def write(out, shape, events, number=1, form=2):
    """Writes the journal of this shape with so many events, in this format."""
    try:
        SHAPES[shape](Journal(out, events, number if shape in ("large", "asked", "healed") else 1, form), number)
    except Ends:
        out.write(u8(0))


if __name__ == "__main__":
    write(sys.stdout.buffer, sys.argv[1], *map(int, sys.argv[2:]))
