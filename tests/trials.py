#!/usr/bin/env python3
"""trials.py START COUNT: the lines of a trial by a model of the rules in another language, for the runs of `trial`, which are compared with it.

What the interface answers is answering.py, and what the manager does by itself working.py. The requests are drawn as docs/FORMATS.md says of `trial`.
"""
import functools
import sys

import answering
import views
import working

MULTIPLIER, INCREMENT = 6_364_136_223_846_793_005, 1_442_695_040_888_963_407
MOST_LIVE, MOST_JOBS, TURNS = 8, 65_536, 3
CREATE, INSTANTIATE, SCALE_OUT, SCALE_IN, HEAL, TERMINATE, CANCEL, RETRY, ROLLBACK, DELETE = range(10)
TASKS = {
    INSTANTIATE: ("instantiate", '{"flavourId":"simple"}'),
    SCALE_OUT: ("scale", '{"type":"SCALE_OUT","aspectId":"workers","numberOfSteps":1}'),
    SCALE_IN: ("scale", '{"type":"SCALE_IN","aspectId":"workers","numberOfSteps":1}'),
    HEAL: ("heal", "{}"),
    TERMINATE: ("terminate", '{"terminationType":"GRACEFUL"}'),
}
OCCURRENCE_TASKS = {CANCEL: ("cancel", '{"cancelMode":"GRACEFUL"}'), RETRY: ("retry", ""), ROLLBACK: ("rollback", "")}


class Draw:
    """The numbers that are drawn."""

    def __init__(self, start):
        self.at = start

    def below(self, most):
        self.at = (self.at * MULTIPLIER + INCREMENT) % 2**64
        return (self.at >> 33) % most


def plans():
    """What comes of the begins: each sixteenth is refused."""
    return [("refused", 9) if number % 16 == 0 else ("taken",) for number in range(1, MOST_JOBS)]


def request(draw, h):
    """The request of a step, where there is one: its method, path and body."""
    live = [number for number in range(1, len(h.instances) + 1) if h.instance(number)]
    kind = draw.below(10)
    number = live[draw.below(len(live))] if live else None
    if kind == CREATE:
        return ("POST", answering.ROOT + "vnf_instances", '{"vnfdId":"vnfd-1"}') if len(live) < MOST_LIVE else None
    if number is None:
        return None
    path = views.path(number, 1)
    if kind == DELETE:
        return "DELETE", path, ""
    if kind in TASKS:
        task, body = TASKS[kind]
        return "POST", path + "/" + task, body
    ongoing = h.ongoing(number)
    task, body = OCCURRENCE_TASKS[kind]
    return ("POST", "%s/%s" % (views.path(ongoing, 2), task), body) if ongoing else None


@functools.lru_cache(maxsize=None)
def lines_of(start, count):
    """The three lines of a trial."""
    site = working.Site([working.ONBOARDED], plans=plans(), room=MOST_JOBS)
    manager, draw, statuses = working.Manager(site), Draw(start), []
    h = manager.history
    for _ in range(count):
        asked = request(draw, h)
        if asked is not None:
            method, path, body = asked
            reply, event = answering.answer(h, 0, method, path, {}, body)
            statuses.append(int(reply.split()[1]))
            if event is not None:
                manager.record(*event)
        for _ in range(TURNS):
            manager.turn()
    states = [views.STATES[it.state] for it in h.occurrences]
    of = {state: states.count(state) for state in ("COMPLETED", "FAILED", "ROLLED_BACK")}
    accepted = sum(it < 400 for it in statuses)
    return (
        "requests %d, accepted %d, refused %d" % (len(statuses), accepted, len(statuses) - accepted),
        "completed %d, failed %d, rolled back %d, ongoing %d" % (*of.values(), len(states) - sum(of.values())),
        "jobs %d, standing %d" % (len(site.jobs), sum(it.stands(part) for it in h.instances for part in it.last)),
    )


if __name__ == "__main__":
    print("\n".join(lines_of(int(sys.argv[1]), int(sys.argv[2]))))
