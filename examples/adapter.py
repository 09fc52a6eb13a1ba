#!/usr/bin/env python3
"""A small infrastructure adapter of vnfm. Its infrastructure is a folder.

    python3 examples/adapter.py --listen 127.0.0.1:9200 --folder FOLDER [--looks K]

Each resource is a file of the folder, named r1, r2 and on; each job is a file of its subfolder jobs, named after its TAG. Both are JSON. A job
is told RUNNING to K looks, 0 where the option isn't given; the next look does its work, and tells how it ended. A job that runs when the
program is stopped is done when it starts again, since its work may have been done in part. docs/VIM.md has the lines, and what an adapter
must keep.

A fault of the disk ends the program without a reply. What was asked is then in the files or isn't, and the next start goes on from there.
"""
import argparse
import collections
import fcntl
import json
import os
import pathlib
import re
import socket
import sys

LONGEST_LINE = 131_072
MOST_NAMES = 128
NOT_THERE, NOT_OF_THIS_KIND = 1, 2  # codes of REFUSED and BROKEN


# ---- Lines: what is no call raises a ValueError


def number(field, limit):
    """The number that a field is, which is less than the limit."""
    if not re.fullmatch(rb"0|[1-9][0-9]{0,19}", field) or int(field) >= limit:
        raise ValueError("no number")
    return int(field)


def name(field):
    """The name that a field is."""
    if not re.fullmatch(rb"x([0-9a-f]{2}){0,255}", field):
        raise ValueError("no name")
    text = bytes.fromhex(field[1:].decode()).decode()
    if any(it < " " or it == "\x7f" for it in text):
        raise ValueError("no name")
    return text


def one_of(words, field):
    """The word that a field is, which is one of these."""
    if field.decode() not in words.split():
        raise ValueError("no such word")
    return field.decode()


def tag_of(field):
    """A TAG, as it stands."""
    manager, occurrence, change, attempt, way = field.split(b".")
    for part, bits in (manager, 32), (occurrence, 64), (change, 16), (attempt, 32):
        number(part, 2**bits)
    one_of("F U", way)
    return field.decode()


def act_of(fields):
    """What a BEGIN asks for."""
    verb, kind, template, vdu, serial, vim, zone, size, cpus, *on = fields
    if len(on) > MOST_NAMES:
        raise ValueError("too many names")
    return dict(
        verb=one_of("CREATE REMOVE START STOP", verb),
        kind=one_of("LINK STORAGE COMPUTE PORT", kind),
        template=name(template),
        vdu=name(vdu),
        serial=number(serial, 2**32),
        vim=name(vim),
        zone=name(zone),
        size=number(size, 2**64),
        cpus=number(cpus, 2**32),
        on=[name(it) for it in on],
    )


def call_of(line):
    """The word, the TAG and, of a BEGIN, the act."""
    if not line.endswith(b"\n"):
        raise ValueError("cut or too long")
    word, tag, *fields = line[:-1].split(b" ")
    word, tag = one_of("BEGIN LOOK ABORT", word), tag_of(tag)
    if word == "BEGIN":
        return word, tag, act_of(fields)
    if fields:
        raise ValueError("too many fields")
    return word, tag, None


# ---- Files


def sync(folder):
    """Has the names in a folder on the disk."""
    descriptor = os.open(folder, os.O_RDONLY)
    try:
        os.fsync(descriptor)
    finally:
        os.close(descriptor)


def write(path, content):
    """Has a file with this content on the disk, whole or not at all. (No job and no resource is named `new`.)"""
    new = path.with_name("new")
    with open(new, "w", encoding="utf-8") as file:
        file.write(json.dumps(content, indent=1) + "\n")
        file.flush()
        os.fsync(file.fileno())
    os.replace(new, path)
    sync(path.parent)


def read(path):
    """The content of a file; None where there is none."""
    try:
        return json.loads(path.read_text(encoding="utf-8"))
    except FileNotFoundError:
        return None


class Infrastructure:
    """The resources and jobs of a folder, which no other adapter may have."""

    def __init__(self, folder, looks):
        self.folder, self.jobs, self.looks = folder, folder / "jobs", looks
        self.jobs.mkdir(parents=True, exist_ok=True)
        self.lock = os.open(folder, os.O_RDONLY)
        fcntl.flock(self.lock, fcntl.LOCK_EX | fcntl.LOCK_NB)
        for it in folder.parent, folder, self.jobs:
            sync(it)
        self.told_running = collections.Counter()
        jobs = {path.name: read(path) for path in self.jobs.iterdir() if path.name != "new"}
        # (jobs are kept for ever, so a name is never given twice)
        self.last = max((int(it["resource"][1:]) for it in jobs.values()), default=0)
        for tag, job in jobs.items():
            if job["state"] == "RUNNING":
                self.work(tag, job)

    def resource(self, called):
        """What stands under this name; None where nothing does."""
        return read(self.folder / called) if re.fullmatch("r[1-9][0-9]{0,19}", called) else None

    def begin(self, tag, act):
        if read(self.jobs / tag):
            return "BEGUN"
        on = [self.resource(it) for it in act["on"]]
        if None in on:
            return f"REFUSED {NOT_THERE}"
        if act["verb"] == "CREATE":
            resource = f"r{self.last + 1}"
        elif [it["kind"] for it in on] == [act["kind"]] and (act["verb"] == "REMOVE" or act["kind"] == "COMPUTE"):
            resource = act["on"][0]
        else:
            return f"REFUSED {NOT_OF_THIS_KIND}"
        write(self.jobs / tag, {**act, "resource": resource, "state": "RUNNING"})
        self.last = max(self.last, int(resource[1:]))
        return "BEGUN"

    def look(self, tag):
        job = read(self.jobs / tag)
        if job is None:
            return "ABSENT"
        if job["state"] == "RUNNING":
            if self.told_running[tag] < self.looks:
                self.told_running[tag] += 1
                return "RUNNING"
            del self.told_running[tag]
            job = self.work(tag, job)
        return f"DONE x{job['resource'].encode().hex()}" if job["state"] == "DONE" else job["state"]

    def abort(self, tag):
        job = read(self.jobs / tag)
        if job and job["state"] == "RUNNING":
            write(self.jobs / tag, {**job, "state": "ABORTED"})
        return "ASKED"

    def work(self, tag, job):
        """Does the work of a job that runs, and keeps how it ended. Where that was stopped, doing it again comes to the same."""
        verb, path = job["verb"], self.folder / job["resource"]
        stands, state = self.resource(job["resource"]), "DONE"
        if verb == "CREATE" and not stands:
            if all(self.resource(it) for it in job["on"]):
                members = "kind template vdu serial vim zone size cpus on".split()
                started = {"state": "STARTED"} if job["kind"] == "COMPUTE" else {}
                write(path, {**{it: job[it] for it in members}, **started, "job": tag})
            else:
                state = f"BROKEN {NOT_THERE}"
        elif verb == "REMOVE" and stands:
            os.unlink(path)
            sync(self.folder)
        elif verb in ("START", "STOP"):
            if stands:
                write(path, {**stands, "state": "STARTED" if verb == "START" else "STOPPED"})
            else:
                state = f"BROKEN {NOT_THERE}"
        ended = {**job, "state": state}
        write(self.jobs / tag, ended)
        return ended


# ---- Connections


def received(stream):
    """The next line of a connection; nothing at its end."""
    try:
        return stream.readline(LONGEST_LINE)
    except OSError:
        return b""


def serve(connection, infrastructure):
    """Answers a connection to its end, or to the first line that is no call."""
    with connection, connection.makefile("rb") as stream:
        while line := received(stream):
            try:
                word, tag, act = call_of(line)
            except ValueError:
                return
            if word == "BEGIN":
                reply = infrastructure.begin(tag, act)
            else:
                reply = infrastructure.look(tag) if word == "LOOK" else infrastructure.abort(tag)
            try:
                connection.sendall(f"{reply}\n".encode())
            except OSError:
                return


def address(text):
    host, _, port = text.rpartition(":")
    return host, int(port)


def main():
    words = argparse.ArgumentParser(description="A small infrastructure adapter of vnfm, whose infrastructure is a folder.")
    words.add_argument("--listen", required=True, type=address, metavar="HOST:PORT")
    words.add_argument("--folder", required=True, type=pathlib.Path)
    words.add_argument("--looks", default=0, type=int, metavar="K", help="each job is told RUNNING to K looks first")
    given = words.parse_args()
    try:
        infrastructure = Infrastructure(given.folder.resolve(), given.looks)
        listener = socket.create_server(given.listen)
    except BlockingIOError:
        sys.exit(f"another adapter has {given.folder}")
    except OSError as fault:
        sys.exit(str(fault))
    print("listening at %s:%d" % listener.getsockname(), flush=True)
    # One connection after another, each without a limit on its silence: no line of a newer one is answered before the older one has ended.
    while True:
        connection, _ = listener.accept()
        serve(connection, infrastructure)


if __name__ == "__main__":
    try:
        main()
    except KeyboardInterrupt:
        pass
