#!/usr/bin/env python3
"""Measures what a megabyte of input costs that is made to cost much: processor seconds of `vnfm once` with a connection of such bytes, and of `vnfm
onboard` with such a descriptor, from a file and through a pipe in pieces; the start of the program with it. Journals lie in memory.

usage: bench/hostile/measure.py [VNFM]
"""
import json
import os
import pathlib
import resource
import shutil
import subprocess
import sys

sys.path.append(str(pathlib.Path(__file__).resolve().parent.parent))
import measuring

MEGABYTE = 1_048_576
PIECES = [1, 1_000]
vnfm = measuring.built("vnfm")
ROOT = "/vnflcm/v1/"


def request(method, path, body="", fields="Content-Type: application/json\r\n"):
    return f"{method} {ROOT}{path} HTTP/1.1\r\n{fields}Content-Length: {len(body.encode())}\r\n\r\n{body}".encode()


def often(part, end=b""):
    """As many of it as a megabyte has, and this behind them."""
    return part * ((MEGABYTE - len(end)) // len(part)) + end


def body(front, part, back):
    """A create request with a body of a megabyte."""
    inside = front + part * ((MEGABYTE - len(front) - len(back) - len(part)) // len(part)) + part.rstrip(",") + back
    return request("POST", "vnf_instances", inside[:MEGABYTE])


def chunks(part):
    head = f"POST {ROOT}vnf_instances HTTP/1.1\r\nTransfer-Encoding: chunked\r\n\r\n".encode()
    return head + often(b"%x\r\n%s\r\n" % (len(part), part), b"0\r\n\r\n")


NAMES = [f"n{number:03}" for number in range(64)]
FILTER = {"vnfInstanceSubscriptionFilter": {"vnfdIds": NAMES, "vnfInstanceIds": NAMES, "vnfInstanceNames": NAMES}}
HEALED = json.dumps({"vnfcInstanceId": [f"VDU_A-{number}" for number in range(512)]})
FIRST = "00000007-766d-8001-8000-000000000001"
CONNECTIONS = {
    "one byte": lambda: b"G",
    "bytes of zero": lambda: bytes(MEGABYTE),
    "empty lines": lambda: often(b"\r\n"),
    "a head without an end": lambda: b"GET / HTTP/1.1\r\na: " + b"x" * MEGABYTE,
    "the smallest requests": lambda: often(b"GET / HTTP/1.1\r\n\r\n"),
    "requests with 64 fields": lambda: often(b"GET / HTTP/1.1\r\n" + b"a:\r\n" * 64 + b"\r\n"),
    "requests for an instance that isn't there": lambda: often(request("GET", "vnf_instances/" + FIRST, fields="")),
    "lists of no instance": lambda: often(request("GET", "vnf_instances", fields="")),
    "refused creations": lambda: often(request("POST", "vnf_instances", '{"vnfdId":"n"}')),
    "creations": lambda: often(request("POST", "vnf_instances", '{"vnfdId":"vnfd-1"}')),
    "subscriptions with full filters": lambda: often(request("POST", "subscriptions", json.dumps({"callbackUri": "http://h/", "filter": FILTER}))),
    "heals of 512 names": lambda: often(request("POST", f"vnf_instances/{FIRST}/heal", HEALED)),
    "chunks of one byte": lambda: chunks(b" "),
    "chunks of 16 bytes": lambda: chunks(b" " * 16),
    "a body of one text": lambda: body('{"vnfdId":"', "x", '"}'),
    "a body of escapes": lambda: body('{"vnfdId":"', "\\u0041", '"}'),
    "a body of members": lambda: body('{"vnfdId":"n"', ',"a":0', "}"),
    "a body of members with names of their own": lambda: request(
        "POST", "vnf_instances", "{" + ",".join(f'"{number}":0' for number in range(95_000)) + "}"),
    "a body of empty objects": lambda: body('{"vnfdId":[', "{},", "]}"),
    "a body of empty arrays": lambda: body('{"vnfdId":[', "[],", "]}"),
    "a body of numbers": lambda: body('{"vnfdId":[', "1e9,", "]}"),
    "a body of long numbers": lambda: body('{"vnfdId":[', "1." + "1" * 400 + ",", "]}"),
    "a body of nested arrays": lambda: body('{"vnfdId":[', "[" * 120 + "]" * 120 + ",", "]}"),
    "a body that is nested without an end": lambda: body('{"vnfdId":', "[", ""),
    "a body that isn't UTF-8": lambda: request("POST", "vnf_instances", "x" * MEGABYTE).replace(b"xx", b"\xff\xff"),
}


def document(templates, policies=()):
    whole = json.loads((measuring.TOP / "examples" / "vnfd.json").read_text())
    template = whole["topology_template"]
    template["node_templates"].update(templates)
    template["policies"].extend(policies)
    return json.dumps(whole, separators=(",", ":")).encode()[:MEGABYTE]


def fill(entry):
    """So many entries that a descriptor with them has some less than a megabyte."""
    return {f"X{number}": entry for number in range(1_000_000 // (len(json.dumps(entry, separators=(",", ":"))) + 10))}


PORT = {"type": "tosca.nodes.nfv.VduCp", "requirements": [{"virtual_binding": "VDU_A"}, {"virtual_link": "net_data"}]}
LEVELS = {"type": "tosca.policies.nfv.VduInstantiationLevels", "properties": {"levels": {"small": {"number_of_instances": 1}}}, "targets": ["VDU_A"]}
DESCRIPTORS = {
    "empty": lambda: b"",
    "spaces": lambda: b" " * MEGABYTE,
    "templates of an unknown type": lambda: document(fill({"type": "x"})),
    "links": lambda: document(fill({"type": "tosca.nodes.nfv.VnfVirtualLink"})),
    "ports of one machine": lambda: document(fill(PORT)),
    "policies of one machine": lambda: document({}, [{name: LEVELS} for name in fill(LEVELS)]),
    "targets of one policy": lambda: document({}, [{"x": {**LEVELS, "targets": ["VDU_A"] * 120_000}}]),
    "requirements of one port": lambda: document({"X": {**PORT, "requirements": PORT["requirements"] * 18_000}}),
    "levels of one policy": lambda: document({}, [{"x": {"type": "tosca.policies.nfv.InstantiationLevels", "properties": {"levels": {
        f"l{number}": {"scale_info": {}} for number in range(38_000)}}}}]),
    "steps of one aspect": lambda: document({}, [{"x": {"type": "tosca.policies.nfv.ScalingAspects", "properties": {"aspects": {"workers": {
        "max_scale_level": 10, "step_deltas": ["delta_1"] * 90_000}}}}}]),
}


def used():
    by = resource.getrusage(resource.RUSAGE_CHILDREN)
    return by.ru_utime + by.ru_stime


def seconds(command, given, size):
    """What a command takes whose standard input has these bytes: those of a file, or, in pieces of this size, of a pipe."""
    before = used()
    if size is None:
        with open(given, "rb") as file:
            subprocess.run(command, stdin=file, stdout=subprocess.DEVNULL, stderr=subprocess.DEVNULL)
        return used() - before
    # The writer is a process of its own that is waited for first, so that its time falls out.
    into, out = os.pipe()
    with subprocess.Popen(command, stdin=into, stdout=subprocess.DEVNULL, stderr=subprocess.DEVNULL) as ran:
        os.close(into)
        held = memoryview(pathlib.Path(given).read_bytes())
        try:
            for at in range(0, len(held), size):
                os.write(out, held[at:at + size])
        except BrokenPipeError:
            pass
        os.close(out)
    return used() - before


def rows(room, shapes, made, *words):
    worst = 0
    for what, given in shapes.items():
        path = room / "given"
        path.write_bytes(given())
        found = []
        for size in [None, *PIECES]:
            shutil.copyfile(made, room / "journal")
            found.append(seconds([vnfm, *words, "--journal", room / "journal"], path, size))
        worst = max(worst, *found)
        measuring.row(what, f"{path.stat().st_size:,}", *[f"{it:.2f}" for it in found])
    return worst


def main():
    with measuring.room() as room:
        made, onboarded = room / "made", room / "onboarded"
        measuring.run([vnfm, "init", "--journal", made, "--manager", "7"])
        shutil.copyfile(made, onboarded)
        measuring.run([vnfm, "onboard", "--journal", onboarded], measuring.TOP / "examples" / "vnfd.json")
        heads = ["Bytes", "s, from a file", *[f"in pieces of {size:,}" for size in PIECES]]
        print("Connections of `once`:")
        measuring.head("What", *heads)
        worst = rows(room, CONNECTIONS, onboarded, "once")
        print("\nDescriptors:")
        measuring.head("What", *heads)
        worst = max(worst, rows(room, DESCRIPTORS, made, "onboard"))
        print(f"\nThe most: {worst:.2f} s")


if __name__ == "__main__":
    main()
