"""Writes a descriptor of a shape with so many bytes: blanks fill what the shape leaves.

usage: document.py SHAPE BYTES     or, for the names of the shapes, document.py
"""

import json
import random
import sys

NFV = "tosca.nodes.nfv."
POLICY = "tosca.policies.nfv."
SHAPES = {}
LETTERS = "ABCDEFGHIJKLMNOPQRSTUVWXYZabcdefghijklmnopqrstuvwxyz0123456789+-"


def shape(function):
    SHAPES[function.__name__] = function
    return function


def compact(value):
    return json.dumps(value, separators=(",", ":"))


def compute(storages=()):
    return {
        "type": NFV + "Vdu.Compute",
        "capabilities": {"virtual_compute": {"properties": {
            "virtual_memory": {"virtual_mem_size": "2 GiB"},
            "virtual_cpu": {"num_virtual_cpu": 2}}}},
        "requirements": [{"virtual_storage": storage} for storage in storages],
    }


def product():
    names = ["descriptor_id", "provider", "product_name", "software_version", "descriptor_version", "flavour_id"]
    return {"type": "example.Vnf", "properties": {name: "x" for name in names}}


def policy(name, kind, properties, targets=None):
    found = {"type": POLICY + kind, "properties": properties}
    if targets is not None:
        found["targets"] = targets
    return {name: found}


def instances(number=1):
    return {"number_of_instances": number}


def base(names):
    """Templates of VDUs of these names, and policies with their initial deltas."""
    templates = {"vnf": product()}
    for name in names:
        templates[name] = compute()
    return templates, [policy("i", "VduInitialDelta", {"initial_delta": instances()}, list(names))]


def scaling(aspects):
    return policy("aspects", "ScalingAspects", {"aspects": aspects})


def levels(count, scales, default="l0"):
    found = {f"l{number}": {"scale_info": scales} for number in range(count)}
    return policy("levels", "InstantiationLevels", {"levels": found, "default_level": default})


def document(templates, policies):
    return compact({"topology_template": {"node_templates": templates, "policies": policies}})


def filled(templates, policies, size, one, room_for="~"):
    """The document, with as many of the texts that `one` gives, in place of the mark, as there is room for."""
    text = document(templates, policies)
    mark = compact(room_for)
    front, behind = text.split(mark)
    room = size - len(front) - len(behind)
    parts, number = [], 0
    while True:
        part = one(number)
        if part is None or room < len(part) + 1:
            break
        room -= len(part) + 1
        parts.append(part)
        number += 1
    return front + ",".join(parts) + behind


def with_policies(templates, policies, size, one):
    return filled(templates, policies + ["~"], size, one)


@shape
def full(size):
    """Every list at its limit, and policies that state a number for one VDU at one level."""
    templates = {"vnf": product()}
    for number in range(64):
        templates[f"v{number}"] = compute([f"s{number}", f"s{number + 64}"])
        templates[f"n{number}"] = {"type": NFV + "VnfVirtualLink"}
    for number in range(128):
        templates[f"s{number}"] = {"type": NFV + "Vdu.VirtualBlockStorage"}
    for number in range(256):
        templates[f"p{number}"] = {"type": NFV + "VduCp", "requirements": [
            {"virtual_binding": f"v{number % 64}"}, {"virtual_link": f"n{number % 64}"}]}
    names = [f"d{number}" for number in range(100)]
    aspects = {f"a{number}": {"max_scale_level": 1000, "step_deltas": ["d0"]} for number in range(15)}
    aspects["z"] = {"max_scale_level": 100, "step_deltas": names}
    policies = [scaling(aspects)]
    vdus = [f"v{vdu}" for vdu in range(64)]
    policies.append(policy("i", "VduInitialDelta", {"initial_delta": instances()}, vdus))
    for aspect in aspects:
        given = {name: instances() for name in (names if aspect == "z" else ["d0"])}
        policies.append(policy(f"d{aspect}", "VduScalingAspectDeltas", {"aspect": aspect, "deltas": given}, vdus))
    given = {f"l{number}": {"scale_info": {aspect: {"scale_level": number} for aspect in aspects}} for number in range(64)}
    policies.append(policy("levels", "InstantiationLevels", {"levels": given, "default_level": "l0"}))

    # Policies of the levels of a VDU: what they state is what the deltas lead to at level 0.
    def one(number):
        return compact(policy(f"s{number:05}", "VduInstantiationLevels", {"levels": {"l0": instances()}}, [f"v{number % 64}"]))

    return with_policies(templates, policies, size, one)


def grown(aspects, vdus, targets):
    """Aspects of 1,000 equal steps that add nothing, at their greatest level at each of 64 levels."""
    names = [LETTERS[number] for number in range(aspects)]
    templates, policies = base(vdus)
    policies.append(scaling({name: {"max_scale_level": 1000, "step_deltas": ["s"] * 1000} for name in names}))
    for name in names:
        policies.append(policy("d" + name, "VduScalingAspectDeltas", {"aspect": name, "deltas": {"s": instances(0)}}, targets))
    policies.append(levels(64, {name: {"scale_level": 1000} for name in names}))
    return templates, policies


@shape
def targets(size):
    """One policy that states a number for one VDU, named again and again, at 64 levels over 15 aspects of 1,000 steps."""
    templates, policies = grown(15, list(LETTERS), list(LETTERS))
    given = {f"l{number}": instances() for number in range(64)}
    policies.append(policy("t", "VduInstantiationLevels", {"levels": given}, ["~"]))
    return filled(templates, policies, size, lambda number: '"z"')


@shape
def stated(size):
    """Policies that each state numbers for one VDU at 64 levels, over 16 aspects of 1,000 steps."""
    templates, policies = grown(16, list(LETTERS), list(LETTERS))
    given = {f"l{number}": instances() for number in range(64)}
    return with_policies(templates, policies, size, lambda number: compact(
        policy("t", "VduInstantiationLevels", {"levels": given}, [LETTERS[number % 64]])))


@shape
def stated_once(size):
    """Policies that each state a number for one VDU at one level, over 16 aspects of 1,000 steps."""
    templates, policies = grown(16, list(LETTERS), list(LETTERS))
    return with_policies(templates, policies, size, lambda number: compact(
        policy("t", "VduInstantiationLevels", {"levels": {f"l{number % 64}": instances()}}, ["z"])))


@shape
def unstated(size):
    """A policy that aims at one VDU again and again, and gives it no number at the default level."""
    templates, policies = {"vnf": product()}, []
    for name in LETTERS:
        templates[name] = compute()
    policies.append(policy("t", "VduInstantiationLevels", {"levels": {}}, ["~"]))
    return filled(templates, policies, size, lambda number: '"z"')


def aimed(size, names, target, kind="VduScalingAspectDeltas", properties=None):
    templates, policies = base(names)
    policies.append(scaling({"a": {"max_scale_level": 0, "step_deltas": []}}))
    policies.append(policy("t", kind, properties or {"aspect": "a"}, ["~"]))
    return filled(templates, policies, size, lambda number: compact(target))


@shape
def cells(size):
    """A policy with deltas for one VDU, named again and again."""
    return aimed(size, list(LETTERS), "z")


@shape
def names(size):
    """The same, where the names of VDUs have 255 bytes, and differ in the last one."""
    long = ["x" * 254 + letter for letter in sorted(LETTERS)]
    return aimed(size, long, long[-1])


@shape
def initials(size):
    """An initial delta for one VDU, named again and again: refused."""
    return aimed(size, list(LETTERS), "z", "VduInitialDelta", {"initial_delta": instances()})


def many_steps(size, steps):
    templates, policies = base(["v"])
    policies.append(scaling({"a": {"max_scale_level": 1000, "step_deltas": steps}}))
    given = {name: instances() for name in steps}
    return with_policies(templates, policies, size, lambda number: compact(
        policy("p", "VduScalingAspectDeltas", {"aspect": "a", "deltas": given})))


@shape
def steps(size):
    """Policies with deltas for 1,000 equal steps that aim at nothing."""
    return many_steps(size, ["s"] * 1000)


@shape
def two_steps(size):
    """The same, of two step names in turn."""
    return many_steps(size, ["s", "t"] * 500)


@shape
def rows(size):
    """16 aspects with 1,000 steps of their own names, with a delta of each for 64 VDUs."""
    templates, policies = base(list(LETTERS))
    names = [f"{number:x}" for number in range(1000)]
    aspects = [LETTERS[number] for number in range(16)]
    policies.append(scaling({aspect: {"max_scale_level": 1000, "step_deltas": names} for aspect in aspects}))
    deltas = {name: instances() for name in names}
    for aspect in aspects:
        policies.append(policy("d" + aspect, "VduScalingAspectDeltas", {"aspect": aspect, "deltas": deltas}, list(LETTERS)))
    policies.append(levels(64, {aspect: {"scale_level": 1000} for aspect in aspects}))
    policies.append(policy("t", "VduInstantiationLevels", {"levels": {f"l{number}": instances(16001) for number in range(64)}}, list(LETTERS)))
    return document(templates, policies)


@shape
def storages(size):
    """A VDU that requires the last of 128 storages again and again."""
    templates = {"vnf": product(), "v": compute(["~"])}
    for number in range(128):
        templates[f"s{number:03}"] = {"type": NFV + "Vdu.VirtualBlockStorage"}
    return filled(templates, [], size, lambda number: '{"virtual_storage":"s127"}', {"virtual_storage": "~"})


def required(size, one):
    templates, policies = base(list(LETTERS))
    for letter in LETTERS:
        templates["n" + letter] = {"type": NFV + "VnfVirtualLink"}
    templates["port"] = {"type": NFV + "VduCp", "requirements": [{"virtual_binding": "z"}, "~"]}
    return filled(templates, policies, size, lambda number: one)


@shape
def bindings(size):
    """A port that is bound to the last of 64 VDUs again and again."""
    return required(size, '{"virtual_binding":"z"}')


@shape
def links(size):
    """A port that has the last of 64 links again and again."""
    return required(size, '{"virtual_link":"nz"}')


@shape
def requirements(size):
    """Requirements `{"":""}`."""
    return required(size, '{"":""}')


@shape
def policies(size):
    """Policies of one type that aim at nothing, against the order of their names."""
    return with_policies({"vnf": product()}, [], size, lambda number: compact(
        policy(f"q{99999 - number:05}", "VduInitialDelta", {"initial_delta": instances()})))


@shape
def others(size):
    """Templates that are passed over."""
    # `{"":1}` has as many bytes as the name and number that are put in its place.
    return filled({"vnf": product(), "~": 1}, [], size, lambda number: f'"o{number:05}":1', "~").replace(':1:1}', ':1}', 1)


@shape
def repeated(size):
    """Policies of one name."""
    return with_policies({"vnf": product()}, [], size, lambda number: '{"p":0}')


@shape
def scattered(size):
    """Policies in no order."""
    chance = random.Random(1)
    return with_policies({"vnf": product()}, [], size, lambda number: f'{{"{chance.randrange(10 ** 5):05}":0}}')


@shape
def prefixes(size):
    """Policies in no order, whose names are long and differ in the last bytes."""
    chance = random.Random(1)
    return with_policies({"vnf": product()}, [], size, lambda number: f'{{"{"x" * 60}{chance.randrange(10 ** 5):05}":0}}')


@shape
def deltas(size):
    """Policies with deltas of the last of 16 aspects that aim at nothing."""
    templates, policies = base(list(LETTERS))
    policies.append(scaling({letter: {"max_scale_level": 0} for letter in LETTERS[:16]}))
    return with_policies(templates, policies, size, lambda number: compact(
        policy("p", "VduScalingAspectDeltas", {"aspect": "P"}, ["z"] if number < 1 else None)).replace('"P"', compact(LETTERS[15])))


@shape
def nothing(size):
    """Policies `{"p":{}}`."""
    return with_policies({"vnf": product()}, [], size, lambda number: '{"p":{}}')


def passed_over(size, one):
    """A descriptor with a member that nothing reads."""
    text = compact({"x": ["~"], "topology_template": {"node_templates": {"vnf": product()}}})
    front, behind = text.split('"~"')
    room = size - len(front) - len(behind)
    part = one(room)
    return front + part + behind


def listed(size, one):
    return passed_over(size, lambda room: ",".join([one] * ((room + 1) // (len(one) + 1))))


DEPTH = 125


@shape
def objects(size):
    """Objects of one member, nested as deep as is read."""
    return listed(size, '{"":' * DEPTH + "0" + "}" * DEPTH)


@shape
def lists(size):
    """Lists of one entry, nested as deep as is read."""
    return listed(size, "[" * DEPTH + "]" * DEPTH)


@shape
def members(size):
    """An object of many members, against their order."""
    return passed_over(size, lambda room: "{" + ",".join(f'"{99999 - number:05}":0' for number in range(room // 10 - 1)) + "}")


@shape
def again(size):
    """An object of one member, which is given again and again."""
    return passed_over(size, lambda room: "{" + ",".join(['"":0'] * (room // 5 - 1)) + "}")


@shape
def escapes(size):
    """A text of escapes."""
    return passed_over(size, lambda room: '"' + "\\u20ac" * (room // 6 - 1) + '"')


@shape
def texts(size):
    """A list of short texts."""
    return listed(size, '"a"')


@shape
def long_text(size):
    """One long text."""
    return passed_over(size, lambda room: '"' + "a" * (room - 2) + '"')


@shape
def numbers(size):
    """Numbers near the least that there is."""
    return listed(size, "2.4703282292062327208e-324")


@shape
def halves(size):
    """Numbers halfway between two floats, but for the last digit."""
    return listed(size, "9007199254740993." + "0" * 100 + "1e0")


@shape
def long_halves(size):
    """The same, of 780 digits."""
    return listed(size, "1." + "0" * 780 + "1e-308")


@shape
def digits(size):
    """A number of many digits that is too great."""
    return passed_over(size, lambda room: "1" * (room - 5) + "e-99")


@shape
def digits_only(size):
    """A number of many digits."""
    return passed_over(size, lambda room: "9" * 300 + "." + "9" * (room - 301))


@shape
def fraction(size):
    """A number of many digits behind the point."""
    return passed_over(size, lambda room: "0." + "0" * (room - 3) + "1")


@shape
def exponent(size):
    """A number with a long exponent."""
    return passed_over(size, lambda room: "1e-" + "9" * (room - 3))


@shape
def small(size):
    """Short numbers with an exponent."""
    return listed(size, "1e-9")


@shape
def large(size):
    """Numbers near the greatest that there is."""
    return listed(size, "1e308")


@shape
def tiny(size):
    """Numbers below the least normal one."""
    return listed(size, "7e-320")


@shape
def zeros(size):
    """Numbers of one digit."""
    return listed(size, "0")


@shape
def brackets(size):
    """Lists nested too deep: refused."""
    return "[" * size


@shape
def many_vdus(size):
    """Too many VDUs: refused."""
    return filled({"vnf": product(), "~": 1}, [], size, lambda number: f'"{number:05}":{{"type":"tosca.nodes.nfv.Vdu.Compute"}}', "~").replace('}:1}', '}}', 1)


@shape
def many_aspects(size):
    """Too many aspects: refused."""
    text = document({"vnf": product()}, [scaling({"~": 1})])
    front, behind = text.split('"~":1')
    parts = [f'"{number:05}":{{}}' for number in range((size - len(front) - len(behind)) // 11)]
    return front + ",".join(parts) + behind


@shape
def many_levels(size):
    """Too many levels: refused."""
    text = document({"vnf": product()}, [policy("levels", "InstantiationLevels", {"levels": {"~": 1}})])
    front, behind = text.split('"~":1')
    parts = [f'"{number:05}":{{}}' for number in range((size - len(front) - len(behind)) // 11)]
    return front + ",".join(parts) + behind


def spelled(name, size):
    """The document of this shape, with so many bytes."""
    text = SHAPES[name](size)
    if len(text) > size:
        sys.exit(f"{name}: {len(text)} bytes, and room for {size}")
    return text + " " * (size - len(text))


if __name__ == "__main__":
    print("\n".join(SHAPES)) if len(sys.argv) == 1 else sys.stdout.write(spelled(sys.argv[1], int(sys.argv[2])))
