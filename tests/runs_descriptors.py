"""The runs that onboard descriptors, each with one thing otherwise, and what they are refused for."""
import json

from run_texts import *
from runs_instantiations import DOCUMENT, ROUTER
from runs_commands import LIMIT, ONBOARD, not_onboarded

begin(__name__)

# ---- Descriptors


def member(title, kind=None, **more):
    """A member of a document's templates, which may have a kind of the standard."""
    text = json.dumps({**({"type": "tosca.nodes.nfv." + kind} if kind else {}), **more}, separators=(",", ":"))
    return '"%s":%s,' % (title, text)


def listed(title, kind, end=",", **more):
    """An entry of a document's policies."""
    return json.dumps({title: {"type": "tosca.policies.nfv." + kind, **more}}, separators=(",", ":")) + end


def with_piece(place, text):
    """The edge router's descriptor with this in place of one of its members."""
    return [*DOCUMENT[:place], text, *DOCUMENT[place + 1 :]]


def sized(memory, **cpus):
    """What a VDU has: its memory and its processors."""
    compute = {"virtual_memory": {"virtual_mem_size": memory}, **({"virtual_cpu": {"num_virtual_cpu": cpus["cpus"]}} if cpus else {})}
    return {"capabilities": {"virtual_compute": {"properties": compute}}}


def stored(size):
    return {"properties": {"virtual_block_storage_data": {"size_of_storage": size}}}


def needs(*required):
    return {"requirements": [{"virtual_" + kind: node} for kind, node in required]}


def about(*names):
    """The names of a product, in their order; each is the text behind its colon."""
    titles = "descriptor_id provider product_name software_version descriptor_version flavour_id".split()
    return {"properties": {title: value for title, value in zip(titles, names) if value is not None}}


VDU, STORAGE, LINK, PORT = "Vdu.Compute", "Vdu.VirtualBlockStorage", "VnfVirtualLink", "VduCp"
ASPECTS, DELTAS, FIRST, LEVELS, NUMBERS = "ScalingAspects", "VduScalingAspectDeltas", "VduInitialDelta", "InstantiationLevels", "VduInstantiationLevels"
ONBOARDED_LINE = "onboarded vnfd-1: 2 vdus, 1 aspects, 2 levels\n"
ENDS = "]}}"


def properties(**more):
    return {"properties": more}


def machines(number):
    return {"number_of_instances": number}


def workers(**more):
    return properties(aspects={"workers": more})


def levelled(default=None, **levels):
    return properties(levels=levels, **({"default_level": default} if default else {}))


def of_vdu(vdu_name, **more):
    """The properties of a policy for this VDU."""
    return {**({"properties": more} if more else {}), "targets": [vdu_name]}


ONE_DELTA = {"aspect": "workers", "deltas": {"delta_1": machines(1)}}
# Where a member stands, what stands there in its place, and the refusal; none where it is a descriptor still. Each check fails in a document that passes
# those before it.
DOCUMENTS = [
    (0, '{"other":1,"topology_template":{"node_templates":{"other":7,"Z":{"type":"example.Other"},', None),
    (1, "", "missing descriptor_id"),
    (1, member("V", **about(1)) + member("W", **about(2)), "bad descriptor_id"),
    (1, member("V", **about("", 7)), "bad provider"),
    (1, member("V", **about("", "P", None, None, None, "f")), "missing product_name"),
    (1, member("V", **about("", "", "", "", "", "")), "bad descriptor_id"),
    (1, member("V", **about("d", "", "", "", "", "")), "bad flavour_id"),
    (2, member("", VDU), "bad name"),
    (6, member("a\\nb", LINK), "bad name"),
    (2, member("VDU_A", VDU), "missing virtual_mem_size"),
    (2, member("VDU_A", VDU, **sized("2 GiX", cpus=0)), "bad virtual_mem_size"),
    (2, member("VDU_A", VDU, **sized("02gib", cpus=0)), "bad num_virtual_cpu"),
    (3, member("VDU_B", VDU, **sized("512 MB")), "missing num_virtual_cpu"),
    (
        *[3, member("VDU_B", VDU, **properties(vdu_profile={"max_number_of_instances": 65_536}), **sized("1 B", cpus=1), **needs(("storage", "STO_X")))],
        "bad max_number_of_instances",
    ),
    (4, member("STO_B", STORAGE, **stored("10")), "unknown STO_A"),
    (5, member("STO_B", STORAGE, **stored("1048577 TiB")), "bad size_of_storage"),
    (7, member("CP_A_data", PORT, **needs(("link", "net_x"))), "missing virtual_binding"),
    (7, member("CP_A_data", PORT, **needs(("link", "net_x"), ("binding", "VDU_X"))), "unknown VDU_X"),
    (7, member("CP_A_data", PORT, **needs(("link", "net_x"), ("binding", "VDU_A"))), "unknown net_x"),
    (7, member("CP_A_data", PORT, **needs(("binding", None))), "bad name"),
    (10, listed("a", ASPECTS, **properties(aspects={"": {}})), "bad name"),
    (10, listed("a", ASPECTS), "missing aspects"),
    (10, listed("a", ASPECTS, **properties(aspects=[])), "bad aspects"),
    (10, listed("a", ASPECTS, **workers(step_deltas=7)), "missing max_scale_level"),
    (10, listed("a", ASPECTS, **workers(max_scale_level=1001)), "bad max_scale_level"),
    (10, listed("a", ASPECTS, **workers(max_scale_level=3)), "missing step_deltas"),
    (10, listed("a", ASPECTS, **workers(max_scale_level=3, step_deltas=["a", "b"])), "bad step_deltas"),
    (12, listed("d", DELTAS, **of_vdu("VDU_X")), "missing aspect"),
    (12, listed("d", DELTAS, **of_vdu("VDU_X", aspect="idlers")), "unknown idlers"),
    (12, listed("d", DELTAS, **of_vdu("VDU_X", aspect="workers")), "unknown VDU_X"),
    (12, listed("d", DELTAS, **of_vdu("VDU_A", aspect="workers")), "missing deltas"),
    (12, listed("d", DELTAS, **of_vdu("VDU_A", aspect="workers", deltas={"delta_1": machines(65_536)})), "bad deltas"),
    (11, "", "missing initial_delta"),
    (11, listed("i", FIRST, **of_vdu("VDU_A")), "missing initial_delta"),
    (11, listed("i", FIRST, **of_vdu("VDU_A", initial_delta=machines("1"))), "bad initial_delta"),
    (11, listed("i", FIRST, **of_vdu("VDU_X", initial_delta=machines(1))), "unknown VDU_X"),
    (13, listed("l", LEVELS), "missing levels"),
    (13, listed("l", LEVELS, **levelled(small={"scale_info": {"idlers": {}}})), "unknown idlers"),
    (13, listed("l", LEVELS, **levelled(small={"scale_info": {"workers": {"scale_level": 11}}})), "bad scale_level"),
    (13, listed("l", LEVELS, **levelled(small={}, normal={})), "missing default_level"),
    (13, listed("l", LEVELS, **levelled("huge", small={}, normal={})), "unknown huge"),
    (14, listed("s", NUMBERS, ENDS, **of_vdu("VDU_X", levels={"huge": machines(1)})), "unknown huge"),
    (14, listed("s", NUMBERS, ENDS, **of_vdu("VDU_X", levels={"small": machines(1)})), "unknown VDU_X"),
    (14, listed("s", NUMBERS, ENDS, **of_vdu("VDU_A", levels={"small": machines(1), "normal": machines(3)})), "out of step normal VDU_A"),
    (14, listed("s", NUMBERS, ENDS, **of_vdu("VDU_A", levels={"normal": machines(2), "small": {}})), "out of step small VDU_A"),
    (14, listed("s", NUMBERS, **of_vdu("VDU_X")) + '{"o":{"type":"example.Other"}},7,{"a":1,"b":2}' + ENDS, None),
    # Of two faults the first: the processors of VDU_A before the memory of VDU_C, in one check; a storage's size before a port's link; a storage that is
    # unknown before a storage's size; policies by name, whatever their order in the list; and two for one VDU and one aspect.
    (2, member("VDU_C", VDU) + member("VDU_A", VDU, **sized("2 GiB")), "missing num_virtual_cpu"),
    (5, member("STO_B", STORAGE, **stored(7)) + member("CP_0", PORT), "bad size_of_storage"),
    (4, member("STO_C", STORAGE, **stored(7)), "unknown STO_A"),
    (12, listed("z", DELTAS) + listed("y", DELTAS, **properties(aspect="idlers")), "unknown idlers"),
    (12, "".join(listed(it, DELTAS, **of_vdu("VDU_A", **ONE_DELTA)) for it in "yx"), "bad deltas"),
]


def judged(text, refusal_text, aspects=1, levels=2):
    """The document is refused so, or onboarded with so many aspects and levels."""
    if refusal_text:
        return not_onboarded(text, refusal_text)
    return [["door", text], ONBOARD, ["status", 0], ["printed", "onboarded vnfd-1: 2 vdus, %d aspects, %d levels\n" % (aspects, levels)]]


for number, (place, text, refusal_text) in enumerate(DOCUMENTS, 1):
    run(
        "a descriptor with another member, %d: %s" % (number, refusal_text or "taken"),
        *[["site", MADE], *judged(with_piece(place, text), refusal_text)],
    )


def more(place, count, value, front="", back=None):
    """The router's descriptor with so many members of one value between a front and a back, at this place."""
    members = {"from": 0, "to": count, "of": ['"more_', {"digits": 3}, '":' + value + ","]}
    return [*DOCUMENT[:place], front, members, DOCUMENT[place] if back is None else back, *DOCUMENT[place + 1 :]]


def template(kind):
    return '{"type":"tosca.nodes.nfv.%s"}' % kind


ASPECTS_FRONT = '{"a":{"type":"tosca.policies.nfv.ScalingAspects","properties":{"aspects":{'
ASPECTS_BACK = '"workers":{"max_scale_level":10,"step_deltas":["delta_1"]}}}}},'
LEVELS_FRONT = '{"l":{"type":"tosca.policies.nfv.InstantiationLevels","properties":{"levels":{'
LEVELS_BACK = '"small":{},"normal":{"scale_info":{"workers":{"scale_level":1}}}},"default_level":"normal"}}},'
for title, text, refusal_text, aspects, levels in [
    *[("64 vdus", more(6, 62, template(VDU)), "missing virtual_mem_size", 1, 2), ("65 vdus", more(6, 63, template(VDU)), "too many vdus", 1, 2)],
    ("128 storages", more(6, 126, template(STORAGE)), None, 1, 2),
    ("129 storages", more(6, 127, template(STORAGE)), "too many storages", 1, 2),
    *[("64 links", more(6, 62, template(LINK)), None, 1, 2), ("65 links", more(6, 63, template(LINK)), "too many links", 1, 2)],
    ("256 ports", more(6, 253, template(PORT)), "missing virtual_binding", 1, 2),
    ("257 ports", more(6, 254, template(PORT)), "too many ports", 1, 2),
    ("16 aspects", more(10, 15, '{"max_scale_level":0}', ASPECTS_FRONT, ASPECTS_BACK), None, 16, 2),
    ("17 aspects", more(10, 16, '{"max_scale_level":0}', ASPECTS_FRONT, ASPECTS_BACK), "too many aspects", 1, 2),
    ("64 levels", more(13, 62, "{}", LEVELS_FRONT, LEVELS_BACK), None, 1, 64),
    ("65 levels", more(13, 63, "{}", LEVELS_FRONT, LEVELS_BACK), "too many levels", 1, 2),
]:
    run("a descriptor has no more than so many: %s" % title, ["site", MADE], *judged(text, refusal_text, aspects, levels))
for text, refusal_text in [
    *[({"times": LIMIT + 1, "of": " "}, "too many bytes"), ({"times": LIMIT, "of": " "}, "not JSON"), ("", "not JSON"), ("{", "not JSON")],
    *[("[]", "not JSON"), ('{"a":"\xff"}', "not JSON"), ("{}", "missing node_templates"), ('{"topology_template":[]}', "missing node_templates")],
    ('{"topology_template":{"node_templates":[]}}', "missing node_templates"),
]:
    run("a document is no descriptor: %s" % json.dumps(text), ["site", MADE], *not_onboarded(text, refusal_text))

many = lambda spelled, entries: u16(len(entries)) + b"".join(map(spelled, entries))


def onboarding(names, vdus, storages, links_, ports, aspects, levels, default):
    """The record of a descriptor."""
    spelled_vdus = many(lambda it: name(it[0]) + u64(it[1]) + u32(it[2]) + u32(it[3]) + u32(it[4]) + many(u16, it[5]), vdus)
    spelled_ports = many(lambda it: name(it[0]) + u16(it[1]) + u16(it[2]), ports)
    numbers = lambda it: b"".join(map(u32, it))
    rows = lambda it: many(lambda row: u16(row[0]) + numbers(row[1]), it)
    spelled_aspects = many(lambda it: name(it[0]) + u32(it[1]) + u16(it[2]) + rows(it[3]), aspects)
    spelled_levels = many(lambda it: name(it[0]) + numbers(it[1]), levels)
    kept = many(lambda it: name(it[0]) + u64(it[1]), storages) + many(name, links_)
    return record(1, *map(name, names), spelled_vdus, kept, spelled_ports, spelled_aspects, spelled_levels, u16(default))


NAMES = ["vnfd-1", "Example", "Edge Router", "1.0", "1.0", "simple"]
VDUS = [("VDU_A", 2_147_483_648, 2, 11, 1, [0]), ("VDU_B", 512_000_000, 1, 4_294_967_295, 1, [1])]
STORAGES = [("STO_A", 10_000_000_000), ("STO_B", 1_000_000_000)]
PORTS = [("CP_A_data", 0, 0), ("CP_A_mgmt", 0, 1), ("CP_B_mgmt", 1, 1)]
ROUTER_RECORD = onboarding(
    *[NAMES, VDUS, STORAGES, ["net_data", "net_mgmt"], PORTS, [("workers", 10, 1, [(0, [1])])], [("normal", [1]), ("small", [0])], 0]
)
run(
    "the edge router's descriptor is recorded as it is read",
    *[["site", MADE], ["door", ROUTER], ONBOARD, ["printed", ONBOARDED_LINE], ["file", [HEADER, ROUTER_RECORD, "\0"]]],
)
PLAIN = "".join(
    [
        '{"topology_template":{"node_templates":{' + member("V", **about("d", "", "", "", "", "f")),
        member("U", VDU, **sized("1 TiB", cpus=65_535), **needs(("storage", "T"), ("storage", "S"), ("storage", "T"))),
        member("S", STORAGE) + member("T", STORAGE) + member("P", PORT, **needs(("binding", {"node": "U"})))[:-1] + "}}}",
    ]
)
PLAIN_VDUS = [("U", 1_099_511_627_776, 65_535, 4_294_967_295, 1, [0, 1])]
PLAIN_RECORD = onboarding(
    ["d", "", "", "", "", "f"], PLAIN_VDUS, [("S", 0), ("T", 0)], [], [("P", 0, NO_VDU)], [], [("default", [])], 0
)
run(
    "policies that are absent have defaults",
    *[["site", MADE], ["door", PLAIN], ONBOARD, ["status", 0], ["file", [HEADER, PLAIN_RECORD, "\0"]]],
)
