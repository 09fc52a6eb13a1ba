"""The runs that ask for an instantiation: its body, its plan, and what it is refused for."""
import json

from run_texts import *
from runs_routes import IN_COMPLETED, IN_FAILED_TEMP, NONE_LISTED, gets
from runs_commands import ONBOARD

begin(__name__)

# ---- Instantiations

STARTING = compact(occurrence_view("STARTING", granted=False))
STARTING_SHOWN, STARTING_LISTED = shows("STARTING", STARTING), shows("STARTING_LIST", "[%s]" % STARTING)
run(
    "an instance is instantiated, and its occurrence is STARTING",
    ["site", JOURNALS[1]],
    once(
        [INSTANTIATE, SHOW, request("GET", OCCURRENCES), INSTANTIATE, DELETE, RETRY],
        [ACCEPTED, STARTING_SHOWN, STARTING_LISTED, ONGOING, ONGOING, IS["STARTING"]],
    ),
    ["file", journal(CREATION[1], ASKED, TROUBLE)],
)
run("no occurrence is listed where none was asked for", ["site", JOURNALS[1]], gets(OCCURRENCES), NONE_LISTED)


def instantiation(number, body, media=JSON):
    return once(request("POST", INSTANCE % number + "/instantiate", body, "Content-Type: %s\r\n" % media))


NO_FLAVOUR = "flavourId is not in the descriptor"
run(
    "an instantiation is refused for the first cause",
    *[["site", JOURNALS[1]], instantiation(2, "{", "text/plain"), refused(UNSUPPORTED, "body must be application/json")],
    *[
        act
        for number, body, line, detail in [
            *[(2, "{", BAD, "malformed JSON"), (2, "{}", BAD, "missing flavourId"), (2, '{"flavourId":7}', BAD, "bad flavourId")],
            *[(2, '{"flavourId":""}', BAD, "bad flavourId"), (2, '{"flavourId":"x"}', NOT_FOUND, "no such instance")],
            (2, '{"flavourId":"x","instantiationLevelId":7}', BAD, "bad instantiationLevelId"),
            (1, '{"flavourId":"x"}', UNPROCESSABLE, NO_FLAVOUR),
            (1, '{"flavourId":"x","instantiationLevelId":"huge"}', UNPROCESSABLE, NO_FLAVOUR),
            (1, '{"flavourId":"simple","instantiationLevelId":"huge"}', UNPROCESSABLE, "instantiationLevelId is not in the descriptor"),
            *[(2, '"simple"', BAD, "malformed JSON"), (2, '{"flavourId":"simple"}}', BAD, "malformed JSON")],
            *[(2, '{"instantiationLevelId":7}', BAD, "missing flavourId"), (2, '{"flavourId":["simple"]}', BAD, "bad flavourId")],
            *[(2, '{"flavourId":"","instantiationLevelId":7}', BAD, "bad flavourId"), (2, '{"flavourId":"x","x":[]}', NOT_FOUND, "no such instance")],
            (2, '{"flavourId":"simple","instantiationLevelId":7}', BAD, "bad instantiationLevelId"),
            (1, '{"instantiationLevelId":"huge","flavourId":"simple"}', UNPROCESSABLE, "instantiationLevelId is not in the descriptor"),
            (1, '{"flavourId":"simple","instantiationLevelId":"","extVirtualLinks":[]}', UNPROCESSABLE, "instantiationLevelId is not in the descriptor"),
        ]
        for act in (instantiation(number, body), refused(line, detail))
    ],
)
WITHOUT_LEVEL = '{"flavourId":"simple","instantiationLevelId":null}'
run("an instantiation at no level is one at the default level", ["site", JOURNALS[1]], instantiation(1, WITHOUT_LEVEL), ["told", ACCEPTED])
run(
    "an instance in use is not instantiated",
    *[["site", journal(*IN_FAILED_TEMP)], instantiation(1, SIMPLE), refused(CONFLICT, "an operation is ongoing")],
    *[["site", journal(*IN_COMPLETED)], instantiation(1, SIMPLE), refused(CONFLICT, "instance is INSTANTIATED")],
    *[instantiation(1, '{"flavourId":"x"}'), refused(UNPROCESSABLE, NO_FLAVOUR)],
)


def vdu(memory, cpus, storage, **more):
    size = {"virtual_memory": {"virtual_mem_size": memory}, "virtual_cpu": {"num_virtual_cpu": cpus}}
    required = [{"virtual_storage": storage}]
    return {"type": "tosca.nodes.nfv.Vdu.Compute", **more, "capabilities": {"virtual_compute": {"properties": size}}, "requirements": required}


def storage(size):
    return {"type": "tosca.nodes.nfv.Vdu.VirtualBlockStorage", "properties": {"virtual_block_storage_data": {"size_of_storage": size}}}


def port(machine, link):
    return {"type": "tosca.nodes.nfv.VduCp", "requirements": [{"virtual_binding": machine}, {"virtual_link": link}]}


def policy(kind, properties, targets=None):
    return {"type": "tosca.policies.nfv." + kind, "properties": properties, **({"targets": targets} if targets else {})}


def router(maximum=11, greatest=10, **levels):
    """The edge router's descriptor, with these levels besides: the aspect's and the machines of the first VDU."""
    levels = {"small": (0, 1), "normal": (1, 2), **levels}
    properties = dict(descriptor_id="vnfd-1", provider="Example", product_name="Edge Router", software_version="1.0")
    templates = {
        "VNF": {"type": "example.Vnf", "properties": {**properties, "descriptor_version": "1.0", "flavour_id": "simple"}},
        "VDU_A": vdu("2 GiB", 2, "STO_A", properties={"vdu_profile": {"max_number_of_instances": maximum}}),
        "VDU_B": vdu("512 MB", 1, {"node": "STO_B"}),
        "STO_A": storage("10 GB"),
        "STO_B": storage("1 GB"),
        "net_data": {"type": "tosca.nodes.nfv.VnfVirtualLink"},
        "net_mgmt": {"type": "tosca.nodes.nfv.VnfVirtualLink"},
        "CP_A_data": port("VDU_A", "net_data"),
        "CP_A_mgmt": port("VDU_A", "net_mgmt"),
        "CP_B_mgmt": port("VDU_B", "net_mgmt"),
    }
    scale = {it: {"scale_info": {"workers": {"scale_level": level}}} for it, (level, _) in levels.items()}
    numbers = {it: {"number_of_instances": number} for it, (_, number) in levels.items()}
    one = {"number_of_instances": 1}
    policies = [
        {"aspects": policy("ScalingAspects", {"aspects": {"workers": {"max_scale_level": greatest, "step_deltas": ["delta_1"]}}})},
        {"a_initial": policy("VduInitialDelta", {"initial_delta": one}, ["VDU_A"])},
        {"a_deltas": policy("VduScalingAspectDeltas", {"aspect": "workers", "deltas": {"delta_1": one}}, ["VDU_A"])},
        {"levels": policy("InstantiationLevels", {"levels": scale, "default_level": "normal"})},
        {"a_levels": policy("VduInstantiationLevels", {"levels": numbers}, ["VDU_A"])},
    ]
    topology = {"node_templates": templates, "policies": policies}
    document = {"tosca_definitions_version": "tosca_simple_yaml_1_2", "topology_template": topology}
    return json.dumps(document, separators=(",", ":"))


# The document by its members, each with the comma behind it.
MARKS = ['"VNF":{', '"VDU_A":{', '"VDU_B":{', '"STO_A":{', '"STO_B":{', '"net_data":{', '"CP_A_data":{', '"CP_A_mgmt":{', '"CP_B_mgmt":{']
MARKS += ['{"aspects":{"type"', '{"a_initial":', '{"a_deltas":', '{"levels":{"type"', '{"a_levels":']
CUTS = [0, *(router().index(it) for it in MARKS), len(router())]
DOCUMENT = [let("DOCUMENT_%d" % n, router()[first:last]) for n, (first, last) in enumerate(zip(CUTS, CUTS[1:]))]
ROUTER = let("ROUTER", DOCUMENT)


def router_site(document=ROUTER):
    """The site of a manager that onboarded an edge router, and created an instance of it."""
    return [["site", MADE], ["door", document], ONBOARD, ["status", 0], once(CREATE, CREATED[1])]


def grown(changes):
    """The file is longer by an operation at a level of five letters with so many changes, and by the try of a grant."""
    operation = record(4, u64(1), u64(1), u8(0), u8(1), name("simple"), u8(1), name("large"), u16(changes))
    return ["grown", len(operation) + changes * len(change(0, 0, 0, 0)) + len(TROUBLE_RECORD)]


LARGE = '{"flavourId":"simple","instantiationLevelId":"large"}'
run(
    "the plan of an instantiation is recorded",
    *[*router_site(), once(INSTANTIATE, ACCEPTED), ["file end", [ROUTER_ASKED, TROUBLE, "\0"]]],
)
run(
    "more machines than a VDU may have are refused",
    *[*router_site(router(maximum=1)), once(INSTANTIATE), refused(UNPROCESSABLE, "instances above the maximum of the VDU")],
)
run(
    "the level that is asked for is planned",
    *[*router_site(router(large=(10, 11))), instantiation(1, LARGE), ["told", ACCEPTED], grown(49)],
)
run(
    "an instance has at most 2,500 resources",
    *[*router_site(router(1000, 1000, large=(622, 623))), instantiation(1, LARGE), ["told", ACCEPTED], grown(2497)],
    *[*router_site(router(1000, 1000, large=(623, 624))), instantiation(1, LARGE)],
    refused("507 Insufficient Storage", "too many resources"),
)


# ---- Who asks, and when

run(
    "it is recorded who asked and at which moment, the greatest where the clock gives more",
    *[["site", JOURNALS[1]], ["now", NOW + 1000], ["door", INSTANTIATE], go("once", "--journal", "j", "--role", "em"), ["told", ACCEPTED]],
    ["file front", [HEADER, ONBOARDED, CREATION[1], record(4, u64(1), u64(1), u8(1), u8(1), name("simple"), u8(0), u16(0), moment=NOW + 1000)]],
    *[["site", JOURNAL], ["now", 253_402_300_800_000], once(CREATE), ["told front", "HTTP/1.1 201 Created\r\n"]],
    ["file", journal(record(2, u64(1), name("vnfd-1"), u8(1), name("edge-1"), u8(0), moment=253_402_300_799_999))],
)
