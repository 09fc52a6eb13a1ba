"""The runs of paths, methods, media types and queries, and of what is refused for them."""
from run_texts import *

begin(__name__)

# ---- Routes

HOST = "Host: h\r\n"
for line, detail, targets in [
    (
        *[NOT_FOUND, "no such resource"],
        ["GET /", "GET *", "GET /vnflcm/v1", "GET /vnflcm/v1/vnf_packages", "GET /vnflcm/v1/vnf_instances/", "GET /vnflcm/v1//vnf_instances"]
        + ["GET /vnflcm/v1/VNF_INSTANCES", "GET /vnflcm/v1/vnf%5Finstances", "GET http://h/vnflcm/v1/vnf_instances"]
        + ["DELETE /vnflcm/v1/subscriptions/x/y", "POST /vnflcm/v1/vnf_instances/x/snap", "POST /vnflcm/v1/vnf_instances/x/heal/y"],
    ),
    (NOT_ALLOWED + "GET", "method not allowed", ["PUT /vnflcm/v1/vnf_lcm_op_occs", "DELETE /vnflcm/v1/vnf_lcm_op_occs/x"]),
    (
        *[NOT_ALLOWED + "POST", "method not allowed"],
        ["GET /vnflcm/v1/vnf_lcm_op_occs/x/retry", "GET /vnflcm/v1/vnf_instances/x/instantiate", "GET /vnflcm/v1/vnf_instances/x/scale"],
    ),
    (
        *[NOT_ALLOWED + "GET, POST", "method not allowed"],
        ["PUT /vnflcm/v1/vnf_instances", "HEAD /vnflcm/v1/vnf_instances", "get /vnflcm/v1/vnf_instances"],
    ),
    (NOT_ALLOWED + "DELETE, GET", "method not allowed", ["PATCH " + INSTANCE % 1]),
    (
        *[BAD, "filter is not served"],
        ["GET /vnflcm/v1/vnf_lcm_op_occs?filter=", "GET /vnflcm/v1/vnf_instances?filter="]
        + ["GET /vnflcm/v1/vnf_instances?a=b&filter=(eq,id,x)"],
    ),
    (
        *[NOT_FOUND, "no such occurrence"],
        ["GET /vnflcm/v1/vnf_lcm_op_occs/x", "GET " + OCCURRENCE % 1, "GET " + OCCURRENCES + (INSTANCE % 1)[len(INSTANCES) :]]
        + ["POST " + OCCURRENCE % 1 + "/retry"],
    ),
    (
        *[NOT_FOUND, "no such instance"],
        ["GET /vnflcm/v1/vnf_instances/x", "GET " + INSTANCE % 2, "GET " + INSTANCE % 0, "GET " + INSTANCES + (OCCURRENCE % 1)[len(OCCURRENCES) :]]
        + ["GET /vnflcm/v1/vnf_instances/00000008-766d-8001-8000-000000000001"]
        + ["GET /vnflcm/v1/vnf_instances/00000007-766D-8001-8000-000000000001"]
        + ["GET /vnflcm/v1/vnf_instances/00000007766d80018000000000000001", "DELETE " + INSTANCE % 2]
        + ["POST " + INSTANCE % 2 + "/change_flavour"],
    ),
    (NOT_FOUND, "task is not supported", ["POST " + INSTANCE % 1 + "/change_flavour", "POST " + INSTANCE % 1 + "/change_flavour?x"]),
    (BAD, "malformed JSON", ["POST " + INSTANCE % 1 + "/heal", "POST " + INSTANCE % 2 + "/scale?x"]),
]:
    acts = [act for it in targets for act in (once(request(*it.split(" "), head=HOST)), refused(line, detail))]
    run("a path or a method is refused: %s (%s)" % (detail, line[:3] + line[27:]), ["site", JOURNALS[1]], *acts)


def gets(path):
    return once(request("GET", path, head=HOST))


NONE_LISTED, LISTED = ["only answered", showing("[]")], ["only answered", showing("[%s]" % IDLE_VIEW)]
run(
    "instances are listed and shown",
    *[["site", JOURNAL], gets(INSTANCES), NONE_LISTED, ["site", JOURNALS[1]], gets(INSTANCES), LISTED],
    *[gets(INSTANCES + "?x=filter="), LISTED, gets(INSTANCE % 1), ["only answered", IDLE]],
)
IN_PROCESSING = [CREATION[1], ASKED, GRANTED, MOVED["PROCESSING"]]
IN_FAILED_TEMP = [*IN_PROCESSING, CANCELLED, MOVED["FAILED_TEMP"]]
IN_ROLLING_BACK = [*IN_FAILED_TEMP, MOVED["ROLLING_BACK"]]
IN_COMPLETED = [*IN_PROCESSING, MOVED["COMPLETED"]]
EMPTY = {it: [] for it in ("scaleStatus", *HELD.values())}
run(
    "an instance that is instantiated is shown whole",
    *[["site", journal(*IN_COMPLETED)], gets(INSTANCE % 1 + "?filter=x"), ["only answered", showing(compact(instance_view(EMPTY)))]],
)
run(
    "an instance is not deleted while it is in use",
    *[["site", journal(*IN_FAILED_TEMP)], once(DELETE), refused(CONFLICT, "an operation is ongoing")],
    *[["site", journal(*IN_COMPLETED)], once(DELETE), refused(CONFLICT, "instance is INSTANTIATED")],
)
AWAY = [DELETE, request("GET", INSTANCE % 1), DELETE, request("GET", INSTANCES)]
run(
    "a deleted instance is no more",
    *[["site", JOURNALS[1]], once(AWAY, [GONE, NO_INSTANCE, NO_INSTANCE, EMPTY_LIST]), ["file", journal(CREATION[1], DELETED)]],
)
MEDIA = {"201 Created": [JSON, " application/json;charset=utf-8", " APPLICATION/Json ; q=1"]}
MEDIA[UNSUPPORTED] = ["", " text/plain", "application/jsonx", " application/json, x", "application", ";"]
for line, types in MEDIA.items():
    for media in types:
        text = request("POST", INSTANCES + "?filter=x", '{"vnfdId":"vnfd-1"}', "Content-Type:%s\r\n" % media)
        run("a body of the type %r: %s" % (media, line), ["site", JOURNAL], once(text), ["told front", "HTTP/1.1 %s\r\n" % line])
run(
    "a body is judged behind its media type and before its descriptor",
    *[["site", JOURNAL], once(request("POST", INSTANCES, "{", "Content-Type: text/plain\r\n"))],
    refused(UNSUPPORTED, "body must be application/json"),
)
