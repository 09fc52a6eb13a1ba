"""What the interface answers a request with, by docs/FORMATS.md in another language: the refusals in their order, the views, and the event of
what is taken up."""
import json

import history
import views
from history import FAILED, FAILED_TEMP, PROCESSING, ROLLING_BACK
from run_parts import refusal, showing

ROOT = "/vnflcm/v1/"
REASONS = {
    400: "Bad Request", 404: "Not Found", 405: "Method Not Allowed", 409: "Conflict", 415: "Unsupported Media Type", 422: "Unprocessable Content",
    507: "Insufficient Storage",
}
GREATEST = 4_294_967_295
MOST_MACHINES = 512
MOVES = {"retry": PROCESSING, "rollback": ROLLING_BACK, "fail": FAILED}


class Refused(Exception):
    """A request is refused with this status and this text, and in answer to a method with those that are allowed."""

    def answer(self):
        status, detail, *allowed = self.args
        line = "%d %s" % (status, REASONS[status])
        return refusal(line + "\r\nAllow: %s" % allowed[0] if allowed else line, detail)


def requests_of(text):
    """The requests of a connection, each as its method, its target, its fields and its body."""
    while text:
        head, _, text = text.partition("\r\n\r\n")
        first, *fields = head.split("\r\n")
        method, target, _ = first.split(" ")
        named = {it.split(":")[0].lower(): it.split(":", 1)[1].strip() for it in fields}
        length = int(named.get("content-length", 0))
        yield method, target, named, text[:length]
        text = text[length:]


# ---- Bodies

def is_text(value, most):
    if not isinstance(value, str):
        return False
    spelled = value.encode()
    return len(spelled) <= most and all(byte >= 32 and byte != 127 for byte in spelled)


def is_name(value):
    return is_text(value, 255)


def is_needed_name(value):
    return is_name(value) and value != ""


def is_line(value):
    return is_text(value, 2_048)


def is_whole(value):
    # (in Python a truth is a number too)
    return type(value) is int and 0 <= value <= GREATEST


def is_one_of(*words):
    return lambda value: isinstance(value, str) and value in words


def are_names(value):
    return isinstance(value, list) and len(value) <= MOST_MACHINES and all(map(is_name, value))


def object_in(body):
    """The JSON object of a body."""
    try:
        value = json.loads(body.encode("latin-1").decode())
    except ValueError:
        value = None
    if not isinstance(value, dict):
        raise Refused(400, "malformed JSON")
    return value


def optional(value, title, has_form, default=None):
    """A member that may be absent; `null` is as if it were."""
    member = value.get(title)
    if member is None:
        return default
    if not has_form(member):
        raise Refused(400, "bad " + title)
    return member


def needed(value, title, has_form):
    if value.get(title) is None:
        raise Refused(400, "missing " + title)
    return optional(value, title, has_form)


def read_instantiate(value):
    return "instantiate", needed(value, "flavourId", is_needed_name), optional(value, "instantiationLevelId", is_name)


def read_scale(value):
    way = needed(value, "type", is_one_of("SCALE_OUT", "SCALE_IN"))
    aspect = needed(value, "aspectId", is_needed_name)
    return "scale", ["SCALE_OUT", "SCALE_IN"].index(way), aspect, optional(value, "numberOfSteps", is_whole, 1)


def read_scale_to_level(value):
    level = optional(value, "instantiationLevelId", is_name)
    info = optional(value, "scaleInfo", lambda it: isinstance(it, list) and all(isinstance(entry, dict) for entry in it))
    aspects = [(needed(it, "aspectId", is_needed_name), needed(it, "scaleLevel", is_whole)) for it in info or []]
    if level is not None and info is not None:
        raise Refused(400, "bad scaleInfo")
    if level is None and info is None:
        raise Refused(400, "missing instantiationLevelId")
    return ("level", level) if info is None else ("aspects", aspects)


def machine_of(text):
    """The machine of which this is the text: its VDU, and its serial number without a zero in front. Another text is that of a machine that never stands."""
    front, dash, serial = text.rpartition("-")
    vdus = [it[0] for it in history.VDUS]
    if dash and front in vdus and serial.isascii() and serial.isdigit() and str(int(serial)) == serial and int(serial) <= GREATEST:
        return vdus.index(front), int(serial)
    return history.NO_VDU, 0


def read_heal(value):
    cause = optional(value, "cause", is_line)
    named = map(machine_of, optional(value, "vnfcInstanceId", are_names, []))
    return "heal", cause, list(dict.fromkeys(named))


def read_operate(value):
    state = needed(value, "changeStateTo", is_one_of("STARTED", "STOPPED"))
    return "operate", state == "STARTED", views.STOPS.index(optional(value, "stopType", is_one_of("FORCEFUL", "GRACEFUL")))


def read_terminate(value):
    mode = needed(value, "terminationType", is_one_of("FORCEFUL", "GRACEFUL"))
    return "terminate", views.MODES.index(mode), optional(value, "gracefulTerminationTimeout", is_whole)


def are_values(has_form):
    """The form of a list of a filter."""
    return lambda value: isinstance(value, list) and len(value) <= history.VALUES and all(map(has_form, value))


def is_object(value):
    return isinstance(value, dict)


def read_subscription(value):
    """Where notices go, which these are, and whether products are asked for."""
    callback = needed(value, "callbackUri", is_line)
    asked = optional(value, "filter", is_object, {})
    about = optional(asked, "vnfInstanceSubscriptionFilter", is_object, {})
    names = [optional(about, title, are_values(is_name), []) for title in ("vnfdIds", "vnfInstanceIds", "vnfInstanceNames")]
    worded = [
        ("notificationTypes", views.NOTICES, 0), ("operationTypes", views.TYPES_ASKED, 1), ("operationStates", views.STATES, 0),
    ]
    lists = [[words.index(it) + first for it in optional(asked, title, are_values(is_one_of(*words)), [])] for title, words, first in worded]
    return callback, history.Filter(*names, *lists), about.get("vnfProductsFromProviders") is not None


# Whether these callbacks are URIs of the scheme http with a host, as runs_subscriptions.py says it by hand.
URIS = {}


def is_http_uri(text):
    """Whether this is one; of others than those no more is asked than that they begin as one."""
    return URIS.get(text, text.startswith("http://"))


ASKS = {
    "instantiate": read_instantiate, "scale": read_scale, "scale_to_level": read_scale_to_level, "heal": read_heal, "operate": read_operate,
    "terminate": read_terminate,
}


# ---- Requests

def numbered(parts, kind, live):
    """The number of what a path names, where that is live."""
    number = next((it for it in range(1, 2_000) if history.identifier(it, kind) == parts[1]), None)
    if number is None or not live(number):
        raise Refused(404, "no such " + ("instance", "occurrence", "subscription")[kind - 1])
    return number


def is_json(fields):
    if fields.get("content-type", "application/json").split(";")[0].strip().lower() != "application/json":
        raise Refused(415, "body must be application/json")


def shown(view):
    return showing(views.written(view))


def made(path, view):
    """The answer that something was made, which is found there and shown so."""
    head = "HTTP/1.1 201 Created\r\nLocation: %s\r\nContent-Type: application/json\r\nContent-Length: %d\r\n\r\n"
    return head % (path, len(view)) + view


def created(h, fields, body):
    is_json(fields)
    value = object_in(body)
    needed(value, "vnfdId", is_needed_name)
    called, text = optional(value, "vnfInstanceName", is_name), optional(value, "vnfInstanceDescription", is_line)
    if value["vnfdId"] != "vnfd-1":
        raise Refused(422, "vnfdId is not onboarded")
    number = len(h.instances) + 1
    view = views.written(views.instance(number, history.Instance(called, text)))
    return made(views.path(number, 1), view), ("created", number, "vnfd-1", called, text)


def deleted(h, parts):
    number = numbered(parts, 1, h.instance)
    # (what refuses to instantiate it refuses to delete it)
    refuse(409, history.state_refusal(h.instance(number), h.is_busy(number), ("instantiate",)))
    return "HTTP/1.1 204 No Content\r\n\r\n", ("deleted", number)


def refuse(status, detail):
    if detail is not None:
        raise Refused(status, detail)


def asked(h, role, parts, fields, body):
    if parts[2] not in ASKS:
        numbered(parts, 1, h.instance)
        raise Refused(404, "task is not supported")
    is_json(fields)
    ask = ASKS[parts[2]](object_in(body))
    instance = numbered(parts, 1, h.instance)
    held = h.instance(instance)
    refuse(422, history.content_refusal(ask))
    refuse(409, history.state_refusal(held, h.is_busy(instance), ask))
    refuse(422, history.step_refusal(held, ask))
    number = len(h.occurrences) + 1
    answer = "HTTP/1.1 202 Accepted\r\nLocation: %s\r\nContent-Length: 0\r\n\r\n" % views.path(number, 2)
    return answer, ("asked", number, instance, role, ask, history.plan(held, ask))


def state_of(o):
    return "operation is " + views.STATES[o.state]


def tasked(h, parts, fields, body):
    task, mode = parts[2], None
    if task == "cancel":
        is_json(fields)
        mode = views.MODES.index(needed(object_in(body), "cancelMode", is_one_of(*views.MODES)))
    number = numbered(parts, 2, h.occurrence)
    o = h.occurrence(number)
    if task == "rollback" and o.ask[0] == "terminate":
        raise Refused(404, "task is not supported")
    if not (o.is_active() if task == "cancel" else o.state == FAILED_TEMP):
        raise Refused(409, state_of(o))
    taken = "HTTP/1.1 202 Accepted\r\nContent-Length: 0\r\n\r\n"
    if task == "cancel":
        return taken, ("cancel", number, mode)
    if task != "fail":
        return taken, ("moved", number, MOVES[task])
    state, since = o.state, o.entered
    o.state, o.entered = FAILED, h.moment
    text = shown(views.occurrence(number, o))
    o.state, o.entered = state, since
    return text, ("moved", number, FAILED)


def subscribed(h, role, fields, body):
    is_json(fields)
    callback, asked, has_products = read_subscription(object_in(body))
    refuse(422, None if is_http_uri(callback) else "callbackUri is not an http URI")
    refuse(422, "vnfProductsFromProviders is not served" if has_products else None)
    refuse(507, None if len(h.subscriptions_of(role)) < history.SUBSCRIPTIONS else "too many subscriptions")
    number = len(h.subscriptions) + 1
    view = views.written(views.subscription(number, history.Subscription(role, callback, asked, 0)))
    return made(views.path(number, 3), view), ("subscribed", number, role, callback, asked)


def subscription_named(h, role, parts):
    """The number of the subscription of this role that a path names; that of another role is none."""
    return numbered(parts, 3, lambda it: it in dict(h.subscriptions_of(role)))


# The tasks that a path may end in, by the list that it begins with, and the methods of a list and of what is in it.
TASKS = {"vnf_instances": [*ASKS, "change_flavour"], "vnf_lcm_op_occs": [*MOVES, "cancel"], "subscriptions": []}
METHODS = {
    "vnf_instances": (["GET", "POST"], ["DELETE", "GET"]), "vnf_lcm_op_occs": (["GET"], ["GET"]), "subscriptions": (["GET", "POST"], ["DELETE", "GET"]),
}


def served_subscriptions(h, role, method, parts, fields, body):
    """A request of subscriptions, or of one."""
    if len(parts) == 1:
        return subscribed(h, role, fields, body) if method == "POST" else (showing(views.subscriptions(h, role)), None)
    number = subscription_named(h, role, parts)
    if method == "DELETE":
        return "HTTP/1.1 204 No Content\r\n\r\n", ("unsubscribed", number)
    return shown(views.subscription(number, h.subscription(number))), None


def served(h, role, method, target, fields, body):
    path, _, query = target.partition("?")
    parts = path[len(ROOT) :].split("/") if path.startswith(ROOT) else [""]
    what = parts[0]
    if what not in TASKS or not 1 <= len(parts) <= 3 or (len(parts) == 3 and parts[2] not in TASKS[what]):
        raise Refused(404, "no such resource")
    methods = ["POST"] if len(parts) == 3 else METHODS[what][len(parts) - 1]
    if method not in methods:
        raise Refused(405, "method not allowed", ", ".join(methods))
    if method == "GET" and len(parts) == 1 and any(it.startswith("filter=") for it in query.split("&")):
        raise Refused(400, "filter is not served")
    if what == "subscriptions":
        return served_subscriptions(h, role, method, parts, fields, body)
    is_instance = what == "vnf_instances"
    if len(parts) == 1:
        if method == "POST":
            return created(h, fields, body)
        return showing(views.instances(h) if is_instance else views.occurrences(h)), None
    if len(parts) == 2:
        if method == "DELETE":
            return deleted(h, parts)
        number = numbered(parts, 1, h.instance) if is_instance else numbered(parts, 2, h.occurrence)
        return shown(views.instance(number, h.instance(number)) if is_instance else views.occurrence(number, h.occurrence(number))), None
    return asked(h, role, parts, fields, body) if is_instance else tasked(h, parts, fields, body)


def answer(h, role, method, target, fields, body):
    """The answer to a request behind this history, and the event of what is taken up."""
    try:
        return served(h, role, method, target, fields, body)
    except Refused as refused:
        return refused.answer(), None
