"""Connections of many requests."""
LONGEST = 1_048_576
CHUNK = 1_000
PATH = b"/vnflcm/v1/vnf_instances"
HOST = b" HTTP/1.1\r\nHost: vnfm.example\r\n"
CREATE = b"POST " + PATH + HOST
NOWHERE = b"POST /" + HOST
JSON = b"Content-Type: application/json\r\n"


def sized(front, body):
    return front + b"Content-Length: %d\r\n\r\n" % len(body) + body


def chunked(front, body):
    chunks = [body[at : at + CHUNK] for at in range(0, len(body), CHUNK)]
    return front + b"Transfer-Encoding: chunked\r\n\r\n" + b"".join(b"%x\r\n%s\r\n" % (len(it), it) for it in chunks) + b"0\r\n\r\n"


def filled(front, part, back, size):
    """The front, the part as often as a body of this size has room for it, blanks, and the back."""
    room = size - len(front) - len(back)
    times = room // len(part)
    return front + part * times + b" " * (room - times * len(part)) + back


def instance(number):
    return PATH + b"/00000007-766d-8001-8%03x-%012x" % (number >> 48, number)


# Requests that are answered, of the number of the request on the connection.
SERVED = {
    "create": lambda number: sized(CREATE + JSON, b'{"vnfdId":"vnfd-1","vnfInstanceName":"edge-1"}'),
    "show": lambda number: b"GET " + instance(1) + HOST + b"\r\n",
    "list": lambda number: b"GET " + PATH + HOST + b"\r\n",
    "missed": lambda number: b"GET " + instance(9_999) + HOST + b"\r\n",
    "nowhere": lambda number: b"GET /" + HOST + b"\r\n",
    "unknown": lambda number: sized(CREATE + JSON, b'{"vnfdId":"vnfd-2","vnfInstanceName":"edge-1"}'),
}

# Requests that are refused, of the bytes of the body. `small` has none, and `large` announces one more than a body may have.
REFUSED = {
    "small": lambda size: b"GET /" + HOST + b"\r\n",
    "large": lambda size: CREATE + JSON + b"Content-Length: %d\r\n\r\n" % (LONGEST + 1),
    "path": lambda size: sized(NOWHERE, b" " * size),
    "chunked": lambda size: chunked(NOWHERE, b" " * size),
    "media": lambda size: sized(CREATE + b"Content-Type: text/plain\r\n", b" " * size),
    "blank": lambda size: sized(CREATE + JSON, b" " * size),
    "name": lambda size: sized(CREATE + JSON, filled(b'{"vnfdId":"', b"v", b'"}', size)),
    "members": lambda size: sized(CREATE + JSON, filled(b'{"vnfdId":7,"a":0', b',"a":0', b"}", size)),
    "strings": lambda size: sized(CREATE + JSON, filled(b'{"vnfdId":7,"a":[""', b',""', b"]}", size)),
    "numbers": lambda size: sized(CREATE + JSON, filled(b'{"vnfdId":7,"a":[0', b",0", b"]}", size)),
}


def served(kind, requests):
    """A connection of so many requests. `lived` is a creation and a deletion of what it made, in turn."""
    if kind != "lived":
        return b"".join(SERVED[kind](number) for number in range(requests))
    delete = lambda number: b"DELETE " + instance(number) + HOST + b"\r\n"
    return b"".join(SERVED["create"](0) + delete(number + 1) for number in range(requests // 2))


def refused(kind, requests, size):
    """A connection of so many requests with bodies of this size."""
    return REFUSED[kind](size) * requests
