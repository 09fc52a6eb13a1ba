#!/usr/bin/env python3
"""An orchestrator for trials of vnfm: it grants all that it is asked for, and takes notifications.

    python3 examples/orchestrator.py --listen 127.0.0.1:9100 [--later]

POST /grant/v1/grants is answered 201 with the grant (SOL 003 9.4.2, 9.5.2.3), which GET of its Location answers too (9.4.3). With --later the
POST is answered 202 with the Location alone, and the grant is there on the GET. Any other POST is a notification: it is answered 204 and
printed on standard output, one line each. Requests are logged on standard error.

What is made is granted at the connection `vim1` in the zone `zone1`; all else at the connection at which it stands.
"""
import argparse
import http.server
import json
import sys
import uuid

GRANTS = "/grant/v1/grants"
VIM, ZONE = "vim1", "zone1"


def made(definition):
    """What is granted for a definition that is made (SOL 003 9.5.3.3, GrantInfo)."""
    return {"resourceDefinitionId": definition["id"], "vimConnectionId": VIM, "zoneId": ZONE}


def standing(definition):
    """What is granted for a definition that is removed or updated."""
    return {"resourceDefinitionId": definition["id"], "vimConnectionId": definition["resource"].get("vimConnectionId", VIM)}


def grant_for(identifier, request):
    """The grant of all that is asked for (SOL 003 9.5.2.2, GrantRequest; 9.5.2.3, Grant)."""
    return {
        "id": identifier,
        "vnfInstanceId": request["vnfInstanceId"],
        "vnfLcmOpOccId": request["vnfLcmOpOccId"],
        "vimConnections": [{"id": VIM, "vimType": "EXAMPLE"}],
        "zones": [{"id": ZONE, "zoneId": ZONE, "vimConnectionId": VIM}],
        "addResources": [made(it) for it in request.get("addResources", [])],
        "removeResources": [standing(it) for it in request.get("removeResources", [])],
        "updateResources": [standing(it) for it in request.get("updateResources", [])],
        "_links": {"self": {"href": f"{GRANTS}/{identifier}"}, **request["_links"]},
    }


def on_one_line(body):
    """A body as one line: its JSON, or else its bytes as Python spells them."""
    try:
        return json.dumps(json.loads(body))
    except ValueError:
        return repr(body)


class Handler(http.server.BaseHTTPRequestHandler):
    protocol_version = "HTTP/1.1"
    timeout = 60  # seconds for which a connection may be silent
    wbufsize = -1  # an answer is sent as one piece

    def do_POST(self):
        length = self.headers.get("Content-Length", "0")
        if "Transfer-Encoding" in self.headers or not length.isdecimal():
            self.close_connection = True
            self.answer(411, problem="a body has to have a Content-Length")
            return
        body = self.rfile.read(int(length))
        if self.path == GRANTS:
            self.grant(body)
        else:
            sys.stdout.write(f"{self.path} {on_one_line(body)}\n")
            sys.stdout.flush()
            self.answer(204)

    def grant(self, body):
        identifier = str(uuid.uuid4())
        try:
            grant = grant_for(identifier, json.loads(body))
        except (ValueError, KeyError, TypeError, AttributeError) as fault:
            self.answer(400, problem=f"no grant request: {fault!r}")
            return
        self.server.grants[identifier] = grant
        location = f"{GRANTS}/{identifier}"
        if self.server.later:
            self.answer(202, location=location)
        else:
            self.answer(201, grant, location)

    def do_GET(self):
        front, _, identifier = self.path.rpartition("/")
        grant = self.server.grants.get(identifier) if front == GRANTS else None
        if grant:
            self.answer(200, grant)
        else:
            self.answer(404, problem="there is no such grant")

    def answer(self, status, content=None, location=None, problem=None):
        """Answers with this content, or with a problem (ProblemDetails, RFC 9457), or with no body."""
        if problem:
            content = {"status": status, "detail": problem}
        body = b"" if content is None else json.dumps(content).encode()
        self.send_response(status)
        if location:
            self.send_header("Location", location)
        if body:
            self.send_header("Content-Type", "application/problem+json" if problem else "application/json")
        if status != 204:
            self.send_header("Content-Length", str(len(body)))
        if self.close_connection:
            self.send_header("Connection", "close")
        self.end_headers()
        self.wfile.write(body)


def address(text):
    host, _, port = text.rpartition(":")
    return host, int(port)


def main():
    words = argparse.ArgumentParser(description="An orchestrator for trials of vnfm, which grants all that it is asked for.")
    words.add_argument("--listen", required=True, type=address, metavar="HOST:PORT")
    words.add_argument("--later", action="store_true", help="answer 202 first, and tell the grant where it is polled for")
    given = words.parse_args()
    try:
        server = http.server.ThreadingHTTPServer(given.listen, Handler)
    except OSError as fault:
        sys.exit(str(fault))
    with server:
        server.grants, server.later = {}, given.later
        print("listening at %s:%d" % server.server_address, flush=True)
        server.serve_forever()


if __name__ == "__main__":
    try:
        main()
    except KeyboardInterrupt:
        pass
