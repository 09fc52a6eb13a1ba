#!/bin/sh
# An HTTP client of the field against the program: curl creates two instances, lists them, shows one, deletes it, and asks for what isn't
# there. A small relay (tests/relay.py) gives each of its connections to a run of `once`, which opens no port.
. "$(dirname "$0")/common.sh"

journal=$room/journal
cp "$start" "$journal"
first=00000007-766d-8001-8000-000000000001
second=00000007-766d-8001-8000-000000000002
mkfifo "$room/port"
python3 "$here/tests/relay.py" "$here/vnfm" "$journal" 8 >"$room/port" 2>"$room/runs" &
relay=$!
read -r port <"$room/port" || exit 1
root=http://127.0.0.1:$port/vnflcm/v1/vnf_instances

# Asks with curl, and looks at the status and at a part of the answer.
ask() { # WHAT STATUS PATTERN WORD..
    what=$1 status=$2 pattern=$3
    shift 3
    seen=$(curl -s -i --max-time 20 "$@" | tr -d '\r')
    expect "$what, status" "$(printf '%s\n' "$seen" | head -n 1 | cut -d ' ' -f 2)" "$status"
    expect "$what, found" "$(printf '%s\n' "$seen" | grep -c "$pattern")" 1
}

ask "create" 201 "^Location: /vnflcm/v1/vnf_instances/$first\$" \
    -H 'Content-Type: application/json' -d '{"vnfdId":"vnfd-1","vnfInstanceName":"edge-1"}' "$root"
ask "create another" 201 "^Location: /vnflcm/v1/vnf_instances/$second\$" \
    -H 'Content-Type: application/json' -d '{"vnfdId":"vnfd-1"}' "$root"
ask "list" 200 "^\[{.*\"id\":\"$first\".*\"id\":\"$second\".*}\]\$" "$root"
ask "show" 200 "\"vnfInstanceName\":\"edge-1\"" "$root/$first"
ask "delete" 204 "^HTTP/1.1 204 No Content\$" -X DELETE "$root/$first"
ask "show what was deleted" 404 '{"detail":"no such instance","status":404}' "$root/$first"
ask "a method that it hasn't" 405 "^Allow: DELETE, GET\$" -X PATCH "$root/$second"
ask "two on one connection" 200 "^\[{\"_links\".*\"id\":\"$second\".*}\]\$" -o - "$root?all" -o /dev/null "$root/$second"
wait "$relay"
expect "the relay, status" "$?" 0
expect "the runs" "$(sort -u "$room/runs")" "done after 1 rounds"
exit "$differs"
