#!/bin/sh
# The main job of README.md, by its own lines over ports that are free: a journal, a descriptor, vim_sim, the
# orchestrator of the examples, `serve`, and the life of an instance by curl. Then what `serve` takes where nothing goes
# on, and how soon it answers; a SIGTERM in the midst of an operation; both roles; an orchestrator that is gone; an
# address that is taken; and what `check` counts. Needs curl and python3. vim_sim is built by rt, so a first run takes
# minutes; later ones take half a minute.
. "$(dirname "$0")/common.sh"

port() {
    python3 -c 'import socket; it = socket.socket(); it.bind(("127.0.0.1", 0)); print(it.getsockname()[1])'
}
door=$(port) em_door=$(port) grants=$(port) vim=$(port)
ln -s "$here/vnfm" "$here/crates" "$here/examples" "$room" && cd "$room" || exit 1
manager='' infrastructure='' orchestrator=''
trap 'kill $manager $infrastructure $orchestrator 2>/dev/null; rm -rf "$room"' EXIT

# Waits until somebody listens there.
listens() { # WHAT PORT
    python3 - "$2" <<'END'
import socket, sys, time

for _ in range(600):
    try:
        socket.create_connection(("127.0.0.1", int(sys.argv[1]))).close()
        sys.exit(0)
    except OSError:
        time.sleep(0.05)
sys.exit(1)
END
    expect "$1 listens, status" "$?" 0
}

# Does the one line of README.md that matches.
line() { # PATTERN
    found=$(grep "^    .*$1" "$here/README.md")
    if [ "$(printf '%s\n' "$found" | grep -c .)" -ne 1 ]; then
        echo "README.md hasn't one line of $1" >&2
        exit 1
    fi
    eval "$(printf '%s\n' "$found" | sed "s/:9000/:$door/g; s/:9001/:$em_door/g; s/:9100/:$grants/g; s/:9200/:$vim/g")"
}

# Does it, and looks at the status line of the answer, its Location and a part of it.
answered() { # WHAT PATTERN STATUS LOCATION PART
    line "$2" 2>/dev/null | tr -d '\r' >"$room/answer"
    told "$1" "$3" "$4" "$5"
}

# The same of an answer that stands in $room/answer.
told() { # WHAT STATUS LOCATION PART
    expect "$1, status" "$(head -n 1 "$room/answer")" "HTTP/1.1 $2"
    expect "$1, Location" "$(sed -n 's/^Location: //p' "$room/answer")" "$3"
    expect "$1, found" "$(grep -c -- "$4" "$room/answer")" 1
}

# Asks, and looks at the answer.
asked() { # WHAT STATUS LOCATION PART WORD..
    what=$1 status=$2 location=$3 part=$4
    shift 4
    curl -s -i "$@" | tr -d '\r' >"$room/answer"
    told "$what" "$status" "$location" "$part"
}

# Waits until the last operation is in this state.
awaits() { # STATE
    tries=0 seen=''
    while [ "$tries" -lt 400 ] && [ "$seen" != "\"operationState\":\"$1\"" ]; do
        seen=$(line vnf_lcm_op_occs | tail -n 1)
        tries=$((tries + 1))
        sleep 0.02
    done
    expect "  the operation is" "$seen" "\"operationState\":\"$1\""
}

# Starts `serve`, and waits until it says where it listens.
start_serving() {
    line 'vnfm serve' >"$room/serve.out" 2>"$room/serve.err"
    manager=$! tries=0
    while [ "$tries" -lt 500 ] && ! grep -q . "$room/serve.err"; do
        tries=$((tries + 1))
        sleep 0.02
    done
    expect "serve says" "$(cat "$room/serve.err")" "$listening"
}

# Ends it, and looks at its status.
end_serving() {
    kill -TERM "$manager"
    wait "$manager" 2>/dev/null
    expect "behind SIGTERM, status" "$?" 143
    manager=''
}

# What `check` counts, but for the records.
counts() {
    "$here/vnfm" check --journal "$room/journal" | sed 's/^records [0-9]*, //'
}

# Of an instance: its state, how many machines it has, and its level.
shows() {
    curl -s "$one" | python3 -c '
import json, sys
it = json.load(sys.stdin)
info = it.get("instantiatedVnfInfo", {})
levels = [aspect["scaleLevel"] for aspect in info.get("scaleStatus", [])]
print(it["instantiationState"], len(info.get("vnfcResourceInfo", [])), *levels)'
}

listening="vnfm: listening at 127.0.0.1:$door for the orchestrator, at 127.0.0.1:$em_door for the element manager"
instance=/vnflcm/v1/vnf_instances/00000007-766d-8001-8000-00000000000
occurrence=/vnflcm/v1/vnf_lcm_op_occs/00000007-766d-8002-8000-00000000000
subscription=/vnflcm/v1/subscriptions/00000007-766d-8003-8000-00000000000

# ---- The main job

expect "init" "$(line 'vnfm init')" "journal made for manager 7"
expect "onboard" "$(line 'vnfm onboard')" "onboarded vnfd-1: 2 vdus, 1 aspects, 2 levels"
line 'rt run' >/dev/null 2>&1
line 'vim_sim --listen'
infrastructure=$!
listens "vim_sim" "$vim"
line orchestrator.py
orchestrator=$!
listens "the orchestrator" "$grants"
start_serving
line api=
line one=
line 'ask()'
answered "create" 'vnfdId' "201 Created" "${instance}1" '"instantiationState":"NOT_INSTANTIATED"'
answered "instantiate" '/instantiate$' "202 Accepted" "${occurrence}1" '^Content-Length: 0$'
awaits COMPLETED
expect "  the instance" "$(shows)" "INSTANTIATED 3 1"
answered "scale" '/scale$' "202 Accepted" "${occurrence}2" '^Content-Length: 0$'
awaits COMPLETED
expect "  the instance" "$(shows)" "INSTANTIATED 4 2"
answered "terminate" '/terminate$' "202 Accepted" "${occurrence}3" '^Content-Length: 0$'
awaits COMPLETED
expect "  the instance" "$(shows)" "NOT_INSTANTIATED 0"
answered "delete" 'DELETE' "204 No Content" "" "^HTTP"
asked "show what was deleted" "404 Not Found" "" '{"detail":"no such instance","status":404}' "$one"
asked "list" "200 OK" "" '^\[\]$' "$api/vnf_instances"

# ---- What it takes where nothing goes on, and how soon it answers

cat >"$room/idle.py" <<'END'
import os, socket, statistics, sys, time

def ticks(process):
    fields = open(f"/proc/{process}/stat").read().rsplit(")", 1)[1].split()
    return int(fields[11]) + int(fields[12])

def answer(host, port):
    """How many milliseconds a request takes on a connection of its own."""
    begun = time.perf_counter()
    with socket.create_connection((host, int(port))) as it:
        it.sendall(b"GET /vnflcm/v1/vnf_instances HTTP/1.1\r\nHost: vnfm.example\r\n\r\n")
        told = b""
        while not told.endswith(b"[]"):
            told += it.recv(4096) or sys.exit("the answer ends")
    return 1000 * (time.perf_counter() - begun)

process, host, port = sys.argv[1:]
time.sleep(1.5)
begun, before = time.monotonic(), ticks(process)
time.sleep(5)
share = (ticks(process) - before) / os.sysconf("SC_CLK_TCK") / (time.monotonic() - begun)
took = []
for wait in range(20):
    time.sleep(0.05 + 0.05 * (wait % 4))
    took.append(answer(host, port))
middle = statistics.median(took)
print(f"{100 * share:.2f} % of a core; of 20 requests the median is {middle:.2f} ms, the slowest {max(took):.2f} ms")
print("less than 1 %" if share < 0.01 else "1 % or more", "and", "within 20 ms" if middle < 20 else "later")
END
python3 "$room/idle.py" "$manager" 127.0.0.1 "$door" >"$room/figures"
expect "idle, $(head -n 1 "$room/figures")" "$(sed 1d "$room/figures")" "less than 1 % and within 20 ms"

# ---- A SIGTERM in the midst of an operation

one=$api/vnf_instances/00000007-766d-8001-8000-000000000002
answered "create another" 'vnfdId' "201 Created" "${instance}2" '"instantiationState":"NOT_INSTANTIATED"'
answered "instantiate" '/instantiate$' "202 Accepted" "${occurrence}4" '^Content-Length: 0$'
awaits PROCESSING
end_serving
expect "check" "$(counts)" "instances 1, ongoing 1, subscriptions 0"
start_serving
awaits COMPLETED
expect "  the instance" "$(shows)" "INSTANTIATED 3 1"

# ---- Both roles

em=http://127.0.0.1:$em_door/vnflcm/v1
callback="{\"callbackUri\":\"http://127.0.0.1:$grants/notices\"}"
json='Content-Type: application/json'
asked "the orchestrator subscribes" "201 Created" "${subscription}1" callbackUri \
    -H "$json" -d "$callback" "$api/subscriptions"
asked "  the element manager sees none" "200 OK" "" '^\[\]$' "$em/subscriptions"
asked "  nor that one" "404 Not Found" "" "no such subscription" "http://127.0.0.1:$em_door${subscription}1"
asked "the element manager subscribes" "201 Created" "${subscription}2" callbackUri \
    -H "$json" -d "$callback" "$em/subscriptions"
for its in "$api 1" "$em 2"; do
    set -- $its
    seen=$(curl -s "$1/subscriptions" | grep -o '8003-8000-[0-9]*"}}' | sort -u)
    expect "  listed at $1" "$seen" "8003-8000-00000000000$2\"}}"
done
asked "the orchestrator ends the other's" "404 Not Found" "" "no such subscription" \
    -X DELETE "http://127.0.0.1:$door${subscription}2"
asked "the element manager ends it" "204 No Content" "" "^HTTP" -X DELETE "http://127.0.0.1:$em_door${subscription}2"
asked "the element manager heals" "202 Accepted" "${occurrence}5" '^Content-Length: 0$' \
    -H "$json" -d '{"vnfcInstanceId":["VDU_A-1"]}' "http://127.0.0.1:$em_door${instance}2/heal"
awaits COMPLETED
expect "  the instance, at the orchestrator's" "$(shows)" "INSTANTIATED 3 1"
asked "the orchestrator ends its own" "204 No Content" "" "^HTTP" -X DELETE "http://127.0.0.1:$door${subscription}1"
expect "all that serve said" "$(cat "$room/serve.err" "$room/serve.out")" "$listening"

# ---- An orchestrator that is gone

kill "$orchestrator"
orchestrator=''
asked "scale without an orchestrator" "202 Accepted" "${occurrence}6" '^Content-Length: 0$' \
    -H "$json" -d '{"type":"SCALE_IN","aspectId":"workers"}' "$one/scale"
awaits ROLLED_BACK
tries=0
until [ "$tries" -ge 250 ] || grep -q ': 5 calls failed$' "$room/serve.err"; do
    tries=$((tries + 1))
    sleep 0.02
done
expect "serve says last" "$(tail -n 1 "$room/serve.err")" "vnfm: orchestrator: 5 calls failed"
expect "  and of nothing else" "$(sed 's/[1-5] calls/N calls/' "$room/serve.err" | sort -u)" "$listening
vnfm: orchestrator: N calls failed"

# ---- Addresses that are taken

free=$(port)
cp "$start" "$room/second"
for its in "$door $free" "$free $em_door"; do
    set -- $its
    "$here/vnfm" serve --journal "$room/second" --listen "127.0.0.1:$1" --em-listen "127.0.0.1:$2" \
        >"$room/out" 2>"$room/err"
    expect "an address is taken, status" "$?" 4
    addresses="127.0.0.1:$1 for the orchestrator, 127.0.0.1:$2 for the element manager"
    expect "an address is taken, standard output" "$(cat "$room/out")" "door fault"
    expect "an address is taken, standard error" "$(cat "$room/err")" \
        "vnfm: one of these addresses can't be had: $addresses
vnfm: no connection can be had at the addresses of --listen and --em-listen"
done

end_serving
expect "check" "$(counts)" "instances 1, ongoing 0, subscriptions 0"
exit "$differs"
