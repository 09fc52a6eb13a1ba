#!/bin/sh
# docs/OPERATING.md by its own lines, over other paths and ports, as the user who runs this: what is installed, the journal,
# a start by the words of examples/vnfm.service, a backup, a restore from it, a restore from an older copy with what happens
# where its numbers aren't passed over, a night on which the adapter was gone, an orchestrator that asks while it is asked,
# a move; and what the page and the unit say of each exit status, which is seen. `systemctl` and `journalctl` are functions
# here, and the unit is judged by systemd-analyze where it is there. Needs curl and python3. Two minutes.
#
#     tests/operating.sh [system]     with `system` over the page's own paths and ports, as root, by systemd itself: that is
#                                     for a machine that is there for it alone, as the one of under_systemd.sh
. "$(dirname "$0")/common.sh"

page=$here/docs/OPERATING.md
is_system=${1:+yes}
manager='' adapter='' orchestrator='' newest=journal.none used=57
trap 'kill $manager $adapter $orchestrator 2>/dev/null; rm -rf "$room"' EXIT

# The one command that matches, of the section of the page that is at hand.
command_of() { # PATTERN
    found=$(awk -v it="## $section" '/^## / { on = $0 == it } on' "$page" | grep "^    .*$1")
    if [ "$(printf '%s\n' "$found" | grep -c .)" -ne 1 ]; then
        echo "docs/OPERATING.md, $section, hasn't one command of $1" >&2
        exit 1
    fi
    printf '%s\n' "$found" | here_are | sed -e "s/journal\.20261202T031500/$newest/; s/ 57 </ $used </" \
        -e "s/8002-8000-000000000006/8002-8000-00000000000${occurrence:-2}/"
}

# Does it.
line() { # PATTERN
    eval "$(command_of "$1")"
}

# The words of ExecStart in a unit.
exec_words() { # UNIT
    sed -e ':more' -e '/\\$/{N;s/\\\n *//;b more' -e '}' "$1" | sed -n 's/^ExecStart=//p'
}

if [ -n "$is_system" ]; then
    [ -d /run/systemd/system ] && [ "$(id -u)" = 0 ] && [ ! -e /var/lib/vnfm ] && [ ! -e /usr/local/bin/vnfm ] || {
        echo "systemd doesn't run here, or not as root, or vnfm is installed" >&2
        exit 1
    }
    door=9000 em_door=9001 grants=9100 vim=9200
    lib=/var/lib/vnfm bin=/usr/local/bin backups=/var/backups/vnfm units=/etc/systemd/system
    cd "$here" || exit 1
    here_are() {
        cat
    }
    # What the manager said last.
    said() {
        journalctl -u vnfm --no-pager -o cat | sed -n '/^vnfm: /p' | tail -n "$1"
    }
else
    port() {
        python3 -c 'import socket; it = socket.socket(); it.bind(("127.0.0.1", 0)); print(it.getsockname()[1])'
    }
    door=$(port) em_door=$(port) grants=$(port) vim=$(port)
    lib=$room/lib bin=$room/bin backups=$room/backups units=$room/units
    mkdir "$bin" "$units" && ln -s "$here/vnfm" "$here/crates" "$here/examples" "$here/.build" "$room" && cd "$room" || exit 1
    # The paths, ports and users of the page, as they are here.
    here_are() {
        sed -e "s#/usr/local/bin/vnfm#$bin/vnfm#g; s#/var/lib/vnfm#$lib#g; s#/var/backups/vnfm#$backups#g" \
            -e "s#/etc/systemd/system/#$units/#g; s#runuser -u vnfm -- ##; s# -o vnfm -g vnfm##" \
            -e "s/:9000/:$door/g; s/:9001/:$em_door/g; s/:9100/:$grants/g; s/:9200/:$vim/g"
    }
    said() {
        tail -n "$1" "$room/said"
    }
    start_manager() {
        : >"$room/said"
        sh -c "exec $(exec_words "$units/vnfm.service")" >>"$room/said" 2>&1 &
        manager=$!
    }
    stop_manager() {
        kill -TERM "$manager"
        wait "$manager" 2>/dev/null
        expect "stopped, status" "$?" 143
        manager=''
    }
    systemctl() {
        case "$1 $2" in
        "daemon-reload ") ;;
        "enable --now" | "start vnfm") start_manager ;;
        "disable --now" | "stop vnfm") stop_manager ;;
        *) expect "systemctl $*" "" "a command of the page" ;;
        esac
    }
    journalctl() {
        cat "$room/said"
    }
fi

# Does the command that starts the manager, and waits until it answers.
start_by() { # PATTERN
    line "$1" 2>/dev/null
    tries=0
    until curl -s -o /dev/null "$api/vnf_instances" || [ "$tries" -ge 300 ]; do
        tries=$((tries + 1))
        sleep 0.1
    done
    expect "it says" "$(said 1)" "$listening"
    [ "$tries" -ge 300 ] || return
    journalctl -u vnfm -n 9 --no-pager
    exit 1
}

# ---- The peers, and what is asked

start_adapter() {
    python3 "$here/examples/adapter.py" --listen "127.0.0.1:$vim" --folder "$infrastructure" >/dev/null 2>&1 &
    adapter=$!
    listens "$vim"
}

start_orchestrator() { # [--later]
    python3 "$here/examples/orchestrator.py" --listen "127.0.0.1:$grants" "$@" >/dev/null 2>&1 &
    orchestrator=$!
    listens "$grants"
}

listens() { # PORT
    python3 - "$1" <<'END'
import socket, sys, time

for _ in range(600):
    try:
        socket.create_connection(("127.0.0.1", int(sys.argv[1]))).close()
        sys.exit(0)
    except OSError:
        time.sleep(0.05)
sys.exit(1)
END
}

# Asks, and looks at the status of the answer.
asked() { # WHAT STATUS PATH [WORD..]
    what=$1 status=$2 path=$3
    shift 3
    expect "$what, status" "$(curl -s -o "$room/body" -w '%{http_code}' -H 'Content-Type: application/json' "$@" "$api$path")" "$status"
}

# Waits until the last operation is in this state.
awaits() { # STATE [SECONDS]
    tries=0 seen=''
    while [ "$tries" -lt "$((${2:-20} * 10))" ] && [ "$seen" != "$1" ]; do
        seen=$(curl -s "$api/vnf_lcm_op_occs" | grep -o '"operationState":"[A-Z_]*"' | tail -n 1 | cut -d'"' -f4)
        tries=$((tries + 1))
        sleep 0.1
    done
    expect "  the operation is" "$seen" "$1"
}

# Of an instance: its state, how many machines it has, and its level.
shows() { # NUMBER
    curl -s "$api/vnf_instances/00000007-766d-8001-8000-00000000000$1" | python3 -c '
import json, sys
it = json.load(sys.stdin)
info = it.get("instantiatedVnfInfo", {})
levels = [aspect["scaleLevel"] for aspect in info.get("scaleStatus", [])]
print(it["instantiationState"], len(info.get("vnfcResourceInfo", [])), *levels)'
}

# How many resources stand in the adapter's infrastructure.
standing() {
    find "$infrastructure" -maxdepth 1 -name 'r[0-9]*' | wc -l | tr -d ' '
}

infrastructure=$(pwd)/infrastructure
api=http://127.0.0.1:$door/vnflcm/v1
one=/vnf_instances/00000007-766d-8001-8000-000000000001
scale='{"type":"SCALE_OUT","aspectId":"workers"}'
listening="vnfm: listening at 127.0.0.1:$door for the orchestrator, at 127.0.0.1:$em_door for the element manager"

# ---- Install

section=Install
expect "the program is built" "$(line '\./vnfm --version')" "$("$here/vnfm" --version)"
line 'install -m 0755 .build'
[ -z "$is_system" ] || line useradd
line 'install -d -m 0700 -o vnfm'
expect "the folder, mode" "$(stat -c %a "$lib")" 700
expect "init" "$(line 'vnfm init')" "journal made for manager 7"
expect "the journal, mode" "$(stat -c %a "$lib/journal")" 600
expect "onboard" "$(line 'onboard .*examples')" "onboarded vnfd-1: 2 vdus, 1 aspects, 2 levels"

# ---- Start

section=Start
line 'install -m 0644 examples/vnfm.service'
here_are <"$here/examples/vnfm.service" >"$units/vnfm.service"
if command -v systemd-analyze >/dev/null; then
    expect "systemd-analyze verify" "$(line 'systemd-analyze verify' 2>&1) $?" " 0"
    expect "systemd-analyze security, exposure at most 2.0" \
        "$(systemd-analyze security --offline=true --threshold=20 "$units/vnfm.service" >/dev/null 2>&1 && echo yes)" yes
fi
start_orchestrator --later
start_adapter
line 'systemctl daemon-reload'
start_by 'systemctl enable --now vnfm'
expect "it is logged" "$(line 'journalctl -u vnfm -n 5' | grep -o 'vnfm: .*')" "$listening"
expect "it answers" "$(line 'curl -s')" "[]"
sed 's/vnfd-1/vnfd-2/' "$here/examples/vnfd.json" >vnfd.json
line 'onboard .*journal <vnfd.json' >"$room/out" 2>&1
expect "onboard beside a manager" "$? $(head -n 1 "$room/out")" "3 site fault"
line 'systemctl stop vnfm'
expect "onboard behind a stop" "$(line 'onboard .*journal <vnfd.json')" "onboarded vnfd-2: 2 vdus, 1 aspects, 2 levels"
rm -f vnfd.json
start_by 'systemctl start vnfm'
asked "create" 201 /vnf_instances -d '{"vnfdId":"vnfd-1"}'
asked "instantiate, granted by 202 and a Location" 202 $one/instantiate -d '{"flavourId":"simple"}'
awaits COMPLETED
expect "  the instance, and what stands" "$(shows 1), $(standing)" "INSTANTIATED 3 1, 13"

# ---- Each exit status

# The words of ExecStart, with another journal.
serve_on() { # JOURNAL [WORD..]
    journal=$1
    shift
    # shellcheck disable=SC2046
    timeout 20 $(exec_words "$units/vnfm.service" | sed "s#$lib/journal#$journal#") "$@"
}

# What the page and the unit say of a status that is seen, and its line.
ends() { # WHAT STATUS LINE PAGE
    row=$(grep "^| $2 |" "$page")
    expect "$1, status" "$seen_status" "$2"
    expect "$1, line" "$(sed -n 1p "$room/out")" "$3"
    expect "$1, on the page" "$(printf '%s\n' "$row" | cut -d'|' -f3,4 | sed 's/^ //; s/ $//')" "$4"
}
seen() { # COMMAND WORD..
    "$@" >"$room/out" 2>"$room/err" </dev/null
    seen_status=$?
}
seen serve_on "$lib/journal" --rounds
ends "words too many" 2 "usage: vnfm init|onboard|once|serve|check|trial|migrate" '`usage: vnfm ..` | stays down'
seen serve_on "$lib/journal"
ends "a lock that is held" 3 "site fault" '`site fault` | stays down'
expect "  why" "$(sed -n '$p' "$room/err")" "vnfm: \"$lib/journal\": another manager holds its lock"
cp "$start" "$room/other"
seen serve_on "$room/other"
ends "an address that is taken" 4 "door fault" '`door fault` | tries again'
: >"$room/empty"
seen serve_on "$room/empty"
ends "a journal that was never made" 5 "no journal" '`no journal`, `not a journal: byte N` | stays down'
head -c "$(($(bytes_of "$start") - 9))" "$start" >"$room/broken"
seen serve_on "$room/broken"
ends "a broken record" 8 "bad record 1" '`bad record N` | stays down'
seen "$bin/vnfm" onboard --journal "$room/other"
ends "no descriptor" 10 "descriptor refused: not JSON" '`descriptor refused: T` | never of `serve`'
seen "$bin/vnfm" init --journal "$room/other" --manager 7
ends "init again" 11 "taken" '`taken` | stays down; never of `serve`'
stays=$(sed -n 's/^| \([0-9]*\) |[^|]*| stays down.*/\1/p' "$page" | grep -vx 0 | tr '\n' ' ')
expect "what stays down, by the unit" "$(sed -n 's/^RestartPreventExitStatus=//p' "$here/examples/vnfm.service") " "$stays"
expect "each status of docs/FORMATS.md is on the page" \
    "$(sed -n '/^### After each status/,/^###* Why/s/^| \([0-9]*\) |.*/\1/p' "$here/docs/FORMATS.md" | tr '\n' ' ')" \
    "$(sed -n 's/^| \([0-9]\{1,2\}\) |.*/\1/p' "$page" | tr '\n' ' ')"

# ---- Back up, and restore the copy of a stopped manager

back_up() {
    section='Back up'
    line 'cp .*vnfm/new$'
    line 'vnfm check'
    line 'mv .*vnfm/new '
}
restore() {
    section=Restore
    line 'systemctl stop'
    line 'mv '
    line 'install -m 0600'
    line 'sync '
    expect "the copy that is put back, mode" "$(stat -c %a "$lib/journal")" 600
    line 'vnfm check'
}
section='Back up'
line 'install -d'
expect "a copy beside the manager" "$(back_up | sed 's/^records [0-9]*, //')" "instances 1, ongoing 0, subscriptions 0"
newest=$(ls "$backups")
expect "  its bytes are the journal's" "$(cmp "$backups/$newest" "$lib/journal" 2>&1)" ""
restore >"$room/out"
expect "restored" "$(tail -n 1 "$room/out" | sed 's/^records [0-9]*, //')" "instances 1, ongoing 0, subscriptions 0"
start_by 'systemctl start'
expect "  the instance, and what stands" "$(shows 1), $(standing)" "INSTANTIATED 3 1, 13"
asked "create another" 201 /vnf_instances -d '{"vnfdId":"vnfd-1"}'

# ---- Restore an older copy: a scaling is forgotten, by which four resources were made

asked "scale, which will be forgotten" 202 $one/scale -d "$scale"
awaits COMPLETED
expect "  the instance, and what stands" "$(shows 1), $(standing)" "INSTANTIATED 4 2, 17"
restore >"$room/out"
kill "$adapter"
wait "$adapter" 2>/dev/null
cp -R "$infrastructure" "$infrastructure.then"
cp -p "$lib/journal" "$room/journal.then"

# (What the page warns of: the number is given again, and the adapter tells the jobs of the scaling as those of the
# termination: not all is removed, though the manager counts it so.)
start_adapter
start_by 'systemctl start'
asked "terminate, without passing over the number" 202 $one/terminate -d '{"terminationType":"FORCEFUL"}'
awaits COMPLETED
leaked=$(standing)
expect "  the instance" "$(shows 1)" "NOT_INSTANTIATED 0"
expect "  more stands than the four that were forgotten" "$([ "$leaked" -gt 4 ] && echo yes)" yes
line 'systemctl stop'
kill "$adapter"
wait "$adapter" 2>/dev/null
rm -rf "$infrastructure"
mv "$infrastructure.then" "$infrastructure"
cp -p "$room/journal.then" "$lib/journal"

start_adapter
used=$(line 'ls infrastructure/jobs')
expect "the greatest number of an occurrence that was used" "$used" 2
expect "the numbers are used up to it" "$(line 'pass_numbers.sh')" "occurrence $used, instance $used"
start_by 'systemctl start'
asked "terminate" 202 $one/terminate -d '{"terminationType":"FORCEFUL"}'
awaits COMPLETED
expect "  the instance, and what stands: what the forgotten scaling made" "$(shows 1), $(standing)" "NOT_INSTANTIATED 0, 4"
asked "instantiate again" 202 $one/instantiate -d '{"flavourId":"simple"}'
awaits COMPLETED
expect "  the instance, and what stands" "$(shows 1), $(standing)" "INSTANTIATED 3 1, 17"

# ---- A night on which the adapter was gone

kill "$adapter"
wait "$adapter" 2>/dev/null
asked "scale without an adapter" 202 $one/scale -d "$scale"
occurrence=$(curl -s "$api/vnf_lcm_op_occs" | python3 -c 'import json, sys; print(json.load(sys.stdin)[-1]["id"][-1])')
awaits PROCESSING
sleep 2
section='What is logged'
expect "  it is said" "$(line 'journalctl -u vnfm -p' | grep -o 'vnfm: .*' | sed 's/[0-9][0-9]* calls/N calls/' | sort -u)" "vnfm: infrastructure: N calls failed"
start_adapter
awaits FAILED_TEMP
section='A spoiled night'
line 'cp '
expect "  what waits for a person" "$(line 'curl -s ' | cut -d' ' -f2-)" "SCALE FAILED_TEMP change 0: call failed"
if command -v vnfm_history >/dev/null; then
    for pattern in 'tail -n 40' '--occurrence' '--instance' '--html'; do
        line "vnfm_history.* $pattern" >"$room/out" 2>&1
        expect "  vnfm_history $pattern, status" "$?" 0
    done
else
    echo "  (vnfm_history isn't there)"
fi
expect "  retry" "$(line 'curl -i -X POST' 2>/dev/null | head -n 1 | tr -d '\r')" "HTTP/1.1 202 Accepted"
awaits COMPLETED
expect "  the instance" "$(shows 1)" "INSTANTIATED 4 2"

# ---- An orchestrator that asks the manager while it is asked for a grant

kill "$orchestrator"
cat >"$room/asking.py" <<'END'
import http.client, sys, time
sys.path.insert(0, sys.argv[1])
import http.server, orchestrator

class Asking(orchestrator.Handler):
    def grant(self, body):
        begun = time.monotonic()
        connection = http.client.HTTPConnection("127.0.0.1", int(sys.argv[3]), timeout=60)
        connection.request("GET", "/vnflcm/v1/vnf_lcm_op_occs", headers={"Connection": "close"})
        connection.getresponse().read()
        print(f"{time.monotonic() - begun:.1f}", flush=True)
        super().grant(body)

    def log_message(self, *_):
        pass

server = http.server.ThreadingHTTPServer(("127.0.0.1", int(sys.argv[2])), Asking)
server.grants, server.later = {}, False
server.handle_error = lambda *_: None
server.serve_forever()
END
python3 "$room/asking.py" "$here/examples" "$grants" "$door" >"$room/waited" 2>/dev/null &
orchestrator=$!
listens "$grants"
asked "scale" 202 $one/scale -d '{"type":"SCALE_IN","aspectId":"workers"}'
sleep 34
awaits ROLLED_BACK 30
expect "  so often it asked" "$(wc -l <"$room/waited" | tr -d ' ')" 5
expect "  each of its GETs waited some 5 seconds" "$(cut -d. -f1 "$room/waited" | sort -u | tr '\n' ' ')" "5 "
curl -s "$api/vnf_lcm_op_occs" >"$room/body"
expect "  why" "$(grep -o '"detail":"no grant[^"]*"' "$room/body" | sort -u)" '"detail":"no grant after five tries"'

# ---- Move

section='Move to another machine'
line 'systemctl disable'
line 'cp '
line 'mv '
expect "moved, sums" "$(line 'sha256sum' | cut -d' ' -f1 | sort -u | grep -c .)" 1
section='When something is full, held or broken'
cp -p "$lib/journal.moved" "$lib/journal"
expect "its size" "$(line 'stat -c')" "$(bytes_of "$lib/journal")"
flock "$lib/journal" sleep 2 &
sleep 0.5
expect "who holds it" "$(line 'lslocks' | cut -d' ' -f1)" flock
wait $!
expect "nobody holds it" "$(line 'lslocks')" ""

# ---- systemd itself: what it starts again, and what it doesn't

# Waits until the unit is in this state, and tells its last status and how often it was started again.
unit_is() { # STATE
    tries=0
    until [ "$(systemctl is-active vnfm)" = "$1" ] || [ "$tries" -ge 150 ]; do
        tries=$((tries + 1))
        sleep 0.1
    done
    echo "$(systemctl is-active vnfm), status $(systemctl show -P ExecMainStatus vnfm)"
}
restarts() {
    systemctl show -P NRestarts vnfm
}
if [ -n "$is_system" ]; then
    systemctl start vnfm
    expect "systemd: its user" "$(ps -o user= -p "$(systemctl show -P MainPID vnfm)")" vnfm
    systemctl kill -s KILL vnfm
    sleep 7
    expect "systemd: behind SIGKILL" "$(unit_is active), restarts $(restarts)" "active, status 0, restarts 1"
    systemctl stop vnfm
    flock "$lib/journal" sleep 5 &
    sleep 0.5
    systemctl start vnfm
    expect "systemd: a lock that is held" "$(unit_is failed), restarts $(restarts)" "failed, status 3, restarts 0"
    wait $!
    cp -p "$lib/journal" "$room/whole"
    : >"$lib/journal"
    systemctl start vnfm
    expect "systemd: no journal" "$(unit_is failed), restarts $(restarts)" "failed, status 5, restarts 0"
    head -c 500 "$room/whole" >"$lib/journal"
    systemctl start vnfm
    expect "systemd: a broken record" "$(unit_is failed), restarts $(restarts)" "failed, status 8, restarts 0"
    cat "$room/whole" >"$lib/journal"
    python3 -c 'import socket, time; it = socket.create_server(("127.0.0.1", 9000)); time.sleep(9)' &
    listens 9000
    systemctl start vnfm
    sleep 15
    expect "systemd: an address that was taken for some seconds" "$(unit_is active), $(restarts | sed 's/[1-9]/more/')" "active, status 0, more"
    expect "  and it answers" "$(shows 1)" "INSTANTIATED 4 2"
    systemctl stop vnfm
    mv "$lib" "$lib.away"
    systemctl start vnfm 2>/dev/null
    sleep 2
    expect "systemd: no folder" "$(systemctl show -P ExecMainStatus vnfm), $(ls -d "$lib" 2>/dev/null)" "226, "
    systemctl stop vnfm
    mv "$lib.away" "$lib"
else
    echo "systemd: under_systemd.sh has it do the same"
fi
exit "$differs"
