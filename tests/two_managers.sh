#!/bin/sh
# Managers on one journal: while the first runs, each other one ends with status 3 and `site fault`, whatever its command and its
# standard streams, and leaves the journal as it is: its bytes, mode and time. Nothing is lost.
. "$(dirname "$0")/common.sh"

journal=$room/journal
cp "$start" "$journal"
mkfifo "$room/input" || exit 1

# The first manager holds the journal and waits for the rest of its connection.
"$here/vnfm" once --journal "$journal" <"$room/input" >"$room/first.out" 2>"$room/first.err" &
first=$!
exec 3>"$room/input"
tries=0
until ls -l "/proc/$first/fd" 2>/dev/null | grep -qF "$journal"; do
    tries=$((tries + 1))
    if [ "$tries" -gt 30 ]; then
        echo "the first manager didn't open the journal in 30 seconds" >&2
        exit 1
    fi
    sleep 1
done
sleep 1

# What the first holds: the file, its mode, its length and when it was last written to, and its bytes.
state() {
    stat -c '%i %a %s %y' "$journal"
}
held=$(state)
cp "$journal" "$room/held"

"$here/vnfm" once --journal "$journal" <"$request" >"$room/second.out" 2>"$room/second.err" 3>&-
expect "second manager, status" "$?" 3
expect "second manager, line" "$(head -n 1 "$room/second.err")" "site fault"
expect "second manager, why" "$(sed 1d "$room/second.err")" "vnfm: \"$journal\": another manager holds its lock"
expect "second manager, answer" "$(cat "$room/second.out")" ""

# Runs a command with these redirections while the first manager has the lock, and looks at its status and at what it leaves.
locked_out() { # INPUT REDIRECTIONS COMMAND [OPTION VALUE]
    input=$1 redirections=$2 command=$3
    shift 3
    eval "\"\$here/vnfm\" \"\$command\" --journal \"\$journal\" \"\$@\" <\"\$input\" >\"\$room/third.out\" 2>\"\$room/third.err\" 3>&- $redirections"
    expect "$command${redirections:+, }$redirections, status" "$?" 3
    expect "$command${redirections:+, }$redirections, journal" "$(state)$(cmp "$journal" "$room/held" 2>&1)" "$held"
}

for redirections in '' '2>&-' '1>&- 2>&-' '0<&- 1>&- 2>&-'; do
    locked_out /dev/null "$redirections" init --manager 7
    locked_out "$here/examples/vnfd.json" "$redirections" onboard
    locked_out "$request" "$redirections" once
    locked_out /dev/null "$redirections" serve --listen 127.0.0.1:0 --em-listen 127.0.0.1:0
done

cat "$request" >&3
exec 3>&-
wait "$first"
expect "first manager, status" "$?" 0
expect "first manager, line" "$(cat "$room/first.err")" "done after 1 rounds"
expect "first manager, answer" "$(head -n 1 "$room/first.out" | tr -d '\r')" "HTTP/1.1 201 Created"
expect "journal, bytes" "$(bytes_of "$journal")" 340

# Once the first has ended, the journal can be had again.
"$here/vnfm" once --journal "$journal" <"$request" >"$room/third.out" 2>"$room/third.err"
expect "third manager, status" "$?" 0
expect "third manager, Location" "$(sed -n '2p' "$room/third.out" | tr -d '\r')" \
    "Location: /vnflcm/v1/vnf_instances/00000007-766d-8001-8000-000000000002"
expect "journal, bytes" "$(bytes_of "$journal")" 382

exit "$differs"
