#!/bin/sh
# A journal of more than 100 MB is opened by each command: none answers that there is no memory because of its size. Needs python3,
# and 250 MB in the folder of temporary files.
. "$(dirname "$0")/common.sh"

journal=$room/journal
python3 "$here/bench/load/journal.py" newest 3900000 10 >"$journal" || exit 1
length=$(bytes_of "$journal")
expect "the journal has more than 100,000,000 bytes" "$([ "$length" -gt 100000000 ] && echo yes)" yes

# Runs a command on it, and looks at its status, its line and how many bytes more the journal has.
try() { # INPUT STATUS LINE MORE COMMAND [OPTION VALUE]
    input=$1 status=$2 line=$3 more=$4 command=$5
    shift 5
    before=$(bytes_of "$journal")
    "$here/vnfm" "$command" --journal "$journal" "$@" <"$input" >"$room/out" 2>"$room/err"
    expect "$command, status" "$?" "$status"
    expect "$command, line" "$(cat "$room/err" "$room/out" | grep -a -E "^$line" | head -n 1)" "$line"
    expect "$command, bytes more" "$(($(bytes_of "$journal") - before))" "$more"
}

try /dev/null 11 taken 0 init --manager 7
try /dev/null 0 "done after 1 rounds" 0 once
try "$here/examples/vnfd.json" 0 "onboarded vnfd-1: 2 vdus, 1 aspects, 2 levels" 265 onboard
try "$request" 0 "done after 1 rounds" 42 once
expect "once, answer" "$(head -n 1 "$room/out" | tr -d '\r')" "HTTP/1.1 201 Created"

exit "$differs"
