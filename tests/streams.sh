#!/bin/sh
# Standard streams that aren't there: each command with each of the eight sets of closed ones, with output that is full, and
# with output to a pipe whose reader is gone. Nothing but records is ever in the journal: it has those that the answers and
# statuses say, and the next run goes on from them.
. "$(dirname "$0")/common.sh"

program=$here/.build/vnfm
journal=$room/journal
: >"$room/nothing"

# Journals with which the commands begin: none is there, a made one, and one with a descriptor.
"$program" init --journal "$room/made" --manager 7 >/dev/null || exit 1

# What the next creation is answered: its status line, and which instance it makes.
next_answer() {
    "$program" once --journal "$journal" <"$request" 2>/dev/null | tr -d '\r' |
        sed -n -e '1s/^HTTP\/1.1 //p' -e '2s/^Location: .*-0*/instance /p' | tr '\n' ' ' | sed 's/ $//'
}

# Runs a command on a copy of a journal with these redirections, and looks at its status, the bytes of the journal and the
# answer of the next run.
try() { # WHAT FROM REDIRECTIONS STATUS BYTES NEXT WORD..
    what=$1 from=$2 redirections=$3 status=$4 bytes=$5 next=$6
    shift 6
    rm -f "$journal"
    [ "$from" = none ] || cp "$from" "$journal"
    eval "\"\$program\" \"\$@\" <\"\$input\" >\"\$room/out\" 2>\"\$room/err\" $redirections"
    expect "$what" "status $?, $(bytes_of "$journal") bytes, next $(next_answer)" "status $status, $bytes bytes, next $next"
}

# Where standard input is closed there is nothing to read. A line of status 0 that can't be written makes the status 7.
for closed in '' 0 1 2 01 02 12 012; do
    redirections=
    read=yes out=0 err=0
    case $closed in *0*) redirections="$redirections 0<&-" read=no ;; esac
    case $closed in *1*) redirections="$redirections 1>&-" out=7 ;; esac
    case $closed in *2*) redirections="$redirections 2>&-" err=7 ;; esac
    closed=${closed:-none}
    input=$room/nothing
    try "init, closed $closed" none "$redirections" "$out" 33 "422 Unprocessable Content" \
        init --journal "$journal" --manager 7
    input=$here/examples/vnfd.json
    if [ "$read" = yes ]; then
        try "onboard, closed $closed" "$room/made" "$redirections" "$out" 298 "201 Created instance 1" onboard --journal "$journal"
    else
        try "onboard, closed $closed" "$room/made" "$redirections" 10 33 "422 Unprocessable Content" onboard --journal "$journal"
    fi
    input=$request
    if [ "$read" = yes ]; then
        try "once, closed $closed" "$start" "$redirections" "$err" 340 "201 Created instance 2" once --journal "$journal"
    else
        try "once, closed $closed" "$start" "$redirections" "$err" 298 "201 Created instance 1" once --journal "$journal"
    fi
    printf 'no request' >"$room/refused"
    input=$room/refused
    try "a refused request, closed $closed" "$start" "$redirections" "$err" 298 "201 Created instance 1" once --journal "$journal"
    try "no command, closed $closed" "$start" "$redirections" 2 298 "201 Created instance 1" never --journal "$journal"
    try "--version, closed $closed" "$start" "$redirections" "$out" 298 "201 Created instance 1" --version
    try "--help, closed $closed" "$start" "$redirections" "$out" 298 "201 Created instance 1" --help
done

# A pipe whose reader is gone, as descriptor 4.
mkfifo "$room/pipe" || exit 1
exec 3<>"$room/pipe" 4>"$room/pipe" 3>&-

# Output to which nothing can be written.
for redirection in '>/dev/full' '>&4'; do
    input=$room/nothing
    try "init, 1$redirection" none "1$redirection" 7 33 "422 Unprocessable Content" init --journal "$journal" --manager 7
    try "init, 2$redirection" none "2$redirection" 0 33 "422 Unprocessable Content" init --journal "$journal" --manager 7
    input=$here/examples/vnfd.json
    try "onboard, 1$redirection" "$room/made" "1$redirection" 7 298 "201 Created instance 1" onboard --journal "$journal"
    try "onboard, 2$redirection" "$room/made" "2$redirection" 0 298 "201 Created instance 1" onboard --journal "$journal"
    input=$request
    try "once, 1$redirection" "$start" "1$redirection" 0 340 "201 Created instance 2" once --journal "$journal"
    try "once, 2$redirection" "$start" "2$redirection" 7 340 "201 Created instance 2" once --journal "$journal"
    input=$room/refused
    try "a refused request, 1$redirection" "$start" "1$redirection" 0 298 "201 Created instance 1" once --journal "$journal"
    try "no command, 1$redirection" "$start" "1$redirection" 2 298 "201 Created instance 1" never --journal "$journal"
    try "--version, 1$redirection" "$start" "1$redirection" 7 298 "201 Created instance 1" --version
done
exec 4>&-

exit "$differs"
