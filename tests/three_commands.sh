#!/bin/sh
# The commands of the README on a real file: a journal is made, a descriptor onboarded, an instance created, and what there is
# counted; and a journal of format 1 is migrated. Each is then tried again, with words too many, and for its help. Standard output
# and standard error are compared apart. Needs python3.
. "$(dirname "$0")/common.sh"

journal=$room/journal
descriptor=$here/examples/vnfd.json

# Runs the program with this input, and looks at its status, the first line of its output, all of its standard error and the
# length of the journal.
try() { # WHAT INPUT STATUS OUTPUT ERRORS BYTES WORD..
    what=$1 input=$2 status=$3 output=$4 errors=$5 bytes=$6
    shift 6
    "$here/vnfm" "$@" <"$input" >"$room/out" 2>"$room/err"
    expect "$what, status" "$?" "$status"
    expect "$what, standard output" "$(tr -d '\r' <"$room/out" | head -n 1)" "$output"
    expect "$what, standard error" "$(cat "$room/err")" "$errors"
    expect "$what, bytes of the journal" "$(bytes_of "$journal")" "$bytes"
}

# What stands on standard error behind the line of words that are no command.
unclear() { # WORD
    printf 'vnfm: "%s" isn'"'"'t understood; vnfm --help says more' "$1"
}

# The same of a value that its option doesn't take.
no_value() { # VALUE OPTION WANTED
    printf 'vnfm: "%s" is no value of %s, which takes %s; vnfm --help says more' "$1" "$2" "$3"
}

usage="usage: vnfm init|onboard|once|serve|check|trial|migrate"
try "init" /dev/null 0 "journal made for manager 7" "" 33 init --journal "$journal" --manager 7
expect "init, lines of standard output" "$(wc -l <"$room/out" | tr -d ' ')" 1
expect "init, the journal" "$(od -An -tx1 -v "$journal" | tr -d ' \n')" \
    564e464d2d4c434d02000000070000000000000000000000000000000000000000
try "init again" /dev/null 11 "taken" \
    "vnfm: \"$journal\": it is a journal already, or no file of this program's; give another path, or move it away" \
    33 init --journal "$journal" --manager 7
try "a creation without a descriptor" "$request" 0 "HTTP/1.1 422 Unprocessable Content" "done after 1 rounds" 33 \
    once --journal "$journal"
expect "a creation without a descriptor, answer" "$(tail -n 1 "$room/out")" '{"detail":"vnfdId is not onboarded","status":422}'
try "onboard nothing" /dev/null 10 "descriptor refused: not JSON" "vnfm: $(no_json 1 0)" 33 \
    onboard --journal "$journal"
try "onboard" "$descriptor" 0 "onboarded vnfd-1: 2 vdus, 1 aspects, 2 levels" "" 298 onboard --journal "$journal"
expect "onboard, lines of standard output" "$(wc -l <"$room/out" | tr -d ' ')" 1
try "onboard again" "$descriptor" 10 "descriptor refused: vnfdId is onboarded" "vnfm: $refused" 298 \
    onboard --journal "$journal"
sed 's/,"default_level":"normal"//' "$descriptor" >"$room/levels.json"
try "onboard without a default level" "$room/levels.json" 10 "descriptor refused: missing default_level" \
    "vnfm: $refused" 298 onboard --journal "$journal"
try "once" "$request" 0 "HTTP/1.1 201 Created" "done after 1 rounds" 340 once --journal "$journal"
expect "once, bytes of the body" "$(sed -n 's/^Content-Length: //p' "$room/out" | tr -d '\r')" 422
try "once again" "$request" 0 "HTTP/1.1 201 Created" "done after 1 rounds" 382 once --journal "$journal"
expect "once again, Location" "$(sed -n 2p "$room/out" | tr -d '\r')" \
    "Location: /vnflcm/v1/vnf_instances/00000007-766d-8001-8000-000000000002"
try "check" "$request" 0 "records 3, instances 2, ongoing 0, subscriptions 0" "" 382 check --journal "$journal"
expect "check, lines of standard output" "$(wc -l <"$room/out" | tr -d ' ')" 1
try "check again" "$request" 0 "records 3, instances 2, ongoing 0, subscriptions 0" "" 382 check --journal "$journal"

# A journal of format 1 with the same records, which takes a gate and a length less for each, is migrated once, and stays.
old=$room/old
new=$room/new
python3 -B "$here/tests/in_format_1.py" "$journal" "$old" && cp "$old" "$room/kept" || exit 1
try "check, of format 1" /dev/null 5 "not a journal: byte 8" "vnfm: \"$old\": $no_journal" 382 check --journal "$old"
try "migrate" "$request" 0 "migrated 3 records" "" 382 migrate --journal "$old" --to "$new"
expect "migrate, lines of standard output" "$(wc -l <"$room/out" | tr -d ' ')" 1
expect "migrate, bytes of both" "$(bytes_of "$old") $(bytes_of "$new")" "370 372"
try "check, of what was migrated" /dev/null 0 "records 3, instances 2, ongoing 0, subscriptions 0" "" 382 check --journal "$new"
cp "$new" "$room/migrated"
try "migrate again" /dev/null 11 "taken" \
    "vnfm: \"$new\": it is not an unfinished journal of the same manager; give another path, or move it away" \
    382 migrate --to "$new" --journal "$old"
expect "migrate again, what differs" "$(cmp "$new" "$room/migrated" 2>&1) $(cmp "$old" "$room/kept" 2>&1)" " "
try "once, over what was migrated" "$request" 0 "HTTP/1.1 201 Created" "done after 1 rounds" 382 once --journal "$new"
expect "once, over what was migrated, bytes" "$(bytes_of "$new")" 414

# Words too many, too few, or not understood: status 2, and the journal stays.
try "check with a word too many" "$request" 2 "$usage" "$(unclear --rounds)" 382 check --journal "$journal" --rounds 1
try "once with a word too many" "$request" 2 "$usage" "$(unclear more)" 382 once --journal "$journal" more
try "onboard with words too many" "$descriptor" 2 "$usage" "$(unclear --manager)" 382 \
    onboard --journal "$journal" --manager 7
try "init with a word too many" /dev/null 2 "$usage" "$(unclear 8)" 382 init --journal "$journal" --manager 7 8
try "migrate with a word too many" /dev/null 2 "$usage" "$(unclear --manager)" 382 \
    migrate --journal "$old" --to "$room/none" --manager 7
try "migrate without a path to migrate to" /dev/null 2 "$usage" "vnfm: --to PATH is missing; vnfm --help says more" 382 \
    migrate --journal "$old"
expect "migrate with words too many or too few, made" "$(ls "$room/none" 2>/dev/null)" ""
try "init without a manager" /dev/null 2 "$usage" "vnfm: --manager N is missing; vnfm --help says more" 382 \
    init --journal "$journal"
try "a manager past the last" /dev/null 2 "$usage" \
    "$(no_value 4294967296 --manager "a number from 0 to 4294967295, in at most 20 digits")" 382 \
    init --journal "$journal" --manager 4294967296
try "no journal named" "$request" 2 "$usage" "vnfm: --journal PATH is missing; vnfm --help says more" 382 once
try "an option for a path" "$request" 2 "$usage" "$(no_value --manager --journal "a word that doesn't begin with -")" 382 \
    once --journal --manager
try "an option twice" "$request" 2 "$usage" 'vnfm: "--rounds" stands twice; vnfm --help says more' 382 \
    once --journal "$journal" --rounds 1 --rounds 1
try "an option joined to its value" "$request" 2 "$usage" "$(unclear --rounds=2)" 382 once --journal "$journal" --rounds=2
try "an option without a value" "$request" 2 "$usage" 'vnfm: "--rounds" has no value; vnfm --help says more' 382 \
    once --journal "$journal" --rounds
try "no round" "$request" 0 "" "done after 0 rounds" 382 once --rounds 0 --journal "$journal"
try "no word" "$request" 2 "$usage" "vnfm: a command is missing; vnfm --help says more" 382
try "a word with a line feed" "$request" 2 "$usage" "$(unclear 'a\nb')" 382 "$(printf 'a\nb')"
try "--help and a word" /dev/null 2 "$usage" "$(unclear --help)" 382 --help once

# The texts, alone and of each command.
try "--version" /dev/null 0 "vnfm 0.1.0" "" 382 --version
try "--help" /dev/null 0 "vnfm: a VNF lifecycle manager after ETSI GS NFV-SOL 003 V2.6.1" "" 382 --help
try "init --help" /dev/null 0 \
    "vnfm init --journal PATH --manager N    make the journal of manager N, from 0 to 4294967295, at PATH" "" 382 init --help
try "onboard --help" /dev/null 0 \
    "vnfm onboard --journal PATH    onboard the descriptor on standard input, a JSON document" "" 382 onboard --help
try "once --help" "$request" 0 \
    "vnfm once --journal PATH [OPTION..]    answer the requests on standard input, and record what they ask for" "" 382 once --help
try "check --help" /dev/null 0 \
    "vnfm check --journal PATH    count what the journal at PATH has, and change nothing" "" 382 check --help
try "migrate --help" /dev/null 0 \
    "vnfm migrate --journal PATH --to PATH    make a journal of the present format of one of format 1" "" 382 migrate --help

# An answer that can't be delivered is recorded all the same.
"$here/vnfm" once --journal "$journal" <"$request" >/dev/full 2>"$room/err"
expect "once, output full, status" "$?" 0
expect "once, output full, standard error" "$(cat "$room/err")" "done after 1 rounds
vnfm: the answer couldn't be delivered; what it says is recorded"
expect "once, output full, bytes of the journal" "$(bytes_of "$journal")" 424

exit "$differs"
