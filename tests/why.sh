#!/bin/sh
# What the program says of each mistake, made by hand: words that are no command, a journal that can't be had or written, or
# migrated, a descriptor that isn't JSON. Each has a line of its own on standard error, behind the line of its status. As root it
# also fills file systems of its own (tmpfs), mounts one read-only and hides /dev/null; else that is skipped, which it
# says. Needs python3, and its yaml for the advice on YAML.
. "$(dirname "$0")/common.sh"

program=$here/.build/vnfm
more="; vnfm --help says more"
usage="usage: vnfm init|onboard|once|serve|check|trial|migrate"
number="a number from 0 to 4294967295, in at most 20 digits"

# Runs the program, and looks at its status, its line and what stands on standard error behind it.
try() { # WHAT INPUT STATUS LINE WHY WORD..
    what=$1 input=$2 status=$3 line=$4 why=$5
    shift 5
    "$program" "$@" <"$input" >"$room/out" 2>"$room/err"
    expect "$what" "status $?, $(cat "$room/out" "$room/err")" "status $status, $line
vnfm: $why"
}

# Words that are no command, and what is wrong with them.
wrong() { # WHAT WHY WORD..
    what=$1 why=$2
    shift 2
    try "$what" /dev/null 2 "$usage" "$why" "$@"
}

# ---- Words

at="--journal $room/none"
# shellcheck disable=SC2086
{
    wrong "no word" "a command is missing$more"
    wrong "a word that isn't UTF-8" "a word isn't UTF-8, so none of them counts$more" once --journal "$(printf 'j\377')"
    wrong "a command that is none" "\"archive\" isn't understood$more" archive $at
    wrong "an option twice" "\"--rounds\" stands twice$more" once $at --rounds 1 --rounds 2
    wrong "an option of another command" "\"--manager\" isn't understood$more" once $at --manager 7
    wrong "an option without a value" "\"--rounds\" has no value$more" once $at --rounds
    wrong "a number past the last" "\"4294967296\" is no value of --rounds, which takes $number$more" once $at --rounds 4294967296
    wrong "a number below 0" "\"-1\" is no value of --manager, which takes $number$more" init $at --manager -1
    wrong "a number of 21 digits" "\"000000000000000000007\" is no value of --manager, which takes $number$more" \
        init $at --manager 000000000000000000007
    wrong "a role in capitals" "\"EM\" is no value of --role, which takes orchestrator or em$more" once $at --role EM
    wrong "a path that begins with -" "\"-j\" is no value of --journal, which takes a word that doesn't begin with -$more" \
        once --journal -j
    wrong "no journal" "--journal PATH is missing$more" once
    wrong "no manager" "--manager N is missing$more" init $at
    wrong "no path to migrate to" "--to PATH is missing$more" migrate $at
    wrong "no start" "--start N is missing$more" trial
    wrong "too many steps" "\"2001\" is no value of --count, which takes a number from 0 to 2000, in at most 20 digits$more" \
        trial --start 1 --count 2001
    wrong "no address for the orchestrator" "--listen ADDR is missing$more" serve $at --em-listen 127.0.0.1:1
    wrong "no address for the element manager" "--em-listen ADDR is missing$more" serve $at --listen 127.0.0.1:1
    wrong "an address that only serve has" "\"--listen\" isn't understood$more" once $at --listen 127.0.0.1:1
    wrong "a role of serve" "\"--role\" isn't understood$more" serve $at --role em
}

# ---- Journals

# The journal at this path can't be had, or a call on it fails: `init`, and the same of `once` with its line on standard
# error.
lost() { # WHAT PATH WHY
    try "init, $1" /dev/null 3 "site fault" "\"$2\": $3" init --journal "$2" --manager 7
    try "once, $1" "$request" 3 "site fault" "\"$2\": $3" once --journal "$2"
}

lost "an empty path" "" "the path is empty"
lost "a folder that isn't there" "$room/none/journal" "there is no such folder"
lost "a folder" "$room" "it is not a regular file"
ln -s second "$room/first" && ln -s first "$room/second" || exit 1
lost "a loop of links" "$room/first" "its symbolic links form a loop, or are too many"
ln -s nothing/at/all "$room/dangling" || exit 1
lost "a link into a folder that isn't there" "$room/dangling" "it is a symbolic link to nothing, or was made just now by another"
ln -s nothing "$room/to_nothing" || exit 1
lost "a link to nothing" "$room/to_nothing" "it is a symbolic link to nothing, or was made just now by another"
# A path of which nothing is printed but what is said of it.
too_long() { # WHAT PATH
    "$program" init --journal "$2" --manager 7 </dev/null >"$room/out" 2>"$room/err"
    expect "$1" "status $?, $(cat "$room/out"), $(sed 's/^vnfm: "[^"]*": //' "$room/err")" \
        "status 3, site fault, a name in the path, or all of it, is too long"
}

too_long "a name that is too long" "$room/$(printf '%0256d' 0)"
too_long "a path that is too long" "$room$(printf '/%0200d' 0 0 0 0 0 0 0 0 0 0 0 0 0 0 0 0 0 0 0 0 0)"

# A limit on the size of files ends the process by a signal, and where that is ignored the write fails. What is printed goes
# through a pipe, since the limit holds of this script's own files too.
(ulimit -f 0 && exec "$program" init --journal "$room/limited" --manager 7) >/dev/null 2>&1
expect "a limit on the size of files" "status $?" "status 153"
rm -f "$room/limited"
seen=$( (trap '' XFSZ && ulimit -f 0 && "$program" init --journal "$room/limited" --manager 7 && echo done) 2>&1 | cat)
expect "a limit on the size of files, without its signal" "$seen" "site fault
vnfm: \"$room/limited\": it would be larger than a file may be"

# A journal of format 1, the path that it goes to, and what else may stand at either.
old=$room/old
python3 -B "$here/tests/in_format_1.py" "$start" "$old" || exit 1
move() { # WHAT STATUS LINE WHY OLD NEW
    try "migrate, $1" /dev/null "$2" "$3" "$4" migrate --journal "$5" --to "$6"
}

lacks="no journal of format 1 stands there"
try "check, of format 1" /dev/null 5 "not a journal: byte 8" "\"$old\": $no_journal" check --journal "$old"
move "an empty new path" 3 "site fault" "\"\": the path is empty" "$old" ""
move "a new path in a folder that isn't there" 3 "site fault" "\"$room/none/new\": there is no such folder" "$old" "$room/none/new"
move "a folder" 3 "site fault" "\"$room\": it is not a regular file" "$old" "$room"
move "a link to nothing" 3 "site fault" "\"$room/to_nothing\": it is a symbolic link to nothing, or was made just now by another" \
    "$old" "$room/to_nothing"
move "one file for both" 3 "site fault" "\"$old\": another manager holds its lock" "$old" "$old"
move "an old path in a folder that isn't there" 3 "site fault" "\"$room/none/old\": there is no such folder" "$room/none/old" "$room/unused"
move "an old path where nothing is" 5 "no journal" "\"$room/absent\": $lacks" "$room/absent" "$room/unused"
move "a journal of the present format" 5 "not a journal: byte 8" "\"$start\": $lacks" "$start" "$room/unused"
move "a new file that is a journal" 11 "taken" \
    "\"$start\": it is not an unfinished journal of the same manager; give another path, or move it away" "$old" "$start"
head -c -1 <"$old" >"$room/cut" || exit 1
move "an old file without its closed gate" 8 "bad record 2" "\"$room/cut\": it has a record that is broken or isn't allowed there" \
    "$room/cut" "$room/unused"

# File systems of this script's own.
mkdir "$room/full" "$room/inodes" "$room/sealed" || exit 1
if [ "$(id -u)" = 0 ] && mount -t tmpfs -o size=4k tmpfs "$room/full" 2>/dev/null; then
    trap 'umount "$room/full" "$room/inodes" "$room/sealed" 2>/dev/null; rm -rf "$room"' EXIT
    head -c 4096 /dev/zero >"$room/full/filler"
    try "init, no space" /dev/null 3 "site fault" "\"$room/full/journal\": its file system has no space left, or no inode" \
        init --journal "$room/full/journal" --manager 7
    mount -t tmpfs -o nr_inodes=1 tmpfs "$room/inodes" || exit 1
    try "init, no inode" /dev/null 3 "site fault" "\"$room/inodes/journal\": its file system has no space left, or no inode" \
        init --journal "$room/inodes/journal" --manager 7
    mount -t tmpfs tmpfs "$room/sealed" && cp "$start" "$room/sealed/journal" && mount -o remount,ro "$room/sealed" || exit 1
    lost "a read-only file system" "$room/sealed/journal" "its file system is read-only"
    lost "a new file on a read-only file system" "$room/sealed/new" "its file system is read-only"
    unshare -m sh -c 'mount -t tmpfs tmpfs /dev && exec "$0" "$@"' "$program" init --journal "$room/none" --manager 7 \
        </dev/null >"$room/out" 2>"$room/err"
    expect "no /dev/null" "status $?, $(cat "$room/out" "$room/err")" "status 3, site fault
vnfm: /dev/null couldn't be opened, which holds the places of closed standard streams"
else
    echo "skipped: a full file system, one without inodes, a read-only one, and no /dev/null, which need root and mount"
fi

# ---- A journal that is touched while it is served

free_port() {
    python3 -c 'import socket; it = socket.socket(); it.bind(("127.0.0.1", 0)); print(it.getsockname()[1])'
}

# Serves a copy of the journal, has something done to it, and asks for an instance: the answer, the status, and the line.
touched() { # WHAT WHY COMMAND..
    what=$1 why=$2
    shift 2
    mkdir "$room/served" && cp "$start" "$room/served/journal" || exit 1
    door=$(free_port) em_door=$(free_port)
    "$program" serve --journal "$room/served/journal" --listen "127.0.0.1:$door" --em-listen "127.0.0.1:$em_door" \
        >"$room/out" 2>"$room/err" </dev/null &
    manager=$! tries=0
    while [ "$tries" -lt 500 ] && ! grep -q listening "$room/err"; do
        tries=$((tries + 1))
        sleep 0.02
    done
    before=$(bytes_of "$room/served/journal")
    (cd "$room/served" && "$@") || exit 1
    code=$(curl -s -o "$room/answer" -w '%{http_code}' -X POST -H 'Content-Type: application/json' \
        --data '{"vnfdId":"vnfd-1"}' "http://127.0.0.1:$door/vnflcm/v1/vnf_instances")
    wait "$manager"
    expect "serve, $what" "$code, status $?, $(cat "$room/out"), $(tail -n 1 "$room/err")" \
        "500, status 3, site fault, vnfm: \"$room/served/journal\": $why"
    expect "  its bytes elsewhere" "$(for file in "$room/served"/*.aside; do [ ! -e "$file" ] || bytes_of "$file"; done)" \
        "$([ ! -e "$room/served/journal.aside" ] || echo "$before")"
    rm -rf "$room/served"
}

touched "a journal that is removed" "it was removed while the program had it open" rm journal
touched "a journal that is moved away" "nothing stands there any more; it was moved while the program had it open" \
    mv journal journal.aside
touched "a journal that another replaces" \
    "another file stands there; it was moved or removed while the program had it open" \
    sh -c 'cp journal copy && mv copy journal'
touched "a journal that is moved away, and made anew" \
    "another file stands there; it was moved or removed while the program had it open" \
    sh -c 'mv journal journal.aside && cp journal.aside journal'
touched "a journal that is cut" "it is shorter than it was; another program cut it" sh -c ': >journal'
mkdir "$room/beside" && cp "$start" "$room/beside/journal" && ln "$room/beside/journal" "$room/beside/second" || exit 1
ln -s journal "$room/beside/link" || exit 1
"$program" once --journal "$room/beside/link" <"$request" >"$room/out" 2>"$room/err"
expect "once, a second name and a link" "status $?, $(head -n 1 "$room/out" | tr -d '\r')" "status 0, HTTP/1.1 201 Created"

# ---- Descriptors

"$program" init --journal "$room/made" --manager 7 >/dev/null || exit 1
{ printf '\357\273\277' && cat "$here/examples/vnfd.json"; } >"$room/marked.json"
try "a byte order mark" "$room/marked.json" 10 "descriptor refused: not JSON" "$(no_json 1 1)" onboard --journal "$room/made"
sed 's/"VDU_B":/VDU_B:/' <"$here/examples/vnfd.json" >"$room/unquoted.json"
try "a name without quotes" "$room/unquoted.json" 10 "descriptor refused: not JSON" "$(no_json 4 1)" onboard --journal "$room/made"
head -c 100 <"$here/examples/vnfd.json" >"$room/cut.json"
try "a document that is cut short" "$room/cut.json" 10 "descriptor refused: not JSON" "$(no_json 2 7)" onboard --journal "$room/made"
if python3 -c 'import yaml' 2>/dev/null; then
    python3 -c 'import json, sys, yaml; yaml.safe_dump(json.load(sys.stdin), sys.stdout)' <"$here/examples/vnfd.json" \
        >"$room/vnfd.yaml"
    try "YAML" "$room/vnfd.yaml" 10 "descriptor refused: not JSON" "$(no_json 1 1)" onboard --journal "$room/made"
    # The command of the advice, as a person copies it.
    convert=$(sed -n 's/^.*JSON is made by //p' "$room/err")
    eval "$convert" <"$room/vnfd.yaml" >"$room/converted.json"
    "$program" onboard --journal "$room/made" <"$room/converted.json" >"$room/out" 2>"$room/err"
    expect "YAML, converted as it is said" "status $?, $(cat "$room/out" "$room/err")" \
        "status 0, onboarded vnfd-1: 2 vdus, 1 aspects, 2 levels"
else
    echo "skipped: YAML, which needs the yaml of python3"
fi

exit "$differs"
