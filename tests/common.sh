# What the scripts of this folder share. Each runs the program, prints what it saw, and ends with 1 where that differs
# from what is wanted.
here=$(cd "$(dirname "$0")/.." && pwd) || exit 1
request=$here/examples/create.http
room=$(mktemp -d) || exit 1
trap 'rm -rf "$room"' EXIT
differs=0

# What stands on standard error where a descriptor is refused, and where it is no JSON from this line and column on.
json="no byte order mark may stand in front, and YAML isn't read, of which JSON is made by \
python3 -c 'import json, sys, yaml; json.dump(yaml.safe_load(sys.stdin), sys.stdout, default=str)'"
refused="the descriptor is not taken"
no_json() { # LINE COLUMN
    echo "the descriptor is not taken: it is no JSON from line $1, column $2 on; $json"
}

# What stands there of a file that is no journal.
no_journal="it is not a journal that init has finished; one of format 1, whose header differs first at byte 8, is carried over \
by vnfm migrate --journal PATH --to NEWPATH"

# Prints what was seen, and notes where it isn't what is wanted.
expect() { # WHAT SEEN WANTED
    printf '%s: %s\n' "$1" "$2"
    [ "$2" = "$3" ] && return
    printf '  wanted: %s\n' "$3"
    differs=1
}

# The length of a file in bytes.
bytes_of() { # FILE
    wc -c <"$1" | tr -d ' '
}

# The program is built before anything is looked at.
"$here/vnfm" --version || exit 1

# A journal of manager 7 in which the descriptor of the examples was onboarded, as the program makes it.
start=$room/start
"$here/vnfm" init --journal "$start" --manager 7 >/dev/null || exit 1
"$here/vnfm" onboard --journal "$start" <"$here/examples/vnfd.json" >/dev/null || exit 1
