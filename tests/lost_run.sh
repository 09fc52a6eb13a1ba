#!/bin/sh
# A run that is lost is refused: dropped from what is stored, lcm_cases tells that its module isn't whole; dropped from a module of runs, what is
# stored is told as not written there, and the numbers of runs that are stored by hand are others. The toolchain proves and builds lcm_cases.
here=$(cd "$(dirname "$0")/.." && pwd) || exit 1
room=$(mktemp -d) || exit 1
trap 'rm -rf "$room"' EXIT
differs=0
title='options stand in any order'
stored=$here/crates/lcm_cases

# Prints what was seen, and notes where it isn't what is wanted.
expect() { # WHAT SEEN WANTED
    printf '%s: %s\n' "$1" "$2"
    [ "$2" = "$3" ] && return
    printf '  wanted: %s\n' "$3"
    differs=1
}

# What is stored is whole, and without one run it isn't.
python3 -B "$here/tests/runs.py" --check >"$room/told" || { cat "$room/told"; differs=1; }
grep -v "^\[\"$title\"" "$stored/stdin" >"$room/fewer"
expect "lines dropped" "$(($(wc -l <"$stored/stdin") - $(wc -l <"$room/fewer")))" 1
(cd "$stored" && rt run) <"$room/fewer" >"$room/out" 2>&1
expect "without it, status" "$?" 1
grep -q '^runs_commands: .*; its heading has ' "$room/out"
expect "without it, its module isn't whole" "$?" 0

# A tree whose module of runs lost it.
mkdir "$room/tree" && (cd "$here" && tar --exclude=out -cf - crates crates.txt docs tests) | tar xf - -C "$room/tree" || exit 1
python3 - "$room/tree/tests/runs_commands.py" "$title" <<'END' || exit 1
import sys
path, title = sys.argv[1:]
with open(path) as it:
    lines = it.readlines()
kept = [line for line in lines if 'run("%s"' % title not in line]
assert len(kept) == len(lines) - 1
with open(path, "w") as it:
    it.writelines(kept)
END
python3 -B "$room/tree/tests/runs.py" --check >"$room/told"
expect "dropped from its module, --check" "$?" 1
expect "what it tells of the run" "$(grep -c "^runs_commands: stored, but not written here: $title\$" "$room/told")" 1
python3 -B "$room/tree/tests/runs.py"
python3 -B "$room/tree/tests/runs.py" --check >"$room/told"
expect "and written anew, the numbers that are kept by hand" "$(grep -c '^crates/lcm_cases/stdout: ' "$room/told")" 2
exit "$differs"
