#!/bin/sh
# trials.sh [PROGRAM]: plays trials of 2,000 steps from several starts, each twice, and compares their lines with the model's of tests/trials.py.
cd "$(dirname "$0")/.." || exit 1
program=${1:-./vnfm}
wrong=0
for start in 0 1 2 7 18446744073709551615; do
    wanted=$(python3 tests/trials.py "$start" 2000)
    for again in 1 2; do
        came=$("$program" trial --start "$start" --count 2000)
        status=$?
        if [ "$status" != 0 ] || [ "$came" != "$wanted" ]; then
            wrong=$((wrong + 1))
            printf 'trials.sh: start %s, run %s: status %s\n  wanted: %s\n  came: %s\n' "$start" "$again" "$status" "$wanted" "$came"
        fi
    done
    printf 'start %s: %s\n' "$start" "$(printf '%s' "$wanted" | tr '\n' ';')"
done
[ "$wrong" = 0 ]
