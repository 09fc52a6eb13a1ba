#!/bin/sh
# Each allocation of a run failing in turn: the run ends with 6 and `no memory`, or the request is told 503, in both of which
# the journal is as it was, but for the acts of a turn and the deliveries before the one that found none; or whoever asked does
# without, and the run ends as if nothing had failed. Needs a C compiler, for a library that stands between the program and the allocator;
# and rt, for a test.
. "$(dirname "$0")/common.sh"

cat >"$room/fail.c" <<'END'
#include <errno.h>
#include <fcntl.h>
#include <stdlib.h>
#include <unistd.h>

extern void *__libc_malloc(size_t), *__libc_calloc(size_t, size_t), *__libc_realloc(void *, size_t);
extern void *__libc_memalign(size_t, size_t);
static long calls, failing;

/* Whether this allocation is the one that fails. A file tells that there was one. */
static int fails(void) {
    int told;
    if (!failing) failing = atol(getenv("FAIL_AT"));
    if (++calls != failing) return 0;
    told = creat(getenv("FAIL_TOLD"), 0600);
    if (told >= 0) close(told);
    errno = ENOMEM;
    return 1;
}

void *malloc(size_t size) { return fails() ? 0 : __libc_malloc(size); }
void *calloc(size_t count, size_t size) { return fails() ? 0 : __libc_calloc(count, size); }
void *realloc(void *old, size_t size) { return fails() ? 0 : __libc_realloc(old, size); }
void *aligned_alloc(size_t align, size_t size) { return fails() ? 0 : __libc_memalign(align, size); }
int posix_memalign(void **to, size_t align, size_t size) {
    if (fails()) return ENOMEM;
    *to = __libc_memalign(align, size);
    return *to ? 0 : ENOMEM;
}
END
cc -shared -fPIC -O1 -o "$room/fail.so" "$room/fail.c" || exit 1

# What a command does in which this allocation fails: its status, its line, the status line of its answer, the length of the
# journal, which begins as a copy of another, and that of the file to which it is migrated, where there is one.
run_failing() { # NUMBER JOURNAL INPUT COMMAND [OPTION VALUE]
    number=$1
    cp "$2" "$room/journal"
    rm -f "$room/failed" "$room/new"
    input=$3
    shift 3
    command=$1
    shift
    FAIL_AT=$number FAIL_TOLD=$room/failed LD_PRELOAD=$room/fail.so "$here/.build/vnfm" "$command" --journal "$room/journal" "$@" \
        <"$input" >"$room/out" 2>"$room/err"
    echo "status $?, $(cat "$room/err" "$room/out" | tr -d '\r' | grep -E '^(HTTP|done|no memory|journal made|onboarded|migrated)' | sort | tr '\n' ',')" \
        "$(bytes_of "$room/journal") bytes$([ -e "$room/new" ] && echo ", $(bytes_of "$room/new") in the new file")"
}

# Fails each allocation of a command in turn, until it has no more: each time the run is as if none had failed, or is one of
# those that found no memory, a line each.
fail_each() { # WHAT DONE STARVED JOURNAL INPUT COMMAND [OPTION VALUE]
    what=$1
    done=$2
    starved=$3
    shift 3
    count=1
    spared=0
    while seen=$(run_failing "$count" "$@"); [ -e "$room/failed" ] && [ "$count" -lt 10000 ]; do
        if [ "$seen" = "$done" ]; then
            spared=$((spared + 1))
        elif ! echo "$starved" | grep -Fxq -e "$seen"; then
            expect "$what, allocation $count" "$seen" "$starved"
        fi
        count=$((count + 1))
    done
    expect "$what, behind the last allocation" "$seen" "$done"
    echo "$what, allocations that failed in turn: $((count - 1)), done without: $spared"
    [ "$((count - 1))" -gt "$spared" ] || differs=1
}

: >"$room/empty"
"$here/vnfm" init --journal "$room/made" --manager 7 >/dev/null || exit 1
fail_each init "status 0, journal made for manager 7, 33 bytes" "status 6, no memory, 0 bytes" \
    "$room/empty" /dev/null init --manager 7
fail_each onboard "status 0, onboarded vnfd-1: 2 vdus, 1 aspects, 2 levels, 298 bytes" "status 6, no memory, 33 bytes" \
    "$room/made" "$here/examples/vnfd.json" onboard
fail_each once "status 0, HTTP/1.1 201 Created,done after 1 rounds, 340 bytes" "status 6, no memory, 298 bytes
status 0, HTTP/1.1 503 Service Unavailable,done after 1 rounds, 298 bytes" "$start" "$request" once

# All of the new file is made in memory before it is written.
python3 -B "$here/tests/in_format_1.py" "$start" "$room/old" || exit 1
fail_each migrate "status 0, migrated 1 records, 294 bytes, 298 in the new file" "status 6, no memory, 294 bytes
status 6, no memory, 294 bytes, 0 in the new file" "$room/old" /dev/null migrate --to "$room/new"

# Turns of two acts, each of which records 27 bytes: tries that reach no orchestrator, and behind the fifth the moves to
# ROLLED_BACK. A turn is made behind each request, so the first instance is one try ahead. The input is a connection without
# a request, which is told 503 where there is no memory to read it; the turn behind it is made.
cp "$start" "$room/asked"
once() { # [OPTION VALUE]
    "$here/vnfm" once --journal "$room/asked" "$@" >/dev/null 2>&1
}
once <"$request"
once <"$request"
for number in 1 2; do sed "s/000000000001/00000000000$number/" "$here/examples/instantiate.http" | once; done
turn() { # WHAT
    begun=$(bytes_of "$room/asked")
    fail_each "$1" "status 0, done after 1 rounds, $((begun + 54)) bytes" "status 6, no memory, $begun bytes
status 6, no memory, $((begun + 27)) bytes
status 0, HTTP/1.1 503 Service Unavailable,done after 1 rounds, $((begun + 54)) bytes" "$room/asked" /dev/null once
}
turn "a turn of two tries"

# A cancel of the first, which records 27 bytes, and the turn behind it: a move to ROLLED_BACK and a try.
begun=$(bytes_of "$room/asked")
fail_each "a cancel, and the turn behind it" "status 0, HTTP/1.1 202 Accepted,done after 1 rounds, $((begun + 81)) bytes" "status 6, no memory, $begun bytes
status 0, HTTP/1.1 503 Service Unavailable,done after 1 rounds, $((begun + 54)) bytes
status 6, HTTP/1.1 202 Accepted,no memory, $((begun + 27)) bytes
status 6, HTTP/1.1 202 Accepted,no memory, $((begun + 54)) bytes" "$room/asked" "$here/examples/cancel.http" once

once --rounds 3 </dev/null
turn "a turn of a move and a try"

# A delivery of a notice that nobody takes, which records 35 bytes.
cp "$start" "$room/asked"
body='{"callbackUri":"http://127.0.0.1:1/n"}'
printf 'POST /vnflcm/v1/subscriptions HTTP/1.1\r\nContent-Length: %s\r\n\r\n%s' "${#body}" "$body" >"$room/subscribe"
once <"$room/subscribe"
once <"$request"
begun=$(bytes_of "$room/asked")
fail_each "a delivery" "status 0, done after 1 rounds, $((begun + 35)) bytes" "status 6, no memory, $begun bytes
status 0, HTTP/1.1 503 Service Unavailable,done after 1 rounds, $((begun + 35)) bytes" "$room/asked" /dev/null once

# A turn of two grants, which the program doesn't reach yet, and deliveries to two receivers that take what they are told:
# lcm_cases plays them over the objects in memory. Where an allocation of what it reads or plays the run with fails, it says
# that there was no memory; else the run comes out as it is to. The toolchain proves and builds it.
whole="alone: 1 runs, 0 wrong
1 runs, 0 wrong"
play_each() { # WHAT TITLE
    python3 -B "$here/tests/runs.py" "$2" >"$room/run" || exit 1
    (cd "$here/crates/lcm_cases" && exec rt run) <"$room/run" >"$room/out" 2>&1 || { cat "$room/out" >&2; exit 1; }
    count=1
    played=0
    while rm -f "$room/failed"
        FAIL_AT=$count FAIL_TOLD=$room/failed LD_PRELOAD=$room/fail.so "$here/crates/lcm_cases/out/lcm_cases" <"$room/run" \
            >"$room/out" 2>&1
        status=$?
        [ -e "$room/failed" ] && [ "$count" -lt 10000 ]; do
        case "$status, $(cat "$room/out")" in
        "0, $whole") played=$((played + 1)) ;;
        *"an act is no memory"*) ;;
        *"a line is no JSON"* | *"a text is spelled as one"* | *memory*) ;;
        *) expect "$1, allocation $count" "status $status, $(cat "$room/out")" "$whole" ;;
        esac
        count=$((count + 1))
    done
    expect "$1, behind the last allocation" "$(cat "$room/out")" "$whole"
    echo "$1, allocations that failed in turn: $((count - 1)), of which the run was played behind $played"
    [ "$played" -gt 0 ] || differs=1
}
play_each "a turn of two grants" "the acts before one that is out of memory stand"
play_each "two deliveries" "no notice is posted where there is no memory to record it"

exit "$differs"
