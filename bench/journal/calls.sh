#!/bin/sh
# Counts the system calls of one creation, and of ten creations more on one connection: an append makes two writes and two syncs, and a load one
# sync. It needs strace.
#
# usage: bench/journal/calls.sh [VNFM]     from the top; without VNFM it is what the crate's own build left
set -eu
vnfm=${1:-crates/vnfm/out/vnfm}
room=$(mktemp -d)
trap 'rm -rf "$room"' EXIT

# How often a call stands in a count of calls.
count() { # FILE CALL
    awk -v call="$2" '$NF == call { calls = $4 } END { print calls + 0 }' "$1"
}

"$vnfm" init --journal "$room/one" --manager 7 >/dev/null
"$vnfm" onboard --journal "$room/one" <examples/vnfd.json >/dev/null
cp "$room/one" "$room/more"
for _ in 1 2 3 4 5 6 7 8 9 10 11; do cat examples/create.http; done >"$room/requests"
strace -c -o "$room/post" "$vnfm" once --journal "$room/one" <examples/create.http >"$room/answer" 2>/dev/null
head -n 1 "$room/answer"
strace -c -o "$room/posts" "$vnfm" once --journal "$room/more" <"$room/requests" >"$room/answer" 2>/dev/null
grep -a -o '^HTTP/1.1 201\|}HTTP/1.1 201' "$room/answer" | wc -l

echo "| Calls | One POST, with its load | Ten POSTs more |"
echo "|---|---|---|"
for call in pwrite64 fdatasync pread64 read write mmap brk; do
    echo "| $call | $(count "$room/post" "$call") | $(($(count "$room/posts" "$call") - $(count "$room/post" "$call"))) |"
done
