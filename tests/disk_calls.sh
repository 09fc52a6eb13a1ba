#!/bin/sh
# The system calls around the journal's file: who may read one that is made; that `init` syncs its folder each time before it
# answers, after a stop and a failed sync too; that the file is locked, then what the kernel holds of it is dropped, and only then
# it is read; how often each command syncs the file and its folder, and writes, and `migrate` both of its files; that a command
# which can't have the lock or drop the pages makes no other call on it; and that no call on it goes to a standard stream. Needs
# strace and python3.
. "$(dirname "$0")/common.sh"

program=$here/.build/vnfm
journal=$room/journal
command -v strace >/dev/null || { echo "disk_calls.sh: there is no strace" >&2; exit 1; }

# The names of the calls that a run makes of these, in order. What the loader does before main isn't meant.
calls() { # CALLS WORD..
    traced=$1
    shift
    strace -o "$room/calls" -e trace="$traced" "$program" "$@" <"$request" >"$room/out" 2>"$room/err"
    sed -n 's/^\([a-z0-9]*\)(.*/\1/p' "$room/calls" | tr '\n' ' ' | sed 's/ $//'
}

# How often a folder is synced before the answer is written.
folder_syncs() {
    calls fsync,write init --journal "$journal" --manager 7
}

# The folder that `init` syncs: what is opened last before the first sync.
synced_folder() { # JOURNAL
    strace -o "$room/calls" -e trace=openat,fsync "$program" init --journal "$1" --manager 7 >"$room/out" 2>"$room/err"
    sed -n 's/^openat(AT_FDCWD, "\(.*\)", .*/\1/p;/^fsync(/q' "$room/calls" | tail -n 1
}

umask 022
expect "init, no file" "$(folder_syncs)" "fsync write"
expect "init, no file, mode" "$(stat -c %a "$journal")" 600
expect "init, no file, answer" "$(cat "$room/out")" "journal made for manager 7"

: >"$journal"
expect "init, an empty file" "$(folder_syncs)" "fsync write"
expect "init, an empty file, answer" "$(cat "$room/out")" "journal made for manager 7"
expect "init, a journal" "$(folder_syncs)" "fsync write write"
expect "init, a journal, answer" "$(cat "$room/out")" "taken"

rm -f "$journal"
strace -o /dev/null -e trace=fsync -e inject=fsync:signal=KILL:when=1 "$program" init --journal "$journal" --manager 7 \
    >/dev/null 2>&1
expect "init that is killed while the folder is synced, bytes" "$(bytes_of "$journal")" 0
expect "init behind it" "$(folder_syncs)" "fsync write"
expect "init behind it, answer" "$(cat "$room/out")" "journal made for manager 7"

rm -f "$journal"
strace -o /dev/null -e trace=fsync -e inject=fsync:error=EIO:when=1 "$program" init --journal "$journal" --manager 7 \
    >"$room/out" 2>&1
expect "init whose sync of the folder fails, status" "$?" 3
expect "init whose sync of the folder fails, answer" "$(head -n 1 "$room/out")" "site fault"
expect "init behind it" "$(folder_syncs)" "fsync write"
expect "init behind it, answer" "$(cat "$room/out")" "journal made for manager 7"

rm -f "$journal"
expect "init, what is synced" "$(synced_folder "$journal")" "$room"
rm -f "$journal"
expect "init, a name alone, what is synced" "$(cd "$room" && synced_folder journal)" .
expect "init, a name alone, bytes are there" "$(test -s "$journal" && echo yes)" yes

# The calls of a run on the journal's file from its opening to its first read, whatever the question for its kind and length is called.
on_journal() { # COMMAND [OPTION VALUE]
    command=$1
    shift
    strace -y -o "$room/calls" -e trace=openat,fstat,newfstatat,statx,flock,fadvise64,pread64,pwrite64,ftruncate,fdatasync \
        "$program" "$command" --journal "$journal" "$@" <"$request" >"$room/out" 2>"$room/err"
    grep -F "$journal" "$room/calls" | sed -n 's/^\([a-z0-9]*\)(.*/\1/p' | sed 's/^\(fstat\|newfstatat\|statx\)$/stat/' | tr '\n' ' '
}

for command in "init --manager 7" onboard once; do
    cp "$start" "$journal"
    # shellcheck disable=SC2086
    expect "$command, calls from the opening on" "$(on_journal $command | cut -d ' ' -f 1-5)" "openat stat flock fadvise64 fdatasync"
    expect "$command, what is dropped" "$(sed -n 's/^fadvise64([0-9]*<.*>, \(.*\))  *= 0$/\1/p' "$room/calls")" \
        "0, 0, POSIX_FADV_DONTNEED"
    expect "$command, reads before the pages are dropped" "$(sed '/^fadvise64/,$d' "$room/calls" | grep -F "$journal" | grep -c "^pread64")" 0
done

# A journal whose records lie in one block is read with its header, and all behind that at once.
cp "$start" "$journal"
on_journal once >"$room/names"
expect "once, reads of the journal" "$(tr ' ' '\n' <"$room/names" | grep -c '^pread64$')" 2

# How often a run syncs the journal's file, its folder and anything else, and writes to the file.
counted() { # COMMAND [OPTION VALUE]
    command=$1
    shift
    strace -y -o "$room/calls" -e trace=fsync,fdatasync,pwrite64,ftruncate "$program" "$command" --journal "$journal" "$@" \
        <"$input" >"$room/out" 2>"$room/err"
    echo "$(grep -c "^fdatasync([0-9]*<$journal>)" "$room/calls") syncs, $(grep -c "^fsync([0-9]*<$room>)" "$room/calls")" \
        "of the folder, $(grep -c "^f[a-z]*sync" "$room/calls") in all, $(grep -c "^pwrite64([0-9]*<$journal>" "$room/calls") writes," \
        "$(grep -c "^ftruncate" "$room/calls") cuts"
}

# An append writes and syncs twice, a load syncs once; the making of a file syncs once, cuts and syncs one that is longer than a byte, and writes and syncs
# three times.
input=/dev/null
rm -f "$journal"
expect "init, no file, counts" "$(counted init --manager 7)" "4 syncs, 1 of the folder, 5 in all, 3 writes, 0 cuts"
expect "init, a journal, counts" "$(counted init --manager 7)" "1 syncs, 1 of the folder, 2 in all, 0 writes, 0 cuts"
expect "once, no request, counts" "$(counted once)" "1 syncs, 0 of the folder, 1 in all, 0 writes, 0 cuts"
printf 'v and more' >"$journal"
expect "init, an unfinished file, counts" "$(counted init --manager 7)" "5 syncs, 1 of the folder, 6 in all, 3 writes, 1 cuts"
expect "init, an unfinished file, answer" "$(cat "$room/out")" "journal made for manager 7"
input=$here/examples/vnfd.json
expect "onboard, counts" "$(counted onboard)" "3 syncs, 0 of the folder, 3 in all, 2 writes, 0 cuts"
input=$request
expect "once, a creation, counts" "$(counted once)" "3 syncs, 0 of the folder, 3 in all, 2 writes, 0 cuts"
input=/dev/null
rm -f "$journal"
expect "once, no file, counts" "$(counted once)" "1 syncs, 1 of the folder, 2 in all, 0 writes, 0 cuts"
expect "once, no file, mode and bytes" "$(stat -c '%a %s' "$journal")" "600 0"
chmod 640 "$journal"
expect "once, an empty file, counts" "$(counted once)" "1 syncs, 0 of the folder, 1 in all, 0 writes, 0 cuts"
expect "once, an empty file, mode and bytes" "$(stat -c '%a %s' "$journal")" "640 0"

# A migration syncs the old file once and writes nothing to it; it makes the new one as `init` does, and syncs that one's folder.
input=/dev/null
rm -f "$journal"
python3 -B "$here/tests/in_format_1.py" "$start" "$journal" || exit 1
on_new() {
    echo "$(grep -c "^fdatasync([0-9]*<$room/new>)" "$room/calls") syncs, $(grep -c "^pwrite64([0-9]*<$room/new>" "$room/calls") writes"
}
expect "migrate, counts" "$(counted migrate --to "$room/new")" "1 syncs, 1 of the folder, 6 in all, 0 writes, 0 cuts"
expect "migrate, counts of the new file" "$(on_new)" "4 syncs, 3 writes"
expect "migrate, mode of the new file" "$(stat -c %a "$room/new")" 600
expect "migrate again, counts" "$(counted migrate --to "$room/new")" "1 syncs, 1 of the folder, 3 in all, 0 writes, 0 cuts"
expect "migrate again, counts of the new file" "$(on_new)" "1 syncs, 0 writes"
printf 'v and more' >"$room/new"
expect "migrate, an unfinished new file, counts" "$(counted migrate --to "$room/new")" \
    "1 syncs, 1 of the folder, 7 in all, 0 writes, 1 cuts"
expect "migrate, an unfinished new file, counts of it" "$(on_new)" "5 syncs, 3 writes"

# A run for which one of these calls fails stops there: it makes no other on the file, and leaves it to the byte.
stopped() { # CALL ERROR
    cp "$start" "$journal"
    strace -y -o "$room/calls" -e inject="$1:error=$2:when=1" -e trace="openat,flock,fadvise64,pread64,pwrite64,ftruncate,fdatasync,fsync" \
        "$program" once --journal "$journal" <"$request" >"$room/out" 2>"$room/err"
    echo "status $?, $(sed 1d "$room/err" | sed 's/^.*": //')," \
        "$(grep -F "$journal" "$room/calls" | sed -n 's/^\([a-z0-9]*\)(.*/\1/p' | tr '\n' ' ')$(cmp "$start" "$journal" 2>&1)"
}

expect "once that can't have the lock" "$(stopped flock EAGAIN)" "status 3, another manager holds its lock, openat flock "
expect "once whose lock fails" "$(stopped flock ENOLCK)" "status 3, a call on it failed; if its disk did, the kernel's log says how, openat flock "
expect "once whose pages can't be dropped" "$(stopped fadvise64 EIO)" "status 3, a call on it failed; if its disk did, the kernel's log says how, openat flock fadvise64 "

cp "$start" "$journal"
strace -o "$room/calls" -e trace=flock,pwrite64,pread64,ftruncate,fdatasync "$program" once --journal "$journal" \
    <"$request" >&- 2>&-
expect "once, output closed, calls on standard streams from the lock on" \
    "$(sed -n '/^flock/,$p' "$room/calls" | grep -cE '^[a-z0-9]+\([012][,)]')" 0
expect "once, output closed, writes" "$(grep -c '^pwrite64(' "$room/calls")" 2

exit "$differs"
