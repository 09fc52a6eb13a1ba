#!/bin/sh
# Journals that can't be had: a read-only file, a folder, a pipe, a socket, a device, and a path in a folder that isn't there or
# that nothing may be made in end with status 3 and `site fault`, and standard error says why. What stands there stays as it is, and
# nothing is made. A path that isn't there ends with 5 and `no journal`, and an empty file is left. Needs python3.
. "$(dirname "$0")/common.sh"

# Root may write to a read-only file, so as root the program runs as nobody.
as=
if [ "$(id -u)" = 0 ]; then
    as="setpriv --reuid=65534 --regid=65534 --clear-groups"
    $as true || exit 1
fi

# The program is copied to where nobody may reach it.
chmod 755 "$room"
cp "$here/.build/vnfm" "$room/vnfm" && chmod 755 "$room/vnfm" || exit 1
mkdir -m 777 "$room/files" || exit 1
files=$room/files

# What stands at a path: its kind, its mode, its length and when it was last changed.
standing() { # PATH
    stat -c '%F, mode %a, %s bytes, %Y %Z' "$1" 2>&1
}

# Runs the program on a path, and looks at its status, its line, why, and that it answered nothing.
try() { # WHAT PATH STATUS LINE WHY
    # shellcheck disable=SC2086
    $as "$room/vnfm" once --journal "$2" <"$request" >"$room/out" 2>"$room/err"
    expect "$1, status" "$?" "$3"
    expect "$1, line" "$(head -n 1 "$room/err")" "$4"
    expect "$1, why" "$(sed 1d "$room/err")" "vnfm: \"$2\": $5"
    expect "$1, answer" "$(cat "$room/out")" ""
}

# The same for each command, of a path that can't be had; and that what stands there, or that nothing does, stays.
lost() { # WHAT PATH WHY
    before=$(standing "$2")
    try "$1" "$2" 3 "site fault" "$3"
    for command in "init --manager 7" onboard; do
        # shellcheck disable=SC2086
        $as "$room/vnfm" $command --journal "$2" <"$here/examples/vnfd.json" >"$room/out" 2>"$room/err"
        expect "$1, $command" "status $?, $(cat "$room/out"), $(cat "$room/err")" "status 3, site fault, vnfm: \"$2\": $3"
    done
    expect "$1, left" "$(standing "$2")" "$before"
}

cp "$start" "$files/read_only"
chmod 444 "$files/read_only"
lost "a read-only file" "$files/read_only" "there is no permission to read and write it"
expect "a read-only file, bytes that differ" "$(cmp "$start" "$files/read_only" 2>&1)" ""

mkdir "$files/folder"
lost "a folder" "$files/folder" "it is not a regular file"

mkfifo -m 666 "$files/pipe"
lost "a pipe" "$files/pipe" "it is not a regular file"

python3 -c 'import socket, sys; socket.socket(socket.AF_UNIX).bind(sys.argv[1])' "$files/socket" || exit 1
chmod 666 "$files/socket"
lost "a socket" "$files/socket" "a call on it failed; if its disk did, the kernel's log says how"

lost "a device" /dev/null "it is not a regular file"

lost "a path in a folder that isn't there" "$files/none/journal" "there is no such folder"
expect "a path in a folder that isn't there, made" "$(ls -d "$files/none" 2>/dev/null)" ""

mkdir -m 755 "$files/closed"
lost "a path where nothing may be made" "$files/closed/journal" "there is no permission to read and write it"
expect "a path where nothing may be made, made" "$(ls "$files/closed")" ""

lost "a path behind a file" "$files/read_only/journal" "there is no such folder"

try "a path that isn't there" "$files/new" 5 "no journal" "$no_journal"
expect "a path that isn't there, bytes left" "$(bytes_of "$files/new")" 0

exit "$differs"
