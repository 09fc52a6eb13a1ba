#!/bin/sh
# Tries the wrong bodies that the gate doesn't: those of tests/wrong_bodies/NAME/ for each crate NAME that is given, or for
# each crate that has some. Each edit has the form of one in must-fail/, and is tried on a copy of the sources, so that
# nothing of this tree changes. What the gate proved on this machine isn't proved again for it, but for the crates whose
# edits are tried, from which each of theirs begins. Ends with 1 where an edit is still proved, or can't be tried. Whoever
# changes the contracts of a crate runs it for that crate.
here=$(cd "$(dirname "$0")/.." && pwd) || exit 1
room=$(mktemp -d) || exit 1
trap 'rm -rf "$room"' EXIT

# The sources alone, without what checks made of them, and without the edits that the gate tries itself.
(cd "$here" && find crates crates.txt HANDLES -name out -prune -o -name must-fail -prune -o -type f -print0 | xargs -0 tar cf -) |
    tar xf - -C "$room" || exit 1

[ $# -gt 0 ] || set -- $(ls "$here/tests/wrong_bodies")
tried=
for name in "$@"; do
    if [ ! -d "$here/crates/$name" ]; then
        echo "wrong_bodies.sh: there is no crate $name" >&2
        exit 1
    fi
    if [ ! -d "$here/tests/wrong_bodies/$name" ]; then
        echo "$name: has no wrong bodies beside those that the gate tries"
        continue
    fi
    cp -R "$here/tests/wrong_bodies/$name" "$room/crates/$name/must-fail" || exit 1
    tried="$tried $name"
done
[ -n "$tried" ] || exit 0
cd "$room" || exit 1
{
    rt ci $tried 2>&1
    echo $? >status
} | tee told
# (a toolchain whose `rt ci` takes no names tells that alone, and tries the edits by a command of their own, over libraries that it proves once more)
if ! tail -n 1 told | grep -q '^[0-9]* passed, [0-9]* failed'; then
    {
        rt must-fail $tried 2>&1
        echo $? >status
    } | tee told
fi
# (an edit that can't be applied or read counts for nothing there, and fails nothing)
! grep -q "BAD EDIT" told && [ "$(cat status)" = 0 ]
