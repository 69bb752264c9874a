#!/usr/bin/env bash
# Does the work of one rule (rules.awk): proves a crate, or builds the program over what is proved.
# Two checks that stand on one crate would wait for each other in the repository's folders, so each has a
# folder of its own, into which all below is linked. What was proved goes back, also where it is cut off.
# build/check.sh PROGRAM COUNT CRATE JOBS BELOW .., at the top of the repository
set -u
program=$1 count=$2 crate=$3 jobs=$4
room=out/rooms/$crate
out=crates/$crate/out
stamp=$out/rlib/stamp
words=(lib --jobs "$jobs")
if [ "$crate" = "$program" ]; then
    stamp=$out/$program.stamp words=(run)
fi

tell() { echo "$program: $*" >&2; }

exec 2>&3

make_room() {
    local name
    mkdir -p "$room/crates"
    cp HANDLES "$room"
    for name in "$@"; do
        grep "^$name:" crates.txt >> "$room/crates.txt"
        cp -al "crates/$name" "$room/crates/"
    done
}

# The program's own run ends with its status for no words, so what counts there is that it began.
is_proved() {
    local status
    (cd "$room/crates/$crate" && exec rt "${words[@]}") </dev/null >"$room/log" 2>&1 &
    check=$!
    wait "$check"
    status=$? check=""
    [ "$status" -eq 0 ] || { [ "$crate" = "$program" ] && grep -q '^rt: running ' "$room/log"; }
}

# shellcheck disable=SC2317 # the trap calls it
clear_room() {
    trap '' HUP INT TERM
    [ -z "$check" ] || kill "$check" 2>/dev/null
    wait
    if [ -d "$room/$out" ]; then
        rm -rf "$out"
        mv "$room/$out" "$out"
    fi
    rm -rf "$room"
}

check=""
trap clear_room EXIT
trap 'exit 143' HUP INT TERM
make_room "$crate" "${@:5}"
if ! is_proved; then
    cat "$room/log" >&2
    tell "crate $crate was not proved"
    exit 1
fi
# A source that changes from now on is newer than this; and what was not changed needs no second look.
touch -c -r "$room/crates.txt" "$room/$stamp"
# The work with which a second check could begin is more than half of all, and no crate above needs it.
[ -n "${FREEZER_KEEP+set}" ] || rm -rf "$room/$out/incremental"
echo "$crate" >> out/rooms/proved
tell "$(grep -nx "$crate" out/rooms/proved | cut -d : -f 1) of $count: $crate, $SECONDS s"
