# shellcheck shell=bash
# Runs a program of this repository with the words that it is given and ends with its status. Where it
# is not built, or a source is newer than it, it is proved and built first (prove.sh). The program's
# output, its status and the signals that it gets are its own. Two names of one file are refused, a
# file that is there is replaced only by a whole one, on a terminal long work tells how far it is, and
# beside some refusals stands what was meant (usage.sh).
# Sourced by ./freezer and ./atlas, which have `top`, and `crate`, the program's.

program="$top/crates/$crate/out/$crate"

tell() { echo "$crate: $*" >&2; }

# shellcheck source=build/words.sh
. "$top/build/words.sh"
# shellcheck source=build/usage.sh
. "$top/build/usage.sh"
# An installed program has no sources beside it, and nothing builds it.
is_installed() { [ ! -e "$top/crates.txt" ]; }

# shellcheck source=build/prove.sh
is_installed || . "$top/build/prove.sh"
# shellcheck source=build/beside.sh
. "$top/build/beside.sh"
# shellcheck source=build/watch.sh
. "$top/build/watch.sh"

signals=(HUP INT QUIT TERM USR1 USR2)

# Runs the program below this script, which then moves what it made, or tells how far it is.
run_below() {
    local name
    child="" caught="" half="" status=1
    given=("${words[@]}")
    for name in "${signals[@]}"; do
        # shellcheck disable=SC2064
        trap "hand_on $name" "$name"
    done
    if is_there; then
        begin_beside
        given[makes]=$half
    fi
    SECONDS=0
    # A child in the background would ignore Ctrl-C and read nothing; this one does neither.
    (trap - "${signals[@]}" && exec "$program" "${given[@]}") 0<&0 &
    child=$!
    [ -z "$caught" ] || hand_on "$caught"
    if is_watched; then
        watch_process "$child" "${given[makes]}" &
        wait_for_child
        kill $! 2>/dev/null
        wait $! 2>/dev/null
        end_watch
    else
        wait_for_child
    fi
    [ -z "$half" ] || end_beside "$status" || status=8
    end_as_child
}

hand_on() {
    caught=$1
    [ -z "$child" ] || kill -s "$1" "$child" 2>/dev/null
}

# A signal ends the waiting and not the program, so this waits once more. Where the program ended in
# the same moment bash can lose its status and answers -1 or 127; then that of the signal stays.
wait_for_child() {
    local found
    caught="none yet"
    while [ -n "$caught" ]; do
        caught=""
        wait "$child" 2>/dev/null
        found=$?
        case "$found" in -1 | 127 | 255) return 0 ;; esac
        status=$found
    done
}

# The caller sees the status, or the signal, that ended the program.
end_as_child() {
    trap - "${signals[@]}"
    tell_hint "$status"
    if [ "$status" -gt 128 ]; then
        ulimit -c 0
        kill -s "$((status - 128))" $$
    fi
    exit "$status"
}

# Does all that is to be done for these words.
run_program() {
    words=("$@")
    find_names "$@"
    ! is_same_file || refuse_same_file
    find_hints
    is_installed || is_built || { tell_help && build_once; }
    if [ "${#hints[@]}" -gt 0 ] || is_there || is_watched; then
        run_below
    fi
    exec "$program" "$@"
}
