# shellcheck shell=bash
# Proves and builds the program by make, with the rules that rules.awk prints: each crate by a check of its
# own, side by side. Sourced by build/program.sh, which has `top`, `crate`, `program` and `tell`. What happens
# is told on standard error, and what was proved is kept, so that a build that was cut off goes on from there.

# shellcheck source=build/machine.sh
. "$top/build/machine.sh"

most_left=$((4 * 1000 ** 3 / 1024)) # kilobytes in crates/*/out when the program is built

is_built() {
    [ -x "$program" ] && [ -z "$(find "$top/crates.txt" "$top"/crates/*/src -newer "$program" -print -quit)" ]
}

# One build at a time in this folder; another call waits, and then finds the program.
build_once() {
    check_machine kit make folder memory disk || exit 1
    rooms="" child=""
    trap 'end_build 129' HUP
    trap 'end_build 130' INT
    trap 'end_build 143' TERM
    exec 9<"$top/crates.txt"
    if ! flock -n 9; then
        tell "another call builds the program; waiting for it"
        wait_for flock 9
    fi
    is_built || build
    exec 9<&-
    trap - HUP INT TERM
}

# Waits for a command that ends where this script is ended.
wait_for() {
    "$@" &
    child=$!
    wait "$child"
}

# shellcheck disable=SC2317 # the traps call it
end_build() {
    trap '' HUP INT TERM
    [ -z "$child" ] || kill "$child" 2>/dev/null
    wait
    [ -z "$rooms" ] || rm -rf "$rooms"
    exit "$1"
}

build() {
    local count places
    begin_build
    count=$(run_make -n | grep -c 'build/check.sh')
    if [ "$count" -gt 0 ] || [ ! -x "$program" ]; then
        tell "the program is proved and built first, once. Crates to prove: $count, $places at a time"
        SECONDS=0
        wait_for run_checks "$count" || end_build 1
        tell "built in $((SECONDS / 60)) min $((SECONDS % 60)) s"
        free_most
    fi
    # A source that has changed since then is newer than the program.
    touch -c -r "$rooms/rules" "$program"
    rm -rf "$rooms"
}

# Writes the rules. All is looked at once more where the kit is another one.
begin_build() {
    local kit
    rooms="$top/out/rooms"
    rm -rf "$rooms"
    mkdir -p "$rooms"
    kit=$(rt version)
    [ "$(cat "$top/out/kit" 2>/dev/null)" = "$kit" ] || echo "$kit" > "$top/out/kit"
    [ -x "$program" ] || rm -f "$program.stamp"
    count_places
    # By a simulation two jobs for the longest chain bring 3 of 18 min on four processors, for a twelfth more work.
    crates_by -v program="$crate" -v jobs=$((places < 4 ? 1 : 2)) > "$rooms/rules"
}

crates_by() {
    (cd "$top" && grep -rc ensures crates/*/src | awk "$@" -f build/rules.awk - crates.txt)
}

# In place of the shell that calls it, so that a signal gets to make.
run_make() { MAKEFLAGS="" exec make -rs -C "$top" -f out/rooms/rules "$@"; }

# What make itself says of a check that failed is no news; check.sh tells by the third descriptor.
run_checks() { run_make -j "$places" "count=$1" 3>&2 2>/dev/null; }

# As many checks at once as there are processors, and 4 GB of free memory for each.
count_places() {
    local free processors
    processors=$(nproc)
    free=$(awk '/^MemAvailable/ { print int($2 / 4194304) }' /proc/meminfo)
    places=$((free < processors ? free : processors))
    [ "$places" -gt 0 ] || places=1
}

# What is left behind a build is what a next one, behind a change of the sources, can begin with.
# Where it is too much, crates give theirs up, but none on which both programs stand.
free_most() {
    local name left
    left=$(left_behind)
    for name in $(crates_by -v want=spare); do
        if [ -n "${FREEZER_KEEP+set}" ] || [ "$left" -le "$most_left" ]; then
            break
        fi
        rm -rf "$top/crates/$name/out/rlib"
        left=$(left_behind)
    done
    tell "left behind: $(in_gigabytes "$left") in crates/*/out, with which a build after a change begins"
    tell "the program runs without it: rm -rf $(printf '%q' "$top")/crates/*/out/{rlib,incremental} frees it"
}

left_behind() { du -skc "$top"/crates/*/out | awk 'END { print $1 }'; }
