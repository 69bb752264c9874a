# shellcheck shell=bash
# What this machine lacks, one plain line each. Sourced by ./freezer, ./try and build/prove.sh, which
# have `top` and `tell`.

least_memory=$((6 * 1000 * 1000)) # kilobytes, as /proc/meminfo and df count
least_disk=$((4 * 1000 * 1000))

# The toolchain is there, and it is the one that the proofs were written with: its logic is that of
# build/kit. The letter behind a kit's number is left out, since it says nothing of the logic.
has_kit() {
    local wanted found
    if ! command -v rt >/dev/null; then
        tell "wanted: the Rattle toolchain. Its command rt is not on the PATH"
        return 1
    fi
    wanted=$(cat "$top/build/kit")
    found=$(rt version 2>/dev/null) || found="nothing"
    case "$found " in *"$wanted "*) return 0 ;; esac
    tell "wanted: a kit with $wanted. rt version says: $found"
    goes_on
}

has_make() {
    make --version 2>/dev/null | grep -q '^GNU Make' && return 0
    tell "wanted: GNU make, which runs the proofs. Its command make is not on the PATH"
    return 1
}

# The memory of the machine, or what its group of processes may have, in kilobytes.
memory() {
    local file most total
    total=$(awk '/^MemTotal/ { print $2 }' /proc/meminfo)
    for file in /sys/fs/cgroup/memory.max /sys/fs/cgroup/memory/memory.limit_in_bytes; do
        if [ -r "$file" ] && most=$(cat "$file") && [[ $most =~ ^[0-9]{1,15}$ ]]; then
            [ $((most / 1024)) -ge "$total" ] || total=$((most / 1024))
        fi
    done
    echo "$total"
}

disk() { df -Pk "$top" | awk 'NR == 2 { print $4 }'; }

in_gigabytes() { awk -v kilobytes="$1" 'BEGIN { printf "%.1f GB", kilobytes * 1024 / 1e9 }'; }

has_memory() {
    local found
    found=$(memory)
    [ "$((found * 1024 / 1000))" -lt "$least_memory" ] || return 0
    tell "wanted: 6 GB of memory for the proof. This machine has $(in_gigabytes "$found")"
    goes_on
}

has_disk() {
    local found
    found=$(disk)
    [ "$((found * 1024 / 1000))" -lt "$least_disk" ] || return 0
    tell "wanted: 4 GB of free disk for the proof. The disk of $top has $(in_gigabytes "$found")"
    goes_on
}

# The build writes into out/ at the top, and into crates/*/out.
has_folder() {
    local folder
    for folder in "$top" "$top"/crates/*/ "$top"/crates/*/out/; do
        if [ -e "$folder" ] && { [ ! -w "$folder" ] || [ ! -x "$folder" ]; }; then
            tell "wanted: a folder that can be written. ${folder%/} is read-only"
            return 1
        fi
    done
}

# Something that is lacking may serve all the same: whoever thinks so sets FREEZER_ANYWAY.
goes_on() {
    [ -z "${FREEZER_ANYWAY+set}" ] || return 0
    may_go_on="yes"
    return 1
}

# Everything that is lacking is told before this fails.
check_machine() {
    local need is_well="yes" may_go_on="no"
    for need in "$@"; do
        "has_$need" || is_well="no"
    done
    [ "$is_well" = "no" ] || return 0
    [ "$may_go_on" = "no" ] || tell "FREEZER_ANYWAY=1 before the command goes on with what there is"
    return 1
}
