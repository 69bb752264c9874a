# shellcheck shell=bash
# What a machine lacks is told before anything starts.

starts_nothing() {
    is "$status" 1 "the status"
    is "$out" "" "the output"
    is "$(grep -cv '^freezer: ' <<<"$err")" 0 "lines of others"
    is "$(count begin)" 0 "checks"
    [ ! -e "$toy/out" ] || fail "a build began"
}

test_no_toolchain() {
    make_toy
    rm "$room/bin/rt"
    PATH=$room/bin:/usr/bin:/bin run "$toy/freezer" words
    starts_nothing
    is "$err" "freezer: wanted: the Rattle toolchain. Its command rt is not on the PATH" "what is told"
    PATH=$room/bin:/usr/bin:/bin run "$toy/try" words
    is "$status" 1 "the status of try"
    is "$err" "try: wanted: the Rattle toolchain. Its command rt is not on the PATH" "what try tells"
}

test_no_make() {
    make_toy
    printf '#!/bin/sh\necho another make\n' > "$room/bin/make"
    chmod +x "$room/bin/make"
    run "$toy/freezer" words
    starts_nothing
    is "$err" "freezer: wanted: GNU make, which runs the proofs. Its command make is not on the PATH" "what is told"
}

test_another_kit() {
    make_toy
    FAKE_KIT="rattle-kit-9 logic 0123" run "$toy/freezer" words
    starts_nothing
    has "$err" "wanted: a kit with $(cat "$toy/build/kit"). rt version says: rattle-kit-9 logic 0123"
    has "$err" "FREEZER_ANYWAY=1"
    FAKE_KIT="rattle-kit-9 logic 0123" FREEZER_ANYWAY=1 run "$toy/freezer" words
    is "$status" 7 "the status, all the same"
}

test_the_letter_of_a_kit_is_nothing() {
    make_toy
    FAKE_KIT="rattle-kit-13x, $(cat "$toy/build/kit")" run "$toy/freezer" words
    is "$status" 7 "the status"
}

test_little_memory() {
    make_toy
    printf '\nmemory() { echo 5400000; }\n' >> "$toy/build/machine.sh"
    run "$toy/freezer" words
    starts_nothing
    has "$err" "wanted: 6 GB of memory for the proof. This machine has 5.5 GB"
}

test_little_disk() {
    make_toy
    printf '#!/bin/sh\necho "Filesystem 1024-blocks Used Available Capacity Mounted on"\necho "disk 9 9 3800000 9%% /"\n' > "$room/bin/df"
    chmod +x "$room/bin/df"
    run "$toy/freezer" words
    starts_nothing
    has "$err" "wanted: 4 GB of free disk for the proof. The disk of $toy has 3.9 GB"
}

# Whoever runs the tests as root may write everywhere, so this is run as nobody then.
as_user() {
    if [ "$(id -u)" -eq 0 ]; then
        setpriv --reuid 65534 --regid 65534 --clear-groups env "PATH=$PATH" "$@"
    else
        "$@"
    fi
}

test_a_folder_that_is_read_only() {
    make_toy
    chmod -R a+rwX "$room"
    chmod a-w "$toy/crates/c"
    run as_user "$toy/freezer" words
    starts_nothing
    is "$err" "freezer: wanted: a folder that can be written. $toy/crates/c is read-only" "what is told"
}

test_all_that_is_lacking_is_told() {
    make_toy
    printf '\nmemory() { echo 1000000; }\ndisk() { echo 1000000; }\n' >> "$toy/build/machine.sh"
    run "$toy/freezer" words
    starts_nothing
    is "$(grep -c 'wanted:' <<<"$err")" 2 "lines"
    FREEZER_ANYWAY=1 run "$toy/freezer" words
    is "$status" 7 "the status, all the same"
}

test_a_program_that_is_built_needs_nothing() {
    make_built_toy
    rm "$room/bin/rt"
    PATH=$room/bin:/usr/bin:/bin run "$toy/freezer" words
    is "$status $out $err" "7 words " "the answer"
}
