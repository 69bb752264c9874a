# shellcheck shell=bash
# What ./freezer and ./atlas tell of long work on a terminal.

on_terminal() { out=$(FREEZER_EVERY=0.2 "$repository/tests/terminal" "" 0 "$@"); }

slow_build() {
    make_built_toy_of_two
    echo 'sleep 1; head_of_table > "$3"; sleep 2; codes_of_a_side >> "$3"; echo "built 1000"' > A
}

test_a_build_tells_its_time_and_the_line_is_taken_away() {
    slow_build
    for table in new old; do
        [ "$table" = new ] || echo old > old
        on_terminal "$toy/freezer" build A "$table"
        has "$out" "freezer build: 0:0"
        has "$out" " of about 0:01"
        has "$out" $'built 1000\r\n'
        case "$out" in *$'\r\e[J\nstatus 0') ;; *) fail "the last that comes is: $out" ;; esac
        is "$(stat -c %s "$table")" 4016 "bytes of the table"
    done
}

# A table with the head of so many numbers, and with all their bytes.
table_of() {
    printf 'FREEZER2\0\0\0\0' > "$2"
    printf '%b' "$(printf '\\%03o' $(($1 & 255)) $(($1 >> 8 & 255)) $(($1 >> 16 & 255)) $(($1 >> 24)))" >> "$2"
    truncate -s $((16 + 8 * $1)) "$2"
}

# By hand: 2^26 numbers are built in 147.6 s and checked in 60.4; a second that has begun counts.
test_the_time_is_that_of_all_tables() {
    local row
    make_toy
    table_of 67108864 one
    table_of 33554432 two
    head -c 16 one > begun
    : > empty
    # shellcheck source=/dev/null
    . "$toy/build/words.sh"
    # shellcheck source=/dev/null
    . "$toy/build/watch.sh"
    while IFS='|' read -r crate row wanted; do
        # shellcheck disable=SC2086 # several words
        set -- $row
        words=("$@")
        find_names "$@"
        is "$(of_expected "${words[makes]}")" "$wanted" "the time of $crate $row"
    done <<'END'
freezer|check one| of about 1:01
freezer|build empty begun| of about 2:28
freezer|build empty empty|
freezer|build empty none|
freezer|chain empty two begun| of about 2:58
freezer|chaincheck one two| of about 1:31
freezer|query one FEN|
atlas|check one two| of about 1:31
atlas|build empty begun one two| of about 3:59
atlas|report one two|
END
}

test_what_reads_files_and_is_no_session_is_watched() {
    local row
    slow_build
    echo 'sleep 1; echo told' > A
    for row in 'freezer check A' 'atlas premises A' 'atlas report A A2' 'atlas why A FEN white'; do
        # shellcheck disable=SC2086
        set -- $row
        on_terminal "$toy/$1" "${@:2}"
        has "$out" "$1 $2: 0:0"
        has_not "$out" "unbound"
    done
    out=$(FREEZER_EVERY=0.2 "$repository/tests/terminal" $'\004' 1 "$toy/atlas" play table FEN white one)
    has "$out" $'play\r\ntable\r\nFEN\r\nwhite\r\none\r\n'
    has "$out" "status 7"
    has_not "$out" "atlas play:"
    out=$(FREEZER_EVERY=0.2 "$repository/tests/terminal" $'\004' 1 "$toy/atlas" ask table one)
    has "$out" $'ask\r\ntable\r\none\r\n'
    has_not "$out" "atlas ask:"
}

test_nothing_is_told_where_it_is_not_wanted() {
    slow_build
    FREEZER_QUIET=1 on_terminal "$toy/freezer" build A table
    is "$out" $'built 1000\r\n\nstatus 0' "all that comes"
    rm table
    FREEZER_EVERY=0.2 run "$toy/freezer" build A table
    is "$out $err" "built 1000 " "all that comes with no terminal"
    echo 'echo built' > A
    on_terminal "$toy/freezer" build A table
    has_not "$out" "freezer build"
}

test_ctrl_c_ends_a_watched_build_at_once() {
    local began
    make_built_toy
    echo 'head_of_table > "$3"; exec sleep 30' > A
    began=$SECONDS
    out=$(FREEZER_EVERY=0.2 "$repository/tests/terminal" $'\003' 1 "$toy/freezer" build A table)
    has "$out" "freezer build: 0:0"
    has "$out" "status -2"
    [ $((SECONDS - began)) -lt 10 ] || fail "it went on"
    is "$(stat -c %s table)" 16 "bytes of the half table"
    echo old > table
    out=$(FREEZER_EVERY=0.2 "$repository/tests/terminal" $'\003' 1 "$toy/freezer" build A table)
    has "$out" "status -2"
    is "$(cat table)" "old" "the old table"
    is "$(printf '%s\n' table*)" "table" "the files"
}
