# shellcheck shell=bash
# tests/rows: whole calls of the built programs.

# A program that says what it reads and its words, and writes a file where these are so.
make_speaker() {
    printf '#!/bin/sh\ncat\necho "said $*"\n[ "$1" != write ] || echo new > "$2"\nexit 3\n' > "$room/speaker"
    chmod +x "$room/speaker"
}

speak() { run "$repository/tests/rows.py" --freezer "$room/speaker" --atlas "$room/speaker" "$room/rows"; }

test_whole_calls_are_as_the_rows_say() {
    run "$repository/tests/rows.py"
    is "$status $err" "0 " "the status, with $out"
    has_not "$out" " 0 calls"
    case "$out" in 'left out: '*) echo "$out" ;; esac
}

test_calls_that_are_as_their_rows_say() {
    make_speaker
    cat > "$room/rows" <<'END'
# A file for each block.
text A
    one
    two

== words, input and status
$ freezer say "two words"
< 2 times "in\n"
2 times "in\n"
said say two words
status 3

== files
longer B A "\u0000"
$ atlas write T
begins "said"
has "write T"
status 3
writes T of 4
bytes due "new\n"
$ freezer write A
said write A
status 3
writes A like due
END
    speak
    is "$status $out" "0 3 calls, 0 other than wanted" "the answer"
}

test_calls_that_are_otherwise_than_their_rows_say() {
    make_speaker
    printf 'bytes A "old"\n\n== all\n$ freezer say\nsays\n\n$ atlas write A\nhas "none"\nstatus 3\nwrites B of 4\n' > "$room/rows"
    speak
    is "$status" 1 "the status"
    has "$out" "rows:4: all: \$ freezer say
    status 3, wanted: 0
    output b'said say\\n', wanted: b'says\\n'"
    has "$out" "rows:7: all: \$ atlas write A
    nowhere in the output: \"none\"
    B has 0 bytes, wanted: 4
    A is another file than wanted
    B is another file than wanted
2 calls, 2 other than wanted"
}

test_rows_are_left_out_where_a_program_is_not_built() {
    make_speaker
    run "$repository/tests/rows.py" --freezer "$room/none" --atlas "$room/speaker"
    is "$status $out" "0 left out: the rows of whole calls, since the program freezer is not built; the first call of ./freezer builds it" "the answer"
}
