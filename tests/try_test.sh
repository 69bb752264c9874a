# shellcheck shell=bash
# ./try, over a fake rt.

before_line="try: not proved: this runs the code as it is written; ./freezer proves it first"
behind_line="try: not proved: this ran the code as it is written; ./freezer proves it first"

nothing_is_left() { is "$(ls "$TMPDIR")" "" "what is left behind"; }

test_try_answers_and_says_that_nothing_is_proved() {
    make_toy
    run "$toy/try" moves "a fen"
    is "$status" 7 "the status"
    is "$out" $'moves\na fen' "the output"
    is "$err" "$before_line"$'\n'"$behind_line" "what is told"
    is "$(count begin)" 0 "checks"
    nothing_is_left
}

test_try_takes_names_from_the_caller_s_folder() {
    make_toy
    mkdir 'a folder'
    cd 'a folder' || exit 1
    run "$toy/try" solve ../A fen
    is "$out" $'solve\n'"$room"$'/a folder/../A\nfen' "the words"
    run "$toy/try" solve /A fen
    is "$out" $'solve\n/A\nfen' "an absolute name"
    run "$toy/try" query '' fen
    is "$out" $'query\n\nfen' "the empty name"
    run "$toy/try" chaincheck t b/
    is "$out" $'chaincheck\n'"$PWD"$'/t\n'"$PWD/b/" "two names"
    run "$toy/try" sample 5
    is "$out" $'sample\n5' "no name"
}

test_try_keeps_no_table() {
    make_toy
    echo 'echo "$3"; head_of_table > "$3"' > A
    run "$toy/try" build A table
    is "$status $out" "0 made" "the answer"
    [ ! -e table ] || fail "a table is left"
    has "$err" "table is not kept"
    echo old > table
    run "$toy/try" build A table
    is "$(cat table)" "old" "the old table"
    run "$toy/try" build A nowhere/table
    has "$out" "$room/nowhere/table"
    nothing_is_left
}

test_try_refuses_two_names_of_one_file() {
    make_toy
    echo rules > A
    run "$toy/try" build A ./A
    is "$status $out" "2 words: same name" "the answer"
}

test_try_gives_a_session_its_input() {
    make_toy
    out=$(printf 'a8b8\nb8a8\n' | "$toy/try" play t fen white 2>"$room/err")
    is "$?" 7 "the status"
    is "$out" $'play\n'"$room"$'/t\nfen\nwhite\na8b8\nb8a8' "the output"
    out=$(echo a8b8 | "$toy/try" line t fen white 2>"$room/err")
    is "$out" $'line\n'"$room"$'/t\nfen\nwhite' "a command that reads no input"
}

test_try_tells_where_no_answer_comes() {
    make_toy
    echo 'echo half; exit 99' > A
    run "$toy/try" build A table
    is "$status $out" "1 " "the answer"
    has "$err" "try: no answer"
    nothing_is_left
}

test_try_can_be_cut_off() {
    local pid
    make_toy
    echo ': > "$FAKE_TOP/begun"; exec sleep 30' > A
    "$toy/try" build A table >"$room/out" 2>"$room/err" &
    pid=$!
    until_it test -e "$toy/begun"
    kill "$pid"
    wait "$pid"
    is "$?" 143 "the status"
    nothing_is_left
}

test_try_whose_output_cannot_be_written() {
    make_toy
    "$toy/try" moves fen >/dev/full 2>"$room/err"
    is "$?" 9 "the status"
}
