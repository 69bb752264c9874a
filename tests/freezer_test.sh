# shellcheck shell=bash
# ./freezer over a program that is built: names, files that are there, signals.

test_words_input_and_status_are_passed_on() {
    make_built_toy
    out=$(printf 'in\nput' | "$toy/freezer" play 't able' '*' '' 2>"$room/err")
    is "$?" 7 "the status"
    is "$out" $'play\nt able\n*\n\nin\nput' "the output"
    is "$(cat "$room/err")" "" "what is told"
}

test_the_script_is_found_through_a_link() {
    make_built_toy
    ln -s "$toy/freezer" "$room/link"
    run "$room/link" words
    is "$status $out" "7 words" "the answer"
}

refused() {
    run "$toy/freezer" "$@"
    is "$status" 2 "the status of $*"
    is "$out" "words: same name" "the output of $*"
    is "$err" "" "what is told of $*"
    is "$(cat A)" "rules" "the rules text"
}

test_two_names_of_one_file_are_refused() {
    make_toy
    echo rules > A
    echo back > B
    ln -s A link
    ln A hard
    mkdir folder
    refused build A A
    refused build A ./A
    refused build A "$room/folder/../A"
    refused build link A
    refused build A link
    refused build A hard
    refused migrate A ./A
    refused chain A B ./A
    refused chain B A ./A
    is "$(cat "$FAKE_LOG")" "" "checks: the program is not built for this"
}

test_a_refusal_that_cannot_be_written_is_a_fault() {
    make_toy
    echo rules > A
    "$toy/freezer" build A ./A >/dev/full 2>"$room/err"
    is "$?" 9 "the status"
    is "$(cat "$room/err")" "" "what is told"
}

test_words_that_are_too_many_are_the_program_s() {
    make_built_toy
    echo 'echo counted; exit 2' > A
    run "$toy/freezer" build A ./A more
    is "$status $out" "2 counted" "the answer"
}

# No file of a run is left but these.
files_are() { is "$(printf '%s\n' *able*)" "$1" "the files"; }

test_a_table_that_is_there_is_replaced_by_a_whole_one() {
    make_built_toy
    echo 'echo new > "$3"; echo "built 1"' > A
    echo old > table
    chmod 640 table
    ln -s table link_to_table
    run "$toy/freezer" build A table
    is "$status $out $err" "0 built 1 " "the answer"
    is "$(cat table) $(stat -c %a table)" "new 640" "the table"
    echo old > table
    run "$toy/freezer" build A link_to_table
    is "$(cat table)" "new" "the table behind a link"
    [ -L link_to_table ] || fail "the link was replaced"
    files_are $'link_to_table\ntable'
}

test_a_run_that_replaces_a_table_has_its_input() {
    make_built_toy
    echo 'cat; echo new > "$3"' > A
    echo old > table
    out=$(printf 'in\nput' | "$toy/freezer" build A table)
    is "$? $out" $'0 in\nput' "the answer"
}

test_a_run_that_fails_leaves_the_old_table() {
    make_built_toy
    echo 'echo half > "$3"; echo "store fault"; exit 8' > A
    echo old > table
    run "$toy/freezer" build A table
    is "$status $out $err" "8 store fault " "the answer"
    is "$(cat table)" "old" "the table"
    files_are table
}

test_a_new_table_is_written_as_it_was() {
    make_built_toy
    echo 'echo "$3"; echo half > "$3"; exit 8' > A
    run "$toy/freezer" build A table
    is "$status $out" "8 table" "the answer: the name is the user's"
    is "$(cat table)" "half" "the table"
}

test_what_is_no_table_or_may_not_be_written_is_the_program_s() {
    make_built_toy
    echo 'echo "$3"' > A
    run "$toy/freezer" build A /dev/null
    is "$out" "/dev/null" "the name"
    mkdir table
    run "$toy/freezer" build A table
    is "$out" "table" "the name of a folder"
    echo old > old_table
    chmod -R a+rwX "$room"
    chmod a-w old_table
    run as_user "$toy/freezer" build A old_table
    is "$out" "old_table" "the name of a file that is read-only"
}

test_a_folder_that_takes_no_new_file_keeps_its_table() {
    make_built_toy
    echo 'echo "$3"' > A
    mkdir folder
    echo old > folder/table
    chmod -R a+rwX "$room"
    chmod a-w folder
    run as_user "$toy/freezer" build A folder/table
    is "$status $out" "8 store fault" "the answer"
    has "$err" "wanted: a folder that can be written. The new file is made beside the old one in $room/folder/"
    is "$(cat folder/table)" "old" "the table"
}

# A run that replaces a table, cut off by a signal to the script alone.
cut_off_table() {
    local pid
    make_built_toy
    echo 'echo half > "$3"; : > begun; exec sleep 30' > A
    echo old > table
    "$toy/freezer" build A table >"$room/out" 2>"$room/err" &
    pid=$!
    until_it test -e begun
    kill -s "$1" "$pid"
    wait "$pid"
    is "$?" "$2" "the status"
    is "$(cat table)" "old" "the table"
    files_are table
    is "$(cat "$room/out" "$room/err")" "" "what is told"
}

test_a_run_that_is_ended_leaves_the_old_table() { cut_off_table TERM 143; }
test_a_run_whose_terminal_went_leaves_the_old_table() { cut_off_table HUP 129; }

test_a_program_that_is_killed_is_seen_to_be() {
    make_built_toy
    echo 'echo half > "$3"; kill -KILL $$' > A
    echo old > table
    run "$toy/freezer" build A table
    is "$status" 137 "the status"
    is "$err" "" "what is told"
    is "$(cat table)" "old" "the table"
    files_are table
}

test_a_signal_that_the_program_hears_does_not_end_the_script() {
    local pid
    make_built_toy
    echo 'trap "echo heard" USR1; : > begun; until test -e "done"; do sleep 0.05; done; echo new > "$3"; echo built' > A
    echo old > table
    "$toy/freezer" build A table >"$room/out" 2>"$room/err" &
    pid=$!
    until_it test -e begun
    kill -USR1 "$pid"
    until_it grep -q heard "$room/out"
    : > "done"
    wait "$pid"
    is "$?" 0 "the status"
    is "$(cat "$room/out") $(cat table)" $'heard\nbuilt new' "the answer"
}
