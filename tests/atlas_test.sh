# shellcheck shell=bash
# ./atlas: what it does otherwise than ./freezer, whose script it shares.

test_atlas_proves_only_what_it_stands_on() {
    make_toy_of_two
    run "$toy/atlas" words
    is "$status $out" "7 words" "the answer"
    has "$err" "atlas: 3 of 3: atlas"
    before "end b" "begin atlas"
    is "$(count 'begin [cdf]')" 0 "checks of the other program's crates"
}

refused_by_atlas() {
    run "$toy/atlas" "$@"
    is "$status $out $err" "2 words: same name " "the answer to $*"
}

test_no_file_stands_twice_among_the_names_of_atlas() {
    make_toy_of_two
    echo rules > A
    echo one > one
    echo two > two
    ln -s one link
    refused_by_atlas build A ./A one
    refused_by_atlas build A one ./one
    refused_by_atlas build A table one link
    refused_by_atlas build A table one ./A
    refused_by_atlas check one two link
    refused_by_atlas check one ./one
    refused_by_atlas report one two link
    refused_by_atlas line one FEN white ./one
    refused_by_atlas line one FEN black two link
    refused_by_atlas play one FEN white two two
    refused_by_atlas why one FEN white link
    refused_by_atlas why one FEN black two ./two
    refused_by_atlas verdict one FEN link
    refused_by_atlas verdict one FEN two ./two
    refused_by_atlas premises A ./A
    refused_by_atlas ask A ./A
    refused_by_atlas premises A one two link
    refused_by_atlas build A ./A
    refused_by_atlas ask one two ./two
    is "$(cat "$FAKE_LOG")" "" "checks: the program is not built for this"
}

test_words_of_atlas_that_are_too_few_or_too_many_are_the_program_s() {
    make_built_toy_of_two
    echo 'echo counted; exit 2' > A
    run "$toy/atlas" build A
    is "$status $out" "2 counted" "the answer with no table"
    run "$toy/atlas" build A A 1 2 3 4 5 6 7 8 9 10 11 12 13 14 15 16 17
    is "$status $out" "2 counted" "the answer with seventeen"
}

# The words that name no file are the program's, and so are those behind a side that is none.
test_names_that_are_none_are_the_program_s() {
    local words
    make_built_toy_of_two
    echo one > one
    echo 'echo told; exit 4' > A
    for words in 'line one one white two' 'line one one blue one' 'play one white white two' 'line one FEN white' \
        'each one one' 'ask one'; do
        # shellcheck disable=SC2086 # several words
        run "$toy/atlas" $words
        is "$status $out" "7 ${words// /$'\n'}" "the answer to $words"
    done
    for words in 'why A FEN' 'why A A white' 'why A FEN blue A' 'why A FEN white one' 'verdict A FEN' \
        'verdict A A one' premises\ A 'premises A one'; do
        # shellcheck disable=SC2086
        run "$toy/atlas" $words
        is "$status $out" "4 told" "the answer to $words"
    done
    for words in 'premises A' 'why A FEN white'; do
        # shellcheck disable=SC2086
        run "$toy/atlas" $words A 2 3 4 5 6 7 8 9 10 11 12 13 14 15 16 17
        is "$status $out" "4 told" "the answer to $words with seventeen"
    done
}

test_atlas_replaces_a_table_by_a_whole_one() {
    make_built_toy_of_two
    echo 'echo new > "$3"; echo "built 1"' > A
    echo old > table
    run "$toy/atlas" build A table one two
    is "$status $out $err" "0 built 1 " "the answer"
    is "$(cat table)" "new" "the table"
    echo 'echo half > "$3"; exit 8' > A
    run "$toy/atlas" build A table one two
    is "$status $(cat table)" "8 new" "the status and the table after a fault"
}
