# shellcheck shell=bash
# ./freezer and ./atlas: what they add on standard error where the program refuses its words, a FEN or a file,
# and the completion of their words in bash.

# The toy with both programs, each of which prints `said` and ends with the status that the file `ends` has.
make_refusing_toy() {
    make_toy
    mkdir -p "$toy/crates/freezer/out" "$toy/crates/atlas/src" "$toy/crates/atlas/out"
    echo 'atlas: b a' >> "$toy/crates.txt"
    cp "$repository/tests/fake/ending" "$toy/crates/freezer/out/freezer"
    cp "$repository/tests/fake/ending" "$toy/crates/atlas/out/atlas"
    printf 'FREEZER2\0\0\0\0\1\0\0\0' > plain
    printf 'FREEZERB\0\0\0\0\1\0\0\0' > leaning
    printf 'FREEZERA\0\0\0\0\1\0\0\0' > older
    printf 'FREEZERC\0\0\0\0\1\0\0\0' > chained
    printf 'FREEZER1\0\0\0\0\1\0\0\0' > former
    echo 'freezer 1' > rules
}

# What stands on standard error where the program ends with this status for these words.
told() {
    echo "$1" > ends
    shift
    run "$toy/$1" "${@:2}"
    is "$status $out" "$(cat ends) said" "the program's answer to $*"
}

line_of() { grep "^$1 $2 " "$repository/build/usage.txt"; }

test_status_2_is_told_how_the_command_is_used() {
    make_refusing_toy
    told 2 freezer query plain
    is "$err" "freezer: usage: $(line_of freezer query)" "too few words"
    told 2 freezer line plain 'a fen' blue
    has "$err" "freezer: usage: freezer line TABLE"
    told 2 freezer sample 64
    has "$err" "freezer: usage: freezer sample K"
    told 2 freezer query plain $'\xff'
    has "$err" "freezer: usage: freezer query TABLE"
    told 2 freezer query plain 8/8/8/8/8/4k3/4p3/4K3 w - -
    has "$err" "a FEN is one word: put it into quotes"
    told 2 atlas build rules
    is "$err" "atlas: usage: $(line_of atlas build)" "too few words"
    told 2 atlas build rules table
    is "$err" "" "no table behind"
    told 2 atlas why
    has "$err" 'atlas: usage: atlas why TABLE "FEN" SIDE [BACK ..]'
}

test_all_commands_are_told_where_the_word_is_none() {
    local words
    make_refusing_toy
    for words in --help help nonsense ''; do
        told 2 freezer ${words:+"$words"}
        is "$(grep -c '^freezer: freezer ' <<< "$err")" 15 "the commands told at '$words'"
    done
    told 2 atlas -h
    is "$(grep -c '^atlas: atlas ' <<< "$err")" 12 "the commands of atlas"
    told 2 freezer each plain FEN
    is "$err" "freezer: each is a command of atlas: $(line_of atlas each)" "a command of the other program"
}

test_help_comes_before_the_proof() {
    make_toy
    run "$toy/freezer" --help
    is "$status" 7 "the program's status"
    has "$err" "freezer: freezer moves"
    case "$err" in "freezer: usage: "*"freezer: the program is proved and built first"*) ;; *) fail "the order of: $err" ;; esac
}

test_other_statuses_are_told_nothing_of_use() {
    make_refusing_toy
    told 7 freezer query plain 'a b c d'
    is "$err" "" "after 7"
    told 0 freezer nonsense
    is "$err" "" "after 0"
    told 5 freezer query plain 'a b c d'
    is "$err" "" "a table of the right kind that is refused"
    cp leaning another
    told 5 atlas why leaning 'a b c d' white plain another
    is "$err" "" "tables behind"
    told 12 freezer query nowhere 'a b c d'
    is "$err" "" "a file that is missing"
}

test_a_fen_with_fields_missing_is_told() {
    make_refusing_toy
    told 4 freezer query plain '8/8/8/8/8/4k3/4p3/4K3 w'
    has "$err" "freezer: a FEN has four fields or six, and this one 2: the men,"
    told 4 atlas each leaning $'8/8/8/8/8/4k3/4p3/4K3  w - - 0 '
    has "$err" "this one 5"
    told 4 freezer query plain '8/8/8/8/8/4k3/4p3/4K3 w - -'
    is "$err" "" "four fields"
    told 4 freezer moves ''
    has "$err" "this one 0"
    told 4 freezer query plain '8/8/8/8/8/4k3/4p3/4K3 b'
    has "$err" 'freezer: most likely: "8/8/8/8/8/4k3/4p3/4K3 b - -"'
    told 4 atlas each leaning '8/8/8/8/3pP3/8/8/k1K5 b - e3 0'
    has "$err" 'atlas: most likely: "8/8/8/8/3pP3/8/8/k1K5 b - e3"'
    told 4 freezer moves '4k3/8/8/8/8/8/8/4K2R w K - 0 1'
    is "$err" "freezer: castling is left out: the third field of a FEN is -" "castling"
}

test_a_file_of_another_kind_is_told() {
    make_refusing_toy
    told 3 freezer solve plain 'a b c d'
    is "${err%;*}" "freezer: plain is a table, and a rules text is wanted here" "a table for rules"
    told 5 freezer query rules 'a b c d'
    has "$err" "rules is no table; if it is a rules text, freezer build RULES TABLE makes one of it"
    told 5 atlas line plain 'a b c d' white leaning
    is "$err" "" "a plain table"
    told 5 atlas query older 'a b c d'
    is "$err" "atlas: older is a table of an older atlas build: build it again over the same tables" "an older table"
    told 5 atlas each former 'a b c d'
    has "$err" "former is a table of the former format: freezer migrate OLD NEW"
    told 5 freezer play leaning 'a b c d' white
    is "$err" "freezer: leaning is a table of atlas build: $(line_of atlas play)" "a table over others"
    told 5 freezer chainquery plain 'a b c d'
    has "$err" "plain is a table of freezer build: freezer query TABLE"
    told 5 freezer check former
    has "$err" "former is a table of the former format: freezer migrate OLD NEW"
    told 5 freezer query chained 'a b c d'
    has "$err" "chained is a table of freezer chain: freezer chainquery TABLE"
    told 5 atlas check leaning plain chained
    has "$err" "chained is a table of freezer chain: build its text by atlas build"
}

test_tables_behind_in_another_order_are_told() {
    make_refusing_toy
    told 6 atlas check leaning
    is "$err" "atlas: leaning stands over follow-up tables: name the BACKs with which it was built, in that order" "no BACK"
    cp plain another
    told 6 atlas line leaning 'a b c d' white plain another
    has "$err" "a table stands over the BACKs before it"
    told 6 atlas check leaning plain
    is "$err" "" "one BACK"
    told 6 freezer check plain
    is "$err" "" "a plain table"
}

test_the_page_of_commands_has_the_lines_of_use() {
    diff "$repository/build/usage.txt" \
        <(awk '/^```/ { if (seen) exit; seen = 1; next } seen' "$repository/docs/users/commands.md" | sed 's,^\./,,') ||
        fail "docs/users/commands.md has other lines than build/usage.txt"
}

# What bash offers behind these words.
offered() {
    COMP_WORDS=("$@") COMP_CWORD=$(($# - 1)) COMPREPLY=()
    complete_freezer 2>/dev/null
    echo "${COMPREPLY[*]}"
}

test_bash_completes_commands_files_and_sides() {
    # shellcheck source=build/completion.bash
    . "$repository/build/completion.bash"
    cd "$room" || exit 1
    : > table.t
    mkdir tables
    is "$(offered freezer qu)" "query" "a command"
    is "$(offered ./atlas a)" "ask" "a command for programs"
    is "$(offered ./atlas p)" "play premises" "commands of atlas"
    is "$(offered freezer query tab)" "table.t tables" "files"
    is "$(offered freezer line table.t 'a fen' '')" "white black" "sides"
    is "$(offered atlas why table.t 'a fen' white t)" "table.t tables tmp" "tables behind"
    is "$(offered atlas check table.t x y z tab)" "table.t tables" "the fourth of them"
    is "$(offered freezer query table.t '')" "" "a FEN"
    is "$(offered freezer nonsense '')" "" "behind no command"
    is "$(offered freezer check table.t '')" "" "behind the last word"
}
