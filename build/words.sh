# shellcheck shell=bash
# Which words of a command are names of files. Sourced by build/program.sh and ./try.

# Sets `reads`, the places of the words that name files to be read, and `makes`, the place of the
# name that is written, 0 for none. Where the words are too few or too many, or no command's, the
# program refuses them, and no word is a name.
find_names() {
    reads=() makes=0
    if [ "$crate" = atlas ]; then
        find_names_of_atlas "$@"
        return
    fi
    case "${1-}/$#" in
        solve/3 | check/2 | query/3 | chainquery/3 | line/4 | play/4 | report/2) reads=(1) ;;
        chaincheck/3) reads=(1 2) ;;
        build/3 | migrate/3) reads=(1) makes=2 ;;
        chain/4) reads=(1 2) makes=3 ;;
    esac
}

# The most tables behind another.
most_backs=16

# Sets `reads` to the place of the first name and those of the tables behind, which are all words from
# the place $2 on, where these are none or as many as may be.
find_tables_behind() {
    local at backs=$(($1 - $2))
    [ "$backs" -ge 0 ] && [ "$backs" -le "$most_backs" ] || return 0
    reads=(1)
    for ((at = $2; at < $1; at++)); do
        reads+=("$at")
    done
}

# A word that is no side is refused before any file is looked at.
find_names_of_atlas() {
    case "${1-}" in
        check | report | ask | premises) find_tables_behind $# 2 ;;
        build | verdict) find_tables_behind $# 3 ;;
        line | play | why) ! is_side "${4-}" || find_tables_behind $# 4 ;;
        query | each) [ $# -ne 3 ] || reads=(1) ;;
        size) [ $# -ne 2 ] || reads=(1) ;;
    esac
    [ "${1-}" != build ] || [ "${#reads[@]}" -eq 0 ] || makes=2
}

is_side() { [ "$1" = white ] || [ "$1" = black ]; }

# Two names are of one file.
is_one_file() { [[ ${words[$1]} = "${words[$2]}" || ${words[$1]} -ef ${words[$2]} ]]; }

# The name that is written is one of a file that is read. The program compares the texts of names
# alone, so it would empty a rules text that is named once as A and once as ./A. Among the names of
# `atlas` no file may stand twice at all.
is_same_file() {
    local at other names=("${reads[@]}")
    for at in "${reads[@]}"; do
        [ "$makes" -eq 0 ] || ! is_one_file "$at" "$makes" || return 0
    done
    [ "$crate" = atlas ] || return 1
    while [ "${#names[@]}" -gt 1 ]; do
        at=${names[0]} names=("${names[@]:1}")
        for other in "${names[@]}"; do
            ! is_one_file "$at" "$other" || return 0
        done
    done
    return 1
}

# Ends as the program does where the name that is written is one that it reads.
refuse_same_file() {
    printf 'words: same name\n' 2>/dev/null || exit 9
    exit 2
}
