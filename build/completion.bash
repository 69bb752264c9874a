# shellcheck shell=bash
# Completion of the words of `freezer` and of `atlas` in bash: commands, files, and sides, by the lines of
# usage.txt beside this file. Use it by `. build/completion.bash`.

freezer_usage="$(dirname "$(realpath "${BASH_SOURCE[0]}")")/usage.txt"

complete_freezer() {
    local crate=${COMP_WORDS[0]##*/} word=${COMP_WORDS[COMP_CWORD]} kind
    COMPREPLY=()
    if [ "$COMP_CWORD" -eq 1 ]; then
        mapfile -t COMPREPLY < <(compgen -W "$(awk -v crate="$crate" '$1 == crate { print $2 }' "$freezer_usage")" -- "$word")
        return
    fi
    kind=$(freezer_kind_of_word "$crate" "${COMP_WORDS[1]}" "$COMP_CWORD")
    case "$kind" in
        SIDE) mapfile -t COMPREPLY < <(compgen -W "white black" -- "$word") ;;
        RULES | TABLE | BACK | OLD | NEW)
            compopt -o filenames
            mapfile -t COMPREPLY < <(compgen -f -- "$word" | sort)
            ;;
    esac
}

# What the word at this place is by the line on the command; the last name stands for all behind it
# where `..` follows.
freezer_kind_of_word() {
    awk -v crate="$1" -v command="$2" -v place="$3" '
        $1 == crate && $2 == command {
            sub(/ *#.*/, "")
            gsub(/["\[\]]/, "")
            many = $NF == ".."
            last = NF - 1 - many
            if (place <= last) print $(place + 1)
            else if (many) print $(last + 1)
        }' "$freezer_usage"
}

complete -F complete_freezer freezer atlas
