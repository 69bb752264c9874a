# shellcheck shell=bash
# Makes a file that is there already under another name beside it, and moves it into place when it is
# whole: the program empties the file that it makes, so a run that is cut off would destroy the old one.
# Sourced by build/program.sh, which has `words`, `makes` and `tell`.

# The file that is to be made is there already. What is no common file, as /dev/null, or may not be
# written is left to the program, which writes to it or fails.
is_there() { [[ $makes -gt 0 && -f ${words[makes]} && -w ${words[makes]} ]]; }

# Sets `target`, the file itself behind all links, and `half`, an empty file beside it.
begin_beside() {
    local folder name LC_ALL=C
    target=$(realpath -- "${words[makes]}" && echo .)
    target=${target%$'\n.'}
    folder=${target%/*}/ name=${target##*/}
    if ! half=$(mktemp "$folder${name:0:200}.unfinished-XXXXXX" 2>/dev/null); then
        tell "wanted: a folder that can be written. The new file is made beside the old one in $folder"
        printf 'store fault\n' 2>/dev/null || exit 9
        exit 8
    fi
}

# What a run with this status has left takes the place of the old file, or goes.
end_beside() {
    if [ "$1" -ne 0 ]; then
        rm -f -- "$half"
        return 0
    fi
    chown --reference="$target" -- "$half" 2>/dev/null
    chmod --reference="$target" -- "$half" 2>/dev/null
    sync -- "$half" 2>/dev/null
    mv -fT -- "$half" "$target" && return 0
    tell "the new file is whole, but could not be moved to $target: it is $half"
    return 1
}
