# shellcheck shell=bash
# Tells how long a command over files has worked, while it runs, and how long it is expected to work.
# Sourced by build/program.sh.

# Nanoseconds a number, by docs/developers/speed.md: the sets as large as a set may be.
to_build=2200
to_check=900

# The command reads files, and somebody sees what is told. A session would be written over, and so would answers.
is_watched() {
    [ -t 2 ] && [ -z "${FREEZER_QUIET+set}" ] && [ "${TERM:-dumb}" != dumb ] || return 1
    [ "${#reads[@]}" -gt 0 ] && [ "${words[0]}" != play ] && [ "${words[0]}" != ask ]
}

# Rewrites a line each three seconds (FREEZER_EVERY is for the tests), as long as the process is there.
# The line stands one below the place where the program goes on to write, and the cursor is left there.
watch_process() {
    local never screen columns text
    # What is cut off in the middle, when this ends, has nothing to say.
    exec {never}<> <(:) {screen}>&2 2>/dev/null
    while read -r -t "${FREEZER_EVERY:-3}" -u "$never"; [ -d "/proc/$1" ]; do
        columns=$(stty size <&"$screen" | cut -d ' ' -f 2)
        [[ $columns =~ ^[1-9] ]] || columns=80
        text="$crate ${words[0]}: $(clock "$SECONDS")$(of_expected "$2")"
        printf '\e[J\n\r%s\e[A\r' "${text:0:columns-1}" >&"$screen"
    done
}

# Takes the line away.
end_watch() { printf '\r\e[J' >&2; }

# The time that the numbers let expect: those of the table that is made, once its head is written, and
# those of the tables that are read, of eight bytes a number.
of_expected() {
    local at numbers=0 nanoseconds
    case "${words[0]}" in build | check | chain | chaincheck) ;; *) return 0 ;; esac
    [ "$makes" -eq 0 ] || numbers=$(numbers_of "$1")
    [ -n "$numbers" ] || return 0
    nanoseconds=$((numbers * to_build))
    for at in "${reads[@]}"; do
        nanoseconds=$((nanoseconds + $(stat -L -c %s -- "${words[at]}") * to_check / 8))
    done
    echo " of about $(clock $((nanoseconds / 1000000000 + 1)))"
}

clock() { printf '%d:%02d' $(($1 / 60)) $(($1 % 60)); }

# The numbers of the set whose table begins in this file; nothing where they are not there yet.
numbers_of() {
    local length
    length=$(word_at "$1" 8)
    [ -z "$length" ] || [ "$length" -gt 65536 ] || word_at "$1" $((12 + length))
}

# The number that the four bytes behind this place of the file make.
word_at() { od -An -v -tu4 --endian=little -j "$2" -N 4 -- "$1" 2>/dev/null | tr -d ' '; }
