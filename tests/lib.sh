# shellcheck shell=bash
# What the tests of the scripts share: a toy repository, and what is wanted of what came. Sourced by
# tests/run, which runs each test in a folder of its own, `room`, with a fake rt first on the PATH.

# A repository with the scripts and five crates, of which the last is the program:
#     a <- b <- d <- freezer,  a <- c <- freezer
# Two processors; the checks take no time unless a test says so.
make_toy() {
    local name
    toy=$room/toy
    export FAKE_TOP=$toy FAKE_LOG=$room/log
    mkdir -p "$toy/tests" "$room/bin"
    cp -r "$repository/freezer" "$repository/atlas" "$repository/try" "$repository/build" "$repository/HANDLES" "$toy"
    cp -r "$repository/tests/fake" "$toy/tests"
    printf '# a toy\na:\nb: a\nc: a arrayvec\nd: b a\nfreezer: c d b a arrayvec\n' > "$toy/crates.txt"
    for name in a b c d freezer; do
        mkdir -p "$toy/crates/$name/src"
        echo "// $name" > "$toy/crates/$name/src/lib.rt"
    done
    cp "$repository/tests/fake/rt" "$room/bin/rt"
    printf '#!/bin/sh\necho 2\n' > "$room/bin/nproc"
    chmod +x "$room/bin/nproc"
    PATH=$room/bin:$PATH
    : > "$FAKE_LOG"
    cd "$room" || exit 1
}

# Programs of the toy, as if they had been built.
put_programs() {
    local name
    for name in "$@"; do
        mkdir -p "$toy/crates/$name/out"
        cp "$repository/tests/fake/program" "$toy/crates/$name/out/$name"
    done
}

make_built_toy() {
    make_toy
    put_programs freezer
}

# The toy with a second program, which stands on b alone.
make_toy_of_two() {
    make_toy
    echo 'atlas: b a' >> "$toy/crates.txt"
    mkdir -p "$toy/crates/atlas/src"
    echo "// atlas" > "$toy/crates/atlas/src/main.rt"
}

make_built_toy_of_two() {
    make_toy_of_two
    put_programs freezer atlas
}

# How long the check of a crate of the toy takes.
takes() { echo "$2" > "$toy/crates/$1/src/seconds"; }

# Runs a command; `out`, `err` and `status` are what came.
run() {
    "$@" >"$room/out" 2>"$room/err" </dev/null
    status=$?
    out=$(cat "$room/out") err=$(cat "$room/err")
}

fail() {
    echo "    $*"
    exit 1
}

is() { [ "$1" = "$2" ] || fail "$3: '$1', wanted: '$2'"; }

has() { case "$1" in *"$2"*) ;; *) fail "'$2' is not in: $1" ;; esac; }

has_not() { case "$1" in *"$2"*) fail "'$2' is in: $1" ;; esac; }

# The place of a line of the log, from 1.
at() { grep -n "^$1 " "$FAKE_LOG" | head -n 1 | cut -d : -f 1; }

before() {
    if [ -z "$(at "$1")" ] || [ -z "$(at "$2")" ] || [ "$(at "$1")" -ge "$(at "$2")" ]; then
        fail "'$1' is not before '$2': $(cat "$FAKE_LOG")"
    fi
}

# How often a line stands in the log.
count() { grep -c "^$1" "$FAKE_LOG"; }

# Waits until a command succeeds, for ten seconds at most.
until_it() {
    local tries
    for ((tries = 0; tries < 200; tries++)); do
        "$@" >/dev/null 2>&1 && return 0
        sleep 0.05
    done
    fail "in vain: $*"
}
