# shellcheck shell=bash
# The build, on a toy graph of crates.

processors() { printf '#!/bin/sh\necho %s\n' "$1" > "$room/bin/nproc"; }

# All is to be proved once more.
forget() {
    rm -rf "$toy"/crates/*/out
    : > "$FAKE_LOG"
}

# How many clauses the functions of a crate have.
clauses() { yes ensures | head -n "$2" > "$toy/crates/$1/src/clauses.rt"; }

# How often each of the five crates was proved.
proved() {
    local name
    for name in a b c d freezer; do printf '%s' "$(count "begin $name ")"; done
}

# Processes that were started with this in their environment.
runs() { grep -qsz "^$1\$" /proc/[0-9]*/environ; }

nothing_is_left() {
    [ ! -e "$toy/out/rooms" ] || fail "the rooms are left"
    ! runs "FAKE_TOP=$toy" || fail "a process is left"
}

test_crates_are_proved_in_order() {
    local row
    make_toy
    run "$toy/freezer" words
    is "$status $out $(proved)" "7 words 11111" "the answer, and what was proved"
    for row in 'a b' 'a c' 'b d' 'c freezer' 'd freezer'; do
        before "end ${row% *}" "begin ${row#* }"
    done
    for row in 'Crates to prove: 5, 2 at a time' '1 of 5: a, ' '5 of 5: freezer, ' 'built in 0 min'; do
        has "$err" "$row"
    done
    nothing_is_left
}

test_what_most_waits_for_goes_first() {
    local row
    make_toy
    processors 1
    for row in 'b c 30 0' 'c b 0 60'; do
        # shellcheck disable=SC2086 # several words
        set -- $row
        clauses d "$3"
        clauses c "$4"
        forget
        run "$toy/freezer" words
        before "begin $1" "begin $2"
    done
}

# By so many processors: whether c begins before b has ended.
test_as_many_at_once_as_processors() {
    local row
    make_toy
    takes b 2
    takes c 2
    for row in '2|begin c|end b' '1|end b|begin c'; do
        IFS='|' read -r -a words <<<"$row"
        processors "${words[0]}"
        forget
        run "$toy/freezer" words
        before "${words[1]}" "${words[2]}"
        has "$err" "Crates to prove: 5, ${words[0]} at a time"
    done
}

# What `rt` gets for a, b, c and d: d is of the longest chain by its clauses, c by those of c.
test_the_longest_chain_gets_two_jobs_on_four_processors() {
    local row name jobs
    make_toy
    echo "MemAvailable: 16777216 kB" > "$room/meminfo"
    sed -i "s|/proc/meminfo|$room/meminfo|" "$toy/build/prove.sh"
    for row in '3 0 1111' '4 0 2212' '4 60 2121'; do
        # shellcheck disable=SC2086
        set -- $row
        processors "$1"
        clauses c "$2"
        forget
        run "$toy/freezer" words
        jobs=$(for name in a b c d; do sed -n "s/^jobs $name \(.\) .*/\1/p" "$FAKE_LOG"; done | tr -d '\n')
        is "$status $jobs" "7 $3" "jobs by $1 processors and $2 clauses"
    done
}

test_a_crate_that_fails_ends_the_build() {
    local name
    for name in d freezer; do
        make_toy
        : > "$toy/crates/$name/src/fails"
        run "$toy/freezer" words
        is "$status $out" "1 " "the answer where $name fails"
        has "$err" "fake: $name is refused"
        has "$err" "freezer: crate $name was not proved"
        has_not "$err" "built in"
        has_not "$err" "make"
        nothing_is_left
        rm "$toy/crates/$name/src/fails"
        : > "$FAKE_LOG"
    done
    run "$toy/freezer" words
    is "$status $(proved)" "7 00001" "the answer once repaired, and what was proved"
    has "$err" "Crates to prove: 1, 2 at a time"
}

# By a signal, with its status.
test_a_build_that_was_cut_off_goes_on_from_there() {
    local row pid
    for row in 'TERM 143' 'HUP 129'; do
        make_toy
        forget
        takes b 30
        "$toy/freezer" words >"$room/out" 2>"$room/err" &
        pid=$!
        until_it grep -q "end c" "$FAKE_LOG"
        kill -s "${row% *}" "$pid"
        wait "$pid"
        is "$?" "${row#* }" "the status"
        nothing_is_left
        takes b 0
        : > "$FAKE_LOG"
        run "$toy/freezer" words
        is "$status $(proved)" "7 01011" "the next call, and what it proved"
        has "$err" "Crates to prove: 3, 2 at a time"
    done
}

test_ctrl_c_ends_a_build() {
    make_toy
    takes b 30
    out=$("$repository/tests/terminal" $'\003' 1.5 "$toy/freezer" words)
    has "$out" "1 of 5: a"
    has "$out" "status 130"
    nothing_is_left
}

test_two_calls_build_once() {
    local first second
    make_toy
    takes a 1
    "$toy/freezer" one >"$room/one" 2>"$room/one.err" </dev/null &
    first=$!
    until_it grep -q "begin a" "$FAKE_LOG"
    "$toy/freezer" two >"$room/two" 2>"$room/two.err" </dev/null &
    second=$!
    WAITS=$room "$toy/freezer" three >"$room/three" 2>"$room/three.err" </dev/null &
    until_it grep -q "waiting for it" "$room/three.err"
    kill $!
    wait $!
    is "$?" 143 "the status of a call that was ended while it waited"
    ! runs "WAITS=$room" || fail "a process of it is left"
    wait "$first"
    is "$? $(cat "$room/one")" "7 one" "the first answer"
    wait "$second"
    is "$? $(cat "$room/two")" "7 two" "the second answer"
    is "$(cat "$room/two.err")" "freezer: another call builds the program; waiting for it" "what it tells"
    is "$(proved)" "11111" "what was proved"
}

# What changes after a build; what the next call proves, and how many crates it only looks at.
test_what_changed_is_proved_again_and_what_stands_on_it() {
    local row change wanted
    make_toy
    run "$toy/freezer" words
    while IFS='|' read -r change wanted; do
        sleep 0.01
        : > "$FAKE_LOG"
        eval "$change"
        run "$toy/freezer" words
        is "$status $(proved) $(count kept)" "7 $wanted" "what is proved, and what only seen, after: $change"
        : > "$FAKE_LOG"
        run "$toy/freezer" words
        is "$(cat "$FAKE_LOG")$err" "" "what the call behind that does and tells"
    done <<'END'
:|00000 0
echo more >> "$toy/crates/c/src/lib.rt"|00101 0
mkdir "$toy/crates/d/specs"; echo more > "$toy/crates/d/specs/D.antt"; touch "$toy/crates/d/src"|00000 2
touch "$toy/crates/c/src/lib.rt"|00000 2
rm "$toy/crates/freezer/out/freezer"|00000 1
touch "$toy/crates.txt"|00000 5
mkdir -p "$toy/crates/other/src"|00000 0
export FAKE_KIT="rattle-kit-1 $(cat "$toy/build/kit")"; touch "$toy/crates/d/src/lib.rt"|00000 5
END
}

# Whether a folder of a crate's out/ is there.
kept() { [ -d "$toy/crates/$1/out/$2" ] && echo yes || echo no; }

# Each crate leaves a megabyte; both programs stand on a and b. In: the most that is left, in kilobytes;
# whether all is to be kept. Out: whether the libraries of a, b, c and d are there, and the work of a.
test_what_is_left_behind_has_a_limit() {
    local row name
    for row in '2500|yes yes no no no' '5000|yes yes yes yes no' '3500|yes yes yes no no' '0|yes yes no no no' \
        '0 FREEZER_KEEP=1|yes yes yes yes yes'; do
        make_toy_of_two
        forget
        for name in a b c d; do echo 1000 > "$toy/crates/$name/src/kilobytes"; done
        # shellcheck disable=SC2086
        set -- ${row%|*}
        sed -i "s/^most_left=.*/most_left=$1/" "$toy/build/prove.sh"
        run env "${@:2}" "$toy/freezer" words
        is "$status $(kept a rlib) $(kept b rlib) $(kept c rlib) $(kept d rlib) $(kept a incremental)" \
            "7 ${row#*|}" "what is left of $row"
        has "$err" "left behind: 0.0 GB in crates/*/out, with which a build after a change begins"
        has "$err" "rm -rf $toy/crates/*/out/{rlib,incremental} frees it"
        : > "$FAKE_LOG"
        run "$toy/atlas" words
        is "$status $(proved) $(count 'begin atlas ')" "7 00000 1" "what the other program proves then"
    done
}
