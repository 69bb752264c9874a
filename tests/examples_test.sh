# shellcheck shell=bash
# examples/run: what is built for the lines of `bounds`, and how its answers are compared.

# A folder of examples with programs that answer as the file ANSWERS beside each text says.
make_examples() {
    here=$room/top/crates/rules_examples/data
    mkdir -p "$here"
    cp "$repository/examples/run" "$here/run"
    cat > "$room/top/freezer" <<'END'
#!/bin/sh
echo "${0##*/} $(for word; do printf '%s ' "${word##*/}"; done)" >> "$FAKE_LOG"
case "$1" in
    build) : > "$3"; echo "built 1" ;;
    chain) : > "$4"; echo "chained 1" ;;
    chaincheck) echo "exact 1 on 1" ;;
    check) if [ $# -gt 2 ]; then shift 2; printf 'exact 1 over'; printf ' 1%.0s' "$@"; echo; else echo "exact 1"; fi ;;
    premises) cat "$2.premises" ;;
    *) printf 'white none\nblack holds\n' ;;
esac
END
    chmod +x "$room/top/freezer"
    cp "$room/top/freezer" "$room/top/atlas"
    export FAKE_LOG=$room/log
    cat > "$here/bounds" <<'END'
# RULES | FEN | WHITE | BLACK
A | 8/8 w | none | holds
B | premises | rules; line 5 believed 8/8 b; believed 1
C over A B | premises | back 1; back 2; rules; believed 0
C over A B | 8/8 w | none | holds
D on A | 8/8 w | none | holds
D on A | premises | back 1; rules; believed 0
END
    printf 'rules\nline 5 believed 8/8 b\nbelieved 1\n' > "$here/B.premises"
    printf 'back 1\nback 2\nrules\nbelieved 0\n' > "$here/C.premises"
    printf 'back 1\nrules\nbelieved 0\n' > "$here/D.premises"
}

test_examples_compare_bounds_and_premises() {
    make_examples
    run "$here/run"
    is "$status $err" "0 " "the status"
    has "$out" "all as wanted"
    has "$out" "rules, line 5 believed 8/8 b, believed 1"
    is "$(grep '^freezer' "$FAKE_LOG" | grep -v query | cut -d ' ' -f 2-)" "build A A.t 
build B B.t 
chain D A.t D-on-A.t 
chaincheck D-on-A.t A.t " "what freezer builds and checks: A and B are checked with D and C"
    is "$(grep '^atlas' "$FAKE_LOG" | cut -d ' ' -f 2-)" "premises B 
build C C-over-A-B.t A.t B.t 
check C-over-A-B.t A.t B.t 
query C-over-A-B.t 8 w 
premises C A.t B.t 
premises D A.t " "what atlas is asked"
}

test_examples_remove_tables_that_are_not_needed_again() {
    make_examples
    sed -i '/^D/d' "$here/bounds"
    printf 'E | 8/8 w | none | holds\n' >> "$here/bounds"
    # shellcheck disable=SC2016 # the fake program tells the tables beside the one that it shall make
    sed -i 's,^case,[ "$1" = build ] \&\& echo "$2 beside" "${3%/*}"/*.t >> "$FAKE_LOG"; case,' "$room/top/freezer" "$room/top/atlas"
    run "$here/run"
    is "$status $err" "0 " "the status"
    is "$(grep ' beside ' "$FAKE_LOG" | sed 's,[^ ]*/,,g')" "A beside *.t
B beside A.t
C beside A.t B.t
E beside *.t" "the tables that are there when one is built"
}

test_examples_tell_other_premises() {
    make_examples
    printf 'rules\nbelieved 0\n' > "$here/B.premises"
    run "$here/run" B
    is "$status" 1 "the status"
    has "$out" "premises $here/B: rules, believed 0; wanted: rules, line 5 believed 8/8 b, believed 1"
}

test_examples_tell_times_and_check_each_table_where_that_is_wanted() {
    make_examples
    mkdir "$room/bin"
    # shellcheck disable=SC2016 # the fake program reads its words: -o FILE -f FORMAT PROGRAM ..
    printf '#!/bin/sh\necho 1.50 0.25 2500 > "$2"\nshift 4\n"$@"\n' > "$room/bin/time"
    chmod +x "$room/bin/time"
    PATH=$room/bin:$PATH run "$here/run" --times
    is "$status $err" "0 " "the status"
    has "$out" "  built 1 (1.75 s, 3 MB)"
    has "$out" "rules, line 5 believed 8/8 b, believed 1 (1.75 s, 3 MB)"
    is "$(grep '^freezer check ' "$FAKE_LOG" | cut -d ' ' -f 2-)" "check A.t " "what is checked by itself"
}
