# shellcheck shell=bash
# ./prove: its words, its verdicts on rows of tables that are right or spoiled, and the folder, by the built programs or
# else by a slow reading of small sets.

test_prove_says_no_more_than_the_files_show() {
    run "$repository/tools/check-prove"
    is "$status" 0 "the status, with $out"
}

test_prove_says_what_to_build() {
    make_toy
    cp -r "$repository/prove" "$repository/tools" "$toy"
    run "$toy/prove" "8/8/8/3Kp3/4Pk2/8/8/8 w - - 0 1"
    is "$status $out" "2 " "the answer where nothing is built"
    has "$err" "freezer is not built yet"
    is "$(cat "$FAKE_LOG")" "" "checks: no program is built for this"
}
