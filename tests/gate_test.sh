# shellcheck shell=bash
# .ci/run: the status of rt ci decides, and that of these tests behind it.

make_gate() {
    make_toy
    cp -r "$repository/.ci" "$toy"
    printf '#!/bin/sh\necho "tests run"\nexit %s\n' "$1" > "$toy/tests/run"
    chmod +x "$toy/tests/run"
}

test_the_gate_runs_the_tests_behind_the_proofs() {
    make_gate 0
    run "$toy/.ci/run"
    is "$status $out" $'0 3 passed, 0 failed\ntests run' "the answer"
}

test_the_gate_ends_where_the_proofs_fail() {
    make_gate 0
    FAKE_CI=1 run "$toy/.ci/run"
    is "$status $out" "1 3 passed, 0 failed" "the answer"
    FAKE_CI=2 run "$toy/.ci/run"
    is "$status" 2 "the status"
}

test_the_gate_fails_where_the_tests_do() {
    make_gate 1
    run "$toy/.ci/run"
    is "$status" 1 "the status"
}
