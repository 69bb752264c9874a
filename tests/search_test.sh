# shellcheck shell=bash
# The search of proofs: its parts against slow ones, and false claims where the programs are built.

test_the_parts_of_the_search_of_proofs() {
    run "$repository/tools/check-search" --walks 12 --program "$room/none" --atlas "$room/none"
    is "$out" "12 walks, no programs, no claims, 0 differences" "the search's parts"
    is "$status" 0 "the status"
}

test_no_false_claim_is_proved() {
    [ -x "$repository/crates/freezer/out/freezer" ] && [ -x "$repository/crates/atlas/out/atlas" ] || return 0
    run "$repository/tools/check-search" --walks 1 --false 2
    has "$out" "0 differences"
    is "$status" 0 "the status"
}
