# shellcheck shell=bash
# tools/explore, asked without a browser, with a program whose answers are written by hand.

test_explore_tells_the_page_what_the_program_says() {
    run "$repository/tools/check-explore"
    is "$status" 0 "the status, with $out"
}
