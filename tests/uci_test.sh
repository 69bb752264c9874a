# shellcheck shell=bash
# tools/uci in a scripted session, and in games where the programs are built.

test_uci_tells_a_chess_program_what_the_program_says() {
    run "$repository/tools/check-uci" --no-board
    is "$status" 0 "the status, with $out"
}
