# shellcheck shell=bash
# The pages: links and anchors, numbers that count the repository itself, and sizes.

test_the_pages_hold_together() {
    run "$repository/tools/check-pages"
    is "$status" 0 "the status, with $out"
}

test_faults_of_pages_are_seen() {
    local row
    mkdir -p "$room/book/docs"
    cd "$room" || exit 1
    printf '# A book\n\n[one](docs/one.md#a-part) [gone](docs/gone.md) [two](docs/one.md#two-parts-1)\n' > book/README.md
    printf '# One\n\n## A `part`\n\nAll 214 edits of its 37 crates. A text has at most 10,000 lines.\n' > book/docs/one.md
    printf '\n```\n[no link](nowhere.md)\n```\n\n[back](../README.md#a-book) [out](../../README.md)\n' >> book/docs/one.md
    run "$repository/tools/check-pages" book
    is "$status" 1 "the status"
    for row in 'README.md: docs/gone.md is not there' \
        'README.md: docs/one.md#two-parts-1: there is no such heading' \
        'docs/one.md: ../../README.md is not there' \
        'docs/one.md:5: counts the repository: 214 edits' \
        'docs/one.md:5: counts the repository: 37 crates' \
        '2 pages, 5 faults'; do
        has "$out" "$row"
    done
    yes 'A page that is too large.' | head -n 1000 > book/docs/large.md
    run "$repository/tools/check-pages" book
    has "$out" "docs/large.md: 26000 bytes, and 20480 at most"
}
