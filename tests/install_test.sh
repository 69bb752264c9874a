# shellcheck shell=bash
# build/install and build/package, with programs that are fakes.

# The toy with both programs, the tools and the pages; pandoc takes its time, so a fake one copies.
make_whole_toy() {
    local name
    make_built_toy_of_two
    mkdir -p "$toy/crates/freezer/out"
    cp "$repository/tests/fake/program" "$toy/crates/freezer/out/freezer"
    for name in docs tools examples README.md; do
        cp -rL "$repository/$name" "$toy/"
    done
    printf '#!/bin/sh\ncat\n' > "$room/bin/pandoc"
    chmod +x "$room/bin/pandoc"
    prefix="$room/a prefix"
    run "$toy/build/install" "$prefix"
    is "$status $out" "0 " "what comes of the installation, with $err"
}

test_what_is_installed_answers() {
    make_whole_toy
    has "$err" "files below $prefix; proved with rattle-kit-0 $(cat "$repository/build/kit"), at commit "
    has "$err" "$prefix/bin is not on the PATH"
    mv "$toy" "$room/gone"
    run "$prefix/bin/freezer" words
    is "$status $out $err" "7 words " "the answer of freezer"
    run "$prefix/bin/atlas" words
    is "$status $out $err" "7 words " "the answer of atlas"
    echo 'echo new > "$3"; echo "built 1"' > A
    echo old > table
    run "$prefix/bin/freezer" build A table
    is "$status $out $(cat table)" "0 built 1 new" "a table that is there"
    run "$prefix/bin/freezer-uci" nowhere
    is "$status $err" "1 freezer-uci: nowhere: No such file or directory" "the engine without a table"
    run "$prefix/bin/freezer-draft" --help
    is "$status" 0 "the draft's help"
    has "$(zcat "$prefix/share/man/man1/freezer.1.gz")" "freezer - solve blocked chess endings"
    has "$(zcat "$prefix/share/man/man5/freezer-rules.5.gz")" "freezer-rules - rules texts"
    has_not "$(zcat "$prefix/share/man/man1/freezer.1.gz")" "./freezer"
    # shellcheck source=/dev/null
    . "$prefix/share/bash-completion/completions/atlas"
    is "$(offered atlas s)" "size" "the completion"
}

test_an_installation_replaces_a_former_one() {
    make_whole_toy
    echo mine > "$prefix/bin/mine"
    echo former >> "$prefix/lib/freezer/installed"
    echo old > "$prefix/former"
    cp "$prefix/lib/freezer/installed" listed
    run "$toy/build/install" "$prefix"
    is "$status" 0 "the status"
    [ ! -e "$prefix/former" ] || fail "what is not installed any more is still there"
    is "$(diff listed "$prefix/lib/freezer/installed" | sed 1d)" "< former" "what is on the list"
    is "$(find "$prefix" -name '*.unfinished-*')" "" "what is not whole"
    run "$toy/build/install" --remove "$prefix"
    is "$status" 0 "the status of the removal"
    is "$(cd "$prefix" && find . -type f -o -type l)" "./bin/mine" "what is left"
}

test_a_removal_of_nothing_is_told() {
    make_toy
    run "$toy/build/install" --remove "$room/prefix"
    is "$status $err" "1 install: nothing of this is installed below $room/prefix" "the answer"
}

test_programs_that_are_not_built_are_not_installed() {
    make_toy
    run "$toy/build/install" "$room/prefix"
    is "$status $err" "1 install: wanted: the proved programs. freezer is not built; ./freezer builds it once" "the answer"
    [ ! -e "$room/prefix" ] || fail "something is installed"
    run "$toy/build/install" one two
    is "$status $err" "2 install: usage: build/install [--remove] [PREFIX]" "two folders"
}

test_a_prefix_that_cannot_be_written_is_told() {
    make_whole_toy
    mkdir locked
    chmod -R a+rwX "$room"
    chmod a-w locked
    run as_user "$toy/build/install" "$room/locked/in"
    is "$status" 1 "the status"
    has "$err" "could not be written"
}

test_a_package_holds_what_is_installed() {
    local name
    for name in dpkg-deb dpkg-shlibdeps strip; do
        command -v "$name" >/dev/null || return 0
    done
    make_whole_toy
    for name in freezer atlas; do
        cp "$(command -v true)" "$toy/crates/$name/out/$name"
    done
    printf '#!/bin/sh\nexit 0\n' > "$room/bin/lintian"
    chmod +x "$room/bin/lintian"
    DEBEMAIL=me@example.org run "$toy/build/package" "$room"
    is "$status" 0 "the status, with $err"
    dpkg-deb -x "$out" "$room/held"
    diff <(cd "$room/held/usr" && find . -type f -o -type l | grep -v 'doc/freezer/c[ho]' | sort) \
        <(cd "$prefix" && find . -type f -o -type l | grep -v 'freezer/installed' | sort) || fail "other files"
    has "$(dpkg-deb -f "$out" Depends)" "libc6"
    has "$(dpkg-deb -f "$out" Description)" "are proved with rattle-kit-0"
    is "$(head -n 1 "$room/held/usr/lib/freezer/tools/uci")" "#!/usr/bin/python3" "the interpreter"
}
