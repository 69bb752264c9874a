# shellcheck shell=bash
# Composes what is installed for users, in a folder of its own: the programs with their scripts, the tools, the
# pages, as man pages too, examples, and completion. Sourced by build/install and build/package, which have
# `top` and `tell`.

# What stands in tools/ for users, and what it is made of.
tools_for_users=(draft explore proof-page uci longest-win compare-tables bounds-against-stockfish)
parts_of_tools=(board drafting engine lib proving)
parts_of_scripts=(program.sh words.sh usage.sh usage.txt beside.sh watch.sh completion.bash)

# The programs are built, and no source is newer.
are_built() {
    local name
    for name in freezer atlas; do
        if [ ! -x "$top/crates/$name/out/$name" ]; then
            tell "wanted: the proved programs. $name is not built; ./$name builds it once"
            return 1
        fi
    done
}

# Puts a file of the repository into the stage, with this mode.
put() { install -D -m "$1" "$top/$2" "$stage/$3"; }

# Composes everything below the folder $1, which becomes PREFIX.
compose() {
    local name
    stage=$1
    for name in freezer atlas; do
        put 755 "$name" "lib/freezer/$name"
        put 755 "crates/$name/out/$name" "lib/freezer/crates/$name/out/$name"
        put_link "../lib/freezer/$name" "bin/$name"
        put_link ../../../lib/freezer/build/completion.bash "share/bash-completion/completions/$name"
    done
    for name in "${parts_of_scripts[@]}"; do
        put 644 "build/$name" "lib/freezer/build/$name"
    done
    compose_tools
    compose_pages
    where_proved > "$stage/lib/freezer/proved"
}

put_link() {
    mkdir -p "$stage/${2%/*}"
    ln -s "$1" "$stage/$2"
}

compose_tools() {
    local name file
    put 755 prove lib/freezer/prove
    put_link ../lib/freezer/prove bin/freezer-prove
    for name in "${tools_for_users[@]}"; do
        put 755 "tools/$name" "lib/freezer/tools/$name"
        put_link "../lib/freezer/tools/$name" "bin/freezer-$name"
    done
    while read -r file; do
        put 644 "tools/$file" "lib/freezer/tools/$file"
    done < <(cd "$top/tools" && find "${parts_of_tools[@]}" -name refusals -prune -o -type f -not -name '*.pyc' -print)
}

compose_pages() {
    local file
    for file in "$top"/examples/*; do
        [ "${file##*/}" = run ] || put 644 "examples/${file##*/}" "share/freezer/examples/${file##*/}"
    done
    put_link ../../share/freezer/examples lib/freezer/examples
    put_link ../../freezer/examples share/doc/freezer/examples
    put 644 README.md share/doc/freezer/README.md
    while read -r file; do
        put 644 "docs/$file" "share/doc/freezer/docs/$file"
    done < <(cd "$top/docs" && find . -type f -printf '%P\n')
    if ! command -v pandoc >/dev/null; then
        tell "no man pages: pandoc makes them (Debian's package pandoc)"
        return
    fi
    page_of_commands freezer "solve blocked chess endings, by tables that are proved right" | man_page freezer 1
    page_of_commands atlas "tables of chess endings over follow-up tables, and reasons" | man_page atlas 1
    page_of_rules | man_page freezer-rules 5
    page_of_prove | man_page freezer-prove 1
    for file in "${tools_for_users[@]}"; do
        page_of_tool "$file" | man_page "freezer-$file" 1
    done
}

# The man page $1 of section $2, of the Markdown that is read. Programs and tools have the names under which they
# are installed, and tables become lists, since a terminal is narrow.
man_page() {
    local made="$stage/share/man/man$2/$1.$2"
    mkdir -p "${made%/*}"
    {
        sed -E "s#\\./(freezer|atlas)\\b#\\1#g; s#\\./prove\\b#freezer-prove#g; s#tools/($(IFS='|' && echo "${tools_for_users[*]}"))\\b#freezer-\\1#g"
        printf '\n## SEE ALSO\n\nfreezer(1), atlas(1), freezer-rules(5); the pages in share/doc/freezer\n'
    } | pandoc -f gfm -t man -s --shift-heading-level-by=-1 --lua-filter "$top/build/man.lua" \
        -M title="${1^^}" -V section="$2" -V header="Freezer" -V date="$(cd "$top" && git log -1 --format=%cs 2>/dev/null)" |
        gzip -n9 > "$made.gz"
}

name_of_page() { printf '## NAME\n\n%s - %s\n\n' "$1" "$2"; }

# The page on the commands, for the program $1, without its title, its list of commands, which comes first, and
# what is about the repository alone.
page_of_commands() {
    name_of_page "$1" "$2"
    # shellcheck disable=SC2016 # marks of a block
    printf '## SYNOPSIS\n\n```\n%s\n```\n\n## DESCRIPTION\n\n' "$(grep "^$1 " "$top/build/usage.txt")"
    awk '
        /^```/ { fenced = !fenced; if (blocks < 2) { blocks += 1; next } }
        NR == 1 || blocks == 1 || /^The first call proves and builds/ { next }
        !fenced && /^## / { skips = /^## (Without a proof|Installed)/ }
        !skips' "$top/docs/users/commands.md"
}

page_of_rules() {
    name_of_page freezer-rules "rules texts of Freezer"
    printf '## DESCRIPTION\n'
    sed 1d "$top/docs/users/rules.md"
    printf '\n## THE LANGUAGE, EXACTLY\n'
    awk '/^## / { on = $0 == "## Rules"; next } on' "$top/docs/users/formats.md"
}

page_of_prove() {
    name_of_page freezer-prove "prove what can be proved of a chess position"
    printf '## DESCRIPTION\n'
    sed 1d "$top/docs/users/guide.md"
}

# What tools/README.md says of a tool; its own first line names it.
page_of_tool() {
    local about
    about=$(sed -n '2s/^"""\(.*[^.]\)\.*$/\1/p' "$top/tools/$1")
    name_of_page "freezer-$1" "${about,}"
    printf '## DESCRIPTION\n'
    awk -v tool="$1" '/^##? / { on = $0 == "## `" tool "`"; next } on' "$top/tools/README.md"
}

# With which kit the programs were proved, and at which commit.
where_proved() {
    local kit commit
    kit=$(rt version 2>/dev/null | head -n 1) || kit=$(cat "$top/build/kit")
    commit=$(cd "$top" && git describe --always --dirty 2>/dev/null) || commit=unknown
    echo "proved with ${kit:-$(cat "$top/build/kit")}, at commit $commit"
}
