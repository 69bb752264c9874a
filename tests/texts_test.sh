# shellcheck shell=bash
# The rules texts of examples/ stand a second time where laws are stated of them, in the specs of
# frz_worked, and where a program of the gate reads them, in its data/. Both are the same texts.

# A text of the specs, in which it is the sum of its pieces: `codes "LINE\n"`.
text_of_specs() {
    awk -v name="$1" '
        $1 == name && $2 == "=" { inside = 1; next }
        inside && !/codes "/ { exit }
        inside {
            sub(/^[^"]*"/, "")
            sub(/"[^"]*$/, "")
            gsub(/\\n/, "\n")
            printf "%s", $0
        }' "$repository"/crates/frz_worked/specs/*.antt
}

test_the_texts_of_the_laws_are_those_of_the_examples() {
    local name names
    mapfile -t names < <(sed -n 's/^unfoldable pub \(.*\)_text : List ℕ$/\1/p' "$repository"/crates/frz_worked/specs/*.antt)
    is "${#names[@]}" 9 "the texts of which laws are stated"
    for name in "${names[@]}"; do
        text_of_specs "${name}_text" > "$room/text"
        cmp "$room/text" "$repository/examples/$name" || fail "$name"
    done
}

test_the_texts_that_programs_of_the_gate_read_are_those_of_the_examples() {
    local text name
    for text in "$repository"/crates/{table,atlas}_examples/data/*; do
        name=$(basename "$text")
        # `bounds` is no text: each program has its own.
        if [ "$name" = bounds ] || [ ! -e "$repository/examples/$name" ]; then
            continue
        fi
        cmp "$text" "$repository/examples/$name" || fail "$name"
    done
}
