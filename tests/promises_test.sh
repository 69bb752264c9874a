# shellcheck shell=bash
# docs/proofs/promises.md names the calls and clauses that stand in the crates, and leaves none out; and the tools
# that print what a definition rests on, and what the repository has.

# A toy repository of two crates, lower and upper; the page names a clause that is gone, and leaves a law out.
make_book() {
    book=$room/book
    mkdir -p "$book"/{tools/lib,docs/proofs,tests,crates/{lower,upper}/{src,specs,proofs,must-fail}}
    cp "$repository"/tools/{check-promises,definitions,facts} "$book/tools"
    cp "$repository"/tools/lib/{contracts,crates,definitions}.py "$book/tools/lib"
    printf '# a toy\nfreezer: upper\nupper: lower arrayvec\nlower:\natlas:\nlibrary_example:\n' > "$book/crates.txt"
    printf '# accessors\n* *::new\n' > "$book/tools/lib/promises.txt"
    printf '# Promises\n\n## `upper`\n\n| | |\n|---|---|\n| `Set::add: has, gone` `Means: says` | it |\n' \
        > "$book/docs/proofs/promises.md"
    cat > "$book/crates/upper/src/lib.rt" <<'TOY'
pub mod laws;
mod set;
pub use set::Set;
TOY
    cat > "$book/crates/upper/src/laws.rt" <<'TOY'
pub fn one_set()
    ensures { (a b : Set) → a ≡ b }
{}
TOY
    cat > "$book/crates/upper/src/set.rt" <<'TOY'
impl<A: Order> Set<A> {
    pub fn new() -> Set<A>
        ensures empty { result ≡ [] }
    {}

    pub fn size(&self) -> u32
        ensures { result ≡ length self.now }
    {}

    pub fn add(&mut self, a: A)
        requires room { ⊤ }
        ensures has { Has self.new a }
        ensures keeps { self.old ⊆ self.new }
    {}

    fn hidden(&self)
        ensures never { ⊤ }
    {}
}
TOY
    cat > "$book/crates/upper/specs/Meaning.antt" <<'TOY'
-- What an answer means.
use Rattle.lower.specs.Words.{even, odd as not_even}

-- a record of what is said
pub record Means (n : ℕ) : Type 0 where
  pub says : twice n ≡ n
  -- and its number is even
  pub number : even n ≡ true

abbrev pub twice : ℕ → ℕ
twice n = n + n

abbrev pub unused : ℕ → Bool
unused n = not_even n
TOY
    cat > "$book/crates/lower/specs/Words.antt" <<'TOY'
-- Words on numbers.

unfoldable pub even : ℕ → Bool
even zero = true
even (suc n) = odd n

abbrev pub odd : ℕ → Bool
odd zero = false
odd (suc n) = even n

abbrev pub number : ℕ
number = zero
TOY
}

test_the_promises_are_those_of_the_crates() {
    run "$repository/tools/check-promises"
    is "$status $out" '0 0 differences' 'what the page and the crates do not share'
}

# The definitions that the page on reading has printed are there, each with what it rests on.
test_the_definitions_that_a_sceptic_reads_are_there() {
    local name names
    mapfile -t names < <(sed -n 's,^tools/definitions .* \([^ ]*\)$,\1,p' "$repository/docs/proofs/reading.md")
    [ "${#names[@]}" -gt 2 ] || fail "few definitions: ${names[*]}"
    for name in "${names[@]}"; do
        run "$repository/tools/definitions" "$name"
        is "$status" 0 "the status at $name, with $err"
        has "$out" 'frz_fide Legal: '
        has "$out" 'frz_arena Chess: '
    done
}

# The drawing of the floors has each crate but those of tests and examples; it leaves out frz_.
test_the_drawing_of_the_floors_has_each_crate() {
    local crate drawn
    drawn=$(awk '/^```/ { if (seen) exit; seen = 1; next } seen' "$repository/docs/developers/design.md" | grep -oE '[a-z_]+')
    while read -r crate; do
        case "$crate" in frz_worked* | *_examples | library_example | test_tables) continue ;; esac
        grep -qx "${crate#frz_}" <<< "$drawn" || grep -qx "${crate#frz_commands}" <<< "$drawn" || fail "$crate is not drawn"
    done < <(sed -n 's/^\([a-z_]*\):.*/\1/p' "$repository/crates.txt")
}

test_a_promise_that_nothing_keeps_is_named() {
    make_book
    run "$book/tools/check-promises"
    is "$status $out" "1 no clause of Set::add: gone
no row: upper: laws::one_set
2 differences" 'what was said'
    sed -i 's/gone/keeps/; s/Means: says/one_set/' "$book/docs/proofs/promises.md"
    echo 'lower *::old' >> "$book/tools/lib/promises.txt"
    run "$book/tools/check-promises"
    is "$status $out" "1 no call for this line of promises.txt: lower *::old
1 differences" 'what was said of a line that nothing needs'
}

test_the_calls_of_a_crate_are_listed() {
    make_book
    sed -i 's,^    pub fn add,    /// Puts a\n    /// thing in.\n&,' "$book/crates/upper/src/set.rt"
    run "$book/tools/check-promises" --list upper
    is "$status $out" "0 laws::one_set: one clause
Set::new: empty
Set::size: one clause
Set::add: has, keeps
    Puts a thing in." 'the calls'
    run "$book/tools/check-promises" --list gone
    is "$status $err" '1 gone: no crate of crates.txt' 'the refusal'
}

test_what_a_definition_rests_on_is_printed() {
    make_book
    run "$book/tools/definitions" Means
    is "$status $out" "0 lower Words: even, odd
upper Meaning: Means, twice
types and constants:
4 definitions in 2 modules, 13 lines with comments" 'the names'
    run "$book/tools/definitions" --whole Means
    has "$out" "== crates/lower/specs/Words.antt

-- Words on numbers.

unfoldable pub even"
    has "$out" "-- a record of what is said
pub record Means (n : ℕ) : Type 0 where
  pub says : twice n ≡ n
  -- and its number is even
  pub number"
    has_not "$out" unused
    run "$book/tools/definitions" --but even Means
    is "$status $out" "0 upper Meaning: Means, twice
types and constants:
2 definitions in 1 modules, 7 lines with comments" 'the names without those of another'
    run "$book/tools/definitions" gone
    is "$status $err" '1 gone: no definition of specs/ has this name' 'the refusal'
    sed 's/even/odd_one/g' "$book/crates/lower/specs/Words.antt" > "$book/crates/lower/specs/More.antt"
    run "$book/tools/definitions" odd
    is "$status $err" '1 odd: which of lower/More/odd, lower/Words/odd' 'the question'
    run "$book/tools/definitions" More/odd
    has "$out" 'lower More: odd_one, odd'
}

test_what_the_repository_has_is_counted() {
    make_book
    mkdir -p "$book/evidence/must-fail/upper"
    touch "$book/crates/lower/must-fail/one.edit" "$book/evidence/must-fail/upper/two.edit"
    printf '#[test]\nfn a() {}\n' >> "$book/crates/lower/src/tests.rt"
    printf 'test_a() {\n}\ntest_b() { :; }\n' > "$book/tests/a_test.sh"
    run "$book/tools/facts"
    has "$out" "$(printf '%-24s%9s%9s%9s' upper 14 25 0)"
    has "$out" 'crates: 5
must-fail edits: 1 in the gate, 1 in evidence/
tests: 1 in the crates, 2 of the scripts'
}
