# Prints rules of make that prove all on which a program stands and build it; check.sh does the work of a rule.
# In: the lines FILE:COUNT of `grep -c ensures` over crates/*/src, and then crates.txt.
# -v program=NAME -v jobs=N: N is for the checks of the longest chain of crates, for which all wait in the end.
# -v want=spare: the crates on which not both programs stand, the highest first, and no rules.

FNR == NR {
    split($0, part, "/")
    sub(/.*:/, "")
    clauses[part[2]] += $0
    next
}

/^[^#]/ {
    name = $1
    sub(/:$/, "", name)
    $1 = ""
    stands_on[name] = $0
    names[++lines] = name
}

END {
    if (want == "spare") print_spare()
    else print_rules()
}

# Sets below[TOP, 1 ..], all that TOP stands on and TOP itself, each behind what it stands on.
function gather(top, crate,    on, at, many) {
    if (!(crate in stands_on) || (top, crate) in is_below) return
    is_below[top, crate] = 1
    many = split(stands_on[crate], on)
    for (at = 1; at <= many; at++) {
        edge[crate, on[at]] = 1
        gather(top, on[at])
    }
    below[top, ++size[top]] = crate
}

function print_spare(    at) {
    gather("freezer", "freezer")
    gather("atlas", "atlas")
    for (at = lines; at; at--)
        if (!(("freezer", names[at]) in is_below && ("atlas", names[at]) in is_below)) print names[at]
}

# Make starts the first that may start, so those stand first for which most waits.
function print_rules(    count, goals, crate, at) {
    gather(program, program)
    for (count = 1; count <= size[program]; count++) {
        crate = ""
        for (at = 1; at <= size[program]; at++)
            if (!(below[program, at] in placed) && waiting(below[program, at]) > waiting(crate))
                crate = below[program, at]
        placed[crate] = 1
        goals = goals " " stamp(crate)
        if (count == 1) mark_longest(crate)
    }
    print ".PHONY: prove\nprove:" goals
    print ".PRECIOUS:" goals
    print "sources := $(shell find crates/*/src crates/*/specs crates/*/proofs 2>/dev/null)"
    for (at = 1; at <= size[program]; at++) print_rule(below[program, at])
}

function print_rule(crate,    on, at, many) {
    printf "%s: crates.txt out/kit $(filter crates/%s/%%,$(sources))", stamp(crate), crate
    many = split(stands_on[crate], on)
    for (at = 1; at <= many; at++)
        if (on[at] in stands_on) printf " %s", stamp(on[at])
    printf "\n\t@build/check.sh %s $(count) %s %d", program, crate, crate in longest ? jobs : 1
    gather(crate, crate)
    for (at = 1; at < size[crate]; at++) printf " %s", below[crate, at]
    print ""
}

# The file that rt writes when the crate is proved, or the program built.
function stamp(crate) {
    return "crates/" crate "/out/" (crate == program ? crate ".stamp" : "rlib/stamp")
}

# The work of the longest chain of crates from this one up; `next_up` is the crate above it there.
# A check takes about as long as the crate has clauses, and as ten before the first.
function waiting(crate,    at, other) {
    if (crate == "" || crate in work) return work[crate]
    for (at = 1; at <= size[program]; at++) {
        other = below[program, at]
        if ((other, crate) in edge && waiting(other) > work[next_up[crate]]) next_up[crate] = other
    }
    return work[crate] = 10 + clauses[crate] + work[next_up[crate]]
}

function mark_longest(crate) {
    for (; crate != ""; crate = next_up[crate]) longest[crate] = 1
}
