"""The Makefile of a proof's folder: builds and checks all of it again from the texts alone, with nothing but
the two programs."""

from proving.asking import table_of, text_of

HEAD = """# Builds the tables of this proof from its texts, checks all of them, and asks them again: make -j
# The programs by a path or on the PATH: make -j FREEZER=/path/to/freezer ATLAS=/path/to/atlas
# What is built stays, so a call that was cut off goes on from there. RUN stands before each call of a
# program, for a machine that hands out work: make -j 16 RUN='srun -n 1'
FREEZER ?= freezer
ATLAS ?= atlas
RUN ?=
SUMS ?= sha256sum

.DELETE_ON_ERROR:
.PHONY: proof clean

# The answers and the sums have to be those from which the verdict was worded.
"""


def makefile(row, fen, told):
    """The text of the Makefile, for the cells of a row and those of them that are asked."""
    tables = " ".join(table_of(cell.name) for cell in row)
    parts = [HEAD, *proof_rule(told, tables)]
    for cell in row:
        parts.append(build_rule(cell))
    for each in told:
        parts.append(verdict_rule(each, fen))
    parts.append(f"clean:\n\trm -f {tables} {' '.join(answers_of(told))} *.new\n")
    return "\n".join(parts)


def answers_of(told):
    return [f"{each.name}.verdict" for each in told]


def proof_rule(told, tables):
    answers = " ".join(answers_of(told))
    yield f"proof: {tables} {answers}"
    yield f"\t@cat {answers} | cmp - ANSWERS"
    yield "\t@$(SUMS) -c SHA256SUMS > /dev/null"
    yield "\t@cat VERDICT\n"


def behind(over):
    return "".join(f" {table_of(name)}" for name in over)


def build_rule(cell):
    made, text = table_of(cell.name), text_of(cell.name)
    return (
        f"{made}: {text}{behind(cell.over)}\n"
        f"\t$(RUN) {'$(ATLAS)' if cell.over else '$(FREEZER)'} build {text} $@.new{behind(cell.over)} && mv $@.new $@\n"
    )


def verdict_rule(told, fen):
    """A file for what is said by one table."""
    table, over = table_of(told.name), behind(told.over)
    return f'{told.name}.verdict: {table}{over}\n\t$(RUN) $(ATLAS) verdict {table} "{fen}"{over} > $@\n'
