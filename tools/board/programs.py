"""The built programs that are asked, and the tables of the command line; what is missing ends the tool with
one sentence."""

import os
import sys

from .calls import Calls, NotBuilt
from .head import NoTable
from .tables import ASKED, Tables

TOP = os.path.dirname(os.path.dirname(os.path.dirname(os.path.abspath(__file__))))
NAMES = ("freezer", "atlas")


def add_words(parser):
    """The words that name tables and programs."""
    parser.add_argument("table", metavar="TABLE", help="a table of freezer or of atlas, or a folder of ./prove")
    parser.add_argument("backs", metavar="BACK", nargs="*", help="the tables behind it, in their order")
    parser.add_argument("--program", help="the freezer that is asked; this repository's if not given")
    parser.add_argument("--atlas", help="the atlas that is asked; this repository's if not given")


def program_of(name, given):
    """The path of a program: the one that is given, or the built one. Its script would prove and build."""
    return os.path.abspath(given) if given else os.path.join(TOP, "crates", name, "out", name)


def calls_of(given):
    """The calls of the programs that these words name."""
    return Calls(dict(zip(NAMES, (program_of("freezer", given.program), program_of("atlas", given.atlas)))))


def tables_of(calls, paths):
    """The tables in these files."""
    refuse_position(paths[0])
    try:
        tables = Tables(calls, paths)
    except NoTable as why:
        sys.exit(f"{tool()}: {why}")
    find_programs(calls.programs, tables.heads)
    return tables


def refuse_position(word):
    """A position is no table: names who looks for one."""
    if " " in word and word.count("/") == 7 and not os.path.exists(word):
        sys.exit(
            f"{tool()}: this is a position, and a table is wanted. ./prove \"{word}\" looks for a proof of what "
            f"it is worth, and makes its tables; tools/draft \"{word}\" prints a first rules text for one"
        )


def find_programs(programs, heads):
    """Ends where a program is not there that these tables are asked by."""
    for name in sorted({"freezer"} | {ASKED[head.kind][0] for head in heads}):
        if not os.access(programs[name], os.X_OK):
            sys.exit(f"{tool()}: {NotBuilt(name)} ({programs[name]})")


def tool():
    return os.path.basename(sys.argv[0])
