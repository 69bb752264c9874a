"""Faults of the words of a call and of the files that they name, each with the answer of the pages."""

from collections import namedtuple

from lib.refusals import heads
from lib.refusals.fixtures import N, N_BLACK, N_WHITE, OUTSIDE, altered, table
from lib.tables import CHAINED, FORMER, LEANING, MAGIC

# What stands in a slot of a call instead of its right word: a text, the number of words for the slot
# COUNT, or the slot whose word it is. `content` is that of the file, where there is one of this name.
Fault = namedtuple("Fault", "slot word content status text says")
Same = namedtuple("Same", "slot")
# The faults of one stage of a command: all, and a few that are tried with those of other stages.
Stage = namedtuple("Stage", "all few")


def stage(found, few=4):
    found = list(found)
    return Stage(found, found if len(found) <= few else found[:: -(-len(found) // few)])


def count(least, most):
    """Too few words and too many."""
    wrong = [*range(least), most + 1, most + 2, most + 9]
    says = "commands.md, refused: too few words or too many"
    return stage([Fault("COUNT", n, None, 2, "words: count", says) for n in wrong], 3)


def same(*pairs):
    """Names that are given twice."""
    says = "commands.md, refused: the same name, compared after the words are counted"
    return stage([Fault(one, Same(other), None, 2, "words: same name", says) for other, one in pairs])


SIDES = ("", "White", "BLACK", "w", "b", "white ", " black", "white\n", "both", "draw", "white,black", "weiß", "0")


def side():
    says = "commands.md, refused: SIDE is neither `white` nor `black`; read after names, before FEN"
    return stage([Fault("SIDE", word, None, 2, "words: side", says) for word in SIDES], 3)


# Of each fault one; all are in `fens`.
FENS = (
    ("", "fields"), ("k7/8/1K6/8/8/8/8/7R b - - 0", "fields"), ("k7/8/1K7/8/8/8/8/7R b - - 0 1", "placement 6"),
    ("k7/8/1K6/8/8/8/8/7R/8 b - - 0 1", "placement 0"), ("k7/8/1K6/8/8/8/8/7R B - - 0 1", "turn"),
    ("k7/8/1K6/8/8/8/8/7R b K - 0 1", "castling"), ("k7/8/1K6/8/8/8/8/7R b - a6 0 1", "ep square"),
    ("k7/8/1K6/8/8/8/8/7R b - - 0 x", "clock"), ("8/8/1K6/8/8/8/8/7R b - - 0 1", "invalid kings"),
    ("k7/8/1K6/8/8/8/8/7P b - - 0 1", "invalid pawn rank"), ("k7/8/1K6/8/8/8/8/7R b - a3 0 1", "invalid ep place"),
    ("k6R/8/1K6/8/8/8/8/8 w - - 0 1", "invalid opponent in check"),
)


def fen():
    says = "formats.md, FEN: the first check that fails names the fault; commands.md, refused: no file is opened then"
    return stage([Fault("FEN", word, None, 4, f"fen: {cause}", says) for word, cause in FENS], 6)


def number():
    words = ("", "64", "99", "000000064", "0000000000", "0000000063", "-1", "+1", " 1", "1 ", "1\n", "a", "a1", "1.0",
             "0x1", "1e1", "999999999", "9999999999", "18446744073709551616", "６")
    says = "commands.md, refused: K is one to nine digits of a value up to 63"
    return stage([Fault("K", word, None, 2, "words: number", says) for word in words])


def lookups(slot, missing):
    """Names under which there is no file, and names that cannot be looked up."""
    for word in ("nowhere", "", "nowhere/t", "gone", "folder/t"):
        yield Fault(slot, word, None, 12, f"missing {missing}", "commands.md, refused: there is no file of that name")
    for word in ("folder", "folder/", "A/t", "A/", "loop", "n" * 256, "/"):
        yield Fault(slot, word, None, 8, "store fault", "decisions.md: a folder, or a path through a file, is no file")


RULES = (
    ("", "0: header"), ("freezer 2\n", "1: header"), ("#" * 65_537, "0: too long"),
    ("freezer 1\ngroup white 1 K:a9\n", "2: word 4"), ("freezer 1\n\nrule\n", "3: unknown line"),
    ("freezer 1\ngroup white 1 K:a1\n", "0: king group"),
    ("freezer 1\ngroup white 1 K:all\ngroup black 1 K:all\ngroup white 2 N:all\ngroup black 2 N:all\n"
     "group white 1 R:a1-a5\n", f"0: set too big {2 * 64 * 64 * 2016 * 2016 * 5}"),
)


def rules():
    found = list(lookups("RULES", "rules"))
    for text, cause in RULES:
        says = "formats.md, Causes: the first bad line and its first cause"
        found.append(Fault("RULES", "bad.rules", text.encode(), 3, f"rules {cause}", says))
    return Stage(found, [found[0], found[5], *found[-7::3]])


def opening(slot, prefix, wanted, missing, checked=(), is_named=False):
    """The faults of a table file that is opened, and of codes where it is checked at once."""
    name, found, few = f"{slot}.bad".replace(" ", ""), list(lookups(slot, missing)), []
    few += [found[0], found[5]]
    for magic in wanted:
        faulty = [*heads.single_faults(magic), *heads.paired_faults(magic), *heads.largest(magic)]
        faulty += heads.other_magics(wanted, is_named)
        found += [opened(slot, name, prefix, head) for head in faulty]
        few += [opened(slot, name, prefix, head) for head in heads.few_faults(magic)]
    return Stage([*found, *checked], [*few, *checked])


def opened(slot, name, prefix, head):
    return Fault(slot, name, head.content, 5, f"{prefix}: {head.cause}", f"formats.md, Table files, {head.step}")


def plain(slot="TABLE"):
    return opening(slot, "table", (MAGIC,), "table")


def chained():
    return opening("TABLE", "table", (CHAINED,), "table")


def either():
    """TABLE of `atlas`, plain or over others."""
    return opening("TABLE", "table", (MAGIC, LEANING), "table", is_named=True)


def former():
    return opening("OLD", "table", (FORMER,), "table")


# White's code at 0 is that of a win within 2, where each move leaves the set by an exit that he wins.
WRONG_N = table(N, altered(N_WHITE, at0=6), N_BLACK)
WRONG = "wrong white 0 kept 6 given 4"


def back():
    """The one back table of `chain` and `chaincheck`, which is checked before the table over it."""
    checked = [Fault("BACK", "BACK.wrong", WRONG_N, 6, f"back {WRONG}", "commands.md, refused: the first wrong entry")]
    return opening("BACK", "back", (MAGIC,), "back", checked)


def behind(place, is_checked):
    """A BACK of `atlas`, at its place."""
    slot = f"BACK {place}"
    says = "commands.md, refused: the first entry that is not its local code over the BACKs before it"
    checked = [Fault(slot, f"{place}.wrong", WRONG_N, 6, f"back {place}: {WRONG}", says)] if is_checked else []
    return opening(slot, f"back {place}", (MAGIC, LEANING), f"back {place}", checked, True)


def written(slot="NEW"):
    """Names under which no file can be made."""
    says = "commands.md, refused: a file could not be written"
    words = ("folder", "folder/", "A/t", "nowhere/t", "/dev/full", "", "loop", "n" * 256)
    return stage([Fault(slot, word, None, 8, "store fault", says) for word in words], 3)


def outside(*further):
    """Positions that are in no set, or in that of a table behind alone."""
    says = "commands.md, refused: the position is not in the set"
    return stage([Fault("FEN", word, None, 7, "outside", says) for word in (OUTSIDE, *further)])


def unbounded(word):
    return stage([Fault("FEN", word, None, 7, "no bound", "commands.md, refused: neither a win nor a hold")])


def wrong(content, text):
    """A table with an altered entry, and the line that names it."""
    says = "commands.md, refused: the first entry that is not what it must be"
    return stage([Fault("TABLE", "TABLE.wrong", content, 6, text, says)])
