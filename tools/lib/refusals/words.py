"""The words of a call: commands, numbers of words at the limit, names, and words that are no texts."""

from lib.refusals.case import Case
from lib.refusals.commands import MOST_BACKS, both, call
from lib.refusals.faults import Fault
from lib.refusals.fixtures import (
    A_FILE, BOUNDS, CHAINED_FILE, FILES, FIRSTS_OF_A, FIRSTS_OF_L, IN_A, LINE_IN_A, L_FILE, MATE_IN_ONE, N_BELIEVED,
    N_FILE, OPEN_IN_A, SAID_IN_A, SESSION_IN_A, files_of,
)

FREEZER = ("moves", "sans", "move", "solve", "build", "check", "query", "chain", "chaincheck", "chainquery", "line",
           "play", "report", "migrate", "sample")
ATLAS = ("build", "check", "query", "line", "play", "why", "verdict", "premises", "report", "each", "ask", "size")
NO_COMMAND = (
    "", "help", "--help", "-h", "-", "--version", "version", "Moves", "MOVES", "moves ", " moves", "move s", "mov",
    "movess", "checks", "Build", "buildx", "0", "freezer", "atlas", "./freezer", "A", IN_A, "ｍoves", "sample0",
)
SAME, WINS = "words: same name\n", "white wins within 2\n"
# At 5 in A over N, whose wins have no plies.
EACH_IN_L = "Ka8 white wins within 1, black none\nKc8 back 1 white wins within 1, black none\n"
ASKED_IN_L = "white wins within 2, black fails within 2\ninput ended\n"
NO_TEXT = b"\xff"
NO_TEXTS = (b"\xff", b"a\x80", b"\xc3", b"\xed\xa0\x80", b"white\xfe")


def commands():
    """commands.md, refused: the first word is no command, whatever stands behind it."""
    says = "commands.md, refused: the first word is no command"
    for program, own, others in (("freezer", FREEZER, ATLAS), ("atlas", ATLAS, FREEZER)):
        unknown = [*NO_COMMAND, *(name for name in others if name not in own)]
        yield Case(program, (), {}, 2, "words: command\n", says)
        for word in unknown:
            for behind in ((), ("A",), ("A", "A"), ("A.t", IN_A, "White"), ("x",) * 30):
                yield Case(program, (word, *behind), files_of(behind), 2, "words: command\n", says)


def no_texts():
    """commands.md, refused: no text if a word of the command line is itself no text."""
    says = "commands.md, refused: no text if a word is itself no text"
    for program, name, each in both():
        words = [name, *each.slots.values()]
        for place in range(len(words) + 1):
            for bad in NO_TEXTS if place == 1 else (NO_TEXT,):
                # In the place of each word, and as one word too many.
                given = [*words[:place], bad, *words[place + 1:]]
                yield Case(program, tuple(given), files_of(words), 2, "", says)
                yield Case(program, (*given, "x"), files_of(words), 2, "", says)
    for program in ("freezer", "atlas"):
        yield Case(program, (NO_TEXT,), {}, 2, "", says)
        yield Case(program, ("help", NO_TEXT), {}, 2, "", says)
        yield Case(program, (NO_TEXT, NO_TEXT), {}, 2, "", says)


def names():
    """What is the same name and what is not; names that are compared as texts."""
    says = "commands.md, refused: names are refused if both words are equal texts, and no others"
    for words, status, text, made in (
        (("chain", "A", "A", "new"), 5, "back: magic", {}),
        (("chain", "N.t", "N.t", "new"), 3, "rules 1: header", {}),
        (("chain", "A.t", "A", "A.t"), 2, "words: same name", {}),
        (("chain", "A", "A.t", "A"), 2, "words: same name", {}),
        (("chain", "A", "A", "A"), 2, "words: same name", {}),
        (("build", "", ""), 2, "words: same name", {}),
        (("build", "nowhere", "nowhere"), 2, "words: same name", {}),
        (("build", "folder", "folder"), 2, "words: same name", {}),
        (("migrate", "", ""), 2, "words: same name", {}),
        (("migrate", "nowhere", "nowhere"), 2, "words: same name", {}),
        (("chaincheck", "A.t", "A.t"), 5, "table: magic", {}),
        (("chaincheck", "AN.t", "AN.t"), 5, "back: magic", {}),
        (("build", "A", "./A"), 0, "built 8", {"A": A_FILE}),
        (("build", "./A", "A"), 0, "built 8", {"A": A_FILE}),
        (("build", "A", "A.t"), 0, "built 8", {}),
        (("migrate", "old.t", "./old.t"), 0, "migrated 8", {"old.t": A_FILE}),
        (("chain", "A", "N.t", "./N.t"), 0, "chained 8", {"N.t": CHAINED_FILE}),
        (("line", "white", IN_A, "white"), 0, LINE_IN_A[:-1], {}),
        (("query", IN_A, IN_A), 12, "missing table", {}),
    ):
        yield Case("freezer", words, files_of(words), status, f"{text}\n", says, made=made)


def names_of_atlas():
    """commands.md, refused: a file is named twice among the words; SIDE and FEN name no file."""
    says = "commands.md, refused: a file is named twice among the words of a command that takes BACKs"
    plain = {**files_of(["A", "A.t", "L.t", "N.t"]), "white": L_FILE, "8": N_FILE}
    for words, status, text in (
        (("line", "white", IN_A, "white", "N.t"), 0, LINE_IN_A), (("why", "white", IN_A, "white", "N.t"), 0, WINS),
        (("why", "white", IN_A, "white"), 0, "white wins within 2\n"),
        (("line", "L.t", "8", "white", "8"), 4, "fen: fields\n"), (("line", "L.t", IN_A, "8", "8"), 2, "words: side\n"),
        (("line", "L.t", IN_A, "L.t", "L.t"), 2, SAME), (("line", "L.t", "x", "x", "N.t", "N.t"), 2, SAME),
        (("why", "A.t", "x", "x", "A.t"), 2, SAME), (("why", "L.t", "x", "x", "N.t", "8", "N.t"), 2, SAME),
        (("premises", "A", "A"), 2, SAME), (("premises", "A", "N.t", "N.t"), 2, SAME),
        (("premises", "nowhere", "nowhere"), 2, SAME), (("build", "A", "A", "N.t"), 2, SAME),
        (("build", "A", "A"), 2, SAME), (("ask", "A.t", "A.t"), 2, SAME),
        (("ask", "L.t", "N.t", "8", "N.t"), 2, SAME), (("verdict", "L.t", "x", "N.t", "N.t"), 2, SAME),
        (("each", "L.t", "x", "N.t", "N.t"), 2, SAME), (("each", "L.t", "x", "L.t"), 2, SAME),
        (("each", "white", "8", "8"), 4, "fen: fields\n"),
        (("build", "A", "N.t", "A"), 2, SAME), (("build", "A", "N.t", "N.t"), 2, SAME),
        (("build", "A", "new", "N.t", "L.t", "8", "L.t"), 2, SAME), (("check", "L.t", "L.t"), 2, SAME),
        (("check", "L.t", "N.t", "8", "N.t"), 2, SAME), (("report", "", ""), 2, SAME),
        (("report", "L.t", "N.t", "L.t"), 2, SAME), (("check", "L.t", "N.t", "./N.t"), 0, "exact 8 over 2 2\n"),
        (("check", "./L.t", "N.t"), 0, "exact 8 over 2\n"), (("play", "L.t", IN_A, "black", "L.t"), 2, SAME),
    ):
        yield Case("atlas", words, plain, status, text, says)


def many_backs():
    """commands.md, refused: at most 16 BACKs."""
    says = "commands.md, refused: more than 16 BACKs"
    for count in (1, 2, 15, 16, 17, 18):
        backs = [f"b{n}" for n in range(count)]
        files = {"A": FILES["A"], "L.t": L_FILE, **dict.fromkeys(backs, N_FILE)}
        told = "".join(f"back {n}\n{N_BELIEVED}" for n in range(1, count + 1))
        named = "".join(f"back {n} {N_BELIEVED}" for n in range(1, count + 1))
        believed = f"{told}rules\nbelieved {count}\nwhite true if believed\nblack true if believed\n"
        for words, text, given, made in (
            (("build", "A", "new"), "built 8\n", b"", {"new": L_FILE}),
            (("check", "L.t"), f"exact 8 over{' 2' * count}\n", b"", {}),
            (("line", "L.t", IN_A, "white"), LINE_IN_A, b"", {}),
            (("play", "L.t", IN_A, "white"), SESSION_IN_A, SAID_IN_A, {}),
            (("why", "L.t", IN_A, "white"), WINS, b"", {}),
            (("verdict", "L.t", IN_A), f"{IN_A}\nwhite wins\n{named}believed {count}\n", b"", {}),
            (("premises", "A"), believed, b"", {}),
            (("report", "L.t"), FIRSTS_OF_L, b"", {}), (("each", "L.t", OPEN_IN_A), EACH_IN_L, b"", {}),
            (("ask", "L.t"), ASKED_IN_L, OPEN_IN_A.encode(), {}),
        ):
            status, answer = (0, text) if count <= MOST_BACKS else (2, "words: count\n")
            yield Case("atlas", (*words, *backs), files, status, answer, says, given, made={} if status else made)
            if count == MOST_BACKS:
                yield Case("atlas", (*words, *backs[:-1], "nowhere"), files, 12, "missing back 16\n", says)
            # One more than 16 is told before equal names.
            if count > MOST_BACKS:
                yield Case("atlas", (*words, *backs[:-1], backs[0]), files, 2, "words: count\n", says)


def without_backs():
    """commands.md: a table of `freezer build` stands alone, and no BACK need be named."""
    says = "commands.md, Commands: `atlas` takes tables that stand alone too"
    for words, text, given, made in (
        (("build", "A", "new"), "built 8\n", b"", {"new": A_FILE}), (("check", "A.t"), "exact 8\n", b"", {}),
        (("query", "A.t", IN_A), BOUNDS, b"", {}), (("query", "L.t", IN_A), BOUNDS, b"", {}),
        (("line", "A.t", IN_A, "white"), LINE_IN_A, b"", {}),
        (("play", "A.t", IN_A, "white"), SESSION_IN_A, SAID_IN_A, {}), (("report", "A.t"), FIRSTS_OF_A, b"", {}),
        (("each", "A.t", OPEN_IN_A), "Kc8 exit unknown\nKa8 white wins within 1, black none\n", b"", {}),
        (("ask", "A.t", "N.t"), "white wins within 1, black fails within 1\noutside\ninput ended\n",
         f"{MATE_IN_ONE}\n2k5/8/1K6/8/8/8/8/7R w - - 0 1\n".encode(), {}),
        (("check", "A.t", "N.t"), "exact 8 over 2\n", b"", {}),
    ):
        yield Case("atlas", words, files_of(words), 0, text, says, given, made=made)
    plain = "believed 0\nwhite true, exits undecided\nblack true, exits undecided\n"
    yield Case("atlas", ("premises", "A"), files_of(["A"]), 0, "rules\n" + plain, says)
    verdict = f"{IN_A}\nwhite wins, mate within 2\nbelieved 0\n"
    yield Case("atlas", ("verdict", "A.t", IN_A), files_of(["A.t"]), 0, verdict, says)
    for name in ("A.t", "L.t"):
        yield Case("atlas", ("why", name, IN_A, "white"), files_of([name]), 0, WINS, says)


def samples():
    """K is nine digits at most; the answer begins with K without its zeros and the size of its set."""
    says = "commands.md, refused: K is one to nine digits of a value up to 63"
    each = next(each for _, name, each in both() if name == "sample")
    yield call("freezer", "sample", each, Fault("K", "000000063", None, 0, None, says), says=says, answer=(0, None, {}))


def cases():
    yield from commands()
    yield from no_texts()
    yield from names()
    yield from names_of_atlas()
    yield from many_backs()
    yield from without_backs()
    yield from samples()
