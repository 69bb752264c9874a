"""Tables with wrong entries, worked out by hand: who names them, who goes by them, and what comes first."""

from lib.refusals.case import Case
from lib.refusals.fixtures import (
    A, A_BLACK, A_FILE, A_WHITE, H, H_BLACK, H_WHITE, IN_A, IN_H, MATE_IN_ONE, N, N_BLACK, N_FILE, N_WHITE, OPEN_IN_A,
    OPEN_IN_H, OVER_WHITE, altered, files_of, table,
)
from lib.tables import CHAINED, LEANING, MAGIC

FIRST = "commands.md, refused: the first entry, by number and White before Black at one number"
KEPT = "formats.md, Bounds: `query` prints the two codes as they are in the file"
START = "formats.md, A line: the kept code of the start is that of a failure, and is its local code"
WAY = "commands.md, line and play: at the first position whose code is not what its moves give"
ASKED = "formats.md, Why: a kept code that is not the local one ends the text; that of a win is not compared"
NO_BOUND, OUT = "no bound\n", "outside\n"
# What `why` says of 5 in A, but for its last line.
LOST = "white none\nb8c8\nexit unknown\n2k5/8/1K6/8/8/8/8/7R w - - 0 1\n"
NO_LINE = "no line\nwanted black K:c8\n"
# N without its line: each way out is unknown, and so is the value of its positions. A over it is as A alone.
EMPTY = table(N.replace("exit white wins if always\n", ""), [5, 5], [5, 5])
BARE = table(A, A_WHITE, A_BLACK, LEANING)

# White's changes and Black's in the table of A, and the first wrong entry.
IN_TABLE_A = (
    ({"at0": 6}, {}, "white 0 kept 6 given 4"), ({"at0": 0}, {}, "white 0 kept 0 given 4"),
    ({"at0": 1}, {}, "white 0 kept 1 given 4"), ({"at0": 2}, {}, "white 0 kept 2 given 4"),
    ({"at0": 2**32 - 1}, {}, "white 0 kept 4294967295 given 4"), ({}, {"at0": 7}, "black 0 kept 7 given 5"),
    ({}, {"at0": 2**32 - 2}, "black 0 kept 4294967294 given 5"), ({"at2": 1}, {}, "white 2 kept 1 given 0"),
    ({}, {"at3": 9}, "black 3 kept 9 given 0"), ({"at5": 7}, {}, "white 5 kept 7 given 5"),
    ({"at5": 4}, {}, "white 5 kept 4 given 5"), ({}, {"at5": 5}, "black 5 kept 5 given 7"),
    # What stands behind the mates decides the numbers before them.
    ({"at6": 4}, {}, "white 0 kept 4 given 6"), ({"at7": 1}, {}, "white 1 kept 4 given 1"),
    ({"at7": 3}, {}, "white 1 kept 4 given 5"), ({}, {"at7": 5}, "black 7 kept 5 given 3"),
    ({}, {"at6": 0}, "black 6 kept 0 given 3"), ({"at1": 8}, {}, "white 1 kept 8 given 4"),
    # Two that are wrong: the lower number, and White's at one number.
    ({"at4": 8}, {"at3": 9}, "black 3 kept 9 given 0"), ({"at3": 9}, {"at4": 9}, "white 3 kept 9 given 0"),
    ({"at3": 1}, {"at3": 9}, "white 3 kept 1 given 0"), ({"at4": 8}, {"at4": 9}, "white 4 kept 8 given 6"),
    ({"at0": 6, "at4": 8}, {"at0": 7}, "white 0 kept 6 given 4"), ({"at5": 7, "at4": 8}, {}, "white 4 kept 8 given 6"),
)


def table_of_a(white, black, magic=MAGIC, codes=A_WHITE):
    return table(A, altered(codes, **white), altered(A_BLACK, **black), magic)


def checks():
    """`check` and what checks a table behind, over each of these."""
    for white, black, told in IN_TABLE_A:
        bad = table_of_a(white, black)
        files = {"bad": bad, **files_of(["A", "N.t", "AN.t", "L.t"])}
        yield Case("freezer", ("check", "bad"), files, 6, f"wrong {told}\n", FIRST)
        for words in (("chain", "A", "bad", "new"), ("chaincheck", "AN.t", "bad")):
            yield Case("freezer", words, files, 6, f"back wrong {told}\n", FIRST)
        for words in (("build", "A", "new"), ("check", "L.t"), ("premises", "A")):
            yield Case("atlas", (*words, "bad"), files, 6, f"back 1: wrong {told}\n", FIRST)
            yield Case("atlas", (*words, "bad", "nowhere"), files, 6, f"back 1: wrong {told}\n", FIRST)
            yield Case("atlas", (*words, "N.t", "bad"), files, 6, f"back 2: wrong {told}\n", FIRST)
    # Over N the code at 5 is that of a win.
    for white, black, told in IN_TABLE_A:
        if "at5" in white or ("at4" in white and "at5" in white):
            continue
        files = {"front": table_of_a(white, black, CHAINED, OVER_WHITE), "N.t": N_FILE}
        yield Case("freezer", ("chaincheck", "front", "N.t"), files, 6, f"wrong {told}\n", FIRST)
        front = table_of_a(white, black, LEANING, OVER_WHITE)
        files = {"front": front, "N.t": N_FILE, "bad": table_of_a({"at0": 6}, {})}
        yield Case("atlas", ("check", "front", "N.t"), files, 6, f"wrong {told}\n", FIRST)
        later = "back 2: wrong white 0 kept 6 given 4\n"
        yield Case("atlas", ("check", "front", "N.t", "bad"), files, 6, later, "commands.md, refused: TABLE comes last")


def lists():
    """commands.md: the order of BACKs, and what a list that is too short leaves."""
    says = "commands.md, Follow-up tables: a BACK stands over those before it; the first that has a position answers"
    files = {**files_of(["A.t", "N.t", "L.t", "H.t", "H", "A"]), "e.t": EMPTY, "bare.t": BARE}
    for words, status, text in (
        (("check", "H.t", "N.t", "L.t"), 0, "exact 4 over 2 8\n"),
        # Without N before it Kc8 from 5 is unknown.
        (("check", "H.t", "L.t", "N.t"), 6, "back 1: wrong white 5 kept 6 given 5\n"),
        (("check", "H.t", "L.t"), 6, "back 1: wrong white 5 kept 6 given 5\n"),
        (("build", "H", "new", "L.t", "N.t"), 6, "back 1: wrong white 5 kept 6 given 5\n"),
        (("premises", "H", "L.t", "N.t"), 6, "back 1: wrong white 5 kept 6 given 5\n"),
        (("premises", "H", "L.t", "nowhere"), 6, "back 1: wrong white 5 kept 6 given 5\n"),
        # Over N alone each move of White's from 0 is unknown.
        (("check", "H.t", "N.t"), 6, "wrong white 0 kept 4 given 5\n"),
        # In the plain table of A 5 is no win, but Rh8 is one still.
        (("check", "H.t", "N.t", "A.t"), 0, "exact 4 over 2 8\n"),
        # Where the first says nothing, no other is asked.
        (("check", "bare.t", "e.t"), 0, "exact 8 over 2\n"),
        (("check", "bare.t", "e.t", "N.t"), 0, "exact 8 over 2 2\n"),
        (("check", "bare.t", "N.t", "e.t"), 6, "wrong white 5 kept 5 given 6\n"),
        (("check", "L.t", "e.t", "N.t"), 6, "wrong white 5 kept 6 given 5\n"),
        (("check", "L.t", "N.t", "e.t"), 0, "exact 8 over 2 2\n"),
        (("check", "L.t"), 6, "wrong white 5 kept 6 given 5\n"), (("check", "bare.t"), 0, "exact 8\n"),
        # BACKs that are named with a plain table are opened and not asked.
        (("why", "A.t", IN_A, "white", "nowhere"), 12, "missing back 1\n"),
        (("why", "A.t", IN_A, "white", "N.t", "A"), 5, "back 2: magic\n"),
        (("why", "A.t", OPEN_IN_A, "white", "N.t", "e.t"), 0, LOST + NO_LINE),
    ):
        yield Case("atlas", words, files, status, text, says)


def kept(white, black):
    """What `query` makes of two codes."""
    lines = []
    for name, code in (("white", white), ("black", black)):
        bound = "holds" if code == 1 else "none"
        if code > 0 and code % 2 == 0:
            bound = f"wins within {(code - 2) // 2}"
        lines.append(f"{name} {bound}\n")
    return "".join(lines)


def queries():
    greatest = 2**32 - 1
    codes = ((0, 0), (1, 1), (2, 3), (3, 2), (4, 5), (5, 4), (greatest - 1, greatest), (greatest, 0), (1, 2002))
    commands = (("freezer", "query", MAGIC), ("freezer", "chainquery", CHAINED), ("atlas", "query", LEANING))
    for white, black in codes:
        for program, word, magic in commands:
            files = {"t": table_of_a({"at4": white}, {"at4": black}, magic)}
            yield Case(program, (word, "t", IN_A), files, 0, kept(white, black), KEPT)


def walks():
    """`line` and `play` at a wrong start, on the way, and where there is no bound."""
    mates = "white wins within 2\na8b8\nh1h8\nmate\n"
    for white, fen, side, status, text, says in (
        ({}, OPEN_IN_A, "white", 7, NO_BOUND, START), ({}, IN_A, "black", 7, NO_BOUND, START),
        ({}, MATE_IN_ONE, "black", 7, NO_BOUND, START), ({}, IN_H, "white", 7, OUT, "commands.md, refused: outside"),
        ({"at4": 0}, IN_H, "white", 7, OUT, "commands.md, refused: outside"),
        ({"at5": 7}, OPEN_IN_A, "white", 6, "wrong white 5 kept 7 given 5\n", START),
        ({"at5": 3}, OPEN_IN_A, "white", 6, "wrong white 5 kept 3 given 5\n", START),
        ({"at5": 0}, OPEN_IN_A, "white", 6, "wrong white 5 kept 0 given 5\n", START),
        ({"at4": 7}, IN_A, "white", 6, "wrong white 4 kept 7 given 6\n", START),
        ({"at4": 1}, IN_A, "white", 6, "wrong white 4 kept 1 given 6\n", WAY),
        ({"at5": 1}, IN_A, "white", 0, mates, WAY), ({"at2": 7}, IN_A, "white", 0, mates, WAY),
        # From 4 the way goes to 1, whose code no longer is what Rh8 gives.
        ({"at7": 4}, IN_A, "white", 6, "white wins within 2\na8b8\nwrong white 1 kept 4 given 6\n", WAY),
        ({"at7": 1}, IN_A, "white", 6, "white wins within 2\na8b8\nwrong white 1 kept 4 given 1\n", WAY),
        # And here both have one ply more, so that the mate itself is wrong.
        ({"at7": 4, "at1": 6, "at4": 8}, IN_A, "white", 6,
         "white wins within 3\na8b8\nh1h8\nwrong white 7 kept 4 given 2\n", WAY),
    ):
        files = {"t": table_of_a(white, {})}
        yield Case("freezer", ("line", "t", fen, side), files, status, text, says)
        text = text.replace("a8b8\n", "reply a8b8\n").replace("h1h8\n", "move h1h8\n")
        yield Case("freezer", ("play", "t", fen, side), files, status, text, says, b"a8b8\n")


def journeys():
    """`line` and `play` of `atlas`: a wrong code of TABLE, and of a BACK on the way."""
    says = "formats.md, Why: behind `back K: ` where the wrong code is one of a BACK"
    to_l = "white wins within 2\na8b8\nh2h1\nexit white wins\nback 2\n"
    for white, behind, fen, status, text in (
        ({}, {}, OPEN_IN_H, 7, NO_BOUND), ({}, {}, IN_A, 7, OUT),
        ({"at2": 8}, {}, IN_H, 6, "wrong white 2 kept 8 given 6\n"),
        ({"at3": 7}, {}, OPEN_IN_H, 6, "wrong white 3 kept 7 given 5\n"),
        ({}, {"at5": 8}, IN_H, 6, to_l + "back 2: wrong white 5 kept 8 given 6\n"),
        # The code at 7 is not on the way.
        ({}, {"at7": 4}, IN_H, 0, to_l + "white wins within 2\nb8a8\nh1h8\nmate\n"),
        ({}, {"at6": 4}, IN_H, 6, to_l + "white wins within 2\nb8a8\nback 2: wrong white 0 kept 4 given 6\n"),
        ({"at1": 8}, {"at5": 8}, IN_H, 6, "wrong white 2 kept 6 given 10\n"),
    ):
        files = {
            "h": table(H, altered(H_WHITE, **white), H_BLACK, LEANING), "N.t": N_FILE,
            "l": table_of_a(behind, {}, LEANING, OVER_WHITE),
        }
        yield Case("atlas", ("line", "h", fen, "white", "N.t", "l"), files, status, text, says)
        for move in ("a8b8", "b8a8"):
            text = text.replace(f"\n{move}\n", f"\nreply {move}\n")
        for move in ("h2h1", "h1h8"):
            text = text.replace(f"\n{move}\n", f"\nmove {move}\n")
        yield Case("atlas", ("play", "h", fen, "white", "N.t", "l"), files, status, text, says, b"a8b8\nb8a8\n")


def reasons():
    """`why`: the codes on its way, those behind a hold, and none of a win or of a BACK."""
    to_a1 = "black none\na8b8\nh1a1\nexit unknown\n1k6/8/1K6/8/8/8/8/R7 b - - 0 1\nno line\nwanted white R:a1\n"
    for white, black, fen, side, status, text in (
        ({}, {}, OPEN_IN_A, "white", 0, LOST + NO_LINE), ({}, {}, IN_A, "white", 0, "white wins within 2\n"),
        ({"at4": 8}, {}, IN_A, "white", 0, "white wins within 3\n"), ({}, {}, IN_H, "white", 7, OUT),
        ({"at5": 7}, {}, OPEN_IN_A, "white", 6, "white none\nwrong white 5 kept 7 given 5\n"),
        ({"at5": 3}, {}, OPEN_IN_A, "white", 6, "white none\nwrong white 5 kept 3 given 5\n"),
        ({"at5": 0}, {}, OPEN_IN_A, "white", 6, "white none\nwrong white 5 kept 0 given 5\n"),
        ({"at4": 1}, {}, IN_A, "white", 6, "white holds\nwrong white 4 kept 1 given 6\n"),
        ({"at0": 1}, {}, MATE_IN_ONE, "white", 6, "white holds\nwrong white 0 kept 1 given 4\n"),
        # From 1 Rh8 is mate, but Ra1 comes first, and what it leads to is unknown.
        ({}, {}, IN_A, "black", 0, to_a1),
        ({}, {"at1": 7, "at4": 9}, IN_A, "black", 6, "black none\na8b8\nwrong black 1 kept 7 given 5\n"),
        ({}, {"at1": 9}, IN_A, "black", 6, "black none\nwrong black 4 kept 7 given 11\n"),
        ({}, {"at4": 2}, IN_A, "black", 0, "black wins within 0\n"),
    ):
        files = {"t": table_of_a(white, black), "N.t": table(N, altered(N_WHITE, at0=0), N_BLACK)}
        yield Case("atlas", ("why", "t", fen, side), files, status, text, ASKED)
        yield Case("atlas", ("why", "t", fen, side, "N.t"), files, status, text, ASKED)


def deciders():
    """The last line of `why`: the first of three that applies."""
    says = "formats.md, Why: the first of `back K`, `line N` and `no line` that applies"
    line = A + "# a line that says nothing\nexit unknown if on:black:K:c8\n"
    plain, over = (table(line, A_WHITE, A_BLACK, magic) for magic in (MAGIC, LEANING))
    for content, backs, end in (
        (plain, (), "line 6"), (plain, ("e.t",), "line 6"), (over, (), "line 6"), (over, ("e.t",), "back 1"),
        (over, ("H.t",), "line 6"), (over, ("H.t", "e.t"), "back 2"), (BARE, ("e.t",), "back 1"),
        (BARE, ("H.t",), "no line"), (BARE, (), "no line"), (A_FILE, ("e.t",), "no line"),
    ):
        files = {"t": content, "e.t": EMPTY, **files_of(["H.t"])}
        told = LOST + (NO_LINE if end == "no line" else f"{end}\n")
        yield Case("atlas", ("why", "t", OPEN_IN_A, "white", *backs), files, 0, told, says)


# White's king goes to and fro and renounces all else; Black's is shut in on three squares by two rooks.
SHUT_IN = (
    "freezer 1\ngroup white 1 K:a1,b1\ngroup white 1 R:g2\ngroup white 1 R:a5\ngroup black 1 K:h6-h8\n"
    "forbid white R from all to all\nforbid white K from all to c1,a2-c2\n"
)
MOST_PLIES = 100


def cuts():
    """A line from a hold is cut after 100 plies, or ends where a position comes again; a session does not."""
    says = "commands.md, line and play: a line from a hold ends with `cut` after 100 plies"
    again = "commands.md, line and play: from a hold it ends with `repetition`"
    fen = "7k/8/8/R7/8/8/6R1/K7 w - - 0 1"
    white = ["a1b1", "b1a1"] * 100
    black = ["h8h7", *["h7h6", "h6h7"] * 100]
    moves = [move for pair in zip(white, black) for move in pair]
    line = "white holds\n" + "".join(f"{move}\n" for move in moves[:MOST_PLIES]) + "cut\n"
    # With White to move, b1 and h7 stand after two plies and after six.
    once = "white holds\n" + "".join(f"{move}\n" for move in moves[:6]) + "repetition\n"
    plain, over = (table(SHUT_IN, [1] * 12, [5] * 6 + [7] * 6, magic) for magic in (MAGIC, LEANING))
    yield Case("freezer", ("line", "t", fen, "white"), {"t": plain}, 0, line, says)
    yield Case("atlas", ("line", "t", fen, "white", "N.t"), {"t": over, "N.t": N_FILE}, 0, once, again)
    yield Case("atlas", ("line", "t", fen, "white"), {"t": plain}, 0, once, again)
    for count in (49, 50, 51, 150):
        said = "".join(f"{move}\n" for move in black[:count])
        told = "".join(f"move {one}\nreply {other}\n" for one, other in zip(white[:count], black))
        told = f"white holds\n{told}move {white[count]}\ninput ended\n"
        for program, content, backs in (("freezer", plain, ()), ("atlas", over, ("N.t",))):
            files = {"t": content, "N.t": N_FILE}
            yield Case(program, ("play", "t", fen, "white", *backs), files, 0, told, says, said.encode(), len(said))


def counted():
    """Wins of a BACK with their plies, up to 1,000 of them, where each of its exit lines gives its own."""
    says = "formats.md, Tables over others: a win has its plies where the side's wins count in all tables"
    for lag, told in ((0, 1), (3, 4), (999, 1000), (1000, 0)):
        text = N.replace("wins if", f"wins {lag} if")
        back = table(text, [4 + 2 * lag] * 2, N_BLACK)
        # Black goes to c8 from b8 if White's win there takes longer than the one behind Ka8.
        at5 = 4 + 2 * max(told, 1)
        over = table(A, altered(OVER_WHITE, at5=at5), A_BLACK, LEANING)
        files = {"n.t": back, "t": over, "A": A.encode()}
        plies, value = at5 // 2 - 1, f"white wins {told}" if told else "white wins"
        yield Case("atlas", ("build", "A", "new", "n.t"), files, 0, "built 8\n", says, made={"new": over})
        yield Case("atlas", ("check", "t", "n.t"), files, 0, "exact 8 over 2\n", says)
        mate = f", mate within {plies}" if told and plies <= 1000 else ""
        believed = "back 1 line 5 believed 2k5/8/1K6/8/8/8/8/R7 b - - 0 1\nbelieved 1\n"
        verdict = f"{OPEN_IN_A}\nwhite wins{mate}\n{believed}"
        yield Case("atlas", ("verdict", "t", OPEN_IN_A, "n.t"), files, 0, verdict, says)
        # Of two moves that are equally long the first is played.
        if told > 1:
            line = f"white wins within {plies}\nb8c8\nexit {value}\nback 1\nwhite wins within {lag + 1}\nh1a1\n"
            yield Case("atlas", ("line", "t", OPEN_IN_A, "white", "n.t"), files, 0, f"{line}exit white wins {lag}\n", says)
        # Beside a table whose wins have no plies this one's have none.
        files = {**files, "new": table(A, OVER_WHITE, A_BLACK, LEANING), "N.t": N_FILE}
        yield Case("atlas", ("check", "new", "n.t", "N.t"), files, 0, "exact 8 over 2 2\n", says)


# Black's king on d8: its table does not have the step to c8.
D = N.replace("K:c8", "K:d8").replace("wins if", "wins 1 if")
D_FILE = table(D, [6, 6], [5, 5])
FOLLOWED = "exit unknown if always\nexit white wins 7 if on:black:K:c8\n"


def behind_all():
    """Lines behind `exit unknown if always`: asked where no table behind has the position."""
    says = "formats.md, Tables over others: the lines behind are asked where no table has the position"
    files = {"R": (A + FOLLOWED).encode(), "d.t": D_FILE, "e.t": EMPTY}
    plain, over = table(A + FOLLOWED, A_WHITE, A_BLACK), table(A + FOLLOWED, altered(A_WHITE, at5=18), A_BLACK, LEANING)
    held = table(A + FOLLOWED, A_WHITE, A_BLACK, LEANING)
    for backs, due in (((), plain), (("d.t",), over), (("e.t",), held), (("e.t", "d.t"), held), (("d.t", "e.t"), held)):
        yield Case("atlas", ("build", "R", "new", *backs), files, 0, "built 8\n", says, made={"new": due})
    behind = "2k5/8/1K6/8/8/8/8/7R w - - 0 1"
    files = {**files, "t": over}
    believed = "1k6/8/1K6/8/8/8/8/R7 b - - 0 1".replace("1k6", "3k4")
    for words, text, given in (
        (("ask", "t", "d.t"), "exit white wins 7\ninput ended\n", behind),
        (("line", "t", OPEN_IN_A, "white", "d.t"), "white wins within 8\nb8c8\nexit white wins 7\n", ""),
        (("premises", "R", "d.t"), f"back 1\nline 5 believed {believed}\nrules\nline 5 asks nothing\n"
         f"line 6 believed {behind}\nbelieved 2\nwhite true if believed\nblack true if believed\n", ""),
        (("verdict", "t", OPEN_IN_A, "d.t"), f"{OPEN_IN_A}\nwhite wins, mate within 8\nback 1 line 5 believed {believed}\n"
         f"table line 6 believed {behind}\nbelieved 2\n", ""),
    ):
        yield Case("atlas", words, files, 0, text, says, given.encode())


def cases():
    for found in (checks, lists, queries, walks, journeys, reasons, deciders, cuts, counted, behind_all):
        yield from found()
