"""What `premises` says each exit line rests on, and of each side, by the order in which the lines are told."""

from lib.refusals.case import Case
from lib.refusals.fixtures import A, N, N_BELIEVED, N_BLACK, N_FILE, table

BELIEVED = "formats.md, Premises: the first of these lines that applies"
SIDES = "formats.md, Premises: for White and then for Black the first of these that applies"
BY_MEN = "formats.md, Premises: the men show a draw or a hold"


def premises_of(lines, rules, backs, told, believed, sides):
    """A call of `premises` over backs with their own lines, and its answer."""
    files = {"R": (rules + "".join(line + "\n" for line in lines)).encode(), **backs}
    behind = {"N.t": N_BELIEVED, "five.t": N_BELIEVED, "c8.t": OF_C8, "a8.t": OF_A8}
    text = "".join(f"back {k}\n{behind[name]}" for k, name in enumerate(backs, 1))
    text += "rules\n" + "".join(line + "\n" for line in told) + f"believed {believed}\n"
    white, black = sides
    text += f"white {white}\nblack {black}\n"
    return Case("atlas", ("premises", "R", *backs), files, 0, text, BELIEVED if told else SIDES)


# N with plies: White's code at 0 is that of a win within 4.
FIVE = table(N.replace("wins if", "wins 3 if"), [10, 10], [5, 5])
# Both rooks' squares, and Black's king on c8 or on a8; each move out of them is won for White.
C8_TEXT, A8_TEXT = (N.replace("R:h1", "R:h1,h2").replace("K:c8", f"K:{square}") for square in ("c8", "a8"))
C8, A8 = (table(text, [4] * 4, N_BLACK * 2) for text in (C8_TEXT, A8_TEXT))
OF_C8, OF_A8 = N_BELIEVED, "line 5 believed k7/8/1K6/8/8/8/8/R7 b - - 0 1\n"
# Black's king on b8 alone: Ka8 and Kc8 lead out.
B8_TEXT = N.replace("R:h1", "R:h1,h2").replace("K:c8", "K:b8").replace("exit white wins if always\n", "")
AT_A8, AT_C8 = (f"line 5 believed {men}/8/1K6/8/8/8/8/7R w - - 0 1" for men in ("k7", "2k5"))
IF, OPEN, GIVEN_UP = "true if believed", "true, exits undecided", "true, moves renounced"


def premises():
    """Each line of an exit line, and each of a side, by the order in which they are told."""
    n_t, five, none = {"N.t": N_FILE}, {"five.t": FIVE}, {}
    c8 = "exit white wins{} if on:black:K:c8"
    for lines, backs, told, believed, sides in (
        ((), none, (), 0, (OPEN, OPEN)),
        (("forbid white R from h1 to h2",), none, (), 0, (GIVEN_UP, OPEN)),
        (("forbid black R from h1 to h2",), none, (), 0, (OPEN, GIVEN_UP)),
        (("exit draw if count:white:R:0",), none, ("line 5 asks nothing",), 0, (OPEN, OPEN)),
        (("exit unknown if always",), none, ("line 5 asks nothing",), 0, (OPEN, OPEN)),
        (("exit white holds if always",), none, ("line 5 true by the men",), 0, (OPEN, OPEN)),
        (("exit white holds if always", "exit draw if always"), none,
         ("line 5 true by the men", "line 6 asks nothing"), 0, (OPEN, OPEN)),
        ((c8.format(""),), none, (AT_C8,), 1, (IF, IF)),
        ((c8.format(""), "forbid white R from h1 to h2", "forbid black K from a1 to a1"), none, (AT_C8,), 1,
         (IF, IF)),
        ((c8.format(""),), n_t, ("line 5 proved by back 1",), 1, (IF, IF)),
        ((c8.format(" 5"),), n_t, (AT_C8,), 2, (IF, IF)), ((c8.format(" 3"),), five, (AT_C8,), 2, (IF, IF)),
        ((c8.format(" 4"),), five, ("line 5 proved by back 1",), 1, (IF, IF)),
        ((c8.format(" 1000"),), five, ("line 5 proved by back 1",), 1, (IF, IF)),
        ((c8.format(""),), {**n_t, **five}, ("line 5 proved by back 1",), 2, (IF, IF)),
        ((c8.format(" 4"),), {**n_t, **five}, ("line 5 proved by back 2",), 2, (IF, IF)),
        (("exit black holds if on:black:K:c8",), none, (AT_C8,), 1, (IF, IF)),
        (("exit draw if on:black:K:c8",), none, (AT_C8,), 1, (IF, IF)),
    ):
        yield premises_of(lines, A, backs, told, believed, sides)
    line, both = ("exit white wins if turn:white",), {"c8.t": C8, "a8.t": A8}
    for backs, told in ((both, "line 5 proved by several backs"), ({"c8.t": C8}, AT_A8), ({"a8.t": A8}, AT_C8)):
        believed = len(backs) + (told.startswith("line 5 believed"))
        yield premises_of(line, B8_TEXT, backs, (told,), believed, (IF, IF))


def exact_sides():
    """Bare kings, with no way out of the set, or with a draw behind each."""
    anywhere = "freezer 1\ngroup white 1 K:all\ngroup black 1 K:all\n"
    corners = "freezer 1\ngroup white 1 K:a1-b2\ngroup black 1 K:g7-h8\n"
    drawn, held = "exit draw if always\n", "exit white holds if always\n"
    white, black = "forbid white K from a1 to a2\n", "forbid black K from all to all capture\n"
    by_men = "line 4 true by the men\n"
    for text, told, sides in (
        (anywhere, "", ("exact", "exact")), (anywhere + white, "", (GIVEN_UP, "exact")),
        (anywhere + black, "", ("exact", GIVEN_UP)), (anywhere + white + black, "", (GIVEN_UP, GIVEN_UP)),
        (anywhere + drawn, "line 4 asks nothing\n", ("exact", "exact")), (corners, "", (OPEN, OPEN)),
        (corners + white, "", (GIVEN_UP, OPEN)), (corners + drawn, by_men, ("exact", "exact")),
        (corners + held, by_men, (OPEN, OPEN)), (corners + drawn + white, by_men, (GIVEN_UP, "exact")),
        (corners + drawn + black, by_men, ("exact", GIVEN_UP)), (corners + held + black, by_men, (OPEN, GIVEN_UP)),
    ):
        answer = f"rules\n{told}believed 0\nwhite {sides[0]}\nblack {sides[1]}\n"
        yield Case("atlas", ("premises", "R"), {"R": text.encode()}, 0, answer, SIDES)


# Black's king may take the rook on h1, which nobody defends; White's man on a7 may be one of several.
CORNER = "freezer 1\ngroup white 1 K:a1\ngroup white 1 R:h1\ngroup black 1 K:g2\n"
TAKEN, KING_STEPS = "8/{}8/8/8/8/8/K6k w - - 0 1", "8/8/8/8/8/8/6k1/1K5R b - - 0 1"
BARE, MEN = TAKEN.format("8/"), "line {} true by the men"
# White's king may take the pawn, or pass it by.
PAWN = "freezer 1\ngroup white 1 K:a1\ngroup white 1 R:h1\ngroup black 1 K:g2\ngroup black 1 P:a2\n"
PAWN_STAYS = "8/8/8/8/8/8/pK4k1/7R b - - 0 1"
ALONE = " ".join(f"count:black:{kind}:0" for kind in "PQRBN")


def lone_rooks():
    """Exit lines of CORNER, and where each is needed first; None where the men show that it is true."""
    no_rook = "count:white:R:0"
    yield f"draw if {no_rook}", None
    yield "draw if count:white:R:0-0", None
    yield f"draw if {no_rook} turn:white !check", None
    yield f"draw if always {no_rook} on:black:K:all", None
    yield f"white holds if {no_rook}", None
    yield "white holds if always", None
    yield f"black holds if {no_rook}", None
    yield "draw if !count:white:R:1", None
    yield "draw if on:black:K:h1", None
    yield "draw if !on:white:R:all", None
    yield "black holds if !count:white:R:1", None
    yield f"white wins if {no_rook}", BARE
    yield f"black wins 9 if {no_rook}", BARE
    yield "draw if count:white:R:0-1", KING_STEPS
    yield "draw if always", KING_STEPS
    yield "black holds if always", KING_STEPS
    yield "black holds if count:white:R:0-1", KING_STEPS


def further_men():
    """CORNER with further men of White's, an exit line, and where it is needed first."""
    bishop, knight = TAKEN.format("B7/"), TAKEN.format("N7/")
    bishops = "1B6/B7/8/8/8/8/8/K6k w - - 0 1"
    yield "1 B:a7", "draw if count:white:R:0", None
    yield "1 N:a7", "draw if count:white:R:0", None
    yield "0-1 N:a7", "draw if count:white:R:0", None
    yield "1 B:a7 N:a7", "draw if count:white:R:0", None
    yield "1 B:a7 N:a7", "draw if count:white:R:0 count:white:B:0", None
    yield "1 B:a7", "black holds if count:white:R:0", bishop
    yield "1 B:a7", "black holds if count:white:R:0 count:white:B:1", bishop
    yield "1 N:a7", "black holds if count:white:R:0", knight
    yield "1 B:a7", "white holds if count:white:R:0", None
    yield "0-2 B:a7,b8", "draw if count:white:R:0", bishops
    yield "0-2 B:a7,b8", "draw if count:white:R:0 count:white:B:0-1", None
    yield "0-2 B:a7,b8", "draw if count:white:R:0 !count:white:B:2", None
    yield "2 B:a7,b8", "draw if count:white:R:0", bishops
    yield "1 Q:a7", "draw if count:white:R:0", TAKEN.format("Q7/")


def of_pawns():
    """PAWN: only the men that stand outside count, whatever the conditions leave open."""
    yield f"white holds if {ALONE}", None
    yield "white holds if count:black:P:0", None
    for kind in "PQRBN":
        fen = PAWN_STAYS if kind == "P" else None
        yield f"white holds if {ALONE.replace(f'count:black:{kind}:0', 'always')}", fen


def by_men():
    """Exit lines that the men show at each exit, and those that need belief at one."""
    found = [(CORNER, line, fen) for line, fen in lone_rooks()]
    found += [(f"{CORNER}group white {men}\n", line, fen) for men, line, fen in further_men()]
    found += [(PAWN, line, fen) for line, fen in of_pawns()]
    for text, line, fen in found:
        number = text.count("\n") + 1
        told = MEN.format(number) if fen is None else f"line {number} believed {fen}"
        side = OPEN if fen is None else IF
        answer = f"rules\n{told}\nbelieved {int(fen is not None)}\nwhite {side}\nblack {side}\n"
        yield Case("atlas", ("premises", "R"), {"R": f"{text}exit {line}\n".encode()}, 0, answer, BY_MEN)


def cases():
    yield from premises()
    yield from exact_sides()
    yield from by_men()
