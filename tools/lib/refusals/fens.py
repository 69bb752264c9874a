"""Each fault of a FEN by docs/users/formats.md, at each of its places, in order, and two at once."""

from lib.refusals.commands import both, call
from lib.refusals.faults import Fault

GOOD = ("k7/8/1K6/8/8/8/8/7R", "b", "-", "-", "0", "1")
RANKS = GOOD[0].split("/")

FIELDS = (
    "", " ", "      ", "-", GOOD[0], f"{GOOD[0]} b", f"{GOOD[0]} b -", f"{GOOD[0]} b - - 0", f"{GOOD[0]} b - - 0 1 1",
    f"{GOOD[0]} b - - 0 1 - -", f" {GOOD[0]}  b   - ", f"{GOOD[0]}\tb - - 0 1", f"{GOOD[0]} b - - 0\t1",
    f"{GOOD[0]}\tb\t-\t-\t0\t1", f"{GOOD[0]}_b_-_-_0_1", f"{GOOD[0]} b - - 0\n1", "x y z", "x y z 1 2", "x y z 1 2 3 4",
)
# Of each the digits and letters do not make 8 squares, or a byte is none of them.
PARTS = (
    "", "7", "9", "0", "08", "80", "81", "44k", "k8", "ppppppppp", "7x", "7-", "k.6", "K6\t", "7K1", "-", "8\n", "7é",
)
TURNS = ("W", "B", "white", "wb", "-", "0", "w\t", "b\n", "x")
CASTLINGS = ("KQkq", "K", "q", "--", "0", "HAha", "-\t", "w", "none")
# With White to move, and with Black.
NO_SQUARES = ("e2", "e7", "a0", "a9", "e", "--", "0", "none", "E")
TARGETS_W = (*NO_SQUARES, "a3", "h3", "e5", "i6", "A6", "6a", "6", "e66", "ee6", "-6", "e6\t")
TARGETS_B = (*NO_SQUARES, "a6", "h6", "e4", "i3", "A3", "3a", "3", "e33", "ee3", "-3", "e3\n")
CLOCKS = ("-", "a", "00000", "10000", "-1", "+1", "1.0", "1e1", "0x1", "1\t", "1\n", "1,", "½", "１")

# Positions with the fields behind their men, by cause: all that could be wrong before it is right.
INVALID = (
    ("8/8/8/8/8/8/8/8 w - -", "kings"), ("8/8/1K6/8/8/8/8/7R w - -", "kings"), ("k7/8/8/8/8/8/8/7R w - -", "kings"),
    ("k7/8/1K6/8/8/8/8/6KR w - -", "kings"), ("k6k/8/1K6/8/8/8/8/7R b - -", "kings"),
    ("kk6/8/KK6/8/8/8/8/8 w - -", "kings"),
    ("k6P/8/1K6/8/8/8/8/8 w - -", "pawn rank"), ("k7/8/1K6/8/8/8/8/7P w - -", "pawn rank"),
    ("k6p/8/1K6/8/8/8/8/8 w - -", "pawn rank"), ("k7/8/1K6/8/8/8/8/p7 w - -", "pawn rank"),
    ("7k/8/8/8/8/NNNNNNNN/NNNNNNNN/K7 w - -", "too many"), ("7k/nnnnnnnn/nnnnnnnn/8/8/8/8/K7 w - -", "too many"),
    ("7k/8/8/8/8/NNNNNNNN/PPPPPPPP/K7 b - -", "too many"),
    ("4k3/3p4/8/3pP3/8/8/8/4K3 w - d6", "ep place"), ("4k3/8/3n4/3pP3/8/8/8/4K3 w - d6", "ep place"),
    ("4k3/8/8/4P3/8/8/8/4K3 w - d6", "ep place"), ("4k3/8/8/3PP3/8/8/8/4K3 w - d6", "ep place"),
    ("4k3/8/8/3nP3/8/8/8/4K3 w - d6", "ep place"), ("4k3/8/8/8/3pP3/8/4P3/4K3 b - e3", "ep place"),
    ("4k3/8/8/8/3pP3/4N3/8/4K3 b - e3", "ep place"), ("4k3/8/8/8/3p4/8/8/4K3 b - e3", "ep place"),
    ("4k3/8/8/8/8/8/8/4K3 w - a6", "ep place"), ("4k3/8/8/8/8/8/8/4K3 b - h3", "ep place"),
    ("k6R/8/1K6/8/8/8/8/8 w - -", "opponent in check"), ("kK6/8/8/8/8/8/8/8 w - -", "opponent in check"),
    ("kK6/8/8/8/8/8/8/8 b - -", "opponent in check"), ("8/8/8/8/7k/6P1/8/K7 w - -", "opponent in check"),
    ("8/8/8/1n6/8/K7/8/7k b - -", "opponent in check"), ("7k/8/8/8/8/8/8/K6q b - -", "opponent in check"),
    ("7k/8/8/4b3/8/8/8/K7 b - -", "opponent in check"), ("7k/8/8/8/8/8/1p6/K7 b - -", "opponent in check"),
)
# Two causes of a position that is not valid: the earlier one counts.
INVALID_TWICE = (
    ("P7/8/8/8/8/8/8/K7 w - -", "kings"), ("8/8/8/8/8/NNNNNNNN/NNNNNNNN/K7 w - -", "kings"),
    ("k7/8/8/8/8/8/8/8 w - e6", "kings"), ("k6k/8/8/8/8/8/8/K6R w - -", "kings"),
    ("7k/8/8/8/8/NNNNNNNN/NNNNNNNN/K6P w - -", "pawn rank"), ("k6P/8/1K6/8/8/8/8/8 w - e6", "pawn rank"),
    ("k5PR/8/1K6/8/8/8/8/8 b - e3", "pawn rank"), ("k6R/8/1K6/8/8/8/8/P7 w - -", "pawn rank"),
    ("7k/8/8/8/8/NNNNNNNN/NNNNNNNN/K7 w - e6", "too many"), ("R6k/8/8/8/8/NNNNNNNN/NNNNNNNN/K7 w - -", "too many"),
    ("k6R/8/1K6/8/8/8/8/8 w - e6", "ep place"), ("kK6/8/8/8/8/8/8/8 b - e3", "ep place"),
)
# What is read, and the moves at the position.
ACCEPTED = (
    (GOOD[0] + " b - -", "a8b8"), (f"  {GOOD[0]}   b  -    -   ", "a8b8"), (f"{GOOD[0]} b - - 0 1 ", "a8b8"),
    (GOOD[0] + " b - - 0000 9999", "a8b8"), (GOOD[0] + " b - - 9 0", "a8b8"),
    ("k1111111/44/1K6/26/71/1214/8/61R b - - 0 1", "a8b8"),

    ("k7/8/1K6/3p4/8/8/8/7R b - - 0 1", "d5d4 a8b8"),
    ("8/8/8/3p4/8/8/8/K1k5 w - d6 0 1", "a1a2"), ("8/8/8/3pP3/8/8/8/K1k5 w - d6 0 1", "a1a2 e5d6 e5e6"),
    ("8/8/8/3pP3/8/8/8/K1k5 w - - 0 1", "a1a2 e5e6"),
    ("8/8/8/8/4P3/8/8/k1K5 b - e3 0 1", "a1a2"), ("8/8/8/8/3pP3/8/8/k1K5 b - e3 0 1", "a1a2 d4d3 d4e3"),
    ("7k/8/8/8/8/8/8/K6R b - -", "h8g7 h8g8"), ("k6R/8/1K6/8/8/8/8/8 b - - 0 1", "mate"),
    ("k7/2Q5/1K6/8/8/8/8/8 b - - 0 1", "stalemate"),
)


def replaced(place, word, of=GOOD):
    fields = list(of)
    fields[place] = word
    return " ".join(fields)


def placements():
    """Each rank with each part that is not right; parts that are missing, and too many."""
    for place in range(8):
        for part in PARTS:
            yield "/".join([*RANKS[:place], part, *RANKS[place + 1:]]), 8 - place
        for later in range(place + 1, 8):
            bad = [*RANKS]
            bad[place], bad[later] = "7", "9"
            yield "/".join(bad), 8 - place
        if place:
            yield "/".join(RANKS[:place]), 8 - place
            yield "/".join(["x", *RANKS[1:place]]), 8
            yield "/".join([*RANKS[:place], "7", *RANKS[place + 1:], "8"]), 8 - place
    for more in ("8", "", "x", "8/8", "/", "k7"):
        yield f"{GOOD[0]}/{more}", 0
    for word in ("-", "x", "//", "//////", "startpos", "8888"):
        yield word, 8
    yield "/" + GOOD[0], 8


def of_one_field():
    """Each FEN with one faulty field, and its cause."""
    for text in FIELDS:
        yield text, "fields"
    for word, rank in placements():
        yield replaced(0, word), f"placement {rank}"
        yield replaced(0, word, GOOD[:4]), f"placement {rank}"
    for word in TURNS:
        yield replaced(1, word), "turn"
    for word in CASTLINGS:
        yield replaced(2, word), "castling"
    for turn, targets in (("w", TARGETS_W), ("b", TARGETS_B)):
        for word in targets:
            yield replaced(3, word, (GOOD[0], turn, *GOOD[2:])), "ep square"
    for place in (4, 5):
        for word in CLOCKS:
            yield replaced(place, word), "clock"


def of_two_fields():
    """Two faults in different fields, or one in a field and one of the position: the earlier one counts."""
    faulty = ((0, "k7/9/1K6/8/8/8/8/7R", "placement 7"), (1, "x", "turn"), (2, "KQkq", "castling"),
              (3, "e4", "ep square"), (4, "x", "clock"), (5, "10000", "clock"))
    for at, (place, word, cause) in enumerate(faulty):
        for later, other, _ in faulty[at + 1:]:
            fields = [*GOOD]
            fields[place], fields[later] = word, other
            yield " ".join(fields), cause
            yield " ".join([*fields, "1"]), "fields"
        for men, _ in INVALID:
            if place:
                yield replaced(place, word, (*men.split(), "0", "1")), cause


def refused():
    yield from of_one_field()
    yield from of_two_fields()
    for men, cause in (*INVALID, *INVALID_TWICE):
        yield men, f"invalid {cause}"
        yield f"{men} 0 1", f"invalid {cause}"


def cases():
    """Each of them by `moves`; a few by each command with a FEN; and what is read."""
    commands = {(program, name): each for program, name, each in both() if "FEN" in each.slots}
    for number, (text, cause) in enumerate(refused()):
        fault = Fault("FEN", text, None, 4, f"fen: {cause}", f"formats.md, FEN: `{cause}`")
        for place, ((program, name), each) in enumerate(commands.items()):
            if name == "moves" or (number + place) % len(commands) == 0 or number % 11 == 0:
                yield call(program, name, each, fault, says=fault.says)
    moves = commands["freezer", "moves"]
    for text, answer in ACCEPTED:
        fault = Fault("FEN", text, None, 0, answer, "formats.md, FEN: what is read")
        yield call("freezer", "moves", moves, fault, says=fault.says)
