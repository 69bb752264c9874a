"""Texts of no legal move, ends, and names that are no ordinary files."""

import os

from lib.refusals.case import Case
from lib.refusals.fixtures import A, A_FILE, BOUNDS, H, IN_A, MATE_IN_ONE, N_FILE, OUTSIDE, files_of

NO_MOVE = "formats.md, Reading: a sign that the move does not have, an origin that is not needed, a missing `x` or `=`"
ENDS = "commands.md, moves: if there is none, it prints `mate` or `stalemate`"
SPECIAL = "commands.md, refused: `store fault` means that the name is a folder or a pipe"

# Positions, the text of a move of each with its coordinates and the FEN afterwards, and texts of none.
MOVES = (
    (MATE_IN_ONE, "Rh8#", "h1h8", "k6R/8/1K6/8/8/8/8/8 b - - 0 1",
     ("", "Rh8+", "Rh8##", "Rh8#+", "Rhh8", "R1h8", "Rh1h8", "rh8", "Rxh8", "Rxh8#", "h8", "h1h8", "h1-h8", "Rh9",
      "Ri1", "Rh8 ", " Rh8", "Rh8\n", "Rh8!", "Rh8=Q", "RH8", "Rh", "R", "Rh1", "Qh8", "Kb7", "Ka8", "Kb6", "O-O",
      "0-0", "--", "Rh88", "Th8", "♖h8", "Rh8#" * 20, "mate", "#")),
    (MATE_IN_ONE, "Rh7", "h1h7", "k7/7R/1K6/8/8/8/8/8 b - - 0 1",
     ("Rh7+", "Rh7#", "Rh7?", "Rh7.", "1.Rh7", "Rh7e.p.")),
    ("8/8/8/3pP3/8/8/8/K1k5 w - d6 0 1", "exd6", "e5d6", "8/8/3P4/8/8/8/8/K1k5 b - - 0 1",
     ("d6", "ed6", "e5d6", "e5xd6", "5xd6", "xd6", "exd6e.p.", "exd6 e.p.", "exd6+", "exd6#", "exd5", "dxe6", "Pxd6",
      "Exd6", "e:d6", "exd6=Q", "e7", "e5")),
    ("8/4P3/8/8/8/8/8/K1k5 w - - 0 1", "e8=Q", "e7e8q", "4Q3/8/8/8/8/8/8/K1k5 b - - 0 1",
     ("e8", "e8Q", "e8=q", "e8=K", "e8=P", "e8=", "e8=QQ", "e8=Q+", "e8=Q#", "e8/Q", "e8(Q)", "e7e8q", "e7e8=Q", "=Q",
      "e9=Q")),
    ("8/4P3/8/8/8/8/8/K1k5 w - - 0 1", "e8=N", "e7e8n", "4N3/8/8/8/8/8/8/K1k5 b - - 0 1", ("e8=n", "e8N", "e8=N+")),
    ("3r4/4P3/8/8/8/8/8/K1k5 w - - 0 1", "exd8=R", "e7d8r", "3R4/8/8/8/8/8/8/K1k5 b - - 0 1",
     ("exd8", "exd8R", "ed8=R", "d8=R", "exd8=R+", "e7xd8=R", "exd8=r", "exf8=R")),
    ("4k3/8/8/8/8/K7/8/R6R w - - 0 1", "Rad1", "a1d1", "4k3/8/8/8/8/K7/8/3R3R b - - 0 1",
     ("Rd1", "R1d1", "Ra1d1", "Rh1d1", "Rbd1", "Raxd1", "Rad1+", "Rad1#", "RAd1", "aRd1")),
    ("4k3/R7/8/K7/8/8/8/R7 w - - 0 1", "Ra6", "a7a6", "4k3/8/R7/K7/8/8/8/R7 b - - 0 1",
     ("R7a6", "Raa6", "Ra7a6", "R1a6")),
    ("4k3/R7/8/7K/8/8/8/R7 w - - 0 1", "R1a3", "a1a3", "4k3/R7/8/7K/8/R7/8/8 b - - 0 1",
     ("Ra3", "Raa3", "Ra1a3", "R8a3", "R1a3+", "R1xa3")),
    ("8/7k/8/8/Q2Q4/8/8/Q6K w - - 0 1", "Qa4d1", "a4d1", "8/7k/8/8/3Q4/8/8/Q2Q3K b - - 0 1",
     ("Qd1", "Qad1", "Q4d1", "Qa4xd1", "Qa1d1", "Qd4d1", "Q1xd1", "Qa4d1+", "Qa4d1#", "4Qad1")),
    # A man that is pinned may not move, and is no rival.
    ("4r2k/8/8/8/8/8/4N3/1N2K3 w - - 0 1", "Nc3", "b1c3", "4r2k/8/8/8/8/2N5/4N3/4K3 b - - 0 1",
     ("Nbc3", "N1c3", "Nb1c3", "Nec3", "N2c3", "Nd4", "Nf4", "Ned4", "Nc3+")),
    ("k6R/8/1K6/8/8/8/8/8 b - - 0 1", None, None, None, ("", "Kb8", "Ka7", "Kxh8", "Rh8", "mate", "#")),
    ("k7/2Q5/1K6/8/8/8/8/8 b - - 0 1", None, None, None, ("", "Kb8", "Ka7", "Kb7", "Kxb7", "stalemate")),
)


def moves():
    for fen, san, coordinates, after, wrong in MOVES:
        if coordinates:
            for text in {san, san.rstrip("#+")}:
                yield Case("freezer", ("move", fen, text), {}, 0, f"{coordinates}\n{after}\n", NO_MOVE)
        for text in wrong:
            yield Case("freezer", ("move", fen, text), {}, 15, "no move\n", NO_MOVE)
    for fen, end in ((MOVES[-2][0], "mate\n"), (MOVES[-1][0], "stalemate\n")):
        for name in ("moves", "sans"):
            yield Case("freezer", (name, fen), {}, 0, end, ENDS)


def special_files():
    """Pipes and devices."""
    for words in (("solve", "/dev/stdin", IN_A), ("build", "/dev/stdin", "new"), ("chain", "/dev/stdin", "N.t", "new")):
        yield Case("freezer", words, files_of(words), 8, "store fault\n", SPECIAL, A.encode(), piped=True)
    for words in (("size", "/dev/stdin"), ("build", "/dev/stdin", "new", "N.t"), ("premises", "/dev/stdin")):
        yield Case("atlas", words, files_of(words), 8, "store fault\n", SPECIAL, A.encode(), piped=True)
    says = "commands.md, Files and long work: an output such as /dev/null is written by the program itself"
    yield Case("freezer", ("build", "A", "/dev/null"), files_of(["A"]), 0, "built 8\n", says)
    yield Case("freezer", ("migrate", "old.t", "/dev/null"), files_of(["old.t"]), 0, "migrated 8\n", says)
    yield Case("atlas", ("build", "H", "/dev/null", "N.t", "L.t"), files_of(["H", "N.t", "L.t"]), 0, "built 4\n", says)
    says = "formats.md, Lines and words: a text that is empty; Table files, step 2"
    yield Case("freezer", ("solve", "/dev/null", IN_A), {}, 3, "rules 0: header\n", says)
    yield Case("freezer", ("check", "/dev/null"), {}, 5, "table: truncated 0 due 16\n", says)
    yield Case("atlas", ("size", "/dev/null"), {}, 3, "rules 0: header\n", says)
    # A link to a file is that file.
    to_files = (("query", "to.t", IN_A), BOUNDS), (("check", "to.t"), "exact 8\n"), (("solve", "to", IN_A), BOUNDS)
    for words, text in to_files:
        files = {"A": A.encode(), "A.t": A_FILE, "to.t": "A.t", "to": "A"}
        yield Case("freezer", words, files, 0, text, "commands.md, Files and long work: a link stays a link")
    files = {"H": H.encode(), "N.t": N_FILE}
    yield Case("freezer", ("solve", "H", OUTSIDE), files, 7, "outside\n", "commands.md, refused: outside")


def closed_files():
    """Files that may not be read, or not be written."""
    says = "commands.md, refused: `store fault` means that the file may not be read, or that it could not be written"
    for program, words, closed in (
        ("freezer", ("solve", "A", IN_A), "A"), ("freezer", ("build", "A", "new"), "A"),
        ("freezer", ("check", "A.t"), "A.t"), ("freezer", ("query", "A.t", IN_A), "A.t"),
        ("freezer", ("report", "A.t"), "A.t"), ("freezer", ("line", "A.t", IN_A, "white"), "A.t"),
        ("freezer", ("play", "A.t", IN_A, "white"), "A.t"), ("freezer", ("migrate", "old.t", "new"), "old.t"),
        ("freezer", ("chain", "A", "N.t", "new"), "N.t"), ("freezer", ("chaincheck", "AN.t", "N.t"), "N.t"),
        ("freezer", ("chaincheck", "AN.t", "nowhere"), "AN.t"), ("freezer", ("chainquery", "AN.t", IN_A), "AN.t"),
        ("freezer", ("build", "A", "A.t"), "A.t"), ("freezer", ("migrate", "old.t", "A.t"), "A.t"),
        ("freezer", ("chain", "A", "N.t", "A.t"), "A.t"), ("freezer", ("build", "A", "new"), "."),
        ("freezer", ("migrate", "old.t", "new"), "."), ("freezer", ("chain", "A", "N.t", "new"), "."),
        ("atlas", ("size", "A"), "A"), ("atlas", ("build", "A", "new", "N.t"), "A"),
        ("atlas", ("build", "A", "new", "N.t", "nowhere"), "N.t"), ("atlas", ("build", "A", "new", "N.t"), "."),
        ("atlas", ("build", "A", "L.t", "N.t"), "L.t"), ("atlas", ("check", "L.t", "nowhere"), "L.t"),
        ("atlas", ("check", "L.t", "N.t"), "N.t"), ("atlas", ("query", "L.t", IN_A), "L.t"),
        ("atlas", ("each", "L.t", IN_A), "L.t"), ("atlas", ("each", "L.t", IN_A, "N.t"), "N.t"),
        ("atlas", ("report", "L.t", "N.t"), "N.t"),
        ("atlas", ("line", "L.t", IN_A, "white", "N.t"), "N.t"), ("atlas", ("why", "L.t", IN_A, "white"), "L.t"),
        ("atlas", ("play", "L.t", IN_A, "white", "N.t"), "N.t"), ("atlas", ("premises", "A", "N.t"), "N.t"),
    ):
        yield Case(program, words, files_of(words), 8, "store fault\n", says, closed=(closed,))


def cases():
    yield from moves()
    yield from special_files()
    # Nothing is closed to root.
    if os.geteuid() != 0:
        yield from closed_files()
