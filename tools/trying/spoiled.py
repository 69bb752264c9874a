"""Folders that were spoiled: whatever the search says, nothing false may come out as proved."""

import os
from dataclasses import replace

from trying.endings import MATE_IN_ONE, PAWN, PROMOTES, QUEEN, ROOK, STEPS_ASIDE, Handing, prove, write

BELIEVES = "exit white wins if always\n"


def alter(name, place, value):
    """Sets a byte of a file, counted from its end where the place is negative."""
    def spoil(folder):
        path = os.path.join(folder, name)
        with open(path, "rb") as file:
            content = bytearray(file.read())
        content[place] = value
        with open(path, "wb") as file:
            file.write(content)
    return spoil


def append(name, text):
    def spoil(folder):
        with open(os.path.join(folder, name), "a", encoding="ascii") as file:
            file.write(text)
    return spoil


def remove(name):
    return lambda folder: os.remove(os.path.join(folder, name))


def swap(folder):
    """Texts and tables under each other's names."""
    for end in (".txt", ".t"):
        one, two, third = (os.path.join(folder, name + end) for name in ("c01", "c02", "c03"))
        os.replace(one, third)
        os.replace(two, one)
        os.replace(third, two)


def with_line(cell, line):
    return replace(cell, text=cell.text + line)


class OfAnother(Handing):
    """Answers for the position with the other side to move, which is won."""

    def __call__(self, fen, *words, **named):
        return super().__call__(fen.replace(" b ", " w "), *words, **named)


SPOILED = {
    "no cell": (MATE_IN_ONE, Handing()),
    "no table": (MATE_IN_ONE, Handing(ROOK, spoil=remove("c01.t"))),
    "no text": (MATE_IN_ONE, Handing(ROOK, spoil=remove("c01.txt"))),
    "nothing built": (MATE_IN_ONE, Handing(ROOK, build=False)),
    "a code altered": (MATE_IN_ONE, Handing(ROOK, spoil=alter("c01.t", -4, 9))),
    "the first code altered": (MATE_IN_ONE, Handing(ROOK, spoil=alter("c01.t", 16 + len(ROOK.text), 9))),
    "the table cut": (MATE_IN_ONE, Handing(ROOK, spoil=lambda folder: os.truncate(os.path.join(folder, "c01.t"), 40))),
    "another magic": (MATE_IN_ONE, Handing(ROOK, spoil=alter("c01.t", 7, ord("A")))),
    "a comment altered": (MATE_IN_ONE, Handing(ROOK, spoil=alter("c01.txt", 3, ord("X")))),
    "a line more": (MATE_IN_ONE, Handing(ROOK, spoil=append("c01.txt", "# more\n"))),
    "a believed line": (STEPS_ASIDE, Handing(with_line(ROOK, BELIEVES))),
    "a believed line behind": (PROMOTES, Handing(with_line(QUEEN, BELIEVES), PAWN)),
    "a believed line that no text shows": (
        STEPS_ASIDE, Handing(with_line(ROOK, BELIEVES), spoil=lambda folder: write(folder, "c01.txt", ROOK.text)),
    ),
    "the table behind altered": (PROMOTES, Handing(QUEEN, PAWN, spoil=alter("c01.t", -4, 9))),
    "no table behind": (PROMOTES, Handing(QUEEN, PAWN, spoil=remove("c01.t"))),
    "no text behind": (PROMOTES, Handing(QUEEN, PAWN, spoil=remove("c01.txt"))),
    "a text behind altered": (PROMOTES, Handing(QUEEN, PAWN, spoil=append("c01.txt", "\n"))),
    "names exchanged": (PROMOTES, Handing(QUEEN, PAWN, spoil=swap)),
    "another table in its place": (MATE_IN_ONE, Handing(QUEEN, PAWN)),
    "the other side to move": (STEPS_ASIDE, OfAnother(ROOK)),
}


def see_spoiled(programs, checks):
    """Each of these is not shown, with or without a claim, and leaves no page."""
    for number, (what, (fen, searching)) in enumerate(SPOILED.items()):
        for claim in ((), ("--claim", "win", "--for", "white")):
            place = f"spoiled{number}{''.join(claim)}"
            status, line, err = prove(programs, searching, fen, "--out", place, *claim)
            checks.same(f"{what}, {claim}: the status", status, 3)
            checks.see(f"{what}, {claim}: {line}, {err}", line.startswith(f"{fen}: Not shown"))
            checks.see(f"{what}: a page", not os.path.exists(os.path.join(place, "PROOF.md")))
    see_forgotten_back(programs, checks)


def see_forgotten_back(programs, checks):
    """A table that stands over another is none by itself."""
    status, line, _ = prove(programs, Forgetful(), PROMOTES, "--out", "forgotten")
    checks.same("a back that is not named", (status, line.startswith(f"{PROMOTES}: Not shown")), (3, True))


class Forgetful(Handing):
    """Builds the pawn's table over the queen's, and hands over that it stands over none."""

    def __init__(self):
        super().__init__(QUEEN, PAWN)

    def __call__(self, *words, **named):
        found = super().__call__(*words, **named)
        return replace(found, cells=(QUEEN, replace(PAWN, over=())))
