"""Small endings that were worked out by hand, each a row of texts, and searches that hand them over."""

import contextlib
import io
import os

from proving import front
from proving.asking import Asking
from proving.proof import Cell, Found, Status

ROOK = Cell("c01", """# White's rook mates in the corner.
freezer 1
group white 1 K:b6
group white 1 R:h1,h8
group black 1 K:a8,b8
""", (), "the rook's mate in the corner")
MATE_IN_ONE = "k7/8/1K6/8/8/8/8/7R w - - 0 1"
STEPS_ASIDE = "1k6/8/1K6/8/8/8/8/7R b - - 0 1"

QUEEN = Cell("c01", """# White's new queen mates.
freezer 1
group white 1 K:f7
group white 1 Q:a8,h1
group black 1 K:h7,h8
""", (), "the new queen")
PAWN = Cell("c02", """# White's pawn is about to promote.
freezer 1
group white 1 K:f7
group white 1 P:a7
group black 1 K:h7,h8
""", ("c01",), "the pawn before its last step")
PROMOTES = "7k/P4K2/8/8/8/8/8/8 w - - 0 1"

# Black's pawn cannot pass the king in the corner; of White's king only three squares are asked.
CORNER = Cell("c01", """# White's king stays before the pawn.
freezer 1
group white 1 K:a1,b1,a2
group black 1 K:all
group black 1 P:a2,a3
exit draw if count:black:P:0 count:black:Q:0 count:black:R:0 count:black:B:0 count:black:N:0
""", (), "the king before the pawn")
BEFORE_THE_PAWN = "8/8/8/8/8/pk6/8/K7 w - - 0 1"

# No pawn can ever move or be taken, and no king comes through.
LOCKED = Cell("c01", """# Sixteen pawns stand fast.
freezer 1
group white 1 K:a1-h2
group black 1 K:a6-h8
group white 8 P:a3,c3,e3,g3,b4,d4,f4,h4
group black 8 P:a4,c4,e4,g4,b5,d5,f5,h5
""", (), "the wall of sixteen pawns")
BOTH_HOLD = "4k3/8/8/1p1p1p1p/pPpPpPpP/P1P1P1P1/8/4K3 w - - 0 1"


class Handing:
    """A search that hands over these cells, which it builds, whatever they show; `spoil` alters the folder then."""

    def __init__(self, *cells, spoil=None, build=True, **told):
        self.cells, self.spoil, self.build, self.told = cells, spoil, build, told

    def __call__(self, fen, side, claim, programs, folder, budget, tell, resume=False):
        for cell in self.cells if self.build else ():
            write(folder, f"{cell.name}.txt", cell.text)
            words = [f"{name}.t" for name in (cell.name, *cell.over)]
            Asking(programs, folder).call("atlas" if cell.over else "freezer", "build", f"{cell.name}.txt", *words)
        if self.spoil:
            self.spoil(folder)
        told = {"side": side, "claim": claim, "status": Status.PROVED, **self.told}
        return Found(fen, cells=self.cells, **told)


def write(folder, name, text):
    with open(os.path.join(folder, name), "w", encoding="utf-8") as file:
        file.write(text)


def prove(programs, searching, *words):
    """Status, standard output and standard error of a call of ./prove with this search in the place of its own."""
    kept, front.search = front.search, searching
    out, err = io.StringIO(), io.StringIO()
    named = ["--program", programs.freezer, "--atlas", programs.atlas]
    try:
        with contextlib.redirect_stdout(out), contextlib.redirect_stderr(err):
            status = front.main([*words, *named])
    finally:
        front.search = kept
    return status, out.getvalue().strip(), err.getvalue()
