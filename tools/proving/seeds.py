"""The cells of a claim that was decided on a sketch: built once, they show it or the search goes on as before."""

from __future__ import annotations

from typing import Optional

from proving.board import Position, man_of
from proving.cells import Cell
from proving.cover import Cover
from proving.defence import Defence, Holding
from proving.hunt import Hunt, favourites, strategy
from proving.proof import Budget, Status
from proving.row import Row, Spot
from proving.searching import verdict
from proving.tables import ProgramFailed

PASSES = 3
CAME = {
    "win": {True: "won", False: "no win", None: "open"},
    "hold": {True: "lost", False: "held", None: "open"},
}


class Seeds:
    """A hunt for the claim, and what it comes to."""

    def __init__(self, hunt: Hunt, position: Position, row: Row, budget: Budget, tell):
        self.hunt, self.position, self.row, self.budget, self.tell = hunt, position, row, budget, tell
        self.came: Optional[bool] = None
        self.found: Optional[list[Cell]] = None  # to be built
        self.are_good = False  # whether they are in the row, and decide the claim

    def try_out(self, until: float, end: float) -> bool:
        """Goes on with the hunt until these processor seconds, and shows by tables what it has found, until the end.
        Tells whether nothing is left to do."""
        if self.came is None:
            self.came = self.hunt.run(until)
            self.tell(f"hunt: {CAME[self.row.claim][self.came]}, {self.hunt.opened} slices, {self.row.shop.taken():.1f} s")
            if self.came is None:
                return self.hunt.is_full()
            self.hunt.sketch.end_at(end)
        if self.found is None and (self.came or self.row.claim == "hold"):
            self.found = self.cells()
        if self.found:
            self.row.shop.until = end
            self.build(self.found)
        return True

    def cells(self) -> Optional[list[Cell]]:
        """The cells of the strategy that needs the fewest numbers, of several."""
        hunt, kings = self.hunt, (self.position.board.index("K"), self.position.board.index("k"))
        if self.came:
            hunt.sketch.settle_anew(hunt.root, hunt.side, hunt.bit)
        ways = (lambda liked: strategy(hunt, liked)) if self.came else (lambda liked: Holding(hunt, liked).found)
        reached, best = ways(frozenset()), None
        for _ in range(PASSES):
            cover = Cover(hunt.root, reached, kings, self.row.own, self.budget.numbers)
            if best is None or cover.total() < best.total():
                best = cover
            reached = ways(favourites(reached))
        return best.cells(self.budget.tables)

    def build(self, cells: list[Cell]) -> None:
        """Leaves the cells in the row if they show what was found."""
        row = self.row
        before = row.cells, row.named
        row.cells, row.named = cells, max(row.named, len(cells))
        self.tell(f"hunt: {' '.join(f'{cell.name}:{cell.size}' for cell in cells)}")
        try:
            came = shown(row, self.position)
            self.are_good = came is not Status.OPEN
            self.tell(f"hunt: {came.value}, {row.shop.taken():.1f} s")
        except ProgramFailed as failed:
            self.tell(f"hunt: {failed}")
        finally:
            if not self.are_good:
                row.cells, row.named = before


def shown(row: Row, position: Position) -> Status:
    """What the last table of the row shows of the position."""
    last = len(row.cells) - 1
    row.ensure(last)
    return verdict(row, Spot(last, row.cells[last].number(position)))


def hunts(position: Position, own: str, claim: str) -> list[tuple[Hunt, float]]:
    """The hunts for a claim, the narrowest first, each with the part of the time that it is to have."""
    has_pieces = any(man_of(own, kind) in position.board for kind in "RBN")
    if claim == "hold":
        return [(Defence(position, own), 2.0)]
    calm = [(Hunt(position, own, is_calm=True), 1.0)] if has_pieces else []
    return calm + [(Hunt(position, own), 2.0)]
