"""The row of cells: each is built over those before it to which it may lead. The last has the first position."""

from __future__ import annotations

from dataclasses import dataclass, field
from typing import NamedTuple, Optional

from lib.chess import other
from proving.behind import all_behind
from proving.board import Position
from proving.cells import Cell
from proving.groups import COLOUR
from proving.tables import ASKED_LAST, HOLD, Table, Workshop, is_safe, is_win
from proving.words import SIDES, head

MANY_PLIES = 3 + 2 * 10 ** 9
LOST, WON = 3, 2


class Spot(NamedTuple):
    """Where a position is: the place of a cell in the row and the number there; or by the men alone (BY_THE_MEN)."""

    index: int
    number: int


BY_THE_MEN = Spot(-1, 0)


@dataclass
class Built:
    """A table, what it was made of, and its version."""

    table: Table
    made_of: tuple
    version: int


@dataclass
class Row:
    own: str  # the side that is asked about
    claim: str
    shop: Workshop
    cells: list[Cell] = field(default_factory=list)
    built: dict[str, Built] = field(default_factory=dict)  # by the name of the file
    versions: int = 0
    named: int = 0
    known_cells: list[Cell] = field(default_factory=list, repr=False)  # for which known_behind tells what lies behind
    known_behind: list[list[int]] = field(default_factory=list, repr=False)

    def new_name(self) -> str:
        return f"c{self.named + 1:02d}"

    def index(self, name: str) -> int:
        return next(i for i, cell in enumerate(self.cells) if cell.name == name)

    def insert(self, index: int, cell: Cell) -> None:
        self.cells.insert(index, cell)
        self.named += 1

    def behind(self, index: int) -> list[int]:
        """The cells behind this one, in order; kept until the cells change."""
        if self.known_cells != self.cells:
            self.known_cells, self.known_behind = list(self.cells), all_behind(self.cells)
        return self.known_behind[index]

    def cells_behind(self, index: int) -> dict[str, Cell]:
        """The same cells by their names."""
        return {self.cells[j].name: self.cells[j] for j in self.behind(index)}

    def plain_text(self, cell: Cell) -> str:
        """The text that proves: with the one exit line that is true by the men, that a bare king mates nobody. A win
        may lie behind it, so only the text of a hold has it."""
        if cell.known_text:
            return cell.known_text
        words = bare_words(cell, other(self.own))
        lines = [f"exit {COLOUR[self.own]} holds if {words}"] if words and self.claim == "hold" else []
        asked = f"Asked: does {SIDES[self.own]} {'win' if self.claim == 'win' else 'not lose'}?"
        cell.known_text = cell.text(lines, head([cell.about, asked]))
        return cell.known_text

    def ensure(self, index: int) -> Table:
        """The plain table of the cell, built where it or one behind it has changed."""
        self.ensure_all([*self.behind(index), index])
        return self.built[self.cells[index].name].table

    def ensure_all(self, indices: list[int]) -> None:
        """The same for several cells, where all that lies behind one of them comes before it."""
        for j in indices:
            backs = [self.built[self.cells[k].name] for k in self.behind(j)]
            self.build(j, self.cells[j].name, self.plain_text(self.cells[j]), backs)

    def build(self, index: int, name: str, text: str, backs: Optional[list[Built]] = None) -> Table:
        """The table of the text over the plain tables behind the cell, or over these."""
        if backs is None:
            self.ensure_all(self.behind(index))
            backs = [self.built[self.cells[j].name] for j in self.behind(index)]
        made_of = text, tuple(back.version for back in backs)
        kept = self.built.get(name)
        if kept is None or kept.made_of != made_of:
            self.versions += 1
            self.built[name] = kept = Built(self.shop.build(name, text, [back.table for back in backs]), made_of, self.versions)
        return kept.table

    def find(self, index: int, position: Position) -> Optional[Spot]:
        """Where a position is, seen from a cell: in itself, or in the first behind it."""
        number = self.cells[index].number(position)
        if number is not None:
            return Spot(index, number)
        if self.claim == "hold" and is_bare(position, other(self.own)):
            return BY_THE_MEN
        for j in self.behind(index):
            number = self.cells[j].number(position)
            if number is not None:
                return Spot(j, number)
        return None

    def code(self, spot: Spot, side: str, name: str = "") -> int:
        """The plain code of a side there, or that of the table of this name."""
        if spot == BY_THE_MEN:
            return HOLD if side == self.own else LOST
        return self.built[name or self.cells[spot.index].name].table.code(side, spot.number)

    def seen(self, spot: Spot, side: str, index: int, name: str = "") -> int:
        """The code as it counts for a move in the table of a cell: one of a cell behind counts the plies of wins alone,
        or none."""
        if spot.index == index:
            return self.code(spot, side, name)
        code = self.code(spot, side)
        if is_win(code):
            return code if ASKED_LAST else WON
        return HOLD if is_safe(code) else LOST


def bare_words(cell: Cell, side: str) -> str:
    """The conditions that leave the side its king alone."""
    kinds = {kind for slot in cell.slots.values() if slot.side == side for kind, _ in slot.states} - {"K"}
    kinds = set("QRBNP") if "P" in kinds else kinds
    return " ".join(f"count:{COLOUR[side]}:{kind}:0" for kind in "QRBNP" if kind in kinds)


def is_bare(position: Position, side: str) -> bool:
    men = "QRBNP" if side == "w" else "qrbnp"
    return not any(man in men for man in position.board)
