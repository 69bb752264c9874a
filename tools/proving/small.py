"""Makes a proof smaller while its claim stands: fewer cells, fewer squares of the side's own, fewer men who may be gone."""

from __future__ import annotations

import os
from collections.abc import Iterator
from dataclasses import replace

from lib.chess import KINDS
from proving.board import Position
from proving.cells import Cell
from proving.row import Row, Spot
from proving.searching import verdict
from proving.proof import Status
from proving.tables import OutOfTime, ProgramFailed

SHARE = 0.1  # of the time of the search
MICROSECONDS = 2e-6  # that a number may take to build and to check
WORTH = 0.1  # a change is tried where it saves this part of the row


def total(cells: list[Cell]) -> int:
    return sum(cell.size for cell in cells)


def is_proved(row: Row, spot: Spot) -> bool:
    return verdict(row, spot) is Status.PROVED


def make_small(row: Row, position: Position, tell, stands=is_proved) -> Row:
    """A row of which the same still stands, perhaps with less."""
    until = row.shop.taken() * SHARE + row.shop.taken()
    kept, tries = row, 0
    refused: set[str] = set()
    while True:
        trial = next((t for t in trials(kept) if t[0] not in refused and is_worth(kept, t[1], until)), None)
        if trial is None:
            return kept
        words, cells = trial
        tries += 1
        made = attempt(kept, cells, position, f"smaller{tries}", stands)
        refused.add(words)
        if made is not None:
            tell(f"smaller: {words}; {total(made.cells)} numbers in {len(made.cells)} tables")
            kept = made


def is_worth(row: Row, cells: list[Cell], until: float) -> bool:
    """Does the change save enough, and is there time for it?"""
    if total(row.cells) - total(cells) < WORTH * total(row.cells) and len(cells) == len(row.cells):
        return False
    return row.shop.taken() + total(cells) * MICROSECONDS < until


def attempt(row: Row, cells: list[Cell], position: Position, folder: str, stands=is_proved):
    """The row of these cells if the same stands, built in a folder of its own; else None."""
    place = os.path.join(row.shop.home, folder)
    os.makedirs(place, exist_ok=True)
    made = replace(row, cells=cells, built=dict(row.built), shop=row.shop.at(place))
    index = len(cells) - 1
    number = cells[index].number(position)
    if number is None:
        return None
    try:
        made.ensure(index)
    except (OutOfTime, ProgramFailed):
        return None
    return made if stands(made, Spot(index, number)) else None


def trials(row: Row) -> Iterator[tuple[str, list[Cell]]]:
    """Smaller rows, each with its words."""
    cells = row.cells
    for i in sorted(range(len(cells) - 1), key=lambda j: -cells[j].size):
        yield f"without {cells[i].name}", cells[:i] + cells[i + 1:]
    for i in sorted(range(len(cells)), key=lambda j: -cells[j].size):
        for words, made in smaller_cells(cells[i], row.own):
            yield f"{cells[i].name} {words}", cells[:i] + [made] + cells[i + 1:]


def smaller_cells(cell: Cell, own: str) -> Iterator[tuple[str, Cell]]:
    """The cell with a man there for sure, or with fewer squares for a man of the side."""
    for i, slot in cell.slots.items():
        if not slot.is_sure:
            made = cell.copy()
            made.slots[i].is_sure = True
            yield f"with man {i} for sure", made.changed()
        if slot.side == own:
            for kind in KINDS:
                yield from halves(cell, i, kind)


def halves(cell: Cell, i: int, kind: str) -> Iterator[tuple[str, Cell]]:
    """The cell where the man has the left, right, lower or upper squares of his alone."""
    squares = cell.slots[i].squares(kind)
    if len(squares) < 6:
        return
    for words, part in (("left", lambda s: s % 8 < 5), ("right", lambda s: s % 8 > 2), ("lower", lambda s: s // 8 < 5), ("upper", lambda s: s // 8 > 2)):
        kept = {s for s in squares if part(s)}
        if kept and kept != squares:
            made = cell.copy()
            made.slots[i].states -= {(kind, s) for s in squares - kept}
            made.slots[i].roams = False
            yield f"with the {words} squares of man {i}", made.changed()
