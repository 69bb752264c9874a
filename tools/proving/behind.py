"""Which cells of a row stand behind which: those to which a cell is to lead, and what the check of these asks for."""

from __future__ import annotations

from lib.chess import other
from proving.board import FORWARD, PAWN_HITS
from proving.cells import Cell
from proving.groups import Slot


def all_behind(cells: list[Cell]) -> list[list[int]]:
    """For each cell the places of those behind it, in order. A table behind is checked over all that stand before it in
    the call; so it is built over whatever it may lead to among them, and not only over what it is to lead to."""
    ways = {(i, j) for i in range(len(cells)) for j in range(i) if may_lead(cells[i], cells[j])}
    wanted = {(i, j) for i, j in ways if cells[i].leads is None or cells[j].name in cells[i].leads}
    while True:
        found = closed(len(cells), wanted)
        missing = {(i, j) for i, j in ways - wanted if j not in found[i] and any({i, j} <= behind for behind in found)}
        if not missing:
            return [sorted(behind) for behind in found]
        wanted |= missing


def closed(count: int, wanted: set[tuple[int, int]]) -> list[set[int]]:
    """For each cell those to which it leads, by itself or through others."""
    found: list[set[int]] = []
    for i in range(count):
        after = [j for j in range(i) if (i, j) in wanted]
        found.append(set(after).union(*(found[j] for j in after)))
    return found


def may_lead(cell: Cell, target: Cell) -> bool:
    """May a move out of the cell come to a position of the other? False only where it surely may not."""
    for side in "wb":
        for kind in "PNBRQ":
            here, there = cell.ranges[side + kind], target.ranges[side + kind]
            if there[0] > here[1] + 1 or there[1] < here[0] - 1:
                return False
    missing = [slot for slot in target.slots.values() if needs_pawn(slot) and not slot.squares("P") & pawn_squares(cell, slot.side)]
    if len(missing) > 1:  # one man moves at a time
        return False
    return all(slot.squares("P") & arrivals(cell, slot.side) for slot in missing)


def needs_pawn(slot: Slot) -> bool:
    return slot.is_sure and all(kind == "P" for kind, _ in slot.states)


def pawn_squares(cell: Cell, side: str) -> set[int]:
    return {s for slot in cell.slots.values() if slot.side == side for s in slot.squares("P")}


def arrivals(cell: Cell, side: str) -> set[int]:
    """Where a pawn of the side may come by one move: ahead, or where a man of the opponent's may be taken."""
    here, step = pawn_squares(cell, side), FORWARD[side]
    taken = {s for slot in cell.slots.values() if slot.side != side and not slot.is_king for _, s in slot.states}
    passed = {s + step for s in pawn_squares(cell, other(side))}
    hits = {to for s in here for to in PAWN_HITS[side][s]}
    return {s + step * n for s in here for n in (1, 2)} | hits & (taken | passed)
