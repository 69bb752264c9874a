"""Where men can go past the pawns that stand fast, and how a cell's men are kept near their squares."""

from __future__ import annotations

from collections.abc import Iterable, Set
from functools import lru_cache
from typing import Optional

from lib.chess import KINDS, other
from proving.board import FORWARD, PAWN_HITS, reaches
from proving.cells import Cell
from proving.groups import Slot

EVERYWHERE = 9
STEPS = {"K": (0, 1, 2, 3, 4, EVERYWHERE)}  # how far a man may be kept, by his kind
PIECE_STEPS = (0, 1, EVERYWHERE)

Walls = "dict[str, set[int]]"  # by side, the squares of the pawns that stand fast


def walls_of(cell: Cell) -> Walls:
    found: dict[str, set[int]] = {"w": set(), "b": set()}
    for slot in cell.slots.values():
        square = slot.fixed_square()
        if square is not None:
            found[slot.side].add(square)
    return found


def steps(kind: str, square: int, shut: Set[int]) -> Iterable[int]:
    """The squares of one move from here, past nobody who stands fast."""
    for line in reaches(kind, square):
        for to in line:
            if to in shut:
                break
            yield to


def shut_for(kind: str, side: str, walls: Walls) -> set[int]:
    """The squares that a man of the side does not enter: those of fast pawns, and for a king what they attack."""
    shut = walls["w"] | walls["b"]
    if kind == "K":
        shut = shut | {to for s in walls[other(side)] for to in PAWN_HITS[other(side)][s]}
    return shut


def flood(kind: str, side: str, starts: Iterable[int], walls: Walls, most: int = 64) -> set[int]:
    """The squares that a man reaches within so many moves."""
    return set(spread(kind, frozenset(starts), frozenset(shut_for(kind, side, walls)), most))


@lru_cache(maxsize=5_000)
def spread(kind: str, starts: frozenset[int], shut: frozenset[int], most: int) -> frozenset[int]:
    """Kept, since the cells of one search have the same pawns again and again."""
    seen, edge = set(starts), list(starts)
    for _ in range(most):
        edge = list({to for s in edge for to in steps(kind, s, shut)} - seen)
        if not edge:
            break
        seen.update(edge)
    return frozenset(seen)


def close(cell: Cell) -> Cell:
    """Lets pawns advance and men roam as far as the pawns that stand fast allow. To be called after a change."""
    before = None
    while before != (before := sum(len(slot.states) for slot in cell.slots.values())):
        walls = walls_of(cell)
        for i, slot in cell.slots.items():
            if slot.roams:
                for kind in KINDS[:5]:
                    starts = slot.squares(kind)
                    slot.states |= {(kind, s) for s in flood(kind, slot.side, starts, walls)} if starts else set()
            if i not in cell.frozen:
                advance(slot, walls["w"] | walls["b"])
    return cell.changed()


def advance(slot: Slot, shut: set[int]) -> None:
    """Gives a pawn the squares before him, as far as nobody stands fast there."""
    for square in slot.squares("P"):
        ahead = square + FORWARD[slot.side]
        while ahead not in shut and 0 < ahead // 8 < 7:
            slot.states.add(("P", ahead))
            ahead += FORWARD[slot.side]


def keep_near(cell: Cell, i: int, reach: int) -> None:
    """Keeps the man of the slot to the squares that he reaches within so many moves from his home."""
    slot = cell.slots[i]
    kind = next(k for k, _ in slot.states)
    slot.reach, slot.roams = reach, reach == EVERYWHERE
    walls = walls_of(cell)
    near = flood(kind, slot.side, [slot.home], walls, 64 if reach == EVERYWHERE else reach)
    if slot.roams:
        near |= slot.squares(kind)
    slot.states = {state for state in slot.states if state[0] != kind} | {(kind, s) for s in near}
    cell.changed()


def give_reach(cell: Cell, i: int, reach: int) -> None:
    """Lets the man of the slot go so far from his home; what he had before he keeps."""
    before = set(cell.slots[i].states)
    keep_near(cell, i, reach)
    cell.slots[i].states |= before
    cell.changed()


def wider_reach(slot: Slot) -> Optional[int]:
    """The next reach beyond that of a man who is kept near, or None."""
    if slot.reach is None:
        return None
    kind = next(k for k, _ in slot.states)
    return min((r for r in STEPS.get(kind, PIECE_STEPS) if r > slot.reach), default=None)


KINGS_FIRST = tuple((reach, is_king) for reach in (4, 3, 2, 1, 0) for is_king in (False, True) if not (reach > 1 and not is_king or reach == 0 and is_king))
PIECES_FIRST = ((1, False), (0, False), (4, True), (3, True), (2, True), (1, True))


def fit(cell: Cell, own: str, most: int, at: dict[int, int], order=KINGS_FIRST) -> Cell:
    """Keeps men of the side near where they stand (`at`, by id), in this order, until the cell has no more numbers
    than these."""
    movable = [i for i, s in cell.slots.items() if s.side == own and i in at and not s.is_pawn and len({k for k, _ in s.states}) == 1]
    for i in movable:
        cell.slots[i].home = at[i]
    for reach, is_king in order:
        for i in sorted(movable, key=lambda j: -len(cell.slots[j].states)):
            slot = cell.slots[i]
            if cell.size <= most:
                return cell
            if slot.is_king == is_king and len(slot.states) > 1:
                keep_near(cell, i, reach)
    return cell
