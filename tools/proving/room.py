"""How much room the men of the side have in a cell that is new or grows."""

from __future__ import annotations

from proving.cells import Cell
from proving.events import NEW_MEN, Event, Kind
from proving.reach import EVERYWHERE, PIECES_FIRST, fit, flood, give_reach, keep_near, walls_of

BEHIND_PROMOTION = 1_500_000  # numbers of a cell with a new man of the side's
SMALL = 600_000  # numbers of a cell in which men who were kept near may go further
NEAR = 1  # steps of a king whose side has a new queen
NEW_MEN_IDS = range(min(NEW_MEN.values()), 128)


def arrive(cell: Cell, i: int, kind: str, square: int) -> None:
    """Gives a man a square, and those near it where he keeps near."""
    slot = cell.slots[i]
    slot.states.add((kind, square))
    if slot.reach is not None and slot.reach < EVERYWHERE:
        slot.states |= {(kind, s) for s in flood(kind, slot.side, [square], walls_of(cell), slot.reach)}


def is_new(event: Event) -> bool:
    """Does a man move who was a pawn?"""
    return event.slot in NEW_MEN_IDS


def fitted(made: Cell, event: Event, own: str, limit: int, is_win: bool) -> Cell:
    """The new cell with as much room for the side's men as the limit leaves. Behind a promotion of the side's own the
    new man is to do the work: the others keep near first. To win with a queen a king needs few squares."""
    at = {i: s for s, i in event.ids.items()}
    room = max(made.size, SMALL)
    for i, slot in made.slots.items():
        if slot.reach is not None and i in at:
            slot.home = at[i]
            give_reach(made, i, EVERYWHERE)
    if event.kind is Kind.PROMOTION and event.is_own:
        others = {i: s for i, s in at.items() if s != event.move.to}
        fit(made, own, min(limit, BEHIND_PROMOTION), others, PIECES_FIRST)
        room = limit
    fit(made, own, min(limit, room), at)
    for i, slot in made.slots.items():
        if is_win and slot.is_king and slot.side == own and has_new_queen(made, own):
            keep_near(made, i, NEAR)
    return made


def has_new_queen(cell: Cell, own: str) -> bool:
    return any(i in NEW_MEN_IDS and slot.side == own and slot.squares("Q") for i, slot in cell.slots.items())
