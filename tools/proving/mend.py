"""How an event is mended: the cell grows, a cell behind grows, or a new cell is made for what is left after it."""

from __future__ import annotations

import enum
from collections.abc import Iterator
from dataclasses import dataclass
from typing import Optional

from lib.chess import side_of
from proving.board import Position, men_of
from proving.cells import Cell
from proving.events import Event, Kind
from proving.groups import PIECES, Slot
from proving.reach import close, fit, give_reach, wider_reach
from proving.room import NEW_MEN_IDS, arrive, fitted, is_new
from proving.words import begun, further


LARGE = 4  # from this part of the limit on a pawn's step may have a cell of its own, since he never comes back
CROWD = 100_000  # numbers that one table more is worth


class How(enum.Enum):
    IN_PLACE = "in place"
    HULL = "hull"
    SPLIT = "split"


@dataclass(eq=False)
class Way:
    """One way to mend an event: what it costs, and the cell that is changed or new."""

    how: How
    price: float
    index: int  # of the cell that is changed; of a new cell, the place in the row
    cell: Cell


def first_cell(position: Position, own: str, most: int, name: str) -> Cell:
    """The cell of the first position: who stands fast stands fast, the others roam. Where that is too large, the men
    of the side that is asked about keep near where they stand."""
    slots = {}
    for square, man in men_of(position.board):
        slots[square] = Slot(side_of(man), man.upper() not in PIECES, {(man.upper(), square)})
    cell = Cell(name, slots, "The position itself.")
    cell.frozen = own_pawns(slots, own)
    loosen(close(cell), own)
    return fit(cell, own, most, {i: i for i in slots})


def own_pawns(slots: dict[int, Slot], own: str) -> set[int]:
    return {i for i, slot in slots.items() if slot.side == own and slot.is_pawn}


def loosen(cell: Cell, own: str) -> Cell:
    """Lets the opponent's pawns that may run be taken too: beside their squares that costs little, and somebody has to
    stop them."""
    for slot in cell.slots.values():
        if slot.side != own and len(slot.squares("P")) > 1:
            slot.is_sure = False
    return cell.changed()


def new_man(event: Event) -> Slot:
    """The slot of a promoted man: of the kind that the side chose, or of all four for the opponent, and then at first
    only where he came up, since the side may take him at once."""
    kinds = event.move.promotion.upper() if event.is_own else PIECES
    return Slot(event.position.turn, False, {(kind, event.move.to) for kind in kinds}, roams=event.is_own)


def in_place(event: Event) -> Cell:
    """The cell with the event inside."""
    made = event.cell.copy()
    if event.victim is not None:
        made.slots[event.victim].is_sure = False
    if event.move.promotion:
        made.slots[event.slot].is_sure = False
        made.slots[event.ids[event.move.to]] = new_man(event)
        return close(made)
    slot = made.slots[event.slot]
    slot.states.add((event.man, event.move.to))
    made.frozen.discard(event.slot)
    slot.roams = slot.roams or not event.is_own
    reach = wider_reach(slot) if event.kind is Kind.LEAVE else None
    if reach is not None:
        give_reach(made, event.slot, reach)
    return close(made)


def split(event: Event, own: str, name: str) -> Cell:
    """A new cell for what is left after the event: pawns where they stand now, other men as before."""
    slots = {}
    for square, i in event.ids.items():
        kind = event.after.board[square].upper()
        old = event.cell.slots.get(i)
        if old is None:
            slots[i] = new_man(event)
            slots[i].is_sure = event.is_own
        elif kind == "P":
            slots[i] = Slot(old.side, True, {("P", square)}, old.roams)
        else:
            slots[i] = old.copy()
            slots[i].states = {state for state in old.states if state[0] == kind} | {(kind, square)}
    made = Cell(name, slots, begun(event))
    made.frozen = own_pawns(slots, own)
    return close(made)


def hull(cell: Cell, event: Event) -> Optional[Cell]:
    """The cell grown so that it holds the position after the event too; None where a man is none of its own."""
    made = cell.copy()
    made.about = further(cell.about, event)
    for square, i in event.ids.items():
        kind = event.after.board[square].upper()
        if i in made.slots:
            arrive(made, i, kind, square)
        elif kind == "P":
            made.slots[i] = Slot(event.cell.slots[i].side, False, {("P", square)})
            if i in event.cell.frozen:
                made.frozen.add(i)
        else:
            return None
    there = set(event.ids.values())
    for i, slot in made.slots.items():
        if i not in there:
            slot.is_sure = False
    return close(made)


def prospect(cell: Cell, own: str) -> int:
    """The numbers that the cell may come to when the side's pawns run; behind a promotion they need not."""
    if any(i in NEW_MEN_IDS and slot.side == own for i, slot in cell.slots.items()):
        return cell.size
    running = cell.copy()
    running.frozen = set()
    return close(running).size


def ways(row: list[Cell], index: int, event: Event, own: str, limit: int, most_cells: int, name: str, is_win: bool) -> Iterator[Way]:
    """The ways to mend the event of the cell at the index, of no more numbers than the limit."""
    full = len(row) >= most_cells
    if event.kind is not Kind.PROMOTION or not event.is_own or full:
        made = loosen(in_place(event), own)
        if made.size > limit and not is_win and not event.is_own and event.kind is Kind.LEAVE and is_new(event):
            made = fit(made, own, limit, {i: slot.home for i, slot in made.slots.items() if slot.home is not None})
        yield Way(How.IN_PLACE, growth(event.cell, made, own), index, made)
    if event.kind is Kind.LEAVE or event.kind is Kind.STEP and made.size <= limit / LARGE:
        return
    for j in range(index):
        made = hull(row[j], event)
        if made is not None:
            loosen(made, own)
            yield Way(How.HULL, growth(row[j], made, own), j, made)
    if not full:
        made = fitted(loosen(split(event, own, name), own), event, own, limit, is_win)
        crowd = CROWD * (1 + max(0, len(row) - 3))
        yield Way(How.SPLIT, prospect(made, own) * 1.25 + crowd + event.cell.size / 4, index, made)


def growth(old: Cell, made: Cell, own: str) -> float:
    return prospect(made, own) - prospect(old, own) + made.size / 4


def cheapest(row: list[Cell], index: int, event: Event, own: str, limit: int, most_cells: int, name: str, is_win: bool) -> Optional[Way]:
    """The cheapest way to mend the event, or None where each is too large."""
    fitting = [way for way in ways(row, index, event, own, limit, most_cells, name, is_win) if way.cell.size <= limit and way.cell.is_writable()]
    return min(fitting, key=lambda way: way.price, default=None)
