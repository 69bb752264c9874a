"""How a hold may be saved by the side's own ways out: its promotions, captures and pawn moves.

Tables of guesses take each such way for a hold, and each of the opponent's for a loss. Where they hold, they tell
which of the side's ways out are worth a cell, and at which positions of a cell behind its work is worth while.
"""

from __future__ import annotations

from dataclasses import dataclass, field

from proving.board import Position
from proving.events import Event, Kind, hangs
from proving.guess import is_passed, rescue_lines
from proving.row import Built, Row, Spot
from proving.tables import is_safe

MOST_NODES, MOST_FOUND = 120, 4


@dataclass
class Rescue:
    """What the guesses rest on: ways out of the side's own, and positions of cells behind."""

    events: list[Event] = field(default_factory=list)
    entries: list[tuple[str, Position]] = field(default_factory=list)


def guess_built(search, index: int) -> Built:
    """The table of guesses of the cell, over those of the cells behind it; where the side has no pawn, the plain one."""
    row: Row = search.row
    cell = row.cells[index]
    name = f"{cell.name}.guess"
    if not any(slot.side == row.own and slot.is_pawn for slot in cell.slots.values()):
        row.ensure(index)
        row.built[name] = row.built[cell.name]
        return row.built[name]
    backs = [guess_built(search, j) for j in row.behind(index)]
    lines = rescue_lines(cell, row.own, search.covered.get(cell.name, {}), row.cells_behind(index))
    row.build(index, name, cell.text(lines, []), backs)
    return row.built[name]


def find_rescue(search, index: int, position: Position) -> Rescue:
    """Follows the opponent's ways of spoiling the hold, the side playing what the guesses hold, to what these rest on."""
    found, row = Rescue(), search.row
    guess_built(search, index)
    if not is_guessed(row, Spot(index, row.cells[index].number(position))):
        return found
    todo, seen = [position], set()
    while todo and len(seen) < MOST_NODES and len(found.events) + len(found.entries) < MOST_FOUND:
        position = todo.pop()
        if position in seen:
            continue
        seen.add(position)
        kids = search.kids(index, position)
        for move, after, _ in kids:
            search.walked(position, move, after)
        todo += own_reply(search, index, position, kids, found) if position.turn == row.own else spoilers(search, index, kids, found)
    return found


def is_guessed(row: Row, spot: Spot) -> bool:
    if spot.index < 0:
        return True
    return is_safe(row.built[f"{row.cells[spot.index].name}.guess"].table.code(row.own, spot.number))


def own_reply(search, index: int, position: Position, kids, found: Rescue) -> list[Position]:
    """The side's move: one that stays in the cell as long as there is one, then a way out."""
    row, inside = search.row, []
    for _, after, spot in kids:
        if spot is None or not is_guessed(row, spot) or search.has_given_up(spot, after):
            continue
        if is_safe(row.code(spot, row.own)):
            return []
        inside.append((spot.index == index, search.lasting(spot, index), spot, after))
    if inside:
        stays, _, spot, after = max(inside, key=lambda kid: kid[:2])
        if stays:
            return [after]
        found.entries.append((row.cells[spot.index].name, after))
        return []
    events = [search.event(index, position, move, after) for move, after, spot in kids if spot is None]
    found.events += sorted((e for e in events if is_rescue(e)), key=lambda e: e.kind is not Kind.PROMOTION)[:1]
    return []


def is_rescue(event: Event) -> bool:
    """Is the way out worth a try: a queen who does not hang, a capture, a step of a pawn whom nobody stops?"""
    if event.kind is Kind.PROMOTION:
        return event.move.promotion == "q" and not hangs(event)
    return event.kind is Kind.CAPTURE or event.kind is Kind.STEP and is_passed(event.cell, event.position.turn, event.move.origin)


def spoilers(search, index: int, kids, found: Rescue) -> list[Position]:
    """The opponent's moves that spoil the hold without the guesses, the soonest on top."""
    row, inside = search.row, []
    for _, after, spot in kids:
        if spot is None or is_safe(row.code(spot, row.own)) or search.has_given_up(spot, after):
            continue
        if spot.index == index:
            inside.append((search.lasting(spot, index), after))
        elif is_guessed(row, spot):
            found.entries.append((row.cells[spot.index].name, after))
    return [after for _, after in sorted(inside, key=lambda kid: -kid[0])]
