"""The search of a hold: the way on which the opponent spoils it is followed to a move out of all sets, and that is
mended; until he has no such way, or wins."""

from __future__ import annotations

import random
from dataclasses import dataclass, field
from typing import Optional

from lib.chess import other
from proving.board import Position, man_of
from proving.events import Event, Kind
from proving.guess import has_new_man
from proving.mend import How
from proving.reach import give_reach, wider_reach
from proving.rescues import find_rescue
from proving.row import MANY_PLIES, Spot, is_bare
from proving.searching import Search
from proving.tables import is_safe, is_win

SMALL, MIDDLE = 1_500_000, 3_000_000
MOST_NODES, MOST_EVENTS = 150, 6
OTHER_WAYS, FEW_NODES = 4, 60


@dataclass
class Spoiling:
    """What is found on the ways on which the opponent spoils the hold."""

    theirs: list[Event] = field(default_factory=list)  # the opponent's events
    mine: list[list[Event]] = field(default_factory=list)  # the side's own on the way, for each position
    entries: list[tuple[str, Position]] = field(default_factory=list)  # where it comes into another cell


@dataclass
class HoldSearch(Search):
    covered: dict[str, dict] = field(default_factory=dict)  # of each cell, the events that cells behind answer

    def improve(self, name: str, position: Position) -> bool:
        index = self.row.index(name)
        found = self.spoiled(index, position)
        if found.entries:
            if not (self.is_race(found.entries[0][0]) and self.rescue(index, position)):
                all(self.settle(*entry) for entry in found.entries[:MOST_EVENTS])
            return True
        steps = (
            lambda: self.mend_all(quiet(found.theirs), self.limit),
            lambda: self.mend_own(found, Kind.CAPTURE),
            lambda: self.other_ways(index, position),
            lambda: self.widen(found, min(self.limit, MIDDLE)),
            lambda: self.rescue(index, position),
            lambda: self.mend_own(found, Kind.STEP),
            lambda: self.mend_all([e for e in found.theirs if e.kind is Kind.PROMOTION], self.limit),
            lambda: self.widen(found, self.limit),
            lambda: self.mend_rest(found),
            lambda: self.mend_all(found.theirs, self.limit),
        )
        return any(step() for step in steps)

    def is_race(self, name: str) -> bool:
        """Has the opponent a new man in the cell, and the side a pawn?"""
        cell = self.cell_named(name)
        return has_new_man(cell, self.foe) and any(slot.side == self.own and slot.is_pawn for slot in cell.slots.values())

    def rescue(self, index: int, position: Position) -> bool:
        """Works on what the guesses rest on: cells behind at their entries, and ways out of the side's own."""
        found = find_rescue(self, index, position)
        if found.entries:
            all(self.settle(*entry) for entry in found.entries[:MOST_EVENTS])
            return True
        for event in found.events:
            way = self.mend(event, min(self.limit, SMALL)) or self.mend(event, self.limit)
            if way is not None:
                if way.how is not How.IN_PLACE:
                    self.covered.setdefault(event.cell.name, {})[event.key] = event.condition(), way.cell.name
                    self.settle(way.cell.name, event.after)
                return True
        return False

    def mend_own(self, found: Spoiling, kind: Kind) -> bool:
        limit = min(self.limit, SMALL)
        return any(self.mend_all([e for e in events if e.kind is kind], limit) for events in reversed(found.mine))

    def other_ways(self, index: int, position: Position) -> bool:
        """Tries other moves of the side, by chance."""
        rng = random.Random(self.rounds)
        limit = min(self.limit, SMALL)
        return any(self.mend_all(quiet(self.spoiled(index, position, rng).theirs), limit) for _ in range(OTHER_WAYS))

    def mend_rest(self, found: Spoiling) -> bool:
        """Any event of the side's own, a sacrifice too, one at a time."""
        for events in reversed(found.mine):
            for event in sorted(events, key=lambda e: (e.kind.value, e.move.promotion != "q")):
                if self.mend(event, self.limit) is not None:
                    return True
        return False

    def spoiled(self, index: int, position: Position, rng: Optional[random.Random] = None) -> Spoiling:
        """The ways on which the opponent spoils the hold soonest, the side choosing what lasts longest."""
        found, seen, todo = Spoiling(), set(), [position]
        while todo and len(seen) < (FEW_NODES if rng else MOST_NODES) and len(found.theirs) < MOST_EVENTS:
            position = todo.pop()
            if position in seen:
                continue
            seen.add(position)
            kids = self.kids(index, position)
            for move, after, _ in kids:
                self.walked(position, move, after)
            events = [self.event(index, position, m, after) for m, after, spot in kids if spot is None]
            inside = [(spot, after) for _, after, spot in kids if spot is not None]
            if position.turn == self.own:
                found.mine.append(events)
                inside = self.best_replies(index, inside, rng)
            else:
                found.theirs += events
                inside = self.spoilers(index, inside, not events)
            for spot, after in inside:
                if spot.index == index:
                    todo.append(after)
                elif spot.index >= 0 and not self.has_given_up(spot, after):
                    found.entries.append((self.row.cells[spot.index].name, after))
        return found

    def best_replies(self, index: int, inside: list, rng: Optional[random.Random]) -> list:
        """The one move of the side that lasts longest among those that are not lost."""
        good = [kid for kid in inside if not is_win(self.row.code(kid[0], self.foe))]
        if not good:
            return []
        return [rng.choice(good) if rng else max(good, key=lambda kid: self.lasting(kid[0], index))]

    def spoilers(self, index: int, inside: list, is_quiet: bool) -> list:
        """The opponent's moves that spoil the hold, the soonest on top; where he has a move out of all sets, none."""
        bad = [kid for kid in inside if not is_safe(self.row.code(kid[0], self.own))]
        return sorted(bad, key=lambda kid: -self.lasting(kid[0], index)) if is_quiet else []

    def lasting(self, spot: Spot, index: int) -> int:
        """Within how many plies the hold is spoiled there."""
        code = self.row.seen(spot, self.own, index)
        return MANY_PLIES if is_safe(code) else code

    def widen(self, found: Spoiling, limit: int) -> bool:
        """Gives the side's men squares: those that they miss on this way, or more around them."""
        ways = [way for i in range(len(self.row.cells)) for way in self.wider(i, found) if way[2].size <= limit]
        if not ways:
            return False
        _, index, made = min(ways, key=lambda way: way[0])
        self.row.cells[index] = made
        self.failures.clear()
        self.tell(f"  more squares for the side: {made.name}, {made.size} numbers")
        return True

    def wider(self, index: int, found: Spoiling):
        cell = self.row.cells[index]
        made = cell.copy()
        for event in (e for events in found.mine for e in events if e.kind is Kind.LEAVE and e.cell is cell):
            made.slots[event.slot].states.add((event.man, event.move.to))
        made.changed()
        if cell.size < made.size <= max(1.5 * cell.size, cell.size + 200_000):
            yield (0, made.size - cell.size), index, made
            return
        for i, slot in cell.slots.items():
            reach = wider_reach(slot)
            if reach is not None:
                made = cell.copy()
                give_reach(made, i, reach)
                if made.size > cell.size:
                    yield (slot.reach, made.size - cell.size), index, made


def quiet(events: list[Event]) -> list[Event]:
    return [event for event in events if event.kind is not Kind.PROMOTION and not is_hopeless(event)]


def is_hopeless(event: Event) -> bool:
    """Is the king alone against a queen or a rook after it?"""
    side, board = event.after.turn, event.after.board
    return is_bare(event.after, side) and any(man_of(other(side), kind) in board for kind in "QR")
