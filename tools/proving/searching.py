"""What the searches of a hold and of a win share: the row, the events that are mended, and the words of progress."""

from __future__ import annotations

from collections.abc import Callable, Iterable
from dataclasses import dataclass, field
from typing import Optional

from lib.chess import other
from proving.board import Move, Position, legal_moves, move_text, write_fen
from proving.cells import Cell
from proving.events import Event
from proving.mend import How, Way, cheapest
from proving.proof import Status
from proving.row import Row, Spot
from proving.tables import HOLD, is_safe, is_win

Kid = tuple  # a move, the position after it, and where that is: a Spot or None


@dataclass
class Search:
    """A search for one side: `settle` works on a cell until what it says of a position is enough."""

    row: Row
    limit: int  # numbers of one set
    most_cells: int
    tell: Callable[[str], None]
    rounds: int = 0
    tried: set = field(default_factory=set)  # events that cannot be mended, or were
    given_up: set = field(default_factory=set)  # names of cells with positions on which nothing more was found
    after_round: Callable[[], None] = lambda: None
    patience: int = 12  # how often cells are changed for one position of a cell behind
    depth: int = 0
    paths: dict[Position, tuple[str, ...]] = field(default_factory=dict)  # how the search came to positions
    threats: list[tuple[str, ...]] = field(default_factory=list)  # ways of the opponent's that were met
    mends: int = 0
    failures: dict[str, int] = field(default_factory=dict)  # how often nothing was found in a cell as it is
    most_failures: int = 4  # after which a cell is left, as it is
    is_late: bool = False  # was all tried once?
    ran_out: bool = False  # patience ended some work that could go on

    @property
    def own(self) -> str:
        return self.row.own

    @property
    def foe(self) -> str:
        return other(self.row.own)

    def settle(self, name: str, position: Position) -> bool:
        """Works on the cell until the claim is proved of the position there (True), refuted, or nothing more is found."""
        began = self.mends
        while True:
            index = self.row.index(name)
            self.row.ensure(index)
            number = self.row.cells[index].number(position)
            if number is None:  # its men keep nearer by now
                return self.give_up(name, position)
            outcome = verdict(self.row, Spot(index, number))
            self.tell_round(index, position, outcome)
            if outcome is not Status.OPEN:
                return outcome is Status.PROVED
            if self.depth and self.mends - began >= self.patience:
                self.ran_out = True
                return self.give_up(name, position)
            self.depth += 1
            is_changed = self.improve(name, position)
            self.depth -= 1
            if not is_changed and not self.has_more_patience():
                return self.give_up(name, position)

    def has_more_patience(self) -> bool:
        """At the first position: tries again what was given up, with more patience."""
        if self.depth or not self.ran_out or self.patience > 200:
            return False
        self.patience *= 3
        self.is_late, self.ran_out = True, False
        self.given_up.clear()
        self.failures.clear()
        return True

    def improve(self, name: str, position: Position) -> bool:
        """Changes the cells so that the claim may come out; tells whether anything was changed."""
        raise NotImplementedError

    def kids(self, index: int, position: Position) -> list[tuple[Move, Position, Optional[Spot]]]:
        return [(move, after, self.row.find(index, after)) for move, after in legal_moves(position)]

    def event(self, index: int, position: Position, move: Move, after: Position) -> Event:
        return Event(self.row.cells[index], position, move, after, position.turn == self.own)

    def mend(self, event: Event, limit: int) -> Optional[Way]:
        """Changes the cells so that the event is inside one of them, by the cheapest way. None where none will do, or
        where it is inside by now."""
        row = self.row
        index = row.index(event.cell.name)
        if row.find(index, event.after) is not None:
            return None
        event = Event(row.cells[index], event.position, event.move, event.after, event.is_own)
        mark = event.cell.name, event.key, write_fen(event.after), limit
        if mark in self.tried:
            return None
        self.tried.add(mark)
        way = cheapest(row.cells, index, event, self.own, limit, self.most_cells, row.new_name(), row.claim == "win")
        if way is not None:
            self.apply(way)
            self.mends += 1
            for cell in self.row.cells[way.index:]:
                self.failures.pop(cell.name, None)
            if not event.is_own:
                self.threats.append(self.paths.get(event.position, ()) + (move_text(event.move),))
            self.tell(f"  {event}: {way.how.value} {way.cell.name}, {way.cell.size} numbers")
        return way

    def apply(self, way: Way) -> None:
        if way.how is How.SPLIT:
            self.row.insert(way.index, way.cell)
        else:
            self.row.cells[way.index] = way.cell

    def walked(self, position: Position, move: Move, after: Position) -> None:
        """Keeps the way to a position."""
        self.paths.setdefault(after, self.paths.get(position, ()) + (move_text(move),))

    def mend_all(self, events: Iterable[Event], limit: int) -> bool:
        """Mends events until a new cell is made for one. Tells whether anything was changed."""
        changed = False
        for event in events:
            way = self.mend(event, limit)
            if way is not None:
                changed = True
                if way.how is How.SPLIT:
                    break
        return changed

    def tell_round(self, index: int, position: Position, outcome: Status) -> None:
        self.rounds += 1
        sizes = " ".join(f"{cell.name}:{cell.size}" for cell in self.row.cells)
        taken = self.row.shop.taken()
        self.tell(f"round {self.rounds}, {taken:.1f} s, {self.row.cells[index].name} at {write_fen(position)}: {outcome.value}; {sizes}")
        self.after_round()

    def give_up(self, name: str, position: Position) -> bool:
        self.given_up.add((name, position))
        self.failures[name] = self.failures.get(name, 0) + 1
        return False

    def is_exhausted(self, name: str) -> bool:
        return self.failures.get(name, 0) >= self.most_failures

    def has_given_up(self, spot: Spot, position: Position) -> bool:
        """Was nothing more found for the position, or for some others of its cell since cells were changed?"""
        if spot.index < 0:
            return False
        name = self.row.cells[spot.index].name
        return (name, position) in self.given_up or self.is_exhausted(name)

    def cell_named(self, name: str) -> Cell:
        return self.row.cells[self.row.index(name)]


def verdict(row: Row, spot: Spot) -> Status:
    """What the plain tables say of the row's claim there."""
    mine, theirs = row.code(spot, row.own), row.code(spot, other(row.own))
    good, bad = (is_safe, is_win) if row.claim == "hold" else (is_win, is_safe)
    return Status.PROVED if good(mine) else Status.REFUTED if bad(theirs) else Status.OPEN


def both_hold(row: Row, spot: Spot) -> bool:
    """Do the plain tables show a draw there?"""
    return all(row.code(spot, side) == HOLD for side in "wb")
