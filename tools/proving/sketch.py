"""A sketch: where the attacker wins, on slices, as far as they are open. What is not open yet counts by its worth.

Nothing is proved by a sketch. It tells the search which moves win, and so which cells are worth a table."""

from __future__ import annotations

from collections.abc import Iterator
from dataclasses import dataclass

from proving.planes import shifted, spread, union
from proving.slices import Book, Slice
from proving.waves import GUESSED, SURE, Clock, Flood, Wave

EIGHT = [(file, rank) for file in (-1, 0, 1) for rank in (-1, 0, 1) if file or rank]


@dataclass
class Reached:
    """Positions by slice and side to move, from which slice and by whose move each other was reached first, and all
    ways from slice to slice."""

    planes: dict[Slice, list[int]]
    first: dict[Slice, tuple[Slice, int]]
    ways: set[tuple[Slice, Slice]]


class Sketch:
    """The wins of the attacker over the slices of a book: those that are sure, and those that rest on guesses."""

    def __init__(self, book: Book, attacker: int):
        self.book, self.attacker, self.defender = book, attacker, 1 - attacker
        self.clock = Clock()
        self.sure = Flood(attacker, SURE, self.clock)
        self.guessed = Wave(attacker, GUESSED, self.clock)

    def end_at(self, until: float) -> None:
        """Sets the processor seconds after which OutOfTime is raised; the work goes on at the next call."""
        self.clock.until = until

    def settle(self, opened: list[Slice]) -> None:
        """Finds the sure wins that come with newly opened slices."""
        for piece in opened:
            self.sure.opened(piece)
        self.sure.go_on()

    def settle_anew(self, root: Slice, side: int, bit: int) -> None:
        """Finds the sure wins again, over all that is open and stamp by stamp, until the position is one."""
        self.sure = Wave(self.attacker, SURE, self.clock)
        for piece in self.book.made:
            piece.reset()
        for piece in self.book.made:
            if piece.is_open:
                self.sure.opened(piece)
        self.sure.go_on(lambda: root.win[SURE + side] & bit)

    def guess(self, worth, root: Slice, side: int, bit: int) -> bool:
        """Is the position won, with what closed slices are worth: the plies, and the planes by side that count as won?"""
        wave = self.guessed = Wave(self.attacker, GUESSED, self.clock)
        for piece in self.book.made:
            piece.guess_anew()
            if not piece.is_open and (given := worth(piece)):
                wave.due[given[0]].append((piece, given[1]))
        wave.go_on(lambda: root.win[GUESSED + side] & bit)
        return bool(root.win[GUESSED + side] & bit)

    def reached(self, root: Slice, side: int, plane: int, wave: Wave, liked=frozenset()) -> Reached:
        """All positions to which a strategy of the attacker leads from these; slices that are liked come first. Among
        guesses it ends where a win is sure."""
        found = Reached({root: [0, 0]}, {}, set())
        todo = {(root, side): plane}
        while todo:
            self.clock.tick()
            piece, side = next(iter(todo))
            plane = todo.pop((piece, side)) & ~found.planes[piece][side]
            found.planes[piece][side] |= plane
            if wave.kind == GUESSED:
                plane &= ~piece.win[SURE + side]
            if not plane or not piece.is_open:
                continue
            for after, to in self.best(piece, plane, wave, liked) if side == self.attacker else self.replies(piece, plane):
                if to:
                    found.planes.setdefault(after, [0, 0])
                    if after is not piece:
                        found.ways.add((piece, after))
                        found.first.setdefault(after, (piece, side))
                    todo[after, 1 - side] = todo.get((after, 1 - side), 0) | to
        return found

    def replies(self, piece: Slice, plane: int):
        """All moves of the defender from these positions."""
        return replies_of(self.defender, piece, plane)

    def best(self, piece: Slice, plane: int, wave: Wave, liked) -> Iterator[tuple[Slice, int]]:
        """One move of the attacker from each of these positions, to a win with a lower stamp: into a slice that is
        liked where there is one, else to the stamp just before, else to any."""
        for stamp, layer in piece.layers[wave.mine].items():
            left = plane & layer
            for is_next, among in ((False, liked), (True, None), (False, None)):
                for after, to, origin in self.ways(piece, left, wave, stamp, is_next, among) if left and among != frozenset() else ():
                    left &= ~origin
                    yield after, to

    def ways(self, piece: Slice, left: int, wave: Wave, stamp: int, is_next: bool, among) -> Iterator[tuple[Slice, int, int]]:
        """Moves to positions with a lower stamp, each with where it begins."""
        a = self.attacker
        for after, mask in piece.kings[a]:
            goal = below(after, wave, stamp, is_next) & mask if among is None or after in among else 0
            for file, rank in EIGHT if goal else ():
                to = shifted(a, left, file, rank) & goal
                if to:
                    origin = shifted(a, to, -file, -rank)
                    left &= ~origin
                    yield after, to, origin
        for after, mask in piece.steps[a]:
            if left and (among is None or after in among):
                to = left & mask & below(after, wave, stamp, is_next)
                if to:
                    left &= ~to
                    yield after, to, to


def replies_of(side: int, piece: Slice, plane: int) -> Iterator[tuple[Slice, int]]:
    """All moves of the side from these positions."""
    kings = spread(side, plane)
    for after, mask in piece.steps[side]:
        yield after, plane & mask & after.valid[1 - side]
    for after, mask in piece.kings[side]:
        yield after, kings & mask & after.valid[1 - side]


def below(piece: Slice, wave: Wave, stamp: int, is_next: bool) -> int:
    """Where the defender is to move and lost since the stamp before this, or since any earlier; what is sure comes
    before all guesses."""
    layers = piece.layers[wave.theirs]
    found = layers.get(stamp - 1, 0) if is_next else union(plane for since, plane in layers.items() if since < stamp)
    return found | piece.win[wave.theirs - wave.kind] if wave.kind == GUESSED else found
