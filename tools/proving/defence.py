"""The defence of a hold on a sketch: a hunt of the opponent's, to whom each slice that is not open counts as a win.
Where he still does not come through, the side holds, and its moves are found in the same planes."""

from __future__ import annotations

from collections.abc import Iterator

from lib.chess import other
from proving.board import Position
from proving.hunt import Hunt
from proving.planes import shifted
from proving.sketch import EIGHT, Reached, replies_of
from proving.slices import Book, Slice
from proving.waves import GUESSED
from proving.worth import EVEN, LEAST, family, is_bare, worth


class Defence(Hunt):
    """Looks for a hold of the side: `run` gives False where the opponent cannot win, and True where he does."""

    most_slices = 25_000  # where there are more, tables of all squares are the quicker way

    def __init__(self, position: Position, own: str):
        super().__init__(position, other(own))

    def new_book(self) -> Book:
        """The opponent's men all move."""
        return Book()

    def worth(self, piece: Slice):
        """A bare king wins nothing; all else is the opponent's, the later the worse his men."""
        return None if is_bare(piece, self.own) else (self.price(piece), piece.valid)

    def price(self, piece: Slice) -> int:
        """Within how many plies the opponent is taken to win; at once where the side has a new man who is no queen."""
        board, before = piece.key[0], self.root.key[0]
        has_new = any(board.count(man) > before.count(man) for man in ("rbn", "RBN")[self.own])
        return LEAST if has_new else worth(piece, self.own)[0]

    def is_natural(self, piece: Slice, after: Slice) -> bool:
        """Is it closed, and none that the opponent is likely to win?"""
        return not after.is_open and not is_bare(after, self.own) and (family(after) == family(piece) or self.price(after) >= EVEN)


class Holding:
    """The positions to which moves of the side lead that keep the hold, and all moves of the opponent's."""

    def __init__(self, hunt: Defence, liked=frozenset()):
        self.attacker, self.defender, self.liked = hunt.own, 1 - hunt.own, liked
        self.found = Reached({hunt.root: [0, 0]}, {}, set())
        self.todo = {(hunt.root, hunt.side): hunt.bit}
        while self.todo:
            hunt.sketch.clock.tick()
            self.look(*next(iter(self.todo)), hunt)
        self.leave_out({piece for piece in self.found.planes if not piece.is_open})

    def look(self, piece: Slice, side: int, hunt: Defence) -> None:
        plane = self.todo.pop((piece, side)) & ~self.found.planes[piece][side]
        self.found.planes[piece][side] |= plane
        if not plane or not piece.is_open:
            return
        for after, to in self.kept(piece, plane) if side == self.defender else replies_of(self.attacker, piece, plane):
            if to:
                self.found.planes.setdefault(after, [0, 0])
                if after is not piece:
                    self.found.ways.add((piece, after))
                    self.found.first.setdefault(after, (piece, side))
                self.todo[after, 1 - side] = self.todo.get((after, 1 - side), 0) | to

    def kept(self, piece: Slice, left: int) -> Iterator[tuple[Slice, int]]:
        """One move of the side from each of these positions: to where it was before, into the same slice, into one that
        is liked, into one of the same men, into any."""
        name = family(piece)
        for is_wanted in (
            None, lambda after: after is piece, lambda after: after in self.liked, lambda after: family(after) == name, lambda after: True,
        ):
            for after, to, origin in self.ways(piece, left, is_wanted):
                left &= ~origin
                yield after, to
            if not left:
                return

    def ways(self, piece: Slice, left: int, is_wanted) -> Iterator[tuple[Slice, int, int]]:
        """Moves to positions that hold, each with where it begins."""
        d = self.defender
        for after, mask in piece.kings[d]:
            goal = self.goal(after, is_wanted) & mask
            for file, rank in EIGHT if goal and left else ():
                if to := shifted(d, left, file, rank) & goal:
                    origin = shifted(d, to, -file, -rank)
                    left &= ~origin
                    yield after, to, origin
        for after, mask in piece.steps[d]:
            if left and (to := left & mask & self.goal(after, is_wanted)):
                left &= ~to
                yield after, to, to

    def goal(self, after: Slice, is_wanted) -> int:
        """Where the opponent is to move and does not win: among what was reached, or in slices that are wanted."""
        place = self.attacker
        if is_wanted is None:
            known = self.found.planes[after][place] if after in self.found.planes else 0
            return (known | self.todo.get((after, place), 0)) & after.free[GUESSED + place]
        return after.free[GUESSED + place] if is_wanted(after) else 0

    def leave_out(self, bare: set[Slice]) -> None:
        """The opponent's king is alone there, which needs no table."""
        for piece in bare:
            del self.found.planes[piece]
            self.found.first.pop(piece, None)
        self.found.ways = {way for way in self.found.ways if bare.isdisjoint(way)}
