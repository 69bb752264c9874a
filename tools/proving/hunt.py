"""The hunt for a win on a sketch: slices are opened where the soonest win leads, until it rests on nothing unknown."""

from __future__ import annotations

from collections import defaultdict, deque
from collections.abc import Iterator
from math import log2
from typing import Optional

from proving.board import Position
from proving.planes import SIDES, WHITE
from proving.sketch import Reached, Sketch
from proving.slices import Book, Slice, bit_of, key_of
from proving.tables import OutOfTime, used
from proving.waves import SURE
from proving.worth import EVEN, MOST, family, has_pawns_alone, is_bare, is_contested, worth

MOST_DOUBTFUL = 2
AGAIN = 40  # plies that a closed slice is dearer by each time that twice as many of its family are open
MOST_OPENED = 60  # families at a time
FRESH, PART = 10, 8  # slices that are opened before a guess: so many, or this part of all
NEARLY = 50  # what is so much less dear than the dearest waits
AT_ONCE, FEW = 200, 4  # slices of a family; the latter with several queens and rooks, or where the opponent has one


class Hunt:
    """Looks for a win of the side from the position, perhaps one for which its pieces only take."""

    most_slices = 60_000

    def __init__(self, position: Position, own: str, is_calm: bool = False):
        self.own, self.is_calm = SIDES.index(own), is_calm
        self.queens, self.their_queens = (position.board.count(man) for man in ("Qq"[self.own], "qQ"[self.own]))
        self.book = self.new_book()
        self.sketch = Sketch(self.book, self.own)
        self.side, self.bit = SIDES.index(position.turn), 1 << bit_of(position)
        self.root = self.book.get(key_of(position))
        self.width = 0
        self.opened = 0
        self.fresh: list[Slice] = []  # opened, and not yet settled
        self.known: dict[tuple, int] = defaultdict(int)  # how many slices of each family are open
        self.open_family(self.root)

    def new_book(self) -> Book:
        return Book(self.own, self.queens, self.is_calm)

    def open_family(self, piece: Slice) -> None:
        """Opens a slice, and all to which the men who are no pawns can move, with nobody taken."""
        todo, left = deque([piece]), FEW if is_contested(piece, self.own) else AT_ONCE
        while todo and left:
            piece = todo.popleft()
            if piece.is_open:
                continue
            left -= 1
            self.book.open(piece)
            self.opened += 1
            self.fresh.append(piece)
            name = family(piece)
            self.known[name] += 1
            for after in next_to(piece):
                if not after.is_open and family(after) == name:
                    todo.append(after)

    def step(self) -> Optional[bool]:
        """Solves, and opens what the soonest win rests on. True where it rests on nothing, False where there is none."""
        opened, self.fresh = self.fresh, []
        self.sketch.settle(opened)
        if self.root.win[SURE + self.side] & self.bit:
            return True
        if not self.sketch.guess(self.worth, self.root, self.side, self.bit):
            return None if self.widen() else False
        reached = self.sketch.reached(self.root, self.side, self.bit, self.sketch.guessed)
        self.open_all([piece for piece in reached.planes if not piece.is_open])
        self.go_deeper()
        return None

    def open_all(self, closed: list[Slice]) -> None:
        """Opens the dearest slices, and those of pawns alone."""
        dearest = max(self.worth(piece)[0] for piece in closed)
        is_dear = lambda piece: self.worth(piece)[0] >= dearest - NEARLY
        names = set()
        for piece in closed:
            if not piece.is_open and len(names) < MOST_OPENED and (is_dear(piece) or has_pawns_alone(piece)):
                names.add(family(piece))
                self.open_family(piece)

    def go_deeper(self) -> None:
        """Opens the best slices behind those that are fresh, until they are a good part of all: a guess costs as much
        whether few are fresh or many."""
        enough, seen = self.opened + max(FRESH, self.opened // PART), 0
        while self.opened < enough and seen < len(self.fresh):
            behind = {after for piece in self.fresh[seen:] for after in next_to(piece) if self.is_natural(piece, after)}
            seen = len(self.fresh)
            for piece in sorted(behind, key=lambda piece: (self.price(piece), piece.key)):
                if self.opened < enough:
                    self.open_family(piece)

    def is_natural(self, piece: Slice, after: Slice) -> bool:
        """May the closed slice be opened before anybody has asked for it: one of the same men, or of good worth?"""
        return not after.is_open and (family(after) == family(piece) or self.is_plain(after) and worth(after, self.own)[0] <= EVEN)

    def is_plain(self, piece: Slice) -> bool:
        """Has nobody a new man but the side queens?"""
        board, before = piece.key[0], self.root.key[0]
        theirs, mine = ("qrbn", "RBN") if self.own == WHITE else ("QRBN", "rbn")
        return all(board.count(man) <= before.count(man) for man in theirs + mine)

    def widen(self) -> bool:
        """Lets more doubtful men come up; tells whether that was not allowed before."""
        self.width += 1
        return self.width <= MOST_DOUBTFUL

    def worth(self, piece: Slice):
        """What the closed slice is worth; of what is doubtful nothing at first, and of a bare king never."""
        if is_bare(piece, self.own) or self.doubt(piece) > self.width:
            return None
        return self.price(piece), worth(piece, self.own)[1]

    def price(self, piece: Slice) -> int:
        """Within how many plies the side is taken to win in a closed slice: later the more of its family was seen, so
        that what cannot be taken back is tried before men only go to and fro."""
        return min(worth(piece, self.own)[0] + int(AGAIN * log2(1 + self.known[family(piece)])), MOST)

    def doubt(self, piece: Slice) -> int:
        """Of a new rook of the side's, or a new queen of the opponent's beside one of the side's; of its new bishops and
        knights more."""
        board, before = piece.key[0], self.root.key[0]
        rook, *minor = "RBN" if self.own == WHITE else "rbn"
        if any(board.count(man) > before.count(man) for man in minor):
            return MOST_DOUBTFUL
        is_new_queen = "Qq"[self.own] in board and board.count("qQ"[self.own]) > self.their_queens
        return 1 if is_new_queen or board.count(rook) > before.count(rook) else 0

    def is_full(self) -> bool:
        return len(self.book.slices) >= self.most_slices

    def run(self, until: float) -> Optional[bool]:
        """Hunts until the processor seconds are used up, or slices take too much room."""
        self.sketch.end_at(until)
        try:
            while used() < until and not self.is_full():
                came = self.step()
                if came is not None:
                    return came
        except OutOfTime:
            pass
        return None


def strategy(hunt: Hunt, liked=frozenset()) -> Reached:
    """All positions of the soonest win; slices that are liked come first."""
    return hunt.sketch.reached(hunt.root, hunt.side, hunt.bit, hunt.sketch.sure, liked)


def favourites(reached: Reached) -> set[Slice]:
    """Of each family the slices that the strategy used most, so that the next one needs fewer others."""
    families: dict[tuple, list[tuple[int, Slice]]] = defaultdict(list)
    for piece, (white, black) in reached.planes.items():
        families[family(piece)].append((bin(white | black).count("1"), piece))
    found = set()
    for kept in families.values():
        kept.sort(key=lambda item: -item[0])
        left = sum(used_ for used_, _ in kept) / 2
        for used_, piece in kept:
            if left > 0:
                found.add(piece)
            left -= used_
    return found


def next_to(piece: Slice) -> Iterator[Slice]:
    """The slices to which moves lead."""
    for ways in (*piece.steps, *piece.kings):
        for after, _ in ways:
            yield after
