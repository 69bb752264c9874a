"""Waves and floods: how wins spread over the slices of a book, from where they are known to where they come from; stamp
by stamp, or slice by slice, which is quicker and does not tell which come soonest."""

from __future__ import annotations

from collections import defaultdict

from proving.board import NOWHERE
from proving.planes import ALL, BLACK, WHITE, spread
from proving.slices import Slice
from proving.tables import OutOfTime, used

SURE, GUESSED = 0, 2  # where the two kinds of wins stand in the lists of a slice, each by side to move
SELDOM = 32  # the clock is a call of the system, so it is looked at once in so many steps


class Clock:
    """Ends work that has taken its processor seconds."""

    def __init__(self) -> None:
        self.until = float("inf")  # processor seconds, as `used` counts them
        self.steps = 0

    def tick(self) -> None:
        self.steps += 1
        if self.steps % SELDOM == 0 and used() > self.until:
            raise OutOfTime


class Flood:
    """The wins of the attacker of one kind. `win` of a slice has them by side to move."""

    def __init__(self, attacker: int, kind: int, clock: Clock):
        self.attacker, self.kind, self.clock = attacker, kind, clock
        self.mine, self.theirs = kind + attacker, kind + 1 - attacker  # places in the lists of a slice
        self.doubtful: dict[Slice, int] = defaultdict(int)  # the defender's positions that may be lost by now
        self.coming: dict[Slice, int] = defaultdict(int)  # those of the attacker with a move to a win

    def opened(self, piece: Slice) -> None:
        """The slice has moves from now on."""
        self.doubtful[piece] |= piece.free[self.theirs]
        for after, mask in piece.steps[self.attacker]:
            self.coming[piece] |= after.win[self.theirs] & mask
        for after, mask in piece.kings[self.attacker]:
            self.coming[piece] |= spread(self.attacker, after.win[self.theirs] & mask)

    def go_on(self) -> None:
        """Spreads wins until none is left to spread, in each slice as far as its kings go before in others."""
        while self.doubtful or self.coming:
            for piece in {**self.coming, **self.doubtful}:
                self.clock.tick()
                self.fill(piece)

    def fill(self, piece: Slice) -> None:
        win, free, is_still = piece.win, piece.free, piece.key[1] == NOWHERE
        come, doubtful, found = self.coming.pop(piece, 0), self.doubtful.pop(piece, 0), [0, 0]
        while come or doubtful:
            come &= free[self.mine]
            win[self.mine] |= come
            free[self.mine] &= ~come
            if come and is_still:
                doubtful |= spread(1 - self.attacker, come)
            lost = self.lost(piece, doubtful)
            win[self.theirs] |= lost
            free[self.theirs] &= ~lost
            found[self.attacker] |= come
            found[1 - self.attacker] |= lost
            come, doubtful = spread(self.attacker, lost) if lost and is_still else 0, 0
        for side in (WHITE, BLACK):
            if found[side]:
                self.spread_back(piece, self.kind + side, found[side])
        if is_still:
            self.coming.pop(piece, None), self.doubtful.pop(piece, None)

    def spread_back(self, piece: Slice, place: int, plane: int) -> None:
        """Notes the open positions from which a move leads into the plane."""
        mover = 1 - (place - self.kind)
        found, free = self.coming if mover == self.attacker else self.doubtful, self.kind + mover
        for before, mask in piece.before[mover]:
            if come := plane & mask & before.free[free]:
                found[before] |= come
        kings = spread(mover, plane)
        for before, mask in piece.kings_before[mover]:
            if come := (kings if mask == ALL else spread(mover, plane & mask)) & before.free[free]:
                found[before] |= come

    def lost(self, piece: Slice, doubtful: int) -> int:
        """The defender's positions among these of which each move leads to a win of the attacker."""
        defender, mine = 1 - self.attacker, self.mine
        left, kings = doubtful & piece.free[self.theirs] & ~piece.stale[defender], 0
        for after, mask in piece.kings[defender] if left else ():
            kings |= after.free[mine] & mask
        left &= ~spread(defender, kings)
        for after, mask in piece.steps[defender]:
            if not left:
                break
            left &= ~(after.free[mine] & mask)
        return left


class Wave(Flood):
    """Wins stamp by stamp. `layers` of a slice tells since which stamp: a winning position of the attacker has a move to
    one with a lower stamp, and all moves of the other's lead to such."""

    def __init__(self, attacker: int, kind: int, clock: Clock):
        super().__init__(attacker, kind, clock)
        self.stamp = 0  # behind the last one
        self.due: dict[int, list] = defaultdict(list)  # by stamp, the slices and planes by side that count as won then

    def go_on(self, is_enough=lambda: False) -> None:
        """Spreads wins until there are enough, or none is left to spread."""
        while (self.doubtful or self.coming or self.due) and not is_enough():
            self.clock.tick()
            if not self.doubtful and not self.coming:
                self.stamp = max(self.stamp, min(self.due))
            for piece, place, plane in self.news():
                plane &= piece.free[place]
                if plane:
                    self.add(piece, place, plane)
            self.stamp += 1

    def news(self) -> list[tuple[Slice, int, int]]:
        """What is won at the stamp: the slices, the places in their lists, and the planes."""
        new = [(piece, self.kind + side, planes[side]) for piece, planes in self.due.pop(self.stamp, ()) for side in (0, 1)]
        new += [(piece, self.mine, plane) for piece, plane in self.coming.items()]
        new += [(piece, self.theirs, self.lost(piece, plane)) for piece, plane in self.doubtful.items()]
        self.doubtful, self.coming = defaultdict(int), defaultdict(int)
        return new

    def add(self, piece: Slice, place: int, plane: int) -> None:
        layers = piece.layers[place]
        piece.win[place] |= plane
        piece.free[place] &= ~plane
        layers[self.stamp] = layers.get(self.stamp, 0) | plane
        self.spread_back(piece, place, plane)
