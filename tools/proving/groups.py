"""The men of a cell: a slot for each, and the groups of a rules text that slots with common states make."""

from __future__ import annotations

from dataclasses import dataclass
from functools import cached_property
from math import comb
from typing import Optional

from lib.chess import KINDS, name_of

COLOUR = {"w": "white", "b": "black"}
PIECES = "QRBN"
State = "tuple[str, int]"  # a kind of man and his square


@dataclass
class Slot:
    """One man: whose, whether he is there for sure, and where he may stand."""

    side: str
    is_sure: bool
    states: set[State]
    roams: bool = True  # his squares grow to all that he can reach
    home: Optional[int] = None  # of a man who keeps near: the square, and how many moves far
    reach: Optional[int] = None

    def copy(self) -> Slot:
        return Slot(self.side, self.is_sure, set(self.states), self.roams, self.home, self.reach)

    @property
    def is_king(self) -> bool:
        return any(kind == "K" for kind, _ in self.states)

    @property
    def is_pawn(self) -> bool:
        return any(kind == "P" for kind, _ in self.states)

    def fixed_square(self) -> Optional[int]:
        """The square of a pawn who stands fast and is never gone, or None."""
        if self.is_sure and len(self.states) == 1:
            (kind, square), = self.states
            return square if kind == "P" else None
        return None

    def squares(self, kind: str) -> set[int]:
        return {square for k, square in self.states if k == kind}


class Group:
    """The men of some slots, who are not told apart."""

    def __init__(self, side: str, members: list[tuple[int, Slot]]):
        self.side, self.ids = side, [i for i, _ in members]
        every = {state for _, slot in members for state in slot.states}
        self.states = sorted(every, key=lambda state: (KINDS.index(state[0]), state[1]))
        self.least = sum(slot.is_sure for _, slot in members)
        self.most = min(len(members), len(self.states))
        self.choices = sum(comb(len(self.states), men) for men in range(self.least, self.most + 1))

    @cached_property
    def line(self) -> str:
        count = str(self.most) if self.least == self.most else f"{self.least}-{self.most}"
        words = []
        for kind in KINDS:
            if squares := [s for k, s in self.states if k == kind]:
                words.append(f"{kind}:{squares_text(squares)}")
        return f"group {COLOUR[self.side]} {count} {' '.join(words)}"

    def digit(self, places: list[int]) -> int:
        if self.least == self.most == 1:
            return places[0]
        states = len(self.states)
        fewer = sum(comb(states, men) for men in range(self.least, len(places)))
        return fewer + sum(comb(place, k) for k, place in enumerate(sorted(places), 1))


def squares_text(squares) -> str:
    """The squares as a word: the whole board, or rectangles of several squares and single ones."""
    left, items = set(squares), []
    if len(left) == 64:
        return "all"
    while left:
        low = min(left)
        best = max(boxes_from(low, left), key=len)
        items.append(name_of(low) if len(best) == 1 else f"{name_of(low)}-{name_of(max(best))}")
        left -= best
    return ",".join(items)


def boxes_from(low: int, squares: set[int]):
    """The rectangles of these squares whose lowest corner is this one."""
    width = 8 - low % 8
    for rank in range(low // 8, 8):
        row = [8 * rank + file for file in range(low % 8, low % 8 + width)]
        inside = [s in squares for s in row]
        width = inside.index(False) if False in inside else width
        if not width:
            return
        yield {8 * r + low % 8 + f for r in range(low // 8, rank + 1) for f in range(width)}


def group_order(item: tuple[int, Slot]):
    i, slot = item
    return slot.side == "b", not slot.is_king, slot.fixed_square() is not None, i


def together(slot: Slot, others: list[tuple[int, Slot]]) -> list[tuple[int, Slot]]:
    """The slots of the side that share states with this one, or with one that does."""
    states, members = set(slot.states), []
    left = [(i, s) for i, s in others if s.side == slot.side]
    while meeting := [(i, s) for i, s in left if s.states & states]:
        members += meeting
        left = [item for item in left if item not in meeting]
        states |= {state for _, s in meeting for state in s.states}
    return members
