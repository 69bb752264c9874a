"""A cell is a rules text to be: a slot for each man who is there, with the states that he may have.

Sizes and numbers are those of docs/users/formats.md.
"""

from __future__ import annotations

from dataclasses import dataclass, field
from functools import cached_property
from typing import Optional

from lib.chess import KINDS, other, side_of
from lib.rules import MOST_MEN
from proving.board import NOWHERE, Position, beside, man_of, men_of
from proving.groups import Group, Slot, State, group_order, together


MOST_GROUPS = 32  # of a rules text


@dataclass(eq=False)
class Cell:
    """The slots, by an id that a man keeps in all cells: his square in the first position, or that of a new man."""

    name: str
    slots: dict[int, Slot]
    about: str = ""
    frozen: set[int] = field(default_factory=set)  # pawns that need not advance
    leads: Optional[set[str]] = None  # the cells into which it is to lead, by name; None where it may lead into any

    def copy(self) -> Cell:
        return Cell(self.name, {i: s.copy() for i, s in self.slots.items()}, self.about, set(self.frozen), self.leads)

    def changed(self) -> Cell:
        """To be called after a change of the slots: forgets what was computed from them."""
        for name in ("groups", "turns", "size", "owners", "known_ids", "ranges", "known_text"):
            self.__dict__.pop(name, None)
        return self

    @cached_property
    def known_text(self) -> str:
        """The text that proves, once it was asked for."""
        return ""

    @cached_property
    def ranges(self) -> dict[str, tuple[int, int]]:
        """The least and the greatest number of men, by side and kind."""
        found = {}
        for side in "wb":
            slots = [(slot.is_sure, {kind for kind, _ in slot.states}) for slot in self.slots.values() if slot.side == side]
            for kind in KINDS:
                least = sum(is_sure and kinds == {kind} for is_sure, kinds in slots)
                found[side + kind] = least, sum(kind in kinds for _, kinds in slots)
        return found

    @cached_property
    def groups(self) -> list[Group]:
        order = sorted(self.slots.items(), key=group_order)
        groups, taken = [], set()
        for i, slot in order:
            if i not in taken:
                members = together(slot, [item for item in order if item[0] not in taken])
                taken |= {j for j, _ in members}
                groups.append(Group(slot.side, members))
        return groups

    @cached_property
    def turns(self) -> dict[tuple[str, int], int]:
        targets = possible_targets(self.slots.values())
        states = [("w", NOWHERE), ("b", NOWHERE)] + [("b" if t // 8 == 2 else "w", t) for t in targets]
        return {state: place for place, state in enumerate(states)}

    @cached_property
    def size(self) -> int:
        size = len(self.turns)
        for group in self.groups:
            size *= group.choices
        return size

    def is_writable(self) -> bool:
        """Has a rules text room for it?"""
        men = {side: sum(group.most for group in self.groups if group.side == side) for side in "wb"}
        return len(self.groups) <= MOST_GROUPS and max(men.values()) <= MOST_MEN

    @cached_property
    def owners(self) -> dict[tuple[str, int], tuple[int, int]]:
        """For a man on a square: which group has him, and at which place of its states."""
        return {
            (man_of(group.side, kind), square): (index, place)
            for index, group in enumerate(self.groups)
            for place, (kind, square) in enumerate(group.states)
        }

    def number(self, position: Position) -> Optional[int]:
        """The number of a position, or None outside."""
        number = self.turns.get((position.turn, position.target))
        if number is None:
            return None
        places: list[list[int]] = [[] for _ in self.groups]
        for square, man in men_of(position.board):
            owner = self.owners.get((man, square))
            if owner is None:
                return None
            places[owner[0]].append(owner[1])
        for group, found in zip(self.groups, places):
            if not group.least <= len(found) <= group.most:
                return None
            number = number * group.choices + group.digit(found)
        return number

    def ids(self, position: Position) -> dict[int, int]:
        """For each man's square the id of a slot that he may be: all that are sure are filled. Men of one group are not
        told apart, so where no slots fit, any will do."""
        if position.board not in self.known_ids:
            self.known_ids[position.board] = self.find_ids(position)
        return self.known_ids[position.board]

    @cached_property
    def known_ids(self) -> dict[str, dict[int, int]]:
        return {}

    def find_ids(self, position: Position) -> dict[int, int]:
        found: dict[int, int] = {}
        for group in self.groups:
            states = set(group.states)
            men = [(s, m.upper()) for s, m in men_of(position.board) if side_of(m) == group.side and (m.upper(), s) in states]
            found.update(matched(men, [(i, self.slots[i]) for i in group.ids]) or dict(zip((s for s, _ in men), group.ids)))
        return found

    def most_of(self, side: str, kind: str) -> int:
        return sum(slot.side == side and bool(slot.squares(kind)) for slot in self.slots.values())

    def text(self, lines: list[str], comments: list[str]) -> str:
        return "\n".join(comments + ["freezer 1"] + [group.line for group in self.groups] + lines) + "\n"


def matched(men: list[State], slots: list[tuple[int, Slot]], used=frozenset()) -> Optional[dict[int, int]]:
    """Gives each man a slot of which he has a state, so that all sure slots are filled; None where none can be."""
    if not men:
        return {} if all(i in used for i, slot in slots if slot.is_sure) else None
    (square, kind), *rest = men
    for i, slot in slots:
        if i not in used and (kind, square) in slot.states:
            found = matched(rest, slots, used | {i})
            if found is not None:
                return {square: i, **found}
    return None


def possible_targets(slots) -> list[int]:
    """The squares that a pawn may just have passed over, beside an enemy pawn."""
    pawns = {side: {s for slot in slots if slot.side == side for s in slot.squares("P")} for side in "wb"}
    found = []
    for rank, step, mover in ((2, 8, "w"), (5, -8, "b")):
        for target in range(8 * rank, 8 * rank + 8):
            passed = target + step
            if passed in pawns[mover] and any(s in pawns[other(mover)] for s in beside(passed)):
                found.append(target)
    return found
