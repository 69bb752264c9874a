"""The men of a strategy, each with an id of his own, in parts: at first one for each family of slices."""

from __future__ import annotations

from dataclasses import dataclass, field

from lib.chess import name_of, side_of
from proving.board import EMPTY
from proving.cells import Cell
from proving.events import NEW_MEN
from proving.groups import Slot
from proving.planes import BLACK, SIDES, WHITE, squares_of
from proving.sketch import Reached
from proving.slices import Slice
from proving.words import MEN
from proving.words import SIDES as NAMES
from proving.worth import family


@dataclass
class Part:
    """The men of some families, by id: side, whether he is in all of them, and his states."""

    states: dict[int, set]
    sure: set[int]
    about: str
    order: int
    behind: set[int] = field(default_factory=set)  # parts to which it leads


class Names:
    """Gives each man of a slice his id: a pawn keeps that of his first square, a new man has one of his own."""

    def __init__(self, root: Slice, reached: Reached):
        self.reached = reached
        self.ids = {root: {s: s for s, _ in root.men}}
        self.families = {family(root): self.ids[root]}

    def of(self, piece: Slice) -> dict[int, int]:
        way = [piece]
        while way[-1] not in self.ids:
            way.append(self.reached.first[way[-1]][0])
        for after in reversed(way[:-1]):
            before, side = self.reached.first[after]
            self.ids[after] = self.named(after, carried(before.key[0], after.key[0], self.ids[before], side))
        return self.ids[piece]

    def named(self, piece: Slice, ids: dict[int, int]) -> dict[int, int]:
        """The ids, the pawns' as in the first slice of the family; pieces of one kind by their squares."""
        known = self.families.setdefault(family(piece), ids)
        found = {s: known[s] if m in "Pp" and s in known else ids[s] for s, m in piece.men}
        for man in "QRBNqrbn":
            squares = [s for s, m in piece.men if m == man]
            found.update(zip(squares, sorted(found[s] for s in squares)))
        return found


def carried(before: str, after: str, ids: dict[int, int], side: int) -> dict[int, int]:
    """The ids after a move of the side: of the man who moves his own, or a new one where he was a pawn and is none."""
    mine = str.isupper if side == WHITE else str.islower
    come = [s for s in range(64) if after[s] != before[s] and after[s] != EMPTY]
    gone = [s for s in range(64) if before[s] != after[s] and mine(before[s])]
    found = {s: i for s, i in ids.items() if after[s] == before[s]}
    for to, origin in zip(come, gone):
        if after[to] == before[origin]:
            found[to] = ids[origin]
        else:
            first = NEW_MEN[SIDES[side]]
            found[to] = next(n for n in range(first, first + 16) if n not in found.values())
    return found


def parts_of(root: Slice, reached: Reached, kings: tuple[int, int]) -> dict[tuple, Part]:
    """A part for each family; kings are the ids of both kings."""
    names, parts = Names(root, reached), {}
    for order, (piece, planes) in enumerate(reached.planes.items()):
        name = family(piece)
        if name not in parts:
            parts[name] = Part({}, set(), about(piece, reached), order)
        part = parts[name]
        ids = names.of(piece)
        for s, m in piece.men:
            part.states.setdefault(ids[s], set()).add((m, s))
        for side, king in ((WHITE, "K"), (BLACK, "k")):
            squares = squares_of(side, planes[0] | planes[1])
            part.states.setdefault(kings[side], set()).update((king, s) for s in squares)
        part.sure = set(part.states)
    return parts


def about(piece: Slice, reached: Reached) -> str:
    """What the part is for, by the move by which its first slice was reached."""
    if piece not in reached.first:
        return "The position itself."
    before, side = reached.first[piece]
    mine = str.isupper if side == WHITE else str.islower
    old, new = before.key[0], piece.key[0]
    come = [s for s in range(64) if new[s] != old[s] and new[s] != EMPTY]
    taken = [s for s in range(64) if old[s] != new[s] and old[s] != EMPTY and not mine(old[s])]
    victim = f" takes the {MEN[old[taken[0]].upper()]} on {name_of(taken[0])}" if taken else ""
    mover = f"{NAMES[SIDES[side]]}'s "
    if not come:
        return f"What is left when {mover}king{victim}."
    gone = next(s for s in range(64) if old[s] != new[s] and mine(old[s]))
    man, became, to = MEN[old[gone].upper()], MEN[new[come[0]].upper()], name_of(come[0])
    if became != man:
        return f"What is left when {mover}{man} becomes a {became} on {to}."
    return f"What is left when {mover}{man}{victim or f' goes to {to}'}."


def cell_of(part: Part, name: str, own: str) -> Cell:
    slots = {}
    for i, states in part.states.items():
        side = side_of(next(iter(states))[0])
        slots[i] = Slot(side, i in part.sure, {(m.upper(), s) for m, s in states}, roams=False)
    cell = Cell(name, slots, part.about)
    cell.frozen = {i for i, slot in slots.items() if slot.side == own and slot.is_pawn}
    return cell


def joined(one: Part, two: Part) -> Part:
    states = {i: one.states.get(i, set()) | two.states.get(i, set()) for i in {**one.states, **two.states}}
    first = min(one, two, key=lambda part: part.order)
    return Part(states, one.sure & two.sure, first.about, first.order)
