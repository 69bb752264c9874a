"""Cells for the positions of a strategy: parts are joined as long as one set costs little more than two."""

from __future__ import annotations

from typing import Optional

from proving.cells import Cell
from proving.parts import cell_of, joined, parts_of
from proving.sketch import Reached
from proving.slices import Slice
from proving.worth import family

TABLE = 60_000  # numbers that a table more is worth


class Cover:
    """Parts that are joined, the pair first that saves most, as long as none leads back to an earlier one."""

    def __init__(self, root: Slice, reached: Reached, kings: tuple[int, int], own: str, limit: int):
        parts = parts_of(root, reached, kings)
        places = {name: place for place, name in enumerate(parts)}
        self.own, self.limit = own, limit
        self.parts = dict(enumerate(parts.values()))
        for before, after in reached.ways:
            one, two = places[family(before)], places[family(after)]
            if one != two:
                self.parts[one].behind.add(two)
        self.sizes = {i: cell_of(part, "", own).size for i, part in self.parts.items()}
        self.costs: dict[tuple[int, int], Optional[tuple]] = {}

    def total(self) -> int:
        """The numbers of all parts, as they are; too large ones count threefold."""
        return sum(size * (3 if size > self.limit else 1) for size in self.sizes.values())

    def cells(self, most: int) -> Optional[list[Cell]]:
        """The cells in order, each over those before; None where they are too many or too large."""
        while len(self.parts) > 1:
            pairs = [(cost[0], pair) for pair in self.pairs() if (cost := self.cost(pair))]
            pairs = [item for item in sorted(pairs) if item[0] < TABLE or len(self.parts) > most]
            pair = next((pair for _, pair in pairs if not self.makes_ring(*pair)), None)
            if pair is None:
                break
            self.join(*pair)
        if len(self.parts) > most or max(self.sizes.values()) > self.limit:
            return None
        names = {i: f"c{n:02d}" for n, i in enumerate(self.ordered(), 1)}
        cells = []
        for i, name in names.items():
            cell = cell_of(self.parts[i], name, self.own)
            cell.leads = {names[j] for j in self.parts[i].behind}
            cells.append(cell)
        return cells

    def pairs(self):
        names = sorted(self.parts)
        return [(i, j) for place, i in enumerate(names) for j in names[place + 1:]]

    def cost(self, pair: tuple[int, int]) -> Optional[tuple]:
        if pair not in self.costs:
            one, two = (self.parts[i] for i in pair)
            made = joined(one, two)
            cell = cell_of(made, "", self.own)
            fits = cell.size <= self.limit and cell.is_writable()
            self.costs[pair] = (cell.size - self.sizes[pair[0]] - self.sizes[pair[1]], made, cell.size) if fits else None
        return self.costs[pair]

    def makes_ring(self, one: int, two: int) -> bool:
        """Does a way lead from one part to the other through others?"""
        return any(self.leads(i, two) for i in self.parts[one].behind if i != two) or any(
            self.leads(i, one) for i in self.parts[two].behind if i != one
        )

    def leads(self, start: int, end: int) -> bool:
        todo, seen = [start], set()
        while todo:
            i = todo.pop()
            if i == end:
                return True
            if i not in seen:
                seen.add(i)
                todo += self.parts[i].behind
        return False

    def join(self, one: int, two: int) -> None:
        _, made, size = self.cost((one, two))
        made.behind = (self.parts[one].behind | self.parts[two].behind) - {one, two}
        del self.parts[two]
        self.parts[one], self.sizes[one] = made, size
        for part in self.parts.values():
            if two in part.behind:
                part.behind = part.behind - {two} | {one}
        made.behind.discard(one)
        for pair in [pair for pair in self.costs if one in pair or two in pair]:
            del self.costs[pair]

    def ordered(self) -> list[int]:
        """The parts, each behind all to which it leads."""
        found: list[int] = []

        def visit(i: int) -> None:
            for j in sorted(self.parts[i].behind):
                visit(j)
            if i not in found:
                found.append(i)

        for i in sorted(self.parts):
            visit(i)
        return found
