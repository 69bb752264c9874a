"""The search of a win: a cell is proved for the position at which it is entered, before the search goes on in front.

Each round builds the plain table, which decides; then one with guesses (guess.py), over the plain tables behind.
The best way of the guesses leads to events, which are mended, and into cells behind, which are proved first.
"""

from __future__ import annotations

from dataclasses import dataclass, field

from proving.board import Position
from proving.events import Event, Kind, hangs
from proving.guess import DEAR, ENTRIES, PLANS, QUEENS, SILLY, guess_lines, has_new_man, price
from proving.mend import How
from proving.reach import give_reach
from proving.room import NEAR
from proving.row import MANY_PLIES, Spot
from proving.searching import Search
from proving.tables import is_safe, is_win

MOST_NODES, MOST_EVENTS, MOST_ENTRIES = 150, 5, 3


@dataclass
class Plan:
    """What the best way of the guesses rests on."""

    events: dict = field(default_factory=dict)
    entries: list[tuple[str, Position]] = field(default_factory=list)
    plies: int = 0  # within how many plies the guesses win
    learned: bool = False  # events were met that a cell behind answers, and that the guesses hid

    def __bool__(self) -> bool:
        return bool(self.events or self.entries)


@dataclass
class WinSearch(Search):
    most_failures: int = 15
    tiers: dict[tuple[str, Position], int] = field(default_factory=dict)  # how far the ways are opened for a position
    promise: int = MANY_PLIES  # within how many plies the first guesses win the first position
    covered: dict[str, dict] = field(default_factory=dict)
    barred: dict[str, list[str]] = field(default_factory=dict)

    def improve(self, name: str, position: Position) -> bool:
        """Ways into the cells that are there come first, then plans, then all the rest."""
        first = self.tiers.get((name, position), PLANS)
        for tier in [*self.entry_tiers(name), *range(first, SILLY + 1)]:
            self.tiers[name, position] = max(tier, first)
            plan = self.plan(name, position, tier)
            if plan.plies >= DEAR and self.widen(name):
                return True
            if plan.plies >= DEAR and self.is_behind(name) and not self.is_late:
                self.ran_out = True
                return False
            if plan.learned or self.follow(plan):
                return True
        return False

    def is_behind(self, name: str) -> bool:
        """Is it a cell with a new man, that was entered from another one?"""
        return self.depth > 1 and has_new_man(self.cell_named(name), self.own)

    def widen(self, name: str) -> bool:
        """Lets a king go further who was kept nearest."""
        cell = self.cell_named(name)
        for i, slot in cell.slots.items():
            if slot.side == self.own and slot.is_king and slot.reach == NEAR:
                made = cell.copy()
                give_reach(made, i, NEAR + 1)
                if made.size <= self.limit:
                    self.row.cells[self.row.index(name)] = made
                    self.tell(f"  more squares for the king: {name}, {made.size} numbers")
                    return True
        return False

    def entry_tiers(self, name: str) -> list[int]:
        """The tiers that lead into cells that are there; each costs a table."""
        known = self.covered.get(name, {})
        has_queen = any(key[0] is Kind.PROMOTION for key in known)
        return ([QUEENS] if has_queen else []) + ([ENTRIES] if known else [])

    def follow(self, plan: Plan) -> bool:
        """Proves the cells into which the plan leads, and mends its events. Tells whether anything was changed."""
        for name, position in plan.entries[:MOST_ENTRIES]:
            if not self.settle(name, position):
                break
        if plan.entries:
            return True
        changed = False
        for event in plan.events.values():
            way = self.mend(event, self.limit)
            if way is None:
                continue
            changed = True
            if way.how is not How.IN_PLACE:
                self.cover(event, way.cell.name)
                self.settle(way.cell.name, event.after)
                break
        if not changed:
            for event in plan.events.values():
                self.bar(event)
                changed = True
        return changed

    def bar(self, event: Event) -> None:
        """Nothing can be made of the event: the search goes on without it."""
        self.tell(f"  nothing can be made of {event}")
        lines = self.barred.setdefault(event.cell.name, [])
        if event.condition() not in lines:
            lines.append(event.condition())

    def cover(self, event: Event, name: str) -> bool:
        known = self.covered.setdefault(event.cell.name, {})
        is_new = event.key not in known
        known[event.key] = event.condition(), name
        return is_new

    def guess(self, index: int, tier: int) -> str:
        """Builds the table of guesses of the cell, and gives its name."""
        cell = self.row.cells[index]
        lines = guess_lines(
            cell, self.own, tier, self.covered.get(cell.name, {}), self.barred.get(cell.name, []), self.row.cells_behind(index),
        )
        name = f"{cell.name}.guess"
        self.row.build(index, name, cell.text(lines, []))
        return name

    def plan(self, name: str, position: Position, tier: int) -> Plan:
        """The events and entries on the best way of the guesses: the side plays its best move, the opponent each one
        that is not yet answered without a guess."""
        index = self.row.index(name)
        table, plan = self.guess(index, tier), Plan()
        spot = Spot(index, self.row.cells[index].number(position))
        code = self.row.code(spot, self.own, table)
        is_priced = tier >= PLANS and is_win(code)
        if is_priced:
            plan.plies = code // 2
            if self.promise == MANY_PLIES:
                self.promise = plan.plies
        if not is_priced and is_safe(self.row.code(spot, self.foe, table)):
            return plan
        todo, seen = [position], set()
        while todo and len(seen) < MOST_NODES and len(plan.events) < MOST_EVENTS and len(plan.entries) < MOST_ENTRIES:
            position = todo.pop()
            if position in seen:
                continue
            seen.add(position)
            ranked = sorted(self.ranked(index, position, table, is_priced, plan, tier), key=lambda kid: kid[0])
            if position.turn == self.own:
                ranked = ranked[:1]
            for _, after, spot, event in reversed(ranked):
                if event is not None:
                    plan.events.setdefault((event.cell.name, event.key), event)
                elif spot.index == index:
                    todo.append(after)
                elif spot.index >= 0 and not is_win(self.row.code(spot, self.own)):
                    plan.entries.append((self.row.cells[spot.index].name, after))
        return plan

    def ranked(self, index: int, position: Position, table: str, is_priced: bool, plan: Plan, tier: int):
        """The moves that the way may go on with: how dear each is, the position after it, where that is, the event."""
        barred = self.barred.get(self.row.cells[index].name, [])
        is_mine = position.turn == self.own
        for move, after, spot in self.kids(index, position):
            if spot is None:
                event = self.event(index, position, move, after)
                plies = price(event, tier)
                if plies is not None and event.condition() not in barred:
                    yield (plies if is_priced else 0), after, None, event
                continue
            if spot.index != index and spot.index >= 0:
                event = self.event(index, position, move, after)
                plan.learned |= self.cover(event, self.row.cells[spot.index].name)
                if is_mine and tier < SILLY and move.promotion and hangs(event):
                    continue
            is_won = is_win(self.row.code(spot, self.own))
            if is_won and not is_mine or tier == QUEENS and spot.index != index and not (is_won or move.promotion):
                continue
            if self.has_given_up(spot, after):
                continue
            dear = self.dear(spot, index, table, is_priced)
            if dear < MANY_PLIES:
                yield dear, after, spot, None

    def dear(self, spot: Spot, index: int, table: str, is_priced: bool) -> int:
        """Within how many plies the guesses win there; through the opponent's codes, within how many he may not hold."""
        if is_priced:
            code = self.row.seen(spot, self.own, index, table)
            return code // 2 if is_win(code) else MANY_PLIES
        code = self.row.seen(spot, self.foe, index, table)
        return MANY_PLIES if is_safe(code) else code // 2
