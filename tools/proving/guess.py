"""The exit lines with which the search of a win goes on: what is not known yet is won for the side, at a price.

Such texts prove nothing. Where `atlas` asks exit lines before the tables behind, each event that a cell behind answers
has a line `exit unknown` in front. Where it asks the lines behind `exit unknown if always` after the tables
(ASKED_LAST), that line alone does it, and all prices are above the plies of most wins behind.
"""

from __future__ import annotations

from collections.abc import Iterator
from typing import Optional

from lib.chess import name_of, other
from proving.board import FORWARD, PAWN_HITS
from proving.cells import Cell
from proving.events import NEW_MEN, Event, Kind, gone, guarded_squares, is_silly
from proving.groups import COLOUR, squares_text
from proving.tables import ASKED_LAST

MOST_LINES, MOST_CONDITIONS = 128, 8
LEAST = 200 if ASKED_LAST else 0
DEAR = 900
PRICES = {Kind.PROMOTION: LEAST + 60, Kind.STEP: LEAST + 300, Kind.CAPTURE: LEAST + 100, Kind.LEAVE: DEAR}
AFTER_PROMOTION = {Kind.STEP: LEAST + 300, Kind.CAPTURE: LEAST + 120}  # with a new queen the side needs no pawn more
LOST_PAWN = LEAST + 200  # the opponent takes one, where the side has a new queen
# The tiers: promotions into cells that are there; all ways into these; what else is a plan; and all the rest.
QUEENS, ENTRIES, PLANS, SILLY = -2, -1, 0, 1


def price(event: Event, tier: int) -> Optional[int]:
    """Within how many plies a move out of all sets is taken for a win of the side; None where it is taken for none."""
    if tier < PLANS:
        return None
    has_new = has_new_man(event.cell, event.position.turn if event.is_own else other(event.position.turn))
    if not event.is_own:
        return LOST_PAWN if has_new and event.kind is Kind.CAPTURE and event.cell.slots[event.victim].is_pawn else DEAR
    if is_silly(event):
        return None if tier < SILLY else PRICES[event.kind] if event.kind is Kind.CAPTURE else DEAR
    if event.kind is Kind.STEP:
        return step_price(event.cell, event.slot)
    return AFTER_PROMOTION.get(event.kind, PRICES[event.kind]) if has_new else PRICES[event.kind]


def has_new_man(cell: Cell, side: str) -> bool:
    """Has the side a man in the cell who was a pawn?"""
    return any(i >= NEW_MEN["w"] and slot.side == side for i, slot in cell.slots.items())


def step_price(cell: Cell, i: int) -> int:
    """What the first step of a pawn costs: little where nobody who stands fast is in his way, the less the nearer he
    is to the last rank; much where the side has a new man already."""
    slot = cell.slots[i]
    last = 7 if slot.side == "w" else 0
    front = max(slot.squares("P"), key=lambda s: -abs(last - s // 8))
    if has_new_man(cell, slot.side) or not is_passed(cell, slot.side, front):
        return PRICES[Kind.STEP]
    return PRICES[Kind.PROMOTION] + 2 * abs(last - front // 8)


def is_passed(cell: Cell, side: str, square: int) -> bool:
    """Does no pawn of the opponent's that stands fast stop the pawn on his way?"""
    way = list(range(square + FORWARD[side], 64 if side == "w" else -1, FORWARD[side]))
    fast = {s for slot in cell.slots.values() if slot.side != side and (s := slot.fixed_square()) is not None}
    hit = {t for s in fast for t in PAWN_HITS[other(side)][s]}
    return not any(s in fast or s in hit for s in way)


def guess_lines(cell: Cell, own: str, tier: int, covered: dict, barred: list[str], cells: dict[str, Cell]) -> list[str]:
    """The lines of the cell; `covered` has for each event that a cell behind answers its condition and that cell, and
    `cells` are those behind by their names."""
    if tier == QUEENS:
        covered = {key: kept for key, kept in covered.items() if key[0] is Kind.PROMOTION}
    is_last = ASKED_LAST and bool(cells) and tier != QUEENS
    answered = ["exit unknown if always"] if is_last else list(answered_lines(cell, covered, cells))
    hanging = [f"exit {COLOUR[other(own)]} holds if {words}" for words in hanging_words(cell, own)] if tier < SILLY else []
    if tier < PLANS:
        return (hanging + answered)[:MOST_LINES - 1] + [f"exit {COLOUR[other(own)]} holds if always"]
    lines = [f"exit {COLOUR[other(own)]} holds if {words}" for words in barred]
    if tier < SILLY:
        lines += silly_lines(cell, own)
    lines += won_lines(cell, own)
    return (hanging + answered + lines)[:MOST_LINES - 1] + [f"exit {COLOUR[own]} wins {DEAR} if always"]


def hanging_words(cell: Cell, own: str) -> Iterator[str]:
    """A new queen beside the opponent's king and not beside her own is no plan, though a cell behind has her."""
    me, foe = COLOUR[own], COLOUR[other(own)]
    for square in map(name_of, promotion_squares(cell, own)):
        new = f"on:{me}:Q:{square} count:{me}:Q:{cell.most_of(own, 'Q') + 1}-16"
        yield f"{new} distance:{foe}:{square}:1 !distance:{me}:{square}:1"


def answered_lines(cell: Cell, covered: dict, cells: dict[str, Cell]) -> Iterator[str]:
    for key, (condition, name) in covered.items():
        if key[0] is Kind.CAPTURE:
            slot = cell.slots.get(key[1])
            if slot is None or not slot.is_sure:
                continue
            condition = gone(cell, key[1])
        words = condition.split() + (told_apart(cell, cells[name], key) if name in cells else [])
        yield f"exit unknown if {' '.join(words[:MOST_CONDITIONS])}"


def told_apart(cell: Cell, target: Cell, key: tuple) -> list[str]:
    """Conditions that leave out what may come of the event and the other cell does not hold."""
    words = []
    for side in "wb":
        for kind in "PNBRQ":
            here, there = cell.ranges[side + kind], target.ranges[side + kind]
            if key[0] is Kind.PROMOTION and kind != "P" and side == cell.slots[key[1]].side:
                continue
            if here[0] < there[0] or here[1] > there[1]:
                words.append(f"count:{COLOUR[side]}:{kind}:{there[0]}-{there[1]}")
    for i, slot in target.slots.items():
        if slot.is_sure and slot.is_pawn and i in cell.slots and cell.slots[i].squares("P") - slot.squares("P"):
            words.append(f"on:{COLOUR[slot.side]}:P:{squares_text(slot.squares('P'))}")
    return words


def silly_lines(cell: Cell, own: str) -> Iterator[str]:
    """What is no plan at first: underpromotions, pieces given for protected pawns, squares that a man was kept from."""
    me, foe = COLOUR[own], COLOUR[other(own)]
    mine = [slot for slot in cell.slots.values() if slot.side == own]
    if any(slot.is_pawn for slot in mine):
        for kind in "RBN":
            yield f"exit {foe} holds if count:{me}:{kind}:{cell.most_of(own, kind) + 1}-16"
    guarded = guarded_squares(cell, other(own))
    theirs = {s for slot in cell.slots.values() if slot.side != own and slot.is_sure for _, s in slot.states}
    for kind in "KQRBN":
        slots = [slot for slot in mine if slot.squares(kind)]
        if slots and guarded and kind != "K":
            yield f"exit {foe} holds if on:{me}:{kind}:{squares_text(guarded)}"
        if any(not slot.roams for slot in slots):
            kept = set(range(64)) - {s for slot in slots for s in slot.squares(kind)} - theirs
            if kept:
                yield f"exit {foe} holds if on:{me}:{kind}:{squares_text(kept)}"


def rescue_lines(cell: Cell, own: str, covered: dict, cells: dict[str, Cell]) -> list[str]:
    """The lines of a hold's guesses: a way out of the side's own saves it, any of the opponent's does not."""
    me, foe = COLOUR[own], COLOUR[other(own)]
    lines = [f"exit {foe} wins if {words}" for words in hanging_words(cell, own)]
    lines += ["exit unknown if always"] if ASKED_LAST and cells else answered_lines(cell, covered, cells)
    if any(slot.side == own and slot.is_pawn for slot in cell.slots.values()):
        lines.append(f"exit {me} holds if count:{me}:Q:{cell.most_of(own, 'Q') + 1}-16")
    lines += [f"exit {me} holds if {gone(cell, i)}" for i, slot in cell.slots.items() if slot.side != own and slot.is_sure and not slot.is_king]
    lines += [f"exit {me} holds if on:{me}:P:{squares_text(steps)}" for i in cell.frozen if (steps := first_steps(cell, i))]
    return lines[:MOST_LINES]


def first_steps(cell: Cell, i: int) -> set[int]:
    """Where a pawn of the cell that need not advance comes by his first step."""
    slot = cell.slots[i]
    pawns = {s for other_slot in cell.slots.values() if other_slot.side == slot.side for s in other_slot.squares("P")}
    steps = {s + FORWARD[slot.side] * n for s in slot.squares("P") for n in (1, 2)} - pawns
    return {s for s in steps if 0 < s // 8 < 7}


def promotion_squares(cell: Cell, side: str) -> list[int]:
    """Where pawns of the side may come up, straight on."""
    seventh = 6 if side == "w" else 1
    squares = {s for slot in cell.slots.values() if slot.side == side for s in slot.squares("P")}
    return sorted(s + FORWARD[side] for s in squares if s // 8 == seventh)


def won_lines(cell: Cell, own: str) -> Iterator[str]:
    me = COLOUR[own]
    if any(slot.side == own and slot.is_pawn for slot in cell.slots.values()):
        yield f"exit {me} wins {PRICES[Kind.PROMOTION]} if count:{me}:Q:{cell.most_of(own, 'Q') + 1}-16"
    has_new = has_new_man(cell, own)
    taken = AFTER_PROMOTION[Kind.CAPTURE] if has_new else PRICES[Kind.CAPTURE]
    for i, slot in cell.slots.items():
        if slot.is_sure and not slot.is_king and (slot.side != own or has_new and slot.is_pawn):
            yield f"exit {me} wins {taken if slot.side != own else LOST_PAWN} if {gone(cell, i)}"
    for i in sorted(cell.frozen, key=lambda j: step_price(cell, j)):
        if steps := first_steps(cell, i):
            yield f"exit {me} wins {step_price(cell, i)} if on:{me}:P:{squares_text(steps)}"
