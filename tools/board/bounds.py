"""Bounds and values in the program's words: what they say of each side, the order of moves by them, and
what a move does to the bound of the side that makes it."""

import re
from collections import namedtuple

WIN, HOLD, NONE = "win", "hold", "none"
SIDES = ("white", "black")

# What is said of a side: one of the three kinds, and the plies of a win.
Bound = namedtuple("Bound", "kind plies", defaults=(None,))
NOTHING = Bound(NONE)


def opponent(side):
    return SIDES[1 - SIDES.index(side)]


def read_bound(words):
    """The bound in words such as `white wins within 7`, `white holds` or `white none`."""
    win = re.search(r" wins within (\d+)$", words)
    if win:
        return Bound(WIN, int(win[1]))
    return Bound(HOLD if words.endswith(" holds") else NONE)


def read_bounds(lines):
    """The bounds of both sides from their two lines, White's first."""
    return dict(zip(SIDES, map(read_bound, lines)))


def verdict_of(bounds):
    """What the bounds of both sides say in chess together, where the exit lines are true. Those of two tables
    may contradict each other."""
    kinds = {side: bounds[side].kind if bounds else NONE for side in SIDES}
    for side in SIDES:
        if kinds[side] == WIN:
            return f"{side} wins" if kinds[opponent(side)] == NONE else "a contradiction: an exit line is false"
    holding = [side for side in SIDES if kinds[side] == HOLD]
    if len(holding) == 2:
        return "draw"
    return f"{holding[0]} does not lose" if holding else "not shown"


def better(one, other):
    """The better of two bounds of one side, each true: a win before a hold, and the shorter win."""
    places = {WIN: 0, HOLD: 1, NONE: 2}
    return min(one, other, key=lambda bound: (places[bound.kind], bound.plies or 0))


def read_value(value):
    """What the value of an exit, in the words of a rules text, says of both sides."""
    said = dict.fromkeys(SIDES, NOTHING)
    side, *rest = value.split()
    if value == "draw":
        said = dict.fromkeys(SIDES, Bound(HOLD))
    elif rest[:1] == ["wins"]:
        said[side] = Bound(WIN, int(rest[1]) if rest[1:] else 0)
    elif rest == ["holds"]:
        said[side] = Bound(HOLD)
    return said


def behind(bounds, counting):
    """What the bounds of a table behind say to the table before it: the plies of a win for these sides alone."""
    return {
        side: Bound(WIN, 0) if bound.kind == WIN and side not in counting else bound for side, bound in bounds.items()
    }


def rank(own, other):
    """How good a move is for its mover by the bounds after it, the lower the better, as `each` ranks."""
    if own.kind == WIN:
        return (0, own.plies)
    if other.kind == WIN:
        return (5, -other.plies)
    if own.kind == HOLD:
        return (2 if other.kind == HOLD else 1, 0)
    return (4 if other.kind == HOLD else 3, 0)


def lost_by(before, own, other):
    """What the mover gives up of his bound, in words; nothing where he keeps it."""
    if before.kind == WIN and own.kind != WIN:
        return "throws the win away" if other.kind != NONE else "the win is not shown there"
    if before.kind == HOLD and own.kind == NONE:
        return "throws the hold away" if other.kind == WIN else "the hold is not shown there"
    return ""


def sooner_or_later(before, after):
    """Whether a win takes more plies than it had to, or fewer: those after the move, with its own."""
    if before.kind != WIN or after.kind != WIN:
        return 0
    return (after.plies + 1 > before.plies) - (after.plies + 1 < before.plies)


def paced_by(before, after, side):
    """Whether a side that wins all the same wins more slowly by its move, or the other one sooner."""
    if sooner_or_later(before[side], after[side]) > 0:
        return "wins more slowly"
    if sooner_or_later(before[opponent(side)], after[opponent(side)]) < 0:
        return "loses sooner"
    return ""
