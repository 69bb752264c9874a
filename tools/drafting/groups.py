"""The groups of a draft: men that may share a place stand in one."""

from math import comb

from drafting.events import PIECES, colour_of
from lib.chess import KINDS, name_of, rank_of, side_of
from proving.reach import flood

ALL = frozenset(range(64))
COLOURS = {"w": "white", "b": "black"}
WHOLE = -1  # after the steps of `kept_near` down to 0, the one by which no man may be gone
NAMES = {"K": "king", "Q": "queen", "R": "rook", "B": "bishop", "N": "knight", "P": "pawn"}


class Group:
    """Men of one colour, by the squares on which they begin, and the places that they may have; perhaps with a new
    man, who was a pawn."""

    def __init__(self, colour, men, states, least, new=0):
        self.colour, self.men, self.states, self.least, self.new = colour, men, states, least, new

    @property
    def most(self):
        return len(self.men) + self.new

    @property
    def choices(self):
        return sum(comb(len(self.states), men) for men in range(self.least, self.most + 1))

    @property
    def is_king(self):
        return any(kind == "K" for kind, _ in self.states)

    @property
    def is_fixed(self):
        return len(self.states) == self.most

    def begins(self, men):
        return " ".join([f"{men[s].upper()}{name_of(s)}" for s in self.men] + ["new man"] * self.new)

    def line(self):
        count = str(self.most) if self.least == self.most else f"{self.least}-{self.most}"
        places = [f"{kind}:{squares_text(self.squares(kind))}" for kind in KINDS if self.squares(kind)]
        return f"group {self.colour} {count} {' '.join(places)}"

    def squares(self, kind):
        return sorted(square for k, square in self.states if k == kind)


def squares_text(squares):
    """The squares as a word of a rules text: whole rectangles as one item."""
    if set(squares) == ALL:
        return "all"
    files, ranks = sorted({s % 8 for s in squares}), sorted({s // 8 for s in squares})
    is_box = len(squares) == (files[-1] - files[0] + 1) * (ranks[-1] - ranks[0] + 1)
    if is_box and len(squares) > 2:
        return f"{name_of(squares[0])}-{name_of(squares[-1])}"
    return ",".join(name_of(s) for s in squares)


def places_of(position, square, events):
    """The states of the man who begins on the square. A pawn has its own file."""
    kind = position.men[square].upper()
    if kind == "P":
        return {("P", s) for s in events.pawns[square] if s % 8 == square % 8}
    if kind == "B":
        return {("B", s) for s in ALL if colour_of(s) == colour_of(square)}
    return {(kind, s) for s in ALL}


def groups_of(position, events, free_side):
    """The groups of all men, with those joined that have a place in common. A side that is free has a place for a man
    that a pawn has become, one at a time."""
    groups = []
    for square, man in sorted(position.men.items(), key=lambda item: (KINDS.index(item[1].upper()), item[0])):
        states = places_of(position, square, events)
        join(groups, Group(COLOURS[side_of(man)], [square], states, 0 if events.may_be_gone(square) else 1))
    if any(side_of(position.men[s]) == free_side for s in events.promotes):
        join(groups, Group(COLOURS[free_side], [], {(piece, s) for piece in PIECES for s in ALL}, 0, 1))
    return sorted(groups, key=lambda g: (g.colour == "black", g.is_fixed, not g.is_king, g.men or [64]))


def join(groups, group):
    """Adds a group, made one with those of its colour that share a place with it."""
    for other in [g for g in groups if g.colour == group.colour and g.states & group.states]:
        groups.remove(other)
        group = Group(
            group.colour, other.men + group.men, other.states | group.states, other.least + group.least, other.new + group.new
        )
    groups.append(group)


def in_reach(kind, side, square, walls, reach):
    """The squares to which a man comes within so many moves past the pawns that stand fast."""
    return flood(kind, side, [square], walls, reach) if reach else {square}


def kept_near(group, men, reach, walls):
    """The group with its pieces kept within so many moves of where they stand, past the pawns that stand fast, and at
    0 each man. A new man is kept to the last rank at three moves, and left out at less. WHOLE: with its places, but
    no man gone."""
    kinds, new = {men[s].upper() for s in group.men}, group.new
    if reach == WHOLE:
        return Group(group.colour, group.men, group.states, group.most, new)
    if reach == 3 and new:
        states = {(kind, s) for kind, s in group.states if kind in kinds or rank_of(s) == (7 if group.colour == "white" else 0)}
    elif reach == 2 and new:
        states, new = {state for state in group.states if state[0] in kinds}, 0
    elif reach == 0 or kinds == {"P"} and reach == 1:
        states, new = {(men[s].upper(), s) for s in group.men}, 0
    else:
        near = {kind: {s for start in group.men for s in in_reach(kind, group.colour[0], start, walls, reach)} for kind in kinds - {"P"}}
        states = {(kind, s) for kind, s in group.states if s in near.get(kind, ALL)}
    return Group(group.colour, group.men, states, group.least, new)
