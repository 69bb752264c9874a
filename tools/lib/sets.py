"""Numbers of a set, read from docs/users/formats.md: from a position to its number and back."""

from math import comb

from lib.chess import Position, invalid_cause, rank_of, side_of
from lib.rules import possible_targets, radix_of, side_of_colour, size_of


class Set:
    """The positions that the groups of a rules text allow."""

    def __init__(self, groups):
        self.groups = groups
        self.turns = [("w", None), ("b", None)] + [
            ("b" if rank_of(target) == 2 else "w", target) for target in possible_targets(groups)
        ]
        self.size = size_of(groups)
        self.places = [{state: place for place, state in enumerate(g.states)} for g in groups]

    def number(self, position):
        """The number of a valid position, or None outside."""
        turn = (position.turn, position.target)
        if turn not in self.turns:
            return None
        taken = self.taken(position)
        if taken is None:
            return None
        number = self.turns.index(turn)
        for group, places in zip(self.groups, taken):
            if not group.least <= len(places) <= group.most:
                return None
            number = number * radix_of(group) + digit_of(group, places)
        return number

    def taken(self, position):
        """For each group the places of its men, increasing; None where a man has no group."""
        taken = [[] for _ in self.groups]
        for square, man in position.men.items():
            owner = self.owner(side_of(man), (man.upper(), square))
            if owner is None:
                return None
            taken[owner].append(self.places[owner][man.upper(), square])
        return [sorted(places) for places in taken]

    def owner(self, side, state):
        """The place in the text of the group that has this state."""
        for index, group in enumerate(self.groups):
            if side_of_colour(group.colour) == side and state in self.places[index]:
                return index
        return None

    def at(self, number):
        """The position of the number, or None where it is broken."""
        digits = []
        for group in reversed(self.groups):
            number, digit = divmod(number, radix_of(group))
            digits.append(digit)
        men = {}
        for group, digit in zip(self.groups, reversed(digits)):
            for place in places_of(group, digit):
                kind, square = group.states[place]
                if square in men:
                    return None
                men[square] = kind if group.colour == "white" else kind.lower()
        position = Position(men, *self.turns[number])
        return position if invalid_cause(position) is None else None


def digit_of(group, places):
    states = len(group.states)
    fewer = sum(comb(states, men) for men in range(group.least, len(places)))
    return fewer + sum(comb(place, k) for k, place in enumerate(places, 1))


def places_of(group, digit):
    """The places of the men at this digit of the group."""
    men = group.least
    while digit >= comb(len(group.states), men):
        digit -= comb(len(group.states), men)
        men += 1
    places = []
    for k in range(men, 0, -1):
        place = max(c for c in range(len(group.states)) if comb(c, k) <= digit)
        places.append(place)
        digit -= comb(place, k)
    return places
