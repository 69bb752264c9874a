"""The game of a large set of which few positions are asked for."""

from lib.chess import legal_moves
from lib.game import Game
from lib.sets import Set


class Asked:
    """A list whose entries are worked out when they are asked for."""

    def __init__(self, size, make):
        self.size, self.make, self.made = size, make, {}

    def __len__(self):
        return self.size

    def __getitem__(self, place):
        if place not in self.made:
            self.made[place] = self.make(place)
        return self.made[place]

    def __iter__(self):
        return (self[place] for place in range(self.size))


class Lazy(Game):
    """A game of which only those positions are looked at that are asked for."""

    def __init__(self, rules, back):
        self.rules, self.back, self.set = rules, back, Set(rules.groups)
        self.positions = Asked(self.set.size, self.set.at)
        self.arms = Asked(self.set.size, self.arms_at)

    def arms_at(self, number):
        position = self.positions[number]
        return position and [self.arm(position, move) for move in legal_moves(position)]
