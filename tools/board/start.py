"""A first position to show: one that the rules text names in a comment, or one put together from its
groups. Whether it is in the set, the program says."""

import random
import re

from .groups import FILES, groups_of

NAMED = re.compile(r"#\s*position:\s*(\S+ [wb] \S+ \S+(?: \d+ \d+)?)\s*$")
TRIES = 400


def fen_of(men, turn):
    """The FEN of men on squares."""
    rows = []
    for rank in "87654321":
        row = "".join(men.get(file + rank, "1") for file in FILES)
        rows.append(re.sub("1+", lambda ones: str(len(ones[0])), row))
    return f"{'/'.join(rows)} {turn} - - 0 1"


def put_together(groups, chance):
    """Men of all groups on squares of their own, or nothing where some had none left."""
    men = {}
    for states, _, most in groups:
        free = [state for state in states if state[1] not in men]
        if len(free) < most:
            return None
        for letter, square in chance.sample(free, most):
            men[square] = letter
    return men


def first_positions(text):
    """FENs to be tried, one after the other."""
    for line in text.splitlines():
        match = NAMED.match(line)
        if match:
            yield match[1]
    groups = sorted(groups_of(text), key=lambda group: len(group[0]))
    chance = random.Random(1)
    for _ in range(TRIES):
        men = put_together(groups, chance)
        if men:
            yield fen_of(men, chance.choice("wb"))
