"""A legal move as the page lists it: the program's words for it, and what they say of both sides. The lines
of `each` are read here."""

import re

from .bounds import NOTHING, SIDES, behind, lost_by, opponent, paced_by, rank, read_bounds, read_value

BOUND = r"(?:wins within \d+|holds|none)"
LINE = re.compile(rf"(\S+) (?:(white {BOUND}), (black {BOUND})|exit ([a-z0-9 ]+?))(, renounced)?$")
UNKNOWN = "unknown"
# The answers of `ask` to a position outside: who says what it is worth, if anybody does.
FAILS = re.compile(r"fails within \d+")
BEHIND = re.compile(r"back (\d+) (.+), (.+)$")


class Move:
    """A legal move: its two texts, what is said of it, and what this says of each side after it."""

    def __init__(self, san, text="", said="", bounds=None):
        self.san = san
        self.text = text
        self.said = said
        self.bounds = bounds
        self.exit = None  # what is outside, where the move leaves the set
        self.renounced = False
        self.counting = None  # the sides whose plies count, where a table behind says what the move is worth

    def shown(self, side, before):
        """What the page is told; `before` are the bounds of both sides before the move, where known."""
        kind, marks = marks_of(self, side, before)
        return {"san": self.san, "move": self.text, "said": self.said, "kind": kind, "marks": marks}


def marks_of(move, side, before):
    """Whether the mover keeps his bound, and in words whatever is to be said of the move."""
    marks = []
    if move.exit:
        marks.append(move.exit)
    if move.renounced:
        marks.append("renounced")
    if not before or not move.bounds:
        return "leaves" if move.exit else "keeps", marks
    own, other = move.bounds[side], move.bounds[opponent(side)]
    lost = lost_by(before[side], own, other)
    if lost:
        return "throws", [*marks, lost]
    slower = "" if move.exit else paced_by(before, move.bounds, side)
    return "slower" if slower else "keeps", [*marks, *([slower] if slower else [])]


def read_line(line):
    """The move of a line of `each`."""
    san, white, black, value, renounced = LINE.match(line).groups()
    if value is None:
        move = Move(san, said=f"{white}, {black}", bounds=read_bounds([white, black]))
    else:
        move = Move(san, said=f"exit {value}", bounds=read_value(value))
        move.exit = "leaves the set"
    move.renounced = renounced is not None
    return move


def read_each(lines, texts):
    """The moves of the lines of `each`, in their order; `texts` has the coordinates of each."""
    moves = [read_line(line) for line in lines]
    for move in moves:
        move.text = texts[move.san]
    return moves


def is_open(move):
    """Whether a move leaves the set, and no exit line says what it is worth."""
    return bool(move.exit) and move.said == f"exit {UNKNOWN}"


def read_answer(answer):
    """The place of the BACK that `ask` names and the two lines of its bounds, or none and the value of an exit."""
    words = FAILS.sub("none", answer)
    if match := BEHIND.match(words):
        return int(match[1]), [match[2], match[3]]
    return None, [words.removeprefix("exit ") if words.startswith("exit ") else UNKNOWN]


def goes_out(move, value):
    """Says of a move that leaves the set what it is worth there."""
    move.said = f"exit {value}"
    move.bounds = read_value(value)


def goes_behind(move, name, lines, counting):
    """Says of a move that leaves the set what the table of this name says there, to a table in which the wins
    of these sides have their plies."""
    move.said = ", ".join(lines)
    move.bounds = behind(read_bounds(lines), counting)
    move.counting = counting
    move.exit = f"into {name}"


def ranked(moves, side, texts):
    """The moves in the order of `each`: best first for the mover, equal ones by their squares. A move of
    which nothing is known counts as one behind which neither side has a bound."""
    places = {san: place for place, san in enumerate(texts)}
    unknown = dict.fromkeys(SIDES, NOTHING)

    def place_of(move):
        bounds = move.bounds or unknown
        return (rank(bounds[side], bounds[opponent(side)]), places[move.san])

    return sorted(moves, key=place_of)
