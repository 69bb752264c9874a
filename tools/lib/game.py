"""The restricted game of a rules text, solved from its meaning, and what its commands print."""

from collections import namedtuple

from lib.chess import after, in_check, is_capture, legal_moves, write_fen
from lib.rules import first_fitting, is_man, lines_behind, side_of_colour, value_by, value_of
from lib.sets import Set

# A move: whether its side is free to make it, and the number or the value and lag behind it.
Arm = namedtuple("Arm", "move free number value lag end")
SIDES = ("white", "black")
HOLD = 1
MOST_PLIES = 100
LONGEST_COUNTED = 2002  # the code of a win within 1,000 plies


def opponent(side):
    return SIDES[1 - SIDES.index(side)]


def is_win(code):
    return code > 0 and code % 2 == 0


def is_failure(code):
    return code > 1 and code % 2 == 1


def is_covered(forbid, position, move):
    """Whether the forbid line covers the move."""
    origin, destination, promotion = move
    return (
        is_man(position.men[origin], forbid.colour, forbid.kind)
        and origin in forbid.origins
        and destination in forbid.destinations
        and (forbid.only != "capture" or is_capture(position, move))
        and (forbid.only != "promotion" or bool(promotion))
    )


def pair_value(white, black):
    """The value that the two codes of a back table tell of a position."""
    if is_win(white) and is_failure(black):
        return "white wins"
    if is_failure(white) and is_win(black):
        return "black wins"
    if white == HOLD and black == HOLD:
        return "draw"
    if white == HOLD and is_failure(black):
        return "white holds"
    if is_failure(white) and black == HOLD:
        return "black holds"
    return "unknown"


def lines_count(rules, side):
    """Whether each exit line by which the side wins gives its plies."""
    return not any(line.value == f"{side} wins" for line in rules.exits)


class Back:
    """A table that answers where the exit lines do not: its wins have no number of plies."""

    counting = ()

    def __init__(self, game, codes):
        self.game, self.codes = game, codes

    def value(self, _, position):
        codes = self.codes_at(position)
        return ("unknown", 0) if codes is None else (pair_value(*codes), 0)

    def codes_at(self, position):
        """White's code and Black's; None outside its set."""
        number = self.game.set.number(position)
        return None if number is None else tuple(self.codes[side][number] for side in SIDES)

    def counts(self, side):
        """Whether the plies of the side's wins in it count in a table over it."""
        short = all(code <= LONGEST_COUNTED for code in self.codes[side] if is_win(code))
        return short and lines_count(self.game.rules, side)


class Several:
    """Tables of which the first answers whose set has the position; where none has it, the lines of the text
    that stand behind `exit unknown if always`. A side's wins have their plies if they count in all tables."""

    def __init__(self, backs):
        self.backs = backs
        self.counting = {side for side in SIDES if all(back.counts(side) for back in backs)}

    def place(self, position):
        """The place of the first table whose set has the position, or None."""
        return next((k for k, back in enumerate(self.backs) if back.codes_at(position) is not None), None)

    def value(self, rules, position):
        place = self.place(position)
        if place is None:
            return value_by(lines_behind(rules), position)
        codes = dict(zip(SIDES, self.backs[place].codes_at(position)))
        value = pair_value(*codes.values())
        side, _, verb = value.partition(" ")
        if verb != "wins" or side not in self.counting:
            return value, 0
        plies = codes[side] // 2 - 1
        return f"{value} {plies}", plies


class Game:
    """The positions of a set by number, and the moves of each; perhaps with a table behind it."""

    def __init__(self, rules, back=None):
        self.rules, self.back = rules, back
        self.set = Set(rules.groups)
        self.positions = [self.set.at(number) for number in range(self.set.size)]
        self.arms = [p and [self.arm(p, move) for move in legal_moves(p)] for p in self.positions]

    def arm(self, position, move):
        free = not any(is_covered(forbid, position, move) for forbid in self.rules.forbids)
        end = after(position, move)
        number = self.set.number(end)
        value, lag = (None, 0) if number is not None else self.value(end)
        return Arm(move, free, number, value, lag, end)

    def value(self, position):
        """The value and the lag of a position outside."""
        value, lag = value_of(self.rules, position)
        if value == "unknown" and self.back is not None:
            return self.back.value(self.rules, position)
        return value, lag

    def counts(self, side):
        """Whether the plies of the side's wins are plies to mate, where the exit lines are true."""
        return lines_count(self.rules, side) and (self.back is None or side in self.back.counting)

    def decider(self, position):
        """The place of the exit line that decides the value of a position outside, or None where no line fits
        or a table has it. Where no line gives a value, it is the last one that was asked and fits."""
        first = first_fitting(self.rules.exits, position)
        if self.back is None or (first is not None and self.rules.exits[first].value != "unknown"):
            return first
        if self.back.place(position) is not None:
            return None
        behind = lines_behind(self.rules)
        further = first_fitting(behind, position)
        return first if further is None else len(self.rules.exits) - len(behind) + further

    def mover(self, number):
        return "white" if self.positions[number].turn == "w" else "black"

    def is_check(self, number):
        return in_check(self.positions[number].men, self.positions[number].turn)

    def arm_code(self, side, codes, arm):
        """The entry behind a move, or the code of the value outside."""
        if arm.number is not None:
            return codes[arm.number]
        if arm.value.startswith(f"{side} wins"):
            return 2 + 2 * arm.lag
        return HOLD if arm.value in ("draw", f"{side} holds") else 3

    def chosen(self, side, number):
        """The moves among which the mover chooses in the side's game."""
        mine = self.mover(number) == side
        return [arm for arm in self.arms[number] if arm.free or not mine]

    def local_code(self, side, codes, number):
        """What the codes of the moves give, by the table of the local code."""
        if self.positions[number] is None:
            return 0
        mine = self.mover(number) == side
        if not self.arms[number]:
            return HOLD if not self.is_check(number) else 3 if mine else 2
        behind = [self.arm_code(side, codes, arm) for arm in self.chosen(side, number)]
        if not behind:
            return 3
        good, bad = (is_win, is_failure) if mine else (is_failure, is_win)
        if any(good(code) for code in behind):
            return 2 + min(code for code in behind if good(code))
        return HOLD if any(not bad(code) for code in behind) else 2 + max(behind)

    def solve(self, side):
        """The codes of a side: what it wins, and where it fails, within 0, 1, 2 .. plies."""
        codes = [0 if position is None else HOLD for position in self.positions]
        lags = max((arm.lag for arms in self.arms for arm in arms or () if arm.number is None), default=0)
        open_numbers = [n for n, position in enumerate(self.positions) if position is not None]
        plies, changed = 0, True
        while changed or plies <= lags + 1:
            settled = {}
            for number in open_numbers:
                code = self.local_code(side, codes, number)
                if code in (2 + 2 * plies, 3 + 2 * plies):
                    settled[number] = code
            for number, code in settled.items():
                codes[number] = code
            open_numbers = [n for n in open_numbers if n not in settled]
            changed = bool(settled) or plies == 0
            plies += 1
        return codes


def bound_text(side, code):
    if is_win(code):
        return f"{side} wins within {(code - 2) // 2}\n"
    return f"{side} holds\n" if code == HOLD else f"{side} none\n"


def check_answer(game, codes):
    """Status and text of the command `check`: the first entry that is not its local code."""
    for number in range(game.set.size):
        for side in SIDES:
            kept, given = codes[side][number], game.local_code(side, codes[side], number)
            if kept != given:
                return 6, f"wrong {side} {number} kept {kept} given {given}\n"
    return 0, f"exact {game.set.size}\n"


def rank(code):
    return 2 if is_win(code) else 1 if code == HOLD else 0


def squeezes(game, white, black):
    """Pairs of numbers with the same men, where each side would rather have the other move."""
    waiting = {
        tuple(sorted(p.men.items())): n
        for n, p in enumerate(game.positions)
        if p is not None and p.turn == "b" and p.target is None
    }
    found = []
    for number, position in enumerate(game.positions):
        if position is None or position.turn == "b" or position.target is not None:
            continue
        twin = waiting.get(tuple(sorted(position.men.items())))
        if twin is None:
            continue
        if rank(white[number]) < rank(white[twin]) and rank(black[twin]) < rank(black[number]):
            found.append((number, twin))
    return found


def class_of(position):
    """The men of a position, White's in capitals."""
    return "".join(sorted(position.men.values(), key="KQRBNPkqrbnp".index))


def open_exits(game):
    """The positions behind open exits by their classes, as these are met."""
    classes = {}
    for arms in game.arms:
        for arm in arms or []:
            if arm.number is None and arm.value == "unknown":
                classes.setdefault(class_of(arm.end), []).append(arm.end)
    return classes


def class_lines(classes):
    return [f"exits {len(ends)} {name}" for name, ends in classes.items()]


def first_lines(classes):
    """The lines of `atlas`: the most frequent class first, each with its first position."""
    ranked = sorted(classes.items(), key=lambda found: -len(found[1]))
    return [f"exits {len(ends)} {name} {write_fen(ends[0])}" for name, ends in ranked]


def report_text(game, white, black, lines_of=class_lines):
    """The text of the command `report` over these codes."""
    lines = [
        f"squeeze {w} {b} {write_fen(game.positions[w])}" for w, b in squeezes(game, white, black)
    ]
    classes = open_exits(game)
    lines += [*lines_of(classes), f"squeezes {len(lines)} unassigned {sum(map(len, classes.values()))}"]
    return "".join(line + "\n" for line in lines)
