"""Lines and sessions over any codes, right or wrong: what `line` and `play` print, by one table or over several."""

from lib.chess import move_text
from lib.game import HOLD, MOST_PLIES, bound_text, is_failure, is_win
from lib.rules import value_of

MOST_LINES, LONGEST_LINE = 10_000, 64


class Input:
    """The lines that a session reads, or `ask`, and how much of it is taken."""

    def __init__(self, content, most=MOST_LINES, longest=LONGEST_LINE):
        self.content, self.taken, self.lines = content, 0, 0
        self.most, self.longest = most, longest

    def next_line(self):
        """The next line without its blanks, or why there is none: a status and a last line."""
        if self.lines == self.most:
            return None, (13, "limit lines\n")
        if self.taken == len(self.content):
            return None, (0, "input ended\n")
        end = self.content.find(b"\n", self.taken)
        length = (len(self.content) if end < 0 else end) - self.taken
        if length > self.longest:
            self.taken += self.longest + 1
            return None, (13, "limit line length\n")
        line = self.content[self.taken:self.taken + length]
        self.taken += length + (end >= 0)
        self.lines += 1
        return line.strip(b" \t\r"), None


def begin_or_refuse(game, side, codes, number):
    """The bound line at the start, or a status and the line that refuses it."""
    if (wrong := wrong_at(game, side, codes, number)) is not None:
        return None, wrong
    if is_failure(codes[number]):
        return None, (7, "no bound\n")
    return bound_text(side, codes[number]), None


def wrong_at(game, side, codes, number):
    """Status 6 and its line, where the entry is not the local code."""
    kept, given = codes[number], game.local_code(side, codes, number)
    return None if kept == given else (6, f"wrong {side} {number} kept {kept} given {given}\n")


def end_at(game, number):
    """The last line where the mover has no legal move."""
    if game.arms[number]:
        return None
    return "mate\n" if game.is_check(number) else "stalemate\n"


def choose(game, side, codes, number):
    """The move that the codes ask for, of the free moves of the side or all of the opponent."""
    behind = [(game.arm_code(side, codes, arm), arm) for arm in game.chosen(side, number)]
    wanted = [codes[number] - 2] if is_win(codes[number]) else [HOLD, 0]
    return next(arm for code in wanted for given, arm in behind if given == code)


def hear(game, number, source):
    """The opponent's move and the text up to it, or the text and how the session stops."""
    texts = {move_text(arm.move).encode(): arm for arm in game.arms[number]}
    said = ""
    while True:
        line, stopped = source.next_line()
        if stopped is not None:
            return None, said, stopped
        if line in texts:
            return texts[line], f"{said}reply {move_text(texts[line].move)}\n", None
        said += "illegal\n"


def walk(game, side, codes, number, source=None):
    """Status and text of `line` of `freezer`; with a source of lines, of `play`."""
    return way(game, side, codes, number, source)[:2]


def way(game, side, codes, number, source, seen=None):
    """Status, text, and the move by which the way leaves the set, if it does. With a set of numbers it ends
    where it comes to one of them again."""
    text, refused = begin_or_refuse(game, side, codes, number)
    if refused is not None:
        return *refused, None
    plies = 0
    while True:
        if seen is not None:
            if number in seen:
                return 0, text + "repetition\n", None
            seen.add(number)
        if (wrong := wrong_at(game, side, codes, number)) is not None:
            return wrong[0], text + wrong[1], None
        if (last := end_at(game, number)) is not None:
            return 0, text + last, None
        if source is None and codes[number] == HOLD and plies == MOST_PLIES:
            return 0, text + "cut\n", None
        if source is not None and game.mover(number) != side:
            arm, said, stopped = hear(game, number, source)
            text += said
            if stopped is not None:
                return stopped[0], text + stopped[1], None
        else:
            arm = choose(game, side, codes, number)
            text += ("" if source is None else "move ") + move_text(arm.move) + "\n"
        plies += 1
        if arm.number is None:
            return 0, text + f"exit {arm.value}\n", arm
        number = arm.number


def walk_over(table, backs, side, number, source=None):
    """Status and text of `line` or `play` of `atlas`, from a number of the first table. Each has its game and its
    codes, and may lean on those before it. A line by one table ends where a position comes again."""
    status, text, arm = way(table.game, side, table.codes[side], number, source, noted(source))
    while arm is not None and (place := behind_at(table.game, arm.end)) is not None:
        table, position = backs[place], arm.end
        number = table.game.set.number(position)
        status, more, arm = way(table.game, side, table.codes[side], number, source, noted(source))
        text += f"back {place + 1}\n" + (named(more, place) if status == 6 else more)
    return status, text


def noted(source):
    """The numbers that a line has come to, before it begins; of a session none are noted."""
    return set() if source is None else None


def behind_at(game, position):
    """The place of the table that tells the value of a position outside: where the exit lines say nothing, the
    first one whose set has it."""
    if game.back is None or value_of(game.rules, position)[0] != "unknown":
        return None
    return game.back.place(position)


def named(text, place):
    """The text with the table named in its last line, which tells a wrong code."""
    lines = text.splitlines()
    return "".join(line + "\n" for line in [*lines[:-1], f"back {place + 1}: {lines[-1]}"])
