"""Rules texts read from docs/users/formats.md: the rules, or the first bad line with its cause."""

from collections import namedtuple
from math import comb

from lib.chess import KINDS, in_check, king_square, rank_of, square_of

Group = namedtuple("Group", "colour least most states")
Forbid = namedtuple("Forbid", "colour kind origins destinations only")
Exit = namedtuple("Exit", "value lag conditions")
Condition = namedtuple("Condition", "negated name words")
Rules = namedtuple("Rules", "groups forbids exits")

LONGEST_TEXT = 65_536
LARGEST_SET = 134_217_728
MOST_MEN, MOST_LAG = 16, 1_000


class Refused(Exception):
    """The line and the cause of a text that gives no rules."""


def read_number(word, most):
    if not (1 <= len(word) <= 9 and word.isascii() and word.isdigit() and int(word) <= most):
        return None
    return int(word)


def read_range(word):
    """The least and the most of a COUNT."""
    numbers = [read_number(part, MOST_MEN) for part in word.split("-")]
    if len(numbers) > 2 or None in numbers:
        return None
    return numbers[0], numbers[-1]


def is_range(word):
    found = read_range(word)
    return found is not None and found[0] <= found[1]


def is_square(word):
    return len(word) == 2 and word[0] in "abcdefgh" and word[1] in "12345678"


def read_squares(word):
    """The squares of all items, or None."""
    found = set()
    for item in word.split(","):
        corners = item.split("-")
        if item == "all":
            found.update(range(64))
        elif len(corners) <= 2 and all(is_square(corner) for corner in corners):
            low, high = square_of(corners[0]), square_of(corners[-1])
            if low % 8 > high % 8 or low // 8 > high // 8:
                return None
            found.update(
                8 * rank + file
                for rank in range(low // 8, high // 8 + 1)
                for file in range(low % 8, high % 8 + 1)
            )
        else:
            return None
    return found


def is_colour(word):
    return word in ("white", "black")


def is_kind(word):
    return len(word) == 1 and word in KINDS


def is_place(word):
    return len(word) > 2 and word[0] in KINDS and word[1] == ":" and is_squares(word[2:])


def is_condition(word):
    parts = word.removeprefix("!").split(":")
    forms = {
        "turn": (is_colour,),
        "count": (is_colour, is_kind, is_range),
        "on": (is_colour, is_kind, is_squares),
        "distance": (is_colour, is_square, is_range),
        "check": (),
        "always": (),
    }
    form = forms.get(parts[0])
    return form is not None and len(form) == len(parts) - 1 and all(
        fits(part) for fits, part in zip(form, parts[1:])
    )


def word_is(*texts):
    return lambda word: word in texts


def is_lag(word):
    return read_number(word, MOST_LAG) is not None


def is_squares(word):
    return read_squares(word) is not None


# A form is a list of tests of one word each, and whether the last word may come again.
GROUP = [word_is("group"), is_colour, lambda w: read_range(w) is not None, is_place]
FORBID = [word_is("forbid"), is_colour, is_kind]
FORBID += [word_is("from"), is_squares, word_is("to"), is_squares]
VALUES = (
    [is_colour, word_is("wins")],
    [is_colour, word_is("wins"), is_lag],
    [is_colour, word_is("holds")],
    [word_is("draw")],
    [word_is("unknown")],
)
FORMS = [(GROUP, True), (FORBID, False), (FORBID + [word_is("capture", "promotion")], False)]
FORMS += [([word_is("exit"), *value, word_is("if"), is_condition], True) for value in VALUES]


def begins(words, form, many):
    """How many words begin a line of the form, and whether all of them are one."""
    fitting = 0
    for place, word in enumerate(words):
        test = form[place] if place < len(form) else form[-1] if many else None
        if test is None or not test(word):
            break
        fitting += 1
    return fitting, fitting == len(words) and fitting >= len(form)


def check_form(words):
    """The place of the first word that fits no form, or None."""
    tries = [begins(words, form, many) for form, many in FORMS]
    if any(whole for _, whole in tries):
        return None
    return 1 + max(fitting for fitting, _ in tries)


def read_states(places):
    found = {(KINDS.index(word[0]), s) for word in places for s in read_squares(word[2:])}
    return [(KINDS[kind], square) for kind, square in sorted(found)]


def read_group(words):
    return Group(words[1], *read_range(words[2]), read_states(words[3:]))


def read_forbid(words):
    only = words[7] if len(words) > 7 else None
    return Forbid(words[1], words[2], read_squares(words[4]), read_squares(words[6]), only)


def read_exit(words):
    split = words.index("if")
    value, lag = words[1:split], 0
    if len(value) == 3:
        lag, value = int(value[2]), value[:2] + [str(int(value[2]))]
    conditions = []
    for word in words[split + 1:]:
        name, *rest = word.removeprefix("!").split(":")
        conditions.append(Condition(word.startswith("!"), name, rest))
    return Exit(" ".join(value), lag, conditions)


def group_cause(group, earlier):
    """The first cause of a group line, from `pawn square` to `too many men`."""
    same = [g for g in earlier if g.colour == group.colour]
    kings = lambda g: any(kind == "K" for kind, _ in g.states)
    if any(kind == "P" and rank_of(s) in (0, 7) for kind, s in group.states):
        return "pawn square"
    if group.least > group.most or group.most == 0 or group.most > len(group.states):
        return "count"
    if kings(group):
        mixed = any(kind != "K" for kind, _ in group.states)
        if mixed or (group.least, group.most) != (1, 1) or any(kings(g) for g in same):
            return "king group"
    if any(set(g.states) & set(group.states) for g in same):
        return "overlap"
    if group.most + sum(g.most for g in same) > MOST_MEN:
        return "too many men"
    return None


def radix_of(group):
    states = len(group.states)
    return sum(comb(states, men) for men in range(group.least, group.most + 1))


def possible_targets(groups):
    """The squares that a pawn may just have passed over, by the states of the groups."""
    pawns = {
        colour: {s for g in groups if g.colour == colour for kind, s in g.states if kind == "P"}
        for colour in ("white", "black")
    }
    found = []
    for target in range(64):
        for rank, step, mover, capturer in ((2, 8, "white", "black"), (5, -8, "black", "white")):
            passed = target + step
            near = [s for s in (passed - 1, passed + 1) if s // 8 == passed // 8]
            if rank_of(target) == rank and passed in pawns[mover]:
                if any(s in pawns[capturer] for s in near):
                    found.append(target)
    return found


def size_of(groups):
    size = 2 + len(possible_targets(groups))
    for group in groups:
        size *= radix_of(group)
    return size


def read_rules(text):
    """The rules of a text, or Refused(line, cause)."""
    if len(text.encode()) > LONGEST_TEXT:
        raise Refused(0, "too long")
    lines = [line.replace("\t", " ").replace("\r", " ") for line in text.split("\n")]
    worded = [(n, line.split(" ")) for n, line in enumerate(lines, 1)]
    worded = [(n, [word for word in words if word]) for n, words in worded]
    counted = [(n, words) for n, words in worded if words and not words[0].startswith("#")]
    if not counted:
        raise Refused(0, "header")
    if counted[0][1] != ["freezer", "1"]:
        raise Refused(counted[0][0], "header")
    rules = Rules([], [], [])
    for number, words in counted[1:]:
        if (cause := read_line(words, rules)) is not None:
            raise Refused(number, cause)
    for colour in ("white", "black"):
        if not any(g.colour == colour and g.states[0][0] == "K" for g in rules.groups):
            raise Refused(0, "king group")
    size = size_of(rules.groups)
    if size > LARGEST_SET:
        raise Refused(0, f"set too big {min(size, 2 ** 64 - 1)}")
    return rules


def read_line(words, rules):
    """Adds what the line says to the rules, or gives its first cause."""
    if words[0] not in ("group", "forbid", "exit"):
        return "unknown line"
    if (place := check_form(words)) is not None:
        return f"word {place}"
    kept, made, most = {
        "group": (rules.groups, read_group, 32),
        "forbid": (rules.forbids, read_forbid, 64),
        "exit": (rules.exits, read_exit, 128),
    }[words[0]]
    line = made(words)
    if words[0] == "group" and (cause := group_cause(line, rules.groups)) is not None:
        return cause
    if len(kept) == most or (words[0] == "exit" and len(line.conditions) > 8):
        return "too many lines"
    kept.append(line)
    return None


def side_of_colour(colour):
    return "w" if colour == "white" else "b"


def is_man(man, colour, kind):
    return man == (kind if colour == "white" else kind.lower())


def holds(condition, position):
    """Whether the condition of an exit line holds at the position."""
    name, words = condition.name, condition.words
    if name == "turn":
        true = position.turn == side_of_colour(words[0])
    elif name == "count":
        least, most = read_range(words[2])
        men = sum(is_man(man, words[0], words[1]) for man in position.men.values())
        true = least <= men <= most
    elif name == "on":
        places = read_squares(words[2])
        true = any(s in places and is_man(m, words[0], words[1]) for s, m in position.men.items())
    elif name == "distance":
        least, most = read_range(words[2])
        king, square = king_square(position.men, side_of_colour(words[0])), square_of(words[1])
        steps = max(abs(king % 8 - square % 8), abs(king // 8 - square // 8))
        true = least <= steps <= most
    elif name == "check":
        true = in_check(position.men, position.turn)
    else:
        true = True
    return true != condition.negated


def first_fitting(lines, position):
    """The place of the first of these exit lines that fits, or None."""
    fits = (all(holds(condition, position) for condition in line.conditions) for line in lines)
    return next((place for place, fit in enumerate(fits) if fit), None)


def ends_lines(line):
    """Whether it is the line `exit unknown if always`."""
    return line.value == "unknown" and line.conditions == [Condition(False, "always", [])]


def lines_behind(rules):
    """The exit lines behind the first `exit unknown if always`, which are asked behind all tables."""
    first = next((place for place, line in enumerate(rules.exits) if ends_lines(line)), len(rules.exits))
    return rules.exits[first + 1:]


def value_by(lines, position):
    """The value of a position outside by these lines, in words, and the lag of a win."""
    place = first_fitting(lines, position)
    return ("unknown", 0) if place is None else (lines[place].value, lines[place].lag)


def value_of(rules, position):
    """The same by the lines of a text in their order, which `exit unknown if always` ends."""
    return value_by(rules.exits, position)
