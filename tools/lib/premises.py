"""What exit lines rest on, and what the bounds of a side then are in chess: what `premises` prints, read from
docs/users/formats.md."""

from lib.chess import after, legal_moves, side_of, write_fen
from lib.game import HOLD, SIDES, is_win, opponent


def exit_numbers(text):
    """The numbers, from 1, of the lines of a text that are exit lines."""
    lines = [line.replace("\t", " ").replace("\r", " ").split() for line in text.split("\n")]
    return [number for number, words in enumerate(lines, 1) if words[:1] == ["exit"]]


def exits_of(game):
    """The positions one legal move outside the set, by number and in move order, free moves or not."""
    for number in range(game.set.size):
        position = game.set.at(number)
        for move in legal_moves(position) if position is not None else ():
            end = after(position, move)
            if game.set.number(end) is None:
                yield end


def men_of(position, side):
    """The kinds of the side's men beside its king."""
    return [man.upper() for man in position.men.values() if side_of(man) == side[0] and man.upper() != "K"]


def is_bare(position, side):
    return not men_of(position, side)


def has_one_minor(position, side):
    """Beside its king the side has one man at most, a bishop or a knight."""
    men = men_of(position, side)
    return len(men) <= 1 and all(man in "BN" for man in men)


def men_show(line, position):
    """Whether the men on the board show that the line is true there."""
    if line.value == "draw":
        return any(is_bare(position, s) and has_one_minor(position, opponent(s)) for s in SIDES)
    side, _, verb = line.value.partition(" ")
    return verb == "holds" and is_bare(position, opponent(side))


def says_as_much(table, line, position):
    """Whether the table's set has the position, and its codes say there at least what the line says."""
    number = table.game.set.number(position)
    if number is None:
        return False
    codes = {side: table.codes[side][number] for side in SIDES}
    if line.value == "draw":
        return all(code == HOLD or is_win(code) for code in codes.values())
    side, verb, *plies = line.value.split(" ")
    if verb == "holds":
        return codes[side] == HOLD or is_win(codes[side])
    soon = not plies or (codes[side] <= 2 + 2 * line.lag and not table.leans and table.game.counts(side))
    return is_win(codes[side]) and soon


def basis_of(tables, line, exits):
    """What a line rests on that decides these exits."""
    if not exits or line.value == "unknown":
        return "asks nothing"
    asked = [position for position in exits if not men_show(line, position)]
    if not asked:
        return "true by the men"
    for position in asked:
        if not any(says_as_much(table, line, position) for table in tables):
            return f"believed {write_fen(position)}"
    for place, table in enumerate(tables, 1):
        if all(says_as_much(table, line, position) for position in asked):
            return f"proved by back {place}"
    return "proved by several backs"


def bases_of(text, game, tables):
    """The lines that are printed of the exit lines of a text, where these tables may prove them."""
    decided = [[] for _ in game.rules.exits]
    for position in exits_of(game):
        if (place := game.decider(position)) is not None:
            decided[place].append(position)
    bases = [basis_of(tables, line, exits) for line, exits in zip(game.rules.exits, decided)]
    return [f"line {number} {basis}" for number, basis in zip(exit_numbers(text), bases)]


def is_bad(value, side):
    return not (value == "draw" or value.startswith(f"{side} "))


def strength_of(game, believed, side):
    """What the bounds of a side are, where so many lines of all texts are believed."""
    values = [game.value(position)[0] for position in exits_of(game)]
    if believed:
        return "true if believed"
    if any(line.colour == side for line in game.rules.forbids):
        return "true, moves renounced"
    if any(value == "unknown" or value.endswith("holds") for value in values):
        return "true, exits undecided"
    return "exact but for plies" if any(is_bad(value, opponent(side)) for value in values) else "exact"


def premises_text(text, game, tables):
    """What `premises` prints of a text over tables that are exact; each of these has its own text."""
    lines = []
    for place, table in enumerate(tables):
        lines += [f"back {place + 1}", *bases_of(table.text, table.game, tables[:place])]
    lines += ["rules", *bases_of(text, game, tables)]
    believed = sum(" believed " in line for line in lines)
    lines.append(f"believed {believed}")
    lines += [f"{side} {strength_of(game, believed, side)}" for side in SIDES]
    return "".join(line + "\n" for line in lines)
