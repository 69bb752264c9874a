"""What `ask` answers to the lines of its input by tables of `atlas`, read from docs/users/commands.md."""

from lib.fens import NoFen, read_fen_text
from lib.game import SIDES, bound_text, is_failure
from lib.walks import Input, behind_at

MOST_LINES, LONGEST_LINE = 1_000_000, 128


def asked(table, content):
    """Status and text for an input with this content, and how much of it is read."""
    source, text = Input(content, MOST_LINES, LONGEST_LINE), ""
    while True:
        line, stopped = source.next_line()
        if stopped is not None:
            return (stopped[0], text + stopped[1]), source.taken
        text += answer(table, line.decode("latin-1")) + "\n"


def answer(table, line):
    """The answer to one line."""
    try:
        position = read_fen_text(line)
    except NoFen as fault:
        return f"fen: {fault}"
    game = table.game
    number = game.set.number(position)
    if number is not None:
        return told_text([table.codes[side][number] for side in SIDES])
    if (place := behind_at(game, position)) is not None:
        return f"back {place + 1} {told_text(game.back.backs[place].codes_at(position))}"
    value = game.value(position)[0]
    return "outside" if value == "unknown" else f"exit {value}"


def told_text(codes):
    """Both bounds on one line, with the plies of failures."""
    return ", ".join(told_of(side, code) for side, code in zip(SIDES, codes))


def told_of(side, code):
    return f"{side} fails within {(code - 3) // 2}" if is_failure(code) else bound_text(side, code).strip()
