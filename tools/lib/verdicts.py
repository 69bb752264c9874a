"""What is shown of a position, and what is believed for it: what `verdict` prints, read from docs/users/commands.md."""

from lib.chess import write_fen
from lib.game import HOLD, SIDES, Back, is_win
from lib.premises import bases_of


def verdict_on(table, number):
    """The verdict on the position with this number in the table's set."""
    codes = {side: table.codes[side][number] for side in SIDES}
    winners = [side for side in SIDES if is_win(codes[side])]
    if len(winners) == 1:
        return won(table, winners[0], codes[winners[0]])
    holders = [side for side in SIDES if codes[side] == HOLD]
    if winners or not holders:
        return "not shown"
    return "draw" if len(holders) == 2 else f"{holders[0]} does not lose"


def won(table, side, code):
    """The verdict where this side alone wins."""
    counts = table.game.counts(side) and (not table.leans or Back(table.game, table.codes).counts(side))
    return f"{side} wins, mate within {code // 2 - 1}" if counts else f"{side} wins"


def beliefs(backs, table):
    """The exit lines that are believed, of each text with the tables before it."""
    named = [(f"back {place}", back) for place, back in enumerate(backs, 1)] + [("table", table)]
    return [
        f"{name} {line}"
        for place, (name, one) in enumerate(named)
        for line in bases_of(one.text, one.game, backs[:place])
        if " believed " in line
    ]


def verdict_text(table, believed, number):
    """What `verdict` prints by an exact table where these lines are believed."""
    fen = write_fen(table.game.positions[number])
    lines = [fen, verdict_on(table, number), *believed, f"believed {len(believed)}"]
    return "".join(line + "\n" for line in lines)
