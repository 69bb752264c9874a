"""Only moves and tries, by options that are written here."""

from board.bounds import HOLD, NONE, WIN, Bound
from proving.game import Game, Option
from proving.tries import tries

AT = "8/8/8/8/8/8/8/8 w - - 0 1"


def option(san, white, black):
    return Option(san, san.lower(), {"white": Bound(white), "black": Bound(black)}, False)


class Written(Game):
    """A game whose options stand here, by the FEN."""

    def __init__(self, options):
        self.written = options

    def options(self, fen):
        return self.written.get(fen, [])

    def after(self, fen, move):
        return f"{move} {'b' if fen.split()[1] == 'w' else 'w'}"


def is_only(kind, first, *others):
    return Written({AT: [first, *others]}).is_only(AT, first, kind)


def see_moves(_, checks):
    wins, holds, open_end = option("Ka1", WIN, NONE), option("Kb1", HOLD, HOLD), option("Kc1", NONE, NONE)
    lost, safe = option("Kd1", NONE, WIN), option("Ke1", NONE, HOLD)
    for what, given, wanted in (
        ("the one move", is_only(WIN, wins), False),
        ("all others hold for Black", is_only(WIN, wins, holds, safe), True),
        ("all others lose", is_only(WIN, wins, lost), True),
        ("one other is open", is_only(WIN, wins, holds, open_end), False),
        ("two win", is_only(WIN, wins, option("Kf1", WIN, NONE), lost), False),
        ("a move that does not win", is_only(WIN, holds, lost), False),
        ("all others lose a hold", is_only(HOLD, holds, lost), True),
        ("one other leaves it open", is_only(HOLD, holds, safe), False),
        ("a win among losses", is_only(HOLD, wins, lost), True),
    ):
        checks.same(f"an only move: {what}", given, wanted)
    see_tries(checks)


def see_tries(checks):
    """The capture at once and the check after a quiet move; nothing behind a move that does not hold."""
    game = Written({
        "root b": [option("Rxa1", HOLD, NONE), option("Kb8", HOLD, NONE), option("Qxh1", NONE, WIN)],
        "kb8 w": [option("Kb1", HOLD, NONE), option("Kc1", HOLD, NONE)],
        "kb1 b": [option("Ra1+", HOLD, NONE), option("Rxa1+", HOLD, NONE)],
        "kc1 b": [option("Rc8+", HOLD, NONE)],
    })
    checks.same("tries", tries(game, "root b", "white"), [("rxa1",), ("kb8", "kb1", "ra1+")])
