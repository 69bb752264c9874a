"""The position of a call: as the program accepts it and as Freezer writes it, and whether the game is over there."""

from lib.chess import read_fen, target_cause, write_fen
from proving.asking import Asking, Refused
from proving.verdict import Shown, judge, opponent, verdict
from proving.options import WrongWords, sentence_of

SIDE_OF = {"w": "white", "b": "black"}


def accepted(programs, fen):
    """The FEN as Freezer writes it, without a target that no pawn can take, and what `moves` tells there."""
    try:
        told = Asking(programs, None).call("freezer", "moves", fen).strip()
    except Refused as refused:
        raise WrongWords(sentence_of(refused.text, fen)) from refused
    position = read_fen(fen)
    if position.target is not None and target_cause(position.men, position.turn, position.target):
        position.target = None
    return write_fen(position), told


def game_over(fen, side, claim, told):
    """The verdict and its status where the position has no move; nothing where it has one."""
    mover = SIDE_OF[fen.split()[1]]
    if told == "mate":
        winner = opponent(mover)
        shown, why = Shown(winner, None, frozenset({winner})), f"{mover.capitalize()} is mated"
    elif told == "stalemate":
        shown, why = Shown(safe=frozenset(SIDE_OF.values())), f"{mover.capitalize()} is stalemated"
    else:
        return None
    outcome = judge(claim, side, shown)
    return f"{verdict(outcome, shown)}: {why}", outcome.value
