"""FENs read from docs/users/formats.md: the position, or the first fault."""

import re

from lib.chess import invalid_cause, read_fen, target_cause

MEN, DIGITS = "PNBRQKpnbrqk", "12345678"


class NoFen(Exception):
    """The first fault of a text that is no FEN."""


def bad_rank(placement):
    """The first rank that is not right or is missing, 0 if more follow than eight; None if all are right."""
    parts = placement.split("/")
    for rank, part in zip(range(8, 0, -1), [*parts, *[""] * 8]):
        known = set(part) <= set(DIGITS + MEN)
        if not known or sum(int(c) if c in DIGITS else 1 for c in part) != 8:
            return rank
    return 0 if len(parts) > 8 else None


def read_fen_text(text):
    """The position of a FEN, or NoFen."""
    fields = [field for field in text.split(" ") if field]
    if len(fields) not in (4, 6):
        raise NoFen("fields")
    if (rank := bad_rank(fields[0])) is not None:
        raise NoFen(f"placement {rank}")
    targets = {"w": "-|[a-h]6", "b": "-|[a-h]3"}
    forms = [("turn", "[wb]"), ("castling", "-"), ("ep square", targets.get(fields[1], ""))]
    for field, (cause, form) in zip(fields[1:], [*forms, *[("clock", "[0-9]{1,4}")] * 2]):
        if not re.fullmatch(form, field):
            raise NoFen(cause)
    position = read_fen(" ".join(fields))
    if position.target is not None and target_cause(position.men, position.turn, position.target) == "capturer":
        position.target = None
    if cause := invalid_cause(position):
        raise NoFen(f"invalid {cause}")
    return position
