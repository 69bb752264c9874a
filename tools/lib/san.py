"""Algebraic notation, written by docs/users/formats.md."""

from lib.chess import after, in_check, is_capture, legal_moves, name_of


def san_of(position, move):
    """A legal move in algebraic notation."""
    origin, destination, promotion = move
    man, end = position.men[origin].upper(), after(position, move)
    taken = "x" if is_capture(position, move) else ""
    if man == "P":
        text = (name_of(origin)[0] if taken else "") + taken + name_of(destination)
        text += f"={promotion.upper()}" if promotion else ""
    else:
        text = man + origin_of(position, move) + taken + name_of(destination)
    sign = "" if not in_check(end.men, end.turn) else "+" if legal_moves(end) else "#"
    return text + sign


def origin_of(position, move):
    """As much of the origin as is needed."""
    man, name = position.men[move[0]], name_of(move[0])
    rivals = [
        name_of(m[0]) for m in legal_moves(position)
        if m[1] == move[1] and m[0] != move[0] and position.men[m[0]] == man
    ]
    if not rivals:
        return ""
    if all(rival[0] != name[0] for rival in rivals):
        return name[0]
    return name[1] if all(rival[1] != name[1] for rival in rivals) else name
