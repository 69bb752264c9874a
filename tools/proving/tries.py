"""What the opponent of a side that holds may try: captures, promotions and checks to which the tables have an answer."""

from collections import deque

from board.asking import turn_of
from board.bounds import HOLD

MOST_TRIES = 12
MOST_PLIES = 10  # of a way to a try
MOST_POSITIONS = 30  # that are looked at


def tries(game, fen, side):
    """The shortest ways to captures, promotions and checks by the opponent, one way to each such move. The side
    plays its best move by the tables, and the opponent each of his."""
    todo, seen, found = deque([(fen, ())]), set(), {}
    while todo and len(seen) < MOST_POSITIONS and len(found) < MOST_TRIES:
        at, way = todo.popleft()
        if at in seen:
            continue
        seen.add(at)
        mine = turn_of(at) == side
        kept = [option for option in game.options(at) if option.keeps(side, HOLD)]
        for option in kept[:1] if mine else kept:
            if not mine and set(option.san) & set("x=+"):
                found.setdefault(option.san.rstrip("+#"), (*way, option.move))
            elif len(way) < MOST_PLIES:
                todo.append((game.after(at, option.move), (*way, option.move)))
    return list(found.values())[:MOST_TRIES]
