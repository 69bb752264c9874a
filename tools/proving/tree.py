"""The moves that a proof shows: for a win the best line with a reply to each defence that lasts longest, for a
hold an answer to each threat."""

from dataclasses import dataclass, field
from typing import Optional

from board.asking import turn_of
from board.bounds import HOLD, WIN
from proving.tries import tries

MOST_LINES = 60  # of a hold that are shown
MOST_ASKED = 400  # positions that are looked at for side lines


@dataclass
class Node:
    """A move with the position after it, whether it is the only one, the bounds after it, a remark, and what
    follows, the main line first."""

    san: str
    fen: str
    is_only: bool = False
    bounds: Optional[dict] = None
    remark: str = ""
    children: list = field(default_factory=list)

    def child(self, san):
        return next((node for node in self.children if node.san == san), None)


def add(game, node, option, kind):
    """The node of this move behind another one, made where it is not there; `kind` is what the mover has to
    keep, None where he has nothing."""
    found = node.child(option.san)
    if found is None:
        only = kind is not None and game.is_only(node.fen, option, kind)
        found = Node(option.san, game.after(node.fen, option.move), only, option.bounds)
        node.children.append(found)
    return found


def tree_of_win(game, fen, winner) -> Node:
    """The best line, and a reply to each first defence and to each later one that lasts as long as that of the
    line."""
    root = at = Node("", fen)
    has_defended = False
    for step in game.line(fen, winner)[0]:
        option = game.option(at.fen, step["move"]) if len(game.seen) < MOST_ASKED else None
        if option is None:
            following = Node(step["san"], step["fen"])
            at.children.append(following)
        elif turn_of(at.fen) == winner:
            following = add(game, at, option, WIN)
        else:
            following = add(game, at, option, None)
            add_defences(game, at, option, winner, not has_defended)
            has_defended = True
        at = following
    return root


def add_defences(game, node, best, winner, every):
    """Side lines with the other defences that last as long as the best one, or with every other one."""
    for option in game.options(node.fen):
        if option is best or not option.keeps(winner, WIN):
            continue
        lasts = option.leaves == best.leaves and option.bounds[winner].plies == best.bounds[winner].plies
        if every or lasts:
            answer(game, add(game, node, option, None), winner, WIN)


def answer(game, node, side, kind):
    """Puts the best answer of the side behind a move of its opponent's."""
    options = game.options(node.fen)
    if options and not node.children and options[0].keeps(side, kind):
        add(game, node, options[0], kind)


def tree_of_hold(game, fen, safe, threats) -> Node:
    """An answer to each threat that was tried, and to captures, promotions and checks that are near; where there are
    none, to each first move of the opponent's."""
    root = Node("", fen)
    near = [way for side in sorted(safe) for way in tries(game, fen, side)]
    for threat in list(dict.fromkeys(map(tuple, (*threats, *near))))[:MOST_LINES]:
        follow(game, root, threat, safe)
    if not root.children:
        for side in sorted(safe):
            add_first_moves(game, root, side)
    remark(game, root, safe)
    return root


def follow(game, root, threat, safe):
    """Plays a threat. Where a side that holds has gone on by a move that does not, it takes a better one, and the
    threat is over; behind the last move it answers."""
    node = root
    for move in threat:
        option, mover = game.option(node.fen, move), turn_of(node.fen)
        if option is None:
            return
        if mover in safe and not option.keeps(mover, HOLD):
            break
        node = add(game, node, option, HOLD if mover in safe else None)
    if turn_of(node.fen) in safe:
        answer(game, node, turn_of(node.fen), HOLD)


def add_first_moves(game, root, side):
    """An answer to each move of the opponent's; where the side itself is to move, behind its best move."""
    node = root
    if turn_of(node.fen) == side:
        options = [option for option in game.options(node.fen) if option.keeps(side, HOLD)]
        nodes = [add(game, node, option, HOLD) for option in options]
        if not nodes:
            return
        node = nodes[0]
    for option in game.options(node.fen):
        answer(game, add(game, node, option, None), side, HOLD)


def remark(game, node, safe):
    """Says at the end of each line what the tables show there."""
    for child in node.children:
        remark(game, child, safe)
    if node.san and not node.children:
        node.remark = remark_at(game.bounds(node.fen) or node.bounds)


def remark_at(bounds):
    """What two bounds say, in words; nothing where there are none."""
    kinds = {side: bound.kind for side, bound in (bounds or {}).items()}
    winners = [side for side, kind in kinds.items() if kind == WIN]
    safe = [side for side, kind in kinds.items() if kind == HOLD]
    if winners:
        return f"{winners[0].capitalize()} wins"
    if len(safe) == 2:
        return "draw"
    return f"{safe[0].capitalize()} does not lose" if safe else ""


def paths(node, before=()):
    """Each line of the tree from its root to an end."""
    if not node.children:
        yield before
    for child in node.children:
        yield from paths(child, (*before, child))
