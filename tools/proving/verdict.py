"""What the files of a folder show of a position, in chess words: worded from the answers of `atlas verdict` alone,
never from what the search believes."""

import enum
from collections.abc import Iterable
from dataclasses import dataclass
from typing import Optional

from proving.asking import SIDES, WINS, Asking, NothingShown, Told, read_query, read_verdict


class Outcome(enum.Enum):
    """What became of a claim; the value is the status of the call."""

    PROVED = 0
    REFUTED = 1
    NOT_SHOWN = 3


@dataclass(frozen=True)
class Shown:
    """What is true of a position in chess: who forces mate, within how many plies where that is known, and which sides
    are not mated by force."""

    winner: Optional[str] = None
    plies: Optional[int] = None
    safe: frozenset = frozenset()

    @property
    def is_draw(self):
        return len(self.safe) == len(SIDES)


def opponent(side):
    return SIDES[1 - SIDES.index(side)]


def shown_by(told: Told, fen) -> Shown:
    """What the verdict by one table shows."""
    said, believed = read_verdict(told.text, fen)
    if believed:
        raise NothingShown(f"{told.name} rests on what is believed: {'; '.join(believed)}")
    if won := WINS.fullmatch(said):
        return Shown(won[1], int(won[2]) if won[2] else None, frozenset({won[1]}))
    return Shown(safe=safe_by(said))


def safe_by(said):
    """The sides that do not lose by these words, where nobody wins."""
    if said == "draw":
        return frozenset(SIDES)
    if said == "not shown":
        return frozenset()
    side, _, rest = said.partition(" ")
    if side not in SIDES or rest != "does not lose":
        raise NothingShown(f"verdict says what this page does not know: {said}")
    return frozenset({side})


def join(found: Iterable[Shown]) -> Shown:
    """All that is shown by several; a contradiction shows nothing, and is told."""
    winner, plies, safe = None, None, frozenset()
    for shown in found:
        if winner and shown.winner not in (None, winner):
            raise NothingShown("the answers contradict each other: both sides win")
        winner, safe = winner or shown.winner, safe | shown.safe
        plies = min((count for count in (plies, shown.plies) if count is not None), default=None)
    if winner and opponent(winner) in safe:
        raise NothingShown("the answers contradict each other: a side wins, and the other does not lose")
    return Shown(winner, plies, safe)


def asked_of(row, fen, asking):
    """The cells whose tables have the position and that no other one stands over."""
    behind = {name for cell in row for name in cell.over}
    asked = [cell for cell in row if cell.name not in behind and asking.has(cell, fen)]
    if not asked:
        raise NothingShown("no table has the position")
    return asked


def ask(row, fen, programs, folder) -> tuple[tuple, list[Told], Shown]:
    """The cells that are needed, the verdicts by the tables that have the position, each checked with all behind it,
    and what they show together. A table that bounds neither side there is not checked: it shows nothing."""
    asking = Asking(programs, folder)
    asked = asked_of(row, fen, asking)
    bounding = [cell for cell in asked if has_bound(asking.query(cell.name, cell.over, fen))]
    told = [asking.told(cell.name, cell.over, fen) for cell in bounding]
    return needed_by(bounding or asked, row), told, join(shown_by(each, fen) for each in told)


def has_bound(query):
    return any(bound.is_safe for bound in read_query(query).values())


def needed_by(cells, row):
    """The row without what none of these cells needs."""
    used = {name for cell in cells for name in (cell.name, *cell.over)}
    return tuple(cell for cell in row if cell.name in used)


def judge(claim, side, shown: Shown) -> Outcome:
    """What is shown of a claim; with none, whether anything is shown."""
    if claim is None:
        return Outcome.PROVED if shown.safe else Outcome.NOT_SHOWN
    if claim == "draw":
        proved, refuted = shown.is_draw, shown.winner is not None
    elif claim == "hold":
        proved, refuted = side in shown.safe, shown.winner == opponent(side)
    else:
        proved, refuted = shown.winner == side, opponent(side) in shown.safe
    return Outcome.PROVED if proved else Outcome.REFUTED if refuted else Outcome.NOT_SHOWN


def statement(shown: Shown) -> str:
    """What is shown, in chess words."""
    if shown.winner:
        return f"{shown.winner.capitalize()} wins{within(shown.plies)}"
    if shown.is_draw:
        return "Draw"
    if shown.safe:
        return f"{min(shown.safe).capitalize()} does not lose; whether he wins is open"
    return "Not shown"


def within(plies: Optional[int]) -> str:
    if plies is None:
        return ""
    return f" (mate within {counted(plies)})" if plies else " (it is mate)"


def counted(plies):
    return f"{plies} pl{'y' if plies == 1 else 'ies'}"


def verdict(outcome: Outcome, shown: Shown, gap="") -> str:
    """The one line. `gap` says which position is open, and counts only where the claim is not shown."""
    if outcome is Outcome.PROVED:
        said = statement(shown)
        return f"{said}: {gap}" if gap and said.endswith("open") else said
    if outcome is Outcome.REFUTED:
        return f"Refuted: {statement(shown)}"
    also = f"; shown: {statement(shown)}" if shown.safe else ""
    return f"Not shown{': ' + gap if gap else ''}{also}"
