"""From what was found to the verdict and the folder's pages."""

from dataclasses import dataclass

from board.answers import Answers
from board.asking import Refused
from board.given import given_page
from board.head import NoTable
from proving import folder as pages
from proving.asking import NothingShown
from proving.folder import Proof
from proving.game import Game
from proving.notation import numbered
from proving.origin import origin_of
from proving.proof import Found, Programs
from proving.tree import tree_of_hold, tree_of_win
from proving.verdict import Outcome, Shown, ask, judge, verdict

MANY = 6  # moves to an open position that are told whole
POSITIONS = 60  # of the page that is given away, at most


@dataclass(frozen=True)
class Case:
    """What is asked of which position, by which programs, in which folder."""

    fen: str
    side: str
    claim: str
    programs: Programs
    folder: str
    keep: bool = False


def conclude(case: Case, found: Found):
    """Words the verdict from the files, and writes the pages where anything is shown."""
    needed, told, shown, gap = found.cells, [], Shown(), ""
    try:
        needed, told, shown = ask(found.cells, case.fen, case.programs, case.folder)
    except (NothingShown, NoTable) as nothing:
        gap = str(nothing)
    outcome = judge(case.claim, case.side, shown)
    pages.write_state(case, needed)
    pages.take_back(case.folder)
    if not shown.safe:
        return outcome, verdict(outcome, shown, gap=gap_of(case, found) or gap)
    return outcome, write_pages(case, found, needed, told, shown, outcome)


def write_pages(case, found, row, told, shown, outcome):
    """Writes the pages; the verdict."""
    game = Game(case.programs, case.folder, [(each.name, *each.over) for each in told])
    try:
        root = tree_of_win(game, case.fen, shown.winner) if shown.winner else tree_of_hold(
            game, case.fen, shown.safe, found.threats
        )
        given = page_to_give(game, case.fen)
    finally:
        game.stop()
    line = verdict(outcome, shown, gap_of(case, found))
    if not case.keep and outcome is not Outcome.NOT_SHOWN:
        pages.drop_others(case.folder, row)
    origins = [origin_of(name, getattr(case.programs, name)) for name in ("freezer", "atlas")]
    sizes, sums = pages.sizes_of(case.folder, row), pages.sums_of(case.folder, row)
    proof = Proof(case, row, told, shown, outcome, line, root, sizes, sums, origins)
    pages.write(case.folder, proof)
    if given:
        pages.put(case.folder, pages.GIVEN, given)
    return line


def page_to_give(game, fen):
    """The position with its moves and best lines on one page, by one table and perhaps by a second one beside it;
    nothing where a program refuses to answer."""
    first, *others = [view.tables for view in game.views]
    try:
        return given_page(Answers(game.calls, first, *others[:1]), fen, POSITIONS, lambda count: None)
    except Refused:
        return None


def gap_of(case, found):
    """Which position is open, as the search tells; of the moves to it only those that can be played."""
    if not found.open_fen:
        return ""
    game = Game(case.programs)
    try:
        sans, last = game.played(case.fen, found.open_at)
    finally:
        game.stop()
    if not sans:
        return f"the position {found.open_fen} is open" if found.open_fen != case.fen else ""
    dots = "" if len(sans) <= MANY else f" .. {sans[-1]}"
    return f"after {numbered(case.fen, sans[:MANY])}{dots} the position {last} is open"
