"""The whole search: one claim, both holds of a draw, or whatever can be proved of a position."""

from __future__ import annotations

import os
from collections.abc import Callable
from dataclasses import replace
from typing import Optional

from lib.chess import other
from proving.finish import answer, clean
from proving.proof import Budget, Found, Programs, Status
from proving.questions import LETTER, SIDE, Question, ask, is_answered, is_idle, proves
from proving.tables import used

SLICES = (0.04, 0.1)  # of the seconds, for each of several claims before the rest is shared out
LIKELY = 0.5  # of the seconds, for the win of the side that seems nearer to one


def run(
    fen: str, side: Optional[str], claim: Optional[str], programs: Programs, folder: str, budget: Budget,
    tell: Callable[[str], None], resume: bool = False,
) -> Found:
    wanted = [(own, kind) for kind in kinds_of(claim) for own in sides_of(fen, side, claim)]
    alone = len(wanted) == 1
    places = [folder if alone else os.path.join(folder, f"{SIDE[own]}-{kind}") for own, kind in wanted]
    questions = [ask(fen, own, kind, programs, place, budget, tell, resume) for (own, kind), place in zip(wanted, places)]
    end = used() + budget.seconds
    for share in () if alone else SLICES[:1]:
        work_on(questions, end, share * budget.seconds, tell)
    if claim is None:
        work_on(likely(questions), end, LIKELY * budget.seconds, tell)
    for share in () if alone else SLICES[1:]:
        work_on(questions, end, share * budget.seconds, tell)
    work_on(questions, end, None, tell)
    found = answer(fen, side, claim, questions, folder, tell)
    if found.status is not Status.OPEN and not budget.keep:
        clean(folder, found.cells)
    spent = [question.search.row.shop.spent for question in questions]
    return replace(found, built=sum(s.built for s in spent), checked=sum(s.checked for s in spent))


def work_on(questions: list[Question], end: float, seconds: Optional[float], tell) -> None:
    """Gives each open question so many seconds, or what is left in equal parts. Where no hold is shown yet, somebody may
    well win, so wins come first when they had a try."""
    is_open = lambda question: not question.is_over and used() < end and not is_answered(questions) and not is_idle(question, questions)
    left = [question for question in questions if is_open(question)]
    if seconds is None and not any(proves(question) for question in questions):
        left.sort(key=lambda question: question.claim != "win")
    for place, question in enumerate(left):
        if is_open(question):
            part = (end - used()) / (len(left) - place) if seconds is None else seconds
            tell(f"{SIDE[question.own]} {question.claim}: {part:.1f} s")
            question.work(min(end, used() + part))


def likely(questions: list[Question]) -> list[Question]:
    """The win that guesses come to by cheaper ways out than the opponent's, where no hold is shown yet."""
    if any(proves(question) for question in questions):
        return []
    first, second = sorted((q for q in questions if q.claim == "win"), key=lambda q: q.search.promise)
    return [first] if first.search.promise < second.search.promise else []


def kinds_of(claim: Optional[str]) -> tuple[str, ...]:
    return {"win": ("win",), "hold": ("hold",), "draw": ("hold",), None: ("hold", "win")}[claim]


def sides_of(fen: str, side: Optional[str], claim: Optional[str]) -> tuple[str, ...]:
    """The sides that are asked about; both for a draw, and where none is named."""
    if side is not None and claim != "draw":
        return (LETTER[side],)
    turn = fen.split()[1]
    return turn, other(turn)
