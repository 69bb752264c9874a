"""The claims of one side that are searched, each with a folder and a search of its own, and what they show together."""

from __future__ import annotations

import os
from dataclasses import dataclass, field
from functools import partial
from typing import Optional

from lib.chess import other
from proving.board import read_fen
from proving.holds import HoldSearch
from proving.mend import first_cell
from proving.proof import Budget, Programs, Status
from proving.row import Row, Spot
from proving.searching import Search, both_hold, verdict
from proving.seeds import Seeds, hunts
from proving.state import load, save
from proving.tables import Workshop
from proving.turns import Turn, Turns
from proving.wins import WinSearch

SEARCHES = {"hold": HoldSearch, "win": WinSearch}
MENDING = {"hold": 1.0, "win": 0.5}  # the part of the time for the search that mends events; those of hunts stand with them
FIRST_NUMBERS = {"hold": 1_000_000, "win": 600_000}
LETTER = {"white": "w", "black": "b"}
SIDE = {letter: side for side, letter in LETTER.items()}


@dataclass
class Question:
    """A claim of one side, with a folder and a search of its own that can be cut off and gone on with."""

    fen: str
    own: str
    claim: str
    folder: str
    search: Search
    turns: Turns = field(default_factory=Turns)
    end: float = 0.0  # processor seconds at which the work that is going on ends
    status: Status = Status.OPEN
    is_draw: bool = False  # its tables show that both sides hold

    @property
    def is_over(self) -> bool:
        """Is nothing more to be found?"""
        return not self.turns.left or self.status is not Status.OPEN

    def work(self, until: float) -> Status:
        """Searches until the processor seconds are used up."""
        self.end = until
        self.turns.work(until, lambda: self.is_over)
        return self.status

    def settle(self, until: float) -> bool:
        """Goes on with the search that mends events, until there is nothing more to mend."""
        position, row = read_fen(self.fen), self.search.row
        row.shop.until, self.search.depth = until, 0
        self.search.paths.setdefault(position, ())
        self.search.settle(row.cells[-1].name, position)
        self.look()
        return True

    def try_out(self, seeds: Seeds, until: float) -> bool:
        """Goes on with a hunt, until its cells show the claim or there is nothing more to hunt."""
        is_over = seeds.try_out(until, self.end)
        if seeds.are_good:
            self.look()
        return is_over

    def look(self) -> None:
        """What the last table shows of the position."""
        row, last = self.search.row, len(self.search.row.cells) - 1
        spot = Spot(last, row.cells[last].number(read_fen(self.fen)))
        self.status, self.is_draw = verdict(row, spot), both_hold(row, spot)


def ask(fen: str, own: str, claim: str, programs: Programs, folder: str, budget: Budget, tell, resume: bool) -> Question:
    os.makedirs(folder, exist_ok=True)
    row = Row(own, claim, Workshop(programs, folder))
    kept = load(folder, fen, own, claim) if resume else None
    if kept is not None:
        row.cells, row.named = kept
    else:
        row.insert(0, first_cell(read_fen(fen), own, min(FIRST_NUMBERS[claim], budget.numbers), row.new_name()))
    search = SEARCHES[claim](row, budget.numbers, budget.tables, tell)
    search.after_round = lambda: save(row, fen, folder)
    question = Question(fen, own, claim, folder, search)
    question.turns.left = [Turn(question.settle, MENDING[claim])]
    if kept is None:
        seeds = [(Seeds(hunt, read_fen(fen), row, budget, tell), weight) for hunt, weight in hunts(read_fen(fen), own, claim)]
        question.turns.left += [Turn(partial(question.try_out, each), weight) for each, weight in seeds]
    if claim == "win":  # a hold is often shown by the first table
        question.turns.left.sort(key=lambda turn: turn.work == question.settle)
    return question


def proves(question: Question) -> Optional[tuple[str, str]]:
    """The side and what it is shown to have: a hold that is refuted is the opponent's win."""
    if question.status is Status.OPEN:
        return None
    if question.status is Status.PROVED:
        return question.own, question.claim
    return other(question.own), "win" if question.claim == "hold" else "hold"


def is_answered(questions: list[Question]) -> bool:
    """Is a win shown, or are both holds, or all that was asked?"""
    shown = {proves(question) for question in questions} - {None}
    has_both = {("w", "hold"), ("b", "hold")} <= shown or any(question.is_draw for question in questions)
    return has_both or any(kind == "win" for _, kind in shown) or all(question.status is not Status.OPEN for question in questions)


def is_idle(question: Question, questions: list[Question]) -> bool:
    """Is the answer known by what another question has shown?"""
    shown = {proves(q) for q in questions} - {None}
    if question.claim == "win":
        return (other(question.own), "hold") in shown
    return (question.own, "hold") in shown


def status_of(side: Optional[str], claim: Optional[str], shown_side: Optional[str], shown: str) -> Status:
    """What was shown says of the claim."""
    if claim is None or claim == shown == "draw" or (claim == shown and side in (None, shown_side)):
        return Status.PROVED
    if shown == "win" and (claim == "draw" or side != shown_side):
        return Status.REFUTED
    if shown == "win" and claim == "hold":
        return Status.PROVED
    if claim == "win" and (shown == "draw" or side != shown_side):
        return Status.REFUTED
    return Status.PROVED if claim == "hold" and shown == "draw" else Status.OPEN
