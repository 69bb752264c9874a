"""What a search leaves: the answer, cells in the order in which they are built, and their files under these names."""

from __future__ import annotations

import os
import re
import shutil
from dataclasses import replace
from typing import Optional

from lib.chess import other
from proving.board import Position, legal_moves, move_text, read_fen, write_fen
from proving.proof import Cell, Found, Status
from proving.questions import SIDE, Question, proves, status_of
from proving.row import LOST, Row
from proving.searching import both_hold
from proving.small import is_proved, make_small
from proving.state import save
from proving.tables import is_safe, write_text

MOST_MOVES, MOST_THREATS = 400, 20


def answer(fen: str, side: Optional[str], claim: Optional[str], questions: list[Question], folder: str, tell) -> Found:
    shown = {proves(question): question for question in questions if proves(question)}
    draws = [question for question in questions if question.is_draw]
    win = next((key for key in shown if key[1] == "win"), None)
    holds = [key for key in shown if key[1] == "hold"]
    if win is not None:
        chosen = [shown[win]]
        found = (SIDE[win[0]], "win")
    elif draws and claim in (None, "draw"):
        chosen, found = draws[:1], (None, "draw")
    elif len(holds) == 2:
        chosen, found = [shown[key] for key in sorted(holds, reverse=True)], (None, "draw")
    elif holds:
        chosen, found = [shown[holds[0]]], (SIDE[holds[0][0]], "hold")
    else:
        return opened(fen, side, claim, questions[0], folder)
    status = status_of(side, claim, *found)
    if status is Status.OPEN:
        left = next(q for q in questions if q.status is Status.OPEN)
        return opened(fen, side, claim, left, folder)
    if claim is not None:
        found = side or (found[0] if status is Status.PROVED else None), claim
    return gathered(fen, *found, status, chosen, questions, folder, tell)


def gathered(fen, side, claim, status: Status, chosen: list[Question], questions: list[Question], folder: str, tell) -> Found:
    """Makes the proof small, gives its files their names, and removes those of the search."""
    cells, roots, threats = (), (), ()
    for question in chosen:
        row = trimmed(question.search.row)
        if question.status is Status.PROVED:
            row.shop.until = float("inf")
            row = make_small(row, read_fen(fen), tell, both_hold if len(chosen) == 1 and claim == "draw" else is_proved)
        made = settle_files(row, folder, len(cells) + 1)
        save(row, fen, folder)
        cells, roots = cells + made, roots + (made[-1].name,)
        threats += tuple(question.search.threats[:MOST_THREATS]) if question.claim == "hold" else ()
    return Found(fen, side, claim, status, cells, threats=threats, roots=roots)


def clean(folder: str, cells) -> None:
    """Removes what the search left beside the texts and tables of the proof."""
    kept = {f"{cell.name}{end}" for cell in cells for end in (".t", ".txt")}
    for name in os.listdir(folder):
        path = os.path.join(folder, name)
        if os.path.isdir(path) and name.startswith(("white-", "black-", "smaller")):
            shutil.rmtree(path)
        elif re.match(r"c\d\d", name) and name.endswith((".t", ".txt", ".part", ".new")) and name not in kept:
            os.remove(path)


def opened(fen: str, side: Optional[str], claim: Optional[str], question: Question, folder: str) -> Found:
    """The answer where nothing was decided: the way to the first position that no cell could value. The files stay
    as they are, for a later start."""
    row = question.search.row
    for cell in row.cells:
        write_text(os.path.join(question.folder, f"{cell.name}.txt"), row.plain_text(cell))
    save(row, fen, question.folder)
    if not is_built(row, row.cells[-1]):
        return Found(fen, side, claim, Status.OPEN, (), (), fen)
    is_here = question.folder == folder
    cells = tuple(told(row, index) for index in range(len(row.cells))) if is_here else ()
    known = replace(row, cells=[cell for cell in row.cells if is_built(row, cell)])
    moves, end = open_way(known, read_fen(fen))
    return Found(fen, side, claim, Status.OPEN, cells, moves, end)


def told(row: Row, index: int) -> Cell:
    cell = row.cells[index]
    return Cell(cell.name, row.plain_text(cell), tuple(row.cells[j].name for j in row.behind(index)), cell.about)


def is_built(row: Row, cell) -> bool:
    """Is there a table of the cell as it is now?"""
    return cell.name in row.built and row.built[cell.name].table.size == cell.size


def trimmed(row: Row) -> Row:
    """The row without the cells on which the last does not lean."""
    last = len(row.cells) - 1
    row.cells = [row.cells[j] for j in row.behind(last)] + [row.cells[last]]
    return row


def settle_files(row: Row, folder: str, first: int = 1) -> tuple[Cell, ...]:
    """Gives cells and files their names in order, c01 .., and tells the cells. Files of the search are removed."""
    names = [f"c{number:02d}" for number in range(first, first + len(row.cells))]
    paths = [row.built[cell.name].table.path for cell in row.cells]
    moved = [os.path.join(folder, f"{name}.t.part") for name in names]
    for path, part in zip(paths, moved):
        os.replace(path, part)
    found = []
    for index, (name, cell) in enumerate(zip(names, row.cells)):
        os.replace(moved[index], os.path.join(folder, f"{name}.t"))
        text = row.plain_text(cell)
        write_text(os.path.join(folder, f"{name}.txt"), text)
        found.append(Cell(name, text, tuple(names[j] for j in row.behind(index)), cell.about))
    row.built = {name: row.built[cell.name] for name, cell in zip(names, row.cells)}
    for name, cell in zip(names, row.cells):
        cell.name = name
    return tuple(found)


def open_way(row: Row, position: Position) -> tuple[tuple[str, ...], str]:
    """The way to the first position that no cell could value: the moves, and its FEN. The side whose code fails
    there lasts longest, the other goes the shortest way."""
    failing = row.own if row.claim == "hold" else other(row.own)
    index, moves = len(row.cells) - 1, []
    while len(moves) < MOST_MOVES:
        ranked = []
        for move, after in legal_moves(position):
            spot = row.find(index, after)
            code = LOST if spot is None else row.seen(spot, failing, index)
            if not is_safe(code):
                ranked.append((code, spot is not None, move, after, spot))
        if not ranked:
            break
        ranked.sort(key=lambda kid: kid[:2])
        code, _, move, position, spot = ranked[-1 if position.turn == failing else 0]
        moves.append(move_text(move))
        if spot is None:
            return tuple(moves), write_fen(position)
        index = spot.index
        if index < 0:
            break
    return tuple(moves), write_fen(position)
