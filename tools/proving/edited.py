"""Texts of a folder that were edited by hand: they are built as they stand, and asked before the search goes on."""

import os
import re
import shutil

from board.head import NoTable, read_head
from proving.asking import Asking, NothingShown, Refused, table_of, text_of
from proving.options import WrongWords
from proving.proof import Cell, Found, Status
from proving.verdict import Outcome, ask, judge

NAME = re.compile(r"(c\d+)\.txt")


def contents(path):
    with open(path, "rb") as file:
        return file.read()


def edited(folder):
    """The names of the texts that are not those of their tables."""
    for file in sorted(os.listdir(folder)):
        name = NAME.fullmatch(file)
        table = name and os.path.join(folder, table_of(name[1]))
        if table and os.path.exists(table) and is_other(os.path.join(folder, file), table):
            yield name[1]


def is_other(text, table):
    try:
        return contents(text) != read_head(table).raw
    except NoTable:
        return False


def shown_as_they_stand(case, cells, tell):
    """What the texts of a row show that was edited by hand; None where none was, or where they do not decide what is
    asked. The search takes over the men of an edited text and writes the text anew, so a copy of it is kept."""
    changed = set(edited(case.folder))
    for name in sorted(changed):
        shutil.copy(os.path.join(case.folder, text_of(name)), os.path.join(case.folder, f"{name}.edited"))
    if not changed or not cells:
        return None
    row = tuple(read_cell(case.folder, cell) for cell in cells)
    tell(f"building {', '.join(sorted(changed))} as edited")
    build(case, row, changed)
    try:
        shown = ask(row, case.fen, case.programs, case.folder)[2]
    except NothingShown as nothing:
        tell(f"not shown by the texts as they stand: {nothing}")
        return None
    decided = shown.winner or shown.is_draw if case.claim is None else (
        judge(case.claim, case.side, shown) is not Outcome.NOT_SHOWN
    )
    if not decided:
        tell("not shown by the texts as they stand; the search goes on from their men")
        return None
    return Found(case.fen, case.side, case.claim, Status.PROVED, row)


def read_cell(folder, kept):
    text = contents(os.path.join(folder, text_of(kept["name"]))).decode("utf-8", "replace")
    return Cell(kept["name"], text, tuple(kept["over"]), kept["about"])


def build(case, row, changed):
    """Builds the tables of the texts that were edited, and those over them."""
    asking = Asking(case.programs, case.folder)
    for cell in row:
        if cell.name not in changed and not changed & set(cell.over):
            continue
        made = f"{table_of(cell.name)}.new"
        words = ("build", text_of(cell.name), made, *map(table_of, cell.over))
        try:
            asking.call("atlas" if cell.over else "freezer", *words)
        except Refused as refused:
            raise WrongWords(f"{text_of(cell.name)} is refused ({refused.text}): mend it and call again") from refused
        os.replace(os.path.join(case.folder, made), os.path.join(case.folder, table_of(cell.name)))
        changed.add(cell.name)
