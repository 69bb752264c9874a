"""The row of cells as it lies in the folder, `row.json`, so that a search goes on from it, and from texts edited by hand."""

from __future__ import annotations

import json
import os
from typing import Any, Optional

from lib.rules import Refused, read_rules, side_of_colour
from proving.cells import Cell
from proving.groups import Slot
from proving.row import Row
from proving.tables import write_text

NAME = "row.json"


class EditedText(Exception):
    """A text of the folder is refused: its name, the line and the cause."""


def save(row: Row, fen: str, folder: str) -> None:
    """Writes the row; the texts lie beside it."""
    cells = [cell_state(row, cell) for cell in row.cells]
    state = {"fen": fen, "side": row.own, "claim": row.claim, "named": row.named, "cells": cells}
    write_text(os.path.join(folder, NAME), json.dumps(state) + "\n")


def cell_state(row: Row, cell: Cell) -> dict[str, Any]:
    slots = {i: slot_state(slot) for i, slot in cell.slots.items()}
    return {"name": cell.name, "about": cell.about, "frozen": sorted(cell.frozen), "slots": slots, "text": row.plain_text(cell)}


def slot_state(slot: Slot) -> dict[str, Any]:
    return {"side": slot.side, "sure": slot.is_sure, "states": sorted(slot.states), "roams": slot.roams, "home": slot.home, "reach": slot.reach}


def load(folder: str, fen: str, own: str, claim: str) -> Optional[tuple[list[Cell], int]]:
    """The cells that lie there for this question, and how many were named; None where there are none."""
    path = os.path.join(folder, NAME)
    if not os.path.exists(path):
        return None
    with open(path, encoding="utf-8") as file:
        state = json.load(file)
    if (state["fen"], state["side"], state["claim"]) != (fen, own, claim):
        return None
    return [read_cell(kept, folder) for kept in state["cells"]], state["named"]


def read_cell(kept: dict[str, Any], folder: str) -> Cell:
    slots = {int(i): read_slot(slot) for i, slot in kept["slots"].items()}
    path = os.path.join(folder, f"{kept['name']}.txt")
    if os.path.exists(path):
        with open(path, encoding="utf-8") as file:
            text = file.read()
        if text != kept["text"]:
            slots = edited_slots(text, slots, f"{kept['name']}.txt")
    return Cell(kept["name"], slots, kept["about"], set(kept["frozen"]) & set(slots))


def read_slot(kept: dict[str, Any]) -> Slot:
    states = {(kind, square) for kind, square in kept["states"]}
    return Slot(kept["side"], kept["sure"], states, kept["roams"], kept["home"], kept["reach"])


def edited_slots(text: str, slots: dict[int, Slot], name: str) -> dict[int, Slot]:
    """The slots of a text that was edited: each man of a group keeps the id of a slot that shares states with it."""
    try:
        rules = read_rules(text)
    except Refused as refused:
        raise EditedText("{} line {}: {}; mend this text, or remove the folder".format(name, *refused.args)) from refused
    found, left = {}, dict(slots)
    for group in rules.groups:
        side, states = side_of_colour(group.colour), set(group.states)
        for man in range(group.most):
            i = next((i for i, slot in left.items() if slot.side == side and slot.states & states), None)
            if i is None:
                i = next(n for n in range(96, 192) if n not in found and n not in left)
            left.pop(i, None)
            found[i] = Slot(side, man < group.least, set(states), roams=False)
    return found
