"""The folder of a proof: the files beside the texts and tables by which anyone can read it and check it again."""

import json
import os
import re
from dataclasses import dataclass

from board.head import read_head
from proving.asking import Told, table_of, text_of
from proving.diagram import picture
from proving.makefile import makefile
from proving.notation import pgn
from proving.origin import Origin, sha256_of
from proving.page import PICTURE, page
from proving.tree import Node
from proving.verdict import Outcome, Shown, statement

STATE = "proof.json"
GIVEN = "proof.html"
WRITTEN = ("PROOF.md", "PROOF.pgn", PICTURE, GIVEN, "Makefile", "SHA256SUMS", "ANSWERS", "VERDICT")
OF_A_CELL = re.compile(r"c\d\d+\w*(?:\.\w+)?\.(?:t|txt)(?:\.\w+)?")


@dataclass(frozen=True)
class Proof:
    """All that a page tells."""

    case: object  # what was asked: its FEN, side and claim
    row: tuple
    told: list[Told]
    shown: Shown
    outcome: Outcome
    line: str  # the verdict
    root: Node
    sizes: dict
    sums: dict
    origins: list[Origin]

    @property
    def fen(self):
        return self.case.fen


def sizes_of(folder, row):
    return {cell.name: read_head(os.path.join(folder, table_of(cell.name))).size for cell in row}


def sums_of(folder, row):
    """The sha256 of each text and each table."""
    names = [name for cell in row for name in (text_of(cell.name), table_of(cell.name))]
    return {name: sha256_of(os.path.join(folder, name)) for name in names}


def write(folder, proof: Proof):
    """Writes the page and all that stands round it. The tables get the time of now, as they are those of the texts."""
    for cell in proof.row:
        os.utime(os.path.join(folder, table_of(cell.name)))
    put(folder, "ANSWERS", "".join(told.text for told in proof.told))
    put(folder, "VERDICT", f"{proof.fen}: {proof.line}\n")
    put(folder, "SHA256SUMS", "".join(f"{proof.sums[name]}  {name}\n" for name in sorted(proof.sums)))
    put(folder, "Makefile", makefile(proof.row, proof.fen, proof.told))
    put(folder, PICTURE, picture(proof.fen))
    put(folder, "PROOF.pgn", pgn(proof.fen, proof.root, result_of(proof.shown), statement(proof.shown)))
    put(folder, "PROOF.md", page(proof))


def result_of(shown):
    if shown.winner:
        return "1-0" if shown.winner == "white" else "0-1"
    return "1/2-1/2" if shown.is_draw else "*"


def put(folder, name, text):
    """Replaces a file at once."""
    path = os.path.join(folder, name)
    with open(path + ".new", "w", encoding="utf-8") as file:
        file.write(text)
    os.replace(path + ".new", path)


def take_back(folder):
    """Removes the page of an earlier call, and what stands round it: it is not what the tables show now."""
    for name in WRITTEN:
        path = os.path.join(folder, name)
        if os.path.exists(path):
            os.remove(path)


def write_state(case, row=()):
    """What was asked, and the row of tables."""
    cells = [{"name": cell.name, "over": list(cell.over), "about": cell.about} for cell in row]
    state = {"fen": case.fen, "for": case.side, "claim": case.claim, "cells": cells}
    put(case.folder, STATE, json.dumps(state, indent=1) + "\n")


def has_page(folder):
    return os.path.exists(os.path.join(folder, "PROOF.md"))


def drop_others(folder, row):
    """Removes texts and tables that no cell of the row has."""
    kept = {name for cell in row for name in (text_of(cell.name), table_of(cell.name))}
    for name in os.listdir(folder):
        if OF_A_CELL.fullmatch(name) and name not in kept:
            os.remove(os.path.join(folder, name))
