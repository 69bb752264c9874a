"""What the search is asked, and what it finds: the contract between the search and the folder of a proof."""

import enum
import os
from collections.abc import Callable
from dataclasses import dataclass
from typing import Optional


class Status(enum.Enum):
    """What the search believes. The verdict is asked of the programs over the files alone, afterwards."""

    PROVED = "proved"
    REFUTED = "refuted"
    OPEN = "open"


@dataclass(frozen=True)
class Programs:
    """The paths of the proved programs."""

    freezer: str
    atlas: str


@dataclass(frozen=True)
class Budget:
    """What the search may take. It is OPEN when any of these is used up."""

    numbers: int = 8_000_000  # of one set
    tables: int = 17  # at most 17: the last one, and sixteen behind it
    seconds: float = 300.0  # of processor time, the programs' and the search's own
    keep: bool = False  # whether texts and tables that the proof does without stay in the folder


@dataclass(frozen=True)
class Cell:
    """One rules text of the proof."""

    name: str  # "c01", "c02" .. in the order in which they are built
    text: str  # complete, with comment lines at its head that say what the cell is for
    over: tuple[str, ...]  # the names of the cells whose tables stand behind it, in the order of the BACKs
    about: str  # one sentence in words of chess: what the cell is for


@dataclass(frozen=True)
class Found:
    """What came of a search."""

    fen: str
    side: Optional[str]  # the side and the claim that were decided: those asked, or found where none was named
    claim: Optional[str]  # win, hold or draw; None where nothing was decided
    status: Status
    cells: tuple[Cell, ...]  # each over earlier ones only; the last has the position
    open_at: tuple[str, ...] = ()  # OPEN: the moves (UCI words) to the first position that no cell could value
    open_fen: str = ""  # OPEN: that position
    threats: tuple[tuple[str, ...], ...] = ()  # of a hold: ways of the opponent's (UCI moves) that were met
    built: int = 0  # numbers that the search built on its way, all tables together
    checked: int = 0  # numbers of tables behind that were checked for it
    roots: tuple[str, ...] = ()  # the cells that have the position: one; of a draw two, White's hold and Black's, so
    # that the claim is shown by the tables of both, each over its own cells


def search(
    fen: str,
    side: Optional[str],
    claim: Optional[str],
    programs: Programs,
    folder: str,
    budget: Budget,
    tell: Callable[[str], None],
    resume: bool = False,
) -> Found:
    """Finds texts whose tables decide the claim: `win`, `hold` or `draw` (both sides hold) of the side, white or
    black; with no claim, what can be proved of the position. Texts (`c01.txt` ..), tables (`c01.t` ..) and the
    state after each round (`row.json`) lie in the folder. With `resume` it goes on from what lies there."""
    from proving.loop import run  # the search needs these classes itself

    return run(fen, side, claim, programs, os.fspath(folder), budget, tell, resume)
