"""What events and cells are for, in words of chess."""

from __future__ import annotations

import textwrap

from lib.chess import name_of
from proving.board import NOWHERE
from proving.events import Event, Kind

MEN = {"K": "king", "Q": "queen", "R": "rook", "B": "bishop", "N": "knight", "P": "pawn"}
SIDES = {"w": "White", "b": "Black"}
MOST_MENTIONED = 6


def event_words(event: Event) -> str:
    """The event as a clause: White's king takes the pawn on e5."""
    mover, to = f"{SIDES[event.position.turn]}'s {MEN[event.man]}", name_of(event.move.to)
    taken = ""
    if event.move.victim != NOWHERE:
        taken = f"the {MEN[event.position.board[event.move.victim].upper()]} on {name_of(event.move.victim)}"
    if event.kind is Kind.PROMOTION:
        clause = f"{mover} becomes a {MEN[event.move.promotion.upper()]} on {to}"
        return f"{clause} and takes {taken}" if taken else clause
    return f"{mover} takes {taken}" if taken else f"{mover} goes to {to}"


def begun(event: Event) -> str:
    """What a new cell is for."""
    return f"What is left when {event_words(event)}."


def further(about: str, event: Event) -> str:
    """What a cell is for that has grown so that it holds what is left after the event too."""
    clause = f"Also when {event_words(event)}."
    if clause in about or about.count("Also when") >= MOST_MENTIONED:
        return about
    return f"{about} {clause}"


def head(lines: list[str]) -> list[str]:
    """The sentences as comment lines of a rules text."""
    return [f"# {line}" for sentence in lines for line in textwrap.wrap(sentence, 96)]
