"""What a folder says of the call that made it."""

import json
import os

from proving.asking import table_of
from proving.folder import STATE
from proving.options import WrongWords


def read_state(place):
    """The position, the side, the claim and the row of tables of a folder."""
    try:
        with open(os.path.join(place, STATE), encoding="utf-8") as file:
            state = json.load(file)
        return {"fen": str(state["fen"]), "for": state["for"], "claim": state["claim"], "cells": state["cells"]}
    except FileNotFoundError as fault:
        raise WrongWords(f"{place} is no folder of ./prove: it has no {STATE}") from fault
    except (OSError, ValueError, KeyError, TypeError) as fault:
        raise WrongWords(f"{os.path.join(place, STATE)} cannot be read: {fault}") from fault


def last_tables(place):
    """The paths of the last table of a folder and of those behind it, and the position of the folder."""
    state = read_state(place)
    if not state["cells"]:
        raise WrongWords(f"{place} has no finished row of tables yet; go on by ./prove --resume {place}")
    last = state["cells"][-1]
    return [os.path.join(place, table_of(name)) for name in (last["name"], *last["over"])], state["fen"]
