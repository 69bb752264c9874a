"""The worked endings of examples/, by the file of their answers."""

import os

from lib.running import REPOSITORY

PREMISES = "premises"


def worked_positions():
    """Of each position of examples/bounds its ending, its FEN, and the bounds of White and of Black."""
    with open(os.path.join(REPOSITORY, "examples", "bounds"), encoding="ascii") as lines:
        for line in lines:
            parts = line.strip().split(" | ")
            if line.strip() and not line.startswith("#") and parts[1] != PREMISES:
                yield tuple(parts)
