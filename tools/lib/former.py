"""Tables of the former format, read from docs/users/formats.md: their numbers and their bytes."""

import struct

MAGIC = b"FREEZER1"
LARGEST = 1 << 24


def former_size(of):
    """How many former numbers this set has."""
    size = len(of.turns)
    for group in of.groups:
        states = len(group.states)
        size *= states ** group.least * (states + 1) ** (group.most - group.least)
    return size


def former_number(of, position):
    """The former number of a position of this set."""
    number = of.turns.index((position.turn, position.target))
    for group, places in zip(of.groups, of.taken(position)):
        absent = len(group.states)
        digits = places + [absent] * (group.most - len(places))
        for index, digit in enumerate(digits):
            number = number * (absent + (index >= group.least)) + digit
    return number


def former_head(text, size):
    """The bytes of a file before its codes."""
    rules = text.encode("latin-1")
    return MAGIC + struct.pack("<I", len(rules)) + rules + struct.pack("<I", size)


def former_file(text, white, black):
    """The bytes of the file with this text and these codes by former numbers."""
    entries = [*white, *black]
    return former_head(text, len(white)) + struct.pack(f"<{len(entries)}I", *entries)
