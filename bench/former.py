#!/usr/bin/env python3
"""Writes a table of the former format for a rules text: bench/former.py RULES FILE.

Every code is 0, so only the time of `migrate` is of interest. The sizes are counted from the text
alone, by the definition in docs/users/formats.md.
"""
import struct
import sys

FILES, RANKS = "abcdefgh", "12345678"
SQUARES = [f + r for r in RANKS for f in FILES]


def squares_of(text):
    found = set()
    for item in text.split(","):
        first, _, last = item.partition("-")
        last = last or first
        found |= {s for s in SQUARES
                  if item == "all" or first[0] <= s[0] <= last[0] and first[1] <= s[1] <= last[1]}
    return found


def groups_of(text):
    for line in text.splitlines():
        words = line.split()
        if words[:1] == ["group"]:
            least, _, most = words[2].partition("-")
            states = {(place[0], s) for place in words[3:] for s in squares_of(place[2:])}
            yield words[1], int(least), int(most or least), states


def has_target(groups, square):
    """Whether a pawn of a group may have passed over the square with an enemy pawn beside it."""
    side, other, rank = {"3": ("white", "black", "4"), "6": ("black", "white", "5")}.get(
        square[1], (None, None, None))
    pawns = {colour: {s for c, _, _, states in groups if c == colour for kind, s in states if kind == "P"}
             for colour in ("white", "black")}
    return side is not None and square[0] + rank in pawns[side] and any(
        s[1] == rank and abs(ord(s[0]) - ord(square[0])) == 1 for s in pawns[other])


def former_size(groups):
    size = 2 + sum(has_target(groups, s) for s in SQUARES)
    for _, least, most, states in groups:
        size *= len(states) ** least * (len(states) + 1) ** (most - least)
    return size


def main():
    text = open(sys.argv[1], "rb").read()
    size = former_size(list(groups_of(text.decode())))
    with open(sys.argv[2], "wb") as file:
        file.write(b"FREEZER1" + struct.pack("<I", len(text)) + text + struct.pack("<I", size))
        file.write(bytes(8 * size))


main()
