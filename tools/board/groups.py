"""The group lines of a rules text, read for what the page draws. Whether the text is right, the program
says; a word that this reading does not know is left out."""

import re

FILES = "abcdefgh"
ALL = [file + rank for rank in "12345678" for file in FILES]
GROUP = re.compile(r"\s*group\s+(white|black)\s+(\d+)(?:-(\d+))?\s+(.+)$")
PLACE = re.compile(r"([KQRBNP]):(\S+)$")
ITEM = re.compile(r"([a-h])([1-8])(?:-([a-h])([1-8]))?$")


def squares_of(text):
    """The squares of a word as `a1-c3,h8`."""
    if "all" in text.split(","):
        return ALL
    found = []
    for item in filter(None, map(ITEM.match, text.split(","))):
        file, rank, last_file, last_rank = item.groups()
        found += [
            square
            for square in ALL
            if file <= square[0] <= (last_file or file) and rank <= square[1] <= (last_rank or rank)
        ]
    return found


def states_of(colour, words):
    """The men on squares of a group's places, each once."""
    found = {}
    for place in filter(None, map(PLACE.match, words.split())):
        letter = place[1] if colour == "white" else place[1].lower()
        found.update(dict.fromkeys((letter, square) for square in squares_of(place[2])))
    return list(found)


def groups_of(text):
    """Of each group line the letters and squares of its men, and how many stand at least and at most."""
    for line in text.splitlines():
        match = GROUP.match(line)
        if match:
            colour, least, most, places = match.groups()
            yield states_of(colour, places), int(least), int(most or least)


def fast_men(text):
    """The men that stand in every position of the set, as those of a group that fills all its places: by
    their squares the letters."""
    return {
        square: letter
        for states, least, _ in groups_of(text)
        if least == len(states)
        for letter, square in states
    }
