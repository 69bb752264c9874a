"""One page of a position to give away: the board, the verdict in words of chess, the bounds, the moves and the best
lines to click. It is one file, and needs no server, no network and no program."""

import html
import json
import os
import re

from .gathered import Gathered
from .server import PAGE

PARTS = ("men.js", "board.js", "given.js")
HEAD = """<!doctype html>
<html lang="en">
<head>
<meta charset="utf-8">
<meta name="viewport" content="width=device-width, initial-scale=1">
<meta http-equiv="Content-Security-Policy" content="default-src 'none'; style-src 'unsafe-inline'; script-src 'unsafe-inline'">
<title>{title}</title>
<style>
{style}
</style>
</head>
"""


def given_page(answers, fen, most, tell):
    """The page of what is gathered from this position, of so many positions at most."""
    gathered = Gathered(answers, most, tell)
    gathered.gather(fen)
    return page(answers.tables.heads, fen, gathered.positions)


def read(name):
    with open(os.path.join(PAGE, name), encoding="utf-8") as file:
        return file.read()


def script():
    """The parts as one script: what they take from each other stands before it."""
    joined = "\n".join(re.sub(r"^import [^;]*;\n", "", read(name), flags=re.MULTILINE) for name in PARTS)
    return re.sub(r"^export ", "", joined, flags=re.MULTILINE)


def page(heads, fen, positions):
    """The page with these positions, which begins at the FEN."""
    data = {"start": fen, "tables": [head.shown() for head in heads], "positions": positions}
    # A text may hold a sign that would end the script.
    inlined = json.dumps(data).replace("<", "\\u003c")
    head = HEAD.format(title=html.escape(f"{heads[0].name}: {positions[fen]['verdict']}"), style=read("page.css"))
    body = read("given.html")
    return f'{head}{body}<script type="module">\nconst given = {inlined};\n{script()}</script>\n</html>\n'
