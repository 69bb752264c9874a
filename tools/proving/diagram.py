"""A position as a diagram: in letters, and as a picture in SVG with the men of the page of `explore`."""

import os
import re

from lib.chess import read_fen

MEN = os.path.join(os.path.dirname(os.path.dirname(os.path.abspath(__file__))), "board", "page", "men.js")
SIZE, MARGIN = 45, 20
LIGHT, DARK, WHITE, BLACK = "#f0e6d2", "#b7a184", "#ffffff", "#222222"


def to_move(fen):
    return "White" if read_fen(fen).turn == "w" else "Black"


def letters(fen):
    """The board in letters, White's men in capitals, with the side to move."""
    men = read_fen(fen).men
    rows = [
        f"{rank + 1}  " + " ".join(men.get(8 * rank + file, ".") for file in range(8)) for rank in range(7, -1, -1)
    ]
    return "\n".join([*rows, f"   a b c d e f g h      {to_move(fen)} to move"])


def outlines():
    """The outlines of the men, as the page draws them in squares of 45 by 45, and their foot."""
    with open(MEN, encoding="utf-8") as file:
        text = file.read()
    return dict(re.findall(r'^  ([prnbqk]): "([^"]+)",$', text, re.MULTILINE)), re.search(r'BASE = "([^"]+)"', text)[1]


def picture(fen):
    """The board as SVG, with coordinates, and a mark beside it for the side to move."""
    side = 8 * SIZE
    parts = [
        f'<svg xmlns="http://www.w3.org/2000/svg" viewBox="0 0 {side + 2 * MARGIN} {side + 2 * MARGIN}" '
        f'width="{side + 2 * MARGIN}" height="{side + 2 * MARGIN}" role="img">',
        f"<title>{fen}</title>",
        *squares(), *coordinates(), *men(fen), turn(fen, side), "</svg>",
    ]
    return "\n".join(parts) + "\n"


def corner(square):
    return MARGIN + SIZE * (square % 8), MARGIN + SIZE * (7 - square // 8)


def squares():
    for square in range(64):
        x, y = corner(square)
        dark = (square % 8 + square // 8) % 2 == 0
        yield f'<rect x="{x}" y="{y}" width="{SIZE}" height="{SIZE}" fill="{DARK if dark else LIGHT}"/>'
    edge = 8 * SIZE
    yield f'<rect x="{MARGIN}" y="{MARGIN}" width="{edge}" height="{edge}" fill="none" stroke="{BLACK}"/>'


def coordinates():
    style = 'font-family="sans-serif" font-size="12" text-anchor="middle"'
    for at in range(8):
        middle = MARGIN + SIZE * at + SIZE // 2
        yield f'<text x="{middle}" y="{2 * MARGIN + 8 * SIZE - 6}" {style}>{"abcdefgh"[at]}</text>'
        yield f'<text x="{MARGIN // 2}" y="{middle + 4}" {style}>{8 - at}</text>'


def men(fen):
    shapes, foot = outlines()
    for square, man in sorted(read_fen(fen).men.items()):
        x, y = corner(square)
        fill, line = (WHITE, BLACK) if man.isupper() else (BLACK, WHITE)
        yield (
            f'<g transform="translate({x} {y})" fill="{fill}" stroke="{line}" stroke-width="1.2" '
            f'stroke-linejoin="round"><path d="{shapes[man.lower()]}"/><path d="{foot}"/></g>'
        )


def turn(fen, side):
    """A small square at the side of who is to move."""
    white = to_move(fen) == "White"
    y = MARGIN + side - 12 if white else MARGIN + 2
    return (
        f'<rect x="{MARGIN + side + 5}" y="{y}" width="10" height="10" '
        f'fill="{WHITE if white else BLACK}" stroke="{BLACK}"/>'
    )
