"""Moves in words: numbered as in a book, and as a game in PGN with its variations."""

import textwrap

WIDTH = 79
ONLY = "$7"  # of the PGN specification: a forced move, all others lose
TAGS = ("Event", "Site", "Date", "Round", "White", "Black", "Result")


def begins_with_black(fen):
    return fen.split()[1] == "b"


def number_of(ply):
    """The number of the move with this ply, which counts from 0, or from 1 where Black begins."""
    return ply // 2 + 1


def numbered(fen, sans, dots=".."):
    """The moves as a book prints them: `1.. Kxe5 2 Kd3`."""
    ply, words = int(begins_with_black(fen)), []
    for at, san in enumerate(sans):
        if ply % 2 == 0:
            words.append(f"{number_of(ply)} {san}")
        else:
            words.append(f"{number_of(ply)}{dots} {san}" if at == 0 else san)
        ply += 1
    return " ".join(words)


def marked(node):
    return node.san + ("!" if node.is_only else "")


def movetext(node, ply, fresh=True):
    """The words of the moves behind a node, with variations in brackets. A black move has its number where
    something stands before it."""
    if not node.children:
        return
    main, *others = node.children
    yield from words_of(main, ply, fresh)
    for other in others:
        yield "("
        yield from words_of(other, ply, True)
        yield from movetext(other, ply + 1, bool(other.remark))
        yield ")"
    yield from movetext(main, ply + 1, bool(others or main.remark))


def words_of(node, ply, fresh):
    if ply % 2 == 0:
        yield f"{number_of(ply)}."
    elif fresh:
        yield f"{number_of(ply)}..."
    yield node.san
    if node.is_only:
        yield ONLY
    if node.remark:
        yield "{" + node.remark + "}"


def pgn(fen, root, result, remark):
    """A game that begins at the position: tags, moves with variations, and the result."""
    tags = dict(zip(TAGS, ("?", "?", "????.??.??", "?", "?", "?", result)), SetUp="1", FEN=fen)
    words = ["{" + remark + "}", *movetext(root, int(begins_with_black(fen))), result]
    text = " ".join(words).replace("( ", "(").replace(" )", ")")
    lines = textwrap.wrap(text, WIDTH, break_long_words=False, break_on_hyphens=False)
    return "".join(f'[{name} "{value}"]\n' for name, value in tags.items()) + "\n" + "\n".join(lines) + "\n\n"
