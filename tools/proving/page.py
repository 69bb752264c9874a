"""PROOF.md: one page with the position, what is shown and what it rests on, the moves, and the sums of all files."""

from proving.asking import table_of, text_of
from proving.diagram import letters
from proving.notation import begins_with_black, marked, number_of, numbered
from proving.tree import paths
from proving.verdict import opponent, statement

PICTURE = "PROOF.svg"


def page(proof) -> str:
    """The whole page, from a Proof."""
    parts = [
        f"# {statement(proof.shown)}", f"![The position]({PICTURE})",
        f"```\n{letters(proof.fen)}\n```", f"`{proof.fen}`", about(proof), rests_on(proof), moves(proof),
        files(proof), again(), programs(proof),
    ]
    return "\n\n".join(part for part in parts if part) + "\n"


def about(proof):
    """What is shown, in a sentence or two, and what became of the claim."""
    shown, said = proof.shown, []
    if shown.winner:
        said.append(about_win(proof))
    elif shown.is_draw:
        said.append("**Neither side can force mate: a draw.**")
    else:
        side, = shown.safe
        said.append(
            f"**{opponent(side).capitalize()} cannot force mate: {side.capitalize()} does not lose.** "
            "Whether he wins is open."
        )
    if proof.case.claim:
        became = {0: "so it is", 1: "that is refuted", 3: "that is not shown"}[proof.outcome.value]
        said.append(f"It was claimed that {claimed(proof)}: {became}.")
    said.append("Castling, the fifty-move rule and repetitions are left out of account.")
    return " ".join(said)


def claimed(proof):
    side = (proof.case.side or "").capitalize()
    return {"win": f"{side} wins", "hold": f"{side} does not lose", "draw": "it is a draw"}[proof.case.claim]


def about_win(proof):
    name, plies = proof.shown.winner.capitalize(), proof.shown.plies
    if plies is None:
        return f"**{name} forces mate against every defence.**"
    return f"**{name} forces mate against every defence**, at the latest in ply {plies} (each move of either side is one)."


def rests_on(proof):
    """The verdicts of the program, as they were printed."""
    parts = [
        "## What it rests on",
        "`verdict` found each entry of each table right, and that nothing is believed: no exit line of any text has to be "
        "taken on trust. The laws of chess and the programs' proofs are all that is left.",
    ]
    for told in proof.told:
        over = "".join(f" {table_of(name)}" for name in told.over)
        parts.append("\n".join((
            "```", f'$ atlas verdict {table_of(told.name)} "{proof.fen}"{over}', told.text.rstrip("\n"), "```",
        )))
    return "\n\n".join(parts)


def moves(proof):
    """The main line of a win and its side lines, or a line for each threat."""
    lines = list(paths(proof.root))
    if not lines or not lines[0]:
        return ""
    parts = ["## Moves", explained(proof)]
    if proof.shown.winner:
        parts.append(f"**{line_text(proof.fen, lines[0])}**")
        rows = side_lines(proof)
    else:
        rows = rows_of(proof.fen, lines)
    parts.append("\n".join(f"- {row}" for row in rows))
    return "\n\n".join(part for part in parts if part)


def explained(proof):
    """What the moves are, and what their marks mean where there are any."""
    kept = "win" if proof.shown.winner else "hold"
    said = ["Tries, each with the answer that the tables give."]
    if proof.shown.winner:
        said = ["The best line, as the tables play it."]
        if any(True for _ in side_lines(proof)):
            said.append("Below it other defences with a reply: all first ones, and each later one that lasts as long.")
    if any(node.is_only for line in paths(proof.root) for node in line):
        said.append(f"A move with `!` is the only one: the tables show that each other one gives the {kept} away.")
    return " ".join(said)


def line_text(fen, nodes):
    return numbered(fen, [marked(node) for node in nodes])


def rows_of(fen, lines):
    """The lines; those that differ in the last try alone, and have one answer, stand together."""
    groups = {}
    for line in lines:
        key = tuple(id(node) for node in line[:-2]), len(line), line[-1].san, line[-1].remark
        groups.setdefault(key if len(line) > 1 else id(line[0]), []).append(line)
    for first, *others in groups.values():
        words = [marked(node) for node in first]
        if others:
            words[-2] += f" (or {', '.join(marked(line[-2]) for line in others)})"
        remark = first[-1].remark
        yield numbered(fen, words) + (f": {remark}" if remark else "")


def side_lines(proof):
    """The other moves beside the main line, from where they leave it; those with one reply stand together."""
    node, ply = proof.root, int(begins_with_black(proof.fen))
    while node.children:
        groups = {}
        for other in node.children[1:]:
            for line in paths(other, (other,)):
                groups.setdefault(" ".join(map(marked, line[1:])), []).append(marked(other))
        for replies, (first, *others) in groups.items():
            yield from_ply(ply, first, others, replies)
        node, ply = node.children[0], ply + 1


def from_ply(ply, first, others, reply):
    """A move of this ply, others like it, and the reply to all of them."""
    dots = "" if ply % 2 == 0 else ".."
    number = f" {number_of(ply + 1)}" if reply and (ply + 1) % 2 == 0 else ""
    like = f" (or {', '.join(others)})" if others else ""
    return f"{number_of(ply)}{dots} {first}{like}{number} {reply}".rstrip()


def files(proof):
    """Each text and its table: what it is for, its numbers, and both sums."""
    many = len(proof.row)
    rows = [
        f"| `{text_of(cell.name)}` | {cell.about} | {', '.join(cell.over) or 'none'} | {proof.sizes[cell.name]:,} |"
        for cell in proof.row
    ]
    sums = [f"{proof.sums[name]}  {name}" for name in sorted(proof.sums)]
    total = sum(proof.sizes[cell.name] for cell in proof.row)
    head = f"{many} table{'s' if many > 1 else ''} with {total:,} numbers (positions that a set has room for)."
    return "\n\n".join((
        "## Texts and tables", head,
        "\n".join(("| Text | For | Over | Numbers |", "|---|---|---|---|", *rows)),
        "Sums by sha256:", "\n".join(("```", *sums, "```")),
    ))


def again():
    return "\n\n".join((
        "## To check it again",
        "`make -j` in this folder builds the tables that are not there from the texts, checks all of them, and compares "
        "answers and sums with those of this page; with the programs on the PATH, or by their paths:",
        "```\nmake -j FREEZER=/path/to/freezer ATLAS=/path/to/atlas\n```",
        "`make clean` removes the tables first. `PROOF.pgn` has the moves of this page as a game.",
    ))


def programs(proof):
    lines = []
    for origin in proof.origins:
        line = f"- `{origin.name}`, sha256 {origin.sha256}"
        if origin.commit:
            line += f", of Freezer's repository at commit {origin.commit}"
        if origin.kit:
            line += f", proved with the kit `{origin.kit}`"
        lines.append(line)
    return "## The programs\n\n" + "\n".join(lines)
