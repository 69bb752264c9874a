"""What a session reads: its lines, its limits at the limit and one beyond, an input that fails or ends."""

from lib.refusals.case import Case
from lib.refusals.fixtures import IN_A, IN_H, MATE_IN_ONE, files_of

BOUND = "white wins within 2\n"
MATE = BOUND + "reply a8b8\nmove h1h8\nmate\n"
MOST_LINES, LONGEST_LINE = 10_000, 64
LINES = "commands.md, line and play: a session reads at most 10,000 lines"
LENGTH = "commands.md, line and play: a line has at most 64 bytes"
NO_MOVE = "commands.md, line and play: if a line is no legal move, the answer is `illegal`"
BLANKS = "commands.md, line and play: spaces, tabs and carriage returns at both ends are dropped"
ENDED = "commands.md, line and play: `input ended` if a move is wanted and no byte is left"
REST = "commands.md, line and play: nothing after the last line of a session is read"
FAULT = "commands.md, line and play: a source that fails ends the session with `input fault`"


def illegal(count):
    return "illegal\n" * count


def single_lines():
    """Input, what is printed behind the bound, the status, how much is taken, and what it tests."""
    ended = "input ended\n"
    for line in ("", "a8", "a8b8q", "a8b8=", "A8B8", "a8B8", "a8 b8", "a8-b8", "Kb8", "a8a7", "h1h8", "b6b7", "a8a8",
                 "0000", "resign", "x" * 63, "x" * 64, "a8b8 a8b8", "a8b8\0", "a8b8\v", "\xffa8b8", "a9b8"):
        text = line.encode("latin-1")
        yield text + b"\n", illegal(1) + ended, 0, len(text) + 1, NO_MOVE
        yield text + b"\na8b8\n", illegal(1) + MATE[len(BOUND):], 0, len(text) + 6, NO_MOVE
        if text:
            yield text, illegal(1) + ended, 0, len(text), NO_MOVE
    for before, after in ((" ", ""), ("", " "), ("\t", "\r"), (" \t\r", "\r\t "), ("", "\r"), (" " * 30, " " * 30),
                          ("", " " * 60), (" " * 60, ""), ("\r" * 59, "\t"), (" " * 59, "\r")):
        text = f"{before}a8b8{after}".encode()
        yield text + b"\n", MATE[len(BOUND):], 0, len(text) + 1, BLANKS
        yield text, MATE[len(BOUND):], 0, len(text), BLANKS
    for rest in (b"", b"a8b8\n", b"x" * 1_000, b"\n" * 20_000):
        yield b"a8b8\n" + rest, MATE[len(BOUND):], 0, 5, REST
    yield b"a8b8", MATE[len(BOUND):], 0, 4, REST


def long_lines():
    """Lines of more than 64 bytes; the 65th byte ends the session."""
    told = "limit line length\n"
    for line in (b"x" * 65, b"x" * 66, b"x" * 5_000, b"a8b8" + b" " * 61, b" " * 61 + b"a8b8",
                 b"a8b8" + b" " * 60 + b"\r", b" " * 65, b"\0" * 65):
        for end in (b"\n", b"", b"\na8b8\n"):
            yield line + end, told, 13, 65, LENGTH
            yield b"\n" + line + end, illegal(1) + told, 13, 66, LENGTH
    yield b"x" * 64 + b"\n" + b"x" * 65, illegal(1) + told, 13, 130, LENGTH


def many_lines():
    """10,000 lines, and the wish for one more."""
    ended, told, mate = "input ended\n", "limit lines\n", MATE[len(BOUND):]
    for line in (b"\n", b"x\n", b"x" * 64 + b"\n"):
        size = len(line)
        yield line * 9_999, illegal(9_999) + ended, 0, 9_999 * size, LINES
        yield line * 9_999 + b"a8b8\n", illegal(9_999) + mate, 0, 9_999 * size + 5, LINES
        yield line * 9_999 + b"a8b8", illegal(9_999) + mate, 0, 9_999 * size + 4, LINES
        for rest in (b"", b"a8b8\n", b"x" * 65, line * 3):
            yield line * 10_000 + rest, illegal(10_000) + told, 13, 10_000 * size, LINES
    yield b"\n" * 9_999 + b"x", illegal(10_000) + told, 13, 10_000, LINES
    yield b"\n" * 9_999 + b"x" * 65, illegal(9_999) + "limit line length\n", 13, 9_999 + 65, LENGTH


def plays():
    """The two programs with one table on the way, and the words of a session from the same position."""
    yield "freezer", ("play", "A.t", IN_A, "white")
    yield "atlas", ("play", "L.t", IN_A, "white", "N.t")
    yield "atlas", ("play", "A.t", IN_A, "white")


def failing_inputs():
    """What is read before the input fails, what is printed behind the bound, and the status."""
    told, mate = "input fault\n", MATE[len(BOUND):]
    for line in (b"", b"x", b"a8b8", b"a8b8 ", b"x" * 64):
        yield line, told, 10
        yield b"\n" + line, illegal(1) + told, 10
        yield b"h1h8\n" * 500 + line, illegal(500) + told, 10
    yield b"a8b8\n", mate, 0
    yield b"\na8b8\nx", illegal(1) + mate, 0
    yield b"x" * 65, "limit line length\n", 13
    yield b"\n" + b"x" * 66, illegal(1) + "limit line length\n", 13


def of_one_table():
    for program, words in plays():
        files = files_of(words)
        for given, text, status, taken, says in (*single_lines(), *long_lines(), *many_lines()):
            yield Case(program, words, files, status, BOUND + text, says, given, taken)
        yield Case(program, words, files, 0, BOUND + "input ended\n", ENDED)
        yield Case(program, words, files, 10, BOUND + "input fault\n", FAULT, None)
        for given, text, status in failing_inputs():
            yield Case(program, words, files, status, BOUND + text, FAULT, given, failing=True)
        # No line is wanted where the side mates at once.
        first = tuple(MATE_IN_ONE if word == IN_A else word for word in words)
        for given in (b"", None, b"x" * 65, b"a8b8\n"):
            text = "white wins within 1\nmove h1h8\nmate\n"
            yield Case(program, first, files, 0, text, REST, given, 0 if given else None)


# From 2 in H: Kb8, then Rh1 out of the set to back 2, where Black is to move once more.
BEFORE, BETWEEN = BOUND, "reply a8b8\nmove h2h1\nexit white wins\nback 2\nwhite wins within 2\n"
AFTER = "reply b8a8\nmove h1h8\nmate\n"
TO_N = "reply b8c8\nexit white wins\nback 1\nwhite wins within 1\nmove h1a1\nexit white wins\n"


def over_parts():
    """Input, what is printed, the status, how much is taken: sessions that go on at a table behind."""
    first, second = b"a8b8\n", b"b8a8\n"
    yield first, BEFORE + BETWEEN + "input ended\n", 0, 5, ENDED
    yield first + second, BEFORE + BETWEEN + AFTER, 0, 10, REST
    yield first + b"b8c8\n" + second, BEFORE + BETWEEN + TO_N, 0, 10, REST
    yield first + b"x" * 65, BEFORE + BETWEEN + "limit line length\n", 13, 70, LENGTH
    yield b"b8a8\n" + first, BEFORE + illegal(1) + BETWEEN + "input ended\n", 0, 10, NO_MOVE
    for before, after in ((0, 9_998), (1, 9_997), (9_998, 0), (5_000, 4_998)):
        said = b"\n" * before + first + b"\n" * after
        told = BEFORE + illegal(before) + BETWEEN + illegal(after)
        yield said + second, told + AFTER, 0, before + after + 10, LINES
        yield said, told + "input ended\n", 0, before + after + 5, LINES
        yield said + b"\n", told + illegal(1) + "limit lines\n", 13, before + after + 6, LINES
        yield said + b"\n" + second, told + illegal(1) + "limit lines\n", 13, before + after + 6, LINES
    yield b"\n" * 9_999 + first + second, BEFORE + illegal(9_999) + BETWEEN + "limit lines\n", 13, 9_999 + 5, LINES
    yield b"\n" * 10_000 + first, BEFORE + illegal(10_000) + "limit lines\n", 13, 10_000, LINES


def of_several_tables():
    words = ("play", "H.t", IN_H, "white", "N.t", "L.t")
    for given, text, status, taken, says in over_parts():
        says = f"formats.md, Over follow-up tables: the limit counts over all parts; {says}"
        yield Case("atlas", words, files_of(words), status, text, says, given, taken)
    yield Case("atlas", words, files_of(words), 10, BEFORE + "input fault\n", FAULT, None)
    further = BEFORE + BETWEEN
    for given, text in ((b"", BEFORE), (b"a8b8", BEFORE), (b"a8b8\n", further), (b"a8b8\nb8", further)):
        yield Case("atlas", words, files_of(words), 10, text + "input fault\n", FAULT, given, failing=True)
    said = b"a8b8\nb8a8\n"
    yield Case("atlas", words, files_of(words), 0, further + AFTER, FAULT, said, failing=True)


MOST_ASKED, LONGEST_ASKED = 1_000_000, 128
ASK = "commands.md, ask: a line for each line of the input, until it ends"
ASKED, NO_FIELDS = b"white wins within 2, black fails within 2\n", b"fen: fields\n"


def questions():
    """Input of `ask`, what is printed, the status, how much is taken, and what it tests."""
    right, wide = IN_A.encode(), IN_A.replace(" ", " " * 20).encode()
    yield b"", b"", 0, 0, ASK
    for before, after in ((b"", b""), (b" ", b"\r"), (b"\t \r", b" \t"), (b"", b" " * (LONGEST_ASKED - len(right)))):
        text = before + right + after
        yield text, ASKED, 0, len(text), ASK
        yield text + b"\nx\n\n" + text + b"\n", ASKED + NO_FIELDS * 2 + ASKED, 0, 2 * len(text) + 5, ASK
    yield wide + b"\n", ASKED, 0, len(wide) + 1, ASK
    for line in (b"x" * 128, b"\xff", b"\0", b" " * 128):
        yield line + b"\n" + right, NO_FIELDS + ASKED, 0, len(line) + 1 + len(right), ASK
    told, says = b"limit line length\n", "commands.md, ask: a line has at most 128 bytes"
    for line in (b"x" * 129, b" " * 129, right + b" " * (129 - len(right)), b"x" * 5_000):
        yield line + b"\n" + right, told, 13, 129, says
        yield right + b"\n" + line, ASKED + told, 13, len(right) + 130, says
    yield b"\n" * (MOST_ASKED - 1), NO_FIELDS * (MOST_ASKED - 1), 0, MOST_ASKED - 1, "commands.md, ask: 1,000,000 lines"
    many = NO_FIELDS * MOST_ASKED + b"limit lines\n"
    yield b"\n" * (MOST_ASKED + 1), many, 13, MOST_ASKED, "commands.md, ask: 1,000,000 lines"


def of_ask():
    for words in (("ask", "A.t"), ("ask", "L.t", "N.t")):
        files = files_of(words)
        for given, text, status, taken, says in questions():
            ended = "" if status else "input ended\n"
            yield Case("atlas", words, files, status, text.decode() + ended, says, given, taken)
        yield Case("atlas", words, files, 10, "input fault\n", FAULT, None)
        for given, text in ((b"", b""), (b"x", b""), (b"x\n", NO_FIELDS), (IN_A.encode() + b"\n", ASKED)):
            yield Case("atlas", words, files, 10, text.decode() + "input fault\n", FAULT, given, failing=True)


def cases():
    yield from of_one_table()
    yield from of_several_tables()
    yield from of_ask()
