"""Rules texts at each cause of docs/users/formats.md, at each limit and just beyond it, and the order of causes."""

from math import comb

# Two kings; a line behind them is line 4.
KINGS = "freezer 1\ngroup white 1 K:a1\ngroup black 1 K:h8\n"
# White has 14 men already, and a line behind them is line 6.
MANY = KINGS + "group white 1 Q:b2\ngroup white 12 N:c1-f3\n"
LONGEST, LARGEST, GREATEST = 65_536, 134_217_728, 2**64 - 1

BAD_SQUARES = (
    "a0", "a9", "i1", "A1", "1a", "a", "1", "", "aa1", "a11", "a1-", "-a1", "a1-b", "a1-b2-c3", "h4-a1", "a4-h1",
    "b1-a1", "a2-a1", "h8-a1", "b1-a2", ",", ",a1", "a1,", "a1,,b1", "a1;b1", "ALL", "All", "al", "all-a1", "a1-all",
    "all,", "allall", "a1-b2,", "a1:b1", "e4x", "a1\x96b2", "\xe41",
)
# With how many squares they are.
SQUARES = (
    ("a1", 1), ("h8", 1), ("a1-a1", 1), ("a1-b1", 2), ("a1-a2", 2), ("a1-b2", 4), ("a1-h8", 64), ("all", 64),
    ("all,all", 64), ("all,a1", 64), ("a1,a1", 1), ("c2,c3,d4-e5", 6), ("d4-e5,d4", 4), ("a1-a8,a8-h8", 15),
)
BAD_COUNTS = (
    "", "-", "-1", "1-", "1-2-3", "17", "0-17", "17-1", "0000000001", "1-0000000001", "4294967297", "a", "1a", "+1",
    "1,2", "1.", "1--2", "one", "999999999", "1:2", "\xb9",
)
# As COUNT; the first number is at most the second.
BAD_RANGES = (*BAD_COUNTS, "2-1", "16-0", "1-0")
RANGES = ("0", "16", "000000016", "0-16", "1-1", "01-02", "16-16", "000000000-000000000")
BAD_LAGS = ("1001", "0000000001", "1000000000", "-1", "+1", "7.", "x", "1-2", "999999999", "7,")
LAGS = ("0", "1", "1000", "000001000", "000000000")
BAD_KINDS = ("k", "q", "X", "KQ", "1", "king", "-", "n", ":")
BAD_COLOURS = ("White", "BLACK", "w", "red", "white,black", "both", "whit", "whites", "-")
BAD_PLACES = (
    "K", "K:", ":a1", "k:a1", "X:a1", "KQ:a1", "K:a1:b1", "K;a1", "Ka1", "a1", "K::a1", "K:a1,Q:b1", "all", "K-a1",
)
BAD_CONDS = (
    "!", "!!check", "Check", "checks", "check:", "check:white", "always:", "always:white", "Always", "never",
    "turn", "turn:", "turn:red", "turn:white:x", "Turn:white", "turn:white:", ":turn", "turn;white",
    "count", "count:white", "count:white:Q", "count:white:Q:", "count:red:Q:1", "count:white:q:1", "count:white:QR:1",
    "count:white:Q:1:1", "count:Q:white:1", "on", "on:white", "on:white:Q", "on:red:Q:a1", "on:white:X:a1",
    "on:white:Q:a1:a2", "on:Q:a1", "distance", "distance:white", "distance:white:d8", "distance:red:d8:1",
    "distance:white:all:1", "distance:white:d8-e8:1", "distance:white:d8,e8:1", "distance:white:d9:1",
    "distance:white:d8:1:1", "distance:white:d8:", "!turn", "!on:white:Q", "!!", "!always!", "if", "draw", "1",
)
CONDS = (
    "always", "check", "!check", "!always", "turn:white", "turn:black", "!turn:black", "count:white:K:1",
    "count:black:P:0-16", "on:white:Q:all", "!on:black:N:a1-h8,c3", "distance:white:a1:0", "distance:black:h8:0-16",
)
EXITS = (
    "white wins", "black wins", "white holds", "black holds", "draw", "unknown", "white wins 0", "black wins 1000",
)

# A line, and the place of the first word that fits no form.
WORDS = (
    ("group", 2), ("group white", 3), ("group white 1", 4), ("group black 0-2", 4), ("group 1 white K:a1", 2),
    ("group white K:a1", 3), ("group white 1 - 2 Q:a1", 4), ("group white 1 -2 Q:a1", 4), ("group white 1 Q : a1", 4),
    ("group white 1 Q:a1 Q", 5), ("group white 1 Q:a1 R:a2 x B:a3", 6), ("group white 1 Q:a1 # a queen", 5),
    ("group white 1 Q:a1, a2", 4), ("group white 1 Q:a1 a2", 5), ("group white 1 P:a1 x", 5),
    ("group white 1 1 Q:a1", 4),
    ("forbid", 2), ("forbid white", 3), ("forbid white R", 4), ("forbid white R from", 5),
    ("forbid white R from all", 6), ("forbid white R from all to", 7), ("forbid white R to all from all", 4),
    ("forbid white R a1 to a2", 4), ("forbid white R from all all", 6), ("forbid white R from all to all captures", 8),
    ("forbid white R from all to all capture promotion", 9), ("forbid white R from all to all capture capture", 9),
    ("forbid white R from all to all Capture", 8), ("forbid white R from all to all if always", 8),
    ("forbid white R from a1, a2 to all", 5), ("forbid R white from all to all", 2), ("forbid white 1 R from all", 3),
    ("forbid white R From all to all", 4), ("forbid white R:a1 from all to all", 3),
    ("exit", 2), ("exit white", 3), ("exit black", 3), ("exit white wins", 4), ("exit white wins 7", 5),
    ("exit white holds", 4), ("exit draw", 3), ("exit unknown", 3), ("exit white wins if", 5),
    ("exit white wins 7 if", 6), ("exit draw if", 4), ("exit unknown if", 4), ("exit white holds if", 5),
    ("exit white loses if always", 3), ("exit white draw if always", 3), ("exit draws if always", 2),
    ("exit if always", 2), ("exit white if always", 3), ("exit white wins 7 7 if always", 5),
    ("exit white holds 7 if always", 4), ("exit draw 7 if always", 3), ("exit unknown 7 if always", 3),
    ("exit white wins always", 4), ("exit draw when always", 3), ("exit draw If always", 3),
    ("exit draw if always and check", 5), ("exit draw if ! check", 4), ("exit draw if if", 4),
    ("exit draw if always # so", 5), ("exit wins white if always", 2), ("exit draw if" + 12 * " always" + " x", 16),
)
# A first word of a line that counts.
UNKNOWN = (
    "groups", "Group", "GROUP", "freezer 1", "exits", "forbids", "group: white 1 Q:a1", "-", "//", "1", "!check",
    "grou",
)

# Groups behind the two kings, by the cause.
GROUPS = {
    "pawn square": (
        "white 1 P:a1", "white 1 P:h8", "black 1 P:a1", "black 1 P:a8", "white 1 P:all", "white 1 P:a2-a8",
        "white 1 Q:a2 P:e1",
    ),
    "count": (
        "white 2-1 Q:a2,a3", "white 0 Q:a2", "white 0-0 Q:a2", "white 1-0 Q:a2", "white 2 Q:a2", "white 0-2 Q:a2",
        "white 2 Q:a2,a2", "white 2 Q:a2 Q:a2", "white 5 Q:a2-b3,a2", "white 16-15 Q:all",
    ),
    "king group": (
        "white 1 K:a2", "white 1 K:a1", "black 1 K:a1 Q:a1", "black 0-1 K:a2", "black 2 K:a2,a3", "black 1-2 K:a2,a3",
        "white 0-1 K:all", "black 1 K:a2 N:a3",
    ),
    "too many men": ("white 16 Q:all", "white 0-16 Q:all", "black 16 N:all"),
}
# The same behind MANY; most of them have a later cause too.
TWICE = {
    "pawn square": ("white 2 P:a1", "white 0 P:a1", "white 1 P:a1 K:b1", "white 1 P:a1 Q:b2", "white 3 P:a1,a2,a3"),
    "count": ("white 0 K:b1", "white 2 K:b1", "white 2-1 K:b1,b2", "white 2 Q:b2", "white 4 R:a1", "white 0 Q:b2"),
    "king group": ("white 1 K:a1", "white 1 K:b1 Q:b2", "white 3 K:b1,b2,b3", "white 3 K:b1 R:b2,b3"),
    "overlap": ("white 3 Q:b2,b3,b4", "white 4 N:all", "white 1 N:c1", "white 1 Q:b1-b3", "white 0-1 B:a1 N:f3"),
    "too many men": ("white 3 R:a1,a2,a3", "white 0-3 R:all"),
}
# One line of each cause.
ONE_LINE = (
    ("rule", "unknown line"), ("group white 1 Q", "word 4"), ("group white 1 P:a1", "pawn square"),
    ("group white 0 Q:h1", "count"), ("group white 1 K:h2", "king group"), ("group white 1 Q:b2", "overlap"),
    ("group white 3 R:a1,a2,a3", "too many men"), ("exit draw if" + 9 * " always", "too many lines"),
)
HEADERS = (
    ("", 0), ("\n", 0), ("\n\n\n", 0), ("# freezer 1", 0), ("  \t\r\n#freezer 1\n", 0), ("freezer", 1),
    ("freezer 2", 1), ("freezer 1 1", 1), ("freezer 01", 1), ("freezer1", 1), ("Freezer 1", 1), ("FREEZER 1", 1),
    ("1 freezer", 1), ("freezer 1 # a text", 1), ("\xef\xbb\xbffreezer 1", 1), ("\n\n# a text\n\tfreezer 2", 4),
    ("group white 1 K:a1", 1), ("freezer\v1", 1), ("freezer 1\f", 1), ("freezer\xa01", 1), ("freezer 1\0", 1),
    ("freezer 1\rgroup white 1 K:a1", 1), ("freezer\n1", 1), ("exit draw if always", 1), ("\r\n\r\nrule", 3),
)


def behind(line, before=KINGS):
    """The text with one line more, and its number."""
    return before + line + "\n", before.count("\n") + 1


def of_squares():
    """A SQUARES in each place where one stands, and a SQUARE."""
    for word in BAD_SQUARES:
        for line, place in (
            ("group white 1 Q:{}", 4), ("group white 1 Q:a1 R:{}", 5), ("exit draw if on:white:Q:{}", 4),
            ("exit white wins 7 if always on:black:Q:{}", 7),
        ):
            yield line.format(word), place
        if word:
            yield f"forbid white R from {word} to all", 5
            yield f"forbid white R from all to {word} capture", 7


def of_words():
    """Lines with a word that fits no form."""
    yield from WORDS
    yield from of_squares()
    for word in BAD_COUNTS:
        if word:
            yield f"group white {word} Q:a2", 3
    for word in BAD_RANGES:
        yield f"exit draw if count:white:Q:{word}", 4
        yield f"exit draw if always distance:white:d8:{word}", 5
    for word in BAD_LAGS:
        yield f"exit white wins {word} if always", 4
    for word in BAD_KINDS:
        yield f"forbid white {word} from all to all", 3
        yield f"group white 1 {word}:a2", 4
    for word in BAD_COLOURS:
        yield f"group {word} 1 Q:a2", 2
        yield f"forbid {word} R from all to all", 2
        yield f"exit {word} wins if always", 2
    for word in BAD_PLACES:
        yield f"group white 1 {word}", 4
        yield f"group white 1 Q:a2 {word}", 5
    for word in BAD_CONDS:
        yield f"exit draw if {word}", 4
        yield f"exit black wins 3 if check {word} always", 7


def of_lines():
    """Lines behind the two kings, or behind more, each with its cause."""
    for line, place in of_words():
        yield *behind(line), f"word {place}"
    for line in UNKNOWN:
        yield *behind(line), "unknown line"
    for groups, before in ((GROUPS, KINGS), (TWICE, MANY)):
        for cause, lines in groups.items():
            for line in lines:
                yield *behind(f"group {line}", before), cause
    for line, cause in ONE_LINE:
        text, number = behind(line, MANY)
        yield text, number, cause
        # Comments and empty lines count, carriage returns and blanks before a word do no harm.
        yield "# \xff\n\n" + text.replace("\n", " \r\n").replace(" ", " \t "), number + 2, cause
        for other, _ in ONE_LINE:
            yield text + other + "\n", number, cause


def of_limits():
    """One line, condition or byte too many."""
    forbids, exits = "forbid white Q from a1 to a2\n", "exit draw if always\n"
    yield KINGS + 65 * forbids, 3 + 65, "too many lines"
    yield KINGS + 129 * exits, 3 + 129, "too many lines"
    yield KINGS + 64 * forbids + 129 * exits, 3 + 64 + 129, "too many lines"
    yield KINGS + 128 * exits + 65 * forbids, 3 + 128 + 65, "too many lines"
    yield KINGS + 64 * forbids + "forbid white Q from a1 to a2 x\n", 68, "word 8"
    yield KINGS + 128 * exits + "exit draw if" + 9 * " always" + "\n", 132, "too many lines"
    yield KINGS + "exit draw if" + 9 * " !check", 4, "too many lines"
    yield KINGS + "exit white wins 1000 if" + 10 * " always", 4, "too many lines"
    yield KINGS + "exit draw if" + 9 * " always" + " x", 4, "word 13"
    men = "".join(f"group white 1 R:{file}2\ngroup black 1 R:{file}7\n" for file in "abcdefgh")
    men += "".join(f"group white 1 N:{file}2\ngroup black 1 N:{file}7\n" for file in "abcdefg")
    yield KINGS + men + "group white 0-1 B:a2\n", 34, "too many men"
    yield KINGS + men + "group black 0-1 B:a2\n", 34, "too many men"
    for text in (KINGS, "freezer 2\n", "rule\n", "freezer 1\nrule\n"):
        yield filled(text, LONGEST + 1), 0, "too long"
    yield "\n" * (LONGEST + 1), 0, "too long"
    yield "x" * 1_000_000, 0, "too long"
    yield filled("freezer 2\n", LONGEST), 1, "header"


def of_the_whole():
    """Line 0: a colour without a king, and a set that is too large, in this order and behind all lines."""
    yield "freezer 1", 0, "king group"
    yield "freezer 1\ngroup white 1 K:a1", 0, "king group"
    yield "freezer 1\ngroup black 1 K:a1\ngroup white 1 Q:a1\n", 0, "king group"
    yield "freezer 1\nexit draw if always\nforbid white R from all to all\n", 0, "king group"
    yield "freezer 1\ngroup white 1 K:a1\nrule\n", 3, "unknown line"
    yield "freezer 1\ngroup white 8 Q:all\ngroup black 8 Q:all\n", 0, "king group"
    yield "freezer 1\ngroup white 8 Q:all\ngroup black 8 Q:all\ngroup white 9 R:all\n", 4, "too many men"
    for groups, size in too_large():
        text = "freezer 1\ngroup white 1 K:all\ngroup black 1 K:all\n" + groups
        yield text, 0, f"set too big {min(size, GREATEST)}"
        yield text + "exit draw\n", text.count("\n") + 1, "word 3"


def too_large():
    """Groups beside two kings anywhere, and the numbers of their set: turn states times choices."""
    two_kings = 2 * 64 * 64
    # 113 * 29 * 5 = 16,385, one more than the largest set leaves to them.
    least = "group white 1 Q:all R:a1-g7\ngroup black 1 B:a1-h3 N:a1-e1\ngroup white 1 N:a1-e1\n"
    yield least, two_kings * 113 * 29 * 5
    yield "group white 1 Q:all\ngroup black 1 Q:all\ngroup white 1 R:a1-a5\n", two_kings * 64 * 64 * 5
    # The pawns make a third turn state.
    yield "group white 1 Q:all\ngroup black 1 Q:all\ngroup white 1 P:a4\ngroup black 1 P:b4,b5 R:a1,a2\n", (
        3 * 64 * 64 * 64 * 64 * 4
    )
    yield "group white 2 Q:all\ngroup black 0-2 Q:all\n", two_kings * comb(64, 2) * (1 + 64 + comb(64, 2))
    yield "group white 8 Q:all\n", two_kings * comb(64, 8)
    yield "group white 15 Q:all\n", two_kings * comb(64, 15)
    # With 15 of 64 places 2^64 has room for 14 choices more, and not for 15.
    for last, many in (("a1-g2", 14), ("a1-g2,h1", 15), ("all", 64)):
        yield f"group white 15 Q:all\ngroup black 1 R:{last}\n", two_kings * comb(64, 15) * many
    yield "group white 15 Q:all R:all B:all N:all P:a2-h7\n", two_kings * comb(304, 15)
    yield "group white 0-15 Q:all\ngroup black 0-15 Q:all\n", two_kings * sum(comb(64, n) for n in range(16)) ** 2


def filled(text, length):
    """The text with comments behind it, of so many bytes."""
    more = length - len(text)
    return text + "#" * (more % 64) + ("\n" + "#" * 63) * (more // 64)


def refused():
    """Texts, each with the line and the cause that is told."""
    for text, line in HEADERS:
        yield text, line, "header"
        yield text + "\nrule", line or (text + "\nrule").count("\n") + 1, "header"
    yield from of_lines()
    yield from of_limits()
    yield from of_the_whole()
