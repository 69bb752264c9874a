"""Small texts and tables with codes worked out by hand, and the calls over them that are answered."""

from lib.tables import CHAINED, FORMER, LEANING, MAGIC, OLDER, table_file

MAGICS = (MAGIC, CHAINED, LEANING, FORMER, OLDER)

# Two kings and a rook, as examples/A: 73 bytes, 8 numbers, a table of 153 bytes.
A = "freezer 1\ngroup white 1 K:b6\ngroup white 1 R:h1,h8\ngroup black 1 K:a8,b8\n"
# White to move: mate by Rh8 from 0 and 1; 2 and 3 are broken. Black to move: Kb8 alone from 4; from 5
# Ka8, and Kc8 out of the set, where nothing is known; 6 and 7 are mate.
A_WHITE, A_BLACK = [4, 4, 0, 0, 6, 5, 2, 2], [5, 5, 0, 0, 7, 7, 3, 3]
# Where Black's king has stepped to c8. Each move leaves the set, and White wins.
N = "freezer 1\ngroup white 1 K:b6\ngroup white 1 R:h1\ngroup black 1 K:c8\nexit white wins if always\n"
N_WHITE, N_BLACK = [4, 4], [5, 5]
# A over N: Kc8 from 5 is a win of White's now.
OVER_WHITE = [4, 4, 0, 0, 6, 6, 2, 2]
# The rook on h2, over N and A over N: Rh1 and Rh8 lead into the second of them. From 3 Kc8 leads nowhere.
H = "freezer 1\ngroup white 1 K:b6\ngroup white 1 R:h2\ngroup black 1 K:a8,b8\n"
H_WHITE, H_BLACK = [4, 4, 6, 5], [5, 5, 7, 7]


def table(text, white, black, magic=MAGIC):
    return table_file(text, {"white": white, "black": black}, magic)


def altered(codes, **changes):
    """The codes with others at some numbers: `altered(codes, at4=8)`."""
    return [changes.get(f"at{number}", code) for number, code in enumerate(codes)]


A_FILE = table(A, A_WHITE, A_BLACK)
N_FILE = table(N, N_WHITE, N_BLACK)
CHAINED_FILE = table(A, OVER_WHITE, A_BLACK, CHAINED)
L_FILE = table(A, OVER_WHITE, A_BLACK, LEANING)
H_FILE = table(H, H_WHITE, H_BLACK, LEANING)
FORMER_FILE = table(A, A_WHITE, A_BLACK, FORMER)

# What each name is in every call that has it among its words.
FILES = {
    "A": A.encode(), "N": N.encode(), "H": H.encode(), "A.t": A_FILE, "N.t": N_FILE, "AN.t": CHAINED_FILE,
    "L.t": L_FILE, "H.t": H_FILE, "old.t": FORMER_FILE, "folder": None, "loop": "loop", "gone": "nowhere",
    "white": A_FILE,
}

# In A: Black is to move, number 4; the same with White's rook on h2 in H, number 2.
IN_A, IN_H = "k7/8/1K6/8/8/8/8/7R b - - 0 1", "k7/8/1K6/8/8/8/7R/8 b - - 0 1"
# In A and H: numbers 5 and 3, where White has no bound by the plain table of A, and by that of H.
OPEN_IN_A, OPEN_IN_H = "1k6/8/1K6/8/8/8/8/7R b - - 0 1", "1k6/8/1K6/8/8/8/7R/8 b - - 0 1"
# In A, number 0.
MATE_IN_ONE = "k7/8/1K6/8/8/8/8/7R w - - 0 1"
# In no set here.
OUTSIDE = "7k/8/8/8/8/8/8/K7 w - - 0 1"

BOUNDS = "white wins within 2\nblack none\n"
LINE_IN_A = "white wins within 2\na8b8\nh1h8\nmate\n"
SAID_IN_A, SESSION_IN_A = b"a8b8\n", "white wins within 2\nreply a8b8\nmove h1h8\nmate\n"
LINE_IN_H = (
    "white wins within 2\na8b8\nh2h1\nexit white wins\nback 2\nwhite wins within 2\nb8a8\nh1h8\nmate\n"
)
SAID_IN_H = b"a8b8\nb8a8\n"
SESSION_IN_H = (
    "white wins within 2\nreply a8b8\nmove h2h1\nexit white wins\nback 2\nwhite wins within 2\n"
    "reply b8a8\nmove h1h8\nmate\n"
)
N_BELIEVED = "line 5 believed 2k5/8/1K6/8/8/8/8/R7 b - - 0 1\n"
PREMISES_OF_H = (
    f"back 1\n{N_BELIEVED}back 2\nrules\nbelieved 1\nwhite true if believed\nblack true if believed\n"
)
# H leans on the tables behind it, so its wins have no number of plies to the mate.
VERDICT_OF_H = f"{IN_H}\nwhite wins\nback 1 {N_BELIEVED}believed 1\n"
SIZE_OF_A = "turns 2\ngroup 1 1\ngroup 2 2\ngroup 3 2\nnumbers 8\ndisk 153\nmemory 128\n"
# 6 king's and 13 rook's moves from 0, 5 and 13 from 1, and Kc8 from 5.
REPORT_OF_A = "exits 38 KRk\nsqueezes 0 unassigned 38\n"
# The first of them is Ra1 from 0, and `atlas` names the position behind it.
BEHIND_RA1 = "k7/8/1K6/8/8/8/8/R7 b - - 0 1"
FIRSTS_OF_A = f"exits 38 KRk {BEHIND_RA1}\nsqueezes 0 unassigned 38\n"
# Over N, which tells of Kc8.
FIRSTS_OF_L = f"exits 37 KRk {BEHIND_RA1}\nsqueezes 0 unassigned 37\n"
# From 0 and 1 the rook has 2 moves into A; 18 and 17 are left, and Kc8 from 3.
# Ra2 from 0 is the first of them, since Rh1 leads into A.
FIRSTS_OF_H = "exits 36 KRk k7/8/1K6/8/8/8/R7/8 b - - 0 1\nsqueezes 0 unassigned 36\n"
# What `ask` answers by H over N and A: of H, of the second and of the first behind it, of none, and no position.
ASKED_IN_H = (
    (IN_H, "white wins within 2, black fails within 2"), (OPEN_IN_A, "back 2 white wins within 2, black fails within 2"),
    ("2k5/8/1K6/8/8/8/8/7R w - -", "back 1 white wins within 1, black fails within 1"), (OUTSIDE, "outside"),
    ("", "fen: fields"), ("k7/8/1K7/8/8/8/8/7R b - - 0 1", "fen: placement 6"),
)
SAID_TO_ASK = "".join(f"{line}\n" for line, _ in ASKED_IN_H).encode()
TOLD_BY_ASK = "".join(f"{answer}\n" for _, answer in ASKED_IN_H) + "input ended\n"


def files_of(words):
    """The files that these words name, and the file through which a path goes."""
    found = {}
    for word in words:
        if isinstance(word, str):
            name = word.split("/")[0]
            if name in FILES:
                found[name] = FILES[name]
    return found
