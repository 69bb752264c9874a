"""Random rules texts of small sets, and texts with one fault."""

from lib.chess import beside, name_of, shifted
from lib.rules import Refused, read_rules, read_squares, size_of

LIMITS = (400,) * 28 + (2_000,) * 9 + (6_000,) * 2 + (20_000,)
LARGE_LAGS_UP_TO = 400
PIECES = "QRRBBNN"
# What is said, or not, of all positions outside that no earlier exit line tells of.
LAST_EXITS = (
    [], [], ["exit draw if always"], ["exit white holds if always"], ["exit black holds if always"],
    ["exit white wins if turn:black", "exit black wins if turn:white"],
    ["exit white holds if !turn:white", "exit black wins 2 if always"],
    ["exit black wins if turn:black", "exit white wins 5 if turn:white"],
)


def some_squares(random, most, pawns=False):
    """A text of squares: a few of their own, or a rectangle."""
    low, high = (1, 6) if pawns else (0, 7)
    if random.random() < 0.4 and most > 3:
        files = random.choice([(w, h) for w in range(1, 5) for h in range(1, 5) if w * h <= most])
        file = random.randint(0, 8 - files[0])
        rank = random.randint(low, max(low, high + 1 - files[1]))
        top = min(high, rank + files[1] - 1)
        return f"{name_of(8 * rank + file)}-{name_of(8 * top + file + files[0] - 1)}"
    count = random.randint(1, max(1, min(most, 5)))
    return ",".join(name_of(random.randint(8 * low, 8 * high + 7)) for _ in range(count))


def any_squares(random):
    return "all" if random.random() < 0.45 else some_squares(random, 16)


def spelled(random, number):
    """A number, now and then with zeros in front."""
    return ("0" if random.random() < 0.05 else "") + str(number)


def colour(random):
    return random.choice(("white", "black"))


def pawn_groups(random):
    """Pawns that stand against each other, or beside each other so that one may pass."""
    file = random.randrange(8)
    white = random.choice((1, 1, 2, 3)) * 8 + file
    if random.random() < 0.35:
        step = 16 if white // 8 == 1 else 8
        return [f"group white 1 P:{name_of(white)}", f"group black 1 P:{name_of(white + step)}"]
    mover = colour(random)
    home, passed = (8, 24) if mover == "white" else (48, 32)
    near = random.choice(beside(passed + file))
    count = random.choice(("1", "0-1"))
    other = "black" if mover == "white" else "white"
    start, end = name_of(home + file), name_of(passed + file)
    lines = [
        f"group {mover} {random.choice(('1', '0-1'))} P:{start},{end}",
        f"group {other} {count} P:{name_of(near)}",
    ]
    if random.random() < 0.3:
        further = shifted(near, 0, -1 if mover == "white" else 1)
        lines[1] += f",{name_of(further)}"
    return lines


def piece_group(random, room):
    """One man or several like men, of one kind or two."""
    places = [f"{random.choice(PIECES)}:{some_squares(random, room)}"]
    if random.random() < 0.25:
        places.append(f"{random.choice(PIECES)}:{some_squares(random, 3)}")
    if random.random() < 0.12:
        places.append(f"P:{some_squares(random, 3, pawns=True)}")
    count = random.choice(("1", "1", "1", "0-1", "0-1", "0-2", "1-2", "2", "0-3", "2-3"))
    return f"group {colour(random)} {count} {' '.join(places)}"


def advanced_pawn(random):
    """A pawn that becomes another man within the set, or leaves it so."""
    side, file = colour(random), random.choice("abcdefgh")
    low, high, last = ("5", "7", "8") if side == "white" else ("2", "4", "1")
    kinds = random.choice(("Q", "QR", "QN", "RB"))
    pieces = " ".join(f"{kind}:{file}{last}" for kind in kinds)
    return f"group {side} {random.choice(('1', '0-1'))} P:{file}{low}-{file}{high} {pieces}"


def forbid_line(random, men):
    """Mostly of a man that some group has."""
    only = random.choice(("", "", " capture", " promotion"))
    side, kind = random.choice(men) if random.random() < 0.8 else (colour(random), "P")
    return f"forbid {side} {kind} from {any_squares(random)} to {any_squares(random)}{only}"


def men_of(groups):
    """The colours and kinds of men that the group lines name."""
    words = [line.split() for line in groups]
    return [(line[1], place[0]) for line in words for place in line[3:]]


def condition(random):
    kind, side = random.choice("KQRBNP"), colour(random)
    least = random.randint(0, 2)
    span = random.choice((f"{least}", f"{least}-{least + random.randint(0, 3)}"))
    test = random.choice((
        f"turn:{side}", f"count:{side}:{kind}:{span}", f"count:{side}:{kind}:0-1",
        f"on:{side}:{kind}:{some_squares(random, 16)}", f"on:{side}:K:{some_squares(random, 16)}",
        f"distance:{side}:{name_of(random.randrange(64))}:{span}", "check", "always",
    ))
    return random.choice(("", "", "!")) + test


def exit_line(random, most_lag):
    lag = spelled(random, random.randint(0, most_lag))
    value = random.choice((
        "draw", "unknown", f"{colour(random)} wins", f"{colour(random)} wins",
        f"{colour(random)} holds", f"{colour(random)} wins {lag}", f"{colour(random)} wins {lag}",
    ))
    conditions = " ".join(condition(random) for _ in range(random.choice((1, 1, 1, 2, 3))))
    return f"exit {value} if {conditions}"


def dressed(random, lines):
    """The lines as a user may write them: with comments, tabs, blanks and carriage returns."""
    end = random.choice(("\n", "\n", "\n", "\r\n"))
    text = ""
    for line in lines:
        if random.random() < 0.1:
            text += random.choice(("", "# a note: group white", "  #exit", "\t ")) + end
        if random.random() < 0.15:
            line = "  " + line.replace(" ", random.choice(("  ", "\t", " \t ")))
        text += line + end
    return text[:-len(end)] if random.random() < 0.1 else text


def random_text(random):
    """An accepted text, of no more numbers than a limit drawn for it."""
    limit = random.choice(LIMITS)
    while True:
        room = 4 if limit < 1_000 else 12
        lines = ["freezer 1"]
        groups = [
            f"group white 1 K:{some_squares(random, room)}",
            f"group black 1 K:{some_squares(random, room)}",
        ]
        if random.random() < 0.45:
            groups += pawn_groups(random)
        if random.random() < 0.2:
            groups.append(advanced_pawn(random))
        groups += [piece_group(random, room) for _ in range(random.randint(0, 3))]
        random.shuffle(groups)
        men = men_of(groups)
        further = [forbid_line(random, men) for _ in range(random.choice((0, 0, 1, 2, 4)))]
        most_lag = 1_000 if limit <= LARGE_LAGS_UP_TO and random.random() < 0.2 else 30
        further += [exit_line(random, most_lag) for _ in range(random.choice((0, 1, 2, 4, 6)))]
        further += random.choice(LAST_EXITS)
        text = dressed(random, lines + groups + further)
        try:
            size = size_of(read_rules(text).groups)
        except Refused:
            continue
        if limit // 20 < size <= limit:
            return text


def narrowed_text(random, text):
    """An accepted text of a smaller set, which is often left for the set of the text given."""
    while True:
        lines = [line.split() for line in text.split("\n")]
        groups = [words for words in lines if words[:1] == ["group"]]
        for words in random.sample(groups, random.randint(1, 2)):
            squares = sorted(read_squares(words[3][2:]))
            words[3] = words[3][:2] + name_of(random.choice(squares))
        kept = [words for words in lines if words[:1] != ["exit"] or random.random() < 0.4]
        narrowed = "".join(" ".join(words) + "\n" for words in kept)
        try:
            read_rules(narrowed)
        except Refused:
            continue
        return narrowed


# Lines that end a text for a plain table; the last three do not.
ENDING = ["exit unknown if always"] * 5
ENDING += ["exit unknown if !always", "exit unknown if always always", "exit unknown if check"]


def followed_text(random, text):
    """The text with lines behind one that gives no value, which are asked behind all tables."""
    lines = [random.choice(ENDING), *(exit_line(random, 30) for _ in range(random.randint(0, 3)))]
    lines += random.choice(LAST_EXITS)
    return text.rstrip("\r\n") + "\n" + dressed(random, lines)


def numbered_text(random, text):
    """The text with plies in each exit line by which a side wins, so that its wins count in tables over it."""
    lines = text.split("\n")
    for place, line in enumerate(lines):
        words = line.split()
        if words[:1] == ["exit"] and words[2] == "wins" and words[3] == "if":
            words.insert(3, str(random.choice((random.randint(0, 30), random.randint(0, 30), 1_000))))
            lines[place] = " ".join(words)
    return "\n".join(lines)


def spoilt_fen(random, fen):
    """A FEN as a user may write it, now and then with one fault."""
    fields = fen.split(" ")
    change = random.randrange(12)
    if change == 0:
        del fields[random.randrange(len(fields))]
    elif change == 1:
        place = random.randrange(len(fields))
        fields[place] = fields[place].replace(random.choice(fields[place]), random.choice("18kKpPx/-wb0"), 1)
    elif change == 2:
        fields = fields[:4]
    blank = random.choice(("", "", " ", "\t", "\r", "  "))
    return blank + random.choice((" ", " ", "  ")).join(fields) + random.choice(("", "", blank))


def spoilt_text(random, text):
    """The text with one change somewhere, which may make it refused."""
    lines = text.split("\n")
    place = random.randrange(len(lines))
    words = lines[place].split(" ")
    at = random.randrange(len(words))
    change = random.randrange(8)
    if change == 0:
        del lines[place]
    elif change == 1:
        lines.insert(place, random.choice(lines))
    elif change == 2:
        del words[at]
    elif change == 3:
        words.insert(at, random.choice(text.split() + ["17", "1-0", "h8-a1", "0-16"]))
    elif change == 4:
        words[at] = random.choice(text.split() + ["1001", "Z:a1", "P:all", "if"])
    elif change == 5:
        words[at] = words[at][:-1] + random.choice("0189ahKP:,-!x")
    elif change == 6:
        words[at] = words[at].replace("1", random.choice(("0", "2", "16", "1-9")))
    else:
        lines.append(random.choice(FAULTS))
    if change in (2, 3, 4, 5, 6):
        lines[place] = " ".join(words)
    return "\n".join(lines)


FAULTS = (
    "group white 1 P:all", "group white 9 N:all", "group black 15 B:all", "group white 1 K:a1 Q:a2",
    "group white 2 K:a1,a2", "exit white loses if always", "exit draw if", "exit draw",
    "exit draw if " + "always " * 9, "forbid white R from a1", "gruop white 1 R:a1",
    "group white 16-1 R:all", "group white 1-16 R:all", "exit white wins 01000 if always",
    "exit white wins 1001 if check", "group black 1 N:a1-h8 B:all R:all Q:all",
)
