"""The rules texts of `texts` before each command that reads one, in a file and in the head of a table."""

from math import comb

from lib.refusals import texts
from lib.refusals.commands import both, call
from lib.refusals.faults import Fault
from lib.refusals.heads import head_file
from lib.refusals.texts import KINGS, LARGEST, LONGEST, MANY, filled
from lib.tables import CHAINED, FORMER, LEANING, MAGIC

# The slots of files, the word before a refusal of theirs, and the magic of the file in this place.
OPENED = {"TABLE": "table", "BACK": "back", "BACK 1": "back 1", "BACK 2": "back 2", "OLD": "table"}
KINDS = {("freezer", "chaincheck"): CHAINED, ("freezer", "chainquery"): CHAINED, ("freezer", "migrate"): FORMER}
FORMER_LARGEST = 2**24


def accepted_lines():
    """Lines behind the two kings that are read, and by how much they make the set larger."""
    for squares, states in texts.SQUARES:
        yield f"group white 1 Q:{squares}", states
        yield f"forbid black K from {squares} to {squares} promotion", 1
        yield f"exit draw if on:white:Q:{squares}", 1
    for word in ("1", "01", "000000001", "1-1", "01-000000001"):
        yield f"group white {word} N:b1,b2,b3", 3
    for word, choices in (("0-1", 4), ("0-3", 8), ("3", 1), ("2-3", 4), ("00-02", 7)):
        yield f"group black {word} N:b1,b2,b3", choices
    for word in texts.RANGES:
        yield f"exit draw if count:white:Q:{word} distance:black:d8:{word}", 1
    for word in texts.LAGS:
        yield f"exit black wins {word} if always", 1
    for word in texts.EXITS:
        yield f"exit {word} if check", 1
    for word in texts.CONDS:
        yield f"exit unknown if {word}", 1
        yield f"exit white wins 0 if always {word} {word}", 1
    for kind in "KQRBNP":
        yield f"forbid white {kind} from all to a1-h8", 1
        yield f"forbid black {kind} from a1 to a2 capture", 1
        yield f"forbid black {kind} from a1 to a2 promotion", 1
    # Twice the same state, other states of one square, and the square of a king of either side.
    for line, states in (("Q:a2,a2 Q:a2", 1), ("Q:a2 R:a2", 2), ("Q:a1 R:h8", 2), ("N:h8 B:h8 Q:h8 R:h8 P:h7", 5)):
        yield f"group white 1 {line}", states


def accepted():
    """Texts that are read, each with the size of its set."""
    for line, times in accepted_lines():
        yield KINGS + line + "\n", 2 * times
    for text in (KINGS[:-1], "\n# a text\n\n" + KINGS, KINGS.replace("\n", "\r\n"), KINGS.replace(" ", " \t\r "),
                 KINGS.replace("group", "  group"), KINGS + "\n\n#\n # \xff\0\n\t#", KINGS.replace("\n", "\n#rule\n")):
        yield text, 2
    yield from limits()


def limits():
    """Texts at each limit."""
    forbids, exits = 64 * "forbid white Q from a1 to a2\n", 128 * ("exit draw if" + 8 * " always" + "\n")
    yield KINGS + forbids + exits, 2
    yield filled(KINGS, LONGEST), 2
    yield filled(KINGS, LONGEST - 1), 2
    men = "".join(f"group white 1 R:{file}2\ngroup black 1 R:{file}7\n" for file in "abcdefgh")
    men += "".join(f"group white 1 N:{file}2\ngroup black 1 N:{file}7\n" for file in "abcdefg")
    yield KINGS + men, 2
    yield MANY + "group white 2 R:a1,a2,a3\ngroup black 15 R:a1-b8\n", 2 * 3 * 16
    yield KINGS + "group white 15 Q:a1-a8,b1-b8\n", 2 * 16
    anywhere = "freezer 1\ngroup white 1 K:all\ngroup black 1 K:all\ngroup white 1 Q:all\ngroup black 1 Q:all\n"
    yield anywhere + "group white 1 R:a1-a4\n", LARGEST
    yield anywhere + "group white 0-2 R:a1,a2\n", LARGEST
    yield anywhere + "group white 1 R:a1-a3\n", 2 * 64**4 * 3


def turn_states():
    """Pawns that make further turn states, and some that do not."""
    for white, black, states in (
        ("a4", "b4", 3), ("a5", "b5", 3), ("b4", "a4,c4", 3), ("a2-h7", "a2-h7", 18), ("a4", "c4", 2), ("a3", "b3", 2),
        ("a4,h5", "b4,g5", 4), ("h4", "a4,a5", 2), ("a4", "b5", 2), ("a2", "b4", 2),
    ):
        squares = {"a2-h7": 48, "a4,c4": 2, "a4,h5": 2, "b4,g5": 2, "a4,a5": 2}
        size = states * squares.get(white, 1) * squares.get(black, 1)
        yield KINGS + f"group white 1 P:{white}\ngroup black 1 P:{black}\n", size


def readers():
    """Each command with a slot of a rules text or of a table, the slot, and the kind of the table."""
    for program, name, each in both():
        for slot in each.slots:
            if slot == "RULES" or slot in OPENED:
                leans = program == "atlas" and (slot == "TABLE" or slot == "BACK 2")
                kind = LEANING if leans else KINDS.get((program, name), MAGIC) if slot != "BACK" else MAGIC
                yield program, name, each, slot, kind


def refused_by(text, line, cause, program, name, each, slot, kind):
    """The text before a command, which refuses it with this line and cause."""
    says = f"formats.md, Causes: `{cause}`"
    if slot == "RULES":
        fault = Fault(slot, "bad.rules", text.encode("latin-1"), 3, f"rules {line}: {cause}", says)
    else:
        content = head_file(kind, text)
        fault = Fault(slot, "bad.head", content, 5, f"{OPENED[slot]}: rules {line}: {cause}", says)
    return call(program, name, each, fault, says=says)


def refused():
    """Each refused text by some commands in turn, and every eleventh by all."""
    by = list(readers())
    for number, (text, line, cause) in enumerate(texts.refused()):
        for place, reader in enumerate(by):
            first = reader[:2] in (("freezer", "solve"), ("freezer", "check"), ("atlas", "size"))
            if first or (number + place) % len(by) < 2 or number % 11 == 0:
                yield refused_by(text, line, cause, *reader)


def read():
    """Texts that are accepted: the next thing in order is refused instead, and the size is told."""
    by = {(program, name): each for program, name, each in both()}
    says = "formats.md, Rules: the text has these forms, and no cause comes"
    for text, size in (*accepted(), *turn_states()):
        raw = text.encode("latin-1")
        for program, name, missing in (
            ("freezer", "chain", "back"), ("atlas", "build", "back 1"), ("atlas", "premises", "back 1"),
        ):
            slot = missing.upper()
            rules = Fault("RULES", "good.rules", raw, 0, "", says)
            gone = Fault(slot, "nowhere", None, 12, f"missing {missing}", says)
            yield call(program, name, by[program, name], gone, rules, says=says)
        fault = Fault("TABLE", "good.head", head_file(MAGIC, text), 5, f"table: size 0 due {size}", says)
        yield call("freezer", "check", by["freezer", "check"], fault, says=says)


def former_sizes():
    """Texts of the former format with the line and cause, or the size, that opening tells."""
    anywhere = "freezer 1\ngroup white 1 K:all\ngroup black 1 K:all\n"
    for groups, size in (
        ("group white 1 Q:all\ngroup black 1 R:a1-h4\n", FORMER_LARGEST),
        ("group white 2 Q:a1-h4\n", 2 * 64**2 * 32**2),
        ("group white 1 Q:all\ngroup black 1 R:a1-h4,a5\n", 2 * 64**3 * 33),
        ("group white 1 Q:a1-e8,f1-g5\ngroup black 1 R:a1-h5,a6\n", 2 * 64**2 * 50 * 41),
        ("group white 0-2 Q:a1-h5\n", 2 * 64**2 * 41 * 41), ("group white 1-2 Q:a1-h5\n", 2 * 64**2 * 40 * 41),
        ("group white 2 Q:all\n", 2 * 64**4), ("group white 2-3 N:a1-a8\n", 2 * 64**2 * 8 * 8 * 9),
        ("group white 15 Q:a1-b8\n", 2 * 64**2 * 16**15),
    ):
        yield anywhere + groups, size
    yield KINGS + "group white 0-15 Q:a1-b8\n", 2 * 17**15
    yield KINGS + "group white 3 N:all\n", 2 * 64**3


def migrations():
    """`migrate` of these; and a set that is too large in both formats, where the text's own cause comes first."""
    each = next(each for _, name, each in both() if name == "migrate")
    for text, size in former_sizes():
        cause = f"size 0 due {size}"
        if size > FORMER_LARGEST:
            cause = f"rules 0: set too big {min(size, 2**64 - 1)}"
        says = "former.md: step 6 refuses a size above 16,777,216; step 7 has the former size"
        yield call("freezer", "migrate", each, Fault(
            "OLD", "old.head", head_file(FORMER, text), 5, f"table: {cause}", says
        ), says=says)
    both_large = (
        "freezer 1\ngroup white 1 K:all\ngroup black 1 K:all\ngroup white 2 Q:all\ngroup black 2 Q:all\n"
        "group black 1 R:a1-a5\n"
    )
    size = 2 * 64 * 64 * comb(64, 2) ** 2 * 5
    says = "former.md: after all causes of the text"
    yield call("freezer", "migrate", each, Fault(
        "OLD", "old.head", head_file(FORMER, both_large), 5, f"table: rules 0: set too big {size}", says
    ), says=says)


def sizes():
    """`size` of sets at the limit and of others, whole."""
    each = next(each for program, name, each in both() if (program, name) == ("atlas", "size"))
    for groups, turns, choices in (
        ("white 1 K:all/black 1 K:all/white 1 Q:all/black 1 Q:all/white 1 R:a1-a4", 2, (64, 64, 64, 64, 4)),
        ("white 1 K:a1/black 1 K:h8", 2, (1, 1)),
        ("white 1 K:e1,g1/black 1 K:e8/white 1-2 R:a1,h1 B:c1/black 0-1 P:d4/white 1 P:e4", 3, (2, 1, 6, 2, 1)),
        ("white 1 K:all/black 1 K:all/white 0-2 R:all", 2, (64, 64, 2081)),
    ):
        text = "freezer 1\n" + "".join(f"group {line}\n" for line in groups.split("/"))
        numbers = turns
        for count in choices:
            numbers *= count
        told = "".join(f"group {k} {count}\n" for k, count in enumerate(choices, 1))
        answer = f"turns {turns}\n{told}numbers {numbers}\ndisk {16 + len(text) + 8 * numbers}\nmemory {16 * numbers}"
        says = "commands.md, size: turn states, choices, their product, bytes of the table and of the lists"
        yield call("atlas", "size", each, Fault("RULES", "good.rules", text.encode(), 0, answer, says), says=says)


def cases():
    yield from refused()
    yield from read()
    yield from migrations()
    yield from sizes()
