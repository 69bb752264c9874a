"""Each command in a call that is answered, its refusals in the order of the pages, and their pairs."""

from collections import namedtuple

from lib.refusals import faults
from lib.refusals.case import Case
from lib.refusals.faults import Same, Stage
from lib.refusals.fixtures import (
    A, A_BLACK, A_FILE, A_WHITE, BOUNDS, CHAINED_FILE, FIRSTS_OF_H, H, H_BLACK, H_FILE, H_WHITE, IN_A, IN_H,
    LINE_IN_A, LINE_IN_H, OPEN_IN_A, OPEN_IN_H, OVER_WHITE, PREMISES_OF_H, REPORT_OF_A, SAID_IN_A,
    SAID_IN_H, SAID_TO_ASK, SESSION_IN_A, SESSION_IN_H, SIZE_OF_A, TOLD_BY_ASK, VERDICT_OF_H, altered, files_of, table,
)
from lib.tables import CHAINED, LEANING

MOST_BACKS = 16
# The slots with their right words, the answer, what is typed, what is made, and the stages of refusal.
Command = namedtuple("Command", "slots text stages given made")
BACKS = {"BACK 1": "N.t", "BACK 2": "L.t"}
WRONG_A, WRONG_AT_2 = "wrong white 4 kept 8 given 6", "wrong white 2 kept 8 given 6"


def command(slots, text, *stages, given=b"", made=None):
    return Command(slots, text, stages, given, made or {})


def wrong_plain():
    return faults.wrong(table(A, altered(A_WHITE, at4=8), A_BLACK), WRONG_A)


def wrong_over():
    return faults.wrong(table(H, altered(H_WHITE, at2=8), H_BLACK, LEANING), WRONG_AT_2)


def wrong_chained():
    return faults.wrong(table(A, altered(OVER_WHITE, at4=8), A_BLACK, CHAINED), WRONG_A)


def together(*stages):
    """Faults that cannot come together, or whose order no page names."""
    return Stage([f for found in stages for f in found.all], [f for found in stages for f in found.few])


def behind(is_checked):
    return faults.behind(1, is_checked), faults.behind(2, is_checked)


def freezer():
    """commands.md: `words`, FEN and SIDE; then files, rules before tables, a table before its back table in
    `chaincheck`; then the position, the codes, and what is written."""
    count, fen, table_fen = faults.count, faults.fen(), {"TABLE": "A.t", "FEN": IN_A}
    place, typed = faults.outside(IN_H), {**table_fen, "SIDE": "white"}
    two = {"RULES": "A", "NEW": "new"}
    yield "moves", command({"FEN": IN_A}, "a8b8\n", count(1, 1), fen)
    yield "sans", command({"FEN": IN_A}, "Kb8\n", count(1, 1), fen)
    yield "move", command(
        {"FEN": IN_A, "SAN": "Kb8"}, "a8b8\n1k6/8/1K6/8/8/8/8/7R w - - 0 1\n", count(2, 2), fen, no_move()
    )
    yield "solve", command({"RULES": "A", "FEN": IN_A}, BOUNDS, count(2, 2), fen, faults.rules(), place)
    yield "build", command(
        two, "built 8\n", count(2, 2), faults.same(("RULES", "NEW")), faults.rules(), faults.written(),
        made={"new": A_FILE},
    )
    yield "check", command({"TABLE": "A.t"}, "exact 8\n", count(1, 1), faults.plain(), wrong_plain())
    yield "query", command(table_fen, BOUNDS, count(2, 2), fen, faults.plain(), place)
    yield "chain", command(
        {"RULES": "A", "BACK": "N.t", "NEW": "new"}, "chained 8\n", count(3, 3),
        faults.same(("RULES", "NEW"), ("BACK", "NEW")), faults.rules(), faults.back(), faults.written(),
        made={"new": CHAINED_FILE},
    )
    yield "chaincheck", command(
        {"TABLE": "AN.t", "BACK": "N.t"}, "exact 8 on 2\n", count(2, 2), faults.chained(), faults.back(),
        wrong_chained(),
    )
    yield "chainquery", command(
        {**table_fen, "TABLE": "AN.t"}, BOUNDS, count(2, 2), fen, faults.chained(), place
    )
    last = together(place, faults.unbounded(OPEN_IN_A), wrong_plain())
    for name, text, given in (("line", LINE_IN_A, b""), ("play", SESSION_IN_A, SAID_IN_A)):
        yield name, command(typed, text, count(3, 3), faults.side(), fen, faults.plain(), last, given=given)
    yield "report", command({"TABLE": "A.t"}, REPORT_OF_A, count(1, 1), faults.plain())
    yield "migrate", command(
        {"OLD": "old.t", "NEW": "new"}, "migrated 8\n", count(2, 2), faults.same(("OLD", "NEW")), faults.former(),
        faults.written(), made={"new": A_FILE},
    )
    yield "sample", command({"K": "63"}, None, count(1, 1), faults.number())


def atlas():
    """commands.md: words, names, SIDE and FEN; then the rules or TABLE, and the BACKs from the left; TABLE is
    checked last, and a file is made last."""
    fen, place = faults.fen(), faults.outside(IN_A)
    twice, walked = same_of("TABLE"), {"TABLE": "H.t", "FEN": IN_H, "SIDE": "white", **BACKS}
    count = counted
    yield "build", command(
        {"RULES": "H", "NEW": "new", **BACKS}, "built 4\n", count(2, 2), same_of("RULES", "NEW"), faults.rules(),
        *behind(True), faults.written(), made={"new": H_FILE},
    )
    yield "check", command(
        {"TABLE": "H.t", **BACKS}, "exact 4 over 2 8\n", count(1, 1), twice, faults.either(), *behind(True),
        wrong_over(),
    )
    yield "query", command({"TABLE": "H.t", "FEN": IN_H}, BOUNDS, faults.count(2, 2), fen, faults.either(), place)
    last = together(place, faults.unbounded(OPEN_IN_H), wrong_over())
    for name, text, given in (("line", LINE_IN_H, b""), ("play", SESSION_IN_H, SAID_IN_H)):
        yield name, command(
            walked, text, count(3, 3), twice, faults.side(), fen, faults.either(), *behind(False), last, given=given
        )
    yield "why", command(
        walked, "white wins within 2\n", count(3, 3), twice, faults.side(), fen, faults.either(), *behind(False),
        place,
    )
    yield "verdict", command(
        {"TABLE": "H.t", "FEN": IN_H, **BACKS}, VERDICT_OF_H, count(2, 2), twice, fen, *behind(True), faults.either(),
        wrong_over(), place,
    )
    yield "premises", command(
        {"RULES": "H", **BACKS}, PREMISES_OF_H, count(1, 1), same_of("RULES"), faults.rules(), *behind(True)
    )
    yield "report", command(
        {"TABLE": "H.t", **BACKS}, FIRSTS_OF_H, count(1, 1), twice, faults.either(), *behind(False)
    )
    yield "each", command(
        {"TABLE": "H.t", "FEN": IN_H, **BACKS}, "Kb8 white wins within 1, black none\n", count(2, 2), twice, fen,
        faults.either(), *behind(False), place,
    )
    yield "ask", command(
        {"TABLE": "H.t", **BACKS}, TOLD_BY_ASK, count(1, 1), twice, faults.either(), *behind(False), given=SAID_TO_ASK
    )
    yield "size", command({"RULES": "A"}, SIZE_OF_A, faults.count(1, 1), faults.rules())


def counted(least, before):
    """The number of words of a command of `atlas` with so many words before its BACKs."""
    return faults.count(least, before + MOST_BACKS)


def same_of(*slots):
    """Each two of these slots and of the BACKs."""
    names = [*slots, *BACKS]
    return faults.same(*((one, other) for i, one in enumerate(names) for other in names[i + 1:]))


def no_move():
    says = "commands.md, refused: the text is that of no legal move"
    words = ("", "Kb7", "Ka7", "Kb8+", "kb8", "a8b8", "Kab8", "Kxb8", "Rh8", "b8")
    return faults.stage([faults.Fault("SAN", word, None, 15, "no move", says) for word in words])


def both():
    """Each command of both programs."""
    for program, found in (("freezer", freezer()), ("atlas", atlas())):
        for name, each in found:
            yield program, name, each


def words_of(each, *given):
    """The words of a call with these faults in it, and the files that it meets."""
    slots, most, files = dict(each.slots), None, {}
    for fault in given:
        if fault.slot == "COUNT":
            most = fault.word
        else:
            slots[fault.slot] = fault.word
        if fault.content is not None:
            files[fault.word] = fault.content
    for slot, word in slots.items():
        if isinstance(word, Same):
            slots[slot] = slots[word.slot]
    words = list(slots.values())
    if most is not None:
        words = (words + [f"further.{n}" for n in range(most)])[:most]
    return words, {**files_of(words), **{name: files[name] for name in files if name in words}}


def call(program, name, each, *given, says="", answer=None):
    """A call with these faults, of which the first is answered."""
    words, files = words_of(each, *given)
    status, text, made = answer or ((given[0].status, given[0].text + "\n", {}) if given else (0, each.text, each.made))
    return Case(program, (name, *words), files, status, text, says, given=each.given, made=made)


def alone():
    """Each command in its right call, and with each of its faults."""
    for program, name, each in both():
        if each.text is not None:
            yield call(program, name, each, says="the right call")
        for found in each.stages:
            for fault in found.all:
                yield call(program, name, each, fault, says=fault.says)


def pairs():
    """Each two faults of different stages: the earlier one is told."""
    for program, name, each in both():
        for at, found in enumerate(each.stages):
            for later in each.stages[at + 1:]:
                for fault, other in ((f, o) for f in found.few for o in later.few):
                    if fault.slot != other.slot:
                        says = f"{fault.says}; before: {other.text}"
                        yield call(program, name, each, fault, renamed(other, fault.word), says=says)


def renamed(fault, word):
    """The fault under another name where it has this one, which would be told as the same name."""
    return fault._replace(word=f"./{word}") if fault.word == word else fault


def standing():
    """Each command that writes a file, refused where one of this name is there: it stays as it was."""
    for program, name, each in both():
        if "NEW" not in each.slots:
            continue
        there = faults.Fault("NEW", "there", b"what was there before", None, None, None)
        for found in each.stages:
            for fault in found.few:
                if fault.slot not in ("NEW", "COUNT"):
                    says = f"commands.md, refused: a refusal changes no file; {fault.says}"
                    yield call(program, name, each, fault, there, says=says)
        yield call(program, name, each, there, says="the right call over a file", answer=(
            0, each.text, {"there": each.made["new"]}
        ))
