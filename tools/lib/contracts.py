"""The public calls of a crate and the names of their clauses, read from its src/."""
import re
from pathlib import Path
from typing import Iterator, NamedTuple, Optional

HEAD = re.compile(r"^( *)(pub )?(?:unsafe |const )?fn (\w+)")
CLAUSE = re.compile(r"^\s*ensures (?:(\w+) )?\{", re.MULTILINE)
BOUNDS = {"below", "bound", "fits", "high", "low", "on_board", "short", "shorter"}  # clauses that limit what comes
EQUATION = re.compile(r"\s*(?:result|\w+\.new)(?:\.\w+)* ≡ |\s*WroteText ")


class Call(NamedTuple):
    """A public call or law: its path in the crate, such as `laws::few_moves` or `Set::at`, and its clauses."""

    path: str
    about: str  # its comment
    clauses: tuple[str, ...]
    plain: bool  # an equation for what it gives, or several, and bounds of it
    of_trait: Optional[str]  # the trait that an `impl` implements


def owner_of(line: str) -> Optional[tuple[str, Optional[str], bool]]:
    """The type of an `impl` or the name of a trait, the trait that is implemented, and whether it is a trait."""
    trait = re.match(r"(?:pub )?trait (\w+)", line)
    if trait:
        return trait.group(1), None, True
    if not re.match(r"impl\b", line):
        return None
    rest, depth = line[4:], 0
    for place, letter in enumerate(rest):
        depth += (letter == "<") - (letter == ">")
        if depth == 0 and letter in "> ":
            rest = rest[place + 1 :]
            break
    named = re.match(r"\s*(?:([\w:]+)(?:<.*>)? for )?(\w+)", rest)
    return (named.group(2), named.group(1), False) if named else None


def contract_of(lines: list[str], indent: int) -> str:
    """The lines between the head of a function and its body."""
    ends = re.compile(r"^ {0,%d}[^\s)]" % indent)
    taken: list[str] = []
    for line in lines:
        if ends.match(line):
            break
        taken.append(line)
    return "\n".join(taken)


def comment_above(lines: list[str]) -> str:
    """The comment in which these lines end."""
    taken: list[str] = []
    for line in reversed(lines):
        if not line.lstrip().startswith("///"):
            break
        taken.insert(0, line.strip(" /"))
    return " ".join(taken)


def functions_of(file: Path) -> Iterator[tuple[Optional[tuple[str, Optional[str], bool]], str, bool, str, str]]:
    """Each function of a file: whose it is, its name, whether it is public, its contract and its comment."""
    owner = None
    lines = file.read_text(encoding="utf-8").split("\n")
    for place, line in enumerate(lines):
        if line.startswith("}"):
            owner = None
        owner = owner_of(line) or owner
        head = HEAD.match(line)
        if head:
            contract = contract_of(lines[place + 1 :], len(head.group(1)))
            about = comment_above(lines[:place])
            yield (owner if head.group(1) else None), head.group(3), bool(head.group(2)), contract, about


def handed_on(text: str) -> dict[str, set[str]]:
    """The names that a file hands on by `pub use`, by their module."""
    found: dict[str, set[str]] = {}
    for use in re.finditer(r"^pub use (?:crate::|self::)?(\w+)::(\{[^}]*\}|\w+);", text, re.MULTILINE):
        names = use.group(2).strip("{}").split(",")
        found.setdefault(use.group(1), set()).update(name.strip() for name in names)
    return found


def calls_in(module: str, file: Path, whole: bool, names: set[str], types: set[str]) -> Iterator[Call]:
    """The public calls of one file, of which all or some names are public, and methods of these types."""
    for owner, name, public, contract, about in functions_of(file):
        found = list(CLAUSE.finditer(contract))
        clauses = tuple(clause[1] or "" for clause in found)
        equations = [bool(EQUATION.match(contract, clause.end())) for clause in found if clause[1] not in BOUNDS]
        plain = bool(equations) and all(equations)
        if owner is None:
            if public and (whole or name in names):
                yield Call(f"{module}::{name}".strip(":"), about, clauses, plain, None)
        elif (owner[2] or public or owner[1]) and (whole or owner[0] in types or owner[1]):
            yield Call(f"{owner[0]}::{name}", about, clauses, plain, owner[1])


def calls_of(crate: Path) -> list[Call]:
    """All public calls of a crate, its laws among them."""
    top = crate / "src/lib.rt"
    if not top.exists():
        return []
    found: list[Call] = []
    types = set().union(*handed_on(top.read_text(encoding="utf-8")).values())

    def walk(file: Path, module: str, whole: bool, names: set[str]) -> None:
        found.extend(calls_in(module, file, whole, names, types))
        text = file.read_text(encoding="utf-8")
        uses = handed_on(text)
        folder = file.parent if file.name == "lib.rt" else file.with_suffix("")
        for public, inner in re.findall(r"^(pub )?mod (\w+);", text, re.MULTILINE):
            handed = uses.get(inner, set()) if whole else set()
            walk(folder / f"{inner}.rt", f"{module}::{inner}".strip(":"), whole and bool(public), handed)

    walk(top, "", True, set())
    return found


def fields_of(crate: Path) -> dict[str, set[str]]:
    """The fields of each record of a crate's specs/; records of one name are taken together."""
    found: dict[str, set[str]] = {}
    for file in sorted((crate / "specs").glob("*.antt")):
        record = None
        for line in file.read_text(encoding="utf-8").split("\n"):
            head = re.match(r"(?:unfoldable )?(?:pub )?record (\w+)", line)
            field = re.match(r" +(?:pub )?(\w+) :", line)
            if head:
                record = found.setdefault(head.group(1), set())
            elif record is not None and field:
                record.add(field.group(1))
            elif line.strip() and not line.startswith(" ") and not line.startswith("--"):
                record = None
    return found
