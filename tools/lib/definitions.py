"""The definitions of the crates' specs/, and those on which one of them rests."""
import re
from pathlib import Path
from typing import Iterator, NamedTuple, Optional

USE = re.compile(r"^(?:unfoldable )?(?:pub )?use Rattle\.(\w+)\.specs\.([\w.]+)\.\{([^}]*)\}", re.MULTILINE)
HEAD = re.compile(r"^( *)((?:(?:abbrev|unfoldable|pub|local|record|data) )*)([^\s:({.]+)(?= |$)")
Place = tuple[str, str, str]  # crate, module, name


class Module(NamedTuple):
    """A module of specs/: what its first lines say, where its imported names stand, and its texts in their order."""

    about: str
    imports: dict[str, Place]
    texts: dict[str, str]


def head_of(line: str) -> Optional[str]:
    """The name that a line begins to define."""
    found = HEAD.match(line)
    if not found or line.lstrip().startswith(("use ", "pub use", "unfoldable pub use", "module ", "}")):
        return None
    indent, words, name = found.groups()
    if not words:
        return name if not indent and re.match(r"^\S+ :", line) else None
    return name if not indent or words != "pub " else None


def read_module(file: Path) -> Module:
    """The definitions of a file, each with the comment above it, and where its other names come from."""
    text = file.read_text(encoding="utf-8")
    imports = {}
    for crate, module, names in USE.findall(text):
        for name in names.split(","):
            first, _, alias = name.strip().partition(" as ")
            imports[alias or first] = (crate, module, first)
    texts: dict[str, list[str]] = {}
    current: Optional[list[str]] = None
    comment: list[str] = []
    for line in USE.sub("", text).split("\n"):
        name = head_of(line)
        if line.lstrip().startswith("--") and not (current and line.startswith("  ") and line[2:3] == "-"):
            comment.append(line)
            continue
        if name is not None and name not in texts:
            current = texts.setdefault(name, [*comment])
        elif current is not None and comment:
            current.extend(comment)
        comment = []
        if current is not None:
            current.append(line)
    about = "\n".join(line for line in text.split("\n\n")[0].split("\n") if line.startswith("--"))
    return Module(about, imports, {name: "\n".join(lines).strip("\n") for name, lines in texts.items()})


class Specs:
    """All modules of specs/, read where they are asked for."""

    def __init__(self, crates: Path, order: list[str]) -> None:
        self.crates, self.order = crates, order
        self.read: dict[tuple[str, str], Optional[Module]] = {}

    def module(self, crate: str, name: str) -> Optional[Module]:
        """A module, or None where no file has it: constants and types of src/ stand in none."""
        if (crate, name) not in self.read:
            file = self.crates / crate / "specs" / f"{name}.antt"
            self.read[crate, name] = read_module(file) if file.exists() else None
        return self.read[crate, name]

    def named(self, name: str) -> list[Place]:
        """Where definitions of this name stand."""
        found = []
        for crate in self.order:
            for file in sorted((self.crates / crate / "specs").glob("*.antt")):
                module = self.module(crate, file.stem)
                if module is not None and name in module.texts:
                    found.append((crate, file.stem, name))
        return found

    def texts(self, crate: str, name: str, words: list[str]) -> dict[str, str]:
        """The texts of these definitions of a module, in its order."""
        module = self.module(crate, name)
        return {word: text for word, text in module.texts.items() if word in words} if module else {}

    def next_ones(self, place: Place) -> Iterator[Place]:
        """The definitions that one names."""
        crate, name, word = place
        module = self.module(crate, name)
        if module is None:
            return
        if word not in module.texts:
            if word in module.imports:
                yield module.imports[word]
            return
        code = re.sub(r"--[^\n]*", "", module.texts[word])
        for token in sorted(set(re.findall(r"\w+", code)) - {word}):
            if token in module.texts:
                yield crate, name, token
            elif token in module.imports:
                yield module.imports[token]

    def under(self, start: Place) -> list[Place]:
        """A definition and all on which it rests, each behind those that it names."""
        found: dict[Place, None] = {}
        opened: set[Place] = set()
        waiting = [start]
        while waiting:
            place = waiting[-1]
            first_time = place not in opened
            opened.add(place)
            further = [other for other in self.next_ones(place) if first_time and other not in opened]
            if further:
                waiting += further
                continue
            waiting.pop()
            module = self.module(place[0], place[1])
            if module is not None and place[2] in module.texts:
                found[place] = None
        return list(found)
