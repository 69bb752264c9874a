"""What crates.txt says: the crates of this repository, and those on which each of them stands."""
from pathlib import Path
from typing import Iterable

REPOSITORY = Path(__file__).resolve().parent.parent.parent
CRATES = REPOSITORY / "crates"


def stands_on() -> dict[str, list[str]]:
    """The crates of this repository that each names."""
    text = (REPOSITORY / "crates.txt").read_text(encoding="utf-8")
    parts = (line.split("#")[0].partition(":") for line in text.splitlines())
    named = {name.strip(): rest.split() for name, _, rest in parts if name.strip()}
    return {name: [other for other in others if other in named] for name, others in named.items()}


def lowest_first(tops: Iterable[str] = ()) -> list[str]:
    """These crates and all below them, or all crates, each behind those that it names."""
    named = stands_on()
    found: dict[str, None] = {}

    def put(name: str) -> None:
        """Puts a crate behind those below it."""
        if name not in found:
            for other in named[name]:
                put(other)
            found[name] = None

    for name in tops or named:
        put(name)
    return list(found)
