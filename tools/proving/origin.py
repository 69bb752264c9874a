"""Where the programs come from: their sums, and the commit and the kit of the repository in which they were built."""

import hashlib
import os
import subprocess
from dataclasses import dataclass
from typing import Optional


@dataclass(frozen=True)
class Origin:
    """A program, and what is known of it."""

    name: str
    sha256: str
    commit: Optional[str]
    kit: Optional[str]


def sha256_of(path):
    made = hashlib.sha256()
    with open(path, "rb") as file:
        while piece := file.read(1 << 20):
            made.update(piece)
    return made.hexdigest()


def repository_of(path):
    """The repository in whose crates/NAME/out/ the program lies, or None."""
    name = os.path.basename(path)
    crates, *inner = path.rsplit(f"/{name}/out/{name}", 1)
    top = os.path.dirname(crates)
    return top if inner == [""] and os.path.isfile(os.path.join(top, "build", "kit")) else None


def origin_of(name, path) -> Origin:
    path = os.path.realpath(path)
    top = repository_of(path)
    return Origin(name, sha256_of(path), top and commit_of(top), top and kit_of(top))


def commit_of(top):
    """The commit of the repository, or None where git knows none."""
    try:
        done = subprocess.run(
            ["git", "-C", top, "rev-parse", "HEAD"], stdout=subprocess.PIPE, stderr=subprocess.DEVNULL, text=True,
            check=False,
        )
    except OSError:
        return None
    return done.stdout.strip() if done.returncode == 0 else None


def kit_of(top):
    with open(os.path.join(top, "build", "kit"), encoding="utf-8") as file:
        return file.read().strip()
