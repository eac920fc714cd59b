"""Where the program stands: in a checkout below its crate, where it may be older than its sources, or in a release."""

from __future__ import annotations

import os
from collections.abc import Iterator
from pathlib import Path

ROOT = Path(__file__).resolve().parent.parent
NOT_BUILT = "the program isn't built of these sources: ./cardhouse build proves and builds it"

# In the folder of a release: what it was made of, a word and what it stands for a line; and the program.
FACTS, RELEASED = "RELEASE", "program"
BUILT = "crates/rc_main/out/rc_main"


def sources(root: Path) -> Iterator[Path]:
    """The files that the program is made of: those of all crates but the ones of tests."""
    for folder, folders, files in os.walk(root / "crates"):
        folders[:] = [it for it in folders if it not in ("out", "rc_games") and not (it.startswith("rc_") and it.endswith("_tests"))]
        yield from (Path(folder, file) for file in files if file.endswith((".rt", ".antt")))


def is_release(root: Path) -> bool:
    """Whether this folder is that of a release, and not a checkout."""
    return (root / FACTS).is_file()


def program_of(root: Path) -> Path:
    """Where the program is to stand."""
    return root / (RELEASED if is_release(root) else BUILT)


def is_built(root: Path = ROOT) -> bool:
    """Whether the program is there and none of its sources has changed since, as the script `cardhouse` has it."""
    program = program_of(root)
    if not os.access(program, os.X_OK):
        return False
    made = program.stat().st_mtime_ns
    return is_release(root) or all(file.stat().st_mtime_ns <= made for file in sources(root))


def facts_of(root: Path) -> dict[str, str]:
    """What a release was made of: its version, the commit, the kit's line and the digest of the program. Empty for a checkout."""
    if not is_release(root):
        return {}
    lines = (root / FACTS).read_text("utf-8").splitlines()
    return {word: said for word, _, said in (line.partition(" ") for line in lines)}
