"""The command `--version`: which version this is, of which commit, by which kit the program was proved, and the program's digest."""

from __future__ import annotations

from pathlib import Path

from checkout import ROOT, facts_of, is_built, is_release, program_of
from pieces.program import commit, digest, kit
from tables.ending import TEXT, Refused, status_of

VERSION = "VERSION"
NO_PROGRAM = "none that is built of these sources"


def version_of(root: Path) -> str:
    """The version of a checkout."""
    return (root / VERSION).read_text("ascii").strip()


def lines_of(root: Path) -> list[str]:
    """A line for each of these facts."""
    facts = facts_of(root)
    if not facts:
        facts = {"version": version_of(root), "commit": commit() or "unknown", "kit": kit() or "none on the path", "program": NO_PROGRAM}
    if is_built(root):
        facts["program"] = digest(program_of(root).read_bytes())
    return [f"cardhouse {facts['version']}", *(f"{word} {facts[word]}" for word in ("commit", "kit", "program"))]


def show() -> None:
    lines = lines_of(ROOT)
    print("\n".join(lines))
    if is_release(ROOT) and lines[-1] != f"program {facts_of(ROOT)['program']}":
        raise Refused(TEXT, "this isn't the program of the release")


def main() -> int:
    return status_of(show)
