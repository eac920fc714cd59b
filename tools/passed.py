#!/usr/bin/env python3
"""Notes beside the program what the gate passed: digests of the sources and of the program, and the kit's line.

usage: tools/passed.py sources      writes the digest of the sources
       tools/passed.py note DIGEST  notes that the gate passed on the sources of this digest, if they are still the same

A program's time tells whether a source has changed since. What is handed to others is known by its bytes.
"""

from __future__ import annotations

import hashlib
import sys
from pathlib import Path

from checkout import BUILT, ROOT, sources
from pieces.program import digest, kit
from tables.ending import NOT_BUILT, USAGE, Refused, status_of

NOTE = "crates/rc_main/out/passed"
BESIDE = ("crates.txt", "HANDLES")


def digest_of(root: Path) -> str:
    """The digest of all that the program is made of."""
    sums = hashlib.sha256()
    for file in sorted([*sources(root), *(root / name for name in BESIDE)]):
        sums.update(f"{file.relative_to(root)}\0{digest(file.read_bytes())}\n".encode())
    return sums.hexdigest()


def note(root: Path, before: str) -> None:
    """Notes what the gate passed."""
    if digest_of(root) != before:
        raise Refused(NOT_BUILT, "sources have changed since the gate began, so nothing is noted")
    facts = {"sources": before, "program": digest((root / BUILT).read_bytes()), "kit": kit() or "unknown"}
    (root / NOTE).write_text("".join(f"{word} {said}\n" for word, said in facts.items()), "utf-8")


def passed(root: Path) -> dict[str, str]:
    """What the gate passed. Refused where that isn't what stands here."""
    try:
        lines = (root / NOTE).read_text("utf-8").splitlines()
        program = digest((root / BUILT).read_bytes())
    except OSError:
        raise Refused(NOT_BUILT, "the gate hasn't passed here: .ci/run proves and tests all, and builds the program") from None
    facts = {word: said for word, _, said in (line.partition(" ") for line in lines)}
    if facts.get("sources") != digest_of(root):
        raise Refused(NOT_BUILT, "the gate passed on other sources than stand here: .ci/run proves and tests these")
    if facts.get("program") != program:
        raise Refused(NOT_BUILT, "the program isn't the one that the gate proved: .ci/run proves and builds it")
    return facts


def main(words: list[str]) -> int:
    if words == ["sources"]:
        return status_of(lambda: print(digest_of(ROOT)))
    if len(words) == 2 and words[0] == "note":
        return status_of(lambda: note(ROOT, words[1]))
    print((__doc__ or "").strip(), file=sys.stderr)
    return USAGE


if __name__ == "__main__":
    sys.exit(main(sys.argv[1:]))
