#!/usr/bin/env python3
"""Holds what is said of crates against their files: `crates.txt`, the picture of docs/ARCHITECTURE.md, and the heads of the crates.

usage: tools/crates.py          says what is wrong
       tools/crates.py drop     takes out of crates.txt what a crate never names

- `crates.txt` lists the crates that are there, and for each the libraries that its code, definitions and proofs name, and no
  others: the kit itself finds what a library stands on.
- The picture has each crate once. A crate stands on crates of lower lines, or on one further right in its own.
- Each crate begins with a sentence on what it does, and says there on which crates it stands and, where that matters, on which it
  never stands. Of those that its line of crates.txt lists it names only those on which none of the others stands.
- A line of docs/PROVED.md has at most 500 letters, so that a change of one sentence is a change of few.
"""

from __future__ import annotations

import re
import sys
from collections.abc import Iterator
from pathlib import Path

ROOT = Path(__file__).resolve().parent.parent
PICTURE, LONG_PAGE, MOST_LETTERS = "docs/ARCHITECTURE.md", "docs/PROVED.md", 500

CRATE = re.compile(r"\brc_\w+")
COMMENT = {".rt": re.compile(r"//.*"), ".antt": re.compile(r"--.*")}
FOLDERS = ("src", "specs", "proofs")

# A library in front of a path: in code as in `rc_a::f`, in definitions, proofs and ghost imports as in `Rattle.rc_a.specs.A`.
NAMED = re.compile(r"\bRattle\.(\w+)|(?<![:\w])(\w+)::")


def listed(root: Path) -> dict[str, list[str]]:
    """The crates in the order of crates.txt, with the libraries that are listed for each."""
    return listed_in((root / "crates.txt").read_text("utf-8"))


def listed_in(text: str) -> dict[str, list[str]]:
    """The crates that a text of crates.txt lists."""
    pairs = (line.split(":") for line in text.splitlines() if line and not line.startswith("#"))
    return {words.split()[0]: libraries.split() for words, libraries in pairs}


def sources(folder: Path) -> Iterator[Path]:
    """The code, definitions and proofs of a crate."""
    for part in FOLDERS:
        for suffix in COMMENT:
            yield from sorted(folder.glob(f"{part}/**/*{suffix}"))


def named_in(file: Path) -> set[str]:
    """The names that stand in front of a path in a file, outside of comments."""
    text = COMMENT[file.suffix].sub("", file.read_text("utf-8"))
    return {found[1] or found[2] for found in NAMED.finditer(text)}


def named_by(root: Path, crate: str, known: set[str]) -> set[str]:
    """The libraries that a crate's files name: crates, and those of the kit that are known."""
    names = {name for file in sources(root / "crates" / crate) for name in named_in(file)}
    return {name for name in names if name in known or CRATE.fullmatch(name)} - {crate}


def named_by_all(root: Path) -> dict[str, set[str]]:
    """The libraries that the files of each crate name."""
    crates = listed(root)
    known = {*crates, *(library for libraries in crates.values() for library in libraries)}
    return {crate: named_by(root, crate, known) for crate in crates}


def listing_faults(root: Path) -> Iterator[str]:
    """What crates.txt lacks, and what it has too much."""
    crates, named = listed(root), named_by_all(root)
    there = {folder.name for folder in (root / "crates").iterdir() if (folder / "src").is_dir()}
    for crate in sorted(there ^ {*crates}):
        yield f"crates.txt lists {crate}, which isn't there" if crate in crates else f"crates.txt doesn't list {crate}"
    for crate in sorted(there & {*crates}):
        for name in sorted(named[crate] - {*crates[crate]}):
            yield f"{crate} names {name}, which isn't listed for it"
        for name in sorted({*crates[crate]} - named[crate]):
            yield f"{crate} never names {name}, which is listed for it: tools/crates.py drop takes it out"


def drop(root: Path) -> None:
    """Takes out of crates.txt what a crate never names."""
    file, named = root / "crates.txt", named_by_all(root)
    lines = []
    for line in file.read_text("utf-8").splitlines():
        words, colon, libraries = line.partition(":")
        if colon and not line.startswith("#"):
            kept = [name for name in libraries.split() if name in named[words.split()[0]]]
            line = " ".join([words + colon, *kept])
        lines.append(f"{line}\n")
    file.write_text("".join(lines), "utf-8")


def picture_of(page: str) -> list[list[str]]:
    """The crates of each line of a page's first picture."""
    picture = re.search(r"^```\n(.*?)^```", page, re.MULTILINE | re.DOTALL)
    return [CRATE.findall(line) for line in picture[1].splitlines()] if picture else []


def picture_faults(root: Path) -> Iterator[str]:
    """What the picture says otherwise than crates.txt."""
    lines = picture_of((root / PICTURE).read_text("utf-8"))
    places = {crate: (at, column) for at, line in enumerate(lines) for column, crate in enumerate(line)}
    crates = listed(root)
    for crate in sorted({*places} ^ {*crates}):
        yield f"the picture {'lacks' if crate in crates else 'has no such crate as'} {crate}"
    for crate in places:
        if sum(line.count(crate) for line in lines) > 1:
            yield f"the picture has {crate} more than once"
    for crate, libraries in crates.items():
        for library in libraries:
            if crate in places and library in places and places[library] <= places[crate]:
                yield f"the picture has {library} above {crate}, or before it, which stands on it"


def head_faults(root: Path) -> Iterator[str]:
    """The crates that don't say what they do."""
    for crate in listed(root):
        roots = [root / "crates" / crate / "src" / name for name in ("lib.rt", "main.rt")]
        if not any(file.is_file() and file.read_text("utf-8").startswith("//! ") for file in roots):
            yield f"{crate} doesn't begin with a sentence on what it does"


def below(crates: dict[str, list[str]], crate: str) -> set[str]:
    """The crates that a crate stands on, and those that these stand on."""
    found, open_ones = set(), [crate]
    while open_ones:
        for library in crates[open_ones.pop()]:
            if library in crates and library not in found:
                found.add(library)
                open_ones.append(library)
    return found


def told_below(crates: dict[str, list[str]], crate: str) -> list[str]:
    """The crates of its line on which none of the others there stands, in the order of the line."""
    libraries = [library for library in crates[crate] if library in crates]
    lower = set().union(*(below(crates, library) for library in libraries))
    return [library for library in libraries if library not in lower]


def joined(names: list[str]) -> str:
    """Names as a sentence lists them."""
    return " and ".join([", ".join(names[:-1]), names[-1]] if len(names) > 1 else names)


def footing_faults(root: Path) -> Iterator[str]:
    """What the heads of crates say otherwise of what these stand on."""
    crates = listed(root)
    for crate in crates:
        files = [root / "crates" / crate / "src" / name for name in ("lib.rt", "main.rt")]
        lines = next((file.read_text("utf-8").splitlines() for file in files if file.is_file()), [])
        head = " ".join(line[4:] for line in lines if line.startswith("//! "))
        stands = joined(told_below(crates, crate)) or "no other crate"
        told = re.search(r"Stands on ([^.]*?)(?:, never on ([^.]*))?\.", head)
        if not told or told[1] != stands:
            yield f"the head of {crate} is to say: Stands on {stands}."
        for other in CRATE.findall(told[2] or "") if told else []:
            if other not in crates:
                yield f"the head of {crate} names {other}, which isn't there"
            elif other in {crate, *below(crates, crate)}:
                yield f"{crate} stands on {other}, and its head says that it never does"


def line_faults(root: Path) -> Iterator[str]:
    """The lines that are too long."""
    for number, line in enumerate((root / LONG_PAGE).read_text("utf-8").splitlines(), 1):
        if len(line) > MOST_LETTERS:
            yield f"{LONG_PAGE}: line {number} has {len(line)} letters, and may have {MOST_LETTERS}: split the paragraph"


def all_faults(root: Path) -> Iterator[str]:
    for faults in (listing_faults, picture_faults, head_faults, footing_faults, line_faults):
        yield from faults(root)


def main() -> int:
    if sys.argv[1:] == ["drop"]:
        drop(ROOT)
    elif sys.argv[1:]:
        print((__doc__ or "").strip(), file=sys.stderr)
        return 2
    faults = list(all_faults(ROOT))
    for line in faults:
        print(f"tools/crates.py: {line}", file=sys.stderr)
    return 1 if faults else 0


if __name__ == "__main__":
    sys.exit(main())
