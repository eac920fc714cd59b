#!/usr/bin/env python3
"""Looks whether the edits that plant wrong bodies, of planted/ and of each crate's must-fail/, still fit the code.

An edit that doesn't is tried by the kit as a bad one, which shows nothing: so what it was to show is lost with a name that was changed.

- Each text that is to be replaced stands once in its file, as the kit replaces them: one after the other.
- Each name that the new text calls, or that it writes as a type, behind a `.` or in a path, stands in the code of its crate or of a
  crate below it, is declared by the edit itself, or is the library's: one that code of the repository uses and no crate declares.

usage: tools/edits.py
"""

from __future__ import annotations

import re
import sys
from collections.abc import Iterable, Iterator
from dataclasses import dataclass, field
from functools import cached_property
from pathlib import Path

from crates import listed

ROOT = Path(__file__).resolve().parent.parent

# What is no code: comments, and what texts and bytes hold.
SILENT = re.compile(r"""//[^\n]*|"(?:[^"\\]|\\.)*"|'(?:[^'\\]|\\.)'""")

# Lines of contracts and of what they cite, of which the library's names aren't learnt.
CONTRACT = re.compile(r"^\s*(?:ghost|requires|ensures)\b.*$|#\[.*\]", re.MULTILINE)

WORD = re.compile(r"\w+")
DECLARED = re.compile(r"\b(?:fn|struct|enum|trait|type|const|static|mod|macro_rules!)\s+(\w+)")
FIELDS = re.compile(r"\bstruct\s+\w+[^{};]*\{([^{}]*)\}")
VARIANTS = re.compile(r"\benum\s+\w+[^{};]*\{(.*?)^\}", re.DOTALL | re.MULTILINE)

# Names of the library that edits use and no code does.
ONLY_IN_EDITS = {"is_ok"}
ADDED = "another one of the library goes into ONLY_IN_EDITS of tools/edits.py"

# A name in a path, behind a `.`, or before the arguments of a call; and one of a type.
USED = re.compile(r"\b([a-zA-Z_]\w*)\s*(?=::|\(|!\()|(?:::|(?<!\.)\.)\s*([a-zA-Z_]\w*)|(?<!')\b([A-Z]\w*)")
OF_LANGUAGE = {"crate", "self", "super", "Self", "if", "match", "while", "for", "return", "in", "requires", "ensures", "fn"}


@dataclass(frozen=True)
class Edit:
    """An edit of the files of a crate: where it stands, and each text that is replaced, with its file and the new text."""

    file: Path
    crate: str
    pairs: list[tuple[str, str, str]]

    def declared(self) -> set[str]:
        """What the edit declares itself."""
        return {name for _, _, new in self.pairs for name in declared_in(spoken(new))}


@dataclass(frozen=True)
class Code:
    """The code of all crates, each with what it stands on."""

    root: Path
    crates: dict[str, list[str]]
    kept: dict[str, str] = field(default_factory=dict)

    def of(self, crate: str) -> str:
        """The code of a crate without comments and texts."""
        if crate not in self.kept:
            files = sorted((self.root / "crates" / crate).glob("src/**/*.rt"))
            self.kept[crate] = "\n".join(spoken(file.read_text("utf-8")) for file in files)
        return self.kept[crate]

    def below(self, crate: str) -> set[str]:
        """A crate and all that it stands on."""
        found, ahead = set(), [crate]
        while ahead:
            name = ahead.pop()
            if name in self.crates and name not in found:
                found.add(name)
                ahead += self.crates[name]
        return found

    def known_to(self, crate: str) -> set[str]:
        """The names that stand in the code of a crate, or of one below it."""
        return {word for name in self.below(crate) for word in WORD.findall(self.of(name))}

    @cached_property
    def of_library(self) -> set[str]:
        """The names that code uses and no crate declares, and those that edits alone use."""
        codes = [CONTRACT.sub("", self.of(crate)) for crate in self.crates]
        used = {name for code in codes for name in names_in(code)}
        return (used | ONLY_IN_EDITS) - {name for code in codes for name in declared_in(code)}


def spoken(text: str) -> str:
    """A text of code without comments, and without what its texts hold."""
    return SILENT.sub(" ", text)


def declared_in(code: str) -> Iterator[str]:
    """The names that a piece of code declares: items, and what is in types."""
    yield from DECLARED.findall(code)
    for body in FIELDS.findall(code):
        yield from re.findall(r"(\w+)\s*:(?!:)", body)
    for body in VARIANTS.findall(code):
        yield from re.findall(r"^\s*([A-Z]\w*)", body, re.MULTILINE)


def names_in(code: str) -> Iterator[str]:
    """The names that a piece of code calls, writes behind a `.`, in a path or as a type."""
    for found in USED.finditer(code):
        name = next(filter(None, found.groups()))
        if name not in OF_LANGUAGE:
            yield name


def pairs_of(text: str) -> Iterator[tuple[str, str, str]]:
    """The files, the old and the new texts of an edit, as the kit reads them."""
    path = old = ""
    for line in text.splitlines():
        if line.startswith("file: "):
            path = line.removeprefix("file: ").strip()
        elif line.startswith("old: "):
            old = line.removeprefix("old: ")
        elif line.startswith("new:"):
            yield path, old, line.removeprefix("new:").removeprefix(" ")


def edits_of(root: Path) -> Iterator[Edit]:
    """All edits of the repository."""
    for file in sorted([*root.glob("planted/*/*.edit"), *root.glob("crates/*/must-fail/*.edit")]):
        crate = file.parent.name if file.parent.parent.name == "planted" else file.parent.parent.name
        yield Edit(file, crate, list(pairs_of(file.read_text("utf-8"))))


def text_faults(root: Path, edit: Edit) -> Iterator[str]:
    """The texts of an edit that don't stand once in their file."""
    texts: dict[str, str] = {}
    for path, old, new in edit.pairs:
        file = root / "crates" / edit.crate / path
        if not path or not file.is_file():
            yield f"there is no file '{path}' in {edit.crate}"
            continue
        text = texts.get(path, file.read_text("utf-8"))
        if not old or text.count(old) != 1:
            yield f"'{old.strip()}' stands {text.count(old) if old else 0} times in {path}, and not once"
        texts[path] = text.replace(old, new) if old else text
    if not edit.pairs:
        yield "it replaces nothing"


def name_faults(code: Code, edit: Edit) -> Iterator[str]:
    """The names in new texts that are nobody's."""
    known = code.known_to(edit.crate) | code.of_library | edit.declared() | {*code.crates}
    for name in sorted({name for _, _, new in edit.pairs for name in names_in(spoken(new))} - known):
        yield f"there is no '{name}' in {edit.crate}, in a crate below it or among the library's names that code uses ({ADDED})"


def all_faults(root: Path) -> Iterator[str]:
    code = Code(root, listed(root))
    for edit in edits_of(root):
        faults: Iterable[str] = [*text_faults(root, edit), *name_faults(code, edit)]
        yield from (f"{edit.file.relative_to(root)}: {fault}" for fault in faults)


def main() -> int:
    if sys.argv[1:]:
        print((__doc__ or "").strip(), file=sys.stderr)
        return 2
    faults = list(all_faults(ROOT))
    for line in faults:
        print(f"tools/edits.py: {line}", file=sys.stderr)
    return 1 if faults else 0


if __name__ == "__main__":
    sys.exit(main())
