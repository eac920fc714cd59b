#!/usr/bin/env python3
"""Holds code, definitions and proofs to what is asked of their style, and lets what was written before be, as long as it gets no worse.

usage: tools/style.py             says what is wrong, and where the record can be lower
       tools/style.py --record    writes the record anew, and says where it has more than before

- A crate has no more lines that are wider than 120 columns than tools/style.txt records for it.
- No function is named by a participle alone, as `taken`, which doesn't say what is taken, but those that are recorded.
- A crate has no more lemmas that another has proved, under whatever name, than are recorded; tools/statements.py lists them.
- A file that a comment names is there.
"""

from __future__ import annotations

import re
import sys
from collections import Counter
from collections.abc import Iterable, Iterator
from dataclasses import dataclass
from pathlib import Path

from crates import COMMENT, listed, sources
from statements import said_again

ROOT = Path(__file__).resolve().parent.parent
RECORD, WIDTH = "tools/style.txt", 120
HEAD = f"""\
# Each line: a crate, how many of its lines of code are wider than {WIDTH} columns, how many of its lines of definitions and proofs are,
# how many of its lemmas are proved elsewhere, and which of its functions are named by a participle alone. tools/style.py --record writes
# it. It is only to get lower.
"""

FUNCTION = re.compile(r"\bfn ([a-z]+)\b")
PARTICIPLE = re.compile(r"\w+(?:ed|ing)")
IRREGULAR = frozenset(
    """begun bound built chosen dealt done drawn found given gone held hidden kept known laid left lost made met redrawn said seen sent
    shown spent taken thought told won written""".split()
)
NO_PARTICIPLE = frozenset("bring feed naming need opening seed setting string thing".split())

# A file from the top of the repository, or one of code, definitions and proofs from any folder on the way to it.
FOLDER = r"(?:bench|cases|crates|docs|editors|examples|planted|tools|\.ci)/"
NAMED = re.compile(rf"(?<![\w./-])(?:{FOLDER}[\w./-]*\w|[\w/-]+\.(?:antt|rt)\b)")


@dataclass(frozen=True)
class Style:
    """How many lines of a crate are too wide, of code and of definitions and proofs, how many of its lemmas are proved elsewhere, and its
    functions that a participle alone names."""

    code: int = 0
    proofs: int = 0
    repeats: int = 0
    participles: frozenset[str] = frozenset()


def is_participle(name: str) -> bool:
    """Whether a name of one word says of something what was done or is being done with it."""
    return name in IRREGULAR or (bool(PARTICIPLE.fullmatch(name)) and name not in NO_PARTICIPLE)


def style_of(root: Path, crate: str, repeats: int) -> Style:
    """The style of a crate's files, of whose lemmas so many are proved elsewhere."""
    wide, names = {".rt": 0, ".antt": 0}, set()
    for file in sources(root / "crates" / crate):
        text = file.read_text("utf-8")
        wide[file.suffix] += sum(len(line) > WIDTH for line in text.splitlines())
        if file.suffix == ".rt":
            names |= {*filter(is_participle, FUNCTION.findall(COMMENT[".rt"].sub("", text)))}
    return Style(wide[".rt"], wide[".antt"], repeats, frozenset(names))


def styles_of(root: Path) -> dict[str, Style]:
    repeats = Counter(lemma.crate for lemmas in said_again(root) for lemma in lemmas[1:])
    return {crate: style_of(root, crate, repeats[crate]) for crate in listed(root)}


def read_record(root: Path) -> dict[str, Style]:
    """What is recorded."""
    lines = (root / RECORD).read_text("utf-8").splitlines()
    rows = (line.split() for line in lines if line and not line.startswith("#"))
    return {crate: Style(*map(int, row[:3]), frozenset(row[3:])) for crate, *row in rows}


def record(root: Path, styles: dict[str, Style]) -> None:
    """Records these styles, of those crates that have something to be recorded."""
    rows = ([crate, str(it.code), str(it.proofs), str(it.repeats), *sorted(it.participles)] for crate, it in styles.items() if it != Style())
    (root / RECORD).write_text(HEAD + "".join(f"{' '.join(row)}\n" for row in rows), "utf-8")


def more_in(styles: dict[str, Style], than: dict[str, Style]) -> Iterator[str]:
    """Where these styles have more than others."""
    for crate, it in styles.items():
        other = than.get(crate, Style())
        for what, wide, less in (("code", it.code, other.code), ("definitions and proofs", it.proofs, other.proofs)):
            if wide > less:
                yield f"{crate} has lines of {what} wider than {WIDTH} columns: {wide} in place of {less}"
        if it.repeats > other.repeats:
            yield f"{crate} has lemmas that are proved elsewhere: {it.repeats} in place of {other.repeats}; tools/statements.py lists them"
        for name in sorted(it.participles - other.participles):
            yield f"{crate} has a function '{name}', which is named by a participle alone"


def comment_faults(root: Path) -> Iterator[str]:
    """The files that comments name and that aren't there."""
    files = [file for crate in listed(root) for file in sources(root / "crates" / crate)]
    ends = {end for file in files for end in ends_of(file.relative_to(root))}
    for file in files:
        place = file.relative_to(root).as_posix()
        for comment in COMMENT[file.suffix].findall(file.read_text("utf-8")):
            for name in NAMED.findall(comment):
                if name not in ends and not (root / name).exists():
                    yield f"{place}: a comment names {name}, which isn't there"


def ends_of(file: Path) -> Iterable[str]:
    """The names by which a file may be called: its path, from each folder on the way to it."""
    return ("/".join(file.parts[at:]) for at in range(len(file.parts)))


def all_faults(root: Path, styles: dict[str, Style] | None = None) -> Iterator[str]:
    yield from more_in(styles or styles_of(root), read_record(root))
    yield from comment_faults(root)


def renew(root: Path, styles: dict[str, Style]) -> None:
    """Writes the record anew, and says where it rises, which is to be looked at."""
    for line in more_in(styles, read_record(root)):
        print(f"tools/style.py: the record rises: {line}", file=sys.stderr)
    record(root, styles)


def main() -> int:
    if sys.argv[1:] not in ([], ["--record"]):
        print((__doc__ or "").strip(), file=sys.stderr)
        return 2
    styles = styles_of(ROOT)
    if sys.argv[1:]:
        renew(ROOT, styles)
    faults = list(all_faults(ROOT, styles))
    for line in faults:
        print(f"tools/style.py: {line}", file=sys.stderr)
    for line in more_in(read_record(ROOT), styles):
        print(f"tools/style.py --record lowers the record, in which {line}")
    return 1 if faults else 0


if __name__ == "__main__":
    sys.exit(main())
