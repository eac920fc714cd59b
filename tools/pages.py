#!/usr/bin/env python3
"""Checks that what the pages quote is what stands in the files and what the commands write, and that their links lead somewhere.

A fenced block behind the line `<!-- all of FILE -->` is the text of that file, and one behind `<!-- from FILE -->` some of its
lines, one behind the other; they may be indented otherwise. In a block of the language `console` a line that begins with `$ `
is a command, which is run by the shell at the root of the repository, and the lines behind it are what it writes to standard
output and then to standard error. The line that tells the looks of the cache may be left out. Other blocks of the pages in
`QUOTING` are of the language `sh`, which is for commands that aren't run here, or `text`.

Where the program isn't built, no command is run, which would have it proved and built: this is said, and the status is 127.
"""

from __future__ import annotations

import re
import sys
from collections.abc import Iterator
from dataclasses import dataclass
from pathlib import Path
from subprocess import TimeoutExpired
from textwrap import dedent

from checkout import NOT_BUILT, is_built
from started import run

ROOT = Path(__file__).resolve().parent.parent
QUOTING = (
    "README.md",
    "docs/TUTORIAL.md",
    "docs/COOKBOOK.md",
    "docs/LANGUAGE.md",
    "docs/FORMATS.md",
    "docs/LINT.md",
    "docs/SERIES.md",
    "docs/SHOW.md",
    "examples/poker.md",
)
FREE = ("sh", "text")
SECONDS = 120
UNBUILT = 127
LOOKS = re.compile(r"^cache looks \d+ hits \d+\n", re.MULTILINE)
LINK = re.compile(r"\[[^\]]*\]\(([^)\s]+)\)")


@dataclass(frozen=True)
class Block:
    """A fenced block of a page: the line that it begins at, its language, the comment before it, and its text."""

    line: int
    language: str
    comment: str
    text: str


@dataclass(frozen=True)
class Command:
    """A command of a block, and what the page says that it writes."""

    words: str
    written: str


def read_blocks(page: str) -> Iterator[Block]:
    """The fenced blocks of a page."""
    lines = page.splitlines()
    start: int | None = None
    for number, line in enumerate(lines):
        if not line.startswith("```"):
            continue
        if start is None:
            start = number
            continue
        comment = re.fullmatch(r"<!-- (.*) -->", lines[start - 1]) if start else None
        text = "".join(f"{it}\n" for it in lines[start + 1 : number])
        yield Block(start + 1, lines[start][3:], comment[1] if comment else "", text)
        start = None


def read_commands(text: str) -> list[Command]:
    """The commands of a block, each with the lines behind it."""
    parts = re.split(r"^\$ (.*)\n", text, flags=re.MULTILINE)
    return [Command(words, written) for words, written in zip(parts[1::2], parts[2::2])]


def has_lines(text: str, part: str) -> bool:
    """Whether the lines of the part stand in the text one behind the other, however far they are indented."""
    lines, count = text.splitlines(keepends=True), part.count("\n")
    return any(dedent("".join(lines[at : at + count])) == dedent(part) for at in range(len(lines) - count + 1))


def quoting_fault(root: Path, block: Block) -> str | None:
    """What is wrong with a block that quotes a file."""
    quoted = re.fullmatch(r"(all of|from) (\S+)", block.comment)
    if not quoted:
        return f"the comment '{block.comment}' names no file"
    file = root / quoted[2]
    if not file.is_file():
        return f"there is no file {quoted[2]}"
    text = file.read_text("utf-8")
    same = text == block.text if quoted[1] == "all of" else has_lines(text, block.text)
    return None if same else f"this isn't the text of {quoted[2]}"


def running_fault(root: Path, command: Command) -> str | None:
    """What is wrong with what a block says of a command."""
    try:
        ran = run(["sh", "-c", command.words], seconds=SECONDS, cwd=root, text=True)
    except TimeoutExpired:
        return f"'{command.words}' doesn't end within {SECONDS} seconds"
    written = ran.stdout + ran.stderr
    if command.written in (written, LOOKS.sub("", written)):
        return None
    return f"'{command.words}' writes\n{written}and not\n{command.written}"


def block_faults(root: Path, block: Block, runs: bool = True) -> Iterator[str]:
    """What is wrong with a block of a page. Its commands may be left alone."""
    if block.comment:
        found = [quoting_fault(root, block)]
    elif block.language == "console":
        commands = read_commands(block.text)
        found = [running_fault(root, command) for command in commands if runs] if commands else ["no command stands here"]
    else:
        found = [None if block.language in FREE else "this block is neither quoted from a file nor run"]
    yield from (f"line {block.line}: {fault}" for fault in found if fault)


def anchors(page: str) -> set[str]:
    """The anchors of a page's headings."""
    titles = re.findall(r"^#+ (.*)$", page, re.MULTILINE)
    return {re.sub(r"[^\w\- ]", "", title.lower()).replace(" ", "-") for title in titles}


def link_faults(page: Path) -> Iterator[str]:
    """The links of a page that lead nowhere."""
    text = re.sub(r"^```.*?^```", "", page.read_text("utf-8"), flags=re.MULTILINE | re.DOTALL)
    for target in LINK.findall(re.sub(r"`[^`\n]*`", "", text)):
        name, _, anchor = target.partition("#")
        file = page.parent / name if name else page
        if "://" in target:
            continue
        if not file.exists():
            yield f"the link {target} leads to no file"
        elif anchor and anchor not in anchors(file.read_text("utf-8")):
            yield f"the link {target} leads to no heading"


def all_faults(root: Path, runs: bool) -> Iterator[str]:
    """What is wrong with the pages below the root. Their commands may be left alone."""
    for name in QUOTING:
        for block in read_blocks((root / name).read_text("utf-8")):
            yield from (f"{name}: {fault}" for fault in block_faults(root, block, runs))
    for page in sorted([*root.glob("*.md"), *root.glob("*/*.md")]):
        yield from (f"{page.relative_to(root)}: {fault}" for fault in link_faults(page))


def main() -> int:
    runs = is_built(ROOT)
    faults = list(all_faults(ROOT, runs))
    for fault in faults:
        print(f"tools/pages.py: {fault}", file=sys.stderr)
    if not runs:
        print(f"tools/pages.py: no command was run, since {NOT_BUILT}", file=sys.stderr)
        return UNBUILT
    if not faults:
        print("pages: what they quote stands in the files, and what they run writes what they say")
    return 1 if faults else 0


if __name__ == "__main__":
    sys.exit(main())
