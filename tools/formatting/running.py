"""The command `fmt`."""

from __future__ import annotations

import argparse
import stat
import sys
from pathlib import Path

from formatting.layout import laid_out
from formatting.reading import read
from inputs import SOURCE
from linting.trees import Node, Unreadable, placed, read_lists
from pieces.storing import write_whole
from tables.ending import TEXT, TOO_LONG, WRITE_FAULT, Refused, status_of
from tables.running import Words
from tables.running import read as bytes_of
from telling import printable

# The status where `--check` finds that a file is laid out otherwise, as `lint` has it where it finds something.
OTHERWISE = 1


def parser() -> argparse.ArgumentParser:
    said = "Lays out sheets over lines, with their comments."
    words = Words("cardhouse fmt", description=said, allow_abbrev=False)
    how = words.add_mutually_exclusive_group()
    how.add_argument("--check", action="store_true", help="write nothing, and name the files that are laid out otherwise")
    how.add_argument("--write", action="store_true", help="write each file anew where it is laid out otherwise")
    words.add_argument("files", nargs="+", type=Path, metavar="GAME.sheet")
    return words


def main(words: list[str]) -> int:
    options = parser().parse_args(words)
    if len(options.files) > 1 and not (options.check or options.write):
        parser().error("several files are taken with --check or --write alone")
    changed: dict[Path, bytes] = {}
    status = status_of(lambda: run(options, changed))
    return status or (OTHERWISE if options.check and changed else 0)


def run(options: argparse.Namespace, changed: dict[Path, bytes]) -> None:
    """Does what the words say, once all files were read, and tells which of them are laid out otherwise."""
    for file in options.files:
        before = bytes_of(file, SOURCE)
        text = formatted(str(file), before)
        if options.write and len(text) > SOURCE:
            raise Refused(TOO_LONG, f"{file}: laid out it has more than {SOURCE} bytes, which no command reads; nothing is written")
        if not (options.check or options.write):
            sys.stdout.buffer.write(text)
        elif text != before:
            changed[file] = text
    for file, text in changed.items():
        if options.write:
            write(file, text)
        else:
            print(printable(f"{file}: laid out otherwise"))


def formatted(name: str, text: bytes) -> bytes:
    """A text of lists laid out over lines."""
    try:
        return laid_out(read(text), places_of(text)).encode("latin-1")
    except Unreadable as fault:
        raise Refused(TEXT, f"{name} can't be read as lists: {fault}; `./cardhouse sheet` tells its fault") from None


def places_of(text: bytes) -> dict[int, Node]:
    """The lists of a text in their places, by where they begin: the first is a sheet or a plan, and others are plans behind one."""
    found: dict[int, Node] = {}
    for tree in read_lists(text):
        place = "PLAN" if tree.parts and tree.parts[0].text == "plan" else "SHEET"
        found.update((node.at, node) for node in placed(tree, place).within() if node.is_list)
    return found


def write(file: Path, text: bytes) -> None:
    """Writes a file anew as a whole, where a link leads to it too, with the rights that it has."""
    try:
        kept, mode = file.resolve(strict=True), file.stat().st_mode
        write_whole(kept, text)
        kept.chmod(stat.S_IMODE(mode))
    except OSError as error:
        raise Refused(WRITE_FAULT, f"{file}: {error.strerror}") from None
