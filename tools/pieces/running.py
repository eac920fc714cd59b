"""The command `series`."""

from __future__ import annotations

import argparse
import signal
import sys
from collections.abc import Callable
from pathlib import Path

from pieces.accepting import sources_of
from pieces.comparing import compare, deal_matches
from pieces.folder import SHEET, Series
from pieces.making import make
from pieces.measuring import measure
from pieces.playing import again, picked, run
from pieces.splitting import split
from pieces.whole import matches_of, merge
from tables.ending import status_of
from tables.running import Words, add_forms, write
from tables.stages import at_limit


def parser() -> argparse.ArgumentParser:
    """What the words may be."""
    said = "A long series of matches, played in pieces."
    words = Words("cardhouse series", description=said, allow_abbrev=False)
    commands = words.add_subparsers(dest="command", required=True)
    of_split = add(commands, "split", "splits a series into a folder", "DIR")
    of_split.add_argument("sheet", type=Path, metavar="GAME.sheet")
    of_split.add_argument("plan", type=Path, metavar="SERIES.plan", help="a plan whose `from` may count as far as it likes")
    sizes = of_split.add_mutually_exclusive_group()
    sizes.add_argument("--size", type=positive(int), metavar="N", help="a piece has at most N matches")
    sizes.add_argument("--seconds", type=positive(float), metavar="S", help="a piece takes about S seconds here")
    of_split.add_argument("--format", type=int, choices=(1, 2), default=1, help="the format of the transcripts, 1 where nothing is said")
    of_split.add_argument("--large", action="store_true", help="the folder may have more than 1 GB")
    of_split.add_argument("--duplicate", action="store_true", help="each deal is played with each strategy in each seat")
    add(commands, "make", "plays all pieces that aren't done, by make", "DIR").add_argument(
        "words", nargs=argparse.REMAINDER, metavar="WORD", help="what make is told, as -j 4"
    )
    add(commands, "run", "plays and judges piece K, if that isn't done", "DIR").add_argument("piece", type=int, metavar="K")
    of_again = add(commands, "again", "plays pieces once more, and says whether they are the same", "DIR")
    which = of_again.add_mutually_exclusive_group(required=True)
    which.add_argument("piece", type=int, nargs="?", metavar="K")
    which.add_argument("--share", type=float, metavar="PART", help="so large a part of the pieces, as 0.05")
    add_forms(add(commands, "table", "writes one table of all matches", "DIR"))
    add(commands, "measure", "writes the measures of all matches", "DIR")
    add(commands, "merge", "writes the one transcript of all matches", "DIR")
    add(commands, "compare", "compares two series on the same deals", "A", "B")
    return words


def add(commands, name: str, said: str, *folders: str) -> argparse.ArgumentParser:
    """A command on these folders."""
    words: argparse.ArgumentParser = commands.add_parser(name, help=said, description=said, allow_abbrev=False)
    for folder in folders:
        words.add_argument(folder.lower(), type=Path, metavar=folder)
    return words


def positive(kind: Callable[[str], float]) -> Callable[[str], float]:
    def read(word: str) -> float:
        value = kind(word)
        if not value > 0:
            raise ValueError(word)
        return value

    read.__name__ = "positive number"
    return read


def command_of(told: argparse.Namespace) -> None:
    """Does what the words say."""
    if told.command == "split":
        sources = sources_of(told.sheet, told.plan, told.duplicate)
        split(told.dir, sources, told.size, told.seconds, told.format, told.large)
    elif told.command == "make":
        make(told.dir, told.words)
    elif told.command == "run":
        run(told.dir, told.piece)
    elif told.command == "again":
        again(told.dir, picked(told.dir, told.share) if told.share is not None else [told.piece])
    elif told.command == "table":
        table(told.dir, told.form)
    elif told.command == "measure":
        measure(told.dir)
    elif told.command == "merge":
        merge(told.dir)
    else:
        compare(told.a, told.b)


def table(folder: Path, form: str | None) -> None:
    """Writes the table of a series, with errors by deal where it is a duplicate, and which stages of its sheet were open where the
    turn limit ended matches."""
    series = Series(folder)
    matches = matches_of(series)
    write(matches, form, deal_matches(series) > 1, at_limit(str(folder / SHEET), series.sheet(), matches))


def main(words: list[str]) -> int:
    # Where this is stopped, so is the program that it called: Python ends it on the way out.
    for number in (signal.SIGINT, signal.SIGTERM, signal.SIGHUP):
        if signal.getsignal(number) != signal.SIG_IGN:
            signal.signal(number, lambda number, _: sys.exit(128 + number))
    told = parser().parse_args(words)
    return status_of(lambda: command_of(told))
