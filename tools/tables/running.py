"""The command `table`."""

from __future__ import annotations

import argparse
import sys
from pathlib import Path
from typing import NoReturn

from inputs import LONGEST, SOURCE, TooLong, contents
from tables import records
from tables.counting import counts_of
from tables.ending import READ_FAULT, TEXT, TOO_LONG, Refused, status_of
from tables.house import Match, Reader
from tables.showing import table
from tables.stages import at_limit
from telling import printable

STANDARD_INPUT = "standard input"


class Words(argparse.ArgumentParser):
    """What words may be. Those that may not are told as they can be shown."""

    def error(self, message: str) -> NoReturn:
        super().error(printable(message))


def parser() -> argparse.ArgumentParser:
    """What the words may be."""
    words = Words(
        "cardhouse table", description="One table of all matches that transcripts tell.", allow_abbrev=False
    )
    add_forms(words)
    words.add_argument("--duplicate", action="store_true", help="each strategy played each deal in each seat: errors by deal")
    of_sheet = "the sheet of these matches: tell which of its stages was open where the turn limit ended them"
    words.add_argument("--sheet", type=Path, metavar="GAME.sheet", help=of_sheet)
    words.add_argument("texts", nargs="*", type=Path, metavar="TEXT", help="a file with what `play` wrote; none: standard input")
    return words


def add_forms(words: argparse.ArgumentParser) -> None:
    """The options by which the matches are written one by one."""
    forms = words.add_mutually_exclusive_group()
    forms.add_argument("--csv", action="store_const", dest="form", const="csv", help="a line for each match, comma-separated")
    forms.add_argument("--jsonl", action="store_const", dest="form", const="jsonl", help="a line for each match, a JSON object")


def main(words: list[str]) -> int:
    options = parser().parse_intermixed_args(words)
    return status_of(lambda: command_of(options))


def command_of(options: argparse.Namespace) -> None:
    """Does what the words say. The sheet is read only where the table is written, which tells of it."""
    matches = matches_of(options.texts)
    is_told = options.sheet and not options.form
    said = at_limit(str(options.sheet), read(options.sheet, SOURCE), matches) if is_told else ""
    write(matches, options.form, options.duplicate, said)


def matches_of(files: list[Path]) -> list[Match]:
    """The matches of all texts, which have the same number of players."""
    found: list[Match] = []
    for name, text in [(str(file), read(file)) for file in files] or [(STANDARD_INPUT, read_input())]:
        matches = Reader(name, text).matches()
        if found and len(matches[0].scores) != len(found[0].scores):
            raise Refused(TEXT, f"{name}:2: here {len(matches[0].scores)} play, and in {files[0]} {len(found[0].scores)}")
        found += matches
    return found


def read(file: Path, most: int = LONGEST) -> bytes:
    """The bytes of a file, which may have so many."""
    try:
        return contents(str(file), most)
    except OSError as error:
        raise Refused(READ_FAULT, f"{file}: {error.strerror}") from None
    except TooLong as error:
        raise Refused(TOO_LONG, f"{file}: {error}") from None


def read_input() -> bytes:
    if sys.stdin is None:
        raise Refused(READ_FAULT, f"{STANDARD_INPUT}: it is closed")
    try:
        data = sys.stdin.buffer.read(LONGEST + 1)
    except OSError as error:
        raise Refused(READ_FAULT, f"{STANDARD_INPUT}: {error.strerror}") from None
    if len(data) > LONGEST:
        raise Refused(TOO_LONG, f"{STANDARD_INPUT}: it has more than {LONGEST} bytes")
    return data


def write(matches: list[Match], form: str | None, is_duplicate: bool, said_at_limit: str = "") -> None:
    """Writes what is asked for: the table, with a line on the turn limit, or a line for each match."""
    if form:
        sys.stdout.write(records.csv(matches) if form == "csv" else records.jsonl(matches))
    else:
        sys.stdout.write(table(counts_of(matches, players_of_deals(matches) if is_duplicate else 1), said_at_limit))


def players_of_deals(matches: list[Match]) -> int:
    """How many matches a deal has, where each is played once by each strategy in each seat, one match behind the other."""
    players = len(matches[0].scores)
    for at, match in enumerate(matches):
        first = matches[at - at % players]
        if (match.deal, match.seats) != (first.deal, first.seats) or match.number % players != at % players:
            raise Refused(TEXT, f"the deal of match {first.number} is to be played {players} times: match {match.number} has another")
    if len(matches) % players:
        raise Refused(TEXT, f"the last deal isn't played {players} times")
    return players
