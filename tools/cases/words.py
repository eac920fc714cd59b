"""The file `words.rows`: words behind the program's name, and what they are."""

import json
import re
from collections.abc import Callable, Iterator
from pathlib import Path

from cases.bench import MATCHES, ends_as_bench, is_bench
from cases.rows import Row, numbered_lines
from cases.running import Case, End, ends_as

USAGE = End(2, "", "usage: cardhouse play, check, sheet, bench, migrate, watch, measure or rival\n")
NUMBERED = re.compile(r"watch [0-7] \d+|rival [0-7] [1-4] \d+ \d+")
NO_SHEET = End(1, "", "sheet Shape 0\n")


def read_words(file: Path) -> Iterator[Case]:
    """The cases of a file of words, each run on an empty input."""
    for row in numbered_lines(file):
        if row.text and not row.text.startswith("#"):
            yield words_case(row)


def words_case(row: Row) -> Case:
    listed, tab, expected = row.text.partition("\t")
    try:
        words = tuple(json.loads(listed))
    except ValueError:
        raise row.mistake("the words are no JSON list") from None
    if not tab or not all(isinstance(word, str) for word in words):
        raise row.mistake("a row is a JSON list of words, a tab, and what they are")
    return Case(row, *run_of(row, words, expected))


def run_of(row: Row, words: tuple[str, ...], expected: str) -> tuple[tuple[str, ...], str, str, Callable[[End], bool]]:
    """The words that are run, the source, what is expected, and whether an end is so."""
    if expected == "usage":
        return words, "", f"usage of {words}", ends_as(USAGE)
    if expected in ("check", "sheet", "migrate", "measure") or NUMBERED.fullmatch(expected):
        return words, "", f"the command {expected}", ends_as(NO_SHEET)
    command = re.fullmatch(r"(?:play|bench (?P<number>\d+)) workers \d+ cache (?P<entries>\d+)(?: format [12])?", expected)
    if not command:
        raise row.mistake(f"'{expected}' is no command with its numbers, nor usage")
    number = int(command["number"] or 0)
    if not number:
        return words, "", expected, ends_as(NO_SHEET)
    if number > MATCHES:
        return words, "", expected, is_bench(number)
    return words, "", expected, ends_as_bench(number, int(command["entries"]))
