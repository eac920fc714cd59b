"""The words of the commands."""

import re
from dataclasses import dataclass

# The options of numbers: the least, the most, and what holds where nothing is said.
WORKERS, CACHE, FORMAT = "--workers", "--cache", "--format"
RANGES = {WORKERS: (1, 64, 1), CACHE: (1, 65_536, 1_024), FORMAT: (1, 2, 1)}
MATCHES = (1, 1_000)

# The seat and the match that are watched; the strategy that is replaced by a search, with its depth and its rounds, and how its key
# is spelled.
WATCHED = ((0, 7), (0, 4_095))
SEARCHED = ((0, 7), (1, 4), (1, 100))
KEY = re.compile("[0-9]{1,18}", re.ASCII)

NUMBER = re.compile("[0-9]{1,5}", re.ASCII)

COMMANDS = ("play", "check", "sheet", "bench", "migrate", "watch", "measure", "rival")
PLAY, CHECK, SHEET, BENCH, MIGRATE, WATCH, MEASURE, RIVAL = COMMANDS
USAGE = "usage: cardhouse play, check, sheet, bench, migrate, watch, measure or rival"


@dataclass(frozen=True)
class Command:
    """A command, how many matches a bench has, of how many decisions totals are remembered, in which format is written, and the
    numbers of what is watched or searched."""

    name: str
    matches: int = 0
    room: int = RANGES[CACHE][2]
    format: int = RANGES[FORMAT][2]
    numbers: tuple[int, ...] = ()


def command_of(words: list[str]) -> Command | None:
    """The command that these words are, if they are one."""
    name, others = (words[0], words[1:]) if words else ("", [])
    if name in (CHECK, SHEET, MIGRATE, MEASURE) and not others:
        return Command(name)
    if name == PLAY and (told := options_of(others, (WORKERS, CACHE, FORMAT))) is not None:
        return Command(name, 0, told[CACHE], told[FORMAT])
    if name == BENCH and others and (told := options_of(others[1:], (WORKERS, CACHE))) is not None:
        matches = number_of(others[0], *MATCHES)
        return Command(name, matches, told[CACHE]) if matches is not None else None
    if name == WATCH and (numbers := numbers_of(others, WATCHED)) is not None:
        return Command(name, numbers=numbers)
    if name == RIVAL and (numbers := numbers_of(others[:-1], SEARCHED)) is not None and KEY.fullmatch(others[-1]):
        return Command(name, numbers=(*numbers, int(others[-1])))
    return None


def options_of(words: list[str], known: tuple[str, ...]) -> dict[str, int] | None:
    """The numbers of options that stand in these words, each once, and of the others; nothing where the words are others."""
    told: dict[str, int] = {}
    left = list(words)
    while left:
        name, joined, text = left.pop(0).partition("=")
        if name not in known or name in told or not joined and not left:
            return None
        least, most, _ = RANGES[name]
        number = number_of(text if joined else left.pop(0), least, most)
        if number is None:
            return None
        told[name] = number
    return {name: usual for name, (_, _, usual) in RANGES.items()} | told


def numbers_of(words: list[str], ranges: tuple[tuple[int, int], ...]) -> tuple[int, ...] | None:
    """The numbers that are spelled so, one for each of these ranges."""
    if len(words) != len(ranges):
        return None
    numbers = tuple(number for word, bounds in zip(words, ranges) if (number := number_of(word, *bounds)) is not None)
    return numbers if len(numbers) == len(ranges) else None


def number_of(text: str, least: int, most: int) -> int | None:
    """The number that is spelled so, in this range."""
    return int(text) if NUMBER.fullmatch(text) and least <= int(text) <= most else None
