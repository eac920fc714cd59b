"""The words that `cardhouse` takes: its commands and options, with what a shell says of each."""

from __future__ import annotations

from dataclasses import dataclass, field


@dataclass(frozen=True)
class Option:
    """An option with what is said of it. Behind it stands a word of this kind, or none."""

    name: str
    said: str
    takes: str = ""


@dataclass(frozen=True)
class Command:
    """A command with what is said of it, its options, and the words of which one stands behind it."""

    name: str
    said: str
    options: list[Option] = field(default_factory=list)
    parts: list[Command] = field(default_factory=list)


WORKERS = Option("--workers", "how many workers play at the same time", "N")
CACHE = Option("--cache", "of how many decisions totals are remembered", "N")
OUT = Option("-o", "where the page goes", "FILE")
FORMS = [Option("--csv", "a line for each match, comma-separated"), Option("--jsonl", "a line for each match, a JSON object")]
HELP = Option("--help", "tells of the commands, or the words of a tool")

# What may stand before a command, or in its place.
FIRST = [
    Option("--explain", "explains the line of a refusal"),
    Option("--try", "runs the sources without their proof"),
    Option("--proved", "proves and builds the program first where it isn't built"),
    HELP,
    Option("--version", "tells the version, the commit, the kit and the program's digest"),
]

OF_SERIES = [
    Command(
        "split",
        "splits a series into a folder",
        [
            Option("--size", "a piece has at most N matches", "N"),
            Option("--seconds", "a piece takes about S seconds", "S"),
            Option("--format", "the format of the transcripts", "N"),
            Option("--large", "the folder may have more than 1 GB"),
            Option("--duplicate", "each deal is played with each strategy in each seat"),
        ],
    ),
    Command("make", "plays all pieces that aren't done"),
    Command("run", "plays and judges a piece"),
    Command("again", "plays pieces once more", [Option("--share", "so large a part of the pieces", "PART")]),
    Command("table", "one table of all matches", FORMS),
    Command("measure", "the measures of all matches"),
    Command("merge", "the one transcript of all matches"),
    Command("compare", "compares two series on the same deals"),
]

COMMANDS = [
    Command(
        "play", "plays the matches of a plan", [WORKERS, CACHE, Option("--format", "the format of the transcript, 1 or 2", "N")]
    ),
    Command("check", "says whether a sheet allows these plays"),
    Command("sheet", "writes a sheet in canonical form"),
    Command("bench", "plays matches of a game that is built in", [WORKERS, CACHE]),
    Command("migrate", "writes a transcript in format 2"),
    Command("watch", "writes what a seat saw in a match"),
    Command("measure", "writes what matches come to"),
    Command("rival", "plays with a search in the place of a strategy"),
    Command("lint", "tells what in a sheet is likely a mistake"),
    Command(
        "fmt",
        "lays a sheet out over lines",
        [Option("--check", "names files that are laid out otherwise"), Option("--write", "writes such files anew"), HELP],
    ),
    Command(
        "table",
        "one table of the matches of transcripts",
        [
            *FORMS,
            Option("--duplicate", "tells the errors by deal"),
            Option("--sheet", "tells which stages were open at the turn limit", "FILE"),
            HELP,
        ],
    ),
    Command(
        "show",
        "a page of a match on a table",
        [
            Option("--match", "which match of the plan", "M"),
            Option("--seat", "tells what this seat may know", "S"),
            Option("--text", "lines for a terminal"),
            Option("--items", "tells the menus of at most so many items", "N"),
            OUT,
            HELP,
        ],
    ),
    Command(
        "report",
        "a page on what came of all matches",
        [
            Option("--csv", "writes what was counted to files of this folder", "DIR"),
            Option("--courses", "how many matches are followed", "N"),
            Option("--replays", "writes the pages of the matches to look at"),
            OUT,
            HELP,
        ],
    ),
    Command("series", "a long series of matches, in pieces", [HELP], OF_SERIES),
    Command("build", "proves and builds the program of a checkout"),
    Command("release", "makes packages of the program that the gate proved", [HELP]),
]
