"""Files `.plays`: plays of one source with places, and what comes of each."""

import re
from collections.abc import Iterator
from dataclasses import dataclass, replace
from pathlib import Path

from cases.expected import KINDS, PLAN_FAULTS, REFUSALS, REFUSED, TOLD
from cases.notes import NO_LOOKS, any_hits, is_note
from cases.rows import Group, Row, copied, marked, read_groups, unescaped
from cases.running import Case, End, ends_as, fault_case, told_cases
from cases.texts import NAMED, judged_case, migrated_cases

# What is noted, and behind which options.
NOTED = re.compile(r"(?:(?P<options>--.+): )?looks (?P<looks>\d+) hits (?P<hits>\d+|\*)")

# The options of a play whose lines are those of format 2.
FORMAT = ("--format", "2")

# How many workers play each play, beside one.
WORKERS = (2, 4)

# How the words of another command begin in a file, and the lines of what it reads behind the plan, of which the last may be open.
WORDS, READ, OPEN = "$ ", "< ", "<- "

# What may be expected of a text that is read.
ILLEGAL = re.compile(r"text \d+|illegal \d+ [A-Z][a-z]+")


@dataclass(frozen=True)
class Play:
    """What stands at the places of the source, the lines or the refusal that is expected, what is noted with which options, the words
    of the command, if it isn't `play`, and what that reads behind the plan."""

    places: dict[str, str]
    expected: list[str]
    notes: dict[tuple[str, ...], str]
    words: tuple[str, ...] = ()
    text: str = ""


def is_refusal(expected: str) -> bool:
    return expected in REFUSED or ILLEGAL.fullmatch(expected) is not None


def read_play(group: Group, base: dict[str, str]) -> Play:
    """A play, with the places of the first play where it says nothing of one."""
    places, expected, notes, words, text = dict(base), [], {(): NO_LOOKS}, (), ""
    for row in group.rows:
        place = re.fullmatch(r"(\w+):(.*)", row.text, re.DOTALL)
        noted = NOTED.fullmatch(row.text)
        if is_refusal(row.text):
            expected.append(row.text)
        elif row.text.startswith("> "):
            expected.append(row.text.removeprefix("> "))
        elif row.text.startswith(WORDS):
            words = tuple(row.text.removeprefix(WORDS).split())
        elif row.text.startswith((READ, OPEN)):
            text += row.text.removeprefix(OPEN) if row.text.startswith(OPEN) else f"{row.text.removeprefix(READ)}\n"
        elif noted:
            notes[tuple((noted["options"] or "").split())] = "cache looks {looks} hits {hits}\n".format(**noted.groupdict())
        elif place:
            places[place[1]] = copied(unescaped(row, place[2].strip()))
        else:
            raise row.mistake("neither a place of the source nor what is expected")
    if not expected or (is_refusal(expected[0]) and len(expected) > 1):
        raise group.heading.mistake("what is expected of a play is lines, or one refusal")
    return Play(places, expected, notes, words, text)


def lines_of(play: Play) -> str:
    """The text of the lines that are expected."""
    return "".join(f"{line}\n" for line in play.expected)


def lines_match(expected: list[str], text: str) -> bool:
    """Whether a text has these lines, where `..` stands for any lines."""
    parts = [r"(?:.*\n)*?" if line == ".." else re.escape(line) + r"\n" for line in expected]
    return re.fullmatch("".join(parts), text) is not None


def play_cases(heading: Row, text: str, play: Play) -> Iterator[Case]:
    """The cases of a play: its fault under all commands, or how `play` ends; or how the command ends whose words it has."""
    source, at = marked(text + play.text)
    first = play.expected[0]
    wanted = 1 if first in TOLD else 0
    if text.count("^") != wanted:
        raise heading.mistake(f"a play where {first} is expected has {wanted} of the marker '^', and not {text.count('^')}")
    if play.words:
        yield command_case(heading, source, play, at)
        if first.startswith("house ") and ".." not in play.expected:
            # Its choices aren't those of the plan's strategies.
            yield replace(judged_case(heading, source, lines_of(play), "legal"), expected="check: legal")
    elif first in KINDS:
        for command in ("sheet", "play", "check", "migrate"):
            yield fault_case(heading, command, source, (first, at))
    elif first in TOLD:
        yield from told_cases(heading, source, at, first)
    elif first in REFUSALS:
        yield Case(heading, ("play",), source, first, ends_as(End(REFUSALS[first], "", f"{first}\n")))
    else:
        yield from played_cases(heading, source, play)


def command_case(heading: Row, source: str, play: Play, at: int) -> Case:
    """The case of a play of another command, of which nothing is noted but a refusal."""
    first = play.expected[0]
    what = f"{' '.join(play.words)}: {first if is_refusal(first) else play.expected}"
    if is_refusal(first):
        return Case(heading, play.words, source, what, ends_as(refused(first, at)))

    def is_written(end: End) -> bool:
        return (end.status, end.notes) == (0, "") and lines_match(play.expected, end.out)

    return Case(heading, play.words, source, what, is_written)


def refused(expected: str, at: int) -> End:
    """How a command ends that refuses a source so."""
    if expected in KINDS:
        return End(1, "", f"sheet {expected} {at}\n")
    if expected in PLAN_FAULTS:
        return End(3, "", f"{expected} {at}\n")
    return End(REFUSALS.get(expected, 4), "", f"{expected}\n")


def played_case(heading: Row, source: str, expected: list[str], options: tuple[str, ...], note: str) -> Case:
    """The case of a source that is played with these options."""

    def is_played(end: End) -> bool:
        return end.status == 0 and is_note(note, end.notes) and lines_match(expected, end.out)

    return Case(heading, ("play", *options), source, f"the lines {expected!r} and the note {note!r}", is_played)


def played_cases(heading: Row, source: str, play: Play) -> Iterator[Case]:
    """The cases of a source that is played, also by several workers, and that of its transcript, if it is known as a whole, which
    is legal."""
    text = lines_of(play)
    format = FORMAT if text.startswith(NAMED) else ()
    for options, note in play.notes.items():
        yield played_case(heading, source, play.expected, (*format, *options), note)
    for workers in WORKERS:
        yield played_case(heading, source, play.expected, (*format, "--workers", str(workers)), any_hits(play.notes[()]))
    if ".." not in play.expected:
        yield judged_case(heading, source, text, "legal")
        yield from migrated_cases(heading, source, text, "legal")


def read_plays(file: Path, source: str) -> Iterator[Case]:
    """The cases of a file of plays, of which the first says what stands at each place of the source."""
    first: dict[str, str] = {}
    for group in read_groups(file):
        play = read_play(group, first)
        first = first or play.places
        if set(play.places) != set(re.findall(r"@(\w+)", source)):
            raise group.heading.mistake(f"it has the places {', '.join(sorted(play.places))}, which aren't those of the source")
        text = re.sub(r"@(\w+)", lambda found: play.places[found[1]], source)
        yield from play_cases(group.heading, text, play)
