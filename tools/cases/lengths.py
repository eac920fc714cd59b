"""The cases of the longest sources that `check` and `migrate` take, and of sources with a byte more."""

from collections.abc import Iterator
from pathlib import Path

from cases.expected import REFUSALS
from cases.rows import ROOT, Row
from cases.running import Case, End, ends_as
from cases.texts import judged_case
from cases.tricks import text_of

FIRST = ROOT / "examples/first.sheet"

# The bytes of the longest source.
LIMIT = 33_554_432

# Of the lines of a transcript, those of its one match that stand before the choices, and those behind them.
BEFORE, BEHIND = 2, 5


def lengthened(lines: list[str], room: int) -> list[str]:
    """The lines of a transcript with its first choice made again and again, so that the text has so many bytes. The size is one
    digit longer in as many of these choices as that takes."""
    begin, end = lines[: BEFORE + 1], lines[-BEHIND:]
    again = begin[-1]
    number, longer = divmod(room - len(text_of(begin + end)), len(again) + 1)
    return [*begin, *[again + "0"] * longer, *[again] * (number - longer), *end]


def too_long(row: Row, source: str, command: str = "check") -> Case:
    end = End(REFUSALS["too long"], "", "too long\n")
    return Case(row, (command,), source, "too long", ends_as(end))


def read_longest(file: Path) -> Iterator[Case]:
    """The cases of a sheet and its plan: behind them a comment or a transcript makes the source as long as it may be, or longer
    by a byte."""
    before = file.read_text("ascii") + file.with_suffix(".plan").read_text("ascii").rstrip("\n")
    lines = file.with_suffix(".transcript").read_text("ascii").splitlines()
    room = LIMIT - len(f"{before}\n")

    text = text_of(lines)
    row = Row(file, 1, "a comment before the transcript")
    comment = ";".ljust(room - len(f"\n{text}"), "x")
    yield judged_case(row, f"{before}\n{comment}", text, "legal")
    for command in ("check", "migrate"):
        yield too_long(row, f"{before}\n{comment}x\n{text}", command)

    text = text_of(lengthened(lines, room))
    row = Row(file, 1, "a transcript with many lines")
    # The first player can't choose again before the second one has chosen.
    yield judged_case(row, before, text, f"illegal {BEFORE + 2} Seat")
    yield too_long(row, f"{before}\n{text_of(lengthened(lines, room + 1))}")

    # Without its line feed the last line is none.
    longer = lengthened(lines, room + 1)
    yield judged_case(row, before, text_of(longer).removesuffix("\n"), f"text {len(longer)}")
