"""Files `.texts`: transcripts, each told by what differs from one that was played."""

import re
from collections.abc import Iterator
from pathlib import Path

from cases.rows import Group, Row, read_groups
from cases.running import Case, End, ends_as
from faults.tokens import gap_end

# How a line of what `migrate` writes begins in a file.
WRITTEN = "> "

NAMED = "house 2\n"


def altered(group: Group, lines: list[str]) -> tuple[list[str], str]:
    """The lines of a text with a group's alterations, and what is expected. Numbers are those of the lines as they stand then."""
    lines, expected = list(lines), ""
    for row in group.rows:
        if row.text.startswith(WRITTEN):
            continue
        change = re.fullmatch(r"(\d+)(:|\+|-) ?(.*)", row.text)
        if not change:
            expected = row.text
            continue
        at = int(change[1]) - 1
        lines[at : at + (change[2] != "+")] = [] if change[2] == "-" else [change[3]]
    if not re.fullmatch(r"legal|text \d+|illegal \d+ [A-Z][a-z]+", expected):
        raise group.heading.mistake("what is expected of a text is that it is legal, or a line that isn't right")
    return lines, expected


def migrated(group: Group) -> str | None:
    """What `migrate` writes of a group's text, if its rows tell."""
    lines = [row.text.removeprefix(WRITTEN) for row in group.rows if row.text.startswith(WRITTEN)]
    return "".join(f"{line}\n" for line in lines) or None


def judged_case(heading: Row, source: str, text: str, expected: str) -> Case:
    """The case of a source with a transcript, of which `check` is to say this."""
    end = End(0, "legal\n", "") if expected == "legal" else End(4, "", f"{expected}\n")
    return Case(heading, ("check",), f"{source}\n{text}", expected, ends_as(end))


def migrated_cases(heading: Row, source: str, text: str, expected: str, written: str | None = None) -> Iterator[Case]:
    """The case of `migrate` of the same, if it is known: what is refused is refused alike, by `measure` too, and a text of format 2
    stays as it is."""
    begun = text[gap_end(text.encode("latin-1"), 0) :]
    if expected != "legal":
        for word in ("migrate", "measure"):
            yield Case(heading, (word,), f"{source}\n{text}", f"{word}: {expected}", ends_as(End(4, "", f"{expected}\n")))
    elif written or begun.startswith(NAMED):
        end = End(0, written or begun, "")
        yield Case(heading, ("migrate",), f"{source}\n{text}", f"migrate: {end.out!r}", ends_as(end))


def read_texts(file: Path, source: str, text: str) -> Iterator[Case]:
    """The cases of a file of transcripts."""
    for group in read_groups(file):
        lines, expected = altered(group, text.splitlines())
        told = "".join(f"{line}\n" for line in lines)
        yield judged_case(group.heading, source, told, expected)
        yield from migrated_cases(group.heading, source, told, expected, migrated(group))
