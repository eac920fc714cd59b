"""Files of cases: their rows, groups, escapes, copies and markers."""

import re
from collections.abc import Iterator
from dataclasses import dataclass
from pathlib import Path

ROOT = Path(__file__).resolve().parent.parent.parent


class Mistake(Exception):
    """What is wrong with a file of cases, and where."""


def name_of(file: Path) -> str:
    """The file as it is named in messages, from the root of the repository where it lies there."""
    return str(file.relative_to(ROOT) if file.is_relative_to(ROOT) else file)


@dataclass(frozen=True)
class Row:
    """A row of a file, with its further lines."""

    file: Path
    number: int
    text: str

    def place(self) -> str:
        return f"{name_of(self.file)}:{self.number}"

    def mistake(self, what: str) -> Mistake:
        return Mistake(f"{self.place()}: {what}")


@dataclass(frozen=True)
class Group:
    """A heading without its brackets, what stands behind them, and the rows below."""

    heading: Row
    behind: str
    rows: list[Row]


def read_rows(file: Path) -> list[Row]:
    """The rows of a file. A line that begins with a space goes on with the row above."""
    rows: list[Row] = []
    for number, line in enumerate(file.read_text("ascii").splitlines(), 1):
        if not line.strip() or line.startswith("#"):
            continue
        if line.startswith(" ") and rows:
            rows[-1] = Row(file, rows[-1].number, f"{rows[-1].text}\n{line.strip()}")
        else:
            rows.append(Row(file, number, line.rstrip()))
    return rows


def read_groups(file: Path) -> list[Group]:
    """The groups of a file: `[HEADING]`, where frames have more behind it, and the rows below."""
    groups: list[Group] = []
    for row in read_rows(file):
        heading = re.fullmatch(r"\[(.+?)\](.*)", row.text)
        if heading:
            groups.append(Group(Row(file, row.number, heading[1]), heading[2].strip(), []))
        elif groups:
            groups[-1].rows.append(row)
        else:
            raise row.mistake("this row stands below no heading")
    if not groups:
        raise Mistake(f"{name_of(file)}: it has no rows")
    for group in groups:
        if not group.rows:
            raise group.heading.mistake("no row stands below this heading")
    return groups


def unescaped(row: Row, text: str) -> str:
    """The text with its escapes read as in Python's strings."""
    try:
        return text.encode("ascii").decode("unicode_escape")
    except UnicodeDecodeError as error:
        raise row.mistake(f"an escape that isn't known: {error.reason}") from None


def copied(text: str, more: int = 0) -> str:
    """The text with `{N TEXT}` written N times, in which `#` is the number of the copy, and `{N+ TEXT}` so many times more."""

    def copies(found: re.Match[str]) -> str:
        count = int(found[1]) + (more if found[2] else 0)
        return "".join(found[3].replace("#", str(number)) for number in range(count))

    return re.sub(r"\{(\d+)(\+?) (.*?)\}", copies, text)


def is_limit(text: str) -> bool:
    """Whether the text has copies that reach a limit, which one more passes."""
    return re.search(r"\{\d+\+ ", text) is not None


def marked(text: str) -> tuple[str, int]:
    """The text without its markers, and the offset of the first; -1 where there is none."""
    return text.replace("^", ""), text.find("^")


def only_last_marker(text: str) -> str:
    """The text, with the last of its markers alone where copies have more."""
    before, marker, behind = text.rpartition("^")
    return before.replace("^", "") + marker + behind


def numbered_lines(file: Path) -> Iterator[Row]:
    """The lines of a page, as rows."""
    for number, line in enumerate(file.read_text("utf-8").splitlines(), 1):
        yield Row(file, number, line)
