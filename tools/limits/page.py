"""Writes the tables of docs/LIMITS.md."""

from collections.abc import Iterable
from pathlib import Path

BEGIN, END = "<!-- bench/limits --write writes the table `{part}` from here -->\n", "<!-- to here -->\n"


def table_of(rows: Iterable[tuple[str, ...]]) -> str:
    """A table, whose first row is its head."""
    head, *others = [f"| {' | '.join(row)} |\n" for row in rows]
    return "".join([head, "|---" * head.count(" | ") + "|---|\n", *others])


def with_table(page: str, part: str, table: str) -> str:
    """The page with this table between the marks of a part."""
    begin = BEGIN.format(part=part)
    before, found, rest = page.partition(begin)
    _, end, after = rest.partition(END)
    if not found or not end:
        raise ValueError(f"the page has no marks for the table `{part}`")
    return f"{before}{begin}\n{table}\n{END}{after}"


def write_tables(file: Path, found: dict[str, list[tuple[str, ...]]]) -> None:
    """Writes what was found of these parts."""
    page = file.read_text("utf-8")
    for part, rows in found.items():
        page = with_table(page, part, table_of(rows))
    file.write_text(page, "utf-8")
