"""What a report counts, as comma-separated values for other programs: a file for each kind of line."""

from __future__ import annotations

import csv
import io
from collections.abc import Iterator
from pathlib import Path

from reports.report import Report
from reports.sites import sites_of
from tables.ending import WRITE_FAULT, Refused
from tables.records import csv as matches_csv

Row = list[object]


def write_records(folder: Path, report: Report) -> None:
    """Writes the files to a folder, which is made where it isn't there."""
    files = {
        "matches.csv": matches_csv(report.told.matches),
        "decisions.csv": text_of(decisions(report)),
        "choices.csv": text_of(choices(report)),
        "scores.csv": text_of(scores(report)),
    }
    try:
        folder.mkdir(exist_ok=True)
        for name, text in files.items():
            (folder / name).write_text(text, "utf-8")
    except OSError as error:
        raise Refused(WRITE_FAULT, f"{error.filename or folder}: {error.strerror}") from None


def text_of(rows: Iterator[Row]) -> str:
    written = io.StringIO()
    csv.writer(written, lineterminator="\n").writerows([plain(it) for it in row] for row in rows)
    return written.getvalue()


def plain(cell: object) -> object:
    """A cell that no spreadsheet takes for a formula: words come from a sheet, which may be a stranger's."""
    return f"'{cell}" if isinstance(cell, str) and cell[:1] in set("=+-@\t\r") else cell


def decisions(report: Report) -> Iterator[Row]:
    """A line for each decision of each match. The alternative is empty where it isn't known."""
    yield ["match", "decision", "seat", "choice", "alternative", "item", "size"]
    numbers = report.told.alternatives
    for record in report.told.records:
        for at, it in enumerate(record.picks):
            yield [record.number, at, it.seat, it.site, numbers[record.number][at] if numbers else "", it.item, it.size]


def choices(report: Report) -> Iterator[Row]:
    """A line for each choice of the sheet, and behind it one for each of its alternatives."""
    of_choices = ["matches", "decisions", "forced", "items"]
    yield ["choice", "alternative", "words", *of_choices, "taken", "taken_of_several", "looked", "offered"]
    for number, site in enumerate(sites_of(report)):
        yield [number, "", site.name, site.matches, site.decisions, site.forced, site.items, "", "", "", ""]
        for at, it in enumerate(site.alternatives):
            yield [number, at, it.name, "", "", "", "", it.taken, it.chosen, it.looked, it.offered]


def scores(report: Report) -> Iterator[Row]:
    """How the scores stood at each decision of the matches that were followed, and at the end."""
    yield ["match", "decision", *(f"score_{seat}" for seat in range(report.players))]
    for course in report.told.courses:
        for at, row in enumerate(course.scores):
            yield [course.match, at, *row]
