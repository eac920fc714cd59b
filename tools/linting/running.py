"""Reads a sheet and tells what in it is likely a mistake."""

import os
from contextlib import suppress

from faults.places import Lines
from inputs import SOURCE, TooLong, contents
from linting.finding import Finding
from linting.limits import refuse_many
from linting.on_maps import on_maps
from linting.on_names import on_locations, on_numbers
from linting.on_peeks import on_known, on_peeks
from linting.on_references import on_references
from linting.on_stages import on_stages
from linting.on_values import on_values
from linting.on_variables import on_variables
from linting.trees import Node, Unreadable, read_sheet
from telling import printable

# The statuses where nothing is told, where something is, where words or lists are faulty, and where a file can't be read or written
# or is too long; the last three are the program's own.
CLEAN, FOUND, FAILED, READ_FAULT, WRITE_FAULT, TOO_LONG = 0, 1, 2, 6, 7, 8

OUTPUT, ERROR = 1, 2

KINDS = (on_locations, on_numbers, on_values, on_maps, on_variables, on_stages, on_references, on_peeks, on_known)


def findings(sheet: Node) -> list[Finding]:
    """All that is told of a sheet, in the order of the text."""
    refuse_many(sheet)
    return sorted(finding for kind in KINDS for finding in kind(sheet))


def told(file: str, lines: Lines, finding: Finding) -> str:
    place = lines.place_of(finding.at)
    return printable(f"{file}:{place.line}:{place.column}: {finding.said}") + "\n"


def main(words: list[str]) -> int:
    """Tells the findings of one file, and ends with the status that says whether there were some."""
    if len(words) != 1:
        return fail("usage: cardhouse lint GAME.sheet")
    file = words[0]
    try:
        source = contents(file, SOURCE)
        found = findings(read_sheet(source))
    except OSError as fault:
        return fail(f"{file} can't be read: {fault.strerror}.", READ_FAULT)
    except TooLong as fault:
        return fail(f"{file} can't be a sheet: {fault}.", TOO_LONG)
    except Unreadable as fault:
        return fail(f"{file} can't be read as a sheet: {fault}. `./cardhouse sheet` tells its fault.")
    try:
        lines = Lines(source)
        write(OUTPUT, "".join(told(file, lines, finding) for finding in found))
    except OSError:
        return WRITE_FAULT
    return FOUND if found else CLEAN


def write(output: int, text: str) -> None:
    """Writes to standard output or standard error."""
    left = text.encode()
    while left:
        left = left[os.write(output, left) :]


def fail(said: str, status: int = FAILED) -> int:
    """Says why nothing could be looked at, where standard error takes it."""
    with suppress(OSError):
        write(ERROR, f"lint: {printable(said)}\n")
    return status
