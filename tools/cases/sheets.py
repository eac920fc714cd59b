"""Files `.cases`: fragments of sheets and plans, and the frames into which they are put."""

import re
from collections.abc import Callable, Iterator
from itertools import product
from pathlib import Path

from cases.expected import KINDS, LATER_KINDS, NO_FAULT_OF_PLAN, PLAN_FAULTS, PLAY_FAULTS, TOLD
from cases.rows import Group, Row, copied, is_limit, marked, only_last_marker, read_groups, unescaped
from cases.running import Case, End, fault_case, told_cases, untold_case

# The texts of each frame by its name, with `@` where a fragment goes.
Frames = dict[str, list[str]]


def read_frames(folder: Path) -> Frames:
    frames: Frames = {}
    for group in read_groups(folder / "frames"):
        if group.heading.text in frames:
            raise group.heading.mistake("a frame of this name stands above")
        for row in group.rows:
            if "@" not in row.text:
                raise row.mistake("a frame has no '@'")
        texts = [unescaped(row, row.text) for row in group.rows]
        frames[group.heading.text] = [out.replace("@", text) for out, text in product(outer_of(group, frames), texts)]
    return frames


def outer_of(group: Group, frames: Frames) -> list[str]:
    """The texts of the frame in which those of this group stand."""
    if not group.behind:
        return ["@"]
    name = re.fullmatch(r"in \[(.+)\]", group.behind)
    if not name or name[1] not in frames:
        raise group.heading.mistake(f"no frame above is meant by '{group.behind}'")
    return frames[name[1]]


def no_fault(expected: str) -> Callable[[End], bool]:
    """Whether a run ended without the faults that aren't to be found."""
    later = LATER_KINDS[expected]
    return lambda end: (end.status == 0 and not end.notes) or (end.fault() or ("",))[0] in later


def sheet_case(row: Row, source: str, at: int, expected: str) -> Case:
    """The case of a source whose sheet is read, of which this is expected."""
    if expected in KINDS:
        return fault_case(row, "sheet", source, (expected, at))
    if expected in LATER_KINDS:
        return Case(row, ("sheet",), source, expected, no_fault(expected))
    text = (source if expected == "prints itself" else expected.removeprefix("prints ")) + "\n"
    return Case(row, ("sheet",), source, expected, lambda end: (end.status, end.out, end.notes) == (0, text, ""))


def framed_cases(row: Row, frame: str, fragment: str, expected: str) -> Iterator[Case]:
    """The cases of a fragment in a frame, of which this is expected."""
    source, at = marked(frame.replace("@", only_last_marker(fragment)))
    if expected in PLAN_FAULTS | PLAY_FAULTS:
        yield from told_cases(row, source, at, expected)
    elif expected == NO_FAULT_OF_PLAN:
        yield Case(row, ("play",), source, expected, lambda end: end.status == 0)
        yield untold_case(row, source)
    else:
        yield sheet_case(row, source, at, expected)


def sheet_cases(row: Row, frames: list[str], expected: str) -> Iterator[Case]:
    """The cases of a row: those of each text of its frame, and where it tells a limit more for each."""
    fragment = unescaped(row, row.text)
    wanted = 1 if expected in TOLD else 0
    if fragment.count("^") != wanted:
        raise row.mistake(f"a row where '{expected}' is expected has {wanted} of the marker '^', and not {fragment.count('^')}")
    for frame in frames:
        if is_limit(fragment):
            fine = NO_FAULT_OF_PLAN if expected in PLAN_FAULTS else "no fault of meaning"
            yield from framed_cases(row, frame, copied(fragment).replace("^", ""), fine)
        yield from framed_cases(row, frame, copied(fragment, 1), expected)


def is_expectable(expected: str) -> bool:
    return expected in TOLD | LATER_KINDS.keys() | {NO_FAULT_OF_PLAN} or expected.startswith("prints ")


def read_sheets(file: Path, frames: Frames) -> Iterator[Case]:
    """The cases of a file of fragments."""
    for group in read_groups(file):
        names, _, expected = group.heading.text.partition(": ")
        for name in names.split(", "):
            if name not in frames:
                raise group.heading.mistake(f"no frame '{name}' stands in the file 'frames' beside")
        if not is_expectable(expected):
            raise group.heading.mistake(f"'{expected}' is nothing that can be expected")
        texts = [text for name in names.split(", ") for text in frames[name]]
        for row in group.rows:
            yield from sheet_cases(row, texts, expected)
