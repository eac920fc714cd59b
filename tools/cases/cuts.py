"""The cases of a source that is cut off behind each of its bytes, and those of each byte by itself."""

from collections.abc import Iterator
from pathlib import Path

from cases.rows import Row
from cases.running import Case, fault_case, told_cases

# White space, and what begins a comment.
BLANKS, COMMENT = b"\t\n\r ,", b";"


def last_open(text: str) -> int | None:
    """The offset of the last list that is still open behind a text without comments, if one is."""
    open_lists = []
    for at, byte in enumerate(text):
        if byte == "(":
            open_lists.append(at)
        elif byte == ")":
            open_lists.pop()
    return open_lists[-1] if open_lists else None


def cut_cases(row: Row, text: str) -> Iterator[Case]:
    """The cases of a front of a source without comments, which lacks a part of its plan at least."""
    at = last_open(text)
    if at is not None:
        yield from told_cases(row, text, at, "play Unclosed")
    elif ")" in text:
        # The sheet stands there, and no plan.
        yield from told_cases(row, text, len(text), "plan Shape")
    else:
        yield from told_cases(row, text, len(text), "play Shape")


def read_cuts(file: Path) -> Iterator[Case]:
    """The cases of all fronts of a sheet and its plan."""
    source = file.read_text("ascii") + file.with_suffix(".plan").read_text("ascii").rstrip("\n")
    for length in range(len(source)):
        yield from cut_cases(Row(file, source.count("\n", 0, length) + 1, "a source that is cut off"), source[:length])


def fault_alone(byte: int) -> tuple[str, int]:
    """The fault of a text of this byte alone."""
    if byte in BLANKS + COMMENT:
        return "Shape", 1
    if byte == ord("("):
        return "Unclosed", 0
    return ("Stray", 0) if ord(" ") < byte < 127 else ("BadByte", 0)


def fault_inside(byte: int) -> tuple[str, int]:
    """The fault of a list with this byte between two others."""
    if byte in b"(" + COMMENT:
        return "Unclosed", 0
    return ("Shape", 0) if byte in BLANKS or ord(" ") < byte < 127 else ("BadByte", 2)


def read_bytes(file: Path) -> Iterator[Case]:
    """The cases of each byte, alone, inside a list and in a comment there."""
    for byte in range(256):
        row = Row(file, 1, f"the byte {byte}")
        yield fault_case(row, "sheet", chr(byte), fault_alone(byte))
        yield fault_case(row, "sheet", f"(a{chr(byte)}b)", fault_inside(byte))
        yield fault_case(row, "sheet", f"(;{chr(byte)}\n)", ("Shape", 0))
