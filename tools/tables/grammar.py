"""The lines of house texts in both formats, the ranges of their numbers, and which line may stand behind which."""

from __future__ import annotations

import os
import re

from tables.numbers import up_to

# The ranges of numbers: the least and the most.
RANGES = {
    "M": (0, 4095),
    "D": (0, 999_999_999_999_999_999),
    "S": (0, 999_999_999_999_999_999),
    "SEAT": (0, 7),
    "PLAYER": (0, 7),
    "K": (0, 7),
    "SITE": (0, 63),
    "ITEM": (0, 255),
    "SIZE": (1, 256),
    "N": (1, 4_294_967_295),
    "TURN": (0, 100_000),
    "SCORE": (-1_000_000_000, 1_000_000_000),
    "POINTS": (0, 14),
    "PLACE": (1, 8),
    "P": (0, 57_344),
    "F": (0, 511),
}

LINES = {
    "house": "house 1",
    "match": "match M deal D seats S",
    "choose": "choose SEAT SITE ITEM SIZE",
    "shuffles": "shuffles N",
    "end": "end WORD TURN",
    "score": "score PLAYER SCORE POINTS",
    "standing": "standing PLACE strategy K points P",
}

# The lines of format 2, and one for each face behind the first.
NAMED_LINES = LINES | {"house": "house 2", "choose": "choose SEAT SITE ITEM SIZE MARKS"}
FACE_LINE = "face F PAIRS"

# What may stand behind a line with this word. A text ends behind a standing.
BEHIND = {
    "": ("house",),
    "house": ("match",),
    "match": ("choose", "shuffles", "end"),
    "choose": ("choose", "shuffles", "end"),
    "shuffles": ("end",),
    "end": ("score",),
    "score": ("score", "match", "standing"),
    "standing": ("standing",),
}

# A plain atom: no byte of it ends an atom, and it isn't a variable.
ATOM = r"(?!')[!-'*+\--:<-~]{1,64}"


def number(name: str) -> str:
    """The pattern of a number with this name."""
    least, most = RANGES[name]
    return up_to(most, least) if least >= 0 else rf"(?:0|-?{up_to(most, 1)})"


# The patterns of what is no number. Before each of several marks and pairs stands a space.
OTHERS = {
    "WORD": "(?:done|limit)",
    " MARKS": f"(?: (?:p{number('SEAT')}|[cg]{number('F')})){{0,4}}",
    " PAIRS": f"(?: {ATOM} {ATOM})+",
}


def line(told: str, caught: bool = False) -> str:
    """The pattern of a line, whose numbers may be caught."""

    def pattern(found: re.Match[str]) -> str:
        part = OTHERS.get(found[0]) or number(found[0])
        return f"({part})" if caught else part

    return re.sub(r"(?: (?=MARKS|PAIRS))?[A-Z]+", pattern, told) + r"\n"


class Format:
    """A format of house texts: a pattern of each of its lines, and one of a match."""

    def __init__(self, lines: dict[str, str]) -> None:
        self.lines = {word: re.compile(line(told).encode()) for word, told in lines.items()}
        caught = (line(lines[word], caught=True) for word in ("match", "shuffles", "end"))
        match = "{}((?:{choose})*)(?:{})?{}((?:{score})+)".format(*caught, choose=line(lines["choose"]), score=line(lines["score"]))
        self.match = re.compile(match.encode())


PLAIN, NAMED = Format(LINES), Format(NAMED_LINES)
FACE = re.compile(line(FACE_LINE).encode())
HEAD = re.compile(rb"house [12]\n(?:face [^\n]*\n)*")
STANDING = re.compile(line(LINES["standing"]).encode())
SCORE = re.compile(line(LINES["score"], caught=True).encode())


def format_of(text: bytes) -> Format:
    """The format of a text. It is told by the first line: what doesn't begin as a text of format 2 is read as one of format 1."""
    return NAMED if NAMED.lines["house"].match(text) else PLAIN


def lines_in(text: bytes) -> list[bytes]:
    """The lines of a text. What stands behind the last line feed is one too."""
    return re.findall(rb"[^\n]*\n|[^\n]+", text)


def legend_in(lines: list[bytes]) -> list[bytes]:
    """The lines behind the first that are the legend of some sheet: the numbers of their faces begin with 0 and go up."""
    legend: list[bytes] = []
    last = -1
    for told in lines[1:]:
        face = int(told.split()[1]) if FACE.fullmatch(told) else last
        if face <= last or not legend and face:
            break
        legend.append(told)
        last = face
    return legend


def end_of_head(text: bytes) -> int:
    """Where the lines before the first match end. Where they aren't right, that is at the beginning."""
    head = HEAD.match(text)
    lines = lines_in(head[0]) if head else []
    legend = legend_in(lines)
    is_right = len(lines) > 1 and lines[1:] == legend if format_of(text) is NAMED else len(lines) == 1
    return sum(map(len, lines)) if is_right else 0


def legend_fault(lines: list[bytes], legend: list[bytes]) -> int | None:
    """The number of the first line that isn't the one of this legend. There is no sheet whose legend is empty."""
    same = len(os.path.commonprefix([lines[1 : 1 + len(legend)], legend]))
    return None if legend and same == len(legend) else 2 + same


def first_fault(text: bytes, legend: list[bytes] | None = None) -> int | None:
    """The number of the first line that no house text has there, from 1; that behind the last where the text ends too early. The
    legend is that of a sheet; where none is told, it may be that of any."""
    form, lines, word = format_of(text), lines_in(text), ""
    numbered = list(enumerate(lines, 1))
    if form is NAMED:
        wanted = legend_in(lines) if legend is None else legend
        if fault := legend_fault(lines, wanted):
            return fault
        del numbered[1 : 1 + len(wanted)]
    for at, found in numbered:
        word = next((it for it in BEHIND[word] if form.lines[it].fullmatch(found)), "fault")
        if word == "fault":
            return at
    return None if word == "standing" else len(lines) + 1
