"""What is said beside the line of a refusal."""

from __future__ import annotations

import os
import re
import textwrap
from collections.abc import Callable

from faults import kinds
from faults.absence import on_absence
from faults.doubts import doubt_about, sentence_on_doubt
from faults.forms import MEANINGS, is_fixed
from faults.naming import on_grammar, on_marks
from faults.parts import Part
from faults.places import line_at, picture, place_of
from faults.sources import File, Source
from faults.tokens import end_of, rest_of

WIDTH = 100


def explanation(note: str, text: bytes, words: list[str], files: tuple[File, ...] = ()) -> list[str]:
    """The lines that explain a note on a source that was read by these words; none where there is nothing to explain."""
    source = Source(text, files)
    readings: list[tuple[str, Callable[[re.Match[str]], list[str]]]] = [
        (r"(sheet|plan) (\w+) (\d+)", lambda told: on_part(told[1], told[2], int(told[3]), source)),
        (r"text (\d+)", lambda told: on_line(int(told[1]), on_grammar(text, int(told[1])), source)),
        (r"illegal (\d+) Named", lambda told: on_line(int(told[1]), on_marks(text, int(told[1])), source)),
        (r"illegal (\d+) (\w+)", lambda told: on_line(int(told[1]), kinds.ILLEGAL.get(told[2]), source)),
        (r"(usage): .*", lambda told: on_words(words)),
        (r"absent", lambda told: wrapped(on_absence(text, words))),
        (r"(.+)", lambda told: wrapped(kinds.WHOLE.get(told[1]))),
    ]
    for pattern, explain in readings:
        told = re.fullmatch(pattern, note)
        if told:
            return explain(told)
    return []


def wrapped(sentence: str | None) -> list[str]:
    """The lines of a sentence. No line ends inside of what stands between two backquotes."""
    joined = re.sub(r"`[^`]*`", lambda code: code[0].replace(" ", "\xa0"), sentence or "")
    lines = textwrap.wrap(joined, WIDTH, break_on_hyphens=False, break_long_words=False)
    return [line.replace("\xa0", " ") for line in lines]


def on_part(what: str, kind: str, at: int, source: Source) -> list[str]:
    """On a fault of a sheet or a plan: its place, its line, a sentence, and where its shape is wrong how it is written. Where the
    indentation tells of a `)` that is missing or too many, this comes first: it is where the text is to be mended."""
    part = Part(what, source.text, at)
    said = kinds.sentence_on(kind, part)
    if said is None:
        return []
    doubt = doubt_about(kind, part, source)
    lines = pointed(source, doubt.at, sentence_on_doubt(doubt, source)) if doubt else []
    lines += pointed(source, at, said, behind_sheet(source.text, at) if what == "plan" else "")
    return lines + written(part) if kind == "Shape" and part.word else lines


def pointed(source: Source, at: int, said: str, behind: str = "") -> list[str]:
    """A place, its line with a caret, and a sentence. The sentence stands beside the place in a file, where editors look for it."""
    place = source.place(at)
    line = line_at(source.text, at)
    shown = picture(line, place.column) if line or not place.is_end else []
    return [f"{place}: {said}", *shown] if place.file else [f"{place}{behind}:", *shown, *wrapped(said)]


def behind_sheet(text: bytes, at: int) -> str:
    """Which line of the plan's own file that is, if it begins with the line behind the sheet."""
    line = place_of(text, at).line - place_of(text, end_of(text, 1)).line
    return f" (line {line} behind the sheet)" if line > 0 else ""


def written(part: Part) -> list[str]:
    """How a list with this head is written in its place, and the list around it, and what belongs in this place of that."""
    lines = with_title("This list is written:", part.forms)
    if not part.around:
        return lines
    lines += with_title("The list around it is written:", part.around[-1].forms)
    if part.meant:
        lines += wrapped(f"Here belongs {' or '.join(f'`{it}`' if is_fixed(it) else it for it in part.meant)}.")
    for it in part.meant:
        lines += wrapped(f"{it} is {MEANINGS[it]}.") if it in MEANINGS else []
    return lines


def with_title(title: str, forms: list[str]) -> list[str]:
    return [title, *(f"    {form}" for form in forms)] if forms else []


def on_line(number: int, said: str | None, source: Source) -> list[str]:
    """On a line of a transcript, which begins behind the sheet, the plan, and white space and comments."""
    if said is None:
        return []
    begin = rest_of(source.text, 2)
    lines = source.text[begin:].split(b"\n")
    place = source.place(begin + sum(len(line) + 1 for line in lines[: number - 1]))
    where = f"line {number} of the transcript"
    if not place.file:
        where += f", line {place_of(source.text, begin).line + number - 1} of the source"
    if number > len(lines) or (number == len(lines) and not lines[-1]):
        where += ", where the text ends: more lines are to follow"
        return [f"{place}: {where}. {said}"] if place.file else wrapped(f"{where}.") + wrapped(said)
    where += f"{match_of(lines[:number])}:"
    shown = picture(lines[number - 1], 1)
    return [f"{place}: {where} {said}", *shown] if place.file else [where, *shown, *wrapped(said)]


def match_of(lines: list[bytes]) -> str:
    """In which match the last of these lines stands, where one has begun and the standings haven't."""
    if lines[-1].startswith(b"standing"):
        return ""
    numbers = (re.match(rb"match (\d+) ", line) for line in reversed(lines))
    return next((f", in match {found[1].decode()}" for found in numbers if found), "")


def on_words(words: list[str]) -> list[str]:
    """On words that are no command. Who names a file is told where it stands."""
    said = wrapped(kinds.WHOLE["usage"]) + ["`man -l docs/cardhouse.1` tells more."]
    if any(os.path.isfile(word) for word in words):
        said += wrapped("Files stand behind the command, as in `./cardhouse play GAME.sheet GAME.plan`.")
    return said
