"""Which doubt on a text's parentheses tells of a fault, and a sentence on it."""

from __future__ import annotations

from faults.indentation import Doubt, doubts_on
from faults.parts import Part
from faults.sources import Source
from faults.tokens import end_of, tokens


def doubt_about(kind: str, part: Part, source: Source) -> Doubt | None:
    """The first doubt that may tell where a fault comes from, if there is one."""
    if kind not in ("Unclosed", "Stray", "Shape"):
        return None
    begin, end = source.bounds(part.at)
    text = source.text[:end]
    doubts = doubts_on(text, begin)
    if kind == "Stray":
        return next((it for it in doubts if it.at < part.at), None)
    first = part.around[0].begin if part.around else part.at
    doubts = [it for it in doubts if it.since >= first]
    if kind == "Shape" and is_balanced(text, begin):
        doubts = [it for it in doubts if is_near(it, part)]
    return doubts[0] if doubts else None


def is_near(doubt: Doubt, part: Part) -> bool:
    """Whether the list of a doubt is the faulty part, or stands inside or around it; the list around all is no near one. It's also
    near where the faulty part is what tells it."""
    end = end_of(part.source, 1, part.at) if part.word == "(" else part.at
    around = [it.begin for it in part.around[1:]]
    return part.at <= doubt.since <= end or doubt.since in around or doubt.line == part.at


def is_balanced(text: bytes, begin: int) -> bool:
    """Whether as many lists end as begin from a place on."""
    words = [token.text for token in tokens(text, begin)]
    return words.count("(") == words.count(")")


def sentence_on_doubt(doubt: Doubt, source: Source) -> str:
    """What is said at the place of a doubt."""
    here, since, line = (source.place(it) for it in (doubt.at, doubt.since, doubt.line))
    where = f"column {since.column}" if since.line == here.line else f"line {since.line}, column {since.column}"
    if not doubt.missing:
        ends = f"it ends the list of {where}, and line {line.line} is written as if it stood inside"
        return f"By the indentation this `)`, or one before it in this line, is likely too many: {ends}."
    missing = "a `)` is" if doubt.missing == 1 else f"{doubt.missing} `)` are"
    if doubt.line == source.bounds(doubt.since)[1]:
        return f"By the indentation {missing} likely missing here, where the text ends."
    ends = f"the list that begins there is to end before line {line.line}, which begins no further right"
    return f"By the indentation {missing} likely missing between {where} and here: {ends}."
