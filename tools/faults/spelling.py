"""Sentences on words that no list has in their place: what else stands there, or which word may be meant."""

from __future__ import annotations

from collections.abc import Iterator

from faults.forms import forms_of, is_fixed, parts_of
from faults.mentions import KINDS, STORED
from faults.parts import Part
from faults.tokens import end_of, tokens
from linting.names import nearest, suggestion

# Words that stand for themselves in places that the forms name in capitals.
WORDS = {"KIND": tuple(kind for kind in KINDS if kind != STORED), "BEST": ("max", "min")}


def on_shape(part: Part) -> str | None:
    """On a sheet and a plan that stand in each other's place, on a head that no list has here, and on another fixed word."""
    if not part.around and part.what == "sheet" and part.head == "plan":
        return on_plan_first(part)
    if not part.around and part.what == "plan" and part.head == "game":
        return "A sheet begins here, where the plan is to stand: name one sheet, and then its plan."
    if part.is_head_unknown():
        return f"No list begins with `{part.head}` here.{suggestion(part.head, heads(part))}"
    near = nearest(part.word, fixed_words(part)) if part.word[:1] not in ("", "(", "'") else None
    return f"`{part.word}` doesn't belong here. Is `{near}` meant?" if near else None


def on_plan_first(part: Part) -> str:
    """On a plan where a sheet is to stand. Behind it the sheet may follow."""
    behind = tokens(part.source, end_of(part.source, 1, part.at))
    if [token.text for token, _ in zip(behind, range(2))] == ["(", "game"]:
        return "Sheet and plan are exchanged: the sheet stands first, and the plan behind it."
    return "A plan begins here, where a sheet is to stand: the sheet stands first, and the plan behind it."


def heads(part: Part) -> Iterator[str]:
    """The fixed words with which a list may begin here."""
    first = (parts_of(form)[0] for place in part.meant for form in forms_of(place))
    return (word for word in first if is_fixed(word))


def fixed_words(part: Part) -> Iterator[str]:
    """The words that may stand here and stand for themselves."""
    for it in part.meant:
        yield from WORDS.get(it, (it,) if is_fixed(it) else ())
