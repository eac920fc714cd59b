"""Sentences on the cause of a fault whose kind has several: what the text before the part and around it shows."""

from __future__ import annotations

from faults.forms import forms_of, parts_of
from faults.mentions import STORED, Mention, mention_at, mentions
from faults.parts import Part
from faults.places import place_of
from faults.spelling import on_shape

LOC, NUM = "(HOLDER KIND NAME)", "(HOLDER sto NAME)"
EQUATIONS = ("(= SIDE SIDE)", "(!= SIDE SIDE)")

# How each sort of thing is called, and what a place takes where a variable may stand.
SORTS = {
    "player": "a player",
    "card": "a card",
    "group": "a group of cards",
    "number": "a number",
    "value": "a value of an attribute",
    "team": "a team",
}
TAKEN = {
    "PLAYER": "a player",
    "OWNER": "a player",
    "HOLDER": "a player",
    "CARD": "a card",
    "COLL": "a collection of cards",
    "DOMAIN": "a collection of cards",
}


def cause_of(kind: str, part: Part) -> str | None:
    """What is wrong with a part, if the text tells it."""
    if kind == "WrongKind":
        return on_wrong_kind(part)
    if kind == "Shape":
        return on_shape(part)
    return on_sight(part) if kind == "Unseen" else None


def on_sight(part: Part) -> str | None:
    """On a location that the player who chooses may not see."""
    mention = mention_at(part.source, part.at)
    if not mention or mention.kind not in ("hloc", "iloc"):
        return None
    if mention.kind == "hloc":
        return "Nobody sees the cards of an `hloc`."
    if mention.holder == "game":
        return "Nobody sees the cards of an `iloc` of the game."
    other = "player than the one" if mention.owners() == "players" else "team than that of the player"
    return f"`{mention.holder}` may be another {other} who chooses."


def on_wrong_kind(part: Part) -> str | None:
    """On a part of another kind than its place takes."""
    said = [on_side(part)] if any(part.is_in(form) for form in EQUATIONS) else []
    if part.word.startswith("'"):
        said.append(on_variable(part))
    elif not any(said):
        said += [on_use(part), on_mention(part)]
    return " ".join(it for it in said if it) or None


def on_side(part: Part) -> str | None:
    """On a side of an equation whose sort isn't that of the side before it."""
    first = part.around[-1].before[1:2]
    sorts = [sort_of(Part(part.what, part.source, token.at)) for token in first] + [sort_of(part)]
    if "group" in sorts:
        return "A group of cards is no side of an equation: compare its `(size COLL)`, or one of its cards."
    if len(sorts) < 2 or None in sorts or sorts[0] == sorts[1]:
        return None
    one, other = (SORTS[sort] for sort in sorts if sort)
    return f"The first side is {one} and this is {other}: both sides of an equation are of one sort."


def sort_of(part: Part) -> str | None:
    """The sort of a side, if it is known."""
    if part.word != "(":
        return bound(part)[0] if part.word.startswith("'") else "number"
    for sort, place in (("number", "INT"), ("card", "CARD"), ("player", "PLAYER"), ("team", "OWNER")):
        if set(part.forms) & set(forms_of(place)):
            return sort
    return "value" if part.forms else None


def bound(part: Part) -> tuple[str | None, int]:
    """The sort of a variable, and where the list begins that binds it."""
    for it in reversed(part.around):
        if "(scoring BEST INT)" in it.forms and part.word == "'SELF":
            return "player", it.begin
        if len(it.before) < 3 or it.before[2].text != part.word or not any(parts_of(form)[2:3] == ["'V"] for form in it.forms):
            continue
        domain = Part(part.what, part.source, it.before[1].at)
        sort = "player" if domain.word == "player" else "group" if domain.head == "partition" else "card"
        return sort, it.begin
    return None, part.at


def on_variable(part: Part) -> str | None:
    """On a variable of another sort than its place takes."""
    sort, begin = bound(part)
    taken = next((TAKEN[place] for place in part.meant if place in TAKEN), None)
    if sort is None or taken is None:
        return None
    where = f"by the list that begins in {place_of(part.source, begin)}"
    return f"`{part.word}` stands for {SORTS[sort]} here, {where}, and this place takes {taken}."


def on_use(part: Part) -> str | None:
    """On a location that isn't one for what is done with it."""
    mention = mention_at(part.source, part.at)
    if not mention or part.meant != ["LOC"]:
        return None
    if part.is_in("(create deck LOC (deck GROUP+))") and (mention.holder != "game" or mention.kind == "mem"):
        return "A deck's cards begin in a location of the game that holds cards, such as `(game hloc STOCK)`."
    is_spot = any(part.is_in(form) for form in forms_of("SPOT"))
    effect = part.around[-2 if is_spot else -1].before[0].text
    if effect in ("move", "shuffle") and mention.kind == "mem":
        return "A `mem` holds references and no cards: `remember` puts one there, and nothing is moved there or shuffled."
    if effect == "remember" and mention.kind != "mem":
        return f"What is remembered goes to a `mem`, and this is a `{mention.kind}`, which holds cards."
    return None


def on_mention(part: Part) -> str | None:
    """On a location or a stored number whose name stands before with another kind, or with owners of another sort."""
    this = mention_at(part.source, part.at)
    first = first_mention(part, this) if this else None
    if not this or not first or (first.kind, first.owners()) == (this.kind, this.owners()):
        return None
    one_class = f"belongs to the game, to players or to teams, and this one to {first.owners()}"
    rule = "has one kind" if first.kind != this.kind else one_class
    line = place_of(part.source, first.at).line
    return f"`{this.name}` stands first as `{first}`, in line {line}, and a name {rule}: write it so here, or take another name."


def first_mention(part: Part, this: Mention) -> Mention | None:
    """The first location, or the first stored number, of this name that stands before the part."""
    for it in mentions(part.source):
        if it.at >= part.at:
            break
        is_like = it.name == this.name and (it.kind == STORED) == (this.kind == STORED)
        if is_like and Part(part.what, part.source, it.at).forms in ([LOC], [NUM]):
            return it
    return None
