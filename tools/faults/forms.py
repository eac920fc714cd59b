"""How lists are written, by the place in which they stand, so that a fault can be shown what was to stand there."""

import re
from collections.abc import Iterator

# The lists that may stand for each word in capitals. Where another word stands, its lists may too. A form in parentheses that is
# a part of another one stands for itself alone.
FORMS = {
    "SHEET": ("(game (setup LINE+) ITEM+ (scoring BEST INT))",),
    "LINE": (
        "(create players N)",
        "(create teams (N+)+)",
        "(create deck LOC (deck GROUP+))",
        "(put points MAP (ENTRY+))",
    ),
    "GROUP": ("(ATTR (BRANCH+))",),
    "BRANCH": ("(VALUE GROUP+)",),
    "ENTRY": ("(ATTR (VALUE+) N)",),
    "ITEM": (
        "(do EFFECT+)",
        "(stage player (end BOOL) ITEM+)",
        "(stage team (end BOOL) ITEM+)",
        "(choice ALT+)",
    ),
    "ALT": ("(do EFFECT+)", "(if BOOL EFFECT+)", "(any DOMAIN 'V ALT)"),
    "DOMAIN": ("COLL", "(partition COLL ATTR)"),
    "EFFECT": (
        "(move CARD SPOT)",
        "(move all COLL SPOT)",
        "(remember CARD SPOT)",
        "(forget CARD)",
        "(shuffle LOC)",
        "(peek COLL OWNER)",
        "(set NUM INT)",
        "(inc NUM INT)",
        "(dec NUM INT)",
        "(if BOOL EFFECT+)",
        "(repeat INT EFFECT+)",
        "(all player 'V EFFECT+)",
        "(all COLL 'V EFFECT+)",
        "(cycle next OWNER)",
        "(cycle reverse)",
    ),
    "SPOT": ("(top LOC)", "(bottom LOC)"),
    "LOC": ("(HOLDER KIND NAME)",),
    "NUM": ("(HOLDER sto NAME)",),
    "HOLDER": ("OWNER",),
    "OWNER": ("PLAYER", "(current team)", "(team of PLAYER)"),
    "PLAYER": ("(current player)",),
    "CARD": ("(top COLL)", "(bottom COLL)", "(max COLL using MAP)", "(min COLL using MAP)"),
    "COLL": ("LOC", "(filter COLL 'V BOOL)", "(union COLL COLL+)", "(known LOC)"),
    "INT": (
        "NUM",
        "(size COLL)",
        "(sum COLL using MAP)",
        "(points CARD using MAP)",
        "(+ INT INT)",
        "(- INT INT)",
        "(* INT INT)",
    ),
    "BOOL": (
        "(= SIDE SIDE)",
        "(!= SIDE SIDE)",
        "(< INT INT)",
        "(<= INT INT)",
        "(> INT INT)",
        "(>= INT INT)",
        "(is CARD ATTR VALUE)",
        "(and BOOL+)",
        "(or BOOL+)",
        "(not BOOL)",
        "(all player 'V BOOL)",
        "(all COLL 'V BOOL)",
        "(any player 'V BOOL)",
        "(any COLL 'V BOOL)",
    ),
    "SIDE": ("INT", "CARD", "OWNER", "(attr CARD ATTR)"),
    "PLAN": ("(plan (seats STRATEGY+) (matches MATCH+) (turns T))",),
    "STRATEGY": ("(script N*)", "(random K)", "(rollout R K)"),
    "MATCH": ("(DEAL SEATS)", "(from DEAL SEATS COUNT)"),
}

# What the words in capitals stand for.
MEANINGS = {
    "LINE": "`(create players N)`, `(create teams (N+)+)`, `(create deck LOC (deck GROUP+))` or `(put points MAP (ENTRY+))`",
    "ITEM": "`(do EFFECT+)`, `(stage player (end BOOL) ITEM+)`, `(stage team (end BOOL) ITEM+)` or `(choice ALT+)`",
    "BEST": "`max` or `min`",
    "GROUP": "`(ATTR (BRANCH+))`, as `(RANK (A 2 3))`, where a BRANCH is a VALUE or `(VALUE GROUP+)`",
    "BRANCH": "a VALUE, or `(VALUE GROUP+)`, as `(RED (SUIT (HEARTS DIAMONDS)))`",
    "ENTRY": "`(ATTR (VALUE+) N)`, as `(RANK (J Q K) 10)`",
    "(ENTRY+)": "a list of entries, each written `(ATTR (VALUE+) N)`, as `((RANK (A) 11) (RANK (J Q K) 10))`",
    "(BRANCH+)": "a list of values, as `(A 2 3)`",
    "(VALUE+)": "a list of values, as `(J Q K)`",
    "(N+)": "a team, written as the list of its players, as `(0 2)`",
    "ALT": "`(do EFFECT+)`, `(if BOOL EFFECT+)` or `(any DOMAIN 'V ALT)`",
    "DOMAIN": "`player`, COLL or `(partition COLL ATTR)`",
    "EFFECT": "an effect, as `(move CARD SPOT)` or `(set NUM INT)`",
    "SPOT": "`(top LOC)` or `(bottom LOC)`",
    "LOC": "`(HOLDER KIND NAME)`, as `(game hloc STOCK)` or `((current player) iloc HAND)`",
    "NUM": "`(HOLDER sto NAME)`, as `(game sto ROUND)` or `('P sto TRICKS)`",
    "KIND": "`vloc`, `iloc`, `hloc` or `mem`",
    "HOLDER": "`game`, a player such as `'P` or `(current player)`, or a team such as `(current team)`",
    "OWNER": "`(current team)`, `(team of PLAYER)` or PLAYER",
    "PLAYER": "`(current player)` or a variable such as `'P`",
    "CARD": "a variable such as `'C`, `(top COLL)`, `(bottom COLL)`, `(max COLL using MAP)` or `(min COLL using MAP)`",
    "COLL": "a variable of a group such as `'G`, LOC, `(filter COLL 'V BOOL)`, `(union COLL COLL+)` or `(known LOC)`",
    "INT": (
        "a number, NUM, `(size COLL)`, `(sum COLL using MAP)`, `(points CARD using MAP)`, `(+ INT INT)`, `(- INT INT)` or "
        "`(* INT INT)`"
    ),
    "BOOL": "a test, as `(= SIDE SIDE)` or `(is CARD ATTR VALUE)`",
    "SIDE": "INT, CARD, OWNER, a variable or `(attr CARD ATTR)`",
    "NAME": "a name without `'` before it",
    "ATTR": "the name of an attribute, without `'` before it",
    "VALUE": "the name of a value, without `'` before it",
    "MAP": "the name of a point map, without `'` before it",
    "N": "a number",
    "'V": "a variable, which is a name with `'` before it",
    "STRATEGY": "`(script N*)`, `(random K)` or `(rollout R K)`",
    "MATCH": (
        "`(DEAL SEATS)`, the seed of its shuffles and the seed of its seats; one `(from DEAL SEATS COUNT)`, which counts "
        "matches, may stand there alone"
    ),
    "DEAL": "a number, the seed of the shuffles",
    "SEATS": "a number, the seed of the seats",
    "COUNT": "how many matches there are",
    "R": "how often each item is tried, a number from 1 to 1000",
    "K": "a number, the key of what is drawn",
    "T": "the turn limit, a number from 1 to 100000",
}


def parts_of(form: str) -> list[str]:
    """The parts of a form, where `X+` is one."""
    parts: list[str] = []
    depth = 0
    for piece in form[1:-1].split(" "):
        if depth:
            parts[-1] += f" {piece}"
        else:
            parts.append(piece)
        depth += piece.count("(") - piece.count(")")
    return parts


def is_fixed(part: str) -> bool:
    """Whether a part of a form stands for itself."""
    return re.fullmatch(r"[^A-Z'(]+", part) is not None


def is_plural(part: str) -> bool:
    return len(part) > 1 and part[-1] in "+*"


def forms_of(place: str) -> Iterator[str]:
    """The lists that may stand in a place."""
    if place.startswith("("):
        yield place
    for form in FORMS.get(place, ()):
        yield from [form] if form.startswith("(") else forms_of(form)


def agrees(part: str, word: str) -> bool:
    """Whether a part of a form may begin with this word, where that tells it from the parts of other forms."""
    if is_fixed(part):
        return part == word
    if part == "HOLDER":
        return word == "game" or word[:1] in ("(", "'")
    return part not in ("CARD", "COLL") or word[:1] in ("(", "'")


def forms_with(words: list[str], places: list[str]) -> list[str]:
    """The lists that may stand in one of these places and begin with these words: those of which the first is a fixed word, if
    there are such, and of these the ones with which the second agrees, if there are."""
    forms = list(dict.fromkeys(form for place in places for form in forms_of(place)))
    fixed = [form for form in forms if parts_of(form)[:1] == words[:1]]
    begun = fixed or [form for form in forms if words and agrees(parts_of(form)[0], words[0])]
    agreeing = [form for form in begun if any(agrees(part, word) for part, word in zip(parts_of(form)[1:2], words[1:2]))]
    return agreeing or begun


def meant_behind(words: list[str], forms: list[str]) -> list[str]:
    """What may stand in a list behind parts that begin with these words, by those of the forms that agree with them."""
    meant: list[str] = []
    for parts in map(parts_of, forms):
        single = next((place for place, part in enumerate(parts) if is_plural(part)), len(parts))
        agree = all(agrees(part, word) for part, word in zip(parts[:single], words))
        behind = parts[len(words) : len(words) + 1] if len(words) < single else parts[single:]
        meant += [part.rstrip("+*") if is_plural(part) else part for part in behind if agree]
    return list(dict.fromkeys(meant))
