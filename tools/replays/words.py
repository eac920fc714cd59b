"""Effects, alternatives, choices and stages in words: the comment that its author wrote above it, and else what it does."""

from __future__ import annotations

from linting.trees import Node
from linting.uses import is_location, is_number
from replays.sources import ANY, Sheet

# How many effects of an alternative are told.
TOLD = 2

# How long a comment may be that names a stage or a choice, or an alternative; a longer one explains something else.
LONGEST, SHORT = 90, 44

# How much is told of what an alternative does: a page says it at each decision, and it may be as long as the sheet.
MOST = 200

# What says most of an alternative comes first, and bookkeeping last.
WEIGHT = ("move", "peek", "shuffle", "inc", "dec", "remember", "cycle", "repeat", "all", "set", "if", "forget")


def stage_label(sheet: Sheet, number: int) -> str:
    return sentence(sheet.comment(sheet.stages[number]))


def site_label(sheet: Sheet, site: int) -> str:
    return sentence(sheet.comment(sheet.choices[site]))


def alternative_label(sheet: Sheet, node: Node) -> str:
    label = sentence(sheet.comment(node))
    return label if len(label) <= SHORT else ""


def sentence(comment: str) -> str:
    """The first sentence of a comment, without its full stop."""
    return cut(comment.split(". ")[0].rstrip("."), LONGEST)


def cut(text: str, most: int) -> str:
    """A text, or as much of it as there may be."""
    return text if len(text) <= most else text[: most - 1].rstrip() + "…"


def alternative_words(node: Node) -> str:
    """What an alternative does."""
    while node.form == ANY:
        node = node.parts[3]
    effects = list(node.parts[2:] if node.form.startswith("(if") else node.parts[1:])
    effects.sort(key=lambda it: WEIGHT.index(it.parts[0].text) if it.parts and it.parts[0].text in WEIGHT else len(WEIGHT))
    told = [effect_words(it) for it in effects[:TOLD]]
    return cut("; ".join(told), MOST) + (" …" if len(effects) > TOLD else "")


def domains(node: Node) -> list[Node]:
    """The domains over which an alternative goes, outermost first."""
    found = []
    while node.form == ANY:
        found.append(node.parts[1])
        node = node.parts[3]
    return found


def effect_words(node: Node) -> str:
    parts = node.parts
    head = parts[0].text if parts else node.text
    if head == "move" and parts[1].text == "all":
        return f"{card_words(parts[2], many=True)} → {spot_words(parts[3])}"
    if head == "move":
        return f"{card_words(parts[1])} → {spot_words(parts[2])}"
    if head == "remember":
        return f"note {card_words(parts[1])} in {spot_words(parts[2])}"
    if head == "forget":
        return f"forget {card_words(parts[1])}"
    if head == "shuffle":
        return f"shuffle {place_words(parts[1])}"
    if head == "set":
        return f"{place_words(parts[1])} = {amount_words(parts[2])}"
    if head == "inc":
        return f"{place_words(parts[1])} + {amount_words(parts[2])}"
    if head == "dec":
        return f"{place_words(parts[1])} − {amount_words(parts[2])}"
    if head == "if":
        return "if it applies: " + effect_words(parts[2]) + (" …" if len(parts) > 3 else "")
    if head == "repeat":
        return f"{amount_words(parts[1])} times: " + effect_words(parts[2]) + (" …" if len(parts) > 3 else "")
    if head == "all":
        whom = "each player" if parts[1].text == "player" else f"each of {card_words(parts[1], many=True)}"
        return f"{whom}: " + effect_words(parts[3]) + (" …" if len(parts) > 4 else "")
    if head == "cycle" and parts[1].text == "reverse":
        return "turn the direction"
    if head == "cycle":
        return f"{owner_words(parts[2])} is next"
    if head == "peek":
        return f"{owner_words(parts[2])} peeks at {card_words(parts[1], many=True)}"
    return "…"


def owner_words(node: Node) -> str:
    if node.text.startswith("'"):
        return node.text[1:]
    words = [it.text for it in node.parts]
    if words == ["current", "player"]:
        return "the mover"
    return "the team" if words[0] in ("current", "team") else node.text


def place_words(node: Node) -> str:
    """A location or a stored number, by its name and whose it is."""
    holder, _, name = node.parts
    if holder.text == "game":
        return name.text
    owner = owner_words(holder)
    return f"own {name.text}" if owner == "the mover" else f"{name.text} of {owner}"


def spot_words(node: Node) -> str:
    place = place_words(node.parts[1])
    return place if node.parts[0].text == "top" else f"below {place}"


def card_words(node: Node, many: bool = False) -> str:
    if node.text.startswith("'"):
        return "the cards" if many else f"the card {node.text[1:]}".removesuffix(" C")
    if is_location(node):
        return f"all of {place_words(node)}" if many else place_words(node)
    head = node.parts[0].text
    if head in ("top", "bottom"):
        return f"the {head} card of {card_words(node.parts[1])}"
    if head in ("max", "min"):
        return f"the {'best' if head == 'max' else 'least'} card of {card_words(node.parts[1])}"
    if head == "filter":
        return f"some of {card_words(node.parts[1])}"
    if head == "union":
        return " and ".join(card_words(it) for it in node.parts[1:])
    if head == "known":
        return f"known cards of {card_words(node.parts[1])}"
    return "cards"


def amount_words(node: Node) -> str:
    if not node.is_list:
        return node.text
    if is_number(node):
        return place_words(node)
    head = node.parts[0].text
    if head == "size":
        return f"how many in {card_words(node.parts[1])}"
    if head in ("sum", "points"):
        return f"what {card_words(node.parts[1])} counts"
    if head in ("+", "-", "*"):
        return f"{amount_words(node.parts[1])} {head.replace('*', '×').replace('-', '−')} {amount_words(node.parts[2])}"
    return "…"
