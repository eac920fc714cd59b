"""A match as lines for a terminal: one for each choice, and what came of it."""

from __future__ import annotations

from collections.abc import Iterator
from typing import Any

from telling import printable


# What effects in words call the card of an alternative that binds one.
CARD = "the card"


def replay_lines(data: dict[str, Any]) -> str:
    """The match of a page's object, in words."""
    return "".join(f"{printable(line)}\n" for line in lines(data))


def lines(data: dict[str, Any]) -> Iterator[str]:
    end, stops = data["end"], [it for it in data["stops"] if "seat" in it]
    seeds = f", deal {data['deal']}, seats {data['seats']}" if "deal" in data else f", as player {data['views'][0]} sees it"
    yield f"{data['title']}, match {data['number']}{seeds}"
    width = len(str(data["decisions"]))
    for at, stop in enumerate(stops, 1):
        yield f"{at:{width}}  player {stop['seat']}{chosen(data, stop)}"
    if data["decisions"] > len(stops):
        yield f"a log shows no more: {data['decisions'] - len(stops)} choices followed"
    yield f"{'done' if end['word'] == 'done' else 'ended by the turn limit'} after {end['turn']} turns"
    for player, (score, points) in enumerate(zip(end["scores"], end["points"])):
        yield f"player {player}: score {score}, rank points {points}"


def chosen(data: dict[str, Any], stop: dict[str, Any]) -> str:
    """What was chosen, and of how many items; of another player's choice, where one seat alone looks on, that there was one."""
    if "choice" not in stop:
        return " chooses"
    return f": {item_words(data, stop) or 'item ' + str(stop['item'])}, from a menu of {stop['size']}"


def item_words(data: dict[str, Any], stop: dict[str, Any]) -> str:
    """What the alternative is called, or what it does, with the cards and players that it took. Where there is no other alternative
    and these tell the choice, they stand alone."""
    told, taken = alternative(data, stop), marks(data, stop)
    if not told or taken and len(data["sites"][stop["site"]]["alternatives"]) == 1:
        return taken
    if not told["label"] and len(stop["choice"]) == 2 and CARD in told["words"]:
        return str(told["words"].replace(CARD, taken, 1))
    return ": ".join(filter(None, (told["label"] or told["words"], taken)))


def alternative(data: dict[str, Any], stop: dict[str, Any]) -> dict[str, Any] | None:
    """The alternative of a choice: the one that its tag tells, or the only one that binds as much."""
    number, *bound = stop["choice"]
    known = data["sites"][stop["site"]]["alternatives"]
    if number >= 0:
        return known[number]  # type: ignore[no-any-return]
    fitting = [it for it in known if len(it["groups"]) == len(bound)]
    return fitting[0] if len(fitting) == 1 else None


def marks(data: dict[str, Any], stop: dict[str, Any]) -> str:
    """The cards, players and groups that a choice took."""
    told = alternative(data, stop)
    bound = stop["choice"][1:]
    groups = told["groups"] if told else [""] * len(bound)
    return ", ".join(mark(data, it, group) for it, group in zip(bound, groups))


def mark(data: dict[str, Any], told: str, group: str) -> str:
    number = int(told[1:])
    if told[0] == "p":
        return f"player {number}"
    face = data["faces"][number]
    if told[0] == "c":
        return str(face["said"])
    value = next((value for name, value in face["pairs"] if name == group), "")
    return f"all {group} {value}" if value else f"the group of {face['said']}"
