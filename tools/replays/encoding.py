"""What a page knows of a match, as one object: each decision tells only what differs from the one before."""

from __future__ import annotations

from collections.abc import Iterator
from itertools import groupby
from typing import Any, Union

from linting.trees import Node
from replays.deriving import Piece
from replays.faces import looks
from replays.gathering import Item, Replay
from replays.playing import Differs
from replays.sources import PARTITION, Owned, Plan, Sheet
from replays.texts import Face, Stop
from replays.words import alternative_label, alternative_words, domains, site_label, stage_label

# A place: nothing that a seat sees; a face that those see who see the place by its kind; or a face and a mask of seats.
Place = Union[int, list[int]]
UNSEEN = -1

# What a decision tells that only who chooses may know; the running scores, which may count what nobody sees; and what tells of all.
OWN, RUNNING = ("size", "item", "choice", "menu"), "scores"


def page_data(replay: Replay, sheet: Sheet, plan: Plan, title: str, only: int | None = None) -> dict[str, Any]:
    """The object of a page. Where only one seat is to know it, it tells the log of this seat, its own choices, menus and strategy,
    and the scores at the end: no choice of another seat, no running scores, and no seeds, from which all can be computed."""
    record, end = replay.record, {"limit": plan.turns}
    stops = list(Encoder(replay, sheet).stops())
    seeds = {"deal": record.deal, "seats": record.seats}
    strategies = plan.of_seats(record.number)
    if only is not None:
        stops = [known_to(only, stop) for stop in stops]
        seeds = {}
        strategies = [text if seat == only else "" for seat, text in enumerate(strategies)]
    faces = faces_that_show(replay, stops)
    return {
        "title": title,
        "number": record.number,
        **seeds,
        "players": sheet.players,
        "teams": sheet.teams if len(sheet.teams) < sheet.players else [],
        "strategies": strategies,
        "best": sheet.best,
        "faces": faces,
        "locations": [owned(it) for it in sheet.locations],
        "numbers": [owned(it) for it in sheet.numbers],
        "stages": [{"label": stage_label(sheet, at), "class": it.parts[1].text} for at, it in enumerate(sheet.stages)],
        "sites": [site(sheet, at) for at in range(len(sheet.choices))],
        "views": sorted(replay.logs),
        "decisions": len(record.picks),
        "stops": stops,
        "closed": replay.is_closed,
        "end": end | {"word": record.end, "turn": record.turn, "scores": record.scores, "points": record.points},
    }


def known_to(seat: int, stop: dict[str, Any]) -> dict[str, Any]:
    """What a seat may know of a decision."""
    hidden = {RUNNING, *(OWN if stop.get("seat", seat) != seat else ())}
    return {name: value for name, value in stop.items() if name not in hidden}


def faces_that_show(replay: Replay, stops: list[dict[str, Any]]) -> list[dict[str, object]]:
    """How the faces look that the decisions tell, which then are numbered in their order. No other face of the game is told."""
    deck = [it for it in replay.faces if not is_tag(replay, it)]
    shown = sorted({face for stop in stops for face in faces_of(stop)})
    renumbered = {face: at for at, face in enumerate(shown)}
    for stop in stops:
        for edit in stop["places"]:
            edit[3] = [renumber(place, renumbered) for place in edit[3]]
        for item in [stop["choice"]] if "choice" in stop else []:
            stop["choice"] = renumber_item(item, renumbered)
        if "menu" in stop:
            stop["menu"] = [renumber_item(item, renumbered) for item in stop["menu"]]
    all_looks = looks(deck)
    return [all_looks[it] for it in shown]


def is_tag(replay: Replay, face: Face) -> bool:
    return face[0][0] == replay.derived.names.get(Piece.TAGS)


def faces_of(stop: dict[str, Any]) -> Iterator[int]:
    """The faces that a decision tells."""
    for _, _, _, middle in stop["places"]:
        yield from (place[0] if isinstance(place, list) else place for place in middle if isinstance(place, list) or place >= 0)
    for item in [*stop.get("menu", []), *([stop["choice"]] if "choice" in stop else [])]:
        yield from (int(mark[1:]) for mark in item[1:] if mark[0] != "p")


def renumber(place: Place, renumbered: dict[int, int]) -> Place:
    if isinstance(place, list):
        return [renumbered[place[0]], place[1]]
    return renumbered[place] if place >= 0 else place


def renumber_item(item: list[Any], renumbered: dict[int, int]) -> list[Any]:
    marks = [mark if mark[0] == "p" else f"{mark[0]}{renumbered[int(mark[1:])]}" for mark in item[1:]]
    return [item[0], *marks]


def owned(it: Owned) -> list[str]:
    return [it.name, it.kind, it.holder]


def site(sheet: Sheet, number: int) -> dict[str, object]:
    alternatives = sheet.choices[number].parts[1:]
    return {
        "label": site_label(sheet, number),
        "alternatives": [
            {"label": alternative_label(sheet, it), "words": alternative_words(it), "groups": grouped(it)} for it in alternatives
        ],
    }


def grouped(alternative: Node) -> list[str]:
    """For each variable of an alternative the attribute by which its groups are made, if it stands for a group."""
    return [it.parts[2].text if it.form == PARTITION else "" for it in domains(alternative)]


class Encoder:
    """Tells what differs from decision to decision. What a derived sheet has more is left out: the locations and numbers of the
    sheet itself are found by name and owner, since their order may be another."""

    def __init__(self, replay: Replay, sheet: Sheet) -> None:
        self.replay = replay
        self.places = positions(sheet.locations, replay.sheet.locations)
        self.numbers = positions(sheet.numbers, replay.sheet.numbers)
        running = replay.derived.names.get(Piece.SCORES)
        self.running = [at for at, it in enumerate(replay.sheet.numbers) if it.name == running]
        self.views = {seat: log.stops for seat, log in replay.logs.items()}
        self.masks = [mask_of(sheet, it, list(self.views)) for it in sheet.locations]

    def stops(self) -> Iterator[dict[str, Any]]:
        picks = len(self.replay.record.picks)
        places: list[list[Place]] = [[] for _ in self.places]
        numbers = [0] * len(self.numbers)
        for at, stop in enumerate(self.replay.stops[: picks + self.replay.is_closed]):
            seen = [self.together(at, place, mask) for place, mask in zip(self.places, self.masks)]
            stored = [stop.numbers[it] for it in self.numbers]
            yield {
                "turn": stop.turn,
                **(self.decision(at, stop) if at < picks else {}),
                "places": [[it, *edit(old, new)] for it, (old, new) in enumerate(zip(places, seen)) if old != new],
                "numbers": [[it, new] for it, (old, new) in enumerate(zip(numbers, stored)) if old != new],
                **({"scores": [stop.numbers[it] for it in self.running]} if self.running else {}),
            }
            places, numbers = seen, stored

    def decision(self, at: int, stop: Stop) -> dict[str, Any]:
        """Who chooses, where, and what, with the menu where it is known."""
        pick, menu = self.replay.record.picks[at], self.replay.menus[at]
        told = {"seat": pick.seat, "site": pick.site, "frames": frames(stop), "size": pick.size, "item": pick.item}
        told["choice"] = self.item(self.replay.items[at])
        if menu and pick.size > 1:
            told["menu"] = [self.item(it) for it in menu]
        return told

    def item(self, it: Item) -> list[Any]:
        """An item: its alternative, -1 where that isn't known, and its marks, with the place of a face for its number."""
        marks = [mark if mark[0] == "p" else f"{mark[0]}{self.replay.places[int(mark[1:])]}" for mark in it.marks]
        return [-1 if it.alternative is None else it.alternative, *marks]

    def together(self, at: int, place: int, usual: int) -> list[Place]:
        """What all who look on see of a location at a decision."""
        rows = [(seat, stops[at].places[place]) for seat, stops in self.views.items()]
        found: list[Place] = []
        for spot in range(len(rows[0][1])):
            seen = {seat: face for seat, row in rows if (face := row[spot]) is not None}
            if len(set(seen.values())) > 1:
                raise Differs(f"two seats see other faces of one card at decision {at}")
            face = next((self.replay.places[it] for it in seen.values()), UNSEEN)
            mask = sum(1 << seat for seat in seen)
            found.append(face if face == UNSEEN or mask == usual else [face, mask])
        return found


def positions(asked: list[Owned], found: list[Owned]) -> list[int]:
    """Where each of those that are asked for stands in others, by name and owner."""
    order = {(it.name, it.owner, it.number): at for at, it in enumerate(found)}
    return [order[it.name, it.owner, it.number] for it in asked]


def frames(stop: Stop) -> list[list[int]]:
    """The open stages: number, member, whether it goes backward, and who is named next, -1 for nobody."""
    return [[it.stage, it.member, int(it.is_backward), -1 if it.named is None else it.named] for it in stop.frames]


def mask_of(sheet: Sheet, it: Owned, seats: list[int]) -> int:
    """Who of the seats that look on sees a location by its kind."""
    if it.kind in ("vloc", "mem"):
        who = list(range(sheet.players))
    elif it.kind == "iloc" and it.owner != "game":
        who = [it.number] if it.owner == "player" else sheet.teams[it.number]
    else:
        who = []
    return sum(1 << seat for seat in who if seat in seats)


def edit(old: list[Place], new: list[Place]) -> list[Any]:
    """How many stay at the bottom, how many on top, and what lies between. A run of unseen places is minus its length."""
    least = min(len(old), len(new))
    low = next((at for at in range(least) if old[at] != new[at]), least)
    high = next((at for at in range(least - low) if old[-1 - at] != new[-1 - at]), least - low)
    middle: list[Place] = []
    for place, run in groupby(new[low : len(new) - high]):
        count = len(list(run))
        middle += [-count] if place == UNSEEN else [place] * count
    return [low, high, middle]
