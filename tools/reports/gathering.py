"""What the program tells of the matches of a plan: its transcript, its measures, which alternative each choice was; and of some of
them how the scores stood, what was offered and which tests held."""

from __future__ import annotations

import re
from concurrent.futures import ThreadPoolExecutor
from dataclasses import dataclass, field

from pieces.program import Program
from replays.deriving import Derived, Piece, derived, offer_name
from replays.playing import PLAY, WORKERS, Differs, called, longer, scripted, scripts, watched
from replays.sources import Plan, Sheet
from replays.texts import Log, Record, Stop, transcript_of
from tables.house import Match, Reader

# What is put into a sheet to follow matches, from what tells most to what tells least.
ATTEMPTS = (
    (Piece.CLOSING, Piece.SCORES, Piece.OFFERS, Piece.TESTS),
    (Piece.CLOSING, Piece.SCORES, Piece.TESTS),
    (Piece.CLOSING, Piece.SCORES),
    (Piece.OFFERS, Piece.TESTS),
    (),
)

# Of how many matches at the turn limit it is asked which stages were open.
LIMITS = 20


@dataclass
class Course:
    """How a match went: all seats' scores at each decision and at the end; at each decision which alternatives of its site had an
    item, where that is known; which tests held; and which stages were open at the last decision."""

    match: int
    scores: list[list[int]]
    offers: list[dict[int, bool]]
    held: set[int]
    open_stages: list[int]


@dataclass
class Told:
    """All that is told of the matches of a plan. `followed` is the sheet by which the courses are known."""

    sheet: Sheet
    plan: Plan
    records: list[Record]
    matches: list[Match]
    measures: dict[str, list[list[str]]]
    alternatives: list[list[int]] | None
    followed: Derived
    courses: list[Course] = field(default_factory=list)
    limits: list[Course] = field(default_factory=list)


def tell(program: Program, sheet: Sheet, plan: Plan, most_courses: int) -> Told:
    """Has the matches of a plan played, and so many of them followed, spread evenly over all."""
    text = called(program, PLAY, sheet.text + plan.text)
    records = transcript_of(text).matches
    measures = measures_of(called(program, ["measure"], sheet.text + plan.text + text))
    matches = Reader("the transcript", text).matches()
    told = Told(sheet, plan, records, matches, measures, alternatives(program, sheet, plan, text), followed_sheet(program, sheet))
    count = len(records)
    chosen = records if count <= most_courses else [records[at * count // most_courses] for at in range(most_courses)]
    told.courses = courses(program, told, chosen)
    told.limits = courses(program, told, [it for it in records if it.end == "limit"][:LIMITS])
    return told


def measures_of(text: bytes) -> dict[str, list[list[str]]]:
    """The lines of the measures by their first word, each as its other words."""
    found: dict[str, list[list[str]]] = {}
    for line in text.decode("ascii").splitlines():
        word, *words = line.split(" ")
        found.setdefault(word, []).append(words)
    return found


def alternatives(program: Program, sheet: Sheet, plan: Plan, text: bytes) -> list[list[int]] | None:
    """The alternative of each choice: the judge reads the same transcript beside the sheet with tags, and writes it with their marks.
    None where the sheet takes no tags."""
    attempt = derived(sheet, Piece.TAGS)
    if not is_taken(program, attempt):
        return None
    bare = re.sub(rb"^face .*\n", b"", text, flags=re.M).replace(b"house 2", b"house 1", 1)
    bare = re.sub(rb"^(choose \d+ \d+ \d+ \d+).*$", rb"\1", bare, flags=re.M)
    tagged = transcript_of(called(program, ["migrate"], attempt.text + plan.text + bare))
    name = attempt.names[Piece.TAGS]
    values = {number: int(tagged.faces[at][0][1]) for number, at in tagged.places.items() if tagged.faces[at][0][0] == name}
    return [[values[int(pick.marks[0][1:])] for pick in match.picks] for match in tagged.matches]


def is_taken(program: Program, attempt: Derived) -> bool:
    return program.call(["sheet"], attempt.text).returncode == 0


def followed_sheet(program: Program, sheet: Sheet) -> Derived:
    """The derived sheet that tells most of the courses of matches."""
    return next(it for it in (derived(sheet, *pieces) for pieces in ATTEMPTS) if is_taken(program, it))


def courses(program: Program, told: Told, chosen: list[Record]) -> list[Course]:
    """The courses of some of the matches, which are played again by scripts."""
    numbers = {(it.name, it.number): at for at, it in enumerate(Sheet(told.followed.text).numbers)}

    def follow(record: Record) -> Course:
        plan = scripted(record, scripts(record.picks, told.sheet.players), longer(told.plan.turns))
        return course_of(told, record, watched(program, told.followed.text + plan, 0), numbers)

    with ThreadPoolExecutor(WORKERS) as pool:
        return list(pool.map(follow, chosen))


def course_of(told: Told, record: Record, log: Log, numbers: dict[tuple[str, int], int]) -> Course:
    """The course of a match by a log of the followed sheet, in which the stored number of each name and owner has a place."""
    names, count = told.followed.names, len(record.picks)
    compare(told.sheet, record, log, Piece.CLOSING in names)
    stops = log.stops[:count]
    last = log.stops[: count + 1] if record.end == "done" else stops
    scores: list[list[int]] = []
    is_whole = log.count <= len(log.stops)
    if (name := names.get(Piece.SCORES)) and is_whole:
        of_seats = [numbers[name, seat] for seat in range(told.sheet.players)]
        rows = [[stop.numbers[at] for at in of_seats] for stop in last]
        if len(last) > count and rows[-1] != record.scores:
            raise Differs("its running scores don't end as the match does")
        scores = [*rows[:count], record.scores]
    offers = [offered_at(told, stop, numbers) for stop in stops] if Piece.OFFERS in names else []
    held: set[int] = set()
    if (name := names.get(Piece.TESTS)) and last:
        held = {at for at in range(len(told.sheet.tests)) if last[-1].numbers[numbers[f"{name}{at}", 0]]}
    open_stages = [it.stage for it in stops[-1].frames] if stops and is_whole else []
    return Course(record.number, scores, offers, held, open_stages)


def offered_at(told: Told, stop: Stop, numbers: dict[tuple[str, int], int]) -> dict[int, bool]:
    """Which alternatives have an item at a decision, of those of its site of which that is known."""
    name = told.followed.names[Piece.OFFERS]
    count = len(told.sheet.choices[stop.site].parts) - 1
    places = {at: numbers.get((offer_name(name, stop.site, at), 0)) for at in range(count)}
    return {at: bool(stop.numbers[place]) for at, place in places.items() if place is not None}


def compare(sheet: Sheet, record: Record, log: Log, is_closing: bool) -> None:
    """Asks that a log is of the same match, as far as it tells: who chooses where, and how many choices there are."""
    of_players = {at for at, it in enumerate(sheet.stages) if it.parts[1].text == "player"}
    for pick, stop in zip(record.picks, log.stops):
        members = [it.member for it in stop.frames if it.stage in of_players]
        if (pick.site, pick.seat) != (stop.site, members[-1]):
            raise Differs("its choices are at other places")
    if record.end == "done" and log.count != len(record.picks) + is_closing:
        raise Differs("it has other choices")
