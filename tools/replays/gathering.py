"""Has the program play a match and tell all that a page shows of it."""

from __future__ import annotations

from concurrent.futures import ThreadPoolExecutor
from dataclasses import dataclass, field

from pieces.program import Program, refusal
from replays.deriving import Derived, Piece, derived
from replays.playing import PLAY, WORKERS, Differs, longer, played, scripted, scripts, watched
from replays.sources import Plan, Sheet
from replays.texts import Face, Log, Record, Stop, Transcript, transcript_of

# How many decisions a log shows.
SHOWN = 1000

# What is put into a sheet, from what tells most to what tells least: a sheet at its limits takes nothing more.
ATTEMPTS = (
    (Piece.CLOSING, Piece.SCORES, Piece.TAGS),
    (Piece.CLOSING, Piece.SCORES),
    (Piece.CLOSING, Piece.TAGS),
    (Piece.CLOSING,),
    (Piece.TAGS,),
    (),
)


@dataclass(frozen=True)
class Item:
    """An item of a menu: its alternative where that is known, and the marks of its variables."""

    alternative: int | None
    marks: tuple[str, ...]


@dataclass
class Replay:
    """A match: its record, its faces, the logs of some seats with the names of what they tell, and the menus where they are known.

    The last stop is the table at the end where `is_closed` says so. `places` tells where the face of each number stands.
    """

    record: Record
    faces: list[Face]
    places: dict[int, int]
    logs: dict[int, Log]
    derived: Derived
    sheet: Sheet
    items: list[Item] = field(default_factory=list)
    menus: list[list[Item] | None] = field(default_factory=list)
    is_closed: bool = False

    @property
    def stops(self) -> list[Stop]:
        """What the first of the seats sees. All of them see the same turns, stages and numbers."""
        return next(iter(self.logs.values())).stops


def gather(program: Program, sheet: Sheet, plan: Plan, match: int, seats: list[int], most_items: int) -> Replay:
    """Plays a match; then plays it again by scripts, on a sheet that tells more, once for each seat that looks on. Where the menus of
    these seats have so many items at most, they are told too."""
    record = played(program, sheet.text + plan.alone(match)).matches[0]
    record.number = match
    again = scripted(record, scripts(record.picks, sheet.players), longer(plan.turns))
    attempt, told = derived_play(program, sheet, again)
    compare(record, told.matches[0], attempt)
    source = attempt.text + again
    logs = {seat: watched(program, source, seat) for seat in seats}
    replay = Replay(record, told.faces, told.places, logs, attempt, Sheet(attempt.text))
    replay.items = [item_of(it.marks, replay) for it in told.matches[0].picks[: len(record.picks)]]
    replay.is_closed = is_closed(replay)
    asked = sum(it.size for it in record.picks[:SHOWN] if it.size > 1 and it.seat in seats)
    replay.menus = menus(program, replay) if asked <= most_items else [None] * len(record.picks)
    return replay


def derived_play(program: Program, sheet: Sheet, plan: bytes) -> tuple[Derived, Transcript]:
    """The derived sheet that tells most of those that the program takes, and what is played of it."""
    for pieces in ATTEMPTS:
        attempt = derived(sheet, *pieces)
        ended = program.call(PLAY, attempt.text + plan)
        if ended.returncode == 0:
            return attempt, transcript_of(ended.stdout)
    raise refusal(ended)


def compare(record: Record, other: Record, attempt: Derived) -> None:
    """Asks that the derived sheet played the same match."""
    count = len(record.picks)
    if [it.bare() for it in record.picks] != [it.bare() for it in other.picks[:count]]:
        raise Differs("its choices are others")
    if record.end == "done":
        if (other.end, other.scores, other.points) != ("done", record.scores, record.points):
            raise Differs("its scores are others")
        if len(other.picks) != count + (Piece.CLOSING in attempt.names):
            raise Differs("it has more choices")


def is_closed(replay: Replay) -> bool:
    """Whether the logs show the table at the end. A match that the limit ends has it where the limit came at a decision: the match
    with a longer limit stands there, at the same turn."""
    record = replay.record
    closing = replay.stops[len(record.picks) :][:1]
    if record.end == "done":
        return Piece.CLOSING in replay.derived.names and bool(closing)
    return bool(closing) and closing[0].turn == record.turn


def item_of(marks: tuple[str, ...], replay: Replay) -> Item:
    """The item of a pick of the derived sheet, whose first mark is the tag of the alternative."""
    if Piece.TAGS not in replay.derived.names:
        return Item(None, marks)
    face = replay.faces[replay.places[int(marks[0][1:])]]
    return Item(int(face[0][1]), marks[1:])


def menus(program: Program, replay: Replay) -> list[list[Item] | None]:
    """All items of each menu of those who look on. For each item that wasn't taken the match is played up to its decision, by scripts
    in which the seat takes that item."""
    picks = replay.record.picks
    own = [at for at, it in enumerate(picks[: len(replay.stops)]) if it.seat in replay.logs]
    found: dict[int, list[Item]] = {at: [replay.items[at]] * picks[at].size for at in own}
    jobs = [(at, item) for at, menu in found.items() for item in range(len(menu)) if item != picks[at].item]
    with ThreadPoolExecutor(WORKERS) as pool:
        for (at, item), answer in zip(jobs, pool.map(lambda job: asked(program, replay, *job), jobs)):
            found[at][item] = answer
    return [found.get(at) for at in range(len(picks))]


def asked(program: Program, replay: Replay, at: int, item: int) -> Item:
    """An item of a menu that wasn't taken."""
    record, pick = replay.record, replay.record.picks[at]
    taken = scripts(record.picks[:at], len(record.scores))
    taken[pick.seat].append(item)
    plan = scripted(record, taken, replay.stops[at].turn + 1)
    picks = played(program, replay.derived.text + plan).matches[0].picks
    if [it.bare() for it in picks[at:]] != [(pick.seat, pick.site, item, pick.size)]:
        raise Differs("a menu isn't that of the match")
    return item_of(picks[at].marks, replay)
