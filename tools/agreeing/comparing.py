"""What the program writes of a case in all ways in which it is to write the same."""

import re
from collections.abc import Iterator
from dataclasses import dataclass, field, replace
from enum import Enum

from agreeing.cases import Case, chance_of
from agreeing.chance import Chance
from agreeing.others import ABSENT, Words, on_log, on_measures, players_in, rival_words, watch_words
from agreeing.program import End, Program
from agreeing.reading import Reading, reading_of, search_of
from agreeing.transcripts import count, looks_of, mangled, spoiled, spoiled_legend, spoiled_marks, unnamed
from second.running import refusal
from second.strategies import hits_of

NOTE = re.compile(rb"cache looks (\d+) hits (\d+)\n")
REFUSED = re.compile(rb"(?:sheet|plan) (\w+) (\d+)\n")
REFUSALS = 1, 3

# How many seconds of a processor the first run of a case may take, and the second reading. Other runs have more.
FIRST_SECONDS = 4
READING_SECONDS = 5

PLAY, CHECK, SHEET, MIGRATE, MEASURE = ("play",), ("check",), ("sheet",), ("migrate",), ("measure",)
WATCH, RIVAL = ("watch", "0", "0"), ("rival", "0", "1", "1", "0")
NAMED = ("--format", "2")
USAGE = 2
LEGAL = End(0, b"legal\n", b"")
ROOM, LARGEST = 1024, 65_536


class Kind(Enum):
    ACCEPTED = "accepted"
    REFUSED = "refused"
    DROPPED = "dropped"


@dataclass
class Result:
    """What came of a case: its kind, with the kind of the refusal; what was played; and in what runs disagree."""

    kind: Kind
    why: str = ""
    matches: int = 0
    choices: int = 0
    shuffles: int = 0
    looks: int = 0
    hits: int = 0
    read: int = 0
    disagreements: list[str] = field(default_factory=list)


@dataclass(frozen=True)
class Played:
    """A case that was played by one worker: how the first run ended, and what was noted of it; and how it ended in format 2."""

    case: Case
    end: End
    looks: int
    hits: int
    named: End


class Comparing:
    """Compares the runs of a program, with another one, and with the second reading of the rules, where that is wanted."""

    def __init__(self, program: Program, other: Program | None = None, reads: bool = False) -> None:
        self.program = program
        self.other = other
        self.reads = reads

    def result(self, case: Case) -> Result:
        """What comes of a case."""
        first = self.program.run(PLAY, case.source(), FIRST_SECONDS)
        if first.is_out_of_bounds():
            return Result(Kind.DROPPED)
        if first.status:
            return self.refused(case, first)
        noted = NOTE.fullmatch(first.note)
        if not noted:
            return Result(Kind.ACCEPTED, disagreements=[f"play ended with {first}"])
        named = self.program.run((*PLAY, *NAMED), case.source())
        if named.status or not named.text.startswith(b"house 2\nface 0 "):
            return Result(Kind.ACCEPTED, disagreements=[f"play in format 2 ended with {named}"])
        return self.accepted(Played(case, first, int(noted[1]), int(noted[2]), named))

    def refused(self, case: Case, first: End) -> Result:
        """A refusal is one line with a place in the source. Other commands and the other program say the same; but what stands behind
        the plan is a fault for commands that read nothing there."""
        told = REFUSED.fullmatch(first.note)
        result = Result(Kind.REFUSED, told[1].decode() if told else "")
        if not told or first.text or first.status not in REFUSALS or int(told[2]) > len(case.source()):
            result.disagreements.append(f"play ended with {first}")
        for words in (WATCH, RIVAL) if result.why == "Rest" else (WATCH, RIVAL, CHECK, MIGRATE, MEASURE):
            result.disagreements += differing(words[0], self.program.run(words, case.source()), first)
        if self.other:
            result.disagreements += differing("play of the other program", self.other.run(PLAY, case.source()), first)
        if self.reads:
            result.read = 1
            read = refusal("play", case.source())
            end = End(read.status, b"", read.note.encode()) if read else End(0, b"", b"")
            result.disagreements += differing("the second reading", end, first)
        return result

    def accepted(self, it: Played) -> Result:
        """What comes of a case that was played."""
        text, by_room = it.end.text, {ROOM: it.hits}
        counts = (count(text, head) for head in (b"match", b"choose", b"shuffles"))
        result = Result(Kind.ACCEPTED, "", *counts, it.looks, it.hits)
        for said in (
            self.rooms(it, by_room), self.workers(it, by_room), self.named(it), self.judged(it), self.printed(it), self.watched(it),
            self.measured(it), self.searched(it), self.of_other(it),
        ):  # fmt: skip
            result.disagreements += said
        texts = self.texts(it)
        if self.reads and (reading := reading_of(it.case, texts, others_of(it), READING_SECONDS)):
            result.read = 1
            result.disagreements += self.of_reading(it, by_room, reading, texts)
        return result

    def rooms(self, it: Played, by_room: dict[int, int]) -> Iterator[str]:
        """A look is told for each decision of a seat that rolls out. Less and more room for totals write the same text, and more
        room has as many hits or more."""
        looks = looks_of(it.end.text, rolls_out(it.case))
        if looks != it.looks:
            yield f"play notes {it.end.note!r} of {looks} decisions of seats that roll out"
        for room in (1, options_of(it).randint(2, 9), LARGEST) if looks else ():
            end = self.program.run((*PLAY, "--cache", str(room)), it.case.source())
            yield from differing(f"play with room for {room}", end, it.end)
            by_room[room] = noted_hits(end, looks)
        hits = [by_room[room] for room in sorted(by_room)]
        if hits != sorted(hits) or hits[0] < 0:
            yield f"with more room there are fewer hits, or looks differ: {sorted(by_room.items())}"

    def workers(self, it: Played, by_room: dict[int, int]) -> Iterator[str]:
        """More workers write the same text, and have no more hits than one worker with room for all."""
        for workers in (2, 4):
            words = (*PLAY, "--workers", str(workers), "--cache", str(options_of(it, workers).choice((1, 3, ROOM))))
            end = self.program.run(words, it.case.source())
            yield from differing(" ".join(words), end, it.end)
            if not 0 <= noted_hits(end, it.looks) <= max(by_room.values()):
                yield f"{' '.join(words)} notes {end.note!r}, and one worker {it.end.note!r}"

    def named(self, it: Played) -> Iterator[str]:
        """In format 2 the same is played, with the same note, also by several workers. Either text is migrated to that of format 2."""
        yield from differing("play in format 2, without its names,", replace(it.named, text=unnamed(it.named.text)), it.end)
        if it.named.note != it.end.note:
            yield f"play in format 2 notes {it.named.note!r}, and in format 1 {it.end.note!r}"
        workers = (*PLAY, *NAMED, "--workers", str(options_of(it, "named").randint(2, 4)))
        yield from differing(" ".join(workers), self.program.run(workers, it.case.source()), it.named)
        for number, text in enumerate((it.end.text, it.named.text), 1):
            end = self.program.run(MIGRATE, it.case.source() + text)
            yield from differing(f"migrate of format {number}", end, replace(it.named, note=b""))
            if end.note:
                yield f"migrate of format {number} notes {end.note!r}"

    def judged(self, it: Played) -> Iterator[str]:
        """The transcript is legal in either format, and with a line spoiled it is refused at this line."""
        for text in (it.end.text, it.named.text):
            end = self.program.run(CHECK, it.case.source() + text)
            if end != LEGAL:
                yield f"check of the transcript ended with {end}"
        chance, named = options_of(it, "spoiled"), it.named.text
        tries = (spoiled(it.end.text, chance), spoiled(named, chance), spoiled_marks(named, chance), spoiled_legend(named, chance))
        for words in (CHECK, MIGRATE, MEASURE):
            for text, told in filter(None, tries):
                end = self.program.run(words, it.case.source() + text)
                if end != End(4, b"", told):
                    yield f"{words[0]} of a transcript that is spoiled, and so {told!r}, ended with {end}"

    def watched(self, it: Played) -> Iterator[str]:
        """A log tells as many stops as its match has choices."""
        for words in others_of(it):
            yield from on_log(words, self.program.run(words, it.case.source()), it.end.text)

    def measured(self, it: Played) -> Iterator[str]:
        """The transcript has the same measures in either format."""
        ends = [self.program.run(MEASURE, it.case.source() + text) for text in (it.end.text, it.named.text)]
        yield from on_measures(ends[0], it.end.text)
        yield from differing("measure of format 2", ends[1], ends[0])

    def searched(self, it: Played) -> Iterator[str]:
        """What is written with a search in the place of a strategy is legal, of the plan's matches; and the second reading writes it."""
        words = rival_words(it.end.text, options_of(it, "searched"))
        end = self.program.run(words, it.case.source(), FIRST_SECONDS)
        if end.is_out_of_bounds():
            return
        if end != ABSENT or int(words[1]) < players_in(it.end.text):
            judged = self.program.run(CHECK, it.case.source() + end.text)
            if (end.status, end.note, judged) != (0, b"", LEGAL):
                yield f"{' '.join(words)} ended with {end}, and check of it with {judged}"
        if self.reads and (wanted := search_of(it.case, words, READING_SECONDS)):
            yield from differing(" ".join(words), end, wanted)

    def texts(self, it: Played) -> list[bytes]:
        """The transcript in both formats, and some that are changed by chance."""
        chance = options_of(it, "mangled")
        return [it.end.text, it.named.text, *(mangled(text, chance) for text in (it.end.text, it.named.text, it.named.text))]

    def printed(self, it: Played) -> Iterator[str]:
        """The printed sheet is printed as itself, and played as the sheet."""
        end = self.program.run(SHEET, it.case.source())
        again = self.program.run(SHEET, end.text)
        if (end.status, end.note) != (0, b"") or again != end:
            yield f"sheet ended with {end}, and of what it wrote with {again}"
        yield from differing("play of the printed sheet", self.program.run(PLAY, end.text + it.case.plan), it.end)

    def of_other(self, it: Played) -> Iterator[str]:
        """Another program writes the same."""
        if self.other:
            yield from differing("play of the other program", self.other.run(PLAY, it.case.source()), it.end)
            yield from differing("check of the other program", self.other.run(CHECK, it.case.source() + it.end.text), LEGAL)
            named = self.other.run((*PLAY, *NAMED), it.case.source())
            # An older build may know one format alone.
            if named.status != USAGE:
                yield from differing("play of the other program in format 2", named, it.named)
            ours, theirs = (program.run(SHEET, it.case.sheet) for program in (self.program, self.other))
            yield from differing("sheet of the other program", theirs, ours)

    def of_reading(self, it: Played, by_room: dict[int, int], reading: Reading, texts: list[bytes]) -> Iterator[str]:
        """The second reading accepts the sheet and has the same transcript in both formats, the same printed sheet, and the same hits in
        each room; it migrates, judges and measures these texts as the program does; and other commands end alike."""
        if reading.fault:
            yield f"the second reading refuses the sheet for {reading.fault}"
        yield from differing("the second reading", End(0, reading.text, b""), it.end)
        yield from differing("the second reading in format 2", End(0, reading.named, b""), it.named)
        yield from differing("sheet", self.program.run(SHEET, it.case.sheet), End(0, reading.sheet, b""))
        for text, wanted in zip(texts, reading.migrated):
            source = it.case.source() + text
            yield from differing("migrate", self.program.run(MIGRATE, source), wanted)
            yield from differing("check", self.program.run(CHECK, source), wanted if wanted.status else LEGAL)
        for text, wanted in zip(texts, reading.measured):
            yield from differing("measure", self.program.run(MEASURE, it.case.source() + text), wanted)
        for words, wanted in zip(others_of(it), reading.others):
            yield from differing(" ".join(words), self.program.run(words, it.case.source()), wanted)
        hits = {room: hits_of(reading.asks, room) for room in by_room}
        if hits != by_room or len(reading.asks) != it.looks:
            yield f"by room {by_room} of {it.looks} looks hit, and by the second reading {hits} of {len(reading.asks)}"


def options_of(it: Played, what: object = "options") -> Chance:
    """Chance by which options and spoiled lines are taken."""
    return chance_of(it.case.seed, it.case.number, str(what))


def others_of(it: Played) -> list[Words]:
    """Words of other commands that read a sheet and a plan."""
    return [watch_words(it.end.text, options_of(it, "watched"))]


def rolls_out(case: Case) -> list[bool]:
    """Of each strategy of a plan, whether it rolls out."""
    without_comments = re.sub(rb";[^\n]*", b"", case.plan)
    return [kind == b"rollout" for kind in re.findall(rb"\b(script|random|rollout)\b", without_comments)]


def noted_hits(end: End, looks: int) -> int:
    """The hits that a run notes beside so many looks; -1 where it notes other looks."""
    found = NOTE.fullmatch(end.note)
    return int(found[2]) if found and int(found[1]) == looks else -1


def differing(what: str, end: End, wanted: End) -> Iterator[str]:
    """Says so where a run didn't end as is wanted. Where both ended well, their notes may differ."""
    if (end.status, end.text) != (wanted.status, wanted.text) or end.status and end.note != wanted.note:
        line = first_difference(end.text, wanted.text)
        yield f"{what} ended with {end}, and not with {wanted}; they differ from line {line} on"


def first_difference(one: bytes, other: bytes) -> int:
    """The first line in which two texts differ, from 1."""
    lines, others = one.splitlines(), other.splitlines()
    same = (index for index, pair in enumerate(zip(lines, others)) if pair[0] != pair[1])
    return next(same, min(len(lines), len(others))) + 1
