"""What the program writes: transcripts of format 2 and logs of seats."""

from __future__ import annotations

from dataclasses import dataclass, field


@dataclass(frozen=True)
class Pick:
    """A choice: the seat, the site, the item, the menu's size, and the marks of the item's variables."""

    seat: int
    site: int
    item: int
    size: int
    marks: tuple[str, ...] = ()

    def bare(self) -> tuple[int, int, int, int]:
        return self.seat, self.site, self.item, self.size


@dataclass
class Record:
    """A match, by which seeds it was played, and what came of it."""

    number: int
    deal: int
    seats: int
    picks: list[Pick] = field(default_factory=list)
    end: str = ""
    turn: int = 0
    shuffles: int = 0
    scores: list[int] = field(default_factory=list)
    points: list[int] = field(default_factory=list)


# The attribute and value words of a face, pair by pair.
Face = list[tuple[str, str]]


@dataclass
class Transcript:
    """Faces, matches, and at which place of the faces the one of each number stands: numbers have gaps where faces are equal."""

    faces: list[Face] = field(default_factory=list)
    places: dict[int, int] = field(default_factory=dict)
    matches: list[Record] = field(default_factory=list)


def transcript_of(text: bytes) -> Transcript:
    """A text of format 2, as `play` and `migrate` write it."""
    told = Transcript()
    for line in text.decode("ascii").split("\n"):
        words = line.split(" ")
        word = words[0]
        if word == "face":
            told.places[int(words[1])] = len(told.faces)
            told.faces.append(list(zip(words[2::2], words[3::2])))
        elif word == "match":
            told.matches.append(Record(int(words[1]), int(words[3]), int(words[5])))
        elif word == "choose":
            told.matches[-1].picks.append(Pick(*map(int, words[1:5]), tuple(words[5:])))
        elif word == "shuffles":
            told.matches[-1].shuffles = int(words[1])
        elif word == "end":
            told.matches[-1].end, told.matches[-1].turn = words[1], int(words[2])
        elif word == "score":
            told.matches[-1].scores.append(int(words[2]))
            told.matches[-1].points.append(int(words[3]))
    return told


@dataclass(frozen=True)
class Frame:
    """An open stage: its number, the current member, whether it goes backward, and who is named next, if somebody is."""

    stage: int
    member: int
    is_backward: bool
    named: int | None


@dataclass
class Stop:
    """What a seat sees at a decision: of each location a face number for each card, or None for one that it doesn't see."""

    turn: int
    site: int
    frames: list[Frame] = field(default_factory=list)
    numbers: list[int] = field(default_factory=list)
    places: list[list[int | None]] = field(default_factory=list)


@dataclass
class Log:
    """What a seat sees at the first 1,000 decisions of a match, and how many there are."""

    stops: list[Stop]
    count: int


def log_of(text: bytes) -> Log:
    """A log, as `watch` writes it."""
    stops: list[Stop] = []
    count = 0
    for line in text.decode("ascii").split("\n"):
        word, *words = line.split(" ")
        if word == "stop":
            stops.append(Stop(int(words[2]), int(words[4])))
        elif word == "frame":
            named = None if words[3] == "none" else int(words[3])
            stops[-1].frames.append(Frame(int(words[0]), int(words[1]), words[2] == "back", named))
        elif word == "numbers":
            stops[-1].numbers = list(map(int, words))
        elif word == "place":
            stops[-1].places.append([None if it == "-" else int(it) for it in words[1:]])
        elif word == "stops":
            count = int(words[0])
    return Log(stops, count)
