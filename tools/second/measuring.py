"""What the records of a transcript come to."""

from collections.abc import Iterable, Iterator
from dataclasses import dataclass, field


@dataclass(frozen=True)
class Pick:
    """A choice: who chose at which site, out of how many items, and the strategy of the seat."""

    seat: int
    site: int
    size: int
    strategy: int


@dataclass
class Record:
    """A match: its choices, how it ended, and the scores and rank points of the seats."""

    number: int
    picks: list[Pick] = field(default_factory=list)
    is_limit: bool = False
    turns: int = 0
    scores: list[int] = field(default_factory=list)
    points: list[int] = field(default_factory=list)

    def of_strategies(self) -> list[int]:
        """The rank points of the strategies, in their order."""
        count = len(self.points)
        return [self.points[(strategy - self.number) % count] for strategy in range(count)]


def records_of(lines: Iterable[str], players: int) -> list[Record]:
    """The matches of a legal transcript of either format."""
    records: list[Record] = []
    for line in lines:
        head, *words = line.split(" ")
        if head == "match":
            records.append(Record(int(words[0])))
        elif head == "choose":
            seat, site, _, size = map(int, words[:4])
            records[-1].picks.append(Pick(seat, site, size, (seat + records[-1].number) % players))
        elif head == "end":
            records[-1].is_limit, records[-1].turns = words[0] == "limit", int(words[1])
        elif head == "score":
            records[-1].scores.append(int(words[1]))
            records[-1].points.append(int(words[2]))
    return records


def measured(text: str, players: int) -> str:
    """The measures of a legal transcript of a plan for so many players."""
    return "".join(f"{line}\n" for line in lines_of(records_of(text.splitlines(), players), players))


def lines_of(records: list[Record], players: int) -> Iterator[str]:
    picks = [pick for record in records for pick in record.picks]
    count, forced, items = tally(picks)
    turns = sorted(record.turns for record in records)
    yield "measure 1"
    yield f"matches {len(records)} limits {sum(record.is_limit for record in records)}"
    yield f"choices {count}/{sum(turns)}"
    yield f"forced {forced}/{count}"
    yield f"menu {items}/{count}"
    yield f"spread {sum(max(record.scores) - min(record.scores) for record in records)}/{len(records)}"
    yield f"leads {changes(records, players)}/{len(records)}"
    yield f"turns {turns[0]} {turns[len(turns) // 2]} {turns[-1]}"
    for site in sorted({pick.site for pick in picks}):
        yield told("site", site, *tally(pick for pick in picks if pick.site == site))
    for seat in range(players):
        points = sum(record.points[seat] for record in records)
        yield told("seat", seat, *tally(pick for pick in picks if pick.seat == seat), points)
    for strategy in range(players):
        made = sum(pick.strategy == strategy for pick in picks)
        gains = [record.of_strategies() for record in records]
        best = sum(gain[strategy] == max(gain) for gain in gains)
        yield told("strategy", strategy, made, sum(gain[strategy] for gain in gains), best)


def told(*parts: str | int) -> str:
    return " ".join(map(str, parts))


def tally(picks: Iterable[Pick]) -> tuple[int, int, int]:
    """How many choices there are, how many of one item, and how many items they had together."""
    sizes = [pick.size for pick in picks]
    return len(sizes), sizes.count(1), sum(sizes)


def changes(records: list[Record], players: int) -> int:
    """How often another strategy leads behind a match than behind the one before. The first one with the most points leads."""
    points, leaders = [0] * players, []
    for record in records:
        points = [one + other for one, other in zip(points, record.of_strategies())]
        leaders.append(points.index(max(points)))
    return sum(one != other for one, other in zip(leaders, leaders[1:]))
