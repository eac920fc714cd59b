"""The first fault of a plan."""

import re
from collections.abc import Callable

from second.parts import Part

SHAPE, NUMBER, SEATS, MATCHES, TURNS, TOO_LARGE, REST = PLAN_FAULTS = (
    "Shape", "Number", "Seats", "Matches", "Turns", "TooLarge", "Rest",
)  # fmt: skip

SPELLING = re.compile("[0-9]{1,18}")
LARGEST = 999_999_999_999_999_999
MOST_ROUNDS, MOST_SCRIPTED, MOST_MATCHES, MOST_TURNS, MOST_IN_ALL = 1_000, 65_535, 4_096, 100_000, 262_144

# The ranges of numbers: a script has any number of those of its place.
OF_SCRIPT, ANY = (0, MOST_SCRIPTED), (0, LARGEST)
OF_STRATEGIES = {"random": (ANY,), "rollout": ((1, MOST_ROUNDS), ANY)}
SCRIPT, FROM = "script", "from"

Ranges = tuple[tuple[int, int], ...]


class PlanShapes:
    """Collects the faults of the first round."""

    def __init__(self, plan: Part) -> None:
        self.faults: list[tuple[int, str]] = []
        if plan.head != "plan" or len(plan.parts) != 4:
            self.fault(plan, SHAPE)
            return
        _, seats, matches, turns = plan.parts
        self.each(seats, "seats", self.strategy)
        lists = sum(part.is_list for part in matches.parts)
        self.each(matches, "matches", self.alone if lists > 1 else self.match)
        if turns.head == "turns" and len(turns.parts) == 2:
            self.numbers(turns.parts[1:], (ANY,))
        else:
            self.fault(turns, SHAPE)

    def fault(self, part: Part, kind: str) -> None:
        self.faults.append((part.at, kind))

    def each(self, part: Part, head: str, what: Callable[[Part], None]) -> None:
        """A list with this head, and something behind it."""
        if part.head != head or len(part.parts) < 2:
            self.fault(part, SHAPE)
            return
        for it in part.parts[1:]:
            what(it)

    def strategy(self, part: Part) -> None:
        numbers = part.parts[1:]
        ranges = (OF_SCRIPT,) * len(numbers) if part.head == SCRIPT else OF_STRATEGIES.get(part.head)
        self.list_of(part, numbers, ranges)

    def match(self, part: Part) -> None:
        """A match by its two seeds, or several in a row."""
        if part.head == FROM:
            self.list_of(part, part.parts[1:], (ANY,) * 3)
        else:
            self.list_of(part, part.parts, (ANY,) * 2)

    def alone(self, part: Part) -> None:
        """A match where others stand beside it, as they don't beside several in a row."""
        if part.head == FROM:
            self.fault(part, SHAPE)
        else:
            self.match(part)

    def list_of(self, part: Part, numbers: tuple[Part, ...], ranges: Ranges | None) -> None:
        """A list of as many numbers as there are ranges."""
        if not part.is_list or ranges is None or len(numbers) != len(ranges):
            self.fault(part, SHAPE)
        else:
            self.numbers(numbers, ranges)

    def numbers(self, parts: tuple[Part, ...], ranges: Ranges) -> None:
        for part, (least, most) in zip(parts, ranges):
            if part.is_list:
                self.fault(part, SHAPE)
            elif not SPELLING.fullmatch(part.text) or not least <= int(part.text) <= most:
                self.fault(part, NUMBER)


def plan_fault(plan: Part, players: int) -> tuple[str, int] | None:
    """The kind and the place of the first fault of a plan for so many players."""
    if shapes := PlanShapes(plan).faults:
        at, kind = min(shapes)
        return kind, at
    _, seats, matches, turns = plan.parts
    limit = int(turns.parts[1].text)
    if len(seats.parts) - 1 != players:
        return SEATS, seats.at
    count = len(matches.parts) - 1
    if (row := matches.parts[1]).head == FROM:
        deal, seed, count = (int(part.text) for part in row.parts[1:])
        if not 1 <= count <= MOST_MATCHES or max(deal, seed) + count - 1 > LARGEST:
            return MATCHES, row.at
    if not 1 <= limit <= MOST_TURNS:
        return TURNS, turns.parts[1].at
    return (TOO_LARGE, plan.at) if count > MOST_MATCHES or count * limit > MOST_IN_ALL else None
