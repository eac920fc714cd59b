"""Tables for people: columns of figures."""

from tables.counting import Counts
from tables.figure import Figure

LENGTHS = ["", "mean", "error", "least", "most"]
SIDES = ["", "rank points", "a match", "error", "wins", "a match", "error", "score", "error"]


def table(counts: Counts, at_limit: str = "") -> str:
    """The table of what was counted, with a line on the turn limit, if one is told."""
    return f"{how_many(counts)}, {counts.limits.total} ended by the turn limit\n{at_limit}{columns(counts)}"


def how_many(counts: Counts) -> str:
    """How many matches were counted, and of how many deals, where these are fewer."""
    matches = counts.turns.matches
    deals = f" of {counted(matches // counts.matches_of_unit, 'deal', 'deals')}" if counts.matches_of_unit > 1 else ""
    return counted(matches, "match", "matches") + deals


def counted(number: int, one: str, many: str) -> str:
    return f"{number} {one if number == 1 else many}"


def columns(counts: Counts, sign: str = "") -> str:
    """The figures, those of lengths and those of strategies and seats, each below a line that names them. The sign `+` is for
    differences."""

    def whole(number: int) -> str:
        return f"{number:{sign}}"

    def mean(figure: Figure) -> list[str]:
        error = figure.error()
        return [f"{figure.mean():{sign}.3f}", "-" if error is None else f"{error:.3f}"]

    lengths = [
        [label, *mean(it), whole(it.least), whole(it.most)] for label, it in (("turns", counts.turns), ("choices", counts.choices))
    ]
    sides = [
        [it.label, whole(it.points.total), *mean(it.points), whole(it.wins.total), *mean(it.wins), *mean(it.score)]
        for it in counts.sides()
    ]
    return f"\n{aligned([LENGTHS, *lengths])}\n{aligned([SIDES, *sides])}"


def aligned(rows: list[list[str]]) -> str:
    """Lines of cells below each other: the first to the left, the others to the right."""
    widths = [max(map(len, column)) for column in zip(*rows)]
    lines = ("  ".join([row[0].ljust(widths[0]), *map(str.rjust, row[1:], widths[1:])]) for row in rows)
    return "".join(f"{line}\n" for line in lines)
