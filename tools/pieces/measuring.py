"""The measures of a series: most lines are sums over its pieces, of which the program tells them."""

import re
from collections.abc import Iterator
from pathlib import Path

from pieces.folder import Series, read
from pieces.program import NOT_BUILT, Program, refusal
from pieces.whole import matches_of
from tables.ending import Refused
from tables.house import Match

HEAD = "measure 1"
FORMS = (
    "matches {} limits {}", "choices {}/{}", "forced {}/{}", "menu {}/{}", "spread {}/{}", "leads {}/{}", "turns {} {} {}",
    "site {} {} {} {}", "seat {} {} {} {} {}", "strategy {} {} {} {}",
)  # fmt: skip
OF_EACH = ("site", "seat", "strategy")

# The numbers of a line, by its word, and with the number of the site, the seat or the strategy behind it.
Measures = dict[tuple[str, int], list[int]]


def measure(folder: Path) -> None:
    """Writes the measures that one transcript of all matches would have."""
    series, program = Series(folder), Program()
    matches = matches_of(series)
    whole: Measures = {}
    for number in range(len(series.pieces)):
        add(whole, measures_of_piece(series, program, number))
    print("".join(f"{line}\n" for line in lines(joined(whole, matches))), end="")


def measures_of_piece(series: Series, program: Program, number: int) -> Measures:
    """The measures of a piece, whose transcript is judged for it once more."""
    ended = program.call(["measure"], series.source(number) + b"\n" + read(series.file(number, "transcript")))
    if ended.returncode:
        raise refusal(ended)
    head, *told = ended.stdout.decode("latin-1").splitlines()
    if head != HEAD:
        raise Refused(NOT_BUILT, f"{program.file} writes no measures that are known here")
    return measures_in(told)


def measures_in(told: list[str]) -> Measures:
    """What lines tell."""
    found: Measures = {}
    for line in told:
        word, numbers = line.split(" ")[0], [int(it) for it in re.findall(r"-?\d+", line)]
        key = (word, numbers.pop(0)) if word in OF_EACH else (word, 0)
        found[key] = numbers
    return found


def add(whole: Measures, piece: Measures) -> None:
    """Adds the numbers of a piece, line by line."""
    for key, numbers in piece.items():
        before = whole.get(key, [0] * len(numbers))
        whole[key] = [one + other for one, other in zip(before, numbers)]


def joined(sums: Measures, matches: list[Match]) -> Measures:
    """The sums with the two lines that are no sums, which take all matches in their order."""
    turns = sorted(match.turns for match in matches)
    others = {("leads", 0): [changes(matches), len(matches)], ("turns", 0): [turns[0], turns[len(turns) // 2], turns[-1]]}
    return sums | others


def changes(matches: list[Match]) -> int:
    """How often another strategy leads behind a match than behind the one before: the first of those with the most points so far."""
    points, leaders = [0] * len(matches[0].points), []
    for match in matches:
        for strategy, gained in zip(match.strategies(), match.points):
            points[strategy] += gained
        leaders.append(points.index(max(points)))
    return sum(before != now for before, now in zip(leaders, leaders[1:]))


def lines(measures: Measures) -> Iterator[str]:
    """The lines in their order."""
    yield HEAD
    for form in FORMS:
        word = form.split(" ")[0]
        for key in sorted(key for key in measures if key[0] == word):
            numbers = measures[key]
            yield form.format(*([key[1], *numbers] if word in OF_EACH else numbers))
