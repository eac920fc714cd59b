"""The cases of the trick game: what `play` and `bench` write of it is compared with what comes of its rules."""

import re
from collections.abc import Callable, Iterator
from pathlib import Path

from cases import tricks
from cases.notes import any_hits, is_note
from cases.rows import ROOT, Row
from cases.running import Case, End
from cases.texts import judged_case, migrated_cases

TRICKS = ROOT / "bench/tricks.sheet"

# The plan of the bench, but for its matches.
PLAN = "(plan (seats (random 1) (rollout 4 2) (random 3) (rollout 4 4)) (matches {}) (turns 64))"

# How many matches of two seats that roll out are played and worked out.
MATCHES = 50

# How many workers play them, beside one.
WORKERS = (2, 4, 64)

# How many entries are remembered where nothing is said, and at most.
ENTRIES = 1024
MOST_ENTRIES = 65536

# Matches of which some come again. In match m the strategies have moved on by m of four seats, so a match asks what another one did
# where both have the same seeds and their numbers differ by four: here 4 and 8 as 0 did, 9 as 1, 10 as 2 and 11 as 3. A match has
# twelve looks, all different. Between two that ask the same others ask 36 different keys, so that 48 entries do; but match 9 comes
# behind 72 others, as do 10 and 11, and they need 84. With one entry less each key has left just before it is asked for again.
AGAIN = tuple((1, 1000) if kind == "P" else (2, 2000) for kind in "PPQPPQPQPPQP")
FOUND = {1: 0, 47: 0, 48: 24, 83: 24, 84: 60, 65536: 60}


def note_of(seeds: tricks.Seeds, entries: int, workers: int) -> str:
    """What is noted of these matches. Where no key is asked for twice, several workers find nothing either; else what they find hangs
    on the order in which they come to ask."""
    if workers == 1 or tricks.note(seeds, MOST_ENTRIES).endswith(" hits 0\n"):
        return tricks.note(seeds, entries)
    return any_hits(tricks.note(seeds, entries))


def ends_as_bench(number: int, entries: int) -> Callable[[End], bool]:
    """Whether a run is the bench of so many matches, with so many entries remembered. No key is asked for twice in a bench."""
    return lambda end: end == End(0, tricks.summary(number), tricks.note(tricks.of_bench(number), entries))


def is_bench(number: int) -> Callable[[End], bool]:
    """Whether a run is a bench of so many matches, by what all of them have in common: a match has 24 choices of which 12 look, none
    finds what another one left, and its rank points are 12 together."""
    head = f"bench {number}\nmatches {number}\ndecisions {24 * number}\nlimits 0\n"
    standings = re.compile(head + r"(?:standing \d+ strategy \d+ points \d+\n){4}")

    def is_so(end: End) -> bool:
        if (end.status, end.notes) != (0, f"cache looks {12 * number} hits 0\n") or not standings.fullmatch(end.out):
            return False
        return sum(int(line.split()[-1]) for line in end.out.splitlines() if line.startswith("standing")) == 12 * number

    return is_so


def play_of(row: Row, source: str, seeds: tricks.Seeds, entries: int = ENTRIES, workers: int = 1, format: int = 1) -> Case:
    """The case of a source with these matches."""
    what = f"what {len(seeds)} matches of the trick game come to by its rules, with {entries} entries and {workers} workers"

    def is_played(end: End) -> bool:
        text = tricks.transcript(seeds, named=format == 2)
        return (end.status, end.out) == (0, text) and is_note(note_of(seeds, entries, workers), end.notes)

    words = ("play", f"--cache={entries}", f"--workers={workers}", *(("--format=2",) if format == 2 else ()))
    return Case(row, words, source, what, is_played)


def bench_of(row: Row, number: int, options: tuple[str, ...]) -> Case:
    """The case of the bench of so many matches."""
    what = f"what {number} matches of the trick game come to by its rules"
    return Case(row, ("bench", str(number), *options), "", what, ends_as_bench(number, ENTRIES))


def read_bench(file: Path) -> Iterator[Case]:
    """The cases of the sheet with two plans, of which the text of one is judged and migrated too, and those of the bench."""
    row, sheet = Row(file, 1, "the trick game"), file.read_text("ascii")
    seeds = tricks.in_a_row(1, 1000, MATCHES)
    in_a_row = sheet + PLAN.format(f"(from 1 1000 {MATCHES})")
    again = sheet + PLAN.format(" ".join(f"({deal} {seed})" for deal, seed in AGAIN))
    yield play_of(row, in_a_row, seeds)
    plain, named = tricks.transcript(seeds), tricks.transcript(seeds, named=True)
    for text in (plain, named):
        yield judged_case(row, in_a_row, text, "legal")
        yield from migrated_cases(row, in_a_row, text, "legal", named)
    yield play_of(row, in_a_row, seeds, format=2)
    yield bench_of(row, MATCHES, ())
    for entries in FOUND:
        yield play_of(row, again, AGAIN, entries)
    for workers in WORKERS:
        yield play_of(row, in_a_row, seeds, workers=workers)
        yield play_of(row, in_a_row, seeds, workers=workers, format=2)
        yield play_of(row, again, AGAIN, 60, workers)
        yield bench_of(row, MATCHES, ("--workers", str(workers)))
