"""Commands beside `play`, `check`, `sheet` and `migrate` on what was played: their words by chance, and what shows in what they write."""

import re
from collections.abc import Iterator

from agreeing.chance import Chance
from agreeing.program import End
from agreeing.transcripts import count

Words = tuple[str, ...]

ABSENT = End(10, b"", b"absent\n")

# The last seat and the last strategy that a command's words may name.
LAST = 7


def stops_in(text: bytes) -> list[int]:
    """How many choices each match of a transcript has."""
    return [count(match, b"choose") for match in re.split(rb"^match ", text, flags=re.MULTILINE)[1:]]


def players_in(text: bytes) -> int:
    return count(text, b"standing")


def watch_words(text: bytes, chance: Chance) -> Words:
    """A seat and a match, which mostly are there."""
    seat = min(LAST, chance.randint(0, players_in(text) - (not chance.holds(0.05))))
    return "watch", str(seat), str(chance.randint(0, len(stops_in(text)) - 1))


def rival_words(text: bytes, chance: Chance) -> Words:
    """A strategy, which mostly is there, how deep it searches and in how many rounds, and a key."""
    strategy = min(LAST, chance.randint(0, players_in(text) - (not chance.holds(0.05))))
    depth, key = chance.weighted(((3, 1), (4, 2), (2, 3), (1, 4))), chance.choice((0, 7, chance.randint(0, 10**18 - 1)))
    return "rival", str(strategy), str(depth), str(chance.randint(1, 3)), str(key)


def on_log(words: Words, end: End, text: bytes) -> Iterator[str]:
    """What is wrong with how `watch` ends: a log has as many stops as its match has choices."""
    _, seat, match = words
    if int(seat) >= players_in(text):
        if end != ABSENT:
            yield f"{' '.join(words)} ended with {end}, and that isn't there"
        return
    stops = stops_in(text)[int(match)]
    head, last = f"log 1\nseat {seat} match {match}\n".encode(), b"stops %d\n" % stops
    shown = count(end.text, b"stop")
    if (end.status, end.note) != (0, b"") or not (end.text.startswith(head) and end.text.endswith(last)) or shown != min(1000, stops):
        yield f"{' '.join(words)} ended with {end} and {shown} stops, and the match has {stops} choices"


def on_measures(end: End, text: bytes) -> Iterator[str]:
    """What is wrong with how `measure` ends of a transcript: it tells the matches, those that end as limit, the choices and the turns."""
    matches, limits, choices = (count(text, head) for head in (b"match", b"end limit", b"choose"))
    turns = sum(map(int, re.findall(rb"^end \w+ (\d+)$", text, re.MULTILINE)))
    head = b"measure 1\nmatches %d limits %d\nchoices %d/%d\n" % (matches, limits, choices, turns)
    if (end.status, end.note) != (0, b"") or not end.text.startswith(head):
        yield f"measure ended with {end}, and the transcript has {choices} choices in {turns} turns of {matches} matches"
