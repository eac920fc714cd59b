"""The plan of a series, whose COUNT has no limit, and the plans of its pieces."""

import re
from dataclasses import dataclass

from faults.tokens import tokens
from tables.ending import PLAN, Refused

# What the program takes: the matches of a plan, these times the turn limit, and a seed.
MATCHES = 4096
TURNS = 262_144
SEED = 999_999_999_999_999_999

WANTED = "a series is a plan (plan (seats STRATEGY ..) (matches (from DEAL SEATS COUNT)) (turns T))"


@dataclass(frozen=True)
class Form:
    """An atom with its text, or a list with its parts, and where it begins and ends."""

    text: str
    parts: list["Form"]
    at: int
    end: int

    def behind(self, head: str) -> list["Form"]:
        """The parts of a list behind this word, which is to be its first."""
        if not self.parts or self.parts[0].text != head:
            raise ValueError(head)
        return self.parts[1:]


def forms_of(source: bytes) -> list[Form]:
    """The forms at the top of a text, and what closes no list. A list that is never closed is none."""
    open_lists: list[tuple[int, list[Form]]] = [(0, [])]
    for token in tokens(source):
        if token.text == "(":
            open_lists.append((token.at, []))
        elif token.text != ")" or len(open_lists) == 1:
            open_lists[-1][1].append(Form(token.text, [], token.at, token.at + len(token.text)))
        else:
            at, parts = open_lists.pop()
            open_lists[-1][1].append(Form("", parts, at, token.at + 1))
    return open_lists[0][1]


def number(form: Form) -> int:
    if not re.fullmatch(r"[0-9]{1,18}", form.text):
        raise ValueError(form.text)
    return int(form.text)


@dataclass(frozen=True)
class SeriesPlan:
    """A plan with `(from DEAL SEATS COUNT)` in its text at a place. Where it is a duplicate, COUNT tells the deals, and each is
    played in so many matches, one behind the other, as there are strategies."""

    text: bytes
    at: int
    end: int
    deal: int
    seats: int
    count: int
    turns: int
    strategies: list[str]
    duplicate: bool

    def matches(self) -> int:
        """How many matches the series has."""
        return self.count * (len(self.strategies) if self.duplicate else 1)

    def most(self) -> int:
        """How many matches a plan of these turns may have."""
        return min(MATCHES, TURNS // self.turns)

    def seeds(self, match: int) -> tuple[int, int]:
        """The seeds of the deal and of the seats in a match of the series."""
        deal = match // len(self.strategies) if self.duplicate else match
        return self.deal + deal, self.seats + deal

    def length(self, begin: int, matches: int) -> int:
        """How many bytes `part` has. Nothing is written for it: the plans of a duplicate may have gigabytes."""
        kept = len(self.text) - (self.end - self.at)
        if not self.duplicate:
            return kept + len("(from {} {} {})".format(*self.seeds(begin), matches))
        return kept + self.bytes_of_pairs(begin + matches) - self.bytes_of_pairs(begin) + matches - 1

    def bytes_of_pairs(self, match: int) -> int:
        """How many bytes the pairs of seeds of all matches before one have, each pair in parentheses."""
        deals, more = divmod(match, len(self.strategies))
        of_deals = 3 * deals + sum(digits_below(seed + deals) - digits_below(seed) for seed in (self.deal, self.seats))
        return len(self.strategies) * of_deals + more * len("({} {})".format(*self.seeds(match)))

    def part(self, begin: int, matches: int) -> bytes:
        """The plan of so many matches from one on, with all else as it stands."""
        if self.duplicate:
            told = " ".join("({} {})".format(*self.seeds(match)) for match in range(begin, begin + matches))
        else:
            told = "(from {} {} {})".format(*self.seeds(begin), matches)
        return self.text[: self.at] + told.encode() + self.text[self.end :]


def digits_below(number: int) -> int:
    """How many digits all numbers below one have: as many each as this one, less one for each below 10, one for each below 100, and so
    on."""
    digits = len(str(number))
    return digits * number - sum(10**power for power in range(1, digits))


def plan_of(name: str, text: bytes, duplicate: bool) -> SeriesPlan:
    """The plan of a series. What else may be wrong with it is left to the program to tell."""
    try:
        (plan,) = forms_of(text)
        seats, matches, turns = plan.behind("plan")
        (told,) = matches.behind("matches")
        deal, seed, count = map(number, told.behind("from"))
        (limit,) = map(number, turns.behind("turns"))
        strategies = [" ".join(text[it.at : it.end].decode("ascii").split()) for it in seats.behind("seats")]
    except ValueError:
        raise Refused(PLAN, f"{name}: {WANTED}") from None
    found = SeriesPlan(text, told.at, told.end, deal, seed, count, limit, strategies, duplicate)
    if not (strategies and limit and count and max(deal, seed) + count - 1 <= SEED):
        raise Refused(PLAN, f"{name}: COUNT and T are to be 1 or more, and the last DEAL and the last SEATS at most {SEED}")
    return found


def size_of(plan: SeriesPlan, wanted: int) -> int:
    """How many matches a piece has: at most so many as are wanted and as a plan may have, and a multiple of the strategies.

    A piece's matches are numbered from 0 on. In match m seat i has strategy i + m, counted round, so a match has the strategies of
    the series exactly where the number of strategies divides the number of the match at which the piece begins.
    """
    players = len(plan.strategies)
    if plan.most() < players:
        raise Refused(
            PLAN,
            f"no piece is both within the limits of a plan and a multiple of {players} matches, one for each strategy in each "
            f"seat: {players} matches of {plan.turns} turns are more than {TURNS} turns in all; take a lower turn limit",
        )
    if wanted < players:
        raise Refused(PLAN, f"a piece has a multiple of {players} matches, one for each strategy in each seat, and not {wanted}")
    return min(wanted, plan.most()) // players * players
