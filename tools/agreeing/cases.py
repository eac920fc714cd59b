"""Cases: a sheet and a plan by chance."""

from dataclasses import dataclass

from agreeing.chance import Chance
from agreeing.forms import in_lines, strewn
from agreeing.games import Games
from agreeing.plans import plan_of
from agreeing.worlds import world_of
from faults.tokens import tokens

# So large a part of the sheets has a slip, and may be refused, and of the plans a quarter of it.
SPOILED = 0.1


@dataclass(frozen=True)
class Case:
    """A sheet and a plan, and the seed of both with the number of the case."""

    seed: int
    number: int
    sheet: bytes
    plan: bytes

    def name(self) -> str:
        return f"{self.seed}-{self.number}"

    def source(self) -> bytes:
        return self.sheet + self.plan


def case_of(seed: int, number: int) -> Case:
    """The case of this number. It hangs on the seed and on the number alone."""
    chance = chance_of(seed, number)
    world = world_of(chance)
    sheet, plan = Games(chance, world).sheet(), plan_of(chance, world.players)
    if chance.holds(0.3):
        texts = strewn(sheet, chance), strewn(plan, chance, signs=False)
    else:
        texts = in_lines(sheet), in_lines(plan)
    sheet_bytes, plan_bytes = (f"{text}\n".encode("latin-1") for text in texts)
    if chance.holds(SPOILED):
        sheet_bytes = with_a_slip(sheet_bytes, chance)
    elif chance.holds(SPOILED / 4):
        plan_bytes = with_a_slip(plan_bytes, chance)
    return Case(seed, number, sheet_bytes, plan_bytes)


def with_a_slip(text: bytes, chance: Chance) -> bytes:
    """A text in which one token is left out, written twice, or written as another one is. Mostly it is written as one like it."""
    every = list(tokens(text))
    one, other = chance.choice(every), chance.choice(every)
    written = chance.choice(("", f"{one.text} {one.text}", other.text))
    if chance.holds(0.75):
        kind = chance.choice(sorted({likeness(token.text) for token in every} - {"("}))
        alike = [token for token in every if likeness(token.text) == kind]
        one, written = chance.choice(alike), chance.choice(alike).text
    return b"%s %s %s" % (text[: one.at], written.encode("latin-1"), text[one.at + len(one.text) :])


def likeness(text: str) -> str:
    """A variable, a number, a name or a sign, or a word in lower case."""
    first = text[0]
    return "'" if first == "'" else "number" if first.isdigit() else "word" if first.islower() else "(" if first in "()" else "name"


def chance_of(seed: int, number: int, what: str = "case") -> Chance:
    return Chance(f"{seed} {number} {what}")
