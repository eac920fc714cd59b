"""The first round of faults: parts that are no form of their place, and numbers out of range."""

import re
from collections.abc import Callable

from second.parts import Part
from second.worlds import MOST

# The lists that may stand in a place. Words in capitals are places, the others stand for themselves; the last place may be
# repeated. A place alone stands for the lists of that place.
FORMS = {
    "SETUP": ("setup LINE+",),
    "LINE": ("create players COUNT", "create teams TEAM+", "create deck LOC DECK", "put points NAME ENTRIES"),
    "DECK": ("deck GROUP+",),
    "ITEM": ("do EFFECT+", "stage player END ITEM+", "stage team END ITEM+", "choice ALT+"),
    "END": ("end BOOL",),
    "SCORING": ("scoring max INT", "scoring min INT"),
    "ALT": ("do EFFECT+", "if BOOL EFFECT+", "any DOMAIN VARIABLE ALT"),
    "DOMAIN": ("COLL", "partition COLL NAME"),
    "EFFECT": (
        "move CARD SPOT", "move all COLL SPOT", "remember CARD SPOT", "forget CARD", "shuffle LOC", "peek COLL OWNER",
        "set NUM INT", "inc NUM INT", "dec NUM INT", "if BOOL EFFECT+", "repeat INT EFFECT+", "all MEMBERS VARIABLE EFFECT+",
        "cycle next OWNER", "cycle reverse",
    ),
    "SPOT": ("top LOC", "bottom LOC"),
    "LOC": ("HOLDER KIND NAME",),
    "NUM": ("HOLDER sto NAME",),
    "HOLDER": ("OWNER",),
    "OWNER": ("PLAYER", "current team", "team of PLAYER"),
    "PLAYER": ("current player",),
    "CARD": ("top COLL", "bottom COLL", "max COLL using NAME", "min COLL using NAME"),
    "COLL": ("LOC", "filter COLL VARIABLE BOOL", "union COLL COLL+", "known LOC"),
    "MEMBERS": ("COLL",),
    "INT": ("NUM", "size COLL", "sum COLL using NAME", "points CARD using NAME", "+ INT INT", "- INT INT", "* INT INT"),
    "BOOL": (
        "= SIDE SIDE", "!= SIDE SIDE", "< INT INT", "<= INT INT", "> INT INT", ">= INT INT", "is CARD NAME NAME", "and BOOL+",
        "or BOOL+", "not BOOL", "all MEMBERS VARIABLE BOOL", "any MEMBERS VARIABLE BOOL",
    ),
    "SIDE": ("INT", "CARD", "OWNER", "attr CARD NAME"),
}  # fmt: skip

# The atoms that a place takes beside its lists, if it takes some and isn't a number's place.
KINDS = ("vloc", "iloc", "hloc", "mem")
ATOMS: dict[str, Callable[[Part], bool]] = {
    "NAME": lambda part: part.is_name,
    "VARIABLE": lambda part: part.is_variable,
    "KIND": lambda part: part.text in KINDS,
    "HOLDER": lambda part: part.is_variable or part.text == "game",
    "DOMAIN": lambda part: part.is_variable or part.text == "player",
    "MEMBERS": lambda part: part.is_variable or part.text == "player",
    **dict.fromkeys(("OWNER", "PLAYER", "CARD", "COLL", "SIDE"), lambda part: part.is_variable),
}

# The ranges of numbers, by their place.
RANGES = {"COUNT": (1, 8), "MEMBER": (0, 7), "WORTH": (-MOST, MOST), "INT": (-MOST, MOST), "SIDE": (-MOST, MOST)}
NUMBER = re.compile("-?[0-9]{1,18}")

SHAPE, NUMBER_FAULT = "Shape", "Number"

# The places of the parts of a list, without the sign of the repeated one.
Form = list[str]


def forms_of(place: str) -> list[Form]:
    """The lists that may stand in a place."""
    forms: list[Form] = []
    for form in FORMS.get(place, ()):
        forms += forms_of(form) if form in FORMS else [form.split(" ")]
    return forms


def is_fixed(word: str) -> bool:
    return not re.fullmatch(r"[A-Z]+\+?", word)


def has_room(form: Form, count: int) -> bool:
    """Whether a list of this form may have so many parts."""
    return count >= len(form) if form[-1].endswith("+") else count == len(form)


def begun_with(place: str, part: Part) -> list[Form]:
    """The forms of a place that a list may be by what it begins with: a holder, or a fixed word."""
    first = part.parts[0] if part.parts else part
    is_holder = part.parts and (first.is_list or first.is_variable or first.text == "game")
    return [form for form in forms_of(place) if form[0] == ("HOLDER" if is_holder else part.head)]


def second_word(part: Part) -> str:
    return part.parts[1].text if len(part.parts) > 1 else ""


class Shapes:
    """Collects the faults of the first round. What stands inside a faulty part isn't looked at."""

    def __init__(self, sheet: Part) -> None:
        self.faults: list[tuple[int, str]] = []
        if sheet.head != "game" or len(sheet.parts) < 4:
            self.shape(sheet)
            return
        _, setup, *items, scoring = sheet.parts
        self.check("SETUP", setup)
        starts = [[part.text for part in line.parts[:2]] for line in setup.parts[1:]]
        if ["create", "players"] not in starts:
            self.shape(setup)
        for item in items:
            self.check("ITEM", item)
        self.check("SCORING", scoring)

    def shape(self, part: Part) -> None:
        self.faults.append((part.at, SHAPE))

    def check(self, place: str, part: Part) -> None:
        """Looks at a part in its place, which may be a fixed word."""
        alike = {"TEAM": self.team, "ENTRIES": self.entries, "GROUP": self.group}
        if place in alike:
            alike[place](part)
        elif is_fixed(place):
            self.is_to_be(part.text == place, part)
        elif not part.is_list:
            self.atom(place, part)
        elif form := self.form_of(place, part):
            places = form[:-1] + [form[-1].rstrip("+")] * (len(part.parts) - len(form) + 1)
            for inner, it in zip(places, part.parts):
                self.check(inner, it)

    def is_to_be(self, holds: bool, part: Part) -> None:
        if not holds:
            self.shape(part)

    def atom(self, place: str, part: Part) -> None:
        """An atom in a place. Where a number may stand, each other atom is a faulty number."""
        if place in ATOMS and ATOMS[place](part):
            return
        if place not in RANGES:
            self.shape(part)
            return
        least, most = RANGES[place]
        if not NUMBER.fullmatch(part.text) or not least <= int(part.text) <= most:
            self.faults.append((part.at, NUMBER_FAULT))

    def form_of(self, place: str, part: Part) -> Form | None:
        """The form that a list has in its place; nothing where it is faulty, or the part that tells one form from another."""
        begun = begun_with(place, part)
        if begun and is_fixed(begun[0][0]):
            told = [form for form in begun if is_fixed(form[1]) and form[1] == second_word(part)]
            others = [form for form in begun if not is_fixed(form[1])]
            if not told and not others:
                is_long = any(has_room(form, len(part.parts)) for form in begun)
                self.shape(part.parts[1] if is_long else part)
                return None
            begun = told or others
        if not begun or not has_room(begun[0], len(part.parts)):
            self.shape(part)
            return None
        return begun[0]

    # Lists of parts that are all alike

    def each(self, part: Part, look: Callable[[Part], None]) -> None:
        self.is_to_be(bool(part.parts), part)
        for it in part.parts:
            look(it)

    def team(self, part: Part) -> None:
        self.each(part, lambda it: self.check("MEMBER", it))

    def entries(self, part: Part) -> None:
        self.each(part, self.entry)

    def entry(self, part: Part) -> None:
        if len(part.parts) != 3:
            self.shape(part)
            return
        self.check("NAME", part.parts[0])
        self.each(part.parts[1], lambda it: self.check("NAME", it))
        self.check("WORTH", part.parts[2])

    def group(self, part: Part) -> None:
        if len(part.parts) != 2:
            self.shape(part)
            return
        self.check("NAME", part.parts[0])
        self.each(part.parts[1], self.branch)

    def branch(self, part: Part) -> None:
        if part.is_list and len(part.parts) < 2:
            self.shape(part)
            return
        value, *groups = part.parts or (part,)
        self.check("NAME", value)
        for it in groups:
            self.group(it)
