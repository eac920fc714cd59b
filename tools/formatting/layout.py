"""Lists over lines, as Lisp is written: a list stands in one line where it fits and is short, and stays over lines where it is written
so; comments stay where they are."""

from __future__ import annotations

from faults.mentions import KINDS
from formatting.reading import Part
from linting.trees import Node

# How wide a line of lists is at most, where it can be broken.
WIDTH = 110

# How many parts behind these heads stay in their line where the list is broken. Each further one has a line of its own, two columns
# further right than the list, as Vim has it by the option `lispwords`.
BODIES = {
    "game": 0, "setup": 0, "create": 2, "put": 2, "deck": 0, "do": 0, "stage": 1, "end": 1, "choice": 0, "any": 2, "all": 2, "if": 1,
    "repeat": 1, "move": 1, "scoring": 2, "plan": 0,
}  # fmt: skip

# Those that are never in one line, and those whose effects are only where there is one, which is no such list itself.
OPEN = ("game", "setup", "stage", "choice")
EFFECTS = {"do": 1, "if": 2, "any": 3, "all": 3, "repeat": 2}

# Where such a list is none of effects.
OTHERS = ("BOOL", "CARD", "SPOT", "GROUP", "BRANCH", "ENTRY", "(BRANCH+)", "(VALUE+)")


class Layout:
    """The lines of a text, with the places of its lists in the grammar by where they begin."""

    def __init__(self, places: dict[int, Node]) -> None:
        self.places = places
        self.lines: list[str] = [""]

    @property
    def column(self) -> int:
        return len(self.lines[-1])

    def write(self, text: str) -> None:
        self.lines[-1] += text

    def feed(self, column: int) -> None:
        self.lines.append(" " * column)

    def comments(self, texts: list[str], column: int) -> None:
        """Comments on lines of their own, and empty lines, from the line that has begun on, and a line behind them."""
        for text in texts:
            self.write(text)
            self.feed(column)

    def has_effects(self, part: Part) -> bool:
        """Whether effects, or an alternative, stand in a list."""
        node = self.places.get(part.at)
        return head_of(part) in EFFECTS and (node is None or node.place not in OTHERS)

    def is_short(self, part: Part) -> bool:
        """Whether a list may stand in one line."""
        head = head_of(part)
        if head in OPEN:
            return False
        if not self.has_effects(part):
            return all(self.is_short(it) for it in part.parts if it.is_list)
        effects = part.parts[EFFECTS[head] :]
        return len(effects) < 2 and not any(self.has_effects(it) for it in effects)

    def fits(self, part: Part, closing: int) -> bool:
        return self.column + len(part.flat) + closing <= WIDTH

    def put(self, part: Part, closing: int) -> None:
        """Writes a part where the line stands; so many `)` are to follow."""
        if not part.is_list:
            self.write(part.text)
        elif part.is_open or not (self.is_short(part) and self.fits(part, closing)):
            self.put_over_lines(part, closing)
        else:
            self.write(part.flat)
        if part.behind:
            self.write(f" {part.behind}")

    def put_over_lines(self, part: Part, closing: int) -> None:
        begin, parts = self.column, part.parts
        self.write("(")
        inside = begin + 1
        is_written_so = any(it.begins_line for it in parts[1:])
        for number, it in enumerate(parts):
            is_last = number == len(parts) - 1 and not part.last
            behind = closing + 1 if is_last else 0
            if number == 1:
                inside = self.inside(part, begin, self.begins(part, 1, is_written_so, behind))
            if self.begins(part, number, is_written_so, behind):
                is_apart = number > 1 and head_of(part) == "game" and not is_written_so
                self.lines += [""] if is_apart else []
                self.feed(inside)
                self.comments(it.before, inside)
            elif number:
                self.write(" ")
            self.put(it, behind)
        if part.last or (parts and parts[-1].behind):
            self.feed(inside)
            self.comments(part.last, inside)
        self.write(")")

    def inside(self, part: Part, begin: int, begins_line: bool) -> int:
        """The column of the lines in a list: below the part behind its head, or where the head begins a body, or stands alone, two
        columns further right than the list; and in a list of lists below the first."""
        if part.parts[0].is_list:
            return begin + 1
        return begin + 2 if head_of(part) or begins_line else self.column + 1

    def begins(self, part: Part, number: int, is_written_so: bool, closing: int) -> bool:
        """Whether a part begins a line in a list over lines."""
        it, head = part.parts[number], head_of(part)
        if not number:
            return bool(it.before)
        if it.before or part.parts[number - 1].behind or it.begins_line:
            return True
        if head and (head != "deck" or not is_written_so):
            return number > BODIES[head]
        if number == 1 and not part.parts[0].is_list:
            return False
        if is_written_so or not it.is_list or is_row(part):
            return not self.fits_behind(it, closing)
        return True

    def fits_behind(self, part: Part, closing: int) -> bool:
        """Whether a part fits in one line behind the one before it."""
        is_whole = not part.is_open and (not part.is_list or self.is_short(part))
        return is_whole and self.column + 1 + len(part.flat) + closing <= WIDTH


def head_of(part: Part) -> str:
    """The head by which a list is laid out; nothing where it is laid out as others are, as a location of the game is."""
    words = [it.text for it in part.parts[:2]]
    return words[0] if words and words[0] in BODIES and words[1:] not in ([kind] for kind in KINDS) else ""


def is_row(part: Part) -> bool:
    """Whether a list is one of values or of entries, of which several stand in a line."""
    return part.parts[0].is_list or not any(it.is_list for it in part.parts)


def laid_out(text: Part, places: dict[int, Node]) -> str:
    """The text of lists, of which each begins a line."""
    layout = Layout(places)
    for number, part in enumerate(text.parts):
        if number:
            layout.feed(0)
        layout.comments(part.before, 0)
        layout.put(part, 0)
    layout.lines += text.last
    return "".join(f"{line.rstrip(' ')}\n" for line in layout.lines)
