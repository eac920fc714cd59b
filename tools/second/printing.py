"""The canonical text of a sheet."""

from second.sources import Form

ORDER = ("players", "teams", "deck", "points")

# By the head of a list, which of its parts are numbers where they are atoms and no variables. Behind a sign all parts are.
NUMBERS = {"set": (2,), "inc": (2,), "dec": (2,), "repeat": (1,), "scoring": (2,)}
SIGNS = ("+", "-", "*", "=", "!=", "<", "<=", ">", ">=")
KINDS = ("sto", "vloc", "iloc", "hloc", "mem")

# By the head of a list, which parts of it are names or words.
NAMES = {"is": (2, 3), "attr": (2,), "points": (2, 3), "sum": (2, 3), "max": (2, 3), "min": (2, 3), "partition": (2,)}


def printed(sheet: Form) -> str:
    """A sheet as `sheet` writes it, with LF behind it."""
    _, (_, *lines), *items = sheet
    setup = " ".join(line_text(line) for kind in ORDER for line in lines if line[1] == kind)
    return f"(game (setup {setup}) {' '.join(map(text_of, items))})\n"


def joined(*parts: str) -> str:
    return f"({' '.join(parts)})"


def as_written(form: Form) -> str:
    return form if isinstance(form, str) else joined(*map(as_written, form))


def number_text(form: Form) -> str:
    """A number in its one spelling."""
    return str(int(form))


def line_text(line: Form) -> str:
    """A line of the setup."""
    if line[1] == "players":
        return joined("create", "players", number_text(line[2]))
    if line[1] == "teams":
        return joined("create", "teams", *(joined(*map(number_text, team)) for team in line[2:]))
    if line[1] == "deck":
        return as_written(line)
    entries = (joined(attribute, as_written(values), number_text(worth)) for attribute, values, worth in line[3])
    return joined("put", "points", line[2], joined(*entries))


def text_of(form: Form) -> str:
    """An item, an effect or an expression."""
    if isinstance(form, str):
        return form
    head = form[0]
    if len(form) == 3 and form[1] in KINDS:
        return as_written(form)
    if head in SIGNS:
        return joined(head, *map(side_text, form[1:]))
    numbers, names = (its.get(head, ()) if isinstance(head, str) else () for its in (NUMBERS, NAMES))

    def part_text(at: int, part: Form) -> str:
        return side_text(part) if at in numbers else as_written(part) if at in names else text_of(part)

    return joined(*(part_text(at, part) for at, part in enumerate(form)))


def side_text(form: Form) -> str:
    """A part that is a number where it is an atom and no variable."""
    return number_text(form) if isinstance(form, str) and not form.startswith("'") else text_of(form)
