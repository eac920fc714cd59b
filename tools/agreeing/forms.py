"""Forms of sheets and plans, and the texts that they have."""

from agreeing.chance import Chance

# An atom, a number, or a list. A value that looks like a number is an atom, since its spelling counts.
Form = str | int | tuple["Form", ...]

# White space and comments. A comment may hold any byte.
GAPS = ((20, " "), (5, "\n"), (2, "  "), (2, "\t"), (2, ","), (1, " ,\r\n"), (1, ";\n"), (1, "; (a 'remark\n"), (0.5, ";;\t\x7f\xe9\n\n"))
ZEROS = ((12, ""), (1, "0"), (1, "00"))


def plain(form: Form) -> str:
    """A form with one space between its parts, and none elsewhere."""
    return str(form) if isinstance(form, (str, int)) else f"({' '.join(map(plain, form))})"


def in_lines(form: Form) -> str:
    """The text of a list with a line for each part that is a list."""
    assert isinstance(form, tuple)
    return "(" + "".join(f"\n{plain(part)}" if isinstance(part, tuple) else plain(part) for part in form) + ")"


def strewn(form: Form, chance: Chance, signs: bool = True) -> str:
    """A text of a form with white space and comments of all kinds, and numbers with zeros before them, if allowed also `-0`."""
    text = ""
    for token in tokens(form, chance, signs):
        is_apart = not text or text[-1] in "()" or token in "()"
        text += ("" if is_apart and chance.holds(0.7) else chance.weighted(GAPS)) + token
    return text


def tokens(form: Form, chance: Chance, signs: bool) -> list[str]:
    """The parentheses and atoms of a form."""
    if isinstance(form, str):
        return [form]
    if isinstance(form, int):
        return [spelled(form, chance, signs)]
    return ["(", *(token for part in form for token in tokens(part, chance, signs)), ")"]


def spelled(number: int, chance: Chance, signs: bool) -> str:
    """A spelling of a number, of eighteen digits at most."""
    sign = "-" if number < 0 or signs and number == 0 and chance.holds(0.1) else ""
    zeros = chance.weighted(ZEROS) if abs(number) < 10**15 else ""
    return f"{sign}{zeros}{abs(number)}"
