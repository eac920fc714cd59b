"""What transcripts tell, and transcripts that are spoiled."""

import re
from collections.abc import Callable

from agreeing.chance import Chance

NAMED = b"house 2\n"
MOST_MARKS = 4

# The marks of a choice stand behind these words.
CHOICE_WORDS = 5

# A line that is spoiled, and the reason for which it is then illegal.
Spoiled = tuple[list[int], str]


def unnamed(text: bytes) -> bytes:
    """A text of format 2 in format 1."""
    lines = (b" ".join(line.split(b" ")[:CHOICE_WORDS]) if line.startswith(b"choose ") else line for line in text.splitlines())
    kept = [line + b"\n" for line in lines if not line.startswith(b"face ")]
    return b"house 1\n" + b"".join(kept[1:])


def count(text: bytes, head: bytes) -> int:
    """How many lines begin with this word."""
    return sum(line.startswith(head + b" ") for line in text.splitlines())


def looks_of(text: bytes, rolls_out: list[bool]) -> int:
    """How many decisions are of strategies that roll out. In match m seat i has the strategy i + m, modulo their number."""
    looks = match = 0
    for line in text.splitlines():
        head, *numbers = line.split()
        if head == b"match":
            match = int(numbers[0])
        elif head == b"choose":
            looks += rolls_out[(int(numbers[0]) + match) % len(rolls_out)]
    return looks


def spoil_choice(numbers: list[int], chance: Chance) -> Spoiled | None:
    """Another seat, an item that isn't in the menu, or another size of the menu."""
    seat, site, item, size = numbers
    which = chance.choice(("Seat", "Menu", "Item"))
    if which == "Seat":
        return [(seat + chance.randint(1, 7)) % 8, site, item, size], which
    if size == 256:
        return None
    return ([seat, site, item, size + 1] if which == "Menu" else [seat, site, size, size]), which


def spoil_last(why: str, most: int) -> Callable[[list[int], Chance], Spoiled | None]:
    """Makes the last number larger by one, up to this."""
    return lambda numbers, _: ([*numbers[:-1], numbers[-1] + 1], why) if numbers[-1] < most else None


SPOILERS: dict[bytes, Callable[[list[int], Chance], Spoiled | None]] = {
    b"match": spoil_last("Match", 10**18 - 1),
    b"choose": spoil_choice,
    b"shuffles": spoil_last("Shuffle", 2**32 - 1),
    b"end": spoil_last("End", 100_000),
    b"score": spoil_last("Score", 14),
    b"standing": spoil_last("Standing", 57_344),
}


def spoiled(text: bytes, chance: Chance) -> tuple[bytes, bytes] | None:
    """A transcript with one line spoiled, and what the judge is to note of it."""
    lines = text.splitlines(keepends=True)
    heads = [line.split()[0] for line in lines]
    head = chance.choice([it for it in SPOILERS if it in heads])
    place = chance.choice([index for index, it in enumerate(heads) if it == head])
    words = lines[place].split()
    told = SPOILERS[head]([int(word) for word in words if is_number(word)], chance)
    if not told:
        return None
    lines[place] = with_numbers(words, told[0])
    return b"".join(lines), b"illegal %d %s\n" % (place + 1, told[1].encode())


def is_number(word: bytes) -> bool:
    return word.lstrip(b"-").isdigit()


def with_numbers(words: list[bytes], numbers: list[int]) -> bytes:
    """The line of these words with other numbers."""
    left = iter(numbers)
    return b" ".join(b"%d" % next(left) if is_number(word) else word for word in words) + b"\n"


# Other marks than these, by chance; none where there are none such.
OtherMarks = Callable[[list[bytes], Chance], list[bytes] | None]


def one_less(marks: list[bytes], chance: Chance) -> list[bytes] | None:
    return without(marks, chance.randrange(len(marks))) if marks else None


def one_more(marks: list[bytes], chance: Chance) -> list[bytes] | None:
    return [*marks, b"%c%d" % (chance.choice(b"pcg"), chance.randint(0, 7))] if len(marks) < MOST_MARKS else None


def turned(marks: list[bytes], _: Chance) -> list[bytes] | None:
    return marks[::-1]


def other_letter(marks: list[bytes], chance: Chance) -> list[bytes] | None:
    return with_one(marks, chance, lambda mark: b"%c%d" % (chance.choice(b"pcg"), int(mark[1:]) % 8))


def other_number(marks: list[bytes], chance: Chance) -> list[bytes] | None:
    return with_one(marks, chance, lambda mark: mark[:1] + b"%d" % chance.randint(0, 7 if mark[:1] == b"p" else 511))


def too_many(marks: list[bytes], chance: Chance) -> list[bytes] | None:
    return [*marks, *[chance.choice((b"p0", b"c0", b"g0"))] * (MOST_MARKS + 1 - len(marks))]


def misspelled(marks: list[bytes], chance: Chance) -> list[bytes] | None:
    """A mark that no line has: of another letter, without a number, with a zero before it, or with one that is out of range."""
    mark = chance.choice((b"p8", b"c512", b"g512", b"c00", b"p01", b"c-1", b"c", b"k0", b"C0", b"0", b"", b"c0,", b"p7p", b"g1 "))
    return with_one(marks, chance, lambda _: mark) or [mark]


def with_one(marks: list[bytes], chance: Chance, other: Callable[[bytes], bytes]) -> list[bytes] | None:
    """The marks with one of them written otherwise."""
    at = chance.randrange(len(marks)) if marks else 0
    return [*marks[:at], other(marks[at]), *marks[at + 1 :]] if marks else None


def without(lines: list[bytes], at: int) -> list[bytes]:
    return lines[:at] + lines[at + 1 :]


# What marks are made of that aren't the item's, and of those that are outside the grammar.
OTHERS: tuple[OtherMarks, ...] = (one_less, one_more, turned, other_letter, other_number)
OUTSIDE: tuple[OtherMarks, ...] = (too_many, misspelled)


def spoiled_marks(text: bytes, chance: Chance) -> tuple[bytes, bytes] | None:
    """A transcript of format 2 with the marks of one choice spoiled, and what is to be noted of it."""
    lines = text.splitlines(keepends=True)
    choices = [index for index, line in enumerate(lines) if line.startswith(b"choose ")]
    if not choices:
        return None
    place = chance.choice(choices)
    words = lines[place].rstrip(b"\n").split(b" ")
    before, marks = words[:CHOICE_WORDS], words[CHOICE_WORDS:]
    spoil = chance.choice(OTHERS + OUTSIDE)
    others = spoil(marks, chance)
    if others is None or others == marks:
        return None
    lines[place] = b" ".join([*before, *others]) + b"\n"
    told = b"text %d\n" % (place + 1) if spoil in OUTSIDE else b"illegal %d Named\n" % (place + 1)
    return b"".join(lines), told


def spoiled_legend(text: bytes, chance: Chance) -> tuple[bytes, bytes]:
    """A transcript of format 2 with its legend spoiled, and what is to be noted of it."""
    lines = text.splitlines(keepends=True)
    faces = [index for index, line in enumerate(lines) if line.startswith(b"face ")]
    place = chance.choice(faces)
    how = chance.choice(("missing", "twice", "other", "plain"))
    if how == "missing":
        return b"".join(without(lines, place)), b"text %d\n" % (place + 1)
    if how == "twice":
        return b"".join(lines[: place + 1] + lines[place:]), b"text %d\n" % (place + 2)
    if how == "other":
        return b"".join([*lines[:place], lines[place][:-1] + b"0\n", *lines[place + 1 :]]), b"text %d\n" % (place + 1)
    # Behind the first line of format 1 no legend can stand.
    return b"house 1\n" + text.removeprefix(NAMED), b"text 2\n"


def mangled(text: bytes, chance: Chance) -> bytes:
    """A transcript that is changed in one place or in several, by chance."""
    lines = text.splitlines(keepends=True)
    for _ in range(chance.choice((1, 1, 2, 3))):
        at = chance.randrange(len(lines))
        how = chance.choice(("missing", "twice", "other", "number", "number", "number", "mark", "mark", "mark", "first", "cut"))
        if how == "missing" and len(lines) > 1:
            del lines[at]
        elif how == "twice":
            lines.insert(chance.randint(0, len(lines)), lines[at])
        elif how == "other":
            lines[at] = chance.choice(lines)
        elif how == "number":
            lines[at] = with_other_number(lines[at], chance)
        elif how == "mark" and lines[at].startswith(b"choose "):
            lines[at] = chance.choice((b" ".join(lines[at].split(b" ")[:-1]) + b"\n", lines[at][:-1] + b" c%d\n" % chance.randint(0, 9)))
        elif how == "first":
            lines[0] = chance.choice((b"house 1\n", NAMED, b"house 3\n", b"house 2 \n", b"house 2"))
        elif how == "cut":
            lines[at] = lines[at][: chance.randint(0, len(lines[at]))]
    return b"".join(lines)


def with_other_number(line: bytes, chance: Chance) -> bytes:
    """A line with one of its numbers, if it has some, one more or one less."""
    numbers = list(re.finditer(rb"\d+", line))
    if not numbers:
        return line
    told = chance.choice(numbers)
    return line[: told.start()] + b"%d" % max(0, int(told[0]) + chance.choice((-1, 1))) + line[told.end() :]
