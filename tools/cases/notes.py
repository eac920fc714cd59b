"""What `play` and `bench` note of the looks of their decisions."""

import re

# Where no decision looks for what came of playouts.
NO_LOOKS = "cache looks 0 hits 0\n"


def any_hits(note: str) -> str:
    """The note with `*` for its hits."""
    return f"{note.rpartition(' ')[0]} *\n"


def is_note(expected: str, found: str) -> bool:
    """Whether a note is the one that is expected. With `*` hits it may tell any number that can be: less than there are looks, or 0
    where there are none."""
    if expected != any_hits(expected):
        return found == expected
    told = re.fullmatch(r"cache looks (0|[1-9]\d*) hits (0|[1-9]\d*)\n", found)
    return told is not None and any_hits(found) == expected and int(told[2]) < max(int(told[1]), 1)
