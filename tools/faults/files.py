"""The files that words name, put together as one text on standard input."""

from __future__ import annotations

import os

from faults.sources import File
from inputs import LONGEST, front, refuse_others

# What the files behind a command hold, in their order.
TEXTS = {
    "play": ("sheet", "plan"),
    "check": ("sheet", "plan", "transcript"),
    "sheet": ("sheet",),
    "migrate": ("sheet", "plan", "transcript"),
    "watch": ("sheet", "plan"),
    "measure": ("sheet", "plan", "transcript"),
    "rival": ("sheet", "plan"),
}

# The options behind which a number stands.
OPTIONS = ("--workers", "--cache", "--format")

USAGE_FAULT, READ_FAULT = 2, 6


class FilesRefused(Exception):
    """Says why files aren't put together, and with which status that ends."""

    def __init__(self, why: str, status: int) -> None:
        super().__init__(why)
        self.status = status


def with_files(words: list[str]) -> tuple[list[str], tuple[File, ...]]:
    """Makes the text of the files that these words name standard input. Returns the words that the program is handed, and where in
    that text each file begins. Where no file is named, standard input is left alone."""
    kept, names = looked_at(words)
    return kept, put_together(names) if names else ()


def looked_at(words: list[str]) -> tuple[list[str], list[str]]:
    """The words that the program is handed, and the files that stand between them, if these can be read and aren't too many."""
    if words[:1] == [] or words[0] not in TEXTS:
        return words, []
    behind = list(zip(words, words[1:]))
    names = [word for before, word in behind if is_file(before, word)]
    texts = TEXTS[words[0]]
    if len(names) > len(texts):
        taken = " and ".join(f"a {text}" for text in texts)
        raise FilesRefused(f"{names[len(texts)]} is a file too many, since `{words[0]}` reads {taken}", USAGE_FAULT)
    for name in names:
        if why := why_unreadable(name):
            raise FilesRefused(f"{name} can't be read: {why}", READ_FAULT)
    return words[:1] + [word for before, word in behind if not is_file(before, word)], names


def is_file(before: str, word: str) -> bool:
    """Whether a word behind a command names a file: it is neither an option nor a number."""
    return word[:1] not in ("", "-") and not word.isdecimal() and before not in OPTIONS


def why_unreadable(name: str) -> str | None:
    """Why a file can't be read, as far as that shows before it is."""
    try:
        refuse_others(name, os.stat(name).st_mode)
    except FileNotFoundError:
        return "there is no such file"
    except OSError as error:
        return error.strerror
    return None if os.access(name, os.R_OK) else "that isn't allowed"


def put_together(names: list[str]) -> tuple[File, ...]:
    """Makes the text of these files standard input, and returns where each begins. Where a file doesn't end with a line feed, one is
    put behind it, so that a comment in its last line ends there."""
    text, files = b"", []
    for name in names:
        if text and not text.endswith(b"\n"):
            text += b"\n"
        files.append(File(name, len(text)))
        text += read(name)
    hand_over(text)
    return tuple(files)


def read(name: str) -> bytes:
    """The bytes of a file. Of one that is too long for every command one byte more is taken, so that the program refuses it."""
    try:
        return front(name, LONGEST)
    except OSError as error:
        raise FilesRefused(f"{name} can't be read: {error.strerror}", READ_FAULT) from error


def hand_over(text: bytes) -> None:
    """Makes a file in memory that holds this text standard input."""
    kept = os.memfd_create("source")
    with open(kept, "wb", closefd=False) as file:
        file.write(text)
    os.lseek(kept, 0, os.SEEK_SET)
    os.dup2(kept, 0)
    os.close(kept)
