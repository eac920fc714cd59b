"""Files that strangers may name or write: read where they are files, and no further than what may stand in them."""

import errno
import os
import re
import stat

# The most bytes that `play` and `sheet` read, and so those of a sheet or a plan; and that any command reads, as `check` does, and so
# those of a transcript.
SOURCE, LONGEST = 1_048_576, 33_554_432

# Names of ports that the caller opened for this process.
PORT = re.compile(r"/dev/(?:stdin|fd/[0-9]+)|/proc/self/fd/[0-9]+")

KINDS = (
    (stat.S_ISDIR, "it is a folder"),
    (stat.S_ISFIFO, "it is a pipe"),
    (stat.S_ISSOCK, "it is a socket"),
    (stat.S_ISCHR, "it is a device"),
    (stat.S_ISBLK, "it is a device"),
)


class TooLong(Exception):
    """Says that a file has more bytes than it may."""


def contents(name: str, most: int) -> bytes:
    """The bytes of a file, which are to be at most so many."""
    data = front(name, most)
    if len(data) > most:
        raise TooLong(f"it has more than {most} bytes")
    return data


def front(name: str, most: int) -> bytes:
    """The bytes of a file, or of one with more than so many the first of them and one more. Raises an OSError whose text says why
    it can't be read."""
    with os.fdopen(opened(name), "rb") as file:
        return file.read(most + 1)


def opened(name: str) -> int:
    """Opens a file. What is none is refused, and a pipe isn't waited for until somebody writes to it."""
    mode = os.stat(name).st_mode
    refuse_others(name, mode)
    if stat.S_ISSOCK(mode):
        # A socket has no name by which it could be opened once more.
        port = os.dup(0 if name.endswith("stdin") else int(name.rpartition("/")[2]))
    else:
        port = os.open(name, os.O_RDONLY | os.O_NONBLOCK | os.O_NOCTTY)
    try:
        refuse_others(name, os.fstat(port).st_mode)
        os.set_blocking(port, True)
    except OSError:
        os.close(port)
        raise
    return port


def refuse_others(name: str, mode: int) -> None:
    """Raises an OSError where this is no file. A pipe, a socket or a terminal may be a port that the caller opened."""
    why = next((said for is_kind, said in KINDS if is_kind(mode)), None)
    if why and (stat.S_ISDIR(mode) or not PORT.fullmatch(name)):
        raise OSError(errno.EINVAL, why)
