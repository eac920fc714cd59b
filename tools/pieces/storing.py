"""Writes files and folders so that they are there as a whole or not at all, and removes what is left where that was cut off."""

import fcntl
import json
import os
import re
import shutil
import stat
from collections.abc import Callable, Iterator
from contextlib import contextmanager, suppress
from dataclasses import asdict
from pathlib import Path
from typing import Any

HOST = os.uname().nodename

# What stands for the folder of a series, or for a file in it, until that is complete: with this machine and a process in its name.
PART = re.compile(rf"\.(?:series|series\.json|[0-9]+\.(?:transcript|json))\.{re.escape(HOST)}\.[0-9]+")


def part_of(place: Path, name: str) -> Path:
    return place.with_name(f".{name}.{HOST}.{os.getpid()}")


def write_whole(file: Path, data: bytes) -> None:
    """Writes a file. What stands in its place is replaced: where that is a link, nothing is written to where it leads."""
    part = part_of(file, file.name)

    def make() -> int:
        part.unlink(missing_ok=True)
        return os.open(part, os.O_RDWR | os.O_CREAT | os.O_EXCL, 0o666)

    try:
        with os.fdopen(held(part, make), "wb") as out:
            out.write(data)
            out.flush()
            os.fsync(out.fileno())
            part.replace(file)
    except BaseException:
        part.unlink(missing_ok=True)
        raise


def write_object(file: Path, kept: Any) -> None:
    write_whole(file, json.dumps(asdict(kept), indent=1).encode() + b"\n")


@contextmanager
def whole_folder(folder: Path) -> Iterator[Path]:
    """A folder that is to be written in the block, and that gets its own name behind it."""
    part = part_of(folder, "series")

    def make() -> int:
        shutil.rmtree(part, ignore_errors=True)
        part.mkdir(parents=True)
        return os.open(part, os.O_RDONLY)

    port = held(part, make)
    try:
        yield part
        part.rename(folder)
    except BaseException:
        shutil.rmtree(part, ignore_errors=True)
        raise
    finally:
        os.close(port)


def held(part: Path, make: Callable[[], int]) -> int:
    """Makes and opens a part, and takes a lock of it for as long as it is open, by which others see that it isn't left. Between the
    two somebody may have removed it."""
    while True:
        port = make()
        # Some file systems have no locks. There nothing is removed either.
        with suppress(OSError):
            fcntl.flock(port, fcntl.LOCK_EX)
        if part.exists():
            return port
        os.close(port)


def remove_left(folder: Path) -> None:
    """Removes the parts that processes of this machine left in a folder when they were killed."""
    for part in folder.iterdir():
        if PART.fullmatch(part.name):
            with suppress(OSError):
                remove_unheld(part)


def remove_unheld(part: Path) -> None:
    """Removes a part, or raises an OSError where a process holds it."""
    is_folder = stat.S_ISDIR(part.lstat().st_mode)
    port = os.open(part, (os.O_RDONLY if is_folder else os.O_RDWR) | os.O_NOFOLLOW | os.O_NONBLOCK)
    try:
        fcntl.flock(port, fcntl.LOCK_EX | fcntl.LOCK_NB)
        shutil.rmtree(part) if is_folder else part.unlink()
    finally:
        os.close(port)
