"""Plays the pieces of a series by `make`. The folder may come from others, so that a Makefile in it isn't read."""

import os
import signal
from pathlib import Path

from pieces.folder import Series
from pieces.program import NOT_BUILT, ROOT
from tables.ending import Refused

MAKEFILE = Path(__file__).resolve().with_name("Makefile")


def make(folder: Path, words: list[str]) -> None:
    """Becomes `make` in the folder of a series, with these words too."""
    last = len(Series(folder).pieces) - 1
    told = {**os.environ, "SERIES": str(ROOT / "tools/series"), "LAST_PIECE": str(last)}
    # Python ignores this signal, and so would what it becomes.
    signal.signal(signal.SIGPIPE, signal.SIG_DFL)
    try:
        os.execvpe("make", ["make", "-r", f"--file={MAKEFILE}", f"--directory={folder}", *words], told)
    except OSError as error:
        raise Refused(NOT_BUILT, f"make: {error.strerror}") from None
