"""Proves and builds the program by the kit's command `rt run`, and tells meanwhile how far that is."""

from __future__ import annotations

import shutil
import signal
import subprocess
import sys
import tempfile
import time
from dataclasses import dataclass
from pathlib import Path

from attended import attended, tied
from checkout import ROOT, is_built
from crates import listed
from sampling import PROOF, read_lines
from trying import NO_KIT

PROGRAM = "rc_main"
FOLDERS = ("src", "specs", "proofs")
NOT_BUILT = 127

# How often it is looked for what is done, and how many seconds lie between two lines where no terminal is.
LOOK, BETWEEN = 1, 10


@dataclass(frozen=True)
class Way:
    """What is to be proved: the program's crate and those that it stands on, with those below each; when the newest file was changed
    that a crate stands on; and how many seconds of one processor its proof takes, where that is known."""

    root: Path
    below: dict[str, list[str]]
    newest: dict[str, float]
    seconds: dict[str, int]

    def done(self, since: float) -> set[str]:
        """The crates whose library is built of the files as they stand. The kit builds those below a crate first, so they are done
        where a library above them was built since this began, also where their files are newer by their times alone."""
        made = {crate: self.made(crate) for crate in self.below}
        done = {crate for crate, when in made.items() if 0 <= when >= self.newest[crate]}
        for crate, when in made.items():
            if when >= since:
                done |= {crate, *self.below[crate]}
        return done - {PROGRAM}

    def made(self, crate: str) -> float:
        return changed(self.root / "crates" / crate / "out/rlib/stamp")

    def told(self, done: set[str], seconds: float) -> str:
        """A line that tells how far this is after so many seconds."""
        known = [self.seconds[it] for it in self.below if it in self.seconds]
        usual = sum(known) / len(known) if known else 0
        left = sum(self.seconds.get(it, usual) for it in self.below if it not in done)
        behind = f"by docs/TIMES.md about {round(left / 60)} minutes of one processor are left"
        return f"{len(done)} of {len(self.below)} crates done in {round(seconds)} seconds; {behind}"


def changed(file: Path) -> float:
    """When a file was changed; before all times where there is none."""
    try:
        return file.stat().st_mtime
    except OSError:
        return -1


def way_of(root: Path) -> Way:
    """What the program of a checkout stands on."""
    crates = listed(root)
    below: dict[str, list[str]] = {}

    def add(crate: str) -> list[str]:
        if crate not in below:
            of_it = [it for it in crates.get(crate, []) if it in crates]
            below[crate] = sorted({deep for it in of_it for deep in (it, *add(it))})
        return below[crate]

    add(PROGRAM)
    own = {it: newest_in(root / "crates" / it) for it in below}
    newest = {it: max(own[deep] for deep in (it, *below[it])) for it in below}
    times = root / "docs/times.txt"
    taken = read_lines(times.read_text("utf-8")) if times.is_file() else {}
    return Way(root, below, newest, {it: taken[it, PROOF].seconds for it in below if (it, PROOF) in taken})


def newest_in(folder: Path) -> float:
    return max((changed(file) for part in FOLDERS for file in (folder / part).glob("**/*") if file.is_file()), default=-1)


def say(line: str, end: str = "\n") -> None:
    print(f"cardhouse: {line}", end=end, file=sys.stderr, flush=True)


def follow(process: subprocess.Popen[bytes], way: Way, begun: float) -> None:
    """Tells how far a run of the kit is: on one line of a terminal, or else in lines that come when a crate is done."""
    told, at = way.done(begun), 0.0
    is_terminal = sys.stderr.isatty()
    while process.poll() is None:
        seconds = time.time() - begun
        done = way.done(begun)
        if is_terminal:
            say(way.told(done, seconds), "\r")
        elif done != told and seconds - at >= BETWEEN:
            say(way.told(done, seconds))
            told, at = done, seconds
        try:
            process.wait(LOOK)
        except subprocess.TimeoutExpired:
            continue
    if is_terminal:
        print(file=sys.stderr)


def main() -> int:
    """Builds the program. What the kit tells is shown where that fails."""
    if not shutil.which("rt"):
        say(NO_KIT)
        return NOT_BUILT
    if signal.getsignal(signal.SIGINT) is signal.default_int_handler:
        signal.signal(signal.SIGINT, signal.SIG_DFL)
    way, began = way_of(ROOT), time.time()
    say("proving and building the program")
    say(way.told(way.done(began), 0), "\r" if sys.stderr.isatty() else "\n")
    with tempfile.TemporaryFile() as log:
        # The kit has no command that only builds a program: this one also runs it once, with no words and an empty input.
        how = {"cwd": ROOT / "crates" / PROGRAM, "stdin": subprocess.DEVNULL, "stdout": log, "stderr": log}
        with subprocess.Popen(["rt", "run", "--"], preexec_fn=tied(signal.SIGTERM), **how) as process, attended(process):
            follow(process, way, began)
        if not is_built(ROOT):
            log.seek(0)
            sys.stderr.buffer.write(log.read())
            say("the program was not built")
            return NOT_BUILT
    say(f"the program is built, in {round(time.time() - began)} seconds")
    return 0
