"""Tests that what ends the script, or `series run`, ends what these run too: no play stays behind."""

import os
import pty
import shutil
import signal
import subprocess
import sys
import time
import unittest
from contextlib import contextmanager
from collections.abc import Iterator
from pathlib import Path

from scripted import ROOT, Scripted
from started import run, started

SECONDS = 20
CAUGHT = (signal.SIGTERM, signal.SIGINT, signal.SIGHUP)
ALL = (*CAUGHT, signal.SIGKILL)

# Tells its number and plays for long. It finds the sheet and the plan of a series right, and as the kit it has a version.
PLAYS = """#!/bin/sh
case $1 in check) echo "text 1" >&2; exit 4 ;; version) exit ;; esac
echo $$ >"$SAID.new" && mv "$SAID.new" "$SAID"
exec sleep 60
"""


class Ending(Scripted):
    @classmethod
    def setUpClass(cls) -> None:
        """In the background some signals are ignored, and would be by all that is started here."""
        super().setUpClass()
        for ignored in (it for it in CAUGHT if signal.getsignal(it) == signal.SIG_IGN):
            signal.signal(ignored, signal.SIG_DFL)
            cls.addClassCleanup(signal.signal, ignored, signal.SIG_IGN)

    def setUp(self) -> None:
        super().setUp()
        self.make(self.program, PLAYS)
        self.make_kit(PLAYS)
        self.write("a.sheet", "(game)")
        self.write("a.plan", "(plan (seats (script)) (matches (from 1 1 4)) (turns 9))")
        names = {"SAID": str(self.root / "said"), "PATH": f"{self.root / 'bin'}:{os.environ['PATH']}"}
        self.how = {"cwd": self.root, "env": {**os.environ, **names}, "stdout": subprocess.DEVNULL, "stderr": subprocess.PIPE}

    def await_number(self) -> int:
        """The number of the process that plays, once it does."""
        said = self.root / "said"
        until = time.monotonic() + SECONDS
        while not said.exists():
            self.assertLess(time.monotonic(), until, "nothing plays")
            time.sleep(0.01)
        number = int(said.read_text())
        said.unlink()
        return number

    def ends(self, number: int) -> None:
        """Asks that a process ends soon, or has."""
        until = time.monotonic() + SECONDS
        while is_running(number):
            self.assertLess(time.monotonic(), until, "it stays behind")
            time.sleep(0.01)

    @contextmanager
    def playing(self, *command: object, **how: object) -> Iterator[tuple[subprocess.Popen[bytes], int]]:
        """A command that plays, and the number of the process that does. The play isn't in a group of its own."""
        with started(list(map(str, command)), **{"stdin": subprocess.PIPE, **self.how, **how}) as process:
            yield process, self.await_number()

    def check(self, *command: object, status: int | None = None, signals: tuple[signal.Signals, ...] = ALL, **how: object) -> None:
        """Each of the signals that the process of a command is sent ends it, and the play."""
        for sent in signals:
            with self.subTest(command=command, signal=sent), self.playing(*command, **how) as (process, number):
                process.send_signal(sent)
                self.ends(number)
                wanted = -sent if status is None or sent == signal.SIGKILL else status + sent
                self.assertEqual(process.wait(SECONDS), wanted)


class OfScript(Ending):
    def test_a_play(self) -> None:
        self.check("./cardhouse", "play", signals=(signal.SIGTERM,))
        self.check("./cardhouse", "play", "a.sheet", "a.plan", signals=(signal.SIGTERM,))

    def test_a_play_that_is_explained(self) -> None:
        self.check("./cardhouse", "--explain", "play")
        self.check("./cardhouse", "--explain", "play", "a.sheet", "a.plan")

    def test_a_play_at_a_terminal(self) -> None:
        leader, follower = pty.openpty()
        self.check("./cardhouse", "play", stderr=follower)
        os.close(follower)
        os.close(leader)

    def test_a_run_without_proof(self) -> None:
        for option in ((), ("--explain",)):
            self.check("./cardhouse", "--try", *option, "bench", 1, signals=(signal.SIGTERM, signal.SIGKILL))

    def test_a_signal_that_is_ignored_stays_so(self) -> None:
        words = ["sh", "-c", "trap '' HUP; exec ./cardhouse --explain play"]
        with self.playing(*words) as (process, number):
            process.send_signal(signal.SIGHUP)
            time.sleep(0.2)
            self.assertTrue(is_running(number))
            process.send_signal(signal.SIGTERM)
            self.ends(number)

    def test_a_play_that_ends_by_a_signal(self) -> None:
        self.make(self.program, "#!/bin/sh\nkill -TERM $$\n")
        for option in ((), ("--explain",)):
            self.assertEqual(self.run_script(*option, "play").returncode, -signal.SIGTERM)


class OfBuilding(Ending):
    """The kit stands for a proof that takes long."""

    def setUp(self) -> None:
        super().setUp()
        self.program.unlink()

    def test_the_script(self) -> None:
        self.check("./cardhouse", "--proved", "play", signals=CAUGHT)

    def test_alone(self) -> None:
        self.check("./cardhouse", "build")

    def test_a_series(self) -> None:
        self.check("./cardhouse", "--proved", "series", "split", "out", "a.sheet", "a.plan", signals=(signal.SIGTERM,))

    def test_nothing_is_left_of_what_the_kit_tells(self) -> None:
        folder = self.root / "tmp"
        folder.mkdir()
        with self.playing("./cardhouse", "--proved", "play", env={**self.how["env"], "TMPDIR": str(folder)}) as (process, number):
            self.assertEqual(list(folder.iterdir()), [])
            process.kill()
            os.kill(number, signal.SIGTERM)


class OfSeries(Ending):
    def setUp(self) -> None:
        super().setUp()
        self.how["env"]["CARDHOUSE"] = str(self.program)
        split = run([ROOT / "tools/series", "split", "out", "a.sheet", "a.plan", "--size", "2"], cwd=self.root, env=self.how["env"])
        self.assertEqual((split.returncode, split.stderr), (0, b""))

    def files(self) -> set[str]:
        return {file.name for file in (self.root / "out").iterdir()}

    def test_a_piece(self) -> None:
        before = self.files()
        self.check(ROOT / "tools/series", "run", "out", 0, status=128)
        self.check("./cardhouse", "series", "run", "out", 1, status=128)
        self.assertEqual(self.files(), before)

    @unittest.skipUnless(shutil.which("make"), "no 'make' on the path")
    def test_all_pieces(self) -> None:
        with self.playing(ROOT / "tools/series", "make", "out", "-s") as (process, number):
            process.send_signal(signal.SIGTERM)
            self.ends(number)


def is_running(number: int) -> bool:
    """Whether a process runs: it is there, and doesn't only wait for its parent to take its status."""
    try:
        told = Path(f"/proc/{number}/stat").read_text()
    except (FileNotFoundError, ProcessLookupError):
        return False
    return told.rpartition(")")[2].split()[0] != "Z"


if __name__ == "__main__":
    sys.exit(unittest.main())
