"""Tests of what is known of the program, and that processes end with who started them."""

import os
import signal
import subprocess
import sys
import time
import unittest

import built
from scripted import Scripted
from started import run, started

# A process that starts others, tells their group and waits for them.
HOLDS = """\
from started import started
with started(["sh", "-c", "sleep 60 & wait"]) as process:
    print(process.pid, flush=True)
    process.wait()
"""


class Sources(Scripted):
    """The script and the tools say alike whether the program is built."""

    def setUp(self) -> None:
        super().setUp()
        self.make_kit("#!/bin/sh\nexit 1\n")

    def source(self, name: str, seconds: int) -> None:
        """A source that has changed so many seconds after the program was built."""
        file = self.root / "crates" / name
        file.parent.mkdir(parents=True, exist_ok=True)
        file.write_text("")
        made = self.program.stat().st_mtime
        os.utime(file, (made + seconds, made + seconds))

    def check(self, is_built: bool) -> None:
        self.assertEqual(built.is_built(self.root), is_built)
        self.assertEqual(self.run_script("sheet", status=0).returncode == 0, is_built)

    def test_it_is_older_than_its_sources(self) -> None:
        self.check(True)
        self.source("rc_a/src/lib.rt", -9)
        self.check(True)
        for name in ("rc_a/src/rows/a.rt", "rc_a/specs/Lib.antt", "rc_main/proofs/A.antt"):
            with self.subTest(name):
                self.source(name, 9)
                self.check(False)
                (self.root / "crates" / name).unlink()

    def test_what_is_none_of_its_sources(self) -> None:
        for name in ("rc_a_tests/src/lib.rt", "rc_games/src/lib.rt", "rc_a/out/a.antt", "rc_a/must-fail/a.edit"):
            self.source(name, 9)
        self.check(True)

    def test_it_isnt_there(self) -> None:
        self.program.chmod(0o644)
        self.check(False)
        self.program.unlink()
        self.check(False)


class Processes(unittest.TestCase):
    def is_running(self, group: int) -> bool:
        try:
            os.killpg(group, 0)
        except ProcessLookupError:
            return False
        return True

    def ends(self, group: int) -> None:
        until = time.monotonic() + 20
        while self.is_running(group) and time.monotonic() < until:
            time.sleep(0.01)
        self.assertFalse(self.is_running(group))

    def test_what_is_written_and_how_it_ends(self) -> None:
        ran = run(["sh", "-c", "cat; echo x >&2; exit 7"], "given", text=True)
        self.assertEqual((ran.returncode, ran.stdout, ran.stderr), (7, "given", "x\n"))
        self.assertEqual(run(["cat"]).stdout, b"")

    def test_all_ends_with_the_block(self) -> None:
        for raised in (False, True):
            with self.subTest(raised=raised):
                try:
                    with started(["sh", "-c", "sleep 60 & echo; wait"], stdout=subprocess.PIPE) as process:
                        assert process.stdout
                        process.stdout.readline()
                        if raised:
                            raise KeyError
                except KeyError:
                    pass
                self.ends(process.pid)

    def test_all_ends_where_it_takes_too_long(self) -> None:
        with self.assertRaises(subprocess.TimeoutExpired):
            run(["sh", "-c", "sleep 60 & wait"], seconds=0.1)

    def test_all_ends_with_who_is_told_to_end(self) -> None:
        with started([sys.executable, "-c", HOLDS], cwd=built.ROOT / "tools", stdout=subprocess.PIPE, text=True) as process:
            assert process.stdout
            group = int(process.stdout.readline())
            process.send_signal(signal.SIGTERM)
            self.assertEqual(process.wait(20), 128 + signal.SIGTERM)
        self.ends(group)


if __name__ == "__main__":
    unittest.main()
