"""Tests of runs without a proof: what is kept of the kit's lines, and how they end; and of what is said while the program is built."""

import os
import pty
import shutil
import subprocess
import sys
import tempfile
import unittest
from pathlib import Path
from unittest.mock import patch

import building
from scripted import Scripted

ENDED = "checked: ended status={0}\\nraces: not looked for\\nrun=ended status={0} runners=1 races=unchecked proved=no\\n"
TOO_SLOW = "checked: no-answer: the program did not end within the time limit\\nrun=no-answer proved=no\\n"
FAULT = "checked: fault kind=index\\nrun=fault proved=no\\n"
RUNS = (
    b"cardhouse: nothing is proved: the sources are run, which takes two to four minutes; "
    b"./cardhouse build proves and builds the program"
)


class Trying(Scripted):
    def setUp(self) -> None:
        super().setUp()
        self.make_kit()
        self.write("a.sheet", "\n )")

    def terminal(self, *words: str, **how: object) -> tuple[int, bytes]:
        """The status of a run whose standard error is a terminal, and what stands there."""
        leader, follower = pty.openpty()
        ran = self.run_script(*words, stdout=subprocess.PIPE, stderr=follower, **how)
        os.close(follower)
        said = b""
        while b"\n" in (more := read_some(leader)):
            said += more
        os.close(leader)
        return ran.returncode, said

    def test_the_kits_lines_are_taken_off(self) -> None:
        kit = "cache looks 0 hits 0\\n" + ENDED.format(0)
        ran = self.run_script("--try", "play", "--cache", "7", kit=kit, status=0)
        self.assertEqual((ran.returncode, ran.stdout, self.said()), (0, b"\n )\n", "try -- play --cache 7"))
        self.assertEqual(ran.stderr.splitlines(), [RUNS, b"cache looks 0 hits 0"])

    def test_files_and_explanations(self) -> None:
        kit = "sheet Stray 2\\n" + ENDED.format(1)
        ran = self.run_script("--try", "sheet", "a.sheet", kit=kit)
        self.assertEqual((ran.returncode, ran.stdout, self.said()), (1, b"\n )", "try -- sheet"))
        for words in (("--try", "--explain"), ("--explain", "--try")):
            ran = self.run_script(*words, "sheet", "a.sheet", kit=kit)
            self.assertEqual(ran.returncode, 1)
            runs, line, empty, place, *_ = ran.stderr.splitlines()
            self.assertEqual((runs, line, empty), (RUNS, b"sheet Stray 2", b""))
            self.assertTrue(place.startswith(b"a.sheet:2:2: "), ran.stderr)

    def test_a_slow_pipe_is_read_to_its_end(self) -> None:
        self.make(self.root / "bin/rt", '#!/bin/sh\n[ -f /dev/stdin ] && cat\nprintf "$KIT_NOTE" >&2\n')
        ran = self.run_script("--try", "sheet", kit=ENDED.format(0))
        self.assertEqual((ran.returncode, ran.stdout), (0, b"\n )\n"))

    def test_bench_reads_nothing(self) -> None:
        reading, writing = os.pipe()
        ran = self.run_script("--try", "bench", "7", kit=ENDED.format(0), given=None, stdin=reading, seconds=20)
        os.close(reading)
        os.close(writing)
        self.assertEqual((ran.returncode, ran.stdout), (0, b""))

    def test_the_kit_gives_up(self) -> None:
        ran = self.run_script("--try", "play", kit=TOO_SLOW, status=6)
        runs, said = ran.stderr.splitlines()
        self.assertEqual((ran.returncode, runs), (127, RUNS))
        self.assertTrue(said.startswith(b"cardhouse: the kit gave up"), said)
        self.assertIn(b"60 seconds", ran.stderr)
        ran = self.run_script("--explain", "--try", "play", kit=FAULT, status=4)
        self.assertEqual(ran.returncode, 127)
        self.assertTrue(ran.stderr.startswith(RUNS + b"\nchecked: fault kind=index\n"), ran.stderr)
        self.assertIn(b"cardhouse: the kit gave up", ran.stderr)

    def test_there_is_no_kit(self) -> None:
        path = self.root / "path"
        path.mkdir()
        for name in ("sh", "dirname", "readlink", "grep", "python3", "env"):
            (path / name).symlink_to(shutil.which(name) or "")
        env = {**os.environ, "PATH": str(path)}
        ran = self.run_script("--try", "play", env=env)
        runs, said = ran.stderr.splitlines()
        self.assertEqual((ran.returncode, runs), (127, RUNS))
        self.assertTrue(said.startswith(b"cardhouse: no 'rt' on the path: install the Rattle kit"), said)

    def test_tools_that_need_no_program_run_as_ever(self) -> None:
        for tool in ("lint", "table"):
            self.make(self.root / "tools" / tool, "#!/bin/sh\nexit 9\n")
            self.assertEqual(self.run_script("--try", tool, "a.sheet").returncode, 9)

    def test_a_series_takes_the_built_program(self) -> None:
        ran = self.run_script("--try", "series", "play")
        self.assertEqual((ran.returncode, ran.stdout), (2, b""))
        self.assertTrue(ran.stderr.startswith(b"cardhouse: a series takes the built program"), ran.stderr)

    def test_pages_take_the_built_program(self) -> None:
        for tool in ("show", "report"):
            ran = self.run_script("--try", tool, "a.sheet", "a.plan")
            self.assertEqual((ran.returncode, ran.stdout), (2, b""))
            self.assertTrue(ran.stderr.startswith(f"cardhouse: '{tool}' has matches played".encode()), ran.stderr)

    def test_a_terminal_is_told_how_long_it_takes(self) -> None:
        status, said = self.terminal("--try", "sheet", "a.sheet", kit=ENDED.format(0), status=0)
        self.assertEqual((status, said.splitlines()[0]), (0, RUNS))

    def test_without_a_program_the_sources_are_run(self) -> None:
        self.program.unlink()
        kit = "cache looks 0 hits 0\\n" + ENDED.format(0)
        for words in (("play", "a.sheet"), ("sheet",), ("bench", "7")):
            ran = self.run_script(*words, kit=kit, status=0)
            self.assertEqual((ran.returncode, ran.stderr.splitlines()), (0, [RUNS, b"cache looks 0 hits 0"]))
            self.assertEqual(self.said(), " ".join(["try --", *(it for it in words if it != "a.sheet")]))

    def test_pages_and_series_say_how_to_build(self) -> None:
        names = patch.dict(os.environ)
        names.start()
        self.addCleanup(names.stop)
        os.environ.pop("CARDHOUSE", None)
        self.program.unlink()
        self.write("a.plan", "(plan (seats (script)) (matches (from 1 1 4)) (turns 9))")
        for words in (("show", "a.sheet", "a.plan"), ("report", "a.sheet", "a.plan"), ("series", "split", "out", "a.sheet", "a.plan")):
            ran = self.run_script(*words)
            self.assertEqual((ran.returncode, ran.stdout), (127, b""))
            self.assertIn(b"./cardhouse build", ran.stderr)
        self.assertFalse((self.root / "said").exists())

    def test_with_a_proof_and_without_one(self) -> None:
        ran = self.run_script("--try", "--proved", "play")
        self.assertEqual((ran.returncode, ran.stderr.count(b"\n")), (2, 1))


class Building(Scripted):
    """The kit proves crates in their order, as a test tells it."""

    # Builds the library of rc_a, and then the program, where it may.
    BUILDS = """#!/bin/sh
echo "$@" >"$SAID"
echo of the kit
mkdir -p ../rc_a/out/rlib
echo >../rc_a/out/rlib/stamp
sleep 0.1
[ "$STATUS" != 0 ] || { mkdir -p out; printf '#!/bin/sh\\ncat\\n' >out/rc_main; chmod +x out/rc_main; }
exit "$STATUS"
"""

    def setUp(self) -> None:
        super().setUp()
        self.program.unlink()
        self.make_kit(self.BUILDS)
        self.write("crates.txt", "rc_a:\nrc_main: rc_a lru\nrc_b: rc_a\n")
        (self.root / "docs").mkdir()
        self.write("docs/times.txt", "# head\nrc_a proof 700 alone\nrc_a tests 900 alone\nrc_main proof 100 busy\n")

    def test_it_is_built_once(self) -> None:
        ran = self.run_script("build", status=0)
        began, way, *_, ended = ran.stderr.decode().splitlines()
        self.assertEqual((ran.returncode, ran.stdout, self.said()), (0, b"", "run --"))
        self.assertEqual(began, "cardhouse: proving and building the program")
        self.assertRegex(way, r"^cardhouse: 0 of 2 crates done in 0 seconds; by docs/TIMES.md about 13 minutes of one processor are left$")
        self.assertRegex(ended, r"^cardhouse: the program is built, in \d+ seconds$")
        (self.root / "said").unlink()
        ran = self.run_script("build")
        self.assertEqual((ran.returncode, ran.stderr), (0, b"cardhouse: the program is built of these sources\n"))
        self.assertFalse((self.root / "said").exists())

    def test_it_is_built_for_a_command_that_wants_it_proved(self) -> None:
        ran = self.run_script("--proved", "play", status=0)
        self.assertEqual((ran.returncode, ran.stdout, self.said()), (0, b"\n )\n", "run --"))
        self.assertEqual(self.run_script("--proved", "play").stderr, b"")

    def test_what_the_kit_told_is_shown_where_it_fails(self) -> None:
        for words in (("build",), ("--proved", "play")):
            ran = self.run_script(*words, status=1)
            self.assertEqual((ran.returncode, ran.stdout), (127, b""))
            *_, kit, said = ran.stderr.splitlines()
            self.assertEqual((kit, said), (b"of the kit", b"cardhouse: the program was not built"))

    def test_a_terminal_is_told_what_is_built_and_how_to_try_without(self) -> None:
        leader, follower = pty.openpty()
        ran = self.run_script("--proved", "play", "--cache", "7", stdout=subprocess.PIPE, stderr=follower)
        os.close(follower)
        said = os.read(leader, 65536)
        os.close(leader)
        self.assertEqual((ran.returncode, self.said()), (127, "run --"))
        self.assertIn(b"the proofs took 13 minutes of one processor", said)
        self.assertIn(b"./cardhouse --try play --cache 7\r\n", said)
        self.assertIn(b"0 of 2 crates done", said)

    def test_there_is_no_kit(self) -> None:
        (self.root / "bin/rt").unlink()
        path = self.root / "path"
        path.mkdir()
        for name in ("sh", "dirname", "readlink", "python3", "env"):
            (path / name).symlink_to(shutil.which(name) or "")
        ran = self.run_script("build", env={**os.environ, "PATH": str(path)})
        self.assertEqual((ran.returncode, ran.stderr.count(b"\n")), (127, 1))
        self.assertIn(b"install the Rattle kit", ran.stderr)


class Ways(unittest.TestCase):
    """How far a proof is."""

    def setUp(self) -> None:
        folder = tempfile.TemporaryDirectory()
        self.addCleanup(folder.cleanup)
        self.root = Path(folder.name)
        self.write("crates.txt", 0, "rc_a:\nrc_b: rc_a\nrc_c: rc_b\nrc_main: rc_c rc_a\n")
        self.write("docs/times.txt", 0, "rc_a proof 60 alone\nrc_main proof 180 alone\n")
        for crate in "abc":
            self.write(f"crates/rc_{crate}/src/lib.rt", 100)

    def write(self, name: str, when: int, text: str = "") -> None:
        file = self.root / name
        file.parent.mkdir(parents=True, exist_ok=True)
        file.write_text(text)
        os.utime(file, (when, when))

    def done(self, since: int = 1000) -> list[str]:
        return sorted(building.way_of(self.root).done(since))

    def test_a_library_is_done_where_nothing_below_it_is_newer(self) -> None:
        self.assertEqual(self.done(), [])
        for crate in "abc":
            self.write(f"crates/rc_{crate}/out/rlib/stamp", 200)
        self.assertEqual(self.done(), ["rc_a", "rc_b", "rc_c"])
        self.write("crates/rc_b/proofs/f/A.antt", 300)
        self.assertEqual(self.done(), ["rc_a"])

    def test_what_stands_below_a_library_that_was_built_is_done(self) -> None:
        self.write("crates/rc_b/out/rlib/stamp", 1001)
        self.assertEqual(self.done(), ["rc_a", "rc_b"])

    def test_what_is_left_goes_by_the_times_of_the_page(self) -> None:
        way = building.way_of(self.root)
        self.assertIn("0 of 4 crates done in 5 seconds; by docs/TIMES.md about 8 minutes", way.told(set(), 5.2))
        self.assertIn("3 of 4 crates done in 9 seconds; by docs/TIMES.md about 3 minutes", way.told({"rc_a", "rc_b", "rc_c"}, 9))


def read_some(leader: int) -> bytes:
    """What a terminal has to give, or nothing where all that wrote to it have ended."""
    try:
        return os.read(leader, 4096)
    except OSError:
        return b""


if __name__ == "__main__":
    sys.exit(unittest.main())
