"""Tests of tools/series. Those that play need the built program."""

import fcntl
import io
import json
import os
import shutil
import subprocess
import sys
import tempfile
import time
import unittest
from contextlib import redirect_stderr, redirect_stdout
from pathlib import Path
from typing import NamedTuple
from unittest.mock import patch

import started
from built import PROGRAM, ROOT, Built, skip_unless_built
from counting import bytes_of, is_linear, steps_of
from inputs import LONGEST
from pieces.folder import Done, Piece, Series, Split
from pieces.making import MAKEFILE
from pieces.plans import plan_of, size_of
from pieces.playing import line_of, picked
from pieces.program import Program, digest
from pieces.running import main
from pieces.splitting import in_units
from pieces.storing import HOST, remove_left, whole_folder, write_object, write_whole
from pieces.whole import merge
from second.measuring import measured
from second.playing import played
from second.sources import lists_of
from tables.ending import Refused

COMMAND = ROOT / "tools/series"
SHEET = ROOT / "examples/draws.sheet"

# The first plan that isn't too large has these matches, of which a piece takes 102.
PLAN = "(plan (seats (random 1) (random 7))\n  (matches (from 1 5 300)) ; a series\n  (turns 40))\n"


class End(NamedTuple):
    """How a call ends."""

    returncode: int
    stdout: str
    stderr: str


def ran(*words: object, **environment: str) -> End:
    """How a call of the command ends. It is called in here, since to start Python takes longer than most of what is tested."""
    out, notes = io.TextIOWrapper(io.BytesIO(), write_through=True), io.StringIO()
    names = {"CARDHOUSE": str(PROGRAM), **environment}
    with patch.dict(os.environ, names), patch("signal.signal"), redirect_stdout(out), redirect_stderr(notes):
        try:
            status = main([str(word) for word in words])
        except SystemExit as end:
            status = int(end.code or 0)
    return End(status, out.buffer.getvalue().decode(), notes.getvalue())


def ended(command: list[object], given: str = "", **environment: str) -> End:
    """How a call of another command ends."""
    names = {**os.environ, "CARDHOUSE": str(PROGRAM), **environment}
    end = started.run(list(map(str, command)), given, seconds=300, text=True, env=names)
    return End(end.returncode, end.stdout, end.stderr)


def table_of(text: str, *options: str) -> str:
    """The table of a transcript of the sheet."""
    return ended([ROOT / "tools/table", "--sheet", SHEET, *options], text).stdout


class Plans(unittest.TestCase):
    def plan(self, strategies: int, turns: int, count: int = 100_000, duplicate: bool = False):
        seats = " ".join(f"(random {key})" for key in range(strategies))
        text = f"(plan (seats {seats}) (matches (from 10 20 {count})) (turns {turns}))"
        return plan_of("a", text.encode(), duplicate)

    def test_all_but_the_matches_stays_as_it_is_written(self) -> None:
        text = b"; a plan\n(plan (seats (script 1  2)\n(random 007)) (matches (from 01 2 99999)) ; (from 3 4 5)\n(turns 9))\n"
        plan = plan_of("a", text, False)
        self.assertEqual((plan.deal, plan.seats, plan.count, plan.turns), (1, 2, 99999, 9))
        self.assertEqual(plan.strategies, ["(script 1 2)", "(random 007)"])
        self.assertEqual(plan.part(40, 6), text.replace(b"(from 01 2 99999)", b"(from 41 42 6)"))

    def test_pieces_are_as_large_as_a_plan_may_be(self) -> None:
        # 262144 / 200 is 1310 and more, and 3 times 436 is 1308. 262144 / 40 is more than 4096, and 3 times 1365 is 4095.
        sizes = [(3, 200, 1308), (2, 40, 4096), (3, 40, 4095), (2, 100_000, 2), (8, 32_768, 8), (1, 100_000, 2)]
        for strategies, turns, size in sizes:
            plan = self.plan(strategies, turns)
            self.assertEqual(size_of(plan, plan.most()), size)
        self.assertEqual([size_of(self.plan(3, 200), wanted) for wanted in (3, 4, 5, 6, 104)], [3, 3, 3, 6, 102])

    def test_where_no_piece_fits(self) -> None:
        for strategies, turns, wanted in [(3, 100_000, 4096), (8, 32_769, 4096), (3, 200, 2)]:
            self.assertRaises(Refused, size_of, self.plan(strategies, turns), wanted)

    def test_each_match_of_a_piece_has_the_seeds_and_strategies_of_the_series(self) -> None:
        plan = self.plan(3, 200, 50)
        for begin in range(0, 50, size_of(plan, 13)):
            piece = plan_of("piece", plan.part(begin, 2), False)
            for match in range(2):
                self.assertEqual(piece.seeds(match), plan.seeds(begin + match))
                self.assertEqual([(seat + match) % 3 for seat in range(3)], [(seat + begin + match) % 3 for seat in range(3)])

    def test_duplicates_are_played_with_each_strategy_in_each_seat(self) -> None:
        plan = self.plan(3, 200, 2, duplicate=True)
        self.assertEqual(plan.matches(), 6)
        self.assertIn(b"(matches (10 20) (10 20) (10 20) (11 21) (11 21) (11 21))", plan.part(0, 6))
        self.assertIn(b"(matches (11 21) (11 21) (11 21))", plan.part(3, 3))

    def test_how_long_a_part_is(self) -> None:
        for duplicate in (False, True):
            for deal, seats in ((0, 0), (7, 95), (999_990, 9), (10**17 - 3, 10**18 - 90)):
                text = f"; {deal}\n(plan (seats (script) (random 1) (script)) (matches (from {deal} {seats} 40)) (turns 9))"
                plan = plan_of("a", text.encode(), duplicate)
                for begin, count in ((0, 1), (0, 39), (3, 30), (5, 8), (14, 1)):
                    with self.subTest(duplicate=duplicate, deal=deal, begin=begin, count=count):
                        self.assertEqual(plan.length(begin, count), len(plan.part(begin, count)))

    def test_what_is_no_plan_of_a_series(self) -> None:
        plan = "(plan (seats (script)) (matches (from 1 1 9)) (turns 9))"
        plan_of("a", plan.encode(), False)
        for old, new in [
            ("(from 1 1 9)", "(1 1)"),
            ("(from 1 1 9)", "(from 1 1 9) (from 2 2 9)"),
            ("(from 1 1 9)", "(from 1 x 9)"),
            ("(from 1 1 9)", "(from 1 1 0)"),
            ("(from 1 1 9)", f"(from {10**18 - 9} 1 10)"),
            ("(turns 9)", "(turns 0)"),
            ("(turns 9)", ""),
            ("(script)", ""),
            ("(plan", "(plan ("),
            ("(turns 9))", "(turns 9)))"),
            ("(turns 9))", "(turns 9)) x"),
        ]:
            self.assertRaises(Refused, plan_of, "a", plan.replace(old, new).encode(), False)


class Folders(unittest.TestCase):
    def setUp(self) -> None:
        folder = tempfile.TemporaryDirectory()
        self.addCleanup(folder.cleanup)
        self.folder = Path(folder.name)

    def write(self, pieces: int, seed: int = 0) -> None:
        """Writes what `split` does of a series that has so many pieces of two matches."""
        text = PLAN.replace(" 300)", f" {2 * pieces})").encode()
        plans = [plan_of("a", text, False).part(2 * number, 2) for number in range(pieces)]
        parts = [Piece(2 * number, 2, digest(plan)) for number, plan in enumerate(plans)]
        for number, plan in enumerate(plans):
            (self.folder / f"{number}.plan").write_bytes(plan)
        (self.folder / "series.plan").write_bytes(text)
        write_object(self.folder / "series.json", Split(f"{seed}", digest(text), "", None, None, False, parts))

    def test_the_share_is_picked_by_the_digest(self) -> None:
        self.write(40)
        some = picked(self.folder, 0.05)
        self.assertEqual((len(some), some), (2, picked(self.folder, 0.05)))
        self.assertEqual([len(picked(self.folder, share)) for share in (0.001, 0.051, 1)], [1, 3, 40])
        self.write(40, seed=1)
        self.assertNotEqual(picked(self.folder, 0.25), some)
        for share in (0, 1.1, -1):
            self.assertRaises(Refused, picked, self.folder, share)

    def test_pieces_are_numbered_from_0_on(self) -> None:
        self.write(2)
        for number in (-1, 2):
            self.assertRaises(Refused, Series(self.folder).piece, number)

    def test_what_is_no_folder_of_a_series(self) -> None:
        self.assertRaises(Refused, Series, self.folder)
        for text in ("", "{}", "[]", "1"):
            (self.folder / "series.json").write_text(text)
            self.assertRaises(Refused, Series, self.folder)

    def test_a_series_that_is_damaged(self) -> None:
        self.write(2)
        file = self.folder / "series.json"
        text = file.read_text()
        kept = json.loads(text)
        one, other = kept["pieces"]
        texts = ["", "1", "[]", "{}", text[:-3], 100_000 * "[", 5000 * "9", "\xff"]
        for name, value in (
            ("plan", 1), ("program", None), ("duplicate", 0), ("kit", 1), ("more", 1), ("format", 3), ("format", "1 --workers"),
            ("pieces", {}), ("pieces", [1]), ("pieces", []), ("pieces", [one]), ("pieces", [other, one]),
            ("pieces", [{**one, "matches": 4}, other]), ("pieces", [{**one, "begin": False}, other]),
            ("pieces", [{**one, "begin": 0.0}, other]), ("pieces", [{**one, "matches": 1}, {**other, "begin": 1, "matches": 3}]),
        ):  # fmt: skip
            texts.append(json.dumps(kept | {name: value}))
        del kept["sheet"]
        for damaged in [*texts, json.dumps(kept)]:
            with self.subTest(damaged[:300]):
                file.write_text(damaged, "latin-1")
                for command in ("table", "merge", "make"):
                    self.assertEqual(ran(command, self.folder), (4, "", f"{file} isn't what split wrote\n"))

    def test_a_plan_that_is_none_of_the_series(self) -> None:
        self.write(2)
        (self.folder / "game.sheet").write_text("")
        kept = json.loads((self.folder / "series.json").read_text())
        kept["pieces"][1]["plan"] = digest(PLAN.encode())
        (self.folder / "1.plan").write_text(PLAN)
        (self.folder / "series.json").write_text(json.dumps(kept))
        self.assertEqual(ran("run", self.folder, 1), (4, "", f"{self.folder / 'series.json'} isn't what split wrote\n"))

    def test_what_is_kept_of_a_piece_is_damaged(self) -> None:
        self.write(1)
        series, file = Series(self.folder), self.folder / "0.json"
        (self.folder / "0.transcript").touch()
        write_object(file, Done(series.pieces[0].plan, digest(b""), "", "legal", "a", 1, ""))
        self.assertIsNone(series.fault(0))
        kept = json.loads(file.read_text())
        texts = ["", "[]", "{}", 100_000 * "[", 5000 * "9", json.dumps(kept | {"seconds": "1"}), json.dumps(kept | {"note": None})]
        for text in texts:
            with self.subTest(text[:300]):
                file.write_text(text)
                self.assertEqual(series.fault(0), "has a 0.json that run didn't write")
        file.unlink()
        file.mkdir()
        self.assertEqual(series.fault(0), "has a 0.json that run didn't write")
        file.rmdir()
        os.mkfifo(file)
        self.assertEqual(series.fault(0), "has a 0.json that run didn't write")

    def test_a_transcript_that_is_none_or_too_long(self) -> None:
        self.write(1)
        series, file = Series(self.folder), self.folder / "0.transcript"
        write_object(self.folder / "0.json", Done(series.pieces[0].plan, digest(b""), "", "legal", "a", 1.5, ""))
        os.mkfifo(file)
        self.assertEqual(series.fault(0), "isn't as it was judged")
        file.unlink()
        with file.open("wb") as long:
            long.truncate(LONGEST + 1)
        self.assertEqual(series.fault(0), "isn't as it was judged")

    def test_what_a_killed_process_left_is_removed(self) -> None:
        self.write(1)
        names = [f".{name}.{HOST}.99999" for name in ("0.transcript", "0.json", "series.json", "series")]
        others = [f".0.transcript.{HOST}x.1", ".0.json", f"0.json.{HOST}.1", f".a.{HOST}.1"]
        for name in [*names[:3], *others]:
            (self.folder / name).touch()
        (self.folder / names[3]).mkdir()
        (self.folder / names[3] / "0.plan").touch()
        with (self.folder / names[0]).open() as held:
            fcntl.flock(held, fcntl.LOCK_EX)
            remove_left(self.folder)
            self.assertEqual({*names, *others} & {*os.listdir(self.folder)}, {names[0], *others})
        remove_left(self.folder)
        self.assertEqual({*names, *others} & {*os.listdir(self.folder)}, {*others})

    def test_a_link_is_replaced_and_not_written_to(self) -> None:
        file, other = self.folder / "0.json", self.folder / "other"
        for link in (file, self.folder / f".0.json.{HOST}.{os.getpid()}"):
            link.symlink_to(other)
            write_whole(file, b"abc")
            self.assertEqual((file.is_symlink(), file.read_bytes(), other.exists()), (False, b"abc", False))

    def test_a_folder_is_there_as_a_whole(self) -> None:
        with self.assertRaises(KeyError), whole_folder(self.folder / "out") as part:
            (part / "0.plan").touch()
            self.assertEqual(os.listdir(self.folder), [part.name])
            raise KeyError
        self.assertEqual(os.listdir(self.folder), [])
        with whole_folder(self.folder / "out") as part:
            (part / "0.plan").touch()
        self.assertEqual((os.listdir(self.folder), os.listdir(self.folder / "out")), (["out"], ["0.plan"]))

    def test_a_file_is_written_as_a_whole(self) -> None:
        self.write(2)
        self.assertEqual({file.name for file in self.folder.iterdir()}, {"series.plan", "series.json", "0.plan", "1.plan"})

    def test_a_series_that_no_text_holds(self) -> None:
        self.write(2)
        plan = PLAN.replace(" 300)", " 4097)")
        (self.folder / "series.plan").write_text(plan)
        parts = [Piece(0, 4096, ""), Piece(4096, 1, "")]
        write_object(self.folder / "series.json", Split("", digest(plan.encode()), "", None, None, False, parts))
        with self.assertRaises(Refused) as caught:
            merge(self.folder)
        self.assertIn("with 40 turns it has at most 4096", str(caught.exception))

    def write_played(self, pieces: int) -> None:
        """Writes a series whose pieces are all played: matches of two seats without a choice."""
        self.write(pieces)
        kept = json.loads((self.folder / "series.json").read_text())
        (self.folder / "game.sheet").write_bytes(SHEET.read_bytes())
        (self.folder / "series.json").write_text(json.dumps(kept | {"sheet": digest(SHEET.read_bytes())}))
        scores = "end done 1\nscore 0 0 1\nscore 1 0 1\n"
        for number, piece in enumerate(kept["pieces"]):
            seeds = [(1 + 2 * number + match, 5 + 2 * number + match) for match in range(2)]
            matches = "".join(f"match {match} deal {deal} seats {seat}\n{scores}" for match, (deal, seat) in enumerate(seeds))
            text = f"house 1\n{matches}standing 1 strategy 0 points 2\nstanding 1 strategy 1 points 2\n".encode()
            (self.folder / f"{number}.transcript").write_bytes(text)
            write_object(self.folder / f"{number}.json", Done(piece["plan"], digest(text), "", "legal", HOST, 0.1, ""))

    def test_a_table_takes_as_much_as_there_are_pieces(self) -> None:
        steps, read = [], []
        for pieces in (8, 16, 32):
            self.write_played(pieces)
            self.assertTrue(ran("table", self.folder).stdout.startswith(f"{2 * pieces} matches, 0 ended"))
            steps.append(steps_of(lambda: ran("table", self.folder)))
            read.append(bytes_of(lambda: ran("table", self.folder)))
        self.assertTrue(is_linear(steps), steps)
        self.assertTrue(is_linear(read), read)

    def test_lines_that_differ(self) -> None:
        self.assertEqual([line_of(b"a\nb\n", it) for it in (b"x\nb\n", b"a\nx\n", b"a\n", b"a\nb\nc")], [1, 2, 2, 3])

    def test_make_plays_what_is_missing_alone(self) -> None:
        (self.folder / "1.json").touch()
        (self.folder / "1.transcript").touch()
        made = ended(["make", "-s", "-f", MAKEFILE, "-C", self.folder], SERIES="echo", LAST_PIECE="2")
        self.assertEqual(made.stdout.split("\n"), ["run . 0", "run . 2", ""])

    def test_a_makefile_of_others_is_not_read(self) -> None:
        self.write(2)
        for name in ("Makefile", "GNUmakefile", "makefile"):
            (self.folder / name).write_text("$(shell touch made)\n")
        end = ended([COMMAND, "make", self.folder, "-n"])
        self.assertEqual((end.returncode, end.stdout.count("run . ")), (0, 2))
        self.assertFalse((self.folder / "made").exists())


class Sizes(unittest.TestCase):
    """How much a split writes. A program of a few lines finds each sheet and each plan right."""

    def setUp(self) -> None:
        folder = tempfile.TemporaryDirectory()
        self.addCleanup(folder.cleanup)
        self.root = Path(folder.name)
        self.program = self.root / "program"
        self.program.write_text("#!/bin/sh\ncat >/dev/null\necho 'text 1' >&2\nexit 4\n")
        self.program.chmod(0o755)

    def split(self, plan: str, *options: object) -> End:
        (self.root / "a.plan").write_text(plan)
        return ran("split", self.root / "out", SHEET, self.root / "a.plan", *options, CARDHOUSE=str(self.program))

    def test_it_is_told(self) -> None:
        end = self.split(PLAN, "--size", 102)
        size = sum(file.stat().st_size for file in (self.root / "out").iterdir())
        told, written = end.stdout.splitlines()
        self.assertEqual((end.returncode, told), (0, f"3 pieces of at most 102 matches, {in_units(size)} to write"))
        self.assertEqual(written, f"written: `series make {self.root / 'out'} -j 4` plays four at a time")

    def test_there_are_as_many_pieces_as_processors(self) -> None:
        for count, told in ((1, "1 piece of at most 300"), (7, "8 pieces of at most 42"), (64, "75 pieces of at most 4"), (999, "150 pieces of at most 2")):
            with self.subTest(processors=count), patch("pieces.splitting.processors", lambda count=count: count):
                self.assertTrue(self.split(PLAN).stdout.startswith(f"{told} matches, "))
                shutil.rmtree(self.root / "out")
        with patch("pieces.splitting.processors", lambda: 7):
            self.assertTrue(self.split(PLAN, "--size", 102).stdout.startswith("3 pieces of at most 102 matches, "))

    def test_so_it_is_where_seconds_are_told(self) -> None:
        with patch("pieces.splitting.processors", lambda: 4), patch("pieces.splitting.matches_in", lambda *_: self.matches):
            for self.matches, told in ((9999, "5 pieces of at most 74"), (10, "30 pieces of at most 10")):
                self.assertTrue(self.split(PLAN, "--seconds", 5).stdout.startswith(f"{told} matches, "))
                shutil.rmtree(self.root / "out")

    def test_more_than_a_gigabyte_is_refused(self) -> None:
        plan = PLAN.replace("1 5 300", f"{9 * 10**17} {9 * 10**17} 204800000")
        said = "100000 pieces of at most 4096 matches have plans of 16.4 GB, more than 1 GB; `--large` writes them all the same\n"
        self.assertEqual(self.split(plan, "--duplicate"), (8, "", said))
        self.assertEqual({*os.listdir(self.root)}, {"a.plan", "program"})

    def test_or_asked_for(self) -> None:
        with patch("pieces.splitting.MOST_BYTES", 50):
            self.assertEqual(self.split(PLAN).returncode, 8)
            self.assertEqual(self.split(PLAN, "--large").returncode, 0)

    def test_units(self) -> None:
        for count, told in ((999, "999 bytes"), (1000, "1.0 KB"), (2_345_678, "2.3 MB"), (16_409_000_000, "16.4 GB")):
            self.assertEqual(in_units(count), told)

    def test_what_a_killed_split_left_is_removed(self) -> None:
        left = self.root / f".series.{HOST}.99999"
        left.mkdir()
        self.assertEqual(self.split(PLAN).returncode, 0)
        self.assertFalse(left.exists())

    def test_a_folder_that_is_there_is_told_first(self) -> None:
        (self.root / "out").mkdir()
        self.program.unlink()
        self.assertEqual(self.split(PLAN), (7, "", f"{self.root / 'out'}: File exists\n"))


class Programs(unittest.TestCase):
    """Which program plays. The script of a checkout, or of a release, stands for its program."""

    def setUp(self) -> None:
        folder = tempfile.TemporaryDirectory()
        self.addCleanup(folder.cleanup)
        self.root = Path(folder.name).resolve()
        (self.root / "crates/rc_main/out").mkdir(parents=True)

    def make(self, name: str, text: str) -> Path:
        file = self.root / name
        file.write_text(text)
        file.chmod(0o755)
        return file

    def program(self) -> Program:
        """The program that the script names."""
        with patch.dict(os.environ, {"CARDHOUSE": str(self.root / "cardhouse")}):
            return Program()

    def test_a_script_stands_for_the_program_of_its_checkout(self) -> None:
        built = self.make("crates/rc_main/out/rc_main", "built")
        program = self.program()
        self.assertEqual((program.file, program.digest()), (built, digest(b"built")))

    def test_a_script_stands_for_the_program_of_its_release(self) -> None:
        self.make("RELEASE", "version 1\n")
        self.make("program", "built")
        self.assertEqual((self.program().file, self.program().digest()), (self.root / "program", digest(b"built")))

    def test_nothing_is_built_unasked(self) -> None:
        self.make("cardhouse", "#!/bin/sh\necho builds >&2\n")
        with self.assertRaises(Refused) as caught:
            self.program()
        self.assertEqual((caught.exception.status, "./cardhouse build" in str(caught.exception)), (127, True))
        self.make("crates/rc_main/out/rc_main", "built")
        source = self.make("crates/rc_main/lib.rt", "")
        os.utime(source, (2e9, 2e9))
        self.assertRaises(Refused, self.program)


class Named(unittest.TestCase):
    """A series in format 2, which the second reading plays."""

    PLAN = "(plan (seats (random 1) (script 2)) (matches (from 1 5 7)) (turns 40))\n"

    def setUp(self) -> None:
        folder = tempfile.TemporaryDirectory()
        self.addCleanup(folder.cleanup)
        self.root = Path(folder.name)
        (self.root / "series.plan").write_text(self.PLAN)

    def ran(self, *words: object) -> str:
        end = ran(*words, CARDHOUSE=str(ROOT / "bench/second"))
        self.assertEqual((end.returncode, end.stderr), (0, ""))
        return end.stdout

    def test_the_pieces_are_the_whole(self) -> None:
        folder, text = self.root / "whole", played(*lists_of(SHEET.read_bytes() + self.PLAN.encode(), 2)[0], named=True)[0]
        self.ran("split", folder, SHEET, self.root / "series.plan", "--size", 4, "--format", 2)
        for number in (0, 1):
            self.ran("run", folder, number)
        self.assertTrue((folder / "1.transcript").read_text().startswith("house 2\nface 0 "))
        self.assertEqual(self.ran("merge", folder), text)
        self.assertEqual(self.ran("table", folder), table_of(text))
        self.assertIn("all are the same", self.ran("again", folder, 1))
        self.assertEqual(self.ran("measure", folder), measured(text, 2))

    def test_measures_of_duplicates(self) -> None:
        folder = self.root / "twice"
        self.ran("split", folder, SHEET, self.root / "series.plan", "--size", 6, "--duplicate")
        for number in (0, 1, 2):
            self.ran("run", folder, number)
        told = self.ran("measure", folder)
        self.assertEqual(told, measured(self.ran("merge", folder), 2))
        self.assertTrue(told.startswith("measure 1\nmatches 14 limits "), told)

    def test_a_program_that_measures_nothing(self) -> None:
        folder = self.root / "whole"
        self.ran("split", folder, SHEET, self.root / "series.plan", "--size", 8)
        self.ran("run", folder, 0)
        for script, status, said in (("echo usage: x >&2; exit 2", 2, "usage: x"), ("echo measure 2", 127, "no measures that are known")):
            program = self.root / "program"
            program.write_text(f"#!/bin/sh\n{script}\n")
            program.chmod(0o755)
            end = ran("measure", folder, CARDHOUSE=str(program))
            self.assertEqual((end.returncode, end.stdout), (status, ""))
            self.assertIn(said, end.stderr)

    def test_where_nothing_is_said_it_is_format_1(self) -> None:
        self.ran("split", self.root / "whole", SHEET, self.root / "series.plan")
        kept = json.loads((self.root / "whole/series.json").read_text())
        self.assertEqual(kept.pop("format"), 1)
        # What was split before there were two formats.
        (self.root / "whole/series.json").write_text(json.dumps(kept))
        self.assertEqual(Series(self.root / "whole").split.format, 1)


class Housed(Built):
    """Tests in a folder of their own."""

    @classmethod
    def setUpClass(cls) -> None:
        super().setUpClass()
        folder = tempfile.TemporaryDirectory()
        cls.addClassCleanup(folder.cleanup)
        cls.root = Path(folder.name)


class Played(Housed):
    """A series of 300 matches of a game that ships, and its whole plan in one."""

    @classmethod
    def setUpClass(cls) -> None:
        super().setUpClass()
        (cls.root / "series.plan").write_text(PLAN)
        cls.split = ran("split", cls.root / "whole", SHEET, cls.root / "series.plan", "--size", 103)
        cls.made = ended([COMMAND, "make", cls.root / "whole", "-s", "-j", 4, "table"])
        cls.text = ended([PROGRAM, "play"], SHEET.read_text() + PLAN).stdout
        cls.table = table_of(cls.text)

    def setUp(self) -> None:
        self.folder = self.root / self.id()
        shutil.copytree(self.root / "whole", self.folder)

    def refused(self, status: int, said: str, *words: object, **environment: str) -> None:
        end = ran(*words, **environment)
        self.assertEqual((end.returncode, end.stdout), (status, ""))
        self.assertIn(said, end.stderr)

    def is_whole(self) -> None:
        end = ran("table", self.folder)
        self.assertEqual((end.returncode, end.stdout, end.stderr), (0, self.table, ""))

    def altered(self, number: int, **values: object) -> None:
        """Puts other values into what is kept of a piece."""
        file = self.folder / f"{number}.json"
        file.write_text(json.dumps(json.loads(file.read_text()) | values))

    def test_what_was_split_and_played(self) -> None:
        self.assertEqual((self.split.returncode, self.split.stderr), (0, ""))
        self.assertTrue(self.split.stdout.startswith("3 pieces of at most 102 matches, "))
        self.assertEqual((self.made.returncode, self.made.stderr), (0, ""))
        *pieces, told = self.made.stdout.split("\n", 3)
        self.assertEqual({line.rpartition(",")[0] for line in pieces}, {f"piece {number} of 3" for number in range(3)})
        self.assertEqual(told, self.table)
        kept = json.loads((self.folder / "2.json").read_text())
        self.assertEqual((kept["verdict"], kept["host"], kept["note"]), ("legal", os.uname().nodename, "cache looks 0 hits 0"))

    def test_the_pieces_are_the_whole(self) -> None:
        end = ran("merge", self.folder)
        self.assertEqual((end.returncode, end.stdout == self.text, end.stderr), (0, True, ""))
        for form in ("--csv", "--jsonl"):
            self.assertEqual(ran("table", form, self.folder).stdout, table_of(self.text, form))

    def test_a_lost_piece_is_told_and_made_again(self) -> None:
        for ending in ("json", "transcript"):
            (self.folder / f"1.{ending}").unlink()
            self.refused(4, "piece 1 is missing; 1 of 3 pieces don't count: 1;", "table", self.folder)
            self.refused(4, "piece 1 is missing", "again", self.folder, 1)
            self.assertEqual(ended([COMMAND, "make", self.folder, "-s"]).stdout, "piece 1 of 3, 3 done\n")
            self.is_whole()

    def test_a_changed_byte_is_refused(self) -> None:
        file = self.folder / "2.transcript"
        text = file.read_bytes()
        file.write_bytes(text[:1000] + bytes([text[1000] ^ 1]) + text[1001:])
        for words in (["table"], ["merge"], ["again"]):
            self.refused(4, "piece 2 isn't as it was judged", *words, self.folder, *([2] if words == ["again"] else []))
        end = ran("run", self.folder, 2)
        self.assertEqual((end.returncode, end.stdout), (0, "piece 2 of 3, 3 done\n"))
        self.assertEqual(end.stderr, "piece 2 isn't as it was judged, and was played again\n")
        self.is_whole()

    def test_what_was_split_is_not_to_change(self) -> None:
        for name in ("game.sheet", "series.plan", "1.plan"):
            with (self.folder / name).open("a") as file:
                file.write("\n")
            self.refused(4, f"{name} isn't what split wrote", "table", self.folder)
            self.refused(4, f"{name} isn't what split wrote", "run", self.folder, 1)
            shutil.copy(self.root / "whole" / name, self.folder / name)

    def test_pieces_of_another_program_or_verdict(self) -> None:
        for values, said in [
            ({"program": "0"}, "was played by another program"),
            ({"plan": "0"}, "was played by another plan"),
            ({"verdict": "illegal 5 Menu"}, "isn't legal"),
            ({"more": 1}, "has a 0.json that run didn't write"),
        ]:
            self.altered(0, **values)
            self.refused(4, f"piece 0 {said}", "table", self.folder)
            shutil.copy(self.root / "whole/0.json", self.folder / "0.json")

    def test_another_program_plays_nothing_but_may_play_again(self) -> None:
        other = self.folder / "other"
        shutil.copy(PROGRAM, other)
        with other.open("ab") as file:
            file.write(b"\0")
        (self.folder / "0.json").unlink()
        self.refused(4, "isn't the program with which", "run", self.folder, 0, CARDHOUSE=str(other))
        self.refused(127, "No such file", "run", self.folder, 0, CARDHOUSE=str(other) + "s")
        end = ran("again", self.folder, 2, CARDHOUSE=str(other))
        said = "1 of 3 pieces played again, by another program than that of the series; all are the same\n"
        self.assertEqual((end.returncode, end.stdout), (0, f"piece 2 is the same to the byte\n{said}"))

    def test_pieces_that_are_played_otherwise_are_named(self) -> None:
        file = self.folder / "1.transcript"
        file.write_bytes(file.read_bytes() + b"x\n")
        self.altered(1, transcript=digest(file.read_bytes()))
        end = ran("again", self.folder, "--share", 1)
        self.assertEqual(end.returncode, 4)
        self.assertEqual(end.stderr, "3 of 3 pieces played again; these differ: 1\n")
        self.assertIn("piece 0 is the same to the byte\n", end.stdout)

    def test_make_is_killed_and_goes_on(self) -> None:
        shutil.rmtree(self.folder)
        ran("split", self.folder, SHEET, self.root / "series.plan", "--size", 30)
        names = {**os.environ, "CARDHOUSE": str(PROGRAM)}
        command = [COMMAND, "make", self.folder, "-s", "-j", "4"]
        with started.started(command, env=names, stdout=subprocess.DEVNULL) as made:
            while made.poll() is None and not Series(self.folder).played():
                time.sleep(0.01)
        done = Series(self.folder).played()
        self.assertLess(done, 10)
        end = ended([COMMAND, "make", self.folder, "-s", "-j", 4])
        self.assertEqual((end.returncode, len(end.stdout.splitlines())), (0, 10 - done))
        self.is_whole()

    def test_parallel_goes_on_by_its_log(self) -> None:
        if not shutil.which("parallel"):
            reason = "no GNU 'parallel' on the path"
            print(f"\n{self.id()} is skipped: {reason}", file=sys.stderr)
            self.skipTest(reason)
        for file in self.folder.glob("[0-9].json"):
            file.unlink()
        command = ["parallel", "--will-cite", "--joblog", self.folder / "joblog", "--resume", COMMAND, "run", self.folder, ":::"]
        names = {"PARALLEL_HOME": str(self.folder)}
        first, second = ended([*command, 0, 1], **names), ended([*command, 0, 1, 2], **names)
        self.assertEqual((first.returncode, len(first.stdout.splitlines()), first.stderr), (0, 2, ""))
        self.assertEqual((second.returncode, second.stdout, second.stderr), (0, "piece 2 of 3, 3 done\n", ""))
        self.is_whole()


class Compared(Housed):
    """Two duplicates on the same deals, of which the second has a script in the place of a seat that picks at random."""

    @classmethod
    def setUpClass(cls) -> None:
        super().setUpClass()
        for name, strategy in (("a", "(random 7)"), ("b", "(script)")):
            (cls.root / name).with_suffix(".plan").write_text(PLAN.replace("300", "10").replace("(random 7)", strategy))
            ran("split", cls.root / name, SHEET, cls.root / f"{name}.plan", "--duplicate", "--size", 20)
            ran("run", cls.root / name, 0)

    def rows(self, *words: object) -> list[list[str]]:
        end = ran(*words)
        self.assertEqual((end.returncode, end.stderr), (0, ""))
        return [line.split() for line in end.stdout.splitlines()]

    def test_the_table_is_by_deal(self) -> None:
        table = table_of(ran("merge", self.root / "a").stdout, "--duplicate")
        self.assertEqual(ran("table", self.root / "a").stdout, table)
        self.assertTrue(table.startswith("20 matches of 10 deals, "))

    def test_differences(self) -> None:
        before, now = self.rows("table", self.root / "a"), self.rows("table", self.root / "b")
        told = self.rows("compare", self.root / "a", self.root / "b")
        self.assertEqual(" ".join(told[1]), "strategy 1: (random 7), then (script)")
        for name in ("strategy", "seat"):
            for number in "01":
                (one,), (other,), (less,) = ([row for row in rows[2:] if row[:2] == [name, number]] for rows in (before, now, told))
                self.assertEqual(int(less[2]), int(other[2]) - int(one[2]))
        same = self.rows("compare", self.root / "a", self.root / "a")
        self.assertEqual(same[-1], ["seat", "1", "+0", "+0.000", "0.000", "+0", "+0.000", "0.000", "+0.000", "0.000"])

    def test_other_deals_are_refused(self) -> None:
        plan = self.root / "c.plan"
        plan.write_text(PLAN.replace("from 1 5 300", "from 2 5 10"))
        ran("split", self.root / "c", SHEET, plan)
        end = ran("compare", self.root / "a", self.root / "c")
        self.assertEqual((end.returncode, end.stdout), (4, ""))


class Refusals(unittest.TestCase):
    def setUp(self) -> None:
        skip_unless_built()
        folder = tempfile.TemporaryDirectory()
        self.addCleanup(folder.cleanup)
        self.root = Path(folder.name)

    def check(self, status: int, said: str, plan: str, *options: object, sheet: str = SHEET.read_text()) -> None:
        (self.root / "a.sheet").write_text(sheet)
        (self.root / "a.plan").write_text(plan)
        end = ran("split", self.root / "a", self.root / "a.sheet", self.root / "a.plan", *options)
        self.assertEqual((end.returncode, end.stdout, (self.root / "a").exists()), (status, "", False))
        self.assertEqual(end.stderr.replace(f"{self.root}/", ""), f"{said}\n")

    def test_faults_are_told_where_they_stand_in_their_file(self) -> None:
        length = len(SHEET.read_text()) + 1
        self.check(3, f"a.plan:1:33: plan Number {length + 32}", PLAN.replace("random 7", "random x"))
        self.check(3, f"a.plan:1:7: plan Seats {length + 6}", PLAN.replace("(random 7)", "(random 7) (script)"))
        self.check(3, f"a.plan:2:1: plan Seats {length + 6}", PLAN.replace("(plan ", "(plan\n").replace(" (random 7)", ""))
        self.check(1, "a.sheet:2:1: sheet Stray 1", PLAN, sheet="\n)")

    def test_what_no_piece_can_be(self) -> None:
        self.check(3, "a piece has a multiple of 2 matches, one for each strategy in each seat, and not 1", PLAN, "--size", 1)
        self.check(8, "300000000 matches are more than 100000 pieces of 2", PLAN.replace("300", "300000000"), "--size", 2)

    def test_words(self) -> None:
        for words in ([], ["split", "a"], ["run", "a", "x"], ["again", "a"], ["split", "a", "b", "c", "--size", "0"], ["play"]):
            self.assertEqual(ran(*words).returncode, 2)

    def test_a_folder_that_is_there(self) -> None:
        (self.root / "a.plan").write_text(PLAN)
        end = ran("split", self.root, SHEET, self.root / "a.plan")
        self.assertEqual((end.returncode, end.stderr), (7, f"{self.root}: File exists\n"))


if __name__ == "__main__":
    unittest.main()
