"""Tests of tools/times.py and of how it samples a run of the gate."""

import os
import re
import subprocess
import tempfile
import unittest
from pathlib import Path

import sampling
import times
from crates import listed
from sampling import EDITS, PROOF, TESTS, Process, Sampler, Taken, process_of, task_of

CHECK = ["/kit/bin/rattle", "check", "--crate-name", "rc_a", "src/lib.rt"]


class Processes(unittest.TestCase):
    def test_a_name_may_hold_any_signs(self):
        stat = "7 (a) b (c) S 3 7 7 0 -1 4 9 9 9 9 100 20 3 4 20 0 1 0 55 0 0\n"
        self.assertEqual(process_of(stat), Process(7, 3, 55, 127, False))
        self.assertTrue(process_of(stat.replace(" S ", " Z ")).ended)

    def test_this_process_is_found(self):
        found = sampling.read_processes()[os.getpid()]
        self.assertEqual((found.parent, found.ended), (os.getppid(), False))


class Tasks(unittest.TestCase):
    def test_a_proof_stands_in_its_crate(self):
        self.assertEqual(task_of(CHECK, "/tmp/rt-copy-1-x/repo/crates/rc_a"), ("rc_a", PROOF))
        self.assertEqual(task_of(["/kit/bin/rattle-link", "-o", "out/rc_a"], "/repo/crates/rc_a"), ("rc_a", PROOF))

    def test_an_edit_is_tried_on_a_copy(self):
        self.assertEqual(task_of(CHECK, "/tmp/rt-edit-1-x"), ("rc_a", EDITS))

    def test_tests_are_proved_linked_and_run(self):
        self.assertEqual(task_of([*CHECK, "--test"], "/repo/crates/rc_a"), ("rc_a", TESTS))
        self.assertEqual(task_of(["/kit/bin/rattle-link", "-o", "out/rc_a_tests"], "/repo/crates/rc_a"), ("rc_a", TESTS))
        self.assertEqual(task_of(["/kit/bin/rattle-test", "/tmp/rt-run-1-x/bin/rc_a_tests"], "/tmp/rt-run-1-x/data"), ("rc_a", TESTS))
        self.assertEqual(task_of(["/tmp/rt-run-1-x/bin/rc_a", "word"], "/tmp/rt-run-1-x/data"), ("rc_a", TESTS))

    def test_other_processes_have_none(self):
        for words in (["sh", "-c", "true"], ["rattle", "--crate-name"], [""]):
            self.assertIsNone(task_of(words, "/repo"))


class Samples(unittest.TestCase):
    def sampler(self, tasks):
        return Sampler(1, tasks.get)

    def test_what_runs_below_a_task_belongs_to_it(self):
        sampler = self.sampler({3: ("rc_a", PROOF), 4: ("rc_b", PROOF)})
        both = {2: Process(2, 1, 0, 9, False), 3: Process(3, 2, 0, 100, False), 4: Process(4, 3, 0, 20, False)}
        sampler.look({1: Process(1, 0, 0, 500, False), **both})
        self.assertEqual(sampler.taken(), {("rc_a", PROOF): 120})

    def test_what_ended_stays_and_numbers_are_used_again(self):
        sampler = self.sampler({3: ("rc_a", PROOF)})
        for start, ticks in ((5, 100), (5, 130), (8, 40)):
            sampler.look({3: Process(3, 1, start, ticks, False)})
        sampler.look({})
        self.assertEqual(sampler.taken(), {("rc_a", PROOF): 170})

    def test_a_task_begun_twice_is_added_up(self):
        sampler = self.sampler({3: ("rc_a", EDITS), 4: ("rc_a", EDITS)})
        sampler.look({3: Process(3, 1, 0, 100, False), 4: Process(4, 1, 0, 50, False)})
        self.assertEqual(sampler.taken(), {("rc_a", EDITS): 150})

    def test_the_file_leaves_out_less_than_a_second_and_says_whether_others_did_much(self):
        sampler = self.sampler({3: ("rc_a", PROOF), 4: ("rc_b", PROOF)})
        ticks = sampling.TICKS
        sampler.look({3: Process(3, 1, 0, 9 * ticks, False), 4: Process(4, 1, 0, ticks - 1, False)})
        for others, beside in ((0, False), (100 * (os.cpu_count() or 1) * ticks, True)):
            text = sampling.told(sampler, 100, others)
            self.assertEqual(sampling.read_lines(text), {("rc_a", PROOF): Taken(9, beside)})

    def test_a_process_is_followed_to_its_end(self):
        with tempfile.TemporaryDirectory() as folder:
            file = Path(folder) / "samples"
            with subprocess.Popen(["sleep", "0.2"]) as process:
                sampling.follow(process.pid, file)
            self.assertEqual(sampling.read_lines(file.read_text()), {})


class Table(unittest.TestCase):
    def setUp(self):
        folder = tempfile.TemporaryDirectory()
        self.addCleanup(folder.cleanup)
        self.root = Path(folder.name)
        self.write("crates.txt", "# crates\nrc_a:\nrc_b: rc_a lru\nrc_c_tests: rc_a rc_b\n")
        self.write("crates/rc_a/src/lib.rt", "//! a\n\nfn f() {}\n")
        self.write("crates/rc_a/src/inner/tests.rt", "#[test] fn t() {}\n")
        self.write("crates/rc_b/specs/Lib.antt", "a\nb\n")
        self.write("crates/rc_b/proofs/f/Answers.antt", "a\n")
        self.write("crates/rc_b/must-fail/wrong.edit", "")
        self.write("crates/rc_c_tests/src/lib.rt", "a\n")
        self.write(times.SECONDS, "# head\nrc_a proof 10 alone\nrc_b edits 20 busy\nrc_c_tests tests 5 alone\nrc_gone proof 99 alone\n")
        self.write(times.PAGE, f"before\n\n{times.BEGIN}old\n{times.END}\nbehind\n")

    def write(self, name, text):
        file = self.root / name
        file.parent.mkdir(parents=True, exist_ok=True)
        file.write_text(text)

    def test_rows_have_seconds_lines_and_edits(self):
        times.write_table(self.root)
        rows = [line for line in (self.root / times.PAGE).read_text().splitlines() if line.startswith(("| `", "| all"))]
        self.assertEqual(
            rows,
            [
                "| `rc_a` | 10 |  | ? | 3 | 1 | 0 | 0 | 0 |",
                "| `rc_b` | ? | 20* |  | 0 | 0 | 2 | 1 | 1 |",
                "| `rc_c_tests` | ? |  | 5 | 0 | 1 | 0 | 0 | 0 |",
                "| all | 10 | 20 | 5 | 3 | 2 | 2 | 1 | 1 |",
            ],
        )

    def test_the_rest_of_the_page_stays(self):
        times.write_table(self.root)
        page = (self.root / times.PAGE).read_text()
        self.assertTrue(page.startswith(f"before\n\n{times.BEGIN}\n| crate"))
        self.assertTrue(page.endswith(f"\n{times.END}\nbehind\n"))
        self.assertEqual(times.with_table(page, times.table_of(self.root, sampling.read_lines((self.root / times.SECONDS).read_text()))), page)
        self.assertRaises(ValueError, times.with_table, "no marks", "")

    def test_the_longest_chain_counts_proofs_and_the_last_tests(self):
        taken = {(crate, PROOF): Taken(seconds, False) for crate, seconds in (("a", 5), ("b", 7), ("c", 1), ("d", 2))}
        crates = {"a": [], "b": [], "c": ["a"], "d": ["b", "lru"]}
        self.assertEqual(times.chain_of(crates, taken), (9, ["b", "d"]))
        self.assertEqual(times.chain_of(crates, {**taken, ("c", TESTS): Taken(4, False)}), (10, ["a", "c"]))

    def test_what_is_taken_stands_in_the_order_of_the_crates(self):
        self.write("samples", "# 9 seconds\nrc_b proof 7 busy\nrc_a proof 11 busy\n")
        times.take(self.root, self.root / "samples", ["rc_b"])
        self.assertEqual(
            (self.root / times.SECONDS).read_text(),
            "# head\nrc_a proof 10 alone\nrc_b proof 7 busy\nrc_b edits 20 busy\nrc_c_tests tests 5 alone\n",
        )
        times.take(self.root, self.root / "samples", [])
        self.assertIn("rc_a proof 11 busy\n", (self.root / times.SECONDS).read_text())

    def test_what_is_done_no_more_is_not_taken(self):
        (self.root / "crates/rc_b/must-fail/wrong.edit").unlink()
        self.write("samples", "# 9 seconds\nrc_a edits 7 busy\nrc_b proof 8 busy\n")
        times.take(self.root, self.root / "samples", [])
        self.assertEqual(
            (self.root / times.SECONDS).read_text(), "# head\nrc_a proof 10 alone\nrc_b proof 8 busy\nrc_c_tests tests 5 alone\n"
        )


class Page(unittest.TestCase):
    """The table of this repository. Its lines may have been counted before the last change."""

    def setUp(self):
        _, _, rest = (times.ROOT / times.PAGE).read_text("utf-8").partition(times.BEGIN)
        rows = re.findall(r"^\| `(\w+)` \|(.*)\|$", rest.partition(times.END)[0], re.MULTILINE)
        self.rows = {crate: [cell.strip() for cell in cells.split("|")] for crate, cells in rows}

    def test_it_has_a_row_for_each_crate(self):
        self.assertEqual(list(self.rows), list(listed(times.ROOT)), "run tools/times.py")

    def test_its_seconds_are_those_of_the_file(self):
        taken = sampling.read_lines((times.ROOT / times.SECONDS).read_text("utf-8"))
        for crate, cells in self.rows.items():
            for kind, cell in zip(sampling.KINDS, cells):
                if (crate, kind) in taken or cell.strip("?"):
                    with self.subTest(crate=crate, kind=kind):
                        self.assertEqual(cell, times.cell(taken.get((crate, kind)), True), "run tools/times.py")


if __name__ == "__main__":
    unittest.main()
