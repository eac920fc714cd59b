"""Tests of tools/pages.py."""

import io
import tempfile
import time
import unittest
from contextlib import redirect_stderr
from pathlib import Path
from unittest.mock import patch

import pages


class Blocks(unittest.TestCase):
    def test_a_block_has_its_line_language_comment_and_text(self):
        page = "Text\n\n<!-- all of a.sheet -->\n```\n(a)\n```\n\n```console\n$ true\n```\n"
        self.assertEqual(
            list(pages.read_blocks(page)),
            [pages.Block(4, "", "all of a.sheet", "(a)\n"), pages.Block(8, "console", "", "$ true\n")],
        )

    def test_a_command_ends_where_the_next_begins(self):
        self.assertEqual(
            pages.read_commands("$ a | b\none\ntwo\n$ c\n"),
            [pages.Command("a | b", "one\ntwo\n"), pages.Command("c", "")],
        )

    def test_lines_may_be_indented_otherwise(self):
        self.assertTrue(pages.has_lines("a\n    b\n      c\nd\n", "b\n  c\n"))
        self.assertFalse(pages.has_lines("a\n    b\n      c\nd\n", "b\nc\n"))
        self.assertFalse(pages.has_lines("a\nb\nc\n", "a\nc\n"))


class Faults(unittest.TestCase):
    def setUp(self):
        folder = tempfile.TemporaryDirectory()
        self.addCleanup(folder.cleanup)
        self.root = Path(folder.name)
        (self.root / "a.sheet").write_text("one\ntwo\n")

    def faults(self, text, language="", comment=""):
        return list(pages.block_faults(self.root, pages.Block(7, language, comment, text)))

    def test_a_file_is_quoted_as_it_is(self):
        self.assertEqual(self.faults("one\ntwo\n", comment="all of a.sheet"), [])
        self.assertEqual(self.faults("two\n", comment="from a.sheet"), [])
        self.assertEqual(self.faults("two\n", comment="all of a.sheet"), ["line 7: this isn't the text of a.sheet"])
        self.assertEqual(self.faults("three\n", comment="from a.sheet"), ["line 7: this isn't the text of a.sheet"])
        self.assertEqual(self.faults("one\n", comment="from b.sheet"), ["line 7: there is no file b.sheet"])

    def test_a_command_writes_what_stands_behind_it(self):
        self.assertEqual(self.faults("$ cat a.sheet\none\ntwo\n", "console"), [])
        self.assertEqual(len(self.faults("$ cat a.sheet\none\n", "console")), 1)
        self.assertEqual(self.faults("$ echo x; echo y >&2; exit 3\nx\ny\n", "console"), [])

    def test_only_the_line_of_looks_may_be_left_out(self):
        self.assertEqual(self.faults("$ echo x; echo cache looks 3 hits 0 >&2\nx\n", "console"), [])
        self.assertEqual(self.faults("$ echo x; echo cache looks 3 hits 0 >&2\nx\ncache looks 3 hits 0\n", "console"), [])
        self.assertEqual(len(self.faults("$ echo x; echo cache looks 3 hits 0 >&2\nx\ncache looks 4 hits 0\n", "console")), 1)

    def test_a_block_without_a_source_is_told(self):
        self.assertEqual(self.faults("(a)\n"), ["line 7: this block is neither quoted from a file nor run"])
        self.assertEqual(self.faults(".ci/run\n", "sh"), [])

    def test_commands_may_be_left_alone(self):
        block = pages.Block(7, "console", "", "$ echo x >b.sheet\ny\n")
        self.assertEqual(list(pages.block_faults(self.root, block, runs=False)), [])
        self.assertFalse((self.root / "b.sheet").exists())

    def test_a_command_ends_with_what_it_started(self):
        with patch("pages.SECONDS", 0.2):
            (said,) = self.faults("$ (sleep 0.6; echo >b.sheet) & sleep 30\n", "console")
        self.assertIn("doesn't end within 0.2 seconds", said)
        time.sleep(0.8)
        self.assertFalse((self.root / "b.sheet").exists())

    def test_nothing_is_run_where_the_program_isnt_built(self):
        notes = io.StringIO()
        with patch("pages.is_built", lambda root: False), patch("pages.run") as run, redirect_stderr(notes):
            self.assertEqual(pages.main(), pages.UNBUILT)
        run.assert_not_called()
        self.assertEqual(notes.getvalue(), f"tools/pages.py: no command was run, since {pages.NOT_BUILT}\n")

    def test_links_lead_to_files_and_headings(self):
        page = self.root / "page.md"
        page.write_text("# The `first` page, and more\n[a](a.sheet) [b](#the-first-page-and-more) [c](https://example.org) `[d](d)`\n")
        self.assertEqual(list(pages.link_faults(page)), [])
        page.write_text("# Page\n[a](b.sheet) [b](#pages)\n")
        self.assertEqual(
            list(pages.link_faults(page)),
            ["the link b.sheet leads to no file", "the link #pages leads to no heading"],
        )


if __name__ == "__main__":
    unittest.main()
