"""Tests that what isn't a file is refused in the place of one, and that no more is read than may stand in it."""

import os
import socket
import sys
import tempfile
import unittest
from pathlib import Path
from unittest.mock import patch

from inputs import LONGEST, SOURCE, TooLong, contents, front
from scripted import ROOT, Scripted
from started import run

SECONDS = 30
READ_FAULT, TOO_LONG = 6, 8


class Housed(unittest.TestCase):
    """Tests with one name for each kind of what isn't a file."""

    def setUp(self) -> None:
        folder = tempfile.TemporaryDirectory()
        self.addCleanup(folder.cleanup)
        self.root = Path(folder.name)
        (self.root / "folder").mkdir()
        os.mkfifo(self.root / "pipe")
        (self.root / "device").symlink_to("/dev/zero")
        self.socket = socket.socket(socket.AF_UNIX)
        self.addCleanup(self.socket.close)
        self.socket.bind(str(self.root / "socket"))
        self.kinds = [("folder", "a folder"), ("pipe", "a pipe"), ("device", "a device"), ("socket", "a socket")]

    def write(self, name: str, length: int) -> Path:
        """A file of so many bytes, which take no room on the disk."""
        with (self.root / name).open("wb") as file:
            file.truncate(length)
        return self.root / name


class Files(Housed):
    def test_what_is_no_file(self) -> None:
        for name, kind in self.kinds:
            with self.subTest(name), self.assertRaises(OSError) as refused:
                contents(str(self.root / name), 9)
            self.assertEqual(refused.exception.strerror, f"it is {kind}")

    def test_one_that_becomes_a_pipe_meanwhile(self) -> None:
        with patch("inputs.os.stat", return_value=os.stat(__file__)), self.assertRaises(OSError) as refused:
            contents(str(self.root / "pipe"), 9)
        self.assertEqual(refused.exception.strerror, "it is a pipe")

    def test_how_much_is_read(self) -> None:
        name = str(self.write("a", 9))
        self.assertEqual(([len(front(name, most)) for most in (8, 7, 9, 10)], len(contents(name, 9))), ([9, 8, 9, 9], 9))
        with self.assertRaises(TooLong) as refused:
            contents(name, 8)
        self.assertEqual(str(refused.exception), "it has more than 8 bytes")

    def test_ports_of_the_caller_are_read(self) -> None:
        reading, writing = os.pipe()
        os.write(writing, b"abc")
        os.close(writing)
        self.assertEqual(contents(f"/dev/fd/{reading}", 3), b"abc")
        os.close(reading)
        one, other = socket.socketpair()
        other.send(b"abc")
        other.close()
        self.assertEqual(contents(f"/proc/self/fd/{one.fileno()}", 3), b"abc")
        one.close()

    def test_a_folder_is_no_port(self) -> None:
        folder = os.open(self.root, os.O_RDONLY)
        self.assertRaises(OSError, contents, f"/dev/fd/{folder}", 3)
        os.close(folder)


class Tools(Housed):
    """Each tool ends at once, with the status that the program has for the same."""

    def check(self, status: int, said: str, *command: object, **how: object) -> None:
        ran = run([ROOT / "tools" / str(command[0]), *command[1:]], cwd=self.root, seconds=SECONDS, **how)
        self.assertEqual((ran.returncode, ran.stdout), (status, b""))
        self.assertEqual(ran.stderr.decode(), f"{said}\n")

    def test_lint(self) -> None:
        for name, kind in self.kinds:
            self.check(READ_FAULT, f"lint: {name} can't be read: it is {kind}.", "lint", name)
        self.write("long", SOURCE + 1)
        self.check(TOO_LONG, f"lint: long can't be a sheet: it has more than {SOURCE} bytes.", "lint", "long")

    def test_table(self) -> None:
        for name, kind in self.kinds:
            self.check(READ_FAULT, f"{name}: it is {kind}", "table", name)
        self.write("long", LONGEST + 1)
        self.check(TOO_LONG, f"long: it has more than {LONGEST} bytes", "table", "long")
        with open("/dev/zero", "rb") as zero:
            self.check(TOO_LONG, f"standard input: it has more than {LONGEST} bytes", "table", stdin=zero)

    def test_series(self) -> None:
        self.write("a.plan", SOURCE + 1)
        self.write("long.sheet", SOURCE + 1)
        for name, kind in self.kinds:
            self.check(READ_FAULT, f"{name}: it is {kind}", "series", "split", "a", name, "a.plan")
        self.check(TOO_LONG, f"long.sheet: it has more than {SOURCE} bytes", "series", "split", "a", "long.sheet", "a.plan")
        for name, kind in self.kinds:
            if name != "socket":
                place = self.root / f"of_{name}"
                place.mkdir()
                (self.root / name).rename(place / "series.json")
                self.check(READ_FAULT, f"of_{name}/series.json: it is {kind}", "series", "table", place.name)


class Script(Scripted):
    def test_what_is_no_file(self) -> None:
        os.mkfifo(self.root / "pipe")
        (self.root / "device").symlink_to("/dev/zero")
        self.write("a.sheet", "(game)")
        for option in ((), ("--explain",)):
            for name in ("pipe", "device"):
                ran = self.run_script(*option, "play", "a.sheet", name, seconds=SECONDS)
                self.assertEqual((ran.returncode, ran.stderr), (6, f"cardhouse: {name} can't be read: it is a {name}\n".encode()))

    def test_a_pipe_that_a_shell_opens(self) -> None:
        words = ["bash", "-c", "./cardhouse sheet <(printf '(game)')"]
        names = {**os.environ, "NOTE": "", "STATUS": "0", "SAID": "said"}
        ran = run(words, seconds=SECONDS, cwd=self.root, env=names)
        self.assertEqual((ran.returncode, ran.stdout), (0, b"(game)"))


if __name__ == "__main__":
    sys.exit(unittest.main())
