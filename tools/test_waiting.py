"""Tests that ports which don't block are waited for: what comes late is read, and what can't be written yet is written later."""

import fcntl
import os
import pty
import socket
import subprocess
import sys
import time
import unittest
from threading import Thread

from ports import let_one_block
from scripted import ROOT, Scripted
from started import started

SECONDS = 30
LONG = 300_000
TEXT = (ROOT / "examples/first.transcript").read_bytes()


def pipe(*unblocking: int) -> tuple[int, int]:
    """A pipe, of which the ends with these numbers don't block."""
    ends = os.pipe()
    for end in unblocking:
        os.set_blocking(ends[end], False)
    return ends


def write_late(port: int, data: bytes) -> None:
    """Writes half of the data a while from now, the rest later, and closes the port."""
    for part in (data[: len(data) // 2], data[len(data) // 2 :]):
        time.sleep(0.3)
        with memoryview(part) as left:
            while left:
                left = left[os.write(port, left) :]
    os.close(port)


def read_late(port: int) -> bytes:
    """All that comes out of a port, read from a while from now on."""
    time.sleep(0.6)
    read = bytearray()
    while more := os.read(port, 65536):
        read += more
    os.close(port)
    return bytes(read)


class Waiting(Scripted):
    """The program writes what it reads, and stops at the first read or write that comes back with nothing done."""

    def ran(self, command: list[object], data: bytes, source: int, into: int, output: tuple[int, int]) -> bytes:
        """What a command writes to a port that is read late, where what it reads is written late into another."""
        names = {**os.environ, "NOTE": "", "STATUS": "0", "SAID": str(self.root / "said")}
        how = {"cwd": self.root, "env": names, "stdin": source, "stdout": output[1], "stderr": subprocess.PIPE}
        with started(list(map(str, command)), **how) as process:
            os.close(source)
            os.close(output[1])
            Thread(target=write_late, args=(into, data)).start()
            written = read_late(output[0])
            assert process.stderr
            self.assertEqual((process.wait(SECONDS), process.stderr.read()), (0, b""))
        return written

    def test_pipes(self) -> None:
        data = b"x" * LONG
        for words in (["play"], ["--explain", "play"]):
            with self.subTest(words):
                (source, into), output = pipe(0), pipe(1)
                self.assertEqual(self.ran(["./cardhouse", *words], data, source, into, output), data)

    def test_sockets(self) -> None:
        data = b"x" * LONG
        for words in (["play"], ["--explain", "play"]):
            with self.subTest(words):
                ends = [end for _ in range(2) for end in socket.socketpair()]
                source, into, reading, writing = [end.detach() for end in ends]
                os.set_blocking(source, False)
                os.set_blocking(writing, False)
                self.assertEqual(self.ran(["./cardhouse", *words], data, source, into, (reading, writing)), data)

    def test_files_and_an_output(self) -> None:
        self.write("a.sheet", "x" * LONG)
        source, into = pipe()
        self.assertEqual(self.ran(["./cardhouse", "sheet", "a.sheet"], b"", source, into, pipe(1)), b"x" * LONG)

    def test_a_table(self) -> None:
        (source, into), output = pipe(0), pipe(1)
        self.assertIn(b"1 match, 0 ended", self.ran([ROOT / "tools/table"], TEXT, source, into, output))

    def test_findings(self) -> None:
        mistakes = "".join(f"(do (set (game sto N{number}) 1))\n" for number in range(99))
        self.write("a.sheet", (ROOT / "docs/lint.sheet").read_text().replace("(scoring", f"{mistakes}(scoring"))
        reading, writing = pipe(1)
        fcntl.fcntl(writing, fcntl.F_SETPIPE_SZ, 4096)
        with started([ROOT / "tools/lint", self.root / "a.sheet"], stdin=subprocess.DEVNULL, stdout=writing) as process:
            os.close(writing)
            self.assertEqual((read_late(reading).count(b"\n"), process.wait(SECONDS)), (108, 1))


class Ports(unittest.TestCase):
    def test_who_shares_a_pipe_sees_nothing_of_it(self) -> None:
        reading, writing = pipe(0, 1)
        for end in (reading, writing):
            shared = os.dup(end)
            let_one_block(end)
            self.assertEqual((os.get_blocking(end), os.get_blocking(shared)), (True, False))
            os.close(shared)
        os.write(writing, b"abc")
        self.assertEqual(os.read(reading, 9), b"abc")
        os.close(reading)
        os.close(writing)

    def test_a_terminal(self) -> None:
        leader, follower = pty.openpty()
        os.set_blocking(follower, False)
        let_one_block(follower)
        self.assertTrue(os.get_blocking(follower))
        os.close(leader)
        os.close(follower)


if __name__ == "__main__":
    sys.exit(unittest.main())
