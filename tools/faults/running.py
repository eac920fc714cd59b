"""Runs the program as a shell would, and keeps what it read."""

import os
import signal
import stat
import subprocess
import sys
from threading import Thread

from attended import attended, end_by, tied
from faults.explaining import explanation
from faults.files import FilesRefused, with_files
from faults.sources import File
from telling import printable

CHUNK = 65536
READ_FAULT, WRITE_FAULT = 6, 7


def is_file() -> bool:
    """Whether standard input is a file, which can be read once more."""
    return stat.S_ISREG(os.fstat(0).st_mode)


def feed(process: subprocess.Popen[bytes], kept: bytearray, faults: list[OSError]) -> None:
    """Hands standard input on to the program until either ends, and keeps it. Where it can't be read, the program, which writes
    nothing before it has read all, is ended, since it would wait for more."""
    assert process.stdin
    try:
        while chunk := os.read(0, CHUNK):
            kept += chunk
            while chunk:
                chunk = chunk[os.write(process.stdin.fileno(), chunk) :]
    except BrokenPipeError:
        pass
    except OSError as fault:
        faults.append(fault)
        process.kill()
    process.stdin.close()


def run_on_file(command: list[str]) -> tuple[int, bytes, bytes]:
    """The status, the notes and the source of a run that reads the file itself."""
    at = os.lseek(0, 0, os.SEEK_CUR)
    process = subprocess.Popen(command, stderr=subprocess.PIPE, preexec_fn=tied())
    notes = notes_of(process)
    read = os.lseek(0, 0, os.SEEK_CUR) - at
    return process.returncode, notes, os.pread(0, read, at) if read else b""


def run_on_stream(command: list[str]) -> tuple[int, bytes, bytes]:
    """The same where the source is handed on. The program may end, as by its words, before anything was read."""
    process = subprocess.Popen(command, stdin=subprocess.PIPE, stderr=subprocess.PIPE, preexec_fn=tied())
    kept, faults = bytearray(), list[OSError]()
    Thread(target=feed, args=(process, kept, faults), daemon=True).start()
    notes = notes_of(process)
    return (READ_FAULT, b"read fault\n", b"") if faults else (process.returncode, notes, bytes(kept))


def notes_of(process: subprocess.Popen[bytes]) -> bytes:
    """What the program notes until it ends, with the signals that come meanwhile handed on to it."""
    assert process.stderr
    with attended(process):
        return process.stderr.read()


def run(command: list[str]) -> tuple[int, bytes, bytes]:
    return run_on_file(command) if is_file() else run_on_stream(command)


def tell(notes: bytes) -> bool:
    """Writes the notes of the program as they are, and says whether that could be done."""
    try:
        sys.stderr.buffer.write(notes)
        sys.stderr.buffer.flush()
        return True
    except OSError:
        return False


def main(command: list[str]) -> int:
    """Runs the program, tells its notes and explains them, and ends as it did: with its status, or by the signal that ended it."""
    if signal.getsignal(signal.SIGINT) is signal.default_int_handler:
        signal.signal(signal.SIGINT, signal.SIG_DFL)
    try:
        words, files = with_files(command[1:])
    except FilesRefused as refused:
        tell(f"cardhouse: {printable(str(refused))}\n".encode(sys.stderr.encoding, "backslashreplace"))
        return refused.status
    status, notes, source = run([command[0], *words])
    is_told = tell(notes)
    if status < 0:
        end_by(-status)
    if not is_told:
        return status or WRITE_FAULT
    if status:
        explain(notes, source, words, files)
    return status


def explain(notes: bytes, source: bytes, words: list[str], files: tuple[File, ...]) -> None:
    """Explains the first line that can be. What runs the program may have noted more, before it or behind."""
    for note in notes.decode("latin-1").splitlines():
        lines = explanation(note, source, words, files)
        if lines:
            said = "".join(f"{printable(line)}\n" for line in ["", *lines])
            tell(said.encode(sys.stderr.encoding, "backslashreplace"))
            return
