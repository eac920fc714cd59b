"""Plays a piece, or plays pieces once more to see that they come out as before."""

import hashlib
import math
import os
import sys
from pathlib import Path
from typing import TextIO

from pieces.folder import MISSING, Done, Series
from pieces.program import Program, digest
from pieces.storing import remove_left, write_object, write_whole
from tables.ending import TEXT, USAGE, Refused
from tables.running import read


def run(folder: Path, number: int) -> None:
    """Plays and judges a piece; does nothing where that is done. What tells that it is done is written last."""
    series = Series(folder)
    remove_left(folder)
    source = series.source(number)
    fault = series.fault(number)
    if fault:
        play(series, number, source)
    if fault and fault != MISSING:
        write_line(sys.stderr, f"piece {number} {fault}, and was played again")
    write_line(sys.stdout, f"piece {number} of {len(series.pieces)}, {series.played()} done")


def write_line(out: TextIO, line: str) -> None:
    """Writes a line in one piece, with its end, since other pieces of the series may be played at the same time and told there too."""
    out.write(f"{line}\n")
    out.flush()


def play(series: Series, number: int, source: bytes) -> None:
    """Plays a piece by the program of the series, whatever is there of it already."""
    program = Program()
    refuse_other(series, program)
    played = program.play(source, series.split.format)
    refuse_other(series, program)
    host, seconds = os.uname().nodename, round(played.seconds, 1)
    plan, program_digest = series.piece(number).plan, series.split.program
    done = Done(plan, digest(played.text), program_digest, "legal", host, seconds, played.note)
    write_whole(series.file(number, "transcript"), played.text)
    write_object(series.file(number, "json"), done)


def refuse_other(series: Series, program: Program) -> None:
    if program.digest() != series.split.program:
        raise Refused(TEXT, f"{program.file} isn't the program with which {series.folder} was split")


def again(folder: Path, numbers: list[int]) -> None:
    """Plays pieces once more, here, and says of each whether it is the same to the byte."""
    series, program = Series(folder), Program()
    differing = [number for number in numbers if not is_same(series, number, program)]
    other = "" if program.digest() == series.split.program else ", by another program than that of the series"
    told = f"{len(numbers)} of {len(series.pieces)} pieces played again{other}"
    if differing:
        raise Refused(TEXT, f"{told}; these differ: {' '.join(map(str, differing))}")
    print(f"{told}; all are the same")


def is_same(series: Series, number: int, program: Program) -> bool:
    """Plays a piece once more, and says whether it is the same."""
    fault = series.fault(number)
    if fault:
        raise Refused(TEXT, f"piece {number} {fault}")
    before, now = read(series.file(number, "transcript")), program.play(series.source(number), series.split.format).text
    how = "is the same to the byte" if now == before else f"differs from line {line_of(before, now)} on"
    print(f"piece {number} {how}", flush=True)
    return now == before


def line_of(before: bytes, now: bytes) -> int:
    """The number of the first line that differs, from 1."""
    same = os.path.commonprefix([before, now])
    return same.count(b"\n") + 1


def picked(folder: Path, share: float) -> list[int]:
    """A share of the pieces, at least one, picked by the digest of series.json: those whose numbers, written behind it, have the
    least digests."""
    if not 0 < share <= 1:
        raise Refused(USAGE, f"a share is more than 0 and at most 1, and not {share}")
    series = Series(folder)
    count = math.ceil(share * len(series.pieces))
    ranked = sorted(range(len(series.pieces)), key=lambda it: hashlib.sha256(f"{series.digest} {it}".encode()).digest())
    return sorted(ranked[:count])
