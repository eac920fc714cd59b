"""The program that plays and judges: where it is, which one it is, and calls of it."""

from __future__ import annotations

import hashlib
import os
import subprocess
import time
from dataclasses import dataclass
from pathlib import Path

import checkout
from attended import tied
from checkout import ROOT
from tables.ending import NOT_BUILT, Refused


def digest(data: bytes) -> str:
    return hashlib.sha256(data).hexdigest()


@dataclass(frozen=True)
class Played:
    """What `play` wrote and noted, and how long it took to play and to judge."""

    text: bytes
    note: str
    seconds: float


class Program:
    """What plays and judges: the program of this checkout or release; or what the environment has in CARDHOUSE, a program, or the
    script `cardhouse` of another checkout or release, whose program it is then."""

    def __init__(self) -> None:
        command = Path(os.environ.get("CARDHOUSE") or ROOT / "cardhouse").resolve()
        self.file = command
        if checkout.is_release(command.parent) or (command.parent / "crates/rc_main").is_dir():
            self.file = checkout.program_of(command.parent)
            if not checkout.is_built(command.parent):
                raise Refused(NOT_BUILT, checkout.NOT_BUILT)

    def digest(self) -> str:
        try:
            return digest(self.file.read_bytes())
        except OSError as error:
            raise self.missing(error) from None

    def call(self, words: list[str], source: bytes) -> subprocess.CompletedProcess[bytes]:
        try:
            return subprocess.run([self.file, *words], input=source, capture_output=True, preexec_fn=tied())
        except OSError as error:
            raise self.missing(error) from None

    def missing(self, error: OSError) -> Refused:
        return Refused(NOT_BUILT, f"{self.file}: {error.strerror}")

    def play(self, source: bytes, format: int) -> Played:
        """Plays a sheet and a plan, and has the transcript judged, which is to be legal."""
        began = time.monotonic()
        played = self.call(["play"] if format == 1 else ["play", "--format", str(format)], source)
        if played.returncode:
            raise refusal(played)
        self.judge(source, played.stdout)
        return Played(played.stdout, played.stderr.decode("utf-8", "replace").strip(), time.monotonic() - began)

    def judge(self, source: bytes, text: bytes) -> None:
        """Asks that a transcript is legal."""
        judged = self.call(["check"], source + b"\n" + text)
        if (judged.returncode, judged.stdout) != (0, b"legal\n"):
            raise refusal(judged)


def refusal(ended: subprocess.CompletedProcess[bytes]) -> Refused:
    """What the program told, with its status."""
    told = ended.stderr.decode("utf-8", "replace").strip() or f"the program ended with {ended.returncode}"
    return Refused(ended.returncode if ended.returncode > 0 else NOT_BUILT, told)


def told_by(*command: str) -> str | None:
    """What a command writes, if it is there and ends well."""
    try:
        ran = subprocess.run(command, cwd=ROOT, capture_output=True, text=True)
    except OSError:
        return None
    return ran.stdout.strip() if ran.returncode == 0 else None


def commit() -> str | None:
    """The commit of this release or checkout, with `-dirty` behind it where files of a checkout differ from it."""
    described = ("git", "describe", "--always", "--abbrev=40", "--exclude=*", "--dirty")
    return checkout.facts_of(ROOT).get("commit") or told_by(*described)


def kit() -> str | None:
    """The line of the kit that proved the program of this release, or by which the kit here is known."""
    return checkout.facts_of(ROOT).get("kit") or told_by("rt", "version")
