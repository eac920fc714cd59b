"""The command `release`."""

from __future__ import annotations

import argparse
from pathlib import Path

from checkout import BUILT, ROOT
from passed import passed
from pieces.program import digest, told_by
from pieces.storing import write_whole
from releasing.packing import debian, summed, tarred
from releasing.tree import tree_of
from tables.ending import TEXT, WRITE_FAULT, Refused, status_of
from tables.running import Words
from telling import printable
from versions import version_of

SUMS = "SHA256SUMS"


def parser() -> argparse.ArgumentParser:
    said = "Makes a Debian package and a tar of the program that the gate proved, with its tools and pages."
    words = Words("cardhouse release", description=said, allow_abbrev=False)
    words.add_argument("folder", type=Path, metavar="DIR", help="where the files go; it is made where it isn't there")
    return words


def main(words: list[str]) -> int:
    options = parser().parse_args(words)
    return status_of(lambda: release(ROOT, options.folder))


def release(root: Path, folder: Path) -> None:
    """Writes the release of a commit, of whose sources the program is that the gate proved."""
    commit, seconds = commit_of(root)
    kit = passed(root)["kit"]
    write(folder, files_of(root, (root / BUILT).read_bytes(), commit, kit, seconds))


def commit_of(root: Path) -> tuple[str, int]:
    """The commit of which a checkout is to the byte, and its time."""
    git = ("git", "-C", str(root))
    said = told_by(*git, "log", "-1", "--format=%H %ct")
    if not said:
        raise Refused(TEXT, "this is no checkout of a commit, by which a release is known")
    changed = told_by(*git, "status", "--porcelain")
    if changed != "":
        raise Refused(TEXT, "files differ from the commit, by which a release is known: commit them, or take them out")
    commit, seconds = said.split()
    return commit, int(seconds)


def files_of(root: Path, program: bytes, commit: str, kit: str, seconds: int) -> dict[str, bytes]:
    """The files of a release, by their names."""
    version = version_of(root)
    facts = {"version": version, "commit": commit, "kit": kit, "program": digest(program)}
    tree = tree_of(root, program, facts)
    files = {
        f"cardhouse_{version}-1_amd64.deb": debian(root, tree, facts, program, seconds),
        f"cardhouse-{version}-amd64.tar.gz": tarred(tree, f"cardhouse-{version}", seconds),
    }
    return {**files, SUMS: summed(files)}


def write(folder: Path, files: dict[str, bytes]) -> None:
    """Writes the files, each as a whole, and tells them. No part of a package stands under its name, and no link is followed."""
    try:
        folder.mkdir(parents=True, exist_ok=True)
        for name, data in files.items():
            write_whole(folder / name, data)
    except OSError as error:
        raise Refused(WRITE_FAULT, f"{error.filename or folder}: {error.strerror}") from None
    for name in files:
        print(printable(str(folder / name)))
