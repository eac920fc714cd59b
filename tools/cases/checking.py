"""Runs all cases, and says what doesn't come out as expected."""

import argparse
import os
import sys
from collections.abc import Iterable, Iterator
from concurrent.futures import ThreadPoolExecutor
from dataclasses import replace
from pathlib import Path

from cases.bench import TRICKS, read_bench
from cases.cuts import read_bytes, read_cuts
from cases.lengths import FIRST, read_longest
from cases.language import PAGES, read_page
from cases.plays import read_plays
from cases.rows import ROOT, Mistake, name_of
from cases.running import Case, build
from cases.sheets import read_frames, read_sheets
from cases.texts import read_texts
from cases.words import read_words

HERE = ROOT / "cases"
BYTES = ROOT / "docs/FORMATS.md"
OTHER_FILES = {"frames", "source", "text"}
SUFFIXES = {".cases", ".plays", ".texts"}


def read_folder(folder: Path) -> Iterator[tuple[Path, list[Case]]]:
    """The cases of a folder, by file."""
    for file in folder.iterdir():
        if file.name not in OTHER_FILES and file.suffix not in SUFFIXES:
            raise Mistake(f"{name_of(file)}: a file of another name than cases have")
    sheets, plays, texts = (sorted(folder.glob(f"*.{kind}")) for kind in ("cases", "plays", "texts"))
    frames = read_frames(folder) if sheets else {}
    source = (folder / "source").read_text("ascii") if plays or texts else ""
    text = (folder / "text").read_text("ascii") if texts else ""
    yield from ((file, list(read_sheets(file, frames))) for file in sheets)
    yield from ((file, list(read_plays(file, source))) for file in plays)
    yield from ((file, list(read_texts(file, source, text))) for file in texts)


def read_all() -> dict[Path, list[Case]]:
    """The cases of all files, by file."""
    frames = read_frames(HERE / "language")
    cases = {page: list(read_page(page, frames)) for page in PAGES}
    cases[TRICKS] = list(read_bench(TRICKS))
    cases[FIRST] = [*read_longest(FIRST), *read_cuts(FIRST)]
    cases[BYTES] = list(read_bytes(BYTES))
    cases[HERE / "words.rows"] = list(read_words(HERE / "words.rows"))
    for folder in sorted(path for path in HERE.iterdir() if path.is_dir()):
        cases.update(read_folder(folder))
    for file, of_file in cases.items():
        if not of_file:
            raise Mistake(f"{name_of(file)}: it has no cases")
    return cases


def failures(cases: Iterable[Case]) -> list[str]:
    """What is to be said of the cases that fail, which run side by side."""
    with ThreadPoolExecutor(os.cpu_count()) as pool:
        return [said for said in pool.map(Case.run, cases) if said]


def program_in(words: list[str] | None) -> Path | None:
    """The program that the words name, if any."""
    parser = argparse.ArgumentParser("cases/check", description="Runs the cases of this folder, and fails where one doesn't come out.")
    parser.add_argument("program", nargs="?", type=Path, metavar="PROGRAM", help="one to run in place of the proved one, which is built first")
    program = parser.parse_args(words).program
    if program and not os.access(program, os.X_OK):
        parser.error(f"{program} can't be run")
    return program and program.resolve()


def main(words: list[str] | None = None) -> int:
    program = program_in(words)
    try:
        cases = read_all()
        if not program:
            build()
        failed = failures(replace(case, program=program) for of_file in cases.values() for case in of_file)
    except (Mistake, OSError, UnicodeError) as error:
        print(f"cases/check: {error}", file=sys.stderr)
        return 1
    for said in failed:
        print(said, file=sys.stderr)
    for file, of_file in cases.items():
        print(f"{name_of(file)}: {len(of_file)} cases")
    print(f"{sum(map(len, cases.values()))} cases in {len(cases)} files, {len(failed)} failed")
    return 1 if failed else 0
