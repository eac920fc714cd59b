"""Plays on the tree machine and on the flat machine side by side, which are to agree at each stop."""

import re
import shutil
import subprocess
import sys
from collections.abc import Iterable, Iterator
from pathlib import Path
from tempfile import TemporaryDirectory

from cases.checking import failures, read_all
from cases.rows import ROOT, Mistake, Row
from cases.running import Case, End

SOURCE = ROOT / "bench/stops.main"
EXAMPLES = ROOT / "examples"
CRATE = "bench_stops"
LIBRARIES = "rc_base rc_base rc_outside rc_deck rc_form rc_play_spec rc_flow rc_draw rc_table rc_rules rc_plain rc_code rc_flat rc_plan rc_games"

AGREE = re.compile(r"(\d+) stops agree\n")
ROLLS_OUT = re.compile(r"\(rollout\s")


def stops_in(text: str) -> int:
    """At how many stops a match of this text stands: at each choice and at each end."""
    return len(re.findall(r"^(?:choose|end) ", text, re.MULTILINE))


def paired_case(row: Row, source: str, text: str, program: Path) -> Case:
    """The case of a source that is played so. There are as many stops as its text has, but where a seat rolls out: here it picks by
    chance, and matches may be longer or shorter."""
    stops = None if ROLLS_OUT.search(source) else stops_in(text)

    def is_played(end: End) -> bool:
        agree = AGREE.fullmatch(end.out)
        return (end.status, end.notes) == (0, "") and agree is not None and stops in (None, int(agree[1]))

    expected = "stops agree" if stops is None else f"{stops} stops agree"
    return Case(row, (), source, f"that {expected}", is_played, program)


def of_plays(cases: Iterable[Case], program: Path) -> Iterator[Case]:
    """The cases of the plays whose text is known as a whole: it stands behind the source where it is judged."""
    for case in cases:
        if case.row.file.suffix == ".plays" and case.expected == "legal":
            begin = max(case.source.rfind(f"\nhouse {format}\n") for format in (1, 2))
            yield paired_case(case.row, case.source[:begin], case.source[begin:], program)


def of_examples(folder: Path, program: Path) -> Iterator[Case]:
    """The cases of the examples that are played."""
    for sheet in sorted(folder.glob("**/*.sheet")):
        parts = [sheet.with_suffix(suffix) for suffix in (".sheet", ".plan", ".transcript")]
        if all(part.exists() for part in parts):
            source, plan, text = (part.read_text("latin-1") for part in parts)
            yield paired_case(Row(sheet, 1, sheet.stem), source + plan, text, program)


def built_in(room: Path) -> Path:
    """The program, proved and built beside a copy of the crates. The libraries that were proved here are copied too."""
    shutil.copytree(ROOT / "crates", room / "crates", ignore=shutil.ignore_patterns("incremental"))
    shutil.copy(ROOT / "HANDLES", room)
    (room / "crates.txt").write_text(f"{(ROOT / 'crates.txt').read_text('utf-8')}{CRATE}: {LIBRARIES}\n", "utf-8")
    crate = room / "crates" / CRATE
    (crate / "src").mkdir(parents=True)
    shutil.copy(SOURCE, crate / "src/main.rt")
    ran = subprocess.run(["rt", "run"], cwd=crate, stdin=subprocess.DEVNULL, capture_output=True, check=False)
    program = crate / "out" / CRATE
    if not program.exists():
        raise Mistake(f"the program can't be built: {ran.stderr.decode(errors='replace')[-2000:]}")
    return program


def main() -> int:
    with TemporaryDirectory() as room:
        try:
            program = built_in(Path(room))
            plays = of_plays((case for of_file in read_all().values() for case in of_file), program)
            cases = [*plays, *of_examples(EXAMPLES, program)]
            failed = failures(cases)
        except (Mistake, OSError, UnicodeError) as error:
            print(f"bench/stops: {error}", file=sys.stderr)
            return 1
    for said in failed:
        print(said, file=sys.stderr)
    print(f"{len(cases)} sources, {len(failed)} failed")
    return 1 if failed else 0
