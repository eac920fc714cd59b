"""The command `bench/agree`."""

import argparse
import os
import sys
import time
from collections import Counter
from pathlib import Path

from agreeing.cases import Case, case_of
from agreeing.comparing import Comparing, Kind, Result
from agreeing.program import PROGRAM, Program

SECONDS = 3600
BETWEEN = 60
NO_PROGRAM = 127


class Tally:
    """What came of all cases."""

    def __init__(self) -> None:
        self.kinds: Counter[str] = Counter()
        self.whys: Counter[str] = Counter()
        self.sums: Counter[str] = Counter()
        self.disagreeing = 0

    def add(self, result: Result) -> None:
        self.kinds[result.kind.value] += 1
        self.disagreeing += bool(result.disagreements)
        if result.kind is Kind.REFUSED:
            self.whys[result.why] += 1
        for name in ("matches", "choices", "shuffles", "looks", "hits", "read"):
            self.sums[name] += getattr(result, name)
        self.sums["without a choice"] += result.kind is Kind.ACCEPTED and not result.choices

    def __str__(self) -> str:
        kinds = ", ".join(f"{self.kinds[kind.value]} {kind.value}" for kind in Kind)
        whys = "".join(f"; {count} {why}" for why, count in self.whys.most_common())
        sums = ", ".join(f"{self.sums[name]} {name}" for name in ("matches", "choices", "shuffles", "looks", "hits"))
        idle = self.sums["without a choice"]
        return (
            f"{self.kinds.total()} cases: {kinds}{whys}; {idle} without a choice\n"
            f"judged {sums}; {self.sums['read']} cases read a second time\n"
            f"{self.disagreeing} cases in which runs disagree"
        )


def parser() -> argparse.ArgumentParser:
    """What the words may be."""
    said = "Makes sheets and plans by chance, and compares what the program writes of them in all ways that are to agree."
    words = argparse.ArgumentParser("bench/agree", description=said, allow_abbrev=False)
    words.add_argument("--seconds", type=float, default=SECONDS, metavar="N", help=f"how long it makes cases, {SECONDS} by default")
    words.add_argument("--seed", type=int, default=1, metavar="N", help="by which the cases are made")
    words.add_argument("--case", type=int, metavar="N", help="this case of the seed alone, whose source is shown")
    words.add_argument("--keep", type=Path, metavar="FOLDER", help="where sources are kept of which runs disagree")
    program = os.environ.get("CARDHOUSE_PROGRAM") or PROGRAM
    words.add_argument("--program", type=Path, default=program, help="a built program; else CARDHOUSE_PROGRAM, else that of this checkout")
    words.add_argument("--other", type=Path, metavar="PROGRAM", help="another one, as an older build, which is to write the same")
    words.add_argument("--second", action="store_true", help="compares what bench/second plays too, which takes longer")
    return words


def main() -> int:
    """Compares cases until the time is over. Ends with 1 where runs disagree."""
    told = parser().parse_args()
    for file in filter(None, (told.program, told.other)):
        if not os.access(file, os.X_OK):
            print(f"bench/agree: there is no program {file}; ./cardhouse build proves and builds it", file=sys.stderr)
            return NO_PROGRAM
    comparing = Comparing(Program(told.program), Program(told.other) if told.other else None, told.second)
    tally = Tally()
    if told.case is not None:
        sys.stdout.buffer.write(case_of(told.seed, told.case).source())
        compare(comparing, case_of(told.seed, told.case), told.keep, tally)
    else:
        compare_until(time.monotonic() + told.seconds, comparing, told, tally)
    print(tally)
    return 1 if tally.disagreeing else 0


def compare_until(end: float, comparing: Comparing, told: argparse.Namespace, tally: Tally) -> None:
    """Compares one case after the other, and tells now and then how far it came."""
    number, tell_at = 0, time.monotonic() + BETWEEN
    while time.monotonic() < end:
        compare(comparing, case_of(told.seed, number), told.keep, tally)
        number += 1
        if time.monotonic() > tell_at:
            print(tally, flush=True)
            tell_at += BETWEEN


def compare(comparing: Comparing, case: Case, folder: Path | None, tally: Tally) -> None:
    """Compares the runs of a case, and tells and keeps where they disagree."""
    result = comparing.result(case)
    tally.add(result)
    for said in result.disagreements:
        print(f"seed {case.seed} case {case.number}: {said}", flush=True)
    if result.disagreements and folder:
        keep(folder, case, result)


def keep(folder: Path, case: Case, result: Result) -> None:
    """Writes the source of a case, and how its runs disagree."""
    folder.mkdir(parents=True, exist_ok=True)
    (folder / f"{case.name()}.sheet").write_bytes(case.sheet)
    (folder / f"{case.name()}.plan").write_bytes(case.plan)
    (folder / f"{case.name()}.said").write_text("".join(f"{said}\n" for said in result.disagreements), "utf-8")
