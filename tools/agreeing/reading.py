"""What the second reading of the rules says of a case."""

import signal
from collections.abc import Callable, Sequence
from dataclasses import dataclass
from typing import TypeVar

from agreeing.cases import Case
from agreeing.others import Words
from agreeing.program import End
from second.commands import command_of
from second.measuring import measured
from second.playing import played, replayed
from second.printing import printed
from second.refusing import sheet_fault
from second.running import ended, items_of, judged
from second.sources import Form, lists_of

DONE = 0

T = TypeVar("T")


class TooSlow(Exception):
    """The second reading took longer than it may."""


@dataclass(frozen=True)
class Reading:
    """The fault of the sheet, the transcript in both formats and the printed sheet, what was asked of playouts, how `migrate` and `measure`
    are to end of each of some texts, and how other commands are."""

    fault: tuple[str, int] | None
    text: bytes
    named: bytes
    sheet: bytes
    asks: list[tuple]
    migrated: list[End]
    measured: list[End]
    others: list[End]


def stop(*_: object) -> None:
    raise TooSlow


def reading_of(case: Case, texts: Sequence[bytes], others: Sequence[Words], seconds: float) -> Reading | None:
    """The second reading of a case, of some texts behind it and of the words of other commands, if it takes no more seconds of a
    processor."""

    def read() -> Reading:
        sheet, plan = lists_of(case.source(), 2)[0]
        named, asks = played(sheet, plan, named=True)
        text = replayed(sheet, plan, items_of(named), named=False)
        ends = [migrated(sheet, plan, it) for it in texts]
        measures = [measures_of(end) or end for end in ends]
        told = [other(case, words) for words in others]
        return Reading(sheet_fault(case.sheet), text.encode(), named.encode(), printed(sheet).encode(), asks, ends, measures, told)

    return within(seconds, read)


def search_of(case: Case, words: Words, seconds: float) -> End | None:
    """How a search is to end of a case, if the second reading takes no more seconds of a processor."""
    return within(seconds, lambda: other(case, words))


def within(seconds: float, read: Callable[[], T]) -> T | None:
    """What is read, if that takes no more seconds of a processor."""
    before = signal.signal(signal.SIGVTALRM, stop)
    signal.setitimer(signal.ITIMER_VIRTUAL, seconds)
    try:
        return read()
    except TooSlow:
        return None
    finally:
        signal.setitimer(signal.ITIMER_VIRTUAL, 0)
        signal.signal(signal.SIGVTALRM, before)


def measures_of(migrated: End) -> End | None:
    """How `measure` is to end of a text of which this is the one in format 2, if there is one."""
    if migrated.status:
        return None
    text = migrated.text.decode()
    return End(DONE, measured(text, text.count("\nstanding ")).encode(), b"")


def other(case: Case, words: Words) -> End:
    """How a command is to end of a case."""
    command = command_of([*words])
    if not command:
        raise ValueError(words)
    end = ended(command, case.source())
    return End(end.status, end.text.encode(), end.note.encode())


def migrated(sheet: Form, plan: Form, text: bytes) -> End:
    """How `migrate` is to end of a text."""
    refused, items = judged(sheet, plan, text)
    if refused:
        return End(refused.status, b"", refused.note.encode())
    return End(DONE, replayed(sheet, plan, iter(items), named=True).encode(), b"")
