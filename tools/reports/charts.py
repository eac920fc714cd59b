"""Charts as inline SVG: bars of a histogram, means with intervals, and lines. Each has its sentence as its name."""

from __future__ import annotations

import math
from collections.abc import Callable, Iterator, Sequence
from dataclasses import dataclass
from html import escape

from reports.intervals import Interval

WIDTH, HEIGHT = 420, 164
LEFT, RIGHT, TOP, BOTTOM = 46, 8, 12, 34
FLOOR = HEIGHT - BOTTOM

# A scale of shares isn't stretched further than this, so that chance doesn't look like a difference.
NARROWEST = 0.16

# How wide a bar is at most, and how many there are of them.
WIDEST, MOST_BARS = 60, 26

Scale = Callable[[float], float]


def number(value: float) -> str:
    """A number as people write it."""
    if abs(value) >= 100 or value == int(value):
        return f"{value:,.0f}".replace("-", "−")
    return f"{value:.3g}".replace("-", "−")


def ticks(low: float, high: float, most: int = 5) -> list[float]:
    """Round values within a range, so many at most."""
    span = high - low or 1
    step = 10 ** math.floor(math.log10(span / most))
    step = next(step * it for it in (1, 2, 2.5, 5, 10, 20) if span / (step * it) <= most)
    first = math.ceil(low / step - 1e-9)
    return [round(it * step, 10) for it in range(first, math.floor(high / step + 1e-9) + 1)]


def scale(low: float, high: float, first: float, last: float) -> Scale:
    """Where the values of a range lie between two places."""
    return lambda value: first + (value - low) / ((high - low) or 1) * (last - first)


def svg(height: float, name: str, parts: list[str]) -> str:
    return f'<svg class="plot" viewBox="0 0 {WIDTH} {height}" role="img" aria-label="{escape(name)}">{"".join(parts)}</svg>'


def text(x: float, y: float, said: str, anchor: str = "middle", style: str = "") -> str:
    return f'<text x="{x:.1f}" y="{y:.1f}" text-anchor="{anchor}" class="{style}">{escape(said)}</text>'


def line(style: str, left: float, right: float, top: float, bottom: float) -> str:
    return f'<line class="{style}" x1="{left:.1f}" x2="{right:.1f}" y1="{top:.1f}" y2="{bottom:.1f}"/>'


def level(style: str, y: float) -> str:
    return line(style, LEFT, WIDTH - RIGHT, y, y)


def upright(low: float, high: float, y: Scale) -> list[str]:
    """The lines and numbers of the axis that goes up."""
    return [level("grid", y(it)) + text(LEFT - 6, y(it) + 4, number(it), "end") for it in ticks(low, high, 4)]


def across_title(said: str, height: float = HEIGHT, left: float = LEFT, right: float = RIGHT) -> str:
    return text((left + WIDTH - right) / 2, height - 3, said, "middle", "title")


@dataclass(frozen=True)
class Bin:
    """A bar: its least and its greatest value, how many have them, and how many of these are marked."""

    low: int
    high: int
    count: int
    marked: int = 0

    @property
    def label(self) -> str:
        return number(self.low) if self.low == self.high else f"{number(self.low)} to {number(self.high)}"


def bins(values: Sequence[int], marked: Sequence[bool] = ()) -> list[Bin]:
    """Bins of whole numbers, equally wide."""
    low, high = min(values), max(values)
    widths = [1, 2, 5, 10, 20, 25, 50, *(int(factor * 10**power) for power in range(2, 10) for factor in (1, 2, 2.5, 5))]
    width = next(it for it in widths if high // it - low // it < MOST_BARS)
    first = low // width
    counts = [0] * (high // width - first + 1)
    marks = [0] * len(counts)
    for at, value in enumerate(values):
        counts[value // width - first] += 1
        marks[value // width - first] += bool(marked and marked[at])
    return [Bin((first + at) * width, (first + at) * width + width - 1, *it) for at, it in enumerate(zip(counts, marks))]


def histogram(found: list[Bin], name: str, across: str, up: str, at: float | None = None, said: str = "") -> str:
    """Bars, of which a part may be marked, and a line at a value."""
    most = max(it.count for it in found)
    y = scale(0, most, FLOOR, TOP)
    parts = [*upright(0, most, y), *bars(found, y), *bar_labels(found)]
    if at is not None:
        x = scale(found[0].low, found[-1].high + 1, LEFT, WIDTH - RIGHT)(at + 0.5)
        is_right = x > WIDTH * 0.7
        parts.append(line("even", x, x, TOP - 6, FLOOR))
        parts.append(text(x - 5 if is_right else x + 5, TOP + 4, said, "end" if is_right else "start", "strong"))
    return svg(HEIGHT, name, [*parts, level("axis", FLOOR), across_title(across), text(LEFT - 6, 0, up, "start", "title")])


def bars(found: list[Bin], y: Scale) -> Iterator[str]:
    each = (WIDTH - LEFT - RIGHT) / len(found)
    gap = min(1.5, each / 8)
    width = max(1.0, min(each - 2 * gap, WIDEST))
    for at, it in enumerate(found):
        x = LEFT + at * each + (each - width) / 2
        yield bar("bar", x, width, y(it.count), f"{it.label}: {it.count:,}")
        if it.marked:
            yield bar("bar marked", x, width, y(it.marked), f"{it.label}: {it.marked:,}")


def bar(style: str, x: float, width: float, top: float, said: str) -> str:
    size = f'x="{x:.1f}" width="{width:.1f}" y="{top:.1f}" height="{FLOOR - top:.1f}"'
    return f'<rect class="{style}" {size}><title>{said}</title></rect>'


def bar_labels(found: list[Bin]) -> list[str]:
    """The least values of bars, of as many as have room."""
    each = (WIDTH - LEFT - RIGHT) / len(found)
    widest = max(len(number(it.low)) for it in found)
    every = max(1, math.ceil((10 + 8 * widest) / each))
    return [text(LEFT + (at + 0.5) * each, FLOOR + 15, number(it.low)) for at, it in enumerate(found) if at % every == 0]


@dataclass(frozen=True)
class Row:
    """A mean: its label, what stands below that, its interval, what would be even, and whether a sentence says that it isn't."""

    label: str
    below: str
    interval: Interval | None
    value: float
    even: float
    is_said: bool

    def ends(self) -> list[float]:
        return [self.even, *([self.interval.low, self.interval.high] if self.interval else [self.value])]


ROWS_LEFT, ROWS_RIGHT, ROWS_TOP, ROW_HEIGHT = 112, 50, 6, 34


def dots(rows: list[Row], name: str, across: str) -> str:
    """A share with its interval for each row, and a mark where it would be if all were equal."""
    floor = ROWS_TOP + ROW_HEIGHT * len(rows)
    low, high = min(min(it.ends()) for it in rows), max(max(it.ends()) for it in rows)
    pad = max((high - low) * 0.08, (NARROWEST - high + low) / 2)
    low, high = max(0.0, low - pad), high + pad
    x = scale(low, high, ROWS_LEFT, WIDTH - ROWS_RIGHT)
    parts = [line("grid", x(it), x(it), ROWS_TOP, floor) + text(x(it), floor + 15, number(it)) for it in ticks(low, high)]
    parts += [dot(row, ROWS_TOP + ROW_HEIGHT * (at + 0.5), x) for at, row in enumerate(rows)]
    return svg(floor + BOTTOM, name, [*parts, across_title(across, floor + BOTTOM, ROWS_LEFT, ROWS_RIGHT)])


def dot(row: Row, y: float, x: Scale) -> str:
    style = "said" if row.is_said else ""
    parts = [text(ROWS_LEFT - 12, y - 1 if row.below else y + 4, row.label, "end", "strong")]
    if row.below:
        parts.append(text(ROWS_LEFT - 12, y + 13, row.below, "end", "code"))
    parts.append(line("even", x(row.even), x(row.even), y - 14, y + 14))
    if row.interval:
        parts.append(line(f"reach {style}", x(row.interval.low), x(row.interval.high), y, y))
    parts.append(f'<circle class="dot {style}" cx="{x(row.value):.1f}" cy="{y}" r="5.5"/>')
    parts.append(text(WIDTH - RIGHT, y + 4, f"{row.value:.2f}", "end", "strong"))
    return "".join(parts)


@dataclass(frozen=True)
class Point:
    """A point of a line, and how far the band around it goes."""

    x: float
    y: float
    low: float
    high: float


def band(points: list[Point], name: str, across: str, ceiling: float, even: float | None = None, said: str = "") -> str:
    """A line from 0 up with a band around it, and a dashed line where chance alone would be."""
    x = scale(points[0].x, points[-1].x, LEFT, WIDTH - RIGHT)
    y = scale(0, ceiling, FLOOR, TOP)
    parts = upright(0, ceiling, y)
    parts += [text(x(it), FLOOR + 15, number(it)) for it in ticks(points[0].x, points[-1].x, 6)]
    edge = [f"{x(it.x):.1f},{y(it.high):.1f}" for it in points] + [f"{x(it.x):.1f},{y(it.low):.1f}" for it in reversed(points)]
    parts.append(f'<polygon class="band" points="{" ".join(edge)}"/>')
    parts.append(f'<polyline class="line" points="{" ".join(f"{x(it.x):.1f},{y(it.y):.1f}" for it in points)}"/>')
    if even is not None:
        parts.append(level("even", y(even)) + text(WIDTH - RIGHT, y(even) - 5, said, "end", "strong"))
    return svg(HEIGHT, name, [*parts, level("axis", FLOOR), across_title(across)])
