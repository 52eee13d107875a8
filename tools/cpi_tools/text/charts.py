"""Pictures as SVG, and bars for the rows of a table. Only this module computes with floats, and no figure is read from
a picture.

Each picture has a title and a description, which a screen reader reads out. It is 400 units wide and is shown at 300 to
560 pixels, so that its text stays readable on a phone. Names are outside the picture, in the page, so none can cross an
axis. A month is a text like `2026-01`; colours and fonts come from `templates/style.css`.
"""

from __future__ import annotations

from collections.abc import Collection, Iterable, Iterator, Sequence
from functools import lru_cache
from math import floor
from typing import NamedTuple, Optional

from markupsafe import Markup, escape

from .languages import SPEAKS_ENGLISH, Speech

WIDTH, HEIGHT = 400, 224
LEFT, RIGHT, TOP, FOOT = 40, 14, 16, 41

MOST_MONTHS = 61
"""The greatest number of months that a picture shows: the last five years, and the month with which they are
compared."""

LEAST_POINTS, LEAST_PERCENT = 1.0, 0.5
"""The smallest range of the value axis, for lines and for columns, so that an axis doesn't exaggerate a tenth."""

VALUE_WIDE = 44
"""The greatest width of the value at the end of a line, also on a phone."""

WIDEST = 24
"""The greatest width of a column, however few columns there are."""

OWN, OTHER = "own", "other"
"""The classes of a line: the item's own, and the compared one, which is dashed."""


def write_signed(value: float) -> str:
    """A number with its sign, `+0.3`, `0.0` or `−0.3`."""
    text = f"{value:.1f}".replace("-", "\u2212")
    return text.replace("\u22120.0", "0.0") if value <= 0 or text == "0.0" else f"+{text}"


class Picture(NamedTuple):
    """The frame of a picture: a key that no other picture on the page has, its title, its description in words, and the
    language in which it writes figures and months."""

    key: str
    title: str
    says: str
    speech: Speech = SPEAKS_ENGLISH


class Line(NamedTuple):
    """A line of a picture: OWN or OTHER, and a value for each month, None for a gap. `last` is its last value as a
    text, which is written next to it, since a float could be rounded to another value."""

    kind: str
    values: Sequence[Optional[float]]
    last: str = ""


# ---- the axes


def steps(low: float, high: float, most: int = 6) -> list[float]:
    """Round numbers that span a range, no more than a given number of them: 1, 2 or 5 times a power of ten apart."""
    size = 0.1
    for factor in (2, 2.5, 2) * 6:
        if (high - low) / size <= most - 2:
            break
        size *= factor
    first, last = floor(low / size + 1e-9), -floor(-high / size + 1e-9)
    return [size * at for at in range(first, max(last, first + 1) + 1)]


def write_tick(value: float) -> str:
    """The number next to a mark of an axis: `0`, `2.5`, `−1`."""
    text = f"{value:.1f}".replace("-", "\u2212")
    text = text[:-2] if text.endswith(".0") else text
    return "0" if text == "\u22120" else text


class Frame(NamedTuple):
    """The axes of a picture: months from left to right, the marks of the values from bottom to top, and the language of
    both."""

    months: Sequence[str]
    marks: Sequence[float]
    speech: Speech

    def x(self, at: float) -> float:
        """The middle of a month; `at` counts months."""
        return _x(at, len(self.months))

    def y(self, value: float) -> float:
        """The vertical place of a value."""
        low, high = self.marks[0], self.marks[-1]
        return TOP + (HEIGHT - TOP - FOOT) * (high - value) / (high - low)

    def axes(self) -> str:
        """The lines of the marks, and the months below all of them."""
        return _axes(tuple(self.months), tuple(self.marks), self.speech)


# (thousands of pictures have the same months, and many of them the same marks, so the axes of these are written once)


@lru_cache(maxsize=1024)
def _axes(months: tuple[str, ...], marks: tuple[float, ...], speech: Speech) -> str:
    frame, lines, parts = Frame(months, marks, speech), {"grid": "", "zero": ""}, list[str]()
    for mark in marks:
        lines["zero" if abs(mark) < 1e-9 else "grid"] += f"M{LEFT} {frame.y(mark):.1f}H{WIDTH - RIGHT}"
        parts.append(
            f'<text class="end" x="{LEFT - 6}" y="{frame.y(mark) + 4:.1f}">{speech.figure(write_tick(mark))}</text>'
        )
    strokes, texts = _below(months, speech)
    lines["grid"] += strokes
    parts += [f'<path class="{kind}" d="{path}"/>' for kind, path in lines.items() if path]
    return "".join([*parts, texts])


def _x(at: float, count: int) -> float:
    return LEFT + (WIDTH - LEFT - RIGHT) * (at + 0.5) / count


@lru_cache(maxsize=64)
def _xs(count: int) -> Sequence[str]:
    """The middle of each month, for a given number of months, as it is written in the SVG."""
    return [f"{_x(at, count):.1f}" for at in range(count)]


@lru_cache(maxsize=64)
def _below(months: tuple[str, ...], speech: Speech) -> tuple[str, str]:
    """The strokes at the months that are named below the axis, and the names."""
    count, strokes, texts = len(months), "", ""
    every = 1 if count <= 3 else 3 if count <= 14 else 6 if count <= 36 else 12
    for x, month in zip(_xs(count), months):
        if (int(month[5:]) - 1) % every == 0:
            is_first, strokes = not strokes, f"{strokes}M{x} {HEIGHT - FOOT}v4"
            texts += f'<text class="middle" x="{x}" y="{HEIGHT - FOOT + 17}">{speech.month_mark(month)}</text>'
            if is_first or month.endswith("-01"):
                year = speech.year(month[:4])
                texts += f'<text class="middle year" x="{x}" y="{HEIGHT - FOOT + 34}">{year}</text>'
    return strokes, texts


def svg(picture: Picture, parts: Iterable[str], height: float = HEIGHT, months: Sequence[str] = ()) -> Markup:
    """The SVG of a picture's parts, with its title and description, and its first and last month for scripts."""
    key, over = escape(picture.key), f' data-months="{months[0]} {months[-1]}"' if months else ""
    return Markup(
        f'<svg viewBox="0 0 {WIDTH} {height:g}" role="img" aria-labelledby="{key}-title {key}-says"{over}>'
        f'<title id="{key}-title">{escape(picture.title)}</title>'
        f'<desc id="{key}-says">{escape(picture.says)}</desc>{"".join(parts)}</svg>'
    )


# ---- lines and columns over months


def lines(
    picture: Picture,
    months: Sequence[str],
    drawn: Sequence[Line],
    has_zero: bool = False,
    breaks: Collection[str] = (),
    marks: Collection[str] = (),
) -> Markup:
    """Lines over months; the last value of the picture's own line is written next to that line.

    With `has_zero`, the axis begins at zero or contains it. There is a mark before each month of `breaks` and of
    `marks`; at a break all lines start again. At least one value must be known.
    """
    months = months[-MOST_MONTHS:]
    drawn = [line._replace(values=line.values[-MOST_MONTHS:]) for line in drawn]
    known = [value for line in drawn for value in line.values if value is not None]
    known += [0.0] if has_zero else []
    low, high = min(known), max(known)
    room = max((high - low) / 10, (LEAST_POINTS - high + low) / 2)
    frame = Frame(months, steps(low - room, high + room), picture.speech)
    begins = [at for at, month in enumerate(months) if month in breaks] if breaks else []
    marked = [at for at, month in enumerate(months) if month in breaks or month in marks] if breaks or marks else []
    places = [frame.x(at - 0.5) for at in marked]
    path = "".join(f"M{x:.1f} {TOP}V{HEIGHT - FOOT}" for x in places)
    parts = [frame.axes(), *([f'<path class="break" d="{path}"/>'] if path else [])]
    for line in sorted(drawn, key=lambda line: line.kind, reverse=True):
        parts.append(f'<path class="line {line.kind}" d="{_path(frame, line, begins)}"/>')
        parts += _last(frame, line, places) if line.last else []
    return svg(picture, parts, months=months)


def _path(frame: Frame, line: Line, begins: Collection[int]) -> str:
    """The path of a line, divided at its gaps and at the months at which it starts again."""
    values = tuple([value for value in line.values if value is not None])
    if begins or len(values) < len(line.values) or len(values) == 1:
        return "".join(_part(frame, part) for part in _parts(line.values, begins))
    ends = frame.marks[0], frame.marks[-1]
    return _beside(*ends, values) if line.kind == OTHER else _join_values(*ends, values)


def _join_values(low: float, high: float, values: tuple[float, ...]) -> str:
    """The path of a line without a gap, with a value for each month, between the lowest and the highest mark."""
    tall, span = HEIGHT - TOP - FOOT, high - low
    # (Frame.y, written out: there are hundreds of thousands of values)
    found = zip(_xs(len(values)), values)
    return "M" + "L".join([f"{x} {TOP + tall * (high - value) / span:.1f}" for x, value in found])


_beside = lru_cache(maxsize=1024)(_join_values)
"""The path of the compared line, cached: thousands of pictures contain this line, many of them with the same marks."""


def _last(frame: Frame, line: Line, places: Collection[float]) -> Iterator[str]:
    """A dot at the last value of a line, and the value; `places` are the places of marks, across which no value is
    written."""
    at, value = _last_of(line.values)
    earlier = (value for value in reversed(line.values[:at]) if value is not None)
    before = next((it for it in earlier if it != value), value)
    x, y = frame.x(at), frame.y(value)
    # (the value is above the dot of a line that rose, below that of a line that fell, and always within the picture)
    written = max(y - 9, TOP - 2) if value >= before else min(y + 19, HEIGHT - FOOT - 4)
    yield f'<circle class="dot" cx="{x:.1f}" cy="{y:.1f}" r="3.5"/>'
    end = x + 5
    for place in sorted(places, reverse=True):
        end = place - 4 if end - VALUE_WIDE < place < end else end
    yield f'<text class="end value" x="{end:.1f}" y="{written:.1f}">{line.last}</text>'


def _last_of(values: Sequence[Optional[float]]) -> tuple[int, float]:
    """The last known value, and its place; at least one value is known."""
    return next((at, value) for at in range(len(values) - 1, -1, -1) if (value := values[at]) is not None)


def _parts(values: Sequence[Optional[float]], begins: Collection[int]) -> Iterator[list[tuple[int, float]]]:
    """The joined parts of a line, each a list of months and values: a gap or a break ends a part."""
    part: list[tuple[int, float]] = []
    for at, value in enumerate(values):
        if part and (value is None or at in begins):
            yield part
            part = []
        if value is not None:
            part.append((at, value))
    if part:
        yield part


def _part(frame: Frame, part: Sequence[tuple[int, float]]) -> str:
    """The path of a part; a single month is a short stroke, since a line needs two points."""
    if len(part) == 1:
        at, value = part[0]
        return f"M{frame.x(at) - 3:.1f} {frame.y(value):.1f}h6"
    xs = _xs(len(frame.months))
    return "M" + "L".join(f"{xs[at]} {frame.y(value):.1f}" for at, value in part)


def columns(picture: Picture, months: Sequence[str], values: Sequence[Optional[float]]) -> Markup:
    """A column for each month, from zero up or down, the last one darker. At least one value must be known."""
    months, values = months[-MOST_MONTHS:], values[-MOST_MONTHS:]
    known = [value for value in values if value is not None]
    low, high = min(0.0, *known, 0.0), max(0.0, *known, 0.0)
    if high - low < LEAST_PERCENT:
        low, high = (low, low + LEAST_PERCENT) if high > 0 or low == 0 else (-LEAST_PERCENT, 0.0)
    frame = Frame(months, _steps(low, high), picture.speech)
    wide = min((WIDTH - LEFT - RIGHT) / len(months) * 0.66, WIDEST)
    lefts, sizes = _lefts(len(months), wide), _sizes(frame.marks[0], frame.marks[-1], wide)
    at, last = _last_of(values)
    earlier = [(left, value) for left, value in zip(lefts, values[:at]) if value is not None]
    drawn = [
        ("bar", "".join([left + sizes[value] for left, value in earlier if value >= 0])),
        ("bar down", "".join([left + sizes[value] for left, value in earlier if value < 0])),
    ]
    # (the kind of the first column is drawn first)
    drawn = drawn[::-1] if earlier and earlier[0][1] < 0 else drawn
    drawn.append(("bar down last" if last < 0 else "bar last", lefts[at] + sizes[last]))
    paths = (f'<path class="{kind}" d="{path}"/>' for kind, path in drawn if path)
    return svg(picture, [frame.axes(), *paths], months=months)


@lru_cache(maxsize=64)
def _lefts(count: int, wide: float) -> Sequence[str]:
    """The left edge of each column, for a given number of columns."""
    return [f"M{_x(at, count) - wide / 2:.1f} " for at in range(count)]


class _Sizes(dict[float, str]):
    """Columns of a given width, drawn between the lowest and the highest mark and cached by value: the changes in
    thousands of pictures have few different sizes."""

    def __init__(self, low: float, high: float, wide: float):
        super().__init__()
        self._frame, self._wide = Frame((), (low, high), SPEAKS_ENGLISH), wide

    def __missing__(self, value: float) -> str:
        (top, foot), wide = sorted((self._frame.y(value), self._frame.y(0))), self._wide
        text = self[value] = f"{top:.1f}h{wide:.1f}v{max(foot - top, 0.6):.1f}h-{wide:.1f}z"
        return text


_sizes = lru_cache(maxsize=256)(_Sizes)
_steps = lru_cache(maxsize=1024)(steps)


# ---- bars in the rows of a table


class Bar(NamedTuple):
    """A bar of a row: its start and its length, in percent of the track that all rows share."""

    start: str
    width: str
    is_down: bool


class Track(NamedTuple):
    """The bars of a table's rows, in their order, and the place of zero, in percent of the track."""

    zero: str
    bars: list[Bar]


def track(values: Sequence[float]) -> Track:
    """The bars of some values, all on one scale; names and figures are in cells next to them."""
    low, high = min(0.0, *values, 0.0), max(0.0, *values, 0.0)
    span = (high - low) or 1.0

    def place(value: float) -> str:
        return f"{100 * value / span:.2f}"

    bars = [Bar(place(min(value, 0.0) - low), place(abs(value)), value < 0) for value in values]
    return Track(place(abs(low)), bars)


# ---- the same bars as a picture

BARS_TOP, LABEL_LINE, BAR_HIGH, BAR_ROOM = 4, 16, 9, 12
"""The free space above all bars, the height of a label's line, the height of a bar, and the free space below each
bar."""

VALUE_ROOM = 60
"""The free space for the value next to a label."""


class Labelled(NamedTuple):
    """A bar with the lines of its label, its value as a text, and the value."""

    label: Sequence[str]
    text: str
    value: float


def bars_high(rows: Sequence[Labelled]) -> int:
    """The height of a picture of bars."""
    return BARS_TOP + sum(LABEL_LINE * len(row.label) + BAR_HIGH + BAR_ROOM for row in rows)


def bars(picture: Picture, rows: Sequence[Labelled]) -> Markup:
    """Bars on one scale, each below its label and its value, so that no word crosses a bar. In a language that is read
    from right to left, the picture is mirrored."""
    scale, top, parts = track([row.value for row in rows]), BARS_TOP, list[str]()
    is_turned = picture.speech.language.dir == "rtl"
    begin, end = (WIDTH, 0) if is_turned else (0, WIDTH)
    of_label, of_value = ("label end", "label value") if is_turned else ("label", "label value end")
    for row, bar in zip(rows, scale.bars):
        for line in row.label:
            top += LABEL_LINE
            parts.append(f'<text class="{of_label}" x="{begin}" y="{top - 4}">{escape(line)}</text>')
        parts.append(f'<text class="{of_value}" x="{end}" y="{top - 4}">{escape(row.text)}</text>')
        x, wide, zero = (float(it) * WIDTH / 100 for it in (bar.start, bar.width, scale.zero))
        x, zero = (WIDTH - x - wide, WIDTH - zero) if is_turned else (x, zero)
        kind = "bar down last" if bar.is_down else "bar last"
        parts.append(
            f'<path class="{kind}" d="M{x:.1f} {top}h{max(wide, 0.6):.1f}v{BAR_HIGH}h-{max(wide, 0.6):.1f}z"/>'
        )
        parts.append(f'<path class="zero" d="M{zero:.1f} {top}v{BAR_HIGH + 3}"/>')
        top += BAR_HIGH + BAR_ROOM
    return svg(picture, parts, bars_high(rows))
