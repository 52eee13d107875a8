"""Pictures as files of their own, with title, unit, key and source in them: of a release, of bars, and on cards."""

from __future__ import annotations

import functools
import re
import textwrap
import unicodedata
from collections.abc import Iterable, Iterator, Mapping, Sequence
from pathlib import Path
from typing import NamedTuple
from xml.sax.saxutils import escape as escape_xml

import jinja2
from markupsafe import escape

from ...office.tables import before
from ...text import charts
from ...text.charts import WIDTH, Labelled, Picture
from ...text.exact import ALL_ITEMS, tenths, with_sign
from ...text.languages import Speech
from ...text.others import apart
from ...text.page_templates import write_page
from ..figures.config import PICTURES, Config
from ..figures.figures import provisional_then
from .cards import LETTERS, Cards
from .pictures import GIVEN, KEY, LEVEL, MONTH, SETS, YEAR, Chart, Given, figures_of, of_node
from .releases import Release
from .site_languages import ALONE, Version, pp


# ==== The picture of a release's card: its headline, and the changes of the last months. Floats are made here for bars
# only.

WIDE, HIGH = 1200, 630
MONTHS = 24
MOST_LETTERS = 38
"""The largest number of letters in a line of the headline."""

LEFT, RIGHT, TOP, FOOT = 72, 1128, 340, 516
"""The edges of the bars, in pixels."""

LEAST_BARS = 13
"""If fewer months are known, the bars are as wide as for this number."""

COLOURS = {(True, True): "#0a5c7d", (True, False): "#5f9bb5", (False, True): "#b1521d", (False, False): "#c68358"}
"""The colours of bars, by whether the change isn't negative, and whether the bar is the release's."""


def write_cards(
    cards: Cards, config: Config, releases: Sequence[Release], pack: Path, version: Version = ALONE
) -> None:
    """Writes the card of each release, in the language of a version, into the folder of a pack. Raises Fault."""
    for release in releases if cards.are_written else ():
        name = version.folder + release.card
        png = cards.card(name, card_svg(config, release))
        if png:
            (pack / name).write_bytes(png)


def card_svg(config: Config, release: Release) -> str:
    """The card of a release as SVG."""
    return "".join(_parts(config, release))


def _parts(config: Config, release: Release) -> Iterator[str]:
    whole, speech = release.whole, release.shown.speech
    yield f'<svg xmlns="http://www.w3.org/2000/svg" width="{WIDE}" height="{HIGH}" font-family="{LETTERS}">'
    yield f'<rect width="{WIDE}" height="{HIGH}" fill="#ffffff"/><rect width="{WIDE}" height="12" fill="#0a5c7d"/>'
    yield _line(LEFT, 76, 28, "#526170", speech.row([config.title, release.text]))
    for at, line in enumerate(textwrap.wrap(release.headline, MOST_LETTERS)):
        yield _line(LEFT, 146 + 58 * at, 46, "#17222d", line, is_bold=True)
    yield from _bars(release, whole.year_change is not None)
    yield _line(LEFT, 596, 26, "#526170", speech.row([*filter(None, [config.office, config.country])]))
    yield "</svg>"


def _line(x: float, y: float, size: int, colour: str, text: str, anchor: str = "start", is_bold: bool = False) -> str:
    """A line of text, cut at the edge of the card."""
    most = int((WIDE - 2 * LEFT) / (size * 0.58))
    plain = "".join(it if it.isprintable() else " " for it in text)
    cut = plain if len(plain) <= most else f"{plain[: most - 1]}\u2026"
    weight = ' font-weight="bold"' if is_bold else ""
    words = f'x="{x:.1f}" y="{y:.1f}" font-size="{size}" fill="{colour}" text-anchor="{anchor}"{weight}'
    return f"<text {words}>{escape_xml(cut)}</text>"


def _bars(release: Release, is_annual: bool) -> Iterator[str]:
    """The changes of all items in the last months up to the release, with a line at zero."""
    known, speech = [*_changes(release, is_annual)], release.shown.speech
    values = [value for _, value in known]
    high, low = max(1, *values), min(0, *values)
    width, scale = (RIGHT - LEFT) / max(LEAST_BARS, len(known)), (FOOT - TOP) / (high - low)
    zero = TOP + high * scale
    for at, (month, value) in enumerate(known):
        colour = COLOURS[value >= 0, month == release.table.month]
        x, y, size = LEFT + at * width, zero - max(0, value) * scale, abs(value) * scale
        yield f'<rect x="{x:.1f}" y="{y:.1f}" width="{width - 6:.1f}" height="{size:.1f}" fill="{colour}"/>'
    yield f'<path d="M{LEFT} {zero:.1f}H{RIGHT}" stroke="#526170" stroke-width="1.5"/>'
    # (the figure of the last bar is above it, or below a fall)
    y = zero - values[-1] * scale + (-10 if values[-1] >= 0 else 30)
    yield _line(
        LEFT + (len(known) - 0.5) * width - 3,
        y,
        26,
        "#17222d",
        speech.figure(with_sign(tenths(values[-1]))),
        "middle",
        True,
    )
    months = {"first": speech.month(known[0][0]), "last": speech.month(known[-1][0])}
    if is_annual:
        said = speech.t("Annual change in percent, {first} to {last}", **months)
    else:
        said = speech.t("Monthly change in percent, {first} to {last}", **months)
    yield _line(LEFT, 556, 22, "#526170", said)


def _changes(release: Release, is_annual: bool) -> Iterator[tuple[str, int]]:
    """The months that the bars show with the change of all items, in tenths of a percent."""
    for by in range(MONTHS - 1, -1, -1):
        month = before(release.table.month, by)
        row = release.shown.row(month, ALL_ITEMS)
        value = row and (row.year_change if is_annual else row.month_change)
        if value is not None:
            yield month, value


# ==== a picture as a file of its own, for a report or another site: SVG with its title, unit, key and source in it
#
# Such a file is drawn for white paper: its colours don't follow the reader's scheme. Colours and letters are attributes
# of each element, not a style sheet with variables, since not every program that takes SVG reads these. What is too
# long for a line is broken by the usual width of letters; no font is measured.

EDGE = 12
"""The empty margin around the whole."""

INK, SOFT, RULE, ACCENT, ACCENT_SOFT, DOWN, DOWN_SOFT = (
    "#17222d", "#526170", "#d9e0e6", "#0a5c7d", "#5f9bb5", "#b1521d", "#c68358",
)  # fmt: skip
"""The light colours of `templates/style.css`."""

LOOKS: Mapping[str, str] = {
    "end": 'text-anchor="end"',
    "middle": 'text-anchor="middle"',
    "middle year": 'text-anchor="middle" font-weight="600"',
    "end value": f'text-anchor="end" fill="{INK}" font-weight="650" font-size="13"',
    "label": f'fill="{INK}" font-size="12"',
    "label end": f'text-anchor="end" fill="{INK}" font-size="12"',
    "label value": f'fill="{INK}" font-weight="650" font-size="12"',
    "label value end": f'text-anchor="end" fill="{INK}" font-weight="650" font-size="12"',
    "grid": f'stroke="{RULE}" fill="none"',
    "zero": f'stroke="{SOFT}" fill="none"',
    "break": f'stroke="{SOFT}" stroke-width="1.5" stroke-dasharray="2 3" fill="none"',
    "line own": f'stroke="{ACCENT}" stroke-width="2.5" fill="none" stroke-linejoin="round" stroke-linecap="round"',
    "line other": f'stroke="{DOWN}" stroke-width="1.8" stroke-dasharray="5 4" fill="none" stroke-linejoin="round"',
    "dot": f'fill="{ACCENT}"',
    "bar": f'fill="{ACCENT_SOFT}"',
    "bar last": f'fill="{ACCENT}"',
    "bar down": f'fill="{DOWN_SOFT}"',
    "bar down last": f'fill="{DOWN}"',
}
"""The look of an element of each class in a file."""

TAG, LINE = re.compile("</?[bi]>"), re.compile("(?=<[bi]>)")

LETTER = 0.55
"""The width of a letter, in sizes of its font, as it is on average; those of the East are as wide as high."""


class Words(NamedTuple):
    """Words of a file: a text of one line, how large its letters are, its other attributes, and the room above it."""

    text: str
    size: float
    looks: str = ""
    above: float = 0.0


def drawing(chart: Chart, title: str, source: str) -> str:
    """A picture as a file: `title` says whose it is, and is a text of others; `source` is the line at its foot."""
    head = [
        *_lines(apart(title, chart.speech.language.dir), 14, f'font-weight="650" fill="{INK}"'),
        Words(chart.name, 12.5, f'fill="{INK}"', 1),
    ]
    head += _lines(chart.whole_unit, 11.5)
    top = EDGE + sum(line.size * 1.3 + line.above for line in head)
    foot = [*_key(chart), *_lines(source, 10.5, above=6)]
    height = top + chart.height + sum(line.size * 1.3 + line.above for line in foot) + EDGE
    inner = str(chart.picture).partition(">")[2].rpartition("</svg>")[0]
    named, plot = inner.partition("</desc>")[::2]
    wide = WIDTH + 2 * EDGE
    return (
        f'<svg xmlns="http://www.w3.org/2000/svg" width="{wide}" height="{height:.0f}" viewBox="0 0 {wide} {height:.0f}"'
        f' role="img" aria-labelledby="{chart.kind}-title {chart.kind}-says" font-size="11.5" fill="{SOFT}"'
        f" font-family=\"system-ui, 'Segoe UI', Roboto, Arial, sans-serif\">\n{named}</desc>\n"
        f'<rect width="100%" height="100%" fill="#ffffff"/>\n{"".join(_write_lines(head, EDGE))}'
        f'<g transform="translate({EDGE} {top:.1f})">{_put_looks(plot)}</g>\n'
        f'{"".join(_write_lines(foot, top + chart.height))}</svg>\n'
    )


def plot_of(chart: Chart, letters: str, width: int) -> str:
    """The plot of a picture by itself, so many pixels wide, for a page that has its words: `letters` is a family of
    fonts."""
    inner = str(chart.picture).partition(">")[2].rpartition("</svg>")[0].partition("</desc>")[2]
    return (
        f'<svg xmlns="http://www.w3.org/2000/svg" width="{width}" height="{width * chart.height / WIDTH:.0f}"'
        f' viewBox="0 0 {WIDTH} {chart.height:g}" font-size="11.5" fill="{SOFT}" font-family="{letters}">'
        f"{_put_looks(inner)}</svg>\n"
    )


def _put_looks(plot: str) -> str:
    """The elements of a picture with their looks in place of their classes."""
    first, *parts = plot.split('class="')
    return first + "".join([LOOKS[kind] + rest for kind, _, rest in (part.partition('"') for part in parts)])


def _key(chart: Chart) -> list[Words]:
    """The lines and the marks of a picture in words, if it has two lines."""
    if not chart.broken:
        return []
    way = chart.speech.language.dir
    places = {"full": apart(chart.full, way), "broken": apart(chart.broken, way)}
    forms = [(form.format(**places), look) for form, look in _key_forms(chart.speech.t(KEY))]
    return [line for text, look in (*forms, (chart.marks, "")) for line in _lines(text, 11.5, look)]


@functools.lru_cache(maxsize=64)
def _key_forms(form: str) -> list[tuple[str, str]]:
    """The text about each line in the page's key, and the line's own colour."""
    parts = [word for word in LINE.split(form) if word]
    return [(TAG.sub("", part).strip(" ."), f'fill="{ACCENT if "{full}" in part else DOWN}"') for part in parts]


@functools.lru_cache(maxsize=64)
def _lines(text: str, size: float, looks: str = "", above: float = 0.0) -> Sequence[Words]:
    """A text in lines that fit, the room above the first one only. (The title and the source are those of several files.)"""
    lines = [*break_lines(text, WIDTH / (LETTER * size))]
    return [Words(line, size, looks, 0 if at else above) for at, line in enumerate(lines)]


def break_lines(text: str, most: float) -> Iterator[str]:
    """The lines of a text, each at most so many letters long; a longer word is cut."""
    if sum(map(_width, text)) <= most:
        yield from filter(None, [text.strip()])
        return
    line, long = "", 0.0
    for word in re.findall(r"\S+\s*", text):
        size = sum(map(_width, word.rstrip()))
        if line and long + size > most:
            yield line.rstrip()
            line, long = "", 0.0
        while size > most:
            yield word[: int(most / 2)]
            word = word[int(most / 2) :]
            size = sum(map(_width, word.rstrip()))
        line, long = line + word, long + sum(map(_width, word))
    if line:
        yield line.rstrip()


@functools.lru_cache(maxsize=4096)
def _width(letter: str) -> float:
    """The width of a letter, in Latin letters; a mark upon another, or one that isn't seen, has no width."""
    if unicodedata.category(letter) in ("Mn", "Cf"):
        return 0.0
    return 1 / LETTER if unicodedata.east_asian_width(letter) in "WF" else 1.0


def _write_lines(words: Iterable[Words], top: float) -> Iterator[str]:
    """The lines of text below one another, each with its own foot."""
    for word in words:
        top += word.above + word.size * 1.3
        looks = f" {word.looks}" if word.looks else ""
        yield f'<text x="{EDGE}" y="{top - word.size * 0.3:.1f}" font-size="{word.size}"{looks}>{escape(word.text)}</text>\n'


# ==== contributions to a change as a picture: the bars of a table of contributions, with their labels and figures in it

LARGEST = 13.5
"""The size of the letters of a label on a telephone."""


class Change:
    """The change to which items contribute: the annual or monthly change of an item with a title, in a month."""

    def __init__(self, title: str, month: str, is_annual: bool, speech: Speech):
        self._title, self._month, self._is_annual = apart(title, speech.language.dir), month, is_annual
        self._speech = speech

    def of_items(self, rows: Sequence[Given]) -> list[Chart]:
        """The picture of the items' contributions; none without rows."""
        title = self._speech.t("{title}: contributions", title=self._title)
        return self._draw(GIVEN, self._speech.t("Contributions"), title, rows)

    def of_sets(self, rows: Sequence[Given]) -> list[Chart]:
        """The picture for special aggregates."""
        title = self._speech.t("{title}: contributions of special aggregates", title=self._title)
        return self._draw(SETS, self._speech.t("Special aggregates"), title, rows)

    def _unit(self) -> str:
        month = self._speech.month(self._month)
        if self._is_annual:
            return self._speech.t("Percentage points of the annual change, {month}", month=month)
        return self._speech.t("Percentage points of the monthly change, {month}", month=month)

    def _draw(self, kind: str, name: str, title: str, rows: Sequence[Given]) -> list[Chart]:
        if not rows:
            return []
        speech, found = self._speech, [_label(row, self._speech) for row in rows]
        names = [apart(row.title, speech.language.dir) for row in rows]
        says = speech.row([f"{name} {pp(row.value, speech=speech)}" for name, row in zip(names, rows)])
        drawn = charts.bars(Picture(kind, title, f"{says}.", speech), found)
        return [Chart(kind, name, self._unit(), drawn, speech=speech, height=charts.bars_high(found))]


def _label(row: Given, speech: Speech) -> Labelled:
    """A bar with its label, which is broken where its value begins."""
    lines = break_lines(row.title, (charts.WIDTH - charts.VALUE_ROOM) / (LARGEST * LETTER))
    label = [apart(line, speech.language.dir) for line in lines] or [""]
    return Labelled(label, pp(row.value, speech=speech), row.value.over / row.value.under)


# ==== The pictures of a release: the change that its headline has, and the index, up to its month and by the tables of
# its day, and what divisions gave to the change. They are on its page, as files, and in a page for frames of other
# sites; later tables change nothing of them.


def charts_then(release: Release) -> list[Chart]:
    """The pictures of a release, the headline's first."""
    kinds = (LEVEL, YEAR if release.is_annual else MONTH)
    found = [it for it in of_node(release.shown, ALL_ITEMS) if it.kind in kinds][::-1]
    # (the files of items have the figures of today, so a release has its own)
    return [it._replace(figures=figures_of(release.shown, ALL_ITEMS, it.kind)) for it in found]


class ReleasePictures:
    """Writes them into the folder of a site, in existing folders of pictures."""

    def __init__(self, pages: jinja2.Environment, config: Config, folder: Path, version: Version = ALONE):
        self._pages, self._config, self._folder, self._version = pages, config, folder, version

    def write(self, release: Release, rows: Sequence[Given]) -> dict[str, list[Chart]]:
        """The pictures of a release for its template, those over months and that of the rows which say what divisions
        gave; the files are written if the office has any."""
        title, speech = release.shown.series.title(ALL_ITEMS), release.shown.speech
        over_months = charts_then(release)
        bars = Change(title, release.table.month, release.is_annual, speech).of_items(rows)
        if self._config.has(PICTURES):
            self._write_files(release, [*over_months, *bars])
            self._write_page(release, [*over_months, *bars])
        return {"charts": over_months, "bars": bars}

    def _write_files(self, release: Release, charts: Sequence[Chart]) -> None:
        source = self._source(release)
        for chart in charts:
            text = drawing(chart, release.shown.series.title(ALL_ITEMS), source)
            (self._folder / "picture" / f"{release.name}-{chart.kind}.svg").write_bytes(text.encode())

    def _source(self, release: Release) -> str:
        """The line at the foot of a picture's file."""
        config, speech = self._config, release.shown.speech
        way = speech.language.dir
        source = speech.t(
            "Source: {office}, {title}, {release}, published {moment}.",
            office=apart(config.office, way),
            title=apart(config.title, way),
            release=release.text,
            moment=config.clock.day(release.table.moment, speech),
        )
        return f"{source} {provisional_then(release.provisional, speech)}" if release.provisional else source

    def _write_page(self, release: Release, charts: Sequence[Chart]) -> None:
        to = self._folder / "embed" / f"{release.name}.html"
        # (a frame whose address names no picture shows the last one of the page, that of the headline)
        words = {"release": release, "title": release.shown.series.title(ALL_ITEMS), "charts": charts[::-1]}
        words |= {"root": "../", "top": f"../{self._version.up}"}
        write_page(self._pages, "release-embed.html", to, **words)
