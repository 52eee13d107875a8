"""A release on paper: what is on its two sheets, with table and pictures, as HTML for WeasyPrint and as the PDF."""

from __future__ import annotations

import base64
import hashlib
import re
from collections.abc import Callable, Iterable, Mapping, Sequence
from functools import lru_cache, partial
from pathlib import Path
from typing import NamedTuple, Optional

from markupsafe import Markup

from ...office.public import Published
from ...office.tables import Row, before
from ...text.exact import ALL_ITEMS, Ratio, depth_of
from ...text.languages import SOURCE, Speech, speech_of
from ...text.others import Worded, apart, of_others, word_text
from ...text.page_templates import environment
from ...text.terminal import Fault
from ..figures.aggregated import series_of
from ..figures.config import Config
from ..figures.figures import notes_then
from ..figures.measures import Contributions
from ..figures.own_words import Own
from ..forms.site_texts import ROUNDING_TEXTS
from ..releases.cards import LETTERS, NOT_DRAWN, Drawing, drawing
from ..releases.drawings import Change, charts_then, plot_of
from ..releases.pictures import Chart, Given, lead_of
from ..releases.releases import Release, given_in, releases_of
from ..releases.site_languages import ALONE, Version, filters_of, pp, share, versions_of, write_change
from ..releases.statements import Statements, ways_of
from .pdf_writing import pdf_of, sheets_of, writer_version
from .release_pdf import DraftRelease


# ==== the pictures of a release on paper, each as an address that has it whole

PIXELS = 1200
"""The width of a picture of pixels; it is some 8 cm wide on paper."""

SAYS = re.compile("<desc[^>]*>(.*?)</desc>", re.DOTALL)


class PaperPicture(NamedTuple):
    """A picture: its name, its unit, what it shows in words, and what it is drawn from."""

    name: str
    unit: str
    says: Markup
    chart: Chart

    def lines(self) -> str:
        """The picture as SVG."""
        return plot_of(self.chart, LETTERS, PIXELS)

    def needs_pixels(self) -> bool:
        """Whether a word of it is written from right to left: WeasyPrint writes the words of a picture letter by
        letter from the left."""
        return re.search(f"[{FROM_THE_RIGHT}]", self.lines()) is not None


def pictures_of(release: Release, rows: Sequence[Given]) -> list[PaperPicture]:
    """The pictures of a release: the change of its headline, the index, and what divisions give if that is known."""
    title = release.shown.series.title(ALL_ITEMS)
    bars = Change(title, release.table.month, release.is_annual, release.shown.speech).of_items(rows)
    return [_picture(bar) for bar in (*charts_then(release), *bars)]


def _picture(chart: Chart) -> PaperPicture:
    match = SAYS.search(str(chart.picture))
    return PaperPicture(chart.name, chart.whole_unit, Markup(match[1] if match else ""), chart)


def address_of(picture: PaperPicture) -> str:
    """An address that has the whole picture: as lines, or as pixels if it needs them. Raises Fault if nothing here
    draws pixels."""
    lines = picture.lines()
    if not picture.needs_pixels():
        return f"data:image/svg+xml;base64,{base64.b64encode(lines.encode()).decode()}"
    return f"data:image/png;base64,{base64.b64encode(_drawing().png_of(lines)).decode()}"


def drawing_version() -> str:
    """The version of what draws pixels. Raises Fault if nothing here does."""
    return _drawing().version


@lru_cache(maxsize=1)
def _drawing() -> Drawing:
    found = drawing()
    if found is None:
        raise Fault(f"the pictures of a PDF from right to left can't be drawn: {NOT_DRAWN}")
    return found


# ==== the table of a release's divisions, as texts in its language


class Line(NamedTuple):
    """A row of the table: the title, and the texts of its figures, in the order of `heads_of`."""

    title: Worded
    figures: Sequence[str]


def heads_of(speech: Speech) -> list[Markup]:
    """The heads of its columns, as elements of a page."""
    heads = (
        speech.tc("index", "Item"),
        speech.t("Share of the total weight"),
        speech.t("Index"),
        speech.t("Monthly"),
        speech.t("Annual"),
        speech.t("Contri&shy;bution"),
    )
    return [*map(Markup, heads)]


def lines_of(release: Release, rows: Sequence[Given]) -> list[Line]:
    """All items, and the divisions of a release in the order of their codes; the rows are what divisions give to the change
    of its headline."""
    given = {given_value.code: given_value.value for given_value in rows}
    codes = (code for code in release.as_of.titles if depth_of(code) == 1 and code != ALL_ITEMS)
    lines = [_line(release, ALL_ITEMS, release.whole, lead_of(rows, 0).total if rows else None)]
    for code in codes:
        if row := release.shown.row(release.table.month, code):
            lines.append(_line(release, code, row, given.get(code)))
    return lines


def _line(release: Release, code: str, row: Row, given: Optional[Ratio]) -> Line:
    """A row; its title says in which period its index is 100, if it differs from the period of all items."""
    shown, month = release.shown, release.table.month
    speech, title, hundred = shown.speech, of_others(release.as_of.title(code)), shown.find_reference(month, code)
    if hundred != release.reference_period:
        title = word_text(
            "{title} ({base})", title=title, base=speech.t("{period} = 100", period=speech.period(hundred))
        )
    figures = (
        speech.share(share(row, release.whole)),
        speech.figure(shown.text(month, code, 1)),
        write_change(speech, row.month_change),
        write_change(speech, row.year_change),
        pp(given, speech=speech),
    )
    return Line(title, figures)


# ==== a release on paper: what stands on its two sheets, as a page of HTML for WeasyPrint and as the PDF
#
# WeasyPrint orders the letters of an element by themselves, whatever is beside it. So each text here is one element:
# there are no links and no marks within a sentence, and a text of others is isolated by characters.

TEMPLATES = Path(__file__).resolve().parent / "templates"

SHEETS = 2
"""So many sheets a release has."""

SIZES = (9.5, 8.5, 7.5)
"""The sizes of the letters in points: the first one with which a release fits on its sheets, otherwise the last one."""

LATIN = "A-Za-z\u00c0-\u024f\u0370-\u058f"
FROM_THE_RIGHT = "\u0590-\u08ff\ufb1d-\ufdff\ufe70-\ufeff"
FOREIGN: Mapping[str, re.Pattern[str]] = {
    "rtl": re.compile(f"\u2068?[{LATIN}](?:[^\u0590-\u08ff\u2066-\u2069]*[{LATIN}\\d)/])?"),
    "ltr": re.compile(f"\u2068?[{FROM_THE_RIGHT}](?:[^{LATIN}\u2066-\u2069]*[{FROM_THE_RIGHT}])?"),
}
"""By the direction of a text, words of a script that is written in the other one, with the isolate that they begin."""

FIGURE = re.compile(r"(?<!\S)(?=[^\s\w]*\u200e)")
"""The place before a figure that begins with a sign or a bracket, in a text from right to left."""

LONGEST = 50
"""Foreign words of so many letters at most stay on one line."""

FROM_RIGHT, FROM_LEFT = "\u200f", "\u200e"
"""RIGHT-TO-LEFT MARK and LEFT-TO-RIGHT MARK: a line that begins with one of them has its direction."""


class Layout(NamedTuple):
    """The layout of a page: the size of its letters in points, the number of its sheets, which each sheet names, its
    sources, and a function that gives the address of a picture."""

    size: float = SIZES[0]
    sheets: int = SHEETS
    source: str = ""
    draw: Callable[[PaperPicture], str] = PaperPicture.lines


class Paper:
    """The sheets of the releases of an office in the language of `config` and `statements`, which are the site's; `version`
    is that of the site. With a `mark`, the sheets are those of a draft, which have it above and below."""

    def __init__(
        self, statements: Statements, contributions: Contributions, config: Config, version: Version, mark: str = ""
    ):
        self.speech: Speech = statements.speech
        self._statements, self._contributions = statements, contributions
        self._config, self._version, self.mark = config, version, mark
        self._pages = environment([TEMPLATES], self.speech.language, self.speech.digits)
        self._pages.filters.update(filters_of(self.speech))
        self._pages.filters["plain"] = partial(plain, direction=self.speech.language.dir)
        self._pages.filters["with_marks"] = partial(with_marks, direction=self.speech.language.dir)
        self._pages.filters["css"] = css_text

    def pdf(self, release: Release) -> bytes:
        """A release as a PDF, which says what it is made from. Raises Fault."""
        words, made, layout = self._words(release), b"", Layout(source=self.source(release), draw=address_of)
        for size in SIZES:
            made = pdf_of(self._page({**words, **layout._replace(size=size)._asdict()}))
            if sheets_of(made) == SHEETS:
                return made
        longer = layout._replace(size=SIZES[-1], sheets=sheets_of(made))
        return pdf_of(self._page({**words, **longer._asdict()}))

    def source(self, release: Release) -> str:
        """The sources that the PDF of a release names: the sum of its page, with pictures as lines, and what writes
        it. Raises Fault."""
        page = self._page({**self._words(release), **Layout()._asdict()})
        rows, _ = given_in(release, self._contributions)
        needs_pixels = any(picture.needs_pixels() for picture in pictures_of(release, rows))
        drawn = f", {drawing_version()}" if needs_pixels else ""
        return f"SHA-256 of HTML {hashlib.sha256(page.encode()).hexdigest()}, {writer_version()}{drawn}"

    def _page(self, words: Mapping[str, object]) -> str:
        speech, sheets = self.speech, int(str(words["sheets"]))
        pages = speech.whole(sheets)
        feet = [speech.t("Page {page} of {pages}", page=speech.whole(at), pages=pages) for at in range(1, sheets + 1)]
        return self._pages.get_template("release.html").render(words, feet=feet)

    def _words(self, release: Release) -> dict[str, object]:
        """The values for the template of a release."""
        speech, config = self.speech, self._config
        rows, _ = given_in(release, self._contributions)
        return {
            "config": config,
            "release": release,
            "mark": self.mark,
            "name": word_text(speech.t("{before}, {after}"), before=of_others(config.title), after=release.text),
            "published": speech.t("Published {moment}.", moment=config.clock.day(release.table.moment, speech)),
            "period": speech.period(release.reference_period),
            "statement": self._statements.of(release, rows),
            "notes": [text for _, text in notes_then(release.shown, ALL_ITEMS, release.provisional).sentences],
            "pictures": pictures_of(release, rows),
            "heads": heads_of(speech),
            "lines": lines_of(release, rows),
            "rounding": speech.t(ROUNDING_TEXTS[release.shown.rates]),
            "ways": [*ways_of(release, config, self._version)],
            "address": ""
            if self.mark or not config.address
            else f"{config.address}{self._version.folder}{release.page}",
        }


def plain(text: object, direction: str) -> str:
    """A text of others, or words of ours with such texts in them, for an element that has nothing else in it."""
    return with_marks(apart(text, direction), direction)


def with_marks(text: str, direction: str) -> str:
    """A text for such an element. WeasyPrint takes the direction of a line from its first letter, so foreign words, and
    figures in a text from right to left, begin with a mark, and foreign words aren't parted."""
    mark = FROM_RIGHT if direction == "rtl" else FROM_LEFT
    marked = FOREIGN[direction].sub(partial(_mark, mark), text)
    return FIGURE.sub(mark, marked) if direction == "rtl" else marked


def _mark(mark: str, match: re.Match[str]) -> str:
    """Foreign words with a mark."""
    words = match[0] if len(match[0]) > LONGEST else match[0].replace(" ", "\u00a0")
    return f"{mark}{words}"


def css_text(text: str) -> str:
    """A text between the quotation marks of a style."""
    return re.sub(r'["\\<>\n\r\f]', lambda found: f"\\{ord(found[0]):x} ", text)


# ==== the paper of a release by published tables, in a language of the office


class OnPaper(NamedTuple):
    """A release with its paper, and what its sentences are made by."""

    release: Release
    paper: Paper
    statements: Statements
    contributions: Contributions

    @property
    def rows(self) -> list[Given]:
        """The contributions of divisions to the change in its headline."""
        return given_in(self.release, self.contributions)[0]

    @property
    def paragraphs(self) -> list[Worded]:
        """Its sentences for the press."""
        return self.statements.of(self.release, self.rows)

    @property
    def heads(self) -> list[Markup]:
        """The heads of the table of its divisions."""
        return heads_of(self.paper.speech)

    @property
    def lines(self) -> list[Line]:
        """The rows of that table."""
        return lines_of(self.release, self.rows)


def language_in(config: Config, tag: Optional[str]) -> str:
    """A language of the office's pages, the first one if none is named. Raises Fault if they aren't in that language."""
    tags = config.speaks.languages or (SOURCE,)
    if tag is not None and tag not in tags:
        raise Fault(f"the office's pages are in {', '.join(tags)} (languages in the configuration), not in {tag}")
    return tag or tags[0]


def on_paper(
    published: Iterable[Published], config: Config, tag: str, month: str = "", revision: int = 0, mark: str = ""
) -> OnPaper:
    """The release of a month like `2026-01` and a revision, 0 for the latest, in a language; of the last month if none is
    named. With a mark it is a draft. Raises Fault if no such release is among the tables."""
    tags, own = config.speaks.languages or (SOURCE,), config.speaks.own
    speeches = [_speech_in(config, tag) for tag in tags]
    at = tags.index(tag)
    speech, version = speeches[at], (versions_of(speeches) or [ALONE])[at]
    series = series_of(published, config.specials, config.core).with_titles(own.get(tag, Own()).titles)
    month = month or series.months[-1]
    named = [release for release in releases_of(series, config.spoken(tag), speech) if release.table.month == month]
    found = [release for release in named if not revision or release.table.revision == revision]
    if not found:
        of = f"{month}, revision {revision}" if revision and named else month
        raise Fault(f"there is no release of {of}: the last one is of {series.months[-1]}")
    # (its sentences compare it with the month before)
    compared = (it for it in (before(month), month) if it in series.latest)
    contributions = Contributions(series, series.find_unexplained(compared))
    statements = Statements(series, contributions, config.spoken(tag), speech)
    paper = Paper(statements, contributions, config.spoken(tag), version, mark)
    return OnPaper(found[-1], paper, statements, contributions)


def draft_on_paper(draft: DraftRelease, config: Config, tag: str, at: int) -> OnPaper:
    """A draft that is made at a moment, in a language. Raises Fault."""
    mark = draft.mark(at, config.clock, _speech_in(config, tag))
    return on_paper(draft.published, config, tag, draft.month, draft.revision, mark)


def _speech_in(config: Config, tag: str) -> Speech:
    return speech_of(tag.replace("-", "_"), config.speaks.digits)
