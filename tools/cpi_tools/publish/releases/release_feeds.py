"""Releases for other programs: the calendar of those that are announced, the feed, and references."""

from __future__ import annotations

import re
from collections.abc import Iterable, Iterator, Mapping, Sequence
from datetime import date, datetime, timezone
from pathlib import Path
from typing import NamedTuple
from xml.sax.saxutils import escape, quoteattr

from ...office.tables import Series, before, iso
from ...text.languages import SPEAKS_ENGLISH, Speech
from ...text.others import FORBIDDEN, apart, attributes_of, is_address, text_of
from ..figures.announcements import FOLDER, Announced, Planned, coming, name_of, page_of_release
from ..figures.config import Config
from ..figures.figures import provisional_then
from ..forms.site_texts import release_text
from .releases import Release
from .site_languages import Version


# ==== the releases that are announced: the next one, those of its year, a page, and a calendar for other programs
#
# An announced release is out once its table is, whatever a clock says. So the same tables and the same file give the
# same bytes, and a release that is late stays the next one until it is out.

ICS, PAGE = "calendar.ics", "calendar.html"
EVENT_MONTHS = 24
"""The number of last months whose published releases `calendar.ics` contains."""

LINE_BYTES = 75
"""The largest number of bytes in a line of `calendar.ics`, without its end (RFC 5545, section 3.1)."""


class Event(NamedTuple):
    """A release of the calendar: its month and revision, its moment in seconds since 1970 UTC, its release once it
    is published, and if it moved, how often, and when the move was announced."""

    month: str
    revision: int
    moment: int
    says: str = ""
    moves: int = 0
    said: int = 0

    @property
    def address(self) -> str:
        """A page of the site that exists whenever somebody follows the link: the page of a published release, or
        otherwise the calendar, which leads to the release later."""
        name = name_of(self.month, self.revision)
        return page_of_release(self.month, self.revision) if self.says else f"{PAGE}#{name}"


def find_moved(series: Series, config: Config) -> list[Announced]:
    """The releases that moved from their announced time, or did so in the last months, the latest move first."""
    first, out = before(series.months[-1], EVENT_MONTHS - 1), {
        (vintage.month, vintage.revision) for vintage in series.vintages
    }
    ahead = {(it.month, it.revision) for it in coming(series, config.planned)}
    found = (it for it in config.announced if it.moves and (it.of in ahead or (it.of in out and it.month >= first)))
    return sorted(found, key=lambda it: (it.said, it.of), reverse=True)


class CalendarOf:
    """The announced releases as pages show them."""

    def __init__(self, series: Series, config: Config):
        self.coming = coming(series, config.planned)
        self.clock = config.clock
        self.moved = find_moved(series, config)

    def year_of(self, moment: int) -> str:
        """The year of a moment in the office's time zone."""
        return self.clock.local(moment).split(",")[0][-4:]

    @property
    def of_year(self) -> list[Planned]:
        """The releases that come in the same year as the next one."""
        return [it for it in self.coming if self.year_of(it.moment) == self.year_of(self.coming[0].moment)]

    @property
    def by_year(self) -> list[tuple[str, list[Planned]]]:
        """All announced releases, by year."""
        years: dict[str, list[Planned]] = {}
        for it in self.coming:
            years.setdefault(self.year_of(it.moment), []).append(it)
        return [*years.items()]


# ---- for other programs: iCalendar, RFC 5545


def write_ics(
    series: Series, config: Config, releases: Sequence[Release], to: Path, speech: Speech = SPEAKS_ENGLISH
) -> None:
    """Writes the releases of the last months and those to come."""
    first = before(series.months[-1], EVENT_MONTHS - 1)
    tables = [(release.table, release.headline) for release in releases if release.table.month >= first]
    events = [Event(table.month, table.revision, table.moment, says) for table, says in tables]
    events += [Event(it.month, it.revision, it.moment) for it in coming(series, config.planned)]
    known = {it.of: it for it in config.announced if it.moves}
    for at, event in enumerate(events):
        change = known.get((event.month, event.revision))
        if change:
            events[at] = event._replace(moves=change.moves, said=change.said)
    lines = (line for it in _lines(series, config, events, speech) for line in _fold(it))
    to.write_bytes(b"".join(line + b"\r\n" for line in lines))


def _lines(series: Series, config: Config, events: Sequence[Event], speech: Speech) -> Iterator[str]:
    """The lines of a calendar, whole."""
    yield from (
        "BEGIN:VCALENDAR",
        "VERSION:2.0",
        "PRODID:-//Sabrethog//cpi-tools publish//" + speech.language.tag.upper(),
        "METHOD:PUBLISH",
    )
    yield f"X-WR-CALNAME:{_text(speech.row([config.title, config.office]))}"
    for event in events:
        yield "BEGIN:VEVENT"
        yield f"UID:{name_of(event.month, event.revision)}.{config.area}.{config.agency}@cpi"
        yield f"DTSTAMP:{_stamp(max(event.said, series.moment))}"
        if event.moves:
            yield f"SEQUENCE:{event.moves}"
        yield f"DTSTART:{_stamp(event.moment)}"
        yield f"SUMMARY:{_text(speech.row([config.title, release_text(speech, event.month, event.revision)]))}"
        if event.says:
            yield f"DESCRIPTION:{_text(f'{event.says}.')}"
        if config.address:
            yield f"URL:{config.address}{event.address}"
        yield from ("TRANSP:TRANSPARENT", "END:VEVENT")
    yield "END:VCALENDAR"


def _stamp(moment: int) -> str:
    """`20260128T083000Z`."""
    return datetime.fromtimestamp(moment, timezone.utc).strftime("%Y%m%dT%H%M%SZ")


def _text(text: str) -> str:
    """A text as a value (section 3.3.11), without invisible characters."""
    plain = "".join(it if it.isprintable() else " " for it in text)
    for sign in "\\;,":
        plain = plain.replace(sign, f"\\{sign}")
    return plain


def _fold(line: str) -> Iterator[bytes]:
    """The pieces of a line: each except the first begins with a space, and no character is cut."""
    piece = b""
    for character in line:
        more = character.encode()
        if len(piece) + len(more) > LINE_BYTES:
            yield piece
            piece = b" "
        piece += more
    yield piece


# ==== the feed of releases (Atom, RFC 4287): who reads it learns of each release, and of revisions
#
# An entry is a release with its moment. Later tables change nothing of it, so a reader never shows it as new again; if
# the office says later why it revised a month, the entry has the moment of that. A release that moved is an entry of
# its own.

FEED = "feed.xml"
MOST_ENTRIES = 24
"""The releases that were published last."""

DIRECTIONS = frozenset("\u061c\u200e\u200f\u2066\u2067\u2068\u2069")
"""Invisible marks and isolates, which keep a text of two directions in order."""


def write_feed(
    folder: Path, config: Config, series: Series, releases: Iterable[Release], speech: Speech = SPEAKS_ENGLISH
) -> None:
    """Writes the feed into the folder of a site whose address is known."""
    last = sorted(
        releases, key=lambda release: (release.table.moment, release.table.month, release.table.revision), reverse=True
    )
    lines = _feed_lines(config, series, last[:MOST_ENTRIES], speech)
    (folder / FEED).write_text("".join(f"{line}\n" for line in lines), encoding="utf-8")


def _feed_lines(config: Config, series: Series, releases: Sequence[Release], speech: Speech) -> Iterator[str]:
    moves = find_moved(series, config)
    yield '<?xml version="1.0" encoding="utf-8"?>'
    yield f'<feed xmlns="http://www.w3.org/2005/Atom" xml:lang="{speech.language.tag}">'
    yield f"<id>{config.address}</id>"
    yield f"<title>{_atom_text(config.title)}</title>"
    yield f"<subtitle>{_atom_text(speech.t('Releases of {office}', office=config.office))}</subtitle>"
    said = [*(release.last_said for release in releases), *(move.said for move in moves)]
    yield f"<updated>{iso(max([series.moment, *said]))}</updated>"
    yield f"<author><name>{_atom_text(config.office)}</name></author>"
    yield f'<link rel="self" type="application/atom+xml" href={quoteattr(config.address + FEED)}/>'
    yield f'<link rel="alternate" type="text/html" href={quoteattr(config.address)}/>'
    entries = [(release.table.moment, [*_entry(config, release, speech)]) for release in releases]
    entries += [(move.said, [*_move(config, series, move, speech)]) for move in moves]
    for _, entry in sorted(entries, key=lambda entry: entry[0], reverse=True)[:MOST_ENTRIES]:
        yield from entry
    yield "</feed>"


def _move(config: Config, series: Series, announcement: Announced, speech: Speech) -> Iterator[str]:
    """The entry of a release that moved from its announced time."""
    release, clock = release_text(speech, announcement.month, announcement.revision), config.clock
    places = {
        "release": release,
        "before": clock.day(announcement.before or 0, speech),
        "moment": clock.day(announcement.moment, speech),
    }
    if announcement.moment > series.moment:
        says = speech.t("{release} was announced for {before}, and will be published on {moment}.", **places)
    else:
        says = speech.t("{release} was announced for {before}, and was published on {moment}.", **places)
    if announcement.reason:
        why = speech.t("The office gives this reason: {reason}", reason=apart(announcement.reason, speech.language.dir))
        says = f"{says} {why}"
    address = f"{config.address}{PAGE}#{name_of(announcement.month, announcement.revision)}-moved-{announcement.moves}"
    yield f"<entry><id>{address}</id>"
    title = speech.t("Moved: {release}", release=release)
    yield f"<title>{_atom_text(title)}</title>"
    yield f"<published>{iso(announcement.said)}</published><updated>{iso(announcement.said)}</updated>"
    yield f'<link rel="alternate" type="text/html" href={quoteattr(address)}/>'
    yield f"<summary>{_atom_text(says)}</summary></entry>"


def _entry(config: Config, release: Release, speech: Speech) -> Iterator[str]:
    table, address = release.table, config.address + release.page
    # (the headline names the month, and not which revision it is)
    title = release.headline
    if table.revision > 1:
        title = speech.t("{month}: {headline}", month=release.text, headline=release.headline)
    yield f"<entry><id>{address}</id>"
    yield f"<title>{_atom_text(title)}</title>"
    yield f"<published>{iso(table.moment)}</published><updated>{iso(release.last_said)}</updated>"
    yield f'<link rel="alternate" type="text/html" href={quoteattr(address)}/>'
    yield f"<summary>{_atom_text(' '.join(_says(release, speech)))}</summary></entry>"


def _says(release: Release, speech: Speech) -> Iterator[str]:
    """The sentences of an entry."""
    yield f"{release.headline}."
    if release.provisional:
        yield provisional_then(release.provisional, speech)
    for reason in release.reasons:
        yield speech.t(
            "Why the office revised this month: {reason}",
            reason=apart(reason.say(speech.language.tag), speech.language.dir),
        )


def _atom_text(text: str) -> str:
    """A text of XML 1.0, which has no control characters."""
    return escape("".join(it if it.isprintable() or it in DIRECTIONS else " " for it in text))


# ==== a release for reference managers: BibTeX, RIS, and DataCite's XML (kernel 4) for the agency that keeps its DOI
#
# A citation says nothing that later tables change, so its files stay as the page of the release does.

BIBTEX, RIS, DATACITE = ".bib", ".ris", ".datacite.xml"
"""The endings of the files' names; the first two exist in each language."""

MONTHS = ("jan", "feb", "mar", "apr", "may", "jun", "jul", "aug", "sep", "oct", "nov", "dec")

SIGNS: Mapping[str, str] = {
    "\\": r"\textbackslash{}", "{": r"\textbraceleft{}", "}": r"\textbraceright{}", "~": r"\textasciitilde{}",
    "^": r"\textasciicircum{}", **{sign: f"\\{sign}" for sign in "&%$#_"},
}  # fmt: skip
"""LaTeX's text for each of its own signs."""

KERNEL = "http://datacite.org/schema/kernel-4"
SCHEMA = f"{KERNEL} https://schema.datacite.org/meta/kernel-4.4/metadata.xsd"


class Citation(NamedTuple):
    """A release to cite, with its publisher and its release time in the office's time zone."""

    key: str
    office: str
    title: str
    day: date
    revision: int
    language: str
    says: str
    address: str = ""
    doi: str = ""
    licence: str = ""
    of: str = ""
    size: int = 0


def doi_of(config: Config, release: Release) -> str:
    """The DOI of a release; empty if the office has none."""
    return f"{config.doi}.{release.name}" if config.doi else ""


def citation_of(config: Config, release: Release, version: Version, size: int) -> Citation:
    """The citation of a release in a language of the pages, whose table has so many bytes."""
    speech = release.shown.speech
    return Citation(
        key=f"{config.agency}-{release.name}",
        office=config.office,
        title=speech.t("{before}, {after}", before=config.title, after=release.text),
        day=config.clock.date_at(release.table.moment),
        revision=release.table.revision,
        language=version.tag or speech.language.tag,
        says=f"{release.headline}.",
        address=f"{config.address}{version.folder}{release.page}" if config.address else "",
        doi=doi_of(config, release),
        licence=config.licence,
        of=config.doi,
        size=size,
    )


def write_citations(pack: Path, config: Config, release: Release, version: Version, size: int) -> None:
    """Writes the files of a release next to its page; DataCite's in the first language only."""
    citation = citation_of(config, release, version, size)
    texts = {BIBTEX: bibtex(citation), RIS: ris(citation)}
    if citation.doi and not version.folder:
        texts[DATACITE] = datacite(citation)
    for end, text in texts.items():
        (pack / version.folder / FOLDER / f"{release.name}{end}").write_bytes(text.encode())


# ---- forms


def bibtex(citation: Citation) -> str:
    """A record of BibTeX."""
    author, title, licence, says = map(_latex, (citation.office, citation.title, citation.licence, citation.says))
    fields = {
        "author": f"{{{author}}}",
        "title": f"{{{title}}}",
        "year": f"{citation.day.year:04}",
        "publisher": f"{{{author}}}",
        "version": str(citation.revision),
        "language": citation.language,
        "copyright": licence and f"{{{licence}}}",
        "abstract": f"{{{says}}}",
        "doi": citation.doi,
        "url": citation.address,
    }
    lines = [f"  {name} = {{{value}}},\n" for name, value in fields.items() if value]
    return f"@misc{{{citation.key},\n{''.join(lines)}  month = {MONTHS[citation.day.month - 1]},\n}}\n"


def _latex(text: str) -> str:
    """A text in one line, without LaTeX's own signs, and without a bracket that would end a field."""
    return "".join(SIGNS.get(sign, sign) for sign in _line(text))


def ris(citation: Citation) -> str:
    """A record of RIS."""
    fields = (
        ("TY", "DATA"),
        ("AU", citation.office),
        ("TI", citation.title),
        ("PY", f"{citation.day.year:04}"),
        ("DA", f"{citation.day:%Y/%m/%d}/"),
        ("PB", citation.office),
        ("ET", str(citation.revision)),
        ("LA", citation.language),
        ("AB", citation.says),
        ("C1", citation.licence),
        ("DO", citation.doi),
        ("UR", citation.address),
        ("ID", citation.key),
    )
    lines = [f"{tag}  - {_line(value)}\r\n" for tag, value in fields if value]
    return f"{''.join(lines)}ER  - \r\n"


def _line(text: str) -> str:
    """A text of others in one line, with the spaces of its language."""
    return re.sub(" +", " ", re.sub(r"[\x00-\x1f\x7f-\x9f\u2028\u2029]", " ", FORBIDDEN.sub(" ", text))).strip()


def datacite(citation: Citation) -> str:
    """A record of DataCite."""
    tagged = attributes_of({"xml:lang": citation.language})
    licence = attributes_of({"rightsURI": citation.licence if is_address(citation.licence) else ""})
    rights = (
        f" <rightsList><rights{licence}>{text_of(citation.licence)}</rights></rightsList>\n" if citation.licence else ""
    )
    at = attributes_of({"alternateIdentifierType": "URL"})
    address = f" <alternateIdentifiers><alternateIdentifier{at}>{text_of(citation.address)}</alternateIdentifier></alternateIdentifiers>\n"
    related = attributes_of({"relatedIdentifierType": "DOI", "relationType": "IsVersionOf"})
    return (
        '<?xml version="1.0" encoding="UTF-8"?>\n'
        f'<resource xmlns="{KERNEL}" xmlns:xsi="http://www.w3.org/2001/XMLSchema-instance" xsi:schemaLocation="{SCHEMA}">\n'
        f' <identifier identifierType="DOI">{citation.doi}</identifier>\n'
        f' <creators><creator><creatorName nameType="Organizational">{text_of(citation.office)}</creatorName></creator></creators>\n'
        f" <titles><title{tagged}>{text_of(citation.title)}</title></titles>\n"
        f" <publisher>{text_of(citation.office)}</publisher>\n"
        f" <publicationYear>{citation.day.year:04}</publicationYear>\n"
        ' <resourceType resourceTypeGeneral="Dataset">Consumer price index</resourceType>\n'
        f' <dates><date dateType="Issued">{citation.day.isoformat()}</date></dates>\n'
        f" <language>{citation.language}</language>\n"
        f"{address if citation.address else ''}"
        f" <relatedIdentifiers><relatedIdentifier{related}>{citation.of}</relatedIdentifier></relatedIdentifiers>\n"
        f" <sizes><size>{citation.size} B</size></sizes>\n"
        " <formats><format>text/csv</format></formats>\n"
        f" <version>{citation.revision}</version>\n"
        f"{rights}"
        f' <descriptions><description descriptionType="Abstract"{tagged}>{text_of(citation.says)}</description></descriptions>\n'
        "</resource>\n"
    )
