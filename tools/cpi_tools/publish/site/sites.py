"""The pages of a pack in each of its languages."""

from __future__ import annotations

from collections.abc import Mapping
from typing import NamedTuple, Optional

from ...text.languages import SPEAKS_ENGLISH, Speech, speech_of
from ..figures.config import PDF, Config
from ..figures.figures import Known
from ..figures.own_words import Own
from ..forms.manifest import NewFiles, Signature
from ..forms.years import Now
from ..forms.tidy import HEAD
from ..typeset.pdf_writing import Pdfs, write_pdfs
from ..typeset.paper import Paper
from ..releases.cards import Cards
from ..releases.site_languages import ALONE, versions_of
from .addresses import Spoken, write_catalog, write_sitemap
from .chooser import EARLIER, ITEM_HEAD, ItemFiles
from .csvw import Columns, write_data, write_items
from .site import Site


class Shared(NamedTuple):
    """The common parts of the pages of all languages: the files of items, which have the titles of the tables, the
    signature of the manifest, the cards, the writer of the pack's thousands of files, and the writer of PDFs."""

    items: ItemFiles
    signature: Optional[Signature]
    cards: Cards
    files: NewFiles
    pdfs: Pdfs = Pdfs()


def write_sites(known: Known, recent: Known, config: Config, shared: Shared, now: Now) -> None:
    """Writes the pages of all languages into the folder of a pack that already contains its data files; `recent` are
    the figures of the months that pages show."""
    languages, digits, own = config.speaks
    speeches = [speech_of(tag.replace("-", "_"), digits) for tag in languages] or [SPEAKS_ENGLISH]
    versions, columns = versions_of(speeches), Columns(config, speeches)
    write_data(columns, shared.files)
    if config.address:
        spoken_in = zip(speeches, versions or [ALONE])
        found = [Spoken(speech, config.spoken(speech.language.tag), version) for speech, version in spoken_in]
        write_catalog(known.series, found, shared.files)
    for speech, version in zip(speeches, versions or [ALONE]):
        tag = speech.language.tag
        titles, spoken = own.get(tag, Own()).titles, config.spoken(tag)
        figures, shown = (_in(it, speech, titles) for it in (known, recent))
        site = Site(figures, spoken, shared.files, shared.signature, shared.cards, shown, version, versions)
        site.write(shared.items, lambda done, of: now(f"pages, {done} of {of}"))
        if PDF in config.also:
            _write_pdfs(site, shared, now)
    write_items(columns, shared.files, {"": ITEM_HEAD, EARLIER: HEAD})
    if config.address:
        write_sitemap(shared.files.folder, config, known.series, site.releases.releases.all, versions or [ALONE])


def _write_pdfs(site: Site, shared: Shared, now: Now) -> None:
    """The PDF of each release beside its page."""
    paper = Paper(site.releases.statements, site.contributions, site.config, site.version)
    releases, folder = site.releases.releases.all, site.version.folder
    write_pdfs(shared.pdfs, paper, releases, shared.files, folder, lambda done, of: now(f"PDFs, {done} of {of}"))


def _in(known: Known, speech: Speech, titles: Mapping[str, str]) -> Known:
    """The figures for readers of a language, with its titles."""
    if speech is known.shown.speech and not titles:
        return known
    series, shown = known.series.with_titles(titles), known.shown.spoken(speech)
    shown.series = series
    return Known(series, known.contributions, shown)
