"""The website of a pack: static pages that need no network and no cookie, and a script only for the calculator's sums,
for the search and for a PNG of a picture.

Each page says what it knows by the latest published tables. Shown figures are rounded once from what is published;
the files next to the pages have all digits.
"""

from __future__ import annotations

import json
import shutil
from collections import defaultdict
from collections.abc import Callable, Mapping, Sequence
from functools import cached_property, lru_cache, partial
from pathlib import Path
from typing import Optional

from markupsafe import Markup

from ...office.public import Source
from ...office.tables import Row, Table, before, link_of
from ...text.exact import ALL_ITEMS, HUNDRED, decimal, depth_of, round_ratio
from ...text.others import apart, others
from ...text.page_templates import TEMPLATES, environment, write_page
from ...text.languages import Speech
from ..figures.measures import all_revised, hidden_bases, hidden_months, reference_level, revised_bases
from ..figures.config import PICTURES, Config
from ..releases.pictures import (
    Chart,
    Given,
    base_text,
    lead_of,
    of_imputed,
    of_node,
    sorted_values,
    values_of,
    with_bars,
)
from ..figures.figures import Known, Notes, explain_letters, note_names, present
from ..figures.shown_figures import EXACT, headline
from ..figures.own_words import LOGO, Logo
from ..figures.announcements import QUALITY, SEASONAL, GivenReason, Reasons, given_reasons
from ..figures.specials import Sets, Special
from ..forms.manifest import MANIFEST, NewFiles, Signature, read_manifest
from ..forms.structure import files_of
from ..forms.site_texts import (
    FILES,
    RATES_TEXTS,
    ROUNDING_TEXTS,
    SECTIONS,
    file_says,
    month_lead,
    node_lead,
    release_text,
    sections,
)
from ..forms.years import series_path
from ..releases.drawings import Change, drawing
from ..releases.cards import NO_CARDS, Cards
from ..releases.site_languages import ALONE, Version, filters_of, page_of, share
from ..releases.quality_figures import Quality, rate_of
from .site_pages import AveragesPage, CorePage, MonthRows, ReleaseSite, SeasonalPage, change, find_given, own_words_of
from .chooser import EMBED, ItemFiles, known_to_page, write_chooser, write_items, write_words

HERE = Path(__file__).resolve().parent

CLAUSE_DEPTH = 2
"""The calculator offers all items, divisions and groups, and special aggregates."""

SHOWN_CHANGES = 12
"""The number of packs whose changes the page of the data offers; the manifest lists all."""

MOST_CODES = 5
"""The largest number of elementary aggregates that a page names one by one if others belong to a special aggregate."""

Report = Callable[[int, int], None]

GivenIn = Callable[[str, str, bool], tuple[list[Given], str]]
"""The contributions in a month to the monthly or annual change in a node, and the place of zero."""


# ---- what pages show


def _codes(speech: Speech, codes: set[str]) -> str:
    """Some codes, or their number."""
    if len(codes) <= MOST_CODES:
        return speech.row(sorted(codes))
    return speech.tn("{count} elementary aggregate", "{count} elementary aggregates", len(codes))


class Site:
    """Writes the pages of a pack into its folder."""

    def __init__(
        self,
        known: Known,
        config: Config,
        files: NewFiles,
        signature: Optional[Signature] = None,
        cards: Cards = NO_CARDS,
        recent: Optional[Known] = None,
        version: Version = ALONE,
        versions: Sequence[Version] = (),
    ):
        """`recent` are the figures of the months that pages show, by default all of them. The pages are those of a
        version, of a site that has some; `files` writes those of the pack."""
        self.known, self.series, self.contributions, self.shown = known, known.series, known.contributions, known.shown
        series, self.config, self.files = known.series, config, files
        self.pack, self.folder = files.folder, files.folder / version.folder
        self.version, self.versions = version, versions
        self.recent, self.speech = recent or known, known.shown.speech
        self.month_rows = MonthRows(self.shown)
        self.month = series.months[-1]
        # (in the month before all others each item that begins there has 100, which a contract can count from)
        self.clause_months = [*([series.base] if series.base in series.latest else []), *series.months]
        self.hidden = hidden_months(series)
        self.notes = Notes(self.shown, config.provisional)
        self.pages = environment([HERE / "templates"], self.speech.language, self.speech.digits)
        self.pages.filters.update(filters_of(self.speech))
        self._set_globals(signature)
        self.releases = ReleaseSite(known, config, cards, version)
        self.releases.prepare(self.pages)
        self._template = lru_cache(self.pages.get_template)
        self._known_ways: dict[tuple[str, str], Markup] = {}

    def _set_globals(self, signature: Optional[Signature]) -> None:
        """The values for each template."""
        speech, names = self.speech, note_names(self.speech)
        self.pages.globals.update(
            config=self.config,
            series=self.series,
            month=self.month,
            table=self.series.last,
            whole=self._row(self.month, ALL_ITEMS),
            base=self.series.base,
            signature=signature,
            shown=self.shown,
            rates_text=speech.t(RATES_TEXTS[self.shown.rates]),
            rounding_text=speech.t(ROUNDING_TEXTS[self.shown.rates]),
            period=speech.period,
            level_of=lambda chained, month, code: speech.figure(decimal(*self.shown.of_level(chained, month, code), 1)),
            share=share,
            depth_of=depth_of,
            note_names=names,
            names_of=lambda letters: speech.row([names[letter] for letter in letters]),
            row=speech.row,
            comma=speech.t("{before}, {after}", before="", after=""),
            release_text=partial(release_text, speech),
            provisional_text=self.notes.provisional_text,
            provisional_months=self.notes.last,
            headline_of=partial(headline, speech=speech),
            month_lead_of=partial(month_lead, speech),
            linked=self._link_names,
            sections=sections(speech),
            ways=self._ways,
            languages=self.versions,
            logo=self._logo,
        )

    def _ways(self, root: str, here: str) -> Markup:
        """The ways from a page to those that all pages lead to, which are the same for thousands of pages."""
        key = root, here if here in SECTIONS else ""
        way = self._known_ways.get(key)
        if way is None:
            text = self.pages.get_template("ways.html").render(root=key[0], here=key[1])
            way = self._known_ways[key] = Markup(text)
        return way

    def write(self, items: ItemFiles, report: Report) -> None:
        """All pages, and in the folder of the pack the file next to that of each item; says how many of how many nodes
        have theirs."""
        self._make_folders()
        self._write_own()
        if self.is_first:
            write_chooser(self.series, self.folder)
        write_items(self.series, self.folder)
        write_words(self.speech, self.folder)
        codes = [*self.series.all_titles]
        for done, code in enumerate(codes, 1):
            self._node_page(code)
            if self.is_first:
                items.write(code)
            report(done, len(codes))
        self.releases.write(self.pages, self.pack)

    @property
    def is_first(self) -> bool:
        """Whether the pages are in the folder of the pack, with what all languages share."""
        return not self.version.folder

    @property
    def _logo(self) -> Optional[Logo]:
        """The office's logo in the language."""
        return self.config.about.logo(self.speech.language.tag)

    def _make_folders(self) -> None:
        """The folders of the pages, and what all of them share."""
        if self.is_first:
            shutil.copytree(HERE / "assets", self.folder / "assets")
            own = self.config.colours.style if self.config.colours else ""
            style = (TEMPLATES / "style.css").read_text(encoding="utf-8") + own
            (self.folder / "assets" / "style.css").write_text(style, encoding="utf-8")
        else:
            (self.folder / "assets").mkdir(parents=True)
        for name in ("node", *(("picture", "embed") if self.config.has(PICTURES) else ())):
            (self.folder / name).mkdir()
        if self._logo:
            (self.folder / "assets" / LOGO).write_bytes(self._logo.data)

    def _write_own(self) -> None:
        """The pages of the folder of a language."""
        (self.folder / "assets" / "levels.js").write_text(self._levels(), encoding="utf-8")
        self._page("index.html", **self._home())
        self._page("nodes.html")
        self._page("contract.html", items=self._clause_items(), months=self.clause_months)
        computed = {"months": self.series.months, "listed": bool(self.series.other_titles)}
        self._page("then-and-now.html", items=self._clause_items(), **computed)
        divisions = [code for code in self.series.down_to(1) if code in self.series.last.rows and code != ALL_ITEMS]
        added = [code for code in self._clause_items() if code != ALL_ITEMS and code not in divisions]
        self._page("my-inflation.html", divisions=divisions, items=added, **computed)
        self._page(
            "revisions.html",
            revised=all_revised(self.series.vintages),
            sources=self._sources(),
            unexplained=self._list_unexplained(),
            reasons=self._reasons,
            redefinitions=[
                (name, definitions) for name in self.series.specials if (definitions := self._definitions(name))
            ],
        )
        files = self._files()
        first_year, years = self.recent.series.months[0][:4], self._years()
        says = file_says(self.speech, self.config)
        data = {"files": files, "file_says": says, "years": years, "first_year": first_year, "lacking": self._lacking()}
        data["series_path"], data["changes"] = self._series_path(), self._changes()
        self._page("data.html", **data, files_of_profile=files_of, dataset=self.releases.dataset(files, self.files))
        self._page("method.html", **own_words_of(self.config.about, self.speech, self.versions))
        self._write_chosen()
        changes = [change(self.shown, self.month, is_annual) for is_annual in (True, False)]
        part = find_given(Known(self.series, self.contributions, self.shown), self.month)
        self._page("how-to-read.html", changes=[*filter(None, changes)], part=part)
        has_titles = bool(self.series.other_titles)
        known = known_to_page(self.series, self.config, self._source, self.version.up, has_titles)
        self._page("choose.html", known=known, says=explain_letters(self.speech))
        if self.config.has(PICTURES):
            stands = self.version.standing("../", EMBED, EMBED)
            write_page(self.pages, "chosen.html", self.folder / EMBED, **stands, known=known)
        if self.pages.globals["signature"]:
            self._page("check.html")

    def _write_chosen(self) -> None:
        """The pages that only some offices have."""
        if self.series.core:
            self._page("core.html", core=CorePage(self.known, self.recent, self.config))
        if self.series.seasonal:
            self._page("seasonal.html", seasonal=self._seasonal())
        if self.config.has_quality:
            quality = Quality(self.series, self.config, self.releases.releases.all)
            self._page("quality.html", quality=quality, rate_of=rate_of, corrections=self._definitions(QUALITY))
        if self.config.has_averages:
            self._page("average-prices.html", averages=AveragesPage(self.config, self.speech))

    def _page(self, template: str, **named: object) -> None:
        """Writes a page of the site's own folder, which has the name of its template."""
        write_page(
            self.pages, template, self.folder / template, **self.version.standing("", template, template), **named
        )

    def _node_page(self, code: str) -> None:
        """Writes the page of a node and its pictures."""
        stands = self.version.standing("../", page_of(code), f"node/{page_of(code)}")
        charts, parts, bars = of_node(self.shown, code), self._parts(code), self._bars(code)
        words: dict[str, object] = {**stands, **self._node(code, *parts), "charts": charts, "bars": bars}
        self._write(f"node/{page_of(code)}", "node.html", words)
        if self.config.has(PICTURES):
            of_all = [of_imputed(self.series, self.speech).chart, *self._set_bars()] if code == ALL_ITEMS else []
            self._pictures(code, [*charts, *of_all, *bars])

    def _bars(self, code: str) -> list[Chart]:
        """The picture of the contributions of a node's parts to its change, in the last month for which they are
        known: so the picture of a node that left stays."""
        return self._last_bars(code, self._find_given, Change.of_items) if self.series.children(code) else []

    def _set_bars(self) -> list[Chart]:
        """The bars of special aggregates and all items."""
        return self._last_bars(ALL_ITEMS, self._given_by_sets, Change.of_sets) if self.series.specials else []

    def _last_bars(
        self, code: str, given: GivenIn, drawn: Callable[[Change, Sequence[Given]], list[Chart]]
    ) -> list[Chart]:
        """The picture of the last month in which a node has contributions."""
        for month in reversed(self.series.months):
            row = self.shown.row(month, code)
            if row:
                is_annual = row.year_change is not None
                rows, _ = given(month, code, is_annual)
                if rows:
                    return drawn(Change(self.series.title(code), month, is_annual, self.speech), rows)
        return []

    def _write(self, name: str, template: str, words: Mapping[str, object]) -> None:
        """Writes one of the thousands of pages, by its name in the folder of the language."""
        text: str = self._template(template).render(words)
        self.files.write(self.version.folder + name, text.encode())

    def _pictures(self, code: str, charts: Sequence[Chart]) -> None:
        """Writes each picture of a node as a file, and the page that other sites embed, which shows the first one if
        its address names none."""
        title, source = self.series.title(code), self._source
        for chart in charts:
            text = drawing(chart, title, source)
            self.files.write(f"{self.version.folder}picture/{code}-{chart.kind}.svg", text.encode())
        words = {"code": code, "title": title, "charts": [*charts][::-1], "root": "../"}
        words["top"] = f"../{self.version.up}"
        self._write(f"embed/{page_of(code)}", "embed.html", words)

    @cached_property
    def _source(self) -> str:
        """The line at the foot of a picture's file."""
        places = {
            "office": self._apart(self.config.office),
            "title": self._apart(self.config.title),
            "month": self.speech.month(self.month),
        }
        if not self.config.provisional:
            return self.speech.t("Source: {office}, {title}, up to {month}", **places)
        provisional = self.notes.provisional_text
        return self.speech.t(
            "Source: {office}, {title}, up to {month}. {provisional}", **places, provisional=provisional
        )

    # ---- what stands on each page

    def _find_given(self, month: str, to: str, is_annual: bool) -> tuple[list[Given], str]:
        """The contributions of the nodes directly below one to its change, the largest first, and the place of zero
        on the track."""
        return with_bars(self.shown, month, sorted_values(self.contributions.below(month, to), is_annual))

    def _given_by_sets(self, month: str, to: str, is_annual: bool) -> tuple[list[Given], str]:
        """The contributions of special aggregates to the change in all items, and the place of zero on the track."""
        found = (self.contributions.of(month, name, to) for name in self.series.specials)
        return with_bars(self.shown, month, values_of(found, is_annual))

    def _home(self) -> dict[str, object]:
        whole = self._row(self.month, ALL_ITEMS)
        is_annual = whole.year_change is not None
        change = whole.month_change if whole.year_change is None else whole.year_change
        rows, zero = self._find_given(self.month, ALL_ITEMS, is_annual)
        specials, special_zero = self._given_by_sets(self.month, ALL_ITEMS, is_annual)
        return {
            "bars": self._bars(ALL_ITEMS),
            "special_bars": self._set_bars(),
            "specials": specials,
            "special_zero": special_zero,
            "is_annual": is_annual,
            "change": change,
            "rows": rows,
            "zero": zero,
            "lead": lead_of(rows, change),
            "hidden": self._find_hidden(ALL_ITEMS),
            "revised": [*revised_bases(self.series, whole, self.hidden, self.speech)],
            "charts": of_node(self.shown, ALL_ITEMS),
            "letters": self.notes.by_month(ALL_ITEMS).get(self.month, ""),
            "sentences": self.notes.sentences(self.month, ALL_ITEMS),
            "imputed": of_imputed(self.series, self.speech),
            "core": CorePage(self.known, self.recent, self.config) if self.series.core else None,
            "seasonal": self._seasonal() if self.series.seasonal else None,
        }

    def _seasonal(self) -> SeasonalPage:
        """The adjusted series."""
        return SeasonalPage(self.known, self.recent, self._definitions(SEASONAL))

    def _parts(self, code: str) -> tuple[list[Given], str]:
        """The contributions of a node's parts to its change in the last month; none if the node isn't in it."""
        row = self.shown.row(self.month, code)
        return self._find_given(self.month, code, row.year_change is not None) if row else ([], "0")

    def _node(self, code: str, rows: list[Given], zero: str) -> dict[str, object]:
        """The values for the page of a node; the rows come from `_parts`."""
        row = self.shown.row(self.month, code)
        is_annual = row is not None and row.year_change is not None
        months = self._months(code)
        marks = self._marks(code)
        levels = self.series.column(months, code, "chained")
        history = [month for month, level in zip(months, levels) if level is not None]
        given = self.contributions.of(self.month, code, ALL_ITEMS)
        notes = self.notes.by_month(code, history)
        shown_notes = present(self.speech, notes)
        return {
            "code": code,
            "title": self.series.title(code),
            "special": self._special(code),
            "definitions": self._definitions(code),
            "marks": marks,
            "notes": defaultdict(str, notes),
            "present": shown_notes,
            "named_notes": self.speech.row([f"{letter} {name}" for letter, name, _ in shown_notes] or [""]),
            "lead": node_lead(self.speech, self.month, row, history[-1]),
            "beside": "" if self.is_first else f"../{self.version.up}node/",
            "sentences": self.notes.sentences(self.month, code),
            "row": row,
            "is_annual": is_annual,
            "rows": rows,
            "zero": zero,
            "is_untold": bool(self.series.children(code)) and (self.month, is_annual) in self.contributions.unexplained,
            "hidden": self._find_hidden(code),
            "revised": [*revised_bases(self.series, row, self.hidden, self.speech)] if row else [],
            "path": self.series.path(code),
            "months": self.month_rows.of(code, history[::-1], notes, marks),
            "is_whole": len(months) == len(self.series.months),
            "given": given.to_year if is_annual else given.to_month,
            "base_text": base_text(self.shown, code),
        }

    def _months(self, code: str) -> list[str]:
        """The months that the page of a node shows: those of the files of `data`, or the last year that it was in."""
        if self.recent is self.known or self.series.level(self.recent.series.months[0], code) is not None:
            return self.recent.series.months
        last = max(month for run in self.series.runs(code) for month in run)
        first = min(self.recent.series.months[0], f"{last[:4]}-01")
        return [month for month in self.series.months if first <= month]

    def _row(self, month: str, code: str) -> Row:
        """The row of a node that has one."""
        row = self.shown.row(month, code)
        assert row
        return row

    def _find_hidden(self, code: str) -> dict[str, str]:
        """By month, the figures of the last month that rest on a revision under embargo; of a special aggregate none,
        and no change that is computed from the printed index."""
        row = self.series.row(self.month, code)
        if row is None or code in self.series.specials or not self.hidden:
            return {}
        return hidden_bases(self.series, row, self.shown.rates == EXACT, self.speech)

    @cached_property
    def _reasons(self) -> Reasons:
        """The office's reasons."""
        return given_reasons(self.config.reasons, self.series, self.config.planned)

    def _definitions(self, code: str) -> list[GivenReason]:
        """The reasons why the definition of a special aggregate, or figures of quality or of adjusted series,
        changed, in the order in which the office gave them; none for a node."""
        return [it for of, reason in sorted(self._reasons.items()) if of[0] == code for it in reason]

    def _special(self, code: str) -> Optional[Special]:
        """The description of a special aggregate; None for a node."""
        return Sets(self.config.specials).last(code) if code in self.series.specials else None

    def _marks(self, code: str) -> dict[str, str]:
        """By month with a mark, the sentence about it."""
        speech = self.speech
        marks = {
            month: speech.t(
                "Break: from {month} on, {period} = 100. These levels aren't linked to the earlier ones below.",
                month=speech.month(month),
                period=speech.period(hundred),
            )
            for month, hundred in self.shown.hundreds(code)[1:]
        }
        if code in self.series.specials:
            it = self.series.specials[code]
            for month in it.changes:
                now, then = ({*it.members[year]} for year in (month[:4], link_of(month)[:4]))
                marks[month] = self._say_moved(month, now - then, then - now)
        return marks

    def _say_moved(self, month: str, came: set[str], left: set[str]) -> str:
        """The sentence about a month in which other elementary aggregates belong to a special aggregate."""
        speech, parts = self.speech, list[str]()
        if came:
            parts.append(speech.t("new: {codes}", codes=_codes(speech, came)))
        if left:
            parts.append(speech.t("no longer in it: {codes}", codes=_codes(speech, left)))
        return speech.t(
            "Break: from {month} on, it contains different elementary aggregates ({changes}).",
            month=speech.month(month),
            changes="; ".join(parts),
        )

    def _link_names(self, names: Sequence[str]) -> Markup:
        """The parts of a special aggregate, each with the way to its page, if it has one."""
        page, code = Markup('<a href="{}">{}</a>'), Markup('<span class="code">{}</span>')
        pages = (
            page.format(page_of(name), others(self.speech.inner(self.series.title(name))))
            if name in self.series.all_titles
            else code.format(name)
            for name in names
        )
        return Markup(self.speech.list_texts([*map(str, pages)]))

    def _list_unexplained(self) -> list[tuple[str, bool]]:
        return sorted(self.contributions.unexplained)

    def _sources(self) -> list[tuple[Table, Source]]:
        return [*zip(self.series.vintages, self.series.sources)][::-1]

    def _files(self) -> list[tuple[str, int]]:
        """The files of the folder `data` with their sizes in bytes, in the order of their page."""
        files = [(name, self.pack / "data" / name) for name in FILES]
        return [(name, file.stat().st_size) for name, file in files if file.is_file()]

    def _series_path(self) -> str:
        """The path of the index of all items, as SDMX-REST has it; empty if the pack has no such paths."""
        path = series_path(self.config, ALL_ITEMS)
        return path if (self.pack / path).is_file() else ""

    def _changes(self) -> list[tuple[str, int]]:
        """The files of the last changes with their sizes in bytes, the last first."""
        rows = read_manifest(self.pack / MANIFEST).changes[-SHOWN_CHANGES:]
        names = (Path(name) for row in reversed(rows) for name in row.files)
        return [(name.name, (self.pack / name).stat().st_size) for name in names]

    def _years(self) -> list[tuple[str, int]]:
        """The archives of earlier years with their sizes in bytes, the last first."""
        return [(path.stem, path.stat().st_size) for path in sorted(self.pack.glob("data/years/*.zip"), reverse=True)]

    def _lacking(self) -> list[str]:
        """The nodes that have no level in the whole reference period."""
        if not self.config.reference:
            return []
        return [
            code for code in self.series.all_titles if not reference_level(self.series, code, self.config.reference)
        ]

    def _clause_items(self) -> list[str]:
        """The items that the calculator offers."""
        return [*self.series.down_to(CLAUSE_DEPTH), *self.series.specials]

    def _item(self, code: str) -> dict[str, object]:
        """Title and levels of a node for the calculator."""
        levels = [row.chained if row else None for row in self.series.rows(code)]
        begun = [] if len(self.clause_months) == len(levels) else [HUNDRED if levels[0] else None]
        found = [
            None if chained is None else self.shown.of_level(chained, month, code)
            for month, chained in zip(self.clause_months, begun + levels)
        ]
        millionths, tenths = (
            [level and round_ratio(parts * level.over, level.under) for level in found] for parts in (10**6, 10)
        )
        hundreds = [
            [self.clause_months.index(max(before(month), self.clause_months[0])), self.speech.period(hundred), hundred]
            for month, hundred in self.shown.hundreds(code)
        ]
        named = {"title": self._apart(self.series.title(code)), "isSet": code in self.series.specials}
        return {**named, "levels": millionths, "tenths": tenths, "hundreds": hundreds}

    def _apart(self, text: str) -> str:
        """A text of others for the script of the calculator."""
        return apart(text, self.speech.language.dir)

    def _earlier(self) -> list[dict[str, object]]:
        """The earlier revisions of months, for the addresses of results that were computed from them: by item, the level
        in millionths and in tenths of a point."""
        found: list[dict[str, object]] = []
        for table in self.series.vintages:
            if table is not self.series.latest[table.month] and table.month in self.clause_months:
                # (the month before all others has no rows: what begins there has 100)
                rows = table.rows or self.series.latest[self.series.months[0]].rows
                levels = {
                    code: rows[code].chained if table.rows else HUNDRED
                    for code in self.series.down_to(CLAUSE_DEPTH)
                    if code in rows
                }
                exact = {code: self.shown.of_level(level, table.month, code) for code, level in levels.items()}
                items = {
                    code: [round_ratio(it.over * by, it.under) for by in (10**6, 10)] for code, it in exact.items()
                }
                named = {"month": self.clause_months.index(table.month), "revision": table.revision}
                found.append({**named, "published": self._say_published(table), "sum": table.sha256, "items": items})
        return found

    def _say_published(self, table: Table) -> str:
        """When a table was published, by the office's clock."""
        return self.config.clock.day(table.moment, self.speech)

    def _levels(self) -> str:
        """The data for the calculator, as a script: levels in millionths and in tenths of a point."""
        series, months = self.series, self.clause_months
        tables = [series.latest[month] for month in months]
        data = {
            "currency": self._apart(self.config.currency),
            "digits": self.config.minor_digits,
            "months": months,
            "names": [self.speech.month(month) for month in months],
            "revisions": [table.revision for table in tables],
            "published": [*map(self._say_published, tables)],
            "sums": [table.sha256 for table in tables],
            "office": self._apart(self.config.office),
            "title": self._apart(self.config.title),
            "earlier": self._earlier(),
            "items": {code: self._item(code) for code in self._clause_items()},
        }
        return f"window.LEVELS = {json.dumps(data, separators=(',', ':'))};\n"
