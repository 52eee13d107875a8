"""The files of a pack by months: of the latest years, the archives of earlier years, and slices."""

from __future__ import annotations

import contextlib
import hashlib
import io
import json
import platform
import shutil
import tempfile
import zipfile
import zlib
from collections.abc import Callable, Iterable, Iterator
from functools import lru_cache
from pathlib import Path
from typing import NamedTuple, Optional, Union

from ...office.folders import files_of
from ...office.tables import Series, Unexplained, iso
from ...text.clocks import UTC
from ...text.exact import ALL_ITEMS
from ...text.languages import LATIN, PO, names_by
from ...text.text_files import is_safe, link_or_copy
from ..figures.config import JSON_STAT, PX, SDMX_FORMS, SLICES, Config
from ..figures.figures import Known
from ..figures.measures import Contributions
from ..figures.own_words import OwnWords
from ..figures.shown_figures import Shown
from . import cubes
from .artefacts import Structure, first_of as first_text_of, item_id
from .cubes import HeadsOfOne, JsonStat, Px, all_measures_of, figures_of, measures_of
from .manifest import NewFiles
from .pack_before import NOTHING_KEPT, Before, KeptLines
from .published_core import write_core_cubes
from .sdmx import DATA_END, ENDS, FLOW, Also, Form, Observed, data_head, form_of, open_text, write_data
from .structure import write_structure
from .tidy import write_months, write_specials
from .workbook import WHEN_ZIPPED, write_workbook


# ==== the files of some months: those of the latest years in the folder `data`, and those of an earlier year in its
# archive
#
# They have the same names in both, so a program that reads one reads the other.
#
# The cube in each form that the pack has; each figure is computed once for all of them.

Now = Callable[[str], None]
"""Gets a line on each step."""

STRUCTURE = "structure.sdmx.xml"
"""The file of the structure of SDMX."""


def known_of(
    part: Series, unexplained: Iterable[tuple[str, bool]], shown: Shown, recent: Optional[Known] = None
) -> Known:
    """The figures of a part of the tables: months without contributions and reference periods are those of all;
    existing figures are taken from `recent`."""
    return Known(part, Contributions(part, unexplained), shown.part(part), recent)


def write_part(
    known: Known,
    structure: Structure,
    config: Config,
    folder: Path,
    now: Now,
    kept: KeptLines = NOTHING_KEPT,
    also: Optional[Also] = None,
    has_structure: bool = True,
) -> None:
    """Writes the files of some months into a folder; the structure of SDMX is that of all months, which isn't written if
    it `has_structure` no more, and `also` takes each series of it."""
    now("CSV files")
    write_months(known, folder, kept)
    write_specials(known.series, known.contributions, folder)
    if any(map(config.has, SDMX_FORMS)):
        now("SDMX files")
        write_data(known, structure, config, folder, also)
    if has_structure and any(map(config.has, SDMX_FORMS)):
        write_structure(structure, known.series, config, folder / STRUCTURE)
    now("JSON-stat and PX")
    write_cubes(known, config, folder)
    write_core_cubes(known, config, folder)
    now("the workbook")
    write_workbook(known, config, folder / "cpi.xlsx")


def write_cubes(known: Known, config: Config, folder: Path) -> None:
    """Writes `cpi.jsonstat.json` and `cpi.px`."""
    with contextlib.ExitStack() as files:
        forms: list[Union[JsonStat, Px]] = []
        if config.has(JSON_STAT):
            forms.append(JsonStat(files.enter_context(open_text(folder / cubes.JSON_STAT)), known, config))
        if config.has(PX):
            forms.append(Px(files.enter_context(open_text(folder / cubes.PX)), known, config))
        for code in known.codes if forms else ():
            for measure in all_measures_of(config):
                figures = figures_of(known, measure, code)
                for each in forms:
                    each.add(measure, figures)
        for each in forms:
            each.end()


# ==== slices of the observations, for those who don't take the whole: the newest month, the headline figures, each
# division, and each item by a path
#
# - `data/newest/` has the newest month in each form, in files of the same names as those of `data/`.
# - `data/slices/headline.sdmx.xml` has all items and the divisions, `data/slices/aggregates.sdmx.xml` special
#   aggregates and analytical core inflation, and `data/slices/01.sdmx.xml` a division with all below it. Together they
#   are the whole.
# - `data/sdmx/` is the base address of paths in the form of SDMX-REST, which any file server answers with a file:
#   `data/DF_CPI/M.XX.CPI.IX._T.N` is a series by its key, `dataflow/NSO/DF_CPI/latest` the structure.
# - `data/json-stat/01.1.json` is the cube of one item, and `data/json-stat/index.json` the collection of them.
#
# The small files exist for each item: its index by a path, and its cube. The other series have a path only of what is
# in `headline` and `aggregates`, since ten files for each of seven thousand items would be more than all other files of
# a pack together.

HEADLINE, AGGREGATES = "headline", "aggregates"
"""The slice of all items and the divisions, which R reads within seconds, and that of special aggregates."""

NEWEST, ITEMS, PATHS = "newest", "json-stat", "sdmx"
"""The folders of the newest month, of the cubes of items, and of paths in the form of SDMX-REST."""

INDEX = ("M", "CPI", "IX", "N")
"""Frequency, measure, unit and transformation of the series that each item has by a path."""


def series_path(config: Config, code: str) -> str:
    """The path in a pack of the index of an item: a series of SDMX by its key."""
    frequency, measure, unit, transformation = map(config.id, INDEX)
    key = ".".join((frequency, config.area, measure, unit, item_id(code), transformation))
    return f"data/{PATHS}/data/{config.id(FLOW)}/{key}"


def slices_of(series: Series, code: str) -> tuple[str, ...]:
    """The slices that an item is in."""
    if code in series.specials or code in series.core:
        return (AGGREGATES,)
    division = () if code == ALL_ITEMS else (code[:2],)
    return (HEADLINE, *division) if len(code) == 2 else division


def is_headline(series: Series, code: str) -> bool:
    """Whether an item is all items, a division, a special aggregate or a measure of core inflation."""
    return code in series.specials or code in series.core or len(code) == 2


def divisions_of(series: Series) -> list[str]:
    """The divisions that have an item."""
    return sorted({code[:2] for code in series.titles} - {ALL_ITEMS})


# ---- SDMX


class SdmxSlices:
    """Writes each series of SDMX into the files of its slices, and at the path of its key."""

    def __init__(
        self, known: Known, structure: Structure, config: Config, files: NewFiles, stack: contextlib.ExitStack
    ):
        self._series, self._config, self._files = known.series, config, files
        self._forms: dict[tuple[str, str], Form] = {}
        folder, names = files.folder / "data" / SLICES, (HEADLINE, *divisions_of(known.series))
        names = (*names, AGGREGATES) if known.series.specials or known.series.core else names
        folder.mkdir()
        for form in filter(config.has, SDMX_FORMS):
            for name in names:
                file = stack.enter_context(open_text(folder / f"{name}.{ENDS[form]}"))
                self._forms[form, name] = form_of(form, file, structure, known.series, config, name)
        self._index = tuple(map(config.id, INDEX))
        self._paths = f"data/{PATHS}/data/{structure.flow.id}"
        self._part = "KEY"
        self._head, self._rest = data_head(structure, known.series, config, self._part).split(f"_{self._part}<", 1)
        if config.has("sdmx-ml"):
            (files.folder / self._paths).mkdir(parents=True)

    def add(self, form: str, observation: Observed, text: str) -> None:
        """Writes a series in a form."""
        for name in slices_of(self._series, observation.code):
            self._forms[form, name].put(text)
        frequency, _, measure, unit, _, transformation = observation.key
        is_index = (frequency, measure, unit, transformation) == self._index
        if form == "sdmx-ml" and (is_index or is_headline(self._series, observation.code)):
            name = f"{self._head}_{'_'.join(observation.key)}<{self._rest}{text}{DATA_END}"
            self._files.write(f"{self._paths}/{'.'.join(observation.key)}", name.encode())

    def end(self) -> None:
        """Writes the ends of the slices."""
        for form in self._forms.values():
            form.end()


@contextlib.contextmanager
def sdmx_slices(known: Known, structure: Structure, config: Config, files: NewFiles) -> Iterator[Optional[SdmxSlices]]:
    """The writers that get each series of the folder `data`; none if the pack has no slices, or no SDMX."""
    if not config.has(SLICES) or not any(map(config.has, SDMX_FORMS)):
        yield None
        return
    with contextlib.ExitStack() as stack:
        sdmx_slices = SdmxSlices(known, structure, config, files, stack)
        yield sdmx_slices
        sdmx_slices.end()


def _write_structure_paths(structure: Structure, config: Config, data: Path) -> None:
    """The structure at the paths by which SDMX-REST asks for the newest one."""
    for kind, name in (("dataflow", structure.flow.id), ("datastructure", structure.definition.id)):
        folder = data / PATHS / kind / config.agency / name
        folder.mkdir(parents=True)
        link_or_copy(data / STRUCTURE, folder / "latest")


# ---- JSON-stat


def write_item_cubes(known: Known, config: Config, files: NewFiles) -> None:
    """Writes the cube of each item, and the collection of them."""
    (files.folder / "data" / ITEMS).mkdir()
    heads = HeadsOfOne(known, config)
    for code in known.codes:
        text = io.StringIO()
        cube = JsonStat(text, known, config, (code,), heads.of(code))
        for measure in measures_of(config):
            cube.add(measure, figures_of(known, measure, code))
        cube.end()
        files.write(f"data/{ITEMS}/{code}.json", text.getvalue().encode())
    files.write(f"data/{ITEMS}/index.json", _collection(known, config).encode())


def _collection(known: Known, config: Config) -> str:
    """The collection of cubes (JSON-stat 2.0, class collection), with their whole addresses if the office names its own."""
    own, base = first_text_of(config), f"{config.address}data/{ITEMS}/" if config.address else ""
    items = [
        {"class": "dataset", "href": f"{base}{code}.json", "label": f"{code} {own.title(known.series, code)}"}
        for code in known.codes
    ]
    about = {"version": "2.0", "class": "collection", "label": own.config.title, "updated": iso(known.series.moment)}
    return json.dumps({**about, "link": {"item": items}}, ensure_ascii=False, indent=1) + "\n"


# ---- the newest month


def write_slices(known: Known, structure: Structure, config: Config, files: NewFiles, now: Now) -> None:
    """Writes what isn't written with the files of `data`: the newest month, the cubes of items, and the paths of the
    structure; `known` are the figures of these files."""
    if not config.has(SLICES):
        return
    data, month = files.folder / "data", known.series.months[-1]
    now("the newest month")
    (data / NEWEST).mkdir()
    newest = known_of(known.series.part(month, month), known.contributions.unexplained, known.shown, known)
    write_part(newest, structure, config, data / NEWEST, lambda _: None, has_structure=False)
    if config.has("sdmx-ml"):
        _write_structure_paths(structure, config, data)
    if config.has(JSON_STAT):
        now("cubes of items")
        write_item_cubes(known, config, files)


# ==== the years of a pack: which are in the files of the folder `data`, and the archive of each earlier one
#
# An office of thirty years has millions of figures, of which a month brings one in 360. So the files of `data` have the
# latest years, and each earlier year has an archive `data/years/2019.zip`, which is made as if no later table were
# there; but its SDMX refers to the structure of today, since a series lies in one dataflow. As long as all that it is
# made of stays as it was, the archive of the pack before is taken, and so are the lines of the months in the files of
# `data`. `data/years/made.json` has a sum of that for each year and for those months, so the result is the same bytes
# whether a pack was there or not.

MOST_ROWS = 1 << 18
"""Rows of cpi.csv; contributions.csv has two for each, which is half of what a spreadsheet takes."""

YEARS, MADE = "years", "made.json"


def first_of(series: Series, years: Optional[int] = None) -> str:
    """The January from which on the files of `data` have all months: the January of so many years up to the last
    month, or otherwise of as many as have at most MOST_ROWS rows. The last year is always in them."""
    last = int(series.every[-1][:4])
    if years is not None:
        return f"{max(int(series.every[0][:4]), last - years + 1):04}-01"
    rows, first = 0, last
    for month in reversed(series.every):
        rows += len(series.latest[month].rows)
        if rows > MOST_ROWS and int(month[:4]) < last:
            break
        first = int(month[:4]) + (0 if month.endswith("-01") else 1)
    return f"{min(first, last):04}-01"


def earlier_years(series: Series, first: str) -> list[str]:
    """The years before a January that have a month."""
    return [*dict.fromkeys(month[:4] for month in series.every if month < first)]


class Span(NamedTuple):
    """The months from a January on up to one."""

    first: str
    last: str


class Kept(NamedTuple):
    """The part of the previous pack's files of `data` that has the same sources: up to which month, and which
    changes of all months up to it aren't those of the published levels; no month if nothing is."""

    to: str = ""
    unexplained: Iterable[Unexplained] = ()


class Archives:
    """Writes the archives of some years, or takes those of the pack before."""

    def __init__(self, series: Series, shown: Shown, config: Config, structure: Structure, before: Before, span: Span):
        """`structure` is that of all months, and `span` are the months of the files of `data`."""
        self._structure = structure
        self._series, self._shown, self._config, self._before, self._span = series, shown, config, before, span
        self.kept = next(self._all_kept(), Kept())
        """The part of the previous pack's files of `data` that has the same sources."""
        after = (month for month in series.every if month > self.kept.to)
        self.unexplained = frozenset({*self.kept.unexplained, *series.find_unexplained(after)})
        self._years_to = ""

    @property
    def same_to(self) -> str:
        """The last month whose lines in the files of items are those of the pack before: nothing that they are made of has
        changed, and they weren't provisional. Empty if there is none."""
        kept = [month for month in self._series.every if month <= self.kept.to]
        last = kept[: max(0, len(kept) - self._config.provisional)][-1:]
        return max(self._years_to, *last, "")

    @property
    def titled_to(self) -> str:
        """The last month of the files of `data` in the previous pack that have the same sources, if no title of an
        item has changed since; otherwise empty."""
        then, now = self._series.titles_to(self.kept.to), self._series.every_title
        return self.kept.to if all(now[code] == title for code, title in then.items()) else ""

    def write(self, years: Iterable[str], folder: Path, now: Now) -> None:
        """Writes the archives into the folder `data`, and the sources of them and of the files there."""
        made: dict[str, object] = {}
        (folder / YEARS).mkdir()
        for year in years:
            span = Span(f"{year}-01", f"{year}-12")
            provisional = sorted(month for month in self._shown.provisional if span.first <= month <= span.last)
            its_sum = f"{self.made_of(span, self.unexplained)} {self._dataflow_version}"
            # (a month that is final from now on has another status)
            made[year] = its_sum = f"{its_sum} {' '.join(provisional)}" if provisional else its_sum
            name, is_same = f"data/{YEARS}/{year}.zip", self._before.made.get(year) == its_sum
            self._years_to = (
                max(table for table in self._series.every if table <= span.last) if is_same else self._years_to
            )
            if not is_same or not self._before.take(name, folder / YEARS / f"{year}.zip"):
                self._write(span, folder / YEARS / f"{year}.zip", lambda what: now(f"{year}: {what}"))
        made["/".join(self._span)] = [self.made_of(self._span, self.unexplained), sorted(self.unexplained)]
        (folder / YEARS / MADE).write_text(json.dumps(made, indent=1) + "\n", encoding="utf-8")

    @property
    def _dataflow_version(self) -> str:
        """The version of the dataflow, which follows everything that it refers to; empty if there is no SDMX."""
        return self._structure.flow.version if any(map(self._config.has, SDMX_FORMS)) else ""

    def _all_kept(self) -> Iterator[Kept]:
        """The months of `data` in the previous pack, if they begin with the same one, up to its last month."""
        for months, found in self._before.made.items():
            first, _, last = months.partition("/")
            if first == self._span.first and first <= last <= self._span.last and isinstance(found, list):
                with contextlib.suppress(TypeError, ValueError):
                    its_sum, pairs = found
                    hidden = [(str(month), bool(is_annual)) for month, is_annual in pairs]
                    if self.made_of(Span(first, last), hidden) == its_sum:
                        yield Kept(last, hidden)

    def made_of(self, span: Span, unexplained: Iterable[Unexplained]) -> str:
        """The sum of all that the files of some months are made of: the tool, the configuration, the tables up to the last
        one, and the levels of the reference period, which may be a later one."""
        tables = [
            (vintage.month, vintage.revision, vintage.moment, vintage.sha256)
            for vintage in self._series.vintages
            if vintage.month <= span.last
        ]
        hidden = sorted(change for change in unexplained if change[0] <= span.last)
        own = self._config
        # (which has no part in these files: what only pages say, releases to come, and what earlier releases had)
        config = own._replace(
            without=frozenset(), years=None, address="", clock=UTC, planned=(), announced=(), reasons=(), references=(), all_rates=(),
            all_provisional=(), about=OwnWords(), doi="", has_quality=False, counts=(), least_outlets=0, profiles=(),
            also=frozenset(), has_averages=False, averages=(), seasonal=None, colours=None, press=(), press_since="", currency="", minor_digits=0,
            speaks=own.speaks._replace(digits=LATIN),
        )  # fmt: skip
        content = (
            tool(),
            tuple(it for it in config if it is not UTC),
            sorted(own.without),
            is_safe(),
            tables,
            hidden,
            [*self._bases(span)],
        )
        return hashlib.sha256(repr(content).encode()).hexdigest()

    def _bases(self, span: Span) -> Iterator[str]:
        """The levels of the reference period of all that is in a table up to the last month, each with the months that are
        linked to it."""
        codes, last = {*self._series.titles_to(span.last), *self._series.specials}, span.last
        for code, base in self._shown.bases.items():
            if base and code in codes and base[0] <= last:
                first, linked, (over, under) = base
                yield f"{code} {first} {min(linked, last)} {over}/{under}"

    def _write(self, span: Span, to: Path, now: Now) -> None:
        known = known_of(self._series.part(*span), self.unexplained, self._shown)
        with tempfile.TemporaryDirectory(prefix=".", dir=to.parent) as folder:
            # (no further table changes a year, so none is announced in its files)
            write_part(known, self._structure, self._config._replace(planned=()), Path(folder), now)
            now("the archive")
            with zipfile.ZipFile(to, "w") as archive:
                for name in files_of(Path(folder)):
                    put(archive, Path(folder) / name, f"{to.stem}/{name}")


def put(archive: zipfile.ZipFile, path: Path, name: str) -> None:
    """Puts a file into an archive; a workbook is packed already."""
    member = zipfile.ZipInfo(name, WHEN_ZIPPED)
    member.compress_type = zipfile.ZIP_STORED if path.suffix == ".xlsx" else zipfile.ZIP_DEFLATED
    member.external_attr = 0o644 << 16
    member.file_size = path.stat().st_size
    with path.open("rb") as file, archive.open(member, "w") as to:
        shutil.copyfileobj(file, to, 1 << 20)


@lru_cache(maxsize=None)
def tool() -> str:
    """The sum of the tool's own sources and catalogues, and of what packs and names months: another one could write other
    bytes."""
    top = Path(__file__).resolve().parents[2]
    digest = hashlib.sha256(f"{platform.python_version()} {zlib.ZLIB_RUNTIME_VERSION} {names_by()}".encode())
    sources = {path.relative_to(top).as_posix(): path for path in top.rglob("*.py")}
    for name, path in sorted({**sources, **{path.name: path for path in PO.glob("*.po")}}.items()):
        digest.update(f"{name} {hashlib.sha256(path.read_bytes()).hexdigest()}\n".encode())
    return digest.hexdigest()
