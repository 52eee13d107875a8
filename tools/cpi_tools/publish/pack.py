"""`cpi-tools publish`: everything that users of the index download, as data files and as a website.

The tables are read only as the public reads them (`office/public.py`), so no file that is written here can contain a
figure under embargo. Nothing depends on the clock: the same published tables give the same bytes.
"""

from __future__ import annotations

import argparse
import sys
import time
from collections.abc import Callable, Iterable, Mapping, Sequence
from functools import partial
from pathlib import Path
from typing import NamedTuple, Optional

from ..office.folders import behind_link, new_room, refuse_shared, written_folder
from ..office.public import Published
from ..office.tables import Series
from ..text.text_files import add_safe_csv, compared_only
from ..text.terminal import Fault, Progress, ToolWords, because_of, needs, time_text, write_count
from .figures.aggregated import series_of
from .figures.announcements import (
    Earlier as EarlierMoments,
    Reasons,
    announced_after,
    announced_in,
    given_reasons,
    write_announced,
)
from .figures.config import PDF, Config, read_config
from .figures.figures import Known, Notes
from .figures.measures import Contributions
from .figures.seasonal_series import lines_of_lag, series_of_office
from .figures.shown_figures import Shown
from .figures.specials import Sets
from .forms.artefacts import Versions, versions_after
from .forms.manifest import (
    MANIFEST,
    Change,
    Manifest,
    NewFiles,
    Sign,
    Signature,
    changed_since,
    differences,
    is_signed,
    keep_signature,
    manifest_text,
    previous_of,
    read_manifest,
    sign_nothing,
    signed_by,
    write_sums,
)
from .forms.pack_before import Before, KeptLines, added_reasons, write_reasons
from .forms.pack_changes import Earlier as EarlierChanges, Made, earlier_changes, join_changes, write_changes
from .forms.years import Archives, Now, Span, earlier_years, first_of, known_of, sdmx_slices, write_part, write_slices
from .forms.structure import structure_of, write_profiles
from .forms.published_core import NO_CORE, KeptCore, core_lines, kept_core, refuse_changed_core, write_core
from .forms.published_sets import (
    NO_SEASONAL,
    NO_SETS,
    KeptSeasonal,
    KeptSets,
    changed_sets,
    kept_seasonal,
    kept_sets,
    refuse_changed,
    refuse_changed_seasonal,
    set_lines,
    write_seasonal,
)
from .forms.sdmx import KNOWN_IDS
from .forms.tidy import write_whole
from .typeset.pdf_writing import NOT_MADE, Pdfs, need_writer, pdfs_like
from .releases.cards import NOT_DRAWN, NO_CARDS, Cards, cards_after, cards_like, has_cards
from .releases.published_before import (
    Earlier,
    KeptAverages,
    KeptQuality,
    changed_pages,
    kept_quality,
    read_kept_averages,
    write_averages,
)
from .site.chooser import ItemFiles
from .sources import add_source, read_source, test_source

SHOWN_DIFFERENCES = 20
"""The largest number of files that --check names."""


class CannotPublish(Fault):
    """A pack that can't be written; one line."""


Previous = Callable[[Sequence[Change]], Optional[str]]
"""The SHA-256 of the manifest that precedes a manifest with the given changes."""


class Pack(NamedTuple):
    """The sources of a pack: its tables and its publisher; from the previous pack, if there is one, the SHA-256 of its
    manifest, the changes in earlier packs, the versions of SDMX artefacts, and the announced moments; what signs the
    manifest and what draws cards, if anything does; the special aggregates, the quality in figures, the core measures,
    the average prices and the adjusted series of earlier packs; and how PDFs of releases are written."""

    series: Series
    config: Config
    previous: Previous
    changes: EarlierChanges
    versions: Versions
    moments: EarlierMoments
    sign: Sign = sign_nothing
    cards: Cards = NO_CARDS
    sets: KeptSets = NO_SETS
    quality: Sequence[KeptQuality] = ()
    core: KeptCore = NO_CORE
    averages: Sequence[KeptAverages] = ()
    seasonal: KeptSeasonal = NO_SEASONAL
    pdfs: Pdfs = Pdfs()


class Last(NamedTuple):
    """A pack that is replaced, or that the new one follows: its folder, its manifest, its special aggregates, its core
    measures, and its adjusted series. A manifest may be kept without its pack."""

    folder: Path
    manifest: Manifest
    sets: KeptSets
    core: KeptCore
    seasonal: KeptSeasonal

    def refuse_changes(self, series: Series, config: Config, reasons: Reasons) -> Earlier:
        """Raises Fault if a table, a figure of a special aggregate, of a core measure or of an adjusted series that may
        not change, or one of the pack's published reasons, differs or is missing now; otherwise returns what the new
        pages of this pack's releases are compared with.
        """
        changed = next(changed_since(self.manifest, series), None)
        if changed:
            raise CannotPublish(changed)
        refuse_changed(changed_sets(self.manifest, series, self.sets), reasons, self.sets)
        refuse_changed_core(self.manifest, series, config.core, reasons, self.core)
        refuse_changed_seasonal(series, reasons, self.seasonal)
        return Earlier(self.folder, self.manifest.tables, added_reasons(self.folder, self.manifest.tables, reasons))


def _read_last(path: Path) -> Last:
    """The pack of a manifest. Raises Fault."""
    pack, manifest = path.parent, read_manifest(path)
    return Last(pack, manifest, kept_sets(pack), kept_core(pack), kept_seasonal(pack, manifest))


# ---- writing


def write_pack(pack: Pack, folder: Path, now: Now, before: Before) -> None:
    """Writes all files of a pack into an empty folder; files that are the same in the previous pack are taken from
    it."""
    # (imported here, since the other tools don't need the packages that the pages need)
    from .releases.quality_figures import write_quality
    from .site.sites import Shared, write_sites
    from .site.csvw import write_sqlite

    series = pack.series
    announced = announced_after(pack.moments, pack.config.planned, series)
    config = pack.config._replace(announced=announced)
    files = NewFiles(folder)
    now("what each month is computed from")
    shown, data = Shown(series, config.reference, config.rates, config.provisional), folder / "data"
    sums = _write_tables(series, data / "tables", before)
    span = Span(first_of(series, config.years), series.every[-1])
    years = earlier_years(series, span.first)
    structure = structure_of(series, config, pack.versions)
    archives = Archives(series, shown, config, structure, before, span)
    contributions = Contributions(series, archives.unexplained)
    if years:
        archives.write(years, data, now)
    kept = KeptLines(before, archives.titled_to)
    reasons = given_reasons(config.reasons, series, config.planned)
    superseded = joined_lines(
        set_lines(series, reasons, pack.sets), core_lines(series, config.core, reasons, pack.core)
    )
    write_whole(series, shown, data, kept, superseded)
    write_core(series, data)
    write_seasonal(series, data, reasons, pack.seasonal)
    write_reasons(reasons, data)
    recent = known_of(series.part(*span), archives.unexplained, shown)
    pack.versions.write(data)
    write_announced(announced, data)
    write_quality(series, config, data, pack.quality, reasons)
    write_averages(series, config, data, pack.averages)
    files.sums.update({**sums, **before.taken})
    with sdmx_slices(recent, structure, config, files) as also:
        write_part(recent, structure, config, data, now, kept, also)
    write_slices(recent, structure, config, files, now)
    write_profiles(recent, structure, config, data)
    write_sqlite(config, data)
    now("what has changed")
    made = Made(series, structure, config, Before(pack.changes.pack) if pack.changes.pack else None, before.taken)
    signature = _write_manifest(pack, made, files)
    known = Known(series, contributions, shown, recent)
    items = ItemFiles(known, Notes(shown, config.provisional), before, archives.same_to, files)
    write_sites(known, recent, config, Shared(items, signature, pack.cards, files, pack.pdfs), now)
    now("sums")
    write_sums(folder, {**before.taken, **files.sums})


def joined_lines(one: Mapping[str, Sequence[str]], other: Mapping[str, Sequence[str]]) -> dict[str, list[str]]:
    """Lines of two kinds by month, the first kind first."""
    return {month: [*one.get(month, ()), *other.get(month, ())] for month in {**one, **other}}


def _write_tables(series: Series, folder: Path, before: Before) -> dict[str, str]:
    """Writes the tables as the program printed them, or takes existing files; returns their sums by their names in the
    pack."""
    folder.mkdir(parents=True)
    sums = {}
    for source in series.sources:
        name, table = f"data/tables/{source.name}", source.table
        sums[name] = source.sha256
        if not before.take_same(name, folder / source.name, table, source.sha256):
            (folder / source.name).write_bytes(table)
    return sums


def _write_manifest(pack: Pack, made: Made, files: NewFiles) -> Optional[Signature]:
    """Writes the changes since the previous pack, then the manifest, which names them, and the manifest's signature if
    it is signed."""
    changes, sums = write_changes(pack.changes, made, files.folder)
    files.sums.update(sums)
    manifest = manifest_text(pack.series, pack.previous(changes), changes).encode()
    (files.folder / MANIFEST).write_bytes(manifest)
    signature = pack.sign(manifest)
    if signature:
        signature.write(files.folder)
    return signature


def publish(
    published: Iterable[Published],
    config: Config,
    out: Path,
    before: Optional[Path],
    now: Now,
    is_draft: bool = False,
    key: Optional[Path] = None,
    tell: Callable[[str], None] = lambda _: None,
) -> Series:
    """Writes a pack next to the folder `out`, and puts the pack in the folder's place; returns the pack's tables.

    A draft is readable only by its owner, and takes the place of no pack that others can read. `before` is the
    previous manifest, by default the manifest of an existing pack in `out`. `key` signs the manifest. `tell` gets a
    line if pages of earlier releases no longer say the same. Raises Fault, and leaves `out` as it is, if a table, a
    figure of a special aggregate or a reason that was published differs or is missing now, or if a pack that is signed
    would be replaced by one that isn't.
    """
    series = _add_adjusted(series_of(published, config.specials, config.core), config)
    if is_draft:
        refuse_shared(out, "a draft")
    with written_folder(out, MANIFEST, is_private=is_draft) as new:
        standing = _read_last(out / MANIFEST) if out.exists() else None
        last = _read_last(before) if before else standing
        if standing and last:
            _refuse_older(last, standing)
        reasons = given_reasons(config.reasons, series, config.planned)
        earlier = {
            last_month.folder: last_month.refuse_changes(series, config, reasons)
            for last_month in (standing, last)
            if last_month
        }
        if key is None and is_signed(out):
            raise CannotPublish(f"{out} is signed, and the new pack wouldn't be: --sign names the key")
        cards = cards_after(out) if config.address else NO_CARDS
        manifest = last.manifest if last else None
        chain = partial(previous_of, manifest, series), _changes_after(standing, last), versions_after(earlier)
        sets = next(
            (last_month.sets for last_month in (last, standing) if last_month and last_month.sets.rows), NO_SETS
        )
        core = next(
            (last_month.core for last_month in (last, standing) if last_month and last_month.core.rows), NO_CORE
        )
        seasonal = next(
            (last_month.seasonal for last_month in (last, standing) if last_month and last_month.seasonal.is_there),
            NO_SEASONAL,
        )
        pack = Pack(
            series, config, *chain, announced_in(earlier), signed_by(key, config.agency), cards, sets,
            [*map(kept_quality, earlier)], core, [read_kept_averages(it, config.minor_digits) for it in earlier], seasonal,
            Pdfs(pack=out),
        )  # fmt: skip
        write_pack(pack, new, now, Before(behind_link(out) if standing else None))
        _tell_uncounted(series, config, tell)
        for line in lines_of_lag(series):
            tell(line)
        if out in earlier:
            _tell_changes(changed_pages(earlier[out], new, series), tell)
    return series


def _add_adjusted(series: Series, config: Config) -> Series:
    """The tables with the adjusted series of the office's folder, if it has one. Raises BadSeasonal."""
    if config.seasonal:
        series.seasonal = series_of_office(config.seasonal, series, Shown(series, config.reference))
    return series


def _refuse_older(last: Last, standing: Last) -> None:
    """Raises CannotPublish if the pack that is replaced contains tables that the previous manifest lacks: the new
    pack would leave out a manifest that readers have."""
    for month, revision in standing.manifest.tables:
        if (month, revision) not in last.manifest.tables:
            raise CannotPublish(
                f"the manifest in {last.folder} has no table of {month}, revision {revision}, and the pack in"
                f" {standing.folder} has: --previous names the newest manifest, and isn't needed if that is the one there"
            )


def _tell_uncounted(series: Series, config: Config, tell: Callable[[str], None]) -> None:
    """A line if the file of counts lacks published releases: it may be of an earlier month."""
    counted_ones = {cell.of for cell in config.counts}
    lacking = [table for table in series.vintages if table.rows and (table.month, table.revision) not in counted_ones]
    if config.counts and lacking:
        last = lacking[-1]
        tell(
            f"the counts of quality lack {write_count(len(lacking), 'release')}, such as {last.month}, revision"
            f" {last.revision}: cpi-tools quality writes them anew"
        )


def _changes_after(standing: Optional[Last], last: Optional[Last]) -> EarlierChanges:
    """The changes of earlier packs: of the pack that is replaced, and of the previous manifest, which the new one
    follows."""
    replaced = EarlierChanges()
    if standing:
        replaced = earlier_changes(behind_link(standing.folder), standing.manifest)
    if last is None or last is standing:
        return replaced
    return join_changes(earlier_changes(last.folder, last.manifest, is_whole=False), replaced)


def _tell_changes(changed: Sequence[str], tell: Callable[[str], None]) -> None:
    if changed:
        tell(
            f"{write_count(len(changed), 'page')} of earlier releases, such as {changed[0]}, no longer"
            f" {'says' if len(changed) == 1 else 'say'} the same: the configuration or the tool is another one"
        )


def check(published: Iterable[Published], config: Config, out: Path, before: Optional[Path], now: Now) -> list[str]:
    """A line for each file of a pack that would differ now.

    The previous manifest is taken from the pack itself, or is `before`; versions are those of the pack. A signature
    can't be made again without the key: the pack's signature is taken, and has to hold for the manifest that is written
    now.
    """
    series = _add_adjusted(series_of(published, config.specials, config.core), config)
    standing = read_manifest(out / MANIFEST)
    changes = earlier_changes(out, standing)._replace(pack=None)

    def previous(changes: Sequence[Change]) -> Optional[str]:
        return previous_of(read_manifest(before), series, changes) if before else standing.previous

    try:
        with new_room("cpi-pack-") as room:
            new = room / "pack"
            new.mkdir()
            with compared_only():
                chain = previous, changes, versions_after([out]), announced_in([out])
                # (figures that aren't the pack's are differences, and need no reason)
                quality = [kept_quality(out)._replace(figures=())]
                pack = Pack(
                    series,
                    config,
                    *chain,
                    keep_signature(out),
                    cards_like(out),
                    kept_sets(out),
                    quality,
                    kept_core(out),
                    seasonal=kept_seasonal(out, standing),
                    pdfs=pdfs_like(out),
                )
                write_pack(pack, new, now, Before())
            now(f"comparing with {out}")
            return list(differences(out, new))
    except OSError as fault:
        raise CannotPublish(because_of(fault)) from fault


# ---- words

DESCRIPTION = """\
Reads the published tables as the public does, and writes into FOLDER what users of the index
download: CSV, SDMX, XLSX, and a website that needs no server. The office doesn't give the public a
table under embargo, so the pack can't contain one. The same tables give the same bytes, whenever
they are written.

With --db, the tool first copies FILE as it is, and cpi may be running; a time in the future is
refused, except with --draft. A pack that is already in FOLDER is replaced as a whole, unless one
of its tables has changed or is gone. If FOLDER is a symbolic link, the tool replaces the folder to
which it leads, and the link stays. manifest.json contains the SHA-256 of each table and of the
previous manifest: the one in FOLDER, or --previous. With --sign, ssh-keygen signs the manifest,
and a page says how anybody can check the signature; KEY is a private key, or a public one whose
private key an agent holds.
"""

EPILOG = """\
example: cpi-tools publish --db office.db --at $(date +%s) --config office.ini --out public

exit status: 0 if the pack was written, or --check finds no difference; 1 if not (one line says
why); 2 if the arguments are refused
"""


def add_words(tools: argparse._SubParsersAction[ToolWords]) -> None:
    """The tool `publish`."""
    words = tools.add_parser(
        "publish",
        help="Publish all released tables as data files and a website",
        description=DESCRIPTION,
        epilog=EPILOG,
    )
    add = words.add_argument
    add_source(words)
    add("--draft", action="store_true", help="allow a time in the future: then only the owner of FOLDER can read it")
    add("--config", type=Path, required=True, metavar="FILE", help="who publishes, and under which names")
    to = words.add_mutually_exclusive_group(required=True)
    to.add_argument("--out", type=Path, metavar="FOLDER", help="where to write the pack")
    to.add_argument(
        "--check", type=Path, metavar="FOLDER", help="write nothing, but list the files of a pack that differ"
    )
    add("--sign", type=Path, metavar="KEY", help="with --out: sign the manifest with this SSH key")
    add("--previous", type=Path, metavar="MANIFEST", help="the previous manifest, if that pack is elsewhere")
    add_safe_csv(words)
    words.set_defaults(run=run, tool="publish", words=words)


def run(chosen: argparse.Namespace) -> int:
    """Runs the tool with its arguments; returns its exit status."""
    test_source(chosen)
    if chosen.sign and chosen.check:
        chosen.words.error("--sign goes with --out; --check tests the signature that is there")
    if chosen.at is not None:
        _refuse_what_is_to_come(chosen)
    needs("jinja2", "python3-jinja2")
    config = read_config(chosen.config, KNOWN_IDS)
    if PDF in config.also and not chosen.check:
        need_writer()
    lines: list[str] = []
    with Progress("cpi-tools publish") as progress:
        published = read_source(chosen, progress)
        if chosen.check:
            faults = check(published, config, chosen.check, chosen.previous, progress.now)
        else:
            words = chosen.out, chosen.previous, progress.now, chosen.draft, chosen.sign
            series = publish(published, config, *words, lines.append)
    if chosen.check:
        return _check_status(chosen.check, faults, PDF in config.also)
    of = f"{write_count(len(series.vintages), 'table')} up to {series.months[-1]}, {write_count(len(series.titles), 'item')}"
    print(f"{chosen.out}: {of}")
    for line in lines:
        print(f"cpi-tools publish: {line}", file=sys.stderr)
    _tell_unknown(config, series)
    _tell_unsaid(config, series)
    for line in config.about.lacking():
        print(f"cpi-tools publish: {line}", file=sys.stderr)
    if config.address and not has_cards(chosen.out):
        print(f"cpi-tools publish: releases have no cards: {NOT_DRAWN}", file=sys.stderr)
    return 0


def _tell_unknown(config: Config, series: Series) -> None:
    """A line on standard error for each code that special aggregates name and no table contains: it may come later,
    or be a mistake."""
    unknown = Sets(config.specials).unknown(series.titles)
    if unknown:
        print(f"cpi-tools publish: special aggregates name what no table has: {', '.join(unknown)}", file=sys.stderr)


def _tell_unsaid(config: Config, series: Series) -> None:
    """A line on standard error for each name in the sentences of the newest month if the name has no figures in that
    month."""
    month = series.months[-1]
    rows = {name: special.rows for name, special in series.specials.items()} | {
        name: core.rows for name, core in series.core.items()
    }
    unsaid = [name for name in config.press if month not in rows.get(name, ())]
    if unsaid and config.press_since <= month:
        print(f"cpi-tools publish: press names what has no figures in {month}: {', '.join(unsaid)}", file=sys.stderr)


def _refuse_what_is_to_come(chosen: argparse.Namespace) -> None:
    """Refuses a time in the future: if it were a mistake, tables that are under embargo now would be written; with
    --draft, a future time is intended."""
    if chosen.at > time.time() and not chosen.draft:
        raise CannotPublish(
            f"--at {chosen.at} is {time_text(chosen.at)}, which is still to come: its tables may be under embargo now"
            " (--draft writes them for the owner of the folder alone)"
        )


def _check_status(folder: Path, faults: list[str], has_pdfs: bool = False) -> int:
    """Reports the findings of --check."""
    for line in faults[:SHOWN_DIFFERENCES]:
        print(f"{folder}: {line}")
    if cards_like(folder) == Cards(None, folder):
        print(f"{folder}: cards of releases weren't compared: {NOT_DRAWN}")
    if has_pdfs and not pdfs_like(folder).has_writer:
        print(f"{folder}: PDFs of releases weren't compared: {NOT_MADE}")
    if not faults:
        print(f"{folder}: every file is as it is written now")
        return 0
    raise CannotPublish(f"{folder}: {write_count(len(faults), 'file')} not as written now")
