"""Computes the tables of the example examples/national once more, from the quotes that its collectors sent.

The example is run with the built program. From the data files and the quotes as `examples/national/prices` writes them,
and from nothing that the program answered, this finds which quotes stand (lib/nation.py), which aggregates had nothing
to compare, and all tables (lib/by_the_manual.py), by the formulas of the Consumer Price Index Manual (2020) with the
rounding of docs/reference/OFFICE.md, in fractions. It looks at the table of each month's revision with every figure, at
its carry list, and at these:

- one seed gives the same quotes twice, and another seed gives others;
- the box of docs/develop/THEOREM.md, line by line in whole numbers (lib/box.py), gives each table too, from the frozen
  quotes and the plans that were sent;
- prices move the weights of the last year from its reference month to its link month; those of the second and of the
  third are what was spent in the year before, moved to the link month by the mean of that year; those of the first stand;
- two months are revised after prices that came late, and later months are computed from the revisions;
- an aggregate comes in the second year; one isn't in it, and is back in the third;
- as many entries were refused, by 23, 24 and 26, and as many quotes stand, as were counted here;
- the records that were sent give the same lines when they are replayed at once;
- each collector was shown the own slots only, and from a hand-over on those that were handed over, with their last
  prices;
- the pack of the tables has each figure, in each of its forms (lib/pack_figures.py, lib/pack_faults.py): items and special
  aggregates, contributions, annual averages, rates over twelve months, levels with 2025 = 100, breaks; and once more
  with `rates = published`, the changes between printed indices;
- its pages have them too, contributions add up, pictures have titles, and pages lead to what is there (lib/site.py);
- the first page, the page of each release by the tables of its day, the list of releases, the feed and the calendar
  have the right headlines and figures (lib/pack_releases.py), and pictures and cards show them (lib/pack_drawn.py).

The pack is made by `examples/national/report`; what reads and computes here shares no code with it. A short run makes one
pack, and only a long one that with the changes between printed indices.
"""

from __future__ import annotations

import collections
import csv
import json
import os
import shutil
import subprocess
from collections.abc import Iterable, Iterator
from pathlib import Path
from typing import Any, NamedTuple, Optional

import pytest

from lib import box
from lib.by_the_manual import coming_and_going, latest, moving, printed, tables
from lib.cases import content
from lib.nation import CALENDAR, EXAMPLE, ZONE, Survey, revisions
from lib.pack_drawn import drawn_faults, keeping
from lib.pack_faults import CHANGES, csv_faults, cube_faults, differing, printed_rows, sdmx_faults, table_name
from lib.pack_faults import rows_of_files, workbook_faults
from lib.pack_figures import ALL, Figures, sets_of_the_nation
from lib.pack_forms import rows_of_csv
from lib.pack_releases import first_page_faults, release_faults
from lib.pack_slices import slice_faults
from lib.pack_sqlite import sqlite_faults
from lib.pack_then import Then, releases
from lib.pack_vintages import changed, reasons, revised
from lib.program import Program
from lib.records import rows_of
from lib.site import site_faults
from second_office.requests import Record

SEED = "1"
"""What the country's prices are drawn by."""

YEAR = "2025"
"""In which the index of the example's pack is 100."""

TABLES = [(month, revision) for month in sorted(CALENDAR)[1:] for revision in revisions(month)]
"""The months and revisions that have a table with rows."""


def first_of(faults: Iterable[str]) -> Optional[str]:
    """The first faults of a check, in one line."""
    return " | ".join(fault[:400] for fault, _ in zip(faults, range(3))) or None


def quotes_of(seed: str) -> list[Record]:
    """The records of all collectors."""
    wrote = subprocess.run([os.path.join(EXAMPLE, "prices"), seed], stdout=subprocess.PIPE, check=True)
    return rows_of(wrote.stdout.decode())


def first_quotes(seed: str) -> list[Record]:
    """The first records of a seed; the rest isn't waited for."""
    with subprocess.Popen([os.path.join(EXAMPLE, "prices"), seed], stdout=subprocess.PIPE) as running:
        assert running.stdout
        begun = running.stdout.read(100_000).decode()
        running.kill()
    return rows_of(begun)[:9]


class Ran:
    """A run of the example: what was sent, what was answered, and what is computed here."""

    def __init__(self, program: Program, seed: str, folder: str) -> None:
        self.program, self.folder = program, folder
        words = ["--seed", seed, "--program", program.path, "--out", folder]
        ran = subprocess.run([os.path.join(EXAMPLE, "run"), *words], capture_output=True, text=True, check=False)
        if ran.returncode:
            raise ChildProcessError(f"examples/national/run: status {ran.returncode}, {ran.stderr[-300:]}")
        self.quotes = quotes_of(seed)
        self.survey = Survey(self.quotes)
        self.sent = rows_of(content(folder, "records.csv").decode())
        self.told: list[dict[str, Any]] = [json.loads(line) for line in content(folder, "lines").splitlines()]
        self.tables = tables(self.survey)
        self.found = latest(self.tables)


@pytest.fixture(scope="module")
def ran(program: Program, tmp_path_factory: pytest.TempPathFactory) -> Iterator[Ran]:
    """The run that all tests look at."""
    most = csv.field_size_limit(10**8)
    yield Ran(program, SEED, str(tmp_path_factory.mktemp("nation")))
    csv.field_size_limit(most)


# ---- what was sent, and what was answered


def test_one_seed_gives_the_same_quotes_twice(ran: Ran) -> None:
    sent = [record for record in ran.sent if record[2] == "import" and record[1] != "desk"]
    assert sent and ran.quotes == sent, "it gives other quotes than the run sent"


def test_another_seed_gives_other_quotes(ran: Ran) -> None:
    others = first_quotes("1" + SEED)
    assert len(others) == 9 and others != ran.quotes[:9]


def test_as_many_are_refused_as_were_counted(ran: Ran) -> None:
    """Of each kind some."""
    told = collections.Counter(row.get("refused") for reply in ran.told for row in reply.get("rows", []))
    wanted = {number: ran.survey.refused[number] for number in (23, 24, 26)}
    assert {number: told[number] for number in wanted} == wanted and all(wanted.values())
    assert set(told) - {None, *wanted} == set()


def test_each_month_is_frozen(ran: Ran) -> None:
    assert sum("freeze" in record[2] for record in ran.sent) >= len(ran.survey.months)


def test_all_records_at_once_give_the_same_lines(ran: Ran) -> None:
    status, out, err = ran.program.replay(content(ran.folder, "records.csv"), None, "--zone", ZONE, seconds=600)
    assert (status, err) == (0, b"") and out == content(ran.folder, "lines"), "they give other lines"


def work_lists(ran: Ran) -> Iterator[tuple[int, str, list[list[Any]]]]:
    """A collector, a month and the work list that the collector was shown."""
    for record, reply in zip(ran.sent, ran.told):
        if record[2] == "work":
            yield ran.survey.collector_of[record[1]], record[3], reply["work"]


def test_each_collector_is_shown_the_own_slots_only(ran: Ran) -> None:
    slots = collections.defaultdict(list)
    for (number, slot), (_, first, last) in ran.survey.slots.items():
        slots[number].append((slot, first, last))
    lists = [*work_lists(ran)]
    assert len(lists) > len(ran.survey.months)
    for number, month, rows in lists:
        own = [slot for slot, first, last in slots[number] if first <= month <= last]
        assert [row[0] for row in rows] == own, f"the work list of collector {number} in {month}"


def test_the_desk_sends_the_hand_overs_of_the_data(ran: Ran) -> None:
    imports = [record for record in ran.sent if record[1:3] == ["desk", "import"]]
    sent = [row[1:] for record in imports for row in rows_of(record[3]) if row[0] == "handover"]
    handed = ran.survey.handed
    assert sent == [[*map(str, (*former, *new)), month] for _, former, new, month in handed]
    assert 0 < len({series for series, *_ in handed}) < len(handed), "some of them are of one series"


def test_new_collectors_are_shown_the_last_prices_of_what_is_handed_over(ran: Ran) -> None:
    shown = {(number, row[0], month): row[6] for number, month, rows in work_lists(ran) for row in rows}
    assert ran.survey.handed
    for series, _, new, month in ran.survey.handed:
        earlier = {at: price for at, price in ran.survey.last.get(series, {}).items() if at < month}
        last = earlier[max(earlier)] if earlier else None
        assert shown[(*new, month)] == last, f"slot {new} in {month}"


# ---- tables


def test_the_tables_are_those_of_all_months_and_their_revisions(ran: Ran) -> None:
    assert [*ran.tables] == TABLES and len(TABLES) > 40
    assert content(ran.folder, "tables", f"{ran.survey.months[0]}.csv") == b""  # (a first month has no rows)


@pytest.mark.parametrize(("month", "revision"), TABLES)
def test_each_figure_of_a_table(ran: Ran, month: str, revision: int) -> None:
    wrote = rows_of(content(ran.folder, "tables", table_name(month, revision)).decode())
    rows = [printed(row) for row in ran.tables[month, revision].rows]
    assert len(wrote) == len(rows) > 0
    assert first_of(f"wrote {own}, wanted {row}" for own, row in zip(wrote, rows) if own != row) is None


@pytest.fixture(scope="module")
def boxed(ran: Ran) -> dict[tuple[str, int], list[list[str]]]:
    """The rows of each table by the box: of the quotes that stood when it was frozen, and the plan that was sent."""
    plans = {record[3]: box.plan_of(rows_of(record[4])) for record in ran.sent if record[2] == "plan"}
    given = {place: box.Given(item, box.month_of(last)) for place, (item, _, last) in ran.survey.series.items()}
    index, found = box.Index(given), dict[tuple[str, int], list[list[str]]]()
    for month in ran.survey.months:
        for revision in revisions(month):
            frozen = {place: box.Price(*it) for place, it in ran.survey.of_revision(month, revision).items()}
            made = index.release(box.month_of(month), plans.get(month[:4]), frozen)
            found[month, revision] = [box.printed(row) for _, row in sorted(made.levels.items())]
    return found


@pytest.mark.parametrize(("month", "revision"), TABLES)
def test_a_table_is_that_of_the_box(
    ran: Ran, boxed: dict[tuple[str, int], list[list[str]]], month: str, revision: int
) -> None:
    wrote = rows_of(content(ran.folder, "tables", table_name(month, revision)).decode())
    rows = boxed[month, revision]
    assert len(wrote) == len(rows) > 0
    assert first_of(f"wrote {own}, wanted {row}" for own, row in zip(wrote, rows) if own != row) is None


@pytest.mark.parametrize(("month", "revision"), TABLES)
def test_the_carry_list_of_a_table(ran: Ran, month: str, revision: int) -> None:
    """As the desk froze it at last."""
    done = (record for record, reply in zip(ran.sent, ran.told) if reply == {"done": True})
    frozen = [record[4:] for record in done if record[2:4] == ["freeze", month]]
    assert len(frozen) == len(revisions(month))
    assert frozen[revision - 1] == ran.tables[month, revision].carry


def test_weights_are_moved_by_prices(ran: Ran) -> None:
    assert first_of(moving(ran.found)) is None


def test_an_aggregate_comes_and_another_one_is_back(ran: Ran) -> None:
    assert first_of(coming_and_going(ran.found)) is None


def test_two_months_are_revised_after_prices_that_came_late(ran: Ran) -> None:
    """The months that the desk reopened: each got another table, and what came too late counts in it."""
    found = revised(ran.tables)
    assert [(it.month, it.revision) for it in found] == [*reasons()] and len(found) == 2
    for it in found:
        came = ran.survey.quotes[it.month].items() - ran.survey.at_first[it.month].items()
        assert came and it.differing and it.old[ALL].level != it.new[ALL].level, it.month


# ---- the pack


def report(out: str, *words: str) -> None:
    """Makes the pack of the tables by the example's report, with its cards kept as they are handed to be drawn."""
    command, kept = [os.path.join(EXAMPLE, "report"), "--out", out, *words], Path(out, "kept")
    kept.mkdir()
    made = subprocess.run(command, capture_output=True, text=True, check=False, env=keeping(kept))
    assert (made.returncode, made.stdout) == (0, f"{os.path.join(out, 'site')}/index.html\n"), made.stderr[-300:]


class Pack(NamedTuple):
    """A pack, and the figures that it has to have."""

    out: Path
    known: Figures
    then: list[Then]

    @property
    def site(self) -> Path:
        return self.out / "site"


@pytest.fixture(scope="module")
def pack(ran: Ran) -> Pack:
    """The pack of all tables."""
    report(ran.folder)
    known = Figures(ran.found, sets_of_the_nation(), YEAR, first=changed(ran.tables))
    return Pack(Path(ran.folder), known, releases(ran.tables, YEAR))


def test_the_csv_files_of_the_pack(ran: Ran, pack: Pack) -> None:
    assert first_of(csv_faults(pack.site, pack.known, ran.tables, pack.out / "tables")) is None


def test_the_sqlite_of_the_pack(ran: Ran, pack: Pack) -> None:
    wanted = rows_of_files(pack.known, ran.tables, pack.out / "tables")
    assert first_of(sqlite_faults(pack.site / "data/cpi.sqlite", wanted)) is None


def test_the_sdmx_of_the_pack(pack: Pack) -> None:
    assert first_of(sdmx_faults(pack.site, pack.known)) is None


def test_the_json_stat_and_px_of_the_pack(pack: Pack) -> None:
    assert first_of(cube_faults(pack.site, pack.known)) is None


def test_the_slices_of_the_pack(pack: Pack) -> None:
    assert first_of(slice_faults(pack.site, pack.known)) is None


def test_the_workbook_of_the_pack(pack: Pack) -> None:
    assert first_of(workbook_faults(pack.site, pack.known)) is None


def test_the_pages_of_the_pack(ran: Ran, pack: Pack) -> None:
    assert first_of(site_faults(ran.folder, pack.known, ran.found, ran.survey.months[0])) is None


def test_the_first_page_of_the_pack(pack: Pack) -> None:
    assert first_of(first_page_faults(pack.site, pack.known)) is None


def test_the_releases_of_the_pack(pack: Pack) -> None:
    assert first_of(release_faults(pack.site, pack.out / "tables", pack.then)) is None


def test_the_pictures_and_cards_of_the_pack(pack: Pack) -> None:
    assert first_of(drawn_faults(pack.site, pack.known, pack.then, pack.out / "kept")) is None


# ---- changes between printed indices


@pytest.fixture(scope="module")
def as_printed(ran: Ran) -> Pack:
    """A pack whose office has `rates = published`; without the forms that are compared already."""
    out = Path(ran.folder, "as-printed")
    out.mkdir()
    for name in ("tables", "published.csv"):
        (out / name).symlink_to(Path(ran.folder, name))
    config = Path(EXAMPLE, "office.ini").read_text(encoding="utf-8")
    own = "rates = published\nwithout = sdmx-csv sdmx-ml json-stat px\n"
    (out / "office.ini").write_text(config + own, encoding="utf-8")
    for name in ("aggregates.csv", "announced.csv", "revisions.csv"):
        shutil.copy(os.path.join(EXAMPLE, name), out)
    report(str(out), "--config", str(out / "office.ini"))
    known = Figures(ran.found, sets_of_the_nation(), YEAR, True, changed(ran.tables))
    return Pack(out, known, releases(ran.tables, YEAR, is_from_printed=True))


@pytest.mark.long
def test_changes_between_printed_indices_are_in_files(as_printed: Pack) -> None:
    site, known = as_printed.site, as_printed.known
    written = rows_of_csv(site / "data/printed.csv")
    assert first_of(differing("printed.csv", written, printed_rows(known))) is None
    assert first_of(workbook_faults(site, known, CHANGES)) is None
    assert any(known.changes("00", month)[0] != known.lines["00"][month].monthly for month in known.months)


@pytest.mark.long
def test_changes_between_printed_indices_are_on_pages_and_pictures(as_printed: Pack) -> None:
    out, site, known, then = as_printed.out, as_printed.site, as_printed.known, as_printed.then
    assert first_of(release_faults(site, out / "tables", then)) is None
    assert first_of(first_page_faults(site, known)) is None
    assert first_of(drawn_faults(site, known, then, out / "kept")) is None
