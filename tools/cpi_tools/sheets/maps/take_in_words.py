"""`cpi-tools take-in FOLDER (--check | --write OUT | --propose FILE)`: its words, and sheets by a map."""

from __future__ import annotations

import argparse
import contextlib
import functools
import os
import sqlite3
import sys
import tempfile
from collections.abc import Callable, Collection, Iterator, Mapping, Sequence
from fractions import Fraction
from pathlib import Path
from typing import NamedTuple, Optional, Union

from ...office.folders import private_file, write_rows
from ...office.program import Cpi, add_program
from ...text import text_files
from ...text.message import message
from ...text.others import of_others
from ...text.report_language import Teller, add_speech, chosen_speech
from ...text.terminal import Fault, Progress, ToolWords, at_least, because_of, write_count
from ..cells import BadSheet, MonthRead, Origin, Quotes, Row, Sheet, SheetFault, Texts, label_of, quote_text, read_whole
from ..known_rows import Known
from ..office_files import Options
from ..price_cells import REASONS
from ..record_rows import SHEETS
from ..sheet_files import WORKBOOKS, Place as FilePlace, Source, files_of, texts_of_csv
from ..sheet_numbers import Numbers, Rule
from ..take_in import Opener, command, taken_in, write_check, write_records
from ..taken_page import place, summary
from ..workbooks import Workbook
from .map_files import MEASURES, UNITS_OF_WEIGHTS, read_map
from .mapped_rows import Place, TableRows, joined_rows
from .mapped_texts import Findings, Marks, Measures, Months, OurCodes
from .office_map import UNKNOWN, Files, OfficeMap, Table
from .proposals import proposal, quote


# ==== the sheets of a folder read with a map: those that it names, in the office's forms; the others as without a map


class Named(NamedTuple):
    """A text file, or a sheet of a workbook, that a table names, with the values that its name gives for columns of
    ours."""

    place: FilePlace
    label: str
    values: Mapping[str, str]
    read: Callable[[], Texts]


class MappedSource:
    """The sheets of a folder or a workbook, read with a map."""

    def __init__(
        self,
        path: Path,
        office_map: OfficeMap,
        decimal: str,
        known: Known,
        ignored: Collection[str],
        own: Collection[Path],
        workbooks: Mapping[Path, Path],
    ):
        """`decimal` is the sign of quantities. Raises Fault if there is no such folder or workbook, if it can't be
        read, or if it contains no file that a table names."""
        self._map, self._numbers, self._known = office_map, Numbers(decimal), known
        self._workbooks, self._books = workbooks, dict[Path, Workbook]()
        self._stack = contextlib.ExitStack()
        self._files = [file for file in files_of(path) if file.is_file() and file not in office_map.parts]
        self._named: dict[Sequence[str], list[Named]] = {}
        for table in office_map.tables:
            self._name(table.key, table.form)
            if table.join:
                self._name((*table.key, "join"), table.join.form)
        others = [each.place for named in self._named.values() for each in named]
        others += [(part, "") for part in office_map.parts]
        self._plain = Source(path, SHEETS, (*ignored, *office_map.ignored), own, workbooks, others)
        self._stack.callback(self._plain.close)
        self.unread = self._plain.unread
        self.readings: list[MonthRead] = []
        self.codes: dict[str, set[str]] = {column: set() for column in office_map.codes}
        """The codes of the office that were read, by column."""

    def close(self) -> None:
        """Closes the workbooks; no sheet is read from then on."""
        self._stack.close()

    # ---- which files there are

    def _name(self, key: Sequence[str], form: Files) -> None:
        """Notes the files and sheets that a table names. Raises Fault if there are none."""
        named: list[Named] = []
        for file in self._files:
            values = form.files.values(file.name)
            if values is not None:
                named += self._sheets_of(file, values, form)
        if not named:
            of = ".".join(key)
            sheets = f" with a sheet named like {form.sheets.text}" if form.sheets else ""
            raise Fault(f"{self._map.path}: [{of}] names no file: wanted one named like {form.files.text}{sheets}")
        self._named[tuple(key)] = named

    def _sheets_of(self, file: Path, values: Mapping[str, str], form: Files) -> Iterator[Named]:
        """A text file itself, or the sheets of a workbook that are named."""
        book = file if file.suffix.lower() in WORKBOOKS else self._workbooks.get(file)
        columns = {*(name for names in form.columns.values() for name in names)}
        if book is None:
            read = functools.partial(texts_of_csv, file, form.encoding, columns)
            yield Named((file, ""), label_of(file), values, read)
            return
        workbook = self._book(file, book)
        titles = [title.text for title in workbook.titles()]
        if form.sheets is None and len(titles) > 1:
            names = ", ".join(titles)
            raise Fault(
                f"{self._map.path}: {label_of(file)} has the sheets {names}: wanted a line sheets that names one"
            )
        for title in titles:
            own = form.sheets.values(title) if form.sheets else {}
            if own is not None:
                label = label_of(file) if len(titles) == 1 else f"{label_of(file)}:{title}"
                read = functools.partial(workbook.texts, title, label)
                yield Named((file, title), label, {**values, **own}, read)

    def _book(self, file: Path, book: Path) -> Workbook:
        if file not in self._books:
            self._books[file] = Workbook(book, label_of(file))
            self._stack.callback(self._books[file].close)
        return self._books[file]

    # ---- sheets

    def sheet(self, name: str) -> Optional[Sheet]:
        """A sheet by its name with all its rows; None if there is none. Raises BadSheet if it can't be read."""
        return read_whole(self.stream(name))

    def stream(self, name: str) -> Optional[Sheet]:
        """A sheet by its name, whose rows are read once, when they are asked for. Raises BadSheet, and so do the
        rows."""
        tables = [table for table in self._map.tables if table.sheet == name]
        if not tables:
            return self._plain.stream(name)
        if plain := self._plain.stream(name):
            because = message("the map reads {sheet} from other files", sheet=of_others(name))
            do = message("remove this file from the folder, or the table from the map")
            raise BadSheet(Origin(plain.file, 0), because, do)
        for table in tables:
            self._look_at_columns(table)
        first = self._named[tables[0].key][0].label
        columns = tuple(
            dict.fromkeys(column for table in tables for column in columns_of(table) if column not in MEASURES)
        )
        sheet = Sheet(first, columns, columns, (), [], [])
        sheet.quotes = self._rows(tables, sheet)
        return sheet

    def _look_at_columns(self, table: Table) -> None:
        """Raises BadSheet if a table doesn't give a column without which a sheet can't be read."""
        given = {*columns_of(table)}
        slot = ("collector", "slot") if {"collector", "slot"} <= given else ("outlet", "item")
        for column in (*SHEETS[table.sheet].needed, *(slot if table.sheet == "prices" else ())):
            is_of_place = table.sheet == "classification" and column == "weight"
            if column not in given and not is_of_place:
                because = message(
                    "the map doesn't give the column {column} of {sheet}",
                    column=of_others(column),
                    sheet=of_others(table.sheet),
                )
                do = message("add it to the table of the map: to columns, to values, or to the name of its files")
                raise BadSheet(Origin(self._named[table.key][0].label, table.form.heading), because, do)

    def _rows(self, tables: Sequence[Table], sheet: Sheet) -> Iterator[Union[Row, Quotes]]:
        """The rows of some tables; their problems are reported in the sheet."""
        findings = Findings()
        codes = OurCodes(self._map.codes, findings)
        units = self._units() if any(table.units for table in tables) else {}
        try:
            for table in tables:
                yield from self._rows_of(table, codes, units, findings)
        finally:
            findings.end()
            sheet.faults += findings.faults.all()
            sheet.warnings += findings.warnings
            self.readings += findings.readings
            for column, used in codes.used.items():
                self.codes[column] |= used

    def _rows_of(
        self, table: Table, codes: OurCodes, units: Mapping[str, str], findings: Findings
    ) -> Iterator[Union[Row, Quotes]]:
        months = Months(table.month, self._map.languages, findings)
        marks, measures = Marks(table, self._numbers, findings), Measures(table, self._numbers, units, findings)
        rows = TableRows(table, months, codes, marks, measures, findings)
        if table.join:
            key = (*table.key, "join")
            places = [Place(named.label, named.values, named.read()) for named in self._named[key]]
            rows.join(joined_rows(places, table.join.form, tuple(table.join.on.values()), findings))
        for named in self._named[table.key]:
            try:
                yield from rows.rows(Place(named.label, named.values, named.read()))
            except BadSheet as bad:
                # (the other files are read all the same)
                findings.faults.add(bad.fault)

    def _units(self) -> Mapping[str, str]:
        """The unit of each item, from the existing office and from the sheet."""
        units = {item: fields[2] for item, fields in self._known.items.items()}
        items = self.sheet("items")
        return {**units, **{row["item"]: row["unit"] for row in items.rows}} if items else units


def columns_of(table: Table) -> Iterator[str]:
    """Our columns that a table gives."""
    yield from table.form.columns
    yield from table.values
    yield from table.join.form.columns if table.join else ()
    forms = [table.form, *([table.join.form] if table.join else [])]
    for pattern in (pattern for form in forms for pattern in (form.files, form.sheets) if pattern):
        yield from (
            place for place in pattern.places if place in SHEETS[table.sheet].needed + SHEETS[table.sheet].others
        )
        yield from ("month",) if pattern.has_month else ()
    yield from {"month": ("month", "value"), "year": ("year", "weight")}.get(table.heads, ())
    yield from ("mark",) if table.marks or table.cells else ()


# ==== `cpi-tools take-in FOLDER (--check | --write OUT | --propose FILE)`: the tool's arguments, and its output

QUESTION = quote(UNKNOWN)

CODES = "codes.csv"
"""The file with a map's tables of codes, written back."""

MOST_SHOWN = 20
"""Warnings that the terminal shows; `problems.csv` and `report.html` list all of them."""

IN_DOUBT = 3
"""The exit status if prices are in doubt, and nothing else is wrong."""

DESCRIPTION = """\
Reads an office's spreadsheets: text files (.csv, .tsv, .txt) or workbooks (.xlsx, .xlsm; .ods,
.xls and .xlsb if LibreOffice is installed) in FOLDER, or one workbook. The sheets are items,
outlets, collectors, series, classification, places, plans, handovers, calendar, prices and
releases; docs/decide/MIGRATING-AN-OFFICE.md lists their columns. Rows become records in the order
in which an office needs them. cpi itself says what it would refuse, in an office in memory or on a
copy of the office that --onto names; that office isn't changed. Rows that it already has, exactly
the same, are skipped.

--check writes problems.csv (kind, file, row as a spreadsheet counts it, column, number of the
refusal, because, do) and report.html. A column of prices that isn't a month, a file that isn't
read, and anything that can be read in two ways are problems. A price may be a code for a missing
one. A first price over ten times the median of its item or aggregate, or under a tenth of it, is
in doubt. So are nines, or one value for many items, if equally far from that median. Say what each
is with --missing or --price.

--map reads sheets in other forms with a TOML file: other names of files, sheets and columns,
months in four languages, an office's codes and marks, several prices for a month, quantities, and
code pages. The output of a map is judged like everything else, and a text that the map doesn't
know is a problem. examples/maps contains maps of known forms, and its README explains their words.
OUT/map contains a copy of the map, and codes.csv its codes.

--propose reads the folder and writes a first map. A comment gives the reason for each guess, and a
person has to answer each "?" before the map is accepted.

If there is no problem, --write creates the folder OUT with records-01.csv and so on, and prints
the commands that send them. Missing keys are generated, and listed in OUT/keys.csv. The
records contain the collectors' keys, so the files in OUT have mode 0600. A workbook may unpack to
at most 256 MiB.
"""

EPILOG = """\
example: cpi-tools take-in next-year/draft --onto office.db --check
         cpi-tools take-in spreadsheets --check --minor 100 --weights percent
         cpi-tools take-in spreadsheets --write records --minor 100 --weights percent

exit status: 0 if there is no problem; 1 if there is one, or if something else went wrong (one line
says what); 2 if the arguments are refused; 3 if the only doubt is whether prices are prices
"""


def add_words(tools: argparse._SubParsersAction[ToolWords]) -> None:
    """Adds the tool `take-in`."""
    says = "Make records from an office's spreadsheets"
    words = tools.add_parser("take-in", help=says, description=DESCRIPTION, epilog=EPILOG)
    words.add_argument("folder", type=Path, metavar="FOLDER", help="the folder of the files, or one workbook (.xlsx)")
    do = words.add_mutually_exclusive_group(required=True)
    do.add_argument("--check", action="store_true", help="show what is refused, and what would be done")
    do.add_argument("--write", type=Path, metavar="OUT", help="write the records to a folder that doesn't exist yet")
    do.add_argument("--propose", type=Path, metavar="FILE", help="write a first map, with each guess and its reason")
    words.add_argument(
        "--onto", type=Path, metavar="FILE", help="the office to which the rows are added; it is only read"
    )
    words.add_argument(
        "--out", type=Path, metavar="FOLDER", help="where to write problems.csv and report.html (FOLDER/check)"
    )
    words.add_argument(
        "--map", type=Path, metavar="FILE", help="how to read sheets of other forms (TOML): examples/maps/README.md"
    )
    words.add_argument("--zone", default="UTC0", metavar="Z", help="the time zone of civil times, as for cpi (UTC0)")
    words.add_argument(
        "--minor", type=at_least(1), metavar="N", help="minor units in a unit of the prices (1, or from the map)"
    )
    words.add_argument("--decimal", choices=(".", ","), help="the decimal sign (a point, or from the map)")
    words.add_argument(
        "--weights",
        choices=UNITS_OF_WEIGHTS,
        help="the unit of weights; all but ppm are scaled to 1,000,000 by greatest remainders (ppm, or from the map)",
    )
    words.add_argument(
        "--ignore",
        action="append",
        default=[],
        metavar="NAME",
        help="a prices column, a file or a sheet that isn't to be read; may be repeated",
    )
    words.add_argument(
        "--missing",
        action="append",
        default=[],
        metavar="VALUE=REASON",
        help=f"a value that says why there is no price ({', '.join(REASONS)}), as in 9999.99=stock; may be repeated",
    )
    words.add_argument(
        "--price",
        action="append",
        default=[],
        metavar="VALUE",
        help="a value in doubt that is a price; may be repeated",
    )
    words.add_argument(
        "--confirm-history",
        action="store_true",
        help="confirm prices outside the tolerance, and list them, except in series that have one in doubt",
    )
    add_speech(words, "report.html")
    text_files.add_safe_csv(words)
    add_program(words)
    words.set_defaults(run=run, tool="take-in", words=words)


def run(chosen: argparse.Namespace) -> int:
    """Runs the tool with its arguments; returns its exit status."""
    if chosen.propose:
        return propose(chosen.folder, chosen.propose)
    office_map = read_map(chosen.map) if chosen.map else None
    options = options_of(chosen, office_map)
    cpi = Cpi(chosen.program)
    if chosen.write and os.path.lexists(chosen.write):
        raise Fault(f"{chosen.write} is there already: name a folder that isn't")
    check = (chosen.folder if chosen.folder.is_dir() else chosen.folder.parent) / "check"
    out = chosen.out or check
    teller = Teller(chosen_speech(chosen))
    try:
        with contextlib.ExitStack() as stack:
            with Progress("cpi-tools take-in") as progress:
                own = [out, check]
                opener = opener_of(chosen.folder, office_map, options, own) if office_map else None
                words = chosen.zone, chosen.onto, own, progress, opener, bool(chosen.write)
                result = stack.enter_context(taken_in(cpi, chosen.folder, options, *words))
            show_warnings(result.taken.warnings)
            show_readings(result.taken.readings)
            doubts = result.taken.doubts.cells
            if chosen.check or result.judged.problems or doubts:
                write_check(out, chosen.folder.name, chosen.onto, result, teller)
                if office_map:
                    write_codes(out / CODES, office_map)
            if result.judged.problems:
                raise Fault(f"{write_count(len(result.judged.problems), 'problem')}: {out / 'problems.csv'}")
            if doubts:
                show_doubts(doubts, out / "problems.csv")
                return IN_DOUBT
            print(summary(result.taken, result.judged))
            if chosen.write and (files := write_records(chosen.write, result.taken)):
                if office_map:
                    keep_map(chosen.write, office_map)
                print(command(files, chosen.zone, chosen.onto))
    except OSError as fault:
        raise Fault(because_of(fault)) from fault
    except sqlite3.Error as fault:
        raise Fault(f"the prices can't be stored in {tempfile.gettempdir()}: {fault}") from fault
    return 0


def propose(folder: Path, out: Path) -> int:
    """Writes a first map into a new file; returns the exit status."""
    if os.path.lexists(out):
        raise Fault(f"{out} is there already: name a file that isn't")
    try:
        text = proposal(folder)
        with private_file(out) as file:
            file.write(text)
    except OSError as fault:
        raise Fault(because_of(fault)) from fault
    print(f"{out}: a first map, to be read line by line; {text.count(QUESTION)} answers are to be given")
    return 0


def opener_of(folder: Path, office_map: OfficeMap, options: Options, own: Sequence[Path]) -> Opener:
    """The opener of a folder's sheets with a map."""
    return lambda books, known: MappedSource(folder, office_map, options.decimal, known, options.ignored, own, books)


def write_codes(path: Path, office_map: OfficeMap) -> None:
    """Writes the map's tables of codes as one: the column, the office's code, and ours."""
    rows = ((column, theirs, ours) for column, codes in office_map.codes.items() for theirs, ours in codes.items())
    write_rows(path, ("column", "theirs", "ours"), rows)


def keep_map(records: Path, office_map: OfficeMap) -> None:
    """Keeps a map with the records that were made with it: its unchanged files in a folder `map`, and its codes."""
    kept = records / "map"
    kept.mkdir(mode=0o700)
    for part in office_map.parts:
        with private_file(kept / part.name) as file:
            file.write(part.read_text(encoding="utf-8"))
    write_codes(records / CODES, office_map)


def settle_word(chosen: argparse.Namespace, word: str, office_map: Optional[OfficeMap], otherwise: object) -> object:
    """The value of a word from the command's arguments or the map; refuses different values."""
    given, mapped = getattr(chosen, word), getattr(office_map, word, None)
    if given and mapped and given != mapped:
        raise Fault(f"--{word} is {given}, and {chosen.map} says {mapped}: wanted the same, or one of the two")
    return given or mapped or otherwise


def options_of(chosen: argparse.Namespace, office_map: Optional[OfficeMap] = None) -> Options:
    """The options for reading texts, from the command's arguments and a map; refuses invalid values."""
    ignored = frozenset(name.strip().lower() for name in chosen.ignore)
    decimal_sign = str(settle_word(chosen, "decimal", office_map, "."))
    numbers, codes, priced = Numbers(decimal_sign), dict[str, str](), set[Fraction]()
    for text in chosen.missing:
        value, _, reason = text.rpartition("=")
        if not value.strip() or reason not in REASONS:
            chosen.words.error(f"--missing {text}: write a value and a reason ({', '.join(REASONS)}), as 9999.99=stock")
        codes[value] = reason
    for text in chosen.price:
        number = numbers.of(text)
        if number is None:
            chosen.words.error(f"--price {text}: it is no number with the decimal sign {decimal_sign}")
        else:
            priced.add(number)
    minor, weights = int(str(settle_word(chosen, "minor", office_map, 1))), str(
        settle_word(chosen, "weights", office_map, "ppm")
    )
    rule = office_map.rule if office_map else Rule()
    confirm = chosen.confirm_history
    return Options(minor, decimal_sign, weights, confirm, ignored, codes, frozenset(priced), rule)


def show_readings(readings: Sequence[MonthRead]) -> None:
    """Prints the first months that were read from other spellings on standard error."""
    for reading in readings[:MOST_SHOWN]:
        column = "" if reading.column == reading.text else f", {reading.column}"
        print(
            f"cpi-tools take-in: {reading.file}{column}: {quote_text(reading.text)} is read as {reading.month}",
            file=sys.stderr,
        )
    if len(readings) > MOST_SHOWN:
        print(f"cpi-tools take-in: {write_count(len(readings) - MOST_SHOWN, 'more month')} read so", file=sys.stderr)


def show_doubts(doubts: Sequence[SheetFault], problems: Path) -> None:
    """Prints the first prices that are in doubt on standard error, and says that nothing is taken in."""
    for doubt in doubts[:MOST_SHOWN]:
        print(f"cpi-tools take-in: {place(doubt.origin)}: {doubt.because}; {doubt.do}", file=sys.stderr)
    count = write_count(len(doubts), "price")
    print(f"cpi-tools take-in: {count} in doubt, and nothing is taken in: {problems}", file=sys.stderr)


def show_warnings(warnings: Sequence[SheetFault]) -> None:
    """Prints the first warnings on standard error."""
    for warning in warnings[:MOST_SHOWN]:
        print(f"cpi-tools take-in: warning: {place(warning.origin)}: {warning.because}", file=sys.stderr)
    if len(warnings) > MOST_SHOWN:
        print(f"cpi-tools take-in: {write_count(len(warnings) - MOST_SHOWN, 'more warning')}", file=sys.stderr)
