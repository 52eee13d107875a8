"""The words of `cpi-tools keys` and how it is run; the names of collectors, and how a collector signs in."""

from __future__ import annotations

import argparse
import re
import sys
import unicodedata
from collections.abc import Collection
from pathlib import Path
from typing import NamedTuple, NoReturn, Optional
from urllib.parse import quote

from ...office.copying import private_copy
from ...office.stored import read_copy
from ...sheets.cells import BadSheet, Columns, Origin, Row, Sheet, SheetFault
from ...sheets.sheet_files import sheet_of, texts_of_csv
from ...text.languages import SOURCE, a_language, language_of
from ...text.message import Figure, message, place_text, whole
from ...text.others import of_others
from ...text.terminal import Fault, Progress, ToolWords, a_file, at_least, because_of, needs, write_count


# ==== the names of collectors, which no office stores: they come from a CSV file with the columns `collector` and
# `name`

NUMBER, NAME = COLUMNS = ("collector", "name")

LONGEST_NAME = 60
"""The most characters of a name."""


class NamesRefused(Fault):
    """A file of names that can't be taken; one line with the place, the text that was read, and the wanted one."""


class Names(NamedTuple):
    """Names by the collectors' numbers, and the columns of the file that aren't read."""

    of: dict[int, str]
    unread: tuple[str, ...]


def read_names(path: Path, known: Collection[int]) -> Names:
    """The names of a file in UTF-8, by RFC 4180 or with semicolons or tabs for commas. `known` are the numbers of the
    office's collectors. Raises NamesRefused at the first thing that is wrong."""
    try:
        sheet = sheet_of(path.name, texts_of_csv(path), Columns(COLUMNS))
        sheet.rows = [*sheet.rows]
    except BadSheet as bad:
        refuse(bad.fault)
    look_at_columns(sheet)
    names: dict[int, str] = {}
    rows: dict[int, int] = {}
    for row in sheet.rows:
        number = number_of(row, known)
        if number in names:
            because = f"collector {number} is there twice, first in row {rows[number]}"
            refuse(SheetFault(row.origin, because, "leave one of the two rows"))
        names[number], rows[number] = name_of(row), row.origin.row
    return Names(names, tuple(column for column in sheet.columns if column and column not in COLUMNS))


def look_at_columns(sheet: Sheet) -> None:
    """Refuses a file without one of the columns, and a row with a cell in no column."""
    for column in COLUMNS:
        if column not in sheet.columns:
            read = ", ".join(column or "an empty name" for column in sheet.columns)
            because = f"there is no column {column}, only {read}"
            refuse(SheetFault(Origin(sheet.file, 1), because, f"name a column {column} in the first row"))
    if sheet.faults:
        refuse(sheet.faults[0])


def number_of(row: Row, known: Collection[int]) -> int:
    """The collector of a row."""
    text = row[NUMBER].strip()
    if not re.fullmatch(r"[1-9][0-9]{0,3}", text):
        because = message("{text} isn't the number of a collector", text=of_others(repr(text)))
        refuse(SheetFault(row.origin, because, message("write a number like 7")))
    if int(text) not in known:
        do = message("register the collector first, or delete the row")
        refuse(SheetFault(row.origin, message("the office has no collector {number}", number=Figure(text)), do))
    return int(text)


def name_of(row: Row) -> str:
    """The name of a row, one line of at most 60 characters."""
    name = row[NAME].strip()
    if not name:
        because = message("the name of collector {number} is empty", number=of_others(row[NUMBER].strip()))
        refuse(SheetFault(row.origin, because, message("write it, or delete the row")))
    if any(unicodedata.category(letter) == "Cc" for letter in name):
        because = message("the name {name} contains a control character", name=of_others(repr(name)))
        refuse(SheetFault(row.origin, because, message("write it on one line")))
    if len(name) > LONGEST_NAME:
        places = {"name": of_others(repr(name[:LONGEST_NAME])), "count": whole(len(name))}
        because = message("the name {name}.. has {count} characters", **places)
        refuse(SheetFault(row.origin, because, message("write at most {most}", most=whole(LONGEST_NAME))))
    return name


def refuse(fault: SheetFault) -> NoReturn:
    """Raises NamesRefused in one line."""
    # t: what is wrong, and what to do
    says = message("{because}: {do}", because=place_text(fault.because), do=place_text(fault.do))
    if not fault.origin.file:
        raise NamesRefused(says)
    place = f"{fault.origin.file}, row {fault.origin.row}" if fault.origin.row else fault.origin.file
    raise NamesRefused(f"{place}: {says}")


# ==== how a collector signs in to the phone's page: with a link that contains the key, or with a typed key
#
# The check character after a key that people type: ISO/IEC 7064:2003, the hybrid system MOD 37,36.
#
# The numbers of ISAN (ISO 15706), which are hexadecimal too, end in such a character. It finds each single wrong
# character, and each exchange of two neighbours whose values differ by more than 1. Of all exchanges of two hexadecimal
# digits it finds 8,610 in 8,640.

GROUP = 4
"""So many digits of a key are typed one after the other."""


def address_of_page(url: str) -> str:
    """The address of the page of a front, such as `https://prices.example/collect/`."""
    return f"{url}/collect/"


def link_of(url: str, key: str, name: Optional[str]) -> str:
    """The link that signs a collector in. A browser sends the part after `#` to no server (RFC 3986, 3.5); a name is
    UTF-8 in percent-encoding."""
    named = "" if name is None else f"&name={quote(name, safe='')}"
    return f"{address_of_page(url)}#key={key}{named}"


def typed_key(key: str) -> str:
    """A key as it is typed, `0123 4567 .. cdef K`: groups of its digits, and then its check character."""
    groups = [key[at : at + GROUP] for at in range(0, len(key), GROUP)]
    return " ".join([*groups, check_character(key.upper())])


CHARACTERS = "0123456789ABCDEFGHIJKLMNOPQRSTUVWXYZ"
"""The characters in the order of their values: '0' is 0, 'A' is 10."""

SIZE = len(CHARACTERS)


def check_character(text: str) -> str:
    """The check character of a text of CHARACTERS. Raises ValueError if the text has another one."""
    product = SIZE
    for character in text:
        total = (product + CHARACTERS.index(character)) % SIZE or SIZE
        product = 2 * total % (SIZE + 1)
    return CHARACTERS[(SIZE + 1 - product) % SIZE]


# ==== the words of `cpi-tools keys`, and how it is run

HOST = r"[a-z0-9]([a-z0-9.-]*[a-z0-9])?|\[[0-9a-f:.]+\]"

LAST_PORT = 65_535


def an_origin(text: str) -> str:
    """A type of argparse: the address of a front, `https://` with a host and perhaps a port, in small letters."""
    match = re.fullmatch(rf"(https://(?:{HOST})(?::([1-9][0-9]{{0,4}}))?)/?", text.lower(), re.ASCII)
    if not match or int(match[3] or 1) > LAST_PORT:
        raise argparse.ArgumentTypeError(f"{text!r} isn't an address like https://prices.example, without a path")
    return match[1]


def keys_of(file: Path, chosen: Optional[list[int]]) -> tuple[dict[int, str], list[int]]:
    """The keys of an office's collectors, or of those that are chosen; and the numbers of all. Raises Fault if there are
    none, or if the office hasn't one that is chosen."""
    with private_copy(file) as copy, read_copy(copy) as office:
        keys = office.keys()
    if not keys:
        raise Fault(f"{file} has no collectors, so there is no sheet to print")
    for number in chosen or ():
        if number not in keys:
            raise Fault(
                f"{file} has no collector {number}: it has {write_count(len(keys), 'collector')}, {span_of([*keys])}"
            )
    return {number: key for number, key in keys.items() if not chosen or number in chosen}, [*keys]


def span_of(numbers: list[int]) -> str:
    """`7`, `7 and 8`, or `1 to 412`."""
    if len(numbers) < 3:
        return " and ".join(map(str, numbers))
    return f"{numbers[0]} to {numbers[-1]}"


def run(chosen: argparse.Namespace) -> int:
    """Runs the tool by its words; its exit status."""
    needs("jinja2", "python3-jinja2")
    needs("segno", "python3-segno")
    from ...text import page_templates  # (their packages are needed by few tools)
    from .key_sheets import sheets_of, write_sheets

    language = language_of(chosen.language)
    page_templates.refuse_other_files(chosen.out)
    with Progress("cpi-tools keys") as progress:
        progress.now("copying the office")
        keys, known = keys_of(chosen.file, chosen.collector)
        names = read_names(chosen.names, known) if chosen.names else Names({}, ())
        progress.now("drawing the codes")
        try:
            write_sheets(chosen.out, chosen.url, sheets_of(chosen.url, keys, names.of), language)
        except OSError as fault:
            raise Fault(because_of(fault)) from fault
    if names.unread:
        print(f"cpi-tools keys: {chosen.names}: columns that aren't read: {', '.join(names.unread)}", file=sys.stderr)
    print(f"{chosen.out}: {write_count(len(keys), 'sheet')}; print them and remove the page, since the keys are in it")
    if nameless := sum(number not in names.of for number in keys):
        print(f"{write_count(nameless, 'collector')} without a name: the sheet has the number only")
    return 0


# ---- words

DESCRIPTION = f"""\
Writes one page to print, with a sheet for each collector: the number and the name, a code with
which the collector signs in on a phone, and the key to type if no camera can read the code. The
code is the link URL/collect/#key=KEY&name=NAME. After its 32 digits, the typed key has a check
character (ISO/IEC 7064, MOD 37,36), with which the page detects a wrong digit.

An office stores no names. Names of at most {LONGEST_NAME} characters come from a CSV file in UTF-8
with the columns collector and name; the sheet of a collector who isn't in it shows only the
number.

The tool copies FILE, whether cpi is running or not, and doesn't change it. Anybody who has a sheet
or its link can act as that collector. The page has mode 0600: print it, then remove it.
"""

EPILOG = """\
example: cpi-tools keys office.db --url https://prices.example --names names.csv --out sheets.html
         cpi-tools keys office.db --url https://prices.example --collector 7 --out sheet.html

exit status: 0 if the page was written; 1 if it wasn't (one line says why); 2 if the arguments are
refused
"""


def add_words(tools: argparse._SubParsersAction[ToolWords]) -> None:
    """The tool `keys`."""
    says = "Make a sheet for each collector, to sign in on a phone"
    words = tools.add_parser("keys", help=says, description=DESCRIPTION, epilog=EPILOG)
    add = words.add_argument
    add("file", type=Path, metavar="FILE", help="the office's file, which is only read")
    add("--url", type=an_origin, required=True, help="the front's address, such as https://prices.example")
    add("--out", type=a_file, required=True, metavar="PAGE", help="where to write the page")
    add("--names", type=Path, metavar="CSV", help="the collectors' names, in the columns collector and name")
    add(
        "--collector",
        type=at_least(1),
        action="append",
        metavar="N",
        help="only this collector's sheet; may be repeated (else all sheets)",
    )
    says = "the language of the sheets, such as fr: one that has a catalogue (else en)"
    add("--language", type=a_language, default=SOURCE, metavar="LANG", help=says)
    words.set_defaults(run=run, tool="keys", words=words)
