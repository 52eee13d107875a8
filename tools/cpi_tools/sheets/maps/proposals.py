"""A first map of a folder: what each table seems to be. What can't be guessed is `?`, which no map may have."""

from __future__ import annotations

import functools
import itertools
import json
import re
from collections import Counter
from collections.abc import Iterator, Mapping, Sequence
from dataclasses import dataclass, field
from pathlib import Path
from typing import NamedTuple, Optional

from ...text.terminal import Fault
from ..cells import ROWS_LOOKED_AT, BadSheet, Numeral, Texts, label_of
from ..converted import convert
from ..price_cells import EMPTY, MARKS, REASONS
from ..record_rows import SHEETS
from ..sheet_files import MARKS_OF_UTF_16, WORKBOOKS, Source, files_of, texts_of_csv
from ..sheet_numbers import month_of
from ..workbooks import Workbook
from .office_map import NAMES, UNKNOWN, Pattern, fold, in_english


# ==== Guesses about a table of an office: its heading, its columns, its months, and texts that aren't prices. Each
# guess has a reason, since a person must judge it.

SYNONYMS: Mapping[str, str] = {
    "month": "month period quote_date date time mois periode mes fecha periodo survey_month الشهر التاريخ",
    "outlet": "outlet shop store business retid shop_code outlet_id magasin point_de_vente tienda establecimiento المتجر",
    "item": "item product prodid item_id product_id products__id article produit articulo producto الصنف المنتج",
    "value": "value price prices p_obs prix precio valor السعر",
    "quantity": "quantity qty quantite cantidad الكمية",
    "unit": "uom unit unite unidad الوحدة",
}
"""Names of columns in four languages, folded, by the columns that they seem to be."""

MEANT = {fold(name): ours for ours, names in SYNONYMS.items() for name in names.split()}

PATTERNS = ("{day}/{month}/{year}", "{month}/{day}/{year}", "{day}.{month}.{year}", "{month}.{day}.{year}",
            "{day}/{month}/{year2}", "{month}/{day}/{year2}", "{year2}-{month}", "{month}-{year2}", "{month}/{year2}",
            "{year}.{month}")  # fmt: skip
"""Forms of months that are tried if a text may be several months."""

NUMBER = re.compile(r"[0-9]+([.,][0-9]+)?")
NINES = re.compile(r"-?9{3,}([.,]9*)?")

MOST_TEXTS = 10_000
"""The most different texts of a column that a proposal reads."""


@dataclass
class Guess:
    """The guesses about a table. `columns` are the office's columns by ours; `wide` are the columns that are months,
    `flags` is the name of the columns after them; `texts` are the different texts of outlets, items and months with
    their first rows, and `odd` are the texts of prices that aren't numbers, with their number of occurrences."""

    heading: int
    columns: dict[str, str] = field(default_factory=dict)
    wide: list[str] = field(default_factory=list)
    flag: str = ""
    others: list[str] = field(default_factory=list)
    texts: dict[str, dict[str, int]] = field(default_factory=dict)
    odd: Counter[str] = field(default_factory=Counter)
    flags: Counter[str] = field(default_factory=Counter)
    has_comma: bool = False
    digits: int = 0
    again: int = 0
    """The number of rows with the outlet, item and month of a row above."""

    @property
    def is_of_prices(self) -> bool:
        """Whether the table seems to contain prices."""
        return bool(self.wide) or "value" in self.columns


@functools.lru_cache(maxsize=MOST_TEXTS)
def month_in(text: str) -> str:
    """The month of a text in any of the four languages; empty if it isn't a month."""
    return month_of(in_english(text, tuple(NAMES)))


def is_month(text: str) -> bool:
    """Whether a text is a month, in any of the four languages."""
    return bool(month_in(text))


def guess_of(rows: Iterator[Sequence[str]]) -> Optional[Guess]:
    """The guesses about a table; None if it has no rows."""
    first = [[*row] for row in itertools.islice(rows, ROWS_LOOKED_AT)]
    if not any(any(cell.strip() for cell in row) for row in first):
        return None
    scores = [sum(fold(cell.strip()) in MEANT or is_month(cell) for cell in row) for row in first]
    at = scores.index(max(scores)) if max(scores) > 1 else next(at for at, row in enumerate(first) if any(row))
    heads = [cell.strip() for cell in first[at]]
    guess = Guess(at + 1)
    roles = _roles(heads, guess)
    seen: set[tuple[str, ...]] = set()
    for number, row in enumerate(itertools.chain(first[at + 1 :], rows), at + 2):
        _look_at(row, number, roles, guess, seen)
    return guess


def _roles(heads: Sequence[str], guess: Guess) -> list[str]:
    """The guess for each column: one of ours, `wide`, `flag`, or nothing."""
    repeated = {head.lower() for head, count in Counter(name.lower() for name in heads).items() if count > 1 and head}
    roles = []
    for head in heads:
        ours = MEANT.get(fold(head), "")
        if is_month(head):
            guess.wide.append(head)
            roles.append("wide")
        elif head.lower() in repeated:
            guess.flag = head
            roles.append("flag")
        elif ours and ours not in guess.columns:
            guess.columns[ours] = head
            roles.append(ours)
        else:
            guess.others += [head] if head else []
            roles.append("")
    return roles


def _look_at(row: Sequence[str], number: int, roles: Sequence[str], guess: Guess, seen: set[tuple[str, ...]]) -> None:
    """Notes the texts of a row."""
    key = []
    for text, role in zip(row, roles):
        if role in ("outlet", "item", "month"):
            texts = guess.texts.setdefault(role, {})
            if len(texts) < MOST_TEXTS and text.strip():
                texts.setdefault(text.strip(), number)
            key.append(month_in(text) or text if role == "month" else text)
        elif role == "flag":
            guess.flags[text.strip()] += 1
        elif role in ("wide", "value"):
            _look_at_price(text, role == "wide", guess)
    if "value" in roles and key and len(seen) < 100 * MOST_TEXTS:
        guess.again += tuple(key) in seen
        seen.add(tuple(key))


def _look_at_price(text: str, is_wide: bool, guess: Guess) -> None:
    plain = text.strip()
    if NUMBER.fullmatch(plain) and not NINES.fullmatch(plain):
        guess.has_comma |= "," in plain and not isinstance(text, Numeral)
        guess.digits = max(guess.digits, len(re.split("[.,]", plain)[1]) if re.search("[.,]", plain) else 0)
    elif not (is_wide and plain in EMPTY) and plain.lower().split(" ")[0] not in (*REASONS, *MARKS):
        guess.odd[plain] += 1


def languages_of(texts: Sequence[str]) -> list[str]:
    """The languages in which each of some months can be read; none if English is one of them."""
    if all(month_of(text) for text in texts):
        return []
    return [
        language
        for language in NAMES
        if language != "en" and all(month_of(in_english(text, [language])) for text in texts)
    ]


def patterns_of(texts: Sequence[str]) -> list[str]:
    """The patterns with which each of some months can be read, if they can't be read without one."""
    if not texts or all(is_month(text) for text in texts):
        return []
    return [pattern for pattern in PATTERNS if all(Pattern(pattern, (), ()).values(text) for text in texts)]


# ==== A first map of a folder: the guesses and their reasons, as comments. A `?` marks each question that is open; no
# map may contain one.

OUTLET, ITEM = re.compile("[1-9][0-9]{0,5}"), re.compile("[A-Z0-9]{1,12}")
"""The forms of our own codes."""

NAMED = {"outlet": ("outlets", "name"), "item": ("items", "text")}
"""The sheets in which outlets and items have names."""

MEANT_AS = "price, comparable, other, stock, closed, gone, refused, or none to leave it out"

SINGLE_BYTE = "windows-1252"


def quote(text: str) -> str:
    """A text in TOML."""
    return json.dumps(text, ensure_ascii=False)


class Seen(NamedTuple):
    """Tables of one form: the names of their files with `*` for figures, the sheet, the encoding, and the guesses about
    each."""

    files: str
    title: str
    encoding: str
    guesses: list[Guess]


def proposal(folder: Path) -> str:
    """The map of a folder, or of a workbook. Raises Fault if it can't be read."""
    lines, ignored = [f"# A first map of {label_of(folder)}, guessed from its files. Judge each line.", ""], list[str]()
    forms: dict[tuple[object, ...], Seen] = {}
    with convert(files_of(folder)) as books:
        names = names_of(folder, books)
        for file, title, encoding, texts in tables_of(folder, books):
            guess = guess_table(texts)
            if guess is None or not guess.is_of_prices:
                ignored.append(title or file.name)
                lines.append(f"# {label_of(file)} {title}: no column looks like a month or a price: see ignore below")
                continue
            form = (guess.heading, *guess.columns.items(), bool(guess.wide), guess.flag, *guess.others)
            pattern = re.sub("[0-9]+", "*", file.name) if not title else file.name
            key = (pattern, title, encoding, *form)
            seen = forms.setdefault(key, Seen(pattern, title, encoding, []))
            seen.guesses.append(guess)
            forms[key] = seen._replace(files=file.name if len(seen.guesses) == 1 else pattern)
    if not forms:
        raise Fault(
            f"{folder}: no file has a column that looks like a month or a price; examples/maps has maps to begin with"
        )
    lines += of_all([*forms.values()])
    lines += [f"ignore = [{', '.join(map(quote, ignored))}]"] if ignored else []
    guesses = [guess for seen in forms.values() for guess in seen.guesses]
    lines += [*of_codes("outlet", guesses, OUTLET, names), *of_codes("item", guesses, ITEM, names)]
    return "\n".join([*lines, *(line for seen in forms.values() for line in of_table(seen))]) + "\n"


def guess_table(texts: Texts) -> Optional[Guess]:
    """The guesses about a table; None also if it can't be read."""
    try:
        return guess_of(iter(texts.rows))
    except BadSheet:
        return None


def tables_of(folder: Path, books: Mapping[Path, Path]) -> Iterator[tuple[Path, str, str, Texts]]:
    """Each table whose name isn't the name of one of our sheets: file, sheet of a workbook, encoding, cells."""
    own = {*SHEETS} - {"prices"}
    for file in files_of(folder):
        if not file.is_file() or file.suffix.lower() == ".toml" or file.stem.lower().rpartition("-")[2] in own:
            continue
        book = file if file.suffix.lower() in WORKBOOKS else books.get(file)
        if book is None:
            encoding = encoding_of(file)
            yield file, "", encoding, texts_of_csv(file, encoding, MEANT)
            continue
        workbook = Workbook(book, label_of(file))
        try:
            titles = [title.text for title in workbook.titles()]
            for title in titles:
                if title.lower() not in own:
                    yield file, title if len(titles) > 1 else "", "", workbook.texts(title, label_of(file))
        finally:
            workbook.close()


def encoding_of(file: Path) -> str:
    """The encoding of a file: empty for UTF-8 and UTF-16, otherwise the code page that most offices use."""
    content = file.read_bytes()
    if content[:2] in MARKS_OF_UTF_16:
        return ""
    try:
        content.decode("utf-8")
    except UnicodeDecodeError:
        return SINGLE_BYTE
    return ""


def names_of(folder: Path, books: Mapping[Path, Path]) -> dict[str, dict[str, str]]:
    """Our codes by the names of outlets and items, from the existing sheets."""
    codes: dict[str, dict[str, str]] = {}
    source = Source(folder, SHEETS, workbooks=books)
    try:
        for ours, (sheet, name) in NAMED.items():
            try:
                rows = source.sheet(sheet)
            except BadSheet:
                rows = None
            codes[ours] = {row[name].strip().lower(): row[ours] for row in rows.rows} if rows else {}
    finally:
        source.close()
    return codes


# ---- lines


def of_all(forms: Sequence[Seen]) -> Iterator[str]:
    """The lines above the tables."""
    guesses = [guess for seen in forms for guess in seen.guesses]
    digits = max(guess.digits for guess in guesses)
    months = [text for guess in guesses for text in (*guess.texts.get("month", {}), *guess.wide)]
    if digits:
        yield f"minor = {10 ** digits}  # prices have up to {digits} decimals"
    if any(guess.has_comma for guess in guesses):
        yield 'decimal = ","  # prices have commas'
    if languages := languages_of(months):
        yield f"languages = [{quote(languages[0])}]  # so months can be read, such as {months[0]}"
    if again := sum(guess.again for guess in guesses):
        yield f"# {again} rows have the month, outlet and item of a row above: mean, first or last?"
        yield f"several = {quote(UNKNOWN)}"


def of_table(seen: Seen) -> Iterator[str]:
    """The lines of a table of prices."""
    guess = seen.guesses[0]
    yield from ("", "[[prices]]", f"files = {quote(seen.files)}")
    yield from [f"sheets = {quote(seen.title)}"] if seen.title else []
    if seen.encoding:
        yield f"encoding = {quote(seen.encoding)}  # it isn't UTF-8, and this is the most usual one: look at accents"
    if guess.heading > 1:
        yield f"heading = {guess.heading}  # the first row with names of columns or months"
    if guess.wide:
        yield f'heads = "month"  # {len(guess.wide)} columns are months, such as {guess.wide[0]}'
    if guess.flag:
        yield f"flag = {quote(guess.flag)}  # this column is there again and again"
    if patterns := patterns_of([text for each in seen.guesses for text in each.texts.get("month", {})]):
        yield f"# months can be read as {', '.join(patterns)}"
        yield f"month = {quote(patterns[0] if len(patterns) == 1 else UNKNOWN)}"
    if guess.others:
        yield f"# no guess for {', '.join(map(quote, guess.others))}: name those that say what a price is in marks"
        yield f"unread = [{quote(UNKNOWN)}]"
    yield "[prices.columns]"
    for ours in ("month", "outlet", "item", "value", "quantity", "unit"):
        if ours in guess.columns:
            yield f"{ours} = {quote(guess.columns[ours])}  # by its name"
        elif ours in NAMED or ours == "month" and not guess.wide:
            yield f"{ours} = {quote(UNKNOWN)}  # no column has such a name; if another table has it, write a join"
    yield from of_marks(seen.guesses)


def of_codes(
    ours: str, guesses: Sequence[Guess], form: re.Pattern[str], names: Mapping[str, Mapping[str, str]]
) -> Iterator[str]:
    """The table of codes of a column, if some texts aren't our codes."""
    texts = {text: row for guess in reversed(guesses) for text, row in guess.texts.get(ours, {}).items()}
    if all(form.fullmatch(text) for text in texts):
        return
    yield from ("", f"[codes.{ours}]  # ours by theirs: those of names in the sheet {NAMED[ours][0]} are known")
    for text, row in texts.items():
        yield f"{quote(text)} = {quote(names[ours].get(text.lower(), UNKNOWN))}  # row {row}"


def of_marks(guesses: Sequence[Guess]) -> Iterator[str]:
    """The tables for texts in place of prices and next to them, whose meanings a person must give."""
    flags, odd = Counter[str](), Counter[str]()
    for guess in guesses:
        flags += guess.flags
        odd += guess.odd
    if "quantity" in guesses[0].columns:
        yield from ('[prices.units]  # each in the smallest, as kg = "1000"', f"g = {quote(UNKNOWN)}")
    if guesses[0].flag:
        yield f"[prices.marks.{quote(guesses[0].flag)}]  # {MEANT_AS}"
        yield from (f"{quote(text)} = {quote(UNKNOWN)}  # times: {count}" for text, count in flags.items())
    if odd:
        yield f"[prices.cells]  # {MEANT_AS}; {{price}} in a text is the price in it"
        yield from (f"{quote(text)} = {quote(UNKNOWN)}  # times: {count}" for text, count in odd.items())
