"""Reads PX by the list of keywords of its format (PC-Axis file format 2013): their order, their meanings, and the
keywords that a file must have.

The list was written from public knowledge about the format, without the tool's own code; PxWeb itself wasn't available
for a test. `read_strictly` refuses a file that breaks a rule of the list, with a line that names the keyword.
"""

from __future__ import annotations

import re
from collections.abc import Callable, Iterable, Iterator, Mapping, Sequence
from typing import NamedTuple, Optional

TEXT, TEXTS, YES_NO, NUMBER, MOMENT, TIMES, NAMES = "text", "texts", "YES or NO", "number", "moment", "times", "names"
"""The kinds of values: a text, several texts, one of two words, a whole number, `CCYYMMDD hh:mm`, a list of times, or
names of variables."""


class Keyword(NamedTuple):
    """A keyword: its name, what its value is, the most letters or the greatest number, whether it is there once for each
    language, and of what it is said: nothing, a variable (1), a variable and a value (2), or more (None: any number).
    """

    name: str
    kind: str
    most: int = 256
    has_language: bool = False
    of: Optional[int] = 0


def _k(name: str, kind: str, most: int = 256, of: Optional[int] = 0) -> Keyword:
    return Keyword(name, kind, most, False, of)


def _l(name: str, kind: str, most: int = 256, of: Optional[int] = 0) -> Keyword:
    return Keyword(name, kind, most, True, of)


ORDER: Sequence[Keyword] = (
    _k("CHARSET", TEXT, 20), _k("AXIS-VERSION", TEXT, 20), _k("CODEPAGE", TEXT, 20), _k("LANGUAGE", TEXT, 20),
    _k("LANGUAGES", TEXTS, 120), _k("CREATION-DATE", MOMENT, 20), _k("NEXT-UPDATE", MOMENT, 20), _k("PX-SERVER", TEXT, 20),
    _k("DIRECTORY-PATH", TEXT, 20), _k("UPDATE-FREQUENCY", TEXT, 20), _k("TABLEID", TEXT, 20), _k("SYNONYMS", TEXT),
    _k("DEFAULT-GRAPH", TEXT, 20), _k("DECIMALS", NUMBER, 15), _k("SHOWDECIMALS", NUMBER, 6), _k("ROUNDING", NUMBER, 1),
    _k("MATRIX", TEXT, 20), _k("AGGREGALLOWED", YES_NO), _k("AUTOPEN", YES_NO), _k("SUBJECT-CODE", TEXT, 20),
    _l("SUBJECT-AREA", TEXT), _k("CONFIDENTIAL", NUMBER, 1), _k("COPYRIGHT", YES_NO), _l("DESCRIPTION", TEXT),
    _l("TITLE", TEXT), _k("DESCRIPTIONDEFAULT", YES_NO), _l("CONTENTS", TEXT), _l("UNITS", TEXT), _l("STUB", NAMES),
    _l("HEADING", NAMES), _l("CONTVARIABLE", TEXT), _l("VALUES", TEXTS, 256, 1), _l("TIMEVAL", TIMES, 256, 1),
    _l("CODES", TEXTS, 256, 1), _l("DOUBLECOLUMN", YES_NO, 256, 1), _l("PRESTEXT", NUMBER, 3, 1), _l("DOMAIN", TEXT, 256, 1),
    _l("VARIABLE-TYPE", TEXT, 20, 1), _l("HIERARCHIES", TEXTS, 256, 1), _l("HIERARCHYLEVELS", NUMBER, 99, 1),
    _l("HIERARCHYLEVELSOPEN", NUMBER, 99, 1), _l("HIERARCHYNAMES", TEXTS, 256, 1), _l("MAP", TEXT, 256, 1),
    _l("PARTITIONED", TEXT, 256, 1), _l("ELIMINATION", TEXT, 256, 1), _l("PRECISION", NUMBER, 6, 2),
    _l("LAST-UPDATED", MOMENT, 20, 1), _l("STOCKFA", TEXT, 1, 1), _l("CFPRICES", TEXT, 1, 1), _l("DAYADJ", YES_NO, 256, 1),
    _l("SEASADJ", YES_NO, 256, 1), _l("UNITS", TEXT, 256, 1), _l("CONTACT", TEXT, 10_000, 1), _l("REFPERIOD", TEXT, 20, 1),
    _l("BASEPERIOD", TEXT, 20, 1), _l("DATABASE", TEXT), _l("SOURCE", TEXT), _l("SURVEY", TEXT), _l("LINK", TEXT),
    _l("INFOFILE", TEXT), _k("FIRST-PUBLISHED", MOMENT, 20), _k("META-ID", TEXT), _k("OFFICIAL-STATISTICS", YES_NO),
    _l("INFO", TEXT, 10_000), _l("NOTEX", TEXT, 10_000, None), _l("NOTE", TEXT, 10_000, None),
    _l("VALUENOTEX", TEXT, 10_000, 2), _l("VALUENOTE", TEXT, 10_000, 2), _l("CELLNOTEX", TEXT, 10_000, None),
    _l("CELLNOTE", TEXT, 10_000, None), _k("DATASYMBOL1", TEXT, 20), _k("DATASYMBOL2", TEXT, 20),
)  # fmt: skip
"""The keywords before the data, in the order of the list. UNITS is in it twice: for the file, and for a figure."""

MANDATORY = ("DECIMALS", "MATRIX", "SUBJECT-CODE", "SUBJECT-AREA", "TITLE", "CONTENTS", "UNITS", "STUB", "HEADING",
             "VALUES")  # fmt: skip
"""The keywords that a file must have, besides DATA: the format requires STUB or HEADING, and our cube has both."""

MOMENTS = re.compile(r"(19|20)[0-9]{2}(0[1-9]|1[0-2])(0[1-9]|[12][0-9]|3[01]) ([01][0-9]|2[0-3]):[0-5][0-9]")
WITHIN_YEAR = {"A": "", "H": "[12]", "Q": "[1-4]", "M": "(0[1-9]|1[0-2])", "W": "(0[1-9]|[1-4][0-9]|5[0-3])"}
"""The part after the year in a time: nothing, or the half, the quarter, the month or the week."""

PERIODS: Mapping[str, str] = {f"{letter}1": f"[12][0-9]{{3}}{within}" for letter, within in WITHIN_YEAR.items()}
"""The form of a time, by the scale that TLIST names: `202401` is January 2024."""

HEAD = re.compile(r"([A-Z][A-Z0-9-]*)(?:\[([a-zA-Z-]+)\])?(?:\((.*)\))?", re.DOTALL)
LONGEST_LINE = 256


class NotPx(Exception):
    """A file breaks a rule of the format."""


class Said(NamedTuple):
    """A keyword of a file: its name, its language (empty: the file's own), the things that it describes, and its
    values."""

    name: str
    language: str
    of: tuple[str, ...]
    values: tuple[str, ...]


class Px(NamedTuple):
    """A file: its keywords, and its cells."""

    said: Sequence[Said]
    cells: Sequence[str]

    def values(self, name: str, *of: str, language: str = "") -> tuple[str, ...]:
        """The values of a keyword; none if the keyword is missing."""
        values = (it.values for it in self.said if (it.name, it.language, it.of) == (name, language, of))
        return next(values, ())


def read_strictly(text: str) -> Px:
    """A file by the format's rules. Raises NotPx."""
    parts = [*_statements(text)]
    if not parts or parts[-1][0] != "DATA":
        raise NotPx("DATA: it isn't the last keyword")
    said = [_said(head, value) for head, value in parts[:-1]]
    px = Px(said, parts[-1][1].split())
    for rule in (_test_lines, _test_once, _test_order, _test_mandatory, _test_languages, _test_variables, _test_cells):
        rule(text, px)
    return px


# ---- reading


def _statements(text: str) -> Iterator[tuple[str, str]]:
    """Head and value of each keyword, which ends with `;` outside of quotation marks."""
    at = begun = 0
    quoted, equals = False, -1
    while at < len(text):
        letter = text[at]
        if letter == '"':
            quoted = not quoted
        elif letter == "=" and not quoted and equals < 0:
            equals = at
        elif letter == ";" and not quoted:
            if equals < 0:
                raise NotPx(f"{text[begun:at][:40]!r}: there is no =")
            yield text[begun:equals].strip(), text[equals + 1 : at].strip()
            begun, equals = at + 1, -1
        at += 1
    if text[begun:].strip():
        raise NotPx(f"{text[begun:].strip()[:40]!r}: it doesn't end with ;")


def _texts(value: str) -> Optional[tuple[str, ...]]:
    """Texts in quotation marks between commas, of which each may go on in further lines; None if it is anything else."""
    texts, rest = list[str](), value
    while True:
        match = re.match(r'\s*"([^"]*)"((?:\s*\n\s*"[^"]*")*)\s*', rest)
        if not match:
            return None
        texts.append(match[1] + "".join(re.findall(r'"([^"]*)"', match[2])))
        rest = rest[match.end() :]
        if not rest:
            return tuple(texts)
        if not rest.startswith(","):
            return None
        rest = rest[1:]


def _said(head: str, value: str) -> Said:
    match = HEAD.fullmatch(head)
    keyword = _keyword(match[1], bool(match[3])) if match else None
    if match is None or keyword is None:
        raise NotPx(f"{head.splitlines()[0] if head else 'nothing'}: the format has no such keyword")
    of = _texts(match[3]) if match[3] is not None else ()
    if of is None:
        raise NotPx(f"{head}: what is in brackets isn't texts")
    if keyword.of is not None and len(of) != keyword.of:
        raise NotPx(f"{match[1]}: it is said of {len(of)}, wanted {keyword.of}")
    if match[2] and not keyword.has_language:
        raise NotPx(f"{match[1]}: it has no language")
    return Said(match[1], match[2] or "", of, _values(keyword, value))


def _keyword(name: str, has_brackets: bool) -> Optional[Keyword]:
    """A keyword of the list by its name, and whether it is said of something."""
    keywords = [keyword for keyword in ORDER if keyword.name == name]
    apart = [keyword for keyword in keywords if keyword.of is None or (keyword.of != 0) == has_brackets]
    return next(iter(apart or keywords), None)


def _values(keyword: Keyword, value: str) -> tuple[str, ...]:
    """The values of a keyword, which must be of the kind in the list."""
    forms = FORMS[keyword.kind](value)
    if forms is None:
        raise NotPx(f"{keyword.name}: {value[:40]!r} isn't {keyword.kind}")
    if keyword.kind == NUMBER:
        if int(forms[0]) > keyword.most:
            raise NotPx(f"{keyword.name}: {forms[0]} is more than {keyword.most}")
    elif max(map(len, forms)) > keyword.most:
        raise NotPx(f"{keyword.name}: a text has more than {keyword.most} letters")
    return forms


def _one_text(value: str) -> Optional[tuple[str, ...]]:
    texts = _texts(value)
    return texts if texts and len(texts) == 1 else None


def _moment(value: str) -> Optional[tuple[str, ...]]:
    text = _one_text(value)
    return text if text and MOMENTS.fullmatch(text[0]) else None


def _word(*words: str) -> Callable[[str], Optional[tuple[str, ...]]]:
    return lambda value: (value,) if value in words else None


def _number(value: str) -> Optional[tuple[str, ...]]:
    return (value,) if re.fullmatch("[0-9]+", value) else None


def _times(value: str) -> Optional[tuple[str, ...]]:
    """`TLIST(M1),"202401","202402"`."""
    match = re.match(r"TLIST\(([AHQMW]1)\)\s*,", value)
    texts = _texts(value[match.end() :]) if match else None
    return texts if match and texts and all(re.fullmatch(PERIODS[match[1]], time) for time in texts) else None


FORMS: Mapping[str, Callable[[str], Optional[tuple[str, ...]]]] = {
    TEXT: _one_text, TEXTS: _texts, NAMES: _texts, YES_NO: _word("YES", "NO"), NUMBER: _number, MOMENT: _moment,
    TIMES: _times,
}  # fmt: skip


# ---- rules


def _test_lines(text: str, _: Px) -> None:
    for number, line in enumerate(text.split("\n"), 1):
        if len(line) > LONGEST_LINE:
            raise NotPx(f"line {number} has {len(line)} letters, more than {LONGEST_LINE}")


def _test_once(_: str, px: Px) -> None:
    seen = set[tuple[str, str, tuple[str, ...]]]()
    for it in px.said:
        if it[:3] in seen:
            raise NotPx(f"{it.name}: it is there twice{_of(it)}")
        seen.add(it[:3])


def _test_order(_: str, px: Px) -> None:
    """Tests that keywords are in the order of the list, in each language."""
    last: dict[str, tuple[int, str]] = {}
    for it in px.said:
        keyword = _keyword(it.name, bool(it.of))
        assert keyword
        place = ORDER.index(keyword)
        before, name = last.get(it.language, (-1, ""))
        if place < before:
            raise NotPx(f"{it.name}: it comes behind {name}")
        last[it.language] = place, it.name


def _test_mandatory(_: str, px: Px) -> None:
    for tag in _languages(px):
        there = {it.name for it in px.said if it.language == tag and (it.name != "UNITS" or not it.of)}
        for name in MANDATORY:
            keyword = _keyword(name, False)
            if name not in there and (not tag or keyword and keyword.has_language):
                raise NotPx(f"{name}: it is missing{f' in {tag}' if tag else ''}")


def _languages(px: Px) -> list[str]:
    return [*dict.fromkeys(it.language for it in px.said)]


def _test_languages(_: str, px: Px) -> None:
    """Tests that the languages of keywords are those that LANGUAGES names."""
    own, named = px.values("LANGUAGE"), px.values("LANGUAGES")
    if named and own[:1] != named[:1]:
        raise NotPx("LANGUAGES: the first one isn't that of LANGUAGE")
    for tag in _languages(px):
        if tag and tag not in named[1:]:
            raise NotPx(f"LANGUAGES: it hasn't got {tag}")


def _test_variables(_: str, px: Px) -> None:
    """Each variable has its values, codes as many as values, and what is said of a value is of one that is there."""
    for tag in _languages(px):
        names = (*px.values("STUB", language=tag), *px.values("HEADING", language=tag))
        values = {name: px.values("VALUES", name, language=tag) for name in names}
        for name, own in values.items():
            if not own or len({*own}) != len(own):
                raise NotPx(f"VALUES: of {name} there are none, or two are the same")
            for keyword in ("CODES", "TIMEVAL"):
                more = px.values(keyword, name, language=tag)
                if more and len(more) != len(own):
                    raise NotPx(f"{keyword}: of {name} there are {len(more)}, and {len(own)} values")
            if (default := px.values("ELIMINATION", name, language=tag)) and default[0] not in own:
                raise NotPx(f"ELIMINATION: {name} has no value {default[0]}")
        for it in px.said:
            if it.language == tag:
                _test_of(it, values, px)


def _test_of(statement: Said, values: Mapping[str, Sequence[str]], px: Px) -> None:
    """Whether what a keyword is said of is there; by the value of a figure are said UNITS, LAST-UPDATED and so on."""
    figure = px.values("CONTVARIABLE", language=statement.language)
    if statement.name in ("VALUES", "CODES", "TIMEVAL", "ELIMINATION") and statement.of[0] not in values:
        raise NotPx(f"{statement.name}: there is no variable {statement.of[0]}")
    if statement.name in ("UNITS", "LAST-UPDATED", "CONTACT", "BASEPERIOD", "REFPERIOD") and statement.of:
        if not figure or statement.of[0] not in values[figure[0]]:
            raise NotPx(f"{statement.name}: {statement.of[0]} is no value of the variable of figures")
    if statement.name in ("PRECISION", "VALUENOTE", "VALUENOTEX") and statement.of[1] not in values.get(
        statement.of[0], ()
    ):
        raise NotPx(f"{statement.name}: {statement.of[0]} has no value {statement.of[1]}")
    if statement.name == "PRECISION" and int(statement.values[0]) <= int(px.values("SHOWDECIMALS")[0]):
        raise NotPx("PRECISION: it isn't more than SHOWDECIMALS")


def _test_cells(_: str, px: Px) -> None:
    """As many cells as the values of all variables, each a number or a text of dots."""
    wanted = 1
    for name in (*px.values("STUB"), *px.values("HEADING")):
        wanted *= len(px.values("VALUES", name))
    if len(px.cells) != wanted:
        raise NotPx(f"DATA: {len(px.cells)} cells, wanted {wanted}")
    for cell in px.cells:
        if not re.fullmatch(r'-?[0-9]+(\.[0-9]+)?|"(\.{1,6}|-)"', cell):
            raise NotPx(f"DATA: {cell} is no cell")


def _of(statement: Said) -> str:
    return f" for {', '.join(statement.of)}" if statement.of else ""


def statements_of(text: str) -> list[str]:
    """The keywords of a file as they are written, for tests that change them."""
    return [f"{head}={value};\n" for head, value in _statements(text)]


def joined(statements: Iterable[str]) -> str:
    """A file made of some keywords."""
    return "".join(statements)
