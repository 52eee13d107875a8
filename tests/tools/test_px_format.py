"""The PX file by the format's own list of keywords, and that a file which breaks a rule of it is refused."""

from __future__ import annotations


import pytest

from cpi_tools.publish.figures.config import Config
from cpi_tools.publish.figures.own_words import OfficeLanguages, Own
from cpi_tools.publish.figures.announcements import Planned
from cpi_tools.office.public import Listed, Published
from cpi_tools.publish.pack import publish
from lib.px_format import MANDATORY, NotPx, joined, read_strictly, statements_of

ROWS = """00,1000000,{level},{level},{change},,0,All items
01,600000,{level},{level},{change},,1,Food; "proper" = fine
07,400000,{level},{level},{change},,0,Transport
"""


@pytest.fixture(scope="module")
def text(tmp_path_factory: pytest.TempPathFactory) -> str:
    """A file in two languages, with a contact, a release to come and a provisional month."""
    tables = [("2025-12", ""), ("2026-01", ROWS.format(level="101.000000", change="1.0")),
              ("2026-02", ROWS.format(level="99.990000", change="-1.0"))]  # fmt: skip
    published = [Published(Listed(month, 1, 10 + at), rows.encode()) for at, (month, rows) in enumerate(tables)]
    speaks = OfficeLanguages(("en", "fr"), "latn", {"fr": Own({"contact": "T\u00e9l\u00e9phone 1"})})
    config = Config("NSO", "XX", "Office", contact="Telephone 1", licence="CC BY 4.0", provisional=1, speaks=speaks)
    config = config._replace(planned=(Planned("2026-03", 1, 1_801_125_000),))
    out = tmp_path_factory.mktemp("px") / "public"
    publish(published, config, out, None, lambda _: None)
    return (out / "data/cpi.px").read_text(encoding="utf-8")


def test_the_file_has_each_rule_of_the_list(text: str) -> None:
    found = read_strictly(text)
    assert found.values("HEADING") == ("Figure", "Month") and found.values("STUB", language="fr") == ("Poste",)
    assert found.values("TIMEVAL", "Month") == ("202601", "202602")
    assert found.values("VALUES", "Item")[1] == "01 Food; 'proper' = fine"
    assert found.values("CONTACT", "Indice", language="fr") == ("T\u00e9l\u00e9phone 1",)
    assert found.values("NEXT-UPDATE") == ("20270128 08:30",)
    figures, months = found.values("CODES", "Figure"), found.values("CODES", "Month")
    assert len(found.cells) == 3 * len(figures) * len(months)
    assert found.cells[: len(months)] == ["101.000000", "99.990000"]


def keyword_of(statement: str) -> str:
    return statement.partition("=")[0].partition("(")[0].partition("[")[0]


@pytest.mark.parametrize("name", MANDATORY)
def test_a_file_without_a_mandatory_keyword_is_refused(text: str, name: str) -> None:
    """In any of its languages."""
    statements = statements_of(text)
    assert statements_of(joined(statements)) == statements
    places = [
        at
        for at, statement in enumerate(statements)
        if keyword_of(statement) == name and (name != "UNITS" or "(" not in head(statement))
    ]
    assert len(places) in (1, 2) if name != "VALUES" else len(places) == 6
    of_a_language = [at for at in places if "[fr]" in head(statements[at])]
    for left_out in (set(places) - {*of_a_language}, {*of_a_language}):
        if left_out:
            with pytest.raises(NotPx, match=f"^{name}: "):
                read_strictly(joined(statement for at, statement in enumerate(statements) if at not in left_out))


def head(statement: str) -> str:
    return statement.partition("=")[0]


def test_two_keywords_that_change_places_are_refused(text: str) -> None:
    statements, tried = statements_of(text), 0
    for at, (one, other) in enumerate(zip(statements, statements[1:-1])):
        if keyword_of(one) == keyword_of(other) or ("[fr]" in head(one)) != ("[fr]" in head(other)):
            continue
        with pytest.raises(NotPx, match="comes behind"):
            read_strictly(joined([*statements[:at], other, one, *statements[at + 2 :]]))
        tried += 1
    assert tried > 35


@pytest.mark.parametrize(
    ("then", "now", "fault"),
    [
        ("DECIMALS=6", "DECIMALS=six", "DECIMALS: 'six' isn't number"),
        ("DECIMALS=6", "DECIMALS=16", "DECIMALS: 16 is more than 15"),
        ("DECIMALS=6", 'DECIMALS="6"', "DECIMALS: '\"6\"' isn't number"),
        ("AGGREGALLOWED=NO", "AGGREGALLOWED=no", "AGGREGALLOWED: 'no' isn't YES or NO"),
        ('MATRIX="CPI"', "MATRIX=CPI", "MATRIX: 'CPI' isn't text"),
        ('MATRIX="CPI"', 'MATRIX="A name of more than twenty"', "MATRIX: a text has more than 20 letters"),
        ('MATRIX="CPI"', 'MATRICES="CPI"', "MATRICES: the format has no such keyword"),
        ('MATRIX="CPI"', 'MATRIX[fr]="CPI"', "MATRIX: it has no language"),
        ('MATRIX="CPI"', 'MATRIX("Item")="CPI"', "MATRIX: it is said of 1, wanted 0"),
        ('"20270128 08:30"', '"2027-01-28"', "NEXT-UPDATE: '\"2027-01-28\"' isn't moment"),
        ('"202601",', '"2026M01",', "TIMEVAL: "),
        ('"202601",\n', "", "TIMEVAL: of Month there are 1, and 2 values"),
        ('LANGUAGES="en","fr"', 'LANGUAGES="en","ar"', "LANGUAGES: it hasn't got fr"),
        ('LANGUAGES="en","fr"', 'LANGUAGES="fr","en"', "LANGUAGES: the first one isn't that of LANGUAGE"),
        ('MATRIX="CPI";', 'MATRIX="CPI";\nMATRIX="CPI";', "MATRIX: it is there twice"),
        ('ELIMINATION("Item")="00 All items"', 'ELIMINATION("Item")="All"', "ELIMINATION: Item has no value All"),
        ('UNITS("Index")', 'UNITS("Level")', "UNITS: Level is no value"),
        (
            'PRECISION("Figure","Index")=1',
            'PRECISION("Figure","Index")=0',
            "PRECISION: it isn't more than SHOWDECIMALS",
        ),
        ("99.990000", "", "DATA: 41 cells, wanted 42"),
        ("99.990000", "99,99", "DATA: 99,99 is no cell"),
        ('"01 Food;', '"00 All items","01 Food;', "VALUES: of Item there are none, or two are the same"),
        ('TITLE="', 'TITLE="' + "long " * 60, "TITLE: a text has more than 256 letters"),
        ("1.0 -1.0", f"1.0{' ' * 300}-1.0", "line "),
    ],
)
def test_a_file_that_breaks_a_rule_is_refused(text: str, then: str, now: str, fault: str) -> None:
    assert then in text
    with pytest.raises(NotPx) as caught:
        read_strictly(text.replace(then, now, 1))
    assert str(caught.value).startswith(fault)


def test_a_file_that_is_cut_is_refused(text: str) -> None:
    for cut in (text[: text.index("DATA=")], text.rstrip().removesuffix(";"), text[:40]):
        with pytest.raises(NotPx):
            read_strictly(cut)
