"""Texts of others on the pages of the tools: each is an element of its own, or between isolates where none can be."""

from __future__ import annotations

import csv
import io
import json
import re
from html.parser import HTMLParser
from pathlib import Path
from typing import Any, Optional

import pytest

from . import surveys
from cpi_tools.text.others import Worded, apart, cite, close_isolates, isolate, others
from cpi_tools.publish.figures.config import Config
from cpi_tools.office.public import from_file
from cpi_tools.office.program import Cpi, record
from cpi_tools.publish.pack import publish
from .ran import run
from .test_measures import two_years

MARK = "\u05d0"
"""Each text of others in these offices begins with it, a letter that is read from right to left, and nothing of ours has it."""

PLACES = {"item": (4, 5), "outlet": (4,)}
"""Where the texts of a record are."""

NO_ELEMENTS = ("title", "option", "desc", "text")
"""What has no elements in it, or, as a text of a picture, none of HTML."""


# ---- a text by itself


@pytest.mark.parametrize(
    ("text", "kept"),
    [
        ("1 l\u202e", "1 l\u202e"),
        ("1 l\u2069\u202e", "1 l\u202e"),
        ("1 l\u202e\u2067", "1 l\u202e\u2067\u2069"),
        ("\u2066a\u2069\u2069\u2068b\u2067c", "\u2066a\u2069\u2068b\u2067c\u2069\u2069"),
        ("a\u2029b\u0085c\nd\re\x1ef", "a b c d e f"),
        ("", ""),
    ],
    ids=["override", "leaves", "stays open", "both", "paragraphs", "nothing"],
)
def test_a_text_cant_leave_its_element(text: str, kept: str) -> None:
    assert close_isolates(text) == kept
    assert others(text) == f"<bdi>{kept}</bdi>"
    assert isolate(text) == f"\u2068{kept}\u2069"


def test_a_text_is_escaped_once() -> None:
    assert others("<b> & 'c'").__html__() == "<bdi>&lt;b&gt; &amp; &#x27;c&#x27;</bdi>"


def test_words_are_plain_in_a_file_and_isolate_their_texts_on_a_page() -> None:
    inner = Worded("it's {}, {}", "<rice>", "1 kg\u2069")
    told = Worded("{}; in {}", inner, "Shop")
    assert told == "it's <rice>, 1 kg\u2069; in Shop"
    assert told.__html__() == "it&#x27;s <bdi>&lt;rice&gt;</bdi>, <bdi>1 kg</bdi>; in <bdi>Shop</bdi>"
    assert isolate(told) == "it's \u2068<rice>\u2069, \u20681 kg\u2069; in \u2068Shop\u2069"
    assert others(told) == told.__html__()


def test_what_a_message_cites_turns_none_of_its_words() -> None:
    told = cite('"1 l\u202e" & "<b>\u2067" are one\u2069')
    assert told.replace("&quot;", '"') == (
        '<bdi>"<bdi>1 l\u202e</bdi>" &amp; "<bdi>&lt;b&gt;\u2067\u2069</bdi>" are one</bdi>'
    )
    assert cite("1 kg") == "<bdi>1 kg</bdi>" and cite(Worded("{}, row 5", "a.csv")) == "<bdi>a.csv</bdi>, row 5"


@pytest.mark.parametrize(
    ("text", "direction", "is_apart"),
    [
        ("Consumer price index (2024)", "ltr", False),
        ("Consumer price index", "rtl", True),
        ("\u0627\u0644\u0623\u0633\u0639\u0627\u0631 2024", "rtl", False),
        ("\u0627\u0644\u0623\u0633\u0639\u0627\u0631", "ltr", True),
        ("1 l\u202e", "ltr", True),
        ("2024", "rtl", False),
        ("2024", "ltr", False),
        ("", "rtl", False),
    ],
)
def test_only_what_turns_has_signs_that_nobody_sees(text: str, direction: str, is_apart: bool) -> None:
    assert apart(text, direction) == (isolate(text) if is_apart else text)
    assert apart(Worded("it's {}", text), direction) == f"it's {apart(text, direction)}"


# ---- pages


class Texts(HTMLParser):
    """The faults of a page: marked texts outside of an element of their own, or with others in it."""

    def __init__(self) -> None:
        super().__init__()
        self.faults: list[str] = []
        self.marks = 0
        self._open: list[str] = []

    def handle_starttag(self, tag: str, attrs: list[tuple[str, Optional[str]]]) -> None:
        self._open.append(tag)
        for name, value in attrs:
            self._look(f"{tag} {name}", value or "")

    def handle_endtag(self, tag: str) -> None:
        while self._open and self._open.pop() != tag:
            pass

    def handle_data(self, data: str) -> None:
        if "bdi" not in self._open:
            self._look(self._open[-1] if self._open else "", data)
            return
        self.marks += data.count(MARK)
        if data.count(MARK) > 1 or (MARK in data and not data.startswith(MARK)):
            self.faults.append(f"not its own: {data}")

    def _look(self, where: str, text: str) -> None:
        is_attribute, bare = " " in where, re.sub("\u2068[^\u2069]*\u2069", "", text)
        self.marks += text.count(MARK) - bare.count(MARK)
        if MARK in bare or (text != bare and not is_attribute and where not in NO_ELEMENTS):
            self.faults.append(f"{where}: {text}")


def faults_of(page: Path) -> list[str]:
    """The faults of a page, on which there has to be at least one marked text."""
    read = Texts()
    read.feed(page.read_text(encoding="utf-8"))
    return read.faults or ([] if read.marks else ["no text of others"])


def marked_line(line: str) -> str:
    """A record with its texts marked."""
    (fields,) = csv.reader([line])
    for at in PLACES.get(fields[2], ()):
        fields[at] = MARK + fields[at]
    if fields[2] == "plan":
        fields[4] = re.sub(r'^(T,[^,]*,"?)', rf"\1{MARK}", fields[4], flags=re.M)
    return record(*fields)


@pytest.fixture(scope="module")
def office(cpi: Cpi, tmp_path_factory: pytest.TempPathFactory) -> Path:
    """The small office with all its texts marked, its last month not frozen."""
    path = tmp_path_factory.mktemp("marked") / "office.db"
    head, plan, rest = re.split(r"^(0,desk,plan.*?^\"$)\n", surveys.SMALL, flags=re.M | re.S)
    lines = [marked_line(line) for part in (head, rest) for line in part.splitlines()]
    (fields,) = csv.reader(io.StringIO(plan, newline=""))
    fields[4] = re.sub(r'^(T,[^,]*,"?)', rf"\1{MARK}", fields[4], flags=re.M)
    lines.insert(len(head.splitlines()), record(*fields))
    assert [reply for reply in cpi.replay(lines, db=path) if "refused" in reply] == []
    return path


def test_on_the_pages_of_a_website(cpi: Cpi, office: Path, tmp_path: Path) -> None:
    names = ("office", "title", "country", "contact", "licence", "currency")
    words: dict[str, Any] = {name: MARK + name for name in names}
    out = tmp_path / "public"
    publish(from_file(cpi, office, 9000), Config(agency="NSO", area="XX", **words), out, None, lambda _: None)
    pages = [*out.rglob("*.html")]
    assert len(pages) > 12
    assert {page.name: faults for page in pages if (faults := faults_of(page))} == {}
    levels = json.loads((out / "assets/levels.js").read_text(encoding="utf-8").partition("=")[2].rstrip(";\n"))
    assert levels["currency"] == f"\u2068{MARK}currency\u2069"
    assert levels["items"]["00"]["title"] == f"\u2068{MARK}All items\u2069"


def test_what_people_copy_has_no_signs_that_nobody_sees(tmp_path: Path) -> None:
    """Names of pages and of pictures, what they say to other programs, the calculator's texts, the feed, the calendar, and
    data."""
    out = tmp_path / "public"
    config = Config("NSO", "XX", "Office of prices", currency="crowns", address="https://prices.example/")
    publish(two_years()[:14], config, out, None, lambda _: None)
    hidden = re.compile("[\u2066-\u2069\u200e\u200f]")
    heads = re.compile(
        r"<(title|desc|text)\b.*?</\1>|<meta [^>]*>|<script type=.application/ld.json.>.*?</script>", re.S
    )
    for page in out.rglob("*.html"):
        for head in heads.finditer(page.read_text(encoding="utf-8")):
            assert not hidden.search(head[0]), (page, head[0])
    names = [
        "assets/levels.js",
        "feed.xml",
        "calendar.ics",
        *(str(path.relative_to(out)) for kind in ("data/*.csv", "picture/*.svg") for path in out.glob(kind)),
    ]
    for name in names:
        assert not hidden.search((out / name).read_text(encoding="utf-8").replace("\\u2068", "\u2068")), name


def test_on_the_pages_of_the_desk(cpi: Cpi, office: Path, tmp_path: Path) -> None:
    for month in ("2026-01", "2026-02"):
        assert run(cpi, "desk", "month", office, month, "--at", 4500, "--out", tmp_path / month).status == 0
        assert faults_of(tmp_path / month / "month.html") == []
        for file in (tmp_path / month).glob("*.csv"):
            assert not re.search("<bdi>|[\u2068\u2069]", file.read_text(encoding="utf-8")), file


def test_on_the_pages_of_an_explanation(office: Path, tmp_path: Path) -> None:
    out = tmp_path / "explained"
    told = run(None, "explain", office, "2026-01", "all", "--html", out)
    assert run(None, "explain", office, "2026-01", "--series", "7/2", "--html", out / "life.html").status == 0
    pages = [*out.glob("*.html")]
    assert len(pages) == 7 and told.status == 0
    assert {page.name: faults for page in pages if (faults := faults_of(page))} == {}
    plain = run(None, "explain", office, "2026-01", "01.1.1.2-01").out
    assert f"{MARK}Flour, <b>wheat</b>, {MARK}1 kg; {MARK}Corner shop" in plain


def test_on_the_sheets_of_keys(cpi: Cpi, office: Path, tmp_path: Path) -> None:
    names, page = tmp_path / "names.csv", tmp_path / "sheets.html"
    names.write_text(f"collector,name\n7,{MARK}Ada\u2069\u202e\n", encoding="utf-8")
    words = ("--url", "https://prices.example", "--names", names, "--out", page)
    assert run(None, "keys", office, *words).status == 0
    assert faults_of(page) == []
    assert f"<bdi>{MARK}Ada\u202e</bdi>" in page.read_text(encoding="utf-8")


def test_on_the_page_of_a_check(cpi: Cpi, office: Path, tmp_path: Path) -> None:
    folder = tmp_path / f"{MARK}sheets"
    folder.mkdir()
    (folder / "items.csv").write_text(f"item,text,unit,low,high,{MARK}more\n{MARK}TEA,Tea,1 kg,500,2000,x\n", "utf-8")
    onto = tmp_path / f"{MARK}office.db"
    onto.write_bytes(office.read_bytes())
    assert run(cpi, "take-in", folder, "--onto", onto, "--check").status == 1
    read = Texts()
    read.feed((folder / "check/report.html").read_text(encoding="utf-8"))
    # (a path and a message are isolated as a whole)
    bare = [fault for fault in read.faults if not fault.startswith("not its own: ")]
    assert bare == [] and read.marks > 3
