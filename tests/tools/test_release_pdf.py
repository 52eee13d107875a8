"""`cpi-tools release-pdf`, and the PDFs of a pack: two pages whose figures are worked by hand, in each language, and drafts
that are marked on each page."""

from __future__ import annotations

import os
import re
import stat
import subprocess
import zlib
from collections.abc import Sequence
from pathlib import Path

import pytest

from cpi_tools.command_line import main
from cpi_tools.office.program import Cpi, record
from cpi_tools.office.public import Published
from cpi_tools.publish.figures.config import Config
from cpi_tools.publish.figures.own_words import OfficeLanguages, Own
from cpi_tools.publish.pack import check, publish
from cpi_tools.publish.typeset import paper, pdf_writing
from cpi_tools.publish.typeset.pdf_writing import Pdfs
from cpi_tools.publish.typeset.paper import OnPaper, on_paper
from cpi_tools.text.terminal import Fault
from lib.offices import plan_with
from .ran import run
from .test_measures import tea_again, two_years

SPEAKS = OfficeLanguages(("en", "fr", "es", "ar"), own={"fr": Own({"office": "Bureau des prix"}, {"01": "Café"})})
CONFIG = Config("NSO", "XX", "Office of prices", contact="press@prices.example", address="https://prices.example/")
CONFIG = CONFIG._replace(speaks=SPEAKS, licence="CC BY 4.0")
NAME = "2027-01-r1"


def words_in(pdf: bytes) -> list[str]:
    """The text of each page, whose blanks are single ones."""
    ran = subprocess.run(["pdftotext", "-layout", "-", "-"], input=pdf, capture_output=True, check=True)
    return [" ".join(word.split()) for word in ran.stdout.decode().split("\f")[:-1]]


def placed(tag: str, mark: str = "", published: Sequence[Published] = (), config: Config = CONFIG) -> OnPaper:
    """The release of January 2027 in a language."""
    return on_paper(published or [*two_years(), tea_again()], config, tag, "2027-01", 1, mark)


def pdf_in(tag: str, mark: str = "") -> bytes:
    pdf = placed(tag, mark)
    return pdf.paper.pdf(pdf.release)


@pytest.fixture(scope="module")
def english() -> bytes:
    return pdf_in("en")


def test_the_two_pages_are_worked_by_hand(english: bytes) -> None:
    """The figures are those of `test_statements`: coffee gives 5.56, tea 0.75 and milk 3.16, together 9.47."""
    first, second = words_in(english)
    for text in (
        "Office of prices Consumer price index, January 2027 Published 1 January 1970, 00:01 UTC.",
        "In January 2027, consumer prices were 9.5 percent higher than a year earlier",
        "came from Title of 01 (+5.56), Title of 03 (+3.16) and Title of 02 (+0.75).",
        "the contribution of Title of 03 rose most (+3.16), and the contribution of Title of 02 fell most"
        " (\u22121.25).",
        "Index, December 2025 = 100",
        "https://prices.example/release/2027-01-r1.html Page 1 of 2",
    ):
        assert text in first, text
    for text in (
        "Title of 00 100.00 % 109.2 +4.0 % +9.5 % +9.47",
        "Title of 01 50.00 % 106.1 +2.0 % +8.2 % +5.56",
        "Title of 03 (December 2026 = 100) 50.00 % 106.0 +6.0 % \u2013 +3.16",
        "Contact: press@prices.example",
        "Licence: CC BY 4.0.",
        "Method: https://prices.example/method.html",
        "https://prices.example/release/2027-01-r1.html Page 2 of 2",
    ):
        assert text in second, text


GLYPHS = re.compile(rb"<[0-9a-f]{4}> <([0-9a-f]+)>")
"""The letters of a glyph in a font's map."""


def test_each_letter_is_a_glyph_of_its_own(english: bytes) -> None:
    """The *i* of *Office* has its dot: the glyph that DejaVu Sans has for *fi* has none."""
    streams = re.findall(rb"stream\r?\n(.*?)\r?\nendstream", english, re.DOTALL)
    whole = b"".join(zlib.decompress(stream) if stream[:1] == b"x" else stream for stream in streams)
    letters = {bytes.fromhex(glyph.decode()).decode("utf-16-be") for glyph in GLYPHS.findall(whole)}
    assert {"O", "f", "i", "c", "e"} < letters and {len(letter) for letter in letters} == {1}, letters


@pytest.mark.parametrize(
    ("tag", "headline", "divisions", "foot"),
    [
        (
            "fr",
            "les prix à la consommation augmentent de 9,5",
            "Café 50,00 % 106,1 +2,0 % +8,2 % +5,56",
            "Page 1 sur 2",
        ),
        ("es", "En enero de 2027", "Title of 01 50,00 % 106,1 +2,0 % +8,2 % +5,56", "Página 1 de 2"),
    ],
)
def test_each_language_has_its_own(tag: str, headline: str, divisions: str, foot: str) -> None:
    first, second = words_in(pdf_in(tag))
    assert headline in first and divisions in second and foot in first
    assert f"https://prices.example/{tag}/release/{NAME}.html" in first
    assert ("Bureau des prix" in first) is (tag == "fr")


def test_arabic_is_written_from_the_right() -> None:
    """Its pictures are pixels, the row of a table begins at the right, and its words can be found and copied."""
    pdf = pdf_in("ar")
    assert pdf_writing.sheets_of(pdf) == 2 and pdf.count(b"/Subtype /Image") >= 3
    ran = subprocess.run(["pdftotext", "-bbox", "-", "-"], input=pdf, capture_output=True, check=True)
    lefts = {
        word: float(left) for left, word in re.findall('<word xMin="([0-9.]+)".*>(.*)</word>', ran.stdout.decode())
    }
    whole, index, given = (next(lefts[it] for it in lefts if text in it) for text in ("100.00", "109.2", "+9.47"))
    assert whole > index > given
    words = " ".join(re.sub("[\u200e\u200f\u202a-\u202e\u2066-\u2069]", "", " ".join(words_in(pdf))).split())
    for text in ("ارتفعت أسعار المستهلك بنسبة", "مقارنة بالسنة السابقة", "كيف", "Office of prices", "Title of 03"):
        assert text in words, text


@pytest.mark.parametrize(
    ("text", "wanted"),
    [
        ("من \u2068Title of 01\u2069 فقط", "من \u200f\u2068Title\u00a0of\u00a001\u2069 فقط"),
        ("انخفاضًا (\u200e\u22121.25)", "انخفاضًا \u200f(\u200e\u22121.25)"),
        ("المنهجية: https://a.example/ar/method.html", "المنهجية: \u200fhttps://a.example/ar/method.html"),
        (f"من {'long words ' * 9}فقط", f"من \u200f{'long words ' * 9}فقط"),
        ("في يناير 2027", "في يناير 2027"),
    ],
)
def test_a_line_from_the_right_begins_with_its_mark(text: str, wanted: str) -> None:
    assert paper.with_marks(text, "rtl") == wanted


@pytest.mark.parametrize(
    ("text", "wanted"),
    [
        ("\u2068خبز أبيض\u2069 (diciembre de 2026 = 100)", "\u200e\u2068خبز\u00a0أبيض\u2069 (diciembre de 2026 = 100)"),
        (
            "Subió \u2068خبز\u2069, y \u2068لبن 2\u2069 bajó",
            "Subió \u200e\u2068خبز\u2069, y \u200e\u2068لبن 2\u2069 bajó",
        ),
        (f"de {'كلمات طويلة ' * 9}y", f"de \u200e{'كلمات طويلة ' * 9}y"),
        ("Pan (diciembre de 2026 = 100)", "Pan (diciembre de 2026 = 100)"),
    ],
)
def test_foreign_words_in_a_line_from_the_left_begin_with_its_mark(text: str, wanted: str) -> None:
    assert paper.with_marks(text, "ltr") == wanted


def test_an_arabic_title_in_a_picture_from_the_left_is_drawn_as_pixels(monkeypatch: pytest.MonkeyPatch) -> None:
    """The picture of what divisions give has the titles of divisions; that of the index has none."""
    arabic = CONFIG._replace(speaks=SPEAKS._replace(own={"es": Own({}, {"01": "خبز"})}))
    on_sheets = placed("es", config=arabic)
    pictures = on_sheets.paper._words(on_sheets.release)["pictures"]
    assert isinstance(pictures, list)
    needs = [picture.needs_pixels() for picture in pictures]
    assert any(needs) and not all(needs)
    assert "rsvg" in on_sheets.paper.source(on_sheets.release).lower()
    plain = placed("es")
    assert "rsvg" not in plain.paper.source(plain.release).lower()


def test_the_same_tables_give_the_same_bytes(english: bytes, monkeypatch: pytest.MonkeyPatch) -> None:
    """Hours later, and made by another process."""
    script = (
        "import sys, time; now = time.time(); time.time = lambda: now + 9999\n"
        "from tools.test_release_pdf import pdf_in; sys.stdout.buffer.write(pdf_in('en'))"
    )
    folder = Path(__file__).resolve().parents[1]
    words = {"PYTHONPATH": f"{folder}:{folder.parent / 'tools'}", "PYTHONHASHSEED": "7"}
    ran = subprocess.run(
        ["/usr/bin/python3", "-c", script], env={**os.environ, **words}, capture_output=True, check=True
    )
    assert ran.stdout == english
    assert b"CreationDate" not in english and b"ModDate" not in english


def test_a_pdf_says_its_title_language_and_what_it_is_made_from(english: bytes, tmp_path: Path) -> None:
    (tmp_path / "it.pdf").write_bytes(english)
    said = subprocess.run(["pdfinfo", str(tmp_path / "it.pdf")], capture_output=True, check=True).stdout.decode()
    assert re.search("^Title: +Consumer price index, January 2027$", said, re.M)
    assert re.search("^Creator: +SHA-256 of HTML [0-9a-f]{64}, WeasyPrint ", said, re.M)
    assert re.search("^Tagged: +yes$", said, re.M) and re.search("^Pages: +2$", said, re.M)
    assert b"/Lang (en)" in english


def test_a_release_that_is_too_long_has_more_pages(monkeypatch: pytest.MonkeyPatch) -> None:
    """Each says how many there are."""
    found = placed("en")
    long = [*found.paragraphs] * 40
    monkeypatch.setattr(found.statements, "of", lambda *_: long)
    more = words_in(found.paper.pdf(found.release))
    assert len(more) > 2 and f"Page 1 of {len(more)}" in more[0] and f"Page {len(more)} of {len(more)}" in more[-1]


# ---- in a pack


PACKED = CONFIG._replace(
    speaks=OfficeLanguages(("en", "fr")), also=frozenset({"pdf"}), without=frozenset({"pictures", "slices"})
)


class Counted:
    """How often PDFs were made."""

    def __init__(self, monkeypatch: pytest.MonkeyPatch) -> None:
        self.count = 0
        monkeypatch.setattr(paper, "pdf_of", self._pdf_of)

    def _pdf_of(self, page: str) -> bytes:
        self.count += 1
        return pdf_writing.pdf_of(page)


def test_a_pack_has_the_pdf_of_each_release_and_takes_it_over(tmp_path: Path, monkeypatch: pytest.MonkeyPatch) -> None:
    counted, out, made = Counted(monkeypatch), tmp_path / "public", []
    for tables, config in ((2, PACKED), (3, PACKED), (3, PACKED), (3, PACKED._replace(office="Prices"))):
        publish(two_years()[:tables], config, out, None, lambda _: None)
        made.append(counted.count)
    assert made == [2, 4, 4, 8]
    names = [f"{folder}release/2026-0{month}-r1" for folder in ("", "fr/") for month in (1, 2)]
    assert sorted(str(path.relative_to(out).with_suffix("")) for path in out.rglob("*.pdf")) == sorted(names)
    sums = (out / "SHA256SUMS").read_text(encoding="utf-8")
    for name in names:
        assert f'<a href="{Path(name).name}.pdf">' in (out / f"{name}.html").read_text(encoding="utf-8")
        assert f"  {name}.pdf\n" in sums
    assert check(two_years()[:3], PACKED._replace(office="Prices"), out, None, lambda _: None) == []
    (out / f"{names[0]}.pdf").write_bytes(b"%PDF-1.7 another")
    differing = check(two_years()[:3], PACKED._replace(office="Prices"), out, None, lambda _: None)
    assert any(names[0] in it for it in differing)


def test_a_pack_without_the_word_has_none(tmp_path: Path) -> None:
    publish(two_years()[:3], PACKED._replace(also=frozenset()), tmp_path / "public", None, lambda _: None)
    assert not [*(tmp_path / "public").rglob("*.pdf")]
    page = (tmp_path / "public/release/2026-01-r1.html").read_text(encoding="utf-8")
    assert ".pdf" not in page


def test_without_weasyprint_pdfs_of_a_pack_are_compared_as_they_are(
    tmp_path: Path, monkeypatch: pytest.MonkeyPatch
) -> None:
    out = tmp_path / "public"
    publish(two_years()[:2], PACKED, out, None, lambda _: None)
    monkeypatch.setattr(pdf_writing, "find_spec", lambda _: None)
    assert pdf_writing.pdfs_like(out) == Pdfs(False, out)
    assert check(two_years()[:2], PACKED, out, None, lambda _: None) == []


# ---- the tool


ITEM, KEY = "01.1.1.1-01", "0123456789abcdef0123456789abcdef"
PLAN = plan_with({"00": "All items", "01": "Food", "01.1": "Food", "01.1.1": "Cereals", "01.1.1.1": "Rice", ITEM: "Rice"},
                 {ITEM: 1_000_000}, {"RICE": ITEM})  # fmt: skip
SOON = 9_000_000_000
"""A moment that no clock shows in the lifetime of these tests."""


def priced(month: str, opens: int, price: int, publishes: int) -> list[list[object]]:
    """A month with one price."""
    return [
        [opens, "desk", "calendar", month, opens, opens + 500, publishes],
        [opens + 1, KEY, "quote", 1, month, "price", price],
    ]


@pytest.fixture(scope="module")
def office(cpi: Cpi, tmp_path_factory: pytest.TempPathFactory) -> Path:
    """An office with two published months, one that is frozen and under embargo, and one that isn't frozen."""
    file = tmp_path_factory.mktemp("office") / "office.db"
    lived: list[list[object]] = [
        [0, "desk", "item", "RICE", "Rice", "1", 1, 10_000],
        [0, "desk", "outlet", 1, "Harbour market"],
        [0, "desk", "collector", 1, KEY],
        [0, "desk", "assign", 1, 1, 1, "RICE", "2025-12", "2026-12"],
        *priced("2025-12", 0, 100, 900),
        [600, "desk", "freeze", "2025-12"],
        [1000, "desk", "plan", "2026", PLAN],
        *priced("2026-01", 1000, 102, 1900),
        [1600, "desk", "freeze", "2026-01"],
        *priced("2026-02", 2000, 103, SOON),
        [2600, "desk", "freeze", "2026-02"],
        *priced("2026-03", 3000, 107, SOON + 1),
    ]
    refused = [it for it in cpi.replay([record(*it) for it in lived], db=file) if "refused" in it]
    assert not refused
    (file.parent / "office.ini").write_text("[office]\nagency = NSO\narea = XX\noffice = Office of prices\n")
    return file


def tool(office: Path, out: Path, *words: str) -> list[str]:
    """The words of the tool for an office."""
    return [
        "release-pdf",
        "--db",
        str(office),
        "--config",
        str(office.parent / "office.ini"),
        "--out",
        str(out),
        *words,
    ]


def test_the_tool_writes_the_last_release(office: Path, cpi: Cpi, tmp_path: Path) -> None:
    out = tmp_path / "release.pdf"
    ran = run(cpi, *tool(office, out, "--at", "2000"))
    assert (ran.status, ran.out) == (0, f"{out}: 2026-01, revision 1, 2 pages\n"), ran.err
    first, second = words_in(out.read_bytes())
    assert "In January 2026, consumer prices rose by 2.0 percent from the previous month" in first
    assert "Draft" not in first + second and "Page 2 of 2" in second
    assert stat.S_IMODE(out.stat().st_mode) == 0o644
    before = out.read_bytes()
    assert run(cpi, *tool(office, out, "--at", "2000", "--month", "2026-01")).status == 0
    assert out.read_bytes() == before


@pytest.mark.parametrize(
    ("month", "headline", "moment"),
    [("2026-02", "rose by 1.0 percent from the previous month", "16:00 UTC"),
     ("2026-03", "rose by 3.9 percent from the previous month", "16:00 UTC")],
)  # fmt: skip
def test_a_draft_is_marked_on_each_page(
    office: Path, cpi: Cpi, tmp_path: Path, month: str, headline: str, moment: str
) -> None:
    """103 / 102 = 1.0098, 107 / 103 = 1.0388; the office's file stays as it is, and only the owner reads the draft."""
    out, before = tmp_path / "draft.pdf", office.read_bytes()
    ran = run(cpi, *tool(office, out, "--draft", "--month", month))
    assert (ran.status, ran.out) == (0, f"{out}: draft of {month}, revision 1, 2 pages\n"), ran.err
    pages = words_in(out.read_bytes())
    mark = f"Draft, under embargo until 14 March 2255, {moment}"
    assert headline in pages[0] and [page.count(mark) for page in pages] == [2, 2]
    assert "Published" not in pages[0]
    assert stat.S_IMODE(out.stat().st_mode) == 0o600 and office.read_bytes() == before


@pytest.mark.parametrize(
    ("words", "says"),
    [
        (["--draft", "--month", "2026-01"], "2026-01, revision 1, is out since"),
        (["--draft", "--month", "2026-09"], "2026-09, by the calendar, which ends with 2026-03: refused by 21"),
        (["--at", "2000", "--month", "2026-02"], "there is no release of 2026-02: the last one is of 2026-01"),
        (["--at", "2000", "--month", "2026-01", "--revision", "2"], "there is no release of 2026-01, revision 2"),
        (
            ["--at", "2000", "--language", "fr"],
            "the office's pages are in en (languages in the configuration), not in fr",
        ),
        (["--at", "10"], "no table with rows is published yet"),
    ],
)
def test_what_is_refused_is_said_in_one_line(
    office: Path, cpi: Cpi, tmp_path: Path, words: list[str], says: str
) -> None:
    out = tmp_path / "release.pdf"
    ran = run(cpi, *tool(office, out, *words))
    assert ran.status == 1 and says in ran.err and ran.err.count("\n") == 1 and not out.exists()


@pytest.mark.parametrize(
    ("words", "says"),
    [
        (["--draft", "--at", "10", "--month", "2026-03"], "--draft goes with --db, and without --at: it is of now"),
        (["--draft"], "--draft goes with --month, and without --revision"),
        (["--at", "2000", "--revision", "1"], "--revision goes with --month"),
        (["--at", str(SOON)], "--at is still to come: its tables may be under embargo now"),
        ([], "--db and --at go together"),
    ],
)
def test_words_that_dont_go_together_are_refused(
    office: Path, cpi: Cpi, tmp_path: Path, words: list[str], says: str, capsys: pytest.CaptureFixture[str]
) -> None:
    with pytest.raises(SystemExit) as ended:
        main(tool(office, tmp_path / "release.pdf", *words))
    assert ended.value.code == 2 and says in capsys.readouterr().err


def test_a_draft_is_never_in_a_pack_and_replaces_no_other_file(office: Path, cpi: Cpi, tmp_path: Path) -> None:
    (tmp_path / "public/release").mkdir(parents=True)
    (tmp_path / "public/manifest.json").write_text("{}")
    to, other = tmp_path / "public/release/draft.pdf", tmp_path / "notes.txt"
    words = ["--draft", "--month", "2026-03"]
    ran = run(cpi, *tool(office, to, *words))
    assert ran.status == 1 and f"{to} is in {tmp_path / 'public'}, which is published" in ran.err
    assert not to.exists()
    other.write_text("mine")
    ran = run(cpi, *tool(office, other, *words))
    assert ran.status == 1 and "is no PDF: give the PDF a name of its own" in ran.err
    assert other.read_text() == "mine"


def test_without_weasyprint_the_tool_names_the_package(monkeypatch: pytest.MonkeyPatch) -> None:
    monkeypatch.setattr("importlib.util.find_spec", lambda _: None)
    with pytest.raises(Fault, match="has no weasyprint: Debian's weasyprint has it"):
        pdf_writing.need_writer()


def test_nothing_is_read_elsewhere(tmp_path: Path) -> None:
    """A page that named a file or an address would have no picture."""
    (tmp_path / "secret.svg").write_text('<svg xmlns="http://www.w3.org/2000/svg"><text>secret</text></svg>')
    page = f'<!DOCTYPE html><p>Seen<img src="file://{tmp_path}/secret.svg" alt="none">'
    assert words_in(pdf_writing.pdf_of(page)) == ["Seennone"]
