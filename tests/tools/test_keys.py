"""`cpi-tools keys`: each collector's sheet, whose code another program reads, and whose texts stay texts."""

from __future__ import annotations

import errno
import os
import re
import stat
import sys
from collections.abc import Iterator
from html import unescape
from pathlib import Path
from typing import NamedTuple, Optional
from urllib.parse import parse_qsl, urlsplit

import pytest

from cpi_tools.command_line import main
from cpi_tools.desk.keys.key_sheets import code_of
from cpi_tools.office.program import Cpi, record
from .offices import KEY, LOAD_KEY, OTHER_KEY
from .ran import Ran, run
from .test_take_in import sums

URL = "https://prices.example.org"

KEYS = {1: KEY, 2: OTHER_KEY, 9: LOAD_KEY}
CHECKS = {1: "T", 2: "8", 9: "L"}
"""The check characters of these keys, by stdnum."""

SCRIPT = '<script>document.title="owned"</script>'
TURNED = "\u202eanna\u2066 & 'Zoë' \u2028#key=0&name=x"
"""A name with marks that turn what follows, and with the signs of a link."""

MODULE = 6
"""The pixels of a module in the picture that is decoded."""


# ---- a page, as a reader has it


class Found(NamedTuple):
    """What a sheet says: its heading, the key as it is typed, and the picture of its code."""

    heading: str
    key: str
    picture: str


def sheets_in(page: Path) -> list[Found]:
    """The sheets of a page."""
    text = page.read_text(encoding="utf-8")
    return [
        Found(inner("h2", part), inner('p class="key-typed"', part), re.findall(r"<svg.*?</svg>", part, re.S)[0])
        for part in re.findall(r'<section class="sheet".*?</section>', text, re.S)
    ]


def inner(tag: str, html: str) -> str:
    """The one text of an element, without the elements in it."""
    name = tag.partition(" ")[0]
    (found,) = re.findall(rf"<{tag}(?: [^>]*)?>(.*?)</{name}>", html, re.S)
    return unescape(re.sub(r"<[^>]*>", "", found))


class Code(NamedTuple):
    """A picture of a code: its side in modules with its margin, and the dark ones by column and row."""

    side: int
    dark: frozenset[tuple[int, int]]


def code_in(picture: str) -> Code:
    """Reads a picture: a white ground, and black lines of a module's height, one after the other."""
    ground, lines = re.findall(r'<path\b[^>]* d="([^"]*)"', picture)
    (side,) = set(re.findall(r'viewBox="0 0 (\d+) (\d+)"', picture)[0])
    assert 'fill="#fff"' in picture and 'stroke="#000"' in picture and ground == f"M0 0h{side}v{side}h-{side}z"
    x, y, dark = 0, 0.0, set()
    for command, first, second in re.findall(r"([Mmh])(-?[\d.]+)(?: (-?[\d.]+))?", lines):
        if command == "h":
            dark |= {(at, int(y)) for at in range(x, x + int(first))}
        x = int(first) if command == "M" else x + int(first)
        y = float(second) if command == "M" else y + float(second or 0)
    return Code(int(side), frozenset(dark))


def decoded(picture: str) -> str:
    """What zbar reads in a picture."""
    zbar = pytest.importorskip("zbar", reason="there is no python3-zbar, which decodes")
    code = code_in(picture)
    rows = [bytes(0 if (x, y) in code.dark else 255 for x in range(code.side) for _ in range(MODULE))
            for y in range(code.side) for _ in range(MODULE)]  # fmt: skip
    image = zbar.Image(code.side * MODULE, code.side * MODULE, "Y800", b"".join(rows))
    zbar.ImageScanner().scan(image)
    (symbol,) = image.symbols
    assert str(symbol.type) == "QRCODE"
    data: str = symbol.data
    return data


def named(path: Path, *rows: tuple[object, str]) -> Path:
    """A file of names."""
    lines = ["collector,name", *(f'{number},"{name.replace(chr(34), 2 * chr(34))}"' for number, name in rows)]
    path.write_bytes("".join(f"{line}\r\n" for line in lines).encode())
    return path


def printed(office: Path, *words: object) -> tuple[Ran, Path]:
    """How a run ended, and where its page is."""
    out = office.parent / "sheets.html"
    return run(None, "keys", office, "--url", URL, "--out", out, *words), out


def told(out: Path, sheets: str) -> str:
    """What a run prints of its sheets."""
    return f"{out}: {sheets}; print them and remove the page, since the keys are in it\n"


# ---- the sheets


def test_a_sheet_for_each_collector(office: Path) -> None:
    before = sums(office)
    ran, out = printed(office)
    nameless = "3 collectors without a name: the sheet has the number only\n"
    assert ran == (0, told(out, "3 sheets") + nameless, "")
    sheets = sheets_in(out)
    assert [sheet.heading for sheet in sheets] == ["Collector 1", "Collector 2", "Collector 9"]
    assert [sheet.key for sheet in sheets] == [" ".join([key[:4]] * 8 + [CHECKS[it]]) for it, key in KEYS.items()]
    assert [decoded(sheet.picture) for sheet in sheets] == [f"{URL}/collect/#key={key}" for key in KEYS.values()]
    assert sums(office) == before and {path.name for path in office.parent.iterdir()} == {"office.db", "sheets.html"}
    text = out.read_text(encoding="utf-8")
    assert text.count(f">{URL}/collect/</p>") == 3
    assert stat.S_IMODE(out.stat().st_mode) == 0o600
    # (it works without network, and no script is in it)
    assert not re.search(r"<script|\bsrc=|https?://(?!prices\.example\.org/collect/<)", text)


def test_names_stay_texts_and_come_back_from_the_code(office: Path) -> None:
    longest = "\U0001f9ee" * 60
    names = named(office.parent / "names.csv", (2, TURNED), (9, longest), (1, SCRIPT))
    ran, out = printed(office, "--names", names)
    assert ran == (0, told(out, "3 sheets"), "")
    sheets = sheets_in(out)
    for (number, key), name, sheet in zip(KEYS.items(), (SCRIPT, TURNED, longest), sheets):
        closing = "\u2069" if name == TURNED else ""  # (its own isolate is closed)
        assert sheet.heading == f"Collector {number}: {name}{closing}"
        link = decoded(sheet.picture)
        assert link.isascii() and link.startswith(f"{URL}/collect/#key={key}&name=")
        assert re.fullmatch(r"[A-Za-z0-9_.~%-]+", link.partition("&name=")[2])
        assert parse_qsl(urlsplit(link).fragment, strict_parsing=True) == [("key", key), ("name", name)]
    text = out.read_text(encoding="utf-8")
    assert text.count("<bdi>") == 3 and "<script" not in text
    assert decoded(sheets[1].picture).endswith(
        "&name=%E2%80%AEanna%E2%81%A6%20%26%20%27Zo%C3%AB%27%20%E2%80%A8%23key%3D0%26name%3Dx"
    )


def test_a_name_is_left_out_where_there_is_none(office: Path) -> None:
    """The file may be one of a spreadsheet: semicolons, a byte order mark, other columns, blanks round a name."""
    names = office.parent / "names.csv"
    names.write_text("\ufeffTelephone; Collector ;Name\r\n0123;9; Ada Lovelace \r\n;;\r\n", encoding="utf-8")
    ran, out = printed(office, "--names", names)
    nameless = "2 collectors without a name: the sheet has the number only\n"
    unread = f"cpi-tools keys: {names}: columns that aren't read: telephone\n"
    assert ran == (0, told(out, "3 sheets") + nameless, unread)
    sheets = sheets_in(out)
    assert [sheet.heading for sheet in sheets] == ["Collector 1", "Collector 2", "Collector 9: Ada Lovelace"]
    assert [decoded(sheet.picture).partition("&")[2] for sheet in sheets] == ["", "", "name=Ada%20Lovelace"]


def test_only_the_collectors_that_are_chosen(office: Path) -> None:
    names = named(office.parent / "names.csv", (2, "Beno"), (1, "Anna"))
    ran, out = printed(office, "--names", names, "--collector", 9, "--collector", 2, "--collector", 9)
    assert ran.out == told(out, "2 sheets") + "1 collector without a name: the sheet has the number only\n"
    assert [sheet.heading for sheet in sheets_in(out)] == ["Collector 2: Beno", "Collector 9"]
    text = out.read_text(encoding="utf-8")
    assert "Anna" not in text and "aaaa" not in text
    ran, _ = printed(office, "--collector", 2, "--collector", 3)
    assert ran == (1, "", f"cpi-tools keys: {office} has no collector 3: it has 3 collectors, 1 to 9\n")
    assert sheets_in(out)[0].heading == "Collector 2: Beno"


@pytest.mark.parametrize(
    ("language", "direction", "heading", "left"),
    [("ar", ' dir="rtl"', "جامع الأسعار 2: Anna", r"[A-Za-z]{2,}"), ("fr", "", "Enquêteur 2\u00a0: Anna", r"Collector|sign in|the"),
     ("es", "", "Encuestador 2: Anna", r"Collector|sign in|the")],
)  # fmt: skip
def test_sheets_in_another_language(office: Path, language: str, direction: str, heading: str, left: str) -> None:
    """The texts are those of the language, and key, code and address stay; what the terminal has is English."""
    names = named(office.parent / "names.csv", (2, "Anna"))
    ran, out = printed(office, "--names", names, "--collector", 2, "--language", language)
    assert ran == (0, told(out, "1 sheet"), "")
    (found,) = sheets_in(out)
    assert found.heading == heading and found.key == " ".join([OTHER_KEY[:4]] * 8 + [CHECKS[2]])
    assert decoded(found.picture) == f"{URL}/collect/#key={OTHER_KEY}&name=Anna"
    text = out.read_text(encoding="utf-8")
    assert f'<html lang="{language}"{direction}>' in text
    shown = re.sub(
        r"<(style|svg).*?</\1>|<bdi>.*?</bdi>|<p class=\"(address|key-typed)\">.*?</p>|<!DOCTYPE html>",
        "",
        text,
        flags=re.S,
    )
    texts = re.findall(r">([^<>]+)<", shown) + re.findall(r'aria-label="([^"]*)"', shown)
    assert not [element for element in texts if re.search(left, element)]


def test_a_language_without_a_catalogue_is_refused(office: Path, capsys: pytest.CaptureFixture[str]) -> None:
    with pytest.raises(SystemExit) as ended:
        main(["keys", str(office), "--url", URL, "--out", str(office.parent / "sheets.html"), "--language", "xx"])
    assert ended.value.code == 2 and "'xx' has no catalogue: one of en, ar, es, fr" in capsys.readouterr().err
    assert not (office.parent / "sheets.html").exists()


def test_a_code_has_its_margin_and_bears_some_dirt() -> None:
    """Four light modules all round; the first two bits of its format (ISO/IEC 18004, 7.9) aren't those of level L."""
    for length in (1, 100, 900):
        side, dark = code_in(code_of(f"{URL}/collect/#key={'x' * length}"))
        assert {min(edge) for edge in zip(*dark)} == {4} and {max(edge) for edge in zip(*dark)} == {side - 5}
        level = (((4, 12) in dark) << 1 | ((5, 12) in dark)) ^ 0b10
        assert level in (0b00, 0b11, 0b10)  # M, Q, H


def test_an_office_that_runs_is_neither_locked_nor_waited_for(cpi: Cpi, office: Path) -> None:
    """A collector who was registered before has a sheet."""
    with cpi.session(office) as session:
        assert session.ask(record(0, "desk", "collector", 12, "0123456789abcdef" * 2)) == {"done": True}
        ran, out = printed(office, "--collector", 12)
        assert session.ask(record(0, "desk", "collector", 13, "9" * 32)) == {"done": True}
    assert ran.status == 0
    (found,) = sheets_in(out)
    assert found.key.startswith("0123 4567 89ab cdef 0123 4567 89ab cdef ")


# ---- where it goes


def test_no_other_user_reads_the_page_at_any_time(office: Path, monkeypatch: pytest.MonkeyPatch) -> None:
    """Whatever the mask is, and the mode of the page that it takes the place of. A full disk leaves that one."""
    out, modes = office.parent / "sheets.html", []
    out.write_text("<!DOCTYPE html>\nanother page")
    out.chmod(0o644)

    def full(number: int) -> None:
        modes.append(stat.S_IMODE(os.fstat(number).st_mode))
        raise OSError(errno.ENOSPC, os.strerror(errno.ENOSPC))

    mask = os.umask(0)
    try:
        for failing in ("fchmod", "fsync"):
            with monkeypatch.context() as patched:
                patched.setattr(os, failing, lambda number, *_: full(number))
                assert printed(office)[0] == (1, "", f"cpi-tools keys: {out}: No space left on device\n")
        assert modes == [0o600, 0o600]
        assert out.read_text().endswith("another page") and len([*out.parent.iterdir()]) == 2
        assert printed(office)[0].status == 0
    finally:
        os.umask(mask)
    assert stat.S_IMODE(out.stat().st_mode) == 0o600 and len(sheets_in(out)) == 3


def test_a_file_that_is_no_page_stays(office: Path) -> None:
    out = office.parent / "sheets.html"
    out.write_text("collector,key\n")
    ran, _ = printed(office)
    assert (ran.status, ran.out) == (1, "")
    assert ran.err == f"cpi-tools keys: {out} is there already, and is no page: give the page a name of its own\n"
    assert out.read_text() == "collector,key\n"


# ---- what is refused


NOT_TAKEN = [
    # the file, and the lines about it
    ("collector,name\n7,Anna\n", "row 2: the office has no collector 7: register the collector first, or delete the row"),
    ("collector,name\n1,A\n\n2,B\n1,C\n", "row 5: collector 1 is there twice, first in row 2: leave one of the two rows"),
    ("collector,name\n1,\n", "row 2: the name of collector 1 is empty: write it, or delete the row"),
    ("collector,name\n1, \u00a0\n", "row 2: the name of collector 1 is empty: write it, or delete the row"),
    ("collector,name\n1," + 61 * "é" + "\n", f"row 2: the name '{60 * 'é'}'.. has 61 characters: write at most 60"),
    ('collector,name\n1,"An\nna"\n', r"row 2: the name 'An\nna' contains a control character: write it on one line"),
    ("collector,name\n1,A\x7f\n", r"row 2: the name 'A\x7f' contains a control character: write it on one line"),
    ("collector,name\none,A\n", "row 2: 'one' isn't the number of a collector: write a number like 7"),
    ("collector,name\n01,A\n", "row 2: '01' isn't the number of a collector: write a number like 7"),
    ("collector,name\n\u0661,A\n", "row 2: '\u0661' isn't the number of a collector: write a number like 7"),
    ("collector,name\n,A\n", "row 2: '' isn't the number of a collector: write a number like 7"),
    ("number,name\n1,A\n", "row 1: there is no column collector, only number, name: name a column collector in the first"
     " row"),
    ("collector\n1\n", "row 1: there is no column name, only collector: name a column name in the first row"),
    ("", "row 1: the first row is empty: name the columns in the first row"),
    ("collector,name,name\n", "row 1: the column name appears twice: rename one of the two; a second table needs a sheet of its own"),
    ("collector,name\n1,Lovelace, Ada\n", "row 2: a cell is in no named column: \" Ada\": name the column in the first row, or"
     " put quotation marks around a text that contains the separator"),
    ('collector,name\n1,"A\n', "row 2: the row isn't valid CSV: unexpected end of data: check its quotation marks"),
]  # fmt: skip


@pytest.mark.parametrize(("text", "wanted"), NOT_TAKEN, ids=range(len(NOT_TAKEN)))
def test_names_that_are_not_taken(office: Path, text: str, wanted: str) -> None:
    names = office.parent / "names.csv"
    names.write_bytes(text.encode())
    ran, out = printed(office, "--names", names)
    assert ran == (1, "", f"cpi-tools keys: names.csv, {wanted}\n")
    assert not out.exists()


def test_names_that_are_no_text(office: Path) -> None:
    names = office.parent / "names.csv"
    names.write_bytes(b"collector,name\n1,Zo\xeb\n")
    ran, out = printed(office, "--names", names)
    wanted = "cpi-tools keys: names.csv, row 2: the file isn't UTF-8: a cell contains the bytes Zo\\xeb: save it as CSV in UTF-8\n"
    assert ran == (1, "", wanted)
    ran, out = printed(office, "--names", office.parent / "none.csv")
    assert (ran.status, ran.out, ran.err.count("\n")) == (1, "", 1) and "No such file or directory" in ran.err
    assert not out.exists()


def test_what_is_wrong_is_one_line(cpi: Cpi, office: Path, tmp_path: Path) -> None:
    (tmp_path / "text.db").write_text("no office")
    assert cpi.replay([record(0, "desk", "outlet", 1, "Market")], db=tmp_path / "empty.db") == [{"done": True}]
    for file, to, wanted in (
        ("nothing.db", "new.html", f"{tmp_path}/nothing.db: No such file or directory"),
        ("text.db", "new.html", "text.db can't be read as an office: file is not a database"),
        ("empty.db", "new.html", f"{tmp_path}/empty.db has no collectors, so there is no sheet to print"),
        ("office.db", "nowhere/new.html", f"{tmp_path}/nowhere/new.html: No such file or directory"),
    ):
        ran = run(None, "keys", tmp_path / file, "--url", URL, "--out", tmp_path / to)
        assert ran == (1, "", f"cpi-tools keys: {wanted}\n")
    assert not (tmp_path / "new.html").exists()


@pytest.mark.parametrize(("module", "package"), [("segno", "python3-segno"), ("jinja2", "python3-jinja2")])
def test_a_package_that_is_missing_is_named(
    office: Path, module: str, package: str, monkeypatch: pytest.MonkeyPatch
) -> None:
    monkeypatch.setitem(sys.modules, module, None)  # type: ignore[misc]
    ran, out = printed(office)
    assert (ran.status, ran.out, ran.err.count("\n")) == (1, "", 1) and not out.exists()
    assert f" has no {module}: Debian's {package} has it for " in ran.err


def origins() -> Iterator[tuple[str, Optional[str]]]:
    """Addresses with that of the page that the sheet names, or None for one that is refused."""
    yield "https://prices.example.org", "https://prices.example.org/collect/"
    yield "https://Prices.Example.ORG/", "https://prices.example.org/collect/"
    yield "https://localhost:8443", "https://localhost:8443/collect/"
    yield "https://[2001:db8::1]:65535", "https://[2001:db8::1]:65535/collect/"
    for refused in (
        "http://prices.example.org", "prices.example.org", "https://", "https:///", "https://prices.example.org/collect",
        "https://prices.example.org//", "https://prices.example.org?a", "https://prices.example.org/#", "https://a b",
        "https://anna@prices.example.org", "https://prices.example.org:0", "https://prices.example.org:65536",
        "https://prices.example.org:", "https://-a", "https://prîces.example", "https://a\n", " https://a",
        "https://<b>", "javascript:alert(1)",
    ):  # fmt: skip
        yield refused, None


@pytest.mark.parametrize(("url", "page"), origins())
def test_the_address_of_the_front(
    office: Path, url: str, page: Optional[str], capsys: pytest.CaptureFixture[str]
) -> None:
    out = office.parent / "sheets.html"
    words = ("keys", office, "--url", url, "--out", out)
    if page is not None:
        assert run(None, *words).status == 0
        assert [decoded(sheet.picture) for sheet in sheets_in(out)][0] == f"{page}#key={KEY}"
        assert f">{page}</p>" in out.read_text(encoding="utf-8")
        return
    with pytest.raises(SystemExit) as ended:
        main([*map(str, words)])
    told = f"cpi-tools keys: argument --url: {url!r} isn't an address like https://prices.example, without a path"
    assert capsys.readouterr().err == f"{told} (see cpi-tools keys --help)\n"
    assert ended.value.code == 2 and not out.exists()


@pytest.mark.parametrize(
    "words",
    [[], ["--url", URL], ["--out", "a.html"], ["--url", URL, "--out", "a.html", "--collector", "x"],
     ["--url", URL, "--out", "a.html", "--collector", "0"]],
    ids=range(5),
)  # fmt: skip
def test_words_that_are_refused(office: Path, words: list[str]) -> None:
    with pytest.raises(SystemExit) as ended:
        run(None, "keys", office, *words)
    assert ended.value.code == 2
