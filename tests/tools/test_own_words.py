"""What an office says in its own words: Markdown that becomes nothing but what it may be, sections by language, a logo."""

from __future__ import annotations

import re
import struct
import zlib
from html.parser import HTMLParser
from pathlib import Path
from typing import Optional

import html5lib
import pytest

from cpi_tools.publish.figures.config import Config, read_config
from cpi_tools.publish.figures.own_words import SECTIONS, BadLogo, BadOwnWords, read_logo, read_own_words
from cpi_tools.publish.figures.plain_markdown import BadMarkdown, html_of, read_markdown
from cpi_tools.office.public import Published
from cpi_tools.publish.pack import publish
from lib.places import ROOT
from .test_site import words_of

OFFICE = "[office]\nagency = NSO\narea = XX\noffice = Office\nabout = about\n"


# ---- Markdown


def test_markdown_becomes_elements() -> None:
    text = (
        "# Who\n\nAll *of* **them**, `a<b`; 3 < 4 & 5\n\n3. one\n4. two\n   - deep\n\n|a|b|\n|---|--:|\n|1|2|\n\nx  \ny"
    )
    assert re.sub(r"\n", "", html_of(text)) == (
        "<h3>Who</h3><p>All <em>of</em> <strong>them</strong>, <code>a&lt;b</code>; 3 &lt; 4 &amp; 5</p>"
        '<ol start="3"><li>one</li><li>two<ul><li>deep</li></ul></li></ol>'
        '<div class="scroll" tabindex="0"><table><thead><tr><th>a</th><th class="n">b</th></tr></thead>'
        '<tbody><tr><td>1</td><td class="n">2</td></tr></tbody></table></div><p>x<br>y</p>'
    )


def test_links_lead_to_the_web_or_to_a_mailbox() -> None:
    text = '[us](https://a.example/?x=1&y="2" "our <site>") <mailto:me@a.example>'
    assert html_of(text) == (
        '<p><a href="https://a.example/?x=1&amp;y=%222%22" title="our &lt;site&gt;">us</a> '
        '<a href="mailto:me@a.example">mailto:me@a.example</a></p>\n'
    )


@pytest.mark.parametrize(
    "text",
    [
        "a <script>alert(1)</script>",
        "<script>\nalert(1)\n</script>",
        "<b onclick=x>y</b>",
        "<!-- x -->",
        "<?php x ?>",
        "<img src=x onerror=alert(1)>",
        "[x](javascript:alert(1))",
        "[x](JaVaScRiPt:alert(1))",
        "[x](&#106;avascript:alert(1))",
        "[x](java\\script:alert(1))",
        "[x](data:text/html,x)",
        "[x](vbscript:x)",
        "[x](file:///etc/passwd)",
        "[x](//other.example)",
        "[x](revisions.html)",
        "[x](#top)",
        "[x]\n\n[x]: javascript:alert(1)",
        "<javascript:alert(1)>",
        "![x](https://a.example/x.png)",
        "![x](data:image/svg+xml,x)",
        "```html\n<b>\n```",
        "    code",
        "> said",
        "***",
        "### deep",
        "- a\n  - b\n    - c\n      - d",
        "a\x00b",
        "a\x1bb",
        "a&#12;b",
        "a\ufffe",
        "gpj.\u202egnp",
        "gpj.&#x202e;gnp",
        "gpj.&#8238;gnp",
        "*a&#x2067;b*",
        "# a&#x202a;b",
        "|a&#x2066;b|\n|---|",
        "[a&#x202C;b](https://a.example)",
        "[a](https://a.example 'a&#x202e;b')",
        "[a](https://a.example 'a&#12;b')",
    ],
)
def test_what_else_is_in_markdown_is_refused_with_its_line(text: str) -> None:
    with pytest.raises(BadMarkdown, match=r"^line 3: |^line [4-9]: "):
        html_of(f"fine\n\n{text}")


class Elements(HTMLParser):
    """The elements of a page with their attributes."""

    def __init__(self, text: str) -> None:
        super().__init__()
        self.found: set[tuple[str, tuple[str, ...]]] = set()
        self.feed(text)

    def handle_starttag(self, tag: str, attrs: list[tuple[str, Optional[str]]]) -> None:
        self.found.add((tag, tuple(name for name, _ in attrs)))


def test_what_looks_like_markup_stays_a_text() -> None:
    """Entities, escapes, an attribute within an address, and a title that would end its attribute."""
    texts = [
        "&lt;script&gt;alert(1)&lt;/script&gt; &#60;b&#62;",
        "\\<script>alert(1)\\</script>",
        "`<script>alert(1)</script>`",
        '[x](https://a.example/"onmouseover="alert(1))',
        "[x](https://a.example '\"><script>alert(1)</script>')",
        "[<x](https://a.example)",
        "|&lt;b&gt;|\n|---|\n|`<i>`|",
    ]
    allowed = {"p", "a", "code", "table", "thead", "tbody", "tr", "th", "td", "div"}
    for text in texts:
        found = Elements(html_of(text)).found
        assert {tag for tag, _ in found} <= allowed, text
        assert {name for _, names in found for name in names} <= {"href", "title", "class", "tabindex"}, text
        html5lib.HTMLParser(strict=True).parseFragment(html_of(text))  # type: ignore[no-untyped-call]


def test_a_mark_that_an_arabic_text_needs_is_taken() -> None:
    """U+200F reaches only its neighbours: without it the figures would be those of the Latin word."""
    assert html_of("COICOP 2018: \u200f309 &rlm;") == "<p>COICOP 2018: \u200f309 \u200f</p>\n"


def test_a_file_that_is_no_text_is_refused(tmp_path: Path) -> None:
    path = tmp_path / "coverage.md"
    for data, said in ((b"a\xff", "byte 2 isn't UTF-8"), (b"a" * 100_001, "100001 bytes"), (b"<b>", "line 1: HTML")):
        path.write_bytes(data)
        with pytest.raises(BadMarkdown, match=re.escape(f"{path}: {said}")):
            read_markdown(path)
    path.write_bytes(b"\xef\xbb\xbfHi\r\n")
    assert read_markdown(path) == "<p>Hi</p>\n"


# ---- the folder


def png(width: int = 80, height: int = 20) -> bytes:
    """A picture without a colour, by the format's own rules."""
    rows = b"".join(b"\0" + b"\0" * width for _ in range(height))
    head = struct.pack(">IIBBBBB", width, height, 8, 0, 0, 0, 0)
    parts = ((b"IHDR", head), (b"IDAT", zlib.compress(rows)), (b"IEND", b""))
    chunks = (
        struct.pack(">I", len(part)) + name + part + struct.pack(">I", zlib.crc32(name + part)) for name, part in parts
    )
    return b"\x89PNG\r\n\x1a\n" + b"".join(chunks)


def folder_of(top: Path, files: dict[str, str]) -> Path:
    """A folder of sections by their paths."""
    for name, text in files.items():
        path = top / "about" / name
        path.parent.mkdir(parents=True, exist_ok=True)
        path.write_text(text, encoding="utf-8")
    return top / "about"


def test_each_language_says_what_it_lacks(tmp_path: Path) -> None:
    folder = folder_of(tmp_path, {f"en/{section.file}": "Text." for section in SECTIONS if section.name != "sample"})
    folder_of(tmp_path, {"fr/coverage.md": " \n", "fr/sample.md": "Texte."})
    first, second = read_own_words(folder, ("en", "fr")).lacking()
    wanted = "how outlets and items are chosen, and how many prices a month has"
    assert first == f"{folder}/en lacks sample.md ({wanted})"
    assert second.startswith(f"{folder}/fr lacks coverage.md (whose spending,") and "sample" not in second
    assert "weights.md (their source, their year, and whether the index is of Lowe's or Young's kind)" in second
    (line,) = read_own_words(folder, ("ar",)).lacking()
    assert line.count(".md (") == 7


@pytest.mark.parametrize(
    ("files", "said"),
    [
        ({"coverage.md": "x"}, "coverage.md is neither logo.png nor the folder of a language: "),
        ({"xx/coverage.md": "x"}, "xx is neither"),
        ({"en/cover.md": "x"}, "en/cover.md is no section; they are coverage.md, weights.md, "),
        ({"en/coverage.md": "a\n\n<b>"}, "en/coverage.md: line 3: HTML isn't taken"),
        ({"fr/coverage.md": "<b>"}, "fr/coverage.md: line 1: HTML isn't taken"),
        ({".hidden": "x"}, "about has neither a folder such as en nor logo.png"),
        ({}, "about"),
    ],
)
def test_another_folder_is_refused(tmp_path: Path, files: dict[str, str], said: str) -> None:
    folder = folder_of(tmp_path, files)
    (tmp_path / "office.ini").write_text(OFFICE, encoding="utf-8")
    with pytest.raises((BadOwnWords, BadMarkdown)) as fault:
        read_config(tmp_path / "office.ini")
    assert str(folder) in str(fault.value) and said in str(fault.value) and "\n" not in str(fault.value)


def test_a_logo_is_a_whole_picture(tmp_path: Path) -> None:
    path, data = tmp_path / "logo.png", png()
    path.write_bytes(data)
    assert read_logo(path)[1:] == (80, 20) and read_logo(path).shown_size == (160, 40)
    path.write_bytes(png(3000, 100))
    assert read_logo(path).shown_size == (240, 8)
    for bad in (b"", b"<svg/>", data[:-1], data + b"x", data[:20] + b"x" + data[21:], png(5000, 1), png(1, 0)):
        path.write_bytes(bad)
        with pytest.raises(BadLogo):
            read_logo(path)


# ---- the pages


@pytest.fixture(scope="module")
def site(published: list[Published], tmp_path_factory: pytest.TempPathFactory) -> Path:
    """The site of an office that says all in English but the response, and in Arabic the coverage, with a logo of its own."""
    top = tmp_path_factory.mktemp("words")
    files = {
        f"en/{section.file}": f"# Head\n\nOur *{section.name}*." for section in SECTIONS if section.name != "response"
    }
    folder = folder_of(top, {**files, "ar/coverage.md": "نطاق"})
    (folder / "logo.png").write_bytes(png())
    (folder / "ar/logo.png").write_bytes(png(20, 20))
    (top / "office.ini").write_text(f"{OFFICE}languages = en, ar\n", encoding="utf-8")
    publish(published[:4], read_config(top / "office.ini"), top / "public", None, lambda _: None)
    return top / "public"


def test_the_page_of_the_method_has_the_sections(site: Path) -> None:
    page = (site / "method.html").read_text(encoding="utf-8")
    ids = re.findall(r'<h2(?: id="([a-z]+)")?>', page)
    assert [element for element in ids if element] == [
        "coverage",
        "weights",
        "sample",
        "revisions",
        "access",
        "contact",
    ]
    # (those of the index are before what the tool says, those of the office behind it)
    assert ids.index("sample") < ids.index("") < ids.index("revisions")
    assert "Access before a release Head Our access ." in words_of(site / "method.html")
    assert "<h3>Head</h3>\n<p>Our <em>weights</em>.</p>" in page
    assert "The office has no texts on these topics yet: Response." in words_of(site / "method.html")
    assert "another language" not in page


def test_a_language_that_lacks_a_section_says_so(site: Path) -> None:
    page = (site / "ar/method.html").read_text(encoding="utf-8")
    assert '<h2 id="coverage">نطاق التغطية</h2>\n<p>نطاق</p>' in page
    others = re.findall(r'<h2 id="([a-z]+)">[^<]+</h2>\n<p class="note">([^<]+)</p>\n<div lang="en" dir="ltr">', page)
    assert [element[0] for element in others] == ["weights", "sample", "revisions", "access", "contact"]
    assert {element[1] for element in others} == {"هذا النص متاح لدى المكتب بلغة أخرى فقط."}
    assert "ليس لدى المكتب نص بعد عن: الردود." in words_of(site / "ar/method.html")


def test_each_page_has_the_logo_of_its_language(site: Path) -> None:
    form = re.compile(r'<img src="([^"]+)" alt="" width="(\d+)" height="(\d+)"')
    for name in ("index.html", "method.html", "node/00.html", "release/2025-01-r1.html"):
        for folder, shown in (("", ("160", "40")), ("ar/", ("40", "40"))):
            (found,) = form.findall((site / folder / name).read_text(encoding="utf-8"))
            assert found[1:] == shown
            assert ((site / folder / name).parent / found[0]).resolve() == site / folder / "assets/logo.png"
    assert (site / "ar/assets/logo.png").read_bytes() == png(20, 20)


def test_pages_are_html(site: Path) -> None:
    for page in (site / "method.html", site / "ar/method.html", site / "index.html"):
        html5lib.HTMLParser(strict=True, namespaceHTMLElements=False).parse(page.read_bytes())


def test_without_a_folder_nothing_of_it_is_there(published: list[Published], tmp_path: Path) -> None:
    publish(published[:4], Config("NSO", "XX", "Office"), tmp_path / "public", None, lambda _: None)
    page = (tmp_path / "public/method.html").read_text(encoding="utf-8")
    assert " id=" not in page.partition("<main ")[2].partition(">")[2] and "<img" not in page
    assert not [*(tmp_path / "public").rglob("logo.png")]
    said = words_of(tmp_path / "public/method.html")
    assert "no texts on these" not in said and "follows the" not in said and "The Consumer Price Index Manual" in said


def test_another_text_writes_no_archive_anew(published: list[Published], tmp_path: Path) -> None:
    """What only a page says has no part in the archives of earlier years."""
    sums = []
    for text in ("One.", "Two."):
        folder_of(tmp_path, {"en/coverage.md": text})
        (tmp_path / "office.ini").write_text(f"{OFFICE}years = 1\n", encoding="utf-8")
        publish(published, read_config(tmp_path / "office.ini"), tmp_path / "public", None, lambda _: None)
        sums.append((tmp_path / "public/data/years/made.json").read_bytes())
    assert sums[0] == sums[1] and "Two." in words_of(tmp_path / "public/method.html")


def test_the_example_says_all_in_each_of_its_languages() -> None:
    folder = ROOT / "examples/national/about"
    words = read_own_words(folder, ("en", "fr", "es", "ar"))
    assert not [*words.lacking()] and words.logo("es")
    # (a table of as many rows, and links to the same places, but for the folder of the language)
    for section in SECTIONS:
        texts = [text[section.name] for text in words.texts.values()]
        assert (
            len({(text.count("<tr>"), text.count("<li>"), text.count("<a "), text.count("<p>")) for text in texts}) == 1
        )
