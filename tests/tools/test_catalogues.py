"""The catalogues of languages: no text is outside of them, and each is whole."""

from __future__ import annotations

import ast
import functools
import re
import shutil
import subprocess
import sys
from collections.abc import Iterable, Iterator, Mapping
from html.parser import HTMLParser
from pathlib import Path
from typing import Any, Optional

import pytest
from babel.messages.catalog import Catalog, Message
from babel.messages.jslexer import Token, tokenize

from lib.places import ROOT

sys.path.insert(0, str(ROOT / "tools"))

import catalogues  # noqa: E402
from cpi_tools.sheets.sheet_numbers import NAMES as NAMES_OF_MONTHS  # noqa: E402
from cpi_tools.text.languages import speech_of  # noqa: E402

LANGUAGES = catalogues.codes(ROOT / "po")


@functools.cache
def source() -> Catalog:
    """The texts of all sources."""
    template: Catalog = catalogues.template(ROOT)
    return template


# ---- the spaces of French


SPACES: Mapping[str, str] = {":": "\u00a0", "»": "\u00a0", **dict.fromkeys(";?!%", "\u202f")}
"""By mark, the space before it in French: one that doesn't break, and a narrow one except before a colon and within
quotation marks (Lexique des règles typographiques en usage à l'Imprimerie nationale)."""

BEFORE_MARKS = re.compile(r"(.)([:»;?!]|%(?![(\w]))(?=[^\w/]|$)")
"""A mark with the character before it; a colon in a moment or an address isn't one, nor is the sign of a place."""

ENTITY = re.compile("&[a-z]+;")
"""A character of a page by its name, with a semicolon of its own."""


def wrong_spaces(text: str) -> list[str]:
    """The marks of a French text with another space before them, and the quotation marks with another one after."""
    plain = ENTITY.sub("\u00a0", text)
    wrong = [match[0] for match in BEFORE_MARKS.finditer(plain) if match[1] != SPACES[match[2]]]
    return wrong + re.findall("«[^\u00a0]", plain)


def test_french_has_one_rule_for_the_spaces_before_its_marks() -> None:
    french = catalogues.read(ROOT / "po", "fr")
    forms = [form for message in french if message.id for form in catalogues.forms_of(message)]
    assert len(forms) > 1000
    assert {form: wrong for form in forms if (wrong := wrong_spaces(form))} == {}
    assert speech_of("fr").percent("2.2")[3:] == f"{SPACES['%']}%"


def test_a_wrong_space_is_found() -> None:
    right = "à 09:30\u00a0: 2,2\u202f% ou «\u00a0rien\u00a0»\u202f? %(month)s&nbsp;=&nbsp;100, https://a.example"
    assert wrong_spaces(right) == []
    assert wrong_spaces("un : deux; trois\u00a0% « quatre »") == [" :", "x;", "\u00a0%", " »", "« "]


# ---- no text is outside


def kept_scripts() -> list[Path]:
    """The scripts that a phone keeps, those of notes and questions too, without those that `tools/pages` makes of other
    files."""
    text = (ROOT / "web/collect/sw.js").read_text(encoding="utf-8")
    names = re.findall(r'"((?:\.\./shared/)?[a-z-]+\.js)"', text.partition("];")[0])
    assert len(names) > 20
    made = ("refused.js", "../shared/languages.js")
    notes = [path for begin in ("note", "question") for path in sorted((ROOT / "web/collect").glob(f"{begin}*.js"))]
    assert len(notes) > 12
    return [ROOT / "web/collect" / name for name in names if name not in made] + notes


TEXT = re.compile(r"[A-Za-z\u2019]{2,} [A-Za-z{]|^[A-Z][a-z]")
"""A string that looks like a text: two words, or one with a capital letter."""

NO_TEXTS = {"Enter", "QuotaExceededError", "Content-Type", "Retry-After", "why good", "why bad", "actions gone"}
NO_TEXTS |= {"note-about note-fault", "answer-about answer-fault", "still asks"}
"""Names of keys, errors and fields of HTTP, and classes, which no reader sees."""


def strings_of(script: str) -> Iterator[tuple[Token, str, str]]:
    """Each string of a script, with its text, and the function of whose call it is an argument, or none."""
    calls: list[str] = []
    before: Optional[Token] = None
    tokens: Iterable[Token] = tokenize(script, jsx=False, dotted=False)  # type: ignore[func-returns-value]  # (it yields)
    for token in tokens:
        if token.value == "(":
            calls.append(before.value if before and before.type == "name" else "")
        elif token.value == ")" and calls:
            calls.pop()
        elif token.type in ("string", "template_string"):
            yield token, token.value[1:-1], calls[-1] if calls else ""
        if "comment" not in token.type:
            before = token


def outside(script: str) -> list[str]:
    """The texts of a script that are in no catalogue: those in no call of t, tc or tn, and the calls that no extractor finds,
    within a template string."""
    outside = []
    for token, text, function in strings_of(script):
        if token.type == "template_string" and re.search(r"\bt[cn]?\(", text):
            outside.append(f"line {token.lineno}: a call in a template string: {text}")
        elif function not in ("t", "tc", "tn") and TEXT.search(text) and text not in NO_TEXTS:
            outside.append(f"line {token.lineno}: {text}")
    return outside


@pytest.mark.parametrize("path", kept_scripts(), ids=lambda path: f"{path.parent.name}/{path.name}")
def test_each_text_of_a_script_is_in_the_catalogues(path: Path) -> None:
    assert outside(path.read_text(encoding="utf-8")) == []


def test_a_text_outside_of_the_catalogues_is_found() -> None:
    script = 'make("p", {}, "Two words"); make("p", {}, t("Two words")); make("b", {}, `${count} left over`, "Stored");'
    assert outside(script) == ["line 1: Two words", "line 1: ${count} left over", "line 1: Stored"]
    assert outside('const a = `${t("Two words")}!`;') == ['line 1: a call in a template string: ${t("Two words")}!']


class Unmarked(HTMLParser):
    """The texts of a page that aren't marked."""

    def __init__(self) -> None:
        super().__init__()
        self.found: list[str] = []
        self._open: list[tuple[str, bool]] = []

    def handle_starttag(self, tag: str, attrs: list[tuple[str, Optional[str]]]) -> None:
        has = dict(attrs)
        names = (has.get("data-t") or "text").split() if "data-t" in has else []
        for name in has:
            is_read = name in ("aria-label", "placeholder", "title", "alt") and re.search(
                "[A-Za-z]{2}", has[name] or ""
            )
            if is_read and name not in names:
                self.found.append(f"{tag} {name}: {has[name]}")
        if tag not in ("meta", "link", "input"):
            self._open.append(
                (tag, "text" in names or tag in ("script", "style") or bool(has.get("lang") and tag == "p"))
            )

    def handle_endtag(self, tag: str) -> None:
        assert self._open.pop()[0] == tag

    def handle_data(self, data: str) -> None:
        if re.search(r"[A-Za-z]{2}", data) and not any(is_marked for _, is_marked in self._open) and data != "EN":
            self.found.append(data.strip())


def unmarked(page: str) -> list[str]:
    """The texts of a page, and of attributes that are read, which aren't marked as translated."""
    parser = Unmarked()
    parser.feed(page)
    return parser.found


@pytest.mark.parametrize("folder", [page.folder for page in catalogues.PAGES])
def test_each_text_of_a_page_is_marked(folder: str) -> None:
    assert unmarked((ROOT / folder / "index.html").read_text(encoding="utf-8")) == []


def test_a_text_that_is_not_marked_is_found() -> None:
    page = (ROOT / "web/collect/index.html").read_text(encoding="utf-8")
    assert unmarked(page.replace('<span id="month">', '<span id="month">Some month')) == ["Some month"]
    assert unmarked(page.replace(' data-t="placeholder aria-label"', "")) == [
        "input placeholder: Item or shop", "input aria-label: Find an item, a unit or a shop"
    ]  # fmt: skip


TEMPLATES = sorted(
    path for folder in ("publish", "desk") for path in (ROOT / f"tools/cpi_tools/{folder}").glob("*/templates/*.html")
)
NOT_YET = set[str]()
"""Templates whose texts are in no catalogue yet: a list that only shrinks."""

OF_NO_LANGUAGE = re.compile(
    r"<(pre|script|style)\b.*?</\1>|<[^>]*>|&[a-z]+;|[\w.-]*\.(?:csv|xlsx|xml|json|px|html|zip)|https://doi\.org/"
    r"|\b(?:SDMX|CSV|ML|SVG|SHA|DataCite|PDF)\b",
    re.S,
)
"""What every language has: tags, what a machine reads, names of files and of forms of data."""

COLUMNS = re.compile(r'<th scope="row"><code>[a-z_, ]+</code></th>')
"""Columns of files, by their names."""

MARKED = re.compile(r"{% trans.*?%}.*?{% endtrans %}", re.S)
CODE = re.compile(r"{#.*?#}|{%.*?%}|{{.*?}}", re.S)
READ_OUT = re.compile(r'(?:aria-label|title|alt|placeholder)="([^"]*)"')


def left_in(template: str) -> list[str]:
    """The words of a template that stand in no catalogue: in elements, and in attributes that are read out."""
    text = CODE.sub("", MARKED.sub("", template))
    elements = [*READ_OUT.findall(text), OF_NO_LANGUAGE.sub(" ", COLUMNS.sub("", text))]
    return re.findall(r"[A-Za-z]{2,}", OF_NO_LANGUAGE.sub(" ", " ".join(elements)))


@pytest.mark.parametrize("path", TEMPLATES, ids=lambda path: f"{path.parents[1].name}/{path.stem}")
def test_each_text_of_a_template_is_marked(path: Path) -> None:
    found = left_in(path.read_text(encoding="utf-8"))
    assert found if path.stem in NOT_YET else found == []


def test_a_text_of_a_template_that_is_not_marked_is_found() -> None:
    template = '<p aria-label="Some {{ of }}">{% trans %}Stored{% endtrans %} left {{ it }}</p><pre>code</pre> cpi.csv'
    assert left_in(template) == ["Some", "left"]


CALLS = ("_", "message", "message_of", "columns", "heads", "mark_text", "of_others")
"""The functions whose strings catalogues have, and the one whose texts have no language."""

MODULES = sorted(
    path
    for path in (ROOT / "tools/cpi_tools/desk").glob("*/*.py")
    # (what a command prints, and what the log's file has, is English)
    if path.name not in ("serve_cli.py", "server.py", "desk_log.py", "supervisor_rows.py")
    and path.parent.name not in ("month", "keys")
)


def outside_of_python(module: str, others: Iterable[str] = ()) -> list[str]:
    """The texts of a module that are in no catalogue: strings of two words, but for docstrings, what such calls and
    `others` take, and what is written to the log or the journal."""
    tree, known = ast.parse(module), set[ast.AST]()
    for node in ast.walk(tree):
        called = node.func if isinstance(node, ast.Call) else None
        name = called.id if isinstance(called, ast.Name) else called.attr if isinstance(called, ast.Attribute) else ""
        is_docstring = isinstance(node, ast.Expr) and isinstance(node.value, ast.Constant)
        if name in (*CALLS, *others, "append", "warning") or is_docstring:
            known.update(ast.walk(node))
    texts = (node.value for node in ast.walk(tree) if isinstance(node, ast.Constant) and node not in known)
    return [
        text
        for text in texts
        if isinstance(text, str) and re.search("[A-Za-z]{2,} [A-Za-z]{2,}", text) and not NO_TEXT.search(text)
    ]


NO_TEXT = re.compile(
    r"^default-src |^<(?:svg|meta|input) |^\"/?><path |^record or step$|isn't as it was written|^refused by |^not carried out; it would be |^; $|^no reply$|^not sent$"
    r"|^\s*(?:BEGIN|CREATE|DELETE|INSERT|PRAGMA|SELECT|UPDATE) |^ (?:AND|FROM|IN|ORDER) | NOT NULL$"
    r"|^[a-z_]+ >?= (?:0|\?) AND |^\) ORDER BY "
)
"""What is no text of a page: a field of HTTP, markup, SQL, a heading of a file, why the application doesn't start, a
refusal's line in English, and names of states."""


@pytest.mark.parametrize("path", MODULES, ids=lambda path: str(path.stem))
def test_each_text_of_the_desk_s_application_is_in_the_catalogues(path: Path) -> None:
    assert outside_of_python(path.read_text(encoding="utf-8")) == []


OF_REPORTS = re.findall(
    r"^\[report: (tools/cpi_tools/(?!desk/)[a-z_/]+\.py)\]$", (ROOT / "po/babel.cfg").read_text(), re.M
)
"""The modules that make texts of reports and are no package of their own: those of take-in, and what all reports have."""

NO_TEXT_OF_REPORTS = re.compile(r"^body \{|^<[a-z!/]|^\"?><|^save it as \.xlsx without a password$")
"""A style, markup, and what a line on a terminal says."""

TERMINAL = ("Fault", "said_as")
"""The calls whose texts are for a terminal, in English."""


@pytest.mark.parametrize("path", OF_REPORTS, ids=lambda path: Path(path).stem)
def test_each_text_of_a_report_is_in_the_catalogues(path: str) -> None:
    months = {name for names in NAMES_OF_MONTHS.values() for name in names}
    outsides = outside_of_python((ROOT / path).read_text(encoding="utf-8"), TERMINAL)
    assert [outside for outside in outsides if outside not in months and not NO_TEXT_OF_REPORTS.search(outside)] == []


def test_the_modules_of_take_in_are_among_those_of_reports() -> None:
    names = {Path(path).stem for path in OF_REPORTS}
    assert names > {
        "cells",
        "judge",
        "office_files",
        "plan_rows",
        "price_cells",
        "row_refusals",
        "sheet_files",
        "taken_page",
    }


def test_a_text_of_python_outside_of_the_catalogues_is_found() -> None:
    module = (
        'def f():\n    """Says so."""\n    return _("Two words"), "two words", f"{x} are left", columns("one head")\n'
    )
    assert outside_of_python(module) == ["two words", " are left"]


# ---- each catalogue is whole


@pytest.mark.parametrize("language", LANGUAGES)
def test_a_catalogue_is_whole(language: str) -> None:
    catalog = catalogues.read(ROOT / "po", language)
    assert [*catalogues.faults(catalog, source())] == []
    assert "No national office has reviewed this catalogue yet. Send a correction" in catalog.header_comment
    assert len({str(message.id) for message in catalog if message.id}) > 150


def test_there_are_three_languages_besides_the_source() -> None:
    assert LANGUAGES == ["ar", "es", "fr"]
    arabic = catalogues.read(ROOT / "po", "ar")
    assert arabic.num_plurals == 6
    assert all(len(set(catalogues.forms_of(it))) > 1 for it in arabic if isinstance(it.id, tuple) and "count" in it.id[1]
               and it.id[1] not in ("{count} to check",))  # fmt: skip


def spoiled(text: str, string: Any, flags: Iterable[str] = ()) -> list[str]:
    """What is said of the French catalogue if the translation of a text is another one."""
    catalog = catalogues.read(ROOT / "po", "fr")
    message = catalog.get(text)
    assert message
    message.string = string
    message.flags |= {*flags}
    return [*catalogues.faults(catalog, source())]


def test_what_is_wrong_with_a_catalogue_is_said() -> None:
    assert spoiled("Sign in", "") == ["'Sign in': it isn't translated"]
    assert spoiled("Sign in", "Entrer", flags=("fuzzy",)) == [
        "'Sign in': the translation is marked as not sure (fuzzy)"
    ]
    assert spoiled("Slot {number}", "Série {numero}") == [
        "'Slot {number}': its places are ['number'], and the translation has ['numero']"
    ]
    assert spoiled("{count} found", ("un", "")) == ["'{count} found': it isn't translated, or not in each form"]
    assert spoiled("{count} found", ("un", "{count}", "{count}")) == [
        "'{count} found': 3 plural forms, the language has 2"
    ]
    assert spoiled("{count} found", ("un", "{count}")) == []
    assert spoiled("One line.", ("Une ligne.", "La liste %(of_lines)s lignes.")) == [
        "'One line.': its places are ['lines'], and the translation has ['of_lines']"
    ]
    link = 'The office signed it: <a href="check.html">how to check the signature</a>.'
    assert spoiled(link, "L’office l’a signé.") == [
        f"{link!r}: its tags are ['</a>', '<a href=\"check.html\">'], and the translation has []"
    ]
    assert spoiled("Sign in", 'Entrer "ici"') == [
        "'Sign in': a quotation mark that could end an attribute; take those of the language"
    ]
    catalog = catalogues.read(ROOT / "po", "fr")
    catalog.add("No page says so", "Rien")
    assert [*catalogues.faults(catalog, source())] == ["'No page says so': no page has it any more"]


def test_plural_forms_that_a_browser_could_not_choose_are_refused() -> None:
    catalog = catalogues.read(ROOT / "po", "fr")
    vars(catalog)["_plural_expr"] = "(n != 1)"  # (French counts 0 with 1, by CLDR)
    assert [*catalogues.faults(catalog, source())] == [
        "Plural-Forms: 1 has another form than others of CLDR's category one"
    ]


BY_HAND = {"ar": {"zero": 0, "one": 1, "two": 2, "few": 3, "many": 4, "other": 5}, "es": {"one": 0, "other": 1, "many": 1},
           "fr": {"one": 0, "other": 1, "many": 1}}  # fmt: skip
"""The form of each category, by the heads of the catalogues and CLDR's table of plural rules."""


@pytest.mark.parametrize("language", LANGUAGES)
def test_the_forms_of_counts_are_those_of_the_language(language: str) -> None:
    assert catalogues.forms_by_category(catalogues.read(ROOT / "po", language)) == BY_HAND[language]


# ---- another language


@pytest.fixture
def copied(tmp_path: Path) -> Path:
    """What tools/pages reads and writes, in a folder of its own."""
    for name in ("web", "po", "tools"):
        shutil.copytree(ROOT / name, tmp_path / name, ignore=shutil.ignore_patterns("__pycache__"))
    return tmp_path


def pages(root: Path, *words: str) -> subprocess.CompletedProcess[str]:
    return subprocess.run([root / "tools/pages", *words], capture_output=True, text=True, check=False)


def content(root: Path) -> dict[str, bytes]:
    """Each file, by its name."""
    paths = [path for path in root.rglob("*") if path.is_file() and "__pycache__" not in path.parts]
    return {str(path.relative_to(root)): path.read_bytes() for path in paths}


@pytest.mark.long
def test_a_new_language_is_one_file_that_somebody_translates(copied: Path) -> None:
    before = content(copied)
    made = pages(copied, "--new", "pt")
    assert (made.returncode, made.stdout) == (0, "po/pt.po: translate it, and run tools/pages again\n")
    after = content(copied)
    others = {"web/shared/languages.js", "web/collect/sw.js"}  # (the list of languages, and the version of the files)
    assert {name for name in after if after[name] != before.get(name)} == {
        "po/pt.po", "web/collect/languages/pt.json", "web/collect/manifest.pt.webmanifest", *others
    }  # fmt: skip
    checked = pages(copied, "--check")
    assert checked.returncode == 1
    assert "tools/pages: po/pt.po: 'Sign in': it isn't translated\n" in checked.stderr
    translate(copied / "po/pt.po")
    assert pages(copied).returncode == 0
    assert (copied / "web/collect/languages/pt.json").read_text().count("x Sign in x") == 1
    assert (pages(copied, "--check").returncode, pages(copied, "--check").stderr) == (0, "")


def translate(path: Path) -> None:
    """Writes some translation of each text into a catalogue."""
    catalog = catalogues.read(path.parent, path.stem)
    for message in catalog:
        if message.id:
            message.string = translation(message, catalog)
    path.write_text(catalogues.text_of(catalog), encoding="utf-8")


def translation(message: Message, catalog: Catalog) -> object:
    if isinstance(message.id, tuple):
        return (f"x {message.id[0]} x", *[f"x {message.id[1]} x"] * (catalog.num_plurals - 1))
    return f"x {message.id} x"


@pytest.mark.parametrize(
    ("word", "said"),
    [
        ("xx-none", "'xx-none' is no language that CLDR knows: write it like pt, or zh_Hant"),
        ("fr", "po/fr.po is there already"),
    ],
)
def test_a_language_that_can_not_be_made_is_one_line(copied: Path, word: str, said: str) -> None:
    ran = pages(copied, "--new", word)
    assert (ran.returncode, ran.stderr) == (1, f"tools/pages: {said}\n")


def test_a_language_that_is_gone_leaves_nothing(copied: Path) -> None:
    (copied / "po/es.po").unlink()
    told = pages(copied, "--check")
    assert "web/collect/languages/es.json is of a language without a catalogue: tools/pages removes it\n" in told.stderr
    assert pages(copied).returncode == 0
    assert not [name for name in content(copied) if re.search(r"\bes\.(json|webmanifest|po)", name)]
    assert pages(copied, "--check").returncode == 0


# ---- words that have to be exact


@pytest.mark.parametrize(
    ("language", "refusal", "silence"),
    [("ar", "رفض", "يجيب"), ("es", "nieg|negativa", "respond|respuesta"), ("fr", "refus", "répond")],
)
def test_a_shop_that_refuses_isnt_one_that_doesnt_answer(language: str, refusal: str, silence: str) -> None:
    """The reason `refused`, on the phone and in its list."""
    catalog = catalogues.read(ROOT / "po", language)
    for text in ("The shop refused", "Shop refused"):
        told = str(catalog[text].string).lower()
        assert re.search(refusal, told) and not re.search(silence, told), told
