"""Catalogues of texts in `po/`: made by Babel from what `po/babel.cfg` names, brought up to date, checked, and written as
what pages load.

English is the source. `po/cpi.pot` has each text once, and `po/LANG.po` its translation. A page has a folder in `web/`,
and its catalogue in a language is `languages/LANG.json` there: the texts of that page, and nothing of other places.
"""

from __future__ import annotations

import gettext
import html
import io
import json
import re
from collections.abc import Collection, Iterable, Iterator, Mapping, Sequence
from pathlib import Path
from typing import Any, NamedTuple, Optional

from babel import Locale, UnknownLocaleError
from babel.messages.catalog import Catalog, Message
from babel.messages.extract import check_and_call_extract_file
from babel.messages.frontend import parse_mapping
from babel.messages.plurals import PLURALS
from babel.messages.pofile import read_po, write_po
from babel.plural import to_gettext

from cpi_tools.text.others import OF, plain_name
from extractors import COMMENT, refused

SOURCE = "en"
WIDTH = 120
"""Columns of a line in a catalogue."""

KEYWORDS: Mapping[str, Any] = {
    "t": None,
    "tc": ((1, "c"), 2),
    "tn": (1, 2),
    "gettext": None,
    "pgettext": ((1, "c"), 2),
    "ngettext": (1, 2),
    "_": None,
    "message": None,
    "message_of": (1, 2),
    "mark_text": None,
    "mark_text_as": ((1, "c"), 2),
}
"""What functions take texts: a text, a context and a text, or the two forms of a count. `mark_text` only marks a
text."""

CONTEXT_ENDS = "\x04"
"""Between a context and its text, as in gettext's files."""

PLACE = re.compile(r"\{([A-Za-z_]+)\}|%\(([A-Za-z_]+)\)s")
"""A place of a text: `{month}` in a page, `%(month)s` in a template."""

TAG = re.compile(r"<[^>]*>")
"""A tag of a text that is a part of a page."""

COUNT = frozenset(("count", "num"))
"""The place of the count in a text with plural forms: of a page, of a template."""

COUNTS = (*range(1000), 10**6, 10**9)
"""Counts by which plural rules are compared."""

TEMPLATE_HEAD = """\
# Texts of Sabrethog that people read: the source of all catalogues. tools/pages makes this file.
# A catalogue of a new language: tools/pages --new LANG (docs/develop/CONTRIBUTING.md).
#"""

HEAD = """\
# {name} texts of Sabrethog.
#
# No national office has reviewed this catalogue yet. Send a correction as a change of this file, or as the English text
# and the one that you want, to the project's issues (CONTRIBUTING.md says where). A place such as {{month}} stays as it
# is, at the place where your language has it.
#"""


class Page(NamedTuple):
    """A page with catalogues: its folder, where its texts are, and those that it has of refusals."""

    folder: str
    sources: Sequence[str]
    refusals: Collection[str]

    def has(self, message: Message) -> bool:
        """Whether a text is the page's."""
        places = (place for place, _ in message.locations)
        return message.id in self.refusals or any(place.startswith(tuple(self.sources)) for place in places)


PAGES = (Page("web/collect", ("web/collect/", "web/shared/"), {*refused().values()}),)


class Bad(Exception):
    """A catalogue that can't be used: one line says which, and why."""


# ---- the source


def files_of(root: Path) -> Iterator[Path]:
    """The files that may have texts, in the order of their names."""
    for folder in ("web", "tools/cpi_tools"):
        paths = (path for path in (root / folder).rglob("*") if path.suffix in (".html", ".js", ".webmanifest", ".py"))
        yield from sorted(path for path in paths if path.is_file())


def template(root: Path) -> Catalog:
    """All texts of the source, by their places in the repository."""
    with (root / "po/babel.cfg").open(encoding="utf-8") as file:
        methods, options = parse_mapping(file)
    made = catalog_of(TEMPLATE_HEAD)
    for path in files_of(root):
        name = str(path.relative_to(root))
        rows: Iterable[Any] = check_and_call_extract_file(  # type: ignore[func-returns-value]  # (a generator)
            str(path), methods, options, None, dict(KEYWORDS), (COMMENT,), strip_comment_tags=True, dirpath=str(root)
        )
        for _, line, text, comments, context in rows:
            made.add(text, None, [(name, line)], auto_comments=comments, context=context)
    return made


def catalog_of(head: str) -> Catalog:
    """An empty template with a head."""
    return Catalog(header_comment=head, project="Sabrethog", version="", fuzzy=False)


def text_of(catalog: Catalog) -> str:
    """A catalogue as its file has it: without numbers of lines and the moment of making, which change with any edit."""
    made = io.BytesIO()
    write_po(made, catalog, width=WIDTH, ignore_obsolete=True, include_lineno=False)
    lines = made.getvalue().decode().splitlines(keepends=True)
    dated = (
        '"POT-Creation-Date:',
        '"PO-Revision-Date:',
        '"Last-Translator:',
        '"Generated-By:',
        '"Report-Msgid-Bugs-To:',
    )
    return "".join(line for line in lines if not line.startswith(dated))


# ---- translations


def codes(po: Path) -> list[str]:
    """The languages that have a catalogue, without the source."""
    return sorted(path.stem for path in po.glob("*.po"))


def read(po: Path, code: str) -> Catalog:
    """The catalogue of a language. Raises Bad if it can't be read."""
    path = po / f"{code}.po"
    try:
        with path.open("rb") as file:
            catalog: Catalog = read_po(file, locale=code, abort_invalid=True)
            return catalog
    except (OSError, ValueError, UnknownLocaleError) as fault:
        raise Bad(f"{path}: {fault}") from fault


def updated(catalog: Catalog, source: Catalog) -> str:
    """The text of a catalogue with the texts of the source, no more and no less; its translations stay."""
    catalog.update(source, no_fuzzy_matching=True)
    return text_of(catalog)


def fresh(code: str, source: Catalog) -> str:
    """The text of a catalogue without translations. Raises Bad if CLDR knows no such language."""
    try:
        locale = Locale.parse(code)
    except (ValueError, UnknownLocaleError) as fault:
        raise Bad(f"{code!r} is no language that CLDR knows: write it like pt, or zh_Hant") from fault
    head = HEAD.format(name=locale.get_display_name("en"))
    made = Catalog(locale=locale, header_comment=head, project="Sabrethog", version="", fuzzy=False)
    set_plural(made)
    made.update(source, no_fuzzy_matching=True)
    return text_of(made)


def set_plural(catalog: Catalog) -> None:
    """Gives a catalogue the plural forms that gettext's files have for its language; if those don't go by CLDR, as those of
    Portuguese, whose 0 goes with 1, the first of another language that do, of as many forms,
    or CLDR's own. Raises Bad if there are none."""
    own = (catalog.num_plurals, catalog.plural_expr)
    assert catalog.locale
    cldr: str = to_gettext(catalog.locale.plural_form)  # type: ignore[no-untyped-call]
    count, rule = re.findall(r"nplurals=(\d+); plural=(.*?);?$", cldr)[0]
    for number, expression in (own, *sorted(it for it in PLURALS.values() if it[0] == own[0]), (int(count), rule)):
        vars(catalog).update(_num_plurals=number, _plural_expr=expression)  # (Babel has no other way)
        try:
            if len(set(forms_by_category(catalog).values())) == number:
                return
        except Bad:
            continue
    raise Bad(f"no plural forms are known for {catalog.locale}: write the catalogue's head by hand")


def places(text: str) -> set[str]:
    """The places of a text."""
    return {name or other for name, other in PLACE.findall(text)}


def _parted(text: str, allowed: Collection[str]) -> set[str]:
    """The places of a translation; `{of_month}` is the place `{month}` with the word of its language before it, and
    `{Month}` the same with a capital letter."""
    names = {place if place in allowed else plain_name(place) for place in places(text)}
    return {name if name in allowed else name.removeprefix(OF) for name in names}


def faults(catalog: Catalog, source: Catalog) -> Iterator[str]:
    """What is wrong with a catalogue, each in a line: a text that is missing, one that is there for nothing or not sure,
    other places or tags than the source has, plural forms that aren't those of CLDR."""
    for message in source:
        if message.id:
            found = catalog.get(message.id, message.context)
            yield from faults_of_text(message, found, catalog.num_plurals)
    known = {(str(message.id), message.context) for message in source}
    yield from (f"{told(it)}: no page has it any more" for it in catalog if (str(it.id), it.context) not in known)
    try:
        forms_by_category(catalog)
    except Bad as bad:
        yield str(bad)


def told(message: Message) -> str:
    """A text as a line about it names it."""
    return repr(message.id[0] if isinstance(message.id, tuple) else message.id)


def faults_of_text(message: Message, found: Optional[Message], count: int) -> Iterator[str]:
    """What is wrong with the translation of a text."""
    forms = forms_of(found) if found else []
    if not found or not forms or not all(forms):
        yield f"{told(message)}: it isn't translated" + (", or not in each form" if any(forms) else "")
        return
    if found.fuzzy:
        yield f"{told(message)}: the translation is marked as not sure (fuzzy)"
    wanted = forms_of_source(message)
    if len(wanted) > 1 and len(forms) != count:
        yield f"{told(message)}: {len(forms)} plural forms, the language has {count}"
    needed, allowed = set.intersection(*map(places, wanted)), set.union(*map(places, wanted))
    if len(wanted) > 1:
        needed -= COUNT  # (a form of one count may say it in words)
    tags = sorted(TAG.findall(wanted[-1]))
    # (a script has no such places, and neither has a count in a template, which Jinja fills in)
    is_joined = not any(place.startswith("web/") for place, _ in message.locations) and (
        len(wanted) == 1 or "%(" not in wanted[-1]
    )
    for form in forms:
        if not needed <= (_parted(form, allowed) if is_joined else places(form)) <= allowed:
            yield f"{told(message)}: its places are {sorted(allowed)}, and the translation has {sorted(places(form))}"
        if sorted(TAG.findall(form)) != tags:
            yield f"{told(message)}: its tags are {tags}, and the translation has {sorted(TAG.findall(form))}"
        if '"' in TAG.sub("", form) and '"' not in TAG.sub("", wanted[-1]):
            yield f"{told(message)}: a quotation mark that could end an attribute; take those of the language"


def forms_of(message: Message) -> list[str]:
    """The translations of a text: one, or one for each plural form."""
    return list(message.string) if isinstance(message.string, (tuple, list)) else [message.string or ""]


def forms_of_source(message: Message) -> list[str]:
    """A text of the source: one, or the two forms of a count."""
    return list(message.id) if isinstance(message.id, (tuple, list)) else [message.id]


def forms_by_category(catalog: Catalog) -> dict[str, int]:
    """For each category of CLDR the number of the plural form that the catalogue has for it. Raises Bad if a form is of
    counts that CLDR tells apart, so that a page couldn't choose it."""
    assert catalog.locale
    rule, form = catalog.locale.plural_form, form_of(catalog.plural_expr)
    forms: dict[str, int] = {}
    for count in COUNTS:
        category = rule(count)
        if forms.setdefault(category, form(count)) != form(count):
            raise Bad(f"Plural-Forms: {count} has another form than others of CLDR's category {category}")
    forms.setdefault("other", max(forms.values()))
    return forms


def form_of(expression: str) -> Any:
    """The plural form of a count by the expression of a catalogue, which is C."""
    try:
        return gettext.c2py(expression)  # type: ignore[attr-defined]
    except ValueError as fault:
        raise Bad(f"Plural-Forms: {fault}") from fault


# ---- what pages load


def of_page(catalog: Catalog, page: Page) -> str:
    """The catalogue of a page, as JSON: the code, the plural forms by CLDR's categories, and the texts by their names."""
    texts: dict[str, Any] = {}
    for message in catalog:
        if message.id and page.has(message):
            name = forms_of_source(message)[0]
            forms = forms_of(message)
            texts[f"{message.context}{CONTEXT_ENDS}{name}" if message.context else name] = (
                forms if isinstance(message.id, tuple) else forms[0]
            )
    assert catalog.locale
    content = {"code": tag_of(catalog.locale), "plural": forms_by_category(catalog), "texts": texts}
    return json.dumps(content, ensure_ascii=False, indent=0) + "\n"


def tag_of(locale: Locale) -> str:
    """The tag of a language for HTML and Intl, `zh-Hant` (BCP 47)."""
    return str(locale).replace("_", "-")


LIST_HEAD = """\
// The languages of the pages: code, name in the language itself, and direction. tools/pages makes this file of po/ and
// of CLDR.

"""


def listed(languages: Iterable[str]) -> str:
    """The module with the list of languages, the source first, then by name."""
    rows = [Locale.parse(code) for code in (SOURCE, *languages)]
    named = [(tag_of(locale), locale.get_display_name() or "", str(locale.text_direction)) for locale in rows]
    lines = [json.dumps({"code": code, "name": name, "dir": way}, ensure_ascii=False) for code, name, way in named]
    return f"{LIST_HEAD}export const LANGUAGES = [\n" + "".join(f"  {line},\n" for line in lines) + "];\n"


REFUSED_HEAD = """\
// What the page says of a refusal, by its number. tools/pages makes this file of tools/cpi_tools/office/refusals.py.

"""


def refusals() -> str:
    """The module with the sentences of refusals."""
    lines = (f"  {number}: {json.dumps(text, ensure_ascii=False)},\n" for number, text in refused().items())
    return f"{REFUSED_HEAD}export const REFUSED = {{\n{''.join(lines)}}};\n"


def manifest(text: str, catalog: Catalog) -> str:
    """A manifest in a language (W3C Web Application Manifest): its names, language and direction."""
    assert catalog.locale
    source: dict[str, Any] = json.loads(text)
    names = {name: forms_of(catalog.get(source[name]) or Message(""))[0] for name in ("name", "short_name")}
    language = {"lang": tag_of(catalog.locale), "dir": catalog.locale.text_direction}
    return (
        json.dumps({**names, **language, **{k: v for k, v in source.items() if k not in names}}, ensure_ascii=False)
        + "\n"
    )


IN_ALL = re.compile(
    r"(<noscript>|<section [^>]*data-all>.*?)(<p class=\"([^\"]*)\" data-t>([^<]*)</p>)[^\n]*?(</noscript>|\n)", re.S
)


def in_all_languages(text: str, catalogs: Iterable[Catalog]) -> str:
    """A page whose words for a browser without scripts, and in a section `data-all`, are in all languages, since nothing
    can choose one there."""

    def in_all(match: re.Match[str]) -> str:
        begin, source, kind, words, end = match.groups()
        lines = [source]
        for catalog in catalogs:
            message, locale = catalog.get(words), catalog.locale
            assert locale
            if message and message.string:
                way, told = locale.text_direction, html.escape(forms_of(message)[0])
                lines.append(f'<p class="{kind}" lang="{tag_of(locale)}" dir="{way}">{told}</p>')
        return begin + "".join(lines) + end

    return IN_ALL.sub(in_all, text)
