"""HTML pages from templates: every text is escaped, and a page needs no network.

All pages extend `templates/base.html`, with `templates/style.css`. A tool with templates of its own names their folder,
which is searched first.

The texts of a template, in the language of its environment, are put into it when it is compiled.

A pack contains thousands of pages, each with dozens of texts, and all pages of an environment are in one language. So a
text costs nothing when a page is written; only plural forms are chosen then.
"""

from __future__ import annotations

import re
from collections.abc import Callable, Mapping, MutableMapping, Sequence
from functools import lru_cache, partial
from pathlib import Path
from types import CodeType
from typing import Any, Optional

import jinja2
from jinja2 import nodes
from jinja2.bccache import Bucket
from jinja2.ext import InternationalizationExtension
from markupsafe import Markup

from . import exact
from .others import OF, apart, begin_line, is_begun, isolate, of, others, plain_name
from .languages import ENGLISH, LATIN, Language
from .terminal import Fault, because_of, month_name
from .text_files import in_place_of

TEMPLATES = Path(__file__).resolve().parent / "templates"

NO_FIGURE = "\u2013"
"""The text that a page shows for a missing value."""


def percent(change: Optional[int]) -> str:
    """`+0.3 %` for 3 tenths of a percent, or a dash if there is no change."""
    return NO_FIGURE if change is None else f"{exact.with_sign(exact.tenths(change))}\u202f%"


def size(change: int) -> str:
    """The size of a change in tenths of a percent, such as `0.3`, without its sign."""
    return exact.tenths(abs(change))


FILTERS: Mapping[str, Callable[..., Any]] = {
    "percent": percent,
    "size": size,
    "points": exact.points,
    "month_name": month_name,
    "others": others,
    "isolated": isolate,
    "of": of,
    "begun": begin_line,
}
"""The filters with which the templates of any tool write figures and texts of others."""


def style() -> Markup:
    """The style of all pages as one text, for a page that is a single file."""
    return Markup((TEMPLATES / "style.css").read_text(encoding="utf-8"))


class Compiled(jinja2.BytecodeCache):
    """The code of the templates that this process compiled, by their files and contents. Compiling a template takes longer
    than writing a page of it, and a process may make many environments."""

    def __init__(self) -> None:
        self._codes: dict[tuple[str, str], CodeType] = {}

    def load_bytecode(self, bucket: Bucket) -> None:
        """Gives a template its code, if the code is known."""
        bucket.code = self._codes.get((bucket.key, bucket.checksum))

    def dump_bytecode(self, bucket: Bucket) -> None:
        """Keeps the code of a template."""
        assert bucket.code
        self._codes[bucket.key, bucket.checksum] = bucket.code


@lru_cache(maxsize=16)
def compiled_in(language: Language, digits: str) -> Compiled:
    """The code of templates whose texts are in a language, and their figures in a system of digits. The code contains
    both: texts, and the results of filters for constants."""
    return Compiled()


class Templates(jinja2.Environment):
    """Templates that take the globals as they are when they are loaded: a pack has thousands of pages, and a mapping of
    two mappings costs each of them as much as all of its texts."""

    def make_globals(self, d: Optional[MutableMapping[str, Any]]) -> MutableMapping[str, Any]:
        """The globals of a template."""
        return {**self.globals, **(d or {})}


def environment(own: Sequence[Path] = (), language: Language = ENGLISH, digits: str = LATIN) -> jinja2.Environment:
    """The templates of a tool, whose own are in folders that are searched first; a name that isn't passed in is a
    fault. A text in `{% trans %}` or `_()` is translated to the language. An added filter must give the same result for
    a constant in all environments of a language and a system of digits."""
    folders = [*own, TEMPLATES]
    made = Templates(
        loader=jinja2.FileSystemLoader([str(folder) for folder in folders]),
        autoescape=True,
        undefined=jinja2.StrictUndefined,
        trim_blocks=True,
        lstrip_blocks=True,
        auto_reload=False,
        bytecode_cache=compiled_in(language, digits),
        extensions=[Inlined],
    )
    made.install_gettext_callables(language.gettext, language.ngettext, newstyle=True)  # type: ignore[attr-defined]
    made.policies["ext.i18n.trimmed"] = True
    made.globals["language"] = language
    made.filters.update(FILTERS)
    made.filters["apart"] = partial(apart, direction=language.dir)
    made.globals["style"] = style
    return made


PAGE_BEGINS = b"<!DOCTYPE html>"


def refuse_other_files(to: Path) -> None:
    """Raises Fault if a file other than a page exists at that place, so that a mistyped name doesn't overwrite it."""
    try:
        with to.open("rb") as file:
            is_page = file.read(len(PAGE_BEGINS)) == PAGE_BEGINS
    except FileNotFoundError:
        return
    except OSError as fault:
        raise Fault(because_of(fault)) from fault
    if not is_page:
        raise Fault(f"{to} is there already, and is no page: give the page a name of its own")


def write_page(pages: jinja2.Environment, template: str, to: Path, **named: object) -> None:
    """Writes a page of a template, whole or not at all."""
    text = pages.get_template(template).render(**named)
    beside = to.with_name(f".{to.name}.part")
    with in_place_of(to, beside):
        beside.write_bytes(text.encode())


PLACE = re.compile(r"%\(([A-Za-z_]+)\)s")


class Inlined(InternationalizationExtension):
    """`{% trans %}` of Jinja, for the language that the environment has as its global `language`."""

    def _make_node(
        self,
        singular: str,
        plural: Optional[str],
        context: Optional[str],
        variables: dict[str, nodes.Expr],
        plural_expr: Optional[nodes.Expr],
        vars_referenced: bool,
        num_called_num: bool,
    ) -> nodes.Output:
        """The parts of a text: the texts in the catalogue, and the expressions of its places."""
        if plural_expr is not None:
            return super()._make_node(
                singular, plural, context, variables, plural_expr, vars_referenced, num_called_num
            )
        language = self.environment.globals["language"]
        assert isinstance(language, Language)
        # (without places a text has its percent signs once, in the catalogue too)
        source = singular if vars_referenced else singular.replace("%%", "%")
        text = language.gettext(source) if context is None else language.pgettext(context, source)
        parts = PLACE.split(text) if vars_referenced else [text]
        return nodes.Output([
            _place(variables, part) if at % 2 else nodes.TemplateData(part.replace("%%", "%") if vars_referenced else part)
            for at, part in enumerate(parts)
        ])  # fmt: skip


def _place(variables: Mapping[str, nodes.Expr], name: str) -> nodes.Expr:
    """The value of a place in a text; with the word before it, if the language joins the two, and with a capital
    letter, if the text begins with it."""
    if name in variables:
        return variables[name]
    if is_begun(name):
        return nodes.Filter(_place(variables, plain_name(name)), "begun", [], [], None, None)
    return nodes.Filter(variables[name.removeprefix(OF)], "of", [], [], None, None)
