"""The languages of a site: where the pages of each are, the ways between them, and how they say figures."""

from __future__ import annotations

from collections.abc import Callable, Sequence
from functools import partial
from typing import Any, NamedTuple, Optional

from ...office.tables import Row
from ...text.exact import Ratio, decimal, points, tenths, with_sign
from ...text.languages import SPEAKS_ENGLISH, Speech
from ...text.page_templates import NO_FIGURE


# ==== figures in the words of a language: filters for the templates of a pack, besides the filters of all pages


def pp(value: Optional[Ratio], digits: int = 2, speech: Speech = SPEAKS_ENGLISH) -> str:
    """Percentage points as `+0.31`, or a dash."""
    return NO_FIGURE if value is None else speech.figure(with_sign(decimal(value.over, value.under, digits)))


def write_change(speech: Speech, change: Optional[int]) -> str:
    """`+0.3 %` of a change of 3 tenths of a percent, or a dash."""
    return NO_FIGURE if change is None else speech.percent(with_sign(tenths(change)))


def share(row: Row, whole: Row) -> str:
    """A weight in percent of all items, with two decimals."""
    return decimal(100 * row.weight, whole.weight, 2)


def page_of(code: str) -> str:
    """The name of a node's page."""
    return f"{code}.html"


def filters_of(speech: Speech) -> dict[str, Callable[..., Any]]:
    """A name for each filter, in a language."""
    return {
        "figure": speech.figure,
        "whole": speech.whole,
        "percent": partial(write_change, speech),
        "share": speech.share,
        "in_percent": speech.percent,
        "size": lambda change: speech.figure(tenths(abs(change))),
        "sign": lambda text: speech.figure(with_sign(text)),
        "points": lambda millionths, digits: speech.figure(points(millionths, digits)),
        "pp": partial(pp, speech=speech),
        "month_name": speech.month,
        "year": speech.year,
        "inner": speech.inner,
        "page": page_of,
    }


# ==== the languages of a site: where the pages of each are, and the ways between them
#
# The first language has the folder of the pack, so that the addresses of its pages are those that were published before
# there was another. Each further one has a folder that is named by its tag, such as `fr/`, with the same names of pages
# in it. Data, tables, sums and styles are in the folder of the pack only.


class Version(NamedTuple):
    """The pages in a language: its tag (BCP 47), the direction of its script, its own name, and its folder in the pack,
    which is empty or ends with a slash."""

    tag: str
    dir: str
    name: str
    folder: str

    @property
    def up(self) -> str:
        """The way from its folder to the folder of the pack."""
        return "../" if self.folder else ""

    def standing(self, root: str, here: str, path: str) -> dict[str, object]:
        """The place of a page, for its template: `root` leads from it to the folder of its version, `top` to that of
        the pack, and `page_path` from the first one to the page."""
        top = root + self.up
        return {"root": root, "top": top, "here": here, "style_at": f"{top}assets/style.css", "page_path": path}


def versions_of(speeches: Sequence[Speech]) -> list[Version]:
    """The versions of a site in some languages, the first of which has the folder of the pack; none of a site that has
    one language."""
    if len(speeches) < 2:
        return []
    return [_version(speech, is_first=at == 0) for at, speech in enumerate(speeches)]


def _version(speech: Speech, is_first: bool) -> Version:
    from babel import Locale  # (its package is needed only if there is another language than English)

    tag, way = speech.language.tag, speech.language.dir
    return Version(tag, way, Locale.parse(tag, sep="-").get_display_name() or tag, "" if is_first else f"{tag}/")


ALONE = Version("", "", "", "")
"""The version of a site that has no other."""
