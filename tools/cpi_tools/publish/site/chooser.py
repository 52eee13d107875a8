"""The page for choosing items, months and measures: its script, texts of scripts, and the file of each item."""

from __future__ import annotations

import json
import re
from collections.abc import Mapping, Sequence
from itertools import groupby
from pathlib import Path
from typing import Optional

from ...office.tables import Series, iso
from ...text import text_files
from ...text.exact import ALL_ITEMS
from ...text.languages import SOURCE, Speech, words_of
from ...text.others import close_isolates
from ..figures.config import PICTURES, Config
from ..figures.figures import GIVEN_MONTH, GIVEN_YEAR, MONTH_CHANGE, PROVISIONAL, YEAR_CHANGE, Known, Notes
from ..forms.manifest import NewFiles
from ..forms.pack_before import Before
from ..forms.tidy import HEAD, Lines, figure_row, write_ratio, write_rows


# ==== the texts of the site's scripts in a language other than English, and the way that language writes figures

SCRIPTS = "tools/cpi_tools/publish/site/"
"""The places of the scripts in the repository, by which the catalogues know their texts."""


def write_words(speech: Speech, folder: Path) -> None:
    """Writes `assets/words.js` into the folder of a language; scripts have English themselves."""
    tag = speech.language.tag
    if tag == SOURCE:
        return
    found, plural = words_of(tag.replace("-", "_"), SCRIPTS)
    texts = {
        source: speech.write_numbers(it) if isinstance(it, str) else [speech.write_numbers(form) for form in it]
        for source, it in found.items()
    }
    data = {"tag": tag, "digits": speech.digits, "signs": speech.signs, "plural": plural, "texts": texts}
    text = json.dumps(data, ensure_ascii=False, separators=(",", ":"))
    (folder / "assets" / "words.js").write_text(f"globalThis.WORDS = {text};\n", encoding="utf-8")


# ==== the page for choosing items, months and measures: its script, and the files of the site that it reads
#
# It asks for the file of each chosen item (`node/CODE.csv`), for that of its earlier revisions if it needs them
# (`node/CODE-earlier.csv`), and for the list of all items once somebody seeks one (`assets/items.json`). So a line
# costs a few kilobytes, whatever the site holds, and any server of files will do.

SOURCES = Path(__file__).resolve().parent / "choose"

OF_BOTH = ("elements", "choice", "lines", "files", "measured", "pointer", "picture", "shown")
MODULES = (*OF_BOTH, "figures", "picker", "drawing", "page")
"""The modules of the page's script, each after those that it imports."""

OF_FRAMES = (*OF_BOTH, "frame")
"""The scripts of the small page that other sites show in a frame."""

OF_PICTURES = (*OF_BOTH, "living")
"""The scripts of the pages that contain pictures from the beginning."""

OF_WORTH = ("elements", "choice", "lines", "files", "worth")
"""The scripts of the page that converts an amount of then into one of now."""

OF_HOUSEHOLD = (*OF_BOTH, "household")
"""The scripts of the page on which a household has an index of its own."""

OF_PAGES = {"frame": OF_FRAMES, "living": OF_PICTURES, "worth": OF_WORTH, "household": OF_HOUSEHOLD}
"""The modules of scripts, by the scripts' names, besides the modules of the page for choosing."""

SEARCH, TAKE, SPOKEN = (
    Path(__file__).resolve().parent / "assets" / name for name in ("search.js", "take.js", "spoken.js")
)
OTHERS = {SEARCH: "// ---- the page of all items\n", TAKE: "// ---- the pictures of a page\n"}
"""Scripts of other pages, and where each begins to show something: what is before that is taken."""

OTHERS_OF_PAGES: Mapping[str, Mapping[Path, str]] = {"living": {SPOKEN: 'if (typeof module !== "undefined")'}}
"""By the names of scripts the same of theirs, if they have any. A page that is only read doesn't load how texts are said, so
the script of its pictures has that in it."""

EMBED = "embed/chosen.html"
"""The small page."""

IMPORT = re.compile(r'^import \{[^}]*\} from "\.[a-z./]+\.js";\n', re.M)
EXPORT = re.compile(r"^export ", re.M)

EARLIER = "-earlier.csv"
"""The ending of the name of an item's file of earlier revisions."""

ITEM_HEAD = (*HEAD, "shown_month_change", "shown_year_change", "contribution_month", "contribution_year", "notes")
"""The columns of an item's file: the columns of cpi.csv, the changes as the pages show them, in percent, the item's
contributions to the changes in all items, in percentage points, and the letters of its notes."""


def script(modules: Sequence[str] = MODULES, others: Mapping[Path, str] = OTHERS) -> str:
    """All modules as one, so that the page costs one request for them; the first are parts of scripts of other pages, such
    as how the site finds items."""
    script = []
    for path, end in others.items():
        text, is_split, _ = path.read_text(encoding="utf-8").partition(end)
        assert is_split, path
        script.append(text)
    texts = ((SOURCES / f"{name}.js").read_text(encoding="utf-8") for name in modules)
    return "\n".join([*script, *(EXPORT.sub("", IMPORT.sub("", text)) for text in texts)])


def item_rows(known: Known, notes: Mapping[str, str], code: str) -> list[Sequence[object]]:
    """The rows of an item's file: its latest revision in each month; `notes` are its letters by month."""
    series, ends = known.series, item_ends(known, notes, code)
    rows = ((at, series.latest[month], series.row(month, code)) for at, month in enumerate(series.months))
    return [(*figure_row(series, table, row), *ends[at]) for at, table, row in rows if row]


def item_ends(known: Known, notes: Mapping[str, str], code: str, first: int = 0) -> list[tuple[str, ...]]:
    """The cells of ITEM_HEAD after those of HEAD, in all months, or from one on that is counted from 0."""
    months, is_whole = known.series.months[first:], code == ALL_ITEMS
    kinds = (MONTH_CHANGE, YEAR_CHANGE, *(() if is_whole else (GIVEN_MONTH, GIVEN_YEAR)))
    figures = [known.texts_from(kind, code, first) for kind in kinds]
    figures += _given_by_all(known, months) if is_whole else []
    return [*zip(*figures, (notes.get(month, "") for month in months))]


def _given_by_all(known: Known, months: Sequence[str]) -> list[list[str]]:
    """The contributions of all items to their own changes in some months: the changes before rounding, to which
    divisions add up. Other files have no such rows, since a sum trivially equals itself there."""
    found = [known.contributions.of(month, ALL_ITEMS, ALL_ITEMS) for month in months]
    return [[write_ratio(it.to_month, 6) for it in found], [write_ratio(it.to_year, 6) for it in found]]


def write_chooser(series: Series, folder: Path) -> None:
    """Writes what the page reads in each language besides the items' files, into the folder of a site that has its other
    folders."""
    (folder / "assets" / "choose.js").write_text(script(), encoding="utf-8")
    for name, modules in OF_PAGES.items():
        text = script(modules, OTHERS_OF_PAGES.get(name, {}))
        (folder / "assets" / f"{name}.js").write_text(text, encoding="utf-8")
    for code, rows in _earlier(series).items():
        write_rows(folder / "node" / f"{code}{EARLIER}", HEAD, rows)


def write_items(series: Series, folder: Path) -> None:
    """Writes the list of all items with their titles, into the folder of a language."""
    items = [[code, close_isolates(title)] for code, title in series.all_titles.items()]
    text = json.dumps(items, ensure_ascii=False, separators=(",", ":"))
    (folder / "assets" / "items.json").write_text(text, encoding="utf-8")


def _earlier(series: Series) -> Mapping[str, list[Sequence[object]]]:
    """By code, the rows of all tables that were revised later."""
    found: dict[str, list[Sequence[object]]] = {}
    for table in series.vintages:
        if series.latest[table.month] is not table:
            for code, row in table.rows.items():
                found.setdefault(code, []).append(figure_row(series, table, row))
    return found


def known_to_page(
    series: Series, config: Config, source: str, top: str = "", has_titles: bool = False
) -> dict[str, str]:
    """The data that the page needs before it reads a file, as attributes of its form: its first and its last month,
    the December before the first, the office's reference period, the moment of the last publication, how many
    revisions a month has at most, the line at the foot of a picture, and the small page that shows one in a frame,
    if there are files of pictures; the way to the folder of the pack, if it has another one, and whether titles of
    its language are in the list of items only."""
    return {
        **({"top": top} if top else {}),
        **({"titles": "listed"} if has_titles else {}),
        **({"embed": EMBED} if config.has(PICTURES) else {}),
        "source": source,
        "first": series.months[0],
        "last": series.months[-1],
        "base": series.base,
        "reference": config.reference,
        "moment": iso(series.moment),
        "revisions": str(max(table.revision for table in series.vintages)),
    }


# ==== the file of each item, `node/CODE.csv`: the latest revision of each of its months, with what pages show of it
#
# Such a file has all months, and a new month adds one line to it. So the lines of earlier months are those of the pack
# before as long as the archives of their years, or the files of `data`, are made of the same (`years`), since whatever
# a line is made of is in the sum of these. All other lines are written again, and so are lines that say that a month is
# provisional.

HEAD_LINE = f"{text_files.line_of(ITEM_HEAD)}\n".encode()


class ItemFiles:
    """Writes the file of each item and of each special aggregate."""

    def __init__(self, known: Known, notes: Notes, before: Before, same_to: str, files: NewFiles):
        """`same_to` is the last month up to which the pack before was made of the same tables in the same way."""
        self._known, self._notes, self._before, self._files = known, notes, before, files
        series = known.series
        self._specials = Known(series, known.contributions, known.shown, nodes=False)
        self._lines, self._tables = Lines(series), [series.latest[month] for month in series.months]
        is_final = same_to not in notes.last
        self._same = sum(month <= same_to for month in series.months) if is_final else 0
        after = series.months[self._same :]
        # (how the first of the later lines begins; a title in the earlier ones has no end of line)
        self._next = f"\n{after[0]},".encode() if after else b"\n\n"
        found = groupby(table.rows.named for table in self._tables[: self._same])
        self._named = [(named, len([*months])) for named, months in found]
        self._broken = {
            code for named, _ in self._named for code, title in zip(named.codes, named.titles) if "\n" in title
        }

    def write(self, code: str) -> None:
        """Writes the file of an item into the existing folder `node`."""
        name, series = f"node/{code}.csv", self._known.series
        if code in series.specials:
            to = self._files.folder / name
            write_rows(to, ITEM_HEAD, item_rows(self._specials, self._notes.by_month(code), code))
            return
        earlier = self._earlier(code) if self._same else None
        first = self._same if earlier else 0
        notes = self._notes.by_month(code, series.months[first:])
        lines = self._lines.of_node(self._tables[first:], code, item_ends(self._known, notes, code, first))
        self._files.write(name, (earlier or HEAD_LINE) + lines.encode())

    def _earlier(self, code: str) -> Optional[bytes]:
        """The head and the lines of the months that are the same; None if the previous pack lacks them."""
        rows = sum(months for named, months in self._named if code in named.places)
        if not rows:
            return HEAD_LINE
        data = None if code in self._broken else self._before.read(f"node/{code}.csv")
        if data is None:
            return None
        # (the pack before has mostly nothing of the later months, or the first of them)
        end = data.find(self._next) + 1 or len(data)
        if data.count(b"\n", 0, end) == rows + 1:
            found = data[:end]
        else:
            # (it isn't in the first of the later months)
            parts = data.split(b"\n", rows + 1)
            if len(parts) < rows + 2:
                return None
            found = data[: len(data) - len(parts[-1])]
        # (the months that can still be revised are the last ones: if there is one here, then the last one is)
        return None if found.endswith(f"{PROVISIONAL}\n".encode()) else found
