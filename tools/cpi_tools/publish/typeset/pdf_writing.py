"""Pages as PDFs, by WeasyPrint (Debian's `weasyprint`), and the PDFs of a pack."""

from __future__ import annotations

import hashlib
import os
import re
import threading
import unicodedata
from collections.abc import Callable, Sequence
from functools import lru_cache
from importlib import metadata
from importlib.util import find_spec
from pathlib import Path
from typing import TYPE_CHECKING, Any, NamedTuple, Optional

from ...text.terminal import Fault, needs
from ..figures.announcements import FOLDER
from ..forms.manifest import NewFiles
from ..releases.cards import letters_file

if TYPE_CHECKING:
    from ..releases.releases import Release
    from .paper import Paper


# ==== The letters of a PDF's fonts, so that its words can be searched, copied and read aloud. WeasyPrint 57 takes them
# from the wrong places of a text that is written from right to left; here each glyph has the letter that its font has
# it for.

GLYPH = re.compile(rb"<([0-9a-f]{4})> <[0-9a-f]*>")
"""A line of a font's map from glyphs to letters (ISO 32000, 9.10.3)."""

FORMS = range(0xFB00, 0xFF00)
"""The letters of Unicode that are forms of other ones, such as that of a letter within an Arabic word."""


def name_letters(document: Any, pdf: Any) -> None:
    """Names the letters of all fonts; what WeasyPrint calls at the end, with its document and the PDF."""
    letters = {font.name: letters_of(font.ttfont) for font in document.fonts.values() if font.ttfont}
    for it in pdf.objects:
        known = letters.get(it.get("BaseFont")) if isinstance(it, dict) and "ToUnicode" in it else None
        if known:
            found = pdf.objects[int(it["ToUnicode"].split()[0])]
            found.stream = [_name_letter(line, known) for line in found.stream]


def letters_of(font: Any) -> dict[int, str]:
    """By the number of a glyph, the letter that a font of fontTools has it for."""
    letters = dict[int, str]()
    for code, name in sorted(font.getBestCmap().items(), reverse=True):
        letter = chr(code)
        letters[font.getGlyphID(name)] = unicodedata.normalize("NFKC", letter) if code in FORMS else letter
    return letters


def _name_letter(line: Any, letters: dict[int, str]) -> Any:
    """A line of the map with its glyph's letter, if the font has one."""
    match = GLYPH.fullmatch(line)
    letter = letters.get(int(match[1], 16)) if match else None
    return b"<%s> <%s>" % (match[1], letter.encode("utf-16-be").hex().encode()) if match and letter else line


# ==== The PDFs of a pack's releases. Each says what it is made from, so a pack that is written again takes over those
# of the pack before: only new ones are made.

END = ".pdf"
"""The ending of the file's name."""

NOT_MADE = "WeasyPrint (Debian's weasyprint) isn't installed"


class Pdfs(NamedTuple):
    """The way to write PDFs: whether WeasyPrint is installed, and the folder of the previous pack, whose PDFs are
    taken over if their sources are the same, or, without WeasyPrint, as they are."""

    has_writer: bool = True
    pack: Optional[Path] = None

    def pdf(self, name: str, release: Release, paper: Paper) -> bytes:
        """The PDF at a place in the pack; none if it can't be made and doesn't exist. Raises Fault."""
        known = self.pack / name if self.pack else None
        there = known.read_bytes() if known and known.is_file() else b""
        if not self.has_writer or is_from(there, paper.source(release)):
            return there
        return paper.pdf(release)


def is_from(pdf: bytes, source: str) -> bool:
    """Whether a PDF says that it is made from this."""
    return f"/Creator ({source})".encode() in pdf


def pdfs_like(pack: Path) -> Pdfs:
    """The way to write PDFs that are compared with a pack's: each is made again, or is taken as it is if WeasyPrint
    isn't installed."""
    return Pdfs() if find_spec("weasyprint") else Pdfs(False, pack)


def write_pdfs(
    pdfs: Pdfs,
    paper: Paper,
    releases: Sequence[Release],
    files: NewFiles,
    folder: str,
    report: Callable[[int, int], None],
) -> None:
    """Writes the PDF of each release into the folder of a language in a pack, which is empty or ends with a slash; tells how
    many of how many are written. Raises Fault."""
    for done, release in enumerate(releases, 1):
        name = f"{folder}{FOLDER}/{release.name}{END}"
        if pdf := pdfs.pdf(name, release, paper):
            files.write(name, pdf)
        report(done, len(releases))


# ==== A page as a PDF, by WeasyPrint (Debian's `weasyprint`). The same page gives the same bytes on a machine.

SHEET = re.compile(rb"/Type /Page\b")
"""The mark of each sheet's object."""

BUSY = threading.Lock()
"""Whoever holds it makes a PDF: the libraries of WeasyPrint aren't for several threads."""

CLOCK = "SOURCE_DATE_EPOCH"
"""The variable by which a program that writes fonts takes another time than that of the clock (reproducible-builds.org)."""


def need_writer() -> None:
    """Raises Fault if WeasyPrint isn't installed."""
    needs("weasyprint", "weasyprint")


@lru_cache(maxsize=1)
def writer_version() -> str:
    """The program that writes PDFs on this machine: its version, with the name and the sum of its letters. Raises
    Fault."""
    need_writer()
    family, path = letters_file()
    letters = hashlib.sha256(Path(path).read_bytes()).hexdigest() if Path(path).is_file() else "unknown"
    return f"WeasyPrint {metadata.version('weasyprint')}, {family} {letters[:16]}"


def pdf_of(page: str) -> bytes:
    """A page of HTML as a PDF, for whose sheets it has the style; it may name pictures only that are in it. Raises
    Fault."""
    need_writer()
    with BUSY:
        os.environ.setdefault(CLOCK, "0")
        import weasyprint  # type: ignore[import]

        try:
            # (`/`: an address in the page is never looked up, but has to be one)
            document = weasyprint.HTML(string=page, base_url="/", url_fetcher=_fetched_from_page)
            made: bytes = document.write_pdf(variant="pdf/ua-1", finisher=name_letters)
        except (OSError, ValueError) as fault:
            raise Fault(f"WeasyPrint writes no PDF: {' '.join(str(fault).split())}") from fault
    return made


def sheets_of(pdf: bytes) -> int:
    """The number of sheets in a PDF of `pdf_of`."""
    return len(SHEET.findall(pdf))


def _fetched_from_page(url: str, *_: Any, **__: Any) -> Any:
    """A picture that is in the page itself. Raises ValueError for any other address: nothing is read elsewhere."""
    from weasyprint import default_url_fetcher

    if not url.startswith("data:"):
        raise ValueError(f"{url} isn't in the page")
    return default_url_fetcher(url)
