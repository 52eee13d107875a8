"""The cards of releases: pictures of 1200 x 630 pixels with the headline of each, drawn as PNG by `rsvg-convert`."""

from __future__ import annotations

import hashlib
import shutil
import struct
import subprocess
import zlib
from collections.abc import Callable
from pathlib import Path
from typing import NamedTuple, Optional

from ...text.terminal import Fault
from ..figures.announcements import FOLDER


# ==== the cards of releases: a picture of 1200 x 630 pixels with the headline of each, which others show where its page
# is cited
#
# A PNG says in itself what it was drawn from and by what, so a pack that is written again takes over the cards of the
# pack before: only new ones are drawn.

LETTERS = "DejaVu Sans"

PNG = b"\x89PNG\r\n\x1a\n"
HEAD_END = len(PNG) + 25
"""The end of a PNG's first chunk, its head (PNG, section 11.2.2)."""

TEXT = b"tEXtSource\0"
"""The kind and the keyword of the chunk that says what a PNG was drawn from (section 11.3.4.3)."""


class Drawing(NamedTuple):
    """The program that draws: its version with the sum of its letters, by which cards of different machines can be
    distinguished, and how it makes a PNG of SVG."""

    version: str
    png_of: Callable[[str], bytes]

    def source(self, svg: str) -> bytes:
        """The sources of a card, as the card names them."""
        return f"SHA-256 of SVG {hashlib.sha256(svg.encode()).hexdigest()}, {self.version}".encode()


class Cards(NamedTuple):
    """The way to write cards: the program that draws them, and the folder of the previous pack, whose cards are
    taken over if they are drawn from the same, or, if nothing can draw here, as they are."""

    drawing: Optional[Drawing] = None
    pack: Optional[Path] = None

    @property
    def are_written(self) -> bool:
        """Whether the site has cards."""
        return self.drawing is not None or self.pack is not None

    def card(self, name: str, svg: str) -> bytes:
        """The card at an address in the site; none if it isn't drawn and doesn't exist. Raises Fault."""
        known = self.pack / name if self.pack else None
        there = known.read_bytes() if known and known.is_file() else b""
        if self.drawing is None or is_from(there, self.drawing.source(svg)):
            return there
        return with_source(self.drawing.png_of(svg), self.drawing.source(svg))


NO_CARDS = Cards()


def has_cards(pack: Path) -> bool:
    """Whether a pack contains cards."""
    return any(pack.glob(f"{FOLDER}/*.png"))


# ---- what a PNG says of itself


def with_source(png: bytes, source: bytes) -> bytes:
    """A PNG with a text after its head. Raises Fault."""
    if not png.startswith(PNG) or len(png) < HEAD_END:
        raise Fault("a card was drawn that is no PNG")
    data = TEXT + source
    chunk = struct.pack(">L", len(data) - 4) + data + struct.pack(">L", zlib.crc32(data))
    return png[:HEAD_END] + chunk + png[HEAD_END:]


def is_from(png: bytes, source: bytes) -> bool:
    """Whether a PNG names this source, as `with_source` writes it."""
    size = struct.pack(">L", len(TEXT) - 4 + len(source))
    return png.startswith(PNG) and png[HEAD_END:].startswith(size + TEXT + source)


# ==== pictures from SVG to PNG, with `rsvg-convert` (Debian's librsvg2-bin) and the font DejaVu Sans
# (fonts-dejavu-core)

PROGRAM = "rsvg-convert"
SECONDS = 60.0
"""The largest number of seconds for which the program can draw a picture."""

NOT_DRAWN = f"{PROGRAM} (Debian's librsvg2-bin) or the letters {LETTERS} (fonts-dejavu-core) aren't installed"


def drawing() -> Optional[Drawing]:
    """The program that draws on this machine; None if the program or its letters aren't installed."""
    if not shutil.which(PROGRAM):
        return None
    version, (family, path) = _output_of(PROGRAM, "--version"), letters_file()
    if not version or family != LETTERS or not Path(path).is_file():
        return None
    letters = hashlib.sha256(Path(path).read_bytes()).hexdigest()
    return Drawing(f"{version}, {LETTERS} {letters[:16]}", png_of)


def letters_file() -> tuple[str, str]:
    """The family and the path of the letters that this machine has for DejaVu Sans; both empty if it can't be asked."""
    family, _, path = _output_of("fc-match", "--format=%{family[0]}|%{file}", LETTERS).partition("|")
    return family, path


def _output_of(*words: str) -> str:
    """The output of a program; empty if it doesn't exist or fails."""
    try:
        ran = subprocess.run(words, capture_output=True, timeout=SECONDS, check=False)
    except (OSError, subprocess.TimeoutExpired):
        return ""
    return "" if ran.returncode else ran.stdout.decode(errors="replace").strip()


def png_of(svg: str) -> bytes:
    """A picture as PNG, in the size of its SVG. Raises Fault."""
    try:
        ran = subprocess.run([PROGRAM, "--format=png"], input=svg.encode(), capture_output=True, timeout=SECONDS)
    except (OSError, subprocess.TimeoutExpired) as fault:
        raise Fault(f"{PROGRAM} draws no picture: {' '.join(str(fault).split())}") from fault
    if ran.returncode:
        said = ran.stderr.decode(errors="replace").split("\n")[0].strip()
        raise Fault(f"{PROGRAM} ended with status {ran.returncode}: {said or 'it says nothing'}")
    return ran.stdout


def cards_after(pack: Path) -> Cards:
    """The way to write cards if a pack is to replace another one, which may not exist yet."""
    drawn = drawing()
    return Cards(drawn, pack) if drawn else NO_CARDS


def cards_like(pack: Path) -> Cards:
    """The way to write cards that are compared with a pack's: if it has any, each is drawn again, or is taken as it
    is if nothing can draw here."""
    if not has_cards(pack):
        return NO_CARDS
    drawn = drawing()
    return Cards(drawn) if drawn else Cards(None, pack)
