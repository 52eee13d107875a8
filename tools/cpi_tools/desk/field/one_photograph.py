"""Opens one photograph that a phone sent: a program in a separate process, which `photographs` starts.

A picture is a program's input that a stranger wrote. So the process bounds itself before it reads one: its memory, its
processor time, and that it writes no file. Pillow reads the picture (Debian: python3-pil); what leaves the process is a
JPEG of its pixels. The exit status says why there is none.
"""

from __future__ import annotations

import io
import os
import resource
import sys
from typing import TYPE_CHECKING

from .field_limits import MOST_PHOTO_BYTES, MOST_PHOTO_SIDE, MOST_SENT_SIDE

if TYPE_CHECKING:
    from PIL import Image

MOST_MEMORY = 512 << 20
"""Bytes of addresses that the process has: four times what a picture of MOST_SENT_SIDE on each side takes."""

MOST_SECONDS = 8
"""Seconds of a processor that it has: ten times what such a picture takes."""

NICE = 10
"""The niceness of this process, above that of the desk's pages: they get the processor first."""

FORMATS = ("JPEG", "PNG", "WEBP")
"""The formats that are opened; a file of any other format isn't a picture."""

QUALITIES = (82, 70, 55, 40)
"""Of JPEG, the best first."""

NO_PICTURE, TOO_LARGE, TOO_COSTLY = 3, 4, 5
"""The exit statuses without a JPEG: the bytes aren't a picture, it has too many pixels, or it takes too much memory."""


class TooLarge(Exception):
    """A picture has a side that is longer than MOST_SENT_SIDE."""


def limit_process() -> None:
    """Bounds this process."""
    limits = {
        resource.RLIMIT_AS: (MOST_MEMORY, MOST_MEMORY),
        # (at the first one the system ends it by a signal of its own)
        resource.RLIMIT_CPU: (MOST_SECONDS, MOST_SECONDS + 1),
        resource.RLIMIT_FSIZE: (0, 0),
        resource.RLIMIT_CORE: (0, 0),
    }
    for limit, values in limits.items():
        resource.setrlimit(limit, values)
    os.nice(NICE)


def pixels_of(data: bytes) -> bytes:
    """A picture as a JPEG of its pixels, turned upright, at most MOST_PHOTO_SIDE wide and high and MOST_PHOTO_BYTES
    long. Raises TooLarge, MemoryError, or whatever Pillow meets."""
    from PIL import Image, ImageOps  # (the process is bounded before it reads this)

    with Image.open(io.BytesIO(data), formats=FORMATS) as sent:
        if max(sent.size) > MOST_SENT_SIDE:
            raise TooLarge
        pixels = ImageOps.exif_transpose(sent).convert("RGB")
    pixels.thumbnail((MOST_PHOTO_SIDE, MOST_PHOTO_SIDE))
    bare = Image.new("RGB", pixels.size)
    bare.paste(pixels)
    return _encode(bare)


def _encode(picture: Image.Image) -> bytes:
    """A picture in so few bytes as are wanted; smaller and smaller if its pixels are noise."""
    while True:
        for quality in QUALITIES:
            made = io.BytesIO()
            picture.save(made, "JPEG", quality=quality, optimize=True)
            if made.tell() <= MOST_PHOTO_BYTES:
                return made.getvalue()
        picture = picture.resize((max(1, picture.width * 3 // 4), max(1, picture.height * 3 // 4)))


def main() -> int:
    """Opens the picture of standard input, and writes its JPEG."""
    limit_process()
    try:
        made = pixels_of(sys.stdin.buffer.read())
    except TooLarge:
        return TOO_LARGE
    except MemoryError:
        return TOO_COSTLY
    except Exception:  # (Pillow's readers raise what they meet: of a hostile file that is anything)
        return NO_PICTURE
    sys.stdout.buffer.write(made)
    return 0


if __name__ == "__main__":
    sys.exit(main())
