"""An office that takes notes of the field: its front, the application of its desk, and what a collector does with them."""

from __future__ import annotations

import contextlib
import io
import json
from collections.abc import Iterator
from pathlib import Path
from typing import Any

from PIL import Image

from lib.places import ROOT

from .desk_pages import DeskPages
from .languages import CONFIG, ENGLISH, Speech
from .offices import NOW
from .phone import Phone
from .stage import Stage

AGES = "12000"
"""So many months that a note is kept whatever the clock says."""

PLACE = "50 deg 5 min north"


@contextlib.contextmanager
def takes_notes(stage: Stage, pages: DeskPages, speech: Speech = ENGLISH) -> Iterator[None]:
    """The front hands notes to an application, and the pages say that the office takes them, meanwhile."""
    file = stage.folder / "config.js"
    file.write_text(CONFIG.format(**speech._asdict()).replace("\n});", "\n  notes: true,\n});"), encoding="utf-8")
    own = f"{ROOT / 'web'}/config.js"
    listening = str(pages.socket) if pages.front else f"127.0.0.1:{pages.port}"

    def changed(text: str) -> str:
        assert own in text and listening in text
        return text.replace(own, str(file))

    stage.front.stop()
    stage.front.start(changed)
    try:
        yield
    finally:
        stage.front.stop()
        stage.front.start()


def camera_file(folder: Path, size: tuple[int, int] = (2400, 1800)) -> Path:
    """A red picture of a camera that was held upright, with its place and its device in it."""
    about = Image.Exif()
    about[0x0112], about[0x010F], about[0x010E] = 6, "Camera 3000", PLACE
    path = folder / "IMG_1234.jpg"
    Image.new("RGB", size, (200, 30, 30)).save(path, "JPEG", exif=about)
    assert PLACE.encode() in path.read_bytes()
    return path


def sizes_of(photo: bytes) -> tuple[str, tuple[int, int], dict[int, Any]]:
    """Format, size and what a camera added of a photograph."""
    with Image.open(io.BytesIO(photo)) as found:
        return str(found.format), found.size, dict(found.getexif())


def unfold(phone: Phone) -> None:
    """Opens the fold of the note in the form that is open."""
    if not phone.browser.run("return document.getElementById('note').open"):
        phone.browser.click("#note-title")


def choose(phone: Phone, photo: Path) -> None:
    """Chooses a photograph, and waits until it is drawn."""
    phone.browser.find("#note-photo").send_keys(str(photo))
    phone.browser.wait_shown("#note-picture")


def kept(phone: Phone) -> list[dict[str, Any]]:
    """The notes that the phone keeps, of whoever."""
    script = """
    const open = indexedDB.open("cpi-notes");
    await new Promise((end) => { open.onsuccess = end; });
    const all = open.result.transaction("notes").objectStore("notes").getAll();
    await new Promise((end) => { all.onsuccess = end; });
    open.result.close();
    const bytes = async (blob) => (blob ? Array.from(new Uint8Array(await blob.arrayBuffer())) : null);
    return JSON.stringify(await Promise.all(all.result.map(async (it) => ({ ...it, photo: await bytes(it.photo) }))));
    """
    found: list[dict[str, Any]] = json.loads(phone.browser.run_until(script))
    return found


def at_the_desk(stage: Stage, key: str, month: str = NOW) -> list[list[Any]]:
    """What the desk has of a collector's notes: slot, receipt, sale, brand, quantity, text, whether there is a picture."""
    rows: list[list[Any]] = stage.ask("GET", f"/notes/{month}", key).reply["notes"]
    return [[*row[1:3], *row[4:]] for row in rows]
