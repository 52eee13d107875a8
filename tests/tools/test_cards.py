"""The cards of releases: pictures of 1200 x 630 pixels, drawn once and taken over as long as nothing of them changed."""

from __future__ import annotations

import struct
import zlib
from collections.abc import Iterator
from pathlib import Path

import pytest

from cpi_tools.publish.releases import cards
from cpi_tools.publish import pack as publishing
from cpi_tools.publish.releases.cards import NO_CARDS, Cards, Drawing, is_from, with_source
from cpi_tools.publish.figures.config import Config
from cpi_tools.publish.pack import check, publish
from cpi_tools.text.terminal import Fault
from .ran import run
from .test_addresses import Head
from .test_measures import two_years

CONFIG = Config("NSO", "XX", "Office of <prices>", address="https://prices.example/")


def quiet(_: str) -> None:
    """Tells nobody."""


def chunks(png: bytes) -> Iterator[tuple[bytes, bytes]]:
    """The kind and the data of each chunk of a PNG, whose sums are right."""
    at = 8
    while at < len(png):
        (size,) = struct.unpack(">L", png[at : at + 4])
        kind, data = png[at + 4 : at + 8], png[at + 8 : at + 8 + size]
        assert struct.unpack(">L", png[at + 8 + size : at + 12 + size])[0] == zlib.crc32(kind + data)
        yield kind, data
        at += 12 + size
    assert at == len(png)


@pytest.fixture(scope="module")
def pack(tmp_path_factory: pytest.TempPathFactory) -> Path:
    """A pack of three releases, with their cards."""
    out = tmp_path_factory.mktemp("cards") / "public"
    publish(two_years()[:4], CONFIG, out, None, quiet)
    return out


def cards_in(pack: Path) -> dict[str, bytes]:
    """The cards of a pack."""
    return {path.name: path.read_bytes() for path in sorted((pack / "release").glob("*.png"))}


def test_each_release_has_its_card(pack: Path) -> None:
    found = cards_in(pack)
    assert [*found] == ["2026-01-r1.png", "2026-02-r1.png", "2026-03-r1.png"]
    for name, png in found.items():
        (kind, head), (text, said), *rest = chunks(png)
        assert kind == b"IHDR" and struct.unpack(">LL", head[:8]) == (1200, 630) and rest[-1][0] == b"IEND"
        assert text == b"tEXt" and said.startswith(b"Source\0SHA-256 of SVG ") and b"DejaVu Sans" in said
        said_of = Head(pack / "release" / name.replace(".png", ".html")).said
        assert said_of["og:image"] == f"https://prices.example/release/{name}"
        assert said_of["og:image:alt"].startswith("In ") and said_of["twitter:card"] == "summary_large_image"
    assert len({*found.values()}) == 3
    assert Head(pack / "index.html").said["og:image"] == "https://prices.example/release/2026-03-r1.png"


class Counted:
    """What draws, and how often it did."""

    def __init__(self, version: str = "another version") -> None:
        self.count = 0
        self.drawing = Drawing(version, self.png_of)

    def png_of(self, svg: str) -> bytes:
        self.count += 1
        return cards.png_of(svg)


def test_only_new_cards_are_drawn(monkeypatch: pytest.MonkeyPatch, tmp_path: Path) -> None:
    """Month by month each card is drawn once; another office's name draws them anew, and so does another version."""
    counted = Counted()
    monkeypatch.setattr(cards, "drawing", lambda: counted.drawing)
    out, drawn = tmp_path / "public", []
    for tables, config in ((3, CONFIG), (4, CONFIG), (4, CONFIG), (4, CONFIG._replace(office="Prices"))):
        publish(two_years()[:tables], config, out, None, quiet)
        drawn.append(counted.count)
    assert drawn == [2, 3, 3, 6]
    another = Counted("one more")
    monkeypatch.setattr(cards, "drawing", lambda: another.drawing)
    publish(two_years()[:4], CONFIG._replace(office="Prices"), out, None, quiet)
    assert another.count == 3


def test_a_card_that_was_spoilt_is_found(pack: Path, tmp_path: Path) -> None:
    """`--check` draws all of them again, whatever they say that they are from."""
    assert check(two_years()[:4], CONFIG, pack, None, quiet) == []
    out = tmp_path / "public"
    publish(two_years()[:4], CONFIG, out, None, quiet)
    card = out / "release/2026-02-r1.png"
    card.write_bytes(card.read_bytes()[:-20] + bytes(20))
    assert "release/2026-02-r1.png differs" in check(two_years()[:4], CONFIG, out, None, quiet)


def test_without_what_draws_there_are_no_cards(
    monkeypatch: pytest.MonkeyPatch, pack: Path, tmp_path: Path, capsys: pytest.CaptureFixture[str]
) -> None:
    """The same holds of a pack that has none, where something can draw. One that has some is compared without them."""
    out = tmp_path / "public"
    with monkeypatch.context() as meanwhile:
        meanwhile.setenv("PATH", str(tmp_path))
        publish(two_years()[:4], CONFIG, out, None, quiet)
        assert check(two_years()[:4], CONFIG, pack, None, quiet) == []
        publishing._check_status(pack, [])
    assert cards_in(out) == {} and "og:image" not in Head(out / "index.html").said
    assert "cards of releases weren't compared: rsvg-convert (Debian's librsvg2-bin) or" in capsys.readouterr().out
    assert check(two_years()[:4], CONFIG, out, None, quiet) == []
    publishing._check_status(pack, [])
    assert "cards of releases" not in capsys.readouterr().out


def test_a_line_says_that_there_are_none(
    cpi: object, public_office: object, monkeypatch: pytest.MonkeyPatch, tmp_path: Path
) -> None:
    (tmp_path / "office.ini").write_text("[office]\nagency = N\narea = X\noffice = P\naddress = https://p.example\n")
    (tmp_path / "plain.ini").write_text("[office]\nagency = N\narea = X\noffice = P\n")
    monkeypatch.setattr(cards, "drawing", lambda: None)
    words = "publish", "--db", public_office.file, "--at", 5000  # type: ignore[attr-defined]
    told = run(cpi, *words, "--config", tmp_path / "office.ini", "--out", tmp_path / "public")  # type: ignore[arg-type]
    assert told.status == 0 and told.err.startswith("cpi-tools publish: releases have no cards: rsvg-convert")
    told = run(cpi, *words, "--config", tmp_path / "plain.ini", "--out", tmp_path / "plain")  # type: ignore[arg-type]
    assert (told.status, told.err) == (0, "")


def test_a_program_that_fails_is_told_in_a_line(tmp_path: Path, monkeypatch: pytest.MonkeyPatch) -> None:
    program = tmp_path / "rsvg-convert"
    program.write_text("#!/bin/sh\necho 'no room' >&2\nexit 3\n")
    program.chmod(0o755)
    monkeypatch.setenv("PATH", str(tmp_path), prepend=":")
    with pytest.raises(Fault, match="^rsvg-convert ended with status 3: no room$"):
        cards.png_of("<svg/>")
    with pytest.raises(Fault, match="a card was drawn that is no PNG"):
        with_source(b"GIF89a", b"source")


def test_a_png_is_known_by_its_whole_source() -> None:
    png = b"\x89PNG\r\n\x1a\n" + bytes(25)
    made = with_source(png, b"one source")
    assert is_from(made, b"one source")
    assert (
        not is_from(made, b"one")
        and not is_from(made, b"one sourceful")
        and not is_from(png, b"")
        and not NO_CARDS.are_written
    )
    assert Cards(None, Path("nowhere")).card("release/2026-01-r1.png", "<svg/>") == b""
