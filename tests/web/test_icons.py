"""The icons of the collectors' page, for iPhones and launchers, which don't take an SVG."""

from __future__ import annotations

import struct

import pytest

from .browser import Browser
from .stage import Stage

ICONS = {"icon-180.png": 180, "icon-192.png": 192, "icon-512.png": 512, "icon-512-maskable.png": 512}
"""Each with its width and height in pixels."""

MOST_BYTES = 8192

PIXELS = """
const image = await createImageBitmap(await (await fetch(arguments[0])).blob());
const drawn = new OffscreenCanvas(image.width, image.height).getContext("2d");
drawn.drawImage(image, 0, 0);
const { data } = drawn.getImageData(0, 0, image.width, image.height), found = { clear: 0, outside: 0, sign: 0 };
for (let at = 0; at < data.length; at += 4) {
  const isSign = [0, 1, 2].some((n) => data[at + n] !== data[n]);
  const x = (at / 4) % image.width - image.width / 2, y = Math.floor(at / 4 / image.width) - image.height / 2;
  found.clear += Number(data[at + 3] !== 255);
  found.sign += Number(isSign);
  found.outside += Number(isSign && Math.hypot(x, y) > .4 * image.width);
}
return found;
"""
"""How many pixels of an icon are clear, how many differ from its corner, and how many of these lie outside the middle
circle of 80 percent that each launcher leaves (W3C Web Application Manifest, purpose `maskable`)."""


@pytest.mark.parametrize("name", ICONS)
def test_an_icon_has_its_type_and_its_size(stage: Stage, name: str) -> None:
    answer = stage.ask("GET", f"/collect/{name}")
    assert (answer.status, answer.fields["Content-Type"]) == (200, "image/png")
    assert answer.body.startswith(b"\x89PNG\r\n\x1a\n") and len(answer.body) < MOST_BYTES
    assert struct.unpack(">II", answer.body[16:24]) == (ICONS[name], ICONS[name])


@pytest.mark.parametrize("name", ICONS)
def test_an_icon_has_a_ground_and_a_sign(browser: Browser, name: str) -> None:
    browser.open("/")
    found = browser.run_until(PIXELS, f"/collect/{name}")
    assert found["clear"] == 0 and found["sign"] > ICONS[name] ** 2 / 20
    assert "maskable" not in name or found["outside"] == 0
