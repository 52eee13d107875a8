"""Notes of the field in a flood: pictures that are made to cost much, under one key from many addresses. The pages of the
desk are there meanwhile, and another collector's note is taken."""

from __future__ import annotations

import http.client
import io
import json
import re
import statistics
import time
from collections.abc import Iterator
from concurrent.futures import ThreadPoolExecutor
from pathlib import Path
from typing import NamedTuple

import pytest
from PIL import Image

from .desk_pages import PREFIX, DeskPages, desk_pages
from .noted import AGES
from .offices import ANNA, BENO, DESK, NOW
from .peers import SECONDS, address_of, answered_within, timed
from .stage import Stage

CONNECTIONS, ADDRESSES = 32, 8
"""So many send at once, from so many addresses."""

FLOOD_SECONDS = 12.0

PAGE_SECONDS = 1.0
"""A page of the desk is there within this, as a rule; on a machine that does much else it takes longer."""

BOUNDARY = "a-boundary-of-parts"


@pytest.fixture
def fronted(stage: Stage, tmp_path: Path) -> Iterator[DeskPages]:
    """The application behind the front, which takes notes."""
    with desk_pages(stage, tmp_path, f"{stage.url}{PREFIX}/", "--field-notes", AGES) as pages:
        yield pages


class Told(NamedTuple):
    """An answer: its status, and a word or the number of the note."""

    status: int
    word: object


def large_picture() -> bytes:
    """A picture of 4,000 by 4,000 pixels in few bytes."""
    made = io.BytesIO()
    Image.new("L", (4_000, 4_000), 7).save(made, "PNG")
    assert made.tell() < 60_000
    return made.getvalue()


def form_of(receipt: int, text: str, photo: bytes) -> bytes:
    """The form of a note."""
    parts = {'name="receipt"': str(receipt).encode(), 'name="text"': text.encode()}
    parts['name="photo"; filename="photo.png"'] = photo
    texts = (f"--{BOUNDARY}\r\nContent-Disposition: form-data; {name}\r\n\r\n".encode() for name in parts)
    return b"\r\n".join(head + value for head, value in zip(texts, parts.values())) + f"\r\n--{BOUNDARY}--\r\n".encode()


def sent(stage: Stage, key: str, slot: int, form: bytes, address: int) -> Told:
    """What the front answers to a note from an address."""
    line = http.client.HTTPSConnection(
        "localhost", stage.port, context=stage.context, timeout=SECONDS, source_address=(address_of(address), 0)
    )
    fields = {"Authorization": f"CPI-Key {key}", "Content-Type": f"multipart/form-data; boundary={BOUNDARY}"}
    try:
        line.request("POST", f"/notes/{NOW}/{slot}", body=form, headers=fields)
        answer = line.getresponse()
        body = answer.read()
        is_json = (answer.getheader("Content-Type") or "").startswith("application/json")
        reply = json.loads(body) if is_json else {}
        assert answer.status not in (429, 503) or answer.getheader("Retry-After") == "2"
        return Told(answer.status, reply.get("note", reply.get("fault")))
    finally:
        line.close()


def receipt_of(stage: Stage, key: str, slot: int) -> int:
    """The receipt of a price that is sent now."""
    reply = stage.ask("PUT", f"/api/quote/{slot}/{NOW}", key, "price,246").reply
    return int(reply["receipt"])


def page_of_a_person(stage: Stage) -> dict[str, str]:
    """The fields with which a person who is signed in at the desk asks for a page."""
    fields = {"Content_Type": "application/x-www-form-urlencoded", "Origin": stage.url}
    answer = stage.ask("POST", f"{PREFIX}/sign-in", body=f"name=Ada&key={DESK}&to=/", **fields)
    match = re.match("[^;]+", answer.fields["Set-Cookie"])
    assert answer.status == 303 and match
    return {"Cookie": match[0]}


def test_a_page_of_the_desk_is_there_within_a_second_beside_a_flood_of_pictures(
    fronted: DeskPages, stage: Stage
) -> None:
    receipt, other = receipt_of(stage, ANNA, 3), receipt_of(stage, BENO, 1)
    picture, person, told = large_picture(), page_of_a_person(stage), list[Told]()

    def flood(number: int) -> list[Told]:
        """Sends one note after another, each another one."""
        floods, until = list[Told](), time.monotonic() + FLOOD_SECONDS
        while time.monotonic() < until:
            form = form_of(receipt, f"{number} {len(floods)}", picture)
            floods.append(sent(stage, ANNA, 3, form, number % ADDRESSES))
            time.sleep(0.05)
        return floods

    def pages() -> list[tuple[float, int]]:
        """The page of the month while the flood goes on: how long each took, and its status."""
        with ThreadPoolExecutor(CONNECTIONS) as pool:
            floods = [pool.submit(flood, number) for number in range(CONNECTIONS)]
            time.sleep(1)
            pages = list[tuple[float, int]]()
            while not all(submit.done() for submit in floods):
                pages.append(timed(lambda: stage.ask("GET", f"{PREFIX}/month/{NOW}/", **person).status))
                time.sleep(0.3)
            told.extend(answer for submit in floods for answer in submit.result())
        seconds = [page for page, _ in pages]
        print(f"pages: {len(seconds)}, median {statistics.median(seconds):.2f} s, most {max(seconds):.2f} s")
        return pages

    assert set(answered_within(PAGE_SECONDS, pages)) == {200}
    words = {answer.status: {it.word for it in told if it.status == answer.status} for answer in told}
    assert set(words) <= {200, 409, 429, 503} and 200 in words and words.get(503, {"busy"}) == {"busy"}
    # (who is asked to come again has lost nothing, and neither has anybody else)
    assert sent(stage, BENO, 1, form_of(other, "Of another collector", picture), 20).status == 200
