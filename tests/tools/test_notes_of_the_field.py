"""Notes of the field: who may send and read them, what is taken, what is kept of a photograph, and for how long."""

from __future__ import annotations

import csv
import html
import io
import random
import re
import sqlite3
from collections.abc import Iterator
from pathlib import Path
from typing import Any, Optional

import pytest
from PIL import Image

from . import surveys
from cpi_tools.desk.field import field_limits, field_notes, photographs
from cpi_tools.desk.field.field_limits import (
    MOST_BRAND_LETTERS,
    MOST_LETTERS,
    MOST_MESSAGE_BYTES,
    MOST_PHOTO_BYTES,
    MOST_PHOTO_SIDE,
    MOST_QUANTITY_LETTERS,
    MOST_SENT_SIDE,
)
from cpi_tools.desk.field.field_notes import FieldNotes, Of, Said, TooMany
from cpi_tools.desk.field.photographs import NotAPicture, without_traces
from cpi_tools.office.program import Cpi
from cpi_tools.text.terminal import Fault
from .desk_apps import ADA, LISTEN, Application, Chosen, Person, applied, words_of
from lib.hostile import HOSTILE
from lib.places import ROOT
from lib.served import heard, message, peer_of
from .loads import DESK_KEY
from .surveys import key_of

MONTH, AGES = "2026-02", 12_000
"""A month of the office of these tests, and so many months that it is kept whatever the machine's clock says."""

ANNA, BENO = key_of(7), key_of(8)
"""Two collectors: the first has the receipts 5 and 6 of the month in slots 1 and 2, the second the receipt 3 in slot 1."""

PLACE = b"50 deg 5 min north"


def picture(kind: str = "JPEG", size: tuple[int, int] = (80, 40), **more: Any) -> bytes:
    """A red picture."""
    made = io.BytesIO()
    Image.new("RGB", size, (200, 30, 30)).save(made, kind, **more)
    return made.getvalue()


def from_a_camera() -> bytes:
    """A picture of a camera that was held upright: wider than high, to be turned, with its place and its device."""
    about = Image.Exif()
    about[0x0112], about[0x010F], about[0x013B], about[0x010E] = 6, "Camera 3000", "Anna", PLACE.decode()
    return picture(exif=about, comment=b"taken at home")


class Phone:
    """What a collector's phone asks, under a key."""

    def __init__(self, application: Application, key: Optional[str]):
        self.client = application.app.test_client()
        self.fields = {"Authorization": f"CPI-Key {key}"} if key else {}

    def get(self, path: str) -> Any:
        return self.client.get(f"/notes/{path}", headers=self.fields, base_url=f"http://{LISTEN}")

    def send(self, slot: int, receipt: object, photo: Optional[bytes] = None, month: str = MONTH, **said: str) -> Any:
        data: dict[str, Any] = {"receipt": str(receipt), **said}
        if photo is not None:
            data["photo"] = (io.BytesIO(photo), "photo.jpg")
        address = f"/notes/{month}/{slot}"
        return self.client.post(address, data=data, headers=self.fields, base_url=f"http://{LISTEN}")


@pytest.fixture(autouse=True)
def patient(monkeypatch: pytest.MonkeyPatch) -> None:
    """A machine that does much else opens a picture too."""
    monkeypatch.setattr(photographs, "PATIENCE", 300.0)


@pytest.fixture
def application(cpi: Cpi, tmp_path: Path) -> Iterator[Application]:
    with applied(cpi, surveys.small(cpi, tmp_path), tmp_path / "room", Chosen(AGES)) as it:
        yield it


@pytest.fixture
def anna(application: Application) -> Phone:
    return Phone(application, ANNA)


# ---- photographs


def test_of_a_photograph_only_its_pixels_are_kept() -> None:
    sent = from_a_camera()
    assert PLACE in sent and b"Camera 3000" in sent and b"taken at home" in sent
    kept = without_traces(sent)
    assert not any(it in kept for it in (PLACE, b"Camera 3000", b"Anna", b"taken at home", b"Exif"))
    with Image.open(io.BytesIO(kept)) as found:
        assert (found.format, found.size, dict(found.getexif())) == ("JPEG", (40, 80), {})
        red, green, blue = found.getpixel((20, 40))
        assert red > 180 and green < 60 and blue < 60


def test_a_photograph_is_bounded_in_size() -> None:
    noise = Image.frombytes("RGB", (2_000, 1_500), random.Random(1).randbytes(9_000_000))
    made = io.BytesIO()
    noise.save(made, "JPEG", quality=60)
    kept = without_traces(made.getvalue())
    assert len(kept) <= MOST_PHOTO_BYTES
    with Image.open(io.BytesIO(kept)) as found:
        assert max(found.size) <= MOST_PHOTO_SIDE


NO_PICTURES = (
    b"",
    b"no picture",
    b"<svg xmlns='http://www.w3.org/2000/svg'><script/></svg>",
    picture("GIF"),
    picture("BMP"),
    picture()[:300],
    picture("PNG")[:60],
    b"\xff\xd8\xff" + bytes(500),
    picture("PNG", (MOST_SENT_SIDE + 1, 1)),
)


def test_what_is_no_picture_is_refused(anna: Phone) -> None:
    for data in NO_PICTURES:
        with pytest.raises(NotAPicture):
            without_traces(data)
        answer = anna.send(1, 5, data, text="Look")
        assert (answer.status_code, answer.json["fault"]) == (400, "picture"), data[:40]
    assert anna.get(MONTH).json == {"notes": []}


# ---- who may send and read


def test_where_they_are_off_there_is_no_trace(cpi: Cpi, tmp_path: Path) -> None:
    with applied(cpi, surveys.small(cpi, tmp_path), tmp_path / "room") as application:
        anna, ada = Phone(application, ANNA), application.person(ADA)
        assert anna.send(1, 5, text="Look").status_code == 404 and anna.get(MONTH).status_code == 404
        assert "field" not in ada.get(f"/month/{MONTH}/").text
        assert ada.get(f"/month/{MONTH}/field-notes").status_code == 404
        assert not [path for path in (tmp_path / "room").iterdir() if "field" in path.name]


def test_a_note_is_kept_once_however_often_it_is_sent(application: Application, anna: Phone) -> None:
    said = {"sale": "yes", "brand": "Sun", "quantity": "750 g", "text": "Behind the till\r\nlower shelf "}
    photo = from_a_camera()
    assert [anna.send(1, 5, photo, **said).json for _ in range(3)] == [{"note": 1}] * 3
    application.again()
    anna = Phone(application, ANNA)
    assert anna.send(1, 5, photo, **said).json == {"note": 1}
    assert anna.send(1, 5, None, **said).json == {"note": 2}
    first, second = anna.get(MONTH).json["notes"]
    assert [*first[:3], *first[4:]] == [1, 1, 5, True, "Sun", "750 g", "Behind the till\nlower shelf", True]
    assert [*second[:3], *second[4:]] == [2, 1, 5, True, "Sun", "750 g", "Behind the till\nlower shelf", False]


def test_nobody_reads_the_note_of_another_collector(application: Application, anna: Phone) -> None:
    """What Beno is answered is the same, to the byte, before Anna sent a note and afterwards."""
    others = [Phone(application, key) for key in (BENO, None, DESK_KEY, "e" * 32)]
    paths = (MONTH, f"{MONTH}/photo/1", f"{MONTH}/photo/2", "2026-01", "2026-01/photo/1")
    before = [[(phone.get(path).status_code, phone.get(path).data) for path in paths] for phone in others]
    assert anna.send(1, 5, picture(), text="Behind the till").json == {"note": 1}
    assert [[(phone.get(path).status_code, phone.get(path).data) for path in paths] for phone in others] == before
    assert [paths[0][0] for paths in before] == [200, 401, 403, 401] and before[0][0][1] == b'{"notes":[]}\n'
    assert anna.get(f"{MONTH}/photo/1").data.startswith(b"\xff\xd8")
    assert [note[6:] for note in anna.get(MONTH).json["notes"]] == [["", "Behind the till", True]]
    beno = others[0]
    assert beno.send(1, 3, text="Behind the till").json == {"note": 2}
    assert [note[0] for note in beno.get(MONTH).json["notes"]] == [2]
    assert [note[0] for note in anna.get(MONTH).json["notes"]] == [1]


def test_a_session_of_the_desk_opens_nothing_there_and_a_collector_s_key_no_page(
    application: Application, anna: Phone, ada: Person
) -> None:
    assert anna.send(1, 5, picture(), text="Behind the till").json == {"note": 1}
    assert ada.get(f"/notes/{MONTH}").status_code == 401
    stranger = application.app.test_client()
    for path in ("field-notes", "field-notes.csv", "field-notes/1.jpg"):
        answer = stranger.get(f"/month/{MONTH}/{path}", headers=anna.fields, base_url=f"http://{LISTEN}")
        assert answer.status_code == 302 and answer.headers["Location"].startswith("/sign-in")
    removing = f"/month/{MONTH}/field-notes/1/remove"
    assert stranger.post(removing, headers=anna.fields, base_url=f"http://{LISTEN}").status_code == 403
    assert ada.post(removing, token="x").status_code == 403
    assert len(anna.get(MONTH).json["notes"]) == 1


def test_a_note_follows_a_price_that_the_office_has(application: Application, anna: Phone) -> None:
    for slot, receipt, month in ((1, 6, MONTH), (3, 1, MONTH), (1, 1, "2026-03"), (200, 1, MONTH)):
        answer = anna.send(slot, receipt, text="Look", month=month)
        assert (answer.status_code, answer.json["fault"]) == (409, "price"), (slot, receipt, month)
    assert anna.send(1, 2, text="Of an earlier price of this slot").json == {"note": 1}
    assert anna.send(1, 5, text="Look", month="2026-13").status_code == 404
    with peer_of(application.port) as peer:
        peer.sendall(message("POST /import", key=DESK_KEY, body=f"collector,9,{key_of(9)}\n".encode()))
        assert heard(peer).endswith(b'{"rows":[{"done":true}]}\n')
    # (a collector who was registered since the latest copy)
    assert Phone(application, key_of(9)).send(1, 1, text="Look").json["fault"] == "price"


def test_an_office_that_is_away_is_told_so_that_the_phone_comes_again(cpi: Cpi, tmp_path: Path) -> None:
    with applied(cpi, surveys.small(cpi, tmp_path), tmp_path / "room", Chosen(AGES)) as application:
        pass
    application = Application(cpi, tmp_path / "small.db", tmp_path / "room", application.port, Chosen(AGES))
    answer = Phone(application, ANNA).send(1, 5, text="Look")
    assert (answer.status_code, answer.json, answer.headers["Retry-After"]) == (503, {"fault": "office"}, "10")
    application.desk.close()


def test_keys_are_written_nowhere_and_the_office_has_nothing_of_a_note(
    application: Application, anna: Phone, tmp_path: Path, capfd: pytest.CaptureFixture[str]
) -> None:
    assert anna.send(1, 5, picture(), text="Behind the till").json == {"note": 1}
    assert Phone(application, "e" * 32).send(1, 5, text="Look").json == {"refused": 11}
    files = {path: path.read_bytes() for path in tmp_path.rglob("*") if path.is_file()}
    in_room = {it: data for it, data in files.items() if (tmp_path / "room") in it.parents}
    assert any(b"Behind the till" in data for data in in_room.values())
    assert not any(key.encode() in data for data in in_room.values() for key in (ANNA, "e" * 32))
    assert all(it.stat().st_mode & 0o077 == 0 for it in in_room)
    assert not any(b"Behind the till" in data for it, data in files.items() if it not in in_room)
    told = "".join(capfd.readouterr())
    assert ANNA not in told and "e" * 32 not in told


# ---- what is taken


WRONG: tuple[tuple[str, dict[str, Any]], ...] = (
    ("text", {"text": "x" * (MOST_LETTERS + 1)}),
    ("brand", {"brand": "x" * (MOST_BRAND_LETTERS + 1)}),
    ("quantity", {"quantity": "x" * (MOST_QUANTITY_LETTERS + 1)}),
    ("text", {"text": "bell\u0007"}),
    ("brand", {"brand": "nothing\u0000"}),
    ("sale", {"sale": "no"}),
    ("text", {"text": " \n "}),
    ("receipt", {"receipt": "0", "text": "Look"}),
    ("receipt", {"receipt": "\u0665", "text": "Look"}),
    ("receipt", {"receipt": "5.0", "text": "Look"}),
    ("receipt", {"receipt": "", "text": "Look"}),
)


def test_a_field_is_read_rightly_or_refused_with_what_is_wanted(anna: Phone) -> None:
    for field, said in WRONG:
        texts = {name: it for name, it in said.items() if name != "receipt"}
        answer = anna.send(1, said.get("receipt", 5), **texts)
        assert (answer.status_code, answer.json["fault"], answer.json["field"]) == (400, "form", field), said
        assert answer.json["wanted"]
    assert anna.get(MONTH).json == {"notes": []}


def test_the_longest_texts_are_taken_whole(anna: Phone) -> None:
    wide = "\U0001d11e"
    texts: dict[str, Any] = {"text": wide * MOST_LETTERS, "brand": wide * MOST_BRAND_LETTERS}
    texts["quantity"] = wide * MOST_QUANTITY_LETTERS
    assert anna.send(2, 6, **texts).json == {"note": 1}
    assert anna.get(MONTH).json["notes"][0][5:8] == [texts["brand"], texts["quantity"], texts["text"]]


def test_a_message_that_is_too_long_is_refused(anna: Phone) -> None:
    for size in (MOST_PHOTO_BYTES + 1, MOST_MESSAGE_BYTES):
        answer = anna.send(1, 5, bytes(size), text="Look")
        assert (answer.status_code, answer.json["fault"]) == (413, "long")


def test_a_collector_has_so_many_notes_of_a_month(
    application: Application, anna: Phone, monkeypatch: pytest.MonkeyPatch
) -> None:
    monkeypatch.setattr(field_notes, "MOST_NOTES", 2)
    assert [anna.send(1, 5, text=f"Look {number}").json.get("fault") for number in range(3)] == [None, None, "many"]
    assert anna.send(1, 5, text="Look 1").json == {"note": 2}
    assert Phone(application, BENO).send(1, 3, text="Look").json == {"note": 3}


def test_phone_front_and_guide_have_the_same_limits() -> None:
    phone = (ROOT / "web/collect/note-limits.js").read_text(encoding="utf-8")
    told = {
        name: int(value.replace("_", ""))
        for name, value in re.findall(r"^export const (\w+) = ([0-9_]+);", phone, re.M)
    }
    assert len(told) == 5 and told == {name: getattr(field_limits, name) for name in told}
    nginx = (
        (ROOT / "ops/nginx.conf").read_text(encoding="utf-8").partition('location ~ "^/notes/')[2].partition("}\n\n")[0]
    )
    assert set(re.findall(r"client_\w+_size +(\w+);", nginx)) == {str(MOST_MESSAGE_BYTES)}
    caddy = (
        (ROOT / "ops/Caddyfile")
        .read_text(encoding="utf-8")
        .partition("handle @noted")[2]
        .partition("handle /notes/")[0]
    )
    assert set(re.findall(r"max_\w*size (\w+)\n", caddy)) == {f"{MOST_MESSAGE_BYTES // 1000}KB"}
    assert f" > {MOST_MESSAGE_BYTES}`" in caddy
    guide = (ROOT / "docs/run/FRONT.md").read_text(encoding="utf-8")
    assert (
        f"| text, brand, quantity | {MOST_LETTERS}, {MOST_BRAND_LETTERS} and {MOST_QUANTITY_LETTERS} characters |"
        in guide
    )
    assert f"| photograph | {MOST_PHOTO_BYTES:,} bytes, and {MOST_PHOTO_SIDE:,} pixels on its longer side |" in guide
    assert f"| notes per collector and month | {field_limits.MOST_NOTES} |" in guide
    assert f"| question, answer | {MOST_LETTERS} characters |" in guide
    most = f"{field_limits.MOST_OPEN} and {field_limits.MOST_OPEN_IN_ALL:,}"
    assert f"| open questions to a collector, and to all | {most} |" in guide
    assert f"| answers to a question | {field_limits.MOST_ANSWERS} |" in guide


# ---- the desk


def test_the_desk_sees_them_in_a_list_and_at_their_price(application: Application, anna: Phone, ada: Person) -> None:
    """Beno's rice is the only price that is compared in its aggregate, so it is one to look at."""
    beno = Phone(application, BENO)
    assert beno.send(1, 3, from_a_camera(), text="New label", sale="yes", brand="Sun").json == {"note": 1}
    assert anna.send(1, 4, text="Of January's receipt").json == {"note": 2}
    words = ada.words(f"/month/{MONTH}/field-notes")
    assert "2 notes." in words and "Rice Market hall Slot 8/1 now stored: price 252" in words
    assert "receipt 3 sale brand Sun New label" in words
    assert "now stored: stock, with receipt 5; the note is about an earlier price" in words
    photo = ada.get(f"/month/{MONTH}/field-notes/1.jpg")
    assert photo.mimetype == "image/jpeg" and photo.data.startswith(b"\xff\xd8") and PLACE not in photo.data
    assert ada.get(f"/month/{MONTH}/field-notes/2.jpg").status_code == 404
    assert ada.get("/month/2026-01/field-notes/1.jpg").status_code == 404
    application.tried(ada, MONTH)
    looks = ada.get(f"/month/{MONTH}/looks").text
    assert "New label" in looks and f"/month/{MONTH}/field-notes/1.jpg" in looks and "January" not in looks


def test_they_are_written_as_csv(anna: Phone, ada: Person) -> None:
    anna.send(1, 5, picture(), text="=1+1\nand more", brand="@SUM(A1)", quantity="750 g")
    answer = ada.get(f"/month/{MONTH}/field-notes.csv")
    (row,) = csv.DictReader(io.StringIO(answer.text))
    assert f'filename="{MONTH}-field-notes.csv"' in answer.headers["Content-Disposition"]
    assert (row["collector"], row["slot"], row["item"], row["outlet"]) == ("7", "1", "Rice", "Corner shop")
    assert (row["brand"], row["text"], row["quantity"]) == ("'@SUM(A1)", "'=1+1\nand more", "750 g")
    assert row["photograph"] == f"{MONTH}-1.jpg"


def test_the_desk_removes_one_for_good(anna: Phone, ada: Person, tmp_path: Path) -> None:
    anna.send(1, 5, picture(), text="A face is to be seen here")
    assert ada.post(f"/month/{MONTH}/field-notes/1/remove").status_code == 303
    again = ada.post(f"/month/{MONTH}/field-notes/1/remove")
    assert again.status_code == 409 and "Ada changed this after your page was loaded" in words_of(again.text)
    assert anna.get(MONTH).json == {"notes": []} and "No notes for this month." in ada.words(
        f"/month/{MONTH}/field-notes"
    )
    assert b"A face" not in (tmp_path / "room/field-notes.db").read_bytes()


OWN_SCRIPTS = re.compile('<script src="/(?:forms|looks).js" type="module"></script>')
"""The scripts of pages: files of the application."""


def test_hostile_texts_are_text(application: Application, ada: Person) -> None:
    beno = Phone(application, BENO)
    for text in HOSTILE:
        said: dict[str, Any] = {
            "text": text,
            "brand": text[:MOST_BRAND_LETTERS],
            "quantity": text[:MOST_QUANTITY_LETTERS],
        }
        assert "note" in beno.send(1, 3, **said).json
    application.tried(ada, MONTH)
    for path in ("field-notes", "looks"):
        page = OWN_SCRIPTS.sub("", ada.get(f"/month/{MONTH}/{path}").text)
        assert page.count("figure class") == len(HOSTILE), path
        assert "<script" not in page and "<img src=x" not in page and "<svg/" not in page and "onfocus='" not in page
        assert html.escape(HOSTILE[0]) in page and "49" not in page.partition("{{ 7")[2][:40]


# ---- how long they are kept


class Clock:
    """A clock that is set."""

    def __init__(self, now: float):
        self.now = now

    def __call__(self) -> float:
        return self.now


JANUARY, DAY = 1_768_435_200, 86_400
"""The 15th of January 2026."""


def test_notes_go_by_themselves_and_their_bytes_too(tmp_path: Path) -> None:
    """Thirteen months are kept: in January 2026 those from January 2025 on."""
    clock, said = Clock(JANUARY), Said(False, "", "", "A person's face", b"")
    notes = FieldNotes(tmp_path / "notes.db", 13, clock)
    assert notes.first_month() == 202501
    assert [notes.add(Of(7, 1, month, 1), said, picture()) for month in (202501, 202502)] == [1, 2]
    clock.now += 16 * DAY
    assert notes.forget() == 0
    clock.now += DAY
    assert notes.forget() == 1 and not notes.of_month(202501) and notes.photo(1) is None
    assert len(notes.of_month(202502)) == 1
    clock.now += 28 * DAY
    notes.close()
    again = FieldNotes(tmp_path / "notes.db", 13, clock)
    assert not again.of_month(202502)
    assert again.add(Of(7, 1, 202601, 1), said, None) == 3
    again.remove(202601, 3)
    again.close()
    assert b"A person" not in (tmp_path / "notes.db").read_bytes()


def test_a_month_that_is_kept_no_longer_is_refused(cpi: Cpi, tmp_path: Path) -> None:
    with applied(cpi, surveys.small(cpi, tmp_path), tmp_path / "room", Chosen(1)) as application:
        answer = Phone(application, ANNA).send(1, 3, text="Look", month="2026-01")
        assert (answer.status_code, answer.json["fault"]) == (409, "past")


def test_a_file_that_isn_t_theirs_is_refused(tmp_path: Path) -> None:
    (tmp_path / "notes.db").write_bytes(b"something else" * 100)
    with pytest.raises(Fault, match="The field notes in .* can't be read: "):
        FieldNotes(tmp_path / "notes.db", 13)


def test_a_disk_without_room_is_a_fault_and_nothing_is_kept(tmp_path: Path) -> None:
    notes = FieldNotes(tmp_path / "notes.db", AGES)
    notes._link.execute("PRAGMA max_page_count = 8")
    with pytest.raises(Fault, match="full"):
        notes.add(Of(7, 1, 202601, 1), Said(False, "", "", "Look", b"x"), bytes(100_000))
    assert not notes.of_month(202601)
    assert notes.add(Of(7, 1, 202601, 1), Said(False, "", "", "Look", b""), None) == 1
    notes.close()


def test_too_many_is_counted_by_collector_and_month(tmp_path: Path, monkeypatch: pytest.MonkeyPatch) -> None:
    monkeypatch.setattr(field_notes, "MOST_NOTES", 1)
    notes, said = FieldNotes(tmp_path / "notes.db", AGES), Said(False, "", "", "Look", b"")
    assert [notes.add(Of(*of), said, None) for of in ((7, 1, 202601, 1), (7, 1, 202602, 1), (8, 1, 202601, 1))]
    with pytest.raises(TooMany):
        notes.add(Of(7, 2, 202601, 2), said, None)
    notes.close()
    with sqlite3.connect(tmp_path / "notes.db") as link:
        assert link.execute("SELECT count(*) FROM note").fetchall() == [(3,)]
    link.close()
