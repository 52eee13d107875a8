"""A photograph is opened in a process that is bounded, and one at a time: whatever a picture is made to do, the desk goes
on, and the phone has an answer by which its note is kept or sent again."""

from __future__ import annotations

import io
import subprocess
import sys
import threading
import time
from collections.abc import Iterator
from concurrent.futures import ThreadPoolExecutor
from pathlib import Path
from typing import Any

import pytest
from PIL import Image

from cpi_tools.desk.field import field_notes, field_views, one_photograph, photographs
from cpi_tools.desk.field.field_limits import MOST_PHOTO_SIDE, MOST_SENT_SIDE
from cpi_tools.desk.field.one_photograph import MOST_MEMORY, MOST_SECONDS, pixels_of
from cpi_tools.desk.field.photographs import Busy, NotAPicture, Turns, without_traces
from cpi_tools.office.program import Cpi
from lib.places import ROOT
from . import surveys
from .desk_apps import ADA, Application, Chosen, applied
from .test_notes_of_the_field import AGES, ANNA, BENO, MONTH, Phone, picture

PATIENCE = 300.0
"""Seconds after which something is taken for hanging."""


@pytest.fixture(autouse=True)
def patient(monkeypatch: pytest.MonkeyPatch) -> None:
    """A machine that does much else opens a picture too."""
    monkeypatch.setattr(photographs, "PATIENCE", PATIENCE)


@pytest.fixture
def application(cpi: Cpi, tmp_path: Path) -> Iterator[Application]:
    with applied(cpi, surveys.small(cpi, tmp_path), tmp_path / "room", Chosen(AGES)) as it:
        yield it


class Opening:
    """Stands in for what opens a photograph: it is counted, and may wait until it is let go."""

    def __init__(self, waits: bool = False):
        self.count, self.most, self._now = 0, 0, 0
        self.begun, self.go = threading.Event(), threading.Event()
        if not waits:
            self.go.set()

    def __call__(self, data: bytes) -> bytes:
        self.count, self._now = self.count + 1, self._now + 1
        self.most = max(self.most, self._now)
        self.begun.set()
        assert self.go.wait(PATIENCE)
        self._now -= 1
        return b"\xff\xd8" + data[:1]


# ---- what is looked at before


def test_a_note_that_is_kept_already_is_answered_without_opening_its_picture_again(
    application: Application, monkeypatch: pytest.MonkeyPatch
) -> None:
    opening = Opening()
    monkeypatch.setattr(field_views, "without_traces", opening)
    anna = Phone(application, ANNA)
    assert [anna.send(1, 5, picture(), text="Look").json for _ in range(3)] == [{"note": 1}] * 3
    assert opening.count == 1


def test_a_note_more_than_are_kept_is_refused_without_opening_its_picture(
    application: Application, monkeypatch: pytest.MonkeyPatch
) -> None:
    opening = Opening()
    monkeypatch.setattr(field_views, "without_traces", opening)
    monkeypatch.setattr(field_notes, "MOST_NOTES", 1)
    anna = Phone(application, ANNA)
    answers = [anna.send(1, 5, picture(), text=text) for text in ("First", "Second", "First")]
    assert [answer.json.get("fault", answer.json.get("note")) for answer in answers] == [1, "many", 1]
    assert opening.count == 1


def test_a_price_or_a_field_that_is_refused_costs_no_picture(
    application: Application, monkeypatch: pytest.MonkeyPatch
) -> None:
    opening = Opening()
    monkeypatch.setattr(field_views, "without_traces", opening)
    anna, nobody = Phone(application, ANNA), Phone(application, "e" * 32)
    assert anna.send(1, 6, picture()).status_code == 409 and anna.send(1, 5, picture(), sale="no").status_code == 400
    assert nobody.send(1, 5, picture()).status_code == 401 and opening.count == 0


# ---- one at a time


def test_one_is_opened_at_a_time_and_the_desk_goes_on(
    application: Application, monkeypatch: pytest.MonkeyPatch
) -> None:
    """Anna's is opened, and Beno's waits. Anna's next one and another collector's are asked to come again; each is kept
    once it comes then."""
    opening = Opening(waits=True)
    monkeypatch.setattr(field_views, "without_traces", opening)
    monkeypatch.setattr(photographs, "MOST_WAITING", 2)
    anna, beno, ada = Phone(application, ANNA), Phone(application, BENO), application.person(ADA)
    with ThreadPoolExecutor(2) as pool:
        first = pool.submit(anna.send, 1, 5, picture(), text="First")
        assert opening.begun.wait(PATIENCE)
        second = Phone(application, ANNA).send(2, 6, picture(), text="Second")
        assert (second.status_code, second.json, second.headers["Retry-After"]) == (503, {"fault": "busy"}, "2")
        other = pool.submit(beno.send, 1, 3, picture(), text="Other")
        wait_for(application.desk.turns.is_full)
        # (not even the office is asked now: this key is nobody's)
        assert Phone(application, "e" * 32).send(1, 5, picture()).json == {"fault": "busy"}
        assert Phone(application, ANNA).send(1, 5, text="Without a picture").json == {"note": 1}
        assert ada.get(f"/month/{MONTH}/field-notes").status_code == 200
        opening.go.set()
        assert sorted(it.result(PATIENCE).json["note"] for it in (first, other)) == [2, 3]
    assert anna.send(2, 6, picture(), text="Second").json == {"note": 4}
    assert (opening.count, opening.most, application.desk.turns.is_full()) == (3, 1, False)


def wait_for(is_so: Any) -> None:
    """Waits until something is so."""
    begun = time.monotonic()
    while not is_so():
        assert time.monotonic() - begun < PATIENCE
        time.sleep(0.01)


def test_a_turn_ends_however_the_picture_is(monkeypatch: pytest.MonkeyPatch) -> None:
    turns = Turns()
    for _ in range(photographs.MOST_WAITING + 1):
        with pytest.raises(NotAPicture), turns.turn(7):
            without_traces(b"no picture")
    with turns.turn(7), pytest.raises(Busy), turns.turn(7):
        pass


def test_a_process_that_fails_is_no_fault_of_the_picture(
    application: Application, monkeypatch: pytest.MonkeyPatch, caplog: pytest.LogCaptureFixture
) -> None:
    """The phone is asked to come again, and the application's log says why."""
    monkeypatch.setattr(field_views, "without_traces", stands_in(monkeypatch, "/nowhere/python3"))
    anna = Phone(application, ANNA)
    assert (anna.send(1, 5, picture()).status_code, anna.send(1, 5, picture()).json) == (503, {"fault": "busy"})
    assert "a photograph can't be opened now: " in caplog.text and "/nowhere/python3" in caplog.text
    assert anna.get(MONTH).json == {"notes": []}


# ---- the process


def stands_in(monkeypatch: pytest.MonkeyPatch, program: str) -> Any:
    """What opens a photograph, by another program."""

    def opened(data: bytes) -> bytes:
        with monkeypatch.context() as changed:
            changed.setattr(sys, "executable", program)
            return without_traces(data)

    return opened


def script(path: Path, commands: str) -> str:
    path.write_text(f"#!/bin/sh\n{commands}\n", encoding="ascii")
    path.chmod(0o755)
    return str(path)


ENDS = (
    ("exit 3", NotAPicture, "This isn't a picture"),
    ("exit 4", NotAPicture, "larger than 4,000 pixels"),
    ("exit 5", NotAPicture, "more memory or time"),
    ("kill -XCPU $$", NotAPicture, "more memory or time"),
    ("kill -SEGV $$", NotAPicture, "This isn't a picture"),
    ("kill -KILL $$", Busy, "status=-9"),
    ("exit 1", Busy, "status=1"),
    ("exit 0", Busy, "status=0"),
    ("head -c 400000 /dev/zero", Busy, "status=0"),
)


@pytest.mark.parametrize("commands, kind, told", ENDS, ids=[end[0] for end in ENDS])
def test_each_end_of_the_process_is_told_rightly(
    commands: str, kind: type[Exception], told: str, tmp_path: Path, monkeypatch: pytest.MonkeyPatch
) -> None:
    """Of the picture, or of the machine: then the phone sends it again."""
    opened = stands_in(monkeypatch, script(tmp_path / "python3", f"cat > /dev/null; {commands}"))
    with pytest.raises(kind, match=told):
        opened(picture())


def test_a_process_that_takes_too_long_is_ended(tmp_path: Path, monkeypatch: pytest.MonkeyPatch) -> None:
    monkeypatch.setattr(photographs, "PATIENCE", 0.5)
    opened = stands_in(monkeypatch, script(tmp_path / "python3", f"echo $$ > {tmp_path}/process; exec sleep 600"))
    with pytest.raises(Busy, match="timed out"):
        opened(picture())
    assert not Path(f"/proc/{(tmp_path / 'process').read_text().strip()}").exists()


BOUNDED = """
import resource, os
from cpi_tools.desk.field.one_photograph import limit_process
limit_process()
print(*(resource.getrlimit(it)[0] for it in (resource.RLIMIT_AS, resource.RLIMIT_CPU, resource.RLIMIT_FSIZE)))
print("PIL" in __import__("sys").modules)
try:
    bytearray(1 << 30)
except MemoryError:
    print("refused")
"""


def test_the_process_bounds_itself_before_it_reads_a_picture() -> None:
    words = [sys.executable, "-B", "-c", BOUNDED]
    ran = subprocess.run(words, capture_output=True, text=True, check=True, env={"PYTHONPATH": str(ROOT / "tools")})
    assert ran.stdout == f"{MOST_MEMORY} {MOST_SECONDS} 0\nFalse\nrefused\n"


HOSTILE_MEMORY = """
import sys
from cpi_tools.desk.field import one_photograph
one_photograph.pixels_of = lambda data: bytes(1 << 30)
sys.exit(one_photograph.main())
"""


def test_a_picture_that_takes_more_memory_is_refused_by_its_process() -> None:
    words = [sys.executable, "-B", "-c", HOSTILE_MEMORY]
    ran = subprocess.run(words, input=b"", capture_output=True, env={"PYTHONPATH": str(ROOT / "tools")}, check=False)
    assert (ran.returncode, ran.stdout) == (one_photograph.TOO_COSTLY, b"")


@pytest.mark.parametrize("kind, mode", [("JPEG", "RGB"), ("PNG", "RGBA"), ("PNG", "I"), ("WEBP", "RGBA")])
def test_the_largest_pictures_that_are_taken_are_within_the_bounds(kind: str, mode: str) -> None:
    made = io.BytesIO()
    Image.new(mode, (MOST_SENT_SIDE,) * 2).save(made, kind)
    kept = without_traces(made.getvalue())
    with Image.open(io.BytesIO(kept)) as found:
        assert (found.format, found.size) == ("JPEG", (MOST_PHOTO_SIDE,) * 2)


def test_what_the_process_writes_is_what_pillow_makes_here() -> None:
    assert without_traces(picture("PNG")) == pixels_of(picture("PNG"))


def test_the_numbers_of_notes_are_looked_at_in_the_file(tmp_path: Path) -> None:
    notes = field_notes.FieldNotes(tmp_path / "notes.db", AGES)
    of, said = field_notes.Of(7, 1, 202601, 1), field_notes.Said(False, "", "", "Look", b"x")
    assert notes.number_of(of, said) is None and notes.add(of, said, b"y") == 1 and notes.number_of(of, said) == 1
    notes.close()
