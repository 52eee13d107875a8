"""What whoever has taken the first machine may write next to a copy: a note that isn't one hides no copy that is whole, and
a file that is larger than the disk fills none."""

from __future__ import annotations

import json
import os
from collections.abc import Callable
from pathlib import Path
from typing import Any

import pytest

from cpi_tools.guard.copies.desk_changes import CARRIED_DESK, index_of, put_in_desk
from cpi_tools.guard.follow import Follower
from cpi_tools.guard.copies.carriers import CAME, CARRIED, NotFitting, put_in
from cpi_tools.guard.copies.places import Folder
from cpi_tools.office.folders import LAST_SECOND, moment_of, plain_json, whole_number
from cpi_tools.office.program import Cpi
from cpi_tools.guard.copies.second_copies import DESK, DRILLED, INDEX, MARK, NAMES, NOTE, OFFICE, state_of
from cpi_tools.text.terminal import Fault
from .desk_rooms import DeskRoom
from .generations import Place, made_place
from .ran import run

pytestmark = pytest.mark.usefixtures("quick_borg")


@pytest.fixture
def tmp_path(memory: Path) -> Path:
    """A test's own folder."""
    return memory


NESTED = "[" * 60_000
"""Python's reader of JSON goes no deeper than some thousand times."""


def changed(**fields: Any) -> Callable[[str], str]:
    """A note with other fields."""
    return lambda text: json.dumps({**json.loads(text), **fields})


HOSTILE: dict[str, Callable[[str], str]] = {
    "nested": lambda _: NESTED,
    "nested-in": lambda text: text.replace('"round": 2', f'"round": {NESTED}'),
    "endless": lambda text: text.replace('"round": 2', '"round": 1e999'),
    "infinite": changed(round=float("inf")),
    "fraction": changed(round=2.5),
    "digits": lambda text: text.replace('"round": 2', f'"round": {"9" * 5000}'),
    "large": changed(round=10**30),
    "late": changed(copied=10**18),
    "later": changed(copied=LAST_SECOND + 1),
    "early": changed(copied=-(10**18)),
    "no-text": changed(machine="\ud800"),
    "two-lines": changed(machine="a\nb"),
    "lines-of-months": changed(receipts=[[1, 1, "2026-01\nx", 1]]),
    "long": changed(receipts=[["9" * 5000, 1, "2026-01", 1]]),
    "marks": changed(marks={"quotes": 1e400}),
}
"""What stands in the note of the newest copy."""


@pytest.fixture
def place(office: Path, tmp_path: Path) -> Place:
    """A place with two copies."""
    return made_place(office, tmp_path)


@pytest.mark.parametrize("name", HOSTILE)
def test_such_a_note_counts_as_none(name: str, place: Place) -> None:
    note = place.dest / NAMES[1] / NOTE
    text = note.read_text()
    hostile = HOSTILE[name](text)
    assert hostile != text and state_of(place.dest).newest() == NAMES[1]
    note.write_text(hostile, encoding="utf-8", errors="surrogatepass")
    assert [*state_of(place.dest).notes] == [NAMES[0]]


@pytest.mark.parametrize("name", ["nested", "late"])
def test_the_tools_take_the_other_copy(name: str, cpi: Cpi, place: Place, tmp_path: Path) -> None:
    note, to = place.dest / NAMES[1] / NOTE, tmp_path / "to.db"
    note.write_text(HOSTILE[name](note.read_text()))
    ran = run(cpi, "keep", *place)
    assert (ran.status, ran.err) == (0, "") and " passed its drill" in ran.out
    ran = run(None, "probe", "--copy", place.dest, "--url", "http://127.0.0.1:9")
    assert ran.status == 2 and "second_age_seconds=" in ran.out
    ran = run(cpi, "promote", place.dest, "--office", to)
    assert (ran.status, ran.err) == (0, "") and f"{to}: {NAMES[0]} of " in ran.out


@pytest.mark.parametrize("text", [NESTED, '{"machine": "m", "promoted": 1e999, "copied": 1}',
                                  f'{{"machine": "m", "promoted": {10**18}, "copied": 1}}'])  # fmt: skip
def test_a_mark_that_is_none_is_a_fault(text: str, place: Place) -> None:
    (place.dest / MARK).write_text(text)
    with pytest.raises(Fault, match=f"{MARK} isn't a mark that cpi-tools wrote"):
        state_of(place.dest)


@pytest.mark.parametrize("text", [NESTED, '{"generation": "", "copied": 1e999, "file": null, "log": null}'])
def test_a_note_on_generations_that_is_none_is_a_fault(text: str, cpi: Cpi, place: Place) -> None:
    (place.dest / DRILLED).write_text(text)
    ran = run(cpi, "keep", *place)
    assert ran.status == 1 and f"{DRILLED} isn't a note that cpi-tools keep wrote" in ran.err


def test_a_carried_file_that_begins_so_is_refused(place: Place) -> None:
    (place.dest / CAME).mkdir()
    for name, put in ((CARRIED, put_in), (CARRIED_DESK, put_in_desk)):
        (place.dest / CAME / name).write_text(f"{NESTED}\n")
        with pytest.raises(NotFitting, match="its first line isn't one that cpi-tools follow wrote"):
            put(place.dest)


def test_an_index_of_the_desk_that_is_none_is_no_index(office: Path, place: Place, tmp_path: Path) -> None:
    desk = DeskRoom(tmp_path / "cpi-desk")
    assert Follower(office, Folder(place.dest), desk=desk.path).desk_round()
    index = index_of(place.dest)
    assert index
    for text in (NESTED, index._replace(copied=10**18).text, index._replace(number=10**12).text):
        (place.dest / DESK / INDEX).write_text(text)
        assert index_of(place.dest) is None


def test_a_copy_that_is_larger_than_the_disk_is_not_copied(cpi: Cpi, place: Place, tmp_path: Path) -> None:
    """A hole of a file takes no room where it came from; of one that its note calls small no more is copied."""
    newest, to = place.dest / NAMES[1], tmp_path / "to.db"
    os.truncate(newest / OFFICE, 1 << 43)
    ran = run(cpi, "promote", place.dest, "--office", to)
    assert (ran.status, ran.out, ran.err.count("\n")) == (
        1,
        "",
        1,
    ) and f"--copy {NAMES[0]} takes the one of " in ran.err
    note = json.loads((newest / NOTE).read_text())
    (newest / NOTE).write_text(json.dumps({**note, "file": {**note["file"], "size": 1 << 43}}))
    ran = run(cpi, "promote", place.dest, "--office", to)
    assert (ran.status, ran.out, ran.err.count("\n")) == (1, "", 1)
    assert f"{newest} has, by its note, 8,796,093," in ran.err
    assert run(cpi, "promote", place.dest, "--office", to, "--copy", NAMES[0]).status == 0


def test_whole_numbers_and_texts_are_read() -> None:
    assert plain_json('{"a": [1, "x", null, true]}') == {"a": [1, "x", None, True]}
    for text in (NESTED, "1.0", "NaN", "-Infinity", "1e3", "{"):
        with pytest.raises(ValueError):
            plain_json(text)
    assert (whole_number("7"), moment_of(LAST_SECOND)) == (7, LAST_SECOND)
    for value in (-1, 1 << 63, "9" * 5000):
        with pytest.raises(ValueError):
            whole_number(value)
