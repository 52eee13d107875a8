"""`cpi_tools.guard.copies.mirrors`: a mirror has the bytes of its source, writes the pages that changed and no other, and knows the
sum of each block."""

from __future__ import annotations

import hashlib
import os
import random
from pathlib import Path

import pytest

from cpi_tools.guard.copies import mirrors
from cpi_tools.office.copying import BLOCK, CopyFailed, log_beside
from cpi_tools.guard.copies.mirrors import PAGE, SUMMED, Mirror, MirroredOffice, sum_of
from cpi_tools.office.program import Cpi
from .loads import Quotes, faults_of


def sum_by_hand(content: bytes) -> str:
    """The SHA-256 of the SHA-256s of each 16,384 bytes."""
    parts = [content[at : at + 16_384] for at in range(0, len(content), 16_384)]
    return hashlib.sha256(b"".join(hashlib.sha256(part).digest() for part in parts)).hexdigest()


def test_a_mirror_follows_a_file_that_grows_shrinks_and_changes(tmp_path: Path) -> None:
    drawn, source = random.Random(5), tmp_path / "source"
    content = bytearray(drawn.randbytes(2 * BLOCK + 3 * PAGE + 17))
    mirror = Mirror(tmp_path / "mirror")
    for _ in range(60):
        how = drawn.randrange(4)
        if how == 0:
            content += drawn.randbytes(drawn.randrange(3 * SUMMED))
        elif how == 1:
            del content[drawn.randrange(len(content)) :]
            content += b"x"
        else:
            at = drawn.randrange(len(content))
            content[at : at + 100] = drawn.randbytes(min(100, len(content) - at))
        source.write_bytes(content)
        mirror.take(source)
        assert (tmp_path / "mirror").read_bytes() == content
        assert (mirror.size, mirror.sum()) == (len(content), sum_by_hand(content)) == sum_of(source)
    assert (Mirror(tmp_path / "mirror").size, Mirror(tmp_path / "mirror").sum()) == sum_of(source)


def test_only_pages_that_changed_are_written(tmp_path: Path) -> None:
    source, content = tmp_path / "source", bytearray(os.urandom(300 * PAGE))
    source.write_bytes(content)
    mirror = Mirror(tmp_path / "mirror")
    assert mirror.take(source) == 300 * PAGE
    before = (tmp_path / "mirror").stat().st_mtime_ns
    assert (mirror.take(source), (tmp_path / "mirror").stat().st_mtime_ns) == (0, before)
    for page in (0, 7, 8, 299):
        content[page * PAGE + 5] ^= 1
    source.write_bytes(content)
    assert mirror.take(source) == 4 * PAGE


def test_a_file_that_is_not_there_is_an_empty_one(tmp_path: Path) -> None:
    mirror = Mirror(tmp_path / "mirror")
    (tmp_path / "source").write_bytes(b"1" * 100)
    mirror.take(tmp_path / "source")
    assert (mirror.take(tmp_path / "nothing"), mirror.size) == (0, 0)
    assert ((tmp_path / "mirror").stat().st_size, mirror.sum()) == (0, hashlib.sha256(b"").hexdigest())
    assert (tmp_path / "mirror").stat().st_mode & 0o777 == 0o600


class Emptied(Mirror):
    """A mirror during whose first passes the log of the source is emptied, so that its header is another."""

    left = 0

    def take(self, source: Path) -> int:
        written = super().take(source)
        if not source.name.endswith("-wal") and Emptied.left:
            Emptied.left -= 1
            log = log_beside(source)
            log.write_bytes(bytes([Emptied.left + 1]) * 32 + log.read_bytes()[32:])
        return written


@pytest.fixture
def small(tmp_path: Path, monkeypatch: pytest.MonkeyPatch) -> Path:
    """A file and a log, which needn't be an office's."""
    monkeypatch.setattr(mirrors, "Mirror", Emptied)
    monkeypatch.setattr(mirrors, "QUIET_WITHIN", 0.01)
    (tmp_path / "office.db").write_bytes(os.urandom(3 * PAGE))
    (tmp_path / "office.db-wal").write_bytes(os.urandom(5 * PAGE))
    return tmp_path / "office.db"


def test_a_pass_in_which_the_log_was_emptied_is_made_again(small: Path, tmp_path: Path) -> None:
    mirrored, Emptied.left = MirroredOffice(tmp_path, "mirror.db"), 2
    taken = mirrored.take(small)
    assert (taken.passes, taken.written) == (3, 8 * PAGE + PAGE)
    assert log_beside(tmp_path / "mirror.db").read_bytes() == log_beside(small).read_bytes()


def test_a_log_that_is_never_quiet_is_told(small: Path, tmp_path: Path) -> None:
    mirrored, Emptied.left = MirroredOffice(tmp_path, "mirror.db"), 200
    with pytest.raises(CopyFailed, match="office.db is written so fast that it wasn't quiet for one copy in 0 s"):
        mirrored.take(small, patience=0)
    Emptied.left = 0


def test_an_empty_file_is_no_office(tmp_path: Path) -> None:
    (tmp_path / "office.db").touch()
    with pytest.raises(CopyFailed, match="office.db is empty, so it is no office"):
        MirroredOffice(tmp_path, "mirror.db").take(tmp_path / "office.db")


def test_a_mirror_under_load_lacks_nothing_that_was_answered(cpi: Cpi, office: Path, tmp_path: Path) -> None:
    """Round after round in place, while quotes are answered as fast as can be."""
    mirrored = MirroredOffice(tmp_path, "mirror.db")
    with Quotes(cpi, office) as load:
        for number in range(10):
            load.wait_for(load.told + 1)
            before = load.told
            mirrored.take(office)
            seen = tmp_path / f"seen-{number}.db"
            for path, to in ((mirrored.file.path, seen), (mirrored.log.path, log_beside(seen))):
                to.write_bytes(path.read_bytes())
            assert (mirrored.file.size, mirrored.file.sum()) == sum_of(seen)
            assert faults_of(seen, before) == []


def test_what_is_written_past_the_end_meanwhile_waits_for_the_next_round(
    tmp_path: Path, monkeypatch: pytest.MonkeyPatch
) -> None:
    """A log grows while it is read: its end lies within a block that has a sum."""
    source, put = tmp_path / "source", Mirror._put
    source.write_bytes(b"1" * 100_000)

    def later(self: Mirror, number: int, at: int, block: bytes) -> int:
        with source.open("ab") as file:
            file.write(b"2" * 50_000)
        return put(self, number, at, block)

    monkeypatch.setattr(Mirror, "_put", later)
    mirror = Mirror(tmp_path / "mirror")
    for size in (100_000, 150_000, 200_000):
        mirror.take(source)
        assert (mirror.size, mirror.sum()) == sum_of(tmp_path / "mirror") and mirror.size == size
