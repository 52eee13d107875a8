"""Folders that are written whole: what stands at their place is there before and afterwards, whatever fails."""

from __future__ import annotations

import errno
import os
import re
from pathlib import Path

import pytest

from cpi_tools.office.folders import NotPlaced, files_of, written_folder
from cpi_tools.text.text_files import link_or_copy

KNOWN = "manifest.json"


def write(out: Path, text: str) -> None:
    """Writes a folder with one file."""
    with written_folder(out, KNOWN) as new:
        (new / KNOWN).write_text(text, encoding="utf-8")


@pytest.fixture
def out(tmp_path: Path) -> Path:
    """A folder that was written before."""
    write(tmp_path / "public", "before")
    return tmp_path / "public"


def test_what_stood_there_is_kept_if_something_else_gets_there_first(
    out: Path, monkeypatch: pytest.MonkeyPatch
) -> None:
    """As if two people write it at the same moment: nobody's files are removed, and the fault says where they are."""
    rename = Path.rename

    def and_another(self: Path, target: Path) -> Path:
        done = rename(self, target)
        if self == out:
            out.mkdir()
            (out / "another's").touch()
        return done

    with monkeypatch.context() as patch:
        patch.setattr(Path, "rename", and_another)
        with pytest.raises(NotPlaced, match="couldn't be replaced, and what stood there is ") as told:
            write(out, "now")
    kept = Path(re.findall(r"what stood there is (\S+) now$", str(told.value))[0])
    assert (kept / KNOWN).read_text(encoding="utf-8") == "before" and files_of(out) == ["another's"]
    assert {*out.parent.iterdir()} == {out, kept}


def test_what_stood_there_comes_back_if_the_new_one_can_t_take_its_place(
    out: Path, monkeypatch: pytest.MonkeyPatch
) -> None:
    rename = Path.rename

    def fails(self: Path, target: Path) -> Path:
        if self.name == "new":
            raise OSError(errno.EIO, os.strerror(errno.EIO), str(target))
        return rename(self, target)

    with monkeypatch.context() as patch:
        patch.setattr(Path, "rename", fails)
        with pytest.raises(NotPlaced, match="public: Input/output error"):
            write(out, "now")
    assert (out / KNOWN).read_text(encoding="utf-8") == "before" and [*out.parent.iterdir()] == [out]
    write(out, "now")
    assert (out / KNOWN).read_text(encoding="utf-8") == "now" and [*out.parent.iterdir()] == [out]


def test_a_link_to_a_disk_that_isn_t_there_is_refused(out: Path, tmp_path: Path) -> None:
    link = tmp_path / "link"
    link.symlink_to(tmp_path / "disk/public")
    with pytest.raises(NotPlaced, match=f"{link} is a symbolic link to {tmp_path}/disk/public, which isn't there"):
        write(link, "now")
    assert link.is_symlink() and not (tmp_path / "disk").exists()
    (tmp_path / "disk").mkdir()
    out.rename(tmp_path / "disk/public")
    write(link, "now")
    assert link.is_symlink() and (tmp_path / "disk/public" / KNOWN).read_text(encoding="utf-8") == "now"


def test_without_links_a_file_is_copied(tmp_path: Path, monkeypatch: pytest.MonkeyPatch) -> None:
    """As on a file system that has none, or whose rules forbid them."""

    def fails(*_: object) -> None:
        raise OSError(errno.EPERM, os.strerror(errno.EPERM))

    (tmp_path / "a").write_bytes(b"text")
    link_or_copy(tmp_path / "a", tmp_path / "b")
    monkeypatch.setattr(os, "link", fails)
    link_or_copy(tmp_path / "a", tmp_path / "c")
    numbers = [(tmp_path / name).stat().st_ino for name in "abc"]
    assert numbers[0] == numbers[1] != numbers[2] and (tmp_path / "c").read_bytes() == b"text"
