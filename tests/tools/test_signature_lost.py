"""A signed pack of whose signature a part is lost or damaged, and a public key that is none."""

from __future__ import annotations

import re
import shutil
from pathlib import Path

import pytest

from cpi_tools.office.public import Published
from cpi_tools.publish.forms.manifest import CannotSign, sign_manifest, signature_in
from cpi_tools.publish.pack import CannotPublish, check, publish
from .test_signature import CONFIG, FILES, as_told, key, quiet

__all__ = ["key"]

PARTS = ("manifest.json.sig", "allowed_signers")


@pytest.mark.parametrize("part", PARTS)
def test_it_isn_t_replaced_by_a_pack_without_a_signature(
    published: list[Published], key: Path, tmp_path: Path, part: str
) -> None:
    """Nobody who checks releases is left without a signature unawares; with the key it is signed anew."""
    out = tmp_path / "public"
    publish(published[:3], CONFIG, out, None, quiet, key=key)
    (out / part).unlink()
    with pytest.raises(CannotPublish, match="public is signed, and the new pack wouldn't be: --sign names the key"):
        publish(published[:4], CONFIG, out, None, quiet)
    publish(published[:4], CONFIG, out, None, quiet, key=key)
    assert FILES <= {path.name for path in out.iterdir()} and as_told(out).returncode == 0


def test_files_that_aren_t_a_signature_are_told(published: list[Published], key: Path, tmp_path: Path) -> None:
    out = tmp_path / "public"
    publish(published[:3], CONFIG, out, None, quiet, key=key)
    signers = (out / PARTS[1]).read_text(encoding="utf-8")
    (out / PARTS[1]).write_text("nobody\n", encoding="utf-8")
    told = f"{out / PARTS[1]} isn't a line with a name, a namespace and a key"
    with pytest.raises(CannotSign, match=re.escape(told)):
        check(published[:3], CONFIG, out, None, quiet)
    (out / PARTS[1]).write_bytes(b"\xff")
    with pytest.raises(CannotSign, match=f"^{re.escape(str(out))}: .*can't decode byte 0xff"):
        signature_in(out)
    (out / PARTS[1]).unlink()
    (out / PARTS[1]).mkdir()
    with pytest.raises(CannotSign, match=f"{re.escape(str(out / PARTS[1]))}: Is a directory"):
        signature_in(out)
    (out / PARTS[1]).rmdir()
    (out / PARTS[1]).write_text(signers, encoding="utf-8")
    assert check(published[:3], CONFIG, out, None, quiet) == []


def test_a_public_key_that_is_none_signs_nothing(published: list[Published], key: Path, tmp_path: Path) -> None:
    other = tmp_path / "key"
    shutil.copy(key, other)
    (tmp_path / "key.pub").write_text("letter\n", encoding="utf-8")
    told = f"{tmp_path / 'key.pub'} is no public key of ssh-keygen"
    with pytest.raises(CannotSign, match=re.escape(told)):
        sign_manifest(other, "A", b"")
    with pytest.raises(CannotSign, match=re.escape(told)):
        publish(published[:3], CONFIG, tmp_path / "public", None, quiet, key=other)
    assert not (tmp_path / "public").exists()
