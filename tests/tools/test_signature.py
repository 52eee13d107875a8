"""A signed pack: what ssh-keygen says of it, by the words of its own page, and what is refused."""

from __future__ import annotations

import html
import re
import subprocess
from pathlib import Path

import pytest

from cpi_tools.command_line import main
from cpi_tools.publish.figures.config import Config
from cpi_tools.office.public import Published
from cpi_tools.publish.forms.manifest import CannotSign, sign_manifest
from cpi_tools.office.program import Cpi
from cpi_tools.publish.pack import CannotPublish, check, publish
from .published import Office
from .test_site import words_of

CONFIG = Config("NSO.PRICES", "XX", "Office of prices")
FILES = {"manifest.json.sig", "allowed_signers", "check.html"}


def quiet(_: str) -> None:
    pass


@pytest.fixture(scope="module")
def key(tmp_path_factory: pytest.TempPathFactory) -> Path:
    """A private key, with its public one next to it."""
    made = tmp_path_factory.mktemp("key") / "release"
    subprocess.run(["ssh-keygen", "-q", "-t", "ed25519", "-N", "", "-C", "who made it", "-f", made], check=True)
    return made


@pytest.fixture(scope="module")
def pack(published: list[Published], key: Path, tmp_path_factory: pytest.TempPathFactory) -> Path:
    out = tmp_path_factory.mktemp("pack") / "public"
    publish(published[:14], CONFIG, out, None, quiet, key=key)
    return out


def commands_of(pack: Path) -> list[str]:
    """What the page of a pack tells its readers to type."""
    page = (pack / "check.html").read_text(encoding="utf-8")
    return [html.unescape(element) for element in re.findall("<pre>(.*?)</pre>", page)]


def as_told(pack: Path) -> subprocess.CompletedProcess[str]:
    """Runs the first command of the page."""
    return subprocess.run(commands_of(pack)[0], shell=True, cwd=pack, capture_output=True, text=True, check=False)


def test_the_page_says_how_to_check_it(pack: Path, key: Path) -> None:
    ran = as_told(pack)
    listed = subprocess.run(["ssh-keygen", "-l", "-f", f"{key}.pub"], capture_output=True, text=True, check=True)
    fingerprint = listed.stdout.split()[1]
    assert ran.returncode == 0 and ran.stdout == (
        f'Good "cpi-manifest" signature for NSO.PRICES with ED25519 key {fingerprint}\n'
    )
    assert fingerprint in words_of(pack / "check.html") and "who made it" not in (pack / "allowed_signers").read_text()
    assert commands_of(pack)[1] == "sha256sum 2026-01-r1.csv"
    for page in ("index.html", "node/01.html"):
        assert "Signed by the office" in words_of(pack / page)
    sums = (pack / "SHA256SUMS").read_text()
    assert all(f"  {name}\n" in sums for name in FILES)


def test_another_manifest_is_not_signed(pack: Path, tmp_path: Path) -> None:
    for name in FILES:
        (tmp_path / name).write_bytes((pack / name).read_bytes())
    text = (pack / "manifest.json").read_bytes()
    (tmp_path / "manifest.json").write_bytes(text)
    assert as_told(tmp_path).returncode == 0
    (tmp_path / "manifest.json").write_bytes(text.replace(b"null", b"NULL"))
    assert as_told(tmp_path).returncode != 0


def test_a_signed_pack_is_checked_without_its_key(pack: Path, published: list[Published], tmp_path: Path) -> None:
    assert check(published[:14], CONFIG, pack, None, quiet) == []
    copy = tmp_path / "copy"
    subprocess.run(["cp", "-r", pack, copy], check=True)
    other = (copy / "manifest.json.sig").read_text()
    line = other.splitlines()[2]
    (copy / "manifest.json.sig").write_text(other.replace(line, line[::-1]))
    with pytest.raises(CannotSign, match="^ssh-keygen -Y verify: "):
        check(published[:14], CONFIG, copy, None, quiet)
    # a signature over the tables of another month doesn't hold for those that are written now
    with pytest.raises(CannotSign, match="ssh-keygen -Y verify: "):
        check(published[:13], CONFIG, pack, None, quiet)
    (copy / "manifest.json.sig").unlink()
    assert check(published[:14], CONFIG, copy, None, quiet) != []


def test_one_key_gives_the_same_bytes(pack: Path, key: Path) -> None:
    """A signature by Ed25519 has no chance in it, and no time."""
    again = sign_manifest(key, "NSO.PRICES", (pack / "manifest.json").read_bytes())
    assert again.armoured == (pack / "manifest.json.sig").read_text()
    public = key.with_name("moved")
    public.write_bytes(key.read_bytes())
    public.chmod(0o600)
    assert sign_manifest(public, "NSO.PRICES", (pack / "manifest.json").read_bytes()) == again


def test_a_signed_pack_is_not_replaced_by_one_that_is_not(
    published: list[Published], key: Path, tmp_path: Path
) -> None:
    out = tmp_path / "public"
    publish(published[:3], CONFIG, out, None, quiet)
    assert not FILES & {path.name for path in out.iterdir()}
    assert "Signed by" not in words_of(out / "index.html")
    publish(published[:4], CONFIG, out, None, quiet, key=key)
    with pytest.raises(CannotPublish, match="public is signed, and the new pack wouldn't be: --sign names the key"):
        publish(published[:5], CONFIG, out, None, quiet)
    assert as_told(out).returncode == 0
    publish(published[:5], CONFIG, out, None, quiet, key=key)
    assert as_told(out).returncode == 0 and (out / "data/tables/2025-04-r1.csv").is_file()


def test_a_key_that_cannot_sign_is_one_line(
    cpi: Cpi, public_office: Office, key: Path, tmp_path: Path, capsys: pytest.CaptureFixture[str],
    monkeypatch: pytest.MonkeyPatch,
) -> None:  # fmt: skip
    (tmp_path / "office.ini").write_text("[office]\nagency = A\narea = X\noffice = O\n")
    (tmp_path / "letter").write_text("no key\n")
    source = ["publish", "--program", str(cpi.path), "--db", str(public_office.file), "--at", str(public_office.at)]
    words = [*source, "--config", str(tmp_path / "office.ini"), "--out", str(tmp_path / "public"), "--sign"]
    for name in ("nothing", "letter"):
        assert main([*words, str(tmp_path / name)]) == 1
        told = capsys.readouterr().err.splitlines()[-1]
        assert told.startswith("cpi-tools publish: ssh-keygen -y -f: ")
        assert not (tmp_path / "public").exists()
    with pytest.raises(SystemExit):
        main([*source, "--config", str(tmp_path / "office.ini"), "--check", "public", "--sign", str(key)])
    assert "--sign goes with --out" in capsys.readouterr().err
    monkeypatch.setenv("PATH", str(tmp_path))
    with pytest.raises(CannotSign, match="^there is no ssh-keygen: Debian's openssh-client has it$"):
        sign_manifest(key, "A", b"")
