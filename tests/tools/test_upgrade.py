"""Upgrade, removal and purge of the package by dpkg itself, in a root of its own: what an office set stays, and so do
its file, its backups, its key and its website."""

from __future__ import annotations

import os
import re
import shutil
import subprocess
from pathlib import Path

import pytest

from lib.places import ROOT
from .test_package import dpkg

pytestmark = pytest.mark.xdist_group("package")

OFFICE_CONF = """\
# /etc/cpi/office.conf: what the units hand to the programs. No secret stands here.
CPI_OFFICE=/var/lib/cpi/office.db
CPI_PORT=8080
CPI_ZONE=CET-1CEST,M3.5.0,M10.5.0/3
CPI_LIMIT=1000000
# Another disk than the office's, where there is one (ReadWritePaths= of cpi-backup.service names it then).
CPI_BACKUPS=/var/lib/cpi-backup
CPI_KEEP_DAYS=31
"""

CONFIG_JS = """\
// What an office sets for its pages. Nothing here is secret: everybody can read it.
export const office = Object.freeze({
  name: "Consumer price index office",
  currency: "", // stands behind each price, for instance "EUR"
  minorDigits: 2, // a price of 210 is shown as 2.10
  decimal: ".", // a collector may type a point or a comma
});
"""

FIRST = {"etc/cpi/office.conf": OFFICE_CONF, "usr/share/cpi/web/config.js": CONFIG_JS, "usr/bin/cpi": "#!/bin/sh\n"}
"""What version 1.0 installed, as far as an upgrade finds it."""

KEPT = {
    "etc/cpi/desk-key": "0123456789abcdef0123456789abcdef\n",
    "var/lib/cpi/office.db": "the office",
    "var/lib/cpi/office.db-wal": "its log",
    "var/lib/cpi-backup/office-2026-01-01.db": "a backup",
    "var/lib/cpi-site/published/index.html": "its website",
    "usr/share/cpi/web/published/index.html": "its website, where version 1.0 had it",
}
"""Files of an office that no package may touch."""

EDITED = {"name": '"My Office"', "minorDigits": "0"}


def edited(text: str) -> str:
    """The settings of the pages as an office sets them."""
    changed = text.replace('"Consumer price index office"', EDITED["name"]).replace("Digits: 2", "Digits: 0")
    assert changed.count("My Office") == changed.count("Digits: 0") == 1
    return changed


def built(folder: Path, to: Path) -> Path:
    """The package of a folder."""
    words = ["dpkg-deb", "--root-owner-group", "-Znone", "--build", str(folder), str(to)]
    subprocess.run(words, stdout=subprocess.DEVNULL, check=True)
    return to


def written(root: Path, files: dict[str, str]) -> None:
    for name, text in files.items():
        (root / name).parent.mkdir(parents=True, exist_ok=True)
        (root / name).write_text(text)


@pytest.fixture(scope="module")
def first(tmp_path_factory: pytest.TempPathFactory) -> Path:
    """A package as version 1.0 was one."""
    folder = tmp_path_factory.mktemp("first")
    control = "Package: cpi\nVersion: 1.0\nArchitecture: amd64\nMaintainer: nobody\nDescription: the first\n"
    written(folder / "cpi", {**FIRST, "DEBIAN/control": control, "DEBIAN/conffiles": "/etc/cpi/office.conf\n"})
    return built(folder / "cpi", folder / "cpi.deb")


@pytest.fixture(scope="module")
def later(package: Path, tmp_path_factory: pytest.TempPathFactory) -> Path:
    """The package of today under a later version."""
    folder = tmp_path_factory.mktemp("later")
    subprocess.run(["dpkg-deb", "--raw-extract", package, folder / "cpi"], check=True)
    control = folder / "cpi/DEBIAN/control"
    lines = control.read_text().splitlines(keepends=True)
    control.write_text("".join("Version: 99\n" if line.startswith("Version: ") else line for line in lines))
    return built(folder / "cpi", folder / "cpi.deb")


@pytest.fixture
def root(first: Path, tmp_path: Path) -> Path:
    """A root of its own, with an office of version 1.0."""
    if os.geteuid() != 0:
        pytest.skip("dpkg --root asks for root")
    dpkg(tmp_path, "--install", first)
    written(tmp_path, KEPT)
    return tmp_path


def read(root: Path, name: str) -> str:
    return (root / name).read_text()


def lost(root: Path) -> list[str]:
    """What of an office's own files isn't there as it was."""
    return [name for name, text in KEPT.items() if not (root / name).exists() or read(root, name) != text]


def test_an_upgrade_of_an_office_changes_no_setting_and_asks_nothing(root: Path, package: Path, later: Path) -> None:
    """Neither from version 1.0, which had the settings of the pages among its own files, nor from this one."""
    settings = {"etc/cpi/office.conf": OFFICE_CONF.replace("CET-1CEST,M3.5.0,M10.5.0/3", "EET-2")}
    written(root, {**settings, "usr/share/cpi/web/config.js": edited(CONFIG_JS)})
    settings["etc/cpi/config.js"] = edited(CONFIG_JS)
    told = dpkg(root, "--install", package)
    assert "cpi: /etc/cpi/config.js has what this office had set in /usr/share/cpi/web/config.js\n" in told
    assert "cpi: the website in /usr/share/cpi/web/published stays there; the place for it is /var/lib/cpi-site" in told
    for upgraded in (package, later):
        assert "config.js" not in dpkg(root, "--install", upgraded)
        assert {name: read(root, name) for name in settings} == settings
        assert os.readlink(root / "usr/share/cpi/web/config.js") == "/etc/cpi/config.js"
        assert sorted(os.listdir(root / "etc/cpi")) == ["config.js", "desk-key", "office.conf"]
        assert lost(root) == []


def test_an_upgrade_that_is_called_off_loses_no_setting(
    root: Path, package: Path, tmp_path_factory: pytest.TempPathFactory
) -> None:
    """The new files were unpacked, and nothing else done; the same upgrade is then tried again."""
    written(root, {"usr/share/cpi/web/config.js": edited(CONFIG_JS)})
    dpkg(root, "--unpack", package)
    dpkg(root, "--unpack", package)
    dpkg(root, "--configure", "cpi")
    assert read(root, "etc/cpi/config.js") == edited(CONFIG_JS)
    assert lost(root) == []


def test_settings_that_nobody_changed_are_those_of_the_package(root: Path, package: Path) -> None:
    assert "config.js" not in dpkg(root, "--install", package)
    assert read(root, "etc/cpi/config.js") == (ROOT / "web/config.js").read_text()
    # (the clock of version 1.0 was in its file: the office goes on by it)
    assert read(root, "etc/cpi/office.conf") == OFFICE_CONF


def test_a_first_installation_has_settings_without_a_clock_and_says_so(
    package: Path, later: Path, tmp_path: Path
) -> None:
    """They are the office's own from then on: a later package neither asks nor changes them."""
    told = dpkg(tmp_path, "--install", package)
    assert read(tmp_path, "etc/cpi/office.conf") == (ROOT / "ops/office.conf").read_text()
    assert not re.search("^CPI_ZONE", read(tmp_path, "etc/cpi/office.conf"), re.M)
    assert (
        "cpi: set the office's clock before its next start, by a line CPI_ZONE=Europe/Prague in /etc/cpi/office" in told
    )
    assert "(before 1.1" not in told
    settings = (ROOT / "ops/office.conf").read_text() + "CPI_ZONE=UTC0\nCPI_KEEP_DAYS=99\n"
    written(tmp_path, {"etc/cpi/office.conf": settings})
    assert "office's clock" not in dpkg(tmp_path, "--install", later)
    assert read(tmp_path, "etc/cpi/office.conf") == settings
    assert "warning" not in dpkg(tmp_path, "--remove", "cpi") and read(tmp_path, "etc/cpi/office.conf") == settings
    dpkg(tmp_path, "--purge", "cpi")
    assert not (tmp_path / "etc/cpi").exists()


def test_an_upgrade_says_which_settings_are_to_be_made(root: Path, package: Path) -> None:
    settings = re.sub("CPI_ZONE=.*\n", "CPI_DESK_FRONT=https://prices.example/desk/\n", OFFICE_CONF)
    written(root, {"etc/cpi/office.conf": settings})
    told = dpkg(root, "--install", package)
    assert "(before 1.1 an office without this line had CPI_ZONE=UTC0)" in told
    assert "the front comes to the desk's pages by a port" in told and read(root, "etc/cpi/office.conf") == settings
    written(root, {"etc/cpi/office.conf": f"{settings}CPI_ZONE=UTC0\nCPI_DESK_LISTEN=/run/cpi-desk/front.sock\n"})
    told = dpkg(root, "--install", package)
    assert "CPI_ZONE" not in told and "by a port" not in told


def test_removal_and_purge_leave_what_is_the_offices(root: Path, package: Path) -> None:
    """A removal leaves the settings too. By a purge dpkg tells which of the package's folders the office left files in:
    that of the key, and that of a website of version 1.0."""
    dpkg(root, "--install", package)
    written(root, {"etc/cpi/config.js": edited(CONFIG_JS)})
    assert "warning" not in dpkg(root, "--remove", "cpi")
    assert read(root, "etc/cpi/config.js") == edited(CONFIG_JS)
    assert (lost(root), (root / "etc/cpi/office.conf").exists()) == ([], True)
    assert warned(dpkg(root, "--purge", "cpi")) == ["/usr/share/cpi/web", "/etc/cpi"]
    assert (lost(root), os.listdir(root / "etc/cpi")) == ([], ["desk-key"])


def warned(told: str) -> list[str]:
    """The folders that dpkg tells of as it purges; it warns of nothing else."""
    folders = re.findall(r"warning: while removing cpi, directory '(.*)' not empty so not removed\n", told)
    assert told.count("warning") == len(folders), told
    return folders


def test_a_purge_of_this_version_warns_of_the_keys_folder_only(root: Path, package: Path) -> None:
    shutil.rmtree(root / "usr/share/cpi/web/published")
    dpkg(root, "--install", package)
    assert warned(dpkg(root, "--purge", "cpi")) == ["/etc/cpi"]
    assert lost(root) == ["usr/share/cpi/web/published/index.html"]


def test_the_folders_of_an_office_are_made_and_empty_ones_go(package: Path, tmp_path: Path) -> None:
    """They belong to the office's user, and the website can be read by everybody."""
    if os.geteuid() != 0:
        pytest.skip("dpkg --root asks for root")
    dpkg(tmp_path, "--install", package)
    user = next(line for line in read(tmp_path, "etc/passwd").splitlines() if line.startswith("cpi:")).split(":")
    folders = {name: (tmp_path / "var/lib" / name).stat() for name in ("cpi", "cpi-backup", "cpi-site")}
    assert {(str(folder.st_uid), str(folder.st_gid)) for folder in folders.values()} == {(user[2], user[3])}
    assert {name: folder.st_mode & 0o777 for name, folder in folders.items()} == {
        "cpi": 0o700, "cpi-backup": 0o700, "cpi-site": 0o755,
    }  # fmt: skip
    (tmp_path / "var/lib/cpi-site").chmod(0o775)
    dpkg(tmp_path, "--install", package)
    assert (tmp_path / "var/lib/cpi-site").stat().st_mode & 0o777 == 0o775
    dpkg(tmp_path, "--purge", "cpi")
    assert [name for name in folders if (tmp_path / "var/lib" / name).exists()] == []
