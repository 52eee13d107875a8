"""Why a round of `cpi-tools follow` wasn't carried: the line is that of the program that failed, whatever ssh warned of
before, and another cause is another line."""

from __future__ import annotations

import os
import shutil
from pathlib import Path

import pytest

from cpi_tools.guard.copies.carriers import CAME, CHANGES, SSH, Rsync, carrier_of
from cpi_tools.guard.follow import Follower
from cpi_tools.guard.copies.places import Elsewhere, Folder
from cpi_tools.office.program import Cpi
from cpi_tools.guard.promote import promote
from cpi_tools.guard.copies.second_copies import NAMES, promotion_of, state_of
from cpi_tools.text.terminal import Fault
from lib.places import ROOT
from .disks import fill, mounted
from .second_machines import receiver

WARNED = "hostfile_replace_entries: link /a/known_hosts to /a/known_hosts.old: Operation not permitted"
WARN = f"echo '{WARNED}' >&2"

by_rsync = pytest.mark.skipif(
    not (shutil.which("rsync") and shutil.which("rrsync")), reason="rsync carries to the second machine"
)
as_root = pytest.mark.skipif(os.geteuid() != 0, reason="root mounts a disk")


CAUSES = {
    "full-disk": (
        f"{WARNED}\n"
        'rsync: [receiver] write failed on "/a/copy-1/office.db": No space left on device (28)\n'
        "rsync error: error in file IO (code 11) at receiver.c(657) [receiver=3.2.7]\n"
        "rsync: [sender] write error: Broken pipe (32)\n",
        'rsync: [receiver] write failed on "/a/copy-1/office.db": No space left on device (28)',
    ),
    "receive": (
        f"{WARNED}\ncpi-tools receive: /a/copy-2/office.db: No space left on device\n"
        "rsync error: syntax or usage error (code 1) at io.c(1)\n",
        "cpi-tools receive: /a/copy-2/office.db: No space left on device",
    ),
    "cpi-receive": (
        f"{WARNED}\ncpi-receive: another carrying to /a isn't done\n"
        "rsync: connection unexpectedly closed (0 bytes received so far) [sender]\nrsync error: x (code 12)\n",
        "cpi-receive: another carrying to /a isn't done",
    ),
    "rrsync": (
        "Welcome to this machine\n/usr/bin/rrsync error: option --delete has been disabled on this server.\n"
        "rsync: connection unexpectedly closed (0 bytes received so far) [sender]\n",
        "/usr/bin/rrsync error: option --delete has been disabled on this server.",
    ),
    "host-key": (
        "@@@@@@@@\n@ WARNING: REMOTE HOST IDENTIFICATION HAS CHANGED! @\nHost key verification failed.\n"
        "rsync: connection unexpectedly closed (0 bytes received so far) [sender]\nrsync error: unexplained error\n",
        "Host key verification failed.",
    ),
    "closed": (
        "Warning: Permanently added 'second' (ED25519) to the list of known hosts.\n"
        "rsync: connection unexpectedly closed (0 bytes received so far) [sender]\nrsync error: unexplained error\n",
        "rsync: connection unexpectedly closed (0 bytes received so far) [sender]",
    ),
    "silence": (
        "[sender] io timeout after 30 seconds -- exiting\nrsync error: timeout in data send/receive (code 30)\n",
        "[sender] io timeout after 30 seconds -- exiting",
    ),
}
"""What rsync, ssh and the second machine print, and the line that says why."""


@pytest.mark.parametrize("name", CAUSES)
def test_the_line_is_the_cause(name: str, tmp_path: Path, monkeypatch: pytest.MonkeyPatch) -> None:
    output, cause = CAUSES[name]
    (tmp_path / "bin").mkdir()
    (tmp_path / "bin/rsync").write_text(f"#!/bin/sh\ncat {tmp_path}/output >&2\nexit 12\n")
    (tmp_path / "bin/rsync").chmod(0o755)
    (tmp_path / "output").write_text(output)
    monkeypatch.setenv("PATH", f"{tmp_path}/bin:{os.environ['PATH']}")
    carrier = carrier_of("second:a")
    assert carrier
    with pytest.raises(Fault) as fault:
        carrier.fetch(tmp_path)
    assert str(fault.value) == f"second:a: {cause}"


@by_rsync
@as_root
def test_a_full_disk_of_the_second_machine_is_said_and_then_what_comes_after_it(
    office: Path, tmp_path: Path, capsys: pytest.CaptureFixture[str]
) -> None:
    """The disk is full for two rounds, then the place is another's: two lines."""
    disk = tmp_path / "disk"
    disk.mkdir()
    with mounted(disk, "-t", "tmpfs", "-o", "size=8m", "none"):
        dest = disk / "office"
        dest.mkdir()
        shell = receiver(tmp_path / "shell", dest, WARN)
        follower = Follower(office, Elsewhere(Rsync("second", ".", shell), tmp_path / "room"))
        other = fill(disk)
        for _ in range(2):
            rounds(follower)
        (line,) = capsys.readouterr().err.splitlines()
        assert "No space left on device" in line and WARNED not in line
        other.unlink()
        assert follower.round() == "" and state_of(dest).newest() == NAMES[0]
        receiver(tmp_path / "shell", dest, f"{WARN}\necho 'cpi-receive: it rests' >&2; exit 1")
        rounds(follower)
        assert [line.rpartition(": ")[2] for line in capsys.readouterr().err.splitlines()] == [
            "it rests; it goes on to try"
        ]


def rounds(follower: Follower) -> None:
    """A round that fails, as the follower says it."""
    with pytest.raises(Fault) as fault:
        follower.round()
    follower.tell(fault.value)


def test_a_cause_is_said_once_whatever_its_numbers_are(office: Path, capsys: pytest.CaptureFixture[str]) -> None:
    follower = Follower(office, Folder(office.parent))
    for text in ("a waits 30 seconds", "a waits 31 seconds", "b waits", "b waits", "a waits 30 seconds"):
        follower.tell(Fault(text))
    assert [line.partition(": ")[2][0] for line in capsys.readouterr().err.splitlines()] == ["a", "b", "a"]


def test_ssh_leaves_the_list_of_machines_alone_and_the_guide_gives_it_to_the_user() -> None:
    """Root's file in the folder of `cpi` had ssh warn at each connection."""
    assert "-o UpdateHostkeys=no" in SSH
    guide = (ROOT / "docs/run/SECOND-MACHINE.md").read_text()
    (made,) = [line for line in guide.splitlines() if line.startswith("    ") and "ssh-keyscan" in line]
    assert made.strip().startswith("runuser -u cpi -- ") and made.endswith("> /var/lib/cpi/.ssh/known_hosts'")


@as_root
def test_changes_that_took_the_last_room_are_in_the_way_of_no_promotion(cpi: Cpi, office: Path, tmp_path: Path) -> None:
    disk = tmp_path / "disk"
    disk.mkdir()
    with mounted(disk, "-t", "tmpfs", "-o", "size=2200k", "none"):
        follower = Follower(office, Folder(disk))
        assert [follower.round(), follower.round()] == ["", ""]
        (disk / CAME).mkdir()
        fill(disk, CHANGES)
        promote(cpi, disk, tmp_path / "second.db")
        assert promotion_of(disk) and not (disk / CHANGES).exists()
    assert (tmp_path / "second.db").read_bytes() == office.read_bytes()
