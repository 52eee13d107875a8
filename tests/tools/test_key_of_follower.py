"""What somebody can do on the second machine who has taken the first one, with its follower's key: carry pages to the two
copies, read them, and nothing else. `cpi-receive` is the command of that key."""

from __future__ import annotations

import json
import os
import shutil
import subprocess
import tempfile
from collections.abc import Iterator
from pathlib import Path

import pytest

from cpi_tools.guard.copies.carriers import CAME, CHANGES, Rsync, put_in
from cpi_tools.guard.follow import Follower
from cpi_tools.guard.copies.generations import LastDrill, last_drill_of, write_last_drill
from cpi_tools.guard.copies.mirrors import PAGE
from cpi_tools.guard.copies.places import Elsewhere, Folder
from cpi_tools.guard.copies.second_copies import (
    DRILLED,
    LOG,
    MARK,
    NAMES,
    NOTE,
    OFFICE,
    RECEIVED,
    Sum,
    fault_of,
    note_in,
    state_of,
    write_promotion,
)
from cpi_tools.office.program import Cpi
from cpi_tools.text.terminal import Fault
from lib.places import ROOT
from .offices import LOAD_KEY, LOAD_MONTH
from .second_machines import led_away, receiver

MINE = b"ssh-ed25519 AAAAC3NzaC1lZDI1NTE5AAAAIMine of an attacker\n"
OTHER = 65534
"""The number of a user who isn't root."""

pytestmark = pytest.mark.skipif(
    not (shutil.which("rsync") and shutil.which("rrsync")), reason="rsync carries to the second machine"
)


class Second:
    """The second machine: the home of its user with `.ssh`, and the place of the copies in it; and what stands for ssh to
    it on the first one."""

    def __init__(self, cpi: Cpi, office: Path, folder: Path):
        self.cpi, self.price = cpi, 500
        self.home, self.first = folder / "home", folder / "first"
        self.dest = self.home / "office"
        for each in (self.home, self.first, self.dest, self.home / ".ssh"):
            each.mkdir(mode=0o700)
        (self.home / ".ssh/authorized_keys").write_text("the follower's\n")
        self.source = self.first / OFFICE
        shutil.copy(office, self.source)
        self.take_price()
        self.shell = receiver(folder / "shell", self.dest)
        self.follower = Follower(self.source, Elsewhere(Rsync("second", ".", self.shell), folder / "room"))

    def take_price(self) -> None:
        """The office takes another price."""
        self.price += 1
        record = f"60,{LOAD_KEY},quote,1,{LOAD_MONTH},price,{self.price}"
        assert ["receipt" in reply for reply in self.cpi.replay([record], db=self.source)] == [True]

    def copied(self) -> None:
        """Two whole copies, made without rsync, which takes longer."""
        follower = Follower(self.source, Folder(self.dest))
        assert [follower.round(), follower.round()] == ["", ""]
        (self.dest / RECEIVED).touch(0o600)
        (self.dest / CAME).mkdir(mode=0o700)

    def rounds(self, count: int = 3) -> None:
        """Rounds of the follower by the key, each with another price; the third one carries changed pages only."""
        for _ in range(count):
            self.take_price()
            assert self.follower.round() == ""
            self.is_whole()

    def is_whole(self) -> None:
        """The newest copy has the bytes of the office."""
        state = state_of(self.dest)
        name = state.newest()
        assert name and not state.promotion
        assert fault_of(self.dest / name / OFFICE, state.notes[name]) == ""
        assert (self.dest / name / OFFICE).read_bytes() == self.source.read_bytes()

    def rsync(self, *words: object) -> "subprocess.CompletedProcess[str]":
        """What rsync of the first machine tells, by this key."""
        ran = ["rsync", f"--rsh={self.shell}", *map(str, words)]
        return subprocess.run(ran, cwd=self.first, capture_output=True, text=True, check=False)

    def asked(self, command: str) -> "subprocess.CompletedProcess[str]":
        """What the key runs if it asks for a command."""
        return subprocess.run(
            [self.shell, "second", command], stdin=subprocess.DEVNULL, capture_output=True, text=True, check=False
        )

    def files(self) -> dict[str, bytes]:
        """All that is on it but what lies in the folder for changes: names and bytes, and where a link leads."""
        files = dict[str, bytes]()
        for path in self.home.rglob("*"):
            name = str(path.relative_to(self.home))
            if path.is_symlink():
                files[name] = b"-> " + os.readlink(path).encode()
            elif path.is_file() and path.parent != self.dest / CAME:
                files[name] = path.read_bytes()
        return files


@pytest.fixture
def second(cpi: Cpi, office: Path, tmp_path: Path) -> Second:
    """A second machine with two whole copies."""
    found = Second(cpi, office, tmp_path)
    found.copied()
    return found


def changes_of(second: Second, name: str, page: bytes) -> Path:
    """A file of changes on the first machine, as it has to be for a copy: its first page is another one."""
    before = json.loads((second.dest / name / NOTE).read_text())
    note = {**before, "round": before["round"] + 9}
    head = {"name": name, "before": json.dumps(before), "note": json.dumps(note), "file": [1, [0]], "log": [1, []]}
    assert note_in(json.dumps(note))
    path = second.first / "changes"
    path.write_bytes(json.dumps(head).encode() + b"\n" + page.ljust(PAGE, b"\n"))
    return path


def linked(folder: Path, name: str, to: object) -> Path:
    """A link in a folder that is made."""
    folder.mkdir(parents=True, exist_ok=True)
    (folder / name).symlink_to(str(to))
    return folder / name


@pytest.mark.parametrize("to", ["near", "far"])
def test_a_link_does_not_lead_out_of_the_copies(to: str, second: Second, tmp_path: Path) -> None:
    """Once this wrote the attacker's key to authorized_keys2, and gave a shell."""
    target = second.home / ".ssh/authorized_keys2"
    leads = os.path.relpath(target, second.dest / NAMES[0]) if to == "near" else target
    for name in (OFFICE, LOG):
        linked(tmp_path / "x" / NAMES[0], name, leads)
        linked(tmp_path / "y", name, leads)
    linked(tmp_path / "x", NAMES[1], second.home / ".ssh")
    changes = changes_of(second, NAMES[0], MINE)
    # as the attack did it, and then as it would have to be done now
    second.rsync("-rl", f"{tmp_path}/x/", "second:.")
    second.rsync("-rl", f"{tmp_path}/y/", f"second:./{NAMES[0]}/")
    assert (second.dest / NAMES[0] / OFFICE).is_symlink()
    ran = second.rsync(changes, "second:.")
    assert ran.returncode != 0 and f"{NAMES[0]}/{OFFICE}: it isn't a plain file" in ran.stderr
    assert sorted(path.name for path in (second.home / ".ssh").iterdir()) == ["authorized_keys"]
    assert (second.home / ".ssh/authorized_keys").read_text() == "the follower's\n"
    assert all(MINE not in content for content in second.files().values())
    # the follower goes on, and puts its copies right
    second.rounds()


DELETING = (
    ("-r", "--delete", "empty/", "second:."),
    ("-r", "--delete", "empty/", "second:./copy-1/"),
    ("-r", "--delete-excluded", "--exclude=*", "empty/", "second:./copy-2/"),
    ("-r", "--delete", "--force", "--backup", "--backup-dir=gone", "empty/", "second:./"),
    ("-r", "--remove-source-files", "second:./copy-1/", "taken/"),
    ("-r", "--delete-missing-args", "--ignore-missing-args", "nothing", "second:./copy-1/office.db"),
)


def test_the_copies_are_not_emptied(second: Second) -> None:
    for name in ("empty", "taken"):
        (second.first / name).mkdir()
    before = second.files()
    assert [words for words in DELETING if second.rsync(*words).returncode == 0] == []
    assert second.files() == before
    second.rounds(1)


FORGED = '{"machine": "second", "promoted": 1800000000, "copied": 1800000000}\n'


FORGING = (
    ("promoted.json", "second:."),
    ("promoted.json", "second:promoted.json"),
    ("promoted.json", "second:./copy-1/../promoted.json"),
    ("promoted.json", "second:/promoted.json"),
    ("-R", "./promoted.json", "second:."),
    ("--inplace", "promoted.json", "second:./"),
    ("--temp-dir=..", "promoted.json", "second:./copy-1/"),
    ("--backup", "--backup-dir=..", "promoted.json", "second:./copy-1/"),
    ("--rsync-path=rsync --log-file=promoted.json", "second:./copy-1/office.db.json", "."),
    ("--rsync-path=rsync --log-file=../promoted.json", "promoted.json", "second:./copy-1/"),
)


def test_no_mark_of_a_promotion_is_made_by_the_key(second: Second) -> None:
    """Once it stopped the first office, and would be in the way of a promotion."""
    (second.first / MARK).write_text(FORGED)
    for words in FORGING:
        second.rsync(*words)
        assert {path.name for path in second.dest.iterdir()} == {*NAMES, RECEIVED, CAME}, words
    assert state_of(second.dest).promotion is None and second.follower.promotion() == ""
    second.rounds()
    # the mark that `promote` writes is read by it, and stays
    write_promotion(second.dest, 1_800_000_000)
    before = (second.dest / MARK).read_bytes()
    for words in FORGING:
        second.rsync(*words)
    assert (second.dest / MARK).read_bytes() == before and "was promoted" in second.follower.promotion()


COMMANDS = (
    "id",
    "sh",
    "scp -t .",
    "/usr/lib/openssh/sftp-server",
    "rsync --daemon .",
    "rsync --server --daemon .",
    "rsync --server -e.LsfxCIvu . ..",
    "rsync --server -e.LsfxCIvu . ../",
    "rsync --server -e.LsfxCIvu . /etc/",
    "rsync --server -e.LsfxCIvu . .ssh/",
    "rsync --server -e.LsfxCIvu . ./copy-1/../../.ssh/",
    "rsync --server -e.LsfxCIvu . copy-3",
    "rsync --server -e.LsfxCIvu . ../.ssh copy-1",
    "rsync --server -e.LsfxCIvu . .; id",
    "rsync --server -e.LsfxCIvu . $(id)",
    "rsync --server --sender -e.LsfxCIvu . ../.ssh/",
    "rsync --server --no-munge-links -le.LsfxCIvu . copy-1/",
    "rsync --server -Ke.LsfxCIvu . copy-1/",
    "rsync --server --write-devices -e.LsfxCIvu . copy-1/",
    "",
)


def test_the_key_runs_nothing_else(second: Second) -> None:
    before = second.files()
    for command in COMMANDS:
        ran = second.asked(command)
        told = ran.stdout + ran.stderr
        assert ran.returncode != 0 and "uid=" not in told and "the follower's" not in told, (command, told)
    assert second.files() == before


# ---- which generation passed its drill there


def test_the_first_machine_reads_which_generation_passed_and_cant_say_it(second: Second) -> None:
    """A probe there sees what the second machine wrote; by the key another note goes where nobody reads it."""
    last = LastDrill("2027-01-15-080000", 1_800_000_000, Sum(1, "a"), Sum(0, "b"))
    room = second.first.parent / "room"
    write_last_drill(second.dest, last)
    second.rounds(1)
    assert last_drill_of(room) == last
    mine = second.first / DRILLED
    mine.write_text((second.dest / DRILLED).read_text().replace("2027", "2099"))
    for to in ("second:.", f"second:./{NAMES[0]}/", f"second:./{DRILLED}"):
        second.rsync(mine, to)
    assert last_drill_of(second.dest) == last
    write_last_drill(second.dest, last._replace(failed="2027-01-15-090000: bad"))
    second.rounds(2)
    assert last_drill_of(room) == last._replace(failed="2027-01-15-090000: bad")
    (second.dest / DRILLED).unlink()
    second.rounds(1)
    assert last_drill_of(room) is None


# ---- what lies there already, however it came


@pytest.mark.parametrize("how", ["link", "hard-link", "pipe", "folder"])
@pytest.mark.parametrize("what", [f"{NAMES[0]}/{OFFICE}", f"{NAMES[0]}/{LOG}", NAMES[0], CHANGES, CAME])
def test_changes_are_put_into_plain_files_only(how: str, what: str, second: Second, tmp_path: Path) -> None:
    """Nothing outside of the place is written or made, and nothing in it either."""
    changes = changes_of(second, NAMES[0], MINE)
    shutil.copy(changes, second.dest / CHANGES)
    at, outside = second.dest / what, tmp_path / "outside"
    if how in ("hard-link", "folder") and at.is_dir():
        pytest.skip("a folder has one name")
    led_away(at, outside, how)
    before = second.files()
    content = outside.read_bytes() if outside.is_file() else sorted(path.name for path in outside.rglob("*"))
    with pytest.raises(Fault, match="it isn't a (plain file|folder|file of one name)$|isn't the copy that it changes$"):
        put_in(second.dest)
    assert second.files() == before
    assert content == (outside.read_bytes() if outside.is_file() else sorted(path.name for path in outside.rglob("*")))


def test_a_link_that_leads_to_nothing_is_not_made(second: Second, tmp_path: Path) -> None:
    shutil.copy(changes_of(second, NAMES[0], MINE), second.dest / CHANGES)
    (second.dest / NAMES[0] / LOG).unlink()
    (second.dest / NAMES[0] / LOG).symlink_to(tmp_path / "made")
    with pytest.raises(Fault, match="it isn't a plain file$"):
        put_in(second.dest)
    assert not (tmp_path / "made").exists() and (second.dest / NAMES[0] / NOTE).exists()


# ---- as the guide sets it up: the place is root's, and the key's user writes to three folders of it


@pytest.fixture
def reachable() -> Iterator[Path]:
    """A folder whose path anybody can go: pytest closes its own."""
    with tempfile.TemporaryDirectory(prefix="cpi-test-") as made:
        os.chmod(made, 0o755)
        yield Path(made)


AS_OTHER = """\
#!/bin/sh
shift
PATH={root}:$PATH SSH_ORIGINAL_COMMAND="$*" exec setpriv --reuid={other} --regid={other} --clear-groups \
{root}/ops/cpi-receive {dest}
"""


@pytest.mark.skipif(os.geteuid() != 0, reason="only root acts as another user")
def test_the_place_is_roots_and_rounds_go_on(cpi: Cpi, office: Path, reachable: Path) -> None:
    second = Second(cpi, office, reachable)
    second.home.chmod(0o755)
    second.dest.chmod(0o755)
    for name in (*NAMES, CAME):
        (second.dest / name).mkdir(mode=0o700)
    (second.dest / RECEIVED).touch(0o600)
    for name in (*NAMES, CAME, RECEIVED):
        os.chown(second.dest / name, OTHER, OTHER)
    Path(second.shell).write_text(AS_OTHER.format(root=ROOT, dest=second.dest, other=OTHER))
    seen = ["setpriv", f"--reuid={OTHER}", f"--regid={OTHER}", "--clear-groups"]
    if subprocess.run([*seen, "test", "-r", ROOT / "ops/cpi-receive"], check=False).returncode:
        pytest.skip("another user can't read the repository")
    second.rounds(4)
    assert {path.name for path in second.dest.iterdir()} == {*NAMES, CAME, RECEIVED}
    ran = subprocess.run([*seen, "sh", "-c", f"echo x > {second.dest}/{MARK}"], capture_output=True, check=False)
    assert ran.returncode != 0 and not (second.dest / MARK).exists()
    write_promotion(second.dest, 1_800_000_000)
    assert (second.dest / MARK).stat().st_uid == 0
    assert "was promoted" in second.follower.promotion()
    for command in (f"rm -f {second.dest}/{MARK}", f"echo x > {second.dest}/{MARK}"):
        assert subprocess.run([*seen, "sh", "-c", command], capture_output=True, check=False).returncode != 0
    assert state_of(second.dest).promotion
