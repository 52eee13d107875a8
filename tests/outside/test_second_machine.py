"""A machine that is killed at random moments while twenty collectors send, and the second one that goes on: two networks,
between which rsync and ssh carry the second copy, with a key that may do nothing else."""

from __future__ import annotations

import os
import random
import shutil
import statistics
import subprocess
import time
from collections.abc import Callable, Iterator
from pathlib import Path
from typing import NamedTuple

import pytest

from cpi_tools.office.program import Cpi
from cpi_tools.guard.copies.second_copies import NAMES, OFFICE, state_of
from lib.places import ROOT
from tools.accidents import ACCIDENTS, ANSWERED, SAID, WANTED, priced, prices_in
from tools.offices import lived
from tools.ran import run
from tools.second_machines import TOOL, Kill, Machine, kill_and_promote, machine, surveyed, wait_for
from .systems import LINKS, NETWORK_NAMES, SECOND, two_networks

PORT = 2222

SETTINGS = f"""
Port {PORT}
ListenAddress {SECOND}
HostKey {{folder}}/host
AuthorizedKeysFile {{folder}}/authorized
PidFile none
UsePAM no
StrictModes no
PasswordAuthentication no
PermitRootLogin prohibit-password
"""


class Networks(NamedTuple):
    """Two networks: the words that run a command in each, and those by which the first one follows to a folder of the
    second one."""

    first: tuple[str, ...]
    second: tuple[str, ...]
    follow: tuple[str, ...]
    dest: Path


@pytest.fixture
def networks(needed: Callable[[str], str], tmp_path: Path) -> Iterator[Networks]:
    """Two networks, and sshd in the second one, which lets a key of the first one use rsync in one folder."""
    for name in ("ip", "rsync", "rrsync", "sshd", "ssh-keygen"):
        needed(name)
    for name in ("host", "key"):
        words = ["ssh-keygen", "-q", "-t", "ed25519", "-N", "", "-f", str(tmp_path / name)]
        subprocess.run(words, check=True)
    dest = tmp_path / "dest"
    dest.mkdir()
    key, host = ((tmp_path / f"{name}.pub").read_text() for name in ("key", "host"))
    command = f"PATH={ROOT}:$PATH {ROOT}/ops/cpi-receive {dest}"
    (tmp_path / "authorized").write_text(f'restrict,command="{command}" {key}')
    (tmp_path / "known").write_text(f"[{SECOND}]:{PORT} {host}")
    (tmp_path / "sshd_config").write_text(SETTINGS.format(folder=tmp_path))
    Path("/run/sshd").mkdir(mode=0o755, exist_ok=True)
    enter = [("ip", "netns", "exec", name) for name in NETWORK_NAMES]
    ssh = f"ssh -p {PORT} -i {tmp_path}/key -o UserKnownHostsFile={tmp_path}/known -o BatchMode=yes -o ConnectTimeout=5"
    with two_networks():
        sshd = subprocess.Popen([*enter[1], needed("sshd"), "-D", "-e", "-f", str(tmp_path / "sshd_config")])
        try:
            yield Networks(enter[0], enter[1], (f"root@{SECOND}:.", "--ssh", ssh), dest)
        finally:
            sshd.terminate()
            sshd.wait()


def told_of(kills: list[Kill]) -> str:
    """The figures of some kills."""
    answered, load = sum(kill.answered for kill in kills), os.getloadavg()[0]
    lines = [f"{len(kills)} kills, {answered:,} answered prices, load {load:.1f}"]
    for name in ("age", "quiet", "first_answer", "missing", "missing_after"):
        ordered = sorted(float(getattr(kill, name)) for kill in kills)
        lines.append(f"{name:14} median {statistics.median(ordered):6.2f}, greatest {ordered[-1]:6.2f}")
    return "\n".join(lines)


@pytest.mark.timeout(12 * 3600)
def test_kills(
    cpi: Cpi, networks: Networks, kills: int, every: int, tmp_path: Path, capsys: pytest.CaptureFixture[str]
) -> None:
    """Of all that was answered before a kill, nothing is missing once it was sent again."""
    drawn, found = random.Random(67), list[Kill]()
    survey = surveyed(cpi, tmp_path / "survey.db")
    for number in range(kills):
        first = machine(tmp_path / f"first-{number}", networks.first)
        second = machine(tmp_path / f"second-{number}", networks.second)
        for path in networks.dest.iterdir():
            shutil.rmtree(path) if path.is_dir() else path.unlink()
        shutil.copy(survey, first.office)
        found.append(kill_and_promote(cpi, first, second, networks.follow, networks.dest, drawn, every))
        shutil.rmtree(first.folder)
        shutil.rmtree(second.folder)
        with capsys.disabled():
            print(f"\n{told_of(found)}", flush=True)
        assert found[-1].missing_after == 0


@pytest.mark.parametrize("accident", ACCIDENTS)
def test_an_accident_of_the_first_machine_stays_there(
    accident: str, cpi: Cpi, networks: Networks, tmp_path: Path
) -> None:
    """While its follower runs. What was answered before is on the second machine, and a promotion has it."""
    first, second = (machine(tmp_path / name, enter) for name, enter in zip(("first", "second"), networks[:2]))
    assert not [reply for reply in cpi.replay(lived(), db=first.office) if "refused" in reply]
    backup = first.folder / "backup.db"
    first.ran(TOOL, "backup", str(first.office), str(backup), "--program", str(cpi.path))
    priced(cpi, first.office, 1, ANSWERED)
    words = [*first.enter, TOOL, "follow", str(first.office), *networks.follow, "--every", "1"]
    with subprocess.Popen(words, stdout=subprocess.PIPE, stderr=subprocess.PIPE, text=True) as running:
        assert running.stdout and running.stderr
        wait_for(lambda: len(state_of(networks.dest).notes) == 2, "no copy came")
        ACCIDENTS[accident](cpi, first.office, backup)
        # (a round within the accident has another line)
        told = next(line for line in running.stderr if SAID[accident] in line)
        assert told.endswith("; it goes on to try\n")
        before = max(note.round for note in state_of(networks.dest).notes.values())
        time.sleep(6)
        assert max(note.round for note in state_of(networks.dest).notes.values()) == before
        running.terminate()
        assert running.stderr.read() == ""
    second.ran(TOOL, "promote", str(networks.dest), "--office", str(second.office), "--program", str(cpi.path))
    assert prices_in(cpi, second.office) == WANTED


def test_a_line_that_is_down_is_one_line_and_it_goes_on_by_itself(cpi: Cpi, networks: Networks, tmp_path: Path) -> None:
    """The second machine's network goes for some rounds, and comes back."""
    first = Machine(tmp_path / "first", networks.first, 0)
    first.folder.mkdir()
    surveyed(cpi, first.office)
    words = [
        str(Path(__file__).parents[2] / "cpi-tools"),
        "follow",
        str(first.office),
        *networks.follow,
        "--every",
        "1",
    ]
    with subprocess.Popen([*first.enter, *words], stdout=subprocess.PIPE, stderr=subprocess.PIPE, text=True) as running:
        assert running.stdout and running.stderr and running.stdout.readline()
        down, up = (["ip", "-n", NETWORK_NAMES[1], "link", "set", LINKS[1], how] for how in ("down", "up"))
        subprocess.run(down, check=True)
        told = running.stderr.readline()
        assert told.startswith(f"cpi-tools follow: root@{SECOND}:.: ssh: connect to host {SECOND} port {PORT}: ")
        time.sleep(8)
        before = max(note.round for note in state_of(networks.dest).notes.values())
        subprocess.run(up, check=True)
        assert running.stdout.readline().startswith(f"root@{SECOND}:.: copied ")
        assert max(note.round for note in state_of(networks.dest).notes.values()) > before
        running.terminate()
        assert running.stderr.read() == ""


def test_rclone_carries_to_a_store(needed: Callable[[str], str], cpi: Cpi, tmp_path: Path) -> None:
    """A store that is a folder here, as rclone has it."""
    needed("rclone")
    office = surveyed(cpi, tmp_path / "office.db")
    (tmp_path / "store").mkdir()
    for name in (NAMES[0], NAMES[1], NAMES[0]):
        ran = run(None, "follow", office, f"rclone::local:{tmp_path}/store", "--once")
        assert (ran.status, ran.err) == (0, "")
        assert state_of(tmp_path / "store").newest() == name
        assert (tmp_path / "store" / name / OFFICE).read_bytes() == office.read_bytes()
    (tmp_path / "second").mkdir()
    ran = run(cpi, "promote", tmp_path / "store", "--office", tmp_path / "second/office.db")
    assert (ran.status, ran.err) == (0, "")
    assert run(None, "follow", office, f"rclone::local:{tmp_path}/store", "--once").status == 4
