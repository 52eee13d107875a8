"""The commands of docs/run/RUNNING.md, as they stand."""

from __future__ import annotations

import os
import re
import subprocess
from pathlib import Path

from cpi_tools.office.copying import log_beside
from cpi_tools.office.program import Cpi
from lib.places import ROOT
from lib.sample import Sample
from lib.served import free_port
from .accidents import killed_after
from .loads import served


def block_behind(guide: str, words: str) -> str:
    """The first indented block of a guide behind some words."""
    text = (ROOT / guide).read_text(encoding="utf-8").partition(words)[2]
    match = re.search(r"\n\n((?:    .*\n)+)", text)
    assert match, f"{guide} has no commands behind {words}"
    return re.sub("^    ", "", match[1], flags=re.M)


def fenced_behind(guide: str, words: str) -> str:
    """The first block of commands with a fence behind some words."""
    match = re.search(
        r"^```sh\n(.*?)^```$", (ROOT / guide).read_text(encoding="utf-8").partition(words)[2], re.M | re.S
    )
    assert match, f"{guide} has no commands behind {words}"
    return match[1]


def ran(commands: str, folder: Path, cpi: Cpi) -> subprocess.CompletedProcess[str]:
    """Commands in a folder that has the program, the tools and the examples."""
    for name in ("cpi-tools", "examples"):
        if not (folder / name).exists():
            (folder / name).symlink_to(ROOT / name)
    if not (folder / "cpi").exists():
        (folder / "cpi").symlink_to(cpi.path)
    kept = {**os.environ, "CPI": str(cpi.path)}
    return subprocess.run(["bash", "-ec", commands], cwd=folder, env=kept, capture_output=True, text=True, check=False)


def test_an_office_is_backed_up_and_drilled_while_it_is_served(cpi: Cpi, tmp_path: Path) -> None:
    """The commands of RUNNING, over the office of an example that is being served."""
    made = "mkdir out && ./cpi replay --db out/office.db < examples/table.csv > replies.txt"
    assert ran(made, tmp_path, cpi).returncode == 0
    commands = "".join(fenced_behind("docs/run/RUNNING.md", heading) for heading in ("## A backup", "## A drill"))
    assert commands.count("./cpi-tools ") == 2
    with served(cpi, tmp_path / "out/office.db", free_port()):
        told = ran(commands, tmp_path, cpi)
    assert told.returncode == 0, told.stderr
    assert "backup/office.db: nothing is wrong; 3 tables with 16 rows and 6 carried prices computed" in told.stdout


def test_a_backup_is_restored_twice(cpi: Cpi, office: Path, tmp_path: Path) -> None:
    """By the commands of RUNNING, but for those of systemd, each time with another log beside the file."""
    made = ran("./cpi-tools backup office.db backup/office.db", tmp_path, cpi)
    assert (made.returncode, made.stderr) == (0, "")
    restore = block_behind("docs/run/RUNNING.md", "## To restore")
    stop, command, begin = restore.splitlines()
    assert stop == "systemctl stop cpi-follow.service cpi-desk.service cpi.service"
    assert begin == "systemctl start cpi.service"
    backup = tmp_path / "backup/office.db"
    command = re.sub(
        r"/var/lib/cpi-backup/office-[0-9-]+\.db", str(backup), re.sub("^cpi-tools", "./cpi-tools", command)
    )
    assert str(backup) in command
    for turn in (1, 2):
        killed_after(cpi, office, 300)
        told = ran(f"{command} --office office.db --yes", tmp_path, cpi)
        assert (told.returncode, told.stderr) == (0, "")
        assert office.read_bytes() == backup.read_bytes() and not log_beside(office).exists()
        asides = [*tmp_path.glob("office.db.before-*")]
        assert len(asides) == turn
        assert all(sorted(os.listdir(aside)) == ["office.db", "office.db-wal"] for aside in asides)


def test_each_help_has_an_example_and_narrow_lines(sample: Sample) -> None:
    tools = ("backup", "drill", "probe", "doctor", "keys", "calendar", "desk", "explain", "publish", "take-in", "take-out",
             "next-year", "follow", "promote", "gaps", "restore")  # fmt: skip
    for words in sample.of([[], *([tool] for tool in tools)], 5, "tools"):
        told = subprocess.run([ROOT / "cpi-tools", *words, "--help"], capture_output=True, text=True, check=True).stdout
        assert re.search(r"^example: cpi-tools [\w-]+ .*\boffice\.db\b", told, re.M), told
        assert [line for line in told.splitlines() if len(line) > 100] == []
        assert ("exit status" in told) == bool(words)
