"""Two machines, of which the first has an office under load and a follower, and is killed; the second is promoted.

A machine is a folder, and words before each command that is run on it, such as those that enter a network of its own.
The clients write down each answer, so a missing one is found without the first machine.
"""

from __future__ import annotations

import contextlib
import csv
import io
import os
import random
import signal
import subprocess
import sys
import time
from collections.abc import Callable, Iterator, Sequence
from pathlib import Path
from typing import NamedTuple

from . import clients
from cpi_tools.guard.follow import mark_beside
from cpi_tools.guard.gaps import MISSING
from cpi_tools.office.program import Cpi
from cpi_tools.guard.copies.second_copies import state_of
from lib.places import ROOT
from lib.served import free_port

TOOL, CLIENTS = str(ROOT / "cpi-tools"), str(Path(clients.__file__))
KEY = "d" * 32
RECEIVER = """\
#!/bin/sh
# Stands for ssh, and for the command of a key on the other machine.
shift
{more}
PATH={programs}{root}:$PATH
SSH_ORIGINAL_COMMAND="$*" exec {root}/ops/cpi-receive {dest}
"""
LEAST = 100
"""So many prices are answered before a kill."""

PATIENCE = 600
"""Seconds after which something is taken for hanging."""


class Machine(NamedTuple):
    """A machine: its folder, the words that run a command on it, and the port of its office."""

    folder: Path
    enter: tuple[str, ...]
    port: int

    @property
    def office(self) -> Path:
        return self.folder / "office.db"

    def started(self, *words: str, out: int = subprocess.PIPE) -> "subprocess.Popen[str]":
        """A command that runs on it, with a group of processes of its own."""
        return subprocess.Popen([*self.enter, *words], stdout=out, text=True, start_new_session=True)

    def ran(self, *words: str, given: str = "", status: int = 0) -> str:
        """What a command on it prints, which has to end so."""
        ran = subprocess.run([*self.enter, *words], input=given, capture_output=True, text=True, check=False)
        assert ran.returncode == status, (words, ran.returncode, ran.stdout, ran.stderr)
        return ran.stdout


class Answered(NamedTuple):
    """An answered price."""

    collector: int
    slot: int
    price: int
    receipt: int
    moment: float


class Kill(NamedTuple):
    """What a kill left: the age of the copy in seconds; the seconds from the last answer to the kill, and from the kill
    to the first answer of the second machine; how many prices were answered; and how many of the last ones of slots
    were missing before they were sent again, and after."""

    age: float
    quiet: float
    first_answer: float
    answered: int
    missing: int
    missing_after: int


def machine(folder: Path, enter: Sequence[str] = ()) -> Machine:
    """A machine with a folder that is made."""
    folder.mkdir(mode=0o700)
    return Machine(folder, tuple(enter), free_port())


def receiver(path: Path, dest: Path, more: str = "", programs: str = "") -> str:
    """Writes what stands for ssh to the machine of a place, where cpi-receive is the command of the key; `more` is what
    it does first, and `programs` a folder of programs. The words that run it."""
    path.write_text(RECEIVER.format(root=ROOT, dest=dest, more=more, programs=programs and f"{programs}:"))
    path.chmod(0o755)
    return str(path)


def led_away(at: Path, outside: Path, how: str) -> None:
    """Moves a file or a folder elsewhere, and puts at its place a link or a hard link to it, a pipe or a folder."""
    at.rename(outside)
    if how == "link":
        at.symlink_to(outside)
    elif how == "hard-link":
        os.link(outside, at)
    elif how == "pipe":
        os.mkfifo(at)
    else:
        at.mkdir()


def surveyed(cpi: Cpi, path: Path) -> Path:
    """The file of an office whose clients have sent nothing yet."""
    assert [reply for reply in cpi.replay(clients.survey(), db=path) if reply != {"done": True}] == []
    return path


def killed(process: "subprocess.Popen[str]") -> None:
    """Kills a process and all that it started."""
    with contextlib.suppress(ProcessLookupError):
        os.killpg(process.pid, signal.SIGKILL)
    process.wait()


@contextlib.contextmanager
def office_on(cpi: Cpi, on: Machine) -> Iterator["subprocess.Popen[str]"]:
    """The office of a machine, which is served until it is killed."""
    words = ["serve", "--db", str(on.office), "--port", str(on.port), "--desk-key", KEY, "--limit", "1000000"]
    with on.started(str(cpi.path), *words) as serving:
        try:
            assert serving.stdout and serving.stdout.readline().startswith("cpi: listening")
            yield serving
        finally:
            killed(serving)


def rows_in(text: str) -> list[Answered]:
    """The rows that the clients printed; a kill may have cut the last one."""
    lines = text[: text.rfind("\n") + 1]
    return [Answered(*map(int, row[:4]), float(row[4])) for row in csv.reader(io.StringIO(lines))]  # type: ignore[call-arg]


def last_of_slots(answered: Sequence[Answered]) -> dict[tuple[int, int], Answered]:
    """The last answered price of each slot."""
    found = dict[tuple[int, int], Answered]()
    for row in sorted(answered, key=lambda row: row.receipt):
        found[row.collector, row.slot] = row
    return found


def missing_in(on: Machine, answered: Sequence[Answered]) -> list[Answered]:
    """The last answered prices of slots that the office of a machine doesn't answer any more. A later receipt is that
    of a price that was stored, and whose answer never came."""
    listed = rows_in(on.ran(sys.executable, CLIENTS, str(on.port), "list"))
    there = {(row.collector, row.slot): row for row in listed}
    none = Answered(0, 0, 0, 0, 0)
    return [
        row
        for at, row in last_of_slots(answered).items()
        if there.get(at, none).price != row.price and there.get(at, none).receipt <= row.receipt
    ]


def list_of(answered: Sequence[Answered]) -> str:
    """What a sender keeps, as `cpi-tools gaps` reads it."""
    rows = (f"{row.collector},{row.slot},{clients.MONTH},price,{row.price},{row.receipt}\n" for row in answered)
    return "collector,slot,month,mark,value,receipt\n" + "".join(rows)


def gaps_of(on: Machine, answered: Sequence[Answered], status: int) -> set[tuple[int, int]]:
    """The slots of which `cpi-tools gaps` says that their last price is missing."""
    told = on.ran(TOOL, "gaps", str(on.office), "--receipts", "-", given=list_of(answered), status=status)
    return {(int(row["collector"]), int(row["slot"])) for row in csv.DictReader(io.StringIO(told))}


def kill_under_load(
    cpi: Cpi, first: Machine, follow: Sequence[str], dest: Path, drawn: random.Random, every: int
) -> tuple[list[Answered], float, float]:
    """Kills the office and the follower of a machine, which begins a round each `every` seconds, at a random moment of
    some rounds while the clients send: what they were answered, the moment of the kill in seconds since 1970 UTC, and the same on the clock that never jumps.
    """
    told = first.folder / "answered.csv"
    with office_on(cpi, first) as serving, told.open("w") as out:
        following = first.started(
            TOOL, "follow", str(first.office), *follow, "--every", str(every), out=subprocess.DEVNULL
        )
        # (a pipe that nobody reads would be full after some 2,000 rows, and then hold the clients up)
        sending = first.started(sys.executable, CLIENTS, str(first.port), "send", out=out.fileno())
        try:
            wait_for(lambda: len(state_of(dest).notes) == 2, "no copy came")
            time.sleep(drawn.random() * max(3, 2 * every))
            wait_for(lambda: told.read_bytes().count(b"\n") > LEAST, "the clients weren't answered")
            killed(serving)
            moment, begun = time.time(), time.monotonic()
            killed(following)
            sending.wait()
        finally:
            for process in (following, sending):
                killed(process)
    return rows_in(told.read_text()), moment, begun


def kill_and_promote(
    cpi: Cpi, first: Machine, second: Machine, follow: Sequence[str], dest: Path, drawn: random.Random, every: int = 1
) -> Kill:
    """Kills the first machine's office and follower at a random moment, promotes the copy `dest` on the second one,
    sends again what is missing, and looks at all of it. The first machine has the file of an office (`surveyed`)."""
    answered, moment, begun = kill_under_load(cpi, first, follow, dest, drawn, every)
    second.ran(TOOL, "promote", str(dest), "--office", str(second.office), "--program", str(cpi.path))
    promotion = state_of(dest).promotion
    assert promotion
    with office_on(cpi, second):
        assert second.ran(sys.executable, CLIENTS, str(second.port), "tables") == "{'tables': []}\n"
        first_answer = time.monotonic() - begun
        missing = missing_in(second, answered)
        # (what was answered before the moment of the copy is in it)
        assert [row for row in missing if row.moment < promotion.copied] == []
        wanted = {(row.collector, row.slot) for row in missing}
        told = gaps_of(second, answered, MISSING if missing else 0)
        assert told == wanted, f"only gaps: {told - wanted}, only the office's lists: {wanted - told}"
        again = "".join(f"{row.collector},{row.slot},{row.price}\n" for row in missing)
        second.ran(sys.executable, CLIENTS, str(second.port), "again", given=again)
        left = missing_in(second, answered)
    assert first_machine_stays_down(first, follow)
    quiet = moment - max(row.moment for row in answered)
    return Kill(moment - promotion.copied, quiet, first_answer, len(answered), len(missing), len(left))


def wait_for(is_there: Callable[[], bool], fault: str) -> None:
    """Waits until something is there; so long that only what hangs fails."""
    until = time.monotonic() + PATIENCE
    while not is_there():
        assert time.monotonic() < until, fault
        time.sleep(0.02)


def first_machine_stays_down(first: Machine, follow: Sequence[str]) -> bool:
    """Whether the first machine, when it comes back, finds that the second one was promoted."""
    first.ran(TOOL, "follow", str(first.office), *follow, "--ask", status=4)
    return mark_beside(first.office).exists()
