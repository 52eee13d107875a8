"""What `cpi serve` said, and whether its last write succeeded: `cpi-tools probe` next to the program under a file
limit, and with journals that stand-ins of systemd's programs have."""

from __future__ import annotations

import contextlib
import json
import os
import resource
import signal
import subprocess
import sys
import time
from collections.abc import Iterator
from pathlib import Path

import pytest

from cpi_tools.guard import next_open
from cpi_tools.command_line import main
from cpi_tools.guard.watch.serve_log import Journal, Line, OutputFile, Writes, connections_left, last_commit, writes_of
from cpi_tools.office.copying import log_beside
from cpi_tools.office.program import Cpi
from cpi_tools.text.terminal import Fault
from lib.served import SECONDS, free_port, heard, message, peer_of, words_of
from .loads import DESK_KEY, price_of, slot_of
from .offices import LOAD_KEY, LOAD_MONTH
from .test_ops import script

REFUSED = "cpi: a request was refused by 90, opening the file again"
OPEN = "cpi: the file is open again"
SERVED = "cpi: served as many connections as --limit says"
LISTENING = "cpi: listening on 127.0.0.1:8080"


# ---- the program under a file limit


class Narrow:
    """An office that is served by a program whose files can't grow past some bytes; its output is appended to a
    file."""

    def __init__(self, cpi: Cpi, file: Path, most: int):
        self.cpi, self.file, self.most, self.port = cpi, file, most, free_port()
        self.output, self.number = file.with_name("serve.log"), 0

    @contextlib.contextmanager
    def served(self) -> Iterator[None]:
        """Serves it meanwhile, and kills it then."""
        words = [str(self.cpi.path), *words_of(str(self.file), self.port, 1000, key=DESK_KEY)]
        with self.output.open("ab") as output:
            before = self.output.stat().st_size
            with subprocess.Popen(words, stdout=output, stderr=output, preexec_fn=self._limit) as process:
                try:
                    while b"listening" not in self.output.read_bytes()[before:]:
                        assert process.poll() is None
                        time.sleep(0.01)
                    yield
                finally:
                    process.kill()

    def _limit(self) -> None:
        signal.signal(signal.SIGXFSZ, signal.SIG_IGN)
        resource.setrlimit(resource.RLIMIT_FSIZE, (self.most, self.most))

    def send(self) -> bool:
        """Sends a quote; whether it has a receipt."""
        before = self.refusals()
        with peer_of(self.port) as one:
            path, body = f"PUT /quote/{slot_of(self.number)}/{LOAD_MONTH}", f"price,{price_of(self.number)}"
            one.sendall(message(path, key=LOAD_KEY, body=body.encode()))
            answer = heard(one)
        self.number += 1
        if b'{"receipt":' in answer:
            return True
        assert b'{"refused":90}' in answer
        self.says_refused(before)
        return False

    def refusals(self) -> int:
        """How often it was said that a request was refused."""
        return self.output.read_text().count(REFUSED)

    def says_refused(self, before: int) -> None:
        """Waits until it is said that a request was refused."""
        now = time.time()
        while self.refusals() == before:
            assert time.time() < now + SECONDS, self.output.read_text()
            time.sleep(0.01)

    def told(self, capsys: pytest.CaptureFixture[str], *more: str) -> tuple[int, str]:
        """The status of a probe, and what it says before its figures."""
        words = ["--url", f"http://127.0.0.1:{self.port}", "--file", self.file, "--output", self.output]
        status = main(["probe", *map(str, words), "--slow", "99999,99999", "--late", "1000000000,1000000000", *more])
        return status, capsys.readouterr().out.partition(" | ")[0]


def test_an_office_that_refuses_every_write_is_critical_although_it_answers(
    cpi: Cpi, office: Path, capsys: pytest.CaptureFixture[str]
) -> None:
    narrow = Narrow(cpi, office, 150 * 1024)
    with narrow.served():
        assert narrow.told(capsys)[0] == 0
        assert not any(narrow.send() for _ in range(10))
        for _ in range(2):
            status, told = narrow.told(capsys)
            assert status == 2
            assert told.startswith(f'CPI CRITICAL: no write is known to have succeeded since "{REFUSED}" of 20'), told


def test_a_later_write_that_succeeds_makes_it_a_warning(
    cpi: Cpi, office: Path, capsys: pytest.CaptureFixture[str]
) -> None:
    """The log has room for some writes, and is emptied as the file is closed: refused writes follow writes that
    succeed. A kill and a start are no write."""
    narrow = Narrow(cpi, office, office.stat().st_size + 100_000)
    with narrow.served():
        assert narrow.send()
        assert (narrow.told(capsys)[0], last_commit(office) > 0) == (0, True)
        while narrow.send():
            pass
        assert narrow.told(capsys)[0] == 2
        assert narrow.send()
        status, told = narrow.told(capsys)
        assert (status, told.partition(" of 20")[0]) == (
            1,
            f'CPI WARNING: a write succeeded since, but cpi said "{REFUSED}"',
        )
        assert narrow.told(capsys, "--refused", "0")[0] == 0
        while narrow.send():
            pass
        refused = narrow.output.stat().st_mtime
    with narrow.served():
        narrow.output.write_text(f"{REFUSED}\n")
        os.utime(narrow.output, (refused, refused))
        assert narrow.told(capsys)[0] == 2
        # (the log may be as long as it was)
        assert narrow.send() or narrow.send()
        assert narrow.told(capsys)[0] == 1


def test_an_open_changes_neither_file_nor_log(cpi: Cpi, office: Path) -> None:
    """A kill left a commit in the log, and half of another one: after the next start they are as old as before."""
    with contextlib.suppress(KeyError), cpi.session(office) as session:
        assert session.ask(f"50,{LOAD_KEY},quote,1,{LOAD_MONTH},price,1000") == {"receipt": 1}
        raise KeyError
    with log_beside(office).open("ab") as log:
        log.write(bytes(3000))
    for path in (office, log_beside(office)):
        os.utime(path, (1000, 1000))
    with contextlib.suppress(KeyError), cpi.session(office) as session:
        assert "tables" in session.ask("0,public,tables")
        raise KeyError
    assert (last_commit(office), office.stat().st_mtime) == (1000, 1000)


def test_a_log_in_which_nothing_was_committed_holds_no_commit(cpi: Cpi, office: Path) -> None:
    """Of the log of a killed program the byte is put back that a commit writes last: then the program has nothing of it
    either."""
    with contextlib.suppress(KeyError), cpi.session(office) as session:
        assert session.ask(f"50,{LOAD_KEY},quote,1,{LOAD_MONTH},price,1000") == {"receipt": 1}
        raise KeyError
    assert last_commit(office) > 0
    with log_beside(office).open("r+b") as log:
        log.seek(32 + 8)
        log.write(b"\0")
    assert last_commit(office) == 0
    assert cpi.replay([f"50,{LOAD_KEY},quote,2,{LOAD_MONTH},price,1000"], db=office) == [{"receipt": 1}]


def test_a_log_that_was_put_into_the_file_long_after_a_failure_held_writes_that_succeeded(tmp_path: Path) -> None:
    """The program ends by itself some while after the failure, and leaves no commit in its log."""
    office, said = tmp_path / "office.db", tmp_path / "said"
    for path, moment in ((office, 2301), (said, 2000)):
        path.write_text(f"{REFUSED}\n")
        os.utime(path, (moment, moment))
    assert writes_of(office, OutputFile(said)) == Writes(Line(2000, REFUSED), True)
    os.utime(office, (2300, 2300))
    assert writes_of(office, OutputFile(said)) == Writes(Line(2000, REFUSED), False)
    log_beside(office).write_bytes(bytes(41))
    assert last_commit(office) == 0
    with pytest.raises(Fault, match="can't be known without --file"):
        writes_of(None, OutputFile(said))


FAILURES = [
    REFUSED,
    "cpi: a request was refused by 90",
    "cpi: a response couldn't be written, opening the file again",
    "cpi: a response couldn't be written",
    "cpi: out of memory, opening the file again",
    "cpi: out of memory",
    "cpi: database failed",
]
"""The lines of FORMATS on a request that failed or may have failed."""


@pytest.mark.parametrize("line", FAILURES)
@pytest.mark.parametrize(("more", "moment"), [([], 5000), ([OPEN], 4999.999), ([SERVED, LISTENING], 4999.999)])
def test_a_failure_counts_whatever_is_said_after_it(line: str, more: list[str], moment: float, tmp_path: Path) -> None:
    said = tmp_path / "said"
    said.write_text("\n".join([LISTENING, line, *more, ""]))
    os.utime(said, (5000, 5000))
    assert writes_of(tmp_path, OutputFile(said)).failure == Line(moment, line)


@pytest.mark.parametrize(("more", "has_succeeded"), [([], False), ([OPEN], True)])
def test_a_commit_of_the_moment_in_which_the_file_was_open_again_came_after_the_failure(
    more: list[str], has_succeeded: bool, cpi: Cpi, office: Path, tmp_path: Path
) -> None:
    """The times of files are coarse. Without that line the commit may be one of before the failure."""
    with contextlib.suppress(KeyError), cpi.session(office) as session:
        assert session.ask(f"50,{LOAD_KEY},quote,1,{LOAD_MONTH},price,1000") == {"receipt": 1}
        raise KeyError
    said = tmp_path / "said"
    said.write_text("\n".join([REFUSED, *more, ""]))
    for path in (office, log_beside(office), said):
        os.utime(path, (5000, 5000))
    assert writes_of(office, OutputFile(said)).has_succeeded == has_succeeded


def test_an_output_without_a_failure_is_well_and_one_that_is_not_there_is_not(tmp_path: Path) -> None:
    said = tmp_path / "said"
    said.write_text(f"{LISTENING}\n{SERVED}\ncpi: no port\nopening the file again, said another program\n")
    assert writes_of(tmp_path / "none", OutputFile(said)) == Writes(None, True)
    with pytest.raises(Fault, match="none: No such file or directory"):
        writes_of(tmp_path, OutputFile(tmp_path / "none"))


# ---- connections


@pytest.mark.parametrize(
    ("lines", "left"),
    [
        ([], None),
        ([LISTENING], None),
        ([LISTENING, "cpi: 100000 connections of --limit are left"], 100_000),
        (
            ["cpi: 100000 connections of --limit are left", "cpi: 10000 connections of --limit are left", REFUSED],
            10_000,
        ),
        (["cpi: 10000 connections of --limit are left", SERVED], None),
        (["cpi: 10000 connections of --limit are left", LISTENING], None),
    ],
)
def test_the_connections_that_are_left_are_those_of_the_running_program(
    lines: list[str], left: int, tmp_path: Path
) -> None:
    said = tmp_path / "said"
    said.write_text("".join(f"{line}\n" for line in lines))
    assert connections_left(OutputFile(said)) == left


# ---- the journal


JOURNALCTL = """
import json, re, sys
words = sys.argv[2:]
pattern = words[words.index("--grep") + 1] if "--grep" in words else ""
lines = [line for line in open(sys.argv[1]) if re.search(pattern, json.loads(line)["MESSAGE"])]
assert "--lines=1" in words and "--output=json" in words and any(word.startswith("--unit=") for word in words)
print("".join(lines[-1:]), end="")
"""


class Machine:
    """Stand-ins of `journalctl`, which has entries, and of `systemctl`, which knows a unit or not."""

    def __init__(self, folder: Path, monkeypatch: pytest.MonkeyPatch):
        self.folder = folder
        monkeypatch.setenv("PATH", f"{folder}:{os.environ['PATH']}")
        self.knows("loaded")
        self.journal()

    def knows(self, state: str) -> None:
        script(self.folder / "systemctl", f"printf 'LoadState=%s\\nId=x.service\\n' {state}\n")

    def journal(self, *lines: str) -> None:
        """The last entry that matches, as `journalctl --grep .. --lines=1 --output=json` writes it; an entry a second,
        from 1000 on."""
        entries = [{"__REALTIME_TIMESTAMP": f"{1000 + at}000000", "MESSAGE": line} for at, line in enumerate(lines)]
        (self.folder / "entries").write_text("".join(f"{json.dumps(entry)}\n" for entry in entries))
        script(
            self.folder / "journalctl", f'exec "{sys.executable}" -c \'{JOURNALCTL}\' "{self.folder}/entries" "$@"\n'
        )


@pytest.fixture
def machine(tmp_path: Path, monkeypatch: pytest.MonkeyPatch) -> Machine:
    (tmp_path / "bin").mkdir()
    return Machine(tmp_path / "bin", monkeypatch)


def test_the_journal_has_the_lines_of_a_unit(machine: Machine, tmp_path: Path) -> None:
    journal = Journal("cpi.service")
    assert writes_of(tmp_path, journal) == Writes(None, True)
    machine.journal(LISTENING, REFUSED, "cpi: 1000 connections of --limit are left")
    assert journal.last("^cpi: .*opening the file again") == Line(1001.0, REFUSED)
    assert connections_left(journal) == 1000
    (tmp_path / "office.db").touch()
    assert writes_of(tmp_path / "office.db", journal) == Writes(Line(1001.0, REFUSED), True)
    os.utime(tmp_path / "office.db", (1000, 1000))
    assert writes_of(tmp_path / "office.db", journal) == Writes(Line(1001.0, REFUSED), False)


def test_a_journal_that_has_nothing_of_an_unknown_unit_is_none(machine: Machine) -> None:
    machine.knows("not-found")
    with pytest.raises(Fault, match="the journal has no line of x.service, and systemd doesn't know this unit"):
        Journal("x.service").last("^cpi: ")
    machine.journal(LISTENING)
    assert Journal("x.service").last("^cpi: nothing") is None
    script(machine.folder / "journalctl", "echo Journal file x.journal is truncated, ignoring file. >&2; exit 1\n")
    machine.knows("loaded")
    assert Journal("x.service").last("^cpi: nothing") is None


@pytest.mark.parametrize(
    ("text", "told"),
    [
        ("echo No journal files were opened due to insufficient permissions. >&2; exit 1", "insufficient permissions"),
        ("echo Hint: You are currently not seeing messages from the system. >&2", "can't be read: Hint: You are "),
        ("echo text", "in another form than JSON"),
        ("echo '{}'", "in another form than JSON"),
        ("sleep 9", "journalctl didn't end within 1 seconds"),
    ],
)
def test_a_journal_that_can_not_be_read_is_told(
    text: str, told: str, machine: Machine, monkeypatch: pytest.MonkeyPatch
) -> None:
    monkeypatch.setattr(next_open, "SECONDS", 1)
    script(machine.folder / "journalctl", f"{text}\n")
    with pytest.raises(Fault, match=told):
        Journal("cpi.service").last("^cpi: ")


def test_an_office_without_a_journal_and_without_its_output_is_unknown(
    machine: Machine, cpi: Cpi, office: Path, capsys: pytest.CaptureFixture[str]
) -> None:
    """The unit of the package is looked for by itself; once it is known its journal tells."""
    narrow = Narrow(cpi, office, 1 << 30)
    words = ["--url", f"http://127.0.0.1:{narrow.port}", "--file", str(office), "--slow", "99999,99999"]
    machine.knows("not-found")
    with narrow.served():
        assert main(["probe", *words]) == 3
        assert capsys.readouterr().out.startswith(
            "CPI UNKNOWN: whether writes succeed can't be known: the journal has no line of cpi.service, and systemd"
            " doesn't know this unit (--unit or --output names another place) | "
        )
        machine.journal(LISTENING)
        assert main(["probe", *words]) == 0
