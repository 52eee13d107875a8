"""`cpi-tools probe`: what it sees, how it judges, and what it writes."""

from __future__ import annotations

import argparse
import contextlib
import http.server
import os
import re
import ssl
import subprocess
import threading
from collections.abc import Iterator
from pathlib import Path
from typing import Any, Optional

import pytest

from cpi_tools.guard.watch import probe, probe_looks, probe_output
from cpi_tools.command_line import parser
from cpi_tools.guard.backup import Note, note_beside, note_text
from cpi_tools.guard.watch.probe_looks import (
    CRITICAL,
    OK,
    UNKNOWN,
    WARNING,
    Answer,
    Backup,
    Backups,
    Certificate,
    Files,
    Levels,
    MachineClock,
    Table,
    late_months,
    levels,
    worst,
)
from cpi_tools.guard.copies.generations import LastDrill, write_last_drill
from cpi_tools.guard.watch.probe_output import Seen
from cpi_tools.office.program import Cpi
from cpi_tools.guard.watch.serve_log import Line, Writes
from cpi_tools.guard.copies.second_copies import (
    DRILLED,
    REFUSED as REFUSAL,
    CopyNote,
    Sum,
    write_note,
    write_promotion,
    write_refusal,
)
from cpi_tools.office.stored import Window
from cpi_tools.text.terminal import Fault
from lib.places import ROOT
from lib.served import free_port
from .loads import served
from .offices import TABLES
from .needs import needed

NOW, HOUR = 1_800_000_000, 3600
NOTHING_NAMED = "not checked: the file, writes, backups, the second copy, the certificate, the clock"
LIST = b'{"tables":[["2025-12",1,1000],["2026-01",1,1799990000],["2026-01",2,1799993600]]}\n'
TABLES_OF_LIST = (Table(202512, 1, 1000), Table(202601, 1, 1_799_990_000), Table(202601, 2, 1_799_993_600))


@contextlib.contextmanager
def answering(
    body: bytes, status: int = 200, path: str = "/tables", certificate: Optional[Path] = None
) -> Iterator[str]:
    """A server that answers one path in one way; its URL. With a certificate, and its key, it does so over TLS."""

    class Handler(http.server.BaseHTTPRequestHandler):
        """Answers, and logs nothing."""

        def do_GET(self) -> None:
            self.send_response(status if self.path == path else 404)
            self.end_headers()
            self.wfile.write(body)

        def log_message(self, *_: Any) -> None:
            pass

    with http.server.HTTPServer(("127.0.0.1", 0), Handler) as server:
        if certificate:
            context = ssl.SSLContext(ssl.PROTOCOL_TLS_SERVER)
            context.load_cert_chain(certificate)
            server.socket = context.wrap_socket(server.socket, server_side=True)
        thread = threading.Thread(target=server.serve_forever)
        thread.start()
        try:
            yield f"http{'s' if certificate else ''}://127.0.0.1:{server.server_port}"
        finally:
            server.shutdown()
            thread.join()


def chosen(*words: object) -> argparse.Namespace:
    return parser().parse_args(["probe", *map(str, words)])


def ran(capsys: pytest.CaptureFixture[str], *words: object) -> tuple[int, str]:
    """The status of a probe at a moment, and what it wrote."""
    status = probe.run(chosen(*words), clock=lambda: NOW)
    return status, capsys.readouterr().out


def backup_of(folder: Path, name: str, copied: int, content: bytes = b"1234") -> Path:
    """A backup with its note, whatever it holds."""
    folder.mkdir(exist_ok=True)
    path = folder / name
    path.write_bytes(content)
    note_beside(path).write_text(note_text(Note("office.db", copied, 3, len(content), "a" * 64), name))
    return path


def test_an_office_that_answers_is_well(capsys: pytest.CaptureFixture[str]) -> None:
    with answering(LIST) as url:
        status, out = ran(capsys, "--url", url)
    assert status == 0
    assert re.fullmatch(
        rf"CPI OK: last table 2026-01 revision 2; {NOTHING_NAMED} \| answer=\d+ms tables=3 latest_month=202601"
        r" latest_published_seconds=1799993600\n",
        out,
    )


def test_an_office_behind_a_path_is_asked_there(capsys: pytest.CaptureFixture[str]) -> None:
    with answering(b'{"tables":[]}', path="/api/tables") as url:
        assert ran(capsys, "--url", f"{url}/api/")[1].startswith(f"CPI OK: no table yet; {NOTHING_NAMED} | answer=")
        assert ran(capsys, "--url", url) == (2, f"CPI CRITICAL: {url} answers with status 404\n")


def test_a_front_is_trusted_by_its_authority_alone(capsys: pytest.CaptureFixture[str], tmp_path: Path) -> None:
    """A certificate that the system doesn't know, as an office has it that made its own."""
    own, other = certificate(tmp_path / "own.pem"), certificate(tmp_path / "other.pem")
    with answering(LIST, certificate=own) as url:
        assert ran(capsys, "--url", url, "--authority", own)[1].startswith("CPI OK: last table 2026-01 revision 2; ")
        for words in ([], ["--authority", str(other)]):
            status, out = ran(capsys, "--url", url, *words)
            assert status == 2 and out.startswith(f"CPI CRITICAL: {url} doesn't answer: ") and "certificate" in out
        (tmp_path / "text").write_text("text")
        for name, told in (("none", ": No such file or directory"), ("text", " has no certificate that can be read")):
            found = ran(capsys, "--url", url, "--authority", tmp_path / name)
            assert found == (3, f"CPI UNKNOWN: {tmp_path / name}{told}\n")


def certificate(path: Path) -> Path:
    """A certificate of 127.0.0.1, and its key behind it."""
    words = [needed("openssl"), "req", "-x509", "-newkey", "rsa:2048", "-nodes", "-days", "2", "-subj", "/CN=x"]
    words += ["-addext", "subjectAltName=IP:127.0.0.1", "-keyout", str(path), "-out", str(path.with_suffix(".crt"))]
    subprocess.run(words, capture_output=True, check=True)
    path.write_text(path.with_suffix(".crt").read_text() + path.read_text())
    return path


@pytest.mark.parametrize(
    "body", [b"", b"text", b"[]", b'{"tables":1}', b'{"tables":[["2026-13",1,1]]}', b'{"tables":[["2026-01","1",1]]}']
)
def test_who_answers_in_another_way_is_no_office(body: bytes, capsys: pytest.CaptureFixture[str]) -> None:
    with answering(body) as url:
        assert ran(capsys, "--url", url) == (2, f"CPI CRITICAL: {url} answers, but not as an office does\n")


def test_an_office_that_does_not_answer_is_critical(capsys: pytest.CaptureFixture[str]) -> None:
    url = f"http://127.0.0.1:{free_port()}"
    status, out = ran(capsys, "--url", url)
    assert (status, out) == (2, f"CPI CRITICAL: {url} doesn't answer: Connection refused\n")


@pytest.mark.parametrize(
    ("words", "message"),
    [
        (["--age", "3"], "3 isn't two whole numbers like 26,50"),
        (["--slow", "5,1"], "5,1: from 1 on it is critical, so it never warns from 5 on"),
        (["--late", "25,24"], "25,24: from 24 on it is critical, so it never warns from 25 on"),
        (["--free", "1,5"], "1,5: from 5 on downwards it is critical, so it never warns from 1 on"),
        (["--url", "ftp://x"], "ftp://x is no address like http://127.0.0.1:8080"),
        (["--url", "http://x:99999"], "is no address"),
        (["--timeout", "0"], "0 isn't a whole number from 1 on"),
        (["--other"], "unrecognized arguments"),
    ],
)
def test_words_that_are_refused_are_unknown_to_nagios(words: list[str], message: str) -> None:
    ended = subprocess.run([ROOT / "cpi-tools", "probe", *words], capture_output=True, text=True, check=False)
    assert (ended.returncode, ended.stdout, ended.stderr.count("\n")) == (3, "", 1)
    assert message in ended.stderr


@pytest.mark.parametrize(
    ("words", "told"),
    [
        (["--file", "none", "--output", "said"], "none: No such file or directory"),
        (["--output", "none"], "none: No such file or directory"),
        (["--backups", "none"], "none: No such file or directory"),
        (["--backups", "."], "x.db.sha256 isn't a note that cpi-tools wrote"),
        (["--certificate", "none"], "none: No such file or directory"),
        (["--certificate", "x.db.sha256"], "x.db.sha256 has no certificate that can be read"),
    ],
)
def test_a_part_that_can_not_be_checked_is_unknown_and_hides_no_other(
    words: list[str], told: str, capsys: pytest.CaptureFixture[str], tmp_path: Path, monkeypatch: pytest.MonkeyPatch
) -> None:
    """The office answers, or it doesn't: both are told."""
    monkeypatch.chdir(tmp_path)
    (tmp_path / "x.db.sha256").write_text("text")
    (tmp_path / "said").touch()
    with answering(LIST) as url:
        status, out = ran(capsys, "--url", url, *words)
        assert status == 3 and re.match(rf"CPI UNKNOWN: {re.escape(told)} \| answer=\d+ms tables=3 ", out), out
    status, out = ran(capsys, "--url", url, *words)
    assert status == 2 and re.match(rf"CPI CRITICAL: {url} doesn't answer: [^;]+; {re.escape(told)}( \||$)", out), out


@pytest.mark.skipif(os.geteuid() != 0, reason="another user is tried by root")
def test_backups_that_may_not_be_looked_at_are_unknown(tmp_path: Path) -> None:
    """For another user than theirs they aren't missing."""
    folder = backup_of(tmp_path / "backups", "a.db", NOW).parent
    folder.chmod(0o700)
    os.seteuid(65534)
    try:
        with pytest.raises(Fault, match="backups: Permission denied"):
            probe_looks.last_backup(folder)
    finally:
        os.seteuid(0)


def test_the_last_backup_is_the_one_that_was_copied_last(tmp_path: Path) -> None:
    folder = tmp_path / "backups"
    folder.mkdir()
    assert probe_looks.last_backup(folder) is None
    backup_of(folder, "b.db", NOW - 100)
    last = backup_of(folder, "a.db", NOW - 50, b"12345")
    for name in ("gone.db", "cut.db"):
        backup_of(folder, name, NOW)
    (folder / "gone.db").unlink()
    (folder / "cut.db").write_bytes(b"123")
    assert probe_looks.last_backup(folder) == Backup(last, NOW - 50, 5)


def test_a_failed_drill_counts_while_it_is_newer_than_the_last_backup(tmp_path: Path) -> None:
    folder = tmp_path / "backups"
    last = backup_of(folder, "office-2027-01-14.db", NOW - 86_400)
    for name, moment in (("office-2027-01-13.db.bad", NOW - 86_401), ("office-2027-01-15.db.bad", NOW - 3600)):
        (folder / name).touch()
        os.utime(folder / name, (moment, moment))
    (folder / "office-2027-01-15.db.bad-note").touch()
    assert probe_looks.backups_of(folder) == Backups(Backup(last, NOW - 86_400, 4), 1)
    note_beside(last).unlink()
    assert probe_looks.backups_of(folder) == Backups(None, 2)


def window(month: int, publishes: int) -> Window:
    return Window(month, 0, 1, publishes)


def test_a_month_is_late_from_its_moment_on_until_it_has_a_table_of_that_moment() -> None:
    calendar = [window(202512, 1000), window(202601, 1_799_993_600), window(202602, NOW), window(202603, NOW + 1)]
    assert late_months(calendar, TABLES_OF_LIST, NOW) == (window(202602, NOW),)
    # (a month that was reopened, and not frozen again)
    assert late_months([window(202601, NOW)], TABLES_OF_LIST, NOW) == (window(202601, NOW),)
    assert late_months([window(202601, NOW)], TABLES_OF_LIST, NOW - 1) == ()


WELL = Backup(Path("backup/office.db"), NOW - 3600 * 25, 9 << 20)
REFUSED = Line(NOW - 7200, "cpi: a request was refused by 90, opening the file again")


def seen(**other: Any) -> Seen:
    """What a probe sees if all is well."""
    well = Seen(
        NOW, Answer(TABLES_OF_LIST, 12), "", Files(9 << 20, 4 << 20, 5 << 30), Backups(WELL, 0), (), Writes(None, True),
        10_001, Certificate("cert.pem", NOW + 22 * 86_400), MachineClock(1000),
    )  # fmt: skip
    return well._replace(**other)


@pytest.mark.parametrize(
    ("other", "state", "told"),
    [
        ({}, OK, ()),
        ({"answer": Answer((), 1999)}, OK, ()),
        ({"answer": Answer((), 2000)}, WARNING, ("it answered after 2000 ms",)),
        ({"answer": Answer((), 10_000)}, CRITICAL, ("it answered after 10000 ms",)),
        ({"answer": None, "fault": "x doesn't answer"}, CRITICAL, ("x doesn't answer",)),
        ({"late": (window(202602, NOW),)}, WARNING, ("no table of 2026-02, to be published 2027-01-15 08:00 UTC",)),
        (
            {"late": (window(202602, NOW - 86_400),)},
            CRITICAL,
            ("no table of 2026-02, to be published 2027-01-14 08:00 UTC",),
        ),
        ({"files": Files(1, (64 << 20) - 1, 1 << 31)}, OK, ()),
        ({"files": Files(1, 64 << 20, 1 << 31)}, WARNING, ("its log has 67,108,864 bytes",)),
        ({"files": Files(1, 512 << 20, 1 << 31)}, CRITICAL, ("its log has 536,870,912 bytes",)),
        ({"files": Files(1, 0, (1025 << 20))}, OK, ()),
        ({"files": Files(1, 0, 1 << 30)}, WARNING, ("1,073,741,824 bytes are left on its disk",)),
        ({"files": Files(1, 0, 256 << 20)}, CRITICAL, ("268,435,456 bytes are left on its disk",)),
        ({"backups": Backups(None, 0)}, CRITICAL, ("there is no backup",)),
        ({"backups": None}, OK, ()),
        (
            {"backups": Backups(WELL._replace(copied=NOW - 26 * 3600), 0)},
            WARNING,
            ("the last backup is 26 hours old",),
        ),
        (
            {"backups": Backups(WELL._replace(copied=NOW - 50 * 3600), 0)},
            CRITICAL,
            ("the last backup is 50 hours old",),
        ),
        ({"backups": Backups(WELL, 1)}, CRITICAL, ("after the last backup 1 drill failed (.db.bad)",)),
        (
            {"writes": Writes(REFUSED, False)},
            CRITICAL,
            (f'no write is known to have succeeded since "{REFUSED.text}" of 2027-01-15 06:00 UTC',),
        ),
        (
            {"writes": Writes(REFUSED, True)},
            WARNING,
            (f'a write succeeded since, but cpi said "{REFUSED.text}" of 2027-01-15 06:00 UTC',),
        ),
        ({"writes": Writes(REFUSED._replace(moment=NOW - 24 * 3600), True)}, OK, ()),
        ({"left": 10_000}, WARNING, ("no more than 10,000 connections are left of its limit",)),
        ({"left": 1000}, CRITICAL, ("no more than 1,000 connections are left of its limit",)),
        (
            {"certificate": Certificate("cert.pem", NOW + 22 * 86_400 - 1)},
            WARNING,
            ("the certificate cert.pem ends 2027-02-06 07:59 UTC, in 21 days",),
        ),
        (
            {"certificate": Certificate("cert.pem", NOW + 8 * 86_400 - 1)},
            CRITICAL,
            ("the certificate cert.pem ends 2027-01-23 07:59 UTC, in 7 days",),
        ),
        (
            {"certificate": Certificate("cert.pem", NOW - 1)},
            CRITICAL,
            ("the certificate cert.pem ended 2027-01-15 07:59 UTC",),
        ),
        ({"clock": MachineClock(15_999_999)}, OK, ()),
        ({"clock": MachineClock(16_000_000)}, WARNING, ("this machine's clock isn't synchronized",)),
        ({"unseen": ("x: Permission denied",)}, UNKNOWN, ("x: Permission denied",)),
        (
            {"unseen": ("x: Permission denied",), "left": 10_000, "backups": Backups(None, 0)},
            CRITICAL,
            (
                "there is no backup",
                "no more than 10,000 connections are left of its limit",
                "x: Permission denied",
            ),
        ),
    ],
)
def test_how_it_judges(other: dict[str, Any], state: int, told: tuple[str, ...]) -> None:
    assert probe_output.judge_office(seen(**other), chosen()) == (state, told)


def test_three_late_months_are_named_and_the_others_counted() -> None:
    """Of 37 the three that are late for longest, in whatever order they come: a line of all would be 2.6 kB."""
    hours = [(number * 7) % 37 for number in range(37)]
    late = tuple(window(202601 + it % 12, NOW - hour * 3600) for it, hour in enumerate(hours))
    office = probe_output.judge_office(seen(late=late), chosen("--late", "10,36"))
    assert office.state == CRITICAL
    ends = ("2027-01-13 20:00 UTC", "2027-01-13 21:00 UTC", "2027-01-13 22:00 UTC", "no table of 34 more months")
    assert len(office.texts) == 4 and all(told.endswith(end) for told, end in zip(office.texts, ends))
    told, _, figures = probe_output.nagios_line(seen(late=late), office).partition(" | ")
    assert len(told) < 250 and " late_tables=37 " in figures
    four = probe_output.judge_office(seen(late=late[:4]), chosen())
    assert len(four.texts) == 4 and four.texts[-1] == "no table of 1 more month"


def test_equal_levels_are_taken() -> None:
    assert (chosen("--slow", "5,5").slow, chosen("--days", "7,7").days) == (Levels(5, 5), Levels(7, 7))


def test_levels_are_chosen() -> None:
    office = probe_output.judge_office(seen(answer=Answer((), 12)), chosen("--slow", "12,13", "--age", "25,25"))
    assert office == (2, ("the last backup is 25 hours old", "it answered after 12 ms"))
    other = chosen("--days", "23,22", "--left", "10001,0", "--refused", "2")
    words = (
        "the certificate cert.pem ends 2027-02-06 08:00 UTC, in 22 days",
        "no more than 10,001 connections are left of its limit",
    )
    assert probe_output.judge_office(seen(writes=Writes(REFUSED, True)), other) == (2, words)
    assert levels("26,50") == Levels(26, 50)


def test_a_part_that_can_not_be_checked_weighs_less_than_one_that_is_not_well() -> None:
    states: list[list[int]] = [[], [0, 3], [3, 1], [1, 2, 3]]
    assert [worst(each) for each in states] == [0, 3, 1, 2]


def test_the_line_says_the_worst_first_and_the_figures() -> None:
    one = seen(late=(window(202602, NOW),))
    assert probe_output.nagios_line(one, probe_output.judge_office(one, chosen())) == (
        "CPI WARNING: no table of 2026-02, to be published 2027-01-15 08:00 UTC | answer=12ms tables=3"
        " latest_month=202601 latest_published_seconds=1799993600 late_tables=1 file_bytes=9437184 log_bytes=4194304"
        " free_bytes=5368709120 backup_copied_seconds=1799910000 backup_age_seconds=90000 backup_bytes=9437184"
        " failed_drills=0 writes_succeed=1 connections_left=10001 certificate_end_timestamp_seconds=1801900800"
        " certificate_left_seconds=1900800 clock_synchronized=1 clock_error_seconds=0.001000"
    )
    none = Seen(NOW, fault="x doesn't answer")
    assert probe_output.nagios_line(none, probe_output.judge_office(none, chosen())) == "CPI CRITICAL: x doesn't answer"


def test_figures_for_prometheus() -> None:
    one = seen(writes=Writes(REFUSED, False))
    text = probe_output.prometheus_text(one, probe_output.judge_office(one, chosen()))
    names = []
    for told, kind, value in zip(*[iter(text.splitlines())] * 3):
        name = re.fullmatch(r"# HELP (cpi_[a-z_]+) [^\n]+\.", told)
        assert name and kind == f"# TYPE {name[1]} gauge"
        assert re.fullmatch(rf"{name[1]} \d+(\.\d+)?", value)
        names.append(value)
    assert names[:4] == ["cpi_up 1", "cpi_state 2", "cpi_answer_seconds 0.012", "cpi_tables 3"]
    assert names[13:] == [
        "cpi_failed_drills 0", "cpi_writes_succeed 0", "cpi_failure_timestamp_seconds 1799992800",
        "cpi_connections_left 10001", "cpi_certificate_end_timestamp_seconds 1801900800",
        "cpi_certificate_left_seconds 1900800", "cpi_clock_synchronized 1", "cpi_clock_error_seconds 0.001000",
    ]  # fmt: skip
    assert text.endswith("\n")
    down = seen(answer=None, fault="x", late=None)
    assert "\ncpi_up 0\n" in probe_output.prometheus_text(down, probe_output.judge_office(down, chosen()))


def test_figures_for_prometheus_are_written_wherever_there_are_some(
    capsys: pytest.CaptureFixture[str], tmp_path: Path
) -> None:
    url = f"http://127.0.0.1:{free_port()}"
    status, out = ran(capsys, "--url", url, "--prometheus")
    assert status == 0 and "\ncpi_up 0\n" in f"\n{out}"
    (tmp_path / "said").touch()
    status = probe.run(chosen("--url", url, "--prometheus", "--file", tmp_path / "none", "--output", tmp_path / "said"))
    told = capsys.readouterr()
    assert (status, told.err) == (0, f"cpi-tools probe: {tmp_path}/none: No such file or directory\n")
    assert "\ncpi_state 2\n" in told.out and "\ncpi_writes_succeed 1\n" in told.out


@pytest.mark.parametrize("by", ["backup", "file"])
def test_a_served_office_with_its_backup(
    by: str, cpi: Cpi, office: Path, tmp_path: Path, capsys: pytest.CaptureFixture[str]
) -> None:
    """A late month is found by the calendar of the last backup, or of a copy of the file: here all of the first two
    months were published, and the one that is open for ever isn't to be."""
    port, words = free_port(), list[object]()
    if by == "backup":
        backup_of(tmp_path / "backups", "office.db", NOW - 3600, office.read_bytes())
        words = ["--backups", tmp_path / "backups"]
    (tmp_path / "said").touch()
    words += ["--output", tmp_path / "said"]
    before = sorted(os.listdir(tmp_path))
    with served(cpi, office, port):
        status, out = ran(capsys, "--url", f"http://127.0.0.1:{port}", "--file", office, *words, "--slow", "9999,99999")
    assert (status, f"tables={TABLES} latest_month=202602 " in out, " late_tables=0 " in out) == (0, True, True), out
    assert sorted(os.listdir(tmp_path)) in (before, sorted([*before, "office.db-wal"]))


def test_a_calendar_that_can_not_be_read_is_told(tmp_path: Path) -> None:
    path = backup_of(tmp_path, "office.db", NOW)
    with pytest.raises(Fault, match=f"the calendar of {path} can't be read: "):
        probe_looks.calendar_of(Backup(path, NOW, 4), None)
    assert probe_looks.calendar_of(None, None) is None


# ---- the second copy


def note_at(folder: Path, name: str, number: int, copied: int) -> None:
    (folder / name).mkdir(parents=True, exist_ok=True)
    write_note(folder / name, CopyNote("/a/office.db", "first", number, copied, Sum(1, "a"), Sum(0, "b"), ()))


def test_the_age_of_the_second_copy_is_judged(tmp_path: Path, capsys: pytest.CaptureFixture[str]) -> None:
    """That of the newer one of the two; the levels are 120 and 600 seconds."""
    folder = tmp_path / "copy"
    note_at(folder, "copy-1", 8, NOW - 200)
    for age, status, told in (
        (119, 0, "CPI OK: last table"),
        (120, 1, "CPI WARNING: the second copy is 120 seconds old"),
        (600, 2, "CPI CRITICAL: the second copy is 600 seconds old"),
    ):
        note_at(folder, "copy-2", 9, NOW - age)
        with answering(LIST) as url:
            found = ran(capsys, "--url", url, "--copy", folder)
        assert found[0] == status and found[1].startswith(told)
        assert f"second_copied_seconds={NOW - age} second_age_seconds={age}" in found[1]
    with answering(LIST) as url:
        assert ran(capsys, "--url", url, "--copy", folder, "--copied", "601,700")[0] == 0


def test_a_copy_that_is_dated_ahead_is_a_warning(tmp_path: Path, capsys: pytest.CaptureFixture[str]) -> None:
    """Its age isn't 0: nobody would see for two hours that the follower stopped."""
    note_at(tmp_path / "copy", "copy-1", 8, NOW + 7200)
    backup_of(tmp_path / "backups", "office.db", NOW + 3600)
    with answering(LIST) as url:
        status, out = ran(capsys, "--url", url, "--copy", tmp_path / "copy", "--backups", tmp_path / "backups")
    assert status == 1
    for what, seconds in (("the last backup", "3,600"), ("the second copy", "7,200")):
        assert f"{what} is dated {seconds} seconds ahead, so its age isn't known: one clock is wrong" in out
    assert "second_age_seconds=-7200" in out and "backup_age_seconds=-3600" in out


def test_no_second_copy_and_one_that_was_promoted_are_critical(
    tmp_path: Path, capsys: pytest.CaptureFixture[str]
) -> None:
    (tmp_path / "copy").mkdir()
    with answering(LIST) as url:
        assert ran(capsys, "--url", url, "--copy", tmp_path / "copy")[1].startswith(
            "CPI CRITICAL: there is no second copy"
        )
        note_at(tmp_path / "copy", "copy-1", 1, NOW)
        machine = write_promotion(tmp_path / "copy", NOW).machine
        status, out = ran(capsys, "--url", url, "--copy", tmp_path / "copy")
        assert status == 2 and f"the second copy was promoted on {machine}, so there is none any more" in out
        status, out = ran(capsys, "--url", url, "--copy", tmp_path / "nowhere")
        assert status == 3 and f"CPI UNKNOWN: {tmp_path / 'nowhere'} is no folder" in out


def test_an_office_that_is_not_carried_any_more_is_critical(tmp_path: Path, capsys: pytest.CaptureFixture[str]) -> None:
    """Though the copy is young: the follower's last line is told."""
    note_at(tmp_path / "copy", "copy-1", 1, NOW)
    with answering(LIST) as url:
        assert "second_refused=0" in ran(capsys, "--url", url, "--copy", tmp_path / "copy")[1]
        write_refusal(tmp_path / "copy", "office.db isn't carried")
        status, out = ran(capsys, "--url", url, "--copy", tmp_path / "copy")
        assert status == 2 and out.startswith("CPI CRITICAL: office.db isn't carried | ") and "second_refused=1" in out
        (tmp_path / "copy" / REFUSAL).write_text("{")
        status, out = ran(capsys, "--url", url, "--copy", tmp_path / "copy")
        assert status == 3 and "isn't a refusal that cpi-tools follow wrote" in out


# ---- its generations


GOOD = LastDrill("2027-01-15-070000", NOW - HOUR, Sum(1, "a"), Sum(0, "b"))
"""A generation that passed its drill an hour ago."""


@pytest.fixture
def kept(tmp_path: Path) -> Path:
    """A folder with a second copy of now."""
    note_at(tmp_path / "copy", "copy-1", 1, NOW)
    return tmp_path / "copy"


def test_generations_that_nobody_keeps_are_not_checked(kept: Path, capsys: pytest.CaptureFixture[str]) -> None:
    with answering(LIST) as url:
        status, out = ran(capsys, "--url", url, "--copy", kept)
        assert status == 0 and "not checked: the file, writes, backups, generations, the certificate, the clock" in out
        write_last_drill(kept, GOOD)
        status, out = ran(capsys, "--url", url, "--copy", kept)
    assert (
        status == 0
        and "; drilled generation of 2027-01-15 07:00 UTC; not checked: the file, writes, backups, the" in out
    )
    assert f"drilled_copied_seconds={NOW - HOUR} drilled_age_seconds=3600 drill_failed=0" in out


def test_the_age_of_the_last_drilled_generation_is_judged(kept: Path, capsys: pytest.CaptureFixture[str]) -> None:
    """The levels are 3 and 26 hours."""
    with answering(LIST) as url:
        for age, wanted, told in (
            (3 * HOUR - 1, 0, "CPI OK: "),
            (3 * HOUR, 1, "CPI WARNING: the last generation that passed its drill is 3 hours old | "),
            (26 * HOUR, 2, "CPI CRITICAL: the last generation that passed its drill is 26 hours old | "),
        ):
            write_last_drill(kept, GOOD._replace(copied=NOW - age))
            status, out = ran(capsys, "--url", url, "--copy", kept)
            assert status == wanted and out.startswith(told) and f"drilled_age_seconds={age}" in out
        assert ran(capsys, "--url", url, "--copy", kept, "--drilled", "27,30")[0] == 0


@pytest.mark.parametrize(
    ("last", "status", "told"),
    [
        (
            GOOD._replace(failed="2027-01-15-075000: bad"),
            2,
            "a generation of the second copy failed its drill: 2027-01-15-0",
        ),
        (GOOD._replace(fault="no room"), 1, "the last run of cpi-tools keep failed: no room"),
        (
            GOOD._replace(checked=NOW - 8 * 24 * HOUR, tried=NOW, damaged="bad"),
            2,
            "the repository of the generations is damaged: bad | ",
        ),
        (
            GOOD._replace(checked=NOW - 15 * 24 * HOUR, tried=NOW - HOUR),
            1,
            "the repository of the generations was last found whole 15 days ago | ",
        ),
        (GOOD._replace(tried=NOW), 2, "the repository of the generations was never found whole | "),
        (
            LastDrill(fault="no room"),
            2,
            "no generation of the second copy has passed its drill; the last run of cpi-tools keep failed: no room",
        ),
    ],
)
def test_what_went_wrong_with_the_next_one_is_said(
    last: LastDrill, status: int, told: str, kept: Path, capsys: pytest.CaptureFixture[str]
) -> None:
    write_last_drill(kept, last)
    with answering(LIST) as url:
        found = ran(capsys, "--url", url, "--copy", kept)
        assert found[0] == status and f": {told}" in found[1] and f"drill_failed={int(bool(last.failed))}" in found[1]
        _, out = ran(capsys, "--url", url, "--copy", kept, "--prometheus")
    assert f"\ncpi_drill_failed {int(bool(last.failed))}\n" in out
    assert ("\ncpi_drilled_age_seconds 3600\n" in out) == bool(last.generation)


def test_the_check_of_the_generations_is_judged(kept: Path, capsys: pytest.CaptureFixture[str]) -> None:
    """The levels are 15 and 45 days."""
    with answering(LIST) as url:
        for days, wanted in ((0, 0), (14, 0), (15, 1), (44, 1), (45, 2)):
            checked = NOW - days * 24 * HOUR
            write_last_drill(kept, GOOD._replace(checked=checked, tried=checked))
            status, out = ran(capsys, "--url", url, "--copy", kept)
            assert status == wanted and f"repository_damaged=0 repository_checked_seconds={checked}" in out
        assert ran(capsys, "--url", url, "--copy", kept, "--checked", "46,50")[0] == 0


def test_a_note_on_generations_that_cant_be_read_hides_nothing(kept: Path, capsys: pytest.CaptureFixture[str]) -> None:
    (kept / DRILLED).write_text("{")
    with answering(LIST) as url:
        status, out = ran(capsys, "--url", url, "--copy", kept)
    assert (status, out.split(" | ")[0]) == (3, f"CPI UNKNOWN: {kept / DRILLED} isn't a note that cpi-tools keep wrote")
