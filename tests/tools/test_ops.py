"""`ops/`: the units are units, wrong settings end a start, a stop leaves one whole file, the night's script keeps what
it should, and the fronts are files of theirs."""

from __future__ import annotations

import contextlib
import hashlib
import os
import re
import sqlite3
import subprocess
import sys
import time
from collections.abc import Callable
from datetime import datetime, timedelta, timezone
from pathlib import Path
from typing import NamedTuple, Optional
from zoneinfo import ZoneInfo

import pytest

from cpi_tools.office.program import Cpi
from cpi_tools.office.stored import SCHEMA
from lib.places import ROOT
from .needs import needed

OPS = ROOT / "ops"
KEY = "0123456789abcdef0123456789abcdef"
UNITS = ["cpi.service", "cpi-backup.service", "cpi-backup.timer", "cpi-follow.service", "cpi-promoted.service"]
UNITS += ["cpi-desk.service", "cpi-keep.service", "cpi-keep.timer"]


def script(path: Path, text: str) -> Path:
    path.write_text(f"#!/bin/sh\n{text}")
    path.chmod(0o755)
    return path


def test_the_units_are_verified_by_systemd(tmp_path: Path) -> None:
    for name in UNITS:
        text = (OPS / name).read_text().replace("/usr/lib/cpi/", f"{OPS}/")
        (tmp_path / name).write_text(text)
    words = [needed("systemd-analyze"), "verify", *(str(tmp_path / name) for name in UNITS)]
    ran = subprocess.run(words, capture_output=True, text=True, check=False)
    assert (ran.returncode, ran.stdout, ran.stderr) == (0, "", "")


def guides() -> str:
    """The documents about the machine."""
    return "".join(
        (ROOT / f"docs/run/{text}.md").read_text(encoding="utf-8") for text in ("RUNNING", "FRONT", "SECOND-MACHINE")
    )


def test_what_the_units_start_is_there_and_named_in_the_guide() -> None:
    guide = guides()
    for name in UNITS:
        for started in re.findall(r"^Exec\w+=\+?/usr/lib/cpi/([\w-]+)", (OPS / name).read_text(), re.M):
            assert os.access(OPS / started, os.X_OK)
    assert [path.name for path in sorted(OPS.iterdir()) if f"{path.name}" not in guide] == []


ADDED = {"CPI_ZONE", "CPI_COPY", "CPI_COPY_EVERY"} | {
    f"CPI_DESK_{text}" for text in ("FRONT", "LISTEN", "NOTES", "PHONES", "SECOND_KEY", "SITE", "SUPERVISORS")
}
"""What an office adds to its office.conf: its clock, and what a second machine or the pages of the desk ask for."""


def test_each_variable_of_the_scripts_is_in_the_configuration() -> None:
    told = set(re.findall(r"^(CPI_\w+)=", (OPS / "office.conf").read_text(), re.M))
    guide = guides()
    assert [name for name in sorted(ADDED) if f"`{name}=" not in guide] == []
    scripts = ("cpi-serve", "cpi-stopped", "cpi-backup", "cpi-follow", "cpi-desk")
    used = {name for path in scripts for name in re.findall(r"CPI_\w+", (OPS / path).read_text())}
    assert told == used - ADDED


WRONG = os.EX_CONFIG
"""The status of a start whose settings are wrong."""


class Started(NamedTuple):
    """How a script of the units ended: its status, what it printed, what it told in the journal, and its folder."""

    status: int
    printed: str
    told: str
    folder: Path


# What the program does as far as cpi-serve asks it: it judges zone, key and port in this order, never opens a file
# below /dev/null, and says what it was started with. Rules of clocks are judged by the program under test.
STAND_IN = """\
case $1 in replay) exec "$REAL" "$@" ;; esac
echo "$@" >> "$FOLDER/started"
"$REAL" replay --zone "${11}" < /dev/null || exit
[ "$5" != 0 ] || { printf "error: invalid value '0' for '--port <port>': 0 is no port\n\nSee --help.\n" >&2; exit 2; }
tr -d '[:space:]' < "$7" | grep -qxE '[0-9a-f]{32}' || { echo "cpi: bad key" >&2; exit 1; }
[ "$3" != /dev/null/none ] || { echo "cpi: database failed" >&2; exit 1; }
eval "${SEEN-}"
echo "cpi: listening on 127.0.0.1:$5"
"""


def start(cpi: Cpi, folder: Path, key: str = KEY, **settings: str) -> Started:
    """What cpi-serve does with a key and settings, and a program that ends once it listens."""
    (folder / "room").mkdir(exist_ok=True)
    (folder / "desk-key").write_text(key)
    script(folder / "cpi", STAND_IN)
    script(folder / "systemd-notify", 'echo "$@" >> "$FOLDER/notified"\n')
    kept = {"PATH": f"{folder}:{os.environ['PATH']}", "CREDENTIALS_DIRECTORY": str(folder), "REAL": str(cpi.path)}
    kept |= {"RUNTIME_DIRECTORY": str(folder / "room"), "NOTIFY_SOCKET": "/nowhere", "FOLDER": str(folder)}
    words = {"env": {**kept, **settings}, "capture_output": True, "text": True, "check": False}
    ran = subprocess.run([OPS / "cpi-serve"], timeout=60, **words)  # type: ignore[call-overload]
    return Started(ran.returncode, ran.stdout, ran.stderr, folder)


def served_words(started: Started) -> str:
    """The words of the program that serves; the first call was the look at the settings."""
    looked, served = (started.folder / "started").read_text().splitlines()
    assert looked.split(" ")[1:3] == ["--db", "/dev/null/none"]
    assert looked.split(" ")[3:] == served.split(" ")[3:]
    return served


@pytest.mark.parametrize("key", [KEY, f"{KEY}\n", f" {KEY}\r\n"])
def test_the_key_is_handed_over_as_a_file(cpi: Cpi, key: str, tmp_path: Path) -> None:
    started = start(cpi, tmp_path, key, CPI_ZONE="CET-1")
    assert (started.status, started.printed, started.told) == (0, "cpi: listening on 127.0.0.1:8080\n", "")
    words = f"--port 8080 --desk-key-file {tmp_path}/desk-key --limit 1000000 --zone CET-1"
    assert served_words(started) == f"serve --db /var/lib/cpi/office.db {words}"


def test_systemd_is_told_once_it_listens(cpi: Cpi, tmp_path: Path) -> None:
    start(cpi, tmp_path, CPI_ZONE="UTC0", CPI_PORT="8081")
    # (the helper that tells it may end a moment after the program)
    wait_for(lambda: (tmp_path / "notified").exists())
    assert (tmp_path / "notified").read_text() == "--ready --status=cpi: listening on 127.0.0.1:8081\n"


OPENING = "room-opening/opening.json"
"""Where the front looks, beside the folder of the service."""


def test_the_front_is_told_of_an_open_until_it_listens(cpi: Cpi, tmp_path: Path) -> None:
    office, opening = tmp_path / "office.db", tmp_path / OPENING
    office.write_bytes(b"large")
    opening.parent.mkdir()
    opening.write_text("of the start before")
    # (what the doctor would write; and the program looks whether it is there while it opens)
    script(tmp_path / "cpi-tools", '[ ! -e "$3" ] && echo "$@" > "$3"\n')
    seen = 'case $3 in */office.db) cp "$FOLDER/room-opening/opening.json" "$FOLDER/seen" ;; esac\n'
    started = start(cpi, tmp_path, CPI_ZONE="UTC0", CPI_OFFICE=str(office), SEEN=seen)
    assert (started.status, started.told) == (0, "")
    assert (tmp_path / "seen").read_text() == f"doctor --opening {opening} {office}\n"
    wait_for(lambda: not opening.exists())
    assert not opening.exists()


def test_a_start_doesnt_fail_by_what_the_front_is_told(cpi: Cpi, tmp_path: Path) -> None:
    """The tool fails, and what stands in the place of the file can't be removed: the office listens, and systemd knows."""
    office, opening = tmp_path / "office.db", tmp_path / OPENING
    office.write_bytes(b"large")
    opening.mkdir(parents=True)
    script(tmp_path / "cpi-tools", "exit 9\n")
    started = start(cpi, tmp_path, CPI_ZONE="UTC0", CPI_OFFICE=str(office))
    assert (started.status, started.printed) == (0, "cpi: listening on 127.0.0.1:8080\n")
    wait_for(lambda: (tmp_path / "notified").exists())
    assert (tmp_path / "notified").read_text().startswith("--ready")
    assert stopped(cpi, office, STOP).status == 0


def test_a_front_without_a_folder_is_told_nothing(cpi: Cpi, tmp_path: Path) -> None:
    office = tmp_path / "office.db"
    office.write_bytes(b"large")
    script(tmp_path / "cpi-tools", "exit 9\n")
    started = start(cpi, tmp_path, CPI_ZONE="UTC0", CPI_OFFICE=str(office))
    assert (started.status, started.told, (tmp_path / OPENING).exists()) == (0, "", False)


def wait_for(is_there: Callable[[], bool]) -> None:
    until = time.monotonic() + 60
    while not is_there() and time.monotonic() < until:
        time.sleep(0.01)


@pytest.mark.parametrize("key", ["", KEY[:-1], f"{KEY}0", KEY.upper(), f"{KEY[:-1]}*", "none"])
def test_another_key_is_told_and_not_shown(cpi: Cpi, key: str, tmp_path: Path) -> None:
    """With a status that the unit doesn't start again. (`none` is what the unit hands over without a file.)"""
    started = start(cpi, tmp_path, key, CPI_ZONE="UTC0")
    assert (started.status, started.printed, started.told.count("\n")) == (WRONG, "", 1)
    assert "/etc/cpi/desk-key" in started.told and "openssl rand -hex 16" in started.told
    assert ("there is no file" in started.told) == (key == "none")
    assert len(key) < 31 or key not in started.told


def test_settings_that_are_refused_are_told_with_their_place(cpi: Cpi, tmp_path: Path) -> None:
    wanted = "cpi-serve: /etc/cpi/office.conf: invalid value '0' for CPI_PORT: 0 is no port\n"
    assert start(cpi, tmp_path, CPI_PORT="0", CPI_ZONE="UTC0")[:3] == (WRONG, "", wanted)
    none = start(cpi, tmp_path)
    assert (none.status, none.printed, none.told.count("\n")) == (WRONG, "", 1)
    assert none.told.startswith("cpi-serve: /etc/cpi/office.conf isn't there")


def test_a_wrong_setting_is_not_started_again_and_another_fault_is() -> None:
    unit = (OPS / "cpi.service").read_text()
    assert re.findall(r"^Restart(?:PreventExitStatus)?=(.*)$", unit, re.M) == ["always", "CONFIG CREDENTIALS"]


@pytest.mark.parametrize("zone", ["UTC0", "Europe/Prague"])
def test_want_of_memory_is_no_wrong_setting(cpi: Cpi, zone: str, tmp_path: Path) -> None:
    """It may pass, so the unit tries again."""
    broken = script(tmp_path / "broken", 'echo "cpi: out of memory" >&2\nexit 1\n')
    started = start(cpi, tmp_path, CPI_ZONE=zone, CPI=str(broken))
    assert (started.status, started.printed) == (1, "")
    assert started.told == f"cpi-serve: {broken} replay: cpi: out of memory\n"


def test_a_program_that_is_not_there_is_told(cpi: Cpi, tmp_path: Path) -> None:
    started = start(cpi, tmp_path, CPI_ZONE="UTC0", CPI="/nowhere/cpi")
    assert (started.status, started.printed, started.told.count("\n")) == (WRONG, "", 1)
    assert started.told.startswith("cpi-serve: there is no program /nowhere/cpi")


def test_the_desk_s_pages_take_notes_publish_and_print_keys_if_the_settings_say_so(tmp_path: Path) -> None:
    script(tmp_path / "cpi-tools", 'echo "$@"\n')
    settings = {"PATH": f"{tmp_path}:{os.environ['PATH']}", "CPI_OFFICE": str(tmp_path), "CPI_ZONE": "UTC0"}

    def started(**more: str) -> subprocess.CompletedProcess[str]:
        words = {"env": {**settings, **more}, "capture_output": True, "text": True, "check": False}
        return subprocess.run([OPS / "cpi-desk"], timeout=60, **words)  # type: ignore[call-overload, no-any-return]

    assert "--field-notes" not in started().stdout + started(CPI_DESK_NOTES="0").stdout
    assert " --field-notes 13 " in started(CPI_DESK_NOTES="13").stdout
    told = started(CPI_DESK_SITE="/etc/cpi/office.ini", CPI_DESK_PHONES="https://prices.example").stdout
    assert " --site /var/lib/cpi-site/published --site-config /etc/cpi/office.ini " in told
    assert " --phones https://prices.example " in told and "--site" not in started().stdout
    assert " --second-key-file /etc/cpi/second " in started(CPI_DESK_SECOND_KEY="/etc/cpi/second").stdout
    assert " --supervisors /etc/cpi/team.csv " in started(CPI_DESK_SUPERVISORS="/etc/cpi/team.csv").stdout
    assert "--supervisors" not in started().stdout
    wrong = started(CPI_DESK_NOTES="13 months")
    assert (wrong.returncode, wrong.stdout, wrong.stderr.count("\n")) == (WRONG, "", 1)
    assert "office.conf: CPI_DESK_NOTES is 13 months: wanted is a number of months, such as 13" in wrong.stderr


# ---- the zone


def test_an_office_without_a_clock_does_not_start_and_says_how_to_set_it(cpi: Cpi, tmp_path: Path) -> None:
    """Neither does the desk's application. The shipped settings have none."""
    shipped = dict(line.split("=", 1) for line in (OPS / "office.conf").read_text().splitlines() if line[:1] not in "#")
    for settings in (shipped, {**shipped, "CPI_ZONE": ""}):
        started = start(cpi, tmp_path, **settings)
        assert (started.status, started.printed, started.told.count("\n")) == (WRONG, "", 1)
        assert started.told.startswith(
            "cpi-serve: /etc/cpi/office.conf: CPI_ZONE isn't set: wanted is the office's clock"
        )
        assert "CPI_ZONE=Europe/Prague" in started.told and not (tmp_path / "started").exists()
    kept = {"PATH": os.environ["PATH"], "CPI_OFFICE": str(tmp_path)}
    desk = subprocess.run([OPS / "cpi-desk"], env=kept, capture_output=True, text=True, check=False)
    assert desk.returncode == WRONG and "office.conf: CPI_ZONE isn't set" in desk.stderr


@pytest.mark.parametrize(
    "place", ["Europe/Prague", "America/New_York", "Asia/Kathmandu", "Etc/GMT+9", "EST5EDT", "UTC"]
)
def test_the_rule_of_a_place_is_that_of_the_systems_clock(cpi: Cpi, place: str, tmp_path: Path) -> None:
    """In each hour of two years the clock of the rule is that of the place, as Python's library has both."""
    started = start(cpi, tmp_path, CPI_ZONE=place)
    assert started.status == 0, started.told
    rule = served_words(started).rpartition(" ")[2]
    assert rule != place and f"CPI_ZONE is {place}, whose clock follows {rule}\n" in started.printed
    assert offsets(rule) == [hour.astimezone(ZoneInfo(place)).utcoffset() for hour in HOURS]


HOURS = [datetime(2027, 1, 1, tzinfo=timezone.utc) + timedelta(hours=hour) for hour in range(2 * 8760)]


def offsets(rule: str) -> list[timedelta]:
    """How far the clock of a POSIX rule is from UTC in each of these hours, by the C library."""
    code = "import sys, time; print(*(time.localtime(int(line)).tm_gmtoff for line in sys.stdin))"
    hours = "".join(f"{hour.timestamp():.0f}\n" for hour in HOURS)
    words = {"input": hours, "env": {"TZ": rule}, "capture_output": True, "text": True, "check": True}
    ran = subprocess.run([sys.executable, "-c", code], **words)  # type: ignore[call-overload]
    return [timedelta(seconds=int(seconds)) for seconds in ran.stdout.split()]


REFUSED = ["Europe/Nowhere", "Europe", "Europe/", "/usr/share/zoneinfo/Europe/Prague", "../zoneinfo/Europe/Prague",
           "Europe/../Europe/Prague", "leapseconds", "zone.tab", "Europe/Prague;", "CET-1CEST", "x"]  # fmt: skip


@pytest.mark.parametrize("zone", REFUSED)
def test_a_zone_that_is_neither_rule_nor_place_is_told(cpi: Cpi, zone: str, tmp_path: Path) -> None:
    started = start(cpi, tmp_path, CPI_ZONE=zone)
    assert (started.status, started.printed, started.told.count("\n")) == (WRONG, "", 1)
    assert started.told.startswith(f"cpi-serve: /etc/cpi/office.conf: CPI_ZONE is '{zone}': wanted is a place")
    assert "Europe/Prague" in started.told and "CET-1CEST,M3.5.0,M10.5.0/3" in started.told


def test_a_place_whose_clock_follows_no_rule_is_told(cpi: Cpi, tmp_path: Path) -> None:
    """Morocco's clock goes back for the month of Ramadan, which no such rule can say."""
    started = start(cpi, tmp_path, CPI_ZONE="Africa/Casablanca")
    assert (started.status, started.printed, started.told.count("\n")) == (WRONG, "", 1)
    assert "CPI_ZONE is Africa/Casablanca, whose clock follows no rule" in started.told


# ---- a second machine


def test_an_office_whose_copy_was_promoted_does_not_start(cpi: Cpi, tmp_path: Path) -> None:
    office, mark = tmp_path / "office.db", tmp_path / "office.db.promoted"
    mark.write_text("second was promoted 2026-11-27 22:00:00 UTC\n")
    started = start(cpi, tmp_path, CPI_ZONE="UTC0", CPI_OFFICE=str(office))
    assert (started.status, started.printed, started.told.count("\n")) == (WRONG, "", 1)
    assert started.told.startswith(f"cpi-serve: {mark}: second was promoted 2026-11-27 22:00:00 UTC: two offices")
    assert not (tmp_path / "started").exists()
    mark.unlink()
    assert start(cpi, tmp_path, CPI_ZONE="UTC0", CPI_OFFICE=str(office)).status == 0


def followed(folder: Path, *words: str, **settings: str) -> Started:
    """What cpi-follow does, with tools that end with the statuses of a file, one after the other."""
    next_status = f'status=$(head -n 1 {folder}/statuses); sed -i 1d {folder}/statuses; exit "$status"'
    for name in ("cpi-tools", "systemctl", "sleep"):
        script(folder / name, f'echo {name} "$@" >> {folder}/asked\n' + (next_status if name == "cpi-tools" else ""))
    kept = {"PATH": f"{folder}:{os.environ['PATH']}", "CPI_OFFICE": "office.db", **settings}
    ran = subprocess.run([OPS / "cpi-follow", *words], env=kept, capture_output=True, text=True, check=False)
    return Started(ran.returncode, ran.stdout, ran.stderr, folder)


def test_the_second_copy_is_kept_as_the_settings_say(tmp_path: Path) -> None:
    (tmp_path / "statuses").write_text("0\n")
    assert followed(tmp_path, CPI_COPY="second:copy", CPI_COPY_EVERY="7")[:3] == (0, "", "")
    asked = "cpi-tools follow office.db second:copy --every 7 --room /var/lib/cpi-follow --desk /var/lib/cpi-desk\n"
    assert (tmp_path / "asked").read_text() == asked
    for word in ("", "ask"):
        none = followed(tmp_path, *([word] if word else []), CPI_COPY="")
        assert (none.status, none.told.count("\n")) == (WRONG, 1) and "CPI_COPY is empty" in none.told


@pytest.mark.parametrize("last", [0, 4])
def test_the_office_waits_until_its_copy_says_whether_it_was_promoted(last: int, tmp_path: Path) -> None:
    (tmp_path / "statuses").write_text(f"1\n1\n{last}\n")
    ended = followed(tmp_path, "ask", CPI_COPY="second:copy")
    assert (ended.status, ended.told.count("\n")) == (last, 2)
    asked = ["cpi-tools follow office.db second:copy --ask --room /var/lib/cpi-follow"] * 3
    assert (tmp_path / "asked").read_text().splitlines() == [asked[0], "sleep 10", asked[1], "sleep 10", asked[2]]


@pytest.mark.parametrize("status, asked", [("4", ["systemctl stop cpi.service"]), ("1", []), ("TERM", [])])
def test_the_office_of_this_machine_stops_if_its_copy_was_promoted(
    status: str, asked: list[str], tmp_path: Path
) -> None:
    assert followed(tmp_path, "stopped", CPI_COPY="second:copy", EXIT_STATUS=status)[:3] == (0, "", "")
    told = tmp_path / "asked"
    assert (told.read_text().splitlines() if told.exists() else []) == asked


# ---- after a fault, and after a stop


def test_after_a_fault_it_waits_and_looks_whose_file_it_is(cpi: Cpi, tmp_path: Path) -> None:
    """A file of a later program isn't tried again; another fault is, after a second."""
    office, note = tmp_path / "office.db", tmp_path / "room/failed"
    cpi.replay([], db=office)
    for version, status in ((2, 0), (3, WRONG)):
        note.parent.mkdir(exist_ok=True)
        note.write_text("exited 1\n")
        with contextlib.closing(sqlite3.connect(office)) as file, file:
            file.execute(f"UPDATE version SET number = {version}")
        begun = time.monotonic()
        started = start(cpi, tmp_path, CPI_ZONE="UTC0", CPI_OFFICE=str(office))
        assert (started.status, note.exists()) == (status, False)
        assert time.monotonic() - begun > 1
    assert started.told.startswith(f"cpi-serve: {office} was written by a later version of cpi")


class Ended(NamedTuple):
    """How the office ended, in the words of systemd."""

    code: str
    status: str


STOP = Ended("killed", "TERM")


def stopped(cpi: Cpi, office: Path, how: Ended, program: Optional[Path] = None, room: Optional[Path] = None) -> Started:
    """What cpi-stopped does after an end of a program that served; by default the one that is installed."""
    room = room or office.parent / "room"
    room.mkdir(exist_ok=True)
    served = hashlib.sha256((program or cpi.path).read_bytes()).hexdigest()
    (room / "program").write_text(f"{served}  -\n")
    kept = {"PATH": os.environ["PATH"], "CPI": str(cpi.path), "CPI_OFFICE": str(office), "RUNTIME_DIRECTORY": str(room)}
    kept |= {"SERVICE_RESULT": "success", "EXIT_CODE": how.code, "EXIT_STATUS": how.status}
    ran = subprocess.run([OPS / "cpi-stopped"], env=kept, capture_output=True, text=True, check=False)
    return Started(ran.returncode, ran.stdout, ran.stderr, room)


@pytest.fixture
def killed(cpi: Cpi, tmp_path: Path) -> Path:
    """The file of an office that a signal ended: all that was answered is in the log beside it."""
    office = tmp_path / "office.db"
    words = [str(cpi.path), "replay", "--db", str(office)]
    with subprocess.Popen(words, stdin=subprocess.PIPE, stdout=subprocess.PIPE) as running:
        assert running.stdin and running.stdout
        running.stdin.write(b"0,desk,item,RICE,Rice,1 kg,500,2000\n")
        running.stdin.flush()
        assert running.stdout.readline() == b'{"done":true}\n'
        running.terminate()
    assert items_of(office) is None
    return office


def items_of(office: Path) -> Optional[list[tuple[object, ...]]]:
    """The items in a copy of the file without its log, as SQLite reads it; None where it has no such table."""
    alone = office.with_name("alone.db")
    alone.write_bytes(office.read_bytes())
    with contextlib.closing(sqlite3.connect(alone)) as file:
        try:
            return file.execute("SELECT code FROM item").fetchall()
        except sqlite3.OperationalError:
            return None


def bytes_of(office: Path) -> list[bytes]:
    """File and log."""
    return [path.read_bytes() for path in (office, office.with_name(f"{office.name}-wal"))]


def test_after_a_stop_the_file_is_the_whole_office(cpi: Cpi, killed: Path) -> None:
    assert stopped(cpi, killed, STOP)[:3] == (0, "", "")
    assert items_of(killed) == [("RICE",)]


def test_a_stop_through_a_link_does_the_same(cpi: Cpi, killed: Path, tmp_path: Path) -> None:
    (tmp_path / "link.db").symlink_to(killed)
    assert stopped(cpi, tmp_path / "link.db", STOP)[:3] == (0, "", "")
    assert items_of(killed) == [("RICE",)]


@pytest.mark.parametrize("how", [Ended("exited", "1"), Ended("killed", "KILL"), Ended("dumped", "SEGV")])
def test_a_fault_is_noted_for_the_next_start_which_takes_the_log_in(cpi: Cpi, killed: Path, how: Ended) -> None:
    before = bytes_of(killed)
    ended = stopped(cpi, killed, how)
    assert (ended[:3], (ended.folder / "failed").read_text()) == ((0, "", ""), f"{how.code} {how.status}\n")
    assert bytes_of(killed) == before


def test_the_end_of_its_connections_costs_nothing(cpi: Cpi, killed: Path) -> None:
    before = bytes_of(killed)
    ended = stopped(cpi, killed, Ended("exited", "0"))
    assert (ended[:3], (ended.folder / "failed").exists(), bytes_of(killed)) == ((0, "", ""), False, before)


def test_another_program_than_the_one_that_served_is_told_and_never_run(cpi: Cpi, killed: Path) -> None:
    """It could bring the file to later tables before somebody has copied it; SQLite leaves the tables as they are."""
    before = bytes_of(killed)
    ended = stopped(cpi, killed, STOP, Path("/bin/true"))
    assert (ended.status, ended.printed, ended.told.count("\n")) == (0, "", 1)
    assert f"copy {killed} before the next start" in ended.told
    assert items_of(killed) == [("RICE",)] and before[0] != killed.read_bytes()


def test_a_file_that_is_held_is_told_and_nothing_is_lost(cpi: Cpi, killed: Path) -> None:
    words = [str(cpi.path), "replay", "--db", str(killed)]
    with subprocess.Popen(words, stdin=subprocess.PIPE, stdout=subprocess.PIPE) as other:
        assert other.stdin and other.stdout
        other.stdin.write(b"9,public,items\n")
        other.stdin.flush()
        assert b"RICE" in other.stdout.readline()
        ended = stopped(cpi, killed, STOP)
        other.kill()
    assert (ended.status, ended.printed, ended.told.count("\n")) == (1, "", 1)
    assert f"{killed}-wal couldn't be put into {killed} (SQLite: database is locked)" in ended.told
    assert cpi.replay(["9,public,items"], db=killed) == [{"items": [["RICE", "Rice", "1 kg", 500, 2000]]}]


def test_an_empty_file_keeps_its_log(cpi: Cpi, killed: Path) -> None:
    """SQLite takes away the log of a file without a byte: so it is never asked of one."""
    log = killed.with_name("office.db-wal").read_bytes()
    killed.write_bytes(b"")
    ended = stopped(cpi, killed, STOP)
    assert (ended.status, ended.told.count("\n")) == (1, 1) and "the file is empty, and all is in its log" in ended.told
    assert bytes_of(killed) == [b"", log]
    (killed.parent / "room/failed").write_text("exited 1\n")
    start(cpi, killed.parent, CPI_ZONE="UTC0", CPI_OFFICE=str(killed))
    assert bytes_of(killed) == [b"", log]


def test_a_look_at_the_schema_writes_nothing(cpi: Cpi, killed: Path) -> None:
    """Though the schema's number is in the log only."""
    before = bytes_of(killed)
    for version, status in ((2, 0), (3, WRONG)):
        if version == 3:
            assert cpi.replay([], db=killed) == []
            with contextlib.closing(sqlite3.connect(killed)) as file, file:
                file.execute("UPDATE version SET number = 3")
            before = [killed.read_bytes()]
        (killed.parent / "room").mkdir(exist_ok=True)
        (killed.parent / "room/failed").write_text("exited 1\n")
        assert start(cpi, killed.parent, CPI_ZONE="UTC0", CPI_OFFICE=str(killed)).status == status
        assert bytes_of(killed)[: len(before)] == before if version == 2 else killed.read_bytes() == before[0]
        assert not killed.with_name("office.db-shm").exists()


def test_the_front_isnt_told_of_an_open_that_has_ended(cpi: Cpi, tmp_path: Path) -> None:
    opening = tmp_path / OPENING
    opening.parent.mkdir()
    for how in (STOP, Ended("exited", "1"), Ended("killed", "KILL")):
        opening.write_text("{}")
        stopped(cpi, tmp_path / "office.db", how)
        assert not opening.exists()


def test_the_scripts_know_the_schemas_of_this_version() -> None:
    known = "|".join(f" {number} " for number in range(1, SCHEMA + 1))
    assert f"'' |{known})".replace(" )", ")") in (OPS / "cpi-serve").read_text()


def test_a_file_that_is_not_there_is_not_made(cpi: Cpi, tmp_path: Path) -> None:
    """Nor does its folder have to be there: its disk may have gone."""
    (tmp_path / "there").symlink_to(tmp_path / "nowhere/there")
    for office in (tmp_path / "office.db", tmp_path / "there/office.db"):
        assert stopped(cpi, office, STOP, room=tmp_path / "room")[:3] == (0, "", "")
        assert not office.exists()


# ---- the night


DAY = "2026-11-15"
"""The day of each night here, whatever the machine's clock says: a run of tests may go on over midnight."""


def night(folder: Path, drill_status: int, backup_status: int = 0) -> subprocess.CompletedProcess[str]:
    """The night's script, with tools that say what they do; backups are files with their notes, and with the desk's
    folder if that is there: in the place of /var/lib/cpi-desk it is one of this folder."""
    desk = f'[ ! -d "$5" ] || [ {backup_status} != 0 ] || echo new > "$3.desk.tar"'
    made = f'mkdir -p "${{3%/*}}"; echo new > "$3"; echo new > "$3.sha256"; {desk}; exit {backup_status}'
    drill = f'drill) test -e "$2.sha256" || exit 9; exit {drill_status} ;;'
    script(folder / "date", f'[ "$*" = "-u +%F" ] && echo {DAY}\n')
    script(folder / "cpi-tools", f'echo "$@"\ncase $1 in backup) {made} ;; {drill} esac\n')
    kept = {"PATH": f"{folder}:{os.environ['PATH']}", "CPI_BACKUPS": str(folder / "kept"), "CPI_OFFICE": "office.db"}
    text = (OPS / "cpi-backup").read_text().replace("/var/lib/cpi-desk", str(folder / "cpi-desk"))
    script(folder / "cpi-backup", text.partition("\n")[2])
    return subprocess.run([folder / "cpi-backup"], env=kept, capture_output=True, text=True, check=False)


OLD = {
    "office-2020-05-17.db": (100, True),
    "office-2020-05-18.db": (100, False),
    "office-2020-05-31.db": (100, False),
    "office-2020-06-01.db": (100, True),
    "office-2020-07-01.db": (40, True),
    "office-2020-07-20.db": (33, False),
    "office-2020-07-21.db": (30, True),
    "office-2021-07-20.db": (33, True),
    "other-2020-05-18.db": (100, True),
}
"""Files by their names: how many days old they are, and whether they stay."""

TODAY = f"office-{DAY}.db"


def old_backups(folder: Path) -> None:
    """Backups with their notes, and a file that is none."""
    folder.mkdir()
    for name, (days, _) in OLD.items():
        for path in (folder / name, folder / f"{name}.sha256"):
            path.write_text("old")
            os.utime(path, (time.time() - days * 86_400,) * 2)


def both(*names: str) -> set[str]:
    """Backups with their notes."""
    return {each for name in names for each in (name, f"{name}.sha256")}


def test_a_night_makes_a_backup_drills_it_and_removes_old_ones(tmp_path: Path) -> None:
    """Those of a month stay whose first day it is that has one; the machine may have been off on the first."""
    old_backups(tmp_path / "kept")
    ran = night(tmp_path, 0)
    assert (ran.returncode, ran.stderr) == (0, "")
    new = tmp_path / "kept/.new" / TODAY
    assert ran.stdout == f"backup office.db {new} --desk {tmp_path}/cpi-desk\ndrill {new}\n"
    kept = both(TODAY, *(name for name, (_, is_kept) in OLD.items() if is_kept))
    assert {path.name for path in (tmp_path / "kept").iterdir() if path.is_file()} == kept
    assert {(tmp_path / "kept" / name).read_text() for name in both(TODAY)} == {"new\n"}
    assert [*new.parent.iterdir()] == []


def test_a_night_notes_the_last_line_of_the_desk_s_log_if_there_is_one(tmp_path: Path) -> None:
    desk, asked = tmp_path / "cpi-desk", list[str]()
    desk.mkdir()
    for text in ("", "a line\n"):
        (desk / "desk.log").write_text(text)
        asked.append(night(tmp_path, 0).stdout.splitlines()[0])
    new = f"backup office.db {tmp_path / 'kept/.new' / TODAY} --desk {desk}"
    assert asked == [new, f"{new} --desk-log {desk / 'desk.log'}"]


def test_a_copy_that_is_not_whole_counts_for_nothing_and_nothing_is_removed(tmp_path: Path) -> None:
    """A backup of this morning that was whole isn't lost for it."""
    old_backups(tmp_path / "kept")
    for name in both(TODAY):
        (tmp_path / "kept" / name).write_text("of this morning")
    assert night(tmp_path, 1).returncode == 1
    files = {path.name for path in (tmp_path / "kept").iterdir() if path.is_file()}
    assert files == both(*OLD, TODAY) | {f"{TODAY}.bad", f"{TODAY}.bad-note"}
    assert (tmp_path / "kept" / TODAY).read_text() == "of this morning"


def test_a_night_after_another_one_of_the_day_and_one_that_broke_off(tmp_path: Path) -> None:
    for name in (*both(TODAY), *(f".new/{name}" for name in both(TODAY))):
        (tmp_path / "kept/.new").mkdir(parents=True, exist_ok=True)
        (tmp_path / "kept" / name).write_text("before")
    bad = tmp_path / "kept/office-2020-06-01.db.bad"
    bad.write_text("torn")
    os.utime(bad, (time.time() - 40 * 86_400,) * 2)
    assert night(tmp_path, 0).returncode == 0
    assert {path.name for path in (tmp_path / "kept").iterdir() if path.is_file()} == both(TODAY)
    assert {(tmp_path / "kept" / name).read_text() for name in both(TODAY)} == {"new\n"}


def test_the_desk_s_folder_is_in_the_backup_of_the_night(tmp_path: Path) -> None:
    """If it can't be read, the office's backup is there all the same, and the unit fails."""
    (tmp_path / "cpi-desk").mkdir()
    (tmp_path / "kept").mkdir()
    new = tmp_path / "kept/.new" / TODAY
    ran = night(tmp_path, 0)
    assert (ran.returncode, ran.stdout) == (0, f"backup office.db {new} --desk {tmp_path}/cpi-desk\ndrill {new}\n")
    files = {path.name for path in (tmp_path / "kept").iterdir() if path.is_file()}
    assert files == both(TODAY) | {f"{TODAY}.desk.tar"}
    assert night(tmp_path, 0, backup_status=4).returncode == 4
    files = {path.name for path in (tmp_path / "kept").iterdir() if path.is_file()}
    assert files == both(TODAY)
    assert night(tmp_path, 1).returncode == 1
    files = {path.name for path in (tmp_path / "kept").iterdir() if path.is_file()}
    assert files == both(TODAY) | {f"{TODAY}.{end}" for end in ("bad", "bad-note", "bad-desk")}
    assert night(tmp_path, 0, backup_status=1).returncode == 1


FILLED = {
    "@HTTP@": "18080", "@HTTPS@": "18443", "@HOST@": "localhost", "@PORT@": "18081", "@CERT@": "cert.pem",
    "@CERTKEY@": "key.pem", "@LOG@": "front.log", "@CACHE@": "cache", "@SOCKET@": "front.sock", "@WEB@": "web",
    "@CONFIG@": "config.js", "@SITE@": "site", "@CALENDAR@": "calendar.json", "@DESK@": "127.0.0.1:18090",
}  # fmt: skip


def filled(name: str, folder: Path) -> str:
    """A file of a front with its words between @ signs filled in; files lie in a folder."""
    text = (OPS / name).read_text()
    for word, value in FILLED.items():
        text = text.replace(
            word,
            value if value.replace(".", "").replace(":", "").isdigit() or value == "localhost" else str(folder / value),
        )
    assert not re.search("@[A-Z]+@", text)
    return text


def test_nginx_takes_its_file(tmp_path: Path) -> None:
    nginx, openssl = needed("nginx"), needed("openssl")
    made = [openssl, "req", "-x509", "-newkey", "rsa:2048", "-nodes", "-subj", "/CN=localhost", "-days", "2"]
    made += ["-keyout", str(tmp_path / "key.pem"), "-out", str(tmp_path / "cert.pem")]
    subprocess.run(made, capture_output=True, check=True)
    (tmp_path / "site.conf").write_text(filled("nginx.conf", tmp_path))
    (tmp_path / "nginx.conf").write_text(
        f"pid {tmp_path}/pid;\nerror_log {tmp_path}/errors;\nevents {{}}\nhttp {{\ninclude {tmp_path}/site.conf;\n}}\n"
    )
    ran = subprocess.run([nginx, "-t", "-c", tmp_path / "nginx.conf"], capture_output=True, text=True, check=False)
    assert ran.returncode == 0, ran.stderr


def test_caddy_takes_its_file(tmp_path: Path) -> None:
    caddy = needed("caddy")
    (tmp_path / "Caddyfile").write_text(filled("Caddyfile", tmp_path))
    words = [caddy, "validate", "--adapter", "caddyfile", "--config", tmp_path / "Caddyfile"]
    home = {**os.environ, "HOME": str(tmp_path), "XDG_DATA_HOME": str(tmp_path), "XDG_CONFIG_HOME": str(tmp_path)}
    ran = subprocess.run(words, capture_output=True, text=True, check=False, env=home)
    assert ran.returncode == 0, ran.stderr
