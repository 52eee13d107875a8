"""`cpi-tools doctor`: each cause beside `cpi` itself, which fails at the same file; a file that is well is told so, and
nothing that is looked at changes or is locked."""

from __future__ import annotations

import contextlib
import gzip
import os
import shutil
import sqlite3
import subprocess
import sys
import tempfile
from collections.abc import Callable, Iterator
from pathlib import Path
from typing import Optional

import pytest

from cpi_tools.guard import doctor
from cpi_tools.office.copying import log_beside
from cpi_tools.guard.follow import restoring_beside
from cpi_tools.office.access import LOCK_BEGIN, Holder, holders_of, is_held, unit_in
from cpi_tools.office.program import Cpi, CpiFailed
from lib.places import ROOT
from .disks import fill, mounted
from .offices import LOAD_KEY, LOAD_MONTH
from .ran import Ran, run
from .needs import needed
from .test_ops import script

NOBODY = 65534

as_root = pytest.mark.skipif(os.geteuid() != 0, reason="other users and mounts are tried by root")


def opens(cpi: Cpi, file: Path) -> bool:
    """Whether the program opens a file as an office, or else fails in the words that don't say why."""
    try:
        return cpi.replay([], db=file) == []
    except CpiFailed as fault:
        assert "cpi: database failed" in str(fault) or "cpi: unknown schema" in str(fault), fault
        return False


def told(cpi: Cpi, file: Path, *more: str) -> str:
    """The one line on a file that can't be opened, without its name. The files beside it stay as they are."""
    before = state_of(file.parent)
    found = run(cpi, "doctor", file, *more)
    assert (found.status, found.err, found.out.count("\n")) == (1, "", 1), found
    assert state_of(file.parent) == before
    assert found.out.startswith(f"{file}: ")
    return found.out[len(f"{file}: ") :].rstrip("\n")


def state_of(folder: Path) -> dict[str, tuple[int, int]]:
    """The sizes of the files in a folder, and when they changed."""
    with contextlib.suppress(OSError):
        return {each.name: (each.lstat().st_size, each.lstat().st_mtime_ns) for each in folder.iterdir()}
    return {}


@pytest.fixture
def open_folder() -> Iterator[Path]:
    """A folder that every user may enter."""
    with tempfile.TemporaryDirectory(prefix="cpi-doctor-") as name:
        os.chmod(name, 0o755)
        yield Path(name)


@pytest.fixture
def quick(monkeypatch: pytest.MonkeyPatch) -> None:
    """Meanwhile no copy may be made."""

    def fails(_: Path) -> None:
        raise AssertionError("it makes a copy")

    monkeypatch.setattr(doctor, "private_copy", fails)


# ---- what is well


def test_an_office_that_opens_is_well(cpi: Cpi, office: Path) -> None:
    """With a log that a kill left, and without one; and of a file of schema 1, which cpi brings to its own."""
    assert run(cpi, "doctor", office) == Ran(0, f"{office}: nothing is wrong\n", "")
    with contextlib.suppress(KeyError), cpi.session(office) as session:
        assert session.ask(f"50,{LOAD_KEY},quote,1,{LOAD_MONTH},price,1000") == {"receipt": 1}
        raise KeyError
    before = {path.name: path.read_bytes() for path in office.parent.iterdir()}
    assert run(cpi, "doctor", office) == Ran(0, f"{office}: nothing is wrong\n", "")
    assert {path.name: path.read_bytes() for path in office.parent.iterdir()} == before
    link = office.with_name("link.db")
    link.symlink_to(office)
    assert run(cpi, "doctor", link) == Ran(0, f"{link}: nothing is wrong\n", "")


def test_an_empty_file_is_opened_and_told(cpi: Cpi, tmp_path: Path) -> None:
    empty = tmp_path / "office.db"
    empty.touch()
    said = f"{empty}: nothing is wrong, but it is empty: cpi makes a new office of it\n"
    assert run(cpi, "doctor", empty) == Ran(0, said, "")
    assert [*tmp_path.iterdir()] == [empty] and opens(cpi, empty)


# ---- where it is


def test_what_is_not_there_or_is_no_file(cpi: Cpi, tmp_path: Path, quick: None) -> None:
    (tmp_path / "text").write_text("text")
    (tmp_path / "link").symlink_to("nowhere.db")
    os.mkfifo(tmp_path / "pipe")
    (tmp_path / "folder").mkdir()
    for name, begin in (
        ("folder", "it is a folder. Name the file in it."),
        ("none/x/office.db", f"there is no folder {tmp_path}/none. Make the folder, "),
        ("text/office.db", f"{tmp_path}/text, which its name takes for a folder, is a file. "),
        ("pipe", "it is a pipe and no file. "),
    ):
        assert told(cpi, tmp_path / name).startswith(begin), name
        if name != "pipe":
            assert not opens(cpi, tmp_path / name)
    assert told(cpi, tmp_path / "link").startswith("it is a link to nowhere.db, which isn't there. Correct the link.")
    said = told(cpi, tmp_path / "office.db")
    assert said.startswith("there is no such file, and cpi would make an empty office of that name. Check the name ")
    assert opens(cpi, tmp_path / "office.db")


@pytest.mark.usefixtures("quick")
def test_the_mark_of_a_restore_is_named_and_a_pipe_in_its_place_is_not_waited_for(
    cpi: Cpi, office: Path, tmp_path: Path
) -> None:
    """Whoever has the office's folder put it there, and root looks."""
    mark, outside = restoring_beside(office), tmp_path / "outside"
    mark.write_text("the restore of a backup isn't done\nmore\n")
    assert told(cpi, office) == "the restore of a backup isn't done. Run cpi-tools restore again."
    mark.unlink()
    outside.write_text("root's")
    puts: list[Callable[[Path], object]] = [os.mkfifo, lambda path: path.symlink_to(outside), Path.touch]
    for put in puts:
        put(mark)
        assert told(cpi, office) == "a restore isn't done. Run cpi-tools restore again."
        mark.unlink()


def test_a_log_that_lost_its_file_is_named(cpi: Cpi, tmp_path: Path, quick: None) -> None:
    """The program makes no other file in its place, and the log stays as it is."""
    office = tmp_path / "office.db"
    with contextlib.suppress(KeyError), cpi.session(office) as session:
        assert session.ask("0,desk,outlet,1,Kiosk") == {"done": True}
        raise KeyError
    office.unlink()
    before = log_beside(office).read_bytes()
    said = told(cpi, office)
    assert said.startswith(
        "there is no such file, but its log office.db-wal is there, with something in it: cpi makes "
    )
    assert not opens(cpi, office) and not office.exists() and log_beside(office).read_bytes() == before


# ---- who holds it


def test_the_program_that_holds_it_is_named(cpi: Cpi, office: Path, quick: None) -> None:
    """By a link to the file too; and a reader by the C library."""
    other = office.with_name("other.db")
    other.symlink_to(office)
    with cpi.session(office) as session:
        assert "tables" in session.ask("0,public,tables")
        for file in (office, other):
            assert not opens(cpi, file)
            assert told(cpi, file) == (
                f"cpi, process {session.process}, holds it."
                " Leave it to that program, ask it over HTTP, or stop it first."
            )
        assert "tables" in session.ask("0,public,tables")
    assert not is_held(office) and opens(cpi, office)
    words = [sys.executable, "-c", READER, str(office)]
    with subprocess.Popen(words, stdin=subprocess.PIPE, stdout=subprocess.PIPE) as reader:
        assert reader.stdout and reader.stdout.readline() == b"reading\n"
        assert f"process {reader.pid}, holds it. " in told(cpi, office) and not opens(cpi, office)


READER = """
import sqlite3, sys
link = sqlite3.connect(sys.argv[1], isolation_level=None)
link.execute("BEGIN")
link.execute("SELECT count(*) FROM calendar").fetchall()
print("reading", flush=True)
sys.stdin.read()
"""


@pytest.mark.parametrize(
    ("groups", "unit"),
    [
        ("0::/system.slice/cpi.service\n", "cpi.service"),
        ("0::/system.slice/system-cpi.slice/cpi@1.service\n", "cpi@1.service"),
        ("1:name=systemd:/system.slice/cpi.service/part\n0::/\n", "cpi.service"),
        ("0::/user.slice/user-1000.slice/user@1000.service/app.slice/x.scope\n", None),
        ("0::/\n", None),
    ],
)
def test_the_unit_of_a_process_is_that_of_its_group(groups: str, unit: Optional[str]) -> None:
    """As systemd names the groups of its services, by cgroups(7)."""
    assert unit_in(groups) == unit


def test_looking_takes_no_lock_and_keeps_that_of_others(cpi: Cpi, office: Path) -> None:
    """While the doctor looks the program may open the file."""
    for _ in range(2):
        assert not is_held(office) and [*holders_of(office)] == []
        with cpi.session(office) as session:
            assert "tables" in session.ask("0,public,tables")
            assert is_held(office)
            assert [*holders_of(office)] == [Holder(session.process, "cpi", None)]
            assert not opens(cpi, office)


def test_another_lock_of_the_file_is_not_taken_for_it(cpi: Cpi, office: Path) -> None:
    """One of flock(2), and one of other bytes: cpi opens the file all the same."""
    holder = "import fcntl, sys; f = open(sys.argv[1], 'r+'); fcntl.flock(f, fcntl.LOCK_EX)"
    holder += f"; fcntl.lockf(f, fcntl.LOCK_EX, 1, {LOCK_BEGIN - 9}); print('held', flush=True); sys.stdin.read()"
    words = [sys.executable, "-c", holder, str(office)]
    with subprocess.Popen(words, stdin=subprocess.PIPE, stdout=subprocess.PIPE) as process:
        assert process.stdout and process.stdout.readline() == b"held\n"
        assert run(cpi, "doctor", office).status == 0 and opens(cpi, office)


# ---- who may open it


def by_nobody(cpi: Cpi, *words: object) -> subprocess.CompletedProcess[str]:
    """The program or a tool, run by another user; the test is left out if that user can't reach them."""
    as_user = [needed("setpriv"), f"--reuid={NOBODY}", f"--regid={NOBODY}", "--clear-groups"]
    reached = [*as_user, "test", "-x", str(cpi.path), "-a", "-x", str(ROOT / "tools/cpi_tools")]
    if subprocess.run(reached, check=False).returncode:
        pytest.skip(f"nobody can't enter the folders of {cpi.path} and {ROOT}")
    kept = {**os.environ, "PYTHONPATH": str(ROOT / "tools"), "PYTHONDONTWRITEBYTECODE": "1"}
    return subprocess.run([*as_user, *map(str, words)], env=kept, capture_output=True, text=True, check=False)


def open_by_nobody(cpi: Cpi, file: Path) -> bool:
    with_words = by_nobody(
        cpi, cpi.path, "table", "--db", file, "--month", "2026-02", "--form", "csv", "--at", "9999999999"
    )
    assert (with_words.returncode, with_words.stderr) in ((0, ""), (1, "cpi: database failed\n")), with_words
    return with_words.returncode == 0


def doctor_of_nobody(cpi: Cpi, file: Path) -> str:
    """What another user is told of a file."""
    ran = by_nobody(cpi, "/usr/bin/python3", "-m", "cpi_tools", "doctor", file, "--program", cpi.path)
    assert (ran.returncode, ran.stderr) in ((0, ""), (1, "")), ran
    return ran.stdout


NAME = "nobody may not"

DENIED = {
    "the folder": ((0o700, 0, 0o644, 0, None), "enter {folder}, which belongs to root and has mode 0700"),
    "reading": ((0o777, 0, 0o600, 0, None), "read {file}, which belongs to root and has mode 0600"),
    "writing": ((0o777, 0, 0o644, 0, None), "write {file}, which belongs to root and has mode 0644"),
    "a file that root made": (
        (0o700, NOBODY, 0o600, 0, None),
        "read {file}, which belongs to root and has mode 0600, while its folder belongs to nobody",
    ),
    "an own file": ((0o700, NOBODY, 0o400, NOBODY, None), "write {file}, which belongs to nobody and has mode 0400"),
    "the log": (
        (0o700, NOBODY, 0o600, NOBODY, 0),
        "read {file}-wal, which belongs to root and has mode 0600, while its folder belongs to nobody",
    ),
    "making a log": ((0o755, 0, 0o666, 0, None), "make the log in {folder}, which belongs to root and has mode 0755"),
}
"""By what is denied: mode and owner of folder and file, the owner of a log of mode 0600 if there is one; the words."""


@as_root
@pytest.mark.parametrize("what", DENIED)
def test_what_a_user_may_not_do_is_named(what: str, cpi: Cpi, made: Path, open_folder: Path, quick: None) -> None:
    """To that user, and to root, who asks for that user or, if the folder is that user's, for nobody else."""
    (folder_mode, folder_owner, mode, owner, log_owner), words = DENIED[what]
    folder = open_folder / "office"
    folder.mkdir()
    file = Path(shutil.copy(made, folder / "office.db"))
    if log_owner is not None:
        log_beside(file).write_bytes(bytes(41))
        log_beside(file).chmod(0o600)
        os.chown(log_beside(file), log_owner, log_owner)
    file.chmod(mode)
    os.chown(file, owner, owner)
    folder.chmod(folder_mode)
    os.chown(folder, folder_owner, folder_owner)
    assert not open_by_nobody(cpi, file)
    begin = f"{NAME} {words.format(folder=folder, file=file)}. "
    assert told(cpi, file, "--user", "nobody").startswith(begin)
    assert doctor_of_nobody(cpi, file).startswith(f"{file}: {begin}")
    if folder_owner == NOBODY:
        assert told(cpi, file).startswith(begin)


@as_root
def test_a_file_that_even_root_may_not_write_is_named(cpi: Cpi, office: Path, quick: None) -> None:
    if subprocess.run([needed("chattr"), "+i", str(office)], capture_output=True, check=False).returncode:
        pytest.skip("this file system has no such attribute")
    try:
        assert not opens(cpi, office)
        assert f"root may not write {office}, which belongs to root and has mode 0644. Its mode isn't what" in told(
            cpi, office
        )
    finally:
        subprocess.run(["chattr", "-i", str(office)], check=True)


@as_root
def test_what_is_said_to_do_makes_it_open(cpi: Cpi, made: Path, open_folder: Path) -> None:
    """A file that root made in the folder of a service."""
    folder = open_folder / "the office"
    folder.mkdir(mode=0o700)
    os.chown(folder, NOBODY, NOBODY)
    file = Path(shutil.copy(made, folder / "office.db"))
    file.chmod(0o600)
    do = told(cpi, file).rpartition("Give it to nobody: ")[2]
    assert do == f"`chown nobody: '{file}'`."
    subprocess.run(do.strip("`."), shell=True, check=True)
    assert run(cpi, "doctor", file).status == 0 and doctor_of_nobody(cpi, file) == f"{file}: nothing is wrong\n"
    assert open_by_nobody(cpi, file)


@as_root
def test_a_process_of_another_user_is_not_seen_without_root(cpi: Cpi, made: Path, open_folder: Path) -> None:
    file = Path(shutil.copy(made, open_folder / "office.db"))
    open_folder.chmod(0o777)
    file.chmod(0o666)
    with cpi.session(file) as session:
        assert "tables" in session.ask("0,public,tables")
        log_beside(file).chmod(0o666)
        assert not open_by_nobody(cpi, file)
        assert doctor_of_nobody(cpi, file).startswith(
            f"{file}: a process of another user holds it, and nobody can't see which. Ask again as root"
        )


def test_users_that_are_not_there(cpi: Cpi, office: Path) -> None:
    assert (
        run(cpi, "doctor", office, "--user", "no-such-user").err == "cpi-tools doctor: there is no user no-such-user\n"
    )


# ---- its disk


@as_root
def test_a_full_disk_is_named(cpi: Cpi, made: Path, tmp_path: Path, quick: None) -> None:
    folder = tmp_path / "disk"
    folder.mkdir()
    with mounted(folder, "-t", "tmpfs", "-o", "size=512k", "none"):
        file = Path(shutil.copy(made, folder / "office.db"))
        fill(folder)
        assert not opens(cpi, file)
        log_beside(file).unlink(missing_ok=True)
        assert (
            told(cpi, file)
            == "its disk is full: 0 bytes are left on it. Make room there, and leave the log as it is (-wal)."
        )


@as_root
def test_a_read_only_disk_is_named(cpi: Cpi, office: Path, quick: None) -> None:
    with mounted(office.parent, "--bind", str(office.parent)):
        subprocess.run(["mount", "-o", "remount,ro,bind", str(office.parent)], check=True)
        assert not opens(cpi, office)
        assert told(cpi, office).startswith("its disk is mounted read-only. Mount it for writing")


# ---- what it is


def test_what_is_no_file_of_sqlite_is_named(cpi: Cpi, office: Path, tmp_path: Path, quick: None) -> None:
    """Of a large file the beginning is enough."""
    contents = {
        "a text file": "Preis,Größe\n".encode() * 1000,
        "a gzip file": gzip.compress(office.read_bytes()),
        "a file of another program": os.urandom(9) + bytes(9000),
    }
    for what, content in contents.items():
        file = tmp_path / "x.db"
        file.write_bytes(content)
        assert told(cpi, file) == f"it isn't an office but {what}. Name the office's file, or restore it from a backup."
        assert not opens(cpi, file)
        log_beside(file).unlink(missing_ok=True)
    with (tmp_path / "x.db").open("r+b") as large:
        large.truncate(1 << 40)
    assert "a file of another program" in told(cpi, tmp_path / "x.db")


def sql(file: Path, *statements: str) -> None:
    with contextlib.closing(sqlite3.connect(file)) as link:
        for statement in statements:
            link.execute(statement)
        link.commit()


@pytest.mark.parametrize(
    ("statements", "begin"),
    [
        (
            ["CREATE TABLE b (x)", "CREATE TABLE a (x)"],
            "it is a file of SQLite and no office: it has the tables a, b. ",
        ),
        (["CREATE TABLE version (x)"], "it is a file of SQLite and no office: no such column: number. "),
    ],
)
def test_a_file_of_sqlite_that_is_no_office_is_named(
    statements: list[str], begin: str, cpi: Cpi, tmp_path: Path
) -> None:
    file = tmp_path / "other.db"
    sql(file, *statements)
    assert told(cpi, file).startswith(f"{begin}Name the office's file")
    assert not opens(cpi, file)


def test_another_schema_is_named_with_the_one_that_is_wanted(cpi: Cpi, office: Path) -> None:
    sql(office, "UPDATE version SET number = 3")
    assert told(cpi, office) == (
        "its tables are of schema 3, and this cpi opens schema 2 or an earlier one."
        " Open it with the version of cpi that wrote it."
    )
    assert not opens(cpi, office)


def test_a_damaged_file_is_named_by_what_sqlite_finds(cpi: Cpi, office: Path) -> None:
    data = bytearray(office.read_bytes())
    for at in range(3 * 4096, len(data), 3 * 4096):
        data[at : at + 200] = bytes(200)
    office.write_bytes(data)
    said = told(cpi, office)
    assert said.startswith("it is damaged: ") and said.endswith(
        ". Restore the last good backup: `cpi-tools restore` puts the file and its log aside."
    ), said
    assert not opens(cpi, office)


INDEX = "CREATE INDEX by_receipt ON quote_2 (receipt)"


@pytest.mark.parametrize("statement", [INDEX, "UPDATE calendar SET opens = -1 WHERE month = 202602"])
def test_tables_and_rows_that_no_office_has_are_named(statement: str, cpi: Cpi, office: Path) -> None:
    """SQLite finds nothing wrong with them."""
    sql(office, statement)
    assert told(cpi, office).startswith("it has tables or rows that no office has: another program changed it, ")
    assert not opens(cpi, office)


def test_a_survey_that_can_not_be_read_is_named(cpi: Cpi, office: Path) -> None:
    """The program opens such a file, and refuses requests by 90."""
    sql(office, "UPDATE quote_2 SET value = 0 WHERE collector = 1 AND slot = 1 AND month = 202602")
    assert told(cpi, office).startswith("cpi opens it, but can't read its survey: another program changed it, ")
    assert cpi.replay(["0,public,items"], db=office) == [{"refused": 90}]


def test_a_log_that_is_damaged_is_named(cpi: Cpi, office: Path, tmp_path: Path) -> None:
    """It has an index that no office has, and the file has none."""
    copies = [tmp_path / "copy", tmp_path / "other"]
    with contextlib.closing(sqlite3.connect(office)) as link:
        link.execute(INDEX)
        link.commit()
        for folder in copies:
            folder.mkdir()
            for path in (office, log_beside(office)):
                shutil.copy(path, folder)
    file = copies[0] / office.name
    said = told(cpi, file)
    assert said.startswith(
        "its log office.db-wal is damaged, or is that of another file: without it cpi opens the file. "
    )
    assert not opens(cpi, copies[1] / office.name)
    log_beside(file).unlink()
    assert opens(cpi, file)


@pytest.mark.parametrize("of", ["file", "log"])
def test_a_file_with_another_name_is_named(of: str, cpi: Cpi, office: Path, quick: None) -> None:
    assert opens(cpi, office)
    path = office if of == "file" else log_beside(office)
    os.link(path, office.with_name("other"))
    assert told(cpi, office).startswith(
        f"{path} has 2 names (hard links), and cpi opens no such file. Remove the others"
    )
    assert not opens(cpi, office)


def test_what_can_not_be_found_out_is_told(
    cpi: Cpi, office: Path, tmp_path: Path, monkeypatch: pytest.MonkeyPatch
) -> None:
    """A program that fails in another way, and no room for a copy."""
    program = script(tmp_path / "program", "echo cpi: out of memory >&2; exit 1\n")
    found = run(Cpi(program), "doctor", office)
    assert (found.status, found.out) == (1, "") and found.err.startswith(
        f"cpi-tools doctor: {office}: cpi: out of memory"
    )
    monkeypatch.setattr(tempfile, "tempdir", str(tmp_path / "none"))
    found = run(cpi, "doctor", office)
    assert (found.status, found.out, found.err.count("\n")) == (1, "", 1) and "No such file or directory" in found.err
