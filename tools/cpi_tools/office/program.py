"""Finds and runs the program `cpi`: records in, replies out as Python values, many in one process; tables as bytes.

A record is a text in the form of `docs/reference/FORMATS.md`, `moment,caller,word,arguments`. A reply is the value that
`json.loads` gives for its line, so `{"refused": 24}` is a dictionary.
"""

from __future__ import annotations

import argparse
import contextlib
import json
import os
import shutil
import signal
import subprocess
from collections.abc import Iterable, Iterator, Sequence
from pathlib import Path
from typing import Any, NoReturn, Optional, Union

from ..text.text_files import line_of
from ..text.terminal import Fault, because_of
from .refusals import told_fault

Reply = dict[str, Any]
"""A reply of the program, as its line says it."""

PathLike = Union[str, Path]

LAST_MOMENT = 9_999_999_999
"""The greatest moment of an office, in seconds since 1970 UTC: each table is published by then."""


class CpiFailed(Fault):
    """The program wasn't found, couldn't be started, or ended with a fault.

    `status` is its exit status: negative if a signal ended it, None if it never ran. `replies` are its answers until
    then: these commands were carried out.
    """

    def __init__(self, message: str, status: Optional[int] = None, replies: Sequence[Reply] = ()):
        super().__init__(message)
        self.status = status
        self.replies = list(replies)


def record(*fields: object) -> str:
    """A record as one CSV row without the end of its line: `record(0, "desk", "outlet", 3, "Harbour, east")`."""
    return line_of(fields)


# ---- where the program is


def beside_the_package() -> Optional[Path]:
    """`./cpi` of the repository that this package lies in, if it lies in one."""
    top = Path(__file__).resolve().parents[3]
    is_repository = (top / "examples" / "recompute").is_file() and (top / "cpi").is_file()
    return top / "cpi" if is_repository else None


def find_program(given: Optional[PathLike] = None) -> Path:
    """The program: as given (`--program`); otherwise from the variable CPI, then the repository's `./cpi`, then the
    path.

    Raises CpiFailed if a named one isn't a program, or none is found.
    """
    for named, by in ((given, "--program"), (os.environ.get("CPI"), "the variable CPI")):
        if named:
            path = Path(named)
            if not (path.is_file() and os.access(path, os.X_OK)):
                raise CpiFailed(f"{path}, named by {by}, is no program")
            return path.absolute()
    if beside := beside_the_package():
        return beside
    if on_path := shutil.which("cpi"):
        return Path(on_path)
    raise CpiFailed("the program cpi wasn't found: name it by --program FILE or by the variable CPI")


def add_program(words: argparse.ArgumentParser) -> None:
    """The word `--program` of a tool."""
    words.add_argument(
        "--program",
        metavar="FILE",
        help="the program cpi (else from the variable CPI, else ./cpi in the repository, else cpi on the path)",
    )


# ---- running it


class Cpi:
    """The program at a path."""

    def __init__(self, program: Optional[PathLike] = None):
        """`program` as for `find_program`, which searches for it now, so that a wrong one is reported before any
        work."""
        self.path = find_program(program)

    def replay(self, records: Iterable[str], db: Optional[Path] = None, zone: Optional[str] = None) -> list[Reply]:
        """The replies to some records, in their order, by one run of the program.

        `db` is an office's file, None an office in memory that is empty at first; `zone` the rule of a clock as POSIX
        writes it, None UTC. A record may lack the end of its line. Raises CpiFailed, with the replies so far, if the
        run didn't end with status 0.
        """
        sent = "".join(each if each.endswith(("\n", "\r")) else f"{each}\n" for each in records)
        ran = self._run(replay_words(db, zone), sent.encode())
        # (a line that was cut off as the process ended is no reply)
        whole = [line for line in ran.stdout.splitlines(keepends=True) if line.endswith(b"\n")]
        replies = [reply_of(line) for line in whole]
        if ran.returncode:
            raise CpiFailed(end_text(ran.returncode, ran.stderr), ran.returncode, replies)
        return replies

    def open(self, copy: Path, of: Path, asked: Iterable[str] = ()) -> list[Reply]:
        """Opens a copy of the file `of`, which tests each row, so that it then contains the tables of this program; the
        replies to some records.

        Raises CpiFailed, which names the file and not the copy, if it isn't an office.
        """
        try:
            return self.replay(asked, db=copy)
        except CpiFailed as fault:
            raise CpiFailed(f"{of}: {fault}", fault.status, fault.replies) from fault

    def table(self, db: Path, month: str, form: str, at: int, revision: Optional[int] = None) -> bytes:
        """The bytes of a table as it was published by the moment `at`: month like `2026-01`, form `text` or `csv`.

        Raises CpiFailed if there is none, or if the file isn't an office.
        """
        words = ["table", "--db", str(db), "--month", month, "--form", form, "--at", str(at)]
        if revision is not None:
            words += ["--revision", str(revision)]
        ran = self._run(words, b"")
        if ran.returncode:
            raise CpiFailed(end_text(ran.returncode, ran.stderr), ran.returncode)
        return ran.stdout

    @contextlib.contextmanager
    def session(self, db: Optional[Path] = None, zone: Optional[str] = None) -> Iterator[Session]:
        """One run of the program that is asked a record at a time: the file is opened once for all of them.

        At the end the input ends, so the program copies its log into the file; after an exception it is killed, and its
        answered commands are on the disk.
        """
        words = [str(self.path), *replay_words(db, zone)]
        try:
            process = subprocess.Popen(words, stdin=subprocess.PIPE, stdout=subprocess.PIPE, stderr=subprocess.PIPE)
        except OSError as fault:
            raise CpiFailed(f"{self.path} couldn't be started: {because_of(fault)}") from fault
        try:
            session = Session(process)
            yield session
            session.close()
        finally:
            if process.poll() is None:
                process.kill()
                process.wait()
            for stream in (process.stdin, process.stdout, process.stderr):
                if stream:
                    with contextlib.suppress(BrokenPipeError):
                        stream.close()

    def _run(self, words: Sequence[str], sent: bytes) -> subprocess.CompletedProcess[bytes]:
        try:
            return subprocess.run([str(self.path), *words], input=sent, capture_output=True, check=False)
        except OSError as fault:
            raise CpiFailed(f"{self.path} couldn't be started: {because_of(fault)}") from fault


class Session:
    """A running `cpi replay`: one record in, one reply out."""

    def __init__(self, process: subprocess.Popen[bytes]):
        assert process.stdin and process.stdout and process.stderr
        self._process, self._input, self._output, self._errors = process, process.stdin, process.stdout, process.stderr

    @property
    def process(self) -> int:
        """The number of its process."""
        return self._process.pid

    def ask(self, one: str) -> Reply:
        """The reply to one record. Raises CpiFailed if the program ends without it."""
        return reply_of(self.ask_line(one))

    def ask_line(self, one: str) -> bytes:
        """The same as its line."""
        try:
            self._input.write(one.encode() + (b"" if one.endswith("\n") else b"\n"))
            self._input.flush()
        except BrokenPipeError:
            self._fail()
        line = self._output.readline()
        if not line.endswith(b"\n"):
            self._fail()
        return line

    def close(self) -> None:
        """Ends the input, and waits until the program has ended. Raises CpiFailed if it ends with a fault."""
        with contextlib.suppress(BrokenPipeError):
            self._input.close()
        errors = self._errors.read()
        status = self._process.wait()
        if status:
            raise CpiFailed(end_text(status, errors), status)

    def _fail(self) -> NoReturn:
        errors = self._errors.read()
        status = self._process.wait()
        raise CpiFailed(end_text(status, errors) if status else "cpi ended before its reply", status)


def reply_of(line: bytes) -> Reply:
    """The reply of a line. Raises CpiFailed if it isn't a reply, since another program was named."""
    try:
        reply = json.loads(line)
    except ValueError:
        reply = None
    if not isinstance(reply, dict):
        raise CpiFailed(f"the program answers otherwise than cpi does: {line[:60].decode(errors='replace').strip()}")
    return reply


def replay_words(db: Optional[Path], zone: Optional[str]) -> list[str]:
    """The words of a replay."""
    words = ["replay"]
    if zone is not None:
        words += ["--zone", zone]
    if db is not None:
        words += ["--db", str(db)]
    return words


def name_of_signal(number: int) -> str:
    """`SIGKILL` of 9; a number that has no name is itself."""
    try:
        return signal.Signals(number).name
    except ValueError:
        return str(number)


def end_text(status: int, errors: bytes) -> str:
    """One line for a status that isn't 0: the program's own, with its meaning; or how it was ended."""
    lines = errors.decode(errors="replace").strip().splitlines()
    if status < 0:
        return f"cpi was ended by the signal {name_of_signal(-status)}"
    return told_fault(lines[-1]) if lines else f"cpi ended with status {status}"
