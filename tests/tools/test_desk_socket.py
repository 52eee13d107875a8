"""The application behind a socket: the front's user opens it, and says whose request it is. No other user's process does,
and to whom comes by a port nothing of that is believed without a front."""

from __future__ import annotations

import contextlib
import os
import re
import shutil
import socket
import subprocess
import sys
import tempfile
from collections.abc import Iterator
from pathlib import Path

import pytest

from cpi_tools.desk.serve.app import Reached
from cpi_tools.desk.serve.sign_in_views import show_address
from cpi_tools.desk.serve.serve_cli import MOST_OF_SOCKET
from cpi_tools.office.program import Cpi
from lib.places import ROOT
from lib.served import free_port
from . import surveys
from .loads import DESK_KEY, served
from .ran import run

OPS = ROOT / "ops"
FRONT = "https://prices.example/desk/"
HOST = "prices.example"

as_root = pytest.mark.skipif(os.geteuid() != 0, reason="only root acts as another user")

ASKS = f"""
import socket, sys
line = socket.socket(socket.AF_UNIX)
try:
    line.connect(sys.argv[1])
except OSError as fault:
    sys.exit(fault.strerror)
line.sendall(b"GET /desk/sign-in HTTP/1.0\\r\\nHost: {HOST}\\r\\n\\r\\n")
print(line.recv(12).decode())
"""


@pytest.fixture
def folder() -> Iterator[Path]:
    """A folder as `cpi-desk.tmpfiles` makes it, of a path that each user may follow."""
    top = Path(tempfile.mkdtemp(prefix="cpi-desk-socket-", dir="/tmp"))
    top.chmod(0o755)
    made = top / "cpi-desk"
    made.mkdir()
    if os.geteuid() == 0:
        shutil.chown(made, group="www-data")
    made.chmod(0o2710)
    yield made
    shutil.rmtree(top)


@contextlib.contextmanager
def serving(cpi: Cpi, office: Path, room: Path, *words: str) -> Iterator["subprocess.Popen[str]"]:
    """The application as a process, once it listens."""
    command = [sys.executable, "-B", "-m", "cpi_tools", "desk", "serve", "--file", str(office), "--room", str(room)]
    command += ["--program", str(cpi.path), *words]
    told = {**os.environ, "PYTHONPATH": str(ROOT / "tools")}
    pipe = subprocess.PIPE
    with subprocess.Popen(command, stdout=pipe, stderr=pipe, text=True, env=told) as process:
        try:
            assert process.stdout and process.stderr
            first = process.stdout.readline()
            assert first.startswith("cpi-tools desk serve: http"), process.stderr.read()
            yield process
        finally:
            process.terminate()


def asked(path: Path, user: str, group: str) -> str:
    """What a process of a user is answered at a socket, or why it can't open it."""
    words = [sys.executable, "-c", ASKS, str(path)]
    ran = subprocess.run(words, capture_output=True, text=True, user=user, group=group, extra_groups=[], check=False)
    return (ran.stdout or ran.stderr).strip()


@as_root
def test_the_front_s_user_opens_the_socket_and_no_other_one_does(cpi: Cpi, folder: Path, tmp_path: Path) -> None:
    at = folder / "front.sock"
    with serving(cpi, surveys.small(cpi, tmp_path), tmp_path / "room", "--listen", str(at), "--front", FRONT):
        assert asked(at, "www-data", "www-data") == "HTTP/1.0 200"
        assert asked(at, "nobody", "nogroup") == "Permission denied"
        # (not even if the folder were open)
        folder.chmod(0o2711)
        assert asked(at, "nobody", "nogroup") == "Permission denied"


def posted(line: socket.socket, host: str, prefix: str, said: str) -> str:
    """The answer to a wrong key from whom the message says."""
    form = f"name=Ada&key={'e' * 32}&to=/"
    head = f"POST {prefix}/sign-in HTTP/1.0\r\nHost: {host}\r\nX-Forwarded-For: {said}\r\n"
    head += f"Content-Type: application/x-www-form-urlencoded\r\nContent-Length: {len(form)}\r\n\r\n"
    with contextlib.closing(line):
        line.sendall((head + form).encode())
        found = b""
        while piece := line.recv(65536):
            found += piece
    return found.decode()


def lines_of(process: "subprocess.Popen[str]") -> list[str]:
    """The addresses of wrong keys in the application's log, once it has ended."""
    assert process.stderr
    process.terminate()
    told = process.stderr.read()
    assert "e" * 32 not in told and DESK_KEY not in told and "Ada" not in told
    return re.findall(
        r"^\[[0-9]{4}(?:-[0-9]{2}){2} [0-9:,]+\] WARNING in \w+: desk: a wrong key from (.+)$", told, re.M
    )


def test_by_the_socket_the_front_says_whose_request_it_is(cpi: Cpi, folder: Path, tmp_path: Path) -> None:
    at, office, port = folder / "front.sock", surveys.small(cpi, tmp_path), free_port()
    words = ("--office", f"http://127.0.0.1:{port}", "--listen", str(at), "--front", FRONT)
    with served(cpi, office, port, 1000), serving(cpi, office, tmp_path / "room", *words) as process:
        for said in ("192.0.2.7", "[2001:db8::7]"):
            line = socket.socket(socket.AF_UNIX)
            line.connect(str(at))
            assert " 403 " in posted(line, HOST, "/desk", said).splitlines()[0]
        assert lines_of(process) == ["192.0.2.7", "2001:db8::7"]


def test_by_a_port_without_a_front_nobody_does(cpi: Cpi, tmp_path: Path) -> None:
    """Five wrong keys with another's address lock out who sent them."""
    office, port, own = surveys.small(cpi, tmp_path), free_port(), free_port()
    words = ("--office", f"http://127.0.0.1:{port}", "--listen", f"127.0.0.1:{own}")
    with served(cpi, office, port, 1000), serving(cpi, office, tmp_path / "room", *words) as process:
        answers = [
            posted(socket.create_connection(("127.0.0.1", own)), f"127.0.0.1:{own}", "", f"192.0.2.{number}")
            for number in range(6)
        ]
        assert ["Too many wrong keys" in answer for answer in answers] == [False] * 5 + [True]
        assert lines_of(process) == ["127.0.0.1"] * 5


def test_the_socket_of_another_application_stays(cpi: Cpi, folder: Path, tmp_path: Path) -> None:
    """One that nobody listens at any more is replaced."""
    at, office = folder / "front.sock", surveys.small(cpi, tmp_path)
    with socket.socket(socket.AF_UNIX) as gone:
        gone.bind(str(at))
    words = ("--listen", str(at), "--front", FRONT)
    with serving(cpi, office, tmp_path / "room", *words):
        second = run(cpi, "desk", "serve", "--file", office, "--room", tmp_path / "other", *words)
        assert second.status == 1 and f"{at} can't be listened at: [Errno 98] Address already in use" in second.err
        with socket.socket(socket.AF_UNIX) as line:
            line.connect(str(at))


def test_words_that_don_t_go_together_are_refused(tmp_path: Path) -> None:
    (tmp_path / "office.db").write_bytes(b"")
    words = [f"{ROOT}/cpi-tools", "desk", "serve", "--file", f"{tmp_path}/office.db", f"--room={tmp_path}", "--listen"]
    refused = {
        ("/run/cpi-desk/front.sock",): "--listen with the path of a socket goes with --front",
        ("/" + "x" * MOST_OF_SOCKET, "--front", FRONT): "isn't the path of a socket, of 107 bytes at most",
        ("run/front.sock", "--front", FRONT): "isn't an address with a port",
    }
    for more, why in refused.items():
        ran = subprocess.run([*words, *more], capture_output=True, text=True, check=False)
        assert ran.returncode == 2 and why in ran.stderr


def test_by_a_socket_only_the_name_of_the_front_is_taken() -> None:
    reached = Reached("/run/cpi-desk/front.sock", FRONT)
    assert (reached.hosts, reached.origins) == ({HOST}, {f"https://{HOST}"})
    assert (reached.trusted_proxy, reached.prefix, reached.address) == ("localhost", "/desk", FRONT)


def test_an_address_that_is_none_is_shown_as_it_is() -> None:
    assert [show_address(text) for text in ("192.0.2.7", "::1", "x\ny", "y" * 99)] == [
        "192.0.2.7",
        "::1",
        r"'x\ny'",
        repr("y" * 60),
    ]


# ---- the unit


def started(tmp_path: Path, **settings: str) -> "subprocess.CompletedProcess[str]":
    """What cpi-desk does with settings: a stand-in prints the words of cpi-tools."""
    tools = tmp_path / "cpi-tools"
    tools.write_text('#!/bin/sh\necho "$@"\n', encoding="ascii")
    tools.chmod(0o755)
    kept = {"PATH": f"{tmp_path}:{os.environ['PATH']}", "CPI_OFFICE": str(tools), "CPI_ZONE": "UTC0"}
    return subprocess.run([OPS / "cpi-desk"], env={**kept, **settings}, capture_output=True, text=True, check=False)


def test_an_office_without_a_front_has_a_port(tmp_path: Path) -> None:
    ran = started(tmp_path)
    assert (ran.returncode, ran.stderr) == (0, "") and ran.stdout.endswith(" --listen 127.0.0.1:8090\n")


def test_an_office_whose_front_comes_to_the_port_goes_on_and_learns_how_to_change(tmp_path: Path) -> None:
    ran = started(tmp_path, CPI_DESK_FRONT=FRONT)
    assert ran.returncode == 0 and ran.stdout.endswith(f" --front {FRONT} --listen 127.0.0.1:8090\n")
    assert ran.stderr.count("\n") == 1 and "set CPI_DESK_LISTEN=/run/cpi-desk/front.sock" in ran.stderr


def test_a_socket_is_handed_over_or_refused_with_what_is_wanted(tmp_path: Path) -> None:
    at = tmp_path / "front.sock"
    ran = started(tmp_path, CPI_DESK_FRONT=FRONT, CPI_DESK_LISTEN=str(at))
    assert (ran.returncode, ran.stderr) == (0, "") and ran.stdout.endswith(f" --listen {at}\n")
    away = started(tmp_path, CPI_DESK_FRONT=FRONT, CPI_DESK_LISTEN=f"{tmp_path}/none/front.sock")
    assert away.returncode == os.EX_CONFIG and f"there is no folder {tmp_path}/none" in away.stderr
    alone = started(tmp_path, CPI_DESK_LISTEN=str(at))
    assert alone.returncode == os.EX_CONFIG and "wanted is CPI_DESK_FRONT too" in alone.stderr
