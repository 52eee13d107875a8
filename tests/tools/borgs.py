"""Borg, loaded once for many runs.

Most of a run of borg is its start: it loads its modules, and tests itself. So tests find another program `borg`, which
hands its words, its environment, its folder and its files to a process that has loaded borg. A fork of that process runs
borg's own code. If the program that asked is killed, so is the fork.

    python3 borgs.py SOCKET     answers there until its standard input ends
"""

from __future__ import annotations

import array
import contextlib
import marshal
import os
import select
import signal
import socket
import subprocess
import sys
import time
import traceback
from collections.abc import Callable, Iterator, Sequence
from pathlib import Path
from typing import Any, NamedTuple, NoReturn

CLIENT = """\
#!/usr/bin/python3 -IS
import _socket, marshal, os, sys
asking = _socket.socket(_socket.AF_UNIX, _socket.SOCK_SEQPACKET)
asking.connect("{where}")
asked = marshal.dumps((sys.argv[1:], dict(os.environ), os.umask(0o077)))
files = b"".join(it.to_bytes(4, sys.byteorder) for it in (0, 1, 2, os.open(".", os.O_PATH)))
asking.sendmsg([asked], [(_socket.SOL_SOCKET, _socket.SCM_RIGHTS, files)])
os._exit((asking.recv(1) or b"\\xff")[0])
"""

MOST = 1 << 18
"""Bytes of a request, at most."""


class Asked(NamedTuple):
    """A run: borg's words, environment and mask of modes, its three files and its folder."""

    words: list[str]
    environment: dict[str, str]
    mask: int
    files: list[int]


@contextlib.contextmanager
def loaded_borg(folder: Path) -> Iterator[Path]:
    """A folder with the program `borg`, which works meanwhile. The folder is closed to other users, who find borg itself."""
    folder.chmod(0o700)
    where, client = folder / "socket", folder / "borg"
    client.write_text(CLIENT.replace("{where}", str(where)), encoding="utf-8")
    client.chmod(0o700)
    words = [sys.executable, "-B", __file__, str(where)]
    environment = {**os.environ, "LC_ALL": "C.UTF-8", "BORG_SELFTEST": "disabled"}
    with subprocess.Popen(words, env=environment, stdin=subprocess.PIPE, stdout=subprocess.PIPE) as server:
        assert server.stdin and server.stdout and server.stdout.readline() == b"loaded\n"
        yield folder
        server.stdin.close()


# ---- the process that has loaded it


def serve(where: str) -> None:
    """Answers at a socket until standard input ends."""
    from borg.archiver import main as borg  # type: ignore[import]

    listening = socket.socket(socket.AF_UNIX, socket.SOCK_SEQPACKET)
    listening.bind(where)
    listening.listen(64)
    print("loaded", flush=True)
    while True:
        ready, _, _ = select.select([listening, 0], [], [], 1)
        with contextlib.suppress(ChildProcessError):
            while os.waitpid(-1, os.WNOHANG)[0]:
                pass
        if 0 in ready:
            return
        if ready:
            asking, _ = listening.accept()
            if not os.fork():
                listening.close()
                answer(asking, borg)
                os._exit(0)
            asking.close()


def answer(asking: socket.socket, borg: Callable[[], None]) -> None:
    """Runs borg for somebody who asked, and tells its exit status."""
    message, beside, _, _ = asking.recvmsg(MOST, socket.CMSG_SPACE(16))
    if not beside:
        return
    files = array.array("i", beside[0][2])
    words, environment, mask = marshal.loads(message)
    asked = Asked(words, environment, mask, [*files])
    child = os.fork()
    if not child:
        asking.close()
        run(asked, borg)
    for file in files:
        os.close(file)
    ended = os.pidfd_open(child)
    if ended not in select.select([asking, ended], [], [])[0]:
        os.kill(child, signal.SIGKILL)
    status = os.waitstatus_to_exitcode(os.waitpid(child, 0)[1])
    with contextlib.suppress(OSError):
        asking.send(bytes([status & 0xFF]))


def run(asked: Asked, borg: Callable[[], None]) -> NoReturn:
    """Is borg in the place of the process that asked."""
    status: object = 1
    try:
        for number, file in enumerate(asked.files[:3]):
            os.dup2(file, number)
        streams: list[Any] = [open(number, mode, closefd=False) for number, mode in enumerate("rww")]
        sys.stdin, sys.stdout, sys.stderr = streams
        os.fchdir(asked.files[3])
        for file in asked.files:
            os.close(file)
        os.umask(asked.mask)
        name_itself(asked.environment)
        sys.argv = ["borg", *asked.words]
        borg()
        status = 0
    except SystemExit as end:
        status = end.code or 0
    except BaseException:
        traceback.print_exc()
    finally:
        for stream in (sys.stdout, sys.stderr):
            with contextlib.suppress(OSError, ValueError):
                stream.flush()
        os._exit(status if isinstance(status, int) else 1)


def name_itself(environment: dict[str, str]) -> None:
    """Gives this process an environment, with what borg takes from it when it is loaded: its host's name in locks."""
    from borg import platform  # type: ignore[import]

    os.environ.clear()
    os.environ.update(environment, BORG_SELFTEST="disabled")
    time.tzset()
    platform.hostid = platform.base.hostid = environment.get("BORG_HOST_ID") or platform.base.hostid


def main(words: Sequence[str]) -> None:
    """Serves at the socket that the words name."""
    serve(words[0])


if __name__ == "__main__":
    main(sys.argv[1:])
