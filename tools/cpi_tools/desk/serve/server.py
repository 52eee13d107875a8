"""The application on a port or a socket of this machine, by waitress: requests come in, several at a time, until a signal ends
it."""

from __future__ import annotations

import contextlib
import errno
import os
import socket
import sys
import threading
from pathlib import Path
from typing import Any

import waitress

from ...office.folders import new_room
from ...text.terminal import Fault, because_of
from .app import Reached, make_app
from .desk import Desk, Given
from .sent_forms import MOST_BYTES

THREADS = 8

SOCKET_MODE = "660"
"""The owner of the socket and its group open it; that group is its folder's."""

FORGETTING = 3_600
"""The seconds between two searches for notes and questions that are no longer kept."""


def serve(given: Given, listen: str, front: str) -> None:
    """Serves until the process is asked to end. `listen` is an address with its port or the path of a socket; `front`
    is the application's address behind a front, or None. Raises Fault."""
    room(given.room)
    reached = Reached(listen, front or None)
    with new_room("cpi-desk-copies-", given.copies) as copies:
        desk = Desk(given._replace(copies=copies))
        try:
            listening(desk, reached)
        finally:
            desk.close()


def room(folder: Path) -> None:
    """The folder of the application, which nobody else can read. Raises Fault."""
    try:
        folder.mkdir(mode=0o700, exist_ok=True)
        if folder.stat().st_mode & 0o077:
            raise Fault(f"{folder} can be read by others: the log and notes on prices are in it (chmod 700)")
    except OSError as fault:
        raise Fault(because_of(fault)) from fault


def listening(desk: Desk, reached: Reached) -> None:
    """Listens, says so, and answers."""
    try:
        # (a front says whose request it is, and nobody else may)
        server = waitress.create_server(
            make_app(desk, reached),
            **_place(reached),
            threads=THREADS,
            url_prefix=reached.prefix,
            ident="",
            # (the application refuses what is longer than a form, in words)
            max_request_body_size=4 * MOST_BYTES,
            trusted_proxy=reached.trusted_proxy,
            trusted_proxy_headers={"x-forwarded-for"} if reached.front else set[str](),
            clear_untrusted_proxy_headers=True,
        )
    except (OSError, ValueError) as fault:
        raise Fault(f"{reached.listen} can't be listened at: {fault}") from fault
    desk.start()
    print(f"cpi-tools desk serve: {reached.front or f'http://{reached.listen}/'}", flush=True)
    if reached.front:
        print(f"cpi-tools desk serve: listening on {reached.listen}, behind that front", flush=True)
    print(f"cpi-tools desk serve: process {os.getpid()}; its log is {desk.log.path}", file=sys.stderr, flush=True)
    over = threading.Event()
    threading.Thread(target=_forgetting, args=(desk, over), daemon=True, name="forgetting").start()
    try:
        server.run()
    finally:
        over.set()
        server.close()


def _place(reached: Reached) -> dict[str, Any]:
    """The listener's address, in the words of waitress. The socket of another application that still listens stays.
    Raises OSError."""
    if not reached.socket:
        return {"listen": reached.listen}
    with contextlib.closing(socket.socket(socket.AF_UNIX)) as other:
        if other.connect_ex(str(reached.socket)) == 0:
            raise OSError(errno.EADDRINUSE, os.strerror(errno.EADDRINUSE))
    return {"unix_socket": str(reached.socket), "unix_socket_perms": SOCKET_MODE}


def _forgetting(desk: Desk, over: threading.Event) -> None:
    """Removes the field notes and the questions whose time has passed, each hour, even if nobody opens the pages."""
    files = [it for it in (desk.field, desk.questions) if it]
    while files and not over.wait(FORGETTING):
        for file in files:
            with contextlib.suppress(Fault):  # (the next page of them meets it too)
                file.forget()
