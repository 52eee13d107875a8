"""The front of the office: nginx with ops/nginx.conf and the office's clock, and the faults that it can have.

Its limits count requests of real seconds, of which a year here has few, so they are set higher.
"""

from __future__ import annotations

import atexit
import contextlib
import functools
import http.client
import os
import re
import shutil
import signal
import ssl
import subprocess
import sys
import tempfile
import time
from collections.abc import Callable, Mapping
from pathlib import Path
from typing import Optional

from lib.places import TOP
from lib.served import free_port

sys.path.insert(0, os.path.join(TOP, "tools"))

from cpi_tools.tryout import trial_services as fronts  # noqa: E402
from cpi_tools.text.terminal import Fault  # noqa: E402

from . import clock as clocks  # noqa: E402
from .asked import Asked  # noqa: E402

DRAWN_AT = "2020-01-01 00:00:00"
"""The time at which certificates are drawn, before all simulated years."""

DAYS = 20_000
PATIENCE = 30
"""Real seconds within which nginx listens, or obeys a signal."""

KEY = re.compile("[0-9a-f]{32}")
DRAW = (
    "import pathlib, sys, cpi_tools.tryout.trial_services as f; "
    "f.draw_certificate(pathlib.Path(sys.argv[1]), 'localhost', {})"
)


def more_often(text: str) -> str:
    """The file of the front with higher limits."""
    text = re.sub(r"rate=\d+r/s", "rate=100000r/s", text)
    return re.sub(r"(burst=\d+) delay=\d+", r"\1 nodelay", text)


def is_there() -> bool:
    """Whether nginx is installed."""
    with contextlib.suppress(Fault):
        return bool(fronts.system_program("nginx"))
    return False


def draw(folder: Path) -> None:
    """Draws a certificate that holds in each simulated year."""
    faking = {**clocks.faked("FAKETIME", DRAWN_AT), "PYTHONPATH": os.path.join(TOP, "tools")}
    subprocess.run([sys.executable, "-c", DRAW.format(DAYS), str(folder)], env=faking, check=True)


@functools.cache
def first_certificate() -> Path:
    """A folder with the certificate with which each front begins."""
    folder = Path(tempfile.mkdtemp())
    atexit.register(shutil.rmtree, folder, ignore_errors=True)
    draw(folder)
    return folder


class Front:
    """An nginx in front of an office's port, in its own folder."""

    def __init__(self, room: str, port: int, clock: clocks.Clock, site: str) -> None:
        self.clock, self.folder = clock, Path(room) / "front"
        self.folder.mkdir(mode=0o700)
        plain = f"127.0.0.1:{free_port()}"
        web, own = Path(TOP) / "web", free_port()
        self.place = fronts.Place("localhost", "127.0.0.1", own, plain, port, web, published=Path(site))
        self.process: Optional[subprocess.Popen[bytes]] = None
        self.line: Optional[http.client.HTTPSConnection] = None
        self.change: Callable[[str], str] = str  # a wrong front
        self.hears = True  # a wrong one isn't told of a new certificate, or that its logs were moved
        self.renewed = self.rotated = 0
        shutil.copytree(first_certificate(), self.folder, dirs_exist_ok=True)

    @property
    def authority(self) -> str:
        """The certificate that its clients trust."""
        return str(self.folder / "ca.crt")

    @property
    def is_up(self) -> bool:
        return self.process is not None and self.process.poll() is None

    @property
    def log(self) -> Path:
        return self.folder / "access.log"

    # ---- its life

    def start(self) -> None:
        """Starts it, unless it runs."""
        if self.is_up:
            return
        (self.folder / "whole.sock").unlink(missing_ok=True)
        (self.folder / "cache").mkdir(exist_ok=True)
        environment = self.clock.environment()
        kept = "".join(f"env {name};\n" for name in environment if "FAKE" in name or name in ("LD_PRELOAD", "TZ"))
        text = self.change(more_often(fronts.configuration(Path(TOP) / "ops/nginx.conf", self.folder, self.place)))
        file, errors = self.folder / "nginx.conf", self.folder / "error.log"
        file.write_text(kept + fronts.whole_configuration(text, self.folder), encoding="utf-8")
        words = [fronts.system_program("nginx"), "-c", str(file), "-e", str(errors), "-g", "daemon off;"]
        self.process = subprocess.Popen(words, stdin=subprocess.DEVNULL, stderr=subprocess.DEVNULL, env=environment)
        self._wait(lambda: fronts.is_listening("127.0.0.1", self.place.port), "it doesn't listen")

    def kill(self) -> None:
        """Ends it with its workers with the signal that nobody can block."""
        self.hang_up()
        if self.process:
            each = [self.process.pid]
            with contextlib.suppress(OSError):
                each += fronts.children_of(self.process.pid)
            for process in each:
                with contextlib.suppress(ProcessLookupError):
                    os.kill(process, signal.SIGKILL)
            self.process.wait()
            for process in each:
                clocks.forget(process)
            self.process = None

    def _wait(self, is_done: Callable[[], bool], otherwise: str) -> None:
        until = time.monotonic() + PATIENCE
        while not is_done():
            if time.monotonic() > until or not self.is_up:
                raise TimeoutError(f"the front: {otherwise}")
            time.sleep(0.005)

    # ---- certificates and logs

    def renew(self) -> bool:
        """Puts a new certificate in the place of the one before; returns whether nginx uses it."""
        new = self.folder / f"new-{self.renewed}"
        draw(new)
        for name in ("site.key", "site.pem", "ca.crt"):
            os.replace(new / name, self.folder / name)
        self.hang_up()
        self.renewed += 1
        if not self.is_up:
            return True
        assert self.process
        master = self.process.pid
        before = {*fronts.children_of(master)}
        if self.hears:
            self.process.send_signal(signal.SIGHUP)
        # (a worker of before may take a connection until it ends)
        with contextlib.suppress(TimeoutError):
            self._wait(
                lambda: self._is_trusted() and not before & {*fronts.children_of(master)},
                "it shows the certificate before",
            )
            return True
        return False

    def _is_trusted(self) -> bool:
        """Whether it shows a certificate of the authority."""
        line = http.client.HTTPSConnection("localhost", self.place.port, timeout=PATIENCE, context=self._context())
        with contextlib.closing(line), contextlib.suppress(OSError):
            line.connect()
            return True
        return False

    def _context(self) -> ssl.SSLContext:
        return ssl.create_default_context(cafile=self.authority)

    def rotate(self) -> Optional[str]:
        """Moves its log away, as logrotate does; returns the fault of the old log, if any."""
        fault = self.log_fault()
        os.replace(self.log, self.folder / f"access.log.{self.rotated}")
        self.rotated += 1
        if self.hears and self.process:
            self.process.send_signal(signal.SIGUSR1)
            self._wait(self.log.exists, "it writes no new log")
        return fault

    def log_fault(self) -> Optional[str]:
        """The fault of the current log, if any."""
        text = self.log.read_text(encoding="utf-8") if self.log.exists() else ""
        if KEY.search(text):
            return "a key stands in the log of the front"
        return None if text else "what the front was asked stands in no log since it was moved away"

    # ---- messages

    def hang_up(self) -> None:
        """Closes the kept connection."""
        if self.line:
            self.line.close()
            self.line = None

    def send(self, asked: Asked) -> None:
        """Sends a message whole, over the kept connection. Raises OSError or HTTPException."""
        method, path, body = asked.request()
        fields: Mapping[str, str] = {"Authorization": f"CPI-Key {asked.key}"} if asked.key else {}
        if not self.line:
            context, port = self._context(), self.place.port
            self.line = http.client.HTTPSConnection("localhost", port, timeout=PATIENCE * 10, context=context)
        self.line.request(method, "/api" + path, body=body, headers=dict(fields))

    def answer(self, asked: Asked) -> bytes:
        """The response to a message in the form of `cpi serve`; None if there is none."""
        for _ in range(2):
            is_kept = self.line is not None
            try:
                self.send(asked)
                assert self.line
                response = self.line.getresponse()
                body, kind = response.read(), response.headers.get("Content-Type", "")
                head = f"HTTP/1.1 {response.status}\r\nContent-Type: {kind}\r\nContent-Length: {len(body)}\r\n\r\n"
                return head.encode() + body
            except http.client.RemoteDisconnected:
                # (a connection that was kept may have ended before the message; a browser asks once more then)
                self.hang_up()
                if not is_kept or asked.is_command:
                    break
            except (OSError, http.client.HTTPException):
                self.hang_up()
                break
        return b""
