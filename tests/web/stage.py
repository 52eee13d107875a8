"""The stage of these tests: the program, a relay that can lose replies, and nginx before it with ops/nginx.conf."""

from __future__ import annotations

import contextlib
import http.client
import json
import os
import shutil
import signal
import ssl
import subprocess
import time
from collections.abc import Iterator, Mapping
from pathlib import Path
from typing import Any, NamedTuple, Optional

from cpi_tools.tryout.trial_services import Front, Place, draw_certificate
from cpi_tools.office.program import Cpi
from lib.places import ROOT
from lib.served import free_port

from .offices import DESK, NOW
from .relay import Relay

LOGS = ("access.log", "access.log-errors", "error.log")


class Answer(NamedTuple):
    """A response: its status, its fields and its body."""

    status: int
    fields: Mapping[str, str]
    body: bytes

    @property
    def reply(self) -> Any:
        return json.loads(self.body)


class Stage:
    """All of it, in a folder. `front.stop` and `front.start` take the line away and give it back."""

    def __init__(self, cpi: Cpi, made: Path, folder: Path):
        self.cpi, self.made, self.folder = cpi, made, folder
        self.db = folder / "office.db"
        self.office: Optional[subprocess.Popen[bytes]] = None
        self.office_port, relay_port, plain_port = free_port(), free_port(), free_port()
        self.relay = Relay(relay_port, self.office_port)
        self.plain_port = plain_port
        self.calendar, self.published = folder / "calendar.json", folder / "published"
        plain, web, own = f"127.0.0.1:{plain_port}", ROOT / "web", (None, self.published, self.calendar)
        place = Place(
            "localhost", "127.0.0.1", free_port(), plain, relay_port, web, *own, desk=f"127.0.0.1:{free_port()}"
        )
        draw_certificate(folder, place.host)
        self.front = Front(ROOT / "ops/nginx.conf", folder, place)
        self.context = ssl.create_default_context(cafile=str(folder / "ca.crt"))

    @contextlib.contextmanager
    def desk_at(self, desk: str) -> Iterator[None]:
        """The front looks for the desk's application at another place meanwhile."""
        place = self.front.place
        try:
            self._desk_is_at(desk)
            yield
        finally:
            self._desk_is_at(place.desk)

    def _desk_is_at(self, desk: str) -> None:
        self.front.stop()
        self.front.place = self.front.place._replace(desk=desk)
        self.front.start()

    @property
    def url(self) -> str:
        return self.front.place.url

    @property
    def port(self) -> int:
        return self.front.place.port

    # ---- the office

    def fresh(self) -> None:
        """A fresh office of the same content, without a calendar for its pages and without a website, and a front that
        has kept nothing of the one before. (A test's website is a link to its folder.)"""
        self.stop_office()
        for name in ("office.db-wal", "office.db-shm", self.calendar.name, self.published.name):
            (self.folder / name).unlink(missing_ok=True)
        shutil.copy(self.made, self.db)
        self.relay.fresh()
        for name in LOGS:
            with contextlib.suppress(FileNotFoundError):
                os.truncate(self.folder / name, 0)
        for cache in ("cache", "cache-lists"):
            for path in [path for path in (self.folder / cache).rglob("*") if path.is_file()]:
                path.unlink(missing_ok=True)
        self.start_office()
        if not self.front.process:
            self.front.start()

    def speaks(self, config: str, web: Path = ROOT / "web") -> None:
        """The front stands anew with a `config.js`, and perhaps over another folder of pages; `front.stop` and
        `front.start` give it its own again."""
        file = self.folder / "config.js"
        file.write_text(config, encoding="utf-8")
        own = str(ROOT / "web")
        self.front.stop()
        self.front.start(lambda text: text.replace(f"{own}/config.js", str(file)).replace(f"{own};", f"{web};"))

    def start_office(self, limit: int = 1_000_000) -> None:
        """Starts it, for so many connections."""
        place = ["--db", str(self.db), "--port", str(self.office_port)]
        words = ["serve", *place, "--desk-key", DESK, "--limit", str(limit)]
        self.office = subprocess.Popen([str(self.cpi.path), *words], stdout=subprocess.PIPE)
        assert self.office.stdout
        assert self.office.stdout.readline() == f"cpi: listening on 127.0.0.1:{self.office_port}\n".encode()

    def stop_office(self) -> None:
        if self.office:
            with self.office:
                self.office.kill()
            self.office = None

    def copied(self) -> dict[Path, bytes]:
        """A copy of the office's file and log, while nobody sends anything."""
        files = (self.db, self.db.with_name("office.db-wal"))
        return {file: file.read_bytes() for file in files if file.exists()}

    def restore(self, copy: dict[Path, bytes]) -> None:
        """The office is killed, and another one goes on with a copy of file and log."""
        self.stop_office()
        for name in ("office.db-wal", "office.db-shm"):
            (self.folder / name).unlink(missing_ok=True)
        for file, content in copy.items():
            file.write_bytes(content)
        self.start_office()

    @contextlib.contextmanager
    def standing_still(self) -> Iterator[None]:
        """The office does nothing meanwhile."""
        assert self.office
        self.office.send_signal(signal.SIGSTOP)
        try:
            yield
        finally:
            self.go_on()

    def go_on(self) -> None:
        """Lets an office that stands still go on."""
        if self.office:
            self.office.send_signal(signal.SIGCONT)

    def close(self) -> None:
        self.front.stop()
        self.stop_office()

    # ---- messages, as a client outside sends them

    def ask(
        self, method: str, path: str, key: Optional[str] = None, body: Optional[str] = None, **fields: str
    ) -> Answer:
        """One message over TLS, and its answer. An underscore in a field's name stands for a hyphen."""
        line = http.client.HTTPSConnection("localhost", self.port, context=self.context, timeout=60)
        named = {name.replace("_", "-"): value for name, value in fields.items()}
        if key:
            named["Authorization"] = f"CPI-Key {key}"
        with contextlib.closing(line):
            line.request(method, path, body=body.encode() if body is not None else None, headers=named)
            answer = line.getresponse()
            return Answer(answer.status, dict(answer.getheaders()), answer.read())

    def quotes(self, key: str, month: str = NOW) -> list[list[Any]]:
        """What the office has stored of a collector's month."""
        quotes: list[list[Any]] = self.ask("GET", f"/api/quotes/{month}/{month}", key).reply["quotes"]
        return quotes

    def wait_for_quotes(self, key: str, seconds: float = 60) -> list[list[Any]]:
        """The same, once there are any."""
        begun = time.monotonic()
        while not (quotes := self.quotes(key)) and time.monotonic() - begun < seconds:
            time.sleep(0.1)  # (the front takes 20 requests a second)
        return quotes

    def logs(self, requests: int = 1) -> str:
        """What the front has written down, once so many requests stand there: it writes behind its replies."""
        begun, log = time.monotonic(), self.folder / "access.log"
        while log.read_text(encoding="utf-8").count("\n") < requests and time.monotonic() - begun < 60:
            time.sleep(0.02)
        texts = [(self.folder / name).read_text(encoding="utf-8") for name in LOGS]
        assert texts[0].count("\n") >= requests, texts
        return "".join(texts)
