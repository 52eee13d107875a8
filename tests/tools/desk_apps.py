"""The application of the desk over an office that is served, as a browser asks it."""

from __future__ import annotations

import contextlib
import html
import re
import time
from collections.abc import Iterator
from pathlib import Path
from typing import Any, NamedTuple, Optional

from cpi_tools.desk.serve.app import Reached, make_app
from cpi_tools.desk.serve.desk import Desk, Given
from cpi_tools.desk.serve.sent_forms import Once
from cpi_tools.text.clocks import clock_of
from cpi_tools.office.program import Cpi
from cpi_tools.text.languages import SPEAKS_ENGLISH, Speech
from lib.served import free_port
from .loads import DESK_KEY, served
from .page_forms import PageForm, forms_of

LISTEN = "127.0.0.1:8090"
CLOCK = clock_of("Europe/Prague")
ADA, BEN = "Ada", "Ben"

PATIENCE = 120
"""Seconds after which a trial is taken for hanging."""


class Person:
    """A person with a browser of their own."""

    def __init__(self, client: Any, name: str = "", key: str = DESK_KEY):
        self.client = client
        self.token = ""
        if name:
            assert self.signed_in(name, key).status_code == 303
            self.token = re.findall('name="token" value="([^"]+)"', self.get("/log").text)[0]

    def signed_in(self, name: str, key: str = DESK_KEY, to: str = "/") -> Any:
        return self.client.post("/sign-in", data={"name": name, "key": key, "to": to}, base_url=f"http://{LISTEN}")

    def get(self, path: str, **more: Any) -> Any:
        return self.client.get(path, base_url=f"http://{LISTEN}", **more)

    def post(self, path: str, token: Optional[str] = None, headers: Any = None, **form: str) -> Any:
        data = {"token": self.token if token is None else token, **form}
        return self.client.post(path, data=data, base_url=f"http://{LISTEN}", headers=headers)

    def sent(self, path: str, **form: str) -> Any:
        """The page after a form: the one that answers it, or the one to which its answer leads."""
        return self.follow(self.post(path, **form))

    def follow(self, answer: Any) -> Any:
        """The page to which the answer to a form leads, if it leads to one."""
        return self.get(answer.headers["Location"]) if answer.status_code == 303 else answer

    def form(self, page: str, ends: str, at: int = 0) -> PageForm:
        """A form of a page, by the end of its address."""
        return [form for form in forms_of(self.get(page).text) if form.action.endswith(ends)][at]

    def fill(self, page: str, ends: str, at: int = 0, /, **fields: str) -> Any:
        """Fills in a form of a page, and sends it with all that it carries; the answer."""
        return self.give(self.form(page, ends, at), **fields)

    def give(self, form: PageForm, /, **fields: str) -> Any:
        """Sends a form that was shown, with some fields filled in; the answer."""
        data: dict[str, list[str]] = {}
        for name, text in form.carried(**fields):
            data.setdefault(name, []).append(text)
        return self.client.post(form.action, data=data, base_url=f"http://{LISTEN}")

    def words(self, path: str) -> str:
        """What a page says."""
        return words_of(self.get(path).text)


def words_of(page: str) -> str:
    """The text of a page from its main part on, without markup."""
    return " ".join(html.unescape(re.sub("<[^>]*>", " ", page.partition("<main")[2])).split())


class Chosen(NamedTuple):
    """What an application is given beside its office and its folder: for how many months notes of the field are kept,
    0 if none are taken; its language; the file of supervisors, if there is one."""

    field_months: int = 0
    speech: Speech = SPEAKS_ENGLISH
    supervisors: Optional[Path] = None


class Application:
    """An application over an office's file, which is served meanwhile or not."""

    def __init__(self, cpi: Cpi, file: Path, room: Path, port: int, chosen: Chosen = Chosen()):
        self.cpi, self.file, self.room, self.port, self.chosen = cpi, file, room, port, chosen
        self.desk = self._begun()

    def _begun(self) -> Desk:
        self.room.mkdir(mode=0o700, exist_ok=True)
        copies = self.room.parent / "copies"
        copies.mkdir(mode=0o700, exist_ok=True)
        url = f"http://127.0.0.1:{self.port}"
        given = Given(url, self.file, self.room, str(self.cpi.path), 1800, CLOCK, copies, 8, self.chosen.field_months)
        desk = Desk(given._replace(speech=self.chosen.speech, supervisors=self.chosen.supervisors))
        # (tests send a form again at once to see that it is refused)
        desk.once = Once(known_for=0.0)
        self.app = make_app(desk, Reached(LISTEN, None))
        return desk

    def again(self) -> None:
        """Another application takes the place of this one, as after a crash: nothing of it is left but its folder."""
        self.desk.close()
        self.desk = self._begun()

    def person(self, name: str = "") -> Person:
        return Person(self.app.test_client(), name)

    def tried(self, person: Person, month: str) -> None:
        """Tries a month on a copy, and waits for it."""
        assert person.post(f"/month/{month}/try").status_code == 303
        begun = time.monotonic()
        while self.desk.trials.running:
            assert time.monotonic() - begun < PATIENCE
            time.sleep(0.01)


@contextlib.contextmanager
def applied(cpi: Cpi, file: Path, room: Path, chosen: Chosen = Chosen()) -> Iterator[Application]:
    """An application over an office that is served."""
    port = free_port()
    with served(cpi, file, port, 100_000):
        application = Application(cpi, file, room, port, chosen)
        try:
            yield application
        finally:
            application.desk.close()
