"""Each page of the desk's application, over an office whose texts would be more than text: none of them is, all are elements of
their own, and the page can be used by a keyboard. A page that these tests don't open fails them."""

from __future__ import annotations

import csv
import io
import itertools
import re
from collections.abc import Iterator
from html.parser import HTMLParser
from pathlib import Path
from typing import Optional

import pytest

from cpi_tools.office.program import Cpi, record
from cpi_tools.text.text_files import line_of
from lib.hostile import HOSTILE
from lib.offices import RICE_AND_FLOUR
from . import surveys
from .desk_apps import LISTEN, Application, Chosen, Person, applied
from .surveys import key_of
from .test_desk_app_month import MONTH, SIGNED
from .test_desk_app_publish import OFFICE, with_site
from .test_desk_app_shown import FREEZE, LOOKS, YEAR, drafted, prepares, sends, waited
from .test_others import MARK, Texts

LONG = "W" * 40
NAMES = [f"{MARK}{text[:50]}" for text in (*HOSTILE, LONG)]
"""Names and titles; each begins with the mark, by which a text of others is known."""

LINES = [text.replace("\u2029", "") for text in NAMES]
"""The same, each in a line of its own."""

PAGES: dict[str, list[str]] = {
    "month.first": ["/"],
    "month.glance": [f"/month/{MONTH}/", f"/month/{MONTH}/?still=1"],
    "looks.show": [LOOKS, f"{LOOKS}?show=all"],
    "table.show": [f"/month/{MONTH}/table"],
    "table.explain": [f"/month/{MONTH}/explain/{text}" for text in ("00", "01", "01.1.1.1-01", "01.1.1.2-01")],
    "table.what_if_page": [f"/month/{MONTH}/what-if"],
    "draft.show": [f"/month/{MONTH}/release", f"/month/{MONTH}/release?language=en"],
    "freeze.show": [FREEZE],
    "freeze.receipt": [f"{FREEZE}/receipt/1"],
    "reason.show": [f"/month/{MONTH}/reason"],
    "field_notes.show": [f"/month/{MONTH}/field-notes"],
    "asking.show": [f"/month/{MONTH}/questions"],
    "calendar.show": ["/calendar"],
    "calendar.show_year": ["/calendar/2026", "/calendar/2027"],
    "sample.first": ["/sample"],
    "sample.show": [
        f"/sample/{text}" for text in ("items", "outlets", "collectors", "assignments", "handovers", "calendar")
    ],
    "year.first": ["/year"],
    "year.show": [f"{YEAR}?sheet={text}" for text in ("weights", "classification", "places", "series", "few-series")],
    "publish.show": ["/publish"],
    "records.show": ["/records"],
    "records.show_sent": ["/records/sent"],
    "keys.sheet": ["/sample/collectors/sheet"],
    "log.show": ["/log"],
    "sign_in.show": ["/sign-in"],
    "held.show": [],
}
"""The addresses of the application's pages, by their views. The form of an ended session is opened in another test."""

FILES = set(
    "script style looks.script year.script month.glance_file looks.to_send table.file field_notes.file log.file sample.file"
    " field_notes.photo draft.pdf calendar.phones year.file year.changes_file field.own field.own_photo field.list_questions"
    " static".split()
)
"""What isn't a page: scripts, styles, tables to keep, photographs, and what phones ask for."""


class Controls(HTMLParser):
    """What a keyboard or a screen reader stumbles over on a page, and what a text of others became."""

    def __init__(self) -> None:
        super().__init__()
        self.faults: list[str] = []
        self.skips = 0
        self._labels: set[str] = set()
        self._fields: list[tuple[str, str]] = []
        self._open: list[str] = []

    def handle_starttag(self, tag: str, attrs: list[tuple[str, Optional[str]]]) -> None:
        has = {name: value or "" for name, value in attrs}
        self._open += [tag] if tag in ("label", "script") else []
        self.skips += tag == "a" and has.get("class") == "skip" and has.get("href") == "#main"
        self.faults += [f"{tag} {name}={value}" for name, value in attrs if name.startswith("on")]
        if tag == "img" or (tag in ("script", "iframe", "object") and not has.get("src", "").startswith("/")):
            self.faults.append(f"{tag} {has}")
        if has.get("href", "").startswith(("javascript:", "data:t")):
            self.faults.append(f"{tag} leads to {has['href']}")
        if int(has.get("tabindex") or 0) > 0 or (tag in ("div", "span") and "tabindex" in has and "role" not in has):
            self.faults.append(f"{tag} has the tabindex {has['tabindex']}")
        if tag == "label":
            self._labels.add(has.get("for", ""))
        if tag in ("input", "select", "textarea") and has.get("type") != "hidden":
            is_named = "aria-label" in has or "label" in self._open
            self._fields += [] if is_named else [(has.get("id", ""), f"{tag} {has}")]

    def handle_endtag(self, tag: str) -> None:
        if tag in self._open:
            self._open.remove(tag)

    def handle_data(self, data: str) -> None:
        if "script" in self._open and data.strip():
            self.faults.append(f"a script: {data}")

    def of_page(self, page: str) -> list[str]:
        """The faults of a page."""
        self.feed(page)
        unnamed = [says for name, says in self._fields if not name or name not in self._labels]
        skips = [] if self.skips == 1 and page.count('id="main"') == 1 else ["no way past the head"]
        return [*self.faults, *unnamed, *skips]


def titled() -> str:
    """The plan of the small office with other titles."""
    rows = [*csv.reader(io.StringIO(RICE_AND_FLOUR))]
    for number, row in enumerate(row for row in rows if row[0] == "T"):
        row[2] = NAMES[number % len(NAMES)]
    return "".join(f"{line_of(row)}\n" for row in rows)


def named(line: str, name: str) -> str:
    """A record whose texts are others."""
    (fields,) = csv.reader([line])
    if fields[2] in ("item", "outlet"):
        fields[4] = name
    if fields[2] == "item":
        fields[5] = f"{MARK}1 kg\u202e"
    return record(*fields)


@pytest.fixture
def application(cpi: Cpi, tmp_path: Path) -> Iterator[Application]:
    """The small office with such texts, a website under such a name, notes of the field, and sheets with keys."""
    head, _, rest = re.split(r"^(0,desk,plan.*?^\"$)\n", surveys.SMALL, flags=re.M | re.S)
    lines = [named(line, NAMES[at % len(NAMES)]) for at, line in enumerate(head.splitlines())]
    lines += [record("0", "desk", "plan", "2026", titled()), *rest.splitlines()]
    lines += [record("0", "desk", "outlet", str(20 + at), name) for at, name in enumerate(NAMES)]
    file = tmp_path / "hostile.db"
    assert [it for it in cpi.replay(lines, db=file) if "refused" in it] == []
    (tmp_path / "revisions.csv").write_text("month,revision,reason\n", encoding="utf-8")
    with applied(cpi, file, tmp_path / "room", Chosen(13)) as it:
        it.desk.given = it.desk.given._replace(phones="https://prices.example")
        with_site(it, tmp_path, f"{OFFICE}title = {LINES[0]}\nrevisions = revisions.csv\n")
        yield it


def noted(application: Application, text: str) -> None:
    """A collector sends a note of the field."""
    fields = {"Authorization": f"CPI-Key {key_of(7)}"}
    sent = {"data": {"receipt": "5", "text": text}, "headers": fields, "base_url": f"http://{LISTEN}"}
    assert application.app.test_client().post(f"/notes/{MONTH}/1", **sent).status_code == 200


def is_frozen(application: Application, ada: Person, ben: Person) -> None:
    """A month is asked about, prepared and confirmed, with reasons of such texts."""
    noted(application, f"{MARK}{HOSTILE[1]}")
    application.tried(ada, MONTH)
    assert ada.fill(LOOKS, "/looks/ask", text=LINES[2]).status_code == 303
    prepares(application, ada)
    assert ben.get(FREEZE).status_code == 200
    application.tried(ben, MONTH)
    assert ben.fill(FREEZE, "/confirm", **{**SIGNED, "because": LINES[3]}).status_code == 303


def is_filled(application: Application, ada: Person, ben: Person) -> None:
    """There is something on each page."""
    drafted(application, ada)
    assert ada.post(f"{YEAR}check").status_code == 303
    waited(lambda: not application.desk.drafts.running)
    sends(ben, f"outlet,60,{line_of([LINES[4]])}\n")
    sends(ben, f"calendar,{MONTH},2000,4000,4102444800\n")
    assert ada.fill(f"/month/{MONTH}/reason", "/reason", **{"reason-en": LINES[5]}).status_code == 303
    rows = "\n".join(line_of([str(number), text]) for number, text in enumerate([*LINES, ""], 10))
    assert ada.fill("/sample/outlets", "/judge", 1, pasted=rows).status_code == 303


def faults_of(page: str) -> list[str]:
    """What is wrong with a page; a message that is isolated as a whole may have such a text within, and a field has only the text
    that was filled in."""
    read = Texts()
    read.feed(page)
    return [
        *Controls().of_page(page),
        *(fault for fault in read.faults if not fault.startswith(("not its own: ", "textarea: "))),
    ]


def test_each_page_is_opened(application: Application) -> None:
    views = {rule.endpoint for rule in application.app.url_map.iter_rules() if "GET" in (rule.methods or ())}
    assert views == PAGES.keys() | FILES & views and not PAGES.keys() & FILES


def test_no_text_is_more_than_text_and_a_keyboard_is_enough(application: Application) -> None:
    ada, ben = application.person(LINES[0][:50]), application.person(LINES[6][:50])
    found = {"before": faults_of(application.person().get("/sign-in?to=/%3Cscript%3E").text)}
    is_frozen(application, ada, ben)
    is_filled(application, ada, ben)
    marks = 0
    for path in itertools.chain(*PAGES.values()):
        answer = ada.get(path, follow_redirects=True)
        assert answer.status_code == 200, path
        found[path] = faults_of(answer.text)
        marks += answer.text.count(MARK)
    judged = ada.follow(ada.fill("/records", "/records/judge", text="\n".join(LINES)))
    found["judged"] = faults_of(judged.text)
    found["nowhere"] = faults_of(ada.get(f"/{HOSTILE[0]}").text)
    assert {path: it for path, it in found.items() if it} == {} and marks > 200
