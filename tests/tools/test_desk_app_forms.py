"""How much of a form the desk's application takes: short ones before a person is signed in, and never more fields than a
person can give. What is more is refused in a page that says so, and costs no more than its bytes."""

from __future__ import annotations

import time
from pathlib import Path
from typing import Any

import pytest

from cpi_tools.desk.serve.sent_forms import MOST_BYTES, MOST_BYTES_BEFORE, MOST_FIELDS
from cpi_tools.office.program import Cpi
from . import surveys
from .desk_apps import ADA, BEN, LISTEN, Application, Chosen, Person, applied, words_of
from .offices import LOAD_KEY

FORM = "application/x-www-form-urlencoded"
OF_FIELDS = b"a=&" * 5_300_000
"""15.9 MB; each field cost some ten microseconds."""

BEFORE = "Before you sign in, a form can have at most 4,096 bytes. Nothing was done."
FIELDS = "A form can have at most 10,000 fields, and this one has more. Nothing was done."
SECONDS = 2.0
"""Processor seconds for which a refused form keeps the application busy at most: it counted a minute."""


def sent(person: Person, path: str, body: bytes, kind: str = FORM) -> Any:
    """The answer to a body."""
    return person.client.post(path, data=body, content_type=kind, base_url=f"http://{LISTEN}")


def with_token(person: Person, fields: int) -> bytes:
    """A form of so many fields, the first of which is the session's token."""
    return f"token={person.token}".encode() + b"&x=" * (fields - 1)


@pytest.mark.parametrize("path", ["/sign-in", "/sign-in?to=/log", "/sign-out", "/records/judge", "/nowhere"])
def test_before_a_person_is_signed_in_a_long_form_is_refused_unread(application: Application, path: str) -> None:
    stranger = application.person()
    begun = time.process_time()
    answer = sent(stranger, path, OF_FIELDS)
    assert time.process_time() - begun < SECONDS
    if path.startswith("/sign-in"):
        assert answer.status_code == 413 and BEFORE in words_of(answer.text)
    else:
        # (of these pages nothing is read without a session)
        assert answer.status_code == 403 and "Your session has ended" in words_of(answer.text)


def test_the_longest_form_that_a_person_can_fill_in_signs_them_in(application: Application) -> None:
    """A name of sixty letters of an alphabet of long codes, and the longest place to go on to."""
    person, name = application.person(), "\u0e01" * 60
    place = "/sample/items?query=" + "%E0%B8%81" * 120
    shown = person.get("/sign-in", query_string={"to": place}).text
    assert f'name="to" value="{place}"' in shown
    assert person.signed_in(name, to=place).status_code == 303
    # (a longer place isn't gone on to, and doesn't keep anybody out)
    assert 'name="to" value="/"' in person.get("/sign-in", query_string={"to": place * 2}).text


@pytest.mark.parametrize("more, status", [(0, 403), (1, 413)], ids=["at-most", "one-more"])
def test_the_bound_before_a_session_is_a_number_of_bytes(more: int, status: int, application: Application) -> None:
    body = b"name=Ada&to=/&key=" + b"0" * 32
    body += b"x" * (MOST_BYTES_BEFORE - len(body) + more)
    answer = sent(application.person(), "/sign-in", body)
    assert len(body) == MOST_BYTES_BEFORE + more and answer.status_code == status


@pytest.mark.parametrize("fields, is_taken", [(MOST_FIELDS, True), (MOST_FIELDS + 1, False), (5_000_000, False)])
def test_a_signed_in_person_sends_so_many_fields_at_most(fields: int, is_taken: bool, ada: Person) -> None:
    begun = time.process_time()
    answer = sent(ada, "/sign-out", with_token(ada, fields))
    assert time.process_time() - begun < SECONDS
    if is_taken:
        assert answer.status_code == 303 and ada.get("/log").status_code == 302
    else:
        assert answer.status_code == 413 and FIELDS in words_of(answer.text) and ada.get("/log").status_code == 200


IN_PARTS = b'--x\r\nContent-Disposition: form-data; name="a"\r\n\r\n\r\n' * 200_000
OTHERS = {
    "another-name": ("application/x-url-encoded", OF_FIELDS),
    "another-code": (f"{FORM}; charset=utf-16", OF_FIELDS),
    "a-text": ("text/plain", OF_FIELDS),
    "no-kind": ("", OF_FIELDS),
    "parts": ("multipart/form-data; boundary=x", IN_PARTS),
}


@pytest.mark.parametrize("name", OTHERS)
def test_no_other_kind_of_form_has_more(name: str, ada: Person) -> None:
    kind, body = OTHERS[name]
    begun = time.process_time()
    answer = sent(ada, "/sign-out", body[: MOST_BYTES - 1], kind)
    assert time.process_time() - begun < SECONDS
    assert answer.status_code == 413 and "fields, and this one has more" in words_of(answer.text)
    assert ada.get("/log").status_code == 200


def test_an_address_has_no_more_fields_either(application: Application) -> None:
    begun = time.process_time()
    answer = application.person().get("/sign-in?" + "a=&" * 80_000)
    assert time.process_time() - begun < SECONDS
    assert answer.status_code == 413 and FIELDS in words_of(answer.text)


def test_a_note_of_the_field_has_no_more_fields(cpi: Cpi, tmp_path: Path) -> None:
    with applied(cpi, surveys.small(cpi, tmp_path), tmp_path / "room", Chosen(13)) as application:
        answer = application.person().client.post(
            "/notes/2026-02/1",
            data=b"a=&" * 100_000,
            content_type=FORM,
            headers={"Authorization": f"CPI-Key {LOAD_KEY}"},
            base_url=f"http://{LISTEN}",
        )
        assert (answer.status_code, answer.json) == (413, {"fault": "long"})


def test_others_sign_in_as_before_and_go_on(application: Application, ada: Person) -> None:
    for _ in range(3):
        assert sent(application.person(), "/sign-in", OF_FIELDS).status_code == 413
    ben = application.person(BEN)
    for person, name in ((ada, ADA), (ben, BEN)):
        answer = person.sent("/records/judge", text="outlet,60,Shop\n" * 3)
        assert answer.status_code == 200 and name in answer.text
