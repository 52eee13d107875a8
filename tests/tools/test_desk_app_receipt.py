"""The second person of a freeze: what is read before it is signed, the reason and the second key that are asked, and the
receipt, which stays at its address."""

from __future__ import annotations

import hashlib
import re
from pathlib import Path
from typing import Any

import pytest

from cpi_tools.guard.backup import last_line_of, read_note
from cpi_tools.office.copying import private_copy
from cpi_tools.desk.freeze import freeze_steps
from cpi_tools.desk.records.desk_log import DeskLog
from cpi_tools.desk.serve.sent_forms import MOST, MOST_BYTES_OF_ALL, HeldForm, HeldForms
from cpi_tools.desk.serve.sessions import FREE_TRIES, SecondKey, Sessions
from cpi_tools.office.program import Cpi, Reply
from cpi_tools.text.terminal import Fault
from .desk_apps import ADA, BEN, Application, Person, words_of
from .loads import DESK_KEY
from .page_forms import forms_of
from .ran import run
from .test_desk_app_month import CODE, MONTH, SIGNED, WHY

PAGE, RECEIPT = f"/month/{MONTH}/freeze", f"/month/{MONTH}/freeze/receipt/1"
SECOND = "5" * 32


@pytest.fixture
def prepared(application: Application, ada: Person) -> Application:
    """Ada has prepared the freeze of the month."""
    application.tried(ada, MONTH)
    assert ada.fill(PAGE, "/prepare", **WHY).status_code == 303
    return application


# ---- what is signed


def test_the_second_person_reads_what_is_signed(prepared: Application) -> None:
    """Rice went from 456/440 to 456/440 * 252/246, which is 106.164; all items were at 104.181818 in January, and rice has
    0.6 of the weight: 60 * 2.5277 / 104.1818 = 1.456 percentage points. Flour is as it was."""
    words = prepared.person(BEN).words(PAGE)
    assert "Nothing has changed since the freeze was prepared." in words
    assert "all items would be at 105.7 (December 2025 = 100): the monthly change would be 1.5 percent" in words
    assert "All items and divisions" in words and "01 Food and drink" in words
    largest, movers = (words.partition(title)[2] for title in ("The largest contributions", "What changed most"))
    assert "01.1.1.1-01 Rice, packed 106.16 +2.4 +1.456" in largest.partition("What changed")[0]
    assert "01.1.1.1-01 Rice, packed 106.16 +2.4 +1.456" in movers and "Flour" not in movers.partition("Prices to")[0]
    looks = words.partition("Prices to look at that nobody has seen")[2]
    assert (
        "8/1 Rice , 1 kg Market hall +2.4 +1.517 the only compared price" in looks
        and "the only compared price in its aggregate" in looks
    )
    assert f"{CODE}: the shop is closed for a week" in words
    assert "priced 33.3 % 1 of 3 slots, 30.0 % by weight" in words
    assert "Names are only names" in words


def test_a_reason_is_asked_for_prices_of_weight_that_nobody_has_seen(prepared: Application) -> None:
    ben = prepared.person(BEN)
    refused = ben.fill(PAGE, "/confirm")
    assert refused.status_code == 400 and "Give the reason for freezing the month" in words_of(refused.text)
    form = ben.form(PAGE, "/confirm")
    prepared.desk.given = prepared.desk.given._replace(reason_above=999_000_000)
    assert 'name="because"' not in ben.get(PAGE).text
    prepared.desk.given = prepared.desk.given._replace(reason_above=50_000)
    look = ben.form(f"/month/{MONTH}/looks", "/looks")
    assert ben.give(look).status_code == 303
    assert 'name="because"' not in ben.get(PAGE).text
    late = ben.give(form, **SIGNED)
    assert late.status_code == 409 and "Ben changed this after your page was loaded, " in words_of(late.text)
    assert ben.fill(PAGE, "/confirm").status_code == 303


# ---- the receipt


def frozen(application: Application, person: Person) -> str:
    """The words of the receipt to which a confirmed freeze leads."""
    answer = person.fill(PAGE, "/confirm", **SIGNED)
    assert (answer.status_code, answer.headers["Location"]) == (303, RECEIPT)
    return words_of(person.get(RECEIPT).text)


def without_duration(words: str) -> str:
    """The words of a page without those that say how long its work took last, which a restart forgets."""
    return re.sub(r" Last time, it took about [^.]{1,40}\.", "", words, count=1)


def test_a_freeze_ends_on_a_receipt_that_stays(cpi: Cpi, prepared: Application, ada: Person) -> None:
    words = frozen(prepared, prepared.person(BEN))
    with private_copy(prepared.file) as copy:
        table = cpi.table(copy, MONTH, "csv", 9000)
    total, logged = hashlib.sha256(table).hexdigest(), (prepared.room / "desk.log").read_bytes().splitlines(True)
    (at,) = [number for number, line in enumerate(logged, 1) if b'"what":"frozen"' in line]
    for says in (
        "February 2026 is frozen, revision 1.",
        "All items are at 105.7 (December 2025 = 100): the monthly change is 1.5 percent",
        "Prepared Ada , ",
        "Confirmed Ben , ",
        "Is published Immediately: its release time, 1 January 1970, 02:23 CET (01:23 UTC), had passed",
        f"Frozen with prices that nobody had seen {SIGNED['because']}",
        f"Carried: {CODE} the shop is closed for a week",
        f"SHA-256 of the table {total}",
        f"SHA-256 of line {at} of the log {hashlib.sha256(logged[at - 1]).hexdigest()}",
        "00 All items 105.7 +1.5",
        "What to do next",
    ):
        assert says in words, says
    prepared.again()
    for person in (prepared.person(ADA), prepared.person(BEN)):
        assert without_duration(words_of(person.get(RECEIPT).text)) == without_duration(words)
    assert "is frozen, revision 1. Its receipt" in prepared_page(prepared)
    missing = prepared.person(ADA).get(f"{PAGE}/receipt/2")
    assert missing.status_code == 404 and "Page not found" in words_of(missing.text)


@pytest.mark.parametrize(
    ("later", "says"),
    [(0, "Is published Immediately: its release time, "), (60, "Is published 31 January 2026, 23:54 CET")],
)
def test_a_receipt_says_whether_the_table_is_out_at_once(
    prepared: Application, monkeypatch: pytest.MonkeyPatch, later: int, says: str
) -> None:
    """It isn't said to be published at a moment before the one at which the freeze was confirmed."""
    ben = prepared.person(BEN)
    frozen(prepared, ben)
    found = freeze_steps.find_receipt(prepared.desk.log, 202602, 1)
    assert found
    receipt = found.receipt._replace(confirmed_at=1_769_900_000, publishes=1_769_900_000 + later)
    monkeypatch.setattr(freeze_steps, "find_receipt", lambda *_: found._replace(receipt=receipt))
    assert says in ben.words(RECEIPT)


def prepared_page(application: Application) -> str:
    """The words of the page of the freeze once the month was tried again."""
    person = application.person(ADA)
    application.tried(person, MONTH)
    return person.words(PAGE)


def test_a_receipt_that_can_t_be_written_now_is_written_later(
    prepared: Application, ada: Person, monkeypatch: pytest.MonkeyPatch
) -> None:
    """The month is frozen, and the page says so; no page says that nothing was done."""
    append = DeskLog.append

    def fails(log: DeskLog, by: str, what: str, *more: Any, **named: Any) -> Any:
        if what == "frozen":
            raise Fault("no room for a receipt")
        return append(log, by, what, *more, **named)

    ben = prepared.person(BEN)
    with monkeypatch.context() as patch:
        patch.setattr(DeskLog, "append", fails)
        words = words_of(ben.follow(ben.fill(PAGE, "/confirm", **SIGNED)).text)
    assert "February 2026 is frozen, revision 1. The receipt can't be written yet: " in words
    assert ben.get(RECEIPT).status_code == 404
    prepared.again()
    assert "Its receipt" in prepared_page(prepared)
    assert "Confirmed Ben , " in prepared.person(ADA).words(RECEIPT)


def test_a_freeze_whose_reply_was_lost_has_its_receipt(prepared: Application, monkeypatch: pytest.MonkeyPatch) -> None:
    """The application ends before it knows; the next one finds it in the office's file."""
    ben, office = prepared.person(BEN), prepared.desk.office

    def ends(key: str, records: Any) -> list[Reply]:
        type(office).carry_out(office, key, records)
        raise Fault("the application ends here")

    monkeypatch.setattr(office, "carry_out", ends)
    form = ben.form(PAGE, "/confirm")
    monkeypatch.setattr(prepared.desk.prepared, "keep", keeps_once(prepared.desk.prepared.keep))
    assert ben.give(form, **SIGNED).status_code >= 500
    prepared.again()
    assert prepared.person(ADA).post("/log/settle").status_code == 303
    assert "Its receipt" in prepared_page(prepared) and "Confirmed Ben , " in prepared.person(ADA).words(RECEIPT)


def keeps_once(keep: Any) -> Any:
    """Keeps what is prepared once: after that the application is gone."""
    calls = list[object]()

    def once(what: object) -> None:
        calls.append(what)
        if len(calls) > 1:
            raise Fault("gone")
        keep(what)

    return once


# ---- the second key


def test_a_freeze_takes_the_second_key(prepared: Application, tmp_path: Path) -> None:
    path = tmp_path / "second"
    path.write_text(f"{SECOND}\n")
    path.chmod(0o600)
    prepared.desk.second_key = SecondKey(path)
    ben = prepared.person(BEN)
    words = ben.words(PAGE)
    assert "The person who confirms needs the second key." in words and "Names are only names" not in words
    for key in ("", DESK_KEY, "5" * 31):
        answer = ben.fill(PAGE, "/confirm", second_key=key, **SIGNED)
        assert answer.status_code == 403 and "This isn't the second key" in words_of(answer.text)
        assert f'value="{SIGNED["because"]}"' in answer.text and SECOND not in answer.text
    typed = f"{SECOND[:16]} {SECOND[16:]}"
    assert ben.fill(PAGE, "/confirm", second_key=typed, **SIGNED).headers["Location"] == RECEIPT


def test_a_second_key_is_guarded(tmp_path: Path) -> None:
    path = tmp_path / "second"
    with pytest.raises(Fault, match="No such file"):
        SecondKey(path)
    path.write_text("short")
    path.chmod(0o644)
    with pytest.raises(Fault, match="Others can read"):
        SecondKey(path)
    path.chmod(0o600)
    with pytest.raises(Fault, match="doesn't contain a key of 32 characters"):
        SecondKey(path)
    path.write_text(SECOND)
    key = SecondKey(path)
    assert "protects nothing" in key.find_refusal(SECOND, SECOND, "") and not key.find_refusal(SECOND, DESK_KEY, "")
    for _ in range(FREE_TRIES):
        assert "isn't the second key" in key.find_refusal("x", DESK_KEY, "127.0.0.1")
    assert "Too many wrong keys. Wait 60 seconds" in key.find_refusal(SECOND, DESK_KEY, "127.0.0.1")


def test_the_words_of_the_second_person_are_read(tmp_path: Path) -> None:
    (tmp_path / "office.db").write_bytes(b"")
    words = ("desk", "serve", "--file", tmp_path / "office.db", "--room", tmp_path / "room")
    refused = run(None, *words, "--second-key-file", tmp_path / "none")
    assert refused.status == 1 and "No such file" in refused.err
    for text in ("x", "0.0000001", ""):
        with pytest.raises(SystemExit, match="2"):
            run(None, *words, "--reason-above", text)


# ---- sessions


class Clock:
    """A clock that stands still."""

    def __init__(self) -> None:
        self.now = 1000.0

    def __call__(self) -> float:
        return self.now


def test_what_a_page_loads_by_itself_keeps_no_session(application: Application, ada: Person) -> None:
    clock = Clock()
    sessions = Sessions(lambda key: True, 60, clock)
    secret = sessions.sign_in(ADA, DESK_KEY)
    clock.now += 40
    assert sessions.of(secret, is_by_hand=False)
    clock.now += 40
    assert sessions.of(secret) is None and sessions.was_one(secret) and not sessions.was_one("x.y")
    (session,) = application.desk.sessions._by_name.values()
    (address,) = re.findall('http-equiv="refresh" content="45; url=([^"]+)"', ada.get(f"/month/{MONTH}/").text)
    assert address == f"/month/{MONTH}/?itself=1"
    used = session.used
    for path in (address, "/style.css"):
        assert ada.get(path).status_code == 200 and session.used == used
    assert ada.get("/log").status_code == 200 and session.used > used


def test_a_form_of_an_ended_session_is_kept_until_it_is_sent_again(application: Application, ada: Person) -> None:
    """Also if the application was started anew since: it knows its own cookies."""
    form = ada.form("/records", "/records/judge")
    application.again()
    ada.client.application = application.app
    ended = ada.give(form, text="outlet,12,Harbour", second_key=SECOND)
    assert ended.status_code == 303 and ended.headers["Location"].startswith("/sign-in?to=%2Fheld%2F")
    signing = ada.get(ended.headers["Location"])
    assert "What you filled in is kept: sign in" in words_of(signing.text)
    (place,) = re.findall('name="to" value="([^"]+)"', signing.text)
    assert ada.signed_in(BEN, to=place).headers["Location"] == place
    shown = ada.get(place)
    assert "outlet,12,Harbour" in words_of(shown.text) and "Send it again, as Ben" in words_of(shown.text)
    assert SECOND not in shown.text
    (again,) = [form for form in forms_of(shown.text) if form.action == "/records/judge"]
    assert "1 would be accepted" in words_of(ada.follow(ada.give(again)).text)
    assert ada.get(place).status_code == 404 and not application.desk.log.entries


def test_a_form_of_another_session_comes_back_at_once(application: Application, ada: Person) -> None:
    form = ada.form("/year", "/year/make")
    refused = ada.give(form, token="of another one", year="2027")
    assert refused.status_code == 403 and application.desk.drafts.years() == []
    (again,) = [form for form in forms_of(refused.text) if form.action == "/year/make"]
    assert ("year", "2027") in again.fields and ada.give(again).status_code == 303


def test_only_a_form_of_one_of_its_sessions_is_kept(application: Application) -> None:
    stranger = application.person()
    for cookie in ("", "x.y", "." + "0" * 64):
        stranger.client.set_cookie("127.0.0.1", "cpi_desk", cookie)
        answer = stranger.post("/records/judge", text="outlet,12,Harbour")
        assert answer.status_code == 403 and "Your session has ended" in words_of(answer.text)
    assert not application.desk.held._by_name


def test_no_more_forms_are_kept_than_there_is_room_for() -> None:
    held = HeldForms()
    names = [held.keep(HeldForm(0, "/records/judge", [("text", "x")], [])) for _ in range(MOST)]
    assert all(names) and held.keep(HeldForm(0, "/", [], [])) is None
    held.drop(names[0] or "")
    assert held.keep(HeldForm(0, "/", [("text", "x" * MOST_BYTES_OF_ALL)], [])) is None
    assert held.keep(HeldForm(0, "/", [], []))


# ---- a log that was changed


def test_the_note_of_a_backup_has_the_last_line_of_the_log(application: Application, cpi: Cpi, tmp_path: Path) -> None:
    """A changed last line breaks no chain: the note shows it."""
    log = application.desk.log
    for name in (ADA, BEN):
        log.append(name, "said", text="a step")
    path, copy = application.room / "desk.log", tmp_path / "backup.db"
    lines = path.read_bytes().splitlines(True)
    ran = run(cpi, "backup", application.file, copy, "--desk-log", path)
    assert ran.status == 0
    note = read_note(copy)
    assert note and note.desk_log == f"line 2, SHA-256 {hashlib.sha256(lines[1]).hexdigest()}"
    assert log.sum_of_line(2) == hashlib.sha256(lines[1]).hexdigest()
    path = tmp_path / "desk.log"
    path.write_bytes(lines[0] + lines[1].replace(b'"by":"Ben"', b'"by":"Eve"'))
    changed = DeskLog(path)
    assert changed.entries[-1].by == "Eve" and changed.sum_of_line(2) not in note.desk_log
    changed.close()
    missing = run(cpi, "backup", application.file, tmp_path / "other.db", "--desk-log", tmp_path / "none")
    assert missing.status == 1 and "No such file" in missing.err and not (tmp_path / "other.db").exists()
    path.write_bytes(b"cut")
    assert last_line_of(path) == "no line"
