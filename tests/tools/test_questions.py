"""Questions of the desk to collectors: who may ask, read and answer them, what is taken, what becomes of them, and for how
long they are kept."""

from __future__ import annotations

import html
import re
import sqlite3
import time
from collections.abc import Iterator
from pathlib import Path
from typing import Any

import pytest

from cpi_tools.desk.field import field_questions
from cpi_tools.desk.field.field_limits import MOST_ANSWERS, MOST_LETTERS
from cpi_tools.desk.field.field_questions import (
    ANSWERED,
    CONFIRMED,
    OPEN,
    TEXT,
    WITHDRAWN,
    Changed,
    FieldQuestions,
    NoQuestion,
    Of,
    Question,
    Said,
    TooManyAnswers,
    TooManyOpen,
)
from cpi_tools.desk.looks.looks import chosen_of, part_of
from cpi_tools.office.program import Cpi
from cpi_tools.text.terminal import Fault
from . import surveys
from .desk_apps import ADA, BEN, LISTEN, Application, Chosen, Person, applied, words_of
from lib.hostile import HOSTILE
from lib.served import heard, message, peer_of
from .loads import DESK_KEY
from .surveys import key_of
from .test_looks import look
from .test_notes_of_the_field import AGES, DAY, JANUARY, OWN_SCRIPTS, Clock, Phone

MONTH = "2026-02"
LOOKS, LIST = f"/month/{MONTH}/looks", f"/month/{MONTH}/questions"

ANNA, BENO = key_of(7), key_of(8)
"""Two collectors: of the second, slot 1 has the price 252 with the receipt 3, which is the month's one price to look at."""

STILL, WAITS = "Is it still 1 kg?", '<span class="chip">No answer yet'


class Asked(Phone):
    """What a collector's phone asks of questions, under a key."""

    def questions(self) -> Any:
        return self.get("questions")

    def answer(self, number: int, month: str = MONTH, /, **said: object) -> Any:
        address = f"/notes/{month}/questions/{number}"
        return self.client.post(address, data=said, headers=self.fields, base_url=f"http://{LISTEN}")


@pytest.fixture
def application(cpi: Cpi, tmp_path: Path) -> Iterator[Application]:
    """The small office, with notes of the field, whose month was tried on a copy."""
    with applied(cpi, surveys.small(cpi, tmp_path), tmp_path / "room", Chosen(AGES)) as it:
        it.tried(it.person(ADA), MONTH)
        yield it


@pytest.fixture
def ada(application: Application) -> Person:
    return application.person(ADA)


@pytest.fixture
def beno(application: Application) -> Asked:
    return Asked(application, BENO)


def asks(person: Person, text: str = STILL, page: str = LOOKS) -> Any:
    """A person asks about the month's price to look at."""
    return person.fill(page, "/looks/ask", text=text)


def told_office(application: Application, *bodies: tuple[str, str]) -> None:
    """The office is sent imports, each under a key."""
    for key, body in bodies:
        with peer_of(application.port) as peer:
            peer.sendall(message("POST /import", key=key, body=body.encode()))
            assert b"refused" not in heard(peer), body


def corrected(application: Application, price: int) -> None:
    """The window is opened once more for another price of Beno's, which has the receipt 4."""
    far = int(time.time()) + 86_400
    window = DESK_KEY, f"calendar,{MONTH},2000,{far},{far}\n"
    told_office(application, window, (BENO, f"quote,1,{MONTH},price,{price}\n"))


def asked_of(application: Application) -> list[Question]:
    """The month's questions."""
    assert application.desk.questions
    return application.desk.questions.of_month(202602)


def steps(application: Application) -> list[tuple[str, str]]:
    """The steps with questions in the log: who, and what."""
    return [(entry.by, entry.text) for entry in application.desk.log.entries if "question" in entry.text]


# ---- there and back


def test_where_notes_are_off_nobody_is_asked(cpi: Cpi, tmp_path: Path) -> None:
    with applied(cpi, surveys.small(cpi, tmp_path), tmp_path / "room") as application:
        ada = application.person(ADA)
        application.tried(ada, MONTH)
        assert "Ask the collector" not in ada.get(LOOKS).text and ada.get(LIST).status_code == 404
        assert Asked(application, BENO).questions().status_code == 404
        assert not (tmp_path / "room/field-questions.db").exists()


def test_a_price_that_is_confirmed(application: Application, ada: Person, beno: Asked) -> None:
    assert asks(ada).headers["Location"] == f"{LOOKS}#look-8-1"
    (row,) = beno.questions().json["questions"]
    assert row[:5] == [1, MONTH, 1, 3, 252] and row[6] == STILL
    assert "Ada asked, " in ada.words(LOOKS) and WAITS in ada.get(LOOKS).text
    assert beno.answer(1, what="confirmed", receipt=3, text="Weighed it.").json == {"answer": 1}
    assert beno.questions().json == {"questions": []}
    for page in (LOOKS, LIST):
        words = ada.words(page)
        assert STILL in words and "price 252 is right (receipt 3). Weighed it." in words
        assert WAITS not in ada.get(page).text
    assert steps(application) == [
        (ADA, "asked collector 8 about slot 1, 2026-02: question 1"),
        ("collector 8", "question 1 was answered by collector 8, 2026-02"),
    ]


def test_a_price_that_is_corrected_is_a_quote_of_the_phone(application: Application, ada: Person, beno: Asked) -> None:
    """The answer says only which quote it is: mark and price are those that the office itself answers."""
    asks(ada)
    for receipt in (3, 4):
        assert beno.answer(1, what="corrected", receipt=receipt).json["fault"] == "price"
    corrected(application, 260)
    assert beno.answer(1, what="confirmed", receipt=3).json["fault"] == "price"
    assert beno.answer(1, what="corrected", receipt=5).json["fault"] == "price"
    assert beno.answer(1, what="corrected", receipt=4, price=999, value=999).json == {"answer": 1}
    words = ada.words(LIST)
    assert (
        "asked about 252, receipt 3" in words and "corrected to price 260 (receipt 4)." in words and "999" not in words
    )


def test_a_price_that_is_withdrawn_says_why(application: Application, ada: Person, beno: Asked) -> None:
    asks(ada)
    far = int(time.time()) + 86_400
    window = DESK_KEY, f"calendar,{MONTH},2000,{far},{far}\n"
    told_office(application, window, (BENO, f"quote,1,{MONTH},missing,gone\n"))
    assert beno.answer(1, what="corrected", receipt=4).json == {"answer": 1}
    words = ada.words(LIST)
    assert "corrected to gone (receipt 4)." in words, words
    assert [question.answers[0].said[2:4] for question in asked_of(application)] == [("gone", 0)]


def test_an_answer_is_kept_once_however_often_it_is_sent(application: Application, ada: Person, beno: Asked) -> None:
    asks(ada)
    said = {"what": "text", "text": "The label says 900 g\r\nsince Monday "}
    assert [beno.answer(1, **said).json for _ in range(3)] == [{"answer": 1}] * 3
    application.again()
    assert Asked(application, BENO).answer(1, **said).json == {"answer": 1}
    assert "The label says 900 g since Monday" in application.person(ADA).words(LIST)
    assert len(steps(application)) == 2
    # (another device of the same collector may answer too)
    assert Asked(application, BENO).answer(1, what="text", text="No, 1 kg").json == {"answer": 2}


# ---- whose they are


def test_nobody_reads_the_question_of_another_collector(application: Application, ada: Person, beno: Asked) -> None:
    """What others are answered is the same, to the byte, before it was asked, while it is open, and once it is answered."""
    others = [Asked(application, key) for key in (ANNA, None, DESK_KEY, "e" * 32)]

    def answers() -> list[list[tuple[int, bytes]]]:
        asked = [
            [query.questions(), query.answer(1, what="text", text="Mine"), query.answer(2, what="text", text="Mine")]
            for query in others
        ]
        return [[(it.status_code, it.data) for it in each] for each in asked]

    before = answers()
    assert [answer[0][0] for answer in before] == [200, 401, 403, 401] and before[0][0][1] == b'{"questions":[]}\n'
    assert before[0][1] == before[0][2] and before[0][1][0] == 404
    asks(ada)
    assert answers() == before
    assert beno.answer(1, what="confirmed", receipt=3, text="Weighed it.").status_code == 200
    assert answers() == before
    assert [question.answers[0].said.text for question in asked_of(application)] == ["Weighed it."]
    assert beno.answer(1, "2026-01", what="text", text="Another month's").status_code == 404
    assert ada.get("/notes/questions").status_code == 401
    stranger = application.app.test_client()
    assert stranger.get(LIST, headers=beno.fields, base_url=f"http://{LISTEN}").status_code == 302
    for path in (f"{LOOKS}/ask", f"{LIST}/1/withdraw", f"{LIST}/1/remove"):
        assert stranger.post(path, headers=beno.fields, base_url=f"http://{LISTEN}").status_code == 403


def test_whoever_takes_a_slot_over_reads_nothing_of_it(application: Application, ada: Person, beno: Asked) -> None:
    asks(ada)
    told_office(application, (DESK_KEY, "handover,8,1,7,3,2026-03\n"))
    anna = Asked(application, ANNA)
    assert anna.questions().json == {"questions": []}
    assert anna.answer(1, what="text", text="Mine").status_code == 404
    assert beno.answer(1, what="confirmed", receipt=3).json == {"answer": 1}
    assert anna.questions().json == {"questions": []}


def test_keys_are_written_nowhere_and_the_office_has_nothing_of_it(
    application: Application, ada: Person, beno: Asked, tmp_path: Path, capfd: pytest.CaptureFixture[str]
) -> None:
    asks(ada)
    assert beno.answer(1, what="text", text="Weighed it.").status_code == 200
    files = {path: path.read_bytes() for path in tmp_path.rglob("*") if path.is_file()}
    in_room = {it: data for it, data in files.items() if (tmp_path / "room") in it.parents}
    assert [it.name for it, data in files.items() if b"Weighed it." in data] == ["field-questions.db"]
    assert not any(BENO.encode() in data for data in in_room.values()) and BENO not in "".join(capfd.readouterr())
    assert (tmp_path / "room/field-questions.db").stat().st_mode & 0o077 == 0


# ---- what becomes of a question


def test_who_was_quicker_is_told_and_what_was_typed_stays(application: Application, ada: Person) -> None:
    ben = application.person(BEN)
    form, late = ada.form(LOOKS, "/looks/ask"), ben.form(LOOKS, "/looks/ask")
    ada.give(form, text=STILL)
    answer = ben.give(late, text="Which brand?")
    assert answer.status_code == 409 and 'value="Which brand?"' in answer.text
    assert re.search(
        f"Ada asked this in the meantime [(][^:]+:[0-9]+[^:]*[)]: {re.escape(STILL)}", words_of(answer.text)
    )
    assert [question.text for question in asked_of(application)] == [STILL]
    # (the page that answered shows it: its form asks anew)
    assert asks(ben, "Which brand?").status_code == 303
    assert [(question.text, question.state, question.next) for question in asked_of(application)] == [
        (STILL, WITHDRAWN, 2),
        ("Which brand?", OPEN, 0),
    ]
    assert "Ben replaced the question with another one" in ben.words(LIST)


def test_a_question_is_withdrawn_and_a_late_answer_is_kept(application: Application, ada: Person, beno: Asked) -> None:
    asks(ada)
    ben = application.person(BEN)
    late = ben.form(LIST, "/withdraw")
    assert ada.fill(LOOKS, "/withdraw").headers["Location"] == f"{LOOKS}#look-8-1"
    assert beno.questions().json == {"questions": []} and "Ada withdrew the question" in ada.words(LOOKS)
    answer = ben.give(late)
    assert answer.status_code == 409 and "Ada changed this after your page was loaded" in words_of(answer.text)
    assert beno.answer(1, what="text", text="I was on my way").json == {"answer": 1}
    words = ada.words(LIST)
    assert "I was on my way" in words and "Ada withdrew the question" in words
    assert steps(application)[1] == (ADA, "withdrew question 1 to collector 8, 2026-02")


def test_a_question_that_was_answered_meanwhile_isn_t_withdrawn(
    application: Application, ada: Person, beno: Asked
) -> None:
    asks(ada)
    forms = [ada.form(page, "/withdraw") for page in (LOOKS, LIST)]
    beno.answer(1, what="confirmed", receipt=3)
    for form in forms:
        answer = ada.give(form)
        assert answer.status_code == 409 and "Collector 8 answered this in the meantime" in words_of(answer.text)
    assert [question.state for question in asked_of(application)] == [ANSWERED]


def test_the_desk_removes_one_for_good(application: Application, ada: Person, beno: Asked, tmp_path: Path) -> None:
    asks(ada, "Was it Mr Grey who said so?")
    beno.answer(1, what="text", text="Mr Grey said so")
    ben = application.person(BEN)
    form = ben.form(LIST, "/remove")
    assert ada.fill(LIST, "/remove").headers["Location"] == LIST
    again = ben.give(form)
    assert again.status_code == 409 and "Ada changed this after your page was loaded" in words_of(again.text)
    assert "No questions for this month." in ada.words(LIST)
    assert b"Mr Grey" not in (tmp_path / "room/field-questions.db").read_bytes()
    assert beno.answer(1, what="text", text="Mr Grey").status_code == 404


def test_a_price_that_has_changed_isn_t_asked_about(application: Application, ada: Person) -> None:
    form = ada.form(LOOKS, "/looks/ask")
    corrected(application, 260)
    application.tried(application.person(BEN), MONTH)
    answer = ada.give(form, text=STILL)
    assert answer.status_code == 409 and f'value="{STILL}"' in answer.text
    assert asked_of(application) == []


def test_a_price_whose_question_would_go_at_once_isn_t_asked_about(
    cpi: Cpi, tmp_path: Path, monkeypatch: pytest.MonkeyPatch
) -> None:
    """One month is kept: by March 2026 a question about February would be gone within the hour."""
    with applied(cpi, surveys.small(cpi, tmp_path), tmp_path / "room", Chosen(1)) as application:
        ada = application.person(ADA)
        application.tried(ada, MONTH)
        assert application.desk.questions
        monkeypatch.setattr(application.desk.questions, "_clock", Clock(JANUARY + 45 * DAY))
        answer = asks(ada)
        assert answer.status_code == 409 and f'value="{STILL}"' in answer.text
        assert "Questions about prices before March 2026 are no longer kept, so nothing was asked." in words_of(
            answer.text
        )
        assert asked_of(application) == [] and steps(application) == []
        monkeypatch.setattr(application.desk.questions, "_clock", Clock(JANUARY + 44 * DAY))
        assert asks(ada).status_code == 303


def test_a_log_that_is_full_lets_nothing_be_asked_or_answered(
    application: Application, ada: Person, beno: Asked, monkeypatch: pytest.MonkeyPatch
) -> None:
    asks(ada)

    def full(_line: bytes) -> None:
        raise Fault("the disk is full")

    monkeypatch.setattr(application.desk.log, "_write", full)
    answer = asks(ada, "Which brand?")
    assert answer.status_code == 503 and 'value="Which brand?"' in answer.text
    assert beno.answer(1, what="text", text="No").status_code == 503
    assert ada.fill(LOOKS, "/withdraw").status_code == 503 and ada.fill(LIST, "/remove").status_code == 503
    assert [(question.text, question.state) for question in asked_of(application)] == [(STILL, OPEN)]


# ---- what is taken


def test_a_question_has_a_text_of_so_many_letters(application: Application, ada: Person) -> None:
    for text, told in (
        (" ", "The question is empty"),
        ("x" * (MOST_LETTERS + 1), "A question can have at most 500 characters"),
    ):
        answer = asks(ada, text)
        assert answer.status_code == 400 and told in words_of(answer.text)
    assert asks(ada, "\U0001d11e" * MOST_LETTERS).status_code == 303
    for number in ("", "x", "-1", "9" * 11):
        assert ada.give(ada.form(LOOKS, "/looks/ask"), text="x", question=number).status_code == 400
    assert ada.post(f"{LIST}/{'9' * 30}/withdraw").status_code == 404


WRONG: tuple[tuple[str, dict[str, object]], ...] = (
    ("what", {"text": "Yes"}),
    ("what", {"what": "yes", "text": "Yes"}),
    ("text", {"what": "text", "text": " \n "}),
    ("text", {"what": "text", "text": "x" * (MOST_LETTERS + 1)}),
    ("text", {"what": "confirmed", "receipt": 3, "text": "bell\u0007"}),
    ("receipt", {"what": "confirmed"}),
    ("receipt", {"what": "confirmed", "receipt": "\u0663"}),
    ("receipt", {"what": "corrected", "receipt": "3.0"}),
)


def test_an_answer_is_read_rightly_or_refused_with_what_is_wanted(ada: Person, beno: Asked) -> None:
    asks(ada)
    for wrong, said in WRONG:
        answer = beno.answer(1, **said)
        assert (answer.status_code, answer.json["fault"], answer.json["field"]) == (400, "form", wrong), said
        assert answer.json["wanted"]
    assert beno.answer(1, what="text", text="x" * 400_000).status_code == 413
    assert len(beno.questions().json["questions"]) == 1


def test_hostile_texts_are_text_on_both_sides(application: Application, ada: Person, beno: Asked) -> None:
    for number, text in enumerate(HOSTILE, 1):
        assert asks(ada, text, f"{LOOKS}?show=all").status_code == 303
        assert beno.questions().json["questions"][0][6] == " ".join(text.split())
        assert beno.answer(number, what="text", text=text).json == {"answer": number}
    for path in (LOOKS, LIST):
        page = OWN_SCRIPTS.sub("", ada.get(path).text)
        assert page.count("asked, ") == len(HOSTILE) == page.count("<p><b>Answered"), path
        assert "<script" not in page and "<img src=x" not in page and "<svg/" not in page and "onfocus='" not in page
        assert html.escape(HOSTILE[0]) in page


# ---- in the list of prices


def test_prices_are_filtered_by_what_became_of_the_question(application: Application, ada: Person, beno: Asked) -> None:
    looks = [look(1, 1), look(1, 2), look(2, 3)]
    asked = {(1, 1): OPEN, (2, 3): ANSWERED}

    def of(word: str) -> list[tuple[int, int]]:
        part = part_of(looks, set(), chosen_of({"asked": word}), asked)
        assert part.number == len(part.looks)
        return [it.slot for it in part.looks]

    assert of("some") == [(1, 1), (2, 3)] and of("open") == [(1, 1)] and of("answered") == [(2, 3)]
    assert of("") == of("x") == [(1, 1), (1, 2), (2, 3)]
    assert "0 to look at" in ada.words(f"{LOOKS}?asked=some")
    asks(ada)
    assert "1 to look at" in ada.words(f"{LOOKS}?asked=open") and "0 to look at" in ada.words(f"{LOOKS}?asked=answered")
    beno.answer(1, what="confirmed", receipt=3)
    assert "0 to look at" in ada.words(f"{LOOKS}?asked=open") and "1 to look at" in ada.words(f"{LOOKS}?asked=answered")
    # (the form keeps the filter)
    assert asks(ada, "And the brand?", f"{LOOKS}?asked=some").headers["Location"] == f"{LOOKS}?asked=some#look-8-1"


# ---- the file


PRICE = Of(8, 1, 202601, 252, 3)


def nothing(_number: int) -> None:
    """No log."""


def test_so_many_questions_wait_for_an_answer(tmp_path: Path, monkeypatch: pytest.MonkeyPatch) -> None:
    monkeypatch.setattr(field_questions, "MOST_OPEN", 2)
    monkeypatch.setattr(field_questions, "MOST_OPEN_IN_ALL", 3)
    kept = FieldQuestions(tmp_path / "questions.db", AGES)

    def ask(collector: int, slot: int, shown: int = 0) -> int:
        return kept.ask(PRICE._replace(collector=collector, slot=slot), ADA, STILL, shown, nothing)

    assert [ask(8, 1), ask(8, 2)] == [1, 2]
    with pytest.raises(TooManyOpen) as of_one:
        ask(8, 3)
    assert (of_one.value.most, of_one.value.is_of_all) == (2, False)
    assert ask(8, 2, 2) == 3 and ask(7, 1) == 4  # (one takes the place of another)
    with pytest.raises(TooManyOpen) as of_all:
        ask(9, 1)
    assert (of_all.value.most, of_all.value.is_of_all) == (3, True)
    kept.answer(kept.of_collector(7, 202601, 4), Said(TEXT, 0, "", 0, "Yes"), nothing)
    assert ask(9, 1) == 5
    kept.close()


def test_so_many_answers_are_kept(tmp_path: Path) -> None:
    kept = FieldQuestions(tmp_path / "questions.db", AGES)
    kept.ask(PRICE, ADA, STILL, 0, nothing)
    question = kept.of_collector(8, 202601, 1)
    for at in range(MOST_ANSWERS):
        assert kept.answer(question, Said(TEXT, 0, "", 0, f"Yes {at}"), nothing) == at + 1
    assert kept.answer(question, Said(TEXT, 0, "", 0, "Yes 3"), nothing) == 4
    with pytest.raises(TooManyAnswers):
        kept.answer(question, Said(TEXT, 0, "", 0, "Yes"), nothing)
    with pytest.raises(NoQuestion):
        kept.of_collector(7, 202601, 1)
    with pytest.raises(Changed):
        kept.withdraw(202601, 1, ADA, nothing)
    kept.close()


def test_questions_go_by_themselves_and_their_bytes_too(tmp_path: Path) -> None:
    """Thirteen months are kept: in January 2026 those from January 2025 on."""
    clock = Clock(JANUARY)
    kept = FieldQuestions(tmp_path / "questions.db", 13, clock)
    for at, month in enumerate((202501, 202502), 1):
        of = PRICE._replace(month=month)
        kept.ask(of, ADA, f"Mr Grey {at}", 0, nothing)
        kept.answer(kept.of_collector(8, month, at), Said(CONFIRMED, 3, "price", 252, f"Mr Grey {at}"), nothing)
    clock.now += 17 * DAY
    assert kept.forget() == 1 and not kept.of_month(202501) and len(kept.of_month(202502)) == 1
    clock.now += 28 * DAY
    kept.close()
    again = FieldQuestions(tmp_path / "questions.db", 13, clock)
    assert not again.of_month(202502)
    again.close()
    assert b"Mr Grey" not in (tmp_path / "questions.db").read_bytes()
    with sqlite3.connect(tmp_path / "questions.db") as link:
        assert link.execute("SELECT count(*) FROM answer").fetchall() == [(0,)]
    link.close()


def test_a_file_that_isn_t_theirs_is_refused(tmp_path: Path) -> None:
    (tmp_path / "questions.db").write_bytes(b"something else" * 100)
    with pytest.raises(Fault, match="The questions to collectors in .* can't be read: "):
        FieldQuestions(tmp_path / "questions.db", 13)


def test_a_disk_without_room_is_a_fault_and_nothing_is_kept(tmp_path: Path) -> None:
    kept = FieldQuestions(tmp_path / "questions.db", AGES)
    kept._link.execute("PRAGMA max_page_count = 10")
    with pytest.raises(Fault, match="full"):
        kept.ask(PRICE, ADA, "x" * 100_000, 0, nothing)
    assert not kept.of_month(202601) and kept.ask(PRICE, ADA, STILL, 0, nothing) == 1
    kept.close()
