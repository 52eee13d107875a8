"""The coming year in the desk's application: a draft that is made, changed, judged on a copy, and sent."""

from __future__ import annotations

import csv
import re
import time
from pathlib import Path

import pytest

from cpi_tools.office.copying import private_copy
from cpi_tools.desk.year.draft_sheets import Draft, Settings
from cpi_tools.desk.year.drafts import Checked
from cpi_tools.desk.year.year_views import too_long
from cpi_tools.office.stored import StoredOffice, read_copy
from .page_forms import forms_of, with_row
from .desk_apps import ADA, PATIENCE, Application, Person, words_of

RICE, FLOUR = "01.1.1.1-01", "01.1.1.2-01"
PAGE = "/year/2027/"


def waited(application: Application) -> None:
    """Waits for what is done in the background."""
    begun = time.monotonic()
    while application.desk.drafts.running:
        assert time.monotonic() - begun < PATIENCE
        time.sleep(0.01)


def made(application: Application, ada: Person) -> None:
    assert ada.post("/year/make", year="2027").status_code == 303
    waited(application)


def put(person: Person, code: str, /, **cells: str) -> None:
    """Writes into the cells of a weight, and saves the table."""
    assert person.give(with_row(person.form(PAGE, "/2027/put"), code, **cells)).status_code == 303


def judged(application: Application, ada: Person) -> str:
    """The words of the page after the draft was judged."""
    assert ada.post(f"{PAGE[:-1]}/check").status_code == 303
    waited(application)
    return ada.words(PAGE)


def sent(ada: Person) -> str:
    """The words of the page after what was judged was sent."""
    return words_of(ada.follow(ada.fill(PAGE, "/2027/send")).text)


def weights(office: StoredOffice) -> dict[str, int]:
    """Those of the plan of 2027."""
    return next((plan.aggregates() for plan in office.plans() if plan.year == 2027), {})


def test_a_draft_is_what_next_year_makes(application: Application, ada: Person) -> None:
    assert 'value="2027"' in ada.get("/year").text and "Make the draft" in ada.words("/year")
    made(application, ada)
    assert ada.get("/year").headers["Location"] == PAGE
    words = ada.words(PAGE)
    assert "The weights add up to 1,000,000, as they should." in words
    assert "Leave the sample 3 " in words and "New series 3 " in words and "Few series 2 " in words
    assert "7 1 10 Corner shop RICE Rice 01.1.1.1-01 2026-12 its last month is 2026-12" in ada.words(
        f"{PAGE}?sheet=leaving"
    )
    assert "7 3 10 RICE 2026-12 2027-12" in ada.words(f"{PAGE}?sheet=series")
    assert "FLOUR 01.1.1.2-01" in ada.words(f"{PAGE}?sheet=places")
    assert "<b>wheat" not in ada.get(f"{PAGE}?sheet=leaving").text
    rows = [*csv.reader(ada.get(f"{PAGE}weights.csv").text.splitlines())]
    assert [[row[0], *row[2:]] for row in rows] == [
        ["code", "weight_2026", "weight", "source"],
        [RICE, "600000", "600000", ""],
        [FLOUR, "400000", "400000", ""],
    ]
    again = ada.post("/year/make", year="2027")
    assert again.status_code == 409 and "There is already a draft of 2027" in words_of(again.text)
    assert ada.fill(PAGE, "/2027/drop").status_code == 303
    assert application.desk.drafts.years() == [] and ada.get(PAGE).status_code == 404


@pytest.mark.parametrize(
    ("year", "told"), [("2026", "2026-01 is frozen, so 2026 has begun"), ("2029", "no plan of 2028")]
)
def test_a_year_that_can_t_be_drafted_says_why(application: Application, ada: Person, year: str, told: str) -> None:
    ada.post("/year/make", year=year)
    waited(application)
    assert told in ada.words("/year") and application.desk.drafts.years() == []
    refused = ada.post("/year/make", year="next")
    assert refused.status_code == 400 and "next isn't a year like 2027" in words_of(refused.text)


def test_weights_that_don_t_add_up_are_told_and_refused_by_cpi(application: Application, ada: Person) -> None:
    made(application, ada)
    put(ada, RICE, weight="599000")
    assert "The weights add up to 999,000, but should add up to 1,000,000." in ada.words(PAGE)
    words = judged(application, ada)
    assert "What is refused" in words and "classification.csv" in words and "999,000" in words
    assert "Send" not in words.partition("What is refused")[0].partition("Check it")[2]
    put(ada, RICE, weight="60 %")
    assert f"Weights that aren't numbers: {RICE}" in ada.words(PAGE)
    refused = ada.fill(PAGE, "/2027/put", 1, pasted=f"{RICE}\t600000\n09.1.1.1-01\t5\n")
    assert refused.status_code == 400 and "The draft has no code 09.1.1.1-01" in words_of(refused.text)
    assert "09.1.1.1-01\t5" in refused.text


def test_a_draft_is_pasted_judged_and_sent_once(application: Application, ada: Person) -> None:
    made(application, ada)
    ada.fill(PAGE, "/2027/set", unit="percent", decimal=",")
    ada.fill(PAGE, "/2027/reference", reference="2026-01")
    ada.fill(PAGE, "/2027/put", 1, pasted=f"weight;code\n55,5;{RICE}\n44,5;{FLOUR}\n")
    assert ada.post(f"{PAGE[:-1]}/out", sheet="series", cell="8").status_code == 400
    out = [form for form in forms_of(ada.get(f"{PAGE}?sheet=series").text) if ("cell", "8") in form.fields]
    assert ada.give(out[0]).status_code == 303
    ada.fill(
        f"{PAGE}?sheet=series",
        "/2027/put",
        collector="8",
        slot="",
        outlet="11",
        item="FLOUR",
        first="12/2026",
        last="2027-12",
    )
    words = judged(application, ada)
    assert "The weights add up to 100, as they should." in words and "These changes would be accepted 4 " in words
    assert "assign,7,3,10,RICE,2026-12,2027-12" in words and "the plan of 2027 , 13 rows" in words
    (seen,) = re.findall('name="seen" value="([^"]+)"', ada.get(PAGE).text)
    assert "4 records sent and accepted." in sent(ada)
    assert ada.post(f"{PAGE[:-1]}/send", seen=seen).status_code == 409
    with private_copy(application.file) as copy, read_copy(copy) as office:
        assert weights(office) == {RICE: 555_000, FLOUR: 445_000} and office.references() == {2027: 202601}
        slots = {
            (assignment.collector, assignment.slot): (assignment.outlet, assignment.item)
            for assignment in office.assignments()
        }
    assert slots[8, 2] == (11, "FLOUR") and slots[7, 4] == (10, "FLOUR") and len(slots) == 6
    application.again()
    ada = application.person(ADA)
    words = judged(application, ada)
    assert "The office already has all of it." in words and "The office already has 4 rows." in words


def test_the_file_of_weights_can_be_pasted_back(application: Application, ada: Person) -> None:
    made(application, ada)
    text = ada.get(f"{PAGE}weights.csv").text
    changed = text.replace("400000,400000,", "400000,300000,Survey").replace("600000,600000,", "600000,700000,")
    answer = ada.fill(PAGE, "/2027/put", 1, pasted=changed)
    assert answer.status_code == 303
    assert "Ignored columns: title, weight_2026" in words_of(ada.follow(answer).text)
    again = [*csv.reader(ada.get(f"{PAGE}weights.csv").text.splitlines())]
    assert [row[3:] for row in again] == [["weight", "source"], ["700000", ""], ["300000", "Survey"]]
    # (an empty source leaves the one that is there)
    assert ada.fill(PAGE, "/2027/put", 1, pasted=f"{FLOUR};300000;").status_code == 303
    assert "300000,Survey" in ada.get(f"{PAGE}weights.csv").text
    put(ada, FLOUR, source="")
    assert "300000,Survey" not in ada.get(f"{PAGE}weights.csv").text


def test_what_isn_t_carried_out_is_told_and_the_draft_stays(
    application: Application, ada: Person, monkeypatch: pytest.MonkeyPatch
) -> None:
    made(application, ada)
    judged(application, ada)
    send = application.desk.sender.send
    monkeypatch.setattr(
        application.desk.sender,
        "send",
        lambda by, key, records: [*send(by, key, records[:1]), {"refused": 90}, None, None],
    )
    words = sent(ada)
    assert "1 of 4 records accepted. The answers to the others are below." in words
    assert "refused by 90" in words and "not sent" in words
    monkeypatch.undo()
    assert "These changes would be accepted 3 " in judged(application, ada)
    assert "3 records sent and accepted." in sent(ada)


def test_a_draft_keeps_what_it_is_told(tmp_path: Path) -> None:
    folder = tmp_path / "2027"
    (folder / "draft").mkdir(parents=True)
    draft = Draft(folder)
    assert draft.settings() == Settings() and draft.reference() == "" and draft.rows("gone") == []
    draft.put("classification", [["00", "All, of it", ""], [RICE, "Rice", "1000000"]])
    draft.put("classification", [[RICE, "Rice, packed", "1"]])
    assert draft.rows("classification") == [["00", "All, of it", ""], [RICE, "Rice, packed", "1"]]
    draft.put("weights", [], is_whole=True)
    assert draft.rows("weights") == [[RICE, "", ""]] and draft.sum().found == 0
    draft.take_out("classification", ["00", "", ""])
    assert draft.rows("classification") == [[RICE, "Rice, packed", ""]]
    draft.put("series", [["7", "", "1", "RICE", "2026-12", "2027-12"], ["7", "", "2", "RICE", "2026-12", "2027-12"]])
    assert len(draft.rows("series")) == 2
    assert (folder / "draft/series.csv").stat().st_mode & 0o077 == 0


def test_a_plan_that_is_longer_than_a_message_is_told() -> None:
    checked = Checked(0, [], [], [], [["plan", "2027", "T,00,All\n" * 9_000]], {}, 0)  # type: ignore[arg-type]
    # (9 bytes a title and its end, in quotation marks, behind plan,2027 and a comma)
    assert "the plan of 2027, 9,000 rows. It has 81,013 bytes; at most 65,536 are allowed." in too_long(checked)
