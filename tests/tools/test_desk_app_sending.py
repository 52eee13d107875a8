"""Records that the desk's application sends: none twice, none lost, whatever is killed, and whenever."""

from __future__ import annotations

import threading
from collections.abc import Iterator, Sequence
from pathlib import Path
from typing import Any, Optional

import pytest

from . import surveys
from cpi_tools.desk.records.desk_log import ANSWERED, LOOKED_UP, NOT_SENT, SENT, DeskLog, Entry
from cpi_tools.desk.serve.watched_office import MOST_BYTES, NoReply, NotSent, Office, messages_of
from cpi_tools.desk.records.sending import Sender, looked_up
from cpi_tools.office.program import Cpi, Reply, record
from cpi_tools.office.stored import read_copy
from cpi_tools.text.terminal import Fault
from cpi_tools.office.copying import private_copy
from .desk_apps import ADA, applied
from lib.served import free_port
from .loads import DESK_KEY, served

OUTLET, OTHER = ["outlet", "12", "Harbour"], ["outlet", "13", "Market, east"]


@pytest.fixture
def small(cpi: Cpi, tmp_path: Path) -> Path:
    return surveys.small(cpi, tmp_path)


class Losing(Office):
    """An office whose replies to records get lost, after it carried them out or before it was asked."""

    def __init__(self, url: str):
        super().__init__(url)
        self.lost, self.sent = "", list[list[str]]()

    def carry_out(self, key: str, records: Sequence[Sequence[str]]) -> list[Reply]:
        if self.lost == "before":
            raise NoReply("lost before")
        self.sent += [[*fields] for fields in records]
        replies = super().carry_out(key, records)
        if self.lost == "after":
            raise NoReply("lost after")
        return replies


class Stand:
    """A sender over an office that is served."""

    def __init__(self, cpi: Cpi, file: Path, log: Path, port: int):
        self.cpi, self.file, self.port = cpi, file, port
        self.office, self.log = Losing(f"http://127.0.0.1:{port}"), DeskLog(log)
        self.sender = Sender(self.office, self.log, self.look_up)

    def look_up(self, records: Sequence[Sequence[str]], since: int) -> list[Reply]:
        with private_copy(self.file) as copy:
            return looked_up(self.cpi, copy, records, since)

    def kinds(self) -> list[str]:
        return [entry.what for entry in self.log.entries]


@pytest.fixture
def stand(cpi: Cpi, small: Path, tmp_path: Path) -> Iterator[Stand]:
    port = free_port()
    with served(cpi, small, port):
        stand = Stand(cpi, small, tmp_path / "log", port)
        yield stand
        stand.log.close()


def outlets(file: Path) -> dict[int, str]:
    with private_copy(file) as copy, read_copy(copy) as office:
        return office.outlets()


def test_a_record_is_in_the_log_before_and_its_reply_afterwards(stand: Stand, small: Path) -> None:
    assert stand.sender.send(ADA, DESK_KEY, [OUTLET, ["outlet", "10", "Other"]]) == [{"done": True}, {"refused": 40}]
    assert stand.kinds() == [SENT, ANSWERED] and stand.log.entries[0].records[0] == OUTLET
    assert outlets(small)[12] == "Harbour"


def test_a_reply_that_is_lost_afterwards_is_found_and_nothing_is_sent_twice(stand: Stand) -> None:
    stand.office.lost = "after"
    assert stand.sender.send(ADA, DESK_KEY, [OUTLET]) == [{"stands": True}]
    stand.office.lost = ""
    assert stand.sender.send(ADA, DESK_KEY, [OTHER]) == [{"done": True}]
    assert stand.office.sent == [OUTLET, OTHER]
    assert stand.kinds() == [SENT, LOOKED_UP, SENT, ANSWERED]


def test_a_record_that_never_came_is_known_to_be_absent(stand: Stand) -> None:
    stand.office.lost = "before"
    assert stand.sender.send(ADA, DESK_KEY, [OUTLET]) == [{"absent": True}]
    assert not stand.log.open_entries() and not stand.office.sent


def test_without_an_office_nothing_is_sent_and_the_log_says_so(cpi: Cpi, small: Path, tmp_path: Path) -> None:
    stand = Stand(cpi, small, tmp_path / "log", free_port())
    with pytest.raises(NotSent, match="can't be reached"):
        stand.sender.send(ADA, DESK_KEY, [OUTLET])
    assert stand.kinds() == [SENT, NOT_SENT]
    stand.log.close()


def test_a_disk_that_fails_behind_a_reply_or_between_two_messages(
    stand: Stand, small: Path, monkeypatch: pytest.MonkeyPatch
) -> None:
    append, rows = DeskLog.append, [["outlet", str(number), "x" * 40_000] for number in (21, 22)]

    def failing(log: DeskLog, by: str, what: str, *more: Any, **named: Any) -> Entry:
        if len(log.entries) >= 1:
            raise Fault("the disk is full")
        return append(log, by, what, *more, **named)

    monkeypatch.setattr(DeskLog, "append", failing)
    assert len(messages_of(rows)) == 2
    refused: Reply = {"refused": 10}
    assert stand.sender.send(ADA, DESK_KEY, rows) == [refused, None]
    monkeypatch.undo()
    assert [it.replies for it in stand.sender.settle(ADA)] == [[{"absent": True, **refused}]]


def test_an_office_that_is_killed_within_a_message(cpi: Cpi, small: Path, tmp_path: Path) -> None:
    """It stands still when the message comes, and is killed: the message was never carried out. The next office
    tells."""
    port = free_port()
    stand = Stand(cpi, small, tmp_path / "log", port)
    with served(cpi, small, port) as process:
        process.send_signal(19)  # (SIGSTOP)
        replies = list[list[Optional[Reply]]]()
        thread = threading.Thread(target=lambda: replies.append(stand.sender.send(ADA, DESK_KEY, [OUTLET])))
        thread.start()
        while not stand.log.entries:
            pass
        process.kill()
        process.wait()
        thread.join()
    if replies and replies[0] == [None]:
        with pytest.raises(Fault):
            stand.sender.send(ADA, DESK_KEY, [OTHER])
    with served(cpi, small, port):
        stand.sender.settle(ADA)
        assert not stand.log.open_entries()
        assert 12 not in outlets(small)
        assert stand.sender.send(ADA, DESK_KEY, [OUTLET]) == [{"done": True}]
    assert outlets(small)[12] == "Harbour"
    stand.log.close()


def test_an_office_that_carries_it_out_late(cpi: Cpi, small: Path, tmp_path: Path) -> None:
    """The reply is given up, and the office goes on afterwards. The look waits for it, so the record is found."""
    port = free_port()
    log = DeskLog(tmp_path / "log")
    office = Office(f"http://127.0.0.1:{port}", 0.5)
    stand = Stand(cpi, small, tmp_path / "other", port)
    sender = Sender(office, log, stand.look_up)
    with served(cpi, small, port) as process:
        process.send_signal(19)  # (SIGSTOP)
        assert sender.send(ADA, DESK_KEY, [OUTLET]) == [None]
        assert [entry.records for entry in log.open_entries()] == [[OUTLET]]
        process.send_signal(18)  # (SIGCONT)
        patient = Sender(Office(f"http://127.0.0.1:{port}"), log, stand.look_up)
        assert [it.replies for it in patient.settle(ADA)] == [[{"stands": True}]]
    log.close()
    stand.log.close()


def test_an_application_that_is_killed_behind_its_line(cpi: Cpi, small: Path, tmp_path: Path) -> None:
    """The line is on the disk, and the record may have been sent or not: the next application looks it up."""
    with applied(cpi, small, tmp_path / "room") as application:
        for fields, is_sent in ((OUTLET, True), (OTHER, False)):
            entry = application.desk.log.append(ADA, SENT, [fields])
            if is_sent:
                application.desk.office.carry_out(DESK_KEY, [fields])
            application.again()
            person = application.person("Ben")
            assert "Records were sent, but no reply came" in person.get("/records").text
            assert person.post("/log/settle").status_code == 303
            last = application.desk.log.entries[-1]
            assert (last.of, last.by, last.replies) == (
                entry.number,
                "Ben",
                [{"stands" if is_sent else "absent": True}],
            )
            assert "no reply came" not in person.get("/records").text


DRAWN = [
    (["item", "TEA", "Tea", "100 g", "500", "2000"], None),
    (["outlet", "12", "Harbour"], None),
    (["collector", "9", "9" * 32], None),
    (["calendar", "2026-03", "4000", "5000", "6000"], None),
    (["assign", "7", "3", "10", "RICE", "2026-03", "2026-12"], None),
    (["handover", "7", "1", "8", "2", "2026-03"], None),
    (
        [
            "plan",
            "2027",
            "T,00,All items\nT,01,A\nT,01.1,B\nT,01.1.1,C\nT,01.1.1.1,D\nT,01.1.1.1-01,E\nW,01.1.1.1-01,1000000\n",
        ],
        None,
    ),
    (["freeze", "2026-02", "01.1.1.2-01"], 4000),
]


@pytest.mark.parametrize(("fields", "at"), DRAWN, ids=[it[0][0] for it in DRAWN])
def test_each_record_is_absent_before_and_stands_afterwards(
    cpi: Cpi, small: Path, fields: list[str], at: Optional[int]
) -> None:
    logged = [*fields[:2], "(key)"] if fields[0] == "collector" else fields
    assert looked_up(cpi, small, [logged], 3600) == [{"absent": True}]
    assert cpi.replay([record(at or 3600, "desk", *fields)], db=small) == [{"done": True}]
    assert looked_up(cpi, small, [logged], 3600) == [{"stands": True}]


def test_another_content_is_absent_with_its_refusal(cpi: Cpi, small: Path) -> None:
    assert looked_up(cpi, small, [["outlet", "10", "Other"]], 3600) == [{"absent": True, "refused": 40}]
    assert looked_up(cpi, small, [["freeze", "2026-02"]], 3600) == [
        {"absent": True, "refused": 49, "fault": 2, "code": "01.1.1.2-01"}
    ]


def test_a_freeze_of_before_isn_t_the_one_that_was_sent(cpi: Cpi, small: Path) -> None:
    fields = ["freeze", "2026-02", "01.1.1.2-01"]
    assert cpi.replay([record(4000, "desk", *fields)], db=small) == [{"done": True}]
    assert looked_up(cpi, small, [fields], 4001) == [{"absent": True, "refused": 50}]
    assert looked_up(cpi, small, [fields[:2]], 4000) == [{"absent": True, "refused": 50}]


def test_messages_have_room_for_what_they_hold() -> None:
    rows = [["outlet", str(number), "x" * 1000] for number in range(1, 200)]
    messages = messages_of(rows)
    assert [fields for message in messages for fields in message] == rows and len(messages) == 4
    with pytest.raises(Fault, match="at most 65,536"):
        messages_of([["plan", "2027", "x" * MOST_BYTES]])
