"""The desk's questions to collectors about single prices, with the answers, in a separate SQLite file next to the
office's.

A question is of one price: the collector, the slot, the month and the receipt. At most one of a slot and month is open:
another one takes its place. Whoever reads questions names whose they are to be, so a collector is never handed
another's. An answer is kept whenever it comes, even to a question that has been withdrawn. The desk's log gets each
change before it is made.

The words for what has become of a question to a collector.
"""

from __future__ import annotations

import hashlib
import json
import sqlite3
from collections.abc import Callable, Sequence
from typing import Any, NamedTuple, Optional

from ...office.quote_marks import mark_text
from ...office.stored import Frozen
from ...text.message import Message, message as _, moment_of
from ...text.others import of_others
from .field_notes import FieldFile
from .field_limits import MOST_ANSWERS, MOST_OPEN, MOST_OPEN_IN_ALL

SCHEMA = """
CREATE TABLE IF NOT EXISTS question (
  number INTEGER PRIMARY KEY AUTOINCREMENT, collector INTEGER NOT NULL, slot INTEGER NOT NULL, month INTEGER NOT NULL,
  price INTEGER NOT NULL, receipt INTEGER NOT NULL, at INTEGER NOT NULL, by TEXT NOT NULL, text TEXT NOT NULL,
  gone_at INTEGER NOT NULL DEFAULT 0, gone_by TEXT NOT NULL DEFAULT '', next INTEGER NOT NULL DEFAULT 0
);
CREATE TABLE IF NOT EXISTS answer (
  number INTEGER PRIMARY KEY AUTOINCREMENT, question INTEGER NOT NULL, at INTEGER NOT NULL, what TEXT NOT NULL,
  receipt INTEGER NOT NULL, mark TEXT NOT NULL, value INTEGER NOT NULL, text TEXT NOT NULL, digest TEXT NOT NULL,
  UNIQUE (question, digest)
);
CREATE INDEX IF NOT EXISTS of_slot ON question (month, collector, slot);
CREATE INDEX IF NOT EXISTS of_collector ON question (collector, gone_at);
"""
COLUMNS = "number, collector, slot, month, price, receipt, at, by, text, gone_at, gone_by, next"
IS_OPEN = "gone_at = 0 AND NOT EXISTS (SELECT 1 FROM answer WHERE answer.question = question.number)"

CONFIRMED, CORRECTED, TEXT = "confirmed", "corrected", "text"
"""The kinds of answers: the price is right, another one is stored in its place, or a text only."""

OPEN, ANSWERED, WITHDRAWN = "open", "answered", "withdrawn"
"""The states of a question."""


class Of(NamedTuple):
    """The price that a question is of: whose, its slot and month, the price in minor units, and its receipt."""

    collector: int
    slot: int
    month: int
    price: int
    receipt: int


class Said(NamedTuple):
    """A collector's answer: CONFIRMED, CORRECTED or TEXT; the office's receipt, its mark, or the reason why there is no
    price, and the price in minor units (0 and empty for TEXT); a text."""

    what: str
    receipt: int
    mark: str
    value: int
    text: str


class Answer(NamedTuple):
    """An answer that is kept: its number, when it came in seconds since 1970 UTC, and what it says."""

    number: int
    at: int
    said: Said


class Question(NamedTuple):
    """A question that is kept: its number, the price that it is of, when it was asked in seconds since 1970 UTC, by whom,
    and its text; when and by whom it was taken back, 0 and empty if it wasn't, and the number of the one in its place, 0
    for none; and its answers, the first ones first."""

    number: int
    of: Of
    at: int
    by: str
    text: str
    gone_at: int
    gone_by: str
    next: int
    answers: tuple[Answer, ...] = ()

    @property
    def state(self) -> str:
        """OPEN, ANSWERED or WITHDRAWN: an answer counts, whenever it came."""
        if self.answers:
            return ANSWERED
        return WITHDRAWN if self.gone_at else OPEN


class Changed(Exception):
    """The latest question of a slot and month isn't the question that a page showed; `now` is the latest one."""

    def __init__(self, now: Optional[Question]):
        super().__init__(now)
        self.now = now


class TooManyOpen(Exception):
    """So many questions are open: of the collector, or of all."""

    def __init__(self, most: int, is_of_all: bool):
        super().__init__(most)
        self.most, self.is_of_all = most, is_of_all


class TooManyAnswers(Exception):
    """A question has MOST_ANSWERS answers."""


class NoQuestion(Exception):
    """That collector has no such question."""


Logged = Callable[[int], object]
"""Writes a step with a question into the desk's log, with the question's number; an exception undoes the change."""


class FieldQuestions(FieldFile):
    """The file of the questions."""

    SCHEMA = SCHEMA

    def _unreadable(self, **places: object) -> Message:
        return _("The questions to collectors in {path} can't be read: {fault}", **places)

    def _unusable(self, **places: object) -> Message:
        return _("The questions to collectors in {path} can't be read or written: {fault}", **places)

    # ---- the desk

    def ask(self, of: Of, by: str, text: str, shown: int, logged: Logged) -> int:
        """Keeps a question in the place of an open one of its slot and month; its number. `shown` is the number of the
        latest one that its person has seen, 0 for none. Raises Changed, TooManyOpen or Fault."""
        now = int(self._clock())
        with self._changing() as link:
            latest = _latest(link, of)
            if (latest.number if latest else 0) != shown:
                raise Changed(latest)
            is_replaced = latest is not None and latest.state == OPEN
            _count_open(link, of.collector, int(is_replaced))
            row = (*of, now, by, text)
            columns = "collector, slot, month, price, receipt, at, by, text"
            made = link.execute(f"INSERT INTO question ({columns}) VALUES (?, ?, ?, ?, ?, ?, ?, ?)", row)
            assert made.lastrowid is not None
            if is_replaced:
                gone = "UPDATE question SET gone_at = ?, gone_by = ?, next = ? WHERE number = ?"
                link.execute(gone, (now, by, made.lastrowid, shown))
            logged(made.lastrowid)
            return made.lastrowid

    def withdraw(self, month: int, number: int, by: str, logged: Logged) -> None:
        """Takes an open question back. Raises Changed if it isn't open any more, or Fault."""
        with self._changing() as link:
            now = _one(link, "month = ? AND number = ?", month, number)
            if now is None or now.state != OPEN:
                raise Changed(now)
            link.execute(
                "UPDATE question SET gone_at = ?, gone_by = ? WHERE number = ?", (int(self._clock()), by, number)
            )
            logged(number)

    def remove(self, month: int, number: int, logged: Logged) -> None:
        """Removes a question of a month with its answers for good. Raises Changed if it isn't there, or Fault."""
        with self._changing() as link:
            if link.execute("DELETE FROM question WHERE month = ? AND number = ?", (month, number)).rowcount == 0:
                raise Changed(None)
            link.execute("DELETE FROM answer WHERE question = ?", (number,))
            logged(number)

    def of_month(self, month: int) -> list[Question]:
        """The questions of a month, the first ones first. Raises Fault."""
        with self._asking() as link:
            return _some(link, "month = ?", month)

    def latest(self, of: Of) -> Optional[Question]:
        """The latest question of a slot and month; None if there is none. Raises Fault."""
        with self._asking() as link:
            return _latest(link, of)

    def forget(self) -> int:
        """Removes the questions of months that are past for long enough, with their answers; how many. Raises Fault."""
        with self._changing() as link:
            gone = link.execute("DELETE FROM question WHERE month < ?", (self.first_month(),)).rowcount
            link.execute("DELETE FROM answer WHERE question NOT IN (SELECT number FROM question)")
            return gone

    # ---- a collector

    def open_of(self, collector: int) -> list[Question]:
        """The questions of a collector that wait for an answer, the first ones first. Raises Fault."""
        with self._asking() as link:
            return _some(link, f"collector = ? AND month >= ? AND {IS_OPEN}", collector, self.first_month())

    def of_collector(self, collector: int, month: int, number: int) -> Question:
        """A question of a collector's. Raises NoQuestion, of another's too, or Fault."""
        with self._asking() as link:
            question = _one(link, "collector = ? AND month = ? AND number = ?", collector, month, number)
        if question is None:
            raise NoQuestion
        return question

    def answer(self, to: Question, said: Said, logged: Logged) -> int:
        """Keeps an answer; its number. An answer that is sent again keeps its number. Raises NoQuestion if the question
        was removed, TooManyAnswers or Fault."""
        digest = hashlib.sha256(json.dumps([said.what, said.receipt, said.text]).encode()).hexdigest()
        with self._changing() as link:
            now = _one(link, "number = ? AND collector = ?", to.number, to.of.collector)
            if now is None:
                raise NoQuestion
            had = "SELECT number FROM answer WHERE question = ? AND digest = ?"
            answer = link.execute(had, (to.number, digest)).fetchone()
            if answer:
                return int(answer[0])
            if len(now.answers) >= MOST_ANSWERS:
                raise TooManyAnswers
            columns = "question, at, what, receipt, mark, value, text, digest"
            row = (to.number, int(self._clock()), *said, digest)
            made = link.execute(f"INSERT INTO answer ({columns}) VALUES (?, ?, ?, ?, ?, ?, ?, ?)", row)
            logged(to.number)
            assert made.lastrowid is not None
            return made.lastrowid


def _count_open(link: sqlite3.Connection, collector: int, replaced: int) -> None:
    """Raises TooManyOpen if there is no room for another question; `replaced` is how many go for it."""
    counted = f"SELECT count(*) FROM question WHERE {IS_OPEN}"
    for where, given, most in ((" AND collector = ?", (collector,), MOST_OPEN), ("", (), MOST_OPEN_IN_ALL)):
        if link.execute(counted + where, given).fetchone()[0] - replaced >= most:
            raise TooManyOpen(most, not where)


def _latest(link: sqlite3.Connection, of: Of) -> Optional[Question]:
    questions = _some(link, "month = ? AND collector = ? AND slot = ?", of.month, of.collector, of.slot)
    return questions[-1] if questions else None


def _one(link: sqlite3.Connection, where: str, *given: int) -> Optional[Question]:
    questions = _some(link, where, *given)
    return questions[0] if questions else None


def _some(link: sqlite3.Connection, where: str, *given: int) -> list[Question]:
    """The questions that meet a condition, with their answers."""
    rows = link.execute(f"SELECT {COLUMNS} FROM question WHERE {where} ORDER BY number", given).fetchall()
    questions = [Question(row[0], _of(row[1:6]), *row[6:]) for row in rows]
    answers: dict[int, list[Answer]] = {}
    text = "SELECT question, number, at, what, receipt, mark, value, text FROM answer WHERE question"
    chosen = f" IN (SELECT number FROM question WHERE {where}) ORDER BY number"
    for row in link.execute(text + chosen, given) if questions else ():
        answers.setdefault(row[0], []).append(Answer(row[1], row[2], Said(*row[3:])))
    return [question._replace(answers=tuple(answers.get(question.number, ()))) for question in questions]


def _of(row: Sequence[Any]) -> Of:
    collector, slot, month, price, receipt = row
    return Of(collector, slot, month, price, receipt)


def answer_in_words(answer: Answer) -> Message:
    """The content of an answer, except its text."""
    said = answer.said
    entered = mark_text(Frozen("", 0, said.mark, said.value)) if said.mark else ""
    places = {"entered": entered, "receipt": said.receipt, "moment": moment_of(answer.at)}
    if said.what == CONFIRMED:
        # t: {entered} is a mark with its price, such as price 2.10, or the reason why there is none
        return _("Answered {moment}: {entered} is right (receipt {receipt}).", **places)
    if said.what == CORRECTED:
        # t: {entered} is a mark with its price, such as price 2.10, or the reason why there is none
        return _("Answered {moment}: corrected to {entered} (receipt {receipt}).", **places)
    return _("Answered {moment}.", moment=moment_of(answer.at))


def gone_in_words(question: Question) -> Message:
    """The message that a question was taken back, and whether another one replaced it."""
    places = {"name": of_others(question.gone_by), "moment": moment_of(question.gone_at)}
    if question.next:
        return _("{name} replaced the question with another one, {moment}.", **places)
    return _("{name} withdrew the question, {moment}.", **places)
