"""A desk's folder as its application keeps it: a log, notes on prices, notes of the field, questions to collectors, and what
waits."""

from __future__ import annotations

from pathlib import Path

from cpi_tools.desk.field import field_questions as question
from cpi_tools.desk.records.desk_log import SAID, DeskLog
from cpi_tools.desk.field.field_notes import FieldNotes, Of, Said
from cpi_tools.desk.field.field_questions import FieldQuestions
from cpi_tools.desk.looks.looks import NOTE, Marks, Price
from cpi_tools.guard.copies.desk_files import seen_in

MONTHS = 1200
"""For so long notes are kept here."""

PHOTO = bytes(range(256)) * 40


class DeskRoom:
    """The folder, and what people do in it. Nothing of it stays open."""

    def __init__(self, path: Path):
        self.path, self.count = path, 0
        path.mkdir(mode=0o700)
        self.say()
        self.note()
        self.field()
        self.ask()
        self.keep("prepared-freeze.json", '{"by": "Ada"}')
        self.keep("rows.json", "{}")
        for name in ("tables/2026-01-at-2026-02-01.csv", "next-year/2027/sheets/items.csv"):
            self.keep(name, f"{name}\n" * 50)

    def say(self, text: str = "") -> None:
        """A line of the log."""
        self.count += 1
        log = DeskLog(self.path / "desk.log")
        log.append("Ada", SAID, text=text or f"step {self.count}")
        log.close()

    def note(self) -> None:
        """A note on a price."""
        self.count += 1
        Marks(self.path / "looks.jsonl").add("Ada", Price(202601, 1, 2, 300), NOTE, f"note {self.count}")

    def field(self, photo: bytes = PHOTO) -> None:
        """A note of the field with a photograph."""
        self.count += 1
        notes = FieldNotes(self.path / "field-notes.db", MONTHS)
        notes.add(Of(1, 2, 202601, self.count), Said(False, "", "", f"note {self.count}", b""), photo)
        notes.close()

    def ask(self) -> None:
        """A question to a collector, with its answer."""
        self.count += 1
        asked = FieldQuestions(self.path / "field-questions.db", MONTHS)
        of, said = question.Of(1, self.count, 202601, 300, 2), question.Said(question.TEXT, 0, "", 0, "yes")
        number = asked.ask(of, "Ada", f"question {self.count}", 0, lambda number: self.say(f"asked question {number}"))
        asked.answer(asked.of_collector(1, 202601, number), said, lambda number: self.say(f"{number} was answered"))
        asked.close()

    def keep(self, name: str, text: str) -> None:
        """A file that is written whole."""
        (self.path / name).parent.mkdir(mode=0o700, parents=True, exist_ok=True)
        (self.path / name).write_text(text)

    @property
    def files(self) -> dict[str, bytes]:
        """All that is copied, by name."""
        return files_of(self.path)


def files_of(folder: Path) -> dict[str, bytes]:
    """The files of a desk's folder, by name."""
    return {name: (folder / name).read_bytes() for name in seen_in(folder)}
