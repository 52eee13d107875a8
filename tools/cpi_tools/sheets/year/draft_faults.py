"""The reasons why the draft of a coming year can't be made: a line for a terminal, and a sentence for a page."""

from __future__ import annotations

from pathlib import Path

from ...office.program import Reply
from ...office.refusals import refusal_words, sentence
from ...text.message import Code, Message, message as _, month_of, said_as
from ...text.others import of_others
from ...text.terminal import month_text
from ..judge import number_of
from ..record_rows import DESK


def no_plan(year: int) -> Message:
    """Neither the year nor the year before has a plan."""
    return said_as(
        f"there is no plan of {year - 1} that one of {year} could be drafted from",
        _("There is no plan of {before} from which the plan of {year} could be drafted.", before=year - 1, year=year),
    )


def none_frozen() -> Message:
    """No month is frozen."""
    return said_as(
        "no month is frozen yet", _("No month is frozen yet: freeze the first month before you draft a year.")
    )


def has_begun(month: int, year: int) -> Message:
    """A month of the year is frozen."""
    return said_as(
        f"{month_text(month)} is frozen, so {year} has begun: name a later year",
        _("{month} is frozen, so {year} has begun: name a later year.", month=month_of(month), year=year),
    )


def is_there(folder: Path) -> Message:
    """The folder of the draft already exists."""
    return said_as(
        f"{folder} is there already: name a folder that isn't",
        _("{folder} already exists.", folder=of_others(str(folder))),
    )


def no_series(month: int, code: str) -> Message:
    """A month before the year can't be frozen, since an aggregate has no series."""
    places = {"month": month_of(month), "code": Code(code)}
    return said_as(
        f"{month_text(month)} can't be frozen on a copy: {code} has no series in its sample",
        _("{month} can't be frozen on a copy: {code} has no series in its sample.", **places),
    )


def explain_refusal(reply: Reply, what: str, word: str) -> Message:
    """A plan, or the freeze of a month, is refused on the copy; `word` is the word of its record."""
    words = refusal_words(reply, DESK, word)
    return said_as(
        f"{what} is refused on a copy by {number_of(reply)}: {words.because} ({words.do})",
        _("A step on the copy was refused with {number}.", number=number_of(reply)),
        _(sentence(words.because)),
        _(sentence(words.do)),
    )
