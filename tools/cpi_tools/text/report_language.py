"""Writes the texts, figures, months and moments of a report's page in the language that was given to its tool, with the
office's clock. `speech` contains the wording of each language."""

from __future__ import annotations

import argparse
import os
import re
from collections.abc import Callable, Mapping
from typing import Any, Optional

from .clocks import UTC, Clock, clock_of
from .exact import with_sign
from .languages import DIGITS, LATIN, MINUS, SOURCE, SPEAKS_ENGLISH, Speech, a_language, list_known, speech_of
from .message import TICKS, Code, Figure, Message, Moment, Money, Month, MonthName, Price, Ticks
from .others import CLOSES, LEFT_TO_RIGHT, Worded, word_text
from .terminal import Fault

VARIABLE, DIGITS_VARIABLE, ZONE_VARIABLE = "CPI_LANGUAGE", "CPI_DIGITS", "CPI_ZONE"
"""The variables of the environment that an office sets for its reports: their language, the digits of all languages but
English, and the clock."""

KINDS = (Code, Figure, Moment, Month, MonthName, Price, Ticks)
"""The kinds of values, besides texts, in a place or a cell."""

FIGURE = re.compile(r"[+\u2212-]?[0-9][0-9,]*(\.[0-9]+)?([ \u202f]?%)?")


def add_speech(words: argparse.ArgumentParser, what: str) -> None:
    """Adds the options `--language` and `--digits` of a tool, with which its page is written."""
    add = words.add_argument
    says = f"the language of {what}, such as fr: one that has a catalogue (else from {VARIABLE}, or en)"
    add("--language", type=a_language, metavar="LANG", help=says)
    says = f"the digits in languages other than English: {', '.join(DIGITS)} (else from {DIGITS_VARIABLE}, or {LATIN})"
    add("--digits", choices=DIGITS, metavar="DIGITS", help=says)


def add_language(words: argparse.ArgumentParser, what: str) -> None:
    """Adds `--language`, `--digits`, and `--zone` for a page with moments."""
    add_speech(words, what)
    says = f"the clock of {what}: a place, or a POSIX rule (else from {ZONE_VARIABLE}, or UTC)"
    words.add_argument("--zone", metavar="ZONE", help=says)


def no_money() -> Optional[Money]:
    """The currency isn't known, so prices are in minor units."""
    return None


class Teller:
    """Writes a report: it has a language, the clock for its moments, and `money`, which gives the office's currency if
    it is known."""

    def __init__(
        self, speech: Speech = SPEAKS_ENGLISH, clock: Clock = UTC, money: Callable[[], Optional[Money]] = no_money
    ):
        self.speech, self.clock, self.money = speech, clock, money

    @property
    def filters(self) -> Mapping[str, Callable[..., Any]]:
        """The filters with which a template writes texts and figures."""
        return {
            "render": self.render,
            "told_cell": self.cell,
            "figure": self.figure,
            "price": self.price,
            "amount": self.amount,
            "whole": self.whole,
            "in_percent": self.in_percent,
            "change": self.change,
            "code": self.code,
            "month_words": self.month,
            "moment": self.moment,
        }

    def render(self, value: object) -> object:
        """A page's value for a text, or for a place in one. A text of others stays as it is."""
        if isinstance(value, Message):
            if value.is_english and self.speech.language.tag == SOURCE:
                return value
            return word_text(self._form(value), **{name: self._place(place) for name, place in value.places.items()})
        if isinstance(value, KINDS):
            return self._place(value)
        return value if isinstance(value, Worded) or not isinstance(value, str) else self.speech.t(value)

    def cell(self, value: object) -> object:
        """A cell of a column of texts; one that isn't a message is a text of others."""
        return self.render(value) if isinstance(value, (Message, *KINDS)) else value

    def _form(self, text: Message) -> str:
        if text.number is None:
            return self.speech.t(text.source[0]) if text.source[0] else ""
        return self.speech.language.ngettext(text.source[0], text.source[1], text.number)

    def _place(self, value: object) -> object:
        if isinstance(value, Message):
            return self.render(value)
        if isinstance(value, Moment):
            return self.moment(value.at)
        if isinstance(value, MonthName):
            return self.month(value.month)
        if isinstance(value, Month):
            return self.month(value)
        if isinstance(value, Code):
            return self.code(value)
        return self.figure(value) if isinstance(value, (Figure, int)) else value

    def figure(self, value: object) -> object:
        """A figure, such as `1,626.5` or `+0.3 %`; anything else stays as it is. A whole number is written without
        thousands separators, since it may be a collector's number."""
        if isinstance(value, (Price, Ticks)):
            return self.price(value)
        text = str(value) if isinstance(value, int) else value
        if not isinstance(text, str) or not FIGURE.fullmatch(text):
            return value
        text = text.replace("-", MINUS)
        if text.endswith("%"):
            return self.in_percent(text.rstrip("% \u202f"))
        return self.code(self.speech.figure(text.replace("-", MINUS)))

    def price(self, value: int) -> object:
        """A price in minor units, or `Ticks`, as an amount with the currency's digits, `31,116.00`; unchanged if the
        currency isn't known."""
        money = self.money()
        if money is None:
            return self.code(self.speech.figure(str(int(value))))
        ticks = value if isinstance(value, Ticks) else value * TICKS
        return self.code(self.speech.figure(money.amount(ticks)))

    def amount(self, value: int) -> object:
        """A price as an amount with the currency's digits; empty if the currency isn't known."""
        return self.price(value) if self.money() else ""

    def whole(self, number: int) -> object:
        """A count with separators, `1,626`."""
        return self.code(self.speech.whole(number))

    def in_percent(self, text: str) -> object:
        """A figure in percent, `12.5 %`."""
        return self.code(self.speech.percent(text))

    def change(self, text: str) -> object:
        """A change in percent with its sign, `+12.5 %`."""
        return self.in_percent(with_sign(text))

    def code(self, value: object) -> object:
        """The code of a node or an item, or a figure, whose characters keep their order."""
        return f"{LEFT_TO_RIGHT}{value}{CLOSES}" if self.speech.language.dir == "rtl" and value else value

    def month(self, month: str) -> str:
        """`January 2026` for `2026-01`."""
        return self.speech.month(month)

    def moment(self, at: int) -> str:
        """`28 January 2026, 09:30 CET` for seconds since 1970 UTC."""
        return self.clock.local(at, self.speech)

    def day(self, at: int) -> str:
        """A moment also with the time in UTC, `28 January 2026, 09:30 CET (08:30 UTC)`."""
        return self.clock.day(at, self.speech)


ENGLISH = Teller()
"""Writes English, with UTC."""


def teller_of(code: str, digits: str = LATIN, clock: Clock = UTC) -> Teller:
    """The Teller of a language. Raises Fault if its catalogue can't be read."""
    return Teller(speech_of(code, digits), clock)


def chosen_speech(chosen: argparse.Namespace) -> Speech:
    """The language and digits of a tool's arguments; by default those of the office, otherwise English and ASCII.
    Raises Fault if the office's settings contain something else."""
    code = chosen.language or os.environ.get(VARIABLE) or SOURCE
    if code not in list_known():
        raise Fault(f"{VARIABLE} is {code!r}, which has no catalogue: one of {', '.join(list_known())}")
    digits = chosen.digits or os.environ.get(DIGITS_VARIABLE) or LATIN
    if digits not in DIGITS:
        raise Fault(f"{DIGITS_VARIABLE} is {digits!r}: wanted is one of {', '.join(DIGITS)}")
    return speech_of(code, digits)


def chosen_teller(chosen: argparse.Namespace) -> Teller:
    """The Teller of a tool: the language and digits of `chosen_speech`, with the clock of the tool's arguments, by
    default the office's clock, otherwise UTC. Raises Fault like `chosen_speech`."""
    speech = chosen_speech(chosen)
    return Teller(speech, clock_of(chosen.zone or os.environ.get(ZONE_VARIABLE) or ""))
