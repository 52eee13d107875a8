"""The rows of plans, from the sheets classification, places, plans and items. Weights become parts per million."""

from __future__ import annotations

import re
from collections import defaultdict
from collections.abc import Iterator, Sequence
from fractions import Fraction
from typing import NamedTuple, Optional

from ..text.message import Figure, message, message_of
from ..text.others import of_others
from .cells import Origin, Row, SheetFault
from .sheet_numbers import Numbers, decimal, scale_weights
from .record_rows import FIELDS, Sent

WHOLE = {"percent": Fraction(100), "permille": Fraction(1000)}
"""The sum of weights in each unit; money has no such sum."""

MOST_AWAY = Fraction(1, 100)
"""Weights in percent or per mille may add up to this much more or less than the whole, as a part of the whole: rounding
causes a few tenths of a percent. A larger difference is a mistake in a weight."""

OPTION = of_others("--weights")

DATE = re.compile(r"[0-9]{4}-[0-9]{2}(-[0-9]{2}(T.*)?)?")


class Weighed(NamedTuple):
    """A weight as it was given and as it is sent, in parts per million; `share` is the exact weight."""

    origin: Origin
    year: str
    code: str
    given: str
    share: Fraction
    weight: int


class PlanRows:
    """The plans in the sheets, by year."""

    def __init__(self, numbers: Numbers, unit: str):
        """`unit` is the unit of the weights: ppm, permille, percent or money."""
        self._numbers, self._unit = numbers, unit
        self._mended: dict[Origin, str] = {}
        """Codes without their first zero, by their cells."""
        self.faults: list[SheetFault] = []
        self.warnings: list[SheetFault] = []
        self.weighed: list[Weighed] = []

    def by_year(
        self,
        classification: Sequence[Row],
        places: Optional[Sequence[Row]],
        items: Sequence[Row],
        plans: Sequence[Row],
    ) -> dict[str, list[Sent]]:
        """The rows of each year's plan; without a sheet of places, each item gives its own code."""
        rows: dict[str, list[Sent]] = defaultdict(list)
        weights = self._weights(classification)
        years: dict[str, list[str]] = defaultdict(list)
        for row in classification:
            year, code, hint = row["year"], self._code(row), hint_of_code(row["code"])
            rows[year].append(
                Sent(["T", code, row["title"]], row.origin, row.name_columns(FIELDS["T"]), row.name("year"), hint)
            )
            if row["weight"]:
                years[code].append(year)
                weight, hint = weights.get(row.origin, row["weight"]), hint or self._hint_of_weight(row["weight"])
                own = row.name_columns(FIELDS["W"]), row.name("year")
                rows[year].append(Sent(["W", code, weight], row.origin, *own, hint, row["weight"]))
        for year, row in self._place(years, places, items):
            fields = ["I", row["item"], self._code(row)]
            own = row.name_columns(FIELDS["I"]), row.name("year")
            rows[year].append(Sent(fields, row.origin, *own, hint_of_code(row["code"])))
        for row in plans:
            if row["reference"]:
                own = row.name_columns(FIELDS["R"]), row.name("year")
                rows[row["year"]].append(Sent(["R", row["reference"]], row.origin, *own))
        self._tell_mended()
        return {year: rows[year] for year in sorted(rows)}

    def _place(
        self, years: dict[str, list[str]], places: Optional[Sequence[Row]], items: Sequence[Row]
    ) -> Iterator[tuple[str, Row]]:
        """The year and the row of each place: the rows of `places`; without that sheet, each item's code in all its
        years."""
        if places is not None:
            yield from ((row["year"], row) for row in places)
        elif years:
            first = min(year for own in years.values() for year in own)
            for row in items:
                if row["code"]:
                    yield from ((year, row) for year in years.get(self._code(row), [first]))

    # ---- codes

    def _code(self, row: Row) -> str:
        """A code of the classification; if a spreadsheet took `01.1` for a number, its first zero is lost."""
        code = row["code"]
        if code[:1].isdigit() and (len(code) == 1 or code[1] == "."):
            self._mended[row.at("code")] = code
            return f"0{code}"
        return code

    def _tell_mended(self) -> None:
        if self._mended:
            origin, code = next(iter(self._mended.items()))
            because = message_of(
                "{count} code of the classification lacked the leading zero, like {code} here",
                "{count} codes of the classification lacked the leading zero, like {code} here",
                len(self._mended),
                code=of_others(code),
            )
            do = message(
                "nothing, if {code} means {mended}, which is how it is read; a column formatted as text keeps the zero",
                code=of_others(code),
                mended=of_others(f"0{code}"),
            )
            self.warnings.append(SheetFault(origin, because, do))

    # ---- weights

    def _number(self, text: str) -> Optional[Fraction]:
        """The number of a weight; a weight in percent may have a percent sign."""
        if self._unit == "percent" and text.endswith("%"):
            return self._numbers.of(type(text)(text[:-1]) if type(text) is not str else text[:-1])
        return self._numbers.of(text)

    def _hint_of_weight(self, text: str) -> str:
        """Hints about a weight that the program can't read."""
        number = self._number(text)
        if number is None:
            return self._numbers.told_none(text)
        is_whole = self._unit != "ppm" or number.denominator == 1
        if is_whole:
            return ""
        return message(
            "{text} isn't a whole number of parts per million ({option})", text=of_others(text), option=OPTION
        )

    def _weights(self, classification: Sequence[Row]) -> dict[Origin, str]:
        """Weights in parts per million, by their rows; a text that isn't a number, or not a whole one then, isn't among
        them."""
        given: dict[str, list[tuple[Row, Fraction]]] = defaultdict(list)
        unread = set()
        for row in classification:
            number = self._number(row["weight"])
            if number is not None and number >= 0:
                given[row["year"]].append((row, number))
            elif row["weight"]:
                unread.add(row["year"])
        if self._unit == "ppm":
            pairs = (pair for rows in given.values() for pair in rows)
            return {row.origin: str(number) for row, number in pairs if number.denominator == 1}
        for year, rows in sorted(given.items()):
            self._look_at_signs([row for row, _ in rows])
            self._look_at_thousands([row for row, _ in rows])
            total = sum((number for _, number in rows), Fraction(0)) or Fraction(1)
            if year not in unread:
                self._look_at_sum(year, rows, total)
            for (row, number), weight in zip(rows, scale_weights([number for _, number in rows])):
                share = number * 1_000_000 / total
                self.weighed.append(Weighed(row.origin, year, self._code(row), row["weight"], share, weight))
        return {it.origin: str(it.weight) for it in self.weighed}

    def _look_at_signs(self, rows: Sequence[Row]) -> None:
        """Reports a cell with a percent sign among plain numbers, or a plain number among percentages: its unit
        differs."""
        signed = [row for row in rows if row["weight"].endswith("%")]
        plain = [row for row in rows if not row["weight"].endswith("%")]
        if signed and plain:
            odd, others = (signed, plain) if len(signed) <= len(plain) else (plain, signed)
            for row in odd:
                because = message(
                    'the weight is "{weight}", but the weight in row {row} is "{other}"',
                    weight=of_others(row["weight"]),
                    row=others[0].origin.row,
                    other=of_others(others[0]["weight"]),
                )
                do = message("write all weights of the year in one format")
                self.faults.append(SheetFault(row.at("weight"), because, do))

    def _look_at_thousands(self, rows: Sequence[Row]) -> None:
        """Reports `1.250` among whole amounts of money, which have no sum that could show it: it may be 1250."""
        whole = [row for row in rows if row["weight"].isdigit()]
        for row in rows if whole and self._unit == "money" else ():
            if doubt := self._numbers.told_thousands(row["weight"]):
                because = message(
                    "{doubt}, because row {row} has {weight}",
                    doubt=doubt,
                    row=whole[0].origin.row,
                    weight=of_others(whole[0]["weight"]),
                )
                do = message("write it without a thousands separator, or write all weights with their decimals")
                self.faults.append(SheetFault(row.at("weight"), because, do))

    def _look_at_sum(self, year: str, rows: Sequence[tuple[Row, Fraction]], total: Fraction) -> None:
        """Reports weights that don't add up to the whole: a fault if they are far from it."""
        wanted = WHOLE.get(self._unit, total)
        origin = rows[-1][0].at("weight")
        because = message(
            "the weights of {year} add up to {sum}, not to {all}",
            year=of_others(year),
            sum=Figure(decimal(total)),
            all=Figure(wanted),
        )
        if abs(total - wanted) > MOST_AWAY * wanted:
            do = message("look for a lost digit, a row with the total, or another unit ({option})", option=OPTION)
            self.faults.append(SheetFault(origin, because, do))
        elif total != wanted:
            do = message(
                "nothing, if rounding is the reason: the weights are scaled, and {file} lists each of them",
                file=of_others("weights.csv"),
            )
            self.warnings.append(SheetFault(origin, because, do))


def hint_of_code(code: str) -> str:
    """Hints about a code of the classification that the program can't read."""
    if not DATE.fullmatch(code):
        return ""
    return message(
        "the cell contains the date {date}: a spreadsheet turns codes like {code} into dates unless the column is"
        " formatted as text",
        date=of_others(code),
        code=of_others("01.1.1"),
    )
