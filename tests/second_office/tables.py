"""How the table of a month is printed in one of its revisions, as text and as CSV."""

from __future__ import annotations

from collections.abc import Iterable

from .index import Row, rounded
from .values import Month


def one_decimal(tenths: int) -> str:
    sign = "-" if tenths < 0 else ""
    return f"{sign}{abs(tenths) // 10}.{abs(tenths) % 10}"


def points(millionths: int) -> str:
    return one_decimal(rounded(millionths, 100_000))


def heading(month: Month, revision: int) -> str:
    return f"CPI {month[0]:04}-{month[1]:02}" + (f" revision {revision}" if revision > 1 else "")


def text_of(month: Month, revision: int, rows: Iterable[Row]) -> str:
    lines = [heading(month, revision) + "\n"]
    for code, title, weight, within, level, month_change, year_change, is_imputed in rows:
        annual = "-" if year_change is None else one_decimal(year_change)
        figures = f"{weight:>7} {points(within):>10} {points(level):>12} {one_decimal(month_change):>7} {annual:>7}"
        lines.append(f"{code:<11} {figures} {'i' if is_imputed else '.'} {title}\n")
    return "".join(lines)


def six_decimals(millionths: int) -> str:
    return f"{millionths // 1_000_000}.{millionths % 1_000_000:06}"


def field(text: str) -> str:
    """A field of CSV, in quotation marks where it needs them."""
    return '"' + text.replace('"', '""') + '"' if '"' in text or "," in text else text


def csv_of(rows: Iterable[Row]) -> str:
    lines = []
    for code, title, weight, within, level, month_change, year_change, is_imputed in rows:
        annual = "" if year_change is None else one_decimal(year_change)
        changes = [one_decimal(month_change), annual, "1" if is_imputed else "0"]
        fields = [code, str(weight), six_decimals(within), six_decimals(level), *changes, field(title)]
        lines.append(",".join(fields) + "\n")
    return "".join(lines)
