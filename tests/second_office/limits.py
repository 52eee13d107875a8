"""The limits of numbers by docs/reference/OFFICE.md and docs/reference/FORMATS.md, one range for each that the documents name.

A number is written without a sign, so a range that begins at 0 has no least here. A range can be changed while the
second office runs: a test does so, to see that a wrong limit is found.
"""

from __future__ import annotations

ENDLESS = float("inf")


class Range:
    """Whole numbers from the least to the most."""

    def __init__(self, least: float = -ENDLESS, most: float = ENDLESS) -> None:
        self.least, self.most = least, most

    def __contains__(self, number: float) -> bool:
        return self.least <= number <= self.most


YEAR = Range(2000, 2199)  # of a month
YEAR_OF_PLAN = Range(2000, 2199)
CIVIL_YEAR = Range(2000, 2199)
MONTH_OF_YEAR = Range(1, 12)
HOUR = Range(most=23)
MINUTE = Range(most=59)
MOMENT = Range(most=9_999_999_999)

REVISION = Range(1, 9)  # that is asked for
REVISIONS = Range(most=9)  # of a month
COLLECTOR = Range(1, 9999)
SLOT = Range(1, 400)
OUTLET = Range(1, 999_999)
PRICE = Range(1, 100_000_000)
RECEIPT = Range(most=1_000_000)
LOW = Range(1, 1000)
HIGH = Range(1000, 10_000)

DIVISION = Range(1, 13)
AGGREGATE = Range(least=1)  # its number in the subclass, of two digits
ROW_OF_WEIGHT = Range(most=1_000_000)
WEIGHT = Range(least=1)  # of an aggregate in a plan
SUM_OF_WEIGHTS = Range(1_000_000, 1_000_000)
REFERENCE_MONTHS = Range(most=1)
ROWS_OF_PLAN = Range(most=20_000)
ROWS_OF_IMPORT = Range(most=20_000)

CHARACTERS_OF_ITEM = Range(1, 12)
CHARACTERS_OF_KEY = Range(32, 32)
BYTES_OF_NAME = Range(1, 400)
BYTE_OF_NAME = Range(0x20, 0x7E)  # of those that are a character each

TICKS = Range(1, 10**15)  # of a carried price
WEIGHT_IN_USE = Range(1, 10**9)
INDEX = Range(1, 10**13)
LEVEL = Range(1, 10**15)

HEAD = Range(most=8192)  # bytes
FIELDS = Range(most=64)
BODY = Range(most=65_536)  # bytes
