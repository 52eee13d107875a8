"""Limits of numbers on the command line; arguments past a limit are refused with status 2.

With accepted arguments the run begins, and ends at once because of an invalid key, or of a folder in place of the file.
"""

from __future__ import annotations

from functools import partial
from typing import Union

from .limit import Limit, count_of, month_of
from .numbers import FAR
from .texts import KEY

REFUSED = "status 2"
BAD_KEY, BAD_MONTH, NO_FILE = "cpi: bad key", "cpi: bad month", "cpi: database failed"
SERVE = "serve --db / --port 8080 --desk-key none --limit 1"
TABLE = "table --db / --month none --form text --at 0 --revision 1"

PORT = "the port P (1 to 65535)"
LIMIT = "N connections (1 to 1,000,000)"
AT = "that moment (0 to 9,999,999,999)"
REVISION = "a number from 1 to 9"
MONTH = "A month is `YYYY-MM`, from 2000-01 to 2199-12."


def words_of(text: str, option: str, value: Union[int, str]) -> list[str]:
    """The arguments of a command, with another value of an option."""
    words = text.split()
    words[words.index(option) + 1] = str(value)
    return words


def of_month(count: int) -> list[str]:
    """The arguments for a table of that month."""
    return words_of(TABLE, "--month", month_of(count))


def of_key(count: int) -> list[str]:
    """The arguments with a key of so many characters."""
    return words_of(SERVE, "--desk-key", "c" * count)


MONTHS = count_of("2000-01"), count_of("2199-12")
NUMBERS = [
    (SERVE, "--port", 1, 65535, BAD_KEY, PORT),
    (SERVE, "--limit", 1, 1_000_000, BAD_KEY, LIMIT),
    (TABLE, "--at", 0, 9_999_999_999, BAD_MONTH, AT),
    (TABLE, "--revision", 1, 9, BAD_MONTH, REVISION),
]
LIMITS: list[Limit[list[str]]] = [
    *(
        Limit(f"cpi {text.split()[0]} {option}", least, most, partial(words_of, text, option), told, REFUSED, REFUSED,
              said, more=FAR)
        for text, option, least, most, told, said in NUMBERS
    ),
    Limit("cpi table --month", *MONTHS, of_month, NO_FILE, BAD_MONTH, BAD_MONTH, MONTH),
    Limit("cpi serve --desk-key", 32, 32, of_key, NO_FILE, BAD_KEY, BAD_KEY, KEY),
]  # fmt: skip
