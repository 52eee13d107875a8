"""Limits of numbers, months and moments in records."""

from __future__ import annotations

from collections.abc import Iterator
from typing import Optional

from .limit import DONE, Limit, Told, count_of, month_of, refused
from .places import KA, KB, KC, Records, each, moving, moving_month, quoted, two_digits

FAR = (2**8 + 1, 2**16 + 1, 2**32 + 1, 2**64 + 1)
"""Numbers that 8, 16, 32 or 64 bits would confuse with 1."""

OF_PLACES = "| collector, slot, outlet | 1 to 9999, 1 to 400, 1 to 999999 |"
REVISION = "| revision of a release | 1 to 9 |"
YEAR = "| year of a plan | 2000 to 2199 |"
MOMENT = "| moment, seconds since 1970 UTC | 0 to 9,999,999,999 |"
PRICE = "| price, minor units | 1 to 100,000,000 |"
TOLERANCE = "| tolerance, per mille of the last price | low 1 to 1000, high 1000 to 10000 |"
RIGHT_MOMENTS = "`opens < closes <= publishes`"

OF_COLLECTORS: dict[str, Told] = {
    f"0,desk,collector,?,{KC}": DONE,
    "0,desk,assign,?,1,10,RICE,2025-12,2026-12": refused(43),
    "0,desk,handover,?,1,8,1,2026-02": refused(43),
    "0,desk,handover,7,1,?,1,2026-02": refused(43),
}
OF_SLOTS: dict[str, Told] = {
    "0,desk,assign,8,?,10,RICE,2025-12,2026-12": DONE,
    f"1500,{KB},quote,?,2026-01,price,5": refused(20),
    "0,desk,handover,8,?,7,3,2026-02": refused(20),
    "0,desk,handover,7,1,8,?,2026-02": DONE,
}
OF_OUTLETS: dict[str, Told] = {
    "0,desk,outlet,?,Shop": DONE,
    "0,desk,assign,7,3,?,RICE,2025-12,2026-12": refused(42),
}
OF_A_FIRST_PRICE: dict[str, Told] = {f"1500,{KA},quote,1,2026-01,price,?": '{"receipt":1}'}
OF_PRICES: dict[str, Told] = {
    f"1500,{KA},quote,1,2026-01,{mark},?,confirm": '{"receipt":3}' for mark in ("price", "comparable", "other")
}
ITEMS = '{"items":[["FLOUR","Flour","1 kg",700,1500],["RICE","Rice","1 kg",1,10000]]}'


def numbers() -> Iterator[Limit[Records]]:
    """Numbers, in each place that has one."""
    yield from each(OF_COLLECTORS, 1, 9999, OF_PLACES, rule="COLLECTOR", more=FAR)
    yield from each(OF_SLOTS, 1, 400, OF_PLACES, rule="SLOT", more=FAR)
    yield from each(OF_OUTLETS, 1, 999_999, OF_PLACES, rule="OUTLET", more=FAR)
    yield from each({"0,public,table,2026-01,text,?": refused(30)}, 1, 9, REVISION, rule="REVISION", more=FAR)
    yield from each({"0,desk,plan,?|": DONE}, 2000, 2199, YEAR, rule="YEAR_OF_PLAN", more=FAR)
    yield from each(OF_A_FIRST_PRICE, 1, 100_000_000, PRICE, rule="PRICE", more=FAR)
    yield from each(OF_PRICES, 1, 100_000_000, PRICE, rule="PRICE", more=FAR, before=quoted(100, 100))
    yield from each({"0,desk,item,TEA,Tea,1 kg,?,1000": DONE}, 1, 1000, TOLERANCE, rule="LOW", more=FAR)
    high: dict[str, Told] = {"0,desk,item,TEA,Tea,1 kg,1000,?": DONE}
    yield from each(high, 1000, 10_000, TOLERANCE, rule="HIGH", more=(*FAR, 20_000))


def moments() -> Iterator[Limit[Records]]:
    """Moments of records and of calendar rows; the moments of a row are in order."""
    yield from each({"?,public,items": ITEMS}, 0, 9_999_999_999, MOMENT, rule="MOMENT", more=FAR)
    yield moving("0,desk,calendar,2026-02,?,9999999999,9999999999", 0, 9_999_999_998, RIGHT_MOMENTS)
    for place in ("0,desk,calendar,2026-02,0,?,9999999999", "0,desk,calendar,2026-02,0,1,?"):
        yield moving(place, 1, 9_999_999_999, RIGHT_MOMENTS, rule="MOMENT", more=FAR)
    yield moving("0,desk,calendar,2026-02,?,2000,3000", 0, 1999, RIGHT_MOMENTS)
    yield moving("0,desk,calendar,2026-02,1000,?,3000", 1001, 3000, RIGHT_MOMENTS)
    yield moving("0,desk,calendar,2026-02,1000,2000,?", 2000, 9_999_999_999, RIGHT_MOMENTS)


# ---- months

MONTH = "| month | 2000-01 to 2199-12 |"
FORM_OF_MONTH = "A month is `YYYY-MM`, from 2000-01 to 2199-12."
IN_ORDER = "a first month after the last is 10"
REFERENCE = "| 10 | there are two reference months"
LATE_REFERENCE = refused(44, fault=10)


def of_freeze(count: int) -> str:
    """The answer to the freeze of a month without a calendar row if nothing was frozen: a December comes first."""
    return refused(21 if month_of(count).endswith("-12") else 46)


def of_reference(count: int) -> str:
    """The answer to a reference month in the plan of 2026."""
    return DONE if count <= count_of("2025-12") else LATE_REFERENCE


OF_MONTHS: dict[str, Told] = {
    "0,public,table,?,text": refused(30),
    f"0,{KA},work,?": refused(21),
    f"0,{KA},quotes,?,2100-01": '{"quotes":[]}',
    f"0,{KA},quotes,2100-01,?": '{"quotes":[]}',
    f"0,{KA},quote,1,?,price,5": refused(21),
    "0,desk,calendar,?,0,1,2": DONE,
    "0,desk,assign,7,3,10,RICE,?,2199-12": DONE,
    "0,desk,assign,7,3,10,RICE,2000-01,?": DONE,
    "0,desk,handover,7,1,8,1,?": refused(22),
    "0,desk,freeze,?": of_freeze,
    "0,desk,plan,2026|R,?": of_reference,
}
OF_NUMBERS_OF_MONTHS: dict[str, Told] = {
    f"0,{KA},work,2027-?": refused(21),
    "0,desk,calendar,2027-?,0,1,2": DONE,
    "0,desk,plan,2029|R,2027-?": DONE,
}


def months() -> Iterator[Limit[Records]]:
    """Months, their numbers in the year, and months whose limits depend on another month or a year."""
    yield from each(OF_MONTHS, count_of("2000-01"), count_of("2199-12"), MONTH, month_of, rule="YEAR")
    yield from each(OF_NUMBERS_OF_MONTHS, 1, 12, FORM_OF_MONTH, two_digits, rule="MONTH_OF_YEAR")
    yield moving_month("0,desk,assign,7,3,10,RICE,?,2026-06", None, "2026-06", IN_ORDER)
    yield moving_month("0,desk,assign,7,3,10,RICE,2026-06,?", "2026-06", None, IN_ORDER)
    for year in (2001, 2026, 2199):
        place = f"0,desk,plan,{year}|R,?"
        yield moving_month(place, None, f"{year - 1}-12", REFERENCE, outside=LATE_REFERENCE)
    yield moving("0,desk,plan,?|R,2000-01", 2001, None, "in a plan of 2000", outside=LATE_REFERENCE)


# ---- civil times

CIVIL = "a civil text `YYYY-MM-DDTHH:MM` of a year from 2000 to 2199"
PARTS: list[tuple[str, int, int, Optional[str]]] = [
    ("2026-?-01T00:00", 1, 12, None),
    ("2026-01-?T00:00", 1, 31, None),
    ("2026-04-?T00:00", 1, 30, None),
    ("2026-02-?T00:00", 1, 28, None),
    ("2028-02-?T00:00", 1, 29, None),
    ("2100-02-?T00:00", 1, 28, None),
    ("2026-01-01T?:00", 0, 23, "HOUR"),
    ("2026-01-01T00:?", 0, 59, "MINUTE"),
]
"""A civil time with its least and its most; the calendar gives the number of days in a month."""


def civil_times() -> Iterator[Limit[Records]]:
    """Each part of a civil time."""
    place = "0,desk,calendar,2026-02,0,{},9999999999"
    yield from each({place.format("?-01-01T00:00"): DONE}, 2000, 2199, CIVIL, rule="CIVIL_YEAR")
    for text, least, most, rule in PARTS:
        yield moving(place.format(text), least, most, CIVIL, spelled=two_digits, rule=rule)


LIMITS = [*numbers(), *moments(), *months(), *civil_times()]
