"""Limits that the office's content decides: windows, assignments, tolerances, hand-overs, releases."""

from __future__ import annotations

from collections.abc import Iterator

from .limit import DONE, Limit, count_of, month_of, refused
from .months import Months
from .places import FROZEN, KA, KB, ONE, OPEN, Records, moving, moving_month, quoted, records_of

# ---- a collector

WINDOW = "`opens <= now < closes`"
ACTIVE = "| 22 | "
WORK = "own assignment that is active in it"
LISTED = "from a first to a last month"
EARLIER = "latest earlier month"
INSIDE = "`ceil(L * low / 1000) <= p <= floor(L * high / 1000)`"

ROUND_THEM = [["0", "desk", "calendar", f"2026-{at:02}", "0", "9000", "9000"] for at in range(1, 5)]
OF_TWO_MONTHS = [*OPEN, *ROUND_THEM, *records_of("0,desk,assign,8,1,10,RICE,2026-02,2026-03")]
"""A slot of the collector 8, with calendar rows for its months and the months around them."""

WITH_FEBRUARY = [*quoted(5, 5), *records_of("0,desk,calendar,2026-02,0,9000,9000")]
TOLERANCES = [(2, 1001, 701, 1501), (2, 1000, 700, 1500), (1, 1, 1, 10), (1, 1001, 2, 10_010)]
"""A slot, its last price, and the bounds: the first slot has 1 and 10000 per mille, the second 700 and 1500."""


TWO_ITEMS = ['"RICE","Rice"', '"FLOUR","Flour"']


def work(*rows: str) -> str:
    """A work list."""
    return '{"work":[' + ",".join(rows) + "]}"


def work_of_two(*ends: str) -> str:
    """The work list of the collector 7: with the last price, mark and receipt of each row."""
    return work(*(f'[{at},10,"Shop",{item},"1 kg",{end}]' for at, (item, end) in enumerate(zip(TWO_ITEMS, ends), 1)))


ONE_ROW = work('[1,10,"Shop","RICE","Rice","1 kg",null,null,null]')
LATER, IN_DECEMBER = work_of_two("5,null,null", "5,null,null"), work_of_two('null,"price",1', 'null,"price",2')
QUOTES, NO_QUOTES = '{"quotes":[[1,"2025-12","price",5,1],[2,"2025-12","price",5,2]]}', '{"quotes":[]}'


def entries() -> Iterator[Limit[Records]]:
    """Windows, assignments and tolerances."""
    now = f"?,{KA},quote,1,2026-01,price,5"
    yield moving(now, 1000, 1999, WINDOW, '{"receipt":1}', below=refused(23), above=refused(24))
    month = f"0,{KB},quote,1,?,price,5"
    yield moving_month(month, "2026-02", "2026-03", ACTIVE, '{"receipt":1}', outside=refused(22), before=OF_TWO_MONTHS)
    for slot, last, low, high in TOLERANCES:
        place, outside = f"1500,{KA},quote,{slot},2026-01,price,?", refused(26, last=last, low=low, high=high)
        before = quoted(last, last)
        yield moving(place, low, high, INSIDE, '{"receipt":3}', outside=outside, before=before, floor=1)


def lists() -> Iterator[Limit[Records]]:
    """Work lists, their last prices, and lists of quotes."""
    yield moving_month(f"0,{KB},work,?", "2026-02", "2026-03", WORK, ONE_ROW, outside=work(), before=OF_TWO_MONTHS)
    yield moving_month(f"0,{KA},work,?", "2026-01", None, EARLIER, LATER, outside=IN_DECEMBER, before=WITH_FEBRUARY)
    for place, ends in (("quotes,?,2026-03", (None, "2025-12")), ("quotes,2025-01,?", ("2025-12", None))):
        yield moving_month(f"0,{KA},{place}", *ends, LISTED, QUOTES, outside=NO_QUOTES, before=quoted(5, 5))


# ---- hand-overs

BETWEEN = "after the former's first and not after its last, after the last frozen month"
UNQUOTED = "without stored quotes of the former slot"

EARLY = [*FROZEN, *records_of("0,desk,assign,7,3,10,RICE,2025-10,2026-12")]
QUOTED_LATE = [*OPEN, *records_of(f"1500,{KA},quote,1,2026-01,price,5")]


def hand_overs() -> Iterator[Limit[Records]]:
    """The first month from which a series may be handed over."""
    first, third = "0,desk,handover,7,1,8,1,?", "0,desk,handover,7,3,8,1,?"
    yield moving_month(first, "2026-01", "2026-12", BETWEEN, outside=refused(22))
    yield moving_month(third, "2026-01", None, BETWEEN, outside=refused(50), before=EARLY)
    yield moving_month(first, "2026-02", None, UNQUOTED, outside=refused(51), before=QUOTED_LATE)


# ---- releases

LAST = 9_999_999_999
CLOSED = "`now >= closes`"
FIRST = "is a December"
IN_TURN = "the last frozen month or the one after it"
PUBLISHED = "`publishes <= now`"
REOPENED = "publishing moment is greater than that of the month's latest revision"
PLANNED = "| 45 | "
NINE = "nine revisions"

ALL_CLOSED = [*OPEN, *records_of("0,desk,calendar,2025-11,0,1,1\n0,desk,calendar,2026-01,0,1,1")]
TABLE, TABLES = '{"table":"CPI 2025-12\\n"}', '{"tables":[["2025-12",1,1000]]}'


def next_month(count: int) -> Records:
    """The freeze of a month once December and January are frozen; the months around them are in the calendar."""
    office = Months(["RICE"])
    office.plan(2026, {ONE: 1_000_000}, {"RICE": ONE})
    for _ in range(2):
        office.freeze({1: "price,100"})
    for month in ("2026-02", "2026-03"):
        office.put("calendar", month, "0", "1", "9000")
    office.records.append(["0", KA, "quote", "1", "2026-02", "price", "100"])
    return [*office.records, ["9000", "desk", "freeze", month_of(count)]]


def opened_for(revision: int) -> Records:
    """A calendar row that opens a month for that revision, once the month has the revisions before."""
    records = [*FROZEN]
    for at in range(2, revision):
        records += records_of(f"0,desk,calendar,2025-12,0,1000,{1000 + at}\n1000,desk,freeze,2025-12")
    return records + records_of(f"0,desk,calendar,2025-12,0,1000,{1000 + revision}")


def freezes() -> Iterator[Limit[Records]]:
    """The time at which a month is frozen, and the month."""
    yield moving("?,desk,freeze,2025-12", 1000, LAST, CLOSED, below=refused(47))
    yield moving_month("1000,desk,freeze,?", "2025-12", "2025-12", FIRST, outside=refused(46), before=ALL_CLOSED)
    month, told = count_of("2026-02"), (DONE, refused(50), refused(46))
    yield Limit("the month after the last frozen one", month, month, next_month, *told, IN_TURN, is_said=False)
    yield moving("0,desk,plan,?|", 2026, None, PLANNED, outside=refused(45), before=FROZEN)
    told = DONE, DONE, refused(50)
    yield Limit("revisions of a month", None, 9, opened_for, *told, NINE, "REVISIONS", is_said=False)


def publications() -> Iterator[Limit[Records]]:
    """The time from which a table can be read, and the time to which it may be moved."""
    yield moving("?,public,table,2025-12,text", 1000, LAST, PUBLISHED, TABLE, below=refused(30), before=FROZEN)
    yield moving("?,public,tables", 1000, LAST, PUBLISHED, TABLES, below='{"tables":[]}', before=FROZEN)
    yield moving("0,desk,calendar,2025-12,0,999,?", 1001, LAST, REOPENED, below=refused(50), before=FROZEN)


LIMITS = [*entries(), *lists(), *hand_overs(), *freezes(), *publications()]
