"""The office: what each record is answered, and what it changes."""

from __future__ import annotations

import json
from collections.abc import Callable
from typing import Any, NamedTuple, Optional, TypeVar

from . import limits, tables, values
from .index import FrozenQuote, Index, Plan, Row, Series, before, december_before
from .requests import Body, Record, Request, caller_of, request_of, rows_of
from .values import Mark, Month

Reply = dict[str, Any]
Place = tuple[int, int]
"""Collector and slot."""

Own = dict[tuple[int, Month], tuple[Mark, int]]
"""Of one collector, by slot and month: mark and receipt."""

Published = tuple[int, list[Row]]
"""A moment of publishing, and the rows of the table."""

K = TypeVar("K")
V = TypeVar("V")

DONE: Reply = {"done": True}


def refused(number: int, **found: object) -> Reply:
    return {"refused": number, **found}


def month_text(month: Month) -> str:
    return f"{month[0]:04}-{month[1]:02}"


class Assignment(NamedTuple):
    outlet: int
    item: str
    first: Month
    last: Month
    series: Series  # collector and slot that it was first given to
    copied: Optional[int] = None  # the last price that was handed over with it


class Office:
    def __init__(self) -> None:
        self.items: dict[str, list[Any]] = {}  # by code: text, unit, low, high
        self.plans: dict[int, Plan] = {}
        self.calendar: dict[Month, tuple[int, int, int]] = {}  # by month: opens, closes, publishes
        self.outlets: dict[int, str] = {}
        self.keys: dict[int, str] = {}  # by collector
        self.assignments: dict[Place, Assignment] = {}
        self.quotes: dict[tuple[int, int, Month], tuple[Mark, int]] = {}  # by collector, slot and month: mark, receipt
        self.index = Index(self.plans, {}, {})  # over the frozen months
        self.tables: dict[Month, list[Published]] = {}  # by frozen month each revision

    def written(self, reply: Reply) -> str:
        return json.dumps(reply, separators=(",", ":"), sort_keys=True, ensure_ascii=False)

    def line(self, record: Record) -> str:
        return self.written(self.reply(record))

    def reply(self, record: Record) -> Reply:
        if len(record) < 3:
            return refused(10)
        now, caller, word = values.number(record[0], limits.MOMENT), caller_of(record[1]), record[2]
        if now is None or caller is None:
            return refused(10)
        if word != "import":
            return self.answer(now, caller, request_of(word, record[3:]))
        rows = rows_of(record[3]) if len(record) == 4 else None
        if rows is None or len(rows) not in limits.ROWS_OF_IMPORT:
            return refused(10)
        return {"rows": [self.answer(now, caller, request_of(row[0], row[1:])) for row in rows]}

    def answer(self, now: int, caller: str, request: Request | None) -> Reply:
        if request is None:
            return refused(10)
        collector = next((number for number, key in self.keys.items() if key == caller), None)
        if caller not in ("public", "desk") and collector is None:
            return refused(11)
        word, *parts = request
        if word in self.OF_ALL:
            return self.OF_ALL[word](self, now, *parts)
        if word in self.OF_COLLECTORS:
            return refused(12) if collector is None else self.OF_COLLECTORS[word](self, now, collector, *parts)
        if caller != "desk":
            return refused(12)
        return self.freeze(now, *parts) if word == "freeze" else self.OF_THE_DESK[word](self, *parts)

    # ---- all

    def listed_items(self, _: int) -> Reply:
        return {"items": [[code, *self.items[code]] for code in sorted(self.items)]}

    def published(self, now: int) -> dict[tuple[Month, int], Published]:
        """The moment of publishing and the rows, by month and revision."""
        every = {(month, at): table for month, of in self.tables.items() for at, table in enumerate(of, 1)}
        return {release: table for release, table in every.items() if table[0] <= now}

    def listed_tables(self, now: int) -> Reply:
        published = sorted(self.published(now).items())
        return {"tables": [[month_text(month), revision, publishes] for (month, revision), (publishes, _) in published]}

    def printed_table(self, now: int, month: Month, form: str, asked: int | None = None) -> Reply:
        """The table of the revision that is asked for, or of the latest one that is published."""
        published = self.published(now)
        revisions = [revision for at, revision in published if at == month and asked in (None, revision)]
        if not revisions:
            return refused(30)
        rows = published[month, max(revisions)][1]
        return {"table": tables.text_of(month, max(revisions), rows) if form == "text" else tables.csv_of(rows)}

    # ---- the desk

    def put_once(self, rows: dict[K, V], key: K, content: V) -> Reply:
        """Content that stands is done; a row is never replaced."""
        if key in rows:
            return DONE if rows[key] == content else refused(40)
        rows[key] = content
        return DONE

    def put_item(self, code: str, *content: Any) -> Reply:
        return self.put_once(self.items, code, list(content))

    def put_outlet(self, number: int, name: str) -> Reply:
        return self.put_once(self.outlets, number, name)

    def register(self, number: int, key: str) -> Reply:
        if number not in self.keys and key in self.keys.values():
            return refused(40)
        return self.put_once(self.keys, number, key)

    def assign(self, collector: int, slot: int, outlet: int, item: str, first: Month, last: Month) -> Reply:
        if (collector, slot) not in self.assignments:
            if item not in self.items:
                return refused(41)
            if outlet not in self.outlets:
                return refused(42)
            if collector not in self.keys:
                return refused(43)
        place = collector, slot
        return self.put_once(self.assignments, place, Assignment(outlet, item, first, last, place))

    def hand_over(self, collector: int, slot: int, to: int, new_slot: int, month: Month) -> Reply:
        """Ends an assignment before the month, and gives another slot the rest of it with its last price by now."""
        former, new = (collector, slot), (to, new_slot)
        if collector not in self.keys or to not in self.keys:
            return refused(43)
        if former not in self.assignments:
            return refused(20)
        old = self.assignments[former]
        if new in self.assignments:
            return DONE if self.is_handed_over(old, self.assignments[new], month) else refused(40)
        if not old.first < month <= old.last:
            return refused(22)
        if self.tables and month <= max(self.tables):
            return refused(50)
        if any(place[:2] == former and place[2] >= month for place in self.quotes):
            return refused(51)
        copied = self.last_price(self.own_quotes(collector), former, month)
        self.assignments[new] = old._replace(first=month, copied=copied)
        self.assignments[former] = old._replace(last=before(month))
        return DONE

    def is_handed_over(self, old: Assignment, new: Assignment, month: Month) -> bool:
        """Whether one assignment goes on from the month where the other ends."""
        return (new.series, new.first, before(month)) == (old.series, month, old.last)

    def stays_frozen(self, month: Month, publishes: int) -> bool:
        """Whether the month was frozen and can't be reopened by a calendar row with that moment of publishing."""
        revisions = self.tables.get(month)
        if not revisions:
            return False
        is_last = month == max(self.tables) and len(revisions) + 1 in limits.REVISIONS
        return not is_last or publishes <= revisions[-1][0]

    def put_calendar(self, month: Month, opens: int, closes: int, publishes: int) -> Reply:
        if self.calendar.get(month) == (opens, closes, publishes):
            return DONE
        if self.stays_frozen(month, publishes):
            return refused(50)
        self.calendar[month] = opens, closes, publishes
        return DONE

    def put_plan(self, year: int, body: Body) -> Reply:
        fault = self.plan_fault(year, body)
        if fault is not None:
            return refused(44, **fault)
        titles, weights, places, references = body
        nodes = {node for code, _ in weights for node in values.path(code)}
        reference = references[0] if references else None
        plan = {code: title for code, title in titles if code in nodes}, dict(weights), dict(places), reference
        if self.plans.get(year) == plan:
            return DONE
        if any(frozen[0] == year for frozen in self.tables):
            return refused(45)
        self.plans[year] = plan
        return DONE

    def plan_fault(self, year: int, body: Body) -> Reply | None:
        """The first fault of a plan, over all of what was sent."""
        titles, weights, places, references = body
        codes, sum_found = [code for code, _ in weights], sum(weight for _, weight in weights)
        titled, nodes = [code for code, _ in titles], {node for code in codes for node in values.path(code)}
        untitled = sorted(nodes - set(titled))
        items = [item for item, _ in places]
        is_late = any(month > december_before(year) for month in references)
        faults: list[tuple[int, bool, Reply]] = [
            (1, len(set(titled)) < len(titled) or len(set(codes)) < len(codes), {}),
            (2, not all(values.is_elementary(code) for code in codes + [code for _, code in places]), {}),
            (3, not all(weight in limits.WEIGHT for _, weight in weights), {}),
            (4, sum_found not in limits.SUM_OF_WEIGHTS, {"found": sum_found}),
            (5, untitled != [], {"code": untitled[0] if untitled else None}),
            (6, not set(items) <= set(self.items), {}),
            (7, len(set(items)) < len(items), {}),
            (8, not {code for _, code in places} <= set(codes), {}),
            (10, len(references) not in limits.REFERENCE_MONTHS or is_late, {}),
        ]
        return next(({"fault": number, **fault} for number, is_so, fault in faults if is_so), None)

    # ---- freezing

    def last_month_of(self, series: Series) -> Month:
        """The greatest last month among the assignments of a series."""
        return max(one.last for one in self.assignments.values() if one.series == series)

    def stored_quotes(self, month: Month) -> list[FrozenQuote]:
        """The quotes of the month by their series, whoever has it then."""
        rows = [(self.assignments[place[:2]], mark) for place, (mark, _) in self.quotes.items() if place[2] == month]
        return [
            FrozenQuote(one.series, one.item, self.last_month_of(one.series), mark)
            for one, mark in sorted(rows, key=lambda row: row[0].series)
        ]

    def is_first(self, month: Month) -> bool:
        """Whether it is the first month of all, frozen already or not."""
        return month == min(self.tables, default=month)

    def is_in_turn(self, month: Month) -> bool:
        if not self.tables:
            return month[1] == 12
        return max(self.tables) in (month, before(month))

    def freeze_refusal(self, now: int, month: Month, carry: list[str]) -> Reply | None:
        is_first = self.is_first(month)
        if month in self.tables and self.stays_frozen(month, self.calendar[month][2]):
            return refused(50)
        if not self.is_in_turn(month):
            return refused(46)
        if month not in self.calendar:
            return refused(21)
        if now < self.calendar[month][1]:
            return refused(47)
        if not is_first and month[0] not in self.plans:
            return refused(48)
        weighed = {} if is_first else self.plans[month[0]][1]
        return None if set(carry) <= set(weighed) else refused(44, fault=8)

    def freeze(self, now: int, month: Month, carry: list[str]) -> Reply:
        refusal = self.freeze_refusal(now, month, carry)
        if refusal is not None:
            return refusal
        index = self.index.with_month(month, self.stored_quotes(month), carry)
        fault = None if self.is_first(month) else index.fault(month)
        if fault is not None:
            return refused(49, fault=fault[0], code=fault[1])
        self.index = index
        self.tables.setdefault(month, []).append((self.calendar[month][2], index.table(month)))
        return DONE

    # ---- a collector

    def own_quotes(self, collector: int) -> Own:
        return {(slot, month): quote for (holder, slot, month), quote in self.quotes.items() if holder == collector}

    def last_price(self, own: Own, place: Place, month: Month) -> int | None:
        """The price of the greatest earlier month with one, among the own quotes of a slot; else the copied one."""
        price = [
            (earlier, mark[1])
            for (slot, earlier), (mark, _) in own.items()
            if slot == place[1] and earlier < month and mark[0] != "missing"
        ]
        return max(price)[1] if price else self.assignments[place].copied

    def work(self, _: int, collector: int, month: Month) -> Reply:
        if month not in self.calendar:
            return refused(21)
        rows, own = [], self.own_quotes(collector)
        for (holder, slot), one in sorted(self.assignments.items()):
            if holder == collector and one.first <= month <= one.last:
                kind, receipt = (own[slot, month][0][0], own[slot, month][1]) if (slot, month) in own else (None, None)
                text, unit = self.items[one.item][:2]
                price = self.last_price(own, (holder, slot), month)
                rows.append([slot, one.outlet, self.outlets[one.outlet], one.item, text, unit, price, kind, receipt])
        return {"work": rows}

    def quotes_within(self, _: int, collector: int, first: Month, last: Month) -> Reply:
        own = self.own_quotes(collector)
        places = sorted((month, slot) for slot, month in own if first <= month <= last)
        quotes = [(slot, month, own[slot, month]) for month, slot in places]
        return {"quotes": [[slot, month_text(month), *mark, receipt] for slot, month, (mark, receipt) in quotes]}

    def put_quote(self, now: int, collector: int, slot: int, month: Month, mark: Mark, confirm: bool) -> Reply:
        if (collector, slot) not in self.assignments:
            return refused(20)
        stored = self.quotes.get((collector, slot, month))
        if stored and stored[0] == mark:
            return {"receipt": stored[1]}
        refusal = self.quote_refusal(now, (collector, slot), month, mark, confirm)
        if refusal is not None:
            return refusal
        receipt = 1 + max((receipt for _, receipt in self.own_quotes(collector).values()), default=0)
        if receipt not in limits.RECEIPT:
            return refused(27)
        self.quotes[collector, slot, month] = (mark, receipt)
        return {"receipt": receipt}

    def quote_refusal(self, now: int, place: Place, month: Month, mark: Mark, confirm: bool) -> Reply | None:
        one = self.assignments[place]
        if month not in self.calendar:
            return refused(21)
        opens, closes, _ = self.calendar[month]
        if not one.first <= month <= one.last:
            return refused(22)
        if now < opens:
            return refused(23)
        if now >= closes:
            return refused(24)
        price = self.last_price(self.own_quotes(place[0]), place, month)
        if price is None:
            return refused(25) if mark[0] in ("comparable", "other") else None
        low, high = -(-price * self.items[one.item][2] // 1000), price * self.items[one.item][3] // 1000
        if mark[0] in ("price", "comparable") and not confirm and not low <= mark[1] <= high:
            return refused(26, last=price, low=low, high=high)
        return None

    OF_ALL: dict[str, Callable[..., Reply]] = {"items": listed_items, "tables": listed_tables, "table": printed_table}
    OF_COLLECTORS: dict[str, Callable[..., Reply]] = {"work": work, "quotes": quotes_within, "quote": put_quote}
    OF_THE_DESK: dict[str, Callable[..., Reply]] = {
        "item": put_item,
        "outlet": put_outlet,
        "collector": register,
        "assign": assign,
        "handover": hand_over,
        "calendar": put_calendar,
        "plan": put_plan,
    }
