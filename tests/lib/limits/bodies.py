"""Limits of counts and sums: weights of a plan, rows of a body, fields of a record."""

from __future__ import annotations

from collections.abc import Iterator
from functools import partial
from typing import Optional

from second_office.records import text_of

from .limit import BAD, DONE, Limit, Told, refused
from .numbers import ITEMS, LATE_REFERENCE, OF_PLACES
from .places import KA, NODES, ONE, OPEN, OTHER, PLAN, Records, sent

WEIGHT = "| weight of an elementary aggregate in a plan, parts per million | 1 to 1,000,000, all together 1,000,000 |"
ROWS = "| rows of one plan, or of one import | 20,000 |"
ONE_REFERENCE = "one reference month or none"

to_plan = sent("0", "desk", "plan", "2026")


def weighed(first: int, second: int) -> Records:
    """A plan of two aggregates with these weights; without the second if that has no weight."""
    weights = {ONE: first, OTHER: second} if second > 0 else {ONE: first}
    rows = [["T", code, code] for code in [*NODES, *weights]] + [["I", "RICE", ONE]]
    return to_plan(text_of(rows + [["W", code, str(weight)] for code, weight in weights.items()]))


def of_weight(weight: int) -> Records:
    """A plan with that weight, and another weight that completes the sum."""
    return weighed(weight, 1_000_000 - weight)


def of_sum(total: int) -> Records:
    """A plan whose weights add up to that sum."""
    return weighed(total - 400_000, 400_000)


def told_sum(total: int) -> str:
    """The answer to a wrong sum."""
    return refused(44, fault=4, found=total)


def of_references(count: int) -> Records:
    """A plan with so many reference months."""
    return to_plan(PLAN + "R,2025-12\n" * count)


def others(count: int) -> Iterator[str]:
    """So many codes that aren't in the plan."""
    for at in range(count):
        group, number = divmod(at, 99)
        yield f"02.{group // 100}.{group // 10 % 10}.{group % 10}-{number + 1:02}"


def plan_of_rows(count: int) -> Records:
    """A plan of so many rows, most of them titles of codes that aren't nodes."""
    own = PLAN.splitlines()
    return to_plan("\n".join([*own, *(f"T,{code},x" for code in others(count - len(own)))]))


def import_of_rows(caller: str, row: str, count: int) -> Records:
    """An import of so many rows."""
    return sent("0", caller, "import")(f"{row}\n" * count)


def told_rows(reply: str, count: int) -> str:
    """The answer to an import each of whose rows has this answer."""
    return '{"rows":[' + ",".join([reply] * count) + "]}"


def of_assignments(count: int) -> Records:
    """As many assignments of one collector, in its slots from 1 on."""
    rows = (f"assign,8,{slot},10,RICE,2025-12,2026-12\n" for slot in range(1, count + 1))
    return sent("0", "desk", "import")("".join(rows))


def told_assignments(count: int) -> str:
    """The answer to these assignments: one past the last slot isn't a record."""
    return told_rows(DONE, 400)[:-2] + f",{BAD}]}}" if count > 400 else told_rows(DONE, count)


def counted() -> Iterator[Limit[Records]]:
    """Weights, their sum, reference months, rows."""
    no_weight = refused(44, fault=3)
    for rule in ("WEIGHT", "ROW_OF_WEIGHT"):
        yield Limit(f"a weight, {rule}", 1, 1_000_000, of_weight, DONE, no_weight, BAD, WEIGHT, rule, floor=0)
    yield Limit("the sum of weights", 10**6, 10**6, of_sum, DONE, told_sum, told_sum, WEIGHT, "SUM_OF_WEIGHTS")
    yield Limit("reference months of a plan", None, 1, of_references, DONE, BAD, LATE_REFERENCE, ONE_REFERENCE,
                "REFERENCE_MONTHS", floor=0, is_said=False)  # fmt: skip
    yield Limit("assignments of one collector", None, 400, of_assignments, told_assignments, "", told_assignments,
                OF_PLACES, "SLOT")  # fmt: skip
    yield Limit("rows of a plan", None, 20_000, plan_of_rows, DONE, BAD, BAD, ROWS, "ROWS_OF_PLAN")
    for caller, row, reply in (("desk", "tables", '{"tables":[]}'), (KA, "x", BAD)):
        asked, told = partial(import_of_rows, caller, row), partial(told_rows, reply)
        yield Limit(f"rows of an import, {row}", None, 20_000, asked, told, BAD, BAD, ROWS, "ROWS_OF_IMPORT")


ARGUMENTS: list[tuple[str, str, str, int, Optional[int], Told]] = [
    # who asks, the word with its arguments, one argument too many, the least and the most of them, what is answered
    ("public", "items", "x", 0, 0, ITEMS),
    ("public", "tables", "x", 0, 0, '{"tables":[]}'),
    ("public", "table,2026-01,text,1", "confirm", 2, 3, refused(30)),
    (KA, "quotes,2026-01,2026-01", "2026-01", 2, 2, '{"quotes":[]}'),
    (KA, "work,2027-01", "2027-01", 1, 1, refused(21)),
    (KA, "quote,1,2026-01,price,5,confirm", "confirm", 4, 5, refused(23)),
    ("desk", "item,TEA,Tea,1 kg,1,1000", "1000", 5, 5, DONE),
    ("desk", "calendar,2026-02,0,1,2", "3", 4, 4, DONE),
    ("desk", f"collector,9,{'c' * 32}", "9", 2, 2, DONE),
    ("desk", "outlet,11,Shop", "11", 2, 2, DONE),
    ("desk", "assign,7,3,10,RICE,2025-12,2026-12", "2026-12", 6, 6, DONE),
    ("desk", "handover,7,1,8,1,2026-02", "2026-02", 5, 5, DONE),
    ("desk", f"freeze,2027-01,{ONE}", ONE, 1, None, refused(46)),
]


def asked_by(caller: str, words: str, more: str, count: int) -> Records:
    """A record whose word has so many arguments."""
    word, *arguments = f"{words},{more}".split(",")
    return [*OPEN, ["0", caller, word, *arguments[:count]]]


def of_arguments() -> Iterator[Limit[Records]]:
    """The number of arguments of each word, which the documents give as a list."""
    for caller, words, more, least, most, told in ARGUMENTS:
        word = words.partition(",")[0]
        asked, said = partial(asked_by, caller, words, more), f"| `{word}` | "
        yield Limit(f"arguments of {word}", least, most, asked, told, BAD, BAD, said, floor=0, is_said=False)


LIMITS = [*counted(), *of_arguments()]
