"""The office of the example: what its files have, and the records that give `cpi` the same office."""

import csv
import os
from typing import NamedTuple

HERE = os.path.dirname(os.path.abspath(__file__))
KEY = "a" * 32
REFERENCE = {2027: "2026-06"}
"""The month whose prices a year's weights are of; 2026's are used as they stand."""

CARRIED = {"2026-02": "01.1.1.2-01"}
"""In February all prices of flour are missing: the desk has the aggregate carried."""


class Series(NamedTuple):
    """A series: its aggregate, its item, and what was found by month: a mark and a price, 0 where it is missing."""

    code: str
    item: str
    found: dict[str, tuple[str, int]]


class Node(NamedTuple):
    """A code with its title, and its weight in each year, where it is an elementary aggregate."""

    code: str
    title: str
    weights: dict[int, int]


def rows_of(name: str) -> list[dict[str, str]]:
    with open(os.path.join(HERE, name), encoding="utf-8", newline="") as file:
        return list(csv.DictReader(file))


def found_of(text: str) -> tuple[str, int]:
    """`210` is a price, `other 400` a replacement, `missing` none."""
    mark, _, value = text.rpartition(" ")
    return ("missing", 0) if text == "missing" else (mark or "price", int(value))


def all_series() -> list[Series]:
    rows = rows_of("prices.csv")
    return [Series(row.pop("code"), row.pop("item"), {at: found_of(text) for at, text in row.items()}) for row in rows]


def all_nodes() -> list[Node]:
    rows = rows_of("nodes.csv")
    return [
        Node(row["code"], row["title"], {year: int(row[str(year)]) for year in (2026, 2027) if row[str(year)]})
        for row in rows
    ]


def plan(year: int, nodes: list[Node], series: list[Series]) -> str:
    rows = [f"T,{node.code},{node.title}" for node in nodes]
    rows += [f"W,{node.code},{node.weights[year]}" for node in nodes if node.weights]
    rows += [f"I,{series.item},{series.code}" for series in series]
    rows += [f"R,{REFERENCE[year]}"] if year in REFERENCE else []
    return f'0,desk,plan,{year},"' + "\n".join(rows) + '\n"'


def records(series: list[Series], nodes: list[Node]) -> list[str]:
    """All records: the month of number n is open from second 100n on, is frozen at 100n + 50 and published then."""
    months = list(series[0].found)
    sent = ["0,desk,outlet,1,Shop", f"0,desk,collector,1,{KEY}"]
    for slot, it in enumerate(series, 1):
        sent.append(f"0,desk,item,{it.item},{it.item},1 kg,1,10000")
        sent.append(f"0,desk,assign,1,{slot},1,{it.item},2025-12,2027-12")
    for at, month in enumerate(months, 1):
        sent.append(f"0,desk,calendar,{month},{100 * at},{100 * at + 50},{100 * at + 50}")
    sent += [plan(year, nodes, series) for year in (2026, 2027)]
    for at, month in enumerate(months, 1):
        for slot, it in enumerate(series, 1):
            mark, price = it.found[month]
            value = price if price else "stock"
            sent.append(f"{100 * at},{KEY},quote,{slot},{month},{mark},{value}")
        sent.append(",".join([f"{100 * at + 50},desk,freeze,{month}", *filter(None, [CARRIED.get(month)])]))
    return [*sent, f"{100 * len(months) + 50},public,table,{months[-1]},text"]
