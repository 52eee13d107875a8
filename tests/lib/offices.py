"""The parts of the tests' offices: keys, and plans of many aggregates."""

from __future__ import annotations

from collections.abc import Iterable, Iterator, Mapping, Sequence

from second_office.records import text_of
from second_office.requests import Record

LAST = 9_999_999_999
"""The last moment."""


RICE_AND_FLOUR = """T,00,All items
T,01,Food and drink
T,01.1,Food
T,01.1.1,Cereals
T,01.1.1.1,Rice
T,01.1.1.1-01,"Rice, packed"
T,01.1.1.2,Flour
T,01.1.1.2-01,"Flour, wheat"
W,01.1.1.1-01,600000
W,01.1.1.2-01,400000
I,RICE,01.1.1.1-01
I,FLOUR,01.1.1.2-01
"""
"""The body of a plan of two aggregates."""


def quoted(field: str) -> str:
    """A field in quotation marks."""
    return '"' + field.replace('"', '""') + '"'


def key_of(collector: int) -> str:
    """A key for a collector's number."""
    return f"{collector:032x}"


def aggregates(count: int, shift: int = 0) -> list[str]:
    """So many codes of elementary aggregates, the last number of each greater by so much."""
    return [f"01.1.{1 + at // 81}.{1 + at // 9 % 9}-{1 + at % 9 + shift:02}" for at in range(count)]


def plan_of(
    codes: Sequence[str], items: Sequence[str], title: str, least: int = 1, references: Iterable[str] = ()
) -> str:
    """The body of a plan, each title with its code after it. All aggregates but the first have the same weight."""
    nodes = sorted({"00", "01", "01.1", *(code[:6] for code in codes), *(code[:8] for code in codes), *codes})
    weights = [1_000_000 - least * (len(codes) - 1), *[least] * (len(codes) - 1)]
    rows = [["T", node, f"{title} {node}"] for node in nodes]
    rows += [["W", code, str(weight)] for code, weight in zip(codes, weights)]
    rows += [["I", item, codes[at % len(codes)]] for at, item in enumerate(items)]
    return text_of(rows + [["R", month] for month in references])


def plan_with(
    titles: Mapping[str, str], weights: Mapping[str, int], items: Mapping[str, str], references: Iterable[str] = ()
) -> str:
    """The body of a plan by titles and weights of codes; items whose aggregate has no weight are left out."""
    rows = [["T", code, title] for code, title in titles.items()]
    rows += [["W", code, str(weight)] for code, weight in weights.items()]
    rows += [["I", item, code] for item, code in items.items() if code in weights]
    return text_of(rows + [["R", month] for month in references])


def registered(
    collectors: Iterable[int], slots: Iterable[int], items: Sequence[str], months: Sequence[str], outlets: int = 1
) -> Iterator[Record]:
    """The desk's first records: items, outlets, collectors, and slots from the first of the months to the last."""
    yield from (["0", "desk", "item", item, f"Text of {item}", "1 kg", "1", "10000"] for item in items)
    yield from (["0", "desk", "outlet", str(outlet), f"Shop {outlet}"] for outlet in range(1, 1 + outlets))
    for number in collectors:
        yield ["0", "desk", "collector", str(number), key_of(number)]
        for slot in slots:
            place = [str(number), str(slot), str(1 + slot % outlets), items[slot % len(items)]]
            yield ["0", "desk", "assign", *place, months[0], months[-1]]
