"""The store of prices of `cpi-tools take-in`: what it asks its file grows as the prices do, and imports are as they were sent."""

from __future__ import annotations

from collections.abc import Callable, Iterator
from contextlib import closing

import pytest

from cpi_tools.office.program import record
from cpi_tools.sheets.price_store import Form, Price, PriceStore, Series, StoredPrice
from cpi_tools.sheets.record_rows import QuoteRows
from cpi_tools.sheets.sheet_numbers import Rule

FORM = Form("prices.csv", ("item", "month", "value", "value", "confirm", "item"))
MONTHS = ("2025-12", "2026-01", "2026-02")
STEPS = 100
"""SQLite tells of each so many steps."""


def price(month: str, collector: str, slot: str, value: str, turn: int = 1, mark: str = "price", row: int = 2) -> Price:
    return Price(month, turn, collector, slot, mark, value, "", row, FORM, value, "")


def prices(slots: int) -> Iterator[Price]:
    """Three months of some slots, by collectors of 100."""
    for month in MONTHS:
        for at in range(slots):
            yield price(month, f"{at // 100}", f"{at % 100}", f"{200 + at % 7}")


def series(slots: int) -> Iterator[Series]:
    """What these slots price: nine items."""
    return (Series(f"{at // 100}", f"{at % 100}", f"I{at % 9}", "01", True) for at in range(slots))


def steps_of(slots: int, ask: Callable[[PriceStore], object]) -> int:
    """The steps that SQLite takes to answer what is asked of a store with so many slots."""
    steps = [0]

    def count() -> int:
        steps[0] += STEPS
        return 0

    with closing(PriceStore()) as store:
        store.fill(prices(slots))
        store.name_series(series(slots))
        store._link.set_progress_handler(count, STEPS)
        ask(store)
    return steps[0]


ASKED: dict[str, Callable[[PriceStore], object]] = {
    "the first prices": lambda store: [*store.firsts()],
    "prices by item": lambda store: store.name_series(series(0)),
    "repeated prices": lambda store: [*store.take_repeated()],
    "a mean": lambda store: [*store.settle(Rule("mean"))],
    "prices of the office": lambda store: store.take_stored(
        StoredPrice(price.month, *price[2:4], 1, *price[4:6]) for price in prices(400)
    ),
    "imports": lambda store: [rows.body() for month in MONTHS for _, rows in store.imports(month, 1, 10, str)],
    "months": lambda store: store.months(),
}


@pytest.mark.parametrize("name", ASKED)
def test_four_times_the_slots_take_at_most_six_times_the_steps(name: str) -> None:
    few, many = (steps_of(slots, ASKED[name]) for slots in (500, 2000))
    assert many <= 6 * few + 1000, (few, many)


def body(store: PriceStore, month: str, first: int, last: int) -> list[tuple[str, str]]:
    """What each key sends, whose first letter is that of the collector."""
    return [(key, rows.body()) for key, rows in store.imports(month, first, last, lambda it: it[0])]


def test_an_import_has_the_order_of_revisions_and_rows_and_no_slot_twice() -> None:
    with closing(PriceStore()) as store:
        store.fill(
            [
                price("2026-01", "b1", "1", "10"),
                price("2026-01", "a", "1", "20"),
                price("2026-01", "b2", "1", "30"),
                price("2026-01", "a", "2", "40", turn=2),
                price("2026-01", "a", "1", "50", turn=2),
                price("2026-01", "b1", "2", "60"),
                price("2026-02", "a", "1", "70"),
            ]
        )
        b = "quote,1,2026-01,price,10\nquote,1,2026-01,price,30\nquote,2,2026-01,price,60\n"
        a = "quote,1,2026-01,price,20\n"
        assert body(store, "2026-01", 1, 1) == [("b", b), ("a", a)]
        both = [("b", b), ("a", f"{a}quote,2,2026-01,price,40\n"), ("a", "quote,1,2026-01,price,50\n")]
        assert body(store, "2026-01", 1, 10) == both
        assert body(store, "2026-01", 2, 2) == [("a", "quote,2,2026-01,price,40\nquote,1,2026-01,price,50\n")]
        assert (body(store, "2026-03", 1, 10), body(store, "", 1, 10), body(store, "2026-02", 2, 10)) == ([], [], [])


@pytest.mark.parametrize("text", ["1,5", 'a "b"', "a\nb", "a\rb", "plain", "é"])
def test_a_quote_is_the_record_that_a_row_by_itself_is(text: str) -> None:
    with closing(PriceStore()) as store:
        store.fill(
            [price("2026-01", "a", "1", "10"), price("2026-01", "a", text, text, mark=text)._replace(confirm=text)]
        )
        ((_, rows),) = store.imports("2026-01", 1, 10, str)
        assert isinstance(rows, QuoteRows) and len(rows) == 2
        lines = [record("quote", "1", "2026-01", "price", "10"), record("quote", text, "2026-01", text, text, text)]
        assert rows.body() == "".join(f"{line}\n" for line in lines)
        assert [record(*row.fields) for row in rows] == lines
