"""The words of a month's quotes, as records have them: a price, or why there is none."""

from __future__ import annotations

from collections import Counter
from collections.abc import Iterable, Mapping
from typing import Optional

from ..text.message import Message, Price, message, row, whole
from .stored import OBSERVED, Frozen, Series

SILENT = "silent"
"""The mark of a slot for which nothing was sent."""

MARKS: Mapping[str, Message] = {
    # t: a price was found
    "price": message("price"),
    # t: another article was found, as good as the same
    "comparable": message("comparable"),
    # t: another article was found, not comparable
    "other": message("other"),
    # t: there is no price: the article is sold out
    "stock": message("stock"),
    # t: there is no price: the shop is closed
    "closed": message("closed"),
    # t: there is no price: the article is no longer sold
    "gone": message("gone"),
    # t: there is no price: the shop doesn't tell it
    "refused": message("refused"),
    # t: nothing was sent of a slot
    SILENT: message("silent"),
}


def mark_words(mark: str) -> Message:
    """The word of a mark."""
    return MARKS[mark]


def marks_of(sample: Iterable[Series], quotes: Mapping[Series, Frozen]) -> Message:
    """`2 price, 8 stock` of some series."""
    marks = Counter(quotes[series].mark if series in quotes else SILENT for series in sample)
    ordered = sorted(marks.items(), key=lambda mark: (-mark[1], mark[0]))
    # t: how many series have a mark: 2 price
    return row([message("{count} {mark}", count=whole(count), mark=mark_words(mark)) for mark, count in ordered])


def mark_text(quote: Optional[Frozen]) -> Message:
    """`price 210`, `stock`, or `silent`."""
    if quote is None:
        return mark_words(SILENT)
    if quote.mark not in OBSERVED:
        return mark_words(quote.mark)
    # t: a mark and its price: price 2.10
    return message("{mark} {price}", mark=mark_words(quote.mark), price=Price(quote.value))
