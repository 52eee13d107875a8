"""The texts for the desk about a row that the program refused: what was read, and the form that is wanted instead.

The numbers are the program's; `office/refusals.py` contains the texts of the guides about them. This module contains
the texts for a reader who has the sheet open: no slot is "yours", and a field without a form is named by its column.
"""

from __future__ import annotations

from collections.abc import Callable

from ..office.program import Reply
from ..office.refusals import Words, refusal_words, sentence
from ..text.message import Code, Message, message, said_as
from ..text.others import Worded, of_others
from .cells import cut
from .sheet_numbers import month_of, told_no_month, unpack_hint
from .record_rows import DESK, Sent, slot_of

GUIDE = of_others("docs/decide/MIGRATING-AN-OFFICE.md")
"""The guide that describes the columns of sheets."""

MONTH = of_others("2026-01"), of_others("2000-01"), of_others("2199-12")


def number(least: int, most: int) -> Message:
    """The text that asks for a whole number within limits."""
    return message(
        "write a whole number from {least} to {most}, without leading zeros ({guide})",
        least=Code(least),
        most=Code(most),
        guide=GUIDE,
    )


TEXT = message("write 1 to 400 bytes, with no tab and no line break ({guide})", guide=GUIDE)
ITEM = message("write the code of an item, 1 to 12 characters of A-Z and 0-9 ({guide})", guide=GUIDE)
A_MONTH = message(
    "write a month like {month}, from {first} to {last} ({guide})",
    month=MONTH[0],
    first=MONTH[1],
    last=MONTH[2],
    guide=GUIDE,
)
A_LAST_MONTH = message(
    "write a month like {month}, from {first} to {last}, and not before the first month ({guide})",
    month=MONTH[0],
    first=MONTH[1],
    last=MONTH[2],
    guide=GUIDE,
)
A_TIME = of_others("2026-01-01T06:00")
MOMENT = message(
    "write a time like {time}, or seconds since 1970 UTC; a window opens before it closes, and its table is published"
    " when it closes or later ({guide})",
    time=A_TIME,
    guide=GUIDE,
)
CODE = message("write a code of the classification, like {code} ({guide})", code=of_others("01.1.1"), guide=GUIDE)

WANTED: dict[tuple[str, str], Message] = {
    ("item", "item"): message("write 1 to 12 characters of A-Z and 0-9 ({guide})", guide=GUIDE),
    ("item", "text"): TEXT,
    ("item", "unit"): TEXT,
    ("item", "low"): message(
        "write a whole number from {least} to {most}, without leading zeros: the lowest price that needs no second"
        " look, in thousandths of the last one ({guide})",
        least=Code(1),
        most=Code(1000),
        guide=GUIDE,
    ),
    ("item", "high"): message(
        "write a whole number from {least} to {most}, without leading zeros: the highest price that needs no second"
        " look, in thousandths of the last one ({guide})",
        least=Code(1000),
        most=Code(10000),
        guide=GUIDE,
    ),
    ("outlet", "outlet"): number(1, 999_999),
    ("outlet", "name"): TEXT,
    ("collector", "collector"): number(1, 9999),
    ("collector", "key"): message(
        "write 32 characters of 0-9 and a-f, or leave the cell empty to have a key generated ({guide})", guide=GUIDE
    ),
    ("assign", "collector"): number(1, 9999),
    ("assign", "slot"): message(
        "write a whole number from {least} to {most}, without leading zeros, or leave the cell empty to take the next"
        " free one ({guide})",
        least=Code(1),
        most=Code(400),
        guide=GUIDE,
    ),
    ("assign", "outlet"): number(1, 999_999),
    ("assign", "item"): ITEM,
    ("assign", "first"): A_MONTH,
    ("assign", "last"): A_LAST_MONTH,
    ("handover", "collector"): number(1, 9999),
    ("handover", "slot"): number(1, 400),
    ("handover", "to"): number(1, 9999),
    ("handover", "to_slot"): number(1, 400),
    ("handover", "month"): A_MONTH,
    ("calendar", "month"): A_MONTH,
    ("calendar", "opens"): MOMENT,
    ("calendar", "closes"): MOMENT,
    ("calendar", "publishes"): MOMENT,
    ("quote", "slot"): number(1, 400),
    ("quote", "month"): A_MONTH,
    ("quote", "mark"): message(
        "write {price}, {comparable}, {other} or {missing} ({guide})",
        price=of_others("price"),
        comparable=of_others("comparable"),
        other=of_others("other"),
        missing=of_others("missing"),
        guide=GUIDE,
    ),
    ("quote", "confirm"): message(
        "write {word}, or leave the cell empty ({guide})", word=of_others("confirm"), guide=GUIDE
    ),
    ("freeze", "month"): A_MONTH,
    ("freeze", "frozen_at"): message(
        "write a time like {time}, or seconds since 1970 UTC ({guide})", time=A_TIME, guide=GUIDE
    ),
    ("freeze", "carry"): message(
        "write codes of elementary aggregates like {code}, with spaces between them ({guide})",
        code=of_others("01.1.1.1-01"),
        guide=GUIDE,
    ),
    ("T", "code"): CODE,
    ("T", "title"): TEXT,
    ("W", "code"): CODE,
    ("W", "weight"): message(
        "write a whole number from 1 to 1,000,000 in parts per million, or name another unit with {option} ({guide})",
        option=of_others("--weights"),
        guide=GUIDE,
    ),
    ("I", "item"): ITEM,
    ("I", "code"): CODE,
    ("R", "reference"): A_MONTH,
}
"""The texts that a field accepts, by the word of its record and the field's name. The limits come from
docs/reference/OFFICE.md."""

REASONS = {name: of_others(name) for name in ("stock", "closed", "gone", "refused")}
REASON = message("write {stock}, {closed}, {gone} or {refused} ({guide})", **REASONS, guide=GUIDE)
PRICE = message(
    "write a price from 1 to 100,000,000 minor units ({minor}), as {point} or {comma} ({decimal}), by itself or after"
    " the word {comparable} or {other}; or write one of the words {stock}, {closed}, {gone} and {refused} ({guide})",
    minor=of_others("--minor"),
    point=of_others("2.40"),
    comma=of_others("2,40"),
    decimal=of_others("--decimal"),
    comparable=of_others("comparable"),
    other=of_others("other"),
    **REASONS,
    guide=GUIDE,
)


def words_of(row: Sent, reply: Reply, column: str) -> Words:
    """The reason why a row was refused at a column, with the rest of the reply, and what to do."""
    own = OWN.get((row.word, reply["refused"]))
    if reply["refused"] == 10:
        return unread(row, column)
    if reply["refused"] == 26:
        because = message(
            "the price is far from the last one: {price} after {last}, outside the range from {low} to {high}",
            price=of_others(row.fields[4]),
            **{name: Code(reply[name]) for name in ("last", "low", "high")},
        )
        do = message(
            "look again; correct it, or confirm it with a column {column}, or confirm all prices outside"
            " their ranges with {option}",
            column=of_others("confirm"),
            option=of_others("--confirm-history"),
        )
        return Words(because, do)
    return own(row) if own else said_words(reply, row.word)


def said_words(reply: Reply, word: str) -> Words:
    """The words of the desk's guide about a refusal, with the code in the reply; a page shows them as sentences."""
    because, do = refusal_words(reply, DESK, word)
    why = message(sentence(because))
    if "code" in reply:
        code = message("It is {code}.", code=of_others(reply["code"]))
        return Words(said_as(f"{because}: {reply['code']}", why, code), said_do(do))
    return Words(said_as(because, why), said_do(do))


def said_do(do: str) -> Message:
    """The instruction, which a page shows as a sentence."""
    return said_as(do, message(sentence(do)))


def unread(row: Sent, column: str) -> Words:
    """The texts about a cell that the program can't read."""
    names = [name for name, source in row.sources() if source == column]
    # (a cell of prices has no other column for its mark, and in a wide sheet none for its month)
    name = "value" if row.word == "quote" and "value" in names else names[0] if names else column
    text, wanted = row.text_of(name), wanted_of(row, name)
    because: str
    if row.hint and name in ("value", "weight", "code"):
        because = unpack_hint(row.hint)
    elif wanted in (A_MONTH, A_LAST_MONTH) and not month_of(text):
        because = told_no_month(text)
    elif name == "value" and row.fields[3] == "missing":
        because = message('"{text}" isn\'t a reason', text=cut(text))
    elif name == "value":
        because = message('"{text}" isn\'t a price', text=cut(text))
    elif text:
        because = message('the column {column} contains "{text}"', column=of_others(column), text=cut(text))
    else:
        because = message("the cell in the column {column} is empty", column=of_others(column))
    return Words(because, wanted)


def wanted_of(row: Sent, name: str) -> Message:
    """The instruction what to write into a field."""
    if row.word == "quote" and name == "value":
        return REASON if row.fields[3] == "missing" else PRICE
    takes = message("write what the column {column} takes ({guide})", column=of_others(name), guide=GUIDE)
    return WANTED.get((row.word, name), takes)


# ---- refusals of which a reader of the sheet knows more


def _field(row: Sent, at: int) -> Worded:
    """A field of a row."""
    return of_others(row.fields[at])


def _slot(row: Sent, collector: int, slot: int) -> Worded:
    """The slot that two fields of a row give."""
    return slot_of(row.fields[collector], row.fields[slot])


def _own(row: Sent) -> Worded:
    """The slot of a quote."""
    return slot_of(row.collector, row.fields[1])


ADD_COLLECTOR = message("add it to the sheet {sheet}", sheet=of_others("collectors"))
CHECK_WINDOW = message("check its row in {sheet}", sheet=of_others("calendar"))

OWN: dict[tuple[str, int], Callable[[Sent], Words]] = {
    ("item", 40): lambda row: Words(
        message("the item {item} is registered with different content, and can't be changed", item=_field(row, 1)),
        message("write its row as it was registered, or use another code for a different item"),
    ),
    ("outlet", 40): lambda row: Words(
        message(
            "the outlet {outlet} is registered with different content, and can't be changed", outlet=_field(row, 1)
        ),
        message("write its row as it was registered, or use another number for a different outlet"),
    ),
    ("collector", 40): lambda row: Words(
        message("collector {number} has another key, or the key is another collector's", number=_field(row, 1)),
        message("write the collector's own key, or leave it empty; give a new collector the next free number"),
    ),
    ("assign", 40): lambda row: Words(
        message("slot {slot} has another series, or has been handed over since", slot=_slot(row, 1, 2)),
        message("take the next free slot, or leave the slot empty"),
    ),
    ("assign", 41): lambda row: Words(
        message("the item {item} isn't known", item=_field(row, 4)),
        message("add it to the sheet {sheet}", sheet=of_others("items")),
    ),
    ("assign", 42): lambda row: Words(
        message("the outlet {outlet} isn't known", outlet=_field(row, 3)),
        message("add it to the sheet {sheet}", sheet=of_others("outlets")),
    ),
    ("assign", 43): lambda row: Words(message("collector {number} isn't known", number=_field(row, 1)), ADD_COLLECTOR),
    ("handover", 20): lambda row: Words(
        message("collector {number} has no slot {slot}", number=_field(row, 1), slot=_field(row, 2)),
        message("check the collector and the slot in {sheet}", sheet=of_others("series")),
    ),
    ("handover", 40): lambda row: Words(
        message("slot {slot} is taken", slot=_slot(row, 3, 4)), message("take a free slot of the new collector")
    ),
    ("handover", 43): lambda row: Words(
        message("collector {number} or {other} isn't known", number=_field(row, 1), other=_field(row, 3)),
        ADD_COLLECTOR,
    ),
    ("quote", 11): lambda row: Words(
        message("collector {number} isn't known", number=of_others(row.collector)),
        message("add it to the sheet {sheet}, or correct its key there", sheet=of_others("collectors")),
    ),
    ("quote", 20): lambda row: Words(
        message("no series has slot {slot}", slot=_own(row)),
        message("check the sheet {sheet}, or correct the slot", sheet=of_others("series")),
    ),
    ("quote", 21): lambda row: Words(
        message("{month} has no window", month=_field(row, 2)),
        message("add the month to the sheet {sheet}", sheet=of_others("calendar")),
    ),
    ("quote", 22): lambda row: Words(
        message("slot {slot} has no series in {month}", slot=_own(row), month=_field(row, 2)),
        message("check its first and its last month in {sheet}, and the hand-overs", sheet=of_others("series")),
    ),
    ("quote", 23): lambda row: Words(message("the window of {month} isn't open", month=_field(row, 2)), CHECK_WINDOW),
    ("quote", 24): lambda row: Words(message("the window of {month} has closed", month=_field(row, 2)), CHECK_WINDOW),
    ("quote", 25): lambda row: Words(
        message(
            "a {mark} replaces a price, and slot {slot} has none before {month}",
            mark=_field(row, 3),
            slot=_own(row),
            month=_field(row, 2),
        ),
        message("write it as a price"),
    ),
    ("quote", 27): lambda row: Words(
        message("the receipts of collector {number} are used up", number=of_others(row.collector)),
        message("register a new number with slots of its own"),
    ),
    ("quote", 90): lambda _: Words(message("memory or the disk failed"), message("nothing was changed; run it again")),
}
"""The texts of refusals that the guides describe in other words, by the record's word and the number."""
