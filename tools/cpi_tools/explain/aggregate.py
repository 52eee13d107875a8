"""An elementary aggregate, down to the quotes with their receipts; and the life of a series, month by month."""

from __future__ import annotations

from collections.abc import Iterator, Sequence
from fractions import Fraction
from typing import NamedTuple, Optional

from ..office.quote_marks import mark_words
from ..office.stored import OBSERVED, Assignment, Carried, Frozen, Release, Series, StoredOffice
from ..text.exact import HUNDRED, decimal
from ..text.message import (
    Cell,
    Code,
    Message,
    Price,
    Section,
    Ticks,
    columns,
    message,
    message_of,
    month_of,
    row as row_of,
)
from ..text.others import of_others
from ..text.terminal import link_month, month_before, slot_text
from . import sentence_texts
from .explanation_lines import WITHIN, Line, Part, write_sum
from .release_sources import WHOLE_SCALE, NotExplained, Sources


# ==== an elementary aggregate: from its index down to the quotes with their receipts


def mark_text(quote: Optional[Frozen], has_ended: bool = False) -> Message:
    """`price 210`, `missing, stock`, or `nothing was sent`; `no longer priced` if the series has ended."""
    if quote is None:
        return message("no longer priced") if has_ended else message("nothing was sent")
    if quote.mark in OBSERVED:
        # t: a mark and its price: price 2.10
        return message("{mark} {price}", mark=mark_words(quote.mark), price=Price(quote.value))
    # t: there is no price, and why: missing, stock
    return message("missing, {reason}", reason=mark_words(quote.mark))


# ---- in words


def who_sent(sources: Sources, series: Series, month: int, quote: Frozen) -> Message:
    """The sender of a frozen quote, with its receipt if the quote is still stored."""
    found = sources.stored_quotes.get((series, month))
    if found is None:
        holder = sources.holder(series, month)
        return message("by collector {collector}, slot {slot}", collector=holder.collector, slot=holder.slot)
    by: dict[str, object] = {"collector": found.slot.collector, "slot": found.slot.slot, "receipt": found.receipt}
    if found.quote == (quote.mark, quote.value):
        return message("by collector {collector}, slot {slot}, receipt {receipt}", **by)
    stands = mark_text(Frozen("", 0, *found.quote))
    # t: found is what the collector has sent since: price 210
    return message(
        "by collector {collector}, slot {slot}; since the freeze the collector has sent {found}, receipt {receipt}",
        found=stands,
        **by,
    )


def about(sources: Sources, series: Series) -> Message:
    """The item and the outlet of a series, in words."""
    holder = sources.holder(series, sources.month)
    item = sources.items[holder.item]
    places = {
        "item": of_others(item.text),
        "unit": of_others(item.unit),
        "outlet": of_others(sources.outlets[holder.outlet]),
    }
    return message("{code} {item}, {unit}; {outlet}", code=Code(item.code), **places)


# ---- lines of a series


def base_line(sources: Sources, series: Series) -> Line:
    """The base of a series."""
    link, ticks = link_month(sources.month), sources.base(series)[0]
    name = message("base of {series}", series=Code(slot_text(series)))
    places = {"about": about(sources, series), "month": month_of(link)}
    if sources.link.is_observed(series):
        quote = sources.link.frozen[series]
        sent = who_sent(sources, series, link, quote)
        # t: what a series prices, its mark in a month, and who sent it: RICE Rice, 1 kg; price in 2025-12 by collector 7
        says = message("{about}; {mark} in {month} {sent}", mark=mark_words(quote.mark), sent=sent, **places)
        return Line(name, f"10000 * {quote.value}", ticks, says, amount=Ticks(ticks))
    says = message("{about}; not observed in {month}, so its base is the carried price of that month", **places)
    return Line(name, "", ticks, says, amount=Ticks(ticks))


def quote_line(sources: Sources, series: Series) -> Line:
    """The quote of a series in the month."""
    quote, name = sources.own.frozen.get(series), message("price of {series}", series=Code(slot_text(series)))
    if quote is None:
        holder = sources.holder(series, sources.month)
        who: dict[str, object] = {"collector": holder.collector, "slot": holder.slot}
        if holder.has_ended(sources.month):
            last = month_of(holder.last_month)
            says = message(
                "no longer priced: the last month of collector {collector}, slot {slot} was {month}", month=last, **who
            )
            return Line(name, "", None, says)
        return Line(name, "", None, message("nothing was sent by collector {collector}, slot {slot}", **who))
    by = who_sent(sources, series, sources.month, quote)
    if quote.mark in OBSERVED:
        # t: a mark, and who sent it: price, by collector 7, slot 2
        says = message("{mark}, {sent}", mark=mark_words(quote.mark), sent=by)
        return Line(name, "", quote.value, says, amount=Price(quote.value))
    return Line(name, "", None, message("missing, {reason}, {sent}", reason=mark_words(quote.mark), sent=by))


def then_line(sources: Sources, series: Series) -> Line:
    """The price that a series counted as in the month before."""
    ticks, (over, under) = sources.then(series)
    before = month_of(month_before(sources.month))
    origin = message("its base") if sources.is_january else message("carried in {month}", month=before)
    # t: origin is where the price is from: its base, or carried in 2026-01
    says = message("{origin}; observed that month", origin=origin)
    if not sources.before.is_observed(series):
        says = message("{origin}; not observed that month", origin=origin)
    if (over, under) != WHOLE_SCALE:
        # t: says is a text such as: its base; observed that month
        says = message("{says}; a minor unit counts as {ratio} ticks", says=says, ratio=Code(f"{over}/{under}"))
    name = message("earlier carried price of {series}", series=Code(slot_text(series)))
    return Line(name, "", ticks, says, amount=Ticks(ticks))


def observed_line(sources: Sources, series: Series) -> Line:
    """The carried price of a series with a comparable price."""
    over, under = sources.then(series)[1]
    is_matched = sources.is_matched(series)
    says = message("matched") if is_matched else message("comparable; not observed in the month before, so not matched")
    row = sources.row("carried_2", f"{series[0]}, {series[1]}")
    expression = f"round({sources.own.frozen[series].value} * {over} / {under})"
    ticks = sources.own.carried_prices[series].ticks
    return Line(carried_price_of(series), expression, ticks, says, row, amount=Ticks(ticks))


def carried_price_of(series: Series) -> Message:
    """The name of a series' carried price."""
    return message("carried price of {series}", series=Code(slot_text(series)))


def imputed_lines(sources: Sources, series: Series, up: int, down: int) -> Iterator[Line]:
    """The carried price of a series that moves with its aggregate, and the scale that an `other` replacement sets."""
    it, quote = sources.own.carried_prices[series], sources.own.frozen.get(series)
    row = sources.row("carried_2", f"{series[0]}, {series[1]}")
    is_other = quote is not None and quote.mark == "other"
    entered = message("imputed: an 'other' replacement enters without moving the index")
    says = entered if is_other else message("imputed with the movement")
    expression = f"round({sources.then(series)[0]} * {up} / {down})"
    yield Line(carried_price_of(series), expression, it.ticks, says, row, amount=Ticks(it.ticks))
    if quote is not None and is_other:
        says = message("ticks per minor unit of its price, from now on")
        scale = Fraction(it.knum, it.kden)
        yield Line(
            message("scale of {series}", series=Code(slot_text(series))),
            f"{it.ticks} / {quote.value}",
            scale,
            says,
            row,
        )


# ---- lines of the aggregate


def movement(sources: Sources, code: str, sample: Sequence[Series]) -> tuple[int, int, list[Line]]:
    """The movement of an aggregate as two sums, and the lines that derive it."""
    matched = [series for series in sample if sources.is_matched(series)]
    if not matched:
        return 1, 1, unmatched_lines(sources, code, sample)
    now, then = [sources.own.carried_prices[series].ticks for series in matched], [
        sources.then(series)[0] for series in matched
    ]
    up, down, count = sum(now), sum(then), len(matched)
    months = month_of(sources.month), month_of(month_before(sources.month))
    what = [
        message("carried prices of the {count} matched series in {month}", count=count, month=month) for month in months
    ]
    lines = [
        Line(message("moved to"), write_sum(now), up, what[0], amount=Ticks(up)),
        Line(message("moved from"), write_sum(then), down, what[1], amount=Ticks(down)),
        Line(message("movement"), f"{up} / {down}", Fraction(up, down), message("imputed prices move by this ratio")),
    ]
    return up, down, lines


def unmatched_lines(sources: Sources, code: str, sample: Sequence[Series]) -> list[Line]:
    """The movement of an aggregate in which nothing is matched, if one is needed."""
    if all(sources.is_comparable(series) for series in sample):
        return []
    if code in sources.own.release.carry:
        says = message("nothing is matched, but the aggregate is on the freeze's carry list")
        return [Line(message("movement"), "1 / 1", 1, says)]
    says = message("nothing is matched, but a movement is needed")
    row = f"release_2 ({sources.month}, {sources.own.release.revision})"
    return [Line(message("movement"), "1 / 1", 1, says, row, uncarried=code)]


def index_lines(sources: Sources, code: str, sample: Sequence[Series]) -> list[Line]:
    """The index of an aggregate, from its sums."""
    now, bases = [sources.own.carried_prices[series].ticks for series in sample], [
        sources.base(series)[0] for series in sample
    ]
    up, down = sum(now), sum(bases)
    expression = f"round({HUNDRED} * {up} / {down})"
    row = sources.row("level_2", code)
    return [
        Line(message("sum of carried prices"), write_sum(now), up, message("of the sample"), amount=Ticks(up)),
        Line(message("sum of bases"), write_sum(bases), down, message("of the sample"), amount=Ticks(down)),
        Line(message("index"), expression, sources.own.levels[code].within, WITHIN, row, True),
    ]


def aggregate_parts(sources: Sources, code: str) -> list[Part]:
    """The parts of an aggregate, from its index down to its quotes."""
    sample = sources.samples[code]
    index = Part(
        message("Elementary index"),
        message(
            "The index is the sum of the carried prices divided by the sum of the bases of the same series (Dutot)."
        ),
        index_lines(sources, code, sample),
    )
    parts = [index, *carried_parts(sources, code, sample), *found_parts(sources, sample)]
    return [part for part in parts if part.lines]


def carried_parts(sources: Sources, code: str, sample: Sequence[Series]) -> list[Part]:
    """The parts that derive the carried prices of a sample."""
    seen = [series for series in sample if sources.is_comparable(series)]
    up, down, moved = movement(sources, code, sample)
    imputed = [line for series in sample if series not in seen for line in imputed_lines(sources, series, up, down)]
    return [
        Part(
            message("Movement"),
            message(
                "The movement of the matched series, which have a comparable price now and were observed in the month"
                " before."
            ),
            moved,
        ),
        Part(
            message("Imputed prices"),
            message("Prices that can't be compared move with the matched series. They are in ticks."),
            imputed,
        ),
        Part(
            message("Observed prices"),
            message("Each counts as its price times its scale, in ticks."),
            [observed_line(sources, series) for series in seen],
        ),
    ]


def found_parts(sources: Sources, sample: Sequence[Series]) -> list[Part]:
    """The parts with a sample's quotes in the month, its prices in the month before, and its bases."""
    link, month = month_of(link_month(sources.month)), month_of(sources.month)
    return [
        Part(
            message("Quotes"),
            message("The quotes with which {month} was frozen, in minor units of money.", month=month),
            [quote_line(sources, series) for series in sample],
        ),
        Part(
            message("The month before"),
            message("The price that each series counted as in that month, in ticks."),
            [then_line(sources, series) for series in sample],
        ),
        Part(
            message("Bases"),
            message("Bases are in ticks (10,000 per minor unit of money). The link month is {month}.", month=link),
            [base_line(sources, series) for series in sample],
        ),
    ]


def sample_glance(sources: Sources, code: str) -> Section:
    """The series of the sample in one table; those with the greatest changes come first."""
    samples = [
        (sources.own.carried_prices[sample].ticks, sources.then(sample)[0], sample) for sample in sources.samples[code]
    ]
    rows = [
        glance_row(sources, series, now, then)
        for now, then, series in sorted(
            samples, key=lambda sample: (-abs(Fraction(sample[0] - sample[1], sample[1])), sample[2])
        )
    ]
    heads = columns(
        *("series", "priced by", "item", "outlet", "found", "#receipt", "#counted before", "#counts as", "#percent"),
        "how",
    )
    note = message("The greatest changes come first.")
    return Section("glance", message("The sample at a glance"), note, heads, rows, message("No series."))


def glance_row(sources: Sources, series: Series, now: int, then: int) -> list[Cell]:
    """The cells of a series of the sample."""
    holder, quote = sources.holder(series, sources.month), sources.own.frozen.get(series)
    item, sent = sources.items[holder.item], sources.stored_quotes.get((series, sources.month))
    stands = sent is not None and quote is not None and sent.quote == (quote.mark, quote.value)
    how = message("imputed") if sources.own.carried_prices[series].imputed else message("observed")
    return [
        Code(slot_text(series)),
        Code(slot_text(holder[:2])),
        message(sentence_texts.ITEM, text=of_others(item.text), unit=of_others(item.unit)),
        sources.outlets[holder.outlet],
        mark_text(quote, holder.has_ended(sources.month)),
        sent.receipt if sent and stands else None,
        Ticks(then),
        Ticks(now),
        decimal(100 * (now - then), then, 1),
        message("matched") if sources.is_matched(series) else how,
    ]


# ==== the life of a series, month by month: who priced it, the quote, the price that counted, and whether it was
# imputed


class MonthOfSeries(NamedTuple):
    """A series in a month's latest release: its holder, its frozen quote, and the price that counted."""

    release: Release
    holder: Assignment
    found: Optional[Frozen]
    carried: Optional[Carried]


class Life(NamedTuple):
    """A series up to a month: its title, the events in its life, and its months."""

    title: Message
    facts: list[Message]
    months: Section


def series_in(office: StoredOffice, place: tuple[int, int]) -> tuple[Series, list[Assignment]]:
    """The series in a slot, and its assignments, from the first collector to the last. Raises NotExplained."""
    assignments = office.assignments()
    for assignment in assignments:
        if assignment[:2] == place:
            return assignment.series, [each for each in assignments if each.series == assignment.series]
    name = Code(slot_text(place))
    raise NotExplained(message("{slot} isn't a slot of the office: give COLLECTOR/SLOT", slot=name))


def life_of(office: StoredOffice, place: tuple[int, int], until: int) -> Life:
    """The life of the series in a slot, up to a month. Raises NotExplained if no such slot exists."""
    series, held = series_in(office, place)
    latest = {release.month: release for release in office.releases() if release.month <= until}
    frozen, carried = office.frozen_of(series), office.carried_of(series)
    months = []
    for release in latest.values():
        own = [assignment for assignment in held if assignment.first_month <= release.month]
        if own:
            found = frozen.get(release[:2]), carried.get(release[:2])
            months.append(MonthOfSeries(release, own[-1], *found))
    item = next(it for it in office.items() if it.code == held[0].item)
    outlet = office.outlets()[held[0].outlet]
    places = {"item": of_others(item.text), "unit": of_others(item.unit), "outlet": of_others(outlet)}
    name, code = Code(slot_text(series)), Code(item.code)
    title = message("Series {series}: {code} {item}, {unit}; {outlet}", series=name, code=code, **places)
    return Life(title, [*facts_of(office, held, months)], section_of(office, months))


# ---- in words


def facts_of(office: StoredOffice, held: Sequence[Assignment], months: Sequence[MonthOfSeries]) -> Iterator[Message]:
    """Sentences about hand-overs, replacements, and the months in which the series was imputed."""
    copied = office.copied_prices()
    for former, assignment in zip(held, held[1:]):
        yield handed_over(former, assignment, copied.get(assignment[:2]))
    new = [(month_of(month.release.month), month.found.mark) for month in months if month.found and is_new(month.found)]
    # t: the month of a replacement, and its mark: comparable or other
    replaced = [message("{month} ({mark})", month=month, mark=mark_words(mark)) for month, mark in new]
    if replaced:
        yield message("The product was replaced in {months}.", months=row_of(replaced))
    imputed = [month_of(month.release.month) for month in months if month.carried and month.carried.imputed]
    if imputed:
        yield message_of(
            "The price was imputed in {count} month: {months}.",
            "The price was imputed in {count} months: {months}.",
            len(imputed),
            months=row_of(imputed),
        )


def is_new(quote: Frozen) -> bool:
    """Whether another article replaced the one before."""
    return quote.mark in ("comparable", "other")


def handed_over(former: Assignment, assignment: Assignment, price: Optional[int]) -> Message:
    """A hand-over in words."""
    places: dict[str, object] = {
        "former": former.collector,
        "former_slot": former.slot,
        "month": month_of(assignment.first_month),
    }
    places.update(collector=assignment.collector, slot=assignment.slot)
    if price is None:
        return message(
            "Handed over from collector {former}, slot {former_slot} to collector {collector}, slot {slot} from {month} on,"
            " without a price.",
            **places,
        )
    return message(
        "Handed over from collector {former}, slot {former_slot} to collector {collector}, slot {slot} from {month} on, with"
        " the last price {price}.",
        **places,
        price=Price(price),
    )


def section_of(office: StoredOffice, months: Sequence[MonthOfSeries]) -> Section:
    """A table of the months."""
    places = {plan.year: plan.places for plan in office.plans()}
    rows = []
    for month in months:
        quote = office.quotes_of_slot(month.holder[:2]).get(month.release.month)
        stands = quote is not None and month.found is not None and quote[:2] == (month.found.mark, month.found.value)
        receipt = quote[2] if quote and stands else None
        code = places.get(month.release.month // 100, {}).get(month.holder.item, "") if month.carried else ""
        row: list[Cell] = [month_of(month.release.month), month.release.revision, Code(slot_text(month.holder[:2]))]
        text = mark_text(month.found, month.holder.has_ended(month.release.month))
        rows.append([*row, text, receipt, *carried_cells(month.carried), code])
    heads = columns(
        *("month", "#revision", "priced by", "found", "#receipt", "#counts as, ticks", "#scale", "how", "=aggregate")
    )
    return Section("life", message("Month by month"), "", heads, rows, message("No month is frozen."), shown=len(rows))


def carried_cells(it: Optional[Carried]) -> list[Cell]:
    """The cells for ticks, scale, and whether the price was observed or imputed."""
    if it is None:
        return [None, "", message("in no sample")]
    return [Ticks(it.ticks), f"{it.knum}/{it.kden}", message("imputed") if it.imputed else message("observed")]
