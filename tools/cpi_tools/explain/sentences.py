"""A figure in three to five sentences, which come before its lines: the lines derive each figure in them."""

from __future__ import annotations

from collections import Counter
from collections.abc import Iterable, Iterator, Sequence
from fractions import Fraction
from typing import NamedTuple, Optional

from ..office.stored import COMPARABLE, Assignment, Release, Series
from ..text.exact import decimal, depth_of, points, tenths, with_sign
from ..text.message import Figure, Message, MonthName, message, month_name_of, part_texts, whole
from ..text.others import Worded, of_others
from ..text.terminal import link_month, month_before
from . import sentence_texts
from .explanation_lines import (
    Line,
    Part,
    below,
    contributions,
    index_before,
    level_before,
    level_year_before,
    link_level,
    write_sum,
)
from .release_sources import AGGREGATE, WHOLE_SCALE, Sources


# ==== the texts for the places of sentences: months, names, reasons and levels as people write them

MOST_NAMES = 3
"""More names than this aren't listed in a sentence."""


def month_words(month: int) -> MonthName:
    """`January 2026` for 202601."""
    return month_name_of(month)


def count_words(count: int) -> Figure:
    """A count with separators, `5,892`."""
    return whole(count)


def level_words(millionths: int) -> Figure:
    """A level or an index as it is published, `103.6`."""
    return Figure(points(millionths, 1))


def item_words(sources: Sources, series: Series) -> Message:
    """The item of a series, `Rice, 1 kg`."""
    item = sources.items[sources.holder(series, sources.month).item]
    return message(sentence_texts.ITEM, text=of_others(item.text), unit=of_others(item.unit))


def outlet_words(sources: Sources, series: Series) -> Worded:
    """The outlet of a series."""
    return of_others(sources.outlets[sources.holder(series, sources.month).outlet])


def outlets_of(sources: Sources, sample: Iterable[Series]) -> set[int]:
    """The numbers of the outlets in which some series are priced."""
    return {sources.holder(series, sources.month).outlet for series in sample}


def names(of: Sequence[Worded]) -> Message:
    """At most three names, and a note if there are more."""
    few = part_texts(of[:MOST_NAMES])
    return message(sentence_texts.AND_MORE, names=few) if len(of) > MOST_NAMES else few


def reason_of(sources: Sources, series: Series) -> str:
    """The reason why a series is imputed, a key of `sentence_texts.REASONS`."""
    quote = sources.own.frozen.get(series)
    if quote and quote.mark not in COMPARABLE:
        return quote.mark
    return "ended" if sources.holder(series, sources.month).has_ended(sources.month) else ""


def reasons_by_name(sources: Sources, imputed: Sequence[Series]) -> Message:
    """The reasons why some series are imputed: outlet by outlet if they are few, otherwise counted."""
    if len(imputed) > MOST_NAMES:
        return counted_reasons(sources, imputed)
    parts = [(outlet_words(sources, series), sentence_texts.REASONS[reason_of(sources, series)]) for series in imputed]
    return part_texts(
        [message(sentence_texts.NAMED_REASON, outlet=outlet, reason=message(reason)) for outlet, reason in parts]
    )


def counted_reasons(sources: Sources, imputed: Iterable[Series]) -> Message:
    """The reasons why some series are imputed with their counts, the most frequent first."""
    counts = Counter(sentence_texts.REASONS[reason_of(sources, series)] for series in imputed)
    ordered = sorted(counts.items(), key=lambda count: (-count[1], count[0]))
    return part_texts(
        [
            message(sentence_texts.COUNTED_REASON, reason=message(reason), count=count_words(count))
            for reason, count in ordered
        ]
    )


def chained_places(sources: Sources, code: str) -> dict[str, str]:
    """The places `december`, `link` and `level` of a node: its level then and now."""
    link, level = level_words(link_level(sources, code)), level_words(sources.own.levels[code].chained)
    return {"december": month_words(link_month(sources.month)), "link": link, "level": level}


# ==== the sentences of an elementary aggregate: which prices were compared, which are imputed, and what they add up to


class Sample(NamedTuple):
    """The series of an aggregate: all of them, those that could be compared with the month before, and those that are
    imputed."""

    all: Sequence[Series]
    matched: Sequence[Series]
    imputed: Sequence[Series]


def sentences_of_prices(sources: Sources, code: str) -> Iterator[Message]:
    """The sentences from the prices that were compared to the level."""
    every = sources.samples[code]
    matched = [sample for sample in every if sources.is_matched(sample)]
    sample = Sample(every, matched, [sample for sample in every if not sources.is_comparable(sample)])
    if matched:
        yield of_compared(sources, matched)
        if sample.imputed:
            yield of_imputed(sources, sample)
    elif sample.imputed:
        yield of_carried(sources, sample.imputed)
    else:
        months = {"before": month_words(month_before(sources.month)), "month": month_words(sources.month)}
        yield message(sentence_texts.NONE_COMPARED, **months)
    yield of_level(sources, code, sample)


# ---- what was compared


def change_of(sources: Sources, series: Series) -> Fraction:
    """The relative change of the price that a series counts as."""
    then = sources.then(series)[0]
    return Fraction(sources.own.carried_prices[series].ticks - then, then)


def span(sources: Sources, series: Series) -> dict[str, Message]:
    """The places `then` and `now` of a series: the prices that it counted as and counts as."""
    then, now = sources.then(series)[0], sources.own.carried_prices[series].ticks
    return {"then": sources.money.of_ticks(then), "now": sources.money.of_ticks(now)}


def of_compared(sources: Sources, matched: Sequence[Series]) -> Message:
    """The sentence that says how many prices were compared, in which shops, and which of them changed most."""
    most = min(matched, key=lambda series: (-abs(change_of(sources, series)), series))
    changes = [change_of(sources, series) for series in matched]
    rose, fell = sum(change > 0 for change in changes), sum(change < 0 for change in changes)
    outlets = [*dict.fromkeys(outlet_words(sources, series) for series in matched)]
    return message(
        compared_form(sources, matched, most),
        count=count_words(len(matched)),
        shops=count_words(len(outlets_of(sources, matched))),
        outlets=names(outlets),
        rose=count_words(rose),
        fell=count_words(fell),
        item=item_words(sources, most),
        outlet=outlet_words(sources, most),
        **span(sources, most),
    )


def compared_form(sources: Sources, matched: Sequence[Series], most: Series) -> str:
    """The form of the sentence about the prices that were compared."""
    is_replaced = sources.then(most)[1] != WHOLE_SCALE
    if len(matched) == 1:
        return sentence_texts.ONE_COMPARED_REPLACED if is_replaced else sentence_texts.ONE_COMPARED
    if len(outlets_of(sources, matched)) == 1:
        if not change_of(sources, most):
            return sentence_texts.COMPARED_UNCHANGED_IN_ONE_SHOP
        return sentence_texts.COMPARED_REPLACED_IN_ONE_SHOP if is_replaced else sentence_texts.COMPARED_IN_ONE_SHOP
    if not change_of(sources, most):
        return sentence_texts.COMPARED_UNCHANGED
    return sentence_texts.COMPARED_REPLACED if is_replaced else sentence_texts.COMPARED


# ---- what wasn't


def of_imputed(sources: Sources, sample: Sample) -> Message:
    """The sentence that says why prices are imputed, and with which prices they move."""
    moved = {
        "earlier": sources.money.of_ticks(sum(sources.then(it)[0] for it in sample.matched)),
        "later": sources.money.of_ticks(sum(sources.own.carried_prices[it].ticks for it in sample.matched)),
    }
    if len(sample.imputed) > 1:
        reasons = reasons_by_name(sources, sample.imputed)
        return message(sentence_texts.IMPUTED, count=count_words(len(sample.imputed)), reasons=reasons, **moved)
    (only,) = sample.imputed
    named = {"item": item_words(sources, only), "outlet": outlet_words(sources, only)}
    return message(sentence_texts.ONE_IMPUTED[reason_of(sources, only)], **named, **moved, **span(sources, only))


def of_carried(sources: Sources, imputed: Sequence[Series]) -> Message:
    """The sentence about the prices that the desk decided to carry."""
    before, reasons = month_words(month_before(sources.month)), reasons_by_name(sources, imputed)
    if len(imputed) > 1:
        return message(sentence_texts.CARRIED, count=count_words(len(imputed)), reasons=reasons, before=before)
    named = {"item": item_words(sources, imputed[0]), "outlet": outlet_words(sources, imputed[0])}
    now = span(sources, imputed[0])["now"]
    return message(sentence_texts.ONE_CARRIED, reasons=reasons, before=before, now=now, **named)


# ---- what it adds up to


def returned_of(sources: Sources, sample: Sample) -> list[Series]:
    """The series that were found again after a month without a price, the one that changed most first."""
    found = [it for it in sample.all if sources.is_comparable(it) and it not in sample.matched]
    return sorted(found, key=lambda it: (-abs(change_of(sources, it)), it))


def of_level(sources: Sources, code: str, sample: Sample) -> Message:
    """The sentence that derives the level from the prices. It also names the price that was found again, since no
    sentence before it does."""
    returned = returned_of(sources, sample)
    sums = sum(sources.base(it)[0] for it in sample.all), sum(sources.own.carried_prices[it].ticks for it in sample.all)
    base, now = map(sources.money.of_ticks, sums)
    return message(
        level_form(sources, len(sample.all), returned),
        count=count_words(len(sample.all)),
        base=base,
        now=now,
        **(returned_places(sources, returned) if returned else {}),
        **chained_places(sources, code),
    )


def returned_places(sources: Sources, returned: Sequence[Series]) -> dict[str, object]:
    """The places of a sentence about prices that were found again: their number, and the one that changed most, with
    the prices that it counted as and counts as."""
    most = returned[0]
    then, places = span(sources, most).values()
    named = {"item": item_words(sources, most), "outlet": outlet_words(sources, most)}
    return {"returned": count_words(len(returned)), "then": then, "found": places, **named}


def level_form(sources: Sources, count: int, returned: Sequence[Series]) -> str:
    """The form of the sentence about so many prices, some of which were found again."""
    if not returned:
        return sentence_texts.ONE_PRICE_MAKES if count == 1 else sentence_texts.PRICES_MAKE
    is_replaced = sources.then(returned[0])[1] != WHOLE_SCALE
    if count == 1:
        return (
            sentence_texts.ONE_RETURNED_REPLACED_PRICE_MAKES if is_replaced else sentence_texts.ONE_RETURNED_PRICE_MAKES
        )
    if len(returned) == 1:
        return (
            sentence_texts.PRICES_WITH_ONE_RETURNED_REPLACED_MAKE
            if is_replaced
            else sentence_texts.PRICES_WITH_ONE_RETURNED_MAKE
        )
    if not change_of(sources, returned[0]):
        return sentence_texts.PRICES_WITH_RETURNED_UNCHANGED_MAKE
    return (
        sentence_texts.PRICES_WITH_RETURNED_REPLACED_MAKE if is_replaced else sentence_texts.PRICES_WITH_RETURNED_MAKE
    )


# ==== the sentences of a node above aggregates: the largest contributions to its change, the prices that it rests on,
# and its mean


def sentences_of_aggregates(sources: Sources, node: str) -> Iterator[Message]:
    """The sentences from the largest contributions to the level."""
    yield of_contributions(sources, node)
    yield of_prices(sources, node)
    codes = below(sources, node)
    yield message(
        sentence_texts.AGGREGATES_MAKE if len(codes) > 1 else sentence_texts.ONE_AGGREGATE_MAKES,
        count=count_words(len(codes)),
        index=level_words(sources.own.levels[node].within),
        **chained_places(sources, node),
    )


def has_moved(sources: Sources, code: str) -> bool:
    """Whether an aggregate moved the nodes above it in the month."""
    own = sources.own.levels[code]
    return own.weight > 0 and own.within != index_before(sources, code)


def of_contributions(sources: Sources, node: str) -> Message:
    """The sentence about the largest contributions to the month's change, up or down. It omits contributions that round
    to 0.00."""
    moved = sum(has_moved(sources, code) for code in below(sources, node))
    found = ((code, decimal(added.numerator, 10**6, 2)) for added, code, _ in contributions(sources, node))
    parts = [(of_others(sources.plan.titles[code]), Figure(with_sign(text))) for code, text in found if text != "0.00"]
    if not parts:
        return message(sentence_texts.SMALL_CONTRIBUTIONS if moved else sentence_texts.NO_CONTRIBUTION)
    if len(parts) == 1:
        form = sentence_texts.ONE_CONTRIBUTION if moved == 1 else sentence_texts.MOST_CONTRIBUTION
        return message(form, title=parts[0][0], points=parts[0][1])
    most = [message(sentence_texts.CONTRIBUTION, title=title, points=points) for title, points in parts[:MOST_NAMES]]
    return message(sentence_texts.CONTRIBUTIONS, contributions=part_texts(most))


# ---- what it rests on


def imputed_of(sources: Sources, sample: Sequence[Series]) -> list[Series]:
    """The series of a sample that are imputed."""
    return [series for series in sample if sources.own.carried_prices[series].imputed]


def samples_part(sources: Sources, node: str) -> Part:
    """The number of a node's prices, how many of them are imputed, and in how many outlets collectors searched for
    them."""
    samples = [sources.samples[code] for code in below(sources, node)]
    counts, imputed = [len(sample) for sample in samples], [len(imputed_of(sources, sample)) for sample in samples]
    outlets = len(outlets_of(sources, (series for sample in samples for series in sample)))
    lines = [
        Line(
            message("prices below"),
            write_sum(counts),
            sum(counts),
            message("the samples of the aggregates below, in the order of their codes"),
        ),
        Line(message("imputed below"), write_sum(imputed), sum(imputed), message("of these")),
        Line(message("outlets below"), "", outlets, message("each counted once")),
    ]
    return Part(
        message("Prices and outlets"),
        message("The numbers of the aggregates below, in the order of their codes."),
        lines,
    )


def of_prices(sources: Sources, node: str) -> Message:
    """The sentence that says how many prices there are, in how many shops, and why some of them are imputed."""
    sample = [series for code in below(sources, node) for series in sources.samples[code]]
    imputed, shops = imputed_of(sources, sample), len(outlets_of(sources, sample))
    return message(
        prices_form(len(sample), shops, len(imputed)),
        prices=count_words(len(sample)),
        shops=count_words(shops),
        outlet=outlet_words(sources, sample[0]),
        imputed=count_words(len(imputed)),
        reasons=reasons_below(sources, node, imputed),
    )


def prices_form(prices: int, shops: int, imputed: int) -> str:
    """The form of the sentence about so many prices in so many shops."""
    if prices == 1:
        return sentence_texts.ONE_PRICE_IMPUTED if imputed else sentence_texts.ONE_PRICE_FOUND
    if not imputed:
        return sentence_texts.ALL_FOUND_IN_ONE_SHOP if shops == 1 else sentence_texts.ALL_FOUND
    if imputed == 1:
        return sentence_texts.ONE_OF_PRICES_IMPUTED_IN_ONE_SHOP if shops == 1 else sentence_texts.ONE_OF_PRICES_IMPUTED
    return sentence_texts.PRICES_IMPUTED_IN_ONE_SHOP if shops == 1 else sentence_texts.PRICES_IMPUTED


def reasons_below(sources: Sources, node: str, imputed: Sequence[Series]) -> Message:
    """The reasons why prices are imputed, and the aggregates that the desk carried."""
    reasons = counted_reasons(sources, imputed)
    carried = [of_others(sources.plan.titles[code]) for code in below(sources, node) if is_carried(sources, code)]
    return part_texts([reasons, message(sentence_texts.CARRIED_BELOW, titles=names(carried))]) if carried else reasons


def is_carried(sources: Sources, code: str) -> bool:
    """Whether no price of an aggregate could be compared, so that it is carried."""
    sample = sources.samples[code]
    return bool(imputed_of(sources, sample)) and not any(sources.is_matched(sample) for sample in sample)


# ==== A figure in three to six sentences, which come before its lines. The lines derive each figure in them.


def sentences_of(sources: Sources, code: str) -> list[Message]:
    """The sentences of a node whose lines are true."""
    parts = sentences_of_prices if depth_of(code) == AGGREGATE else sentences_of_aggregates
    return [of_changes(sources, code), *parts(sources, code), *of_events(sources, code)]


def way(change: Optional[int], then: Optional[int], now: int) -> str:
    """The direction in which prices moved, from a change in tenths of a percent and the two levels before and after
    it."""
    if change is None or then is None:
        return sentence_texts.NONE
    if not change:
        return sentence_texts.SAME if now == then else sentence_texts.SMALL
    return sentence_texts.ROSE if change > 0 else sentence_texts.FELL


def of_changes(sources: Sources, code: str) -> Message:
    """The sentence about the monthly and the annual change of prices."""
    own = sources.own.levels[code]
    on_month = way(own.month_change, level_before(sources, code), own.chained)
    on_year = way(own.year_change, level_year_before(sources, code), own.chained)
    return message(
        sentence_texts.CHANGES[on_month, on_year],
        title=of_others(sources.plan.titles[code]),
        change=Figure(tenths(abs(own.month_change))),
        year_change=Figure(tenths(abs(own.year_change or 0))),
        before=month_words(month_before(sources.month)),
        month=month_words(sources.month),
        year_before=month_words(sources.month - 100),
    )


# ---- what happened to the month


def other_revision(sources: Sources, code: str) -> Optional[Release]:
    """The revision that replaced this one, or that this one replaced; None if it doesn't contain the node."""
    own = sources.own.release
    others = [
        release for release in sources.releases if release.month == own.month and release.revision != own.revision
    ]
    revision = others[-1] if others else None
    return revision if revision and code in sources.office.levels(revision) else None


def given_away(sources: Sources, code: str) -> list[tuple[Assignment, Assignment]]:
    """The series of a sample that went to another collector in the month: the former and the new assignment of each."""
    found = []
    for series in sources.samples.get(code, []):
        held = sources.assignments[series]
        pairs = zip(held, held[1:])
        found += [
            pair for pair in pairs if pair[1].first_month == sources.month and pair[0].collector != pair[1].collector
        ]
    return found


def of_events(sources: Sources, code: str) -> Iterator[Message]:
    """At most one sentence, about the revision and about series that other collectors price from now on."""
    other, away = other_revision(sources, code), given_away(sources, code)
    form = event_form(sources.own.release, other, len(away))
    if not form:
        return
    places: dict[str, object] = {"month": month_words(sources.month), "revision": sources.own.release.revision}
    if other:
        places["other"], places["level"] = other.revision, level_words(sources.office.levels(other)[code].chained)
    if away:
        former, now = away[0]
        item = sources.items[now.item]
        places["item"] = message(sentence_texts.ITEM, text=of_others(item.text), unit=of_others(item.unit))
        places["outlet"] = of_others(sources.outlets[now.outlet])
        places.update(count=count_words(len(away)), collector=now.collector, former=former.collector)
    yield message(form, **places)


def event_form(own: Release, other: Optional[Release], away: int) -> str:
    """The form of the sentence about the month's revision and hand-overs; empty if there are none."""
    if not other:
        return "" if not away else sentence_texts.HANDED_OVER if away == 1 else sentence_texts.HANDED_OVER_MANY
    is_past = other.revision > own.revision
    if not away:
        return sentence_texts.REVISED_SINCE if is_past else sentence_texts.REVISED
    if away == 1:
        return sentence_texts.REVISED_SINCE_HANDED_OVER if is_past else sentence_texts.REVISED_HANDED_OVER
    return sentence_texts.REVISED_SINCE_HANDED_OVER_MANY if is_past else sentence_texts.REVISED_HANDED_OVER_MANY
