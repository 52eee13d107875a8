"""Civil times that the office's clock leaves out, or has twice: the page shows the resulting moment before such a time
is sent."""

from __future__ import annotations

from collections.abc import Iterator, Sequence
from datetime import datetime, timezone
from typing import Optional

from ...text.clocks import CIVIL, Clock
from ...text.message import Code, Message, message as _, moment_of
from ...text.others import of_others

LAST_MOMENT = 9_999_999_999
"""The greatest moment of a record, in seconds since 1970 UTC."""

WORDS = (_("opens"), _("closes"), _("is published"))
"""The three times of a window."""


def in_utc(at: int) -> Code:
    """`2027-03-28T01:30:00Z` of seconds since 1970 UTC, as RFC 3339 writes it."""
    return Code(datetime.fromtimestamp(at, timezone.utc).strftime("%Y-%m-%dT%H:%M:%SZ"))


def both_clocks(at: int) -> Message:
    """A moment by the office's clock and in UTC."""
    # t: a moment by the office's clock, and in brackets the same in UTC
    return _("{moment} ({utc})", moment=moment_of(at), utc=in_utc(at))


def clock_fault(text: str, clock: Clock) -> Optional[Message]:
    """The message about a civil time such as `2027-03-28T02:30` that the clock skips or shows twice."""
    try:
        civil, moment = datetime.strptime(text, CIVIL), clock.moment(text)
    except (ValueError, OverflowError):
        return None
    zone = clock.zone or timezone.utc
    first, second = (civil.replace(tzinfo=zone, fold=fold) for fold in (0, 1))
    ahead = [each.utcoffset() for each in (first, second)]
    if ahead[0] == ahead[1] or not 0 <= moment <= LAST_MOMENT:
        return None
    places = {"text": of_others(text), "taken": both_clocks(moment)}
    if second.timestamp() < first.timestamp():
        return _("The office's clock skips {text}, because it is moved forward then: it becomes {taken}.", **places)
    return _(
        "The office's clock shows {text} twice, because it is moved back then: the earlier time is used, "
        "{taken}, not {other}.",
        other=both_clocks(int(second.timestamp())),
        **places,
    )


def window_faults(fields: Sequence[str], clock: Clock) -> Iterator[Message]:
    """The warnings of a record `calendar` as it was typed; none of another record."""
    if len(fields) != 5 or fields[0] != "calendar":
        return
    for word, text in zip(WORDS, fields[2:]):
        if fault := clock_fault(text, clock):
            # t: a month, which of its three times, and a warning on that time
            yield _("{month}, {word}: {fault}", month=of_others(fields[1]), word=word, fault=fault)
