"""What an office names in files: special aggregates, measures of core inflation, and what the press reads of."""

from __future__ import annotations

import re
from collections.abc import Iterable, Mapping, Sequence
from functools import lru_cache
from pathlib import Path
from typing import NamedTuple

from ...office.table_rows import CODE
from ...text.exact import at_and_above
from ...text.terminal import Fault
from ...text.text_files import read_rows


# ==== special aggregates: sets of elementary aggregates that an office names in a file, such as core inflation or a
# region
#
# A row of the file `aggregates.csv` has an id, a title, and two lists of codes, apart by blanks: those that belong to
# the set (`in`) and those that don't (`out`). A code stands for all elementary aggregates at or below it, and the id of
# another set for all that are in that one. What is in both lists isn't in the set.
#
# A set can have further rows. Each says from which January on (`from`) it holds, since a year is linked to the December
# before it, and the rows before it hold for the years before. With nothing in it such a row ends the set.

HEAD = ["id", "title", "in", "out"]
FROM = "from"
"""The column that a file may have too."""

JANUARY = re.compile(r"2[01][0-9]{2}-01")
ID = re.compile(r"(?!CP[0-9])[A-Z][A-Z0-9_]{0,29}")
"""An id is one of SDMX, and none that a code has there; it names a page too."""


class BadSpecials(Fault):
    """A file of special aggregates with a fault; one line."""


class Special(NamedTuple):
    """A set as a row of the file names it: codes of the classification, and ids of other sets; `since` is the January
    from which on that holds, empty for all years. Without a name in `inside` the set ends before."""

    id: str
    title: str
    inside: tuple[str, ...]
    outside: tuple[str, ...] = ()
    since: str = ""

    @property
    def all_names(self) -> tuple[str, ...]:
        """All codes and ids of both lists."""
        return self.inside + self.outside


def read_specials(path: Path) -> tuple[Special, ...]:
    """The sets of a file, in its order. Raises BadSpecials."""
    return read_rows(path, specials_of, BadSpecials)


def specials_of(rows: Sequence[Sequence[str]]) -> tuple[Special, ...]:
    """The sets of some rows, the first of which contains the names of the columns. Raises BadSpecials."""
    if not rows or [*rows[0]] not in (HEAD, [*HEAD, FROM]):
        raise BadSpecials(f"its first row isn't {','.join(HEAD)}, with or without {FROM}")
    wide = len(rows[0])
    special_aggregates = [_special(number, row, wide) for number, row in enumerate(rows[1:], 2) if any(row)]
    _test_order(special_aggregates)
    for since in sorted({aggregate.since for aggregate in special_aggregates}):
        by_id = in_force(special_aggregates, since)
        for special_aggregate in by_id.values():
            _test_names(special_aggregate, by_id, {other.id for other in special_aggregates})
    return tuple(special_aggregates)


def _special(number: int, row: Sequence[str], wide: int) -> Special:
    """The set of a row, which has as many cells as the head."""
    if len(row) != wide:
        raise BadSpecials(f"row {number} has {len(row)} cells, and not {wide}")
    name, title, inside, outside, since = (cell.strip() for cell in (*row, "")[: len(HEAD) + 1])
    if not ID.fullmatch(name):
        raise BadSpecials(f"row {number}: {name or 'an empty text'} is no id of a set, such as CORE")
    if not title:
        raise BadSpecials(f"row {number}: {name} has no title")
    if since and not JANUARY.fullmatch(since):
        raise BadSpecials(f"row {number}: {name} is from {since}, which is no January such as 2027-01")
    if not inside and (outside or not since):
        raise BadSpecials(f"row {number}: {name} has nothing in it")
    return Special(name, title, tuple(inside.split()), tuple(outside.split()), since)


def _test_order(special_aggregates: Sequence[Special]) -> None:
    """Raises BadSpecials if a further row of a set doesn't begin after the one before."""
    last: dict[str, Special] = {}
    for aggregate in special_aggregates:
        earlier = last.get(aggregate.id)
        if earlier and aggregate.since <= earlier.since:
            raise BadSpecials(
                f"{aggregate.id} has two rows: the further one needs in the column {FROM} the January from which on it holds"
            )
        if not earlier and not aggregate.inside:
            raise BadSpecials(f"{aggregate.id} ends before it has anything in it")
        last[aggregate.id] = aggregate


def in_force(specials: Iterable[Special], month: str) -> dict[str, Special]:
    """By id the row of each set that holds in a month; none of a set that begins later."""
    return {
        special_aggregate.id: special_aggregate for special_aggregate in specials if special_aggregate.since <= month
    }


def _test_names(special: Special, by_id: Mapping[str, Special], ids: set[str]) -> None:
    """Raises BadSpecials if a set names what is neither a code nor one of the ids, or is made of itself."""
    for name in special.all_names:
        if name not in ids and not CODE.fullmatch(name):
            raise BadSpecials(f"{special.id}: {name} is neither a code such as 01.1 nor the id of a set")
    if special.id in _reach(special, by_id):
        raise BadSpecials(f"{special.id} is made of itself")


def _reach(special: Special, by_id: Mapping[str, Special]) -> set[str]:
    """The ids of all sets that a set is made of, through other sets too."""
    reaches: set[str] = set()
    ahead = [*special.all_names]
    while ahead:
        name = ahead.pop()
        if name in by_id and name not in reaches:
            reaches.add(name)
            ahead += by_id[name].all_names
    return reaches


class Sets:
    """The sets of a file, whose rows hold from some Januaries on."""

    def __init__(self, specials: Iterable[Special]):
        self._rows = [*specials]
        self._known = lru_cache(maxsize=None)(self._membership)

    @property
    def ids(self) -> list[str]:
        """All ids in the order of the file."""
        return [*dict.fromkeys(row.id for row in self._rows)]

    def title(self, name: str) -> str:
        """The title of a set, from its last row."""
        return [row.title for row in self._rows if row.id == name][-1]

    def last(self, name: str) -> Special:
        """The last row of a set that has something in it."""
        return [row for row in self._rows if row.id == name and row.inside][-1]

    def in_month(self, month: str) -> Membership:
        """The sets to which each elementary aggregate belongs in a month."""
        return self._known(max((row.since for row in self._rows if row.since <= month), default=""))

    def _membership(self, since: str) -> Membership:
        return Membership(in_force(self._rows, since).values())

    def unknown(self, codes: Iterable[str]) -> list[str]:
        """The codes that sets name and that aren't among some."""
        return sorted({name for row in self._rows for name in row.all_names} - {*codes, *self.ids})


class Membership:
    """Which elementary aggregates belong to which sets, each of which has one row."""

    def __init__(self, specials: Iterable[Special]):
        self._specials = {special_aggregate.id: special_aggregate for special_aggregate in specials}
        self._known: dict[tuple[str, str], bool] = {}

    def has(self, name: str, code: str) -> bool:
        """Whether an elementary aggregate belongs to a set, or is at or below a code."""
        special = self._specials.get(name)
        if special is None:
            return name in at_and_above(code)
        if (name, code) not in self._known:
            is_inside, is_outside = (
                any(self.has(it, code) for it in each) for each in (special.inside, special.outside)
            )
            self._known[name, code] = is_inside and not is_outside
        return self._known[name, code]


# ==== measures of analytical core inflation, which an office names in a file such as `core.csv`
#
# A row has an id, a title, a measure (`MEASURES`) and, of a trimmed mean, what is left out: percent of all weight at
# each end, or at the lower and at the upper end, apart by a blank. The rules of the measures are in `aggregated`.
#
# A measure can have further rows. Each says from which January on (`from`) it holds, and the rows before it hold for
# the years before. Without a measure such a row ends it.

CORE_HEAD = ["id", "title", "measure", "trim"]

MEDIAN, TRIMMED, ITEMS, WEIGHT = "median", "trimmed-mean", "items-rising", "weight-rising"
MEASURES = (MEDIAN, TRIMMED, ITEMS, WEIGHT)
"""The weighted median, a trimmed mean, and the shares of elementary aggregates and of their weight that rise."""

RISING = (ITEMS, WEIGHT)
"""The measures that are shares, and not changes."""

WHOLE = 10_000
"""All weight, in hundredths of a percent."""

PERCENT = re.compile(r"(0|[1-9][0-9]?)(?:\.([0-9]{1,2}))?")


class BadCore(Fault):
    """A file of core measures with a fault; one line."""


class CoreDefinition(NamedTuple):
    """A measure as a row of the file names it. `lower` and `upper` are what a trimmed mean leaves out at the ends, in
    hundredths of a percent of all weight; `since` is the January from which on that holds, empty for all years. Without a
    measure it ends before."""

    id: str
    title: str
    measure: str
    lower: int = 0
    upper: int = 0
    since: str = ""

    @property
    def is_share(self) -> bool:
        """Whether its figures are shares, and no changes."""
        return self.measure in RISING


def read_core(path: Path) -> tuple[CoreDefinition, ...]:
    """The measures of a file, in its order. Raises BadCore."""
    return read_rows(path, definitions_of, BadCore)


def definitions_of(rows: Sequence[Sequence[str]]) -> tuple[CoreDefinition, ...]:
    """The measures of some rows, the first of which contains the names of the columns. Raises BadCore."""
    if not rows or [*rows[0]] not in (CORE_HEAD, [*CORE_HEAD, FROM]):
        raise BadCore(f"its first row isn't {','.join(CORE_HEAD)}, with or without {FROM}")
    wide = len(rows[0])
    definitions = [_definition(number, row, wide) for number, row in enumerate(rows[1:], 2) if any(row)]
    _test_core_order(definitions)
    return tuple(definitions)


def _definition(number: int, row: Sequence[str], wide: int) -> CoreDefinition:
    """The measure of a row, which has as many cells as the head."""
    if len(row) != wide:
        raise BadCore(f"row {number} has {len(row)} cells, and not {wide}")
    name, title, measure, trim, since = (cell.strip() for cell in (*row, "")[: len(CORE_HEAD) + 1])
    if not ID.fullmatch(name):
        raise BadCore(f"row {number}: {name or 'an empty text'} is no id of a measure, such as MEDIAN")
    if not title:
        raise BadCore(f"row {number}: {name} has no title")
    if since and not JANUARY.fullmatch(since):
        raise BadCore(f"row {number}: {name} is from {since}, which is no January such as 2027-01")
    if measure not in MEASURES and (measure or trim or not since):
        raise BadCore(f"row {number}: {name} is {measure or 'nothing'}, and none of {', '.join(MEASURES)}")
    if (measure == TRIMMED) != bool(trim):
        wanted = "needs in trim" if measure == TRIMMED else "isn't trimmed, and has in trim"
        raise BadCore(f"row {number}: {name} {wanted} {trim or 'how many percent of all weight are left out'}")
    return CoreDefinition(name, title, measure, *_ends(number, name, trim), since)


def _ends(number: int, name: str, trim: str) -> tuple[int, int]:
    """The weight that is left out at the lower and at the upper end, in hundredths of a percent of the total weight."""
    if not trim:
        return 0, 0
    read = [PERCENT.fullmatch(part) for part in trim.split()]
    ends = [int(match[1]) * 100 + int((match[2] or "").ljust(2, "0")) for match in read if match]
    if len(ends) != len(read) or len(ends) > 2 or not 0 < sum(ends) * (3 - len(ends)) < WHOLE:
        raise BadCore(
            f"row {number}: {name} trims {trim}: wanted percent of all weight at each end, such as 15, or at the lower and"
            " the upper end, such as 24 31, less than 100 together"
        )
    return ends[0], ends[-1]


def _test_core_order(core_definitions: Sequence[CoreDefinition]) -> None:
    """Raises BadCore if a further row of a measure doesn't begin after the one before, or makes shares of changes."""
    last: dict[str, CoreDefinition] = {}
    for definition in core_definitions:
        earlier = last.get(definition.id)
        if earlier and definition.since <= earlier.since:
            raise BadCore(
                f"{definition.id} has two rows: the further one needs in the column {FROM} the January from which on it holds"
            )
        if not earlier and not definition.measure:
            raise BadCore(f"{definition.id} ends before it is anything")
        if earlier and definition.measure and earlier.measure and definition.is_share != earlier.is_share:
            raise BadCore(
                f"{definition.id} is a share in one row and a change in another: give one of them an id of its own"
            )
        last[definition.id] = definition


def definition_in(core_definitions: Sequence[CoreDefinition], month: str) -> CoreDefinition:
    """The row of a measure that holds in a month; `found` are all rows of it. Before the first one it is nothing."""
    own = [definition for definition in core_definitions if definition.since <= month]
    return own[-1] if own else core_definitions[0]._replace(measure="")


# ==== the aggregates and measures that the sentences of releases name: the word `press` of a configuration, `FOOD CORE
# from 2027-01`
#
# It has ids of special aggregates and of measures of core inflation, and may say the month of the first release that
# names them. An id of which no sentence would ever say anything is refused.

PRESS = re.compile(r"(.*?)(?: +from +(2[01][0-9]{2}-(?:0[1-9]|1[0-2])))?")


class BadPress(Fault):
    """Names that no sentence can say; one line."""


class PressNames(NamedTuple):
    """The ids that sentences name, and the month of the first release that has such sentences, empty if all have."""

    ids: tuple[str, ...] = ()
    since: str = ""


def press_names(text: str, specials: Sequence[Special], core: Sequence[CoreDefinition]) -> PressNames:
    """The names of a text, which are among some special aggregates and measures. Raises BadPress."""
    read = PRESS.fullmatch(text.replace(",", " ").strip())
    assert read
    names = PressNames(tuple(read[1].split()), read[2] or "")
    for name in names.ids:
        rows = [
            (special_aggregate.since, bool(special_aggregate.inside))
            for special_aggregate in specials
            if special_aggregate.id == name
        ]
        rows += [
            (core_definition.since, bool(core_definition.measure))
            for core_definition in core
            if core_definition.id == name
        ]
        if not rows:
            raise BadPress(f"press: {name} is no id of `aggregates` or `core`")
        if any(core_definition.is_share for core_definition in core if core_definition.id == name):
            raise BadPress(
                f"press: {name} is a share, and no sentence says one: wanted sets, a median or trimmed means"
            )
        if not _has_some(rows, names.since):
            raise BadPress(f"press: {name} ends before {names.since}, when sentences begin to name it")
    if len({*names.ids}) < len(names.ids):
        raise BadPress("press names an id twice")
    return names


def _has_some(rows: Sequence[tuple[str, bool]], since: str) -> bool:
    """Whether a set or a measure has something in it in a month or later; each row says from when on it holds, and whether it
    has something."""
    now = [has for at, has in rows if at <= since][-1:]
    return any([*now, *(has for at, has in rows if at > since)])
