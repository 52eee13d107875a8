"""The configuration of a pack, a file like `office.ini`: who publishes, and under which names.

Values of the configuration that change with a release: `2015, 2025 from 2026-01`.

The last value is that of all pages and files. The page of an earlier release keeps the one of its own month.
"""

from __future__ import annotations

import configparser
import re
from collections.abc import Mapping, Sequence
from pathlib import Path
from typing import NamedTuple, Optional

from ...office.price_rules import FEWEST_OUTLETS
from ...text.clocks import UTC, Clock, NoZone, clock_of
from ...text.languages import LATIN, SOURCE
from ...text.terminal import Fault, because_of
from .announcements import Announced, Planned, Reason, read_planned, read_reasons
from .survey_rows import FEWEST_LEAST, LEAST_OUTLETS, MOST_LEAST, Average, Cell, read_averages, read_counts
from .own_words import (
    BadColour,
    BadLanguages,
    Colours,
    OfficeLanguages,
    Own,
    OwnWords,
    colours_of,
    read_languages,
    read_own_words,
)
from .specials import BadPress, CoreDefinition, PressNames, Special, press_names, read_core, read_specials
from .profiles import BadProfile, Profile, read_profile
from .seasonal_series import Seasonal, read_seasonal
from .shown_figures import EXACT, RATES

ID = re.compile(r"[A-Za-z0-9_$@-]{1,60}")
NAME = re.compile(r"[A-Za-z][A-Za-z0-9_-]{0,59}")
"""An id that is a name in XML too, so that it begins with a letter."""

AGENCY = re.compile(r"[A-Za-z][A-Za-z0-9_-]*(\.[A-Za-z][A-Za-z0-9_-]*)*")
LANGUAGE = re.compile(r"[a-z]{2,3}(-[A-Za-z0-9]{2,8})*")
LIST = re.compile(r"[A-Za-z][A-Za-z0-9_.-]*:[A-Za-z0-9_@$-]+\([0-9]+(\.[0-9]+)*\)")
REFERENCE = re.compile(r"2[01][0-9]{2}(-(0[1-9]|1[0-2]))?")
DOI = re.compile(r"10\.[0-9]{4,9}(\.[0-9]+)*/[A-Za-z0-9._;()/-]*[A-Za-z0-9]")
ADDRESS = re.compile(r"https?://[A-Za-z0-9.-]+(:[0-9]{1,5})?(/[A-Za-z0-9._~-]+)*/?")

NAMES = ("agency", "area", "office", "title", "country", "contact", "licence", "reference", "currency", "minor_digits",
         "without", "aggregates", "rates", "language", "provisional", "address", "zone",
         "calendar", "years", "revisions", "languages", "digits", "about", "doi", "quality",
         "least_outlets", "profiles", "core", "press", "colour", "colour_dark", "with", "average_prices", "seasonal")  # fmt: skip
NEEDED = ("agency", "area", "office")


SDMX_FORMS = ("sdmx-csv", "sdmx-ml")
JSON_STAT, PX = "json-stat", "px"
PICTURES, SLICES = "pictures", "slices"
FORMS = (*SDMX_FORMS, JSON_STAT, PX, PICTURES, SLICES)
"""The forms of the observations that a pack may be without; in a national one they are most of all bytes. Without
pictures there are no files of them, and no pages to embed; those in the pages stay. Slices are files of parts of the
observations (`slices`)."""


SQLITE, PDF = "sqlite", "pdf"
MORE_FORMS = (SQLITE, PDF)
"""The forms that a pack has only if the office wants them."""


TABLES = "tables"
"""The value of `quality` if the office has no file of counts: quality figures from published tables only."""


MOST_PROVISIONAL = 24
"""The largest number of months that can be provisional."""


class BadConfig(Fault):
    """A configuration with a fault; one line."""


class KnownIds(NamedTuple):
    """The ids of SDMX that an office can have otherwise: those that are names in XML too, those of codes, the groups in
    which each is another, and those of shared lists, whose value is like `SDMX:CL_FREQ(2.1)`."""

    names: frozenset[str] = frozenset()
    codes: frozenset[str] = frozenset()
    apart: tuple[frozenset[str], ...] = ()
    lists: frozenset[str] = frozenset()

    @property
    def all(self) -> frozenset[str]:
        """All ids that an office can choose."""
        return self.names | self.codes | self.lists


class Config(NamedTuple):
    """Who publishes.

    `agency` and `area` are ids of SDMX, `reference` is a year or a month whose level is 100 (empty: December before an
    item came), `rates` is what changes are computed from (`shown.RATES`), `currency` and `minor_digits` (0 to 4) are
    those of the calculator's amounts, `without` has the forms that aren't written, `language` is that of titles, `ids`
    are the office's own ids of SDMX by those that are used else, `specials` its special aggregates, `provisional` is
    how many of the last months it may still revise (0 to MOST_PROVISIONAL), `years` how many years are in the files of
    the folder `data` (None: as many as don't make them large), `speaks` are the languages of the pages (without one
    they are English), `announced` are the releases that the pack before announced, and these do, `about` is what the
    office says of the index in its own words, and `doi` is the DOI of the index, with which those of its releases
    begin. With `has_quality`, the pack contains quality figures, with the `counts` of the survey, in which a division
    has `least_outlets`; with `has_averages` there are `averages` of prices of as many. `profiles` are the structures of
    other agencies in which the series are written too, `core` the office's measures of analytical core inflation, and
    `also` the forms of MORE_FORMS that it wants. `press` are the ids of special aggregates and of such measures that
    the sentences of releases name, those of months from `press_since` on, and `colours` the office's own colour on its
    pages. `seasonal` is its folder of adjusted series.
    """

    agency: str
    area: str
    office: str
    title: str = "Consumer price index"
    country: str = ""
    contact: str = ""
    licence: str = ""
    reference: str = ""
    currency: str = ""
    minor_digits: int = 2
    without: frozenset[str] = frozenset()
    ids: Mapping[str, str] = {}
    specials: tuple[Special, ...] = ()
    rates: str = EXACT
    language: str = "en"
    provisional: int = 0
    address: str = ""
    clock: Clock = UTC
    planned: tuple[Planned, ...] = ()
    references: tuple[Dated, ...] = ()
    all_rates: tuple[Dated, ...] = ()
    years: Optional[int] = None
    all_provisional: tuple[Dated, ...] = ()
    reasons: tuple[Reason, ...] = ()
    speaks: OfficeLanguages = OfficeLanguages()
    announced: tuple[Announced, ...] = ()
    about: OwnWords = OwnWords()
    has_quality: bool = False
    counts: tuple[Cell, ...] = ()
    least_outlets: int = LEAST_OUTLETS
    profiles: tuple[Profile, ...] = ()
    doi: str = ""
    core: tuple[CoreDefinition, ...] = ()
    press: tuple[str, ...] = ()
    press_since: str = ""
    colours: Optional[Colours] = None
    also: frozenset[str] = frozenset()
    has_averages: bool = False
    averages: tuple[Average, ...] = ()
    seasonal: Optional[Seasonal] = None

    def reference_in(self, month: str) -> str:
        """The reference period in the release of a month."""
        return value_in(self.references, month) if self.references else self.reference

    def rates_in(self, month: str) -> str:
        """The rule for changes in the release of a month: the levels from which they are computed."""
        return value_in(self.all_rates, month) if self.all_rates else self.rates

    def provisional_in(self, month: str) -> int:
        """The number of last months that the office could still revise at the release of a month."""
        return int(value_in(self.all_provisional, month)) if self.all_provisional else self.provisional

    def has(self, form: str) -> bool:
        """Whether the observations are written in a form."""
        return form not in self.without

    def spoken(self, tag: str) -> Config:
        """The configuration with the office's own texts in a language."""
        return self._replace(**self.speaks.own.get(tag, Own()).words)  # type: ignore[arg-type]

    def id(self, name: str) -> str:
        """The id of SDMX that this office uses."""
        return self.ids.get(name, name)


def read_config(path: Path, known: KnownIds = KnownIds()) -> Config:
    """The sections `[office]` and `[sdmx]` of a file; `known` are the ids that the latter may name. The files of special
    aggregates, of announced releases and of reasons, and the folder of the office's own words, if there are any, are named
    from the folder of this file.

    Raises BadConfig, BadSpecials, BadCalendar, BadReasons, BadCounts, BadSeasonal, or a fault of `own_words`.
    """
    parser = _read_sections(path)
    words = _office_words(parser)
    press, own_colours = words.pop("press", ""), [words.pop(name, "") for name in ("colour", "colour_dark")]
    quality, least_outlets = words.pop("quality", ""), _least_outlets(path, words.pop("least_outlets", ""))
    averages = words.pop("average_prices", "")
    profiles = words.pop("profiles", "").replace(",", " ").split()
    ids = dict(parser["sdmx"]) if "sdmx" in parser else {}
    specials, calendar, reasons, about, core, seasonal = (
        words.pop(name, "") for name in ("aggregates", "calendar", "revisions", "about", "core", "seasonal")
    )
    sections = {name: dict(parser[name]) for name in parser.sections() if name not in ("office", "sdmx")}
    languages, digits = words.pop("languages", ""), words.pop("digits", LATIN)
    try:
        speaks = read_languages(path, languages, digits, sections)
        config = _config(words, ids, known, read_specials(path.parent / specials) if specials else ())
    except BadConfig as fault:
        raise BadConfig(f"{path}: {fault}") from None
    except BadLanguages as fault:
        raise BadConfig(str(fault)) from None
    try:
        colours = colours_of(*own_colours) if any(own_colours) else None
    except BadColour as fault:
        raise BadConfig(f"{path}: {fault}") from None
    measures = _core(path, core, config.specials) if core else ()
    named = _press(path, press, config, measures)
    return config._replace(
        core=measures,
        press=named.ids,
        press_since=named.since,
        colours=colours,
        speaks=speaks,
        planned=read_planned(path.parent / calendar, config.clock) if calendar else (),
        reasons=read_reasons(path.parent / reasons, config.clock) if reasons else (),
        about=read_own_words(path.parent / about, speaks.languages or (SOURCE,)) if about else OwnWords(),
        has_quality=bool(quality),
        counts=read_counts(path.parent / quality, least_outlets) if quality not in ("", TABLES) else (),
        least_outlets=least_outlets,
        has_averages=bool(averages),
        averages=_averages(path, averages, config.minor_digits, least_outlets) if averages else (),
        profiles=_profiles(path, profiles),
        seasonal=read_seasonal(path.parent / seasonal) if seasonal else None,
    )


def _core(path: Path, name: str, specials: tuple[Special, ...]) -> tuple[CoreDefinition, ...]:
    """The measures of core inflation of a file; their ids are in the same list as those of special aggregates. Raises
    BadCore or BadConfig."""
    cores = read_core(path.parent / name)
    twice = sorted({core.id for core in cores} & {special_aggregate.id for special_aggregate in specials})
    if twice:
        raise BadConfig(f"{path}: core: {twice[0]} is the id of a special aggregate")
    return cores


def _press(path: Path, text: str, config: Config, core: Sequence[CoreDefinition]) -> PressNames:
    """The aggregates and measures that the sentences of releases name. Raises BadConfig."""
    try:
        named = press_names(text, config.specials, core)
    except BadPress as fault:
        raise BadConfig(f"{path}: {fault}") from None
    months = [named.since, *(rate.since for rate in config.all_rates if rate.since > named.since)]
    if named.ids and all(config.rates_in(month) != EXACT for month in months):
        raise BadConfig(f"{path}: press: sentences say changes with `rates = exact` only, and rates is {config.rates}")
    return named


def _averages(path: Path, name: str, digits: int, least_outlets: int) -> tuple[Average, ...]:
    """The average prices of a file. Raises BadAverages or BadConfig."""
    return read_averages(path.parent / name, digits, _least_of_averages(path, least_outlets))


def _least_of_averages(path: Path, least_outlets: int) -> int:
    """The least number of outlets behind an average price. Raises BadConfig."""
    if least_outlets < FEWEST_OUTLETS:
        raise BadConfig(f"{path}: least_outlets is {least_outlets}: wanted {FEWEST_OUTLETS} or more for average prices")
    return least_outlets


class AverageRule(NamedTuple):
    """The least number of outlets behind an average price, and the number of decimals of the office's money."""

    least: int
    digits: int


def read_average_rule(path: Path) -> AverageRule:
    """The configuration of average prices. Raises BadConfig."""
    words = _office_words(_read_sections(path))
    least = _least_of_averages(path, _least_outlets(path, words.get("least_outlets", "")))
    try:
        return AverageRule(least, _minor_digits(words))
    except BadConfig as fault:
        raise BadConfig(f"{path}: {fault}") from None


def read_least_outlets(path: Path) -> int:
    """The number `least_outlets` of a configuration. Raises BadConfig."""
    return _least_outlets(path, _office_words(_read_sections(path)).get("least_outlets", ""))


def _read_sections(path: Path) -> configparser.ConfigParser:
    """The sections of a file; one of them is [office]. Raises BadConfig."""
    parser = configparser.ConfigParser(interpolation=None)
    parser.optionxform = str  # type: ignore[assignment]
    try:
        parser.read_string(path.read_text(encoding="utf-8"), str(path))
    except OSError as fault:
        raise BadConfig(because_of(fault)) from fault
    except (configparser.Error, UnicodeDecodeError) as fault:
        raise BadConfig(f"{path}: {' '.join(str(fault).split())}") from fault
    if "office" not in parser:
        raise BadConfig(f"{path} has no section [office]")
    return parser


def _office_words(parser: configparser.ConfigParser) -> dict[str, str]:
    """The words of [office]. One without a value counts as missing; a value of several lines is one."""
    return {name: " ".join(value.split()) for name, value in parser["office"].items() if value.strip()}


def _profiles(path: Path, names: Sequence[str]) -> tuple[Profile, ...]:
    """The profiles of some files, each of which has an id of its own. Raises BadProfile."""
    profiles = tuple(read_profile(path.parent / name) for name in names)
    ids = [profile.id for profile in profiles]
    for profile in profiles:
        if ids.count(profile.id) > 1:
            raise BadProfile(f"{profile.path}, line {profile.line('id')}: another profile has the id {profile.id} too")
    return profiles


def _least_outlets(path: Path, text: str) -> int:
    """The least number of outlets of a division with counts. Raises BadConfig."""
    if not text:
        return LEAST_OUTLETS
    if text not in map(str, range(FEWEST_LEAST, MOST_LEAST + 1)):
        raise BadConfig(f"{path}: least_outlets: {text} isn't {FEWEST_LEAST} to {MOST_LEAST}")
    return int(text)


def _config(found: dict[str, str], ids: dict[str, str], known: KnownIds, specials: tuple[Special, ...]) -> Config:
    """The values of both sections, tested."""
    _test_words(found)
    references, all_rates, provisional = (_read_dated(found, name) for name in ("reference", "rates", "provisional"))
    _test_dated(references, all_rates, provisional)
    numbers, without, also = _numbers(found), _forms(found, "without", FORMS), _forms(found, "with", MORE_FORMS)
    _test_ids(ids, known)
    found["address"] = _address(found)
    named = {"ids": ids, "specials": specials, "clock": _clock(found)}
    dated = {"references": references, "all_rates": all_rates, "all_provisional": provisional}
    return Config(**found, without=without, also=also, **numbers, **named, **dated)  # type: ignore[arg-type]


def _test_words(found: dict[str, str]) -> None:
    """Raises BadConfig if a word of [office] is none, or lacks, or one of those that are ids and languages isn't one."""
    for name in found:
        if name not in NAMES:
            raise BadConfig(f"{name} is no word of [office]; its words are {', '.join(NAMES)}")
    for name in NEEDED:
        if not found.get(name):
            raise BadConfig(f"{name} is missing in [office]")
    if not AGENCY.fullmatch(found["agency"]):
        raise BadConfig(f"agency: {found['agency']} is no id of an agency, such as NSO")
    if not ID.fullmatch(found["area"]):
        raise BadConfig(f"area: {found['area']} is no code of an area, such as XX")
    if not LANGUAGE.fullmatch(found.get("language", "en")):
        raise BadConfig(f"language: {found['language']} is no language such as en or pt-BR")
    if not DOI.fullmatch(found.get("doi", "10.1234/cpi")):
        raise BadConfig(f"doi: {found['doi']} is no DOI such as 10.1234/cpi")


def _test_dated(references: tuple[Dated, ...], all_rates: tuple[Dated, ...], provisional: tuple[Dated, ...]) -> None:
    """Raises BadConfig if a reference period, a rule for changes or a number of provisional months isn't one."""
    for reference in references:
        if not REFERENCE.fullmatch(reference.value):
            raise BadConfig(f"reference: {reference.value} is neither a year like 2025 nor a month like 2025-12")
    for reference in all_rates:
        if reference.value not in RATES:
            raise BadConfig(f"rates: {reference.value} is neither {' nor '.join(RATES)}")
    for reference in provisional:
        if reference.value not in map(str, range(MOST_PROVISIONAL + 1)):
            raise BadConfig(f"provisional: {reference.value} isn't a number of months from 0 to {MOST_PROVISIONAL}")


def _numbers(found: dict[str, str]) -> dict[str, Optional[int]]:
    """Takes the words that are numbers."""
    digits = _minor_digits(found)
    found.pop("minor_digits", "")
    provisional = found.pop("provisional", "0")
    years = found.pop("years", "")
    if years and not re.fullmatch("[1-9][0-9]?", years):
        raise BadConfig(f"years: {years} isn't 1 to 99")
    return {"minor_digits": digits, "provisional": int(provisional), "years": int(years) if years else None}


def _minor_digits(found: Mapping[str, str]) -> int:
    """The number of decimals of the office's money. Raises BadConfig."""
    digits = found.get("minor_digits", "2")
    if digits not in ("0", "1", "2", "3", "4"):
        raise BadConfig(f"minor_digits: {digits} isn't 0 to 4")
    return int(digits)


def _forms(found: dict[str, str], word: str, known: Sequence[str]) -> frozenset[str]:
    """Takes the forms of a word: those that aren't written, or those that are written too."""
    forms = frozenset(found.pop(word, "").replace(",", " ").split())
    for form in sorted(forms - {*known}):
        raise BadConfig(f"{word}: {form} is none of {', '.join(known)}")
    return forms


def _address(found: dict[str, str]) -> str:
    """The address of the site, which ends with a slash; empty if there is none."""
    if not ADDRESS.fullmatch(found.get("address", "https://a")):
        raise BadConfig(f"address: {found['address']} is no address of a site, such as https://prices.example/index/")
    return f"{found['address'].rstrip('/')}/" if "address" in found else ""


def _clock(found: dict[str, str]) -> Clock:
    """Takes the office's zone."""
    try:
        return clock_of(found.pop("zone", ""))
    except NoZone as fault:
        raise BadConfig(f"zone: {fault}") from None


def _read_dated(found: dict[str, str], name: str) -> tuple[Dated, ...]:
    """The values of a word that may change with a release, of which the last stays in its place; none if it is one."""
    try:
        values = dated_of(found[name]) if name in found else ()
    except ValueError as fault:
        raise BadConfig(f"{name}: {fault}") from None
    if values:
        found[name] = values[-1].value
    return values


def _test_ids(ids: dict[str, str], known: KnownIds) -> None:
    """Raises BadConfig if an id of the office can't be one, or would mean two."""
    for name, own in ids.items():
        if name not in known.all:
            raise BadConfig(f"{name} is no id that [sdmx] can name; they are {', '.join(sorted(known.all))}")
        form = LIST if name in known.lists else NAME if name in known.names else ID
        if not form.fullmatch(own):
            raise BadConfig(f"{name} = {own}: no id of SDMX")
    for group in known.apart:
        others = [ids.get(name, name) for name in sorted(group)]
        twice = next((own for own in others if others.count(own) > 1), None)
        if twice:
            raise BadConfig(f"{twice} would be the id of two in [sdmx]")


PART = re.compile(r"(\S+)(?: +from +(2[01][0-9]{2}-(?:0[1-9]|1[0-2])))?")


class Dated(NamedTuple):
    """A value, and the month of the first release that has it; the first value has an empty text there."""

    value: str
    since: str = ""


def dated_of(text: str) -> tuple[Dated, ...]:
    """The values of a text in their order; one value needs no month. Raises ValueError, which names the problem."""
    found = []
    for part in text.split(","):
        read = PART.fullmatch(part.strip())
        if not read:
            raise ValueError(f"{part.strip() or 'an empty text'} isn't a value, nor one like `2025 from 2026-01`")
        found.append(Dated(read[1], read[2] or ""))
    if [bool(it.since) for it in found] != [False] + [True] * (len(found) - 1):
        raise ValueError("each value but the first needs the month of the first release that has it, as `from 2026-01`")
    if any(one.since >= other.since for one, other in zip(found, found[1:])):
        raise ValueError("its months aren't one after the other")
    return tuple(found)


def value_in(values: tuple[Dated, ...], month: str) -> str:
    """The value of the release of a month."""
    return [value.value for value in values if value.since <= month][-1]
