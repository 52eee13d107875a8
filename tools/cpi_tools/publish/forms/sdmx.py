"""SDMX: the observations as SDMX-CSV 2.0 and as SDMX-ML 2.1, and the structure that both refer to.

The XML is StructureSpecificData, the compact form, and the structure message is next to it. Dimensions are those in
use for consumer prices: FREQ, REF_AREA, MEASURE, UNIT_MEASURE, COICOP18, TRANSFORMATION, TIME_PERIOD. A dot is no
character of an id, so `00` is `_T`, `01.1.1.1` is `CP01111` and `01.1.1.1-01` is `CP01111-01`.

| MEASURE | TRANSFORMATION | UNIT_MEASURE | what |
|---|---|---|---|
| `CPI` | `N` | `IX` | level, with the office's own reference period or 100 in the first December |
| `CPIC` | `N` | `IX` | chained level, 100 in the first December, if the office has a reference period of its own |
| `CPI` | `G1`, `GY` | `PC` | change on the month before, on the year before |
| `CPIW` | `N` | `WU` | weight in use |
| `CPIS` | `N` | `PM` | share of all weight |
| `CTR` | `G1`, `GY` | `PP` | contribution to these changes of all items |
| `CPI`, `CPIR` | `G1`, `GY` | `PC` | analytical core inflation; shares that rise |

FREQ is `M`, and `A` for annual averages of `CPI` (`N`) and their changes on the year before (`G1`).

OBS_STATUS is `B` (break) for the first level of a node that is back, which isn't linked to the earlier ones, and of a
special aggregate with other members; else `P` (provisional value) in a month that the office may still revise, and of a
year with such a month; and else `A` (normal value). `I` of its code list means that a receiver of the data imputed the whole observation. That a price
at or below the node was imputed is an attribute of its own, IMPUTED_PRICES.
"""

from __future__ import annotations

import bisect
import contextlib
import functools
import itertools
import re
from collections.abc import Callable, Iterator, Mapping, Sequence
from pathlib import Path
from typing import NamedTuple, Optional, Protocol, TextIO, Union

from ...office.tables import Series, iso, link_of
from ...text.text_files import line_of
from ...text.others import attributes_of, text_of
from ...text.languages import mark_text
from ..figures import figures
from ..figures.config import SDMX_FORMS, Config, KnownIds
from ..figures.figures import Figure, Known
from ..figures.measures import average_change, full_years
from .artefacts import CROSS_DOMAIN, SHARED, Structure, item_id
from .tidy import write_ratio

FLOW, DEFINITION, SCHEME = "DF_CPI", "DSD_CPI", "CS_CPI"

ENDS = {"sdmx-csv": "sdmx.csv", "sdmx-ml": "sdmx.xml"}
"""The endings of the names of each form's files."""

DIMENSIONS = ("FREQ", "REF_AREA", "MEASURE", "UNIT_MEASURE", "COICOP18", "TRANSFORMATION")
TIME, VALUE = "TIME_PERIOD", "OBS_VALUE"
SERIES_ATTRIBUTES = ("DECIMALS",)
OBS_ATTRIBUTES = ("BASE_PER", "OBS_STATUS", "IMPUTED_PRICES", "REVISION", "EMBARGO_TIME")
NEEDED = ("OBS_STATUS", "DECIMALS")

LISTS: Mapping[str, tuple[str, Mapping[str, str]]] = {
    "MEASURE": (
        mark_text("Measure"),
        {
            "CPI": mark_text("Consumer price index"),
            "CPIC": mark_text("Consumer price index, the December before the item entered the index = 100"),
            "CPIW": mark_text("Weight in the consumer price index"),
            "CPIS": mark_text("Share of the total weight, per mille"),
            "CTR": mark_text("Contribution to the change in all items"),
        },
    ),
    "UNIT_MEASURE": (
        mark_text("Unit of measure"),
        {
            "IX": mark_text("Index"),
            "PC": mark_text("Percent"),
            "WU": mark_text("Units of the weight in use"),
            "PM": mark_text("Per mille"),
            "PP": mark_text("Percentage points"),
        },
    ),
    "TRANSFORMATION": (
        mark_text("Transformation"),
        {
            "N": mark_text("Not transformed"),
            "G1": mark_text("Change from the previous period"),
            "GY": mark_text("Change from the same period a year earlier"),
        },
    ),
    "IMPUTED_PRICES": (
        mark_text("Prices imputed at or below the item"),
        {"0": mark_text("None"), "1": mark_text("At least one")},
    ),
}
"""The code lists that don't depend on the tables: their titles, and the name of each code."""

RISING: Mapping[str, str] = {
    "CPIR": mark_text("Share of elementary aggregates, or of their weight, with rising prices")
}
"""A further measure of an office with such shares of analytical core inflation."""


def lists_of(config: Config) -> Mapping[str, tuple[str, Mapping[str, str]]]:
    """The code lists of an office that don't depend on the tables."""
    if not any(it.is_share for it in config.core):
        return LISTS
    title, codes = LISTS["MEASURE"]
    return {**LISTS, "MEASURE": (title, {**codes, **RISING})}


CONCEPTS: Mapping[str, str] = {
    "FREQ": mark_text("Frequency"),
    **{name: title for name, (title, _) in LISTS.items()},
    "OBS_STATUS": mark_text("Observation status"),
    "REF_AREA": mark_text("Reference area"),
    "COICOP18": mark_text("Item, by COICOP 2018"),
    TIME: mark_text("Month or year"),
    VALUE: mark_text("Observation"),
    "BASE_PER": mark_text("Base period"),
    "DECIMALS": mark_text("Decimals"),
    "REVISION": mark_text("Revision of the month's table"),
    "EMBARGO_TIME": mark_text("Time of publication"),
}

FIXED = {TIME, VALUE}
"""The concepts whose ids are those of SDMX itself."""

CODES = [
    *(
        frozenset({*codes, *(RISING if name == "MEASURE" else ())})
        for name, (_, codes) in LISTS.items()
        if name != "IMPUTED_PRICES"
    ),
    frozenset({"M", "A"}),
    frozenset({"A", "B", "P"}),
]
"""Groups of codes in which each is another; `A` is a frequency, and a status."""

KNOWN_IDS = KnownIds(
    names=frozenset({*CONCEPTS, FLOW, DEFINITION, SCHEME} - FIXED),
    codes=frozenset().union(*CODES),
    apart=(frozenset(CONCEPTS), *CODES),
    lists=frozenset({*(f"CL_{concept}" for concept in SHARED), CROSS_DOMAIN}),
)
"""The ids that an office can have otherwise."""


class Measure(NamedTuple):
    """A series of observations: its ids, its decimals, and its figures."""

    measure: str
    transformation: str
    unit: str
    decimals: int
    figure: Optional[Figure]


MEASURES = (
    Measure("CPI", "N", "IX", 6, figures.LEVEL),
    Measure("CPI", "G1", "PC", 1, figures.MONTH_CHANGE),
    Measure("CPI", "GY", "PC", 1, figures.YEAR_CHANGE),
    Measure("CPIC", "N", "IX", 6, figures.CHAINED),
    Measure("CPIW", "N", "WU", 0, figures.WEIGHT),
    Measure("CPIS", "N", "PM", 6, figures.SHARE),
    Measure("CTR", "G1", "PP", 6, figures.GIVEN_MONTH),
    Measure("CTR", "GY", "PP", 6, figures.GIVEN_YEAR),
)


Attributes = tuple[str, ...]
"""The attributes of an observation, in the order of OBS_ATTRIBUTES; most observations of a month have the same."""

Observation = tuple[str, str, Attributes]
"""A figure: its month or year, the figure itself, and its attributes."""


class Observed(NamedTuple):
    """A series of observations: the ids of its dimensions, its attributes, its observations by month, and the code of its
    node."""

    key: tuple[str, ...]
    attributes: tuple[str, ...]
    observations: Sequence[Observation]
    code: str


class Months:
    """The months of the observations, and the attributes that theirs can have."""

    def __init__(self, known: Known, config: Config):
        self._known = known
        tables = [known.series.latest[month] for month in known.series.months]
        provisional = known.shown.provisional
        usual = ["P" if table.month in provisional else "A" for table in tables]
        # (by whether it is after a break, then by month: the status, the revision and its moment)
        self._tables = [
            [(config.id(id), str(table.revision), iso(table.moment)) for id, table in zip(ids, tables)]
            for ids in (usual, ["B"] * len(tables))
        ]
        self._based = functools.lru_cache(maxsize=None)(self._attributes)
        self._said: dict[str, list[Attributes]] = {}

    def _attributes(self, base: str) -> list[list[dict[str, Attributes]]]:
        """The attributes of figures with a base period, or without one: by whether they come after a break, then by month,
        then by whether a price was imputed."""
        return [
            [
                {text: (base, status, text, revision, moment) for text in ("", "0", "1")}
                for status, revision, moment in table
            ]
            for table in self._tables
        ]

    def attributes(self, month: str, is_break: bool) -> Attributes:
        """The attributes of a figure that has no base period, and no statement about imputed prices."""
        return self._based("")[is_break][self._known.series.months.index(month)][""]

    def observations(self, measure: Measure, code: str) -> list[Observation]:
        """The figures of a node."""
        known, months = self._known, self._known.series.months
        assert measure.figure
        said = self._of_levels(code, _bases(measure, known, code)) if measure.unit == "IX" else self._usual(code)
        observations = zip(months, known.texts(measure.figure, code), said)
        return [observation for observation in observations if observation[1]]

    def _usual(self, code: str) -> list[Attributes]:
        """The attributes of a node's figures that are no levels, which are those of each measure."""
        found = self._said.get(code)
        if found is None:
            months, imputed = self._based("")[False], self._known.texts(figures.IMPUTED, code)
            found = self._said[code] = [month[it] for month, it in zip(months, imputed)]
        return found

    def _of_levels(self, code: str, bases: Sequence[tuple[str, str]]) -> list[Attributes]:
        """The attributes of levels, some of which come after a break; `bases` are the first month of each base
        period, and the period."""
        months, breaks = self._known.series.months, self._known.series.marks(code)
        starts, periods = [month for month, _ in bases], [period for _, period in bases]
        levels = []
        for at, (month, imputed) in enumerate(zip(months, self._known.texts(figures.IMPUTED, code))):
            base = periods[max(0, bisect.bisect_right(starts, month) - 1)]
            levels.append(self._based(base)[month in breaks][at][imputed])
        return levels


Wanted = Callable[[tuple[str, ...], str], bool]
"""Whether a series is wanted, by the ids of its dimensions and the code of its node."""


def _all(_: tuple[str, ...], __: str) -> bool:
    return True


def observe(known: Known, config: Config, is_wanted: Wanted = _all) -> Iterator[Observed]:
    """All wanted series that have an observation, in the order of the table above and of codes."""
    months = Months(known, config)
    for measure in MEASURES:
        if measure.figure is figures.CHAINED and not config.reference:
            continue
        ids = [config.id(each) for each in (measure.measure, measure.unit, measure.transformation)]
        for code in known.codes:
            key = (config.id("M"), config.area, *ids[:2], item_id(code), ids[2])
            observations = months.observations(measure, code) if is_wanted(key, code) else []
            if observations:
                yield Observed(key, (str(measure.decimals),), observations, code)
    others = itertools.chain(_annual(known, config), _core(known, config, months))
    yield from (each for each in others if is_wanted(each.key, each.code))


def _core(known: Known, config: Config, months: Months) -> Iterator[Observed]:
    """The figures of analytical core inflation: changes as those of the index, and shares that rise by a measure of their
    own."""
    for name, it in known.series.core.items():
        measure, unit = config.id("CPIR" if it.is_share else "CPI"), config.id("PC")
        for transformation, texts in zip(("G1", "GY"), zip(*(row.texts for row in it.rows.values()))):
            said = (months.attributes(month, month in it.changes) for month in it.rows)
            observations = [observation for observation in zip(it.rows, texts, said) if observation[1]]
            key = (config.id("M"), config.area, measure, unit, name, config.id(transformation))
            if observations:
                yield Observed(key, ("1",), observations, name)


class Year(NamedTuple):
    """A year all of whose months have tables: when the last of these was published, in seconds since 1970 UTC, and the
    months."""

    year: int
    moment: int
    months: frozenset[str]


def _years(series: Series) -> list[Year]:
    """The full years. A figure of a year is out when the tables of all its months are."""
    years = []
    for year in full_years(series):
        months = [month for month in series.months if month.startswith(f"{year:04}-")]
        years.append(Year(year, max(series.latest[month].moment for month in months), frozenset(months)))
    return years


def _annual(known: Known, config: Config) -> Iterator[Observed]:
    """The annual averages of all nodes, and their changes on the year before."""
    series, shown, years = known.series, known.shown, _years(known.series)
    rates = Measure("CPI", "G1", "PC", 1, None)
    for measure in (Measure("CPI", "N", "IX", 6, None), rates):
        ids = [config.id(each) for each in (measure.measure, measure.unit, measure.transformation)]
        for code in known.codes:
            observations, marks = list[Observation](), series.marks(code)
            for each in years:
                value = average_change(series, code, each.year) if measure is rates else shown.average(code, each.year)
                if value is not None:
                    status = _status_of_year(each, marks, shown.provisional)
                    value_text, base = write_ratio(value, measure.decimals), "" if measure is rates else _base_of(
                        known, each, code
                    )
                    observations.append(
                        (f"{each.year:04}", value_text, (base, config.id(status), "", "", iso(each.moment)))
                    )
            if observations:
                key = (config.id("A"), config.area, *ids[:2], item_id(code), ids[2])
                yield Observed(key, (str(measure.decimals),), observations, code)


def _status_of_year(year: Year, marks: Sequence[str], provisional: frozenset[str]) -> str:
    """The status of a figure of a year; `marks` are the months of the node that come after a break."""
    if not year.months.isdisjoint(marks):
        return "B"
    return "A" if year.months.isdisjoint(provisional) else "P"


def _base_of(known: Known, year: Year, code: str) -> str:
    """The period in which the average of a year is 100."""
    return known.shown.find_reference(f"{year.year:04}-01", code)


def _bases(measure: Measure, known: Known, code: str) -> list[tuple[str, str]]:
    """The periods in which levels are 100, each with its first month: of a node that left and is back there are two."""
    if measure.figure is figures.CHAINED:
        return [(month, link_of(month)) for month in known.series.starts(code)]
    return known.shown.hundreds(code)


class Also(Protocol):
    """The other writers that get the series as they are written, such as slices."""

    def add(self, name: str, found: Observed, text: str) -> None:
        """Takes a series, and its text in the form of a name."""


def write_data(known: Known, structure: Structure, config: Config, folder: Path, also: Optional[Also] = None) -> None:
    """Writes the observations in each form that the pack has, as `cpi.sdmx.csv` and `cpi.sdmx.xml`."""
    with contextlib.ExitStack() as files:
        forms: dict[str, Form] = {}
        for form in filter(config.has, SDMX_FORMS):
            file = files.enter_context(open_text(folder / f"cpi.{ENDS[form]}"))
            forms[form] = form_of(form, file, structure, known.series, config)
        for found in observe(known, config):
            for form, it in forms.items():
                text = it.text_of(found)
                it.put(text)
                if also:
                    also.add(form, found, text)
        for it in forms.values():
            it.end()


def form_of(form: str, file: TextIO, structure: Structure, series: Series, config: Config, part: str = "") -> Form:
    """A form of some observations, whose head is written; `part` is the id of a part of all."""
    if form == "sdmx-csv":
        return CsvForm(file, structure, config)
    return XmlForm(file, structure, series, config, part)


def open_text(path: Path) -> TextIO:
    """A new file of text."""
    return path.open("w", encoding="utf-8", newline="")


# ---- CSV


class CsvForm:
    """SDMX-CSV 2.0: a row an observation."""

    def __init__(self, file: TextIO, structure: Structure, config: Config):
        names = [config.id(name) for name in (*DIMENSIONS, TIME, VALUE, *SERIES_ATTRIBUTES, *OBS_ATTRIBUTES)]
        flow = structure.flow
        self._start = ["dataflow", f"{flow.agency}:{flow.id}({flow.version})", "I"]
        self._file = file
        self._ends: dict[Attributes, str] = {}
        self._attributes: dict[Attributes, str] = {}
        file.write(line_of(["STRUCTURE", "STRUCTURE_ID", "ACTION", *names]) + "\n")

    def text_of(self, found: Observed) -> str:
        """The rows of a series."""
        start, attributes = line_of([*self._start, *found.key]), self._attributes.get(found.attributes)
        if attributes is None:
            attributes = self._attributes[found.attributes] = line_of(found.attributes)
        ends = self._ends
        lines = [
            f"{start},{month},{value},{attributes},{ends.get(said) or self._end(said)}"
            for month, value, said in found.observations
        ]
        return "".join(lines)

    def put(self, text: str) -> None:
        """Writes the rows of a series."""
        self._file.write(text)

    def _end(self, said: Attributes) -> str:
        """The end of the lines of some attributes."""
        end = self._ends[said] = line_of(said) + "\n"
        return end

    def end(self) -> None:
        """Nothing follows the last row."""


# ---- XML


@functools.lru_cache(maxsize=1 << 14)
def attribute(name: str, value: str) -> str:
    """An attribute of a series. (An item has a series for each measure, so its own attribute is that of several.)"""
    return attributes_of({name: value})


DATA_END = "</message:DataSet>\n</message:StructureSpecificData>\n"
OBSERVATION, OF_VALUE = f'<Obs {TIME}="', f'" {VALUE}="'


class XmlForm:
    """SDMX-ML 2.1, StructureSpecificData."""

    def __init__(self, file: TextIO, structure: Structure, series: Series, config: Config, part: str = ""):
        self._file, self._config = file, config
        self._ends: dict[Attributes, str] = {}
        self._names = [config.id(name) for name in (*DIMENSIONS, *SERIES_ATTRIBUTES)]
        file.write(data_head(structure, series, config, part))

    def text_of(self, found: Observed) -> str:
        """The element of a series."""
        named = map(attribute, self._names, (*found.key, *found.attributes))
        ends = self._ends
        # (months, figures and the ids of attributes have no character that would have to be escaped)
        lines = [
            f'{OBSERVATION}{month}{OF_VALUE}{value}"{ends.get(said) or self._end(said)}'
            for month, value, said in found.observations
        ]
        return f"<Series{''.join(named)}>\n{''.join(lines)}</Series>\n"

    def put(self, text: str) -> None:
        """Writes the element of a series."""
        self._file.write(text)

    def _end(self, said: Attributes) -> str:
        """The end of the observations of some attributes."""
        names = [self._config.id(name) for name in OBS_ATTRIBUTES]
        text = "".join(f' {name}="{each}"' for name, each in zip(names, said) if each)
        end = self._ends[said] = f"{text}/>\n"
        return end

    def end(self) -> None:
        """Writes the end of the data set."""
        self._file.write(DATA_END)


Form = Union[CsvForm, XmlForm]


SCHEMAS = "http://www.sdmx.org/resources/sdmxml/schemas/v2_1/"
SPACES = f'xmlns:message="{SCHEMAS}message" xmlns:common="{SCHEMAS}common"'
PROLOGUE = '<?xml version="1.0" encoding="UTF-8"?>\n'


def message_header(series: Series, config: Config, name: str, structure: str = "", part: str = "") -> str:
    """The header: it was prepared when the last table was published, so the same tables give the same bytes."""
    own = f"_{part}" if part else ""
    return (
        f"<message:Header>\n<message:ID>{config.id(name)}_{series.months[-1]}{own}</message:ID>\n"
        f"<message:Test>false</message:Test>\n<message:Prepared>{iso(series.moment)}</message:Prepared>\n"
        f"{_sender(config)}\n{structure}</message:Header>\n"
    )


def _sender(config: Config) -> str:
    """Who sends a message, and how it is reached."""
    head = f"<message:Sender{attributes_of({'id': config.agency.replace('.', '_')})}"
    if not config.contact:
        return f"{head}/>"
    name = f'<common:Name xml:lang="{config.language}">{text_of(config.office)}</common:Name>'
    return f"{head}>\n{name}\n<message:Contact>\n{_way(config)}\n</message:Contact>\n</message:Sender>"


def _way(config: Config) -> str:
    """A contact by its kind: a mail address, a page's address, a telephone number, or otherwise a name."""
    text = text_of(config.contact)
    for form, name in CONTACTS:
        if form.fullmatch(config.contact):
            return f"<message:{name}>{text}</message:{name}>"
    return f'<common:Name xml:lang="{config.language}">{text}</common:Name>'


CONTACTS = (
    (re.compile(r"[^@\s]+@[^@\s]+"), "Email"),
    (re.compile(r"https?://\S+"), "URI"),
    (re.compile(r"\+?[0-9][0-9 ()/.-]{3,}"), "Telephone"),
)
"""The kind of a contact by its form, and SDMX's element for it."""


def data_head(own: Structure, series: Series, config: Config, part: str = "", action: str = "Information") -> str:
    """The text before the series: namespaces, header, and the beginning of the data set; the message's id contains
    the id of a part."""
    definition, version = own.definition.id, own.definition.version
    model = "urn:sdmx:org.sdmx.infomodel.datastructure.DataStructure"
    space = f"{model}={own.definition.agency}:{definition}({version}):ObsLevelDim:{TIME}"
    named = {"structureID": definition, "namespace": space, "dimensionAtObservation": TIME}
    reference = {"agencyID": own.definition.agency, "id": definition, "version": version, "class": "DataStructure"}
    structure = (
        f"<message:Structure{attributes_of(named)}>\n<common:Structure>\n<Ref{attributes_of(reference)}/>\n"
        "</common:Structure>\n</message:Structure>\n"
    )
    return (
        f"{PROLOGUE}<message:StructureSpecificData {SPACES}"
        f' xmlns:ss="{SCHEMAS}data/structurespecific" xmlns:own="{space}"'
        ' xmlns:xsi="http://www.w3.org/2001/XMLSchema-instance">\n'
        f"{message_header(series, config, FLOW, structure, part)}"
        f"{data_set(own, action)}"
    )


def data_set(own: Structure, action: str) -> str:
    """The beginning of a data set, with what is to be done with it."""
    return (
        f'<message:DataSet ss:structureRef="{own.definition.id}" xsi:type="own:DataSetType"'
        f' ss:dataScope="DataStructure" action="{action}">\n'
    )
