"""The structure message of SDMX-ML 2.1, and the series of a pack in data structures of other agencies, by profiles."""

from __future__ import annotations

from collections.abc import Iterable, Iterator, Mapping, Sequence
from functools import lru_cache, partial
from pathlib import Path
from typing import NamedTuple

from ...office.tables import Series
from ...text.exact import depth_of
from ...text.languages import mark_text
from ...text.others import attributes_of, is_address, text_of
from ...text.text_files import line_of
from ..figures.config import Config
from ..figures.figures import Known
from ..figures.profiles import AT_OBSERVATION, AT_SERIES, DEEPEST, Profile, Source
from .artefacts import (
    SHARED,
    SHARED_CONCEPTS,
    Names,
    Reference,
    Structure,
    Versions,
    find_shared,
    fix_list,
    item_id,
    items,
    shared_scheme,
    title_of_index,
    translate_text,
)
from .sdmx import (
    CODES,
    CONCEPTS,
    DATA_END,
    DEFINITION,
    DIMENSIONS,
    FLOW,
    LISTS,
    NEEDED,
    OBS_ATTRIBUTES,
    PROLOGUE,
    SCHEMAS,
    SCHEME,
    SERIES_ATTRIBUTES,
    SPACES,
    TIME,
    VALUE,
    Attributes,
    Observation,
    Observed,
    data_head,
    lists_of,
    message_header,
    observe,
)


# ==== the series of a pack in data structures of other agencies, as SDMX-ML 2.1 and as SDMX-CSV 2.0, by profiles

FOLDER = "profiles"
"""The folder of these files, in the folder `data`."""

Values = Mapping[str, str]
"""Values by the names of dimensions or attributes."""


class Named(NamedTuple):
    """A series in another structure: its key, its attributes, and each observation's month, figure and attributes."""

    key: tuple[str, ...]
    attributes: tuple[str, ...]
    observations: list[tuple[str, str, tuple[str, ...]]]


def write_profiles(known: Known, structure: Structure, config: Config, folder: Path) -> None:
    """Writes the files of each profile below the folder `data`. Raises BadProfile if a profile doesn't fit."""
    # (profiles have the ids of this tool, whatever the office calls them)
    plain = config._replace(ids={})
    for profile in config.profiles:
        _test(profile, known.series, plain)
        named = [*_name_series(profile, observe(known, plain, partial(_is_wanted, profile, known.series)))]
        if not named:
            profile.refuse(profile.line("dimensions"), "no series of this office is in it: wanted other codes")
        (folder / FOLDER).mkdir(exist_ok=True)
        beside = folder / FOLDER / profile.id
        beside.with_name(f"{profile.id}.sdmx.csv").write_text(_csv(profile, named), encoding="utf-8")
        head = data_head(structure._replace(definition=profile.structure), known.series, config, profile.id)
        text = head + "".join(_xml(profile, each) for each in named) + DATA_END
        beside.with_name(f"{profile.id}.sdmx.xml").write_text(text, encoding="utf-8")


def files_of(profile: Profile) -> tuple[str, str]:
    """The names of its files in the folder `data`."""
    return f"{FOLDER}/{profile.id}.sdmx.xml", f"{FOLDER}/{profile.id}.sdmx.csv"


# ---- whether a profile fits


def _test(profile: Profile, series: Series, config: Config) -> None:
    """Raises BadProfile if a profile names something that this office lacks."""
    if profile.reference and profile.reference != config.reference:
        office = f"the office has {config.reference}" if config.reference else "the office has none"
        says = f"reference is {profile.reference}, and {office}: wanted the same, since codes of units say it"
        profile.refuse(profile.line("reference"), says)
    lists = _lists(series, config)
    for source in profile.dimensions:
        _test_names(profile, "dimension", source, DIMENSIONS)
        _test_codes(profile, "dimension", source, lists)
    for source in profile.attributes:
        _test_names(profile, "attribute", source, (*DIMENSIONS, *SERIES_ATTRIBUTES, *OBS_ATTRIBUTES))
        _test_codes(profile, "attribute", source, lists)


def _test_names(profile: Profile, kind: str, source: Source, known: Sequence[str]) -> None:
    for name in source.of:
        if name not in known:
            line = profile.line(kind, source.name, "of")
            profile.refuse(line, f"{name} is none of ours: wanted one of {', '.join(known)}")


def _test_codes(profile: Profile, kind: str, source: Source, lists: Mapping[str, frozenset[str]]) -> None:
    for code in source.codes or ():
        parts = code.split(".")
        wanted = [lists.get(name) for name in source.of]
        for at, own in enumerate(wanted):
            if len(parts) != len(wanted) or (own is not None and parts[at] not in own):
                line = profile.line(kind, source.name, "codes", code)
                some = ".".join(source.of)
                profile.refuse(line, f"{code} is no code of ours: wanted one of {some}{_some(wanted)}")


def _some(lists: Iterable[object]) -> str:
    """The codes of a short list, each after a comma."""
    codes = [sorted(own) for own in lists if isinstance(own, frozenset)]
    return f", such as {'.'.join(own[0] for own in codes)}" if codes else ""


def _lists(series: Series, config: Config) -> dict[str, frozenset[str]]:
    """Our codes by dimension or attribute; nothing for those without a list."""
    lists = {name: frozenset(codes) for name, (_, codes) in lists_of(config).items()}
    lists["COICOP18"] = frozenset(map(item_id, (*series.every_title, *series.specials, *series.core)))
    frequencies, statuses = CODES[-2:]
    return {**lists, "FREQ": frequencies, "OBS_STATUS": statuses, "REF_AREA": frozenset({config.area})}


# ---- series


def _name_series(profile: Profile, series: Iterable[Observed]) -> Iterator[Named]:
    """The wanted series of a profile. Raises BadProfile if two have the same key."""
    before: dict[tuple[str, ...], str] = {}
    said = _Said(profile)
    for each in (_in_reference(profile, one) for one in series):
        ours = dict(zip(DIMENSIONS, each.key))
        key = tuple(source.value(ours) or "" for source in profile.dimensions)
        if each.observations:
            name = ".".join(each.key)
            if key in before:
                says = f"{before[key]} and {name} are both {'.'.join(key)}: wanted a key of its own for each series"
                profile.refuse(profile.line("dimensions"), says)
            before[key] = name
            ours.update(zip(SERIES_ATTRIBUTES, each.attributes))
            observations = [(at, value, said.of(ours, own)) for at, value, own in each.observations]
            yield Named(key, _of_series(profile, ours, each), observations)


def _in_reference(profile: Profile, series: Observed) -> Observed:
    """A series without the levels that are 100 in another period than the profile says."""
    if not profile.reference:
        return series
    own = [one for one in series.observations if one[2][0] in ("", profile.reference)]
    return series._replace(observations=own)


def _is_wanted(profile: Profile, series: Series, key: Sequence[str], code: str) -> bool:
    """Whether a series is in a profile: its item is deep enough, and each dimension has a code for it."""
    if not _is_taken(profile, code, series):
        return False
    ours = dict(zip(DIMENSIONS, key))
    return all(source.value(ours) is not None for source in profile.dimensions)


def _is_taken(profile: Profile, code: str, series: Series) -> bool:
    """Whether an item is deep enough; a special aggregate is written if some codes name it, or if no depth is given."""
    if code not in series.specials and code not in series.core:
        return depth_of(code) <= profile.deepest
    named = any(code in theirs.split(".") for source in profile.dimensions for theirs in source.codes or ())
    return named or profile.deepest == DEEPEST


def _at(profile: Profile, at: str) -> list[Source]:
    return [source for source in profile.attributes if source.at == at]


def _of_series(profile: Profile, ours: Values, series: Observed) -> tuple[str, ...]:
    """The attributes of a series. Raises BadProfile if its observations have different ones."""
    values = list[str]()
    for source in _at(profile, AT_SERIES):
        is_one = OBSERVED.isdisjoint(source.of)
        own = {
            source.value({**ours, **_name_values(one)}) or "" for one in series.observations[: 1 if is_one else None]
        }
        if len(own) > 1:
            says = f"attribute {source.name} has several values in {'.'.join(series.key)}: wanted at = \"observation\""
            profile.refuse(source.line, says)
        values += own
    return tuple(values)


class _Said:
    """The attributes of observations in a profile; thousands of observations have the same."""

    def __init__(self, profile: Profile):
        self._sources = _at(profile, AT_OBSERVATION)
        self._own = sorted({name for source in self._sources for name in source.of} - OBSERVED)
        self._known: dict[tuple[Attributes, tuple[str, ...]], tuple[str, ...]] = {}

    def of(self, ours: Values, attributes: Attributes) -> tuple[str, ...]:
        """The values of an observation, from its own and from its series'."""
        key = attributes, tuple(ours[name] for name in self._own)
        values = self._known.get(key)
        if values is None:
            said = {**ours, **dict(zip(OBS_ATTRIBUTES, attributes))}
            values = self._known[key] = tuple(source.value(said) or "" for source in self._sources)
        return values


OBSERVED = frozenset(OBS_ATTRIBUTES)
"""The attributes that can differ between observations of one series."""


def _name_values(one: Observation) -> Values:
    return dict(zip(OBS_ATTRIBUTES, one[2]))


# ---- forms


def _csv(profile: Profile, named: Iterable[Named]) -> str:
    """The rows of all series, the names of the columns first."""
    of, kind = (profile.flow, "dataflow") if profile.flow else (profile.structure, "datastructure")
    start = [kind, f"{of.agency}:{of.id}({of.version})", "I"]
    names = [source.name for source in profile.dimensions]
    more = [source.name for at in (AT_SERIES, AT_OBSERVATION) for source in _at(profile, at)]
    lines = [line_of(["STRUCTURE", "STRUCTURE_ID", "ACTION", *names, TIME, VALUE, *more])]
    # (months and figures have no character that would have to be escaped)
    for each in named:
        begins = line_of([*start, *each.key])
        lines += [f"{begins},{at},{value}{_cells((*each.attributes, *said))}" for at, value, said in each.observations]
    return "\n".join([*lines, ""])


@lru_cache(maxsize=1 << 12)
def _end(names: tuple[str, ...], said: tuple[str, ...]) -> str:
    """The attributes of an observation, except its month and its figure."""
    return attributes_of(dict(zip(names, said)))


@lru_cache(maxsize=1 << 12)
def _cells(texts: tuple[str, ...]) -> str:
    """Cells at the end of a row, each after a comma."""
    return line_of(["", *texts]) if texts else ""


def _xml(profile: Profile, named: Named) -> str:
    """The element of a series."""
    names = [source.name for source in (*profile.dimensions, *_at(profile, AT_SERIES))]
    head = attributes_of(dict(zip(names, (*named.key, *named.attributes))))
    own = tuple(source.name for source in _at(profile, AT_OBSERVATION))
    lines = [f'<Obs {TIME}="{at}" {VALUE}="{value}"{_end(own, said)}/>\n' for at, value, said in named.observations]
    return f"<Series{head}>\n{''.join(lines)}</Series>\n"


# ==== the structure message of SDMX-ML 2.1: dataflow, code lists, concepts, and the data structure definition

ENUMERATED = (*LISTS, *SHARED, "COICOP18")
"""The concepts that have a code list."""

# t: the name of the list of concepts in a file of SDMX
CONCEPTS_NAME = mark_text("Concepts")

CHANGES = {"isFinal": "false"}
"""No artefact that an agency maintains here is final."""


FORMS = {
    TIME: "ObservationalTimePeriod",
    VALUE: "Decimal",
    "BASE_PER": "ObservationalTimePeriod",
    "DECIMALS": "Integer",
    "REVISION": "Integer",
    "EMBARGO_TIME": "DateTime",
}
"""The types of the concepts without a code list."""


def structure_of(series: Series, config: Config, versions: Versions) -> Structure:
    """The artefacts of some tables, with their versions. The version of an artefact follows those of what it refers to,
    too."""
    lists = {name: fix_list(config, title, codes) for name, (title, codes) in lists_of(config).items()}
    lists["COICOP18"] = items(series, config, CONCEPTS["COICOP18"])
    references = [Reference(config.agency, config.id(name), "") for name in (SCHEME, DEFINITION, FLOW)]
    own = Structure(lists, *references)
    for name, code_list in lists.items():
        version = versions.give("Codelist", f"CL_{config.id(name)}", _code_list(own, config, name))
        lists[name] = code_list._replace(version=version)
    own = own._replace(concepts=_give_version(versions, "ConceptScheme", own.concepts, _concepts(own, config)))
    own = own._replace(definition=_give_version(versions, "DataStructure", own.definition, _definition(own, config)))
    return own._replace(flow=_give_version(versions, "Dataflow", own.flow, _dataflow(own, config)))


def _give_version(versions: Versions, kind: str, reference: Reference, content: str) -> Reference:
    return reference._replace(version=versions.give(kind, reference.id, content))


def write_structure(own: Structure, series: Series, config: Config, path: Path) -> None:
    """Writes the message."""
    parts = [
        f'{PROLOGUE}<message:Structure {SPACES} xmlns:str="{SCHEMAS}structure">\n',
        message_header(series, config, DEFINITION),
        "<message:Structures>\n",
        element("str:Dataflows", _dataflow(own, config)),
        element("str:Codelists", "".join(_code_list(own, config, name) for name in own.lists)),
        element("str:Concepts", _concepts(own, config)),
        element("str:DataStructures", _definition(own, config)),
        "</message:Structures>\n</message:Structure>\n",
    ]
    path.write_text("".join(parts), encoding="utf-8")


def element(name: str, body: str = "", **attributes: str) -> str:
    """An element, with a line of its own for its beginning and its end where others are in it."""
    head = f"{name}{attributes_of(attributes)}"
    return f"<{head}>\n{body}</{name}>\n" if body else f"<{head}/>\n"


def _name_element(
    name: str,
    title: str,
    body: str = "",
    language: str = "en",
    others: Names = (),
    annotations: str = "",
    **attributes: str,
) -> str:
    """An element that has a name for readers, and perhaps further ones in other languages, and annotations before it."""
    names = ((language, title), *others)
    line = "".join(f'<common:Name xml:lang="{tag}">{text_of(text)}</common:Name>\n' for tag, text in names)
    return element(name, annotations + line + body, **attributes)


def _list_attributes(own: Reference) -> dict[str, str]:
    """The attributes of an artefact that an agency maintains."""
    return {"id": own.id, "agencyID": own.agency, "version": own.version}


def _dataflow(own: Structure, config: Config) -> str:
    reference = element("Ref", **_list_attributes(own.definition), **{"class": "DataStructure"})
    body = element("str:Structure", reference)
    return _name_element(
        "str:Dataflow",
        config.title,
        body,
        config.language,
        title_of_index(config),
        _licence(config),
        **_list_attributes(own.flow),
        **CHANGES,
    )


def _licence(config: Config) -> str:
    """The annotations of the dataflow: the licence of its data, if the office names one."""
    if not config.licence:
        return ""
    said = f'<common:AnnotationText xml:lang="{config.language}">{text_of(config.licence)}</common:AnnotationText>\n'
    if is_address(config.licence):
        said = f"<common:AnnotationURL>{text_of(config.licence)}</common:AnnotationURL>\n"
    kind = "<common:AnnotationType>LICENSE</common:AnnotationType>\n"
    return element("common:Annotations", element("common:Annotation", kind + said))


def _list_of(own: Structure, config: Config, name: str) -> Reference:
    """The code list of a concept: of another agency, or of the office."""
    if name in SHARED:
        return find_shared(config, name)
    return Reference(config.agency, f"CL_{config.id(name)}", own.lists[name].version)


def _code_list(own: Structure, config: Config, name: str) -> str:
    """The code list of a concept, which the office maintains."""
    code_list = own.lists[name]
    body = "".join(
        _name_element(
            "str:Code",
            code.name,
            element("str:Parent", element("Ref", id=code.parent)) if code.parent else "",
            code.language,
            code_list.names.get(code.id, ()),
            id=code.id,
        )
        for code in code_list.codes
    )
    kept = _list_attributes(_list_of(own, config, name))
    return _name_element(
        "str:Codelist", code_list.title, body, others=translate_text(config, code_list.title), **kept, **CHANGES
    )


def _concepts(own: Structure, config: Config) -> str:
    body = "".join(
        _name_element("str:Concept", title, others=translate_text(config, title), id=config.id(name))
        for name, title in CONCEPTS.items()
        if name not in SHARED_CONCEPTS
    )
    return _name_element(
        "str:ConceptScheme",
        CONCEPTS_NAME,
        body,
        others=translate_text(config, CONCEPTS_NAME),
        **_list_attributes(own.concepts),
        **CHANGES,
    )


def _identity(own: Structure, config: Config, name: str) -> str:
    """The concept of a component, of SDMX itself or of the office, and its code list or its form."""
    is_shared = name in SHARED_CONCEPTS
    its_id, concepts = (name, shared_scheme(config)) if is_shared else (config.id(name), own.concepts)
    scheme = {"maintainableParentID": concepts.id, "maintainableParentVersion": concepts.version}
    kept = {"id": its_id, "agencyID": concepts.agency, **scheme, "package": "conceptscheme", "class": "Concept"}
    identity = element("str:ConceptIdentity", element("Ref", **kept))
    if name in ENUMERATED:
        kept = _list_attributes(_list_of(own, config, name))
        reference = element("Ref", **kept, package="codelist", **{"class": "Codelist"})
        return identity + element("str:LocalRepresentation", element("str:Enumeration", reference))
    return identity + element("str:LocalRepresentation", element("str:TextFormat", textType=FORMS[name]))


def _definition(own: Structure, config: Config) -> str:
    dimensions = [
        element("str:Dimension", _identity(own, config, name), id=config.id(name), position=str(place))
        for place, name in enumerate(DIMENSIONS, 1)
    ]
    dimensions.append(
        element("str:TimeDimension", _identity(own, config, TIME), id=TIME, position=str(len(DIMENSIONS) + 1))
    )
    attributes = (_attribute(own, config, name) for name in (*SERIES_ATTRIBUTES, *OBS_ATTRIBUTES))
    measure = element("str:PrimaryMeasure", _identity(own, config, VALUE), id=VALUE)
    body = element(
        "str:DataStructureComponents",
        element("str:DimensionList", "".join(dimensions), id="DimensionDescriptor")
        + element("str:AttributeList", "".join(attributes), id="AttributeDescriptor")
        + element("str:MeasureList", measure, id="MeasureDescriptor"),
    )
    return _name_element(
        "str:DataStructure",
        config.title,
        body,
        config.language,
        title_of_index(config),
        **_list_attributes(own.definition),
        **CHANGES,
    )


def _attribute(own: Structure, config: Config, name: str) -> str:
    """An attribute of an observation, or of a series: then it belongs to all dimensions."""
    if name in OBS_ATTRIBUTES:
        hangs = element("str:PrimaryMeasure", element("Ref", id=VALUE))
    else:
        hangs = "".join(element("str:Dimension", element("Ref", id=config.id(each))) for each in DIMENSIONS)
    body = _identity(own, config, name) + element("str:AttributeRelationship", hangs)
    status = "Mandatory" if name in NEEDED else "Conditional"
    return element("str:Attribute", body, id=config.id(name), assignmentStatus=status)
