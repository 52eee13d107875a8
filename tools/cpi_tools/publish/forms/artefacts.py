"""The artefacts of SDMX that an office maintains, their versions, and the languages of texts in files of data."""

from __future__ import annotations

import functools
import hashlib
import json
import re
from collections.abc import Iterable, Mapping
from pathlib import Path
from typing import Any, NamedTuple

from ...office.tables import Series
from ...text.exact import ALL_ITEMS, parent_of
from ...text.languages import SPEAKS_ENGLISH, Speech, speech_of
from ...text.terminal import Fault, because_of
from ..figures.config import Config
from ..figures.own_words import Own
from ..figures.profiles import REFERENCE, Reference as Reference


# ==== the versions of the artefacts of SDMX that an office maintains, which each pack has from the one before
#
# `data/artefacts.json` has a row for each artefact that a pack of the office ever had: its class, its id, its version,
# and the sum of its content. The same content keeps its version. Other content has the version that follows, so a
# registry takes the later one as the later. An artefact that is no longer written keeps its row, and so its place if it
# comes back.

NAME = "artefacts.json"
FIRST = "1.0.0"
"""The version of an artefact that no pack had before."""

VERSION = re.compile(r"[0-9]{1,9}(?:\.[0-9]{1,9})*")
SHOWN = re.compile(
    rf'<str:(?:Dataflow|Codelist|ConceptScheme|DataStructure) [^>]*\bversion="({VERSION.pattern})"'.encode()
)
"""An artefact in a structure message, with its version."""

SUM = re.compile("(?:[0-9a-f]{64})?")
"""A sum; empty if earlier packs have different contents with the same version, so that neither keeps it."""


class BadArtefacts(Fault):
    """A file of versions that can't be read; one line."""


class Artefact(NamedTuple):
    """An artefact of a pack: its class, its id, its version, and the SHA-256 of its content, which may be empty."""

    kind: str
    id: str
    version: str
    sum: str


def numbers_of(version: str) -> tuple[int, ...]:
    """A version as it is compared: 1.0.10 comes after 1.0.9."""
    return tuple(map(int, version.split(".")))


def after(version: str) -> str:
    """The version after a given one."""
    *first, last = version.split(".")
    return ".".join([*first, str(int(last) + 1)])


class Versions:
    """Gives the artefacts of a pack their versions, by those of the packs before."""

    def __init__(self, before: Iterable[Artefact] = (), above: str = ""):
        """`above` is the greatest version that a pack without rows shows, empty if it shows none."""
        self._above = above
        self._rows: dict[tuple[str, str], Artefact] = {}
        for artefact in before:
            earlier = self._rows.get((artefact.kind, artefact.id))
            if earlier is None or numbers_of(earlier.version) < numbers_of(artefact.version):
                self._rows[artefact.kind, artefact.id] = artefact
            elif numbers_of(earlier.version) == numbers_of(artefact.version) and earlier.sum != artefact.sum:
                self._rows[artefact.kind, artefact.id] = earlier._replace(sum="")

    @property
    def rows(self) -> list[Artefact]:
        """All artefacts, by class and id."""
        return [self._rows[key] for key in sorted(self._rows)]

    def give(self, kind: str, name: str, content: str) -> str:
        """The version of an artefact with some content: the version in its row if it has the same content and isn't
        below the versions of a pack without rows, or otherwise the version after both."""
        its_sum = hashlib.sha256(content.encode()).hexdigest()
        known = self._rows.get((kind, name))
        shown = [it for it in (known.version if known else "", self._above) if it]
        greatest = max(shown, key=numbers_of, default="")
        if known is None or known.sum != its_sum or numbers_of(known.version) < numbers_of(greatest):
            known = Artefact(kind, name, after(greatest) if greatest else FIRST, its_sum)
            self._rows[kind, name] = known
        return known.version

    def write(self, folder: Path) -> None:
        """Writes them into the folder `data` of a pack, a row a line; nothing if there is none."""
        rows = ",\n".join(
            "  " + json.dumps({"class": row.kind, "id": row.id, "version": row.version, "sum": row.sum})
            for row in self.rows
        )
        if rows:
            (folder / NAME).write_text(f'{{\n "artefacts": [\n{rows}\n ]\n}}\n', encoding="utf-8")


def versions_after(packs: Iterable[Path]) -> Versions:
    """The versions by the folders of some packs. A pack of an earlier version of the tool has no rows: then all begin above
    those that its structure shows. Raises BadArtefacts."""
    rows: list[Artefact] = []
    above: list[str] = []
    for pack in packs:
        path = pack / "data" / NAME
        if path.exists():
            rows += _read(path)
        else:
            above += _read_versions(pack / "data" / "structure.sdmx.xml")
    return Versions(rows, max(above, key=numbers_of, default=""))


def _read(path: Path) -> list[Artefact]:
    """The rows of a file."""
    try:
        found: Any = json.loads(path.read_bytes())
        rows = [
            Artefact(artefact["class"], artefact["id"], artefact["version"], artefact["sum"])
            for artefact in found["artefacts"]
        ]
        if not rows or not all(map(_is_row, rows)):
            raise ValueError("a row isn't class, id, version and sum")
    except OSError as fault:
        raise BadArtefacts(because_of(fault)) from fault
    except (KeyError, TypeError, ValueError, RecursionError) as fault:
        raise BadArtefacts(
            f"{path} isn't what cpi-tools publish wrote there: take it from a copy of the pack; or remove it, and all"
            " versions begin above those of structure.sdmx.xml beside it"
        ) from fault
    return rows


def _is_row(artefact: Artefact) -> bool:
    """Whether a row has the form of an artefact."""
    texts = all(isinstance(each, str) for each in artefact) and bool(artefact.kind and artefact.id)
    return texts and VERSION.fullmatch(artefact.version) is not None and SUM.fullmatch(artefact.sum) is not None


def _read_versions(path: Path) -> list[str]:
    """The versions that a structure message shows; none if there is no such file."""
    try:
        return [version.decode() for version in SHOWN.findall(path.read_bytes())]
    except FileNotFoundError:
        return []
    except OSError as fault:
        raise BadArtefacts(because_of(fault)) from fault


# ==== the languages of the texts in files of data, whose figures are the same in each: SDMX, PX and JSON-stat


class Tongue(NamedTuple):
    """A language of a file: its tag, its texts, the office's titles of items in it, and the office's own texts."""

    tag: str
    speech: Speech
    titles: Mapping[str, str]
    config: Config

    def title(self, series: Series, code: str) -> str:
        """The title of an item; the tables' title, if the office has none in this language."""
        return self.titles.get(code, series.title(code))


@functools.lru_cache(maxsize=None)
def spoken(tag: str) -> Speech:
    """The texts of a language; figures of a file have ASCII digits."""
    return speech_of(tag.replace("-", "_"))


def first_of(config: Config) -> Tongue:
    """The language of the titles of the tables: the file's own. The tools' own texts are in it if the pages have it,
    and otherwise in English."""
    tag = config.language
    if tag not in config.speaks.languages:
        return Tongue(tag, SPEAKS_ENGLISH, {}, config)
    return _of(config, tag)


def others_of(config: Config) -> list[Tongue]:
    """The other languages of the pages."""
    return [_of(config, tag) for tag in config.speaks.languages if tag != config.language]


def _of(config: Config, tag: str) -> Tongue:
    return Tongue(tag, spoken(tag), config.speaks.own.get(tag, Own()).titles, config.spoken(tag))


Names = tuple[tuple[str, str], ...]
"""A text by the tags of languages."""


def translate_text(config: Config, text: str) -> Names:
    """A text of the catalogues in the languages of the pages, besides English."""
    tags = [tag for tag in config.speaks.languages if tag != SPEAKS_ENGLISH.language.tag]
    return tuple((tag, spoken(tag).t(text)) for tag in tags)


def titles_of(config: Config, code: str) -> Names:
    """The office's titles of an item in languages other than its tables'."""
    return tuple((tongue.tag, tongue.titles[code]) for tongue in others_of(config) if code in tongue.titles)


def title_of_index(config: Config) -> Names:
    """The name of the index in languages other than its tables', if the office has one."""
    return tuple(
        (tongue.tag, tongue.config.title) for tongue in others_of(config) if tongue.config.title != config.title
    )


# ==== the artefacts of SDMX that an office maintains: its code lists, its concepts, its data structure and its dataflow
#
# Each has a version of its own. Nothing is final: items come and titles change, and SDMX lets a final
# artefact never change.
#
# Frequency, area and status are lists that agencies share: they are referred to by their own agency and version. So are
# the concepts that SDMX has for all domains.

SHARED = {
    "FREQ": "SDMX:CL_FREQ(2.1)",
    "REF_AREA": "SDMX:CL_AREA(2.0.1)",
    "OBS_STATUS": "SDMX:CL_OBS_STATUS(2.2)",
}
"""The lists of other agencies, by the concept that takes its codes from them."""

CROSS_DOMAIN = "CROSS_DOMAIN_CONCEPTS"
SHARED_SCHEME = f"SDMX:{CROSS_DOMAIN}(2.0)"
"""The list of the concepts that SDMX has for all domains."""

SHARED_CONCEPTS = frozenset(
    "FREQ REF_AREA UNIT_MEASURE OBS_STATUS TIME_PERIOD OBS_VALUE BASE_PER DECIMALS EMBARGO_TIME".split()
)
"""The concepts of ours that this list contains, with the same ids."""


def find_shared(config: Config, concept: str) -> Reference:
    """The list of another agency that a concept uses."""
    return _reference(config.ids.get(f"CL_{concept}", SHARED[concept]))


def shared_scheme(config: Config) -> Reference:
    """The list of the concepts for all domains."""
    return _reference(config.ids.get(CROSS_DOMAIN, SHARED_SCHEME))


def _reference(text: str) -> Reference:
    match = REFERENCE.fullmatch(text)
    assert match
    return Reference(*match.groups())


class Code(NamedTuple):
    """A code of a list: its id, its name and the language of that, and the id of the code above it, or nothing."""

    id: str
    name: str
    language: str
    parent: str = ""


class CodeList(NamedTuple):
    """A code list of the office: its title in English, its codes, by their ids what these are called in further languages,
    and its version."""

    title: str
    codes: list[Code]
    names: Mapping[str, Names] = {}
    version: str = ""


def item_id(code: str) -> str:
    """The id of a node; a special aggregate has its own."""
    return "_T" if code == ALL_ITEMS else "CP" + code.replace(".", "") if code[:1].isdigit() else code


def items(series: Series, config: Config, title: str) -> CodeList:
    """The list of nodes, each below the next one above it, of special aggregates, and of measures of core inflation."""
    codes = [
        Code(item_id(code), name, config.language, item_id(above) if (above := parent_of(code)) else "")
        for code, name in series.every_title.items()
    ]
    others = {name: it.title for name, it in series.specials.items()} | {
        name: it.title for name, it in series.core.items()
    }
    codes += [Code(name, title, config.language) for name, title in others.items()]
    ids = {item_id(code): code for code in series.every_title} | {name: name for name in others}
    names = {id: titles_of(config, code) for id, code in ids.items()} if config.speaks.languages else {}
    return CodeList(title, codes, names)


def fix_list(config: Config, title: str, codes: Mapping[str, str]) -> CodeList:
    """A list that doesn't depend on the tables, with the office's own ids."""
    own = [Code(config.id(code), name, "en") for code, name in codes.items()]
    names = (
        {config.id(code): translate_text(config, name) for code, name in codes.items()}
        if config.speaks.languages
        else {}
    )
    return CodeList(title, own, names)


class Structure(NamedTuple):
    """The artefacts that an office maintains: its code lists by concept, and the versions of its concepts, its
    definition of the data structure and its dataflow."""

    lists: dict[str, CodeList]
    concepts: Reference
    definition: Reference
    flow: Reference
