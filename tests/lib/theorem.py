"""Counts the definitions on which a statement of the proofs rests: itself, and every definition to which its text
leads.

`definitions_of` all definitions of crates/*/specs, each with the definitions that its text names. `rests_on` those that
a statement leads to, itself among them. `theorem_faults` THEOREM says of each statement in its tables as many as there
are. `import_faults` no file of specs/ imports a definition of which it has only the name, as that of an argument.

A definition is named by its crate, its file and its own name. A name in a text is one of the same file or one that the
file imports; an argument with the name of a definition that the file imports counts as that definition. What the code declares (types,
variants) and what the library defines isn't counted.
"""

from __future__ import annotations

import re
from collections.abc import Iterator, Mapping
from functools import lru_cache
from pathlib import Path
from typing import NamedTuple

ROOT = Path(__file__).resolve().parents[2]

HEAD = re.compile(r"^\s*(?:pub )?(?:abbrev|unfoldable|record|data) (?:pub )?([\w.]+)(?! \{|[\w.])")
CONSTRUCTOR = re.compile(r"^\s+(?:pub )?([A-Z]\w*) :")
IMPORT = re.compile(r"^use Rattle\.(\w+)\.specs\.(\w+)(?:\.\{([^}]*)\}| as (\w+))$", re.M)
WORD = re.compile(r"(?:\b(\w+)\.)?\b([A-Za-z_]\w*)")
ARGUMENTS = re.compile(r"[({]((?:[\w'-]+ )+): ")
PARAMETERS = re.compile(r"λ ([^.(]*)\.")
VALUE = re.compile(r"\blet ([\w'-]+)")
PLAIN = re.compile(r"(?<![\w.])[a-z][\w'-]*(?![\w.])")
ROW = re.compile(r"^\| `(\w+)` in `(\w+)/specs/(\w+)\.antt` \|.*\| (\d+) \|$", re.M)
ALL = re.compile(r"^\| all of these \|.*\| (\d+) \|$", re.M)


class Name(NamedTuple):
    """A definition: `RepliesAreAlike` of the file `AnsweredAlike` of `cpi_office`."""

    crate: str
    file: str
    name: str


Texts = dict[Name, list[str]]


def texts_of(path: Path, heads: dict[Name, Name]) -> Texts:
    """The lines of each definition of a file; `heads` gets each definition and each constructor with its definition."""
    texts: Texts = {}
    current = None
    for line in path.read_text(encoding="utf-8").splitlines():
        line = line.partition("--")[0]
        if match := HEAD.match(line):
            current = Name(path.parts[-3], path.stem, match[1])
            texts[current], heads[current] = [], current
        if current and not line.startswith("use "):
            texts[current].append(line)
            if made := CONSTRUCTOR.match(line):
                heads.setdefault(current._replace(name=made[1]), current)
    return texts


def imports_of(path: Path) -> dict[str, Name]:
    """The meaning of each name that a file imports; for a whole file, the name is empty."""
    names: dict[str, Name] = {}
    for crate, file, listed, alias in IMPORT.findall(path.read_text(encoding="utf-8")):
        for one in filter(None, map(str.strip, listed.split(","))):
            name, _, other = one.partition(" as ")
            names[other or name] = Name(crate, file, name)
        if alias:
            names[alias] = Name(crate, file, "")
    return names


def named_in(text: str, own: Name, imports: Mapping[str, Name], heads: Mapping[Name, Name]) -> Iterator[Name]:
    """The definitions that the text of a definition names."""
    for owner, word in WORD.findall(text):
        if owner:
            whole = imports.get(owner)
            meant = (
                whole._replace(name=word) if whole and not whole.name else imports.get(owner, own._replace(name=owner))
            )
        else:
            meant = imports.get(word, own._replace(name=word))
        if meant in heads:
            yield heads[meant]


@lru_cache(maxsize=1)
def definitions_of() -> dict[Name, frozenset[Name]]:
    """Each definition of crates/*/specs, with the definitions that its text names."""
    heads: dict[Name, Name] = {}
    files = [(path, texts_of(path, heads)) for path in sorted(ROOT.glob("crates/*/specs/*.antt"))]
    return {
        name: frozenset(named_in("\n".join(lines), name, imports_of(path), heads)) - {name}
        for path, texts in files
        for name, lines in texts.items()
    }


def rests_on(*statements: Name) -> set[Name]:
    """Every definition to which statements lead, including the statements themselves. KeyError: there is no such
    definition."""
    every, reached, waiting = definitions_of(), set[Name](), list(statements)
    while waiting:
        if (name := waiting.pop()) not in reached:
            reached.add(name)
            waiting += every[name]
    return reached


def bound_in(name: str, text: str) -> set[str]:
    """The names that the text of a definition binds: its arguments, those of functions within it, and values."""
    patterns = re.findall(rf"^ *{re.escape(name)}( [^=\n]*)=(?=\s)", text, re.M)
    groups = [*ARGUMENTS.findall(text), *PARAMETERS.findall(text), *VALUE.findall(text), *patterns]
    return {name for group in groups for name in PLAIN.findall(group)}


def import_faults(path: Path) -> Iterator[str]:
    """The definitions that a file imports, and whose names it only binds: counts would include definitions on which
    nothing rests."""
    texts = {it.name: "\n".join(lines) for it, lines in texts_of(path, {}).items()}
    for name, meant in imports_of(path).items():
        users = {own for own, text in texts.items() if re.search(rf"(?<![\w.]){re.escape(name)}(?!\w)", text)}
        if meant in definitions_of() and users and all(name in bound_in(own, texts[own]) for own in users):
            yield f"{'/'.join(path.parts[-3:])} imports {meant.name} of {meant.file}, and has only an argument of that name"


def theorem_faults(text: str) -> Iterator[str]:
    """The rows of THEOREM with a wrong number, the last row if it is wrong, and the imports that count too much."""
    for path in sorted(ROOT.glob("crates/*/specs/*.antt")):
        yield from import_faults(path)
    statements = list[Name]()
    for name, crate, file, told in ROW.findall(text):
        statement = Name(crate, file, name)
        if statement not in definitions_of():
            yield f"{name} is no definition of {crate}/specs/{file}.antt"
            continue
        statements.append(statement)
        if (count := len(rests_on(statement))) != int(told):
            yield f"{name} rests on {count} definitions, and not on {told}"
    match = ALL.search(text)
    if not statements or not match:
        yield "it has no table of statements with the number of definitions below each"
    elif (count := len(rests_on(*statements))) != int(match[1]):
        yield f"its statements rest on {count} definitions together, and not on {match[1]}"
