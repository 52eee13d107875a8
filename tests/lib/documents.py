"""The rules for a document, besides commands that run: a layout within bounds, and names of existing things.

`layout_faults`  no paragraph, list item or cell of a table is too long to read; README is two screens.
`length_faults`  a document has at most 5,000 words, and all of docs/ have no more than their bound (`all_words`).
`name_faults`    each path, and each name of code, stands in the repository.
`claim_faults`   where a function is named with its clauses, or a definition with its file, it has them.
`promise_faults` each sentence of PROMISE names the heading of PROOF that carries it.
`script_faults`  each script and each file of tests of a folder has its line in the folder's README.
`record_faults`  each record of DECISIONS has a number of its own, a date, and what it was chosen against.
`running_faults` RUNNING tells what the shipped program needs, and what to do at each line of a fault.
`example_faults` the example of FORMATS is the case of tests/cases that it names.
`theorem_faults` THEOREM says of each statement how many definitions it rests on (theorem.py).
`english_faults` few sentences have a form that an editor of plain English changes (plain_english.py).

Each answers lines, none where nothing is wrong.
"""

from __future__ import annotations

import json
import re
from collections.abc import Iterator
from dataclasses import dataclass, field
from functools import lru_cache
from pathlib import Path

from .crate_readmes import crate_readme_faults, numbers_in
from .plain_english import english_faults
from .theorem import theorem_faults

ROOT = Path(__file__).resolve().parents[2]
FENCED = re.compile(r"^```.*?^```$", re.S | re.M)
INDENTED = re.compile(r"(?<=\n\n)(?: {4}.*\n)+")
QUOTED = re.compile(r"`([^`]+)`")
MOST_OF_PARAGRAPH, MOST_OF_CELL = 600, 160
# (of FORMATS the cells are what is printed, column by column)
WIDE_TABLES = {"docs/reference/FORMATS.md"}


def prose(text: str) -> str:
    """The text without its commands, fenced or indented."""
    return INDENTED.sub("", FENCED.sub("", text))


def seen(text: str) -> str:
    """The text as a reader sees it: links without their targets."""
    return re.sub(r"\]\([^)]*\)", "]", " ".join(text.split()))


# ---- the layout


def cells(line: str) -> list[str]:
    return [word.strip() for word in re.split(r"(?<!\\)\|", line.strip().strip("|"))]


def paragraphs(text: str) -> Iterator[tuple[bool, str]]:
    """Each paragraph, list item or row of a table, and whether it is a row."""
    for block in re.split(r"\n\s*\n", prose(text)):
        if block.lstrip().startswith("|"):
            yield from ((True, line) for line in block.strip().splitlines())
        else:
            yield from ((False, word) for word in re.split(r"\n(?=\s*(?:[-*]|\d+\.)\s)", block))


def layout_faults(name: str, text: str) -> Iterator[str]:
    for is_row, part in paragraphs(text):
        if is_row and name not in WIDE_TABLES:
            wide = [it for it in map(seen, cells(part)) if len(it) > MOST_OF_CELL]
            yield from (f"a cell of {len(it)} characters: {it[:60]}.." for it in wide)
        elif not is_row and len(seen(part)) > MOST_OF_PARAGRAPH:
            yield f"a paragraph of {len(seen(part))} characters: {seen(part)[:60]}.."
    if name == "README.md":
        yield from readme_faults(text)


def readme_faults(text: str) -> Iterator[str]:
    lines = text.splitlines()
    latest = re.search(r"^## (?:Unreleased \()?(\d+\.\d+)", (ROOT / "CHANGELOG.md").read_text(encoding="utf-8"), re.M)
    if latest and f"\nVersion {latest[1]} " not in text:
        yield f"it isn't of version {latest[1]}, the first one in CHANGELOG"
    if len(lines) > 110:
        yield f"{len(lines)} lines, where 110 are two screens"
    yield from (f"a line of {len(line)} characters: {line[:60]}.." for line in lines if len(line) > 300)
    rows = [part for is_row, part in paragraphs(text) if is_row]
    yield from (
        f"a cell of {len(cell)} characters: {cell[:60]}.." for row in rows for cell in cells(row) if len(cell) > 90
    )


# ---- the length

MOST_WORDS, MOST_OF_ALL = 5000, 49389
"""Words as `wc -w` counts them, beside what is printed from the specs and the rows that are compared with the code: of a
document, and of the English pages of docs/ together."""

SHORT = {"docs/develop/THEOREM.md": 1500}
"""Documents with their own bound: two pages of paper."""

PRINTED = re.compile(r"^```antt .*\n(?:.*\n)*?```$", re.M)

DRAWN = re.compile(r"^ {7}(\w+(?:::\w+)?) +(cpi_\w+) +(?:to (\w+), as above$|\S.*)", re.M)
"""A row of a drawn way through the program: a function, its crate, and what it adds; or the function at which a drawing
above goes on."""


def count_words(text: str) -> int:
    """The words of a document that its bound counts."""
    return len(DRAWN.sub("", PRINTED.sub("", text)).split())


def length_faults(name: str, text: str) -> Iterator[str]:
    most, count = SHORT.get(name, MOST_WORDS), count_words(text)
    if name.startswith("docs/") and count > most:
        yield f"{count} words, over {most}"


def pages() -> list[Path]:
    """The English pages of docs/: docs/README.md, and those in the folder of each reader."""
    return sorted([*(ROOT / "docs").glob("*.md"), *(ROOT / "docs").glob("*/*.md")])


def all_words() -> str | None:
    """The fault of the total length of the English pages of docs/, if any."""
    count = sum(count_words(page.read_text(encoding="utf-8")) for page in pages())
    return f"{count} words, over {MOST_OF_ALL}" if count > MOST_OF_ALL else None


# ---- the code


@dataclass
class Code:
    """The declarations in crates/."""

    # the clauses of each public function, by its name, plain and behind its type, and by its crate
    clauses: dict[str, dict[str, set[str]]] = field(default_factory=dict)
    # the definitions of each file of a specs/
    definitions: dict[str, set[str]] = field(default_factory=dict)
    # every name of any of these, of types, variants, fields and modules
    names: set[str] = field(default_factory=set)

    def add(self, crate: str, names: list[str], clauses: set[str]) -> None:
        for name in names:
            self.clauses.setdefault(name, {}).setdefault(crate, set()).update(clauses)
            self.names.add(name)
        self.names.update(clauses)


# (what a trait has, and what is of one, is public)
OWNER = re.compile(r"^(?:pub )?(?:impl(?:<.*?>)? ([\w<>:, ]+ for )?|(trait ))(\w+)")
FUNCTION = re.compile(r"^\s*(pub )?(?:pub\(crate\) )?fn (\w+)")
CLAUSE = re.compile(r"^\s*ensures\*? (\w+) \{")
DECLARED = re.compile(r"^\s*(?:pub(?:\(crate\))? )?(?:struct|enum|trait|type|const|ghost|mod|fn) (\w+)")
VARIANT = re.compile(r"^ {4}(?:pub )?(\w+)(?:,|\(| \{|:)")
DEFINITION = re.compile(r"^\s*(?:\w+ )*pub (?:(?:abbrev|record|data) )?([\w.]+)")


def read_code(code: Code, crate: str, lines: list[str]) -> None:
    """A file of a crate's src/: a function's head goes on to the brace of its body, or to its end."""
    owner, is_open, names, clauses = "", False, list[str](), set[str]()
    for line in lines:
        if match := OWNER.match(line):
            owner, is_open = match[3], bool(match[1] or match[2])
        elif line == "}":
            owner, is_open = "", False
        if (match := FUNCTION.match(line)) and (match[1] or is_open):
            names, clauses = [match[2], *([f"{owner}::{match[2]}"] if owner else [])], set()
        elif match := CLAUSE.match(line):
            clauses.add(match[1])
        for pattern in DECLARED, VARIANT:
            code.names.update(pattern.findall(line))
        if names and (line.strip() in ("{", "{}") or line.endswith((";", ") {", "> {"))):
            code.add(crate, names, clauses)
            names = []


@lru_cache(maxsize=1)
def the_code() -> Code:
    code = Code()
    for path in sorted(ROOT.glob("crates/*/src/**/*.rt")):
        crate = path.relative_to(ROOT / "crates").parts[0]
        code.names.update((crate, path.stem))
        read_code(code, crate, path.read_text(encoding="utf-8").splitlines())
    for path in sorted(ROOT.glob("crates/*/specs/**/*.antt")):
        lines = {
            match[1] for line in path.read_text(encoding="utf-8").splitlines() if (match := DEFINITION.match(line))
        }
        code.definitions[str(path.relative_to(ROOT / "crates"))] = lines
        code.names.update(lines)
    return code


# ---- what is said of the code

TOKEN = re.compile(r"`([^`]+)`|\b(clause|part)s?(?= `)|\bby(?= `)|[;:.](?= )")


def claims(part: str) -> Iterator[tuple[str, list[str]]]:
    """The names in a sentence, by their kinds: functions, clauses, and the definitions of a file."""
    kind, names = "function", list[str]()
    for quoted, word in TOKEN.findall(part):
        if quoted.endswith(".antt"):
            yield quoted, names
            kind, names = "function", []
        elif quoted:
            names.append(quoted)
        else:
            yield kind, names
            kind, names = word or "function", []
    yield kind, names


def claim_faults(text: str, code: Code) -> Iterator[str]:
    """The false claims in sentences like: `f` and `g`, clause `c`; `D` in `crate/specs/File.antt`."""
    functions: list[str] = []
    for is_row, part in paragraphs(text):
        # (an item that names no function goes on from the one before)
        functions = [] if is_row else functions
        for kind, names in claims(part):
            if kind == "function":
                functions = [name for name in names if name in code.clauses] or functions
            elif kind == "clause":
                yield from (f"{c} is a clause of no function" for c in names if not functions)
                yield from (
                    f"{function} has no clause {c}"
                    for function in functions
                    for c in names
                    if not has_clause(code, function, c)
                )
            elif kind.endswith(".antt"):
                there = code.definitions.get(kind, set())
                yield from (f"{name} isn't in {kind}" for name in names if name not in there)


def has_clause(code: Code, function: str, clause: str) -> bool:
    return any(clause in clauses for clauses in code.clauses[function].values())


# ---- names of things that are there

NAME = re.compile(r"^\w+(?:::\w+)?$")
PATH = re.compile(r"^[\w.*-]+(?:/[\w.*-]+)*/?$")
SUFFIXES = (".rt", ".antt", ".py", ".js", ".md", ".conf", ".c", ".cpp")
# what a path begins with that is told as one of ours
TOPS = re.compile(
    r"^(?:crates|docs|tests|bench|examples|ops|tools|web|src|specs|proofs|must-(?:fail|not-compile)|cpi_\w+)/"
)
# a path with a word that stands for any, or to what is built
EXAMPLE = re.compile(r"\b[A-Z]{4,}\b|/out/")
# programs and packages of others, beginnings of names, and words
OUTSIDE = {
    *("xz", "pytest", "jinja2", "openpyxl", "sqlite3", "cc", "curl", "objdump"),
    *("fn", "returns", "_open", "_writes", "_reads", "UTC0"),
    *("HEAD", "Expect", "Host", "Accept", "Date", "Server", "ETag", "ANALYZE", "sqlite_stat1"),
}


@lru_cache(maxsize=1)
def files() -> list[Path]:
    """Each file and folder of the repository, except built or written ones."""
    left_out = {".git", "out", "__pycache__"}
    return [path for path in sorted(ROOT.rglob("*")) if not left_out & set(path.relative_to(ROOT).parts)]


def found_path(quoted: str, base: Path) -> Path | None:
    """The target of a path: beside the path before it, from the top, from crates/ or from a crate.

    A file's name by itself, except the name of a definition or of code, may be in any folder.
    """
    for folder in (base, base.parent, ROOT, ROOT / "crates"):
        if path := next(folder.glob(quoted.rstrip("/")), None):
            return path
    if "*" in quoted:
        return next(ROOT.glob(f"crates/*/{quoted}"), None)
    if quoted.endswith((".rt", ".antt")):
        return None
    return next((file for file in files() if file.match(quoted.rstrip("/"))), None)


def is_path(quoted: str) -> bool:
    is_ours = TOPS.match(quoted) or ("/" not in quoted and quoted.endswith(SUFFIXES))
    return bool(PATH.match(quoted) and is_ours and not EXAMPLE.search(quoted))


def path_faults(text: str) -> Iterator[str]:
    for _, part in paragraphs(text):
        base = ROOT
        for quoted in QUOTED.findall(part):
            if (ROOT / "crates" / quoted).is_dir() and "/" not in quoted:
                base = ROOT / "crates" / quoted
            elif is_path(quoted):
                path = found_path(quoted, base)
                if path is None:
                    yield f"there is no {quoted}"
                else:
                    base = path if path.is_dir() else path.parent


@lru_cache(maxsize=1)
def other_names() -> set[str]:
    """Names of modules, scripts and crates of the toolchain."""
    names = set(re.findall(r"\w+", (ROOT / "crates.txt").read_text(encoding="utf-8"))) | OUTSIDE
    return names | {file.stem for file in files() if file.relative_to(ROOT).parts[0] in ("tools", "web", "tests")}


def name_faults(text: str, code: Code) -> Iterator[str]:
    known = code.names | other_names()
    for quoted in QUOTED.findall(prose(text)):
        if NAME.match(quoted) and quoted not in known and not ("::" in quoted and set(quoted.split("::")) <= known):
            yield f"{quoted} is declared nowhere"


# ---- ways through the program that a document draws


def draw_arrows(text: str) -> Iterator[tuple[str, str, str]]:
    """The crate and the name of each drawn function, and the name of the next one, which it calls."""
    before = None
    for line in text.splitlines():
        row = DRAWN.match(line)
        if row and before:
            yield *before, row[1]
        before = (row[2], row[3] or row[1]) if row else None


def bodies_of(crate: Path, name: str) -> Iterator[str]:
    """The bodies of the functions of a crate that have a name; one like `Type::name` is in an `impl` of that type."""
    owner, _, plain = name.rpartition("::")
    head = re.compile(rf"^( *)(?:pub )?fn {plain}\b.*?\n\1\}}$", re.M | re.S)
    for path in sorted(crate.glob("src/**/*.rt")):
        text = path.read_text(encoding="utf-8")
        parts = re.findall(rf"^impl[^\n]*\b{owner}\b.*?^\}}$", text, re.M | re.S) if owner else [text]
        yield from (match[0] for part in parts for match in head.finditer(part))


def drawing_faults(text: str, crates: Path = ROOT / "crates") -> Iterator[str]:
    """Drawn functions that aren't there, or don't call the next one."""
    for crate, name, callee in draw_arrows(text):
        bodies = [*bodies_of(crates / crate, name)]
        if not bodies:
            yield f"there is no {name} in {crate}"
        elif not any(re.search(rf"\b{callee.rpartition('::')[2]}\(", body.partition("{\n")[2]) for body in bodies):
            yield f"{name} of {crate} doesn't call {callee}"


# ---- what single documents owe


def promise_faults(text: str) -> Iterator[str]:
    items = (part for _, part in paragraphs(text) if part.lstrip().startswith("- "))
    yield from (
        f"no heading of PROOF carries: {seen(item)[:60]}.." for item in items if "](../develop/PROOF.md#" not in item
    )


def script_faults(folder: Path, text: str) -> Iterator[str]:
    """Scripts, and files of tests, that the README of their folder doesn't name."""
    files = [path for path in sorted(folder.iterdir()) if path.is_file()]
    named = [file.name for file in files if file.stat().st_mode & 0o111 or file.match("test_*.py")]
    yield from (f"no word of {name}" for name in named if not re.search(rf"[`/\[]{re.escape(name)}\b", text))


def example_faults(text: str) -> Iterator[str]:
    """The page's blocks are the records of the case, and the output of its last two records."""
    example = text[text.index("### An example") :]
    named = re.search(r"The case `(\S+)`", example)
    if not named:
        yield "it names no case as its example"
        return
    case = ROOT / named[1]
    replies = (case / "stdout").read_text(encoding="utf-8").splitlines()
    wanted = [(case / "stdin").read_text(encoding="utf-8"), *(json.loads(reply)["table"] for reply in replies[-2:])]
    shown = [element.split("\n", 1)[1][:-3] for element in FENCED.findall(example)[:3]]
    yield from (f"its block {at} isn't that of {case.name}" for at in range(3) if shown[at] != wanted[at])


def running_faults(text: str) -> Iterator[str]:
    """The page names the needs of the shipped program, and says what to do at each line of a fault."""
    made = (ROOT / "dist/MADE").read_text(encoding="utf-8") if (ROOT / "dist/MADE").exists() else ""
    needed = re.findall(r"^machine: (\S+)$|\b(GLIBC_[\d.]+)", made, re.M)
    yield from (f"no word of {it}, which dist/MADE names" for pair in needed for it in pair if it and it not in text)
    formats = (ROOT / "docs/reference/FORMATS.md").read_text(encoding="utf-8")
    row = re.search(r"^\| 1 \| .*$", formats.partition("\n## The program\n")[2], re.M)
    told = re.findall(r"`cpi: [^`]*`", row[0] if row else "")
    yield from (f"no word of {it}, which FORMATS has" for it in told or ["the lines of faults"] if it not in text)


RECORD = re.compile(r"^\*\*(\d+)\. ", re.M)
DATED = re.compile(r"\*\*\d+\. .*?\*\* \(\d{4}-\d{2}-\d{2}\)")

ALTERNATIVE = re.compile(r"[^.]*?(?:\binstead of\b|, not |: [^.]*\bwould)")
"""What a record was chosen against: "instead of" or ", not " before the alternative, or what it would or wouldn't do,
after a colon. The record says so between its date and the first full stop after it."""


def record_faults(text: str) -> Iterator[str]:
    """Each record has a date, what it was chosen against, and a number that no other decision has."""
    for part in (paragraph for _, paragraph in paragraphs(text) if RECORD.match(paragraph)):
        date = DATED.match(part)
        if not date:
            yield f"a record without a date: {part[:60]}.."
        elif not ALTERNATIVE.match(part, date.end()):
            yield f"a record that doesn't say what it was chosen against: {part[:60]}.."
    every = numbers_in(text)
    yield from (
        f"two decisions have the number {number}"
        for number in sorted({number for number in every if every.count(number) > 1})
    )


CLAIMING = {"README.md", "docs/develop/PROOF.md", "docs/develop/THEOREM.md", "docs/data/AUDIT.md"}
NAMED = {*CLAIMING, *(f"docs/develop/{text}.md" for text in ("ARCHITECTURE", "CONTRIBUTING", "DEVIATIONS", "TERMS"))}
ALONE = {
    "docs/develop/DECISIONS.md": record_faults,
    "docs/reference/FORMATS.md": example_faults,
    "docs/decide/PROMISE.md": promise_faults,
    "docs/run/RUNNING.md": running_faults,
    "docs/develop/THEOREM.md": theorem_faults,
}


def document_faults(name: str, text: str) -> Iterator[str]:
    """The faults of a document, given by its name from the top of the repository."""
    yield from layout_faults(name, text)
    yield from length_faults(name, text)
    yield from english_faults(name, text)
    yield from crate_readme_faults(name, text)
    yield from path_faults(text)
    if name in NAMED:
        yield from name_faults(text, the_code())
    if name in CLAIMING:
        yield from claim_faults(text, the_code())
    yield from drawing_faults(text)
    if name in ALONE:
        yield from ALONE[name](text)
    if name in ("tests/README.md", "bench/README.md"):
        yield from script_faults((ROOT / name).parent, text)
