"""How many there are of what makes the sources hard to read: each count of tools/counts, by the text of the files.

Nothing is asked of the toolchain, so each count is by names and by the form of lines; its function says how.
"""

from __future__ import annotations

import ast
import re
from collections import Counter, defaultdict
from collections.abc import Iterator
from typing import NamedTuple

from tree import TOP, written_in

LONGEST = 40
"""A function has at most so many lines: in Rattle those of its body, in Python all of them."""

SHORT = 15
"""A proof file with fewer lines is short."""

IRREGULAR = frozenset(
    """begun bound broken brought built chosen done drawn driven fallen felt found given gone grown had held hidden kept
    known laid left lent lost made meant met paid put read run said seen sent set shaken shown sold spent split stood
    taken thought thrown told torn won worn written""".split()
)
"""Participles that don't end in -ed."""

TRUSTED = ("cpi/src/main.rt", "cpi_files/src/host.rt", "cpi_app/src/machine.rt")
"""The files of what the program does to the machine, which no contract says and people read."""
VERBS = frozenset({"put", "read", "run", "split"})
"""Those that are also what one tells somebody to do."""

VAGUE = frozenset({"it", "found"})
"""Names of variables that don't say what they are."""

COMPANIONS, BENCHES = "tools/cpi_tools/", "bench/"
PROGRAMS = ("tools/", "tests/", "bench/", "examples/", "ops/")
"""The folders whose variables are counted when their names are VAGUE."""

MOST_FILES = 30
"""A folder of the companions has at most so many files."""

SAYING_NOTHING = frozenset({"by", "mine", "either", "go"})
"""Names that say nothing of what a lemma states."""

LITERAL = re.compile(r"(?<![_0-9.])[0-9]{7,}\b")
RENAMED = re.compile(r"\b[\w◌-]+ as [\w◌-]+")
USE = re.compile(r"\s*(ghost |pub )*use ")
SPEC = re.compile(r"(?:(?:abbrev|unfoldable|opaque) )?(?:pub )?(?:record |data )?([^\s(){}:]+) (?:[({].* )?: ")
LEMMA = re.compile(r"\s*(?:(?:abbrev|unfoldable|opaque|pub) )*([\w'-]+) : (?!goal\.)")
FUNCTION = re.compile(r"( *)(pub(?:\([a-z]+\))? )?(?:ghost )?fn (\w+)")
WORD = re.compile(r"\b\w+\b")


class Function(NamedTuple):
    """A function in Rattle: its file and line, its name, whether other crates can call it, its contract and signature,
    and its body."""

    file: str
    line: int
    name: str
    is_public: bool
    body: list[str]


def texts(part: str) -> Iterator[tuple[str, list[str]]]:
    """The files of a part of the crates (src, specs, proofs), but those of cpi_tests, with their lines."""
    for file in written_in("rattle"):
        if file.split("/")[2] == part and not file.startswith("crates/cpi_tests/"):
            yield file, (TOP / file).read_text(encoding="utf-8").splitlines()


def renaming_imports(part: str) -> list[str]:
    """Each `NAME as NAME` of a line that begins with `use`."""
    return [name for _, lines in texts(part) for line in lines if USE.match(line) for name in RENAMED.findall(line)]


def spec_names() -> dict[str, set[str]]:
    """The names that spec files declare at their margin, and in which files; examples and declared types aside."""
    names: dict[str, set[str]] = defaultdict(set)
    for file, lines in texts("specs"):
        for line in lines if "/declared/" not in file and not file.endswith("Examples.antt") else ():
            if (name := SPEC.match(line)) and not line.startswith(("use ", "pub use ", "--")):
                names[name[1]].add(file)
    return names


def participles() -> list[str]:
    """Spec names of one word that end in -ed, or are one of IRREGULAR."""
    return sorted(name for name in spec_names() if name in IRREGULAR or re.fullmatch(r"[a-z]{2,}ed", name))


def lemma_names() -> list[str]:
    """Names of lemmas with a dash, and those that say nothing. The toolchain gives the names of goals."""
    return [
        f"{file}: {match[1]}"
        for file, lines in texts("proofs")
        for line in lines
        if (match := LEMMA.match(line)) and ("-" in match[1] or match[1] in SAYING_NOTHING)
    ]


def literals(part: str) -> list[str]:
    """Numbers of seven and more digits without a `_`, which code has, so in clauses and definitions; examples aside."""
    files = (lines for file, lines in texts(part) if not file.endswith(("Examples.antt", "WorkedRows.antt")))
    return [digits for lines in files for line in lines if not is_comment(line) for digits in LITERAL.findall(line)]


def is_comment(line: str) -> bool:
    """Whether a line is only a comment."""
    return line.lstrip().startswith(("//", "--"))


def functions() -> list[Function]:
    """The functions in Rattle. One ends with the first `}` below its `fn`; its body begins with the last `{` at the end
    of a line that has that margin."""
    functions = []
    for file, lines in texts("src"):
        for at, line in enumerate(lines):
            if not (begins := FUNCTION.match(line)):
                continue
            margin = begins[1]
            last = next((n for n in range(at, len(lines)) if lines[n].startswith(f"{margin}}}")), at)
            opens = [n for n in range(at, last) if lines[n].endswith("{") and is_at(lines[n], margin, n == at)]
            body = lines[opens[-1] + 1 : last] if opens else []
            functions.append(Function(file, at + 1, begins[3], begins[2] == "pub ", body))
    return functions


def is_at(line: str, margin: str, is_first: bool) -> bool:
    """Whether a line that opens a body has the margin of its function."""
    return is_first or line in (f"{margin}{{", f"{margin}) {{") or line.startswith(f"{margin}) ->")


def long_functions() -> list[str]:
    """Functions of more than LONGEST lines, in Rattle and in Python."""
    rattle = [f"{function.file}:{function.line}" for function in functions() if len(function.body) > LONGEST]
    return rattle + [
        f"{file}:{node.lineno}"
        for file in written_in("python")
        for node in ast.walk(ast.parse((TOP / file).read_text(encoding="utf-8")))
        if isinstance(node, (ast.FunctionDef, ast.AsyncFunctionDef))
        and (node.end_lineno or 0) - node.lineno + 1 > LONGEST
    ]


def short_proofs() -> list[str]:
    """The proof files with fewer than SHORT lines."""
    return [file for file, lines in texts("proofs") if len(lines) < SHORT]


def never_called() -> list[str]:
    """Public functions that `main` of `cpi` doesn't reach: a function reaches each that has a name which its body has.
    As a name may be that of several functions, some that are never called aren't found."""
    known_functions = functions()
    named = {function.name for function in known_functions}
    reaches: dict[str, set[str]] = defaultdict(set)
    for function in known_functions:
        code = " ".join(line for line in function.body if not is_comment(line))
        reaches[function.name] |= named & set(WORD.findall(code))
    seen, left = {"main"}, ["main"]
    while left:
        new = reaches[left.pop()] - seen
        seen |= new
        left.extend(new)
    return [
        f"{function.file}:{function.line} {function.name}"
        for function in known_functions
        if function.is_public and function.name not in seen
    ]


def trusted_lines() -> list[str]:
    """The lines of code of the files that people read: not those that are blank, only a comment, or bring in names."""
    lines = []
    for file in TRUSTED:
        within = False
        for number, line in enumerate((TOP / "crates" / file).read_text(encoding="utf-8").split("\n"), 1):
            code = line.partition("//")[0].strip()
            within = within or USE.match(code) is not None
            if code and not within:
                lines.append(f"crates/{file}:{number} {code}")
            within = within and not code.endswith(";")
    return lines


def by_crate(places: list[str]) -> Counter[str]:
    """How many of these places each crate has."""
    return Counter(place.split("/")[1] for place in places)


# ---- the companions


def modules() -> list[str]:
    """The modules of the companions, from tools/cpi_tools on."""
    return sorted(file for file in written_in("python") if file.startswith(COMPANIONS) and file.endswith(".py"))


def module_names_twice() -> list[str]:
    """The names of modules that two folders of the companions have, with their files."""
    lists: dict[str, list[str]] = defaultdict(list)
    for file in modules():
        lists[file.rpartition("/")[2]].append(file)
    return [f"{name}: {', '.join(files)}" for name, files in sorted(lists.items()) if files[1:] and name[0] != "_"]


def wide_folders() -> list[str]:
    """The folders of the companions with more than MOST_FILES files."""
    folders = Counter(path.parent for path in (TOP / COMPANIONS).rglob("*.*") if "__pycache__" not in path.parts)
    return sorted(f"{folder.relative_to(TOP)}: {count}" for folder, count in folders.items() if count > MOST_FILES)


def benches() -> list[str]:
    """The programs of bench/ in Python, and their modules."""
    return sorted(file for file in written_in("python") if file.startswith(BENCHES))


def programs() -> list[str]:
    """All Python of the folders PROGRAMS: tools, tests, benches, examples, and what runs an office."""
    return sorted(file for file in written_in("python") if file.startswith(PROGRAMS))


def python_names(files: list[str], kinds: tuple[type[ast.AST], ...]) -> Iterator[tuple[str, str]]:
    """The names of some kinds that these files give, each with its file and line."""
    for file in files:
        for node in ast.walk(ast.parse((TOP / file).read_text(encoding="utf-8"))):
            if isinstance(node, kinds):
                name = getattr(node, "name", None) or getattr(node, "arg", None) or getattr(node, "id", "")
                yield f"{file}:{getattr(node, 'lineno')}: {name}", str(name).strip("_").lower()


def told() -> list[str]:
    """Functions, classes, parameters and variables of the companions and the benches with the name `told`."""
    kinds = (ast.FunctionDef, ast.ClassDef, ast.arg, ast.Name)
    return [at for at, name in python_names(modules() + benches(), kinds) if name == "told"]


def vague_names(folder: str = "") -> list[str]:
    """Each place of PROGRAMS, or of one of its folders, that has a parameter or variable whose name doesn't say what it
    is."""
    files = [file for file in programs() if file.startswith(folder)]
    return [at for at, name in python_names(files, (ast.arg, ast.Name)) if name in VAGUE]


def python_participles() -> list[str]:
    """Functions of the companions and the benches whose name is one word that ends in -ed, or is one of IRREGULAR and
    no verb."""
    names = python_names(modules() + benches(), (ast.FunctionDef,))
    return [at for at, name in names if name in IRREGULAR - VERBS or re.fullmatch(r"[a-z]{2,}[^e]ed", name)]
