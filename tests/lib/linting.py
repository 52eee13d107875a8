"""The linters: the files that each reads, and its findings in them, file by file.

A linter prints a finding as `FILE:LINE: what` or `FILE(LINE,COLUMN): what`, and ends with a status that isn't 0 if there
is one. A linter that can't run has no such lines, so what it prints instead is raised.
"""

from __future__ import annotations

import os
import re
import subprocess
from collections.abc import Iterable, Sequence
from pathlib import Path
from typing import Callable, NamedTuple

from .docstrings import docstring_findings
from .imports import import_findings
from .places import TOP

WORDS = "tests/linters/words.txt"
"""Correct words that codespell would change."""

IN_ANOTHER_LANGUAGE = re.compile(r"(docs/desk|examples/national/about)/(?!en/)[a-z]{2,3}/")
"""Guides, and an office's own words, that are translated."""

WORKER = "web/collect/sw.js"
"""The only script that runs in no page."""

APART = ("bench/", "examples/national/", "examples/worked/")
"""Folders that it reads in separate runs, since their modules have the names of other modules."""

AT = re.compile(r"(?P<file>[^ :(][^:(]*)(:\d|\(\d+,\d+\): )")
"""The place of a finding, at the beginning of its line."""

MARKS = ("<" * 7 + " ", ">" * 7 + " ")
"""The beginnings of the lines that git writes around two changes of the same lines."""

Found = dict[str, list[str]]
"""The findings by file, one line each."""


class Linter(NamedTuple):
    """A linter, the languages that it reads (tools/tree.py), and the function that gives its findings in files."""

    name: str
    languages: tuple[str, ...]
    found: Callable[[Sequence[str]], Found]


def findings(lines: Iterable[str], files: Sequence[str]) -> Found:
    """The findings among the lines that a linter prints, by their files. RuntimeError: one is in another file."""
    findings: Found = {}
    for line in lines:
        if place := AT.match(line):
            if place["file"] not in files:
                raise RuntimeError(f"a finding in a file that it wasn't given: {line}")
            findings.setdefault(place["file"], []).append(line[place.end("file") :])
    return findings


def ran(files: Sequence[str], *words: str, **environment: str) -> Found:
    """The findings of a linter in files, with these arguments before them. RuntimeError: it ended in another way than
    with findings."""
    if not files:
        return {}
    where = {**os.environ, **environment}
    run = subprocess.run([*words, *files], cwd=TOP, env=where, capture_output=True, text=True, check=False)
    found = findings((run.stdout + run.stderr).splitlines(), files)
    if bool(run.returncode) != bool(found):
        raise RuntimeError(f"{words[0]} ended with status {run.returncode}: {(run.stdout + run.stderr)[:500]}")
    return found


def kept_types() -> Path:
    """The user's folder in which mypy keeps its knowledge of modules, by their contents and its arguments."""
    return Path(os.environ.get("XDG_CACHE_HOME") or Path.home() / ".cache") / "sabrethog/mypy"


def by_mypy(files: Sequence[str]) -> Found:
    """Some runs, with the folders that tests and tools import from. They read again the modules that changed since an
    earlier run, and the modules that import these."""
    parts = [[file for file in files if file.startswith(folder)] for folder in APART]
    words = ["mypy", "--strict", "--scripts-are-modules", "--no-error-summary", "--hide-error-context"]
    kept = kept_types()
    kept.mkdir(parents=True, exist_ok=True)
    found: Found = {}
    for number, part in enumerate([[file for file in files if not file.startswith(APART)], *parts]):
        # (modules of two runs may have one name)
        found.update(ran(part, *words, f"--cache-dir={kept}/{number}", MYPYPATH="tests:tools:bench"))
    return {name: [line for line in lines if ": note: " not in line] for name, lines in found.items()}


def by_black(files: Sequence[str]) -> Found:
    """Black names a file that it would reformat, but no line."""
    run = subprocess.run(
        ["black", "--check", "-l", "120", *files], cwd=TOP, capture_output=True, text=True, check=False
    )
    if run.returncode not in (0, 1):
        raise RuntimeError(f"black ended with status {run.returncode}: {run.stderr[-500:]}")
    named = re.findall(r"^would reformat (.*)$", run.stderr, re.MULTILINE)
    return {element: ["black -l 120 lays it out otherwise"] for element in named}


def by_codespell(files: Sequence[str]) -> Found:
    """Codespell knows only English words, so it reads no guide in another language."""
    return ran([file for file in files if not IN_ANOTHER_LANGUAGE.match(file)], "codespell", "-I", WORDS)


def by_tsc(files: Sequence[str]) -> Found:
    """Checks the scripts of pages with the types of pages, and the service worker with its own types."""
    pages, worker = [file for file in files if file != WORKER], [file for file in files if file == WORKER]
    words = "tsc --checkJs --allowJs --noEmit --target es2022 --module es2022 --moduleResolution node --lib".split()
    return {
        **ran(pages, *words, "es2022,dom,dom.iterable", "tests/linters/pages.d.ts"),
        **ran(worker, *words, "es2022,webworker", "tests/linters/worker.d.ts"),
    }


def by_merges(files: Sequence[str]) -> Found:
    """The lines that git leaves in a file in which two changes met, until somebody decides."""
    found: Found = {}
    for name in files:
        with open(os.path.join(TOP, name), encoding="utf-8") as file:
            if marks := [f":{at}: {line.rstrip()}" for at, line in enumerate(file, 1) if line.startswith(MARKS)]:
                found[name] = marks
    return found


TEXTS = ("c", "javascript", "page", "prose", "python", "rattle", "shell")
"""The languages that people read and write."""

LINTERS = [
    Linter("mypy", ("python",), by_mypy),
    Linter("black", ("python",), by_black),
    Linter("tsc", ("javascript",), by_tsc),
    Linter("pyflakes", ("python",), lambda files: ran(files, "pyflakes3")),
    Linter("shellcheck", ("shell",), lambda files: ran(files, "shellcheck", "-f", "gcc")),
    Linter("codespell", TEXTS, by_codespell),
    Linter("merges", TEXTS, by_merges),
    Linter("imports", ("python",), import_findings),
    Linter("docstrings", ("python",), docstring_findings),
]
"""The linters, the slow ones first."""
