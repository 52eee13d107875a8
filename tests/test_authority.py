"""Who may do anything to the machine: the runtime of the host is named in three files, and in no other but tests.

Whoever holds it may print, make or remove any file and open sockets, and no contract says that it doesn't. A function
without it can only do what it is handed: memory, a reader, a writer, files that a cabinet gave. So no other file names
its type by either name; and only a few ask for a part of what it can do, by a trait of the project whose methods say
what they do: a network, a folder, the world of a run.
"""

from __future__ import annotations

import re
from collections.abc import Mapping

import pytest

from lib.places import ROOT

COMMENT = re.compile(r"//.*")
USE = re.compile(r"^\s*(?:(?:ghost|pub(?:\([a-z]+\))?) )?use [^;]*;", re.M)

RUNTIME = re.compile(r"\b(?:HostRuntime|LibcRuntime)\b")
"""The type of the runtime, by both of its names."""

BOUND = re.compile(
    r"(?:\b[A-Z]\w*: (?:[^;{}()]*\+\s*)?|\bimpl )"
    r"(?:Runtime|Files|Folder|Net|Network|World|Env|Input|Print|RandomSource|Threads|Wait|Abort)\b"
)
"""A type that can do some of what the runtime can. (`Eprint` isn't one: it only prints to standard error.)"""

RENAMED = re.compile(
    r"\b(?:HostRuntime|LibcRuntime) as\b|\btype\s+(?!Folder = HostRuntime;)\w+\s*=\s*&?(?:HostRuntime|LibcRuntime)\b"
)
"""Another name of it. (The runtime is the folder of a run on the machine: a type of a trait, and no name for others.)"""


HOLDERS = {
    "cpi/src/main.rt": "begins a run",
    "cpi_files/src/host.rt": "is the folder of the machine, and the world of a run on it",
    "cpi_app/src/machine.rt": "is the network of the machine, with its clock",
}
"""The files that name the runtime, and what each does with it."""

ASKERS = {
    "cpi_app/src/machine.rt": "is the network",
    "cpi_app/src/peer.rt": "hangs up after a response",
    "cpi_app/src/port.rt": "listens at a port of this machine, and says so",
    "cpi_files/src/file.rt": "takes an office's files from a folder",
    "cpi_files/src/host.rt": "is the folder, and the world of a run",
    "cpi_files/src/program.rt": "does a job in the world of a run",
    "cpi_files/src/world.rt": "says that a world has a folder and a network",
}
"""The files that ask for a part of what the runtime can do, and for what."""


def read_sources() -> dict[str, str]:
    """The sources of the program by their paths below crates/."""
    paths = (ROOT / "crates").glob("*/src/**/*.rt")
    texts = {str(path.relative_to(ROOT / "crates")): path.read_text(encoding="utf-8") for path in paths}
    return {name: text for name, text in texts.items() if not name.startswith("cpi_tests/")}


def find_holders(texts: Mapping[str, str]) -> set[str]:
    """Those of some sources, by their names, whose code names the runtime."""
    return find_in_code(texts, RUNTIME)


def find_askers(texts: Mapping[str, str]) -> set[str]:
    """Those whose code asks for a part of what the runtime can do."""
    return find_in_code(texts, BOUND)


def find_renamed(texts: Mapping[str, str]) -> set[str]:
    """Those that give the runtime another name."""
    return {name for name, text in texts.items() if RENAMED.search(COMMENT.sub("", text))}


def count_lines(text: str) -> int:
    """Its lines of code: those that aren't blank, only a comment or only `use`."""
    return len([line for line in USE.sub("", COMMENT.sub("", text)).split("\n") if line.strip()])


def find_in_code(texts: Mapping[str, str], pattern: re.Pattern[str]) -> set[str]:
    """Those in which a pattern is found, but for comments and what is only brought in by `use`."""
    code = {name: USE.sub("", COMMENT.sub("", text)) for name, text in texts.items()}
    return {name for name, text in code.items() if pattern.search(text)}


def test_only_these_files_name_the_runtime_of_the_host() -> None:
    assert find_holders(read_sources()) == set(HOLDERS)


def test_proof_lists_these_files_with_their_lines() -> None:
    texts, page = read_sources(), (ROOT / "docs/develop/PROOF.md").read_text(encoding="utf-8")
    trusted = page.partition("\n## Trusted\n")[2]
    assert re.findall(r"`(\S+\.rt)` \((\d+) lines\)", trusted) == [
        (name, str(count_lines(texts[name]))) for name in HOLDERS
    ]


def test_only_these_files_ask_for_a_part_of_it() -> None:
    assert find_askers(read_sources()) == set(ASKERS)


def test_the_runtime_has_no_other_name() -> None:
    assert find_renamed(read_sources()) == set()


@pytest.mark.parametrize(
    ("line", "is_found"),
    [
        ("fn job(rt: &HostRuntime)", True),
        ("fn job(rt: &LibcRuntime)", True),
        ("// a HostRuntime", False),
        ("fn job(alloc: Global)", False),
    ],
)
def test_a_file_that_names_the_runtime_is_found(line: str, is_found: bool) -> None:
    assert find_holders({"job.rt": line}) == ({"job.rt"} if is_found else set())


@pytest.mark.parametrize(
    ("line", "is_found"),
    [
        ("fn job<R: Runtime>(rt: &R)", True),
        ("fn job<R: Eprint + Files>(rt: &R)", True),
        ("impl<'a, R: Net<Stream = S>> Port<'a, R>", True),
        ("fn job(rt: &impl Print)", True),
        ("fn job<N: Network + Clock>(rt: &N)", True),
        ("fn job<'a, W: World>(world: &'a W)", True),
        ("fn job<R: Eprint>(rt: &R)", False),
        ("use std::rt::{Files, Net};", False),
    ],
)
def test_a_file_that_asks_for_a_part_of_it_is_found(line: str, is_found: bool) -> None:
    assert find_askers({"job.rt": line}) == ({"job.rt"} if is_found else set())


@pytest.mark.parametrize(
    ("line", "is_found"),
    [
        ("use std::rt::{HostRuntime as Host};", True),
        ("pub type Host = HostRuntime;", True),
        ("type Host = &LibcRuntime;", True),
        ("use std::rt::HostRuntime;", False),
        ("    type Folder = HostRuntime;", False),
        ("    type Host = HostRuntime;", True),
    ],
)
def test_another_name_of_it_is_found(line: str, is_found: bool) -> None:
    assert find_renamed({"file.rt": line}) == ({"file.rt"} if is_found else set())
