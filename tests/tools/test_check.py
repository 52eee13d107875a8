"""`tools/check`: which libraries it takes, what it asks of the prover, and what it says if it can't ask; over stand-ins."""

from __future__ import annotations

import os
import shutil
import subprocess
import sys
import time
from pathlib import Path
from typing import NamedTuple

import pytest

from lib.places import ROOT

CRATES = "low:\nleft: low itoa\nhigh: low left\nhigher serve: low high # the program\n"

OF_THE_SYSTEM = "/usr/bin:/bin"

RATTLE = """#!/bin/sh
pwd
echo "$@"
cat proofs/imports_for_tools_check/Answers.antt src/lib.rt 2>&1 | grep -v '^cat: '
echo only=1 proved=0
exit 3
"""
"""A stand-in for the prover, which prints where it runs, its words and the files that a trial has more."""


class Ran(NamedTuple):
    status: int
    out: list[str]
    err: list[str]


class Clone:
    """A small repository, beside a toolchain of stand-ins."""

    def __init__(self, top: Path, kit: Path) -> None:
        self.top, self.kit = top, kit
        (top / "tools").mkdir(parents=True)
        for name in ("check", "crates.py"):
            shutil.copy(ROOT / "tools" / name, top / "tools" / name)
        (top / "crates.txt").write_text(CRATES)
        for crate in ("low", "left", "high", "higher"):
            self.write(f"{crate}/src/lib.rt", f"the text of {crate}\n")

    def write(self, name: str, text: str) -> None:
        path = self.top / "crates" / name
        path.parent.mkdir(parents=True, exist_ok=True)
        path.write_text(text)

    def build(self, *crates: str) -> None:
        for crate in crates:
            self.write(f"{crate}/out/rlib/{crate}.rlib/format", "rattle rlib")

    def library(self, crate: str) -> str:
        return f"{self.top}/crates/{crate}/out/rlib/{crate}.rlib"

    def run(self, *words: str, cwd: Path | None = None) -> Ran:
        call = [sys.executable, str(self.top / "tools/check"), *words]
        found = {**os.environ, "PATH": f"{self.kit}/bin:{OF_THE_SYSTEM}"}
        ran = subprocess.run(call, cwd=cwd or self.top, env=found, capture_output=True, text=True, check=False)
        return Ran(ran.returncode, ran.stdout.splitlines(), ran.stderr.splitlines())


@pytest.fixture
def kit(tmp_path: Path) -> Path:
    folder = tmp_path / "kit"
    (folder / "bin").mkdir(parents=True)
    for name, text in (("rattle", RATTLE), ("rt", f"#!/bin/sh\necho {folder}/START-HERE.md\n")):
        (folder / "bin" / name).write_text(text)
        (folder / "bin" / name).chmod(0o755)
    return folder


@pytest.fixture
def clone(tmp_path: Path, kit: Path) -> Clone:
    return Clone(tmp_path / "here", kit)


@pytest.fixture
def other(tmp_path: Path, kit: Path) -> Clone:
    return Clone(tmp_path / "there", kit)


def pairs(line: str, option: str) -> list[str]:
    """The values that an option has in a line of words."""
    words = line.split()
    return [words[at + 1] for at, word in enumerate(words) if word == option]


def refused(ran: Ran) -> str:
    """The one line of a call that checked nothing."""
    assert (ran.status, ran.out, len(ran.err)) == (2, [], 1)
    return ran.err[0]


def test_an_unknown_crate_is_refused(clone: Clone) -> None:
    assert refused(clone.run("middle", "any")) == "check: crates.txt lists no crate middle"


def test_libraries_that_are_missing_are_named_with_what_builds_them(clone: Clone) -> None:
    hint = "builds them, and --from FOLDER takes them from another clone"
    said = "check: not built: low, left; (cd crates/left && rt lib)"
    assert refused(clone.run("high", "any")) == f"{said} {hint}"
    clone.build("left")
    said = "check: not built: low, high; (cd crates/high && rt lib)"
    assert refused(clone.run("higher", "any")) == f"{said} {hint}"


def test_a_crate_without_crates_below_needs_no_library(clone: Clone) -> None:
    assert clone.run("low", "any").status == 3


def test_without_the_toolchain_nothing_is_checked(clone: Clone) -> None:
    (clone.kit / "bin/rt").unlink()
    if shutil.which("rt", path=OF_THE_SYSTEM):
        pytest.skip("the system has an rt")
    assert refused(clone.run("low", "any")).startswith("check: there is no rt")


def test_the_prover_is_asked_as_rt_asks_it(clone: Clone) -> None:
    clone.build("low", "left", "high")
    ran = clone.run("high", "rows::put", "sums", "--allow-holes", "--jobs", "2", "--short-goals")
    where, line, *_, last = ran.out
    assert (ran.status, where, last, ran.err) == (3, f"{clone.top}/crates/high", "only=1 proved=0", [])
    assert line.startswith("check --crate-name high src/lib.rt ")
    assert pairs(line, "--extern") == [
        f"std={clone.kit}/rlibs/std.rlib",
        f"low={clone.library('low')}",
        f"left={clone.library('left')}",
    ]
    folders = [str(Path(clone.library(text)).parent) for text in ("low", "left")]
    assert pairs(line, "-L") == [f"dependency={folder}" for folder in (f"{clone.kit}/rlibs", *folders)]
    assert pairs(line, "--antt-project") == [f"{clone.kit}/rattle/logic/antt-project.json"]
    assert pairs(line, "--logic-built") == [f"{clone.kit}/logic_built"]
    assert pairs(line, "--incremental") == [f"{clone.top}/crates/high/out/incremental"]
    assert pairs(line, "--links") == ["high="]
    assert (pairs(line, "--only"), pairs(line, "--jobs")) == (["rows::put", "sums"], ["2"])
    assert "--allow-holes" in line.split() and "--short-goals" in line.split()


def test_libraries_of_the_toolchain_are_its_own(clone: Clone) -> None:
    clone.build("low")
    line = clone.run("left", "any").out[1]
    given = [f"std={clone.kit}/rlibs/std.rlib", f"itoa={clone.kit}/rlibs/itoa.rlib", f"low={clone.library('low')}"]
    assert pairs(line, "--extern") == given


def test_a_proof_is_started_in_place_of_a_check(clone: Clone) -> None:
    for words in (["rows::put", "sums", "--start"], ["--start", "rows::put", "sums"]):
        line = clone.run("low", *words).out[1]
        assert (pairs(line, "--start"), pairs(line, "--only")) == (["rows::put", "sums"], [])
    clone.write("low/proofs/Sums.antt", "\n")
    assert refused(clone.run("low", "proofs/Sums.antt", "--start")) == "check: --start is for functions"


def test_a_program_has_its_own_root(clone: Clone) -> None:
    clone.build("low", "left", "high")
    clone.write("higher/src/main.rt", "fn main() {}\n")
    assert clone.run("higher", "any").out[1].startswith("check --crate-name higher src/main.rt ")


# ---- libraries of another clone


def test_a_library_that_is_not_built_here_is_taken_from_another_clone(clone: Clone, other: Clone) -> None:
    clone.build("low")
    other.build("low", "left")
    ran = clone.run("high", "any", "--from", str(other.top))
    assert ran.err == []
    assert pairs(ran.out[1], "--extern")[1:] == [f"low={clone.library('low')}", f"left={other.library('left')}"]


def test_a_note_says_if_another_clone_has_other_sources(clone: Clone, other: Clone) -> None:
    other.build("low", "left")
    clone.write("left/specs/Lib.antt", "\n")
    said = f"check: note: the sources of left in {other.top} aren't those of this repository"
    assert clone.run("high", "any", "--from", "../there").err == [said]
    other.write("left/specs/Lib.antt", "-\n")
    assert said in clone.run("high", "any", "--from", "../there").err


def later(path: Path) -> None:
    """Gives a file a time of a minute from now."""
    os.utime(path, (time.time() + 60, time.time() + 60))


def test_a_note_says_if_a_library_is_older_than_its_sources(clone: Clone) -> None:
    clone.build("low", "left")
    later(clone.top / "crates/low/src/lib.rt")
    said = f"check: note: the library in {clone.top}/crates/low is older than its sources"
    assert clone.run("high", "any")[::2] == (3, [said])


# ---- files


def test_the_answers_of_a_function_stand_for_it(clone: Clone) -> None:
    for name in ("Answers", "Invariants", "Proof"):
        clone.write(f"low/proofs/rows/Rows/put/{name}.antt", "\n")
        assert pairs(clone.run("low", f"proofs/rows/Rows/put/{name}.antt").out[1], "--only") == ["rows::Rows::put"]


def test_another_file_is_imported_by_a_function_of_a_copy(clone: Clone) -> None:
    clone.write("low/proofs/Sums.antt", "\n")
    clone.write("low/specs/deep/Sum.antt", "\n")
    before = sorted(clone.top.rglob("*"))
    where, line, *files, last = clone.run("low", "proofs/Sums.antt", "sums", "specs/deep/Sum.antt").out
    assert where != f"{clone.top}/crates/low" and not Path(where).exists()
    assert pairs(line, "--only") == ["sums", "imports_for_tools_check"]
    assert pairs(line, "--incremental") == [f"{clone.top}/crates/low/out/incremental"]
    imports = ["pub use Rattle.low.proofs.Sums", "pub use Rattle.low.specs.deep.Sum"]
    assert files == [*imports, "the text of low", "", "fn imports_for_tools_check() {}"]
    assert (last, sorted(clone.top.rglob("*"))) == ("only=1 proved=0", before)


@pytest.mark.parametrize("folder", ["", "crates", "crates/low/proofs", "crates/low"])
def test_a_file_may_be_named_from_where_one_is(clone: Clone, folder: str) -> None:
    clone.write("low/proofs/rows/put/Answers.antt", "\n")
    path = os.path.relpath(clone.top / "crates/low/proofs/rows/put/Answers.antt", clone.top / folder)
    assert pairs(clone.run("low", path, cwd=clone.top / folder).out[1], "--only") == ["rows::put"]


@pytest.mark.parametrize("path", ["proofs/None.antt", "src/None.antt", "crates/left/proofs/Left.antt", "/None.antt"])
def test_a_file_that_the_crate_does_not_have_is_refused(clone: Clone, path: str) -> None:
    clone.write("left/proofs/Left.antt", "\n")
    said = refused(clone.run("low", path)).split(" ")
    assert said[:5] == ["check:", "low", "has", "no", "function,"] and said[-1] == path
