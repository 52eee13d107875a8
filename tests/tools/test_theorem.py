"""`tools/theorem`: the page's statements and counts are those of the specs, and a page that differs is found."""

from __future__ import annotations

import shutil
import subprocess
from pathlib import Path

import pytest

from lib.places import ROOT
from lib.theorem import definitions_of, import_faults

PAGE = "docs/develop/THEOREM.md"


def run(top: Path, *words: str) -> tuple[int, str]:
    """The status of the tool, and what it prints."""
    ran = subprocess.run([top / "tools/theorem", *words], capture_output=True, text=True, check=False)
    return ran.returncode, ran.stdout + ran.stderr


@pytest.fixture
def clone(tmp_path: Path) -> Path:
    """What the tool reads, in a folder of its own."""
    for name in ("tools/theorem", PAGE, "tests/lib/__init__.py", "tests/lib/theorem.py"):
        (tmp_path / name).parent.mkdir(parents=True, exist_ok=True)
        shutil.copy(Path(ROOT, name), tmp_path / name)
    for folder in Path(ROOT).glob("crates/*/specs"):
        shutil.copytree(folder, tmp_path / folder.relative_to(ROOT))
    return tmp_path


def change(path: Path, old: str, new: str) -> None:
    """Puts another text in place of one of a file."""
    text = path.read_text(encoding="utf-8")
    assert old in text
    path.write_text(text.replace(old, new, 1), encoding="utf-8")


def test_the_page_is_as_the_specs_say() -> None:
    assert run(Path(ROOT), "--check") == (0, "")


def test_a_changed_formula_is_found_and_printed(clone: Path) -> None:
    change(clone / "crates/cpi_release/specs/Theorem.antt", "round a b = (2 * a + b)", "round a b = (2 * a + b + 1)")
    status, told = run(clone, "--check")
    assert status == 1 and told == "THEOREM.md: not as the specs say: round a b = (2 * a + b) / (2 * b)\n"
    assert run(clone) == (0, "") and "\nround a b = (2 * a + b + 1) / (2 * b)\n" in (clone / PAGE).read_text("utf-8")


@pytest.mark.parametrize(
    "crate, file, old, new",
    [
        ("cpi_office", "Projections", "own Public o = None", "own Public o = Some x"),
        ("cpi_office", "ProjectedChanges", "sights k t (PutsOutlet u) = []", "sights k t (PutsOutlet u) = x"),
        ("cpi_office", "IsolationOfRequests", "IsOrderly o → NonePassesOn asks", "IsOrderly o → IsFalse x"),
        ("cpi_office", "Theorem", "NoneFails rs →", "⊤ →"),
        ("cpi_release", "Theorem", "observed = false; imputed = true }", "observed = true; imputed = true }"),
        ("cpi_store", "Theorem", "× (r.carried ≡ carried p", "× (r.carried ≡ carry p"),
        ("cpi_store", "Orderly", "keys : HaveOwnKeys o.collectors", "keys : ⊤"),
        ("cpi_store", "Sound", "orderly : IsOrderly o", "orderly : ⊤"),
    ],
)
def test_any_formula_and_statement_that_changed_is_found(
    clone: Path, crate: str, file: str, old: str, new: str
) -> None:
    change(clone / "crates" / crate / "specs" / f"{file}.antt", old, new)
    status, told = run(clone, "--check")
    assert status == 1 and told.startswith("THEOREM.md: not as the specs say: ") and old in told


def test_a_statement_that_is_in_no_block_is_named(clone: Path) -> None:
    change(clone / PAGE, "```antt cpi_office Theorem ACrashLeavesIt\n", "```\n")
    assert run(clone, "--check") == (1, "THEOREM.md: no block has ACrashLeavesIt\n")


def test_a_definition_more_is_counted(clone: Path) -> None:
    """`round` rests on one more, and so do the tables."""
    change(
        clone / "crates/cpi_release/specs/Theorem.antt",
        "abbrev pub round :",
        "abbrev pub two : ℕ\ntwo = 2\n\nabbrev pub round :",
    )
    change(clone / "crates/cpi_release/specs/Theorem.antt", "round a b = (2 * a", "round a b = (two * a")
    status, told = run(clone, "--check")
    assert status == 1 and "`TablesAreTheBox`" in told and "all of these" in told


def test_a_definition_that_is_gone_is_named(clone: Path) -> None:
    change(clone / PAGE, " ViewsAreRebuilt RepliesAreFromViews ", " ViewsAreMade RepliesAreFromViews ")
    assert run(clone) == (2, "theorem: THEOREM.md names ViewsAreMade, which isn't there\n")


def test_an_import_of_a_name_that_is_only_bound_is_found(clone: Path) -> None:
    """`changes` of Runs would add what it rests on to each count, though the file has only an argument of that name."""
    path = clone / "crates/cpi_office/specs/ProjectedChanges.antt"
    assert not [*import_faults(path)] and any(definition.name == "changes" for definition in definitions_of())
    path.write_text("use Rattle.cpi_office.specs.Runs.{changes}\n" + path.read_text("utf-8"), encoding="utf-8")
    told = "cpi_office/specs/ProjectedChanges.antt imports changes of Runs, and has only an argument of that name"
    assert [*import_faults(path)] == [told]
