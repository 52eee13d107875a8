"""The English that no document shows: docstrings of the companions, comments of the crates, texts of pages and messages.

Few sentences may have a form that an editor of plain English changes first (`lib/plain_english.py`).
"""

from __future__ import annotations

import sys
from collections.abc import Sequence
from pathlib import Path

import pytest

from lib.fault import Fault
from lib.places import ROOT
from lib.plain_english import forms_of

sys.path.append(str(ROOT / "tools"))

from sentences import of_catalogue, of_crate, of_module, split  # noqa: E402

COMPANIONS = ROOT / "tools/cpi_tools"
FOLDERS = sorted(path.name for path in COMPANIONS.iterdir() if (path / "__init__.py").exists())

MOST, MOST_OF_MESSAGES = 8, 2
"""Percent of the sentences of a folder's docstrings or of the crates' comments, and of the catalogue's texts."""


def fault_in(every: Sequence[str], most: int) -> Fault:
    """The sentences with a form, if they are more than `most` percent."""
    texts = [f"- {sentence} [{'; '.join(forms)}]" for sentence in every if (forms := forms_of(sentence))]
    if 100 * len(texts) <= most * len(every):
        return None
    return "\n".join([f"{len(texts)} of {len(every)} sentences have a form to change, over {most} percent:", *texts])


def docstrings(path: Path) -> list[str]:
    """The sentences of the docstrings of a module, or of all modules below a folder."""
    modules = [path] if path.is_file() else sorted(path.rglob("*.py"))
    return [sentence for module in modules for sentence in split(of_module(module.read_text(encoding="utf-8")))]


@pytest.mark.parametrize("folder", FOLDERS)
def test_docstrings_of_a_folder_are_plain(folder: str) -> None:
    assert fault_in(docstrings(COMPANIONS / folder), MOST) is None


def test_modules_outside_of_a_folder_are_plain() -> None:
    every = [sentence for path in sorted(COMPANIONS.glob("*.py")) for sentence in docstrings(path)]
    assert fault_in(every, MOST) is None


def test_comments_of_the_crates_are_plain() -> None:
    crates = sorted(path for path in (ROOT / "crates").iterdir() if (path / "src").is_dir())
    assert fault_in([sentence for crate in crates for sentence in split(of_crate(crate))], MOST) is None


def test_messages_are_plain() -> None:
    assert fault_in(split(of_catalogue(ROOT / "po/cpi.pot")), MOST_OF_MESSAGES) is None


def test_a_form_over_the_bound_is_named_with_its_sentence(tmp_path: Path) -> None:
    module = tmp_path / "module.py"
    module.write_text(
        '"""Raises Fault where there is no office here. A plain sentence has a subject."""\n', encoding="utf-8"
    )
    fault = fault_in(docstrings(module), 49)
    assert fault is not None and fault.splitlines() == [
        "1 of 2 sentences have a form to change, over 49 percent:",
        "- Raises Fault where there is no office here. [where of a condition: write if or when]",
    ]
    assert fault_in(docstrings(module), 50) is None
