"""The guides in other languages follow the English ones, and name buttons as the pages do."""

from __future__ import annotations

import shutil
import subprocess
from pathlib import Path

import pytest

from lib.places import ROOT
from lib import guides

NAMES = guides.translations()
ENGLISH, FRENCH = "docs/desk/PHONE.md", "docs/desk/fr/PHONE.md"


def test_each_language_has_both_guides() -> None:
    assert NAMES == [f"docs/desk/{code}/{name}.md" for code in ("ar", "es", "fr") for name in ("COLLECTING", "PHONE")]


@pytest.mark.parametrize("name", NAMES)
def test_a_guide_follows_the_english_one(name: str) -> None:
    assert [*guides.guide_faults(name)] == []


REVIEWED = {
    "ar": "لم يراجعها أي مكتب عربي بعد",
    "es": "Ninguna oficina de habla hispana la ha revisado todavía",
    "fr": "Aucun office francophone ne l'a encore relue",
}
"""That no native office has reviewed it, as each language says it."""


@pytest.mark.parametrize("name", NAMES)
def test_a_guide_says_what_it_follows_and_how_to_send_corrections(name: str) -> None:
    head = (ROOT / name).read_text(encoding="utf-8").split("\n\n")[1]
    *_, code, guide = name.split("/")
    assert REVIEWED[code] in head and "(../../../CONTRIBUTING.md)" in head
    assert f"[{guide[:-3]}](../{guide})" in head and "1.1" in head


@pytest.mark.parametrize("name", [name for name in NAMES if "/ar/" in name])
def test_a_paragraph_in_arabic_begins_in_arabic(name: str) -> None:
    """A reader's program takes the direction of a paragraph from its first letter."""
    text = guides.COMMANDS.sub("", (ROOT / name).read_text(encoding="utf-8"))
    begun = [
        next((it for it in line if it.isalpha()), "ا")
        for line in text.splitlines()
        if not line.startswith(("<", "[^", "|"))
    ]
    assert [line for line in begun if not "\u0600" <= line <= "\u06ff"] == []


@pytest.fixture
def copied(tmp_path: Path, monkeypatch: pytest.MonkeyPatch) -> Path:
    """The guides in a folder of their own, in which they may be spoiled."""
    for name in ("docs", "po"):
        shutil.copytree(ROOT / name, tmp_path / name)
    monkeypatch.setattr(guides, "ROOT", tmp_path)
    monkeypatch.setattr(guides, "DOCS", tmp_path / "docs/desk")
    return tmp_path


def spoiled(root: Path, name: str, old: str, new: str) -> list[str]:
    """What is said of the French PHONE, once a text of a file is another one."""
    path = root / name
    text = path.read_text(encoding="utf-8")
    assert old in text
    path.write_text(text.replace(old, new), encoding="utf-8")
    return [*guides.guide_faults(FRENCH)]


@pytest.mark.parametrize(
    ("name", "old", "new", "said"),
    [
        (ENGLISH, "You sign in once", "You sign in twice", "the part \"The collectors' page\" of PHONE.md has changed"),
        (ENGLISH, "## The website\n", "## The website\n\n## Another part\n", "it follows 5 parts of PHONE.md, which has 6"),
        (FRENCH, "*Actualiser*", "*Mettre à jour*", "no word of the button 'Update', which the page calls 'Actualiser'"),
        (FRENCH, "*Suivant*", "*Prochain*", "'Prochain' is no button of the page"),
        (FRENCH, "| À vérifier |", "| À revoir |", "no word of the state 'Check again'"),
        (FRENCH, "    ops/try\n", "    ops/try --db\n", "its commands aren't those of PHONE.md"),
        (FRENCH, "<!-- follows PHONE.md", "<!-- as PHONE.md", "its head doesn't say which guide it follows"),
    ],
)  # fmt: skip
def test_what_is_wrong_with_a_guide_is_said(copied: Path, name: str, old: str, new: str, said: str) -> None:
    assert any(it.startswith(said) for it in spoiled(copied, name, old, new))


def test_the_sums_are_written_by_the_script(copied: Path) -> None:
    assert len(spoiled(copied, ENGLISH, "You sign in once", "You sign in one time")) == 1
    script = copied / "tests/lib/guides.py"
    script.parent.mkdir(parents=True)
    shutil.copy(ROOT / "tests/lib/guides.py", script)
    ran = subprocess.run([script, FRENCH], capture_output=True, text=True, check=False)
    assert (ran.returncode, ran.stderr) == (0, "")
    assert [*guides.guide_faults(FRENCH)] == []
