"""`tools/versions.py`: what changed since the last release has to be said, and what a package of it is called."""

from __future__ import annotations

import os
import re
import subprocess
import time
from collections.abc import Iterator
from pathlib import Path

import pytest

from lib.places import ROOT
from .needs import needed
from versions import Version, fault, release, sum_of_sources, versions

HEAD = "# Changes\n\nWhat changed.\n\n"
DAY = 86400
NOON = 20785 * DAY + 43200
"""Noon of 2026-11-28 UTC: 20785 days after 1970 began, by `date -d 2026-11-28 +%s`."""


@pytest.fixture
def top(tmp_path: Path, monkeypatch: pytest.MonkeyPatch) -> Iterator[Path]:
    """A small repository, as it was released as 1.0, on a machine whose clock is 14 hours ahead of UTC."""
    monkeypatch.delenv("SOURCE_DATE_EPOCH", raising=False)
    monkeypatch.setenv("TZ", "XXX-14")
    time.tzset()
    for name in ("crates/low/src/lib.rt", "tools/cpi_tools/any.py", "web/index.html", "ops/cpi.service"):
        (tmp_path / name).parent.mkdir(parents=True)
        (tmp_path / name).write_text(name)
    say(tmp_path, released(tmp_path))
    yield tmp_path
    monkeypatch.undo()
    time.tzset()


def say(top: Path, *parts: str) -> None:
    (top / "CHANGELOG.md").write_text(HEAD + "\n".join(parts))


def released(top: Path, number: str = "1.0") -> str:
    """The part of a release of these sources."""
    return f"## {number}, 2026-11-25\n\n- All of it.\n\nSources: {sum_of_sources(top)}\n"


def unreleased(said: str = "- Something new.\n", number: str = "1.1") -> str:
    return f"## Unreleased ({number})\n\n{said}"


# ---- whether what changed is said


def test_the_parts_are_read_as_they_stand(top: Path) -> None:
    say(top, unreleased("- One.\n- Two.\n"), released(top))
    assert versions(top) == [
        Version("1.1", "", "- One.\n- Two.", ""),
        Version("1.0", "2026-11-25", "- All of it.", sum_of_sources(top)),
    ]
    assert [version.name() for version in versions(top)] == ["1.1-dev", "1.0"]
    for heading in ("## Unreleased\n", "## 1.2\n", "## 1.2, today\n", "## unreleased (1.2)\n"):
        say(top, heading, released(top))
        with pytest.raises(ValueError, match="^CHANGELOG.md has a heading other than '## 1.0, 2026-11-25' and"):
            versions(top)
    say(top)
    with pytest.raises(ValueError, match="or none$"):
        versions(top)


@pytest.mark.parametrize("name", ["crates/low/src/lib.rt", "tools/cpi_tools/any.py", "web/index.html", "ops/new.conf"])
def test_a_source_that_changed_has_to_be_told(top: Path, name: str) -> None:
    assert fault(top) is None
    last = (top / "CHANGELOG.md").read_text().removeprefix(HEAD)
    (top / name).write_text("other")
    changed = "^crates/, tools/, web/ or ops/ changed since 1.0, and "
    assert re.match(f"{changed}CHANGELOG.md has no part '## Unreleased [(]N[)]'", fault(top) or "")
    for empty in ("", "Soon.\n", "-\n- \n"):
        say(top, unreleased(empty), last)
        assert re.match(f"{changed}the part Unreleased of CHANGELOG.md has no point", fault(top) or "")
    say(top, unreleased(), last)
    assert fault(top) is None
    say(top, unreleased(number="1.0"), last)
    assert fault(top) == "CHANGELOG.md: the next release, 1.0, isn't after 1.0"
    (top / "tools/more").mkdir()
    (top / "tools/more/than.py").write_text("")
    say(top, released(top, "1.1"), last)
    assert fault(top) is None


def test_numbers_are_compared_as_numbers(top: Path) -> None:
    for last, following, is_after in (("1.9", "1.10", True), ("1.10", "1.9", False), ("1.1", "1.1.1", True)):
        say(top, unreleased(number=following), released(top, last))
        assert (fault(top) is None) == is_after


def test_only_the_first_part_is_unreleased(top: Path) -> None:
    for parts in (
        [released(top), unreleased()],
        [unreleased()],
        [unreleased(), unreleased(number="1.2"), released(top)],
    ):
        say(top, *parts)
        assert fault(top) == "CHANGELOG.md: only the first part may be Unreleased, and a release is below it"


def test_what_is_built_or_left_there_is_no_change(top: Path) -> None:
    for name in ("crates/low/out/cpi", "tools/cpi_tools/__pycache__/any.pyc", "tools/build/lib/any.py", "ops/office.db",
                 "tools/cpi_tools.egg-info/PKG-INFO", "web/.any", "docs/README.md", "CHANGELOG.md.orig"):  # fmt: skip
        (top / name).parent.mkdir(parents=True, exist_ok=True)
        (top / name).write_text("left")
    assert fault(top) is None
    (top / "crates/low/build").mkdir()
    (top / "crates/low/build/Answers.antt").write_text("a source")
    assert fault(top) is not None


def test_the_script_tells_it_in_one_line(tmp_path: Path) -> None:
    """In a copy of this repository without git, of which a source was changed."""
    for name in ("tools/versions.py", "CHANGELOG.md"):
        (tmp_path / name).parent.mkdir(exist_ok=True)
        (tmp_path / name).write_bytes((ROOT / name).read_bytes())
    text = (tmp_path / "CHANGELOG.md").read_text()
    last = text[text.index("\n## 1.0, ") :]
    (tmp_path / "CHANGELOG.md").write_text(f"# Changes\n{last}")
    ran = subprocess.run(["python3", tmp_path / "tools/versions.py"], capture_output=True, text=True, check=False)
    assert ran.returncode == 1 and re.fullmatch(r"1\.0\nSources: [0-9a-f]{64}\n", ran.stdout)
    assert re.fullmatch(r"tools/versions\.py: crates/, .* changed since 1\.0, and [^\n]*\n", ran.stderr)


# ---- what a package is called


def committed(top: Path, moment: int) -> None:
    """Makes the folder a repository of git, whose last commit is of this moment."""
    kept = {**os.environ, "GIT_COMMITTER_DATE": f"{moment} +1300", "GIT_AUTHOR_DATE": "1000000000 +0000"}
    who = ["-c", "user.name=A", "-c", "user.email=a@example.org", "-c", "commit.gpgsign=false"]
    for words in (["init", "-q"], ["add", "-A"], [*who, "commit", "-q", "-m", "any"]):
        subprocess.run([needed("git"), *words], cwd=top, env=kept, check=True)


def test_a_release_has_its_number_and_its_day(top: Path, monkeypatch: pytest.MonkeyPatch) -> None:
    midnight = 20782 * DAY
    assert release(top) == ("1.0", "2026-11-25", "- All of it.", midnight)
    committed(top, NOON)
    assert release(top).epoch == midnight
    monkeypatch.setenv("SOURCE_DATE_EPOCH", "86401")
    assert release(top) == ("1.0", "2026-11-25", "- All of it.", 86401)


def test_between_releases_it_has_the_day_of_the_last_commit(top: Path, monkeypatch: pytest.MonkeyPatch) -> None:
    say(top, unreleased(), released(top))
    committed(top, NOON)
    wanted = ("1.1~20261128", "2026-11-28", "- Something new.", NOON - 43200)
    assert release(top) == wanted
    shallow = top / "there/shallow"
    subprocess.run(["git", "clone", "-q", "--depth", "1", f"file://{top}", shallow], check=True)
    assert release(shallow) == wanted
    if os.geteuid() == 0:
        # (git refuses a repository of somebody else)
        os.chown(shallow, 65534, 65534)
        os.chown(shallow / ".git", 65534, 65534)
        assert release(shallow) == wanted
    monkeypatch.setenv("SOURCE_DATE_EPOCH", "86401")
    assert release(top) == (*wanted[:3], 86401)
    monkeypatch.setenv("GIT_DIR", "/nowhere")
    assert release(top)[:2] == wanted[:2]


def test_without_git_it_has_the_day_of_source_date_epoch(top: Path, monkeypatch: pytest.MonkeyPatch) -> None:
    """A folder within another repository is none itself."""
    within = top / "ops/within"
    within.mkdir()
    for folder in (within, top):
        say(folder, unreleased(), released(top))
    committed(top, NOON)
    told = "^1.1 isn't released, and without git SOURCE_DATE_EPOCH has to say of which day it is$"
    with pytest.raises(ValueError, match=told):
        release(within)
    monkeypatch.setenv("SOURCE_DATE_EPOCH", str(NOON + DAY))
    assert release(within) == ("1.1~20261129", "2026-11-29", "- Something new.", NOON + DAY)
    monkeypatch.setenv("PATH", str(top))
    assert release(top)[0] == "1.1~20261129"
    monkeypatch.setenv("SOURCE_DATE_EPOCH", "soon")
    with pytest.raises(ValueError, match="^SOURCE_DATE_EPOCH is 'soon', which is no number of seconds$"):
        release(within)


def test_debian_sorts_them_as_they_were_made(top: Path) -> None:
    say(top, unreleased(), released(top))
    committed(top, NOON)
    between = release(top).version
    for earlier, later in (("1.0", between), (between, "1.1~20261129"), (between, "1.1"), (between, "1.1.1")):
        subprocess.run([needed("dpkg"), "--compare-versions", earlier, "lt", later], check=True)
