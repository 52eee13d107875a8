"""Reports of the desk in other languages: whole pages of one language, and the same figures."""

from __future__ import annotations

from collections.abc import Iterator
from pathlib import Path

import pytest

from . import surveys
from cpi_tools.office.program import Cpi
from cpi_tools.text.report_language import VARIABLE, teller_of
from cpi_tools.text.message import Figure, message, message_of, moment_of, month_of, row, sentences, whole
from .nobodys import greek, left_in_english, nobodys_in, seen
from .ran import Ran, run
from .surveys import closes


@pytest.fixture
def nobodys(tmp_path: Path, monkeypatch: pytest.MonkeyPatch) -> str:
    """The code of a language that nobody speaks."""
    return nobodys_in(tmp_path, monkeypatch)


def month(cpi: Cpi, file: Path, at: object, out: Path, *words: str) -> Ran:
    """The report on March, at a moment."""
    return run(cpi, "desk", "month", file, "2026-03", "--at", at, "--out", out, *words)


@pytest.fixture(scope="module")
def office(cpi: Cpi, tmp_path_factory: pytest.TempPathFactory) -> Iterator[Path]:
    """An office before its March is frozen, which needs a carry list."""
    path = tmp_path_factory.mktemp("office") / "office.db"
    surveys.long(cpi, path, "2026-03")
    yield path


@pytest.mark.parametrize("at", ["closes", "before"])
def test_no_word_is_left_in_english(cpi: Cpi, office: Path, tmp_path: Path, nobodys: str, at: str) -> None:
    """Also of a month whose window is still open, which is refused when it is frozen at that moment or later."""
    moment = closes("2026-03") if at == "closes" else "2026-03-02T06:00"
    ran = month(cpi, office, moment, tmp_path / "report", "--language", nobodys)
    assert ran.status == 0
    page = seen(tmp_path / "report/month.html")
    assert len(page.texts) > 500
    assert left_in_english(page) == []


def test_a_refusal_is_said_in_the_language(cpi: Cpi, tmp_path: Path, nobodys: str) -> None:
    """A month after one that isn't frozen: the page has sentences of its language, the terminal its line in English."""
    path = surveys.small(cpi, tmp_path)
    assert cpi.replay(["0,desk,calendar,2026-03,4000,6000,7000"], db=path) == [{"done": True}]
    out = tmp_path / "report"
    ran = run(cpi, "desk", "month", path, "2026-03", "--at", 7000, "--out", out, "--language", nobodys)
    assert ran.status == 1
    assert (
        "desk month: no provisional table: a freeze of 2026-03: refused by 46: the month is neither the last" in ran.err
    )
    page = seen(out / "month.html")
    assert greek("Refused with ") in " ".join(page.texts)
    assert left_in_english(page) == []


FIGURES = str.maketrans({**dict.fromkeys("\u202f\u00a0\u2066\u2069\u200e", ""), "\u2212": "-"})


@pytest.mark.parametrize(
    ("language", "decimal", "group", "way"), [("fr", ",", "", ""), ("es", ",", ".", ""), ("ar", ".", ",", ' dir="rtl"')]
)
def test_the_figures_are_the_same(
    cpi: Cpi, office: Path, tmp_path: Path, language: str, decimal: str, group: str, way: str
) -> None:
    """Those of the page in the signs of its language, those of the files to the byte, and the terminal's text in English."""
    english = month(cpi, office, closes("2026-03"), tmp_path / "en")
    other = month(cpi, office, closes("2026-03"), tmp_path / language, "--language", language)
    assert (english.status, other.status) == (0, 0)
    assert english.out.replace("/en/", "/") == other.out.replace(f"/{language}/", "/")
    for path in (tmp_path / "en").glob("*.csv"):
        assert path.read_bytes() == (tmp_path / language / path.name).read_bytes(), path.name
    first, second = (seen(tmp_path / name / "month.html") for name in ("en", language))
    back = [figure.translate(FIGURES).replace(group or "\0", "").replace(decimal, ".") for figure in second.figures]
    assert [figure.replace(",", "").translate(FIGURES) for figure in first.figures] == back and len(back) > 300
    text = (tmp_path / language / "month.html").read_text(encoding="utf-8")
    assert f'<html lang="{language}"{way}>' in text
    assert "carry list" not in text


def test_the_language_of_the_office_is_in_the_environment(
    cpi: Cpi, office: Path, tmp_path: Path, monkeypatch: pytest.MonkeyPatch
) -> None:
    monkeypatch.setenv(VARIABLE, "fr")
    assert month(cpi, office, closes("2026-03"), tmp_path / "one").status == 0
    assert "<h2>La liste de report" in (tmp_path / "one/month.html").read_text(encoding="utf-8")
    assert month(cpi, office, closes("2026-03"), tmp_path / "two", "--language", "en").status == 0
    assert "<h2>The carry list" in (tmp_path / "two/month.html").read_text(encoding="utf-8")
    monkeypatch.setenv(VARIABLE, "xx")
    ran = month(cpi, office, closes("2026-03"), tmp_path / "three")
    assert (ran.status, ran.err) == (
        1, "cpi-tools desk month: CPI_LANGUAGE is 'xx', which has no catalogue: one of en, ar, es, fr\n"
    )  # fmt: skip
    assert not (tmp_path / "three").exists()


def test_what_is_in_a_place_is_said_in_the_language() -> None:
    """By hand: the decimal mark, months and moments of CLDR, and a code whose signs stay in their order."""
    french, arabic = (teller_of(code) for code in ("fr", "ar"))
    level = message("level {level}", level=Figure("1,626.55"))
    assert str(french.render(level)) == "niveau 1\u202f626,55"
    assert str(arabic.render(level)) == "المستوى \u20661,626.55\u2069"
    assert str(french.render(month_of(202602))) == "février 2026"
    assert str(french.render(moment_of(1_769_590_800))) == "28 janvier 2026 à 09:00 UTC"
    assert str(arabic.render(moment_of(1_769_590_800))) == "28 يناير 2026، الساعة \u206609:00 UTC\u2069"
    assert arabic.code("01.1.1.1-01") == "\u206601.1.1.1-01\u2069" and french.code("01") == "01"
    assert str(arabic.render(row([message("price"), message("other")]))) == "السعر، آخر"
    assert str(sentences(message("None."), message("never"))) == "None. never" and str(row([])) == ""
    assert str(message_of("One more row.", "{count} rows.", 1_000)) == "1,000 rows." and whole(1_000) == "1,000"


def test_a_text_in_a_place_stays_the_text_of_others() -> None:
    """No override in a title turns the words of the sentence, in whatever language."""
    from cpi_tools.text.others import of_others, others

    text = message("{title} (left the plan)", title=of_others("<b>\u202e"))
    assert others(text) == "<bdi>&lt;b&gt;\u202e</bdi> (left the plan)"
    french = teller_of("fr").render(text)
    assert others(french) == "<bdi>&lt;b&gt;\u202e</bdi> (sorti du plan)"
