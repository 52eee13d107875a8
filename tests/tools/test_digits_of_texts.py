"""Numbers within texts of a catalogue have the digits of the pages: `= 100` of an Arabic page with Arabic digits."""

from __future__ import annotations

import html
import json
import re
from pathlib import Path
from typing import Optional

import pytest

from cpi_tools.publish.figures.config import Config
from cpi_tools.publish.figures.own_words import OfficeLanguages
from cpi_tools.office.public import Published
from cpi_tools.publish.pack import publish
from cpi_tools.text.languages import SPEAKS_ENGLISH, speech_of

ARABIC = speech_of("ar", "arab")


@pytest.mark.parametrize(
    ("text", "wanted"),
    [
        ("{period} = 100.", "{period} = \u0661\u0660\u0660."),
        ("%(period)s = 100", "%(period)s = \u0661\u0660\u0660"),
        ("%(period)s&nbsp;=&nbsp;100", "%(period)s&nbsp;=&nbsp;\u0661\u0660\u0660"),
        ("0.01", "\u0660\u066b\u0660\u0661"),
        ('<a href="x-r1.html" title="2 b">10</a>', '<a href="x-r1.html" title="2 b">\u0661\u0660</a>'),
        ("SHA-256, UTF-8, COICOP 2018, SDMX-ML 2.1, 2019.zip, SVG 1.1", None),
    ],
)
def test_a_number_has_the_digits_and_a_name_stays(text: str, wanted: Optional[str]) -> None:
    assert ARABIC.write_numbers(text) == (text if wanted is None else wanted)
    assert speech_of("ar").write_numbers(text) == SPEAKS_ENGLISH.write_numbers(text) == text


@pytest.mark.parametrize(
    ("text", "wanted"),
    [
        ("Indice 100 en {period}", "Indice \u0661\u0660\u0660 en {period}"),
        ("il faut 1 ou 6, et non 2,5.", "il faut \u0661 ou \u0666, et non \u0662\u066b\u0665."),
        ("SDMX-ML 2.1, COICOP\u00a02018, JSON-stat 2.0, SVG 1.1, un code tel que 01.1.1 ou 01.1.1.1-01", None),
    ],
)
def test_a_number_behind_a_latin_word_has_them_and_a_code_stays(text: str, wanted: Optional[str]) -> None:
    assert speech_of("fr", "arab").write_numbers(text) == (text if wanted is None else wanted)


@pytest.fixture(scope="module")
def site(published: list[Published], tmp_path_factory: pytest.TempPathFactory) -> Path:
    config = Config("NSO", "XX", "Office", speaks=OfficeLanguages(("ar",), "arab", {}), reference="2025")
    out = tmp_path_factory.mktemp("digits") / "public"
    publish(published, config, out, None, lambda _: None)
    return out


@pytest.mark.parametrize(
    "page", ["index.html", "nodes.html", "node/00.html", "revisions.html", "how-to-read.html", "contract.html"]
)
def test_no_hundred_of_a_page_has_other_digits(site: Path, page: str) -> None:
    text = re.sub(r"<(script|style|code)\b.*?</\1>|<[^>]*>", " ", (site / page).read_text(encoding="utf-8"), flags=re.S)
    text = html.unescape(text).replace("\u00a0", " ")
    assert page in ("nodes.html", "contract.html", "revisions.html") or "= \u0661\u0660\u0660" in text
    assert not re.search(r"= *100\b|\b10 |\b100 \u00d7", text)


def test_scripts_have_them_too(site: Path) -> None:
    words = json.loads((site / "assets/words.js").read_text(encoding="utf-8").partition("=")[2].rstrip(";\n"))
    texts = [text for text in words["texts"].values() if isinstance(text, str)]
    assert any("= \u0661\u0660\u0660" in text for text in texts) and not any("= 100" in text for text in texts)
