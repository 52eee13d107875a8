"""Columns of reports on pages: names in words, changes with their sign, counts with separators; and the response by day."""

from __future__ import annotations

import re

import pytest

from cpi_tools.desk.serve.watched_office import Seen
from cpi_tools.desk.looks.month_views import DAYS, HIGH, WIDE, chart_of
from cpi_tools.text.section_pages import cell_figure, head
from cpi_tools.text.report_language import ENGLISH
from cpi_tools.text.message import Cell
from .desk_apps import Application, Person, words_of
from .test_desk_app_year import PAGE as YEAR
from .test_desk_app_year import made

MONTH = "2026-02"
DAY = 86_400


@pytest.mark.parametrize(
    ("cell", "name", "shown"),
    [
        ("0.7", "month %", "+0.7"),
        ("-0.7", "month %", "\u22120.7"),
        ("0.0", "month %", "0.0"),
        ("+0.7", "adds, month", "+0.7"),
        ("-0.7", "level", "\u22120.7"),
        ("106.3", "level", "106.3"),
        ("", "year %", ""),
        (2553, "slots", "2,553"),
        (155141, "weight", "155,141"),
        (2553, "collector", "2553"),
    ],
)
def test_a_figure_is_shown_as_its_column_asks(cell: Cell, name: str, shown: str) -> None:
    assert cell_figure(ENGLISH, cell, name) == shown


def test_a_column_is_named_in_words() -> None:
    assert head("adds, month") == "contribution to the monthly change, points" and head("title") == "title"


def test_a_day_has_the_last_share_that_was_seen_of_it() -> None:
    rows = [Seen(202601, 5, 10, 9, -1), *(Seen(202602, after, 10, priced, -1) for after, priced in ((9, 1), (99, 2)))]
    chart = chart_of([*rows, Seen(202602, 2 * DAY, 10, 10, -1)], 202602)
    assert [(bar.day, bar.percent, bar.x, bar.y, bar.height) for bar in chart.bars] == [
        (1, "20.0", 0, HIGH * 0.8, HIGH * 0.2),
        (3, "100.0", 2 * WIDE, 0.0, HIGH),
    ]
    assert chart.wide == DAYS * WIDE and chart_of(rows, 202603).bars == []
    assert chart_of([Seen(202602, 40 * DAY, 10, 10, -1)], 202602).wide == 41 * WIDE


def test_the_response_by_day_is_a_picture_and_rows(application: Application, ada: Person) -> None:
    page = f"/month/{MONTH}/"
    assert "Response by day" not in ada.words(page)
    application.desk.watch._observed.rows = [Seen(202602, 5, 10, 2, -1), Seen(202602, 2 * DAY, 10, 9, -1)]
    text = ada.get(page).text
    assert 'role="img" aria-label="Response by day, from 20.0\u202f% to 90.0\u202f%"' in text
    assert "day priced 1 20.0\u202f% 3 90.0\u202f%".replace("\u202f", " ") in words_of(text).replace("\u202f", " ")


def test_each_table_has_a_caption_and_each_head_its_scope(application: Application, ada: Person) -> None:
    application.tried(ada, MONTH)
    made(application, ada)
    paths = [f"/month/{MONTH}/{text}" for text in ("", "table", "freeze", "looks", "explain/01.1.1.1-01")]
    paths += [f"{YEAR}?sheet={text}" for text in ("weights", "classification", "series", "leaving")]
    paths += [f"/sample/{text}" for text in ("items", "outlets", "collectors", "assignments", "calendar")]
    for path in (*paths, "/calendar", "/log", "/publish", "/records"):
        text = ada.get(path).text
        assert text.count("<table") == len(re.findall("<table[^>]*>\\s*<caption", text)), path
        assert text.count("<th ") == len(re.findall('<th scope="(?:col|row)"', text)) and "<th>" not in text, path
        rows = [word for body in re.findall("<tbody>(.*?)</tbody>", text, re.S) for word in body.split("<tr")[1:]]
        assert [row for row in rows if '<th scope="row"' not in row] == [], path
