"""`tools/sample`: the sentences that it finds in each kind of page, what a seed draws, and what readers marked."""

from __future__ import annotations

import csv
import io
import subprocess
import sys
from collections.abc import Sequence
from pathlib import Path

import pytest

from lib.places import ROOT

sys.path.append(str(ROOT / "tools"))

import marks  # noqa: E402
import sentences  # noqa: E402
from marks import Marks, draw, read_marks, sum_of  # noqa: E402

DOCUMENT = """# A heading of more than five words here

A shop trusts the [office](PROMISE.md) with its prices. No `price` is told
to another collector, ever. *[What is said of it elsewhere](PROOF.md#a),
[the part `cpi_office` of the proof](PROOF.md#b).* Short one.

*A sentence in italics with [a link](PROOF.md) stays.*

- An item of a list with `code` in it.

      a command of five words here

| column | another column of this table |
|---|---|
| cell | A cell has a sentence of its own. |

```sh
echo a command of five words
```
"""

MODULE = '''"""A module has a docstring of two sentences. The second one follows it.

- An item of five words.
"""

LIMIT = 5
"""How many words a sentence has at least."""


def draw() -> str:
    """A function says what it answers here."""
    return "a text of five words that nobody reads"
'''

HELP = """usage: cpi-tools drill [-h] [--program FILE] COPY and more words

Checks whether a copy is a whole office. One line
gives the result of it.

options:
  -h, --help      show this help message and exit
  --program FILE  the program cpi, or else the one
                  by the variable CPI
"""

CRATE = """//! A crate has words of its own.

/// A function is read with its contract. It has two
/// sentences over three lines of
/// its comment.
pub fn one() -> u32 { 1 } // short
"""

CATALOGUE = """#: web/collect/app.js
msgid "The phone shows this sentence to collectors."
msgstr ""

#: tools/cpi_tools/desk/field/notes.py web/collect/notes.js
msgid "The phone and the desk show this one."
msgstr ""

#: tools/cpi_tools/desk/serve/app.py
msgid "The desk shows {count} row of it."
msgid_plural "The desk shows {count} rows of it."
msgstr[0] ""
msgstr[1] ""

#: tools/cpi_tools/explain/desk/texts.py
msgid "A folder of that name elsewhere isn't the desk."
msgstr ""
"""

CHANGES = """# Changes

## Unreleased (1.1)

### For readers

A line of the next release, which has a part.

```sh
# a comment that looks like a heading
```

Another line of it, below a command.

## 1.0, 2026-11-25

A line of the release that was published.
"""


def test_sentences_of_a_document() -> None:
    assert sentences.split(sentences.of_document(DOCUMENT)) == [
        "A shop trusts the office with its prices.",
        "No `price` is told to another collector, ever.",
        "A sentence in italics with a link stays.",
        "An item of a list with `code` in it.",
        "another column of this table",
        "A cell has a sentence of its own.",
    ]


def test_sentences_of_a_module() -> None:
    assert sentences.split(sentences.of_module(MODULE)) == [
        "A module has a docstring of two sentences.",
        "The second one follows it.",
        "- An item of five words.",
        "How many words a sentence has at least.",
        "A function says what it answers here.",
    ]


def test_sentences_of_a_help() -> None:
    assert sentences.split(sentences.of_help(HELP)) == [
        "Checks whether a copy is a whole office.",
        "One line gives the result of it.",
        "show this help message and exit",
        "the program cpi, or else the one by the variable CPI",
    ]


def test_sentences_of_a_crate(tmp_path: Path) -> None:
    (tmp_path / "crates/small/src").mkdir(parents=True)
    (tmp_path / "crates/small/src/lib.rt").write_text(CRATE)
    assert sentences.sentences_of("crates/small", tmp_path) == [
        "A crate has words of its own.",
        "A function is read with its contract.",
        "It has two sentences over three lines of its comment.",
    ]


@pytest.mark.parametrize(
    ("folder", "rows"),
    (("web/", (0, 1)), ("desk/", (1, 2, 3)), ("tools/cpi_tools/desk/serve/", (2, 3)), ("", range(5))),
)
def test_texts_of_a_folder(tmp_path: Path, folder: str, rows: Sequence[int]) -> None:
    """A text that two pages show is of both; a plural is a text of its own."""
    texts = [
        "The phone shows this sentence to collectors.",
        "The phone and the desk show this one.",
        "The desk shows {count} row of it.",
        "The desk shows {count} rows of it.",
        "A folder of that name elsewhere isn't the desk.",
    ]
    (tmp_path / "cpi.pot").write_text(CATALOGUE)
    assert sentences.sentences_of(f"cpi.pot:{folder}", tmp_path) == [texts[row] for row in rows]


def test_sentences_of_a_section(tmp_path: Path) -> None:
    """A section goes on below its smaller headings."""
    (tmp_path / "CHANGES.md").write_text(CHANGES)
    lines = [
        "A line of the next release, which has a part.",
        "Another line of it, below a command.",
        "A line of the release that was published.",
    ]
    for title, rows in (("Unreleased", lines[:2]), ("For readers", lines[:2]), ("1.0", lines[2:]), ("", lines)):
        assert sentences.sentences_of(f"CHANGES.md:{title}", tmp_path) == rows


@pytest.mark.parametrize(
    ("page", "fault"),
    (
        ("LICENSE", "LICENSE is no document (.md), module (.py), catalogue (.pot), crate (crates/NAME) or command"),
        ("po/cpi.pot:desks/", "no text comes from a file in desks/"),
        ("README.md:The tests", "no heading begins with The tests"),
        ("crates/cpi_index:src/", "crates/cpi_index is no document (.md) or catalogue (.pot), so it has no parts"),
    ),
)
def test_another_page_is_refused(page: str, fault: str) -> None:
    ran = subprocess.run([ROOT / "tools/sample", page, "--seed", "1"], capture_output=True, text=True, check=False)
    assert (ran.returncode, ran.stdout) == (2, "")
    assert f"error: {fault}\n" in ran.stderr


def test_a_python_that_lacks_a_module_says_which_one() -> None:
    """Without its site packages, Python has no markdown_it."""
    words = [sys.executable, "-S", str(ROOT / "tools/sample"), "README.md", "--seed", "1"]
    ran = subprocess.run(words, capture_output=True, text=True, check=False)
    assert (ran.returncode, ran.stdout, ran.stderr.count("\n")) == (1, "", 1)
    assert f"has no module markdown_it: run tools/setup, then /usr/bin/python3 {ROOT}/tools/sample" in ran.stderr


def test_a_seed_draws_thirty_sentences_in_the_order_of_the_page() -> None:
    every = [f"Sentence number {number} of a page." for number in range(100)]
    drawn = draw(every, 7)
    assert len(set(drawn)) == 30 and drawn == sorted(drawn, key=every.index) == draw(every, 7) != draw(every, 8)
    assert draw(every[:3], 7) == every[:3]


def test_rows_for_a_reader_are_read_back(tmp_path: Path) -> None:
    words = [str(ROOT / "tools/sample"), "docs/decide/PROMISE.md", "--seed", "3", "--csv"]
    text = subprocess.run(words, capture_output=True, text=True, check=True).stdout
    (tmp_path / "PROMISE.csv").write_text(text)
    found = read_marks(tmp_path / "PROMISE.csv")
    assert (found.page, found.seed, len(found.rows), found.marked, found.fault()) == (
        "docs/decide/PROMISE.md",
        3,
        30,
        0,
        "",
    )
    rows = [*csv.reader(io.StringIO(text))]
    rows[5][1] = "4"
    with (tmp_path / "PROMISE.csv").open("w", newline="") as file:
        csv.writer(file).writerows(rows)
    with pytest.raises(ValueError, match="PROMISE.csv, row 6: it isn't a row of the same page, seed, day and sum"):
        read_marks(tmp_path / "PROMISE.csv")


def of_page(top: Path, count: int, marked: int, page: str = "PAGE.md") -> Marks:
    """The marks of a page of so many sentences, of which the first ones are marked."""
    every = [f"Sentence number {number} has five words." for number in range(count)]
    (top / page).write_text("\n\n".join(every))
    drawn = draw(every, 1)
    rows = tuple((sentence, "Another text." if at < marked else "") for at, sentence in enumerate(drawn))
    return Marks(page, 1, "2026-11-30", sum_of(every), rows)


def of_texts(folder: str) -> Marks:
    """The marks of the texts of a folder, of which none is read yet."""
    return Marks(f"po/cpi.pot:{folder}", 1, "2026-12-01", "", ())


def test_a_page_keeps_its_bound_or_says_so(tmp_path: Path) -> None:
    """Three of thirty are a tenth; for readers who are no programmers it is one of thirty. The desk's texts have the bound
    of other pages, those of the phone and the website the smaller one."""
    assert of_page(tmp_path, 90, 3).fault(tmp_path) == ""
    assert of_page(tmp_path, 90, 4).fault(tmp_path) == "too many sentences are marked"
    assert of_page(tmp_path, 90, 1, "README.md").fault(tmp_path) == ""
    assert of_page(tmp_path, 90, 2, "README.md").fault(tmp_path) == "too many sentences are marked"
    bounds = {folder: of_texts(folder).bound for folder in ("web/", "publish/", "desk/")}
    assert bounds == {"web/": 5, "publish/": 5, "desk/": 10}


def test_sentences_that_the_seed_does_not_draw_do_not_count(tmp_path: Path) -> None:
    page = of_page(tmp_path, 90, 0)
    assert page._replace(seed=2).fault(tmp_path) == "these aren't the sentences that the seed draws"
    assert page._replace(rows=page.rows[1:]).fault(tmp_path) == "these aren't the sentences that the seed draws"


def test_a_page_that_is_another_one_now_is_read_again(tmp_path: Path) -> None:
    page = of_page(tmp_path, 30, 0)
    lines = (tmp_path / "PAGE.md").read_text().split("\n\n")
    for changed, fault in ((10, ""), (11, "the page isn't the one that was read")):
        (tmp_path / "PAGE.md").write_text(
            "\n\n".join([f"Line {at} is quite new now." for at in range(changed)] + lines[changed:])
        )
        assert page.fault(tmp_path) == fault


def test_each_page_that_was_marked_keeps_its_bound() -> None:
    assert {each.page: fault for each in marks.all_marks() if (fault := each.fault())} == {}
