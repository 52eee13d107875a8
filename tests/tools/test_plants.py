"""`tools/plants`: how a run of `rt plant` is compared with the kept list, and how both are read."""

from __future__ import annotations

import os
import re
import shutil
import subprocess
import sys
from pathlib import Path
from typing import NamedTuple

import pytest

from lib.places import ROOT
from crates import listed

COUNTS = (
    "planted-in=6 untested=3 no-ensures=1 proves=1 same=1 refused=2 elsewhere=0 not-judged=0 not-source=5 not-run=0"
)
HOUSE = "proves=0 refused=0 elsewhere=0 not-judged=0 not-source=0 own-answer-not-judged=0"
LOG = f"""\
proves      src/list.rt:66 Rows<T>::is_empty: {{ true }}
no-ensures  src/list.rt:60 Rows<T>::len()
untested    src/list.rt:30 Rows<T>::of()
untested    src/list.rt:37 Rows<T>::into_vec()
untested    src/list.rt:45 Rows<T>::push()
note: a body that only returns the out-of-memory error or fmt::Error is not planted, since it passes good contracts too: test that a call can succeed
plants crate=cpi_rows {COUNTS}
house crate=cpi_rows {HOUSE}
"""  # noqa: E501
"""What `rt plant --only src/list.rt` printed of cpi_rows when two clauses were weakened there, and that none of the
house's bodies was let through."""

IS_EMPTY = "proves src/list.rt Rows<T>::is_empty: { true }"
LEN = "no-ensures src/list.rt Rows<T>::len()"
CUT_OFF = "house src/list.rt list::send: { Ok(Served::Cut) }"
RIGHT = f"""\
# What the contracts of cpi_rows let through.

{IS_EMPTY}
    Costs time only: whoever asks
    reads the rows then.

{LEN}
    Nobody reads it.
"""
TOLD = f"cpi_rows: 2 let through; {COUNTS}; {HOUSE}"


class Ran(NamedTuple):
    status: int
    out: list[str]
    err: list[str]

    def before_counts(self) -> list[str]:
        """What it says of single lines, if it closes with the counts."""
        assert self.out[-2] == TOLD
        return self.out[:-2]


class Small:
    """A repository of two crates, with the list and the log of one of them."""

    def __init__(self, top: Path) -> None:
        self.top = top
        self.write("crates.txt", "cpi_rows:\ncpi_more: cpi_rows\n")
        self.write("crates/cpi_rows/src/lib.rt", "")
        self.write("tests/plants/cpi_rows.txt", RIGHT)
        self.write("logs/cpi_rows.txt", LOG)
        for path in (ROOT / "tools/plants", ROOT / "tools/crates.py", *ROOT.glob("tools/[eh]*/*.py")):
            self.write(str(path.relative_to(ROOT)), path.read_text())

    def write(self, name: str, text: str) -> None:
        (self.top / name).parent.mkdir(parents=True, exist_ok=True)
        (self.top / name).write_text(text)

    def run(self, *words: str) -> Ran:
        call = [sys.executable, str(self.top / "tools/plants"), *words]
        found = {**os.environ, "PATH": f"{self.top}/bin:{os.environ['PATH']}"}
        ran = subprocess.run(call, cwd=self.top, env=found, capture_output=True, text=True, check=False)
        return Ran(ran.returncode, ran.stdout.splitlines(), ran.stderr.splitlines())

    def compared(self, kept: str = RIGHT, log: str = LOG) -> Ran:
        """What is said of a list and a log."""
        self.write("tests/plants/cpi_rows.txt", kept)
        self.write("logs/cpi_rows.txt", log)
        return self.run("--logs", "logs")


@pytest.fixture
def small(tmp_path: Path) -> Small:
    return Small(tmp_path)


def refused(ran: Ran) -> str:
    """The one line of a call that compared nothing."""
    assert (ran.status, ran.out, len(ran.err)) == (2, [], 1)
    return ran.err[0]


# ---- the comparison


def test_a_run_whose_lines_all_have_reasons_is_right(small: Small) -> None:
    last = "1 crates, 0 without a whole run: 0 new, 0 gone, 0 weak"
    assert small.compared() == Ran(0, [TOLD, last], [])
    assert small.compared(log=LOG.replace(":66 ", ":7 ")).status == 0


def test_a_line_without_a_reason_is_new(small: Small) -> None:
    ran = small.compared(kept=f"{LEN}\n    Nobody reads it.\n")
    assert (ran.status, ran.before_counts()) == (1, [f"cpi_rows: new: {IS_EMPTY}"])
    assert ran.out[-1] == "1 crates, 0 without a whole run: 1 new, 0 gone, 0 weak"
    (small.top / "tests/plants/cpi_rows.txt").unlink()
    ran = small.run("--logs", "logs", "cpi_rows")
    assert (ran.status, ran.before_counts()) == (1, [f"cpi_rows: new: {IS_EMPTY}", f"cpi_rows: new: {LEN}"])


def test_a_reason_without_a_line_is_gone(small: Small) -> None:
    gone = "proves src/list.rt Rows<T>::len: { 0 }"
    ran = small.compared(kept=f"{RIGHT}\n{gone}\n    Nobody reads it.\n")
    assert (ran.status, ran.before_counts()) == (1, [f"cpi_rows: gone: {gone}"])


def test_another_body_is_another_line(small: Small) -> None:
    ran = small.compared(log=LOG.replace("{ true }", "{ false }"))
    new = IS_EMPTY.replace("true", "false")
    assert ran.before_counts() == [f"cpi_rows: new: {new}", f"cpi_rows: gone: {IS_EMPTY}"]


def test_a_weak_reason_is_told(small: Small) -> None:
    ran = small.compared(kept=RIGHT.replace("Nobody reads it.", "WEAK: wanted is len ≡ length self.now."))
    assert (ran.status, ran.before_counts()) == (1, [f"cpi_rows: weak: {LEN}"])
    assert ran.out[-1] == "1 crates, 0 without a whole run: 0 new, 0 gone, 1 weak"


@pytest.mark.parametrize(
    "log, why",
    [
        ("", ["the run of rt plant has not ended", "the run of the house's bodies has not ended"]),
        (LOG.replace("crate=cpi_rows", "crate=cpi_more"), ["the run is of cpi_more"]),
    ],
)
def test_a_log_that_says_nothing_of_its_crate_is_no_run(small: Small, log: str, why: list[str]) -> None:
    ran = small.compared(log=log)
    assert (ran.status, ran.out[:-1]) == (1, [f"cpi_rows: {it}" for it in why])
    assert ran.out[-1] == "1 crates, 1 without a whole run: 0 new, 0 gone, 0 weak"


def test_a_run_without_the_house_says_nothing_of_its_bodies(small: Small) -> None:
    ran = small.compared(kept=f"{RIGHT}\n{CUT_OFF}\n    Nothing is written.\n", log=LOG.partition("house crate")[0])
    assert (ran.status, ran.out[0]) == (1, "cpi_rows: the run of the house's bodies has not ended")
    assert ran.out[-1] == "1 crates, 1 without a whole run: 0 new, 0 gone, 0 weak"


def test_a_body_of_the_house_has_its_reason_or_is_new_or_gone(small: Small) -> None:
    log = LOG.replace("house crate", "house src/list.rt:9 list::send: { Ok(Served::Cut) }\nhouse crate")
    assert f"cpi_rows: new: {CUT_OFF}" in small.compared(log=log).out
    kept = f"{RIGHT}\n{CUT_OFF}\n    Nothing is written.\n"
    assert small.compared(kept=kept, log=log).status == 0
    assert f"cpi_rows: gone: {CUT_OFF}" in small.compared(kept=kept).out


def test_a_run_that_left_out_some_plants_says_what_is_new_and_not_what_is_gone(small: Small) -> None:
    cut = LOG.replace("note: a", "note: some plants may not have been tried: raise --max\nnote: a")
    ran = small.compared(kept=RIGHT.replace("true", "false"), log=cut)
    said = ["cpi_rows: the run left out some plants", f"cpi_rows: new: {IS_EMPTY}"]
    assert (ran.status, ran.before_counts()) == (1, said)
    assert ran.out[-1] == "1 crates, 1 without a whole run: 1 new, 0 gone, 0 weak"
    assert small.compared(log=cut).status == 1


# ---- the kept list


def test_one_reason_may_be_for_several_lines(small: Small) -> None:
    kept = f"# any\n{IS_EMPTY}\n# more\nno-ensures   src/list.rt  Rows<T>::len()\n    Both are right.\n"
    assert small.compared(kept=kept).status == 0
    told = [f"cpi_rows: {IS_EMPTY}", "    Both are right.", f"cpi_rows: {LEN}", "    Both are right."]
    assert small.run("--list", "cpi_rows") == Ran(0, told, [])


def test_the_list_is_printed_with_its_reasons_in_one_line(small: Small) -> None:
    told = [f"cpi_rows: {IS_EMPTY}", "    Costs time only: whoever asks reads the rows then."]
    assert small.run("--list") == Ran(0, [*told, f"cpi_rows: {LEN}", "    Nobody reads it."], [])


@pytest.mark.parametrize(
    "kept, why",
    [
        (f"{RIGHT}\n{LEN}\n    Once more.\n", f"there are two lines {LEN}"),
        (f"{IS_EMPTY}\n\n{LEN}\n    Nobody reads it.\n", f"without a line: {IS_EMPTY}"),
        (f"{RIGHT}{LEN}1", f"without a line: {LEN}1"),
        (f"{RIGHT}\n    More.\n", "without a line: More."),
        (f"  {IS_EMPTY}\n    Two blanks before it.\n", f"without a line: {IS_EMPTY}"),
    ],
)
def test_a_list_that_can_not_be_read_is_refused(small: Small, kept: str, why: str) -> None:
    said = refused(small.compared(kept=kept))
    assert said.startswith(f"plants: {small.top}/tests/plants/cpi_rows.txt: ") and said.endswith(why)


def test_each_crate_has_a_list_and_no_reason_is_weak() -> None:
    lists = {file.stem: file.read_text(encoding="utf-8") for file in (ROOT / "tests/plants").iterdir()}
    assert set(lists) == set(listed(ROOT))
    assert [crate for crate, text in lists.items() if re.search("^ +WEAK", text, re.M)] == []


def test_the_lists_of_this_repository_are_of_functions_that_are_there() -> None:
    ran = subprocess.run([ROOT / "tools/plants", "--list"], capture_output=True, text=True, check=False)
    assert (ran.returncode, ran.stderr) == (0, "")
    for line in re.sub(r"^    .*\n", "", ran.stdout, flags=re.M).splitlines():
        match = re.fullmatch(r"(\w+): (?:proves|no-ensures|house) (\S+) .*?(\w+)(?:: \{ .*|\(\).*)", line)
        assert match, line
        source = (ROOT / "crates" / match[1] / match[2]).read_text(encoding="utf-8")
        assert re.search(rf"\bfn {match[3]}\b", source), line


# ---- the runs


def stand_in(small: Small, text: str) -> None:
    """A stand-in for `rt`, which prints where it runs and its words on standard error."""
    small.write("bin/rt", f'#!/bin/sh\necho "${{PWD##*/}} $*" >&2\n{text}')
    (small.top / "bin/rt").chmod(0o755)


def test_a_crate_is_run_and_its_log_is_kept(small: Small) -> None:
    stand_in(small, "grep -v ^house ../../logs/cpi_rows.txt")
    ran = small.run("cpi_rows", "--jobs", "2")
    assert (ran.status, ran.err) == (0, ["cpi_rows plant --jobs 2 --max 1000000 --minutes 6000"])
    assert (small.top / "out/plants/cpi_rows.txt").read_text() == LOG
    shutil.rmtree(small.top / "bin")
    assert small.run("--logs", "out/plants").status == 0


def test_a_run_that_fails_keeps_no_other_from_running(small: Small) -> None:
    small.write("crates/cpi_more/src/lib.rt", "")
    stand_in(
        small, "[ ${PWD##*/} = cpi_more ] || exit 2\nsed 's/cpi_rows/cpi_more/; /^house/d' ../../logs/cpi_rows.txt"
    )
    small.write("crates/cpi_rows/out/rlib/cpi_rows.rlib/format", "")
    ran = small.run()
    assert (ran.status, ran.out[0]) == (1, "cpi_rows: the run of rt plant has not ended")
    assert ran.out[2:4] == [f"cpi_more: new: {IS_EMPTY}", f"cpi_more: new: {LEN}"]
    assert ran.out[-1] == "2 crates, 1 without a whole run: 2 new, 0 gone, 0 weak"


def test_the_house_alone_needs_the_libraries_below_and_says_nothing_of_other_lines(small: Small) -> None:
    stand_in(small, "exit 3")
    ran = small.run("--house", "cpi_rows")
    assert (ran.status, ran.out[0]) == (0, f"cpi_rows: 0 let through; {HOUSE}")
    ran = small.run("--house", "cpi_more", "--only", "send")
    assert ran.out[0] == "cpi_more: the run of the house's bodies has not ended" and "cpi_rows" in ran.err[0]
    assert small.run("cpi_rows", "--from", "..").status == 2


def test_crates_and_logs_that_are_not_there_are_refused(small: Small) -> None:
    assert refused(small.run("cpi_none")) == "plants: crates.txt lists no crate cpi_none"
    assert refused(small.run("cpi_more", "--logs", "logs")) == "plants: logs has no log cpi_more.txt"
    assert refused(small.run("--logs", "tools")) == "plants: tools has no log of a crate"
