"""Runs every part of each bench in its small size, and compares the form of its output: rows, columns and figures.

A bench that ends in a traceback, that a rule of the office refuses, or whose programs write different bytes, says so on
standard error or by its status. The parts are run as bench/README.md shows them; a short run takes two of them. It
needs `cc`, `g++` or `clang++`, jinja2, and nginx with Chromium's packages (tests/web/setup.sh, which is called first).
"""

from __future__ import annotations

import os
import re
import subprocess

import pytest

from lib.installing import need
from lib.places import ROOT
from lib.program import Program

pytestmark = pytest.mark.spread

SECONDS = 600
"""A bench that takes longer hangs: the slowest takes some ten on a quiet machine."""

MOST = 8
"""Benches are few: what belongs together is a part of one."""

N = r"-?[\d,]+(\.\d+)?"
"""A figure."""


def row(name: str, figures: int, more: str = "") -> str:
    """The form of a line: a name, so many figures, and what follows them."""
    return re.escape(name) + rf"(\s+{N}){{{figures}}}" + (rf"\s+{more}" if more else r"\s*")


def rows(names: str, figures: int, more: str = "") -> list[str]:
    """The forms of lines whose names are separated by `/`."""
    return [row(name, figures, more) for name in names.split("/")]


ANY = r".*\S.*"
"""A line of any words, such as the heads of columns."""

COST = rf"{N} s, {N} s of processor, {N} MB of memory"
"""What a run of a tool took."""

FREEZES = [*rows("2025-12/2026-01/2026-02", 5), row("the table", 2)]
FILED = [
    rf"{month}\s+{kind}(\s+{N}){{3}}" for month in ("2025-12", "2026-01", "2026-02") for kind in ("processor", "wall")
]
SOME = r"([\d,]+ by (\d+|nothing)(, )?)+"
STATUSES = rf"(none|{SOME})"
WAITS = rf"\| (port|front).* \| {N} \| {N} \| {SOME} \|"
WHO = "nobody|no key|a key that nobody bears|one key|ten keys"

AGED = [
    rf"{N} years: {N} quotes, a file of {N} MB",
    *(
        rf"{name}\s+{N} s\s+{N} MB"
        for name in ("SQLite's tests of the file", "an open", "backup", "drill", "desk month")
    ),
    rf"cpi serve, once it listens\s+{N} s\s+{N} MB",
    rf"  held from then on\s+{N} MB",
    rf"  the first request\s+{N} s\s+{N} MB",
    rf"  a price; a work list\s+{N} ms\s+{N} ms",
    *(
        rf"  {name}\s+{N} s\s+{N} MB"
        for name in ("publish, \\d+ months", "the freeze of a month", "publish, one month more")
    ),
]
"""What the years of a file are measured by."""

FORMS: dict[tuple[str, str], list[str]] = {
    ("copies", "backup"): [
        ANY,
        ANY,
        row("cp and sync", 2),
        *rows("backup/drill/an open/a generation/the next one", 3),
        r"nothing is wrong; .*",
        rf"the repository: {N} MB, and {N} MB more after {N} quotes",
    ],
    ("copies", "follow"): [ANY, ANY, *rows("none/folder/rsync", 5), r"folder: .* whole", r"rsync: .* whole"],
    ("desk", "looks"): [
        rf"{N} series, {N} quotes, a file of {N} MB",
        rf"the histories of a page of 50: {N} s of processor",
    ],
    ("desk", "pages"): [
        rf"{N} series, a file of {N} MB",
        ANY,
        *rows("nobody at the desk/beside refreshes", 3),
        rf"a refresh: {N} to {N} s, {N} s of processor, {N} MB of memory",
    ],
    ("desk", "reports"): [
        rf"{N} quotes a month, {N} MB; an open {N} s",
        rf"desk month, none left out: {N} s, {N} s beside its open",
        rf"desk month: {N} s, {N} s beside its two opens",
        "20 quotes were left out",
        rf"desk close: {N} s",
        rf"explain \S+: {N} s",
        rf"explain all: {N} s",
        rf"the greatest memory of one of them: {N} MB",
    ],
    ("files", "age"): AGED,
    ("files", "commits"): [ANY, *rows("cpi/Python, C SQLite in a file", 2, "the same")],
    ("files", "opens"): [ANY, *rows("1,000 by key/1,000 by month", 5)],
    ("files", "turns"): [
        ANY,
        *rows("the first answer, with the open/a bare commit of the C library", 2),
        *(
            row(f"{what}, {who}{more}", 2)
            for who in ("one collector", "all in turn")
            for what, more in (("a quote", ""), ("a work list", ""), ("a work list", ", in memory"))
        ),
        row("an assignment of imports", 2),
        rf"memory: {N} MB over a file of {N}, {N} in memory",
    ],
    ("freeze", "file"): [rf"{N} series; {N} rows were written, both times the same ones", ANY, *FILED],
    ("freeze", "largest"): [
        "800 series in 20 aggregates",
        *(
            rf"{name}\s+{N} s wall\s+{N} s processor\s+{N} GB"
            for name in (
                "setup and plan",
                "assignments",
                *(f"{what} of {month}" for month in ("2025-12", "2026-01") for what in ("quotes", "freeze")),
            )
        ),
    ],
    ("freeze", "loops"): [rf"{ANY}the same", *rows("2026-01/2026-02", 5)],
    ("freeze", "memory"): [ANY, *FREEZES],
    ("publish", "first"): [
        "185 items, 13 months",
        rf"publish, 13 months: {COST}",
        rf"the pack: {N} files, {N} MB",
        rf"--check: {COST}",
    ],
    ("publish", "next"): [
        "185 items, 26 months",
        rf"publish, 25 months: {COST}",
        rf"the next month: {COST}",
        rf"written: {N} files, {N} MB",
        rf"taken: 28 files, {N} MB",
    ],
    ("run", "frozen"): [ANY, *rows("a quote/a work list/own quotes of a month", 3)],
    ("run", "million"): [
        ANY,
        *rows("C++, maps/C++, maps, a write a line/C++, flat arrays/C++, flat, a write a line", 4, "the same"),
        *rows("cpi/Python, C SQLite in memory", 4, "the same"),
    ],
    ("run", "order"): [
        ANY,
        *rows("  1,000 items/  2,000 items/  2,000 outlets/  1,000 hand-overs/  2,000 hand-overs", 3),
    ],
    ("run", "others"): [ANY, *rows("     1/     2", 3)],
    ("run", "plan"): [
        rf"{name}\s+{N} ms" for name in ("a plan of 20,000 rows", "the same plan again", "an import of 20,000 rows")
    ],
    ("run", "work"): [ANY, *rows("    1/    2", 3)],
    ("serve", "away"): [rf"after a peer that goes away, over {N} quotes: {N} s"],
    ("serve", "greedy"): [
        ANY,
        ANY,
        *[rf"\| {N} rows `.*` \| {N} \| {N} \|"] * 4,
        "",
        ANY,
        ANY,
        *[rf"\| ({WHO}).* \| {N} \| {N} \| {STATUSES} \| {STATUSES} \|"] * 12,
    ],
    ("serve", "messages"): [ANY, *rows("C, bare loop/cpi serve/Python, http.server", 2)],
    ("serve", "peers"): [ANY, ANY, *[WAITS] * 13],
    ("sheets", "take-in"): [
        rf"{N} series, {N} months, {N} prices",
        *(
            form
            for name in ("take-in", "yardstick")
            for form in (
                rf"{name}: {N} s, {N} s of processor, {N} µs a price",
                rf"  memory: {N} MB, and {N} MB of the program",
            )
        ),
        rf"{N} times the yardstick; records of {N} MB: the same",
    ],
}
"""By bench and part, the forms of its lines."""


def run_bench(name: str, *words: str) -> subprocess.CompletedProcess[str]:
    """What a bench prints."""
    command = ["/usr/bin/python3", f"bench/{name}", *words]
    return subprocess.run(command, cwd=ROOT, capture_output=True, text=True, timeout=SECONDS, check=False)


def scripts() -> set[str]:
    """The scripts of bench/ that can be run."""
    return {
        path.name
        for path in (ROOT / "bench").iterdir()
        if path.is_file() and not path.suffix and os.access(path, os.X_OK)
    }


def test_each_bench_is_known() -> None:
    assert scripts() == {name for name, _ in FORMS}
    assert len(scripts()) <= MOST


@pytest.mark.parametrize("name", sorted({name for name, _ in FORMS}))
def test_a_help_describes_each_part_and_says_how_long_it_takes(name: str) -> None:
    ran = run_bench(name, "--help")
    assert (ran.returncode, ran.stderr) == (0, "")
    described = re.findall(r"^([a-z-]+):\n((?:  .*\n|\n)+)", ran.stdout, re.M)
    parts = {part: " ".join(text.split()) for part, text in described if part != "options"}
    assert parts.keys() == {part for bench, part in FORMS if bench == name}
    assert [part for part, text in parts.items() if not re.search(r"\b[Aa]ims?\b.* Takes ", text)] == []


@pytest.mark.parametrize(
    "name, words, fault",
    [
        ("run", ["--part", "order", "--lists", "3"], "--lists is no size of the part order"),
        ("freeze", ["--part", "largest", "--collectors", "1"], "--collectors 1: the part largest takes 2 to 9,999"),
        (
            "files",
            ["--part", "commits", "--program", "/nowhere"],
            "there is no program /nowhere: ./cpi-build builds it",
        ),
    ],
)
def test_what_a_bench_refuses_is_one_line(name: str, words: list[str], fault: str) -> None:
    ran = run_bench(name, *words)
    assert (ran.returncode, ran.stdout, ran.stderr) == (1, "", f"bench/{name}: {fault}\n")


@pytest.fixture(scope="module")
def packages() -> None:
    """What benches need is there."""
    need("tests/web/setup.sh")


@pytest.mark.sampled(2)
@pytest.mark.parametrize("name, part", FORMS)
@pytest.mark.usefixtures("packages")
def test_the_lines_of_a_small_run_have_their_form(program: Program, name: str, part: str) -> None:
    ran = run_bench(name, "--part", part, "--small", "--program", program.path)
    assert (ran.returncode, ran.stderr) == (0, ""), ran.stdout
    lines, forms = ran.stdout.splitlines(), FORMS[name, part]
    odd = [line for line, form in zip(lines, forms) if not re.fullmatch(form, line)]
    assert odd == [] and len(lines) == len(forms), f"{len(lines)} lines, {len(forms)} are wanted"
