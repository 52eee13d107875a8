"""Lives of small countries under faults, in simulated time, judged by the second office (tests/year tells how).

- Three months of five collectors, under all kinds of faults at once; and each life in which something was found.
- Two worlds with one seed in which the prices of all others are drawn anew: one collector and the public are answered
  the same bytes, until a table is out.
- Each wrong system of tests/lib/year/slips.py is found, and the same life without its slip breaks no promise.
- Of a list of faults the shortest that still shows what is broken is found.

Each test lives a life, or two; a short run takes some of the wrong systems and of the lives in which something was found.
It needs Debian's faketime (tools/setup), and nginx (tests/web/setup.sh).
"""

from __future__ import annotations

import os
import subprocess

import pytest

from lib.installing import need
from lib.places import ROOT
from lib.program import Program
from lib.year import clock
from lib.year.faults import KINDS
from lib.year.lives import Life, Size, Ways, apart, faults_of, life, shortest
from lib.year.slips import SLIPS

pytestmark = [pytest.mark.spread, pytest.mark.usefixtures("packages")]

SMALL = 5, 6
"""So many collectors with so many slots each."""

CERTAIN = [kind for kind in KINDS if kind not in ("burst", "promoted", "front")]

FOUND = {2026: 1, 100: 2, 5009: 2}
"""Lives in which judge or world were wrong, and their months: a refusal whose reply was lost with the front, the pack of
before that a killed publisher left, and a stop that put into the file what the disk had refused."""


@pytest.fixture(scope="module")
def packages() -> None:
    """The clock and the front are there."""
    need("tools/setup")
    need("tests/web/setup.sh")
    assert clock.is_there()


def lived(program: Program, seed: int, size: Size, kinds: list[str], ways: Ways = Ways()) -> Life:
    """A country's life under all faults of some kinds."""
    return life(program, seed, size, faults_of(seed, size, kinds), ways)


def test_the_shortest_list_of_faults_is_found() -> None:
    """Two of many show what is broken."""
    many = faults_of(1, Size(3, *SMALL), KINDS)
    wanted = [many[3], many[20]]
    assert shortest(many, lambda some: all(fault in some for fault in wanted)) == wanted


def test_a_tool_can_wait_while_its_clock_stands_still() -> None:
    """A backup does so if the office writes meanwhile."""
    script = f"import sys; sys.path.append({str(ROOT / 'tests/lib/year')!r}); import forking, time; time.sleep(0.01)"
    paths = os.pathsep.join([str(ROOT / "tools"), os.environ.get("PYTHONPATH", "")])
    environment = {**clock.faked("FAKETIME", "2026-11-18 02:05:18"), "PYTHONPATH": paths}
    words = ["/usr/bin/python3", "-c", script]
    ran = subprocess.run(words, env=environment, capture_output=True, text=True, check=False)
    assert (ran.returncode, ran.stderr) == (0, "")


def test_a_country_keeps_its_promises_under_all_faults(program: Program) -> None:
    """In a life that meets each kind of them."""
    found = lived(program, 1, Size(3, *SMALL), KINDS)
    assert found.broken is None
    assert [kind for kind in KINDS if not found.survived[kind]] == []


@pytest.mark.sampled(1)
@pytest.mark.parametrize("seed", FOUND)
def test_a_life_in_which_something_was_found_goes_well(program: Program, seed: int) -> None:
    assert lived(program, seed, Size(FOUND[seed], *SMALL), KINDS).broken is None


def test_one_collector_and_the_public_learn_nothing_of_others_prices(program: Program) -> None:
    """Before a table is out."""
    size, looks = Size(2, *SMALL), frozenset(["copies"])
    chosen = faults_of(1, size, CERTAIN, is_certain=True)
    here, there = (life(program, 1, size, chosen, Ways(others=others, looks=looks)) for others in (1, 2))
    assert (here.broken, there.broken) == (None, None)
    for who in ("collector 1", "public"):
        assert here.heard[who] and apart(here, there, who) is None


@pytest.mark.sampled(6)
@pytest.mark.parametrize("name", SLIPS)
def test_a_wrong_system_is_found_and_only_with_its_slip(program: Program, name: str) -> None:
    slip = SLIPS[name]
    size, ways = Size(slip.months, *SMALL), Ways(looks=frozenset(slip.looks))
    found = lived(program, 1, size, [*slip.kinds], ways._replace(slip=name))
    assert found.broken is not None, f"nobody finds that {slip.told}"
    assert lived(program, 1, size, [*slip.kinds], ways).broken is None
