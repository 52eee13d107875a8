"""Compares `cpi replay` with a second office, line by line, over random records.

The second office (tests/second_office) follows the rules in docs/ and has no code in common with the program. Every
line of each run is compared. A run is one of two kinds, in turn:

- 600 records round what lies at every limit, with no month frozen. In one half of these no series is handed over. Then
  the program runs twice more, without the records of all collectors but one, and with these changed: the lines to that
  collector have to be the same bytes. In the other half series are handed over, and the program runs once more with the
  others' records changed as is said below.
- The life of an office through one to three years, with its plans, freezes and tables, with weights that are moved by
  prices from a reference month, with months that are reopened and frozen again, and with series that are handed over.
  The program runs twice more. Once with the other collectors' records after the last freeze changed: the lines to one
  collector have to be the same bytes. And once without the last freeze that was done: what the public and each
  collector are told before its table is published has to be the same bytes.

Others' records are changed at random: left out, sent with another mark or price, or followed by a further quote. Where
a series is handed over to the one collector, that may change what comes with it, the last price of the former collector
before that month, or whether it comes at all. So changes of the former collector's quotes are taken back until that
collector has the same assignments by the second office, copied prices among them, after each record of the desk. What
the former stored before that price, or stores afterwards, stays changed; that both are met is looked at.

Two runs in ten are carried out once more over a new database file, in two runs of the program, cut at some record: the
lines are the same. Each revision of each month that was frozen there is then printed by `cpi table`.

A long run takes 100 of them, of which some one has to meet each kind of reply; a short one takes a sample of these.
"""

from __future__ import annotations

import pytest

from lib.fault import Fault
from lib.kinds import KINDS
from lib.program import Program
from lib.runs import fault_of

RUNS = range(100)
"""The seeds of the runs. The even ones are of the first kind."""


class Runs:
    """The runs that were done, each once, and the kinds of replies that they met."""

    def __init__(self, program: Program) -> None:
        self.program = program
        self.faults: dict[int, Fault] = {}
        self.met: set[str] = set()

    def fault(self, seed: int) -> Fault:
        """What differs first in a run, if anything does."""
        if seed not in self.faults:
            self.faults[seed] = fault_of(self.program, seed, self.met)
        return self.faults[seed]


@pytest.fixture(scope="module")
def runs(program: Program) -> Runs:
    """The runs over the program."""
    return Runs(program)


@pytest.mark.sampled(6)
@pytest.mark.parametrize("seed", RUNS[::2])
def test_records_round_every_limit(runs: Runs, seed: int) -> None:
    assert runs.fault(seed) is None


@pytest.mark.sampled(6)
@pytest.mark.parametrize("seed", RUNS[1::2])
def test_the_life_of_an_office(runs: Runs, seed: int) -> None:
    assert runs.fault(seed) is None


@pytest.mark.long
def test_the_runs_meet_each_kind_of_reply(runs: Runs) -> None:
    for seed in RUNS:
        runs.fault(seed)
    assert sorted(KINDS - runs.met) == []
