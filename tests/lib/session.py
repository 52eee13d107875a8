"""Makes a run of pytest a part of ./test: its options, its sample, its minutes, second tries, and its last line.

    tests/run tests -n 4 --program dist/cpi --seed 7

- A short run takes a sample of the exhaustive checks, by a seed that its first line prints; a long one (--long) takes all.
- The tests of a file go to one process, as they share what is dear to make, unless the file is marked `spread`.
- A few tests that failed are tried once more, each in a process of its own after all others. One that passes then counts
  as passed, and is printed. tests/second_tries.txt has how many these may be, and which are known.
- The processor minutes of each file are printed: those of its tests, and of what they ran and waited for. So are its
  minutes by the clock.
- The last line is 'N passed, M failed'. A file that can't be read is a failure, and so is a run that tries nothing.
"""

from __future__ import annotations

import os
import random
import resource
import subprocess
import sys
from collections import defaultdict
from collections.abc import Iterator
from typing import Any

import pytest

from .sample import Sample, sample_of

SECOND_TRIES = "second_tries.txt"
PROCESSOR = "processor seconds"
SECONDS = pytest.StashKey[float]()
"""The seconds that this process, and the processes for which it waited, had used when the last test ended."""

FIRST = (
    "test_linters.py",
    "test_national_example.py",
    "test_http_peers.py",
    "web/test_desk_month.py",
    "web/test_desk_app.py",
    "web/test_phone.py",
    "test_year.py",
    "web/test_desk_app_sample.py",
    "web/test_looks.py",
    "test_refused_memory.py",
    "test_killed.py",
    "test_little_memory.py",
    "test_documents.py",
    "web/test_desk_app_languages.py",
    "tools/test_releases.py",
)
"""The files that take longest by the clock, so they begin first."""


def pytest_addoption(parser: pytest.Parser) -> None:
    """The options of a run."""
    group = parser.getgroup("cpi")
    group.addoption("--program", default=None, help="the program cpi that is tried (else crates/cpi/out/cpi)")
    group.addoption("--long", action="store_true", help="take all exhaustive checks, and no sample")
    group.addoption("--seed", type=int, default=None, help="what draws the sample (else it is drawn)")
    group.addoption("--one-try", action="store_true", help="try no test twice")


def pytest_configure(config: pytest.Config) -> None:
    """Draws the seed once for all processes, and begins to count."""
    given = getattr(config, "workerinput", None)
    program = config.option.program
    if program and not os.access(program, os.X_OK):
        raise pytest.UsageError(f"there is no program {program}: ./cpi-build builds one, and dist/cpi is shipped")
    if config.option.seed is None:
        config.option.seed = given["seed"] if given else random.randrange(10**6)
    if not given:
        config.pluginmanager.register(Counts(config), "counts")


@pytest.hookimpl(optionalhook=True)  # type: ignore[misc]
def pytest_configure_node(node: Any) -> None:
    """Tells a process the seed."""
    node.workerinput["seed"] = node.config.option.seed


# ---- which tests a run takes, in which order, and which process has them


def file_of(name: str) -> str:
    """The file of a test."""
    return name.partition("::")[0]


def without_group(name: str) -> str:
    """A test's name, without the group after it, by which pytest-xdist assigns it to a process."""
    plain, at, group = name.rpartition("@")
    return plain if at and "]" not in group and "::" not in group else name


def drawn_of(sample: Sample, items: list[pytest.Item]) -> set[str]:
    """The cases of the sampled functions that a run takes."""
    cases: dict[str, list[str]] = defaultdict(list)
    most: dict[str, int] = {}
    for item in items:
        if mark := item.get_closest_marker("sampled"):
            name = item.nodeid.partition("[")[0]
            cases[name].append(item.nodeid)
            most[name] = mark.args[0]
    return {it for name, some in cases.items() for it in sample.of(some, most[name], name)}


@pytest.hookimpl(tryfirst=True)  # type: ignore[misc]
def pytest_collection_modifyitems(config: pytest.Config, items: list[pytest.Item]) -> None:
    """Leaves out the tests that a short run doesn't take, puts the longest files first, and keeps a file's tests
    together."""
    sample = sample_of(config)
    taken = drawn_of(sample, items)
    kept, left = list[pytest.Item](), list[pytest.Item]()
    for item in items:
        is_drawn = item.nodeid in taken or not item.get_closest_marker("sampled")
        is_kept = is_drawn and (sample.is_long or not item.get_closest_marker("long"))
        (kept if is_kept else left).append(item)
        if not item.get_closest_marker("spread") and not item.get_closest_marker("xdist_group"):
            item.add_marker(pytest.mark.xdist_group(file_of(item.nodeid)))
    kept.sort(key=lambda item: FIRST.index(file_of(item.nodeid)) if file_of(item.nodeid) in FIRST else len(FIRST))
    items[:] = kept
    if left:
        config.hook.pytest_deselected(items=left)


def pytest_assertrepr_compare(op: str, left: object, right: object) -> list[str] | None:
    """Prints a fault unchanged if `assert fault is None` fails."""
    return left.splitlines() if op == "is" and right is None and isinstance(left, str) else None


# ---- minutes


def processor_seconds() -> float:
    """The processor seconds of this process, and of the processes for which it waited."""
    used = [resource.getrusage(who) for who in (resource.RUSAGE_SELF, resource.RUSAGE_CHILDREN)]
    return sum(getrusage.ru_utime + getrusage.ru_stime for getrusage in used)


def pytest_collection_finish(session: pytest.Session) -> None:
    """Begins to count the time of tests."""
    session.config.stash[SECONDS] = processor_seconds()


@pytest.hookimpl(hookwrapper=True)  # type: ignore[misc]
def pytest_runtest_makereport(item: pytest.Item, call: pytest.CallInfo[None]) -> Iterator[None]:
    """Notes the time of a test, including its fixtures, with its last report."""
    outcome: Any = yield
    if call.when == "teardown":
        now = processor_seconds()
        outcome.get_result().user_properties.append((PROCESSOR, now - item.config.stash[SECONDS]))
        item.config.stash[SECONDS] = now


# ---- the end


def known_second_tries(text: str) -> tuple[int, list[str]]:
    """The number of tests that may pass only at their second try, and the names of those that did."""
    lines = [line for line in text.splitlines() if line and not line.startswith("#")]
    return int(lines[0]), [line.split()[0] for line in lines[1:]]


def minutes_of(seconds: dict[str, float]) -> str:
    """The minutes that all files took, and the minutes of the twelve slowest files."""
    longest = sorted(seconds, key=lambda file: -seconds[file])[:12]
    minutes = [f"{file} {seconds[file] / 60:.1f}" for file in longest]
    return f"{sum(seconds.values()) / 60:.1f}: {', '.join(minutes)} .."


class Counts:
    """Counts the tests that passed and failed, and prints the counts at the end."""

    def __init__(self, config: pytest.Config) -> None:
        self.config = config
        self.passed: set[str] = set()
        self.failed: set[str] = set()
        self.second: list[str] = []
        self.unread = 0
        self.left_out: list[str] = []
        self.seconds: dict[str, float] = defaultdict(float)
        self.waited: dict[str, float] = defaultdict(float)

    def pytest_sessionstart(self) -> None:
        """Prints the first line, which names the sample."""
        option = self.config.option
        print("a long run" if option.long else f"a short run: --seed {option.seed} takes the same sample", flush=True)

    def pytest_runtest_logreport(self, report: pytest.TestReport) -> None:
        """Counts a test once: by its call, or by a fault before or after it."""
        name = without_group(report.nodeid)
        if report.failed:
            self.failed.add(name)
            self.passed.discard(name)
        elif report.when == "call" and report.passed and name not in self.failed:
            self.passed.add(name)
        elif report.skipped and isinstance(report.longrepr, tuple):
            self.left_out.append(f"{name}: {report.longrepr[2]}")
        self.seconds[file_of(name)] += sum(
            float(str(value)) for key, value in report.user_properties if key == PROCESSOR
        )
        self.waited[file_of(name)] += report.duration

    def pytest_collectreport(self, report: pytest.CollectReport) -> None:
        """Counts a file that can't be read as one failure."""
        self.unread += report.failed

    @pytest.hookimpl(tryfirst=True)  # type: ignore[misc]
    def pytest_sessionfinish(self, session: pytest.Session) -> None:
        """Runs a few tests that failed once more."""
        most, known = known_second_tries((self.config.rootpath / SECOND_TRIES).read_text(encoding="utf-8"))
        again = sorted(self.failed)
        if not self.unread and not self.config.option.one_try and 0 < len(again) <= most:
            self.second = [name for name in again if self.passes_by_itself(name)]
            self.failed.difference_update(self.second)
            self.passed.update(self.second)
            if not self.failed and session.exitstatus == pytest.ExitCode.TESTS_FAILED:
                session.exitstatus = pytest.ExitCode.OK
        self.second = [f"{name}{'' if name in known else ' (new)'}" for name in self.second]

    def passes_by_itself(self, name: str) -> bool:
        """Whether a test passes in a separate process, with nothing left from earlier tests."""
        option = self.config.option
        words = [f"--seed={option.seed}", *["--long"] * option.long]
        words += [f"--program={os.path.abspath(option.program)}"] if option.program else []
        words += [f"--leave-out={name}" for name in getattr(option, "leave_out", ())]
        ran = subprocess.run(
            [sys.executable, "-B", "-m", "pytest", "-n", "0", "--one-try", *words, str(self.config.rootpath / name)],
            cwd=self.config.rootpath, stdout=subprocess.PIPE, stderr=subprocess.STDOUT, text=True, check=False,
        )  # fmt: skip
        # (a test can end the process with status 0, and then there is no last line)
        is_well = ran.returncode == 0 and ran.stdout.endswith("\n1 passed, 0 failed\n")
        if not is_well:
            print(f"\ntried once more, {name} failed again:\n{ran.stdout}", flush=True)
        return is_well

    @pytest.hookimpl(trylast=True)  # type: ignore[misc]
    def pytest_unconfigure(self, config: pytest.Config) -> None:
        """Prints the last lines."""
        session: Any = config.pluginmanager.get_plugin("session")
        status = int(session.exitstatus) if session else 3
        # (a file that can't be read ends a run of one process so too)
        if status == pytest.ExitCode.INTERRUPTED and not self.unread:
            print("broken off", file=sys.stderr)
            return
        for line in sorted(self.left_out):
            print(f"left out: {line}")
        if sum(self.seconds.values()) >= 60:
            print(f"processor minutes: {minutes_of(self.seconds)}")
            print(f"minutes by the clock: {minutes_of(self.waited)}")
        for name in self.second:
            print(f"passed at its second try only: {name}")
        for name in sorted(self.failed):
            print(f"failed: {name}")
        failed = len(self.failed) + self.unread or int(status != 0)
        print(f"{len(self.passed)} passed, {failed} failed", flush=True)
