"""Tests what starts, builds and ships the program: ./cpi, ./cpi-build, ./test, tools/ and test_shipped_program.py.

They run in copies of a small repository of five crates, with stand-ins for `rt`, for `objdump`, for the program and for
the parts of ./test (lib/small_repository.py). In this repository itself there is no link, since a gate takes files and
folders only; the notices of third parties are next to the program too; and CHANGELOG.md says what changed since the
last release.
"""

from __future__ import annotations

import fcntl
import hashlib
import os
import re
import shutil
import signal
import subprocess
import sys
import tempfile
import time
from collections.abc import Callable, Iterator
from functools import partial
from pathlib import Path

import pytest

from lib.small_repository import BUILT, CRATES, KIT, NOTICE, NOTICES, SHIPPED, TOP, Ran, Repository, made_of, put
from parts import Parts, Result

pytestmark = pytest.mark.spread

Seen = tuple[str, bool]
"""What is looked at, and whether it is as it should be."""


# ---- starting what is shipped


def a_fresh_clone(repository: Repository) -> Iterator[Seen]:
    repository.ship()
    first, second = repository.answers(), repository.answers()
    yield "words, standard input and status are handed on, and nothing else is said", first == SHIPPED
    yield "so they are once more", second == SHIPPED
    (repository.room / "tools/cpi").symlink_to(repository.top / "cpi")
    yield "it runs by a link, from another folder", repository.run(f"{repository.room}/tools/cpi", cwd="/").status == 7
    yield "rt wasn't called", repository.told() == []
    yield "out/ has no copy of it, only when it was looked at", repository.kept() == ["current"]
    repository.run("cpi-build", "--lanes", "1")
    built = repository.out / repository.sources()
    yield "what was built of the same sources is run before it", repository.run("cpi").out.startswith("low as it was")
    shutil.rmtree(built)
    yield "without that, it is run again", repository.answers() == SHIPPED
    repository.run("cpi-build", "--lanes", "1")
    yield "and what is built then, though no source changed", built.exists() and repository.run("cpi").out.startswith(
        "low as"
    )


def sources_that_did_not_change(repository: Repository) -> Iterator[Seen]:
    repository.ship()
    repository.answers()
    before = (repository.out / "current").stat().st_mtime_ns
    repository.write("low", "low as it was")
    put(repository.crates / "low/out/rlib/any", "")
    yield "the same text, written again, is the same", repository.answers() == SHIPPED
    seen = (repository.out / "current").stat().st_mtime_ns
    yield "it was looked at, and the time noted", seen > before
    yield "then the times alone are", repository.answers() == SHIPPED and (
        repository.out / "current"
    ).stat().st_mtime_ns == seen
    yield "rt wasn't called", repository.told() == []


def many_at_once(repository: Repository) -> Iterator[Seen]:
    repository.ship()
    running = [repository.start("cpi", "a b", "", "*") for _ in range(8)]
    outs = [each.communicate(b"input", timeout=60)[0].decode() for each in running]
    yield "each answers", outs == [SHIPPED.out] * 8
    yield "nothing is left of them but when they looked", repository.kept() == ["current"]


def damage(repository: Repository) -> Iterator[Seen]:
    repository.ship()
    yield "a whole program", repository.answers() == SHIPPED
    repository.shipped.write_bytes(repository.shipped.read_bytes()[:-20])
    yield "one that is cut, after it ran", repository.answers().is_refused("isn't the program")
    repository.ship(program="0")
    yield "another program", repository.answers().is_refused("isn't the program")
    repository.shipped.unlink()
    yield "no file", repository.answers().is_refused("there is no dist/cpi")
    repository.ship()
    repository.shipped.chmod(0o644)
    yield "a program that a copy made a plain file", repository.answers().is_refused("chmod +x dist/cpi")
    repository.shipped.chmod(0o755)
    yield "it runs again once it is executable", repository.answers() == SHIPPED
    (repository.out / "current").unlink()
    for name in ("sources", "program", "machine", "needs"):
        repository.ship()
        put(repository.made, re.sub(f"^{name}: .*\n", "", repository.made.read_text(), flags=re.M))
        yield f"MADE without a line {name}", repository.answers().is_refused(f"no line '{name}'")
    yield "rt wasn't called, and nothing is left", repository.told() == [] and repository.kept() == []


def a_checkout_that_can_not_be_written(repository: Repository) -> Iterator[Seen]:
    repository.ship()
    put(repository.room / "home/file", "")
    (repository.room / "home").chmod(0o777)
    subprocess.run(["chmod", "-R", "a-w", repository.top], check=True)
    # (whoever may write everywhere becomes nobody)
    how = {"user": 65534, "group": 65534, "extra_groups": []} if os.geteuid() == 0 else {}
    nowhere = {**repository.environment, "HOME": f"{repository.top}/home"}
    yield "it runs where nothing can be noted", [repository.answers(env=nowhere, **how) for _ in range(2)] == [
        SHIPPED
    ] * 2
    noted = repository.room / "home/.cache/sabrethog"
    yield "nothing was", not repository.out.exists() and not noted.exists()
    yield "it runs where the user's cache can be written", repository.answers(**how) == SHIPPED
    (current,) = (path for path in noted.rglob("*") if path.is_file())
    seen = current.stat().st_mtime_ns
    yield "there it is noted, once", repository.answers(**how) == SHIPPED and current.stat().st_mtime_ns == seen
    subprocess.run(["chmod", "-R", "u+w", repository.top], check=True)
    repository.write("low", "low as it is")
    put(repository.out, "no folder")
    yield "nothing is built there", repository.answers().is_refused("other sources", "can't be written")
    yield "./cpi-build says so too", repository.run("cpi-build").is_refused("out")


# ---- building


def sources_that_changed(repository: Repository) -> Iterator[Seen]:
    repository.ship()
    repository.answers()
    repository.write("low", "low as it is")
    ran, told = repository.run("cpi"), repository.told()
    yield "they are built and run", ran[:2] == BUILT[:2] and "other sources" in ran.lines()[0]
    did = [f"{did} {crate}" for did in ("begins", "built") for crate in ("cpi", "left", "low", "right")]
    yield "each crate of the program, once", sorted(told) == did
    words = ("cpi (4 of 4) begins", "right is built, in 0.0 minutes; at minute 0, about ", " minutes to go")
    yield "it tells which crate of how many, and the minutes", all(each in ran.err for each in words)
    yield "the next call starts it at once", repository.run("cpi") == BUILT and repository.told() == []
    repository.write("left", "more", "new file")
    yield "a new file is a source", repository.run("cpi")[:2] == BUILT[:2] and "built left" in repository.told()
    (repository.crates / "left/src/new file").unlink()
    repository.write("low", "low as it was")
    yield "with the sources of dist/ its program runs again", repository.answers() == SHIPPED and repository.told() == []
    yield "programs of other sources are removed", repository.kept() == ["current"]


def programs_of_no_use(repository: Repository) -> Iterator[Seen]:
    cases: dict[str, Callable[[], object]] = {
        "there is no program in dist/": lambda: None,
        "is for vax": lambda: repository.ship(machine="vax"),
        "doesn't start here (it needs libc.so.6 GLIBC_2.34)": lambda: repository.ship(b"#!/no/such/loader\n"),
        "dist/ was made of other sources": lambda: repository.ship(sources="0"),
    }
    for why, make in cases.items():
        make()
        yield f"{why}: without rt there is one line", repository.run("cpi", env=repository.no_rt).is_refused(
            why, "without rt"
        )
        ran = repository.run("cpi")
        yield f"{why}: it is built", ran.out.startswith("low as it was") and why in ran.lines()[0]
        shutil.rmtree(repository.out)
    yield "./cpi-build wants rt too", repository.run("cpi-build", env=repository.no_rt).is_refused("no rt")


def within_seconds(is_so: Callable[[], bool]) -> bool:
    for _ in range(100):
        if is_so():
            return True
        time.sleep(0.1)
    return False


def is_free(repository: Repository) -> bool:
    """Whether nothing that a build began holds its lock any more."""
    with open(repository.out / "lock", encoding="utf-8") as lock:
        try:
            fcntl.flock(lock, fcntl.LOCK_EX | fcntl.LOCK_NB)
            return True
        except BlockingIOError:
            return False


def broken_off(repository: Repository, number: int) -> Iterator[Seen]:
    repository.write("left", "slow")
    repository.write("right", "slow")
    running = repository.start("cpi-build", "--lanes", "2", start_new_session=True)
    both = within_seconds(lambda: len([*repository.top.parent.glob("*/crates/*/out/waited")]) == 2)
    yield "two are built side by side, one in a copy", both and repository.copies() == 1
    if number == signal.SIGKILL:
        os.killpg(running.pid, number)
        running.communicate(timeout=20)
    else:
        running.send_signal(number)
        last = running.communicate(timeout=20)[1].decode().splitlines()[-1]
        yield "the last line says what is next", running.returncode == 1 and "goes on where this one was" in last
        yield "no copy and no process is left", repository.copies() == 0 and within_seconds(lambda: is_free(repository))
    repository.told()
    ran, told = repository.run("cpi-build", "--lanes", "2"), repository.told()
    yield "the next goes on where it was", ran.status == 0 and "same low" in told and "built cpi" in told
    yield "it leaves no copy", repository.copies() == 0 and not any(line.startswith("locked") for line in told)


def lanes(repository: Repository) -> Iterator[Seen]:
    for count in ("1", "2"):
        for folder in repository.crates.glob("*/out"):
            shutil.rmtree(folder)
        for side in ("left", "right"):
            repository.write(side, "meeting" if count == "2" else "")
        ran, told = repository.run("cpi-build", "--lanes", count, "--jobs", "4"), repository.told()
        yield f"{count}: all is built, here", ran.status == 0 and len(
            [*repository.crates.glob("*/out/rlib/stamp")]
        ) == 4
        yield f"{count}: the jobs are shared", ("with 2 jobs" in ran.err) == (count == "2")
        is_beside = sorted(told[2:4]) == ["begins left", "begins right"]
        yield f"{count}: side by side", is_beside == (count == "2") and len(told) == 8
    again = repository.run("cpi-build", "--lanes", "2")
    yield "once more is a look", again.status == 0 and not any(line.startswith("built") for line in repository.told())
    (repository.crates / "link").symlink_to("nowhere")
    ran = repository.run("cpi-build", "--lanes", "2")
    yield "where no copy can be made there is one lane", ran.status == 0 and "one crate at a time" in ran.err
    yield "--help tells", repository.run("cpi-build", "--help").status == 0 and repository.run(
        "cpi-build", "--jobs", "0"
    ).status == 2


def proofs_that_fail(repository: Repository) -> Iterator[Seen]:
    repository.write("right", "wrong")
    ran = repository.run("cpi")
    yield "the log is printed, and nothing runs", ran[:2] == (1, "") and "fn right::f: not proved" in ran.lines()
    yield "the last line names the crate", "right isn't proved" in ran.lines()[-1]
    repository.write("right", "right")
    repository.told()
    yield "what was built stays", repository.run("cpi").status == 7 and "same low" in repository.told()
    repository.write("cpi", "moving")
    ran = repository.run("cpi")
    yield "sources that change meanwhile are told", ran[:2] == (1, "") and "changed" in ran.lines()[-1]
    put(repository.top / "crates.txt", "cpi: low\nlow: cpi\n")
    yield "a circle of crates is told", repository.run("cpi-build").is_refused("below itself")
    put(repository.top / "crates.txt", "low:\n")
    yield "no crate cpi is told", repository.run("cpi-build").is_refused("no crate cpi")


# ---- sums, shipping and comparing


def sums(repository: Repository) -> Iterator[Seen]:
    for name in ("B", "a", "\u00e4", "two words", "two\nlines", "-n"):
        repository.write("low", name, name)
    first = repository.sources()
    yield "it is a SHA-256", bool(re.fullmatch("[0-9a-f]{64}", first))
    shutil.copytree(repository.top, repository.room / "other")
    yield "the same in another folder", repository.run(f"{repository.room}/other/tools/sources").out == f"{first}\n"
    locales = [{**repository.environment, "LC_ALL": to} for to in ("C.UTF-8", "en_US.UTF-8")]
    yield "the same by other locales", {repository.sources(env=each) for each in locales} == {first}
    put(repository.crates / "low/out/any", "")
    put(repository.top / "README.md", "")
    yield "what isn't a source doesn't count", repository.sources() == first
    changes: list[Callable[[], object]] = [
        lambda: put(repository.top / "HANDLES", ""),
        lambda: put(repository.top / "crates.txt", f"{CRATES}\n"),
        lambda: repository.write("low", "other", "two\nlines"),
        lambda: (repository.crates / "low/src/B").rename(repository.crates / "low/src/C"),
        lambda: repository.write("left", "", "empty"),
    ]
    sources = [first, *(repository.sources() for change in changes if [change()])]
    yield "each change is another sum", len(set(sources)) == 6


# ---- the parts of ./test


def begin_test(repository: Repository) -> None:
    """Makes stand-ins of the parts of ./test that pass: so many tests each, beside the gate's two."""
    repository.stand_in("tests/run", "10 passed, 0 failed")
    repository.stand_in("tools/refused", "3 passed, 0 failed")


PASSED = 2 + 3 + 10 + 10
"""How many tests pass, if all do: of the gate, of the edits, of the tests, and of the shipped program."""

FAULTS = [
    ("that fails", "1 passed, 1 failed", 1, 1),
    ("that ends without its line", "Traceback", 1, 0),
    ("that ends with no line and no status", "", 0, 0),
    ("with another status than its line says", "1 passed, 0 failed", 3, 1),
]


def parts_that_fail(repository: Repository) -> Iterator[Seen]:
    begin_test(repository)
    yield "nothing is shipped without a test", "wasn't green" in repository.run("tools/dist").err
    for how, last, status, passed in FAULTS:
        repository.stand_in("tools/refused", last, status)
        ran, whole = repository.run("test"), PASSED - 3 + passed
        yield f"edits {how} fail it all", ran.status == 1 and ran.out.endswith(f"{whole} passed, 1 failed\n")
        yield f"nothing is shipped after edits {how}", "wasn't green" in repository.run(
            "tools/dist"
        ).err and repository.kept() == []
    begin_test(repository)
    for how, last, status, passed in FAULTS:
        # (the last part is run by the same script, so it fails too)
        repository.stand_in("tests/run", last, status)
        ran, whole = repository.run("test"), PASSED - 20 + 2 * passed
        yield f"tests {how} fail it all", ran.status == 1 and ran.out.endswith(f"{whole} passed, 2 failed\n")


def a_gate_that_fails(repository: Repository) -> Iterator[Seen]:
    begin_test(repository)
    repository.write("low", "low is stuck")
    ran = repository.run("test")
    yield "no edit counts as refused", "the gate failed, so no edit counts as refused" in ran.out
    yield "there is no program to try", "there is no program" in ran.out and repository.calls("tests/run")[:-1] == []
    yield "each of them is a failure", ran.status == 1 and ran.out.endswith("10 passed, 3 failed\n")


def a_copy_for_the_gate(repository: Repository) -> Iterator[Seen]:
    begin_test(repository)
    put(repository.crates / "low/must-fail/one.edit", "file: src/lib.rt\n")
    put(repository.crates / "low/must-not-compile/two.edit", "file: src/lib.rt\n")
    put(repository.crates / "low/out/incremental/kept", "by a check")
    repository.run("test")
    seen = (repository.room / "gate").read_text().splitlines()
    yield "the gate sees the sources", "crates/low/src/lib.rt" in seen and "HANDLES" in seen
    yield "and no edit, and nothing that was built", not any("must-" in each or "/out" in each for each in seen)
    yield "the edits stay where they are", (repository.crates / "low/must-fail/one.edit").exists()
    yield "what was built is here", (repository.crates / "cpi/out/cpi").exists()
    yield "what a check keeps stays", (repository.crates / "low/out/incremental/kept").read_text() == "by a check"
    left = [each.name for each in (repository.room / "temporary").iterdir()]
    yield "no copy is left", left == []


def edits_beside_the_gate(repository: Repository) -> Iterator[Seen]:
    begin_test(repository)
    waits = repository.room / "calls/waits"
    put(waits, "")
    library = repository.crates / "low/out/rlib/low.rlib/format"
    lines = ["until [ -e out/proved/low ]; do sleep 0.1; done", f"cat '{library}'", f"rm '{waits}'"]
    lines += ["[ -e out/proved/.ended ] || echo the gate goes on", "echo 3 passed, 0 failed"]
    put(repository.top / "tools/refused", "\n".join(["#!/bin/sh", *lines, ""]), 0o755)
    repository.ship()
    ran = repository.run("test")
    seen = [line[len("refused edits | ") :] for line in ran.out.splitlines() if line.startswith("refused edits | ")]
    yield "the library of a crate is there once it is proved", seen[:2] == ["built", "the gate goes on"]
    yield "the gate ends after that", ran.status == 0 and (repository.out / "proved/.ended").exists()


def edits_beside_the_tests(repository: Repository) -> Iterator[Seen]:
    begin_test(repository)
    begun, last = repository.room / "calls/begun", "echo 3 passed, 0 failed"
    waits = f"n=0; until [ -e '{begun}' ] || [ $n = 300 ]; do sleep 0.1; n=$((n + 1)); done"
    put(repository.top / "tools/refused", "\n".join(["#!/bin/sh", f"touch '{begun}'", last, ""]), 0o755)
    tried = f"[ ! -e '{begun}' ] || echo the edits have begun"
    put(repository.top / "tests/run", "\n".join(["#!/bin/sh", waits, tried, last, ""]), 0o755)
    repository.ship()
    ran = repository.run("test")
    yield "they begin when the gate ends", "tests | the edits have begun" in ran.out.splitlines() and ran.status == 0


def which_goes_first(repository: Repository) -> Iterator[Seen]:
    """Field 19 of /proc/PID/stat is the niceness of a process."""
    begin_test(repository)
    own = os.getpriority(os.PRIO_PROCESS, 0)
    told = ["#!/bin/sh", "read -r fields < /proc/$$/stat", "set -- $fields", 'echo "niceness ${19}"']
    told += ["read -r group < /proc/$$/autogroup && echo ${group##*/*[0-9] }"] * Path("/proc/self/autogroup").exists()
    for path in ("tests/run", "tools/gate", "tools/refused"):
        put(repository.top / path, "\n".join([*told, "echo 1 passed, 0 failed", ""]), 0o755)
    repository.ship()
    lines = repository.run("test").out.splitlines()
    yield "the proofs go before the tests", f"tests | niceness {own + 5}" in lines and f"gate | niceness {own}" in lines
    yield "and before the edits", f"refused edits | niceness {own + 5}" in lines
    if Path("/proc/self/autogroup").exists():
        yield "so do their sessions", {"tests | nice 5", "refused edits | nice 5", "gate | nice 0"} <= {*lines}


def what_is_tried(repository: Repository) -> Iterator[Seen]:
    begin_test(repository)
    built, shipped = f"--program={repository.crates}/cpi/out/cpi", f"--program={repository.shipped}"
    repository.run("test", "--seed", "7")
    calls = repository.calls("tests/run")
    yield "without dist/ the tests run over what the gate built", calls[0].startswith(f"tests {built} ")
    yield "a short run, by the seed", "--seed=7" in calls[0] and "--long" not in calls[0]
    yield "at last dist/ is compared", calls[1:] == [f"tests/test_shipped_program.py {built} --seed=7"]
    repository.ship()
    repository.run("test", "--seed", "7", "--long", "--processes", "3")
    words = f"tests {shipped} --seed=7 -n 3 --long --coverage"
    yield "over dist/ if it was made of the sources at hand", repository.calls("tests/run")[0] == words
    repository.run("test")
    seeds = {call.partition("--seed=")[2].partition(" ")[0] for call in repository.calls("tests/run")}
    yield "a seed that is drawn is the same in all parts", len(seeds) == 1 and seeds.pop().isdecimal()
    repository.ship(sources="0")
    ran = repository.run("test")
    yield "not if it was made of others", repository.calls("tests/run")[0].startswith(f"tests {built} ")
    yield "a line says so", "made of other sources" in ran.out


def second_tries(repository: Repository) -> Iterator[Seen]:
    begin_test(repository)
    repository.stand_in("tests/run", "passed at its second try only: test_a.py::test_b\n10 passed, 0 failed")
    ran = repository.run("test")
    line = "passed at its second try only: test_a.py::test_b\n"
    yield "they are named beside the last line", ran.status == 0 and ran.out.endswith(
        f"{line}{PASSED} passed, 0 failed\n"
    )


def names_of_failures(repository: Repository) -> Iterator[Seen]:
    begin_test(repository)
    repository.stand_in("tests/run", "failed: test_a.py::test_b\n10 passed, 1 failed", 1)
    ran = repository.run("test")
    line = "failed: tests: test_a.py::test_b\n"
    yield "each is named beside the last line", ran.status == 1 and line in ran.out.partition("processor minutes:")[2]


def tests_broken_off(repository: Repository, number: int) -> Iterator[Seen]:
    begin_test(repository)
    repository.stand_in("tests/run", "sleeping", sleeps=60)
    running = repository.start("test", start_new_session=True)
    yield "the tests go on", within_seconds(lambda: repository.calls("tests/run", keep=True) != [])
    running.send_signal(number)
    running.communicate(timeout=20)
    yield "it ends", running.returncode == 130
    yield "so does what it began", within_seconds(lambda: not repository.is_sleeping())
    yield "nothing is shipped", "wasn't green" in repository.run("tools/dist").err


def green_tests_and_shipping(repository: Repository) -> Iterator[Seen]:
    begin_test(repository)
    ran = repository.run("test")
    yield "a green test names the kit", ran.status == 0 and ran.out.startswith(f"{KIT}\n")
    yield "its last line has all parts", ran.out.endswith(f"{PASSED} passed, 0 failed\n")
    minutes = [f"minutes: {each}: " in ran.out for each in ("low, proof", "gate", "refused edits", "tests")]
    yield "it prints the minutes of each part, and of each crate", all(minutes)
    table = ran.out.partition("processor minutes:\n")[2]
    yield "and a table of them", all(
        f"{each}: 0." in table for each in ("gate", "refused edits", "tests", "  low, proof")
    )
    yield "./cpi runs what it built", repository.run("cpi", "echo", "a b") == Ran(0, "a b\n", "")
    program = repository.crates / "cpi/out/cpi"
    built = program.read_bytes()
    wanted = {"sources": repository.sources(), "program": hashlib.sha256(built).hexdigest(), "kit": KIT}
    wanted["machine"] = os.uname().machine
    is_shipped = repository.run("tools/dist").status == 0
    yield "it is shipped, and MADE says what it is", is_shipped and repository.made.read_text().startswith(
        made_of(wanted)
    )
    needs = repository.made.read_text().splitlines()[-1]
    yield "and what it needs, each in its newest version", needs == "needs: libm.so.6, libc.so.6 GLIBC_2.34"
    yield "its notices lie next to it", (repository.top / "dist/THIRD-PARTY.md").read_text() == NOTICES
    yield "once more, nothing is written", "nothing was written" in repository.run("tools/dist").out
    put(repository.top / "THIRD-PARTY.md", f"{NOTICES}More.\n")
    is_written = "nothing was written" not in repository.run("tools/dist").out
    yield "other notices are", is_written and (
        repository.top / "dist/THIRD-PARTY.md"
    ).read_text() == f"{NOTICES}More.\n"
    program.write_bytes(built + b"more")
    yield "another program isn't shipped", "isn't the program" in repository.run("tools/dist").err
    repository.write("low", "low as it is")
    yield "nor one of other sources", "other sources" in repository.run("tools/dist").err
    repository.write("low", "low as it was")
    shutil.rmtree(repository.out / repository.sources())
    repository.told()
    yield "./cpi runs it where it lies", repository.run("cpi", "echo", "a b") == Ran(
        0, "a b\n", ""
    ) and repository.told() == []


def comparing(repository: Repository) -> Iterator[Seen]:
    """The program of dist/ is compared with what was built, by the tests as they are."""
    begin_test(repository)
    repository.run("test")
    built = (repository.crates / "cpi/out/cpi").read_bytes()
    repository.take_tests()

    def shipped() -> Ran:
        return repository.run(
            "tests/run",
            "tests/test_shipped_program.py",
            f"--program={repository.crates}/cpi/out/cpi",
            cwd=repository.top,
        )

    repository.ship(built)
    yield "the same program", shipped().status == 0 and repository.last.out.endswith("2 passed, 0 failed\n")
    repository.ship(built + b"more")
    yield "another program fails", shipped().status == 1 and repository.last.out.endswith("1 passed, 1 failed\n")
    repository.ship(built + b"more", kit="rattle-kit-1")
    yield "of another kit it isn't compared", shipped().status == 0 and "rattle-kit-1" in repository.last.out
    repository.ship(built + b"more", sources="0")
    yield "of other sources it isn't compared", shipped().status == 0 and "other sources" in repository.last.out
    repository.ship(built, program="0", sources="0")
    yield "one that MADE doesn't name fails", shipped().status == 1
    shutil.rmtree(repository.top / "dist")
    yield "there may be none", shipped().status == 0 and "no program to compare" in repository.last.out


def notices_of_libraries(repository: Repository) -> Iterator[Seen]:
    """Of a library that crates.txt names and doesn't make."""
    page, ended = repository.top / "THIRD-PARTY.md", "\n## Licenses\n"
    put(repository.top / "crates.txt", f"{CRATES}cpi_more: low far # a library far off\n")
    yield "none isn't shipped", repository.run("tools/dist").is_refused(
        "no entry for the crate far,", "under which license"
    )
    put(page, NOTICES.replace(ended, f"\n{NOTICE}{ended}"))
    yield "with one it goes on", repository.run("tools/dist").is_refused("wasn't green")
    parts = {
        "A port of far.\n": "paragraph",
        "- Copyright (c) 2020 Far\n": "line of copyright",
        "- License: MIT\n": "license",
    }
    for part, name in parts.items():
        put(page, NOTICES.replace(ended, f"\n{NOTICE.replace(part, '')}{ended}"))
        yield f"one with no {name} isn't shipped", repository.run("tools/dist").is_refused(
            f"THIRD-PARTY.md: far has no {name}\n"
        )
    put(page, NOTICES.replace(ended, f"\n{NOTICE.replace('MIT', 'ISC')}{ended}"))
    yield "nor one without the text of its license", repository.run("tools/dist").is_refused(
        "the text of the license ISC"
    )
    page.unlink()
    yield "nor without the page", repository.run("tools/dist").is_refused("there is no THIRD-PARTY.md")


CASES: dict[str, Callable[[Repository], Iterator[Seen]]] = {
    **{case.__name__: case for case in (parts_that_fail, a_gate_that_fails, a_copy_for_the_gate, what_is_tried)},
    **{
        case.__name__: case
        for case in (edits_beside_the_gate, edits_beside_the_tests, second_tries, green_tests_and_shipping, comparing)
    },
    **{case.__name__: case for case in (a_fresh_clone, sources_that_did_not_change, many_at_once, damage, lanes, sums)},
    **{case.__name__: case for case in (a_checkout_that_can_not_be_written, sources_that_changed, programs_of_no_use)},
    **{case.__name__: case for case in (proofs_that_fail, notices_of_libraries, names_of_failures, which_goes_first)},
    **{f"broken_off_by_{it.name}": partial(broken_off, number=it) for it in signal.Signals if it in (2, 9, 15)},
    **{
        f"tests_broken_off_by_{it.name}": partial(tests_broken_off, number=it) for it in signal.Signals if it in (2, 15)
    },
}


@pytest.mark.parametrize("name", CASES)
def test_of_a_small_repository(name: str) -> None:
    """Each case, in a repository of its own that another user can read."""
    os.umask(0o022)
    count = 0
    with tempfile.TemporaryDirectory() as room:
        os.chmod(room, 0o755)
        repository = Repository(Path(room))
        for check, is_right in CASES[name](repository):
            assert is_right, f"{check}; the last call: {repository.last}"
            count += 1
    assert count


def test_a_part_that_hangs_is_ended(tmp_path: Path, capsys: pytest.CaptureFixture[str]) -> None:
    """It fails, with all that it began; a part that ends by itself doesn't wait for the others."""
    mark = tmp_path / "goes on"
    with Parts(tmp_path / "minutes") as parts:
        slow = f"import time; open({str(mark)!r}, 'w'); time.sleep(60)"
        result = parts.run("slow", sys.executable, "-c", slow, hours=2 / 3600)
        assert (result.passed, result.failed) == (0, 1)
        assert parts.run("well", "echo", "1 passed, 0 failed") == Result(1, 0)
    assert mark.exists() and "slow: it goes on after 0 minutes, and is ended\n" in capsys.readouterr().out
    assert parts.total() == Result(1, 1)


def test_no_link_stands_in_the_repository() -> None:
    """But for what is built in it."""
    found: list[str] = []
    for folder, folders, names in os.walk(TOP):
        paths = [os.path.join(folder, name) for name in [*folders, *names]]
        found += [os.path.relpath(path, TOP) for path in paths if os.path.islink(path)]
        folders[:] = [name for name in folders if name not in (".git", "out")]
    assert not found, "put the file or folder itself there"


def test_notices_of_third_parties() -> None:
    """They are whole, and lie next to the program too."""
    ran = subprocess.run([TOP / "tools/notices.py"], capture_output=True, text=True, check=False)
    assert (ran.returncode, ran.stderr) == (0, "")
    if (TOP / "dist/MADE").exists():
        assert (TOP / "dist/THIRD-PARTY.md").read_bytes() == (TOP / "THIRD-PARTY.md").read_bytes()


def test_what_changed_since_the_last_release() -> None:
    """CHANGELOG.md says it. (This needs no git: a sum tells whether a source changed.)"""
    ran = subprocess.run([TOP / "tools/versions.py"], capture_output=True, text=True, check=False)
    assert (ran.returncode, ran.stderr) == (0, "")
