"""Runs of the prover over copies of crates, with edits applied to them."""

from __future__ import annotations

import contextlib
import os
import shutil
import signal
import subprocess
import tempfile
import threading
import time
from collections.abc import Collection, Mapping, Sequence
from pathlib import Path
from typing import NamedTuple, Optional

from crates import below

from .edits import Edit, apply
from .report import KILLED, Report
from .slots import Slots
from .sources import Crate, name_module
from .stubs import find_faulty, stub_others


class Libraries(NamedTuple):
    """The toolchain's folder, a repository with built libraries, and by each crate the names of its libraries."""

    kit: Path
    top: Path
    uses: Mapping[str, Sequence[str]]

    def list_below(self, crate: str) -> list[str]:
        """The crates below one."""
        return below({name: list(use) for name, use in self.uses.items()}, crate)

    def path(self, name: str) -> Path:
        """The library of a crate, or one of the toolchain."""
        at = self.top / "crates" / name / "out/rlib" if name in self.uses else self.kit / "rlibs"
        return at / f"{name}.rlib"

    def format(self, name: str) -> Path:
        """The file of a crate's library that has the sums of all others."""
        return self.path(name) / "format"

    def list_missing(self, crate: str) -> list[str]:
        """The crates below this one whose libraries aren't built."""
        return [name for name in self.list_below(crate) if not self.format(name).is_file()]

    def list_words(self, crate: Crate) -> list[str]:
        """The words that say to `rattle check` what the crate is and where its libraries are, as `rt` says them."""
        words = ["--crate-name", crate.name, crate.find_root()]
        for name in ["std", *self.uses[crate.name]]:
            words += ["--extern", f"{name}={self.path(name)}"]
        for folder in [self.kit / "rlibs", *(self.path(name).parent for name in self.list_below(crate.name))]:
            words += ["-L", f"dependency={folder}"]
        words += ["--antt-project", f"{self.kit}/rattle/logic/antt-project.json"]
        words += ["--logic-built", f"{self.kit}/logic_built"]
        return [*words, "--links", f"{crate.name}=", "--jobs", "1"]


class Run(NamedTuple):
    """A run: its report, the processor seconds that it took, and the most memory, in gigabytes."""

    report: Report
    seconds: float
    memory: float


class Prover:
    """Runs the prover in a folder of its own, each run in a slot, and ends all its runs if it is told to."""

    def __init__(self, libraries: Libraries, room: Path, slots: Slots, logs: Optional[Path] = None) -> None:
        self.libraries, self.room, self.slots, self.logs = libraries, room, slots, logs
        self.runs: dict[str, list[Run]] = {}
        self.running: set[int] = set()
        self.starting = threading.Lock()

    def compile(self, crate: Crate, edit: Edit) -> Report:
        """Checks the functions that an edit changes, and the whole crate as far as the compiler reads it."""
        return self.check_with_stubs(crate, [edit], edit.names(), {item.name for item in crate.items})

    def check_functions(self, crate: Crate, edits: Sequence[Edit], names: Collection[str]) -> Report:
        """Checks a crate with these edits, but only the functions of these names; all others are stubs."""
        return self.check_with_stubs(crate, edits, names, set(names))

    def check_with_stubs(self, crate: Crate, edits: Sequence[Edit], names: Collection[str], whole: set[str]) -> Report:
        """Checks the functions of these names, in a crate with these edits in which all functions but those of `whole` are
        stubs. What it proves is kept for the next run over the crate, in a folder of the crate's own."""
        wanted = set(names)
        while True:
            texts = apply_all(crate, edits)
            stubs = stub_others(crate, whole, texts)
            more = [word for name in sorted(wanted) for word in ("--only", name)]
            kept = str(self.room / f"{crate.name}.kept")
            report = self.check(crate, edits, texts, ["--allow-holes", "--incremental", kept, *more])
            unknown, faulty = report.find_unknown(), find_faulty(stubs.values(), report.list_places())
            if unknown in wanted:
                # (of a method that a macro writes the prover knows another name: the module stands for it)
                wanted |= {
                    name_module(function.file)
                    for edit in edits
                    for function in edit.functions
                    if function.name == unknown
                }
                wanted.discard(unknown)
            elif faulty:
                whole = whole | faulty
            elif stubs and not report.is_verdict():
                # (so that no edit fails because of a stub)
                whole = whole | set(stubs)
            else:
                return report

    def check_all(self, crate: Crate, edit: Edit) -> Report:
        """Checks a whole crate with an edit, from nothing."""
        return self.check(crate, [edit], apply_all(crate, [edit]), [])

    def check(self, crate: Crate, edits: Sequence[Edit], texts: Mapping[str, str], more: Sequence[str]) -> Report:
        """Checks a copy of a crate with these texts, which the edits make. `more` are words for the prover."""
        with self.slots.take(), tempfile.TemporaryDirectory(dir=self.room) as folder:
            write_texts(texts, Path(folder))
            words = [f"{self.libraries.kit}/bin/rattle", "check", *self.libraries.list_words(crate), *more]
            run = self.run_twice_if_killed(words, folder)
        self.note(crate, edits, run)
        return run.report

    def run_twice_if_killed(self, words: Sequence[str], folder: str) -> Run:
        """A run, and another one if it was killed, since the machine had no memory left, say."""
        run = self.run(words, folder)
        if run.report.status != KILLED:
            return run
        again = self.run(words, folder)
        return again._replace(seconds=run.seconds + again.seconds, memory=max(run.memory, again.memory))

    def run(self, words: Sequence[str], folder: str) -> Run:
        """Starts the prover in a folder as a group of processes of its own, and waits for it."""
        with tempfile.TemporaryFile("w+", encoding="utf-8", errors="replace") as output:
            with self.starting:
                process = subprocess.Popen(
                    words, cwd=folder, stdin=subprocess.DEVNULL, stdout=output, stderr=subprocess.STDOUT,
                    start_new_session=True,
                )  # fmt: skip
                self.running.add(process.pid)
            _, status, used = os.wait4(process.pid, 0)
            self.running.discard(process.pid)
            # (so that nothing waits for it, or signals it, once more)
            process.returncode = os.WEXITSTATUS(status) if os.WIFEXITED(status) else -os.WTERMSIG(status)
            output.seek(0)
            lines = output.read().rstrip("\n").split("\n")
        return Run(Report(process.returncode, lines), used.ru_utime + used.ru_stime, used.ru_maxrss / 1e6)

    def note(self, crate: Crate, edits: Sequence[Edit], run: Run) -> None:
        """Keeps a run and prints a line of it; its lines go to the folder of logs."""
        runs = self.runs.setdefault(crate.name, [])
        runs.append(run)
        print(f"{crate.name}: a run with {len(edits)} edits: {run.seconds:.0f} s, {run.memory:.1f} GB", flush=True)
        if self.logs:
            names = [f"{edit.name}: {', '.join(sorted(edit.names()))}" for edit in edits]
            text = "\n".join([*names, *run.report.lines, ""])
            (self.logs / f"{crate.name}-{len(runs)}.txt").write_text(text, encoding="utf-8")

    def count_seconds(self, crate: str) -> float:
        """The processor seconds of all runs of a crate."""
        return sum(run.seconds for run in self.runs.get(crate, []))

    def stop(self) -> None:
        """Ends all runs, lets no other begin, and removes all copies. (No thread but the caller's goes on after it.)"""
        self.starting.acquire()
        for process in list(self.running):
            with contextlib.suppress(OSError):
                os.killpg(process, signal.SIGKILL)
        for _ in range(50):
            shutil.rmtree(self.room, ignore_errors=True)
            if not self.running and not self.room.exists():
                break
            time.sleep(0.1)


def apply_all(crate: Crate, edits: Sequence[Edit]) -> dict[str, str]:
    """The texts of a crate with these edits, which can be applied together."""
    texts = dict(crate.texts)
    for edit in edits:
        apply(edit.pairs, texts)
    return texts


def write_texts(texts: Mapping[str, str], folder: Path) -> None:
    """Writes texts to their paths below a folder."""
    for path, text in texts.items():
        (folder / path).parent.mkdir(parents=True, exist_ok=True)
        (folder / path).write_bytes(text.encode("utf-8"))
