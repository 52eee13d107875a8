"""`cpi-tools keep DEST FOLDER`: keeps a generation of the second copy at DEST, once it has passed its drill.

Root opens the two copies, which belong to the user who gets them. Everything else is done by the user to whom FOLDER
belongs, in a process that can't become root again: the tool puts the newest whole copy into the repository, extracts it
again, and drills it. So neither the first machine's key nor the user of the copies can change what was kept, and a user
who may do nothing else reads the carried files. Root last writes next to the copies which generation passed.

The desk's folder is included. One that isn't whole keeps no generation of the office away: a line says it.
"""

from __future__ import annotations

import argparse
import contextlib
import fcntl
import shutil
import sys
import time
from collections.abc import Callable, Iterator
from functools import partial
from pathlib import Path
from typing import Any, NamedTuple

from ..office.access import done_as, user_of
from ..office.program import Cpi, add_program
from ..office.folders import new_room
from ..text.terminal import Fault, Progress, ToolWords, because_of, is_line, write_count
from .copies.borg import Repository
from .copies.generations import (
    CHECK_DAYS,
    FAILED,
    FILES,
    KEEP,
    KEEP_FAILED,
    KEPT,
    NEW,
    PASSED,
    Damaged,
    KeptDesk,
    LastDrill,
    OpenDesk,
    drilled_in,
    generation_of,
    is_generation,
    kept_desk_in,
    last_drill_of,
    open_desk,
    repository_of,
    take_desk,
    taken_generation,
    write_last_drill,
)
from .copies.second_copies import DESK, OFFICE, NotWhole, OpenCopy, Sum, open_copies, second_text, take_newest
from .drill import drill

FAILED_DRILL = 6
"""The exit status if the generation failed its drill."""

TRIES, PAUSE = 5, 3.0
"""So often a copy is tried that a round changes meanwhile, with so many seconds between."""

CHECK_SECONDS = 1800
"""So long a check of the repository may take: a promotion waits for it."""

DAY = 86_400

LOCK = "keep.lock"
"""The lock file of the only keeper that works in the folder."""


class Kept(NamedTuple):
    """The result of keeping: the note of the copy as it is next to the copies; whether it is a new generation; how many
    generations passed their drill; and a line for each earlier archive that was removed without a drill."""

    last: LastDrill
    is_new: bool
    passed: int
    removed: tuple[str, ...]


class Opened(NamedTuple):
    """The open files of a place: its copies and its desk's folder; the record of its generations, the moment in seconds
    since 1970 UTC, and whether it is the last try."""

    copies: list[OpenCopy]
    desk: OpenDesk
    last: LastDrill
    now: int
    is_last: bool


def keep(cpi: Cpi, dest: Path, folder: Path, clock: Callable[[], float] = time.time) -> Kept:
    """Keeps a generation of the newest whole copy at `dest` in a folder, unless the last one has the same bytes. Its drill
    may have failed then (`last.failed`). Raises Fault if none could be kept, which is written next to the copies too.
    """
    last = last_drill_of(dest) or LastDrill()
    try:
        owner, now = user_of(folder.stat().st_uid), int(clock())
        for turn in range(1, TRIES + 1):
            with open_copies(dest) as copies, open_desk(dest) as desk:
                opened = Opened(copies, desk, last, now, turn == TRIES)
                answer = done_as(owner, partial(_answer, cpi, opened, folder))
            if not answer["again"]:
                break
            if opened.is_last:
                raise Fault(str(answer["again"]))
            time.sleep(PAUSE)
        kept = _kept_in(answer, last, now)
        write_last_drill(dest, kept.last)
    except (Fault, OSError) as error:
        fault = error if isinstance(error, Fault) else Fault(because_of(error))
        # (if that can't be written, a probe sees the age)
        with contextlib.suppress(OSError):
            write_last_drill(dest, last._replace(fault=str(fault)))
        raise fault from error
    return kept


def _kept_in(answer: dict[str, Any], last: LastDrill, now: int) -> Kept:
    """The answer of another user's process. A copy of the future would never be old, so it is of now. Raises Fault if
    that process can't have written it."""
    name, failed, left, desk, damaged = (
        str(answer[part]) for part in ("generation", "failed", "left", "desk", "damaged")
    )
    removed = tuple(map(str, answer["removed"]))
    if not is_generation(name) or not is_line("".join((failed, left, desk, damaged, *removed))):
        raise Fault("what the user of the generations answered isn't of a generation")
    # (a moment of the future would never be old, and one before 1970 isn't read)
    checked, tried = (moment if 0 <= moment <= now else 0 for moment in (int(answer["checked"]), int(answer["tried"])))
    checks: dict[str, Any] = {"checked": checked, "tried": tried, "damaged": damaged}
    if failed:
        last = last._replace(failed=f"{name}: {failed}", fault=left, **checks)
        return Kept(last, True, int(answer["passed"]), removed)
    file, log = (Sum(int(size), str(of)) for size, of in (answer["file"], answer["log"]))
    copied = max(0, min(int(answer["copied"]), now))
    kept = LastDrill(name, copied, file, log, fault=left, desk=desk, **checks)
    return Kept(kept, bool(answer["is_new"]), int(answer["passed"]), removed)


# ---- by the user of the folder


def _answer(cpi: Cpi, opened: Opened, folder: Path) -> dict[str, Any]:
    """Keeps a generation; its record. `again` says why no copy was whole at this moment. Raises Fault and OSError."""
    with _kept_by_one(folder), new_room(".cpi-keep-", folder) as room:
        try:
            taken = room / "taken"
            taken.mkdir()
            note, desk = take_newest(opened.copies, taken), take_desk(opened.desk, taken)
        except NotWhole as fault:
            return {"again": str(fault)}
        if desk.fault and not opened.is_last:
            return {"again": desk.fault}
        repository, last = _repository(folder, opened.last), opened.last
        names = repository.names()
        removed = _remove_unfinished(repository, names)
        same = (last.file, last.log, last.desk) == (note.file, note.log, desk.sum)
        same = same and last.generation in drilled_in(names)
        name = last.generation if same else generation_of(opened.now)
        failed = "" if same else _drilled_anew(cpi, repository, name, opened.now, room, desk)
        faults = [desk.fault, "" if same else _prune(repository, bool(failed))]
        passed = len(drilled_in(names if same else repository.names()))
        checks = _check_repository(repository, opened, faults, is_made=not names)
        left = "; ".join(fault for fault in faults if fault)
        answer = {"again": "", "generation": name, "is_new": not same, "failed": failed, "left": left, "passed": passed}
        answer.update(checks, removed=removed, desk=desk.sum)
        return {**answer, "copied": note.copied, "file": note.file, "log": note.log}


def _check_repository(repository: Repository, opened: Opened, faults: list[str], is_made: bool) -> dict[str, Any]:
    """Checks a repository if the last check is some days old, or a day if that check found a fault or wasn't done; the
    record of checks then. If it can't be done, the reason is one more fault. A repository made now was just drilled as
    a whole."""
    last, now = opened.last, opened.now
    known = {"checked": last.checked, "tried": last.tried, "damaged": last.damaged}
    if is_made:
        return {"checked": now, "tried": now, "damaged": ""}
    is_well = last.checked == last.tried and not last.damaged
    if last.tried <= now < last.tried + (CHECK_DAYS * DAY if is_well else DAY):
        return known
    known["tried"] = now
    try:
        known["damaged"] = repository.damage(CHECK_SECONDS)
        known["checked"] = last.checked if known["damaged"] else now
    except Fault as fault:
        faults.append(str(fault))
    return known


@contextlib.contextmanager
def _kept_by_one(folder: Path) -> Iterator[None]:
    """Meanwhile no other keeper works in a folder. Raises Fault if one does, and OSError."""
    with (folder / LOCK).open("a", encoding="ascii") as lock:
        try:
            fcntl.flock(lock, fcntl.LOCK_EX | fcntl.LOCK_NB)
        except BlockingIOError as fault:
            raise Fault(f"another cpi-tools keep works in {folder}") from fault
        yield


def _repository(folder: Path, last: LastDrill) -> Repository:
    """The repository of a folder, which is made the first time. Raises Fault if it is gone, and OSError."""
    repository = repository_of(folder)
    if not repository.is_there():
        if last.generation:
            raise Fault(
                f"{repository.path} isn't there any more, and {last.generation} was kept in it: is its disk mounted?"
            )
        repository.make()
    return repository


def _remove_unfinished(repository: Repository, names: list[str]) -> list[str]:
    """Removes archives that a stopped keeper made and didn't drill; a line for each."""
    left = [name for name in names if name.startswith(NEW)]
    if left:
        repository.remove(left)
    return [f"{name} is removed, since a run was stopped before its drill" for name in left]


def _drilled_anew(cpi: Cpi, repository: Repository, name: str, now: int, room: Path, desk: KeptDesk) -> str:
    """Puts the files of a room into a repository, takes them out again, and drills them; why it failed, empty if it
    passed. Raises Fault and OSError."""
    taken = room / "taken"
    repository.put(f"{NEW}{name}", now, taken, [*FILES, *([DESK] if (taken / DESK).is_dir() else [])])
    shutil.rmtree(taken)
    failed = _fault_of(cpi, repository, f"{NEW}{name}", room / "back", desk)
    repository.rename(f"{NEW}{name}", f"{FAILED if failed else PASSED}{name}")
    return failed


def _prune(repository: Repository, is_failed: bool) -> str:
    """Removes older generations if the new one passed its drill, and otherwise older ones that failed; why it couldn't,
    or nothing: the new one is kept all the same."""
    try:
        repository.prune(*((FAILED, KEEP_FAILED) if is_failed else (PASSED, KEEP)))
    except Fault as fault:
        return f"older generations couldn't be removed: {fault}"
    return ""


def _fault_of(cpi: Cpi, repository: Repository, archive: str, back: Path, desk: KeptDesk) -> str:
    """Takes an archive out to a new folder and drills it; the first fault, empty if nothing is wrong. Raises Fault if it
    can't be taken out or drilled, and OSError."""
    back.mkdir()
    try:
        taken_generation(repository, archive, back)
    except Damaged as fault:
        return str(fault)
    if kept_desk_in(back).sum != desk.sum:
        return "it isn't whole: its desk's folder isn't the one that was put in"
    faults = drill(cpi, back / OFFICE).faults
    return faults[0] if faults else ""


# ---- words

DESCRIPTION = """\
Keeps generations of the second copy that cpi-tools follow keeps in the folder DEST. The newest
whole copy goes into a borg repository in FOLDER, is taken out of it again, and is drilled. It
counts only if it passes. Then older generations are removed: 24 hourly, 31 daily and 12 monthly
ones stay. A copy with the same bytes as the last generation doesn't make a new one. cpi-tools
promote --generation promotes a generation.

If DEST contains the desk's folder, so does the generation. Once a week the whole repository is
checked.

FOLDER belongs to a user of its own, whom the machine that carries to DEST can't reach. Root runs
this tool: it opens the copies, and writes DEST/drilled.json, which cpi-tools probe --copy reads on
both machines. FOLDER's user does everything else. Besides the generations, its disk needs room for
a copy and 600 MB for borg, and the folder for temporary files needs room for a copy.

cpi-keep.timer runs the tool every hour. The first run creates the repository; if it is gone later,
that is a fault.
"""

EPILOG = """\
example: cpi-tools keep /var/lib/cpi-copy/office /var/lib/cpi-keep

exit status: 0 if the newest copy is a generation that passed its drill; 1 if none was kept, or if
older ones couldn't be removed, the desk's folder isn't whole, or the repository is damaged (one
line says which); 2 if the arguments are refused; 6 if the copy failed its drill: it is kept aside
and doesn't count
"""


def add_words(tools: argparse._SubParsersAction[ToolWords]) -> None:
    """The tool `keep`."""
    words = tools.add_parser(
        "keep",
        help="Keep generations of a second copy that passed a drill",
        description=DESCRIPTION,
        epilog=EPILOG,
    )
    words.add_argument("dest", type=Path, metavar="DEST", help="the folder with the two copies")
    words.add_argument("folder", type=Path, metavar="FOLDER", help=f"the folder for the generations, such as {KEPT}")
    add_program(words)
    words.set_defaults(run=run, tool="keep", words=words)


def run(chosen: argparse.Namespace) -> int:
    """Runs the tool by its words; its exit status."""
    with Progress("cpi-tools keep") as progress:
        progress.now(f"keeping a generation of {chosen.dest}")
        kept = keep(Cpi(chosen.program), chosen.dest, chosen.folder)
    for line in kept.removed:
        print(f"{chosen.folder}: {line}")
    count = write_count(kept.passed, "generation")
    damaged = f"the repository is damaged: {kept.last.damaged}" if kept.last.damaged else ""
    for fault in filter(None, (kept.last.fault, damaged)):
        print(f"cpi-tools keep: {chosen.folder}: {fault}", file=sys.stderr)
    if kept.last.failed:
        print(f"cpi-tools keep: {chosen.folder}: {_failed_text(kept.last)}; {count} stay", file=sys.stderr)
        return FAILED_DRILL
    state = "passed its drill" if kept.is_new else "has the bytes of the newest copy"
    print(f"{chosen.folder}: {kept.last.generation} {state}, copied {second_text(kept.last.copied)}; {count}")
    return 1 if kept.last.fault or damaged else 0


def _failed_text(last: LastDrill) -> str:
    """The line on a generation that failed its drill."""
    name, _, fault = last.failed.partition(": ")
    return f"{name} failed its drill and doesn't count: {fault}"
