#!/usr/bin/env python3
"""Runs a command and prints how many processor minutes it took, user and system time, of all processors together.

    tools/minutes.py FILE NAME COMMAND..

The command's output passes through, and its exit status is this one's. FILE gets one line more: NAME, the processor
minutes, and those of the clock. Of the gate (tools/gate, or `rt ci`) it gets lines for each crate besides, and for each
kind of check: the proof, the proof of the tests, and, of a plain `rt ci`, the edits with the check that they begin from.
These are seen by looking every half second at which checks the command is running: a check names its crate, one in a
folder of edits is an edit's, and one of the tests says so in its words. What ends between two looks is counted up to the
last one, so they are a little short.

Standard error gets all of this as it ends, so that a run that is cut off says where it was: a kind of check of a crate
once none has been seen for half a minute (if more of it comes, that is printed with it). The minutes of the clock are
counted from the second TEST_BEGUN, if that is set.
"""

import os
import resource
import subprocess
import sys
import time
from collections.abc import Iterable
from contextlib import suppress
from pathlib import Path

TICKS = os.sysconf("SC_CLK_TCK")
QUIET = 30
BEGUN = float(os.environ.get("TEST_BEGUN") or time.time())
Kind = tuple[str, str]


def fields_of(process: str) -> list[str]:
    """What the system says of a process, from its parent on."""
    with open(f"/proc/{process}/stat", encoding="utf-8", errors="replace") as it:
        return it.read().rpartition(")")[2].split()[1:]


def is_below(process: str, top: int) -> bool:
    """Whether a process is `top`, or below it."""
    while int(process) > 1 and int(process) != top:
        process = fields_of(process)[0]
    return int(process) == top


def kind_of(process: str, top: int) -> Kind:
    """The crate of a check, and what it is for. A LookupError says that this process is no check of the command's."""
    with open(f"/proc/{process}/cmdline", "rb") as it:
        words = it.read().decode(errors="replace").split("\0")
    if os.path.basename(words[0]) != "rattle" or "--crate-name" not in words or not is_below(process, top):
        raise LookupError
    crate = words[words.index("--crate-name") + 1]
    if "/rt-edit-" in os.readlink(f"/proc/{process}/cwd"):
        return crate, "edits"
    return crate, "tests" if "--test" in words else "proof"


def seconds_of(process: str) -> float:
    """The processor seconds of a process so far."""
    fields = fields_of(process)
    return (int(fields[10]) + int(fields[11])) / TICKS


class Seen:
    """The checks that were seen: the seconds of each process, and when one of its kind was last there."""

    def __init__(self) -> None:
        self.seconds: dict[tuple[str, Kind], float] = {}
        self.running: dict[Kind, float] = {}

    def look(self, top: int) -> None:
        """Notes the seconds of the processor of each process below `top`."""
        for process in filter(str.isdigit, os.listdir("/proc")):
            try:
                kind = kind_of(process, top)
                self.seconds[process, kind] = max(self.seconds.get((process, kind), 0), seconds_of(process))
                self.running[kind] = time.time()
            except (OSError, ValueError, LookupError):
                # it is another one, or has ended meanwhile
                continue

    def minutes(self, kinds: Iterable[Kind]) -> float:
        """The minutes of the processor of some kinds."""
        return sum(value for (_, kind), value in self.seconds.items() if kind in kinds) / 60

    def tell_quiet(self, since: float) -> None:
        """Tells of the kinds of which none was seen since then."""
        for kind in [kind for kind, at in self.running.items() if at <= since]:
            del self.running[kind]
            tell(", ".join(kind), self.minutes([kind]))

    def lines(self) -> list[str]:
        """The lines of the report: sums first, then each kind."""
        kinds = sorted({kind for _, kind in self.seconds})
        sums = [(f"all, {of}", [kind for kind in kinds if kind[1] == of]) for of in ("proof", "tests", "edits")]
        sums += [(", ".join(kind), [kind]) for kind in kinds]
        return [f"  {name}: {self.minutes(of):.1f}\n" for name, of in sums]


def tell(name: str, minutes: float) -> None:
    """Prints the minutes of a part, and the minute since the beginning, on standard error."""
    at = (time.time() - BEGUN) / 60
    print(f"minutes: {name}: {minutes:.1f} (at minute {at:.0f})", file=sys.stderr, flush=True)


def let_others_go_first(niceness: int) -> None:
    """Raises the niceness of this process, which leads a session. Linux may share the processors among sessions first,
    which have a niceness of their own then (sched(7), the autogroup feature)."""
    os.nice(niceness)
    with suppress(OSError):
        Path("/proc/self/autogroup").write_text(str(niceness))


def main() -> int:
    if len(sys.argv) < 4:
        sys.exit(__doc__)
    if niceness := int(os.environ.pop("PART_NICENESS", "0")):
        let_others_go_first(niceness)
    file, name, command = sys.argv[1], sys.argv[2], sys.argv[3:]
    is_gate = os.path.basename(command[0]) in ("rt", "gate")
    seen, begun = Seen(), time.time()
    running = subprocess.Popen(command)
    while True:
        if is_gate:
            seen.look(running.pid)
            seen.tell_quiet(time.time() - QUIET)
        try:
            running.wait(0.5)
            break
        except subprocess.TimeoutExpired:
            continue
    seen.tell_quiet(time.time())
    used = resource.getrusage(resource.RUSAGE_CHILDREN)
    minutes = (used.ru_utime + used.ru_stime) / 60
    tell(name, minutes)
    clock = (time.time() - begun) / 60
    with open(file, "a", encoding="utf-8") as it:
        it.writelines([f"{name}: {minutes:.1f} ({clock:.1f} by the clock)\n", *(seen.lines() if is_gate else [])])
    return running.returncode if running.returncode >= 0 else 1


if __name__ == "__main__":
    sys.exit(main())
