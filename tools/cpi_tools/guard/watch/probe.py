"""`cpi-tools probe`: whether an office answers, takes writes, publishes in time, and is backed up; for Nagios, or for
Prometheus.

It asks for the list of published tables, as the public does, so it bears no key. Its arguments name the other things
that it checks: files, the journal, a certificate, the machine's clock. A part that can't be checked is reported, and
hides no other.
"""

from __future__ import annotations

import argparse
import shutil
import sys
import time
import urllib.parse
from collections.abc import Callable
from pathlib import Path
from typing import Optional, TypeVar

from ...office.stored import Window
from ...text.terminal import Fault, ToolWords, at_least
from ..copies.generations import LastDrill, last_drill_of
from ..next_open import next_open
from .probe_looks import (
    OK,
    Answer,
    Backups,
    Levels,
    ask_tables,
    backups_of,
    calendar_of,
    certificate_at,
    files_of,
    late_months,
    levels,
    levels_of_rest,
    machine_clock,
    place,
    second_copy_of,
    trusting,
)
from .serve_log import Journal, OutputFile, Said, connections_left, writes_of
from .probe_output import Seen, judge_office, nagios_line, prometheus_text

UNIT = "cpi.service"
"""The unit of the package."""

Found = TypeVar("Found")


class Looks:
    """Runs checks one after the other, each of which may fail without the others: `faults` has a line for each that
    did."""

    def __init__(self) -> None:
        self.faults = list[str]()

    def at(self, look: Callable[..., Found], *of: object) -> Optional[Found]:
        """The result of a check; None, and a fault, if it can't be done."""
        try:
            return look(*of)
        except Fault as fault:
            self.faults += [str(fault)] if str(fault) not in self.faults else []
            return None


def look(chosen: argparse.Namespace, now: int) -> Seen:
    """Looks at everything that was named."""
    looks = Looks()
    # (first, so that no copy is made between the moment and this look)
    second = looks.at(second_copy_of, chosen.copy) if chosen.copy else None
    answer, fault = _answer(chosen, looks)
    backups = looks.at(backups_of, chosen.backups) if chosen.backups else None
    last_drill = looks.at(last_drill_of, chosen.copy) if chosen.copy else None
    said = looks.at(said_by, chosen)
    return Seen(
        now,
        answer=answer,
        fault=fault,
        files=looks.at(files_of, chosen.file) if chosen.file else None,
        backups=backups,
        second=second,
        last_drill=last_drill,
        late=looks.at(_late, answer, backups, chosen.file, now) if answer else None,
        writes=looks.at(writes_of, chosen.file, said) if said else None,
        left=looks.at(connections_left, said) if said else None,
        next_open=looks.at(next_open, chosen.file, unit_of(chosen)) if chosen.file else None,
        certificate=looks.at(certificate_at, chosen.certificate, chosen.timeout) if chosen.certificate else None,
        clock=looks.at(machine_clock) if chosen.clock else None,
        unseen=tuple(looks.faults),
        unnamed=find_unnamed(chosen, last_drill),
    )


def _answer(chosen: argparse.Namespace, looks: Looks) -> tuple[Optional[Answer], str]:
    """The office's answer, or why there is none. An authority that can't be read says nothing of the office."""
    trusted = looks.at(trusting, chosen.authority)
    if trusted is None:
        return None, ""
    try:
        return ask_tables(chosen.url, chosen.timeout, trusted), ""
    except Fault as cause:
        return None, str(cause)


def _late(answer: Answer, backups: Optional[Backups], file: Optional[Path], now: int) -> Optional[tuple[Window, ...]]:
    """The months that are late, if a calendar is at hand."""
    calendar = calendar_of(backups.last if backups else None, file)
    return None if calendar is None else late_months(calendar, answer.tables, now)


def unit_of(chosen: argparse.Namespace) -> Optional[str]:
    """The unit that serves the office; None if it isn't a unit of systemd."""
    if chosen.output or not shutil.which("systemctl"):
        return None
    return chosen.unit or UNIT


def said_by(chosen: argparse.Namespace) -> Optional[Said]:
    """The place of the office's lines; None if nothing says which office it is. Raises Fault if they aren't known to be
    anywhere."""
    if chosen.output:
        return OutputFile(chosen.output)
    if chosen.unit:
        return Journal(chosen.unit)
    if not chosen.file:
        return None
    try:
        journal = Journal(UNIT)
        journal.last("^cpi: ")
        return journal
    except Fault as fault:
        raise Fault(
            f"whether writes succeed can't be known: {fault} (--unit or --output names another place)"
        ) from fault


def find_unnamed(chosen: argparse.Namespace, last_drill: Optional[LastDrill] = None) -> tuple[str, ...]:
    """The parts that weren't named, or that nobody keeps."""
    parts = {
        "the file": chosen.file,
        "writes": chosen.file or chosen.unit or chosen.output,
        "backups": chosen.backups,
        "the second copy": chosen.copy,
        "generations": last_drill or not chosen.copy,
        "the certificate": chosen.certificate,
        "the clock": chosen.clock,
    }
    return tuple(name for name, named in parts.items() if not named)


# ---- words

DESCRIPTION = """\
Asks an office for its published tables, as anybody may, and checks the parts that the arguments
name. It uses no key. Each probe is one of the connections after which `cpi serve` ends. The output
names a part that can't be checked, and still shows the others. The status is that of the worst
part; a part that can't be checked counts less than a warning. If all is well, the line lists the
parts that weren't named.

Late tables: there must be a table for each month of the calendar whose release time has come. The
calendar is that of the last backup, or else of a copy of FILE.

Writes: while a disk refuses every write, `cpi serve` still answers readers. It says on standard
error when it opens its file again after a failed request. The probe takes the last such line from
the journal of UNIT, or from the file to which the output of `cpi serve` was appended. Then it
reads from the office's log and file whether a write succeeded after that line. If none did, that
is critical; if one did, it is a warning for some hours (--refused). With --file, but without a
journal of UNIT and without --output, nobody can know whether writes succeed: status 3.

Second copy: --copy names DEST of cpi-tools follow if that is a folder of this machine, or else the
follower's room, which contains the note of the last copy carried. A copy or backup with a time
ahead of this machine's clock is a warning. If cpi-tools keep keeps generations of the copy, the
probe also checks the age of the last one that passed its drill (--drilled), and of the last check
of their repository (--checked). A generation that failed its drill is critical until another one
passes, and so is a damaged repository. Any other fault of cpi-tools keep is a warning.

Connections: the same lines say when few connections are left before `cpi serve` ends.

The next open: a running office doesn't show how much memory and time its next start takes, which
grow with the rows of FILE. The probe reads their number, and compares the memory and time of an
open (as bench/files measures them) with what UNIT and this machine allow (--open). A start that is
killed while it opens the file is tried again and again, and meanwhile nobody gets an answer.
"""

EPILOG = """\
W,C are two levels: from the first on it is a warning, and from the second on it is critical.

example: cpi-tools probe --file office.db --output serve.log --backups backup

exit status, as in Nagios: 0 if all is well, 1 for a warning, 2 if something is critical, 3 if a
part that was named can't be checked and no other is worse, or if the arguments are refused; with
--prometheus, 0 once the figures are written, with a line on standard error for each part that
can't be checked
"""


def address(text: str) -> str:
    """A type of argparse: a URL of http or https."""
    try:
        at = urllib.parse.urlsplit(text)
        is_one = at.scheme in ("http", "https") and bool(at.hostname) and at.port != 0
    except ValueError:
        is_one = False
    if not is_one or at.query or at.fragment or at.username:
        raise argparse.ArgumentTypeError(f"{text} is no address like http://127.0.0.1:8080")
    return text


LEVELS = (
    ("slow", Levels(2000, 10_000), "milliseconds until the answer"),
    ("late", Levels(0, 24), "hours since a release time without a table"),
    ("log", Levels(64, 512), "size of the log in MiB"),
    ("free", Levels(1024, 256), "MiB left on the disk, or fewer"),
    ("age", Levels(26, 50), "hours since the last backup"),
    ("copied", Levels(120, 600), "seconds since the second copy was made"),
    ("drilled", Levels(3, 26), "hours since a copy last became a generation and passed its drill"),
    ("checked", Levels(15, 45), "days since the generations' repository was last found whole"),
    ("open", Levels(50, 80), "percent of the allowed memory and time that the next open takes"),
    ("left", Levels(10_000, 1000), "connections left before the limit, or fewer"),
    ("days", Levels(21, 7), "days until the certificate expires, or fewer"),
)


def add_words(tools: argparse._SubParsersAction[ToolWords]) -> None:
    """The tool `probe`."""
    words = tools.add_parser(
        "probe",
        help="Check whether an office answers, can write, publishes on time, and is backed up",
        description=DESCRIPTION,
        epilog=EPILOG,
    )
    add = words.add_argument
    add("--url", type=address, default="http://127.0.0.1:8080", help="the office's address (%(default)s)")
    add("--authority", type=Path, metavar="FILE", help="certificates to trust in addition to the system's")
    add("--timeout", type=at_least(1), default=20, metavar="SECONDS", help="how long to wait (%(default)s)")
    add("--file", type=Path, metavar="FILE", help="the office's file: check its writes, its size, its log and its disk")
    from_where = words.add_mutually_exclusive_group()
    from_where.add_argument("--unit", metavar="UNIT", help=f"the unit that serves the office (with --file {UNIT})")
    from_where.add_argument(
        "--output", type=Path, metavar="FILE", help="the file to which all output of cpi serve is appended"
    )
    add(
        "--backups", type=Path, metavar="FOLDER", help="where backups are: check the age of the last, and failed drills"
    )
    add("--copy", type=Path, metavar="FOLDER", help="where cpi-tools follow keeps a copy, or its room: check its age")
    add("--certificate", type=place, metavar="FILE|HOST:PORT", help="the front's certificate: check when it expires")
    add("--clock", action="store_true", help="check that this machine's clock is synchronized (else a warning)")
    add("--prometheus", action="store_true", help="write all figures in the format of Prometheus")
    for name, default, about in LEVELS:
        kind = levels if default.warning < default.critical else levels_of_rest
        add(f"--{name}", type=kind, default=default, metavar="W,C", help=f"{about} ({default[0]},{default[1]})")
    about = "how long a failed request is a warning if a later write succeeded (%(default)s)"
    add("--refused", type=at_least(0), default=24, metavar="HOURS", help=about)
    words.status_of_error = 3
    words.set_defaults(run=run, tool="probe", words=words)


def run(chosen: argparse.Namespace, clock: Callable[[], float] = time.time) -> int:
    """Runs the tool by its words; its exit status."""
    seen = look(chosen, int(clock()))
    office = judge_office(seen, chosen)
    if not chosen.prometheus:
        print(nagios_line(seen, office))
        return office.state
    for fault in seen.unseen:
        print(f"cpi-tools probe: {fault}", file=sys.stderr)
    sys.stdout.write(prometheus_text(seen, office))
    return OK
