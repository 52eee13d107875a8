"""`cpi-tools follow FILE DEST`: keeps a second copy of an office up to date while `cpi` serves.

Each round looks first whether the place was promoted. If it was, the file of this machine gets a mark next to it, so
`cpi-serve` doesn't start, and the follower ends. A round isn't carried if the office is damaged, or doesn't continue
the newest copy: then that copy contains what the office lost.
"""

from __future__ import annotations

import argparse
import contextlib
import re
import sys
import time
from pathlib import Path
from typing import Optional

from ..office.copying import PATIENCE
from ..text.terminal import Fault, Progress, ToolWords, at_least, because_of, write_count
from ..text.text_files import write_whole
from .copies.desk_copies import DeskFollower
from .copies.mirrors import NotCarried, Taken
from .copies.places import Place, kept_for_one, place_of
from .copies.second_copies import REFUSED, CopyNote, Promotion, State, second_text, write_refusal

EVERY = 20
"""Seconds from the beginning of a round to the beginning of the next one."""

TOLD_AGAIN = 3600
"""Seconds after which a fault that lasts has one more line."""

PROMOTED = 4
"""The exit status if the place was promoted."""

OF_ANOTHER = ("place", "identity")
"""The kinds of offices that aren't carried because the place is another's."""

NOT_CARRIED = 5
"""The exit status if the office is damaged, or doesn't go on from its copy."""


def mark_beside(office: Path) -> Path:
    """The file that says of an office's file that the copy of another machine was promoted: `office.db.promoted`."""
    return office.with_name(f"{office.name}.promoted")


def restoring_beside(office: Path) -> Path:
    """The file that says of an office's file that a restore isn't done: `office.db.restoring`. `cpi-serve` starts no
    office while it exists."""
    return office.with_name(f"{office.name}.restoring")


def mark_as_former(office: Path, promotion: Promotion) -> str:
    """Puts the mark next to an office's file; the mark's text. Raises OSError."""
    text = (
        f"{promotion.machine} was promoted {second_text(promotion.promoted)} with the copy of"
        f" {second_text(promotion.copied)} ({promotion.copied})"
    )
    write_whole(mark_beside(office), f"{text}\n".encode(), 0o644)
    return text


class Causes:
    """Why a copy isn't carried: each cause is reported once, and again each hour while it lasts."""

    def __init__(self) -> None:
        self._cause, self._said_at = "", 0.0

    @property
    def is_said(self) -> bool:
        """Whether a reported cause isn't over."""
        return bool(self._cause)

    def say(self, text: str, cause: str) -> None:
        """Says a text, unless it is of the same cause as the last one. (Other numbers make no other cause, such as how
        long rsync waited.)"""
        cause = re.sub(r"\d+", "0", cause)
        if cause != self._cause or time.monotonic() - self._said_at > TOLD_AGAIN:
            print(f"cpi-tools follow: {text}; it goes on to try", file=sys.stderr, flush=True)
            self._cause, self._said_at = cause, time.monotonic()

    def forget(self) -> None:
        """The cause is over."""
        self._cause = ""


class Follower:
    """A follower of an office's file, and its reports."""

    def __init__(
        self,
        office: Path,
        place: Place,
        patience: float = PATIENCE,
        is_anew: bool = False,
        desk: Optional[Path] = None,
    ):
        """`is_anew` lets the first round carry an office that doesn't go on from the copy; `desk` is the desk's folder,
        if rounds include it."""
        self._office, self._place, self._patience, self._is_anew = office, place, patience, is_anew
        self._has_told = False
        self._of_office = Causes()
        self._desk = DeskFollower(desk, place) if desk else None
        self._of_desk = Causes()

    def promotion(self) -> str:
        """The line to print if the place was promoted, and then the office's file is marked; else empty. Raises
        Fault."""
        promotion = self._place.state().promotion
        return mark_as_former(self._office, promotion) if promotion else ""

    def round(self) -> str:
        """Carries one copy; the line to print if the place was promoted. Raises Fault: NotCarried if the office is
        damaged or doesn't go on from its copy, which a probe sees too."""
        try:
            state = self._place.state()
            if state.promotion:
                return mark_as_former(self._office, state.promotion)
            try:
                note, taken = self._carry_copy(state)
            except NotCarried as fault:
                # (if its disk is full, a probe sees the age of the copy)
                with contextlib.suppress(OSError):
                    write_refusal(self._place.seen, str(fault))
                raise
            (self._place.seen / REFUSED).unlink(missing_ok=True)
        except OSError as fault:
            raise Fault(because_of(fault)) from fault
        self._is_anew = False
        if self._of_office.is_said or not self._has_told:
            size = write_count(note.file.size + note.log.size, "byte")
            print(
                f"{self._place.name}: copied {second_text(note.copied)}, {size}, {taken.written:,} of them new",
                flush=True,
            )
            self._of_office.forget()
            self._has_told = True
        return ""

    def desk_round(self) -> bool:
        """Carries the changes of the desk's folder, after a round of the office; whether its copy is up to date. A
        fault is reported, and never delays the office's rounds."""
        if not self._desk:
            return True
        try:
            said = self._desk.carry()
        except Fault as fault:
            self._of_desk.say(f"the desk's folder: {fault}", str(fault))
            return False
        self._of_desk.forget()
        if said:
            print(f"cpi-tools follow: {self._place.name}: {said}", file=sys.stderr, flush=True)
        return True

    def _carry_copy(self, state: State) -> tuple[CopyNote, Taken]:
        """The note of a round. Raises NotCarried with a line that names the office and the place, other Faults, and
        OSError."""
        if (whose := state.of_another(self._office)) and not self._is_anew:
            text = "empty it first, name another folder, or say --anew if this office goes on from that one"
            raise NotCarried("place", f"{self._place.name} has a copy of {whose}: {text}")
        try:
            return self._place.round(self._office, state, self._patience, self._is_anew)
        except NotCarried as fault:
            last = state.last()
            kept = f", which keeps its copy of {second_text(last.copied)}" if last else ""
            anew = "" if fault.kind == "damage" else " (--anew carries it all the same)"
            text = f"{self._office} isn't carried to {self._place.name}{kept}: {fault}{anew}"
            raise NotCarried(fault.kind, text) from fault

    def tell(self, fault: Fault) -> None:
        """Tells why a round wasn't carried. (The marks of an office that isn't carried change as it goes on.)"""
        self._of_office.say(str(fault), fault.kind if isinstance(fault, NotCarried) else str(fault))

    def keep(self, every: float) -> str:
        """Carries copy after copy until the place is promoted; the line to print then."""
        while True:
            begun = time.monotonic()
            try:
                if text := self.round():
                    return text
                self.desk_round()
            except Fault as fault:
                self.tell(fault)
                # (what happened to the office is no reason to lose its desk)
                if isinstance(fault, NotCarried) and fault.kind not in OF_ANOTHER:
                    self.desk_round()
            time.sleep(max(0.0, begun + every - time.monotonic()))


# ---- words

DESCRIPTION = """\
Keeps a second copy of an office's file at DEST while cpi serves. Each round copies the file and
its log as of one moment, and writes and carries only the pages that changed. It doesn't lock the
office, and writes nothing to it. DEST contains two copies, copy-1 and copy-2, which take turns:
one of them is whole at any time, whatever stops a round. Next to each, office.db.json contains its
checksums, its time, and the receipts of the last new quotes.

DEST is one of these:

    FOLDER                   an existing folder of this machine, for example on another disk
    [USER@]MACHINE:FOLDER    a folder of another machine, by rsync over ssh; if the key there runs
                             cpi-receive, a round carries the changed pages as one file
    rclone:REMOTE:FOLDER     a folder of a store that rclone knows; it carries whole files

Each copy records its office, the number of the office's rows, and the sum of its receipts; both
numbers only grow. Before a round counts, SQLite checks each page (quick_check). A round isn't
carried, and cpi-tools probe --copy is critical, if a page is damaged, if FILE is another office,
or if it would take back what the copy contains, for example after a backup was restored or a lost
file was created again. Both copies stay. If DEST is a FOLDER, what isn't carried is kept in
FOLDER/aside meanwhile. If the copy is the right one, promote it. If the present office is, carry
it once with --anew.

With --desk, the folder of the desk's pages is carried to DEST/desk after each round: its log, its
notes, and what waits there. Only changes are carried, and logs are only appended to. If a log
doesn't continue its copy, the copy stays, the folder is put next to it, and a line says so.
Another machine needs cpi-receive for that.

If a round fails, one line says so, and the next round tries again. If the copy at DEST was
promoted (cpi-tools promote), the follower puts FILE.promoted next to FILE, so that cpi-serve no
longer starts, and ends. The copies contain keys and prices: let nobody else read them.
"""

EPILOG = """\
example: cpi-tools follow office.db backup-machine:/var/lib/cpi-copy

exit status: 0 after --once or --ask; 1 if that failed, or another follower keeps DEST; 2 if the
arguments are refused; 4 if the copy at DEST was promoted; 5 if FILE isn't carried, because it is
damaged or would take back what the copy contains
"""


def add_words(tools: argparse._SubParsersAction[ToolWords]) -> None:
    """The tool `follow`."""
    words = tools.add_parser(
        "follow", help="Keep a second copy on another machine", description=DESCRIPTION, epilog=EPILOG
    )
    add = words.add_argument
    add("file", type=Path, metavar="FILE", help="the office's file, which is only read")
    add("dest", metavar="DEST", help="where the second copy is kept")
    add("--every", type=at_least(1), default=EVERY, metavar="SECONDS", help="how often to start a round (%(default)s)")
    how = words.add_mutually_exclusive_group()
    how.add_argument("--once", action="store_true", help="carry one copy, then end")
    how.add_argument("--ask", action="store_true", help="only ask whether the copy was promoted, then end")
    add("--anew", action="store_true", help="let the first round take back what the copy has, or carry another office")
    add("--desk", type=Path, metavar="FOLDER", help="also carry this folder of the desk's pages")
    add("--room", type=Path, metavar="FOLDER", help="if DEST is elsewhere: where rounds are prepared (FILE.follow)")
    add("--ssh", metavar="COMMAND", help="the program with which rsync reaches the other machine, and its arguments")
    add(
        "--patience",
        type=at_least(0),
        default=PATIENCE,
        metavar="SECONDS",
        help="how long a round waits for a period in which the log isn't emptied (%(default)s)",
    )
    words.set_defaults(run=run, tool="follow", words=words)


def _end_line(follower: Follower, chosen: argparse.Namespace) -> str:
    """Does what the arguments ask for; the line to print if the place was promoted."""
    if not chosen.ask and not chosen.once:
        return follower.keep(chosen.every)
    with Progress("cpi-tools follow") as progress:
        progress.now(f"asking {chosen.dest}" if chosen.ask else f"copying {chosen.file}")
        return follower.promotion() if chosen.ask else follower.round()


def _ended_desk(follower: Follower, chosen: argparse.Namespace) -> int:
    """The exit status after the rounds that were asked for: a round includes the desk's folder."""
    return 0 if chosen.ask or follower.desk_round() else 1


def run(chosen: argparse.Namespace) -> int:
    """Runs the tool by its words; its exit status."""
    room = chosen.room or chosen.file.with_name(f"{chosen.file.name}.follow")
    try:
        with kept_for_one(chosen.dest, room) if not chosen.ask else contextlib.nullcontext():
            place = place_of(chosen.dest, room, chosen.ssh)
            follower = Follower(chosen.file, place, chosen.patience, chosen.anew, chosen.desk)
            text = _end_line(follower, chosen)
            status = 0 if text else _ended_desk(follower, chosen)
    except NotCarried as fault:
        print(f"cpi-tools follow: {fault}", file=sys.stderr)
        return NOT_CARRIED
    except OSError as fault:
        raise Fault(because_of(fault)) from fault
    if text:
        print(f"cpi-tools follow: {text}: this office must not serve any more", file=sys.stderr)
        return PROMOTED
    return status
