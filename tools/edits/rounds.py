"""What becomes of each edit of a crate: tried with others first, and by itself if that says too little of it."""

from __future__ import annotations

from collections.abc import Sequence
from typing import NamedTuple

from .cache import Cache
from .edits import Edit
from .groups import group_edits
from .prover import Prover
from .report import Report, find_compiled, find_refusal, find_uncompiled, find_unread, find_unreadable, is_proved
from .sources import Crate

REFUSED, NOT_REFUSED, BAD_EDIT, NOT_TRIED = "refused", "NOT REFUSED", "BAD EDIT", "NOT TRIED"


UNREADABLE = "it can't be read, so no contract was tried"


class Verdict(NamedTuple):
    """What an edit came to, one of the four words above, and why."""

    word: str
    text: str


Verdicts = dict[str, Verdict]
"""By the name of an edit, what it came to."""


class Trial:
    """The edits of a crate, and what became of those that are tried so far."""

    def __init__(self, crate: Crate, edits: Sequence[Edit], prover: Prover, cache: Cache) -> None:
        self.crate, self.prover, self.cache = crate, prover, cache
        self.verdicts: Verdicts = {edit.name: Verdict(BAD_EDIT, edit.fault) for edit in edits if edit.fault}
        self.left = [edit for edit in edits if not edit.fault]
        self.single = {it.name for it in self.left if it.is_alone()}
        self.calls: dict[str, set[str]] = {}

    def take_kept(self) -> int:
        """Takes what an earlier run has refused; how many edits that are."""
        for edit in self.left:
            text = self.cache.find(edit)
            if text is not None:
                self.verdicts[edit.name] = Verdict(REFUSED, text)
        before = len(self.left)
        self.left = [it for it in self.left if it.name not in self.verdicts]
        return before - len(self.left)

    def next_group(self) -> list[Edit]:
        """The edits that are tried next: as many as can share a run, or one by itself. Those that the compiler must refuse
        come first, one by one."""
        if uncompiled := [it for it in self.left if it.code]:
            return uncompiled[:1]
        groups = group_edits(self.crate, [it for it in self.left if it.name not in self.single], self.calls)
        return groups[0] if groups else self.left[:1]

    def try_all(self) -> Verdicts:
        """Tries all edits, a group at a time. What a run says of calls decides which edits share the next one."""
        while self.left:
            group = self.next_group()
            if group[0].code:
                self.settle(group[0], self.try_to_compile(group[0]))
            else:
                self.try_group(group)
            self.left = [it for it in self.left if it.name not in self.verdicts]
        return self.verdicts

    def try_group(self, group: Sequence[Edit]) -> None:
        """Tries a group in one run, and by itself each of its edits that the run proves."""
        names = {name for edit in group for name in edit.names()}
        report = self.prover.check_functions(self.crate, group, names) if names else Report(0, [])
        decided = [self.decide(edit, report, len(group) == 1) for edit in group]
        for name, called in report.list_calls(self.crate.name).items():
            self.calls.setdefault(name, set()).update(called)
        if not any(decided):
            # (if the compiler stops at some of them, the others are tried together once more)
            self.single.update(edit.name for edit in find_unreadable(group, report) or group)

    def try_to_compile(self, edit: Edit) -> Verdict:
        """What the compiler says of an edit that it must refuse. If it takes the edit, the prover tries what changed."""
        report = self.prover.compile(self.crate, edit)
        if text := find_uncompiled(edit, report):
            return Verdict(REFUSED, text)
        if report.status not in (0, 1):
            return Verdict(NOT_TRIED, f"its check ended with status {report.status}: {report.find_last()}")
        return Verdict(NOT_REFUSED, find_compiled(edit, report))

    def decide(self, edit: Edit, report: Report, is_single: bool) -> bool:
        """Decides what an edit comes to, if a run over its group says enough of it; whether that is so."""
        if text := find_refusal(edit, report):
            self.settle(edit, Verdict(REFUSED, text))
        elif is_single and not report.has_verdict() and (text := find_unread(edit, report)):
            self.settle(edit, Verdict(BAD_EDIT, f"{UNREADABLE}: {text}"))
        elif is_single or is_proved(edit, report):
            self.settle(edit, self.try_alone(edit))
        return edit.name in self.verdicts

    def try_alone(self, edit: Edit) -> Verdict:
        """What a check of the whole crate, from nothing, says of an edit."""
        report = self.prover.check_all(self.crate, edit)
        if text := find_refusal(edit, report):
            return Verdict(REFUSED, text)
        if text := find_unread(edit, report):
            return Verdict(BAD_EDIT, f"{UNREADABLE}: {text}")
        if report.status == 0:
            return Verdict(NOT_REFUSED, "the crate is still proved with this edit")
        if report.has_verdict() and edit.is_alone():
            return Verdict(REFUSED, f"(at no function that it changes) {report.find_first_note()}")
        if report.has_verdict():
            return Verdict(NOT_REFUSED, f"no function that it changes is refused: {report.find_first_note()}")
        return Verdict(NOT_TRIED, f"its check ended with status {report.status}: {report.find_last()}")

    def settle(self, edit: Edit, verdict: Verdict) -> None:
        """Takes the verdict on an edit, and keeps that it is refused."""
        self.verdicts[edit.name] = verdict
        if verdict.word == REFUSED:
            self.cache.keep(edit, verdict.text)
