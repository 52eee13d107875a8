"""What the prover prints of a crate with edits: which functions aren't proved, and at which goals.

It prints `fn NAME: proved`, or why not, for each function. A goal that is open has a line `note: src/FILE:LINE:COLUMN:
it is not proved that ..`. A proof that it doesn't take has `proofs/FUNCTION/FILE:LINE:COLUMN: error: ..`, and a lemma
`proofs/FILE:LINE:COLUMN: error: ..`.
"""

from __future__ import annotations

import re
from collections.abc import Sequence
from typing import NamedTuple

from .edits import Edit

GOAL = re.compile(r"note: (src/\S+?):(\d+):\d+: it is not proved that .*?\(`([^`]*)`\)")
PROOF = re.compile(r"(?:\./)?(proofs/(\S+)/[^/]+\.antt:\d+):\d+: error: `([^`]*)`: (.*)")
PROOF_FILE = re.compile(r"proofs/[^\s:`]+\.antt")
LEMMA = re.compile(r"(?:\./)?(proofs/\S+\.antt:\d+):\d+: error: `([^`]*)`: (.*)")
FUNCTION = re.compile(r"fn \w+::(\S+): (.*)")
FOLLOWS = re.compile(r"was not admitted|was rejected|were not checked")
"""What is said of a proof that only cites another one which isn't taken."""

GONE = re.compile(r"has no field|is not in scope|has no `")
"""What is said of a proof that names what an edit took away."""

ERROR = re.compile(
    r"(?:\./)?(?P<file>\S+?):(?P<line>\d+):\d+: error(?P<code>\[[\w-]+\])?: (?P<name>`[^`]*`: )?(?P<what>.*)"
)
UNREAD = re.compile(r"is not in scope|has no field|is no name|operand is missing|expected the end|cannot continue")
"""What is said of a declaration that can't be read. One that is only false reads well."""

UNKNOWN = re.compile(r"has no function `([^`]*)`")
PROVED = ("proved", "no holes", "depends on a hole in")
"""What is said of a function that is proved, if the functions are that it calls."""

PLACED = re.compile(r"(note: )?\S+:\d+:\d+:")
LITTLE = "(little: a proof file names what the edit took away)"
NOTHING_REFUSED, REFUSED, NOT_CALLED_WELL = 0, 1, 2
KILLED = -9


class Report(NamedTuple):
    """The exit status of a run of the prover (below 0: the signal that ended it), and the lines that it printed."""

    status: int
    lines: Sequence[str]

    def find_last(self) -> str:
        """The beginning of the last line; nothing if there is none."""
        return self.lines[-1][:200] if self.lines else ""

    def find_first_note(self) -> str:
        """The first line that says something of a place."""
        return next((line[:200] for line in self.lines if PLACED.match(line)), self.find_last())

    def has_verdict(self) -> bool:
        """Whether the prover came to its end and doesn't prove all that it was asked for."""
        return self.status == REFUSED and self.find_last().startswith(("only=", "logic=not-proved"))

    def is_verdict(self) -> bool:
        """Whether the prover came to its end, or was killed."""
        return self.status in (NOTHING_REFUSED, KILLED) or self.has_verdict()

    def list_functions(self) -> dict[str, str]:
        """What is said of each function, by its name without the crate."""
        return {match[1]: match[2] for match in map(FUNCTION.match, self.lines) if match}

    def find_unknown(self) -> str:
        """The name that the prover doesn't know, or ``."""
        match = UNKNOWN.search("\n".join(self.lines)) if self.status == NOT_CALLED_WELL else None
        return match[1] if match else ""

    def list_places(self) -> set[tuple[str, int]]:
        """The file and the line of each error; line 0 of a file of proofs that an error only names."""
        placed = {(match["file"], int(match["line"])) for match in map(ERROR.match, self.lines) if match}
        return placed | {(path, 0) for line in self.lines if "error" in line for path in PROOF_FILE.findall(line)}

    def list_calls(self, crate: str) -> dict[str, set[str]]:
        """By the name of each function that isn't proved, the functions of the crate that it calls and that aren't."""
        called = {name: said.partition("it calls ")[2] for name, said in self.list_functions().items()}
        return {name: set(re.findall(rf"`{crate}::([^`]*)`", text)) for name, text in called.items() if text}


def find_refusal(edit: Edit, report: Report) -> str:
    """The function that an edit changes and that a run refuses, with the place and the goal: `FUNCTION, FILE:LINE,
    GOAL`. It is `` if no note stands at such a function. Of an edit of definitions a lemma counts, wherever it is."""
    if not report.has_verdict():
        return ""
    said = report.list_functions().items()
    unproved = {
        edit.find_function_named(name) for name, what in said if what.startswith(("not proved", "no proof"))
    } - {""}
    weak = ""
    for line in report.lines:
        if goal := GOAL.match(line):
            name = edit.find_function_at(goal[1], int(goal[2]))
            if name in unproved:
                return f"{name}, {goal[1]}:{goal[2]}, {goal[3]}"
        elif (proof := PROOF.match(line)) and not FOLLOWS.search(proof[4]):
            name = edit.find_function_named(proof[2].replace("/", "::"))
            if name in unproved and not GONE.search(proof[4]):
                return f"{name}, {proof[1]}, {proof[3]}"
            if name in unproved:
                weak = weak or f"{name}, {proof[1]}, {proof[3]} {LITTLE}"
    lemma = find_lemma(report) if unproved and edit.is_of_definitions() else ""
    return f"{min(unproved)}, {lemma}" if lemma else weak


def find_lemma(report: Report) -> str:
    """The first lemma that a run refuses for what it says itself: `FILE:LINE, LEMMA`; or ``."""
    lemmas = [
        match
        for match in map(LEMMA.match, report.lines)
        if match and not (FOLLOWS.search(match[3]) or GONE.search(match[3]))
    ]
    return f"{lemmas[0][1]}, {lemmas[0][2]}" if lemmas else ""


def is_proved(edit: Edit, report: Report) -> bool:
    """Whether a run proves each function that an edit changes."""
    functions = report.list_functions()
    return bool(edit.names()) and all(functions.get(name, "").startswith(PROVED) for name in edit.names())


def find_unread(edit: Edit, report: Report) -> str:
    """The line by which the compiler or the prover says that it can't read a file of an edit, or ``."""
    return next((match.string[:200] for match in list_unread(report) if match["file"] in edit.files()), "")


def find_unreadable(group: Sequence[Edit], report: Report) -> list[Edit]:
    """Those of a group's edits that the compiler or the prover can't read, as far as the lines of its errors show it."""
    errors = list_unread(report)
    in_function = [edit for edit in group if any(edit.find_function_at(at["file"], int(at["line"])) for at in errors)]
    return in_function or [edit for edit in group if find_unread(edit, report)]


def list_unread(report: Report) -> list[re.Match[str]]:
    """The errors by which the compiler or the prover says that it can't read something. (A run that only refuses what it
    has read has errors of other words.)"""
    errors = [match for match in map(ERROR.match, report.lines) if match] if report.status == REFUSED else []
    plain = [re.sub(r"`[^`]*`", "", error["what"]) for error in errors]
    return [error for error, words in zip(errors, plain) if error["code"] or not error["name"] or UNREAD.search(words)]


def find_uncompiled(edit: Edit, report: Report) -> str:
    """The function that an edit changes and that the compiler refuses as the edit says, with the place and the error:
    `FUNCTION, FILE:LINE, ERROR`. It is `` if there is no error, or one of another code, another text or another place.
    """
    errors = list_coded(report)
    if not errors or find_others(edit, errors):
        return ""
    first = errors[0]
    name = edit.find_function_at(first["file"], int(first["line"]))
    return f"{name}, {first['file']}:{first['line']}, {edit.code}: {read_text(first)}"


def find_compiled(edit: Edit, report: Report) -> str:
    """Why a run doesn't show that the compiler refuses an edit as the edit says."""
    if others := find_others(edit, list_coded(report)):
        said = f'[{edit.code}] "{edit.says}"'
        return f"an error isn't {said} at a function that it changes: {others[0].string[:200]}"
    return f"the compiler reads it: {report.find_first_note()}"


def list_coded(report: Report) -> list[re.Match[str]]:
    """The compiler's errors: each of these has a code."""
    return [match for match in list_unread(report) if match["code"]]


def find_others(edit: Edit, errors: Sequence[re.Match[str]]) -> list[re.Match[str]]:
    """Those of the compiler's errors that an edit doesn't ask for: of another code or text, or at no function that it
    changes. One that is wrong in another way too, such as by a misspelt name, has some."""
    return [
        error
        for error in errors
        if error["code"] != f"[{edit.code}]"
        or edit.says not in read_text(error)
        or not edit.find_function_at(error["file"], int(error["line"]))
    ]


def read_text(error: re.Match[str]) -> str:
    """What an error says, without its place and code."""
    return f"{error['name'] or ''}{error['what']}"
