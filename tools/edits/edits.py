"""The edits of a crate, `must-fail/*.edit` and `must-not-compile/*.edit`, and the functions that each of them changes.

`rt` reads those of `must-fail/` in the same way. An edit of `must-not-compile/` has two lines more, `code: CODE` and
`says: TEXT`: the code of the error by which the compiler must refuse it, and a part of that error's text. An edit of
definitions, in specs/, has a line more, `at: FUNCTION`: a law that isn't proved with it.
"""

from __future__ import annotations

import os
import re
from collections.abc import Mapping
from pathlib import Path
from typing import NamedTuple, Optional

from .sources import Crate, Item

NAME = re.compile(r"[A-Za-z0-9_-][A-Za-z0-9_.-]*\.edit")
"""The names that `rt` reads as those of edits."""

FOLDER = "must-fail"
UNCOMPILED = "must-not-compile"
FOLDERS = (FOLDER, UNCOMPILED)


class Pair(NamedTuple):
    """A text of a file, which stands there once, and the text that takes its place; each is a line or a part of one."""

    file: str
    old: str
    new: str


class Edit(NamedTuple):
    """An edit of a crate.

    `functions` are those that it changes, or the law that it names. `is_wide` says that it may change any other function
    too. `fault` says why it can't be tried, and is empty if it can. `code` is that of the compiler's error, and `says` a
    part of its text; both are empty if the prover has to refuse the edit.
    """

    name: str
    pairs: tuple[Pair, ...] = ()
    functions: tuple[Item, ...] = ()
    is_wide: bool = True
    fault: str = ""
    code: str = ""
    says: str = ""

    def names(self) -> set[str]:
        """The names of its functions."""
        return {function.name for function in self.functions}

    def files(self) -> set[str]:
        """The files that it changes."""
        return {pair.file for pair in self.pairs}

    def find_function_at(self, file: str, line: int) -> str:
        """The name of the function that it changes around this line, or ``. (An edit never moves a line.)"""
        return next(
            (
                function.name
                for function in self.functions
                if function.file == file and function.first <= line <= function.last
            ),
            "",
        )

    def find_function_named(self, name: str) -> str:
        """The function that it changes and that has this name, or in which the closure of this name stands, or ``."""
        plain = "::".join(part for part in name.split("::") if part != "fn")
        return next((name for name in sorted(self.names()) if plain == name or plain.startswith(f"{name}::")), "")

    def is_of_definitions(self) -> bool:
        """Whether it changes definitions only, so that a lemma of any proof may be the first that fails."""
        return all(file.startswith("specs/") for file in self.files())

    def is_alone(self) -> bool:
        """Whether it never shares a run."""
        return self.is_wide or not self.functions


def list_edits(folder: Path, within: str = FOLDER) -> tuple[list[Path], list[Path]]:
    """The edits in a folder of the crate's folder, and other files there that are no notes (.md)."""
    good, bad = [], []
    for path in sorted((folder / within).rglob("*")):
        if path.is_file() and path.parent.name == within and NAME.fullmatch(path.name):
            good.append(path)
        elif path.is_file() and path.suffix != ".md":
            bad.append(path)
    return good, bad


def read_edits(folder: Path, crate: Crate) -> list[Edit]:
    """Reads all edits of the crate in a folder. One that can't be tried has a fault."""
    edits = [edit for within in FOLDERS for edit in read_folder(folder, within, crate)]
    names = [edit.name for edit in edits]
    return [
        edit._replace(fault="another edit has this name") if edit.name in names[:at] else edit
        for at, edit in enumerate(edits)
    ]


def read_folder(folder: Path, within: str, crate: Crate) -> list[Edit]:
    """Reads the edits in a folder of the crate's folder."""
    good, bad = list_edits(folder, within)
    misplaced = f"an edit stands right in {within}/, and its name ends in .edit"
    return [
        *(read_file(path, within == UNCOMPILED, crate) for path in good),
        *(Edit(path.relative_to(folder / within).as_posix(), fault=misplaced) for path in bad),
    ]


def read_file(path: Path, has_code: bool, crate: Crate) -> Edit:
    """Reads a file with an edit, which has the code and a text of the compiler's error or not."""
    text = path.read_text(encoding="utf-8", errors="replace")
    edit = read_edit(path.stem, text, crate)
    if edit.fault:
        return edit
    if not has_code:
        word = re.search(r"^(?:code|says):", text, re.M)
        return edit._replace(fault=f"a '{word[0]}' line is for an edit of {UNCOMPILED}/") if word else edit
    codes = re.findall(r"^code: ([a-z][a-z-]*)$", text, re.M)
    texts = re.findall(r"^says: *(\S.*?) *$", text, re.M)
    for line, values in (("code: CODE", codes), ("says: TEXT", texts)):
        if len(values) != 1:
            return edit._replace(fault=f"it has {len(values)} lines '{line}', and not one")
    return edit._replace(code=codes[0], says=texts[0])


def read_edit(name: str, text: str, crate: Crate) -> Edit:
    """Reads an edit: lines `file: PATH`, pairs of lines `old: TEXT` and `new: TEXT`, and of definitions `at: FUNCTION`.
    Other lines say nothing."""
    pairs, fault = parse(text, crate)
    if fault:
        return Edit(name, fault=fault)
    texts = dict(crate.texts)
    if fault := apply(pairs, texts):
        return Edit(name, fault=fault)
    if texts == crate.texts:
        return Edit(name, fault="it changes nothing")
    functions = {item.name: item for pair in pairs for item in list_changed(crate, pair)}
    is_wide = any(not is_local(crate, pair) for pair in pairs)
    return add_laws(Edit(name, tuple(pairs), tuple(functions.values()), is_wide), text, crate)


def add_laws(edit: Edit, text: str, crate: Crate) -> Edit:
    """An edit with the functions that its lines `at: FUNCTION` name, or with a fault."""
    names = re.findall(r"^at: (\S+)$", text, re.M)
    functions = {item.name: item for item in crate.items if item.kind == "fn"}
    if names and not edit.is_of_definitions():
        return edit._replace(fault="an 'at:' line is for an edit of definitions, in specs/")
    if unknown := [name for name in names if name not in functions]:
        return edit._replace(fault=f"there is no function {unknown[0]}")
    return edit._replace(functions=(*edit.functions, *(functions[name] for name in names)))


def parse(text: str, crate: Crate) -> tuple[list[Pair], str]:
    """The pairs of an edit, and why it can't be read, or ``."""
    pairs: list[Pair] = []
    file, old = "", ""
    for line in text.split("\n"):
        if line.startswith("file: "):
            file = line[len("file: ") :].strip()
            if os.path.normpath(file) != file or not file.startswith(("src/", "specs/", "proofs/")):
                return [], "a 'file:' line names no file below src/, specs/ or proofs/"
        elif line.startswith("old: "):
            old = line[len("old: ") :]
        elif line.startswith("new:"):
            if not file or not old:
                return [], "a 'new:' line stands before any 'file:' or 'old:' line"
            if file not in crate.texts:
                return [], f"there is no file {file}"
            pairs.append(Pair(file, old, re.sub(r"\A ", "", line[len("new:") :])))
            old = ""
    return pairs, "" if pairs else "it has no 'old:' and 'new:' pair"


def apply(pairs: tuple[Pair, ...] | list[Pair], texts: dict[str, str]) -> str:
    """Applies pairs to texts by their paths, all of them or none. Returns why they can't be applied, or ``."""
    made: dict[str, str] = {}
    for file, old, new in pairs:
        text = made.get(file, texts[file])
        if text.count(old) != 1:
            return f"an 'old:' text is in {file} {text.count(old)} times, and not once"
        made[file] = text.replace(old, new)
    texts.update(made)
    return ""


def find_line(texts: Mapping[str, str], pair: Pair) -> Optional[int]:
    """The line of a pair's old text, counted from 1; None if an earlier pair makes that text."""
    before, line, _ = texts[pair.file].partition(pair.old)
    return before.count("\n") + 1 if line else None


def find_items_around(crate: Crate, pair: Pair) -> list[Item]:
    """The items of the crate that contain the first line of a pair; none if it isn't there."""
    line = find_line(crate.texts, pair)
    return [] if line is None else crate.find_items_at(pair.file, line)


def is_local(crate: Crate, pair: Pair) -> bool:
    """Whether a pair changes an item or a comment, or only brings more names in. What stands elsewhere, such as a ghost
    item or a definition of specs/, may change any function."""
    names, more = (set(re.findall(r"\w+", text)) for text in (pair.old, pair.new))
    is_note = pair.old.startswith("//") or pair.old.startswith("use ") and names <= more
    return bool(find_items_around(crate, pair)) or pair.file.endswith(".rt") and is_note


def list_changed(crate: Crate, pair: Pair) -> list[Item]:
    """The functions that a pair changes: the one around it, and its callers too if its contract changes, since it may
    still be proved, and they aren't. For a constant or a macro: all functions that name it."""
    items = find_items_around(crate, pair)
    line = find_line(crate.texts, pair) or 0
    items += [user for item in items if line < item.first + len(item.header()) for user in crate.find_users(item)]
    for item in items:
        if item.kind != "fn":
            more = crate.find_users(item)
            in_contract = [user for user in more if item.word() in "\n".join(user.header())]
            more += [user for item in in_contract for user in crate.find_users(item)]
            items += [user for user in more if user not in items]
    return [item for item in items if item.kind == "fn"]
