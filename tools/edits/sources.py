"""The texts of a crate, and the functions, constants and macros in them by their names and lines.

A name is the one that the prover prints, without the crate: the module of the file, the type of a method, the trait.
"""

from __future__ import annotations

import re
from collections.abc import Iterator, Mapping, Sequence
from pathlib import Path
from typing import NamedTuple

PARTS = ("src", "specs", "proofs")
"""The folders of a crate whose files a check reads."""

PUBLIC = r"(?:pub(?:\([a-z]+\))? )?"
ITEM = re.compile(rf"(\s*){PUBLIC}(?:const |unsafe )*(fn|const|static|macro_rules!) (\w+)")
TYPE = re.compile(rf"^{PUBLIC}(?:struct|enum) (\w+)", re.M)
BLOCK = re.compile(
    rf"{PUBLIC}(?:impl|trait)\b(?:<(?P<generics>.*?)>)?(?= )(?: (?P<trait>[\w:]+)(?:<.*>)? for)? (?P<type>\w+)"
)
ANY = "Any"
"""How the prover calls the type of a block that is of every type with some trait: `impl<B: Book> Sight for B`."""


class Item(NamedTuple):
    """A function (kind `fn`), a constant (`const`, `static`) or a macro (`macro_rules!`).

    `file` is its path below the crate, `first` and `last` are its lines, counted from 1.
    """

    kind: str
    name: str
    file: str
    first: int
    last: int
    text: str

    def word(self) -> str:
        """The last part of its name, by which other code names it."""
        return self.name.rpartition("::")[2]

    def header(self) -> list[str]:
        """The lines of a function's signature and contract; none for another item."""
        if self.kind != "fn":
            return []
        lines = self.text.split("\n")
        left = self.text[: len(self.text) - len(self.text.lstrip())]
        begins = (at for at, line in enumerate(lines, 1) if begins_body(line, left, at == 1))
        return lines[: next(begins, len(lines))]


class Crate(NamedTuple):
    """A crate: its texts by their paths below it, such as `src/lib.rt`, and the items of its sources."""

    name: str
    texts: Mapping[str, str]
    items: Sequence[Item]

    def find_items_at(self, file: str, line: int) -> list[Item]:
        """The items that contain a line of a file."""
        return [item for item in self.items if item.file == file and item.first <= line <= item.last]

    def find_users(self, item: Item) -> list[Item]:
        """The items that name this one: of a private one only those of its file, unless it is a macro."""
        word = re.compile(rf"\b{item.word()}" + ("!" if item.kind == "macro_rules!" else r"\b"))
        is_private = not item.text.lstrip().startswith(("pub", "macro_rules!"))
        others = (it for it in self.items if it != item and not (is_private and it.file != item.file))
        return [it for it in others if word.search(it.text)]

    def find_root(self) -> str:
        """The first source of the crate."""
        return "src/main.rt" if "src/main.rt" in self.texts else "src/lib.rt"


def read_crate(folder: Path) -> Crate:
    """Reads the crate in a folder. OSError, UnicodeDecodeError: a file of it can't be read."""
    files = (path for part in PARTS for path in sorted((folder / part).rglob("*")) if path.is_file())
    texts = {path.relative_to(folder).as_posix(): path.read_bytes().decode("utf-8") for path in files}
    code = {path: text for path, text in texts.items() if path.endswith(".rt")}
    homes = {name: name_module(path) for path, text in code.items() for name in TYPE.findall(text)}
    return Crate(folder.name, texts, [item for path, text in code.items() for item in list_items(path, text, homes)])


def name_module(path: str) -> str:
    """The module of a source, such as `a::b` of `src/a/b.rt`; the crate's root is ``."""
    return re.sub(r"(^|::)(lib|main|mod)$", "", path[len("src/") : -len(".rt")].replace("/", "::"))


def list_items(path: str, text: str, homes: Mapping[str, str]) -> Iterator[Item]:
    """The items of a source. `homes` has the module of each type: its own methods are named below that module."""
    module, lines, owner, at = name_module(path), text.split("\n"), "", 0
    while at < len(lines):
        if block := BLOCK.match(lines[at]):
            owner = name_owner(block, module, homes)
        elif lines[at].startswith("}"):
            owner = ""
        if item := ITEM.match(lines[at]):
            last = find_end(item[2], lines, at, item[1])
            name = "::".join(filter(None, (owner or module, item[3])))
            yield Item(item[2], name, path, at + 1, last + 1, "\n".join(lines[at : last + 1]))
            at = last
        at += 1


def name_owner(block: re.Match[str], module: str, homes: Mapping[str, str]) -> str:
    """The name below which the methods of a block stand, such as `rows::Rows`, or `rows::RowsClone` for a trait's."""
    trait = (block["trait"] or "").rpartition("::")[2]
    home = module if trait else homes.get(block["type"], module)
    is_of_any = trait and re.search(rf"(?:^|, ){block['type']}\b", block["generics"] or "")
    name = ANY if is_of_any else block["type"][:1].upper() + block["type"][1:]
    return "::".join(filter(None, (home, name + trait)))


def find_end(kind: str, lines: Sequence[str], begin: int, left: str) -> int:
    """The last line of an item, counted from 0. Sources are laid out by `rt fmt`, so the last brace of a body is as far
    from the left as its item."""
    has_body = False
    for at in range(begin, len(lines)):
        line = lines[at]
        if line in (left + "}", left + "{}") or kind in ("const", "static") and line.endswith(";"):
            return at
        has_body = has_body or begins_body(line, left, at == begin)
        if kind == "fn" and (at == begin and line.endswith("}") or not has_body and line.endswith(";")):
            header = "\n".join(lines[begin : at + 1])
            if header.count("{") == header.count("}"):
                return at
    return len(lines) - 1


def begins_body(line: str, left: str, is_first: bool) -> bool:
    """Whether the body of an item begins at the end of this line of it."""
    return line == left + "{" or line.endswith("{") and (is_first or line.startswith(left + ")"))
