"""What a function takes and gives, read from its text, and the types of crates: their homes, values to ask and fields."""

from __future__ import annotations

import re
from collections.abc import Iterable, Mapping
from typing import NamedTuple

from edits.sources import BLOCK, Crate, Item, begins_body, name_module

SIGNATURE = re.compile(r"\s*(?:pub(?:\([a-z]+\))? )?(?:const |unsafe )*fn \w+")
CLAUSE = re.compile(r"^\s*(?:requires|ensures\*?|ghost)\b", re.M)
DECLARED = re.compile(r"^(?:pub(?:\(crate\))? )?(struct|enum) (\w+)[^\n;{]*(?:\{\n(.*?)^\})?", re.M | re.S)
ASKED = re.compile(r"\s*pub (?:const )?fn (\w+)\(&?self\) -> (bool|[ui](?:8|16|32|64|128|size))\b")
OPEN, CLOSE = "([{<", ")]}>"


class Head(NamedTuple):
    """A function's head.

    `generics` are its parameters of types with their bounds, `receiver` is `self` as it is taken, or ``, `parameters`
    are the others, each a name and a type, and `gives` is the type of the result, or ``. `is_of_trait` says whether it
    is a method of a trait, whose body can only be tried in its place. `file`, `first` and `last` are those of the item.
    """

    item: Item
    generics: tuple[str, ...]
    receiver: str
    parameters: tuple[tuple[str, str], ...]
    gives: str
    is_of_trait: bool

    def call(self) -> str:
        """A call of the function with what it was called with."""
        names = ", ".join(name for name, _ in self.parameters)
        generics = [generic.partition(":")[0].removeprefix("const ") for generic in self.generics if generic[0] != "'"]
        types = ", ".join(generics)
        before = "self." if self.receiver else "Self::" if self.item.text.startswith(" ") else ""
        return f"{before}{self.item.word()}{f'::<{types}>' if types else ''}({names})"

    def body(self) -> str:
        """The text between its braces."""
        return "\n".join(self.item.text.split("\n")[len(self.item.header()) : -1])


class Kinds(NamedTuple):
    """The types of some crates: the path of each as this crate names it, a question that a value of it answers by a
    number or by yes or no, and the fields of each type of this crate that are yes or no."""

    homes: Mapping[str, str]
    questions: Mapping[str, str]
    flags: Mapping[str, tuple[str, ...]]


# ---- a head


def find_close(text: str, at: int) -> int:
    """The place after the bracket that the one at this place opens. An arrow closes nothing."""
    depth = 0
    for here in range(at, len(text)):
        is_arrow = text[here] == ">" and text[here - 1] in "-="
        depth += (text[here] in OPEN) - (text[here] in CLOSE and not is_arrow)
        if depth == 0:
            return here + 1
    return len(text)


def split_parts(text: str) -> list[str]:
    """The parts between the commas that no bracket holds, each with single blanks."""
    parts, depth = [""], 0
    for at, letter in enumerate(text):
        depth += (letter in OPEN) - (letter in CLOSE and text[at - 1] not in "-=")
        if letter == "," and depth == 0:
            parts.append("")
        else:
            parts[-1] += letter
    return [" ".join(part.split()) for part in parts if part.strip()]


def is_in_trait(crate: Crate, item: Item) -> bool:
    """Whether an item is in an `impl` of a trait, or in a trait."""
    above = crate.texts[item.file].split("\n")[: item.first - 1]
    block = next((line for line in reversed(above) if BLOCK.match(line) or line.startswith("}")), "")
    match = BLOCK.match(block) if item.text.startswith(" ") else None
    return bool(match and (match["trait"] or "trait " in block))


def read_head(crate: Crate, item: Item) -> Head | None:
    """The head of a function with a body and an ensures, whose parameters are plain names; None for another item."""
    header = "\n".join(item.header())
    match = SIGNATURE.match(header) if item.kind == "fn" else None
    if not match or "ensures" not in header or not begins_body(header.split("\n")[-1], find_margin(item), False):
        return None
    at, generics = match.end(), ""
    if header[at] == "<":
        generics, at = header[at + 1 : find_close(header, at) - 1], find_close(header, at)
    end = find_close(header, at)
    parameters = [re.sub(r"^mut ", "", part) for part in split_parts(header[at + 1 : end - 1])]
    clause = CLAUSE.search(header, end)
    gives = header[end : clause.start() if clause else len(header)].partition("where")[0].strip()
    has_receiver = bool(parameters) and bool(re.fullmatch(r"(&('\w+ )?(mut )?)?self", parameters[0]))
    receiver = parameters.pop(0) if has_receiver else ""
    pairs = tuple((name.strip(), kind.strip()) for name, _, kind in (part.partition(":") for part in parameters))
    if not all(re.fullmatch(r"[a-z]\w*", name) for name, _ in pairs):
        return None
    return Head(
        item, tuple(split_parts(generics)), receiver, pairs, gives.removeprefix("->").strip(), is_in_trait(crate, item)
    )


def find_margin(item: Item) -> str:
    """The blanks before an item."""
    return item.text[: len(item.text) - len(item.text.lstrip())]


# ---- types


def write_question(kind: str, name: str, body: str) -> str:
    """A question that tells an enum's first variant from the others, or ``."""
    variant = re.search(r"^    (\w+)([({]?)", body, re.M) if kind == "enum" else None
    shape = {"(": "(..)", "{": " { .. }", "": ""}[variant[2]] if variant else ""
    return f"matches!({{}}, {name}::{variant[1]}{shape})" if variant else ""


def list_flag_fields(body: str) -> tuple[str, ...]:
    """The fields of a struct that are yes or no."""
    return tuple(re.findall(r"^    (?:pub(?:\([a-z]+\))? )?(\w+): bool,$", body, re.M))


def read_kinds(crate: Crate, below: Iterable[Crate]) -> Kinds:
    """The types of a crate and of those below it."""
    kinds = Kinds({"AllocError": "std::alloc::AllocError"}, {}, {})
    homes, questions, flags = dict(kinds.homes), dict(kinds.questions), dict(kinds.flags)
    for each in (*below, crate):
        for file, text in each.texts.items():
            for kind, name, body in DECLARED.findall(text) if file.endswith(".rt") else ():
                module = "::".join(filter(None, ("crate", name_module(file))))
                homes[name] = f"{module if each is crate else each.name}::{name}"
                questions[name] = write_question(kind, name, body)
                flags |= {name: list_flag_fields(body)} if each is crate and list_flag_fields(body) else {}
        for item in each.items:
            if match := ASKED.match(item.text):
                above = "" if match[2] == "bool" else " > 7"
                questions[item.name.split("::")[-2]] = f"{{}}.{match[1]}(){above}"
    return Kinds(homes, {name: text for name, text in questions.items() if text}, flags)
