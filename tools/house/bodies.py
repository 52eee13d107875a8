"""Wrong bodies of a function: those that give up, that set a flag first, and that are right only under a condition."""

from __future__ import annotations

import re
from collections.abc import Iterator
from typing import NamedTuple

from .heads import Head, Kinds

WAYS = (
    (r"Result<Reply, Cause>", "Ok(Reply::Refused(Refusal::Unavailable))"),
    (r"Reply", "Reply::Refused(Refusal::Unavailable)"),
    (r"Result<.*, Cause>", "Err(Cause::from(AllocError))", "Err(Cause::from(StoreFault))"),
    (r"Result<.*, StoreFault>", "Err(StoreFault)"),
    (r"Result<Result<.*, AllocError>, StoreFault>", "Ok(Err(AllocError))"),
    (r"Result<.*, AllocError>", "Err(AllocError)"),
    (r"Result<Served, .*>", "Ok(Served::Cut)"),
    (r"Result<Ended, .*>", "Ok(Ended { served: Served::Cut, cause: None })"),
    (r"Result<HeadEnd, .*>", "Ok(HeadEnd::Cut)"),
    (r"Result<Option<.*>, .*>", "Ok(None)"),
    (r"Result<.*, Failure>", "Err(Failure::from(AllocError))", "Err(Failure::of(WireFault::Read))"),
    (r"Result<.*, WireFault>", "Err(WireFault::Read)", "Err(WireFault::Write)", "Err(WireFault::NoMemory)"),
    (r"Result<.*, StatusCode>", "Err(http::StatusCode::SERVICE_UNAVAILABLE)"),
    (r"io::Result<.*>", "Err(io::Error::from(io::ErrorKind::Other))"),
    (r"io::Result<usize>", "Ok(buf.len())"),
    (r"io::Result<\(\)>", "Ok(())"),
    (r"Option<.*>", "None"),
    (r"bool", "false", "true"),
)
"""By the type of a result, what a function of this house answers to give up."""

MOST_CONDITIONS = 2
"""How many conditions on what a function is handed a wrong body is put under. (On what it can read there are none: such
bodies call more than the function does, so that tactics prove hardly any of them.)"""

NUMBER = re.compile(r"[ui](?:8|16|32|64|128|size)")


class Plant(NamedTuple):
    """A wrong body of a function. `kind` is `real` for the function's own answer, which shows whether bodies that have it
    can be judged, else `way`, `flag` or `condition`. `wrong` is what it answers wrongly, if that is a part of it."""

    head: Head
    kind: str
    text: str
    wrong: str = ""


def write_real(head: Head) -> str:
    """What the function itself answers: a call of it, or, where it can't be called from its own place, its body."""
    return f"{{\n{head.body()}\n}}" if head.is_of_trait else head.call()


def list_ways(head: Head) -> list[Plant]:
    """The bodies that give up."""
    bodies = [body for pattern, *some in WAYS if re.fullmatch(pattern, head.gives) for body in some]
    return [Plant(head, "way", body) for body in dict.fromkeys(bodies)]


def list_flags(head: Head, kinds: Kinds) -> Iterator[Plant]:
    """The bodies that set a field of `self` before they give up, or before the right answer."""
    owner = head.item.name.split("::")[-2] if "::" in head.item.name else ""
    # (a trait's name follows that of the type)
    name = max((kind for kind in kinds.flags if owner.startswith(kind)), key=len, default="")
    for field in kinds.flags.get(name, ()) if "mut self" in head.receiver else ():
        for value in ("true", "false"):
            for wrong in [plant.text for plant in list_ways(head)] + [write_real(head)]:
                yield Plant(head, "flag", f"self.{field} = {value}; {wrong}", wrong)


def write_condition(kind: str, name: str, kinds: Kinds) -> str:
    """A condition on a parameter, or `` if none is known for its type."""
    if kind.startswith("&mut "):
        return ""
    plain = re.sub(r"^&('\w+ )?", "", kind)
    if NUMBER.fullmatch(plain):
        return f"{name} > 7" if plain == kind else f"*{name} > 7"
    if plain == "bool":
        return name
    if re.match(r"\[|str$|String$|Vec<", plain):
        return f"{name}.len() > 7"
    if re.match(r"Option<", plain):
        return f"{name}.is_some()"
    if re.match(r"Result<", plain):
        return f"{name}.is_err()"
    return kinds.questions.get(plain.partition("<")[0], "").format(name)


def list_conditions(head: Head, kinds: Kinds) -> list[str]:
    """Some conditions on what the function is handed."""
    conditions = [write_condition(kind, name, kinds) for name, kind in head.parameters]
    return [condition for condition in conditions if condition][:MOST_CONDITIONS]


def put_under_conditions(head: Head, kinds: Kinds, wrong: list[Plant]) -> Iterator[Plant]:
    """The bodies that are right unless a condition holds. `wrong` are those that give up and that nothing let through."""
    for condition in list_conditions(head, kinds):
        for plant in wrong:
            text = f"if {condition} {{ {plant.text} }} else {{ {write_real(head)} }}"
            yield Plant(head, "condition", text, plant.text)


def add_paths(text: str, kinds: Kinds) -> str:
    """A body whose types have their paths, so that it can be read in any file of the crate."""
    return re.sub(r"(?<![\w:])[A-Z]\w*", lambda match: kinds.homes.get(match[0], match[0]), text)
