"""Finds in the sources what the types leave open about a reply 90, about the view of a caller, and about giving up.

By the contracts a reply 90 has its cause, except for a fault that a body makes by hand; and only `callers.rt` may make
the tokens with which a function sees an office. A message is given up only through a `Failure`, which only `cpi_wire`
makes.

`find_made_faults`    the faults that a body makes by hand, and each reply that says that the office is unavailable.
`find_named_faults`   the same in any crate: errors of memory, and what says that the office is unavailable.
`find_growths`        the places that ask for memory by a size that they choose, which may be too large.
`find_renamed`        the lines that give a fault, a token or what one sees another name, and those of a macro.
`find_made_tokens`    the places that make a token; `callers.rt` may.
`find_held_books`     the functions that answer from a sight and also name a book.
`find_made_failures`  the places that make a `Failure`, by which an input, a line or a message is given up.
`find_notes`          the places that make a note of reading or of writing, or read or write by one.
`find_streams`        the readers and writers that a crate writes itself.
"""

from __future__ import annotations

import re
from collections.abc import Callable, Iterator
from typing import NamedTuple

from edits.sources import Crate, Item

MADE = re.compile(r"\b(?:AllocError|StoreFault)\b(?!\s*>)|(?:^|\W)(?:Cause|Self) \{|\bUnavailable\b")
"""A fault, a cause or the refusal 90 within a body: not the last type of a `Result<.., AllocError>`."""

NAMED = re.compile(r"\bAllocError\b(?!\s*>)|\bUnavailable\b")
"""The faults of MADE, without those that only `cpi_office` makes and the faults of a store, which the stores themselves
make."""

GROWTH = re.compile(r"\b(?:with_capacity\w*|reserve\w*|resize\w*|repeat\w*)\b|\[in |format!|vec!")

RENAMED = re.compile(
    r"\b(?:AllocError|StoreFault|Cause|Refusal|Present|Bearer|Book|Sight|Failure|ReadNote|WriteNote|OfferNote) as \w+"
    r"|^\s*(?:pub(?:\([a-z]+\))? )?type \w+ = (?:\w+::)*(?:Failure|ReadNote|WriteNote|OfferNote)\b.*"
    r"|^\s*(?:pub(?:\([a-z]+\))? )?(?:type|const|static)\b"
    r".*\b(?:AllocError|StoreFault|Cause|Refusal|Present|Bearer)\b.*"
    r"|macro_rules!.*",
    re.M,
)

TOKEN = re.compile(r"\b(?:Present|Bearer) \{")
TOKEN_OR_SELF = re.compile(r"\b(?:Present|Bearer|Self) \{")
FAILURE = re.compile(r"\bFailure::of\b|\b(?:Failure|ReadNote|WriteNote) \{")
NOTE = re.compile(
    r"\b(?:ReadNote|WriteNote|OfferNote)\b(?:::<.*?>)?::new\b|\.(?:read_some|write_whole|write_some|write_line)\("
)
STREAM = re.compile(r"^impl.*\b(?:Read|Write) for (\w+)", re.M)
SIGHT, BOOK = re.compile(r"\bS: Sight\b"), re.compile(r"\b[Bb]ook\b")

CALLERS = "src/callers.rt"


class Place(NamedTuple):
    """A function by its name, and a line of it without blanks at its ends."""

    function: str
    line: str


def list_bodies(crate: Crate) -> Iterator[tuple[Item, list[str]]]:
    """Each function with the lines of its body, without comments."""
    for item in crate.items:
        if item.kind == "fn":
            lines = item.text.split("\n")[len(item.header()) :]
            yield item, [line.split("//")[0].strip() for line in lines]


def find_places(crate: Crate, pattern: re.Pattern[str], in_file: Callable[[str], bool] = bool) -> list[Place]:
    """The lines of bodies that a pattern is found in, of the files that are asked for; of all if nothing is said."""
    bodies = ((item, body) for item, body in list_bodies(crate) if in_file(item.file))
    return [Place(item.name, line) for item, body in bodies for line in body if pattern.search(line)]


def find_made_faults(crate: Crate) -> list[Place]:
    return find_places(crate, MADE)


def find_named_faults(crate: Crate) -> list[Place]:
    return find_places(crate, NAMED)


def find_growths(crate: Crate) -> list[Place]:
    return find_places(crate, GROWTH)


def find_renamed(crate: Crate) -> list[str]:
    """The lines, or parts of lines, that give a fault, a token or a sight another name, and those of a macro."""
    texts = (drop_comments(text) for path, text in sorted(crate.texts.items()) if path.endswith(".rt"))
    return [match[0].strip() for text in texts for match in RENAMED.finditer(text)]


def find_made_tokens(crate: Crate) -> list[Place]:
    """The tokens that a file other than `callers.rt` makes."""
    return find_places(crate, TOKEN, lambda file: file != CALLERS)


def find_tokens_of_callers(crate: Crate) -> list[Place]:
    """The tokens that `callers.rt` makes."""
    return find_places(crate, TOKEN_OR_SELF, lambda file: file == CALLERS)


def find_held_books(crate: Crate) -> list[str]:
    """The names of the functions that answer from a sight and also name a book."""
    functions = (item for item in crate.items if item.kind == "fn")
    return [item.name for item in functions if SIGHT.search(item.text) and BOOK.search(drop_comments(item.text))]


def find_made_failures(crate: Crate) -> list[Place]:
    """The failures that are made outside the file that defines the type."""
    return find_places(crate, FAILURE, lambda file: file != "src/failure.rt")


def find_notes(crate: Crate) -> list[Place]:
    """The places that make a note, or read or write with one. A reader that never fails uses a note up, which is a
    failure too."""
    return find_places(crate, NOTE)


def find_streams(crate: Crate) -> list[str]:
    """The names of the readers and writers that a crate writes itself."""
    texts = (drop_comments(text) for path, text in sorted(crate.texts.items()) if path.endswith(".rt"))
    return [match[1] for text in texts for match in STREAM.finditer(text)]


def drop_comments(text: str) -> str:
    return "\n".join(line.split("//")[0] for line in text.split("\n"))
