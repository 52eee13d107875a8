"""The kinds of replies that random records must produce: words, refusals and faults by their numbers."""

from __future__ import annotations

import json
import re
from typing import Any, Optional

from second_office.requests import Record

REFUSALS = [10, 11, 12, *range(20, 27), 30, *range(40, 44), *range(45, 49)]
KINDS = {"receipt", "done", "work", "quotes", "items", "tables", "table", "rows"}
KINDS |= {"tables, of up to 2 revisions", "tables, of up to 9 revisions", "table of a named revision"}
KINDS |= {f"refused {number}" for number in REFUSALS}
KINDS |= {"refused 50 of a calendar", "refused 50 of a freeze"}
KINDS |= {f"refused {number} of a handover" for number in (20, 22, 40, 43, 50, 51)}
KINDS |= {"done of a handover", "others' quotes changed, without a hand-over"}
KINDS |= {f"a hand-over, and the former's quotes are others {then}" for then in ("before it", "after it")}
KINDS |= {f"fault {number} of a plan" for number in [*range(1, 9), 10]}
KINDS |= {"fault 8 of a freeze", "table with moved weights"}
KINDS |= {f"fault {number} of an index" for number in (1, 2, 3, 5)}
KINDS |= {"fault 3 of an index, above the aggregates"}

Reply = dict[str, Any]
Request = list[Optional[str]]
"""The word and the arguments; for a row of an import they aren't known."""


def replies_of(record: Record, line: str) -> list[tuple[Reply, Request]]:
    """Each reply of a line, with the word and the arguments of its request if they are known."""
    reply = json.loads(line)
    unknown: Request = [None]
    return [(reply, [*record[2:]]), *((row, unknown) for row in reply.get("rows", []))]


def of_weights(text: str) -> str:
    """The kind of a printed table whose weights were moved by prices: they have another sum."""
    weight = re.search("^00[ ,]+([0-9]+)", text, re.M)
    return " with moved weights" if weight and weight[1] != "1000000" else ""


def kind_of(reply: Reply, request: Request) -> str:
    """The name of a reply in KINDS."""
    if "tables" in reply:
        most = max((revision for _, revision, _ in reply["tables"]), default=0)
        return f"tables, of up to {most} revisions" if most > 1 else "tables"
    if "table" in reply:
        return "table of a named revision" if len(request) == 4 else f"table{of_weights(reply['table'])}"
    if "fault" not in reply:
        number = reply.get("refused")
        kind = f"refused {number}" if number else next(iter(reply))
        is_told_apart = request[0] == "handover" or (number == 50 and request[0])
        return f"{kind} of a {request[0]}" if is_told_apart else kind
    if reply["refused"] == 44:
        return f"fault {reply['fault']} of a {'freeze' if request[0] == 'freeze' else 'plan'}"
    return f"fault {reply['fault']} of an index" + ("" if "-" in reply["code"] else ", above the aggregates")
