"""Two offices that look the same to a caller, and the answers to a request if one of its calls is refused.

They differ in what the collector of the key KA and the public mustn't see: the key of the other collector, their prices,
and the table of a month that is frozen and not yet published at the moment AT.
"""

from __future__ import annotations

import functools
import os
import shutil
import tempfile
from collections.abc import Iterator
from typing import NamedTuple

from .program import Program, Ran
from .refusing import SECONDS, Library

KA = "a" * 32
"""The key of the collector who asks."""

AT = 2500
"""The moment of the requests: January is frozen then, and published at 3000."""

PLAN = """T,00,All items
T,01,Food and drink
T,01.1,Food
T,01.1.1,Cereals
T,01.1.1.1,Rice
T,01.1.1.1-01,""Rice, packed""
W,01.1.1.1-01,1000000
I,RICE,01.1.1.1-01
"""

FILED = ["memory", "disk", "log", "database"]
"""The kinds of calls that are refused over a file."""


class Hidden(NamedTuple):
    """The difference between the offices: the other collector's key, and that collector's prices in three months."""

    key: str
    prices: tuple[int, int, int]

    def records(self) -> bytes:
        """The records that make the office."""
        december, january, february = self.prices
        return f"""0,desk,item,RICE,Rice,1 kg,500,2000
0,desk,outlet,10,Corner shop
0,desk,outlet,11,Market hall
0,desk,collector,7,{KA}
0,desk,collector,8,{self.key}
0,desk,assign,7,1,10,RICE,2025-12,2026-12
0,desk,assign,8,1,11,RICE,2025-12,2026-12
0,desk,calendar,2025-12,0,1000,1000
0,desk,calendar,2026-01,1000,2000,3000
0,desk,calendar,2026-02,2000,4000,5000
0,desk,plan,2026,"{PLAN}"
100,{KA},quote,1,2025-12,price,200
200,{self.key},quote,1,2025-12,price,{december}
1000,desk,freeze,2025-12
1100,{KA},quote,1,2026-01,price,210
1200,{self.key},quote,1,2026-01,price,{january}
2000,desk,freeze,2026-01
2100,{self.key},quote,1,2026-02,price,{february}
""".encode()


LOW = Hidden("b" * 32, (240, 241, 242))
HIGH = Hidden("c" * 32, (260, 299, 310))
"""The two offices."""

OWN = ["items", "tables", "table,2026-01,text", "table,2025-12,csv", "work,2026-02", "quotes,2025-12,2026-02"]
REQUESTS = [f"{AT},{KA},{words}" for words in [*OWN, "quote,1,2026-02,price,215", "quote,1,2026-02,price,9999"]]
REQUESTS += [f"{AT},public,{words}" for words in OWN[:4]]
"""The requests, each once."""


class Asked(NamedTuple):
    """A request to an office in memory, or in a file, one of whose calls is refused."""

    request: bytes
    is_filed: bool
    kind: str


class Office:
    """An office of a program, to which requests come while calls are refused."""

    def __init__(self, program: Program, library: Library, hidden: Hidden) -> None:
        self.program, self.library, self.hidden = program, library, hidden
        self.room = tempfile.TemporaryDirectory()
        self.made = self.run(hidden.records(), f"{self.room.name}/office.db")
        if self.made.status or b"refused" in self.made.out:
            raise ChildProcessError(f"there is no office: {self.made}")

    def run(self, given: bytes, db: str | None = None, env: dict[str, str] | None = None) -> Ran:
        """A replay of records by the program."""
        return self.program.replay(given, db, seconds=SECONDS, env=env)

    def run_asked(self, asked: Asked, env: dict[str, str]) -> Ran:
        """The run of a request, over a copy of the file, or after all records in memory."""
        if not asked.is_filed:
            return self.run(self.hidden.records() + asked.request, env=env)
        with tempfile.TemporaryDirectory() as room:
            for name in os.listdir(self.room.name):
                shutil.copy(f"{self.room.name}/{name}", room)
            return self.run(asked.request, f"{room}/office.db", env)

    @functools.lru_cache(None)
    def count(self, asked: Asked) -> int:
        """The number of calls of the kind that a run with this request makes."""
        return self.library.counted(asked.kind, lambda env: self.run_asked(asked, env).status)

    def calls(self, asked: Asked) -> range:
        """The numbers of the calls that come with a request. Over a file they are all calls of the disk; and of the
        growths of memory as many before the request too, since a few of those that it adds come at the close."""
        count = self.count(asked)
        if asked.kind != "memory":
            return range(1, count + 1)
        before = self.count(asked._replace(request=b""))
        return range(max(1, 2 * before - count if asked.is_filed else before + 1), count + 1)

    def answer(self, asked: Asked, number: int) -> Ran:
        """The answer to a request, and the end of its run, if the call of that number is refused; no call is refused if
        it is 0."""
        ran = self.run_asked(asked, self.library.environment(asked.kind, number))
        lines = ran.out.split(b"\n")[0 if asked.is_filed else len(self.made.lines()) :]
        return ran._replace(out=b"\n".join(lines))


def list_asked() -> Iterator[Asked]:
    """Each request, in memory and over a file, with each kind of call."""
    for request in REQUESTS:
        record = request.encode() + b"\n"
        yield Asked(record, False, "memory")
        yield from (Asked(record, True, kind) for kind in FILED)
