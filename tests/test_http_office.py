"""Serves offices by `cpi serve`, and asks them over connections of this machine.

- Messages with their whole responses, byte for byte, at the limits too; a message that is cut is answered nothing.
- What was stored is there when the office is served again, in the database file without its log, and after the program
  was killed.
- A database that finds no room: the response is 503, the database is opened again, and the next peer is served; if it
  can't be opened, the program ends. So it is also if 90 was a part of a response that nobody took.
- Zones, keys and places that are refused: their line on standard error, in the order of the faults, and status 1.
"""

from __future__ import annotations

import contextlib
import json
import os
import shutil
import signal
import socket
import sqlite3
from collections.abc import Callable, Sequence

import pytest

from lib.offices import LAST, RICE_AND_FLOUR, quoted
from lib.open_office import ITEMS, KA, KC, LONG, OPEN, QUOTE, QUOTED, QUOTES, RECEIPT, RICE, UNQUOTED, office
from lib.program import Program, Ran, failed, with_disk
from lib.served import DESK, FULL, REOPENING, Served, ended_after, free_port, message, padded, refused, response
from lib.served import words_of as serving

pytestmark = pytest.mark.spread

# ---- offices, and what they answer

# The open office, whose month was closed long ago.
CLOSED = OPEN.replace(f"0,{LAST},{LAST}", "1000,2000,3000")

FROZEN = f"""0,desk,item,RICE,Rice,1 kg,500,2000
0,desk,item,FLOUR,"Flour, wheat",1 kg,500,2000
0,desk,outlet,10,Corner shop
0,desk,collector,7,{KA}
0,desk,assign,7,1,10,RICE,2025-12,2026-12
0,desk,assign,7,2,10,RICE,2025-12,2026-12
0,desk,assign,7,3,10,RICE,2025-12,2026-12
0,desk,assign,7,4,10,FLOUR,2025-12,2026-12
0,desk,calendar,2025-12,0,1000,1000
0,desk,calendar,2026-01,1000,2000,3000
0,desk,plan,2026,{quoted(RICE_AND_FLOUR)}
100,{KA},import,"quote,1,2025-12,price,200
quote,2,2025-12,price,300
quote,3,2025-12,price,500
quote,4,2025-12,price,500
"
1000,desk,freeze,2025-12
1100,{KA},import,"quote,1,2026-01,price,210
quote,2,2026-01,price,300
quote,3,2026-01,price,540
quote,4,2026-01,price,490
"
2000,desk,freeze,2026-01
"""

TEXT = """CPI 2026-01
00          1000000      102.2        102.2     2.2       - . All items
01          1000000      102.2        102.2     2.2       - . Food and drink
01.1        1000000      102.2        102.2     2.2       - . Food
01.1.1      1000000      102.2        102.2     2.2       - . Cereals
01.1.1.1     600000      105.0        105.0     5.0       - . Rice
01.1.1.1-01  600000      105.0        105.0     5.0       - . Rice, packed
01.1.1.2     400000       98.0         98.0    -2.0       - . Flour
01.1.1.2-01  400000       98.0         98.0    -2.0       - . Flour, wheat
"""

CSV = """00,1000000,102.200000,102.200000,2.2,,0,All items
01,1000000,102.200000,102.200000,2.2,,0,Food and drink
01.1,1000000,102.200000,102.200000,2.2,,0,Food
01.1.1,1000000,102.200000,102.200000,2.2,,0,Cereals
01.1.1.1,600000,105.000000,105.000000,5.0,,0,Rice
01.1.1.1-01,600000,105.000000,105.000000,5.0,,0,"Rice, packed"
01.1.1.2,400000,98.000000,98.000000,-2.0,,0,Flour
01.1.1.2-01,400000,98.000000,98.000000,-2.0,,0,"Flour, wheat"
"""


TABLES = '{"tables":[["2025-12",1,1000],["2026-01",1,3000]]}\n'

# January is reopened, gets another price, and is frozen again.
AGAIN = f"""2000,desk,calendar,2026-01,1000,2500,4000
2400,{KA},quote,1,2026-01,price,230
2500,desk,freeze,2026-01
"""

FIGURES = {"102.2": "103.4", "2.2 ": "3.4 ", "105.0": "107.0", "5.0 ": "7.0 "}


def second(text: str, figures: dict[str, str]) -> str:
    """The same table with other figures."""
    for figure, other in figures.items():
        text = text.replace(figure, other)
    return text


SECOND_TEXT = second(TEXT.replace("2026-01", "2026-01 revision 2"), FIGURES)

SECOND_CSV = second(CSV, {"102.200000": "103.400000", "2.2,": "3.4,", "105.000000": "107.000000", "5.0,": "7.0,"})

SECOND_TABLES = TABLES.replace("]]}", '],["2026-01",2,4000]]}')


BAD = refused("400 Bad Request", 10)
LARGE = refused("413 Payload Too Large", 10)
NO_ROUTE, NO_TABLE = refused("404 Not Found", 10), refused("404 Not Found", 30)
CHALLENGE = "WWW-Authenticate: CPI-Key\r\n"
TEXT_MEDIA, CSV_MEDIA = "text/plain; charset=utf-8", "text/csv; charset=utf-8"


def rows(*replies: dict[str, object]) -> bytes:
    """The response of an import."""
    return response("200 OK", json.dumps({"rows": replies}, separators=(",", ":")) + "\n")


def text_of(table: str) -> bytes:
    """The response of a printed table."""
    return response("200 OK", table, TEXT_MEDIA)


def csv_of(table: str) -> bytes:
    """The response of a table in CSV."""
    return response("200 OK", table, CSV_MEDIA)


def get(target: str) -> bytes:
    """A message of anybody."""
    return message(f"GET {target}")


# Messages to one office in turn, with their responses.
TALK = [
    (QUOTE[: QUOTE.index(b"gth: 9")], b""),
    (QUOTE[:-1], b""),
    (b"", b""),
    (QUOTES, UNQUOTED),
    (
        message("GET /work/2026-01", f"authorization: cpi-key  {KA}"),
        response("200 OK", '{"work":[[1,10,"Corner shop","RICE","Rice, white","1 kg",null,null,null]]}\n'),
    ),
    (QUOTE, RECEIPT),
    (QUOTE, RECEIPT),
    (QUOTES, QUOTED),
    (QUOTE.replace(KA.encode(), KC.encode()), response("401 Unauthorized", '{"refused":11}\n', more=CHALLENGE)),
    (message("POST /import", key=KA, body=b"\n" * 65_536), response("200 OK", '{"rows":[]}\n')),
    (message("POST /import", key=KA, body=b"\n" * 65_537), LARGE),
    (message("POST /import", "Content-Length: 18446744073709551616"), LARGE),
    (message("DELETE /items"), NO_ROUTE),
    (get("/table/2026-13/text"), BAD),
    (get("/table/2150-01/text"), NO_TABLE),
    (get("/table/2026-01/text/1"), NO_TABLE),
    (get("/table/2026-01/text/0"), BAD),
    (get("/table/2026-01/text/10"), BAD),
    (get("/table/2026-01/text/01"), BAD),
    (get("/table/2026-01/text/"), NO_ROUTE),
    (get("/table/2026-01/text/1/1"), NO_ROUTE),
    (ITEMS, RICE),
    (ITEMS.replace(b"\r\n", b"\n"), RICE),
    (message("GET /items", "Host: one", "Host: two"), RICE),
    (get("/items?a=b"), NO_ROUTE),
    (message("POST /import", "Transfer-Encoding: chunked", "Content-Length: x"), refused("501 Not Implemented", 10)),
    (
        message("GET /work/2026-01", f"authorization: cpi-key  {KA}"),
        response("200 OK", '{"work":[[1,10,"Corner shop","RICE","Rice, white","1 kg",null,"price",1]]}\n'),
    ),
    (message("GET /items", "Authorization: CPI-Key abc"), BAD),
    (message("GET /nothing", "Authorization: CPI-Key abc"), NO_ROUTE),
    (get("/work/2026-01"), refused("403 Forbidden", 12)),
    (message("GET /work/2026-02", key=KA), refused("404 Not Found", 21)),
    (message("PUT /quote/9/2026-01", key=KA, body=b"price,5"), refused("404 Not Found", 20)),
    (message("PUT /quote/1/2026-01", key=KA, body=b"comparable,5"), refused("409 Conflict", 25)),
    (message("PUT /quote/1/2026-01", "Content-Length: 9", "Content-Length: 9") + b"price,210", BAD),
    (message("PUT /quote/1/2026-01", "Content-Length: 9, 9") + b"price,210", BAD),
    (message("PUT /quote/1/2026-01", "Content-Length: 009", key=KA) + b"price,210", RECEIPT),
    (message("POST /import", key=DESK, body=b"item,TEA,Tea,1 kg,500,2000"), rows({"done": True})),
    (
        message("PUT /plan/2026", key=DESK, body=b"T,00,All"),
        response("409 Conflict", '{"fault":4,"found":0,"refused":44}\n'),
    ),
    (padded(8192), None),
    (padded(8193), BAD),
    (message("GET /items", *["X: y"] * 64), None),
    (message("GET /items", *["X: y"] * 65), BAD),
    (b"GET\r\n\r\n", BAD),
    (QUOTES, QUOTED),
]


# ---- what is answered


def converse(served: Served, pairs: Sequence[tuple[bytes, bytes | None]], ends: bool = False) -> None:
    """Sends messages in turn, and compares each response, of which None stands for any 200, and the program's end."""
    responses = []
    for at, (text, wanted) in enumerate(pairs):
        got = served.ask(text, ends)
        responses.append(got)
        if wanted is None:
            assert got.startswith(b"HTTP/1.1 200 OK\r\n"), f"message {at}, {text[:80]!r}"
        else:
            assert got == wanted, f"message {at}, {text[:80]!r}"
    assert served.end() == ended_after(responses)


def test_talk(program: Program, room: str) -> None:
    """Messages in turn, each of whose peers ends what it sends."""
    with Served(program, office(program, room), len(TALK)) as served:
        converse(served, TALK, ends=True)


def test_tables(program: Program, room: str) -> None:
    """Both forms of two tables, and the list."""
    assert len(TEXT) == 583
    pairs = [
        (get("/table/2026-01/text"), text_of(TEXT)),
        (get("/table/2026-01/csv"), csv_of(CSV)),
        (get("/table/2025-12/text"), text_of("CPI 2025-12\n")),
        (get("/table/2026-01/text/1"), text_of(TEXT)),
        (get("/table/2026-01/csv/1"), csv_of(CSV)),
        (get("/table/2025-12/text/1"), text_of("CPI 2025-12\n")),
        (get("/table/2026-01/text/2"), NO_TABLE),
        (get("/tables"), response("200 OK", TABLES)),
    ]
    with Served(program, office(program, room, FROZEN), len(pairs)) as served:
        converse(served, pairs)


def test_reopened(program: Program, room: str) -> None:
    """Each revision of a month that is frozen again has its address, and the month's own is that of the latest one. A
    third revision is made over a connection, and is there when the office is served again."""
    again = message("POST /import", key=DESK, body=b"calendar,2026-01,1000,2500,5000\nfreeze,2026-01\n")
    third = text_of(SECOND_TEXT.replace("revision 2", "revision 3"))
    before = [
        (get("/tables"), response("200 OK", SECOND_TABLES)),
        (get("/table/2026-01/text"), text_of(SECOND_TEXT)),
        (get("/table/2026-01/text/2"), text_of(SECOND_TEXT)),
        (get("/table/2026-01/csv/2"), csv_of(SECOND_CSV)),
        (get("/table/2026-01/text/1"), text_of(TEXT)),
        (get("/table/2026-01/csv/1"), csv_of(CSV)),
        (get("/table/2026-01/text/3"), NO_TABLE),
        (again, rows({"done": True}, {"done": True})),
    ]
    after = [
        (get("/tables"), response("200 OK", SECOND_TABLES.replace("]]}", '],["2026-01",3,5000]]}'))),
        (get("/table/2026-01/text"), third),
        (get("/table/2026-01/text/3"), third),
        (get("/table/2026-01/text/2"), text_of(SECOND_TEXT)),
        (get("/table/2026-01/csv/1"), csv_of(CSV)),
        (again, rows({"done": True}, {"refused": 50})),
    ]
    path = office(program, room, FROZEN + AGAIN)
    with Served(program, path, len(before + after)) as served:
        converse(served, before + after)
    with Served(program, path, len(after)) as served:
        converse(served, after)


def test_by_the_clock(program: Program, room: str) -> None:
    """A window that was closed long ago is closed."""
    with Served(program, office(program, room, CLOSED), 1) as served:
        converse(served, [(QUOTE, refused("409 Conflict", 24))])


def test_by_its_zone(program: Program, room: str) -> None:
    """Civil times of the desk are read by the clock of the zone, or of UTC."""
    path = office(program, room)
    text = message("POST /import", key=DESK, body=f"calendar,2026-02,2026-01-01T00:00,{LAST},{LAST}".encode())
    zones: list[tuple[list[str], int]] = [([], 1767225600), (["--zone", "EST5"], 1767243600)]
    for zone, opens in zones:
        with Served(program, path, 1, *zone) as served:
            converse(served, [(text, rows({"done": True}))])
        with contextlib.closing(sqlite3.connect(path)) as file:
            (found,) = file.execute("SELECT opens FROM calendar WHERE month = 202602").fetchone()
        assert (zone, found) == (zone, opens)


# ---- what stands


def test_served_again(program: Program, room: str) -> None:
    """A quote stands when the office is served again, and in a copy of the file without its log."""
    path = office(program, room)
    with Served(program, path, 1) as served:
        converse(served, [(QUOTE, RECEIPT)])
    with Served(program, path, 2) as served:
        converse(served, [(QUOTES, QUOTED), (QUOTE, RECEIPT)])
    shutil.copy(path, f"{room}/copy.db")
    copied = program.replay(f"1500,{KA},quotes,2026-01,2026-01\n".encode(), f"{room}/copy.db")
    assert copied == (0, QUOTED[QUOTED.index(b'{"quotes') :], b"")


def test_killed(program: Program, room: str) -> None:
    """A quote that was answered stands after the program was killed."""
    path = office(program, room)
    with Served(program, path, 9) as served:
        assert served.ask(QUOTE) == RECEIPT
        served.going.process.send_signal(signal.SIGKILL)
        served.end()
    with Served(program, path, 1) as served:
        converse(served, [(QUOTES, QUOTED)])


# A plan that takes more room than a small database has.
CODES = [f"01.1.1.{digit}-{at:02}" for digit in range(1, 10) for at in range(1, 12)]
NODES = ["00", "01", "01.1", "01.1.1", *[f"01.1.1.{digit}" for digit in range(1, 10)], *CODES]
WEIGHTS = [1_000_000 - len(CODES) + 1, *[1] * (len(CODES) - 1)]
TITLES = [f"T,{code},{'t' * 400}\n" for code in NODES]
LARGE_PLAN = "".join(TITLES + [f"W,{code},{weight}\n" for code, weight in zip(CODES, WEIGHTS)]).encode()
PLANNED = message("PUT /plan/2026", key=DESK, body=LARGE_PLAN)


# The end if a file can't be opened again.
LOST = Ran(1, b"", REOPENING + failed("database failed").err)


def may_not_grow(path: str) -> Callable[[], None]:
    """A disk that is full once the file and its log are as long as they are."""
    return with_disk(os.path.getsize(path) + os.path.getsize(path + "-wal"))


def test_no_room(program: Program, room: str) -> None:
    """If the disk is full the response is 503, and what was stored is read as before."""
    path = office(program, room)
    with Served(program, path, 4, preexec_fn=may_not_grow(path)) as served:
        converse(served, [(PLANNED, FULL), (PLANNED, FULL), (ITEMS, RICE), (QUOTES, UNQUOTED)])


def test_lost(program: Program, room: str) -> None:
    """A full database in whose place a folder stands afterwards can't be opened again."""
    path = office(program, room)
    with Served(program, path, 4, preexec_fn=may_not_grow(path)) as served:
        os.remove(path)
        os.mkdir(path)
        assert served.ask(PLANNED) == FULL
        assert served.end() == LOST


def test_lost_unheard(program: Program, room: str) -> None:
    """The same if the plan is a row of an import whose long response its peer doesn't take."""
    path = office(program, room, LONG)
    asked = message("POST /import", key=DESK, body=b'items\nplan,2026,"' + LARGE_PLAN + b'"')
    room_for_half = with_disk(len(LARGE_PLAN) // 2)
    with Served(program, path, 1, preexec_fn=room_for_half) as served:
        assert served.ask(asked).endswith(b',{"refused":90}]}\n')
        served.end()
    with Served(program, path, 4, preexec_fn=room_for_half) as served:
        os.remove(path)
        os.mkdir(path)
        assert served.ask_and_go(asked) == b"HTTP/1.1"
        assert served.end() == LOST


# ---- what isn't served


def test_refused_words(program: Program, room: str) -> None:
    """Each fault has its line, the first of them if there are several, and nothing is written or made."""
    path, folder, other, new = office(program, room), f"{room}/folder", f"{room}/other.db", f"{room}/new.db"
    os.mkdir(folder)
    shutil.copy(path, other)
    with contextlib.closing(sqlite3.connect(other)) as changed, changed:
        changed.execute("UPDATE version SET number = 9")
    with socket.create_server(("127.0.0.1", 0)) as taken:
        port = taken.getsockname()[1]
        for words, line in [
            (serving(new, port, 1, "--zone", "nowhere", key="k"), "bad zone"),
            (serving(new, port, 1, key="k"), "bad key"),
            (serving(new, port, 1, key="D" * 32), "bad key"),
            (serving(folder, port, 1), "database failed"),
            (serving(f"{room}/none/office.db", port, 1), "database failed"),
            (serving(other, port, 1), "unknown schema"),
            (serving(path, port, 1), "no port"),
        ]:
            assert program.run(*words) == failed(line), words
            assert not os.path.exists(new), words


def test_unheard(program: Program, room: str) -> None:
    """A first line that can't be written ends the program."""
    path = office(program, room)
    with open("/dev/full", "wb") as full:
        ran = program.run(*serving(path, free_port(), 1), stdout=full)
    assert ran == failed("write failed")


def test_in_use(program: Program, room: str) -> None:
    """A file that is being served can't be served a second time, or replayed into."""
    path = office(program, room)
    with Served(program, path, 1) as served:
        assert program.run(*serving(path, free_port(), 1)) == failed("database failed")
        assert program.replay(b"", path) == failed("database failed")
        converse(served, [(ITEMS, RICE)])
