"""An office with one slot whose month is always open: the requests over HTTP, and its responses."""

from __future__ import annotations

from .offices import LAST
from .program import Program
from .served import message, response

KA, KC = "a" * 32, "c" * 32
"""The key of its collector, and one that nobody has."""

OPEN = f"""0,desk,item,RICE,"Rice, white",1 kg,700,1500
0,desk,outlet,10,Corner shop
0,desk,collector,7,{KA}
0,desk,assign,7,1,10,RICE,2025-12,2026-12
0,desk,calendar,2026-01,0,{LAST},{LAST}
"""
"""Its records."""

ROWS = "".join(f"item,I{at},{'t' * 400},{'t' * 400},1,1000\n" for at in range(1500))
LONG = f'{OPEN}0,desk,import,"{ROWS}"\n'
"""The records of one whose list of items is long."""

ITEMS = message("GET /items")
RICE = response("200 OK", '{"items":[["RICE","Rice, white","1 kg",700,1500]]}\n')
QUOTE = message("PUT /quote/1/2026-01", key=KA, body=b"price,210")
RECEIPT = response("200 OK", '{"receipt":1}\n')
QUOTES = message("GET /quotes/2026-01/2026-01", key=KA)
UNQUOTED = response("200 OK", '{"quotes":[]}\n')
QUOTED = response("200 OK", '{"quotes":[[1,"2026-01","price",210,1]]}\n')


def office(program: Program, room: str, records: str = OPEN) -> str:
    """The file of an office after these records."""
    path = f"{room}/office.db"
    ran = program.replay(records.encode(), path)
    if ran.status:
        raise OSError(f"there is no office: {ran}")
    return path
