#!/usr/bin/env python3
"""Collectors who send prices to an office of this machine, each by a thread, and write down each answer.

    clients.py PORT send            sends price after price until the office is gone
    clients.py PORT again < ROWS    sends rows COLLECTOR,SLOT,PRICE once more
    clients.py PORT list            what the office has of each collector
    clients.py PORT tables          its published tables

The others print rows COLLECTOR,SLOT,PRICE,RECEIPT,MOMENT, the moment being that of the answer in seconds since 1970 UTC. It
needs only Python, since it runs in the network of the office.
"""

from __future__ import annotations

import http.client
import itertools
import json
import sys
import threading
import time
from collections.abc import Iterator
from typing import Any

CLIENTS, SLOTS, MONTH = 20, 20, "2030-01"
"""So many collectors with so many slots each, and the month that they send prices for."""


def key_of(collector: int) -> str:
    """The key of a collector."""
    return f"{collector:032x}"


def survey() -> Iterator[str]:
    """The records of the desk for such an office, whose month is open for ever."""
    yield "0,desk,item,RICE,Rice,1 kg,1,10000"
    yield "0,desk,outlet,1,Harbour market"
    yield f"0,desk,calendar,{MONTH},1,9999999998,9999999999"
    for collector in range(1, CLIENTS + 1):
        yield f"0,desk,collector,{collector},{key_of(collector)}"
        for slot in range(1, SLOTS + 1):
            yield f"0,desk,assign,{collector},{slot},1,RICE,{MONTH},{MONTH}"


def asked(port: int, collector: int, method: str, path: str, body: str = "") -> Any:
    """The answer of the office. Raises OSError, http.client.HTTPException or ValueError if there is none."""
    line = http.client.HTTPConnection("127.0.0.1", port, timeout=60)
    try:
        line.request(method, path, body.encode(), {"Authorization": f"CPI-Key {key_of(collector)}"})
        return json.loads(line.getresponse().read())
    finally:
        line.close()


def told(*row: object) -> None:
    """Prints a row at once."""
    sys.stdout.write(",".join(map(str, row)) + "\n")
    sys.stdout.flush()


def put(port: int, collector: int, slot: int, price: int) -> None:
    """Sends a price, and prints its receipt."""
    answer = asked(port, collector, "PUT", f"/quote/{slot}/{MONTH}", f"price,{price}")
    told(collector, slot, price, answer["receipt"], time.time())


def send(port: int, collector: int) -> None:
    """Sends price after price, no two alike for a slot, until the office is gone."""
    for number in itertools.count():
        try:
            put(port, collector, 1 + number % SLOTS, 1 + number)
        except (OSError, http.client.HTTPException, ValueError):
            return


def main() -> None:
    port, how = int(sys.argv[1]), sys.argv[2]
    if how == "send":
        threads = [threading.Thread(target=send, args=(port, each)) for each in range(1, CLIENTS + 1)]
        for thread in threads:
            thread.start()
        for thread in threads:
            thread.join()
    elif how == "again":
        for line in sys.stdin:
            put(port, *map(int, line.split(",")))
    elif how == "tables":
        told(asked(port, 1, "GET", "/tables"))
    else:
        for collector in range(1, CLIENTS + 1):
            for slot, _, _, value, receipt in asked(port, collector, "GET", f"/quotes/{MONTH}/{MONTH}")["quotes"]:
                told(collector, slot, value, receipt, 0)


if __name__ == "__main__":
    main()
