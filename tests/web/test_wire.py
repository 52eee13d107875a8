"""A save over the line between a collector's browser and the front: its bytes, and its end when the line fails."""

from __future__ import annotations

import socket
import time
from collections.abc import Iterator

import pytest

from .browser import Browser
from .offices import ANNA, NOW
from .peers import once
from .stage import Stage
from .wire import Wire, through

MOST = 600
"""Bytes that a save may cost both ways."""

QUIET = 11
"""Seconds after which Chromium asks whether a connection of HTTP/2 is still there, before it sends something over it."""

ASK = "window.ask = (await import('/shared/api.js')).ask;"
SAVE = "ask('POST', '/import', { key: arguments[0], body: arguments[1] })"
BEGIN = f"window.told = null; {SAVE}.then((reply) => (window.told = reply), (fault) => (window.told = fault.kind));"


@pytest.fixture
def wire(stage: Stage) -> Iterator[Wire]:
    """A line to the front."""
    with Wire(stage.port) as wire:
        yield wire


@pytest.fixture
def page(browser: Browser, wire: Wire) -> Iterator[Browser]:
    """A page of the front, opened through the line, with the module by which all pages ask."""
    with through(wire, browser):
        browser.open("/")
        browser.run_until(ASK)
        yield browser


def quiet(wire: Wire) -> None:
    """Waits until nothing has gone over a line for a while."""
    counted = None
    while counted != wire.counted():
        counted = wire.counted()
        time.sleep(0.3)


def saved(page: Browser, price: int) -> object:
    """What a save of one price is answered."""
    return page.run_until(f"return await {SAVE}", ANNA, row_of(price))


def row_of(price: int) -> str:
    return f"quote,1,{NOW},price,{price}\n"


def test_a_save_costs_few_bytes(page: Browser, wire: Wire, stage: Stage) -> None:
    """One message on a connection that is open; after the first one HTTP/2 shortens the fields that come again. Before
    the last one nothing was sent for so long that Chromium asks whether the front is still there (a ping)."""
    costs = []
    for number, seconds in enumerate((0, 0, 0, 0, QUIET)):
        quiet(wire)
        time.sleep(seconds)
        before = wire.counted()
        assert saved(page, 321 + number) == {"rows": [{"receipt": 10 + number}]}
        quiet(wire)
        costs.append(wire.counted().since(before))
    for cost in costs[1:]:
        assert cost.connections == 0 and cost.up > len(row_of(321)) and cost.down > len('{"rows":[{"receipt":10}]}\n')
        assert cost.both <= MOST, costs
    assert [row[2:4] for row in stage.quotes(ANNA)] == [["price", 325]]


def test_what_is_sent_while_the_line_hangs_comes_later(page: Browser, wire: Wire, stage: Stage) -> None:
    with wire.hanging():
        page.run(BEGIN, ANNA, row_of(321))
        time.sleep(1)
        assert page.run("return window.told") is None
        assert stage.relay.rows("quote,") == 0
    page.wait(lambda: page.run("return window.told"), "a reply")
    assert page.run("return window.told") == {"rows": [{"receipt": 10}]}


def told_once_cut(page: Browser, wire: Wire) -> object:
    """Cuts the line, also the connections on which Chromium tries again by itself."""
    wire.cut()
    return page.run("return window.told")


def test_a_line_that_is_cut_is_a_fault_and_the_next_message_comes_through(page: Browser, wire: Wire) -> None:
    saved(page, 321)
    before = wire.counted()
    with wire.hanging():
        page.run(BEGIN, ANNA, row_of(322))
        page.wait(lambda: told_once_cut(page, wire), "a fault")
        assert page.run("return window.told") == "line"
    assert saved(page, 323) == {"rows": [{"receipt": 11}]}
    assert wire.counted().since(before).connections > 0


# ---- the line itself


@pytest.fixture
def ends() -> Iterator[tuple[Wire, socket.socket, socket.socket]]:
    """A line, and the two ends of a connection over it."""
    with socket.create_server(("127.0.0.1", 0)) as listener, Wire(listener.getsockname()[1]) as wire:
        with socket.create_connection(("127.0.0.1", wire.port)) as client:
            server, _ = listener.accept()
            with server:
                client.settimeout(10)
                server.settimeout(10)
                yield wire, client, server


def test_bytes_are_counted_each_way(ends: tuple[Wire, socket.socket, socket.socket]) -> None:
    wire, client, server = ends
    client.sendall(b"x" * 1000)
    server.sendall(b"y" * 234)
    assert server.recv(1000, socket.MSG_WAITALL) == b"x" * 1000
    assert client.recv(234, socket.MSG_WAITALL) == b"y" * 234
    assert wire.counted() == (1000, 234, 1)


def test_an_end_is_handed_on_and_the_other_way_stays_open(ends: tuple[Wire, socket.socket, socket.socket]) -> None:
    _, client, server = ends
    client.shutdown(socket.SHUT_WR)
    assert server.recv(1) == b""
    server.sendall(b"z")
    assert client.recv(1) == b"z"


def test_a_hanging_line_holds_bytes_and_ends(ends: tuple[Wire, socket.socket, socket.socket]) -> None:
    wire, client, server = ends
    server.settimeout(0.3)
    with wire.hanging():
        client.sendall(b"x")
        client.shutdown(socket.SHUT_WR)
        with pytest.raises(socket.timeout):
            server.recv(1)
        assert wire.counted().both == 0
    server.settimeout(10)
    assert (server.recv(1), server.recv(1)) == (b"x", b"")


def test_a_cut_ends_both_ways_also_while_the_line_hangs(ends: tuple[Wire, socket.socket, socket.socket]) -> None:
    wire, client, server = ends
    with wire.hanging():
        client.sendall(b"x")
        time.sleep(0.1)
        wire.cut()
        assert server.recv(1) == b"" and client.recv(1) == b""
    assert once(lambda: wire.counted().up <= 1)
    with socket.create_connection(("127.0.0.1", wire.port)):
        assert once(lambda: wire.counted().connections == 2)
