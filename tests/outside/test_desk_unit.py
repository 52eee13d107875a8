"""The desk's pages as a unit behind a front, in a booted system: only the front's user reaches their socket."""

from __future__ import annotations

from tools import clients
from .systems import System

OFFICE, SOCKET = "/var/lib/cpi/office.db", "/run/cpi-desk/front.sock"

ASKED = f"curl -s -o /dev/null -w '%{{http_code}}' --unix-socket {SOCKET} -H 'Host: prices.example' http://desk/sign-in"
"""Asks for the page to sign in, as the front does, and prints the status."""

NO_CONNECTION = 7
"""The exit status of `curl` that couldn't connect."""


def test_only_the_front_reaches_the_socket(systems: tuple[System, System]) -> None:
    system, _ = systems
    records = "\n".join(clients.survey())
    system.run(f"runuser -u cpi -- cpi replay --db {OFFICE} > /dev/null << 'END'\n{records}\nEND")
    settings = f"CPI_DESK_FRONT=https://prices.example/desk/\\nCPI_DESK_LISTEN={SOCKET}\\n"
    system.run(
        f"printf '{settings}' >> /etc/cpi/office.conf; systemctl enable --quiet --now cpi.service cpi-desk.service"
    )
    system.wait_for(f"test -S {SOCKET}")
    assert system.run(f"runuser -u www-data -- {ASKED}") == "200"
    assert system.run(f"runuser -u nobody -- {ASKED}", NO_CONNECTION) == "000"
    assert system.run("ss -Hltn 'sport = :8090'") == ""
