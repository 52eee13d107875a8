"""The desk's application behind the front: who reaches it, what the front hands on, and what is said while it's away."""

from __future__ import annotations

import os
import re
import stat
from collections.abc import Callable, Iterator
from pathlib import Path

import pytest

from .browser import Browser
from lib.places import ROOT
from .desk_pages import PREFIX, DeskPages, Person, desk_pages
from .offices import ANNA, DESK, NOBODY
from .peers import Peer
from .readable import faults_enlarged, faults_of_page
from .stage import Answer, Stage

FORM = {"Content_Type": "application/x-www-form-urlencoded"}


@pytest.fixture
def fronted(stage: Stage, tmp_path: Path) -> Iterator[DeskPages]:
    """The application behind the front, as CPI_DESK_FRONT sets it."""
    with desk_pages(stage, tmp_path, f"{stage.url}{PREFIX}/") as pages:
        yield pages


def test_nobody_past_the_front_reaches_it(fronted: DeskPages, stage: Stage) -> None:
    """There is no port, and the socket is open to its owner and its folder's group."""
    assert stat.S_IMODE(fronted.socket.stat().st_mode) == 0o660
    assert fronted.process and not listening_ports(fronted.process.pid)


def listening_ports(process: int) -> list[str]:
    """The ports of TCP at which a process listens."""
    table = "".join(Path(f"/proc/net/{name}").read_text(encoding="ascii") for name in ("tcp", "tcp6"))
    at = {cells[9]: cells[1] for cells in map(str.split, table.splitlines()) if cells[3] == "0A"}
    links = (os.readlink(path) for path in Path(f"/proc/{process}/fd").iterdir() if path.is_symlink())
    return [at[link[8:-1]] for link in links if link.startswith("socket:[") and link[8:-1] in at]


def signed_in(stage: Stage, key: str, **fields: str) -> Answer:
    """The answer to a key."""
    form = f"name=Ada&key={key}&to=/"
    return stage.ask("POST", f"{PREFIX}/sign-in", body=form, **FORM, Origin=stage.url, **fields)


def test_a_person_works_behind_the_front(fronted: DeskPages, stage: Stage, browser: Browser) -> None:
    person = Person(browser, fronted)
    person.sign_in("Ada")
    cookie = browser.driver.get_cookie("cpi_desk")
    assert (cookie["secure"], cookie["httpOnly"], cookie["sameSite"]) == (True, True, "Strict")
    assert cookie["path"] == PREFIX
    person.send("outlet,72,Behind the front")
    answer = stage.ask("GET", f"{PREFIX}/sign-in")
    assert answer.fields["Content-Security-Policy"].startswith("default-src 'none'; style-src 'self';")
    assert answer.fields["Referrer-Policy"] == "same-origin" and answer.fields["Cache-Control"] == "no-store"
    assert "max-age" in answer.fields["Strict-Transport-Security"] and browser.faults() == []
    assert "Content-Encoding" not in stage.ask("GET", f"{PREFIX}/sign-in", Accept_Encoding="gzip").fields
    assert stage.ask("GET", PREFIX).fields["Location"] == f"{PREFIX}/"
    logs = stage.logs()
    assert DESK not in logs and cookie["value"] not in logs


def test_nothing_is_to_be_seen_without_a_session(fronted: DeskPages, stage: Stage) -> None:
    for path in ("/", "/calendar", "/records", "/log", "/month/2011-02/", "/calendar/calendar.json", "/log.csv"):
        answer = stage.ask("GET", PREFIX + path)
        assert answer.status in (302, 404) and b"February" not in answer.body, path
        assert answer.status == 404 or answer.fields["Location"].startswith(f"{PREFIX}/sign-in?to=")
    for key in (ANNA, NOBODY):
        assert signed_in(stage, key).status == 403
    # (neither does the desk's key in a field let anybody in)
    assert stage.ask("GET", f"{PREFIX}/records", DESK).status == 302
    assert stage.ask("POST", f"{PREFIX}/records/judge", DESK, "text=outlet,1,X", **FORM).status == 403
    assert stage.ask("PUT", f"{PREFIX}/records", body="x").status == 403


def test_wrong_keys_are_counted_by_the_address_that_the_front_sees(fronted: DeskPages, stage: Stage) -> None:
    """What a client says of itself is none of that: it could lock others out, and never be locked out."""
    own = (("X_Forwarded_For", "198.51.100.7"), ("Forwarded", "for=198.51.100.8"), ("X_Real_IP", "198.51.100.9"))
    for name, value in (*own, *own):
        last = signed_in(stage, NOBODY, **{name: value})
    assert b"Too many wrong keys" in last.body
    assert b"Too many wrong keys" in signed_in(stage, DESK, X_Forwarded_For="198.51.100.77").body
    with Peer(stage, 9) as peer:  # (another address isn't locked)
        form = f"name=Ben&key={DESK}&to=/"
        head = f"POST {PREFIX}/sign-in HTTP/1.1\r\nHost: localhost:{stage.port}\r\nOrigin: {stage.url}\r\n"
        head += f"Content-Type: application/x-www-form-urlencoded\r\nContent-Length: {len(form)}\r\n"
        peer.send(f"{head}Connection: close\r\n\r\n{form}")
        assert peer.rest().startswith(b"HTTP/1.1 303 ")


def test_forms_of_elsewhere_and_other_names_are_refused(fronted: DeskPages, stage: Stage) -> None:
    form = f"name=Ada&key={DESK}&to=/"
    evil = stage.ask("POST", f"{PREFIX}/sign-in", body=form, **FORM, Origin="https://evil.example")
    assert evil.status == 403 and "Set-Cookie" not in evil.fields
    named = stage.ask("GET", f"{PREFIX}/sign-in", Host="evil.example")
    assert named.status == 400 and b"evil.example" in named.body and b"its address is <bdi>https" in named.body


def test_it_may_be_for_the_offices_network_only(fronted: DeskPages, stage: Stage) -> None:
    for network, status in (("192.0.2.0/24", 403), ("127.0.0.0/8", 200)):
        stage.front.stop()
        stage.front.start(limited(network))
        try:
            assert stage.ask("GET", f"{PREFIX}/sign-in").status == status, network
            assert stage.ask("GET", "/collect/").status == 200
        finally:
            stage.front.stop()
    stage.front.start()


def limited(network: str) -> Callable[[str], str]:
    """Takes the signs away from the two lines of the front, and names a network there."""

    def change(text: str) -> str:
        change, count = re.subn(r"# (allow 192\.0\.2\.0/24;|deny  all;)", r"\1", text)
        assert count == 2
        return change.replace("192.0.2.0/24", network)

    return change


def test_while_it_is_away_one_sentence_says_so_and_all_else_works(
    fronted: DeskPages, stage: Stage, browser: Browser
) -> None:
    person = Person(browser, fronted)
    person.sign_in("Ada")
    fronted.kill()
    away = stage.ask("GET", f"{PREFIX}/records")
    assert (away.status, away.fields["Retry-After"], away.fields["Cache-Control"]) == (503, "2", "no-store")
    assert stage.ask("POST", f"{PREFIX}/records/judge", body="text=x", **FORM).status == 503
    assert stage.ask("GET", "/away.html").status == 404
    person.open("/records")
    assert browser.text("main p").startswith(
        "The desk\u2019s pages can\u2019t be reached at the moment. Try again in a minute"
    )
    languages = browser.run("return [...document.querySelectorAll('main p')].map((it) => it.lang || 'en')")
    assert languages == ["en", "ar", "es", "fr"]
    for width in (360, 1280):
        browser.size(width, 800)
        assert [*faults_of_page(browser), *faults_enlarged(browser)] == []
    for path in ("/collect/", "/api/tables", "/api/items"):
        assert stage.ask("GET", path).status == 200
    fronted.start()
    person.open("/records")
    assert "Sign in at the desk" in browser.text("h1")  # (a session ends with the application)


def test_without_its_address_there_it_says_what_to_set(stage: Stage, tmp_path: Path) -> None:
    with desk_pages(stage, tmp_path):
        answer = stage.ask("GET", f"{PREFIX}/sign-in")
        assert answer.status == 400 and b"CPI_DESK_FRONT" in answer.body and "Set-Cookie" not in answer.fields


def test_the_front_and_the_unit_name_one_socket_and_one_address() -> None:
    ops = {name: (ROOT / "ops" / name).read_text(encoding="utf-8") for name in ("nginx.conf", "Caddyfile", "cpi-desk")}
    guide = (ROOT / "docs/run/FRONT.md").read_text(encoding="utf-8")
    folder = (ROOT / "ops/cpi-desk.tmpfiles").read_text(encoding="utf-8")
    assert "127.0.0.1:8090" in ops["cpi-desk"] and "CPI_DESK_LISTEN=/run/cpi-desk/front.sock" in ops["cpi-desk"]
    assert guide.count("@DESK@|unix:/run/cpi-desk/front.sock|") == 1 and "\nd /run/cpi-desk 2710 " in folder
    assert "unix:/run/cpi-desk/front.sock" in ops["nginx.conf"] and "unix//run/cpi-desk/front.sock" in ops["Caddyfile"]
    for name in ("nginx.conf", "Caddyfile"):
        assert "@DESK@" in ops[name] and "https://@HOST@/desk/" in ops[name]
