"""The front alone: nginx with ops/nginx.conf before the program, messages as clients send them, good and bad peers."""

from __future__ import annotations

import contextlib
import http.client
import re
import socket
import struct
import threading
import time
from collections import Counter
from collections.abc import Callable, Iterator
from concurrent.futures import ThreadPoolExecutor
from pathlib import Path
from threading import Semaphore
from typing import Optional, TypeVar

import pytest

from lib.places import ROOT
from cpi_tools.command_line import main
from cpi_tools.tryout.trial_services import Front, standing
from .offices import ANNA, BENO, DESK, NOBODY, NOW
from .peers import Peer, address_of, all_at_once, answered_within, asked, drawn_key, once, timed
from .stage import Stage

T = TypeVar("T")

COLLECTORS = 50


# ---- what comes through


def test_each_route_of_the_office_is_reached(stage: Stage) -> None:
    for method, path, key, body, status in (
        ("GET", "/api/items", None, None, 200),
        ("GET", "/api/tables", None, None, 200),
        ("GET", "/api/table/2011-01/text", None, None, 200),
        ("GET", "/api/table/2011-02/csv/2", None, None, 200),
        ("GET", "/api/table/2011-02/csv/3", None, None, 404),
        ("GET", "/api/table/2150-01/csv", None, None, 404),
        ("GET", f"/api/work/{NOW}", ANNA, None, 200),
        ("GET", f"/api/work/{NOW}", NOBODY, None, 401),
        ("GET", f"/api/work/{NOW}", None, None, 403),
        ("GET", f"/api/quotes/{NOW}/{NOW}", ANNA, None, 200),
        ("PUT", f"/api/quote/9/{NOW}", ANNA, "price,1", 404),
        ("PUT", f"/api/quote/2/{NOW}", ANNA, "price,1", 409),
        ("PUT", "/api/plan/2011", DESK, "", 409),
        ("POST", "/api/import", ANNA, "", 200),
        ("POST", "/api/import", ANNA, "\n" * 65_536, 200),
        ("POST", "/api/import", ANNA, "\n" * 65_537, 413),
    ):
        assert stage.ask(method, path, key, body).status == status, (method, path)


def test_all_else_costs_the_office_nothing(stage: Stage) -> None:
    before = len(stage.relay.seen)
    for method, path in (
        ("HEAD", "/api/items"), ("DELETE", "/api/items"), ("GET", "/api/items?x"), ("GET", "/api//items"),
        ("GET", "/api/items/"), ("POST", "/api/items"), ("GET", f"/api/work/{ANNA}"), ("OPTIONS", "/api/import"),
        ("GET", "/api/wp-login.php"), ("GET", "/api/table/2011-01/csv/1%2f2"), ("GET", "/api/../api/"),
        ("GET", "/api/"),
    ):  # fmt: skip
        assert stage.ask(method, path).status == 404, (method, path)
    assert len(stage.relay.seen) == before


def test_a_chunked_body_reaches_the_office_with_its_length(stage: Stage) -> None:
    with Peer(stage) as peer:
        head = f"POST /api/import HTTP/1.1\r\nHost: localhost\r\nAuthorization: CPI-Key {BENO}\r\nConnection: close\r\n"
        peer.send(f"{head}Transfer-Encoding: chunked\r\n\r\n5\r\nitems\r\n1\r\n\n\r\n0\r\n\r\n")
        reply = peer.rest()
    assert reply.startswith(b"HTTP/1.1 200 ") and b'{"rows":[{"items":' in reply
    head_seen, body = stage.relay.seen[-1]
    assert b"transfer-encoding" not in head_seen.lower() and b"content-length: 6" in head_seen.lower()
    assert body == b"items\n"


def test_of_a_head_the_key_and_the_length_alone_go_on(stage: Stage) -> None:
    many = {f"X_{number}": "y" for number in range(80)}
    odd = {"Cookie": "a=b", "X_Long": "x" * 6000, "Range": "bytes=0-1", "Expect": "", "If_None_Match": "x"}
    assert stage.ask("GET", f"/api/work/{NOW}", ANNA, **odd, **many).status == 200
    fields = {line.split(b":")[0].lower() for line in stage.relay.seen[-1][0].split(b"\r\n")[1:]}
    assert fields == {b"host", b"connection", b"authorization"}


def test_a_message_of_http_1_0_is_answered_as_one(stage: Stage) -> None:
    for head, body, status in (
        (f"GET /api/work/{NOW} HTTP/1.0\r\nAuthorization: CPI-Key {ANNA}", "", 200),
        (f"PUT /api/quote/1/{NOW} HTTP/1.0\r\nAuthorization: CPI-Key {ANNA}\r\nContent-Length: 9", "price,321", 200),
        ("GET /api/tables HTTP/1.0", "", 200),
        (f"POST /api/import HTTP/1.0\r\nAuthorization: CPI-Key {ANNA}", "items\n", 200),  # (no length: no body)
        ("GET /api/items HTTP/2.0", "", 505),
    ):
        with Peer(stage) as peer:
            peer.send(f"{head}\r\n\r\n{body}")
            reply = peer.rest()
        assert reply.startswith(f"HTTP/1.1 {status} ".encode()), reply
        assert b"Transfer-Encoding" not in reply, head
    assert [row[2:4] for row in stage.quotes(ANNA)] == [["price", 321]]


def test_a_message_that_is_cut_never_reaches_the_office(stage: Stage) -> None:
    before = len(stage.relay.seen)
    with Peer(stage) as peer:
        peer.send(Peer.put(ANNA, 9) + "price,1")
        time.sleep(0.3)
    time.sleep(0.2)
    assert len(stage.relay.seen) == before


def test_plain_http_is_sent_to_tls_and_nothing_of_a_query_with_it(stage: Stage) -> None:
    with socket.create_connection(("127.0.0.1", stage.plain_port)) as line:
        line.sendall(b"GET /collect/?key=secret HTTP/1.0\r\nHost: localhost\r\n\r\n")
        head = line.recv(4096).decode()
    assert head.startswith("HTTP/1.1 301 ") and "Location: https://localhost/collect/\r\n" in head


def test_what_certbot_leaves_is_served_without_tls(stage: Stage) -> None:
    """And nothing else is: the rest is sent to TLS."""
    left = stage.folder / ".well-known/acme-challenge/a1"
    left.parent.mkdir(parents=True, exist_ok=True)
    left.write_text("proof")
    stage.front.stop()
    with standing(stage.front, lambda text: text.replace("root /var/www/html;", f"root {stage.folder};")):
        for path, status in (("/.well-known/acme-challenge/a1", 200), ("/.well-known/x", 301), ("/site.key", 301)):
            line = http.client.HTTPConnection("127.0.0.1", stage.plain_port, timeout=60)
            with contextlib.closing(line):
                line.request("GET", path)
                answer = line.getresponse()
                assert (answer.status, answer.read() == b"proof") == (status, status == 200), path


def test_no_key_stands_in_a_log_of_the_front(stage: Stage) -> None:
    stage.ask("GET", f"/api/work/{NOW}", ANNA)
    stage.ask("GET", f"/api/work/{NOW}", NOBODY)
    stage.ask("GET", f"/api/work/{BENO}")
    stage.ask("POST", "/api/import", DESK, "x" * 70_000)
    logs = stage.logs(4)
    assert "POST /api/import" in logs
    assert [key for key in (ANNA, BENO, NOBODY, DESK, "CPI-Key") if key in logs] == []


def test_a_key_that_somebody_puts_into_an_address_stands_in_no_log(stage: Stage) -> None:
    """Also where nginx has an error to tell: a body that is too large, a method or a folder that isn't for anybody."""
    for path in (f"/api/work/{ANNA}", f"/{ANNA}", f"/shared/?key={ANNA}", f"/collect/?{ANNA.upper()}"):
        for method, body in (("GET", None), ("POST", ""), ("POST", "x" * 70_000), (ANNA.upper(), None)):
            assert stage.ask(method, path, body=body).status in (200, 400, 403, 404, 405, 413), (method, path)
    with socket.create_connection(("127.0.0.1", stage.plain_port)) as line:
        line.sendall(f"POST /?key={ANNA} HTTP/1.1\r\nHost: localhost\r\nContent-Length: 9999999\r\n\r\n".encode())
        assert line.recv(4096).startswith((b"HTTP/1.1 301 ", b"HTTP/1.1 413 "))
    assert ANNA not in stage.logs(17).lower()


# ---- what is kept


def test_named_tables_are_kept_and_what_bears_a_key_is_not(stage: Stage) -> None:
    for _ in range(3):
        answer = stage.ask("GET", "/api/table/2011-02/text/1")
        assert (answer.status, answer.fields["Cache-Control"]) == (200, "public, max-age=86400, immutable")
    assert stage.relay.asked().count("GET /table/2011-02/text/1") == 1
    assert stage.ask("GET", "/api/table/2011-02/text/1", NOBODY).status == 401  # (by the office)
    assert stage.relay.asked().count("GET /table/2011-02/text/1") == 2
    for _ in range(2):
        answer = stage.ask("GET", f"/api/work/{NOW}", BENO)
        assert (answer.status, answer.fields["Cache-Control"]) == (200, "no-store")
    assert stage.relay.asked().count(f"GET /work/{NOW}") == 2
    assert stage.ask("GET", "/api/items", NOBODY).status == 401
    assert stage.ask("GET", "/api/table/2011-04/csv/1").fields["Cache-Control"] == "no-store"


def crowd(work: Callable[[int], T]) -> list[tuple[float, T]]:
    """What fifty peers that come at once wait and are answered."""
    return all_at_once(COLLECTORS, lambda number: timed(lambda: work(number)))


def test_a_crowd_that_asks_for_one_list_is_few_requests_to_the_office(stage: Stage) -> None:
    """Those of one second are one request, also where the table isn't there: nobody waits in turn for it."""
    for path, status in (("/api/tables", 200), ("/api/table/2011-07/csv/1", 404), ("/api/table/2011-07/text", 404)):
        before, begun = len(stage.relay.seen), time.monotonic()
        found = answered_within(3, lambda: crowd(lambda number: asked(stage, path, address=number)))
        assert set(found) == {status}
        # (a request a second, however long it took)
        assert len(stage.relay.seen) - before <= 2 + (time.monotonic() - begun), stage.relay.asked()[before:]


def test_the_office_that_is_away_is_told_as_busy(stage: Stage) -> None:
    stage.stop_office()
    answer = stage.ask("GET", f"/api/work/{NOW}", ANNA)
    assert answer.status in (502, 503, 504)
    assert answer.fields["Retry-After"] == "2"
    assert "json" not in answer.fields["Content-Type"] and b"refused" not in answer.body
    stage.start_office()
    assert stage.ask("GET", f"/api/work/{NOW}", ANNA).status == 200


# ---- the pages


def test_the_website_and_what_an_office_sets_lie_outside_of_the_pages(stage: Stage) -> None:
    site = stage.folder / "elsewhere"
    (site / "data").mkdir(parents=True)
    (site / "data/cpi.csv").write_text("a,b\n")
    (site / "set.js").write_text("export const office = {};\n")
    place = stage.front.place._replace(config=site / "set.js", published=site)
    stage.front.stop()
    with standing(Front(stage.front.source, stage.folder, place)):
        for path, status, kind, body in (
            ("/config.js", 200, "application/javascript; charset=utf-8", b"export const office = {};\n"),
            ("/published/data/cpi.csv", 200, "text/csv; charset=utf-8", b"a,b\n"),
            ("/published/nothing", 404, "text/html; charset=utf-8", None),
            ("/published../set.js", 404, "text/html; charset=utf-8", None),
            ("/set.js", 404, "text/html; charset=utf-8", None),
            ("/published", 301, "text/html", None),
        ):
            answer = stage.ask("GET", path)
            assert (answer.status, answer.fields["Content-Type"]) == (status, kind), path
            assert body is None or answer.body == body
            assert answer.fields["Cache-Control"] == ("no-cache" if status == 200 else "no-store")
            assert answer.fields["X-Content-Type-Options"] == "nosniff"
            assert stage.ask("POST", path, body="x").status != 200
        assert answer.fields["Location"] == "/published/"


@pytest.mark.parametrize(
    ("path", "to"),
    [("/", (302, "/published/")), ("/index.html", (302, "/published/")), ("/tables", (301, "/published/choose.html")),
     ("/tables/", (301, "/published/choose.html")), ("/tables/app.js", (301, "/published/choose.html")),
     ("/tables/?items=00+01&from=2026-01", (301, "/published/choose.html?items=00+01&from=2026-01"))],
)  # fmt: skip
def test_the_first_page_and_the_tables_are_the_websites(stage: Stage, tmp_path: Path, path: str, to: object) -> None:
    """Until there is one, the first page is the one that says so."""

    def led() -> tuple[int, str]:
        answer = stage.ask("GET", path)
        assert answer.fields["Cache-Control"] == ("no-cache" if answer.status == 200 else "no-store")
        return answer.status, answer.fields.get("Location", "")

    assert led() == ((302, "/") if path.startswith("/tables") else (200, ""))
    for name in ("index.html", "choose.html"):
        (tmp_path / name).write_text("<h1>Prices</h1>")
    stage.published.symlink_to(tmp_path)
    assert led() == to
    assert stage.ask("GET", "/tablesx").status == 404 and stage.ask("POST", path, body="x").status == 403


BESIDE = ("/nothing", "/news/2026/index.html", "/collect/nothing")
MACHINES = ("/api/nothing", "/news/../api/x", "/calendar.json")


def test_the_website_has_its_own_page_for_a_wrong_address(stage: Stage) -> None:
    """At any depth, and beside the website too, as long as it is there; what programs ask for has none. Its style is allowed
    there. A calendar and a text have their types."""
    site = stage.folder / "lost"
    site.mkdir()
    (site / "calendar.ics").write_text("BEGIN:VCALENDAR\r\n" * 100)
    (site / "release.txt").write_text("Prix")
    stage.front.stop()
    with standing(Front(stage.front.source, stage.folder, stage.front.place._replace(published=site))):
        for path in ("/published/nothing", *BESIDE):
            answer = stage.ask("GET", path)
            assert answer.status == 404 and b"nginx" in answer.body, path
        (site / "404.html").write_text("<!DOCTYPE html>none here")
        for path in ("/published/nothing", "/published/node/deep/nothing.html", *BESIDE, *MACHINES):
            answer = stage.ask("GET", path)
            is_own = answer.body == b"<!DOCTYPE html>none here"
            assert answer.status == 404 and is_own == (path not in MACHINES), path
            assert answer.fields["Cache-Control"] == "no-store"
            assert ("style-src 'self' 'unsafe-inline'" in answer.fields["Content-Security-Policy"]) == is_own, path
        assert stage.ask("POST", "/nothing", body="x").status == 403
        for name, kind in (("calendar.ics", "text/calendar"), ("release.txt", "text/plain")):
            assert stage.ask("GET", f"/published/{name}").fields["Content-Type"] == f"{kind}; charset=utf-8"
        (site / "release.pdf").write_bytes(b"%PDF-")
        assert stage.ask("GET", "/published/release.pdf").fields["Content-Type"] == "application/pdf"


def test_cards_feed_and_calendar_are_for_other_sites(stage: Stage) -> None:
    """Pages of releases aren't: only what other sites show or read."""
    site = stage.folder / "shared"
    (site / "release").mkdir(parents=True)
    names = ("release/2026-01-r1.png", "feed.xml", "calendar.ics", "release/2026-01-r1.html", "sitemap.xml")
    for name in names:
        (site / name).write_text("text")
    stage.front.stop()
    with standing(Front(stage.front.source, stage.folder, stage.front.place._replace(published=site))):
        fields = [stage.ask("GET", f"/published/{name}").fields for name in names]
        assert [field.get("Access-Control-Allow-Origin") for field in fields] == ["*"] * 3 + [None] * 2
        assert [field["Cross-Origin-Resource-Policy"] for field in fields] == ["cross-origin"] * 3 + ["same-origin"] * 2


def test_the_calendar_is_asked_for_again_each_time_and_not_there_until_it_is_written(stage: Stage) -> None:
    """The file that `cpi-tools calendar` writes; it is the front's, so it costs the office nothing."""
    before = len(stage.relay.seen)
    answer = stage.ask("GET", "/calendar.json")
    assert (answer.status, answer.fields["Cache-Control"]) == (404, "no-store")
    assert main(["calendar", str(stage.db), "--out", str(stage.calendar)]) == 0
    answer = stage.ask("GET", "/calendar.json")
    assert (answer.status, answer.fields["Content-Type"]) == (200, "application/json")
    assert (answer.fields["Cache-Control"], answer.fields["X-Content-Type-Options"]) == ("no-cache", "nosniff")
    (window,) = answer.reply["months"]
    assert (window["month"], window["opens"]) == (NOW, 5000) and window["closes"] > time.time()
    again = stage.ask("GET", "/calendar.json", If_None_Match=answer.fields["ETag"])
    assert (again.status, again.body, again.fields["Cache-Control"]) == (304, b"", "no-cache")
    for method in ("POST", "PUT", "DELETE", "OPTIONS"):
        assert stage.ask(method, "/calendar.json", body="x").status == 403, method
    assert answer.body == stage.calendar.read_bytes()
    assert len(stage.relay.seen) == before


def test_the_policy_of_the_pages(stage: Stage) -> None:
    for path in ("/", "/collect/", "/collect/sw.js", "/config.js", "/nothing", "/api"):
        fields = stage.ask("GET", path).fields
        policy = fields["Content-Security-Policy"]
        assert policy.startswith("default-src 'none'; script-src 'self'; style-src 'self'; ")
        assert not re.search(r"unsafe|data:|blob:|\*|https?:", policy)
        assert "require-trusted-types-for 'script'" in policy and "frame-ancestors 'none'" in policy
        assert (fields["X-Content-Type-Options"], fields["Referrer-Policy"]) == ("nosniff", "no-referrer")
        assert fields["Strict-Transport-Security"] == "max-age=31536000"
        assert (fields["Cross-Origin-Opener-Policy"], fields["Cross-Origin-Resource-Policy"]) == ("same-origin",) * 2
        assert fields["Permissions-Policy"] == "camera=(), geolocation=(), microphone=()"
        assert "Access-Control-Allow-Origin" not in fields
    assert "nginx/" not in stage.ask("GET", "/").fields["Server"]
    caddy = (ROOT / "ops/Caddyfile").read_text(encoding="utf-8")
    assert f'Content-Security-Policy "{policy}"' in caddy


OF_REPLIES = {
    "Server", "Date", "Content-Type", "Content-Length", "Connection",
    "Cache-Control", "X-Content-Type-Options", "Cross-Origin-Resource-Policy", "Content-Security-Policy",
}  # fmt: skip
"""Fields of a reply: the first line has those of each message of HTTP/1.1 (`Connection` isn't in HTTP/2)."""


def test_a_reply_has_no_field_that_only_pages_need(stage: Stage) -> None:
    """A collector pays for it with each save. What is opened as a page can do nothing."""

    def fields(method: str, path: str, key: Optional[str], body: Optional[str], status: int) -> set[str]:
        answer = stage.ask(method, path, key, body)
        assert answer.status == status, (method, path)
        assert answer.fields["Content-Security-Policy"] == "default-src 'none'"
        assert answer.fields["X-Content-Type-Options"] == "nosniff"
        # (published tables are for everybody, and for pages and scripts of other sites too)
        is_public = path.startswith("/api/table")
        assert answer.fields["Cross-Origin-Resource-Policy"] == ("cross-origin" if is_public else "same-origin")
        assert answer.fields.get("Access-Control-Allow-Origin") == ("*" if is_public else None)
        return {*answer.fields} - {"Access-Control-Allow-Origin"}

    for asked_for in (
        ("POST", "/api/import", ANNA, f"quote,1,{NOW},price,321\n", 200),
        ("PUT", f"/api/quote/2/{NOW}", ANNA, "price,1", 409),
        ("GET", f"/api/work/{NOW}", ANNA, None, 200),
        ("GET", "/api/tables", None, None, 200),
        ("GET", "/api/table/2011-01/text", None, None, 200),
        ("GET", "/api/nothing", None, None, 404),
        ("GET", "/%61pi/work/x", None, None, 404),
        ("POST", "/api/import", None, "items", 403),
        ("POST", "/api/import", "x", "items", 400),
        ("POST", "/api/import", ANNA, "items\n" * 17, 413),
    ):
        assert fields(*asked_for) == OF_REPLIES, asked_for
    # (RFC 9110, 15.5.2: a 401 has it)
    assert fields("GET", f"/api/work/{NOW}", NOBODY, None, 401) == OF_REPLIES | {"WWW-Authenticate"}
    stage.stop_office()
    assert fields("GET", "/api/table/2011-01/csv", BENO, None, 502) == OF_REPLIES | {"Retry-After"}
    caddy = (ROOT / "ops/Caddyfile").read_text(encoding="utf-8")
    assert "header /api/* Content-Security-Policy \"default-src 'none'\"" in caddy


def test_pages_name_nothing_outside_and_hold_no_script_of_their_own() -> None:
    files = [path for path in (ROOT / "web").rglob("*") if path.is_file() and path.suffix != ".png"]
    assert len(files) > 25
    for path in files:
        text = path.read_text(encoding="utf-8")
        named = set(re.findall(r"https?://[^\s\"'`)<]+", text)) - {"http://www.w3.org/2000/svg"}
        assert named == set(), path
        if path.suffix == ".html":
            assert not re.search(r"<script(?![^>]*\bsrc=)|<style|\sstyle=|\son\w+=", text), path
            assert '<html lang="en-GB">' in text and re.search(r"<title[ >]", text), path
        # (nothing moves by itself, so nobody has to ask for less of it)
        assert not re.search(r"\b(animation|transition|scroll-behavior)\b|@keyframes|\.animate\(|behavior:", text), path
        assert not re.search(r"innerHTML|outerHTML|insertAdjacentHTML|document\.write|eval\(|new Function", text), path


# ---- bad peers


@contextlib.contextmanager
def slow_peers(stage: Stage, count: int) -> Iterator[None]:
    """Peers that send a quote, a byte a second, each from an address of its own."""
    over = threading.Event()
    message = (Peer.put(ANNA, 60_000) + "x" * 60_000).encode()

    def drip(peer: Peer) -> None:
        for byte in message:
            with contextlib.suppress(OSError):
                peer.line.sendall(bytes([byte]))
            if over.wait(1):
                return

    with contextlib.ExitStack() as peers:
        threads = [
            threading.Thread(target=drip, args=(peers.enter_context(Peer(stage, 200 + number)),))
            for number in range(count)
        ]
        for thread in threads:
            thread.start()
        try:
            yield
        finally:
            over.set()
            for thread in threads:
                thread.join()


def test_slow_peers_hold_nobody_up(stage: Stage) -> None:
    """Each of fifty collectors is answered within a second beside peers that send a byte a second."""
    with slow_peers(stage, 10):
        time.sleep(1.5)
        for _ in range(2):
            found = answered_within(
                1, lambda: crowd(lambda number: asked(stage, f"/api/work/{NOW}", (ANNA, BENO)[number % 2], number))
            )
            assert Counter(found) == {200: COLLECTORS}
    assert stage.relay.rows("x") == 0


def test_peers_whose_messages_are_not_whole_take_no_place_in_the_queue(stage: Stage) -> None:
    """More of them than may wait for the office: a whole message goes past all of them."""
    with contextlib.ExitStack() as peers:
        for number in range(120):
            peers.enter_context(Peer(stage, number)).send(Peer.put(f"{number:032x}", 60_000) + "x" * 9000)
        time.sleep(0.3)
        assert asked(stage, f"/api/work/{NOW}", BENO, 130) == 200


def test_peers_that_are_gone_shake_nothing(stage: Stage) -> None:
    """Peers that ask and are gone with a reset, without reading: the office's replies are taken all the same."""
    for number in range(10):
        with Peer(stage, number) as peer:
            peer.send(f"GET /api/work/{NOW} HTTP/1.1\r\nHost: localhost\r\nAuthorization: CPI-Key {ANNA}\r\n\r\n")
            peer.line.setsockopt(socket.SOL_SOCKET, socket.SO_LINGER, struct.pack("ii", 1, 0))
    assert answered_within(1, lambda: [timed(lambda: asked(stage, f"/api/work/{NOW}", ANNA, 99))]) == [200]
    assert stage.office and stage.office.poll() is None


def test_one_address_takes_no_more_than_its_share(stage: Stage) -> None:
    """Of 72 connections of one address 64 may wait for their bodies; another address is served meanwhile."""
    with contextlib.ExitStack() as peers:
        contexts = [peers.enter_context(Peer(stage, 7)) for _ in range(72)]
        for peer in contexts:
            peer.send(Peer.put(drawn_key(), 9))
        told = [""] * len(contexts)

        def refused() -> int:
            told[:] = [before + peer.head() for before, peer in zip(told, contexts)]
            return sum(text.startswith("HTTP/1.1 429 ") for text in told)

        assert once(lambda: refused() >= 8)
        time.sleep(0.3)
        assert refused() == 8
        assert asked(stage, f"/api/work/{NOW}", BENO, 8) == 200


def test_who_asks_faster_than_anybody_reads_is_told_to_wait(stage: Stage) -> None:
    """Twenty messages a second, and 200 more at once, are an address's; another one is served meanwhile. (The address is
    one that no other test has: it has to wait for ten seconds more.)"""
    one = (address_of(999), 0)
    line = http.client.HTTPSConnection("localhost", stage.port, context=stage.context, source_address=one)
    with contextlib.closing(line):
        for number in range(2000):
            line.request("GET", "/api/items")
            answer = line.getresponse()
            answer.read()
            if answer.status != 200:
                break
    assert (answer.status, answer.getheader("Retry-After"), number >= 200) == (429, "2", True)
    assert asked(stage, "/api/items", address=10) == 200


def test_more_than_a_hundred_that_wait_are_told_to_come_again(stage: Stage) -> None:
    """While the office stands still a hundred wait, and are answered afterwards, each once; each has another key."""
    refused = Semaphore(0)

    def told(number: int) -> int:
        status = asked(stage, f"/api/work/{NOW}", f"{number:032x}", number)
        if status == 503:
            refused.release()
        return status

    def go_on() -> None:
        """Lets the office go on once twenty were refused."""
        for _ in range(20):
            refused.acquire(timeout=60)
        stage.go_on()

    with stage.standing_still(), ThreadPoolExecutor(1) as beside:
        beside.submit(go_on)
        found = all_at_once(120, told)
    assert Counter(found) == {401: 100, 503: 20}
    # (a queue that is full for a minute wrote thousands of lines)
    logs = [(stage.folder / name).read_text(encoding="utf-8") for name in ("error.log", "access.log-errors")]
    assert "limiting" not in "".join(logs)
