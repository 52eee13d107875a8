"""`ops/Caddyfile` before an office: Caddy hands it whole messages of known length alone, however slow a peer is."""

from __future__ import annotations

import contextlib
import http.client
import os
import shutil
import socket
import ssl
import subprocess
import threading
import time
from collections.abc import Callable, Iterator
from concurrent.futures import ThreadPoolExecutor
from pathlib import Path
from typing import NamedTuple

import pytest

from lib.places import ROOT
from lib.served import free_port

KEY = "0123456789abcdef0123456789abcdef"
REPLY = b'{"tables":[]}\n'


class Office:
    """What listens at the office's port: one connection after another, and each message as it came."""

    def __init__(self) -> None:
        self.port = free_port()
        self.messages: list[bytes] = []
        self.import_seconds = 0.0
        self.is_silent = False
        self.fields = ""
        self.comes()

    def comes(self) -> None:
        """Listens from now on."""
        self.socket = socket.create_server(("127.0.0.1", self.port))
        threading.Thread(target=self._serve, args=(self.socket,), daemon=True).start()

    def goes(self) -> None:
        """Nobody listens any more."""
        self.socket.shutdown(socket.SHUT_RDWR)
        self.socket.close()

    def _serve(self, listener: socket.socket) -> None:
        with contextlib.suppress(OSError):
            while True:
                self._answer(listener.accept()[0])

    def _answer(self, peer: socket.socket) -> None:
        with peer:
            message = whole(peer)
            self.messages.append(message)
            time.sleep(self.import_seconds if message.startswith(b"POST /import ") else 0)
            head = f"HTTP/1.1 200 OK\r\nContent-Type: application/json\r\nContent-Length: {len(REPLY)}\r\n{self.fields}"
            if not self.is_silent:
                peer.sendall(f"{head}Connection: close\r\n\r\n".encode() + REPLY)


def whole(peer: socket.socket) -> bytes:
    """A message with its body."""
    data = b""
    while b"\r\n\r\n" not in data:
        data += peer.recv(65536)
    head, _, body = data.partition(b"\r\n\r\n")
    length = [line for line in head.lower().split(b"\r\n") if line.startswith(b"content-length:")]
    while length and len(body) < int(length[0].partition(b":")[2]):
        body += peer.recv(65536)
    return head + b"\r\n\r\n" + body


class Front(NamedTuple):
    """Caddy with the file of `ops/`: its port, that without TLS, the office behind it, its log, and what is in the place of
    the desk's application."""

    port: int
    plain_port: int
    office: Office
    log: Path
    desk: Office

    def line(self) -> http.client.HTTPSConnection:
        """A connection to it."""
        trusting = ssl.SSLContext(ssl.PROTOCOL_TLS_CLIENT)
        trusting.check_hostname, trusting.verify_mode = False, ssl.CERT_NONE
        return http.client.HTTPSConnection("localhost", self.port, timeout=20, context=trusting)

    def asked(self, method: str, path: str, **named: object) -> tuple[int, bytes]:
        """The status and the body of an answer."""
        with contextlib.closing(self.line()) as line:
            line.request(method, path, **named)  # type: ignore[arg-type]
            answer = line.getresponse()
            return answer.status, answer.read()


TRIES = 3
"""How often Caddy is started with other ports, where somebody took one of them meanwhile."""


def filled(folder: Path, front: Front) -> str:
    """The file of `ops/` with its words filled in; nothing that Caddy writes lies outside of the folder."""
    text = (ROOT / "ops/Caddyfile").read_text(encoding="utf-8")
    own = f"{{\n\tskip_install_trust\n\tadmin off\n\thttp_port {front.plain_port}\n\thttps_port {front.port}\n\tservers {{"
    assert text.count("{\n\tservers {") == 1
    text = text.replace("{\n\tservers {", own)
    words = {"HOST": "localhost", "PORT": str(front.office.port), "LOG": str(front.log), "WEB": f"{folder}/web"}
    words.update(
        DESK=f"127.0.0.1:{front.desk.port}",
        CONFIG=f"{folder}/set.js",
        SITE=f"{folder}/site",
        CALENDAR=f"{folder}/calendar.json",
    )
    for word, value in words.items():
        text = text.replace(f"@{word}@", value)
    # (the desk's application is played by the same office)
    return text.replace("127.0.0.1:8090", f"127.0.0.1:{front.office.port}")


@contextlib.contextmanager
def running(caddy: str, folder: Path) -> Iterator[subprocess.Popen[bytes]]:
    """Caddy with the file of a folder."""
    home = {name: str(folder) for name in ("HOME", "XDG_DATA_HOME", "XDG_CONFIG_HOME")}
    words = [caddy, "run", "--adapter", "caddyfile", "--config", str(folder / "Caddyfile")]
    with (folder / "told").open("wb") as told:
        with subprocess.Popen(words, stdout=told, stderr=told, env={**os.environ, **home}) as process:
            try:
                yield process
            finally:
                process.terminate()


@pytest.fixture
def front(needed: Callable[[str], str], tmp_path: Path) -> Iterator[Front]:
    """Caddy before an office, with a certificate of its own."""
    caddy, office, desk = needed("caddy"), Office(), Office()
    shutil.copytree(ROOT / "web", tmp_path / "web")
    (tmp_path / "set.js").write_text("export const office = {};\n")
    (tmp_path / "site").mkdir()
    for _ in range(TRIES):
        front = Front(free_port(), free_port(), office, tmp_path / "log", desk)
        (tmp_path / "Caddyfile").write_text(filled(tmp_path, front))
        with running(caddy, tmp_path) as process:
            if answers(front, process):
                yield front
                return
    told = (tmp_path / "told").read_text(encoding="utf-8", errors="replace").splitlines()[-1:]
    pytest.fail(f"caddy doesn't answer: {told}")


def answers(front: Front, caddy: subprocess.Popen[bytes]) -> bool:
    """Waits until the pages are served, and says whether they are."""
    deadline = time.monotonic() + 20
    while time.monotonic() < deadline and caddy.poll() is None:
        with contextlib.suppress(OSError, http.client.HTTPException):
            if front.asked("GET", "/")[0] == 200:
                return True
        time.sleep(0.1)
    return False


def keyed(**others: str) -> dict[str, str]:
    return {"Authorization": f"CPI-Key {KEY}", **others}


def test_a_message_is_the_offices_as_it_was_sent(front: Front) -> None:
    assert front.asked("GET", "/api/tables") == (200, REPLY)
    headers = keyed(Cookie="a=b", **{"X-Forwarded-For": "1.2.3.4"})
    assert front.asked("POST", "/api/import", body="items\n", headers=headers) == (200, REPLY)
    assert len(front.office.messages) == 2
    for message, line in zip(front.office.messages, (b"GET /tables ", b"POST /import ")):
        assert message.startswith(line)
        names = {name.partition(b":")[0].lower() for name in message.partition(b"\r\n\r\n")[0].split(b"\r\n")[1:]}
        assert names & {b"transfer-encoding", b"cookie", b"x-forwarded-for", b"accept-encoding"} == set()
    assert front.office.messages[1].endswith(b"\r\n\r\nitems\n")
    assert f"CPI-Key {KEY}".encode() in front.office.messages[1]


@pytest.mark.parametrize(
    ("method", "path", "status"),
    [
        ("GET", "/api/", 404),
        ("GET", "/api/table/2026-01/pdf", 404),
        ("DELETE", "/api/tables", 404),
        ("GET", f"/api/{KEY}", 404),
        ("GET", f"/nothing?key={KEY}", 404),
    ],
)
def test_what_the_office_has_no_page_for_does_not_reach_it(method: str, path: str, status: int, front: Front) -> None:
    assert front.asked(method, path)[0] == status
    assert front.office.messages == []


OWN = (
    ("GET", "/api/work/2026-01", None),
    ("GET", "/api/quotes/2026-01/2026-01", None),
    ("PUT", "/api/quote/1/2026-01", b"price,321"),
    ("PUT", "/api/plan/2026", b"T,00,All\n"),
    ("POST", "/api/import", b"items\n"),
)
"""A message for each route that needs a key."""


def test_who_has_no_key_costs_the_office_nothing(front: Front) -> None:
    """Neither without the field nor with an empty one; what everybody may ask is answered with both."""
    for headers in ({}, {"Authorization": ""}, {"Authorization": " \t"}):
        for method, path, body in OWN:
            assert front.asked(method, path, body=body, headers=headers) == (403, b""), (method, path)
        assert front.office.messages == []
        assert front.asked("GET", "/api/tables", headers=headers) == (200, REPLY)
        assert b"authorization" not in front.office.messages.pop().lower()


@pytest.mark.parametrize(
    ("field", "status"),
    [
        (f"CPI-Key {KEY}", 200), (f"cPI-kEY   {KEY}", 200), (f"\tCPI-Key {KEY}\t ", 200),
        (f"CPI-Key\t{KEY}", 400), (f"CPI-Key{KEY}", 400), (f"CPI-Key {KEY.upper()}", 400), (f"CPI-Key {KEY}0", 400),
        (f"CPI-Key {KEY[1:]}", 400), (f"Bearer {KEY}", 400), (KEY, 400), (f"CPI-Key {KEY} {KEY}", 400), ("\xe9", 400),
    ],
)  # fmt: skip
def test_a_field_that_the_office_reads_reaches_it_and_no_other_does(field: str, status: int, front: Front) -> None:
    """FORMATS has the form: `CPI-Key` in any case, one or more spaces, and 32 characters 0-9 and a-f."""
    for method, path, body in (*OWN, ("GET", "/api/tables", None)):
        assert front.asked(method, path, body=body, headers={"Authorization": field})[0] == status, (method, path)
        assert len(front.office.messages) == (status == 200)
        front.office.messages.clear()


def test_an_import_asks_sixteen_times_and_no_more(front: Front) -> None:
    """Each row that asks, in each way that the office reads; rows that send may be as many as there is room for."""
    rows = (b"items", b'"items"', b'""items', b'"it"ems', b"tables", b"table,2026-01,csv", b'"t"able,2026-01,csv')
    for row in (*rows, b"work,2026-01", b'"work",2026-01', b"quotes,2026-01,2026-01", b'"quote"s,2026-01,2026-01'):
        for end in (b"\n", b"\r", b"\r\n"):
            for count, status in ((16, 200), (17, 413)):
                body = b"\xef\xbb\xbf" + (row + end) * count
                assert front.asked("POST", "/api/import", body=body, headers=keyed())[0] == status, row
    front.office.messages.clear()
    for row in (b"quote,1,2026-01,price,1\n", b'item,A1,"Vegetables, table","work items",1,2\n', b'"\n', b"\xff\n"):
        body = row * (65_536 // len(row))
        assert front.asked("POST", "/api/import", body=body, headers=keyed())[0] == 200
        assert front.office.messages.pop().endswith(b"\r\n\r\n" + body)


def test_imports_come_one_at_a_time_and_others_between_them(front: Front) -> None:
    """Five long ones at once: a list and what a phone sends are each answered after two of them at most."""
    front.office.import_seconds = 0.5
    with ThreadPoolExecutor(7) as pool:
        long = [pool.submit(front.asked, "POST", "/api/import", body="\n" * 5000, headers=keyed()) for _ in range(5)]
        while not front.office.messages:
            time.sleep(0.01)
        others = [
            pool.submit(front.asked, "GET", "/api/work/2026-01", headers=keyed()),
            pool.submit(front.asked, "POST", "/api/import", body="\n" * 2000, headers=keyed()),
        ]
        assert {each.result() for each in (*long, *others)} == {(200, REPLY)}
    short = [number for number, message in enumerate(front.office.messages) if len(message) < 4500]
    assert len(short) == 2 and max(short) <= 3


def test_a_body_whose_length_is_not_told_does_not_reach_the_office(front: Front) -> None:
    told = front.asked("POST", "/api/import", body=iter([b"items\n"]), headers=keyed(), encode_chunked=True)
    assert (told[0], front.office.messages) == (411, [])


def test_a_body_that_is_too_long_does_not_reach_the_office(front: Front) -> None:
    longest = 65_536
    for length, status in ((longest + 1, 413), (10 * longest, 413), (longest, 200)):
        assert front.asked("POST", "/api/import", body=b"x" * length, headers=keyed())[0] == status
    assert [len(message.partition(b"\r\n\r\n")[2]) for message in front.office.messages] == [longest]


def test_a_slow_peer_holds_nobody_up(front: Front) -> None:
    """Half a message stays at the front, while others are answered; whole it goes to the office."""
    with contextlib.closing(front.line()) as slow:
        slow.putrequest("POST", "/api/import")
        for name, value in keyed(**{"Content-Length": "12"}).items():
            slow.putheader(name, value)
        slow.endheaders(b"items\n")
        with contextlib.closing(front.line()) as other:
            for _ in range(20):
                other.request("GET", "/api/items")
                assert other.getresponse().read() == REPLY
        assert not [message for message in front.office.messages if message.startswith(b"POST")]
        slow.send(b"items\n")
        assert slow.getresponse().status == 200
    assert front.office.messages[-1].endswith(b"items\nitems\n")


def test_no_key_stands_in_its_log(front: Front) -> None:
    front.asked("POST", "/api/import", body="items\n", headers=keyed())
    front.asked("GET", f"/api/tables?key={KEY}")
    front.asked("GET", f"/api/work/{KEY.upper()}", headers=keyed())
    deadline = time.monotonic() + 20
    while front.log.read_text().count("handled request") < 3 and time.monotonic() < deadline:
        time.sleep(0.1)
    text = front.log.read_text()
    assert text.count("handled request") >= 3 and KEY not in text.lower()


OF_PAGES = {"Strict-Transport-Security", "Referrer-Policy", "Cross-Origin-Opener-Policy", "Permissions-Policy"}
"""Fields that only pages have."""


@pytest.mark.parametrize(
    ("path", "status", "is_page"),
    [("/", 200, True), ("/nothing", 404, True), ("/config.js", 200, True), ("/api/tables", 200, False),
     ("/api/work/2026-01", 403, False), ("/api/nothing", 404, False)],
)  # fmt: skip
def test_a_reply_has_no_field_that_only_pages_need(path: str, status: int, is_page: bool, front: Front) -> None:
    """As nginx does it: tests/web/test_front.py."""
    with contextlib.closing(front.line()) as line:
        line.request("GET", path)
        answer = line.getresponse()
        assert (answer.read() is not None, answer.status) == (True, status)
    assert {name for name in OF_PAGES if answer.getheader(name)} == (OF_PAGES if is_page else set())
    assert answer.getheader("X-Content-Type-Options") == "nosniff"
    is_public = path == "/api/tables"
    assert answer.getheader("Cross-Origin-Resource-Policy") == ("cross-origin" if is_public else "same-origin")
    assert answer.getheader("Access-Control-Allow-Origin") == ("*" if is_public else None)
    policy = answer.headers.get_all("Content-Security-Policy") or []
    assert len(policy) == 1 and policy[0].startswith("default-src 'none'")
    assert (policy[0] == "default-src 'none'") == (not is_page)


PUBLIC = ("data/cpi.csv", "picture/00-level.svg", "node/01.csv", "manifest.json", "SHA256SUMS", "fr/picture/00-level.svg",
          "fr/feed.xml", "fr/release/2026-01-r1.png")  # fmt: skip
OWN_FILES = ("index.html", "node/01.html", "assets/style.css", "embed/00.html", "fr/index.html", "fr/assets/words.js",
             "fr/embed/00.html")  # fmt: skip


def test_public_files_are_for_other_sites_and_pages_to_embed_are_framed(front: Front, tmp_path: Path) -> None:
    """As nginx does it: tests/web/test_pictures_elsewhere.py."""
    for name in (*PUBLIC, *OWN_FILES):
        (tmp_path / "site" / name).parent.mkdir(exist_ok=True, parents=True)
        (tmp_path / "site" / name).write_text("x")
        with contextlib.closing(front.line()) as line:
            line.request("GET", f"/published/{name}")
            answer = line.getresponse()
            assert (answer.read(), answer.status) == (b"x", 200)
        is_public, is_framed = name in PUBLIC, "embed/" in name
        assert answer.headers.get_all("Access-Control-Allow-Origin") == (["*"] if is_public else None), name
        resource = "cross-origin" if is_public or is_framed else "same-origin"
        assert answer.headers.get_all("Cross-Origin-Resource-Policy") == [resource], name
        (policy,) = answer.headers.get_all("Content-Security-Policy") or []
        assert f"frame-ancestors {'*' if is_framed else chr(39) + 'none' + chr(39)};" in policy, name


def test_the_policy_of_the_published_website_is_its_own(front: Front, tmp_path: Path) -> None:
    """Its bars say in the pages how long they are; all else may have no style of its own."""
    (tmp_path / "site/index.html").write_text("<h1>Prices</h1>")
    policies = {}
    for path in ("/", "/collect/", "/published/", "/published/index.html"):
        with contextlib.closing(front.line()) as line:
            line.request("GET", path)
            policies[path] = line.getresponse().headers.get_all("Content-Security-Policy") or []
    assert [len(policy) for policy in policies.values()] == [1] * 4
    for path, (policy,) in policies.items():
        assert ("style-src 'self' 'unsafe-inline';" in policy) == path.startswith("/published/")
        assert "default-src 'none'; script-src 'self';" in policy


def test_the_website_and_what_an_office_sets_lie_outside_of_the_pages(front: Front, tmp_path: Path) -> None:
    (tmp_path / "site/data").mkdir()
    (tmp_path / "site/data/cpi.csv").write_text("a,b\n")
    (tmp_path / "calendar.json").write_text('{"months": []}\n')
    (tmp_path / "web/published").mkdir()
    for folder in ("web", "web/published"):
        (tmp_path / folder / "old.txt").write_text("old")
    with contextlib.closing(front.line()) as line:
        for path, status, kind, body in (
            ("/config.js", 200, "text/javascript; charset=utf-8", b"export const office = {};\n"),
            ("/calendar.json", 200, "application/json", b'{"months": []}\n'),
            ("/published/data/cpi.csv", 200, "text/csv; charset=utf-8", b"a,b\n"),
            ("/published/old.txt", 404, None, b"404"),
            ("/old.txt", 200, "text/plain; charset=utf-8", b"old"),
            ("/published/../set.js", 404, None, b"404"),
            ("/set.js", 404, None, b"404"),
            ("/published", 301, None, b""),
        ):
            line.request("GET", path)
            answer = line.getresponse()
            assert (answer.status, answer.read()) == (status, body), path
            assert kind is None or answer.getheader("Content-Type") == kind
            assert answer.getheader("X-Content-Type-Options") == "nosniff"
            assert answer.getheader("Cache-Control") == ("no-store" if status == 404 else "no-cache"), path
    assert answer.getheader("Location") == "/published/"


def test_the_website_has_its_own_page_for_a_wrong_address(front: Front, tmp_path: Path) -> None:
    """At any depth, and beside the website too, as long as it is there; what programs ask for has none. Its style is allowed
    there."""
    for path in ("/published/node/nothing.html", "/nothing"):
        assert front.asked("GET", path) == (404, b"404"), path
    (tmp_path / "site/404.html").write_text("<!DOCTYPE html>none here")
    with contextlib.closing(front.line()) as line:
        for path, body in (
            ("/published/nothing", b"<!DOCTYPE html>none here"),
            ("/published/node/deep/nothing.html", b"<!DOCTYPE html>none here"),
            ("/nothing", b"<!DOCTYPE html>none here"),
            ("/collect/nothing", b"<!DOCTYPE html>none here"),
            ("/calendar.json", b"404"),
            ("/notes/nothing", b""),
            ("/api/nothing", b""),
        ):
            line.request("GET", path)
            answer = line.getresponse()
            assert (answer.status, answer.read()) == (404, body), path
            assert path.startswith(("/api/", "/notes/")) or answer.getheader("Cache-Control") == "no-store"
            (policy,) = answer.headers.get_all("Content-Security-Policy") or []
            assert ("style-src 'self' 'unsafe-inline'" in policy) == body.startswith(b"<!DOCTYPE"), path


def test_cards_feed_and_calendar_are_for_other_sites(front: Front, tmp_path: Path) -> None:
    (tmp_path / "site/release").mkdir()
    names = ("release/2026-01-r1.png", "feed.xml", "calendar.ics", "release/2026-01-r1.html", "sitemap.xml")
    with contextlib.closing(front.line()) as line:
        for at, name in enumerate(names):
            (tmp_path / "site" / name).write_text("text")
            line.request("GET", f"/published/{name}")
            answer = line.getresponse()
            answer.read()
            wanted = ("*", "cross-origin") if at < 3 else (None, "same-origin")
            names_of = ("Access-Control-Allow-Origin", "Cross-Origin-Resource-Policy")
            assert (answer.status, *map(answer.getheader, names_of)) == (200, *wanted), name


@pytest.mark.parametrize(
    ("path", "to"),
    [("/", (302, "/published/")), ("/index.html", (302, "/published/")), ("/tables", (301, "/published/choose.html?")),
     ("/tables/", (301, "/published/choose.html?")),
     ("/tables/?items=00+01&from=2026-01", (301, "/published/choose.html?items=00+01&from=2026-01"))],
)  # fmt: skip
def test_the_first_page_and_the_tables_are_the_websites(front: Front, tmp_path: Path, path: str, to: object) -> None:
    """Until there is one, the first page is the one that says so. As nginx does it: tests/web/test_front.py."""

    def led() -> tuple[int, str]:
        with contextlib.closing(front.line()) as line:
            line.request("GET", path)
            answer = line.getresponse()
            answer.read()
            return answer.status, answer.getheader("Location") or ""

    assert led() == ((302, "/") if path.startswith("/tables") else (200, ""))
    (tmp_path / "site/index.html").write_text("<h1>Prices</h1>")
    (tmp_path / "site/choose.html").write_text("<h1>Choose</h1>")
    assert led() == to


def test_the_calendar_is_only_read_and_not_there_until_it_is_written(front: Front, tmp_path: Path) -> None:
    assert front.asked("GET", "/calendar.json")[0] == 404
    (tmp_path / "calendar.json").write_text('{"months": []}\n')
    assert front.asked("GET", "/calendar.json")[0] == 200
    for method in ("POST", "PUT", "DELETE"):
        assert front.asked(method, "/calendar.json", body=b"x")[0] == 405, method


def test_what_is_asked_waits_for_the_office_while_nobody_listens_there(front: Front) -> None:
    """What has a body is sent once or not at all: Caddy might send the body of another message at its second try."""
    front.office.goes()
    with ThreadPoolExecutor(1) as beside:
        asked = beside.submit(front.asked, "GET", "/api/work/2026-01", headers=keyed())
        for method, path in (("PUT", "/api/quote/1/2026-01"), ("POST", "/api/import")):
            assert front.asked(method, path, body=b"x", headers=keyed())[0] == 502
        front.office.comes()
        assert asked.result() == (200, REPLY)
    assert [message[:10] for message in front.office.messages] == [b"GET /work/"]


def test_a_message_that_was_sent_is_not_sent_again(front: Front) -> None:
    front.office.is_silent = True
    for method, path in (("PUT", "/api/quote/1/2026-01"), ("POST", "/api/import")):
        assert front.asked(method, path, body=b"x", headers=keyed())[0] == 502
    assert len(front.office.messages) == 2


def test_notes_of_the_field_go_to_the_desk_s_application_with_a_key_and_nothing_else(front: Front) -> None:
    def asked(method: str, path: str, body: bytes = b"", **fields: str) -> tuple[int, bytes]:
        return front.asked(method, path, body=body or None, headers={"Authorization": f"CPI-Key {KEY}", **fields})

    assert asked("POST", "/notes/2026-01/7", b"x" * 300_000, Cookie="cpi_desk=secret") == (200, REPLY)
    (message,) = front.desk.messages
    assert message.startswith(b"POST /notes/2026-01/7 HTTP/1.1\r\n") and message.endswith(b"x" * 300_000)
    assert KEY.encode() in message and b"secret" not in message
    assert asked("GET", "/notes/2026-01")[0] == asked("GET", "/notes/2026-01/photo/12")[0] == 200
    assert asked("GET", "/notes/questions")[0] == asked("POST", "/notes/2026-01/questions/3", b"x")[0] == 200
    assert asked("POST", "/notes/2026-01/7", b"x" * 330_000)[0] == 413
    count = len(front.desk.messages)
    for method, path in (("PUT", "/notes/2026-01"), ("GET", "/notes/2026-01/photo/x"), ("GET", "/notes/")):
        assert asked(method, path)[0] == 404, path
    for key in ("", "CPI-Key", f"CPI-Key {KEY[1:]}", f"Basic {KEY}"):
        assert front.asked("GET", "/notes/2026-01", headers={"Authorization": key})[0] == 404, key
    assert len(front.desk.messages) == count
    assert KEY not in front.log.read_text(encoding="utf-8")


OF_THE_DESK = {
    "Content-Security-Policy": "default-src 'none'; form-action 'self'",
    "Cache-Control": "no-store",
    "X-Content-Type-Options": "nosniff",
    "Cross-Origin-Resource-Policy": "same-origin",
    "Referrer-Policy": "same-origin",
}
"""Fields that the desk's application sends: with a second policy, that of the other pages, its forms would do nothing."""


def test_the_desks_application_is_asked_by_the_peers_address_and_its_fields_are_its_own(front: Front) -> None:
    front.desk.fields = "".join(f"{name}: {value}\r\n" for name, value in OF_THE_DESK.items())
    said = {"Cookie": "cpi_desk=x", "X-Forwarded-For": "203.0.113.9", "Forwarded": "for=203.0.113.9", **keyed()}
    with contextlib.closing(front.line()) as line:
        line.request("POST", "/desk/records/judge", body="text=x", headers=said)
        answer = line.getresponse()
        assert (answer.status, answer.read()) == (200, REPLY)
    found = answer.getheaders()
    for wanted, value in OF_THE_DESK.items():
        assert [getheader for name, getheader in found if name == wanted] == [value]
    assert dict(found)["Strict-Transport-Security"] == "max-age=31536000"
    (message,) = front.desk.messages
    assert message.startswith(b"POST /desk/records/judge ") and message.endswith(b"\r\n\r\ntext=x")
    head = message.lower()
    assert b"cookie: cpi_desk=x" in head and b"x-forwarded-for: 127.0.0.1\r\n" in head
    assert b"203.0.113.9" not in head and b"authorization" not in head and KEY.encode() not in head
    assert f"host: localhost:{front.port}".encode() in head
    assert front.asked("PUT", "/desk/records", body=b"x")[0] == 403
    assert front.asked("GET", "/desk")[0] == 301


def test_while_the_desks_application_is_away_one_sentence_says_so(front: Front) -> None:
    front.desk.goes()
    with contextlib.closing(front.line()) as line:
        line.request("GET", "/desk/month/2026-01/")
        answer = line.getresponse()
        page = answer.read().decode()
    assert answer.status == 503 and "desk\u2019s pages can\u2019t be reached at the moment" in page
    assert "default-src 'none'" in str(answer.getheader("Content-Security-Policy"))
    assert front.asked("GET", "/collect/")[0] == 200
    assert front.asked("GET", "/api/tables") == (200, REPLY)


# ---- what an attacker asks for


EVIL = (
    "%0d%0aSet-Cookie:%20cpi_desk=evil;%20Path=/desk%0d%0aX-Injected:%20yes",
    "%0aX-Injected:%20yes",
    "%0d%0aContent-Length:%200%0d%0a%0d%0a<script>alert(1)</script>",
    "%250d%250aX-Injected:%20yes",
    "?%0d%0aX-Injected:%20yes",
)
"""What is put at the end of a path."""

PLACES = ("/", "/a", "/desk", "/desk/", "/desk/sign-in", "/published", "/published/", "/tables", "/tables/", "/collect/",
          "/config.js", "/calendar.json", "/api/items", "/api/table/2011-02/text", "/notes/2011-02", "/nowhere")  # fmt: skip
"""The routes of the front, and an address without one."""


CLOSED = "Host: localhost\r\nContent-Length: 0\r\nConnection: close\r\n\r\n"
"""The rest of a message's head."""


def raw(front: Front, message: str, is_plain: bool = False) -> bytes:
    """What Caddy answers to a message, byte for byte."""
    trusting = ssl.SSLContext(ssl.PROTOCOL_TLS_CLIENT)
    trusting.check_hostname, trusting.verify_mode = False, ssl.CERT_NONE
    port = front.plain_port if is_plain else front.port
    with socket.create_connection(("127.0.0.1", port), 20) as line:
        peer = line if is_plain else trusting.wrap_socket(line, server_hostname="localhost")
        peer.sendall(message.encode("latin-1"))
        answer = b""
        with contextlib.suppress(OSError):
            while piece := peer.recv(65536):
                answer += piece
        return answer


def test_no_path_writes_into_a_head(front: Front, tmp_path: Path) -> None:
    """With a website and without one; as nginx does it: tests/web/test_front_heads.py."""
    for name in ("choose.html", "index.html"):
        for place in PLACES:
            for evil in EVIL:
                for method, is_plain in (("GET", True), ("GET", False), ("POST", False)):
                    asked = f"{method} {place}{evil} HTTP/1.1\r\n"
                    head, end, body = raw(front, f"{asked}{CLOSED}", is_plain).partition(b"\r\n\r\n")
                    lines = head.lower().replace(b"\r", b"\n").split(b"\n")
                    assert end and lines[0].startswith(b"http/1.1 "), (asked, head)
                    assert not [line for line in lines if line.startswith((b"x-injected", b"set-cookie"))], (
                        asked,
                        head,
                    )
                    assert not body.startswith(b"<script>"), asked
        (tmp_path / "site" / name).write_text("<!DOCTYPE html>")


@pytest.mark.parametrize("path", ["/desk/sign-in", "/desk/%73ign-in", "/desk//sign-in", "/desk/x/../sign-in"])
def test_the_form_to_sign_in_is_a_short_one(path: str, front: Front) -> None:
    """However it is spelled."""
    head = f"POST {path} HTTP/1.1\r\nHost: localhost\r\nContent-Type: application/x-www-form-urlencoded\r\n"
    head += "Connection: close\r\n"
    assert raw(front, f"{head}Content-Length: 4096\r\n\r\n{'a=&' * 1365}a").startswith(b"HTTP/1.1 200 ")
    assert len(front.desk.messages) == 1
    assert raw(front, f"{head}Content-Length: 4097\r\n\r\n{'a=&' * 1365}ab").startswith(b"HTTP/1.1 413 ")
    assert len(front.desk.messages) == 1


@pytest.mark.parametrize("path", ["/desk/sign-in", "/desk//sign-in", "/desk/records/judge", "/notes/2026-01/7"])
def test_a_form_whose_length_is_not_told_does_not_reach_the_desk(path: str, front: Front) -> None:
    """Its pieces would go there as they come, however many they are."""
    head = f"POST {path} HTTP/1.1\r\nHost: localhost\r\nAuthorization: CPI-Key {KEY}\r\nConnection: close\r\n"
    pieces = f"{5000:x}\r\n{'a' * 5000}\r\n" * 10 + "0\r\n\r\n"
    told = raw(front, f"{head}Transfer-Encoding: chunked\r\n\r\n{pieces}")
    assert told.startswith(b"HTTP/1.1 411 ") and front.desk.messages == [], told[:100]
