"""The application of the desk: who is let in, what a page says of a month, and that no text of others is more than
text."""

from __future__ import annotations

import csv
import io
import re
import threading
import time
from pathlib import Path
from typing import Any

import pytest

from . import surveys
from cpi_tools.desk.looks.glance import Glance, Share
from cpi_tools.desk.looks.month_views import time_left
from cpi_tools.desk.serve.watched_office import Observed, Seen
from cpi_tools.desk.serve.app import Reached, make_app
from cpi_tools.desk.serve.sessions import FREE_TRIES, LONGEST_SESSION, MOST_ADDRESSES, NotSignedIn, Sessions, Tries
from cpi_tools.office.program import Cpi
from cpi_tools.office.stored import Window
from cpi_tools.office.trial import State
from .desk_apps import ADA, Application, Person, applied, words_of
from lib.served import heard, message, peer_of
from .loads import DESK_KEY
from .ran import run
from .surveys import key_of

WRONG_KEY = "e" * 32


# ---- who is let in


def test_without_a_session_each_page_leads_to_the_form_and_back(application: Application) -> None:
    stranger = application.person()
    answer = stranger.get("/month/2026-02/?still=1")
    assert (answer.status_code, answer.headers["Location"]) == (302, "/sign-in?to=%2Fmonth%2F2026-02%2F%3Fstill%3D1")
    assert stranger.signed_in(ADA, to="/month/2026-02/?still=1").headers["Location"] == "/month/2026-02/?still=1"
    assert "February 2026" in stranger.words("/month/2026-02/")


@pytest.mark.parametrize("to", ["//evil.example", "https://evil.example/", "/\\evil.example", "", "/a\nb"])
def test_a_sign_in_leads_nowhere_else(application: Application, to: str) -> None:
    assert application.person().signed_in(ADA, to=to).headers["Location"] == "/"


def test_the_key_is_asked_of_the_office_and_written_nowhere(application: Application, tmp_path: Path) -> None:
    stranger = application.person()
    refused = stranger.signed_in(ADA, key_of(7))
    assert refused.status_code == 403 and "This isn't the desk's key" in words_of(refused.text)
    cookie = stranger.signed_in(ADA).headers["Set-Cookie"]
    assert "HttpOnly" in cookie and "SameSite=Strict" in cookie and DESK_KEY not in cookie
    person = application.person(ADA)
    offer = person.sent("/records/judge", text=f"collector,9,{key_of(9)}\n").text
    (name,) = re.findall('name="offer" value="([^"]+)"', offer)
    assert "1 of 1 done" in words_of(person.sent("/records/send", offer=name, left="").text)
    files = [path for path in (tmp_path / "room").rglob("*") if path.is_file()]
    texts = [path.read_bytes() for path in files]
    assert len(files) >= 1 and all(path.stat().st_mode & 0o077 == 0 for path in files)
    assert not any(DESK_KEY.encode() in text or key_of(9).encode() in text for text in texts)
    assert b'["collector","9","(key)"]' in (tmp_path / "room/desk.log").read_bytes()


def test_an_office_that_is_away_is_told_from_a_wrong_key(cpi: Cpi, tmp_path: Path) -> None:
    with applied(cpi, surveys.small(cpi, tmp_path), tmp_path / "room") as application:
        person = application.person()
    application = Application(cpi, tmp_path / "small.db", tmp_path / "room", application.port)
    person = application.person()
    answer = person.signed_in(ADA)
    assert answer.status_code == 503 and "can't be reached" in words_of(answer.text)
    application.desk.close()


class Clock:
    """A clock that stands still."""

    def __init__(self) -> None:
        self.now = 1000.0

    def __call__(self) -> float:
        return self.now


def test_wrong_keys_lock_the_door_for_longer_and_longer() -> None:
    clock, asked = Clock(), list[str]()

    def is_desk(key: str) -> bool:
        asked.append(key)
        return key == DESK_KEY

    sessions = Sessions(is_desk, 60, clock)
    for _ in range(FREE_TRIES):
        with pytest.raises(NotSignedIn, match="isn't the desk's key"):
            sessions.sign_in(ADA, WRONG_KEY)
    with pytest.raises(NotSignedIn, match="Wait 61 seconds"):
        sessions.sign_in(ADA, DESK_KEY)
    assert len(asked) == FREE_TRIES
    clock.now += 60
    with pytest.raises(NotSignedIn, match="isn't the desk's key"):
        sessions.sign_in(ADA, "short")
    clock.now += 119
    with pytest.raises(NotSignedIn, match="Wait 2 seconds"):
        sessions.sign_in(ADA, DESK_KEY)
    clock.now += 1
    assert sessions.of(sessions.sign_in(ADA, DESK_KEY))


def test_wrong_keys_of_one_address_lock_nobody_elsewhere_out() -> None:
    clock = Clock()
    sessions = Sessions(lambda key: key == DESK_KEY, 60, clock)
    for host in ("203.0.113.9", "2001:db8::1"):
        for _ in range(FREE_TRIES):
            with pytest.raises(NotSignedIn, match="isn't the desk's key"):
                sessions.sign_in(ADA, WRONG_KEY, host)
    for host in ("203.0.113.9", "2001:db8::ffff"):  # (whoever has the one address of a network has the other too)
        with pytest.raises(NotSignedIn, match="Wait 61 seconds"):
            sessions.sign_in(ADA, DESK_KEY, host)
    for host in ("203.0.113.10", "2001:db8:0:1::1", "127.0.0.1", "no address"):
        assert sessions.of(sessions.sign_in(ADA, DESK_KEY, host))


def test_only_so_many_addresses_are_remembered() -> None:
    clock = Clock()
    tries = Tries(clock)
    for _ in range(FREE_TRIES):
        tries.wrong("198.51.100.1")
    assert tries.wait("198.51.100.1") == 60
    for number in range(MOST_ADDRESSES):
        tries.wrong(f"10.{number >> 16}.{number >> 8 & 255}.{number & 255}")
    assert tries.wait("198.51.100.1") < 0 and tries.wait("10.0.0.0") < 0


@pytest.mark.parametrize(
    "typed", ["-".join([DESK_KEY[:16], DESK_KEY[16:]]), f" {DESK_KEY[:8].upper()} {DESK_KEY[8:]} "]
)
def test_a_key_may_be_typed_with_blanks_hyphens_and_capitals(application: Application, typed: str) -> None:
    assert application.person().signed_in(ADA, typed).status_code == 303


@pytest.mark.parametrize("front", ["https://prices.example/desk/", "https://Prices.example:443/desk"])
def test_behind_a_front_a_cookie_goes_by_tls_only_and_forms_come_from_there(
    application: Application, front: str
) -> None:
    """The front hands on the name by which it was asked for; other names are no page of the application's."""
    reached = Reached("127.0.0.1:8090", front)
    assert (reached.prefix, reached.trusted_proxy) == ("/desk", "127.0.0.1")
    client = make_app(application.desk, reached).test_client()
    form = {"name": ADA, "key": DESK_KEY, "to": "/"}

    def sign_in(host: str, origin: str) -> Any:
        return client.post("/sign-in", data=form, base_url=f"http://{host}", headers={"Origin": origin})

    by_front = sign_in("prices.example", "https://prices.example")
    assert by_front.status_code == 303 and "; Secure;" in by_front.headers["Set-Cookie"]
    here = sign_in("127.0.0.1:8090", "http://127.0.0.1:8090")
    assert here.status_code == 303 and "Secure" not in here.headers["Set-Cookie"]
    assert sign_in("prices.example", "https://evil.example").status_code == 403
    assert sign_in("prices.example", "http://prices.example").status_code == 403
    assert sign_in("evil.example", "https://evil.example").status_code == 400


def test_without_a_front_the_name_of_one_is_refused_with_what_to_set(application: Application) -> None:
    answer = application.person().client.get("/sign-in", base_url="http://prices.example")
    assert answer.status_code == 400 and "Set-Cookie" not in answer.headers
    words = words_of(answer.text)
    assert "This application can't be reached as prices.example : its address is http://127.0.0.1:8090/ ." in words
    assert "CPI_DESK_FRONT" in words
    assert (Reached("[::1]:8090", None).trusted_proxy, Reached("[::1]:8090", "https://x/").trusted_proxy) == (
        None,
        "::1",
    )


def test_a_sign_in_that_waits_for_the_office_holds_nobody_up() -> None:
    asked, answered = threading.Event(), threading.Event()

    def is_desk(key: str) -> bool:
        asked.set()
        return answered.wait(60)

    sessions = Sessions(is_desk, 60)
    answered.set()
    ada = sessions.sign_in(ADA, DESK_KEY)
    asked.clear()
    answered.clear()
    waiting = threading.Thread(target=sessions.sign_in, args=("Ben", DESK_KEY))
    waiting.start()
    assert asked.wait(60) and sessions.of(ada)
    answered.set()
    waiting.join()


def test_a_copy_that_can_t_be_taken_is_on_each_page(application: Application, ada: Person) -> None:
    ada.get("/month/2026-02/")
    application.file.rename(application.file.with_name("elsewhere.db"))
    application.desk.watch._try()
    assert "these pages may be old:" in ada.get("/month/2026-02/?still").text
    application.file.with_name("elsewhere.db").rename(application.file)
    application.desk.watch._try()
    assert "these pages may be old" not in ada.get("/month/2026-02/?still").text


def test_a_session_ends_when_it_is_idle_and_after_half_a_day() -> None:
    clock = Clock()
    sessions = Sessions(lambda key: True, 60, clock)
    idle, busy = sessions.sign_in(ADA, DESK_KEY), sessions.sign_in("Ben", DESK_KEY)
    clock.now += 61
    assert sessions.of(idle) is None and sessions.of(busy) is None and sessions.of(None) is None
    busy = sessions.sign_in("Ben", DESK_KEY)
    for _ in range(LONGEST_SESSION // 60):
        clock.now += 60
        assert sessions.of(busy)
    clock.now += 1
    assert sessions.of(busy) is None


@pytest.mark.parametrize("name", ["", "  ", "x" * 61, "A\u202eda", "A\u0007"])
def test_a_person_gives_a_name(name: str) -> None:
    with pytest.raises(NotSignedIn):
        Sessions(lambda key: True, 60).sign_in(name, DESK_KEY)


def test_a_form_needs_its_session_and_its_site(application: Application, ada: Person) -> None:
    text = "outlet,12,Harbour\n"
    assert ada.post("/records/judge", token="x", text=text).status_code == 403
    for origin, status in (("http://evil.example", 403), ("null", 403), ("http://127.0.0.1:8090", 303)):
        assert ada.post("/records/judge", headers={"Origin": origin}, text=text).status_code == status
    stranger = application.person()
    assert stranger.post("/records/judge", text=text).status_code == 403
    assert ada.client.get("/", base_url="http://evil.example:8090").status_code == 400
    assert ada.post("/sign-out").status_code == 303
    assert ada.get("/log").status_code == 302
    assert not application.desk.log.entries


# ---- what every page owes

PAGES = ("/month/2026-02/", "/month/2026-02/looks", "/month/2026-02/table", "/month/2026-02/what-if")
MORE_PAGES = (
    "/month/2026-02/freeze",
    "/month/2026-02/explain/01.1.1.2-01",
    "/calendar",
    "/records",
    "/log",
    "/nowhere",
)


SCRIPT = '<script src="/forms.js" type="module">'
"""The script of every page: a file of the application."""

OWN_SCRIPTS = {"/month/2026-02/looks": ['<script src="/looks.js" type="module">']}
"""The pages that have another script of their own, with its element."""


def test_no_page_runs_a_script_of_others_or_is_kept(application: Application, ada: Person) -> None:
    hostile = "outlet,13,<script>document.title='owned'</script>\n"
    offer = re.findall('name="offer" value="([^"]+)"', ada.sent("/records/judge", text=hostile).text)
    assert "1 of 1 done" in words_of(ada.sent("/records/send", offer=offer[0], left="").text)
    application.tried(ada, "2026-02")
    for path in (*PAGES, *MORE_PAGES, "/sign-in"):
        answer = ada.get(path)
        assert answer.status_code == (404 if path == "/nowhere" else 200), path
        policy = answer.headers["Content-Security-Policy"]
        scripts = re.findall("<script[^>]*>[^<]*", answer.text)
        assert policy.startswith("default-src 'none'; style-src 'self'; script-src 'self'; ") and "unsafe" not in policy
        assert sorted(scripts) == sorted([SCRIPT, *OWN_SCRIPTS.get(path, [])])
        assert answer.headers["Cache-Control"] == "no-store"
        assert "style=" not in answer.text and "<b>wheat" not in answer.text
    assert "&lt;b&gt;wheat&lt;/b&gt;" in ada.get("/month/2026-02/table").text
    script = application.person().get("/forms.js")
    assert script.mimetype == "text/javascript" and script.headers["Cache-Control"] == "private, max-age=600"


# ---- the month at a glance


def test_a_month_at_a_glance_worked_by_hand(ada: Person) -> None:
    """Of three slots one is priced, two are missing; rice has 600,000 of the weight and one price of two: 30
    percent."""
    words = ada.words("/month/2026-02/")
    assert "priced 33.3 % 1 of 3" in words and "priced, by weight 30.0 %" in words
    assert "silent slots 0" in words and "missing, with a reason 2" in words
    assert "closed, not frozen" in words
    rows = [*csv.DictReader(io.StringIO(ada.get("/month/2026-02/glance/collectors.csv").text))]
    assert [(row["collector"], row["slots"], row["priced"], row["missing"], row["silent"]) for row in rows] == [
        ("7", "2", "0", "2", "0"),
        ("8", "1", "1", "0", "0"),
    ]
    assert [row["last month with an entry"] for row in rows] == ["2026-02", "2026-02"]
    (row,) = csv.DictReader(io.StringIO(ada.get("/month/2026-02/glance/divisions.csv").text))
    assert (row["division"], row["slots"], row["percent by weight"]) == ("01", "3", "30.0")
    assert ada.get("/month/2026-02/glance/divisions.csv").headers["Content-Type"] == "text/csv; charset=utf-8"
    assert ada.get("/month/2026-02/glance/nothing.csv").status_code == 404
    assert ada.get("/month/2026-13/").status_code == 404


def test_the_glance_follows_the_office_and_hears_collectors(application: Application, ada: Person) -> None:
    now = int(time.time())
    row = f"calendar,2026-02,2000,{now + 86_400},{now + 90_000}\n"
    with peer_of(application.port) as peer:
        peer.sendall(message("POST /import", key=DESK_KEY, body=row.encode()))
        assert heard(peer).endswith(b'{"rows":[{"done":true}]}\n')
    application.desk.watch.renew()
    assert re.search(r"The window closes .* UTC\), in (1 day|[0-9]+ hours?) and", ada.words("/month/2026-02/"))
    with peer_of(application.port) as peer:
        peer.sendall(message("PUT /quote/1/2026-02", key=key_of(7), body=b"price,214"))
        assert heard(peer).endswith(b'{"receipt":7}\n')
    application.desk.watch.renew()
    words = ada.words("/month/2026-02/")
    assert "priced 66.7 % 2 of 3" in words and "priced, by weight 60.0 %" in words
    rows = [*csv.DictReader(io.StringIO(ada.get("/month/2026-02/glance/collectors.csv").text))]
    seen = {row["collector"]: row["last entry seen"] for row in rows}
    assert seen["8"] == "" and re.fullmatch(r"20\d\d-\d\d-\d\d \d\d:\d\d UTC", seen["7"])


@pytest.mark.parametrize(
    ("seconds", "says"),
    [
        (-1, ""),
        (0, ""),
        (60, "0 hours and 1 minute"),
        (3_600 + 59 * 60 + 59, "1 hour and 59 minutes"),
        (86_400, "1 day and 0 hours"),
        (3 * 86_400 - 1, "2 days and 23 hours"),
    ],
)
def test_the_time_that_is_left_is_told(seconds: int, says: str) -> None:
    at = 1_000_000
    window = Window(202602, 0, at + seconds, at + 9_000_000)
    glance = Glance(at, State(202602, window, 0, False), Share(0, 0, None), 0, 0, [])
    assert time_left(glance, at) == says
    opening = glance._replace(state=State(202602, window._replace(opens=at + 7200, closes=at + 9000), 0, False))
    assert time_left(opening, at) == "2 hours and 0 minutes"


def test_earlier_months_are_set_beside_a_month(tmp_path: Path) -> None:
    seen = Observed(tmp_path)
    for month, after, priced in ((202601, 1000, 10), (202601, 1500, 15), (202601, 2000, 20), (202602, 900, 40)):
        seen.note(Seen(month, after, 80, priced, -1))
    again = Observed(tmp_path)
    assert [row.after for row in again.rows] == [1000, 2000, 900]
    found = again.expect(202603, 1999)
    assert found and [*found.months] == [(202602, "50.0"), (202601, "12.5")]
    assert again.expect(202602, 500) is None and again.expect(202601, 5000) is None


def test_a_collector_is_heard_only_when_an_entry_is_new(tmp_path: Path) -> None:
    seen = Observed(tmp_path)
    seen.hear({7: (202601, 3)}, 100)
    seen.hear({7: (202601, 3), 8: (202601, 1)}, 200)
    seen.hear({7: (202601, 4), 8: (202601, 1)}, 300)
    assert {it: (seen.heard[it].at, seen.heard[it].is_seen) for it in (7, 8)} == {7: (300, True), 8: (200, True)}
    assert Observed(tmp_path).heard == seen.heard


# ---- its words


def test_it_listens_at_this_machine_unless_it_is_told(tmp_path: Path) -> None:
    (tmp_path / "office.db").write_bytes(b"")
    words = ("desk", "serve", "--file", tmp_path / "office.db", "--room", tmp_path / "room")
    refused = run(None, *words, "--listen", "0.0.0.0:8090")
    assert refused.status == 1 and "can be reached from other machines, without TLS" in refused.err
    missing = run(None, "desk", "serve", "--file", tmp_path / "none.db", "--room", tmp_path / "room")
    assert missing.status == 1 and "is no file" in missing.err
    (tmp_path / "room").mkdir(mode=0o755)
    (tmp_path / "room").chmod(0o755)
    assert "can be read by others" in run(None, *words).err
