"""Supervisors: their file, what their key opens, and that it opens nothing else of the desk's application."""

from __future__ import annotations

import re
from collections.abc import Iterator, Sequence
from pathlib import Path
from typing import Any

import pytest

from cpi_tools.desk.serve.sessions import FREE_TRIES
from cpi_tools.desk.teams.supervisor_rows import Supervisor, read_supervisors
from cpi_tools.office.program import Cpi
from cpi_tools.text.languages import speech_of
from cpi_tools.text.terminal import Fault
from lib.served import heard, message, peer_of
from .desk_apps import ADA, LISTEN, Application, Chosen, applied, words_of
from .loads import DESK_KEY
from .nobodys import nobodys_in
from .ran import run
from .surveys import key_of
from .test_desk_app_languages import left_on

FAR = 9_999_999_000
MONTH, PRICE = "2026-02", 7_654_321
"""The month whose window is open, and a price that no count or moment of a page can be."""

ZOE, YARA, XENA = "1" * 32, "2" * 32, "3" * 32
"""The keys of three supervisors: of collectors 7 and 8, of 8 to 10 and one that the office doesn't know, and of all."""

FILE = f"""name,key,collectors
Zoë,{ZOE},7 8
Yara,{YARA},8-10 99
Xena,{XENA},all
"""

OFFICE = f"""0,desk,item,RICE,Rice in bags,1 kg,500,2000
0,desk,outlet,10,Corner shop
0,desk,collector,7,{key_of(7)}
0,desk,collector,8,{key_of(8)}
0,desk,collector,9,{key_of(9)}
0,desk,collector,10,{key_of(10)}
0,desk,assign,7,1,10,RICE,2026-01,2026-12
0,desk,assign,7,2,10,RICE,2026-01,2026-12
0,desk,assign,7,3,10,RICE,2026-01,2026-12
0,desk,assign,7,4,10,RICE,2026-01,2026-12
0,desk,assign,8,1,10,RICE,2026-01,2026-12
0,desk,assign,8,2,10,RICE,2026-01,2026-12
0,desk,assign,9,1,10,RICE,2026-01,2026-12
0,desk,assign,9,2,10,RICE,2026-01,2026-12
0,desk,assign,9,3,10,RICE,2026-01,2026-12
0,desk,calendar,2026-01,1000,2000,3000
0,desk,calendar,{MONTH},2000,{FAR},{FAR}
0,desk,calendar,2026-03,{FAR},{FAR + 1},{FAR + 2}
1500,{key_of(9)},quote,1,2026-01,price,{PRICE}
2500,{key_of(7)},quote,1,{MONTH},price,{PRICE}
2500,{key_of(8)},quote,1,{MONTH},price,{PRICE}
2500,{key_of(8)},quote,2,{MONTH},missing,stock
"""
"""Collector 7 has sent one entry of four, 8 both of two, 9 none of three; 10 has no slots."""


def written(folder: Path, text: str, mode: int = 0o600) -> Path:
    """A file of supervisors."""
    path = folder / "supervisors.csv"
    path.write_bytes(text.encode())
    path.chmod(mode)
    return path


@pytest.fixture
def team(cpi: Cpi, tmp_path: Path) -> Iterator[Application]:
    """The application over an office of four collectors; three supervisors may see them, and notes are on."""
    file = tmp_path / "office.db"
    assert [reply for reply in cpi.replay([OFFICE], db=file) if "refused" in reply] == []
    supervisors = written(tmp_path, FILE)
    with applied(cpi, file, tmp_path / "room", Chosen(12_000, supervisors=supervisors)) as application:
        yield application


class Visitor:
    """Somebody with a browser of their own, at the page of supervisors."""

    def __init__(self, application: Application, key: str = ""):
        self.client, self.secret = application.app.test_client(), ""
        if key:
            answer = self.post("/team/sign-in", key=key)
            assert answer.status_code == 303 and answer.headers["Location"] == "/team/"
            (self.secret,) = re.findall("cpi_team=([^;]+);", answer.headers["Set-Cookie"])

    def get(self, path: str = f"/team/{MONTH}/", **more: Any) -> Any:
        return self.client.get(path, base_url=f"http://{LISTEN}", **more)

    def post(self, path: str, **form: str) -> Any:
        return self.client.post(path, data=form, base_url=f"http://{LISTEN}")


def numbers_of(page: str) -> list[str]:
    """The numbers of the collectors of a page's rows, in their order."""
    return re.findall(r'<th scope="row">Collector (\d+)</th>', page)


# ---- the file


@pytest.mark.parametrize(
    "text",
    [
        FILE,
        FILE.replace(",", ";"),
        FILE.replace(",", "\t"),
        "\ufeff" + FILE.replace("\n", "\r\n"),
        FILE.replace("7 8", '"7, 8"').replace("all", "ALL"),
        FILE.replace("\n", ",,\n\n"),
    ],
)
def test_a_file_of_supervisors_is_read(tmp_path: Path, text: str) -> None:
    zoe, yara, xena = read_supervisors(written(tmp_path, text))
    assert zoe == Supervisor("Zoë", ZOE, ((7, 7), (8, 8))) and yara.spans == ((8, 10), (99, 99))
    assert [xena.has_all, xena.has(1), xena.has(9999), zoe.has_all, zoe.has(9)] == [True, True, True, False, False]


ROW = f"Zoë,{ZOE},7\n"


@pytest.mark.parametrize(
    ("text", "says"),
    [
        ("", "row 1: it isn't the heading: name the columns name, key and collectors in the first row, and no others"),
        (ROW, "row 1: it isn't the heading: "),
        (f"name,key,collectors,phone\n{ROW}", "row 1: it isn't the heading: "),
        ("name,key,collectors\n", "names no supervisor: write a row for each, below the columns name, key, collectors"),
        (
            f"name,key,collectors\nZoë,{ZOE}\n",
            "row 2: it has 2 cells in place of 3: write a name, a key and collectors",
        ),
        (f"name,key,collectors\nZoë,{ZOE},7,8\n", "row 2: it has 4 cells in place of 3: "),
        (f"name,key,collectors\n,{ZOE},7\n", "row 2: its name is empty, too long, or has an invisible character: "),
        (f"name,key,collectors\n{'x' * 61},{ZOE},7\n", "row 2: its name is empty, too long, "),
        (f"name,key,collectors\nZ\u202eoe,{ZOE},7\n", "row 2: its name is empty, too long, "),
        (f"name,key,collectors\n\nZoë,{ZOE[1:]},7\n", "row 3: its key isn't 32 characters 0-9 and a-f: draw one with"),
        (f"name,key,collectors\nZoë,{'A' * 32},7\n", "row 2: its key isn't 32 characters 0-9 and a-f: "),
        (f"name,key,collectors\nZoë,7,{ZOE}\n", "row 2: its key isn't 32 characters 0-9 and a-f: "),
        (f"name,key,collectors\nZoë,{YARA},{ZOE}\n", "row 2: its collectors aren't numbers: write them like 7 9 12-18"),
        (f"name,key,collectors\nZoë,{ZOE},0\n", "row 2: its collectors aren't numbers: "),
        (f"name,key,collectors\nZoë,{ZOE},10000\n", "row 2: its collectors aren't numbers: "),
        (f"name,key,collectors\nZoë,{ZOE},9-7\n", "row 2: its collectors aren't numbers: "),
        (f"name,key,collectors\nZoë,{ZOE},٧\n", "row 2: its collectors aren't numbers: "),
        (
            f"name,key,collectors\n{ROW}Yara,{ZOE},8\n",
            "row 3: another row has the same key: draw one for each supervisor",
        ),
        (f"name,key,collectors\n{ROW}ZOË,{YARA},8\n", "row 3: another row has the same name: write one row for each"),
        (f'name,key,collectors\n{ROW}"Yara,{YARA},8\n', "row 3: it isn't a row of CSV: look at its quotation marks"),
    ],
)
def test_a_file_that_can_t_be_taken_is_refused_in_one_line(tmp_path: Path, text: str, says: str) -> None:
    """Without a key, whichever column it is in."""
    path = written(tmp_path, text)
    with pytest.raises(Fault) as refused:
        read_supervisors(path)
    line = str(refused.value)
    assert line.startswith(str(path)) and says in line and "\n" not in line
    assert not any(part in line for part in (ZOE[1:], YARA, "A" * 32))


def test_a_file_that_others_can_read_is_refused(tmp_path: Path) -> None:
    path = written(tmp_path, FILE, 0o640)
    with pytest.raises(Fault, match="others can read .*, which contains keys: give it the mode 600"):
        read_supervisors(path)
    path.chmod(0o600)
    path.write_bytes(FILE.encode("latin-1"))
    with pytest.raises(Fault, match=r"supervisors\.csv, row 2: it isn't UTF-8: save the file as CSV in UTF-8"):
        read_supervisors(path)
    path.unlink()
    with pytest.raises(Fault, match="No such file"):
        read_supervisors(path)


def test_the_application_does_not_begin_with_a_file_that_it_can_t_take(tmp_path: Path) -> None:
    (tmp_path / "office.db").write_bytes(b"")
    words = ("desk", "serve", "--file", tmp_path / "office.db", "--room", tmp_path / "room")
    refused = run(None, *words, "--supervisors", written(tmp_path, "name,key\n"))
    assert refused.status == 1 and refused.out == ""
    assert (
        refused.err.count("\n") == 1 and "supervisors.csv, row 1: it isn't the heading: name the columns" in refused.err
    )


# ---- the page


def test_a_supervisor_sees_how_far_the_collectors_of_a_team_are(team: Application) -> None:
    """Collector 7 has 1 entry of 4 slots, 25 percent; 8 has 2 of 2, one of them missing with a reason: 3 of 6 are
    answered."""
    zoe = Visitor(team, ZOE)
    assert zoe.get("/team/").status_code == 200
    page = zoe.get().text
    words = words_of(page)
    assert numbers_of(page) == ["7", "8"]
    assert "answered 50 % 3 of 6" in words and "without a response 3" in words and "missing, with a reason 1" in words
    assert re.search("Collector 7 25 % 1 of 4 3 0 February 2026", words)
    assert re.search("Collector 8 100 % 2 of 2 0 1 February 2026", words)
    assert "February 2026 open" in words and re.search(r"The window closes .* in [\d,]+ days and \d+ hours?\.", words)
    assert re.findall(r'<progress max="(\d+)" value="(\d+)"', page) == [("4", "1"), ("2", "2")]
    assert "Teams" not in words and "Zoë" in page


def test_another_supervisor_sees_the_others_and_one_of_all_sees_each_team(team: Application) -> None:
    """Collector 9 has 0 of 3. The team of Yara has 2 of 5, that of Zoë 3 of 6."""
    yara = Visitor(team, YARA).get().text
    assert numbers_of(yara) == ["9", "8"] and "Collector 7" not in yara and "Zoë" not in yara
    assert "Collectors without slots in this month: 10" in words_of(yara)
    assert "The office doesn't know these collectors, so tell the desk: 99" in words_of(yara)
    xena = Visitor(team, XENA).get().text
    assert numbers_of(xena) == ["9", "7", "8"]
    assert re.search("Yara 40 % 2 of 5 3 1 2 Zoë 50 % 3 of 6 3 1 2 ", words_of(xena))


def test_an_entry_counts_when_it_came_and_has_the_time_at_which_it_was_seen(team: Application) -> None:
    zoe = Visitor(team, ZOE)
    zoe.get()
    with peer_of(team.port) as peer:
        peer.sendall(message(f"PUT /quote/2/{MONTH}", key=key_of(7), body=f"price,{PRICE}".encode()))
        assert heard(peer).endswith(b'{"receipt":2}\n')
    team.desk.watch.renew()
    words = words_of(zoe.get().text)
    assert re.search(r"Collector 7 50 % 2 of 4 2 0 \d+ \w+ 20\d\d, \d\d:\d\d ", words), words


def test_a_page_leads_to_months_whose_windows_have_opened(team: Application) -> None:
    zoe = Visitor(team, ZOE)
    assert re.findall(r'href="/team/(2026-\d\d)/"', zoe.get("/team/").text.partition("<nav")[2]) == [MONTH, "2026-01"]
    assert "The window closed" in words_of(zoe.get("/team/2026-01/").text)
    for path in ("/team/2026-03/", "/team/2025-12/", "/team/2026-13/", "/team/x/", "/team/nowhere", "/team/2026-02/x"):
        answer = zoe.get(path)
        assert answer.status_code in (308, 404) and "Collector 7" not in answer.text, path


def secrets_of(answer: Any) -> list[str]:
    """What of the office no answer to a supervisor has: prices, items, outlets, keys."""
    shown = answer.get_data(as_text=True)
    secrets = (str(PRICE), "7,654,321", "76,543", "Rice", "RICE", "Corner", DESK_KEY, *map(key_of, (7, 8, 9, 10)))
    return [secret for secret in secrets if secret in shown]


def test_no_page_of_a_supervisor_has_a_price(team: Application) -> None:
    for key in (ZOE, YARA, XENA):
        visitor = Visitor(team, key)
        for path in ("/team/", f"/team/{MONTH}/", "/team/2026-01/", "/team/sign-in", "/team/nowhere"):
            answer = visitor.get(path)
            assert secrets_of(answer) == [] and ZOE not in answer.text and answer.headers["Cache-Control"] == "no-store"
            policy = answer.headers["Content-Security-Policy"]
            assert (
                policy.startswith("default-src 'none'; ")
                and "<script" not in answer.text
                and "style=" not in answer.text
            )


# ---- what the key opens


def addresses(application: Application) -> list[tuple[str, str, str]]:
    """Each address of the application, with a value in each of its places: the view, the method, the path."""
    rules = application.app.url_map
    build = rules.bind(LISTEN).build
    texts = {"month": MONTH, "kind": "items", "code": "01.1.1.1-01", "year": "2026"}
    paths = []
    for rule in rules.iter_rules():
        values = {name: texts.get(name, "1") for name in rule.arguments}
        for method in sorted((rule.methods or set()) & {"GET", "POST"}):
            paths.append((rule.endpoint, method, build(rule.endpoint, values, method)))
    return paths


OPEN = ("sign_in.show", "style", "script")
"""What everybody gets: the desk's form to sign in, with the files that it loads."""


def test_a_supervisor_s_key_opens_nothing_else(team: Application) -> None:
    """As a session of each kind, as a key of the office, and as the desk's key."""
    secret = Visitor(team, XENA).secret
    fields = {"Authorization": f"CPI-Key {XENA}", "Cookie": f"cpi_desk={secret}; cpi_team={secret}"}
    every = addresses(team)
    known = {"team.show", "field.send", "field_notes.show", "records.send", "freeze.confirm"}
    assert len(every) > 60 and known <= {view for view, _, _ in every} and not team.desk.office.knows(XENA)
    for view, method, path in every:
        if view.startswith("team.") or view in OPEN:
            continue
        form = {"key": XENA, "name": ADA, "token": "x", "text": "outlet,1,X"}
        stranger = team.app.test_client(use_cookies=False)
        words: dict[str, Any] = {"headers": fields, "base_url": f"http://{LISTEN}", "method": method}
        answer = stranger.open(path, **words, data=form if method == "POST" else None)
        assert is_refused(answer), f"{method} {path}: {answer.status}"
        assert secrets_of(answer) == [], f"{method} {path}"
    assert not team.desk.log.entries


def is_refused(answer: Any) -> bool:
    """Whether an answer is a refusal, or leads to the form to sign in."""
    if answer.status_code in (302, 303):
        return bool(answer.headers["Location"].startswith("/sign-in")) and "Set-Cookie" not in answer.headers
    return answer.status_code in (400, 401, 403, 404, 405, 413)


def test_nothing_but_a_supervisor_s_key_opens_the_page(team: Application) -> None:
    """Neither the desk's session, nor the desk's key, nor a collector's, which are never asked for."""
    ada = team.person(ADA)
    for path in ("/team/", f"/team/{MONTH}/"):
        assert [ada.get(path).status_code, ada.get(path).headers["Location"]] == [303, "/team/sign-in"]
    assert ada.get("/team").headers["Location"] == "/team/"
    stranger = Visitor(team)
    form = stranger.get("/team/sign-in").text
    assert "desk's key" not in form and re.findall('<input[^>]*name="([a-z]+)"', form) == ["key"]
    for key in (DESK_KEY, key_of(7), "", "x"):
        refused = stranger.post("/team/sign-in", key=key)
        assert refused.status_code == 403 and "This isn't a supervisor's key" in words_of(refused.text)
        assert "Set-Cookie" not in refused.headers


def test_a_key_that_the_office_knows_is_no_supervisor_s(cpi: Cpi, tmp_path: Path) -> None:
    """It would open prices, so the row is refused when somebody signs in with it."""
    file = tmp_path / "office.db"
    assert [reply for reply in cpi.replay([OFFICE], db=file) if "refused" in reply] == []
    supervisors = written(tmp_path, f"name,key,collectors\nZoë,{DESK_KEY},7\nYara,{key_of(8)},8\n")
    with applied(cpi, file, tmp_path / "room", Chosen(supervisors=supervisors)) as application:
        for key in (DESK_KEY, key_of(8)):
            refused = Visitor(application).post("/team/sign-in", key=key)
            assert refused.status_code == 403 and "This key opens more than this page" in words_of(refused.text)


def test_without_the_file_there_is_no_such_page(application: Application) -> None:
    assert application.person().get("/team/").headers["Location"].startswith("/sign-in")
    assert application.person(ADA).get("/team/").status_code == 404


# ---- keys and sessions


def test_wrong_keys_of_supervisors_are_counted_and_those_of_the_desk_by_themselves(
    team: Application, caplog: pytest.LogCaptureFixture
) -> None:
    stranger = Visitor(team)
    for _ in range(FREE_TRIES):
        assert stranger.post("/team/sign-in", key="e" * 32).status_code == 403
    locked = stranger.post("/team/sign-in", key=ZOE)
    assert locked.status_code == 403 and "Too many wrong keys" in words_of(locked.text)
    assert caplog.text.count("desk: a wrong supervisor's key from 127.0.0.1") == FREE_TRIES
    assert ZOE not in caplog.text and "e" * 32 not in caplog.text
    assert team.person(ADA).get("/log").status_code == 200


def test_a_right_key_forgets_no_wrong_one_of_the_desk(team: Application) -> None:
    """Else whoever has a supervisor's key could try as many keys of the desk as they like."""
    for _ in range(FREE_TRIES):
        assert team.person().signed_in(ADA, "e" * 32).status_code == 403
        Visitor(team, ZOE)
    assert "Too many wrong keys" in words_of(team.person().signed_in(ADA, DESK_KEY).text)


def test_a_row_that_is_taken_out_ends_its_session(team: Application, tmp_path: Path) -> None:
    zoe, yara = Visitor(team, ZOE), Visitor(team, YARA)
    written(tmp_path, FILE.replace(f"Zoë,{ZOE},7 8\n", "").replace("8-10 99", "9"))
    assert zoe.get().headers["Location"] == "/team/sign-in" and numbers_of(yara.get().text) == ["9"]
    written(tmp_path, FILE)
    assert zoe.get().status_code == 303, "a session that has ended begins again"


def test_a_file_that_becomes_unreadable_is_told_to_whoever_keeps_the_machine(
    team: Application, tmp_path: Path, caplog: pytest.LogCaptureFixture
) -> None:
    zoe = Visitor(team, ZOE)
    written(tmp_path, "name,key\n")
    answer = zoe.get()
    assert answer.status_code == 503 and "This page can't be shown now" in words_of(answer.text)
    assert "row 1" not in answer.text and "supervisors.csv, row 1: it isn't the heading" in caplog.text
    assert team.person(ADA).get("/log").status_code == 200


def test_signing_out_needs_the_session_s_own_form(team: Application) -> None:
    zoe = Visitor(team, ZOE)
    assert zoe.post("/team/sign-out", token="x").status_code == 403 and zoe.get().status_code == 200
    (token,) = re.findall('name="token" value="([^"]+)"', zoe.get().text)
    assert zoe.post("/team/sign-out", token=token).status_code == 303 and zoe.get().status_code == 303
    answer = team.app.test_client().post(
        "/team/sign-in", data={"key": ZOE}, base_url=f"http://{LISTEN}", headers={"Origin": "https://evil.example"}
    )
    assert answer.status_code == 403 and "Set-Cookie" not in answer.headers


def test_a_cookie_goes_to_these_pages_only(team: Application) -> None:
    cookie = Visitor(team).post("/team/sign-in", key=ZOE).headers["Set-Cookie"]
    assert "HttpOnly" in cookie and "SameSite=Strict" in cookie and "Path=/team/" in cookie and ZOE not in cookie


# ---- languages


def test_no_word_is_left_in_english(cpi: Cpi, tmp_path: Path, monkeypatch: pytest.MonkeyPatch) -> None:
    speech = speech_of(nobodys_in(tmp_path, monkeypatch))
    file = tmp_path / "office.db"
    assert [reply for reply in cpi.replay([OFFICE], db=file) if "refused" in reply] == []
    with applied(
        cpi, file, tmp_path / "room", Chosen(speech=speech, supervisors=written(tmp_path, FILE))
    ) as application:
        stranger, yara, xena = Visitor(application), Visitor(application, YARA), Visitor(application, XENA)
        pages: Sequence[Any] = (
            stranger.get("/team/sign-in"),
            stranger.post("/team/sign-in", key="x"),
            *(yara.get(path) for path in ("/team/", "/team/2026-01/", "/team/nowhere")),
            xena.get(),
            yara.post("/team/sign-out", token="x"),
        )
        assert [left_on(page.text) for page in pages] == [[]] * len(pages)
